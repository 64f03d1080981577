#!/usr/bin/env python3
"""Compares how long this program and that of another checkout take for the same texts.

The texts are those of 4 MiB of read_and_cut.py and those of 100,000 pieces of pieces.py. They are played for no turn,
by one program after the other, so both meet the same machine. The shortest time of each counts, less that of an empty
text.
"""
import pathlib

import measure
import pieces
import read_and_cut

SPENT, REFUSED = 3, 4


def texts():
    """The kind of each text, its exit code, and the text."""
    for kind, code, text in read_and_cut.KINDS:
        yield f"4 MiB: {kind}", REFUSED if code == REFUSED else SPENT, text(max(read_and_cut.SIZES))
    for kind, text in pieces.KINDS:
        yield f"100,000 pieces: {kind}", SPENT, text(max(pieces.PIECES))


def main():
    with measure.Bench(__doc__.splitlines()[0], other="the other checkout, whose program is built") as bench:
        tops = pathlib.Path(bench.words.other).resolve(), measure.TOP

        def both(text, code):
            """The shortest time of each program."""
            bench.path.write_bytes(text)
            rounds = [[bench.play(code, "turns=0", top=top) for top in tops] for _ in range(bench.runs)]
            return [min(times) for times in zip(*rounds)]

        starts = both(b"", REFUSED)
        print("| Text | Other | This | This to other |\n|---|---|---|---|")
        for kind, code, text in texts():
            other, this = (took - start for took, start in zip(both(text, code), starts))
            print(f"| {kind} | {other:.4f} s | {this:.4f} s | {this / other:.2f} |", flush=True)


if __name__ == "__main__":
    main()
