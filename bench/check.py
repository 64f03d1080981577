#!/usr/bin/env python3
"""Compares a check of texts of 4 MiB with a plain scanner in C that cuts them into tokens.

The scanner is bench/scan.c, and is compiled here by the C compiler in the variable CC, or else by cc. Both programs
read the same file, and the shortest processor time of some runs of each counts, less that of an empty text. The peak
memory of a check is told beside the size of the text.
"""
import measure
import names
import pieces
import read_and_cut

SIZE = 4 << 20


def filled(text):
    """The text with spaces after it up to 4 MiB."""
    assert len(text) <= SIZE
    return text.ljust(SIZE)


def statements(size):
    """A procedure of some sorts of statements, as device tools write them."""
    unit = b"""DRSCAN 32, $00C0FFEE, CAPTURE X[31..0];
IF N < 100 THEN N = N + 1;
WAIT IDLE, 3 CYCLES, 10 USEC;
X[7..0] = BOOL(N * 8 + 7);
PRINT "WORD ", N, " OF ", 100;
"""
    head = read_and_cut.HEAD + b"INTEGER N;BOOLEAN X[32];\n"
    tail = b"ENDPROC;"
    # A text has at most 100,000 pieces, so each group ends with a comment, which makes it long enough.
    units = 99_990 // unit.count(b";")
    line = unit + b"' ".ljust((size - len(head) - len(tail)) // units - len(unit) - 1, b"-") + b"\n"
    return filled(head + line * units + tail)


KINDS = (
    ("PRINT pieces", lambda: read_and_cut.program(read_and_cut.PRINT, read_and_cut.TAIL, SIZE)),
    ("statements of some sorts", lambda: statements(SIZE)),
    ("one literal", lambda: read_and_cut.inside(names.HEAD + b"PROCEDURE P;BOOLEAN B[8]=$", b"A", b";ENDPROC;", SIZE)),
    ("variables and sums of two", lambda: filled(pieces.variables(100_000))),
    ("labels, each with a jump", lambda: filled(pieces.jumps(100_000))),
)


def main():
    with measure.Bench(__doc__.splitlines()[0], mode="check") as bench:
        scanner = measure.compiled("scan", bench.folder.name)
        words = [measure.PROGRAM, "check", f"program={bench.path}"], [scanner, bench.path]
        bench.path.write_bytes(b"")
        starts = measure.shortest(words[0], 4, bench.runs)[0], measure.shortest(words[1], 0, bench.runs)[0]
        print("| Text | Check | Scanner | Check to scanner | Peak memory | Peak to text |\n|---|---|---|---|---|---|")
        for kind, text in KINDS:
            bench.path.write_bytes(text())
            check, peak = measure.shortest(words[0], 0, bench.runs)
            check, scan = check - starts[0], measure.shortest(words[1], 0, bench.runs)[0] - starts[1]
            print(f"| {kind} | {check:.4f} s | {scan:.4f} s | {check / scan:.1f} | {peak >> 20} MiB | "
                  f"{peak / SIZE:.1f} |", flush=True)


if __name__ == "__main__":
    main()
