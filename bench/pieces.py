#!/usr/bin/env python3
"""Times reading and compiling programs of 25,000 to 100,000 pieces.

Each program is played for no turn, so the time is that of reading, checking and compiling it. The shortest time of some
plays counts, less that of an empty text. If the time is linear in the pieces, the ratios are near 2.
"""
import measure

PIECES = (25_000, 50_000, 100_000)
HEAD = b"ACTION A=P;PROCEDURE P;"
TAIL = b"ENDPROC;"


def program(piece, count):
    """A program of this many pieces; those of its procedure are made by their number."""
    return HEAD + b"".join(piece(i) for i in range(count - 3)) + TAIL


def jumps(count):
    """Labels, each with a jump to another one that stands far from it."""
    labels = count - 3
    return program(lambda i: b"L%d: GOTO L%d;\n" % (i, (i * 7919 + 1) % labels), count)


def variables(count):
    """Variables, and sums of two that stand far from each other."""
    half = (count - 3) // 2

    def piece(i):
        if i < half:
            return b"INTEGER V%d;\n" % i
        return b"V%d=V%d+V%d;\n" % (i % half, (i * 7919) % half, (i * 104729) % half)

    return program(piece, count)


KINDS = (
    ("as many labels, each with a jump", jumps),
    ("variables and sums", variables),
    ("PRINTs of different strings", lambda n: program(lambda i: b'PRINT "%d";\n' % i, n)),
)


def main():
    with measure.Bench(__doc__.splitlines()[0]) as bench:
        measure.head("Program", [f"{count:,} pieces" for count in PIECES])
        for kind, text in KINDS:
            measure.row(kind, [bench.seconds(text(count), 3, "turns=0") for count in PIECES])


if __name__ == "__main__":
    main()
