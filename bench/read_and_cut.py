#!/usr/bin/env python3
"""Times reading, cutting and playing on generated texts of 1, 2 and 4 MiB.

Each kind of text is made in exactly these sizes and played by ./zanutero some times; the shortest time counts. From it
the time for an empty text is taken away, which is what starting costs. If the time is linear in the bytes, the last two
columns are near 2.
"""
import measure

MIB = 1 << 20
SIZES = (MIB, 2 * MIB, 4 * MIB)
HEAD = b"ACTION A=P;PROCEDURE P;"
TAIL = b"ENDPROC;"


def repeated(unit, size):
    """As many whole units as fit into this many bytes, and spaces after them."""
    return (unit * (size // len(unit))).ljust(size)


def inside(head, fill, tail, size):
    """A text of this size whose middle is filled with the byte."""
    return head + fill * (size - len(head) - len(tail)) + tail


def program(unit, tail, size):
    """A program whose procedure holds as many of these pieces as fit, and then the tail."""
    return HEAD + repeated(unit, size - len(HEAD) - len(tail)) + tail


def summed(tail, size):
    """A text of this size with one piece, a sum of as many numbers as fit."""
    front = HEAD + b"EXIT 1"
    return (front + b"+1" * ((size - len(front) - len(tail)) // 2)).ljust(size - len(tail)) + tail


def listed(tail, size):
    """A text of this size with one piece, an array with as many initial values as fit."""
    front = HEAD + b"INTEGER N[9] = 1"
    return (front + b",1" * ((size - len(front) - len(tail)) // 2)).ljust(size - len(tail)) + tail


# 42 bytes, so that 4 MiB hold 99,863 of these pieces; a text may have 100,000.
PRINT = b'PRINT "' + b"x" * 32 + b'";\n'
COMMENT = b"' A comment; it ends nothing, \"nor does this.\n"

# The kind, its exit code, and the text of a size.
KINDS = (
    ("PRINT pieces", 0, lambda n: program(PRINT, TAIL, n)),
    ("PRINT pieces, refused at the last piece", 4, lambda n: program(PRINT, b"GOTO L;", n)),
    ("PRINT pieces, the last one no statement", 4, lambda n: program(PRINT, b"PRINT 1 2;", n)),
    ("one PRINT of one string", 0, lambda n: inside(HEAD + b'PRINT "', b"x", b'";' + TAIL, n)),
    ("one PRINT, each byte escaped", 0, lambda n: inside(HEAD + b'PRINT "', b"\xff", b'";' + TAIL, n)),
    ("comments between two pieces", 0, lambda n: program(COMMENT, b"\n" + TAIL, n)),
    ("white space between two pieces", 0, lambda n: inside(HEAD, b" ", TAIL, n)),
    ("one number, leading zeros", 1, lambda n: inside(HEAD + b"EXIT ", b"0", b"7;" + TAIL, n)),
    ("one word, refused", 4, lambda n: inside(HEAD, b"x", b";" + TAIL, n)),
    ("one literal, refused at its end", 4, lambda n: inside(HEAD + b"BOOLEAN B[8] = $", b"A", b" X;" + TAIL, n)),
    ("one list of values, refused at its end", 4, lambda n: listed(b" 1;" + TAIL, n)),
    ("one sum, refused for its marks", 4, lambda n: summed(b";" + TAIL, n)),
    ("semicolons alone, refused", 4, lambda n: b";" * n),
    ("strings that no quote ends, refused", 4, lambda n: repeated(b'"x\n', n)),
)


def main():
    with measure.Bench(__doc__.splitlines()[0]) as bench:
        measure.head("Text", [f"{size // MIB} MiB" for size in SIZES])
        for kind, code, text in KINDS:
            times = []
            for size in SIZES:
                made = text(size)
                assert len(made) == size
                times.append(bench.seconds(made, code))
            measure.row(kind, times)


if __name__ == "__main__":
    main()
