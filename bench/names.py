#!/usr/bin/env python3
"""Times checks of texts of 25,000 to 100,000 pieces with many names.

The shortest time of some checks counts, less that of an empty text. If the time is linear in the pieces, the ratios are
near 2.
"""
import measure
import pieces

BLOCKS = 100
HEAD = b"ACTION A=P;"


def variables(count):
    """As many variables as there are pieces."""
    return pieces.program(lambda i: b"INTEGER V%d;\n" % i, count)


def procedures(count):
    """Procedures, each of which calls one that stands far from it."""
    many = (count - 4) // 3
    one = lambda i: b"PROCEDURE P%d;CALL P%d;ENDPROC;\n" % (i, (i * 7919 + 1) % many)
    return HEAD + b"PROCEDURE P;CALL P0;ENDPROC;\n" + b"".join(map(one, range(many)))


def used(count):
    """Blocks that each use all others. The last one after each USES alone declares what they name."""
    names = [b"P"] + [b"B%d" % i for i in range(1, BLOCKS)]
    each = (count - 1 - 3 * BLOCKS) // (BLOCKS - 1)

    def block(own):
        uses = b",".join(name for name in names if name != own)
        return b"PROCEDURE %s USES %s;\n" % (own, uses) + each * b"LAST=LAST+1;\n" + b"ENDPROC;\n"

    return HEAD + b"".join(map(block, names[:-1])) + b"DATA %s;INTEGER LAST;ENDDATA;" % names[-1]


def crossed(count):
    """A procedure that uses many blocks, and a name that as many others declare, of which the last is used, too."""
    many = count // 10
    empty, full = [b"E%d" % i for i in range(many)], [b"F%d" % i for i in range(many)]
    text = HEAD + b"PROCEDURE P USES %s;\n" % b",".join(empty + full[-1:])
    text += (count - 3 - 5 * many) * b"V=1;\n" + b"ENDPROC;\n"
    text += b"".join(b"DATA %s;ENDDATA;\n" % name for name in empty)
    return text + b"".join(b"DATA %s;INTEGER V;ENDDATA;\n" % name for name in full)


KINDS = (
    ("as many variables", variables),
    ("variables and sums", pieces.variables),
    ("as many labels, each with a jump", pieces.jumps),
    ("procedures that call each other", procedures),
    (f"{BLOCKS} blocks that use all others, and names of the last", used),
    ("a long USES, and a name that as many blocks declare", crossed),
)


def main():
    with measure.Bench(__doc__.splitlines()[0], mode="check") as bench:
        measure.head("Text", [f"{count:,} pieces" for count in pieces.PIECES])
        for kind, text in KINDS:
            measure.row(kind, [bench.seconds(text(count), 0) for count in pieces.PIECES])


if __name__ == "__main__":
    main()
