#!/usr/bin/env python3
"""Times zanutero-rewrite, zanutero-link, zanutero-quiet and zanutero-drive by the size of what they read.

Each line has three sizes, of which each is twice the one before, and the ratios of their times. A ratio near 2 means
that the time is linear. A play that is not quiet is made some thirty times, for fewer turns each, so it has a line of
its own. The wire of zanutero-drive is a file of answers, and bytes that nobody reads; bench/wire.py has wires with a
peer. The programs are built first, as by ./zanutero-rewrite --version. A time is the shortest processor time of five
runs.
"""
import pathlib
import sys
import tempfile

import measure

RUNS = 5
BOARD = b"plain U1 4\nplain U2 4\n"


def statements(count):
    return b"ACTION A=P;\nPROCEDURE P;\nINTEGER X;\n" + b"X=X+1;\n" * count + b"ENDPROC;\n"


def scans(count, last=b""):
    loop = b"FOR I=1 TO %d;IRSCAN 8,$FF;DRSCAN 2,#10;NEXT I;" % count
    return b"ACTION A=P;PROCEDURE P;INTEGER I;" + loop + last + b"ENDPROC;"


def too_long_at_last(count):
    return scans(count, b"DRSCAN 3,#101;")


# What is timed: the program, its words after the board, the exit code, the smallest size, and the file of a size.
KINDS = (
    ("pieces that are rewritten", "zanutero_rewrite", ("place=1",), 0, 20_000, statements),
    ("bytes of a link, a third of them R", "zanutero_link", (), 0, 4_000_000, lambda size: b"04R" * (size // 3)),
    ("rounds of two scans, quiet", "zanutero_quiet", ("action=A",), 0, 100_000, scans),
    ("the same, the last scan too long", "zanutero_quiet", ("action=A",), 17, 10_000, too_long_at_last),
    ("the same, over a wire of files", "zanutero_drive", ("action=A",), 0, 5_000, scans),
)
# More than the clocks of a round of two scans, and of the reset.
ANSWERS = 32


def words_of(program, folder, others):
    files = ("link",) if program == "zanutero_link" else ("program",)
    order = ("program", "board") if program == "zanutero_rewrite" else ("board", *files)
    path = {"board": folder / "board"}
    wire = ["send=/dev/null", f"receive={folder}/answers"] if program == "zanutero_drive" else []
    return wire + [f"{key}={path.get(key, folder / 'file')}" for key in order] + list(others)


def main():
    print("| Read | Sizes | Times | Ratios |\n|---|---|---|---|")
    with tempfile.TemporaryDirectory() as name:
        folder = pathlib.Path(name)
        (folder / "board").write_bytes(BOARD)
        for title, program, others, code, least, text in KINDS:
            built = measure.TOP / "crates" / program / "out" / program
            sizes, times = (least, 2 * least, 4 * least), []
            for size in sizes:
                (folder / "file").write_bytes(text(size))
                if program == "zanutero_drive":
                    (folder / "answers").write_bytes(b"1" * (ANSWERS * size))
                times.append(measure.shortest([built, *words_of(program, folder, others)], code, RUNS)[0])
            ratios = [f"{later / before:.2f}" for before, later in zip(times, times[1:])]
            shown = (f"{it:,}" for it in sizes), (f"{it:.3f} s" for it in times), ratios
            print(f"| {' | '.join([title, *map(', '.join, shown)])} |")
    return 0


if __name__ == "__main__":
    sys.exit(main())
