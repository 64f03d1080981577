#!/usr/bin/env python3
"""Times plays with an account, by zanutero-scans, beside the same plays with pins, and takes the peak memory of both.

Each program plays more and more rounds: of two short scans, of two scans and a wait, and of one long scan. A time is
the shortest processor time of five runs, of which nothing is kept. The goals are 1.5 times the play with pins at most,
and a peak that does not grow with the rounds. The programs are built first, as by ./zanutero-scans --version.
"""
import pathlib
import sys
import tempfile

import measure

RUNS = 5
SCANS = measure.TOP / "crates" / "zanutero_scans" / "out" / "zanutero_scans"
BOARD = b"plain U1 4\nregs U2 8\nreg R 2 64 keep\n"
LONG = 1_048_576


def rounds(count, declared, body):
    loop = b"FOR I=1 TO %d;%sNEXT I;" % (count, body)
    return b"ACTION A=P;PROCEDURE P;INTEGER I;%s%sENDPROC;" % (declared, loop)


def short_scans(count):
    return rounds(count, b"", b"IRSCAN 12,$02F;DRSCAN 65,$1123456789ABCDEF0;")


def waits(count):
    return rounds(count, b"", b"IRSCAN 12,$02F;DRSCAN 65,$1123456789ABCDEF0;WAIT 100 CYCLES;")


def long_scans(count):
    return rounds(count, b"BOOLEAN X[%d];" % LONG, b"DRSCAN %d,X[];" % LONG)


# What is played: the smallest count of rounds, and the program of a count.
KINDS = (
    ("rounds of two short scans", 20_000, short_scans),
    ("rounds of two short scans and a wait", 20_000, waits),
    (f"rounds of a scan of {LONG:,} bits", 2, long_scans),
)


def main():
    print("| Played | Rounds | With pins | With an account | Ratio | Peak with pins | Peak with an account |")
    print("|" + "---|" * 7)
    with tempfile.TemporaryDirectory() as name:
        folder = pathlib.Path(name)
        peak = measure.compiled("peak", folder)
        (folder / "board").write_bytes(BOARD)
        words = [f"board={folder}/board", f"program={folder}/program", "action=A"]
        for title, least, text in KINDS:
            for count in (least, 2 * least, 4 * least):
                (folder / "program").write_bytes(text(count))
                pins = measure.weighed(peak, [measure.PROGRAM, "play", *words, "pins=yes"], 0, RUNS)
                account = measure.weighed(peak, [SCANS, *words], 0, RUNS)
                cells = [title, f"{count:,}", *(f"{it[0]:.3f} s" for it in (pins, account))]
                cells.append(f"{account[0] / pins[0]:.2f}")
                cells += [f"{it[1] / 2**20:.1f} MiB" for it in (pins, account)]
                print(f"| {' | '.join(cells)} |", flush=True)
    return 0


if __name__ == "__main__":
    sys.exit(main())
