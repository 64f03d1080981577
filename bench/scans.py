#!/usr/bin/env python3
"""Times scans of 1, 2 and 4 Mbit on boards of 1, 4, 16 and 64 devices, and tells the memory that the longest ones take.

Each play is one DRSCAN of zeros through the bypass registers of the board. The shortest time of some plays counts, less
that of an empty text. If the time is linear in the bits, the ratios are near 2, and if it is linear in the devices, so
many clocks of a device are made a second on each board. The yardstick is bench/chain.c, a chain of such devices in C
that is clocked bit by bit; it is compiled here by the C compiler in the variable CC, or else by cc, and tells its
processor time itself. A peak below 8 MiB is not seen, since the small Python that starts the program takes as much.
"""
import subprocess

import measure

MOST_BITS = 4_194_304
SIZES = (MOST_BITS // 4, MOST_BITS // 2, MOST_BITS)
DEVICES = (1, 4, 16, 64)


def program(body, *arrays):
    """A program of one statement, with BOOLEAN arrays of the most bits and a result R."""
    declared = "".join(f"BOOLEAN {name}[{MOST_BITS}];" for name in arrays)
    return f"ACTION A=P;PROCEDURE P;BOOLEAN R;{declared}{body}ENDPROC;".encode()


def scan(bits):
    """A scan of so many zeros."""
    return program(f"DRSCAN {bits},#0;")


# The kind, and the program, of plays whose peak memory is told.
PEAKS = (
    ("a scan of 1 bit", scan(1)),
    ("a scan of 4 Mbit of a literal", scan(MOST_BITS)),
    ("an array of 4 Mbit, and a scan of 1 bit", program("DRSCAN 1,#0;", "D")),
    ("a scan of 4 Mbit of an array", program(f"DRSCAN {MOST_BITS},D[];", "D")),
    ("the same, which captures into another one", program(f"DRSCAN {MOST_BITS},D[],CAPTURE X[];", "D", "X")),
    ("the same, which compares with a third one, too, under the first",
     program(f"DRSCAN {MOST_BITS},D[],CAPTURE X[],COMPARE E[],D[],R;", "D", "X", "E")),
)


def board(devices):
    """A board of so many devices without an identity: after a reset each has a bypass register of one bit."""
    return b"".join(b"plain U%d 4\n" % number for number in range(1, devices + 1))


def chain_seconds(chain, devices, runs):
    """The shortest time of the yardstick for the most bits."""
    words = [chain, str(devices), str(MOST_BITS)]
    told = (subprocess.run(words, stdout=subprocess.PIPE, check=True) for _ in range(runs))
    return min(float(it.stdout) for it in told)


def print_times(bench):
    """A row for each board: the times by their bits, the speed, and the yardstick's time beside the last of them."""
    chain = measure.compiled("chain", bench.folder.name)
    more = "bits a second", "clocks of devices a second", f"C, {MOST_BITS} bits", "To C"
    measure.head("A scan of so many bits", [str(size) for size in SIZES], *more)
    for devices in DEVICES:
        bench.board.write_bytes(board(devices))
        times = [bench.seconds(scan(size), 0) for size in SIZES]
        speed = MOST_BITS / times[-1]
        plain = chain_seconds(chain, devices, bench.runs)
        told = f"{speed / 1e6:.1f} million", f"{devices * speed / 1e6:.1f} million", f"{plain:.4f} s"
        measure.row(f"board of {devices}", times, *told, f"{times[-1] / plain:.1f}")


def print_peaks(bench):
    """A row for each program: the peak memory of its play on a board of one device."""
    bench.board.write_bytes(board(1))
    words = [measure.PROGRAM, "play", f"board={bench.board}", f"program={bench.path}", "action=A"]
    print("\n| Play | Peak memory | Peak to 4 Mbit, in bytes a bit |\n|---|---|---|")
    for kind, text in PEAKS:
        bench.path.write_bytes(text)
        _, peak = measure.alone(words, 0)
        print(f"| {kind} | {peak >> 20} MiB | {peak / MOST_BITS:.1f} |", flush=True)


def main():
    with measure.Bench(__doc__.splitlines()[0]) as bench:
        print_times(bench)
        print_peaks(bench)


if __name__ == "__main__":
    main()
