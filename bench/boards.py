#!/usr/bin/env python3
"""Times plays of one EXIT on boards of 256 KiB, 512 KiB and 1 MiB, the most bytes that a board may have, and on boards
of 16, 32 and 64 devices, the most that one may have.

The shortest time of some plays counts, less that of a board of one device. A ratio near 2 means that the time is linear
in the bytes, or in the devices. Beside the largest flashes is the peak memory of the play, and that of their words as
packed bits.
"""
import measure

SIZES = (262_144, 524_288, 1_048_576)
PROGRAM = b"ACTION A=P;PROCEDURE P;EXIT 0;ENDPROC;"
LAST = b"plain U1 4\n"
REGISTERS = 64
DEVICES = (16, 32, 64)
# The words of the largest flash, and the bits of each.
WORDS = WIDTH = 4096


def filled(unit, size):
    """As many units as fit before the last line, and blanks in front of it for the rest."""
    count, rest = divmod(size - len(LAST), len(unit))
    return unit * count + b"'" * (rest > 0) + b" " * (rest - 2) + b"\n" * (rest > 1) + LAST


def registers(size):
    """A device with the most registers, each with a constant, which share the bytes."""
    first = b"regs U1 8\n"
    each = (size - len(first)) // REGISTERS
    lines = []
    for number in range(REGISTERS):
        head = b"reg R%02d %02X " % (number, number + 1)
        bits = 4 * (each - len(head) - len(b"65536 const \n"))
        lines.append(head + b"%d const " % bits + b"A" * (bits // 4) + b"\n")
    return first + b"".join(lines)


# The kind, and the text of a size.
KINDS = (
    ("comments before a device", lambda size: filled(b"' a line that says nothing\n", size)),
    ("empty lines before a device", lambda size: filled(b"\n", size)),
    ("64 registers with constants", registers),
)


def registers_of(bits):
    """The text of so many devices with the most registers, each of so many bits."""
    lines = [f"reg R{number:02} {number + 1:X} {bits} keep" for number in range(REGISTERS)]
    return lambda devices: "".join(f"regs U{at} 8\n" + "\n".join(lines) + "\n" for at in range(devices)).encode()


def flashes(devices):
    """The text of so many of the largest flashes."""
    rest = f"erase 10 addr 11 prog 12 read 13 words {WORDS} width {WIDTH} busy 0 fill 0"
    return "".join(f"flash U{at} 8 {rest}\n" for at in range(devices)).encode()


# The kind, and the text of so many devices.
FULL = (
    ("devices with 64 registers of 8 bits", registers_of(8)),
    ("devices with 64 registers of 8,192 bits", registers_of(8192)),
    ("the largest flashes", flashes),
)


def print_times(bench, least, sizes, kinds):
    """A row for each kind: the times of the board's sizes."""
    for kind, text in kinds:
        times = []
        for size in sizes:
            bench.board.write_bytes(text(size))
            times.append(bench.seconds(PROGRAM, 0) - least)
        measure.row(kind, times)


def print_peaks(bench):
    """A row for each number of the largest flashes: the peak memory, and that of their words."""
    words = [measure.PROGRAM, "play", f"board={bench.board}", f"program={bench.path}", "action=A"]
    print("\n| The largest flashes | Peak memory | Words as packed bits |\n|---|---|---|")
    for devices in DEVICES:
        bench.board.write_bytes(flashes(devices))
        _, peak = measure.alone(words, 0)
        print(f"| {devices} | {peak >> 20} MiB | {devices * WORDS * WIDTH >> 23} MiB |", flush=True)


def main():
    with measure.Bench(__doc__) as bench:
        least = bench.seconds(PROGRAM, 0)
        measure.head("Board", [f"{size >> 10} KiB" for size in SIZES])
        print_times(bench, least, SIZES, KINDS)
        print()
        measure.head("Board", [f"{devices} devices" for devices in DEVICES])
        print_times(bench, least, DEVICES, FULL)
        print_peaks(bench)


main()
