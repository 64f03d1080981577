#!/usr/bin/env python3
"""Times copies of 4 Mbit between BOOLEAN arrays, and compares them with a plain interpreter in C.

An endless loop of a copy and a jump is spent after the turns that the words give, two for each copy. The shortest time
of some plays counts, less that of an empty text. A bit takes a bit of memory, so a copy moves 512 KiB. If the time is
linear in the copies, the ratios are those of their numbers. The plain interpreter is bench/switch.c, as in
bench/turns.py; there a bit is a byte, and memmove copies.
"""
import measure
import turns

BITS = 4_194_304
COPIES = (100, 200, 400, 1000)
TURNS_A_COPY = 2

# The kind, the program, and its number in bench/switch.c.
KINDS = (
    ("whole to whole", turns.program(f"BOOLEAN A[{BITS}];BOOLEAN B[{BITS}];", "A[]=B[];"), 6),
    ("one bit down in one array",
     turns.program(f"BOOLEAN A[{BITS}];", f"A[{BITS - 2}..0]=A[{BITS - 1}..1];"), 7),
    ("one bit up in one array",
     turns.program(f"BOOLEAN A[{BITS}];", f"A[{BITS - 1}..1]=A[{BITS - 2}..0];"), 8),
)


def main():
    with measure.Bench(__doc__.splitlines()[0]) as bench:
        switch = measure.compiled("switch", bench.folder.name)
        more = "a turn", "bits a second", "C, the most copies", "To C"
        measure.head("Copy of 4 Mbit", [f"{copies} copies" for copies in COPIES], *more)
        for kind, text, number in KINDS:
            times = [bench.seconds(text, 3, f"turns={TURNS_A_COPY * copies}") for copies in COPIES]
            turn = times[-1] / COPIES[-1] / TURNS_A_COPY
            speed = BITS / TURNS_A_COPY / turn
            plain = measure.switch_seconds(switch, number, TURNS_A_COPY * COPIES[-1], bench.runs)
            told = f"{1e6 * turn:.0f} µs", f"{speed / 1e9:.0f} thousand million"
            told += f"{plain:.4f} s", f"{times[-1] / plain:.1f}"
            measure.row(kind, times, *told)


if __name__ == "__main__":
    main()
