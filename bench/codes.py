#!/usr/bin/env python3
"""Times compile of up to 100,000 pieces, run of the files, and the reading of codes of up to 64 MiB.

The first table has programs of bench/pieces.py: the processor time of a compile, and of a run of its file for no turn,
with the peak memory of both. The second has files of 16, 32 and 64 MiB that are mostly of one list. They are read by a
run that asks for an action that they lack, beside a plain loop in C that reads the same bytes one by one. That is
bench/bytes.c, and is compiled here by the C compiler in the variable CC, or else by cc. The shortest processor time of
some runs of each counts, less that of the smallest file.
"""
import struct
import subprocess

import measure
import pieces

SIZES = 16 << 20, 32 << 20, 64 << 20
PIECES = 25_000, 50_000, 100_000


def counted(items):
    """A list of a file: how many items it has, and their bytes."""
    return struct.pack(">I", len(items)) + b"".join(items)


def some(number, item):
    """As many of one item."""
    return struct.pack(">I", number) + item * number


def named(name):
    return bytes([len(name)]) + name


NONE = counted([])
ACTIONS = counted([named(b"A") + some(1, struct.pack(">IB", 0, 0))])
END = struct.pack(">BIB", 0x01, 1, 0x17)
EXIT = struct.pack(">BIBIB", 0x01, 1, 0x02, 0, 0x1B)


def file(variables=NONE, literals=NONE, texts=NONE, more=(), code=None):
    """A file of a code: its lists, the procedures besides P, and its instructions, if each is not an end alone."""
    procedures = counted([named(b"P") + bytes(4), *more])
    code = code or some(2 * (1 + len(more)), b"") + END * (1 + len(more))
    return b"STAPLC\x00\x02" + variables + literals + texts + procedures + ACTIONS + code


def exits(size):
    """Turns that exit."""
    number = size // len(EXIT)
    return file(code=some(3 * number + 2, b"") + EXIT * number + END)


def procedures(size):
    """Procedures with names of seven characters, each of an end alone."""
    more = [named(b"Q%06d" % at) + struct.pack(">I", 2 * at + 2) for at in range(size // (12 + len(END)))]
    return file(more=more)


def integers(size):
    """Turns that set the million elements of one array."""
    values = 1 << 20
    one = struct.pack(">BI", 0x01, 1) + struct.pack(">BII", 0x0F, 0, values) + bytes(4 * values)
    number = size // len(one)
    variables = counted([struct.pack(">BI", 2, values)])
    return file(variables=variables, code=some(2 * number + 2, b"") + one * number + END)


KINDS = (
    ("instructions", exits),
    ("scalars", lambda size: file(variables=some(size // 5, struct.pack(">BI", 1, 1)))),
    ("literals of 2 MiB", lambda size: file(literals=some(size >> 21, struct.pack(">I", 1 << 24) + bytes(1 << 21)))),
    ("literals of a byte", lambda size: file(literals=some(size // 5, struct.pack(">IB", 8, 0xA5)))),
    ("texts of 4 MiB", lambda size: file(texts=some(size >> 22, struct.pack(">I", 1 << 22) + bytes(1 << 22)))),
    ("texts of a byte", lambda size: file(texts=some(size // 5, struct.pack(">IB", 1, 0x41)))),
    ("procedures", procedures),
    ("values of arrays", integers),
)


def compiles(bench, code):
    """The times and the peak memory of compile and of run, of programs of some sizes."""
    print("| Program | Mode | " + " | ".join(f"{n:,} pieces" for n in PIECES) + " | ratios | Peak |")
    print("|---|---|---|---|---|---|---|")
    compile_words = [measure.PROGRAM, "compile", f"program={bench.path}"]
    run_words = [measure.PROGRAM, "run", f"code={code}", f"board={bench.board}", "action=A", "turns=0"]
    for kind, text in pieces.KINDS:
        compiled, ran = [], []
        for number in PIECES:
            bench.path.write_bytes(text(number))
            with open(code, "wb") as out:
                subprocess.run(compile_words, stdout=out, check=True)
            compiled.append(measure.shortest(compile_words, 0, bench.runs))
            ran.append(measure.shortest(run_words, 3, bench.runs))
        row(f"{kind} | compile", compiled)
        row(f"{kind} | run", ran)


def row(first, told, *more):
    """A row of times, their ratios and the greatest peak."""
    times = [seconds for seconds, _ in told]
    ratios = ", ".join(f"{b / a:.2f}" for a, b in zip(times, times[1:]))
    cells = [first, *(f"{seconds:.4f} s" for seconds in times), ratios, f"{told[-1][1] >> 20} MiB", *more]
    print("| " + " | ".join(cells) + " |", flush=True)


def readings(bench, code):
    """The times and the peak memory of reading files of some sizes, beside the plain loop."""
    plain = measure.compiled("bytes", bench.folder.name)
    words = [measure.PROGRAM, "run", f"code={code}", f"board={bench.board}", "action=B"]
    print("\n| File | " + " | ".join(f"{size >> 20} MiB" for size in SIZES) + " | ratios | Peak | C | Run to C |")
    print("|---|---|---|---|---|---|---|---|")
    code.write_bytes(file())
    start, loop_start = measure.shortest(words, 6, bench.runs)[0], measure.shortest([plain, code], 0, bench.runs)[0]
    for kind, made in KINDS:
        told = []
        for size in SIZES:
            code.write_bytes(made(size))
            seconds, peak = measure.shortest(words, 6, bench.runs)
            told.append((seconds - start, peak))
        loop = measure.shortest([plain, code], 0, bench.runs)[0] - loop_start
        row(kind, told, f"{loop:.4f} s", f"{told[-1][0] / loop:.1f}")


def main():
    with measure.Bench(__doc__.splitlines()[0], mode="compile") as bench:
        code = bench.path.with_suffix(".code")
        compiles(bench, code)
        readings(bench, code)


if __name__ == "__main__":
    main()
