#!/usr/bin/env python3
"""Times and weighs programs over arrays of 4 Mbit, and sets the comparison of words beside a plain loop in C.

The first table has the shortest processor time of some runs of each command, less that of a program that does nothing,
and the greatest peak memory, which bench/peak.c tells, a program that is small itself. With the folder of another
checkout, whose program is built, both programs run one after the other. The second table has masked_equal of bit_lanes
over 4 Mbit beside bench/words.c. Both are compiled by the C compiler in the variable CC, or else by cc. There is no
call of the built program that compares and does nothing else, so the script makes a small repository with a program of
its own, and proves and builds that by rt.
"""
import argparse
import pathlib
import re
import shutil
import subprocess
import tempfile

import measure

BITS = 4_194_304
COPIES = 1_000
COMPARISONS = 1_000
SPENT = 3
CRATES = ("bit_lanes",)
MAIN = """//! Times of masked_equal over as many words as the crate says.
#![tactic(auto)]

ghost use Rattle.std.specs.Prelude.{◌≡◌, IfOk, length};

use bit_lanes::masked_equal;
use std::alloc::{AllocError, Global};
use std::rt::Runtime;
use std::time::Instant;

const WORDS: usize = %d;

fn zeros(alloc: Global, count: usize) -> Result<Vec<u64>, AllocError>
    ensures { IfOk result (λ words. length words.items ≡ count) }
{
    vec![in alloc; 0; count]
}

fn compare<R: Runtime>(rt: &R, alloc: Global, count: usize, times: u32) -> anyhow::Result<()> {
    let (words, others, mask) = (zeros(alloc, count)?, zeros(alloc, count)?, zeros(alloc, count)?);
    let mut agreed = 0u32;
    let start = Instant::now(rt)?;
    for _ in 0..times {
        if masked_equal(&words, &others, &mask) {
            agreed = agreed.wrapping_add(1);
        }
    }
    let took = start.elapsed(rt)?;
    println!(rt; "{} {agreed}", took.as_nanos())?;
    Ok(())
}

fn main(rt: HostRuntime) -> anyhow::Result<()> {
    compare(&rt, rt.alloc(), WORDS, %d)
}
"""


def program(*body, declared=()):
    """A program of these statements, with BOOLEAN arrays of the most bits and a result R."""
    arrays = "".join(f"BOOLEAN {name}[{BITS}];" for name in declared)
    return f"ACTION A=P;PROCEDURE P;BOOLEAN R;{arrays}{''.join(body)}ENDPROC;".encode()


def endless(copy):
    """An endless loop of a copy, of which the words allow so many."""
    return program("L: ", copy, "GOTO L;", declared="AB")


LITERAL = program(f"BOOLEAN A[{BITS}]=${'5A' * (BITS // 8)};")

# What is done, the mode, the text, further words and the exit code.
PLAYS = (
    ("a scalar", "play", program(), (), 0),
    (f"{COPIES} copies, whole to whole", "play", endless("A[]=B[];"), (f"turns={2 * COPIES}",), SPENT),
    (f"{COPIES} copies, at 7 from 21", "play", endless(f"A[{BITS - 15}..7]=B[{BITS - 1}..21];"),
     (f"turns={2 * COPIES}",), SPENT),
    (f"{COPIES} copies, one bit down in one array", "play", endless(f"A[{BITS - 2}..0]=A[{BITS - 1}..1];"),
     (f"turns={2 * COPIES}",), SPENT),
    (f"{COPIES} copies, turned round", "play", endless(f"A[0..{BITS - 1}]=B[{BITS - 1}..0];"),
     (f"turns={2 * COPIES}",), SPENT),
    (f"{COPIES} copies of a half, turned round", "play", endless(f"A[0..{BITS // 2 - 1}]=B[{BITS // 2 - 1}..0];"),
     (f"turns={2 * COPIES}",), SPENT),
    (f"{COPIES} copies, turned round in one array", "play", endless(f"A[0..{BITS - 1}]=A[{BITS - 1}..0];"),
     (f"turns={2 * COPIES}",), SPENT),
    ("a scan of an array", "play", program(f"DRSCAN {BITS},A[];", declared="A"), (), 0),
    ("the same, compared with another under a third", "play",
     program(f"DRSCAN {BITS},A[],COMPARE B[],C[],R;", declared="ABC"), (), 0),
    ("the same, captured, too", "play",
     program(f"DRSCAN {BITS},A[],CAPTURE A[],COMPARE B[],C[],R;", declared="ABC"), (), 0),
    ("a scan of an array, turned round", "play", program(f"DRSCAN {BITS},A[0..{BITS - 1}];", declared="A"), (), 0),
    ("an export of an array", "play", program('EXPORT "A",A[];', declared="A"), (), 0),
    ("a play of a literal", "play", LITERAL, (), 0),
    ("a compile of a literal", "compile", LITERAL, (), 0),
)


def print_plays(folder, programs, runs):
    """A row for each command: the time and the peak of each program, and the ratio of the times."""
    text, board = folder / "text.stp", folder / "board"
    peak = measure.compiled("peak", folder)
    board.write_bytes(b"plain U1 4\n")
    names = ["Before", "Now"][-len(programs):]
    columns = [f"{name}, {what}" for what in ("time", "peak") for name in names]
    print("| What is done | " + " | ".join([*columns, "Now to before"][:2 * len(names) + len(names) - 1]) + " |")
    print("|" + "---|" * (3 * len(names)))
    starts = None
    for kind, mode, content, more, code in PLAYS:
        text.write_bytes(content)
        played = [f"board={board}", "action=A"] if mode == "play" else []
        told = [measure.weighed(peak, [it, mode, f"program={text}", *played, *more], code, runs) for it in programs]
        starts = starts or [seconds for seconds, _ in told]
        times = [seconds - start for (seconds, _), start in zip(told, starts)]
        cells = [f"{seconds:.4f} s" for seconds in times] + [f"{peak / (1 << 20):.1f} MiB" for _, peak in told]
        ratio = [f"{times[1] / times[0]:.2f}" if times[0] > 0.0005 else ""] if len(times) > 1 else []
        print("| " + " | ".join([kind, *cells, *ratio]) + " |", flush=True)


def kernel_seconds(folder, runs):
    """The shortest time of so many comparisons by masked_equal, in a repository that is made for it."""
    repository, crate = folder / "timing", folder / "timing" / "crates" / "timing" / "src"
    crate.mkdir(parents=True)
    (crate / "main.rt").write_text(MAIN % (BITS // 64, COMPARISONS), encoding="utf-8")
    lines = {}
    for line in (measure.TOP / "crates.txt").read_text(encoding="utf-8").splitlines():
        lines[line.partition(":")[0]] = line
    for name in CRATES:
        source = measure.TOP / "crates" / name
        shutil.copytree(source, repository / "crates" / name, ignore=shutil.ignore_patterns("out"))
    listed = [lines[name] for name in CRATES]
    (repository / "crates.txt").write_text("\n".join([*listed, "timing: anyhow bit_lanes", ""]), encoding="utf-8")
    told = []
    for _ in range(runs):
        quiet = {"stdout": subprocess.PIPE, "stderr": subprocess.DEVNULL}
        done = subprocess.run(["rt", "run"], cwd=crate.parent, check=True, **quiet)
        told.append(int(re.search(rb"^(\d+) %d$" % COMPARISONS, done.stdout, re.M)[1]))
    return min(told) / 1e9


def print_kernel(folder, runs):
    """The time of one comparison of 4 Mbit by the kernel and by the loop in C."""
    loop = measure.compiled("words", folder)
    words = [loop, str(BITS // 64), str(COMPARISONS)]
    plain = min(float(subprocess.run(words, stdout=subprocess.PIPE, check=True).stdout) for _ in range(runs))
    kernel = kernel_seconds(folder, runs)
    print("\n| A comparison of 4 Mbit under a mask | masked_equal | C | To C |\n|---|---|---|---|")
    times = f"{1e6 * kernel / COMPARISONS:.1f} µs | {1e6 * plain / COMPARISONS:.1f} µs"
    print(f"| all bits agree | {times} | {kernel / plain:.2f} |")


def main():
    parser = argparse.ArgumentParser(description=__doc__.splitlines()[0])
    parser.add_argument("before", nargs="?", help="another checkout, whose program is built")
    parser.add_argument("--runs", type=int, default=5, help="runs of each command (5)")
    words = parser.parse_args()
    subprocess.run([measure.TOP / "zanutero", "--version"], stdout=subprocess.DEVNULL, check=True)
    programs = [measure.built(top) for top in (words.before, measure.TOP) if top]
    with tempfile.TemporaryDirectory() as made:
        print_plays(pathlib.Path(made), programs, words.runs)
        print_kernel(pathlib.Path(made), words.runs)


if __name__ == "__main__":
    main()
