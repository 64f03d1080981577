#!/usr/bin/env python3
"""Measures what the merge gate costs in processor time, crate by crate: proof, edits and tests apart.

    python3 bench/gate.py                      the whole gate
    python3 bench/gate.py NAME..               these crates and those that they stand on
    python3 bench/gate.py --by-name [NAME..]   the same, and each test by its name

It runs `rt ci` over a copy of these crates, which proves all from nothing, and reads the processor time of each process
that proves, five times a second. It prints tables in Markdown: one row a crate, in minutes, and the ten dearest edits,
in seconds. A crate's edits are tried over one more proof of the crate, which has a column of its own. A crate's only
edit is tried from nothing: it has a star. The status is that of the gate.

With --by-name it then checks the tests once more, one crate after the other, and prints the ten dearest, too. What they
stand on is proved once more for that, so it takes about as long again as the gate.
"""
import glob
import os
import re
import resource
import shutil
import subprocess
import sys
import tempfile
import threading
import time

TOP = os.path.dirname(os.path.dirname(os.path.realpath(__file__)))
sys.path.insert(0, f"{TOP}/scripts")
from kit import keeps_proofs

TICKS = os.sysconf("SC_CLK_TCK")
KINDS = ("proof", "proof for edits", "edits", "tests")
DEAREST = 10


def read(path):
    try:
        with open(path, "rb") as file:
            return file.read().decode(errors="replace")
    except OSError:
        return ""


def crates_below(names):
    """The line of crates.txt for each crate of those named, or of all, and for each that they stand on."""
    lines = [line for line in read(f"{TOP}/crates.txt").splitlines() if re.match(r"\w+.*:", line)]
    line_of = {re.match(r"\w+", line)[0]: line for line in lines}
    unknown = [it for it in names if it not in line_of]
    if unknown:
        sys.exit(f"crates.txt names no crate {unknown[0]}")
    wanted, found = list(names or line_of), {}
    while wanted:
        name = wanted.pop()
        if name in line_of and name not in found:
            found[name] = line_of[name]
            wanted += line_of[name].partition(":")[2].split()
    return found


def copy_repository(to, lines):
    """Copies what the gate reads of some crates. The copy is the top of a repository."""
    os.makedirs(f"{to}/.git")
    for name in lines:
        shutil.copytree(f"{TOP}/crates/{name}", f"{to}/crates/{name}", ignore=shutil.ignore_patterns("out"))
    with open(f"{to}/crates.txt", "w", encoding="utf-8") as file:
        file.writelines(f"{line}\n" for line in lines.values())
    shutil.copy(f"{TOP}/HANDLES", to)


def edits_of(crate):
    """The edits of a crate in the order in which the gate tries them: each by its name, with the file and the pairs."""
    found = {}
    for path in sorted(glob.glob(f"{TOP}/crates/{crate}/must-fail/*.edit")):
        lines = [line.partition(": ") for line in read(path).splitlines()]
        texts = {kind: [text for it, _, text in lines if it == kind] for kind in ("file", "old", "new")}
        found[os.path.basename(path)[: -len(".edit")]] = texts["file"][0], list(zip(texts["old"], texts["new"]))
    return found


def edit_in(room, crate):
    """The name of the edit that a copy of a crate has, or nothing for the crate as it is."""
    for name, (file, pairs) in edits_of(crate).items():
        text = read(f"{TOP}/crates/{crate}/{file}")
        for old, new in pairs:
            text = text.replace(old, new)
        if text == read(f"{room}/{file}"):
            return name
    return None


def crates_with_tests(names):
    """Those of some crates that have tests."""
    has_test = lambda name: any("#[test]" in read(it) for it in glob.glob(f"{TOP}/crates/{name}/src/*.rt"))
    return sorted(filter(has_test, names))


def work_of(pid):
    """What a process of rattle proves: the crate, the kind of work, and the edit's name, if any. Else nothing."""
    words = read(f"/proc/{pid}/cmdline").split("\0")
    if os.path.basename(words[0]) != "rattle" or "--crate-name" not in words:
        return None
    crate = words[words.index("--crate-name") + 1]
    try:
        room = os.readlink(f"/proc/{pid}/cwd")
    except OSError:
        room = ""
    if not os.path.basename(room).startswith("rt-edit-"):
        return crate, "tests" if "--test" in words else "proof", None
    edit = edit_in(room, crate)
    return crate, "edits" if edit else "proof for edits", edit


class Watch:
    """The processor time of the processes of one session, by what they prove."""

    def __init__(self, session):
        self.session, self.work, self.seconds = session, {}, {}
        self.is_done, self.alone = False, threading.Lock()

    def look(self):
        for pid in filter(str.isdigit, os.listdir("/proc")):
            fields = read(f"/proc/{pid}/stat").rpartition(")")[2].split()
            if len(fields) < 20 or int(fields[3]) != self.session:
                continue
            # (a number comes again, at another time; until it runs rattle, a process proves nothing)
            process = pid, fields[19]
            work = self.work.get(process) or work_of(pid)
            if work:
                with self.alone:
                    self.work[process], self.seconds[process] = work, (int(fields[11]) + int(fields[12])) / TICKS

    def run(self):
        while not self.is_done:
            self.look()
            time.sleep(0.2)

    def total(self, fits):
        """The seconds of all work of the crate, the kind and the edit that fits tells."""
        with self.alone:
            return sum(self.seconds[process] for process, work in self.work.items() if fits(*work))


def watched(words, folder, each_line):
    """Runs a command in a session of its own, with a call for each line that it writes. Gives its status and Watch."""
    how = {"stdin": subprocess.DEVNULL, "stdout": subprocess.PIPE, "stderr": subprocess.STDOUT, "errors": "replace"}
    with subprocess.Popen(words, cwd=folder, start_new_session=True, **how) as ran:
        watch = Watch(ran.pid)
        thread = threading.Thread(target=watch.run)
        thread.start()
        for line in ran.stdout:
            each_line(line, watch)
        status = ran.wait()
        watch.is_done = True
        thread.join()
    return status, watch


def run_gate(folder):
    """Runs the gate, and shows on standard error what it says of failures."""

    def each_line(line, _):
        if re.match(r"rt: .*(NOT |FAILED|BAD)|\d+ passed", line):
            print(line, end="", file=sys.stderr, flush=True)

    # (a kit that keeps proofs for all checkouts has a word that takes none of them)
    return watched(["rt", "ci", *["--anew"] * keeps_proofs()], folder, each_line)


def time_tests(folder, crate):
    """The seconds of each test of a crate, by its name."""
    # Work that was kept of the same text is not begun with: here the text is another.
    with open(f"{folder}/crates/{crate}/src/lib.rt", "a", encoding="utf-8") as file:
        file.write("\n// measured\n")
    os.makedirs(f"{folder}/crates/{crate}/out/incremental", exist_ok=True)
    found, spent = {}, [None]

    def each_line(line, watch):
        checked = re.match(r"checked (\S+), \d+ of \d+", line)
        if checked:
            watch.look()
            now = watch.total(lambda it, kind, _: it == crate and kind == "tests")
            name = re.sub(r"\+(run|Fn\w*::call\w*)$", "", checked[1])
            if spent[0] is not None:
                found[name] = found.get(name, 0) + now - spent[0]
            spent[0] = now

    watched(["rt", "check", "--test", "--jobs", "1"], f"{folder}/crates/{crate}", each_line)
    return found


def print_crates(watch, total):
    crates = sorted({crate for crate, _, _ in watch.work.values()})
    minutes = lambda crate, kind: watch.total(lambda it, of, _: (it, of) == (crate, kind)) / 60
    cost = {crate: [minutes(crate, kind) for kind in KINDS] for crate in crates}
    print(f"| Crate | {' | '.join(map(str.capitalize, KINDS))} | All |\n|{'---|' * (len(KINDS) + 2)}")
    for crate in sorted(crates, key=lambda it: -sum(cost[it])):
        print(f"| {crate} | {' | '.join(f'{it:.1f}' for it in [*cost[crate], sum(cost[crate])])} |")
    sums = [sum(it[at] for it in cost.values()) for at in range(len(KINDS))]
    print(f"| **All** | {' | '.join(f'{it:.1f}' for it in [*sums, sum(sums)])} |")
    print(f"\nOther work of the gate, as linking and running: {total / 60 - sum(sums):.1f} minutes.")


def print_dearest(what, seconds):
    print(f"\n| Dearest {what} | Seconds |\n|---|---|")
    for name, spent in sorted(seconds.items(), key=lambda pair: -pair[1])[:DEAREST]:
        print(f"| {name} | {round(spent)} |")


def main(*words):
    names = [it for it in words if it != "--by-name"]
    lines, tests = crates_below(names), {}
    with tempfile.TemporaryDirectory(prefix="gate-") as folder:
        copy_repository(folder, lines)
        begun, before = time.monotonic(), resource.getrusage(resource.RUSAGE_CHILDREN)
        status, watch = run_gate(folder)
        took, after = time.monotonic() - begun, resource.getrusage(resource.RUSAGE_CHILDREN)
        total = after.ru_utime + after.ru_stime - before.ru_utime - before.ru_stime
        for crate in crates_with_tests(lines) if "--by-name" in words else ():
            tests.update(time_tests(folder, crate))
    named = {(crate, name) for crate, _, name in watch.work.values() if name}
    seconds = {(crate, name): watch.total(lambda it, _, edit: (it, edit) == (crate, name)) for crate, name in named}
    star = lambda crate: "*" * (len(edits_of(crate)) == 1)
    print(f"{len(os.sched_getaffinity(0))} processors: {took / 60:.0f} minutes, {total / 60:.0f} of processor time.\n")
    print_crates(watch, total)
    print_dearest("edits", {f"{crate}/{name}{star(crate)}": it for (crate, name), it in seconds.items()})
    if tests:
        print_dearest("tests", tests)
    return status


if __name__ == "__main__":
    sys.exit(main(*sys.argv[1:]))
