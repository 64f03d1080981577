"""What the benches share: they time whole runs of ./zanutero and print the ratios between sizes."""
import argparse
import os
import pathlib
import resource
import shutil
import subprocess
import sys
import tempfile
import time

TOP = pathlib.Path(__file__).resolve().parent.parent


def processor_time():
    """The processor time of all runs so far."""
    used = resource.getrusage(resource.RUSAGE_CHILDREN)
    return used.ru_utime + used.ru_stime


# Runs a program with its words, writes nothing of what it writes, and prints its exit code, its processor time in
# seconds and its peak memory in KiB. The peak is at least that of the small Python in which this runs.
ALONE = """
import os, sys
away = [(os.POSIX_SPAWN_OPEN, 1, os.devnull, os.O_WRONLY, 0)]
_, status, used = os.wait4(os.posix_spawn(sys.argv[1], sys.argv[1:], os.environ, file_actions=away), 0)
print(os.WEXITSTATUS(status), used.ru_utime + used.ru_stime, used.ru_maxrss)
"""


def alone(words, code):
    """The processor time and the peak memory, in bytes, of one run of a program, which ends with this code."""
    command = [sys.executable, "-I", "-S", "-c", ALONE, *map(os.fspath, words)]
    ended, seconds, peak = subprocess.run(command, stdout=subprocess.PIPE, check=True).stdout.split()
    if int(ended) != code:
        sys.exit(f"exit code {int(ended)} in place of {code}")
    return float(seconds), 1024 * int(peak)


def shortest(words, code, runs):
    """The shortest processor time of so many runs of a program, which end with this code, and the greatest peak."""
    times, peaks = zip(*(alone(words, code) for _ in range(runs)))
    return min(times), max(peaks)


def built(top):
    """The built program of a checkout."""
    return pathlib.Path(top).resolve() / "crates" / "zanutero" / "out" / "zanutero"


PROGRAM = built(TOP)


def weighed(peak, words, code, runs):
    """The shortest processor time of so many runs of a program, which end with this code, and the greatest peak memory
    in bytes, as the compiled bench/peak.c tells them. That is small itself, so a small peak is seen, too."""
    told = []
    for _ in range(runs):
        done = subprocess.run([peak, *map(str, words)], stdout=subprocess.PIPE, check=True).stdout.split()
        if int(done[0]) != code:
            sys.exit(f"exit code {int(done[0])} in place of {code}")
        told.append((float(done[1]), 1024 * int(done[2])))
    return min(seconds for seconds, _ in told), max(memory for _, memory in told)


def compiled(name, folder):
    """A yardstick in C of this folder, compiled into that one by the compiler in the variable CC, or else by cc."""
    compiler = os.environ.get("CC", "cc")
    if not shutil.which(compiler):
        sys.exit(f"There is no C compiler {compiler}.")
    made = pathlib.Path(folder) / name
    subprocess.run([compiler, "-O2", "-o", made, TOP / "bench" / f"{name}.c"], check=True)
    return made


def switch_seconds(switch, number, turns, runs):
    """The shortest time of the plain interpreter, bench/switch.c, for so many turns of its program of a number."""
    told = (subprocess.run([switch, str(number), str(turns)], stdout=subprocess.PIPE, check=True) for _ in range(runs))
    return min(float(it.stdout) for it in told)


def into_file(words, path, runs):
    """The shortest time of so many runs of a program that write into this file, and what they wrote."""
    times = []
    for _ in range(runs):
        begun = time.perf_counter()
        with open(path, "wb") as out:
            if subprocess.run(words, stdout=out).returncode != 0:
                sys.exit("the play did not end with code 0")
        times.append(time.perf_counter() - begun)
    return min(times), path.read_bytes()


def copied(data, path, runs):
    """The shortest time in which these bytes are written into this file, in blocks of 4,096."""
    times = []
    for _ in range(runs):
        begun = time.perf_counter()
        with open(path, "wb", buffering=0) as out:
            for at in range(0, len(data), 4096):
                out.write(data[at:at + 4096])
        times.append(time.perf_counter() - begun)
    return min(times)


class Bench:
    """A command line with --runs and --processor, and a text in a file of its own that ./zanutero plays or checks."""

    def __init__(self, description, mode="play", **more):
        """The words in more are asked for, too, each with what --help says of it."""
        self.mode = mode
        parser = argparse.ArgumentParser(description=description)
        for name, told in more.items():
            parser.add_argument(name, help=told)
        parser.add_argument("--runs", type=int, default=5, help="runs of each play (5)")
        parser.add_argument("--processor", action="store_true", help="measure processor time in place of wall time")
        self.words = parser.parse_args()
        self.runs = self.words.runs
        self.clock = processor_time if self.words.processor else time.perf_counter

    def __enter__(self):
        self.folder = tempfile.TemporaryDirectory()
        self.path = pathlib.Path(self.folder.name) / "text.stp"
        self.path.write_bytes(b"")
        self.board = pathlib.Path(self.folder.name) / "board"
        self.board.write_bytes(b"plain U1 4\n")
        self.shortest(4, 1)  # builds the program if that is needed
        self.start = self.shortest(4, 3 * self.runs)
        print(f"An empty text: {self.start:.4f} s. The seconds below are above that.\n")
        return self

    def __exit__(self, *error):
        self.folder.cleanup()

    def play(self, code, *more, top=TOP):
        """The time of a run on the text of the program of a checkout, which ends with this code."""
        begun = self.clock()
        played = [f"board={self.board}", "action=A"] if self.mode == "play" else []
        words = [top / "zanutero", self.mode, f"program={self.path}", *played, *more]
        done = subprocess.run(words, stdout=subprocess.DEVNULL)
        took = self.clock() - begun
        if done.returncode != code:
            sys.exit(f"exit code {done.returncode} in place of {code}")
        return took

    def shortest(self, code, runs, *more):
        """The shortest time of so many runs on the text, which end with this code."""
        return min(self.play(code, *more) for _ in range(runs))

    def seconds(self, text, code, *more):
        """The shortest time of a run on this text, above that of an empty one."""
        self.path.write_bytes(text)
        return self.shortest(code, self.runs, *more) - self.start


def head(first, sizes, *more):
    """The head of a table: what is played, the sizes, the ratios between them, and further columns."""
    ratios = [f"{b} to {a}" for a, b in zip(sizes, sizes[1:])]
    columns = [first, *sizes, *ratios, *more]
    print("| " + " | ".join(columns) + " |")
    print("|" + "---|" * len(columns))


def row(kind, times, *more):
    """A row of it."""
    cells = [f"{t:.4f} s" for t in times] + [f"{b / a:.2f}" for a, b in zip(times, times[1:])]
    print("| " + " | ".join([kind, *cells, *more]) + " |", flush=True)
