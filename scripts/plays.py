"""Plays of the program that are compared with what is wanted. scripts/play_folder and checks/play_cases share it."""
import os
import subprocess
from concurrent.futures import ThreadPoolExecutor

# A play that has not ended after so many seconds fails.
SECONDS = 60
# How much of a text a line of a failure shows.
SHOWN = 160


def shown(text):
    """The beginning of some bytes, on one line."""
    whole = repr(text)[1:]
    return whole if len(whole) <= SHOWN else f"{whole[:SHOWN]}.. ({len(text)} bytes)"


def ran(command, folder, out=subprocess.PIPE, seconds=SECONDS):
    """What a command writes on its two outputs, and its exit code."""
    how = {"stdin": subprocess.DEVNULL, "stdout": out, "stderr": subprocess.PIPE, "timeout": seconds}
    done = subprocess.run(command, cwd=folder, **how)
    return done.stdout or b"", done.stderr, done.returncode


def differences(run, wanted, wanted_code):
    """How a run differs from what is wanted, in words; nothing if it does not."""
    written, complaints, code = run
    found = []
    if written != wanted:
        found.append(f"wrote {shown(written)} in place of {shown(wanted)}")
    if complaints:
        found.append(f"wrote {shown(complaints)} on standard error")
    if str(code) != wanted_code.strip():
        found.append(f"exit code {code} in place of {wanted_code.strip()}")
    return found


def told(case):
    """The differences that a case finds, or why it could not be played."""
    try:
        return case()
    except subprocess.TimeoutExpired:
        return [f"it has not ended after {SECONDS} seconds"]
    except OSError as why:
        return [str(why)]


def play_all(title, cases, says_each=False):
    """Plays named cases, as many at once as there are processors. Each is a function that gives its differences.

    A line stands for each case that fails, and for each other one, too, if that is asked for; the last line counts
    them. The status is 0 if there are cases and all agree, and else 1.
    """
    with ThreadPoolExecutor(len(os.sched_getaffinity(0))) as pool:
        found = list(pool.map(lambda case: told(case[1]), cases))
    for (name, _), fault in zip(cases, found):
        if fault:
            print(f"FAILED: {name}: {'; '.join(fault)}")
        elif says_each:
            print(f"ok: {name}")
    failed = sum(map(bool, found))
    print(f"{title}: {len(cases) - failed} passed, {failed} failed")
    return 1 if failed or not cases else 0
