#!/usr/bin/env python3
"""Shows where the time of a crate's proof goes, function by function.

    python3 bench/functions.py CRATE

It reads what a check kept in the crate's out/incremental. A check at one job writes a file as it ends with each part of
a proof, so the time between two files is that of the second one's part. That is so after a check from nothing alone,
in the crate's folder:

    rm -rf out/incremental && rt check --jobs 1

It prints a table in Markdown: the dearest functions in seconds of wall time, and in them the states that the code goes
through (`Lts`), with their size, and the search for the goals (`Proof`).
"""
import os
import re
import sys
from collections import defaultdict

TOP = os.path.dirname(os.path.dirname(os.path.realpath(__file__)))
DEAREST = 25


def files_of(folder):
    """The kept files with their times and sizes, the oldest first."""
    found = []
    for at, _, names in os.walk(folder):
        for name in names:
            status = os.stat(f"{at}/{name}")
            found.append((status.st_mtime, name, status.st_size))
    return sorted(found)


def main(crate):
    parts = defaultdict(lambda: defaultdict(float))
    sizes, before = defaultdict(int), None
    for time, name, size in files_of(f"{TOP}/crates/{crate}/out/incremental"):
        part = re.fullmatch(r"Rattle-\w+-proofs\.(.+)\.([A-Z]\w*)[^.]*(\.decls)?\.oantt", name)
        if part and before is not None:
            parts[part[1]][part[2]] += time - before
            sizes[part[1]] += size * (part[2] == "Lts" and not part[3])
        before = time
    if not parts:
        sys.exit(f"no check of {crate} is kept")
    print("| Function | Seconds | Lts | Size of Lts | Proof |\n|---|---|---|---|---|")
    for function in sorted(parts, key=lambda it: -sum(parts[it].values()))[:DEAREST]:
        spent, size = parts[function], sizes[function] / 1e6
        cells = f"{sum(spent.values()):.1f} | {spent['Lts']:.1f} | {size:.1f} MB | {spent['Proof']:.1f}"
        print(f"| {function} | {cells} |")


if __name__ == "__main__":
    if len(sys.argv) != 2:
        sys.exit(__doc__)
    main(sys.argv[1])
