#!/usr/bin/env python3
"""Lists the functions that hold owned values over many exits.

    python3 bench/held_values.py [CRATE..]

Each `?` and each `return` of a function is an exit, at which each owned value that it holds is dropped, and the prover
walks through each drop. The table has a row for each function with six such drops or more, the most first: the drops,
the values and the exits. Without names it is of all crates.

It goes by words: a value is owned if `Vec`, `Box` or a call that takes `alloc` stands in its `let`, and it is held until
its name stands alone, as where it is passed on. So it is a list of where to look and no measure; bench/functions.py
measures.
"""
import glob
import os
import re
import sys

TOP = os.path.dirname(os.path.dirname(os.path.realpath(__file__)))
FEWEST = 6
OWNED = re.compile(
    r"Vec::|vec!|\.to_vec|Box::new|ItemList::|String|copy\(|clone\(|with_capacity|collect|Bits::|read_|\(alloc|_of\(alloc|check\("
)
HEAD = re.compile(r"(?m)^(\s*)(?:pub(?:\([a-z]+\))? )?fn (\w+)")
BINDING = re.compile(r"\n\s*let ([^=\n]*)=[^;]*;")
EXIT = re.compile(r"\?[;)\.,]|\breturn\b")


def functions_of(text):
    """The name and the body of each function."""
    for head in HEAD.finditer(text):
        indent = head[1].replace("\n", "")
        end = re.compile(rf"(?m)^{indent}\}}$").search(text, head.end())
        yield head[2], text[head.end() : end.start() if end else len(text)]


def held_to(body, binding):
    """The place where the last of the names of a `let` has been passed on, or the end of the body."""
    places = []
    for name in re.findall(r"\b(?!mut\b)[a-z]\w*", binding[1].split(":")[0]):
        given_up = re.compile(rf"(?<![&\w.])(?<!&mut ){name}\b(?!\s*[.(:=])").search(body, binding.end())
        places.append(given_up.start() if given_up else len(body))
    return max(places, default=len(body))


def drops_of(body):
    """How many drops the exits of a body have, of how many values, and how many exits there are."""
    values = [(it.end(), held_to(body, it)) for it in BINDING.finditer(body) if OWNED.search(it[0])]
    exits = [it.start() for it in EXIT.finditer(body)]
    return sum(start < exit < end for exit in exits for start, end in values), len(values), len(exits)


def main(crates):
    rows = []
    for path in glob.glob(f"{TOP}/crates/*/src/**/*.rt", recursive=True):
        crate = os.path.relpath(path, f"{TOP}/crates").split(os.sep)[0]
        if crates and crate not in crates:
            continue
        with open(path, encoding="utf-8") as file:
            for name, body in functions_of(file.read()):
                drops = drops_of(body)
                if drops[0] >= FEWEST:
                    rows.append((*drops, crate, name))
    print("| Drops | Values | Exits | Function |\n|---|---|---|---|")
    for drops, values, exits, crate, name in sorted(rows, reverse=True):
        print(f"| {drops} | {values} | {exits} | {crate} `{name}` |")


if __name__ == "__main__":
    main(sys.argv[1:])
