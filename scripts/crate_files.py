"""The files of crates, and the comment that each begins with."""
import pathlib
import re

TOP = pathlib.Path(__file__).resolve().parent.parent
# Where the files of a crate stand, with the end of their names.
PLACES = (("src", ".rt"), ("specs", ".antt"), ("proofs", ".antt"))
LISTS_OF_MODULES = "Lib.antt"
COMMENT = {".rt": re.compile(r"//[/!]?\s?"), ".antt": re.compile(r"--\s?")}
IMPORT = re.compile(r"(?:pub )?(?:ghost )?use ")


def files_of(crate):
    """The files of src/ of a crate, and those at the top of specs/ and proofs/, without the lists of modules."""
    folder = TOP / "crates" / crate
    found = (path for place, end in PLACES for path in sorted((folder / place).glob(f"*{end}")))
    return [path for path in found if path.name != LISTS_OF_MODULES]


def first_comment(path):
    """The words of the comment that a file begins with; only imports may stand in front of it. Nothing if it has none."""
    mark, words = COMMENT[path.suffix], []
    for line in path.read_text(encoding="utf-8").splitlines():
        if mark.match(line):
            words += mark.sub("", line, count=1).split()
        elif words or line and not IMPORT.match(line):
            break
    return " ".join(words)
