"""What the built program says of itself."""
import re
import subprocess


def answer(program, word):
    """What the program writes for one word."""
    return subprocess.run([program, word], stdout=subprocess.PIPE, check=True, universal_newlines=True).stdout


def parts_of_help(program):
    """The paragraphs of the program's --help."""
    return answer(program, "--help").split("\n\n")


class Help:
    """The parts of the program's --help: what it is, its modes with their keys, the other first words with what follows
    them, examples and exit codes.

    A key stands there as the help writes it: `key=KIND`, in [ ] if it may be missing.
    """

    def __init__(self, program):
        title, usage, examples, codes = parts_of_help(program)
        self.title = title.partition(": ")[2]
        self.examples, *self.commands = examples.split("\n")
        lines = re.sub(r"\n +\[", " [", usage)
        found = re.findall(r"^  zanutero (\w+)((?: \[?\w+=\S+)+)$", lines, re.MULTILINE)
        self.modes = {mode: keys.split() for mode, keys in found}
        self.words = dict(re.findall(r"^  zanutero (--\w+)(.*)$", lines, re.MULTILINE))
        self.exit_codes = re.findall(r"^  (\d+) ", codes, re.MULTILINE)
