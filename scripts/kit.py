"""The Rattle kit that the scripts need."""
import re
import shutil
import subprocess

# The oldest kit that proves the crates. README.md names it, too.
KIT = "rattle-kit-13b"


def release_of(kit):
    """The release in a kit's name, as a number and a letter that have an order."""
    found = re.search(r"rattle-kit-(\d+)([a-z]*)", kit)
    return (int(found[1]), found[2]) if found else (0, "")


def keeps_proofs():
    """Whether `rt ci` keeps what it proves beside the kit, for later runs; such a kit has a word to prove all anew."""
    how = {"stdout": subprocess.PIPE, "stderr": subprocess.STDOUT, "errors": "replace"}
    return "--anew" in subprocess.run(["rt", "help"], **how).stdout


def kit_fault():
    """What to do about a kit that is missing or too old, or nothing if there is one that serves."""
    if not shutil.which("rt"):
        return f"the command rt is missing. Install the Rattle kit {KIT} and put its folder bin/ into PATH (README.md)"
    said = subprocess.run(["rt", "version"], stdout=subprocess.PIPE, stderr=subprocess.DEVNULL, universal_newlines=True)
    if release_of(said.stdout) < release_of(KIT):
        named = said.stdout.strip() or "rt names none"
        return f"the Rattle kit is too old: {named}. Install {KIT} or a newer one (README.md)"
    return None
