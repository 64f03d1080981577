#!/usr/bin/env python3
"""Times and weighs scans of 4 Mbit and a flash that is programmed, beside a chain in C that is clocked bit by bit.

The first table has the shortest processor time of some runs of each play, less that of the first one, and the greatest
peak memory, which bench/peak.c tells. With the folder of another checkout, whose program is built, both programs run
one after the other. The yardstick is bench/chain.c, a chain of devices in BYPASS. Then the longest scan is written with
its pins into a file, and what that costs is set beside a plain copy of the same bytes. Both are compiled by the C
compiler in the variable CC, or else by cc.
"""
import argparse
import pathlib
import subprocess
import tempfile

import measure

BITS = 4_194_304
WORDS = 4_096
FLASH = b"flash U1 8 id 0A1B2C3D 01 erase 10 addr 11 prog 12 read 13 words %d width 16 busy 10 fill 0\n" % WORDS
OPCODE = "02"
PLAIN = b"plain U%d 8\n"
REGISTER = b"regs U%d 8\nreg R 02 65536 keep\n"


def board(line, devices):
    """A board of so many devices of this line."""
    return b"".join(line % number for number in range(1, devices + 1))


def scan(before=""):
    """A scan of the most bits, after this statement."""
    return f"ACTION A=P;PROCEDURE P;{before}DRSCAN {BITS},#0;ENDPROC;".encode()


def selected(devices):
    """The same through the register of each device."""
    return scan(f"IRSCAN {8 * devices},${OPCODE * devices};")


def flash_flow():
    """The program of the examples, which erases, programs and verifies a flash, with an image of more words."""
    text = (measure.TOP / "examples" / "flash.stp").read_text(encoding="utf-8")
    image = "".join(f"{41 * word % 65536:04X}" for word in range(WORDS))
    text = text.replace("BITS[64] = $0123456789ABCDEF", f"BITS[{16 * WORDS}] = ${image}")
    return text.replace("WORDS = 4;", f"WORDS = {WORDS};").encode()


# The kind, the board, the text, further words, and how many devices the chain in C has that is set beside it.
PLAYS = (
    ("hello", board(PLAIN, 1), b'ACTION A=P;PROCEDURE P;PRINT "hello";ENDPROC;', ("action=A",), 0),
    ("4 Mbit through BYPASS of 1 device", board(PLAIN, 1), scan(), ("action=A",), 1),
    ("the same with pins=yes", board(PLAIN, 1), scan(), ("action=A", "pins=yes"), 0),
    ("4 Mbit through BYPASS of 16 devices", board(PLAIN, 16), scan(), ("action=A",), 16),
    ("4 Mbit through a register of 65,536 bits", board(REGISTER, 1), selected(1), ("action=A",), 1),
    ("4 Mbit through such a register of 16 devices", board(REGISTER, 16), selected(16), ("action=A",), 16),
    (f"a flash of {WORDS:,} words, erased, programmed and verified", FLASH, flash_flow(), ("action=PROGRAM",), 0),
)


def chain_seconds(chain, devices, runs):
    """The shortest time of the yardstick."""
    words = [chain, str(devices), str(BITS)]
    told = (subprocess.run(words, stdout=subprocess.PIPE, check=True) for _ in range(runs))
    return min(float(it.stdout) for it in told)


def print_plays(folder, programs, runs):
    """A row for each play: the time and the peak of each program, and the yardstick's time."""
    text, on = folder / "text.stp", folder / "board"
    peak, chain = measure.compiled("peak", folder), measure.compiled("chain", folder)
    names = ["Before", "Now"][-len(programs):]
    columns = [f"{name}, {what}" for what in ("time", "peak") for name in names]
    columns += ["Now to before"] * (len(names) - 1) + ["C", "To C"]
    print("| Play | " + " | ".join(columns) + " |\n|" + "---|" * (len(columns) + 1))
    starts = [0.0] * len(programs)
    for kind, devices, content, words, yardstick in PLAYS:
        text.write_bytes(content)
        on.write_bytes(devices)
        played = ["play", f"board={on}", f"program={text}", *words]
        told = [measure.weighed(peak, [it, *played], 0, runs) for it in programs]
        times = [seconds - start for (seconds, _), start in zip(told, starts)]
        cells = [f"{seconds:.4f} s" for seconds in times] + [f"{memory / (1 << 20):.1f} MiB" for _, memory in told]
        cells += [f"{times[-1] / times[0]:.2f}"] * (len(names) - 1)
        if yardstick:
            plain = chain_seconds(chain, yardstick, runs)
            cells += [f"{plain:.4f} s", f"{times[-1] / plain:.3f}"]
        else:
            cells += ["", ""]
        print("| " + " | ".join([kind, *cells]) + " |", flush=True)
        if kind == "hello":
            starts = [seconds for seconds, _ in told]


def print_pins(folder, runs):
    """What the clocks of the longest scan cost, and a copy of their bytes."""
    text, on, written = folder / "text.stp", folder / "board", folder / "written"
    text.write_bytes(scan())
    on.write_bytes(board(PLAIN, 1))
    words = [measure.PROGRAM, "play", f"board={on}", f"program={text}", "action=A"]
    without, _ = measure.into_file([*words, "pins=no"], written, runs)
    with_pins, data = measure.into_file([*words, "pins=yes"], written, runs)
    copy = measure.copied(data, written, runs)
    cost = with_pins - without
    print(f"\n{len(data)} bytes of clocks cost a play {cost:.4f} s, a copy of them {copy:.4f} s: {cost / copy:.2f}.")


def main():
    parser = argparse.ArgumentParser(description=__doc__.splitlines()[0])
    parser.add_argument("before", nargs="?", help="another checkout, whose program is built")
    parser.add_argument("--runs", type=int, default=9, help="runs of each play (9)")
    words = parser.parse_args()
    subprocess.run([measure.TOP / "zanutero", "--version"], stdout=subprocess.DEVNULL, check=True)
    programs = [measure.built(top) for top in (words.before, measure.TOP) if top]
    with tempfile.TemporaryDirectory() as made:
        print_plays(pathlib.Path(made), programs, words.runs)
        print_pins(pathlib.Path(made), words.runs)


if __name__ == "__main__":
    main()
