#!/usr/bin/env python3
"""Times plays over a wire by zanutero-drive, and the same vectors by the command svf of OpenOCD, over one peer.

    bench/wire.py [--runs N] [--program PATH]

The peer is bench/wire.c, a part that answers at once; it is compiled here. zanutero-drive talks to it over two pipes,
and by scripts/drive_wire over TCP, and OpenOCD over TCP. A program and an SVF file have the same scans and waits, the
program in a loop. A line has the clocks of a play, how often the peer answered, and how often with one answer alone;
and the clocks a second, by wall time and by the processor time of the player, each beside OpenOCD's. A time is the
shortest of some runs (5 if --runs is missing), less that of a play without a scan; a wall time lasts until the peer has
ended, too. A time that is too short to say gives no number. --program is the built zanutero_drive of another checkout,
or compiled code that is not proved.
"""
import argparse
import os
import pathlib
import random
import shutil
import subprocess
import sys
import tempfile
import time

import measure

BUILT = measure.TOP / "crates" / "zanutero_drive" / "out" / "zanutero_drive"
BOARD = "plain U1 4 id 4BA00477 E\n"
OPENOCD = ("gdb_port disabled; tcl_port disabled; telnet_port disabled", "adapter driver remote_bitbang",
           "remote_bitbang host 127.0.0.1", "remote_bitbang port {port}", "transport select jtag", "reset_config none",
           "jtag newtap U1 tap -irlen 4 -expected-id 0x4ba00477", "init", "svf -tap U1.tap vectors quiet", "shutdown")
PROGRAM = "ACTION A=P;PROCEDURE P;{}INTEGER I;STATE RESET;{}{}GOTO DONE;WRONG:EXIT 1;DONE:ENDPROC;\n"
SVF = "STATE RESET;\nENDIR IDLE;\nENDDR IDLE;\n"


def looped(variables, rounds, statements, before=""):
    """A program that carries out some statements so often, with other ones before them."""
    loop = f"FOR I=1 TO {rounds};{statements}NEXT I;" if rounds else ""
    return PROGRAM.format(variables, before, loop)


def bypassed(bits, rounds, is_compared, is_selected_anew=False):
    """So many scans of so many bits through the bypass register, as a program and as an SVF file, perhaps with the
    instruction before each. What comes out is what goes in, a clock later."""
    data, digits = random.Random(bits).getrandbits(bits), bits // 4
    into, out = f"{data:0{digits}X}", f"{(data << 1) % (1 << bits):0{digits}X}"
    selects, scan = "IRSCAN 4,$F;", f"DRSCAN {bits},IN[]"
    vectors = ["SIR 4 TDI (F);\n", f"SDR {bits} TDI ({into});\n"]
    if is_compared:
        scan += ",COMPARE OUT[],ONES[],OK;IF !OK THEN GOTO WRONG"
        vectors[1] = f"SDR {bits} TDI ({into}) TDO ({out}) MASK ({'F' * digits});\n"
    arrays = {"IN": into, "OUT": out, "ONES": "F" * digits}
    variables = "BOOLEAN OK;" + "".join(f"BOOLEAN {name}[{bits}]=${it};" for name, it in arrays.items())
    if is_selected_anew:
        return looped(variables, rounds, f"{selects}{scan};"), SVF + "".join(vectors) * rounds
    return looped(variables, rounds, f"{scan};", selects), SVF + vectors[0] + vectors[1] * rounds


def waits(cycles, rounds):
    return looped("", rounds, f"WAIT {cycles} CYCLES;"), SVF + f"RUNTEST {cycles} TCK;\n" * rounds


KINDS = (
    ("1,000 scans of 4,096 bits, compared", bypassed(4096, 1000, True)),
    ("1,000 scans of 4,096 bits", bypassed(4096, 1000, False)),
    ("20,000 scans of 4 and of 16 bits, compared", bypassed(16, 20000, True, True)),
    ("20,000 scans of 4 and of 16 bits", bypassed(16, 20000, False, True)),
    ("2,000 waits of 1,000 cycles", waits(1000, 2000)),
)
NOTHING = waits(1, 0)
# A time below so many seconds is lost in the time that the start takes.
SHORTEST = 0.02


class Wire:
    """A folder with the compiled peer, and the players of the program and of the SVF file in it."""

    NAMES = ("OpenOCD", "pipes", "drive_wire")

    def __init__(self, folder, program):
        self.folder, self.peer, self.program = folder, measure.compiled("wire", folder), program
        for name in ("bytes", "answers"):
            os.mkfifo(folder / name)
        (folder / "board").write_text(BOARD, encoding="ascii")

    def lay_out(self, texts):
        for name, text in zip(("program", "vectors"), texts):
            (self.folder / name).write_text(text, encoding="ascii")

    def words(self, name, port):
        """The command of a player."""
        played = ["board=board", "program=program", "action=A"]
        if name == "OpenOCD":
            return ["openocd", *(word for it in OPENOCD for word in ("-c", it.format(port=port)))]
        if name == "pipes":
            return [self.program, "send=bytes", "receive=answers", *played]
        return [measure.TOP / "scripts" / "drive_wire", self.program, f"wire=127.0.0.1:{port}", *played]

    def run(self, name):
        """The seconds of a play by wall time and by processor time, and the counts of the peer."""
        files = ["bytes", "answers"] if name == "pipes" else []
        peer = subprocess.Popen([self.peer, *files], cwd=self.folder, stdout=subprocess.PIPE, universal_newlines=True)
        words = self.words(name, None if files else int(peer.stdout.readline()))
        begun = time.perf_counter()
        with open(self.folder / "said", "wb") as said:
            player = subprocess.Popen(words, cwd=self.folder, stdout=said, stderr=said)
            _, status, used = os.wait4(player.pid, 0)
        if status:
            peer.kill()
            sys.exit(f"{name} ended with {status >> 8}: {(self.folder / 'said').read_text(errors='replace')[-400:]}")
        counts = [int(it) for it in peer.communicate()[0].split()]
        return time.perf_counter() - begun, used.ru_utime + used.ru_stime, counts

    def shortest(self, name, runs):
        """The shortest times of some runs, and the counts of one."""
        walls, processors, counts = zip(*(self.run(name) for _ in range(runs)))
        return min(walls), min(processors), counts[0]


def row(kind, name, took, least, beside):
    """Prints a line of the table, and gives the clocks a second, or nothing for a time that is too short to say."""
    clocks, exchanges, alone = (max(took[2][at] - least[2][at], 0) for at in (0, 2, 3))
    seconds = [took[at] - least[at] for at in (0, 1)]
    speeds = [clocks / it if it > SHORTEST else None for it in seconds]
    cells = [kind, name, f"{clocks:,}", f"{exchanges:,}", f"{alone:,}"]
    for speed, other in zip(speeds, beside or speeds):
        cells += [f"{speed:,.0f}" if speed else "", f"{speed / other:.2f}" if speed and other else ""]
    print(f"| {' | '.join(cells)} |", flush=True)
    return speeds


def main():
    parser = argparse.ArgumentParser(description=__doc__.splitlines()[0])
    parser.add_argument("--runs", type=int, default=5, help="runs of each play (5)")
    parser.add_argument("--program", default=BUILT, help="the built zanutero_drive, or other compiled code")
    words = parser.parse_args()
    if not shutil.which("openocd"):
        sys.exit("There is no openocd.")
    print("| Played | By | Clocks | Round trips | Of one clock | Clocks a second | To OpenOCD | By processor time | "
          "To OpenOCD |\n|" + "---|" * 9)
    with tempfile.TemporaryDirectory() as folder:
        wire = Wire(pathlib.Path(folder), os.path.abspath(words.program))
        wire.lay_out(NOTHING)
        least = {name: wire.shortest(name, words.runs) for name in wire.NAMES}
        for kind, texts in KINDS:
            wire.lay_out(texts)
            beside = None
            for name in wire.NAMES:
                speeds = row(kind, name, wire.shortest(name, words.runs), least[name], beside)
                beside = beside or speeds
    return 0


if __name__ == "__main__":
    sys.exit(main())
