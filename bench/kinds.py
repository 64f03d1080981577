#!/usr/bin/env python3
"""Times the clocks of chains of 1, 4 and 16 devices of each kind, while they shift and while they are idle.

A play selects the same register in each device by an IRSCAN, and then makes the clocks: a WAIT in IDLE, or a DRSCAN of
zeros. The shortest time of some plays counts, less that of an empty text. If the time is linear in the devices, so many
clocks of a device are made a second on each board; if a clock takes as long for a long register as for a short one, the
rows of one kind are alike.
"""
import measure

CLOCKS = 4_194_304
DEVICES = (1, 4, 16)
FLASH = b"flash U%d 8 erase 10 addr 11 prog 12 read 13 words 4096 width 4096 busy 1000000 fill 0\n"
# The kind with its register, the lines of a device, and the opcode that selects the register.
KINDS = (
    ("plain, BYPASS", b"plain U%d 8\n", "FF"),
    ("plain, its identity", b"plain U%d 8 id 0A1B2C3D 01\n", "01"),
    ("regs, 1 bit", b"regs U%d 8\nreg R 02 1 keep\n", "02"),
    ("regs, 65,536 bits", b"regs U%d 8\nreg R 02 65536 keep\n", "02"),
    ("flash, its address", FLASH, "11"),
    ("flash, a word of 4,096 bits", FLASH, "13"),
)
# What is done, and the statement that does it.
DONE = (("shifting", f"DRSCAN {CLOCKS},#0;"), ("idle", f"WAIT {CLOCKS} CYCLES;"))


def program(opcode, devices, statement):
    """Selects a register in each device, and then makes the clocks."""
    return f"ACTION A=P;PROCEDURE P;IRSCAN {8 * devices},${opcode * devices};{statement}ENDPROC;".encode()


def board(line, devices):
    return b"".join(line % number for number in range(1, devices + 1))


def main():
    with measure.Bench(__doc__) as bench:
        speeds = [f"clocks of devices a second, {devices}" for devices in DEVICES]
        measure.head(f"{CLOCKS} clocks, of so many devices", [str(devices) for devices in DEVICES], *speeds)
        for kind, line, opcode in KINDS:
            for done, statement in DONE:
                times = []
                for devices in DEVICES:
                    bench.board.write_bytes(board(line, devices))
                    times.append(bench.seconds(program(opcode, devices, statement), 0))
                told = [f"{devices * CLOCKS / time / 1e6:.1f} million" for devices, time in zip(DEVICES, times)]
                measure.row(f"{kind}, {done}", times, *told)


main()
