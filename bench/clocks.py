#!/usr/bin/env python3
"""Times plays that clock the chain: waits of more and more clocks, on boards of 1 to 16 devices, with and without the
clocks in the text; and what writing them into a file costs a play beside a plain copy of the same bytes."""
import pathlib

from measure import PROGRAM, Bench, copied, head, into_file, row

SIZES = [1_048_576, 4_194_304, 16_777_216]

DEVICES = [1, 4, 16]


def program(clocks):
    return f"ACTION A=P;PROCEDURE P;WAIT {clocks} CYCLES;ENDPROC;".encode()


with Bench(__doc__) as bench:
    head("a WAIT of so many clocks", [str(size) for size in SIZES])
    for devices in DEVICES:
        bench.board.write_bytes(b"".join(b"plain U%d 4\n" % n for n in range(1, devices + 1)))
        for pins in ["no", "yes"]:
            times = [bench.seconds(program(clocks), 0, f"pins={pins}") for clocks in SIZES]
            row(f"board of {devices}, pins={pins}", times)
    bench.board.write_bytes(b"plain U1 4\n")
    bench.path.write_bytes(program(SIZES[-1]))
    words = [PROGRAM, "play", f"board={bench.board}", f"program={bench.path}", "action=A"]
    path = pathlib.Path(bench.folder.name) / "written"
    without, _ = into_file([*words, "pins=no"], path, bench.runs)
    written, data = into_file([*words, "pins=yes"], path, bench.runs)
    copy = copied(data, path, bench.runs)
    print(f"\n{len(data)} bytes of clocks cost a play {written - without:.3f} s, a copy of them {copy:.3f} s.")
