#!/usr/bin/env python3
"""Counts the instructions of a pixel, in frames whose cells are all in memory, by callgrind of valgrind.

    bench/pixels.py [PROGRAM]        (PROGRAM is crates/viewrun/out/viewrun, which a whole `rt ci` leaves there)

The volume is one layer of 512 by 512 voxels of uint8 in cells of 64 by 64, of which no block is stored. A blocking frame loads
the cells; then come volatile frames of 512 by 512 pixels. What a pixel takes is what six such frames take more than two, so that
starting, loading and the report are left out; making, counting and writing the pictures are in it. `straight` goes along the
rows of the cells, `across` along their columns, `turned` by 30 degrees, where a quarter of the picture lies beside the volume.
Other work on the machine doesn't move these counts. No part of the gate.
"""
import os
import re
import subprocess
import sys
import tempfile

sys.path.insert(0, os.path.join(os.path.dirname(os.path.dirname(os.path.abspath(__file__))), "tools"))
import n5  # noqa: E402

SIDE, CELL = 512, 64
MAPS = {"straight": "1 1 0 0 0 1 0 0 0 0", "across": "1 0 1 0 1 0 0 0 0 0", "turned": "1000 866 500 0 -500 866 128000 0 0 0"}
CALLS = {"solo": [], "run": ["--fetchers", "0"]}


def script(kind, frames):
    """A script's lines: a frame that loads the cells, and so many that find them."""
    view = "view {} {} {} 0 {} {}"
    first = view.format("first", SIDE, SIDE, "blocking", MAPS["straight"])
    return [f"raw v uint8 {SIDE} {SIDE} 1 {CELL} {CELL} 1", "phase", "actor", first] + [view.format(f"p{n}", SIDE, SIDE, "volatile", MAPS[kind]) for n in range(frames)]


def instructions(program, call, kind, frames):
    """The instructions of a run."""
    with tempfile.TemporaryDirectory() as folder:
        with open(os.path.join(folder, "script"), "w") as file:
            file.write("\n".join(script(kind, frames)) + "\n")
        words = [program, call, "script", "--slots", str((SIDE // CELL) ** 2 + 8), *CALLS[call]]
        done = subprocess.run(["valgrind", "--tool=callgrind", "--callgrind-out-file=/dev/null", *words], cwd=folder, capture_output=True, check=True, text=True)
    return int(re.search(r"Collected : (\d+)", done.stderr).group(1))


def main():
    program = n5.built(*sys.argv[1:2])
    print("call   view       instructions a pixel")
    for call in CALLS:
        for kind in MAPS:
            more = instructions(program, call, kind, 6) - instructions(program, call, kind, 2)
            print(f"{call:<6} {kind:<10} {more / 4 / SIDE**2:>20.1f}")


if __name__ == "__main__":
    main()
