#!/usr/bin/env python3
"""Times volatile frames of 512 by 512 pixels that cross 1 to 4096 cells, with all cells in memory and with none.

    bench/frames.py [PROGRAM]        (PROGRAM is crates/viewrun/out/viewrun, which a whole `rt ci` leaves there)

The volume is one layer of 512 by 512 voxels of uint8, of which no block is stored, in square cells. A painter goes along the
rows and holds one cell at a time, so that a row looks for each cell that it crosses: a frame has 512 looks for each column of
cells. In a `held` frame each look finds its cell; in an `absent` one none does, and each look asks the queue for its cell. Each
time is the least processor time of five runs of many frames, less the least of five runs of none; all runs are made by turns.
It holds the writing of the pictures, which is the same for all. The report's counts are compared. No part of the gate.
"""
import os
import re
import resource
import subprocess
import sys
import tempfile

sys.path.insert(0, os.path.join(os.path.dirname(os.path.dirname(os.path.abspath(__file__))), "tools"))
import n5  # noqa: E402

ROUNDS = 5
FRAMES = 40
SIDE = 512
CELLS = (512, 256, 128, 64, 32, 16, 8)


def script(cell, held, frames):
    """A script's lines: where the cells are to be held one blocking frame loads them."""
    view = "view {} 512 512 0 {} 1 1 0 0 0 1 0 0 0 0"
    lines = [f"raw v uint8 {SIDE} {SIDE} 1 {cell} {cell} 1", "phase", "actor"]
    lines += [view.format("first", "blocking")] if held else []
    return lines + [view.format(f"p{n}", "volatile") for n in range(frames)]


def processor_seconds():
    """What the runs so far took of the processor."""
    used = resource.getrusage(resource.RUSAGE_CHILDREN)
    return used.ru_utime + used.ru_stime


def run(program, cell, held, frames):
    """The seconds of a run. Its looks are compared with what the report counts."""
    slots = max(2, (SIDE // cell) ** 2)
    with tempfile.TemporaryDirectory() as folder:
        with open(os.path.join(folder, "script"), "w") as file:
            file.write("\n".join(script(cell, held, frames)) + "\n")
        start = processor_seconds()
        done = subprocess.run([program, "solo", "script", "--slots", str(slots)], cwd=folder, capture_output=True, check=True, text=True)
        spent = processor_seconds() - start
    counted = int(re.search(r"misses (\d+)" if not held else r"hits (\d+)", done.stdout).group(1))
    # the looks of the frame before, which loads the cells: all but the first one at each cell are hits
    before = looks_of(cell) - (SIDE // cell) ** 2 if held else 0
    if counted != before + frames * looks_of(cell):
        sys.exit(f"cells of {cell}: {counted} looks, not {before + frames * looks_of(cell)}")
    return spent


def looks_of(cell):
    """A frame's looks: where a row has one cell alone, the next row still holds it."""
    return 1 if cell == SIDE else SIDE * (SIDE // cell)


def main():
    program = n5.built(*sys.argv[1:2])
    cases = [(cell, held, frames) for cell in CELLS for held in (True, False) for frames in (0, FRAMES)]
    best = dict.fromkeys(cases, float("inf"))
    for _ in range(ROUNDS):
        for case in cases:
            best[case] = min(best[case], run(program, *case))
    print("cells crossed   looks   held ns/pixel   absent ns/pixel")
    for cell in CELLS:
        held, absent = ((best[cell, way, FRAMES] - best[cell, way, 0]) / FRAMES / SIDE**2 * 1e9 for way in (True, False))
        print(f"{(SIDE // cell) ** 2:>13} {looks_of(cell):>7} {held:>15.1f} {absent:>17.1f}")


if __name__ == "__main__":
    main()
