#!/usr/bin/env python3
"""Times the walk of nearest voxels along the rows of a picture, beside the formula at each pixel.

    bench/walk.py [PROGRAM]        (PROGRAM is crates/walk_time/out/walk_time, which a whole `rt ci` leaves there)

Views that stand straight and that are turned, in levels of factor 1 and 2. Each time is the least of five runs over many
pictures of 512 by 512 pixels, less the least of five runs over none. Both ways print the same sum, which is compared. No
part of the gate.
"""
import os
import subprocess
import sys
import time

sys.path.insert(0, os.path.join(os.path.dirname(os.path.dirname(os.path.abspath(__file__))), "tools"))
import n5  # noqa: E402

ROUNDS = 5
PICTURES = 60
PIXELS = PICTURES * 512 * 512


def run(program, way, view, factor, pictures):
    """The least seconds of a run, and what it prints."""
    best = float("inf")
    for _ in range(ROUNDS):
        start = time.perf_counter()
        printed = subprocess.run([program, way, view, str(factor), str(pictures)], capture_output=True, check=True).stdout
        best = min(best, time.perf_counter() - start)
    return best, printed


def main():
    program = n5.built(*sys.argv[1:2] or [None], crate="walk_time")
    print("view      factor   walk ns/pixel   formula ns/pixel")
    for view in ("straight", "turned"):
        for factor in (1, 2):
            nanoseconds, sums = [], []
            for way in ("walk", "formula"):
                seconds, printed = run(program, way, view, factor, PICTURES)
                idle, _ = run(program, way, view, factor, 0)
                nanoseconds.append((seconds - idle) / PIXELS * 1e9)
                sums.append(printed)
            if sums[0] != sums[1]:
                sys.exit(f"{view}, factor {factor}: the walk and the formula differ")
            print(f"{view:<9} {factor:>6} {nanoseconds[0]:>15.2f} {nanoseconds[1]:>18.2f}")


if __name__ == "__main__":
    main()
