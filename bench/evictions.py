#!/usr/bin/env python3
"""Times evictions with 16, 256 and 4096 slots: the same number of cells leaves in each run.

    bench/evictions.py [PROGRAM]        (PROGRAM is crates/viewrun/out/viewrun, which a whole `rt ci` leaves there)

A run gets one voxel of each of many cells, none of which is stored, so that each get behind the first ones is one load and
one eviction. Each time is the least of five runs, less that of a run that only fills the slots. With cells of 4^3 bytes the
frames of all slots lie in the processor's caches, and what is left is the work of the cache's lists; with cells of 16^3 they
take up to 128 MB, and filling a frame with zeros waits for memory. No part of the gate.
"""
import os
import subprocess
import sys
import tempfile
import time

sys.path.insert(0, os.path.join(os.path.dirname(os.path.dirname(os.path.abspath(__file__))), "tools"))
import n5  # noqa: E402

ROUNDS = 5
EVICTIONS = 20_000
SIDES = (4, 16)
SLOTS = (16, 256, 4096)


def seconds(program, side, cells, slots):
    """The least seconds of runs that get a voxel of each of these cells."""
    with tempfile.TemporaryDirectory() as folder:
        with open(os.path.join(folder, "script"), "w") as file:
            file.write(f"raw v uint8 {side * (max(SLOTS) + EVICTIONS)} {side} {side} {side} {side} {side}\nphase\nactor\n")
            file.writelines(f"get 0 {side * cell} 0 0\n" for cell in range(cells))
        best = float("inf")
        for _ in range(ROUNDS):
            start = time.perf_counter()
            done = subprocess.run([program, "solo", "script", "--slots", str(slots)], cwd=folder, capture_output=True, check=True)
            best = min(best, time.perf_counter() - start)
        evicted = max(cells - slots, 0)
        if f" evictions {evicted} ".encode() not in done.stdout:
            sys.exit(f"{slots} slots: not {evicted} evictions")
        return best


def main():
    program = n5.built(*sys.argv[1:2])
    print("side of a cell   slots   evictions per second   us per eviction")
    for side in SIDES:
        for slots in SLOTS:
            spent = seconds(program, side, slots + EVICTIONS, slots) - seconds(program, side, slots, slots)
            print(f"{side:>14} {slots:>7} {EVICTIONS / spent:>22,.0f} {spent / EVICTIONS * 1e6:>17.2f}")


if __name__ == "__main__":
    main()
