#!/usr/bin/env python3
"""Times the built program: gets in resident cells, and the eviction of edited cells.

    bench/solo.py [PROGRAM]        (PROGRAM is crates/viewrun/out/viewrun, which a whole `rt ci` leaves there)

Each time is the least of five runs, less a run of as many lines whose commands are refused as outside the volume, so
that the reading of the script and the writing of the report are left out. No part of the gate.
"""
import os
import subprocess
import sys
import tempfile
import time

sys.path.insert(0, os.path.join(os.path.dirname(os.path.dirname(os.path.abspath(__file__))), "tools"))
import n5  # noqa: E402

ROUNDS = 5
GETS = 100_000
# a script holds at most 2^20 bytes, so the gets are dealt over some scripts
SCRIPTS = 2
EDITS = 1_000
SIDE = 32


def seconds(program, lines, slots):
    with tempfile.TemporaryDirectory() as folder:
        with open(os.path.join(folder, "script"), "w") as file:
            file.write("\n".join(lines) + "\n")
        best = float("inf")
        for _ in range(ROUNDS):
            start = time.perf_counter()
            subprocess.run([program, "solo", "script", "--slots", str(slots)], cwd=folder, stdout=subprocess.DEVNULL, check=False)
            best = min(best, time.perf_counter() - start)
        return best


def script(head, commands):
    return [head, "phase", "actor", *commands]


def main():
    program = n5.built(*sys.argv[1:2])
    small = f"raw v uint8 64 64 64 {SIDE} {SIDE} {SIDE}"
    inside = [f"get 0 {n % 2 * 40} 1 {n % 9}" for n in range(GETS // SCRIPTS)]
    outside = [f"get 0 {99 - n % 2} 1 {n % 9}" for n in range(GETS // SCRIPTS)]
    get = sum(seconds(program, script(small, inside), 8) - seconds(program, script(small, outside), 8) for _ in range(SCRIPTS))
    print(f"get in a resident cell: {get / GETS * 1e9:.0f} ns (over {GETS:,} gets)")

    long = f"raw v uint8 {SIDE} {SIDE} {SIDE * (EDITS + 2)} {SIDE} {SIDE} {SIDE}"
    edits = [f"set 0 0 0 {n * SIDE} 7" for n in range(EDITS + 2)]
    refused = [f"set 0 99 0 {n * SIDE} 7" for n in range(EDITS + 2)]
    for slots in (2, 16, 256):
        edit = seconds(program, script(long, edits), slots) - seconds(program, script(long, refused), slots)
        print(f"load, edit and write back a cell of {SIDE}^3 bytes, {slots} slots: {edit / EDITS * 1e6:.1f} us")


if __name__ == "__main__":
    main()
