#!/usr/bin/env python3
"""Times pins, reads, writes, fills, rounds and visits of pin_rule's table, beside the same steps with Rust's own atomics.

    bench/pins.py [PROGRAM]        (PROGRAM is crates/pin_time/out/pin_time, which a whole `rt ci` leaves there)

`one` is one thread, `same` two threads with one cell, `other` two threads with a cell each, and with a slot and a lane each
where they fill. A claim is one pass's alone: beside a fill or a round of the `same` cell the second thread visits it, 16 times
in each round of the first, which alone takes half as long; a visit of a cell that isn't live misses. Each time is the least
of five runs of many rounds, less the least of five runs of none, for a round of each thread; that of `fill` is for each of the
64 voxels of a frame, and that of `visit` for each of the 16 visits of an absent cell. What the runs print is compared. Where
there is a rustc, bench/atomics.rs is built with -O into a folder that is removed at the end, and timed by turns with PROGRAM.
Two threads are timed only where there are two processors. No part of the gate.
"""
import os
import subprocess
import sys
import tempfile
import time

sys.path.insert(0, os.path.join(os.path.dirname(os.path.dirname(os.path.abspath(__file__))), "tools"))
import n5  # noqa: E402

RUNS = 5
VISITS = 16
# how often it is done in a round
TIMES = {"pin": 1, "read": 1, "write": 1, "fill": 64, "round": 1, "visit": VISITS}
ROUNDS = {"pin": 10_000_000, "read": 50_000_000, "write": 20_000_000, "fill": 300_000, "round": 200_000, "visit": 500_000}
CASES = [(what, hands) for what in ("pin", "read", "write", "fill", "round") for hands in ("one", "same", "other")] + [("visit", "one")]


def seconds(program, what, hands, rounds):
    """The seconds of a run, and what it prints."""
    start = time.perf_counter()
    printed = subprocess.run([program, what, hands, str(rounds)], capture_output=True, check=True).stdout
    return time.perf_counter() - start, int(printed)


def wanted(what, hands, rounds):
    """What a run prints."""
    beside = VISITS if what in ("fill", "round") else TIMES[what]
    return rounds * (TIMES[what] + {"one": 0, "same": beside, "other": TIMES[what]}[hands])


def nanoseconds(programs, what, hands):
    """For each program the nanoseconds of a round, of a voxel that is filled, or of a visit. The programs run by turns."""
    best = {(program, rounds): float("inf") for program in programs for rounds in (0, ROUNDS[what])}
    for _ in range(RUNS):
        for program, rounds in best:
            taken, printed = seconds(program, what, hands, rounds)
            if printed != wanted(what, hands, rounds):
                sys.exit(f"{program} {what} {hands} {rounds} printed {printed}")
            best[program, rounds] = min(best[program, rounds], taken)
    count = ROUNDS[what] * TIMES[what]
    return [(best[program, ROUNDS[what]] - best[program, 0]) / count * 1e9 for program in programs]


def main():
    program = n5.built(*sys.argv[1:2] or [None], crate="pin_time")
    with tempfile.TemporaryDirectory() as folder:
        programs = [program] + [path for path in [n5.built_rust(folder, "atomics.rs")] if path]
        print("what   threads   table ns" + ("   atomics ns" if len(programs) > 1 else ""))
        for what, hands in CASES:
            if hands == "one" or len(os.sched_getaffinity(0)) > 1:
                first, *rest = nanoseconds(programs, what, hands)
                print(f"{what:<6} {hands:<7} {first:>10.2f}" + "".join(f"{other:>13.2f}" for other in rest), flush=True)


if __name__ == "__main__":
    main()
