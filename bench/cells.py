#!/usr/bin/env python3
"""Times hits, loads and evictions of the cells that threads share, beside the cache of one thread and Rust's own atomics.

    bench/cells.py [PROGRAM]        (PROGRAM is crates/cell_time/out/cell_time, which a whole `rt ci` leaves there)

`hit` gets a voxel of a live cell: a pin, a read and an unpin. `load` gets one of the next cell of 64 voxels, of which no block is
stored: with 4096 slots into a free slot, and with fewer another cell leaves first. `put` sets one, so that the cell that leaves is put
first. Each thread has cells of its own, but with `shared`, where all hit one cell. The store does nothing. A time is processor time, over
all threads' rounds: the least of five runs of many rounds, less the least of five runs of none. What the runs print is compared.
Where there is a rustc, bench/atomic_cells.rs, which asks nobody what is to leave, is built with -O into a folder that is removed at the
end, and timed too. More threads than there are processors aren't timed. No part of the gate.
"""
import os
import resource
import subprocess
import sys
import tempfile

sys.path.insert(0, os.path.join(os.path.dirname(os.path.dirname(os.path.abspath(__file__))), "tools"))
import n5  # noqa: E402

RUNS = 5
THREADS = {"one": 1, "two": 2}
# what is done, with how many slots, and how often
LINES = [
    ("hit", 64, 2_000_000),
    ("shared", 64, 2_000_000),
    ("load", 4096, 1024),
    ("load", 8, 50_000),
    ("load", 64, 50_000),
    ("load", 512, 20_000),
    ("put", 8, 50_000),
    ("put", 64, 50_000),
    ("put", 512, 20_000),
]


def processor_seconds():
    """What the runs so far took of the processors."""
    used = resource.getrusage(resource.RUSAGE_CHILDREN)
    return used.ru_utime + used.ru_stime


def seconds(command, wanted):
    """The processor seconds of a run, which is to print this number."""
    start = processor_seconds()
    printed = subprocess.run(command, capture_output=True, check=True).stdout
    taken = processor_seconds() - start
    if int(printed) != wanted:
        sys.exit(f"{' '.join(command)} printed {int(printed)}, not {wanted}")
    return taken


def nanoseconds(way, what, hands, slots, rounds):
    """The nanoseconds of a round by a program and its first word. None where there is no such program."""
    if way is None:
        return None
    best = dict.fromkeys((0, rounds), float("inf"))
    for _ in range(RUNS):
        for count in best:
            taken = seconds([*way, what, hands, str(slots), str(count)], count * THREADS[hands])
            best[count] = min(best[count], taken)
    return (best[rounds] - best[0]) / (rounds * THREADS[hands]) * 1e9


def main():
    program = n5.built(*sys.argv[1:2] or [None], crate="cell_time")
    with tempfile.TemporaryDirectory() as folder:
        path = n5.built_rust(folder, "atomic_cells.rs")
        atomics = (path, "cells") if path else None
        print("what    slots   threads   cells ns   one thread's cache ns   atomics ns")
        for what, slots, rounds in LINES:
            for hands, threads in THREADS.items():
                if threads > len(os.sched_getaffinity(0)) or (what, threads) == ("shared", 1):
                    continue
                sole = (program, "sole") if threads == 1 else None
                times = [nanoseconds(way, what, hands, slots, rounds) for way in ((program, "cells"), sole, atomics)]
                cells, alone, plain = ("" if each is None else f"{each:.1f}" for each in times)
                print(f"{what:<7} {slots:>5} {threads:>9} {cells:>10} {alone:>23} {plain:>12}", flush=True)


if __name__ == "__main__":
    main()
