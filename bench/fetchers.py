#!/usr/bin/env python3
"""Times a run of blocking views with 16 fetchers, which have nothing to do, beside none.

    bench/fetchers.py [PROGRAM]        (PROGRAM is crates/viewrun/out/viewrun, which a whole `rt ci` leaves there)

One actor paints many blocking frames of 512 by 512 pixels of a layer in 64 cells, of which no block is stored: no view asks the
fetchers for a cell. A time is the least of five runs, made by turns: in wall time, and of the processor. Other programs at work on the
machine make both longer. No part of the gate.
"""
import os
import resource
import subprocess
import sys
import tempfile
import time

sys.path.insert(0, os.path.join(os.path.dirname(os.path.dirname(os.path.abspath(__file__))), "tools"))
import n5  # noqa: E402

RUNS = 5
FRAMES = 200
FETCHERS = (0, 16)


def processor_seconds():
    """What the runs so far took of the processor."""
    used = resource.getrusage(resource.RUSAGE_CHILDREN)
    return used.ru_utime + used.ru_stime


def seconds(program, folder, fetchers):
    """The seconds of a run, in wall time and of the processor."""
    start, spent = time.perf_counter(), processor_seconds()
    subprocess.run([program, "run", "script", "--slots", "128", "--fetchers", str(fetchers)], cwd=folder, stdout=subprocess.DEVNULL, check=True)
    return time.perf_counter() - start, processor_seconds() - spent


def main():
    program = n5.built(*sys.argv[1:2])
    best = dict.fromkeys(FETCHERS, (float("inf"), float("inf")))
    with tempfile.TemporaryDirectory() as folder:
        views = [f"view p{n} 512 512 0 blocking 1 1 0 0 0 1 0 0 0 0" for n in range(FRAMES)]
        n5.write(os.path.join(folder, "script"), "\n".join(["raw v uint8 512 512 1 64 64 1", "phase", "actor", *views]) + "\n")
        for _ in range(RUNS):
            for fetchers in FETCHERS:
                best[fetchers] = tuple(map(min, best[fetchers], seconds(program, folder, fetchers)))
    print("fetchers   seconds   processor seconds")
    for fetchers, (wall, spent) in best.items():
        print(f"{fetchers:>8} {wall:>9.2f} {spent:>19.2f}")
    (wall, busy), (_, idle) = best[16], best[0]
    print(f"16 idle fetchers took {(busy - idle) / wall:.1%} of one processor")


if __name__ == "__main__":
    main()
