#!/usr/bin/env python3
"""Times frames of held cells by 1, 2 and 4 actors at once, beside one thread's frames and plain loops over one array.

    bench/teams.py [PROGRAM]        (PROGRAM is crates/viewrun/out/viewrun, which a whole `rt ci` leaves there)

The volume is one layer of 512 by 512 voxels of uint8 in 64 cells, of which no block is stored. One actor paints a blocking frame of 512 by
512 pixels, which loads all cells, and in the next phase each actor paints volatile ones, whose cells are all held. A time is processor
time, over all actors' pixels: the least of five runs of many frames, less the least of five runs of none. It holds the writing of the
pictures, which is the same for all. Where there is a rustc, bench/plain_frames.rs is built with -O into a folder that is removed at
the end, and timed too. More actors than there are processors aren't timed. No part of the gate.
"""
import os
import resource
import subprocess
import sys
import tempfile

sys.path.insert(0, os.path.join(os.path.dirname(os.path.dirname(os.path.abspath(__file__))), "tools"))
import n5  # noqa: E402

RUNS = 5
FRAMES = 40
SIDE = 512
SLOTS = 128


def script(actors, frames):
    """A script's lines: one frame loads the cells, and then each actor paints its frames."""
    view = "view {} 512 512 0 {} 1 1 0 0 0 1 0 0 0 0"
    lines = [f"raw v uint8 {SIDE} {SIDE} 1 64 64 1", "phase", "actor", view.format("first", "blocking"), "phase"]
    for actor in range(actors):
        lines += ["actor"] + [view.format(f"p{actor}_{n}", "volatile") for n in range(frames)]
    return "\n".join(lines) + "\n"


def processor_seconds():
    """What the runs so far took of the processors."""
    used = resource.getrusage(resource.RUSAGE_CHILDREN)
    return used.ru_utime + used.ru_stime


def seconds(way, actors, frames):
    """The processor seconds of a run in a folder of its own. All frames are to be complete."""
    with tempfile.TemporaryDirectory() as folder:
        n5.write(os.path.join(folder, "script"), script(actors, frames))
        start = processor_seconds()
        done = subprocess.run(way(actors, frames), cwd=folder, capture_output=True, check=True, text=True)
        taken = processor_seconds() - start
    if "partial" in done.stdout:
        sys.exit("a frame is partial")
    return taken


def nanoseconds(way, actors):
    """The nanoseconds of a pixel. None where there is no such program."""
    if way is None:
        return None
    best = dict.fromkeys((0, FRAMES), float("inf"))
    for _ in range(RUNS):
        for frames in best:
            best[frames] = min(best[frames], seconds(way, actors, frames))
    return (best[FRAMES] - best[0]) / (actors * FRAMES * SIDE**2) * 1e9


def main():
    program = n5.built(*sys.argv[1:2])
    with tempfile.TemporaryDirectory() as folder:
        path = n5.built_rust(folder, "plain_frames.rs")
        plain = (lambda actors, frames: [path, str(actors), str(frames)]) if path else None
        print("actors   run ns/pixel   solo ns/pixel   plain loops ns/pixel")
        for actors in (1, 2, 4):
            if actors > len(os.sched_getaffinity(0)):
                continue
            run = lambda actors, frames: [program, "run", "script", "--slots", str(SLOTS), "--fetchers", "0"]
            solo = (lambda actors, frames: [program, "solo", "script", "--slots", str(SLOTS)]) if actors == 1 else None
            times = [nanoseconds(way, actors) for way in (run, solo, plain)]
            print("{:>6} {:>14} {:>15} {:>22}".format(actors, *("" if each is None else f"{each:.1f}" for each in times)), flush=True)


if __name__ == "__main__":
    main()
