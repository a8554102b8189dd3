#!/usr/bin/env python3
"""Kills the built program while it puts blocks, and shows that the next run finds each block absent, old or new, whole.

    tools/kill_program.py [PROGRAM] [RUNS]    (PROGRAM is crates/viewrun/out/viewrun; RUNS is 500)

First RUNS runs are killed by SIGKILL at random moments: blocks of 8 KB and of 2 MB, that exist and that don't, on one
thread and by two actors. Then twelve scripts are stopped at each of their calls on files in turn, before the call, and in
the middle of each write, by a library that is preloaded (stop_at_call.c): that needs no luck. After each the next run reads
all voxels, and then each block must be whole, and no other file may be left. It needs gcc, and a few minutes. No part of
the gate.
"""
import os
import random
import sys
import time

import n5
from put_trials import Script, Trial, library


# sides of the cells, cells, numbers that are set, numbers of earlier runs, whether a picture is put, actors on threads
SCRIPTS = [
    (2, 4, [5], [], False, None),
    (2, 4, [5, 6], [], False, None),
    (2, 3, [5], [9], False, None),
    (2, 4, [5, 6, 7], [9], False, None),
    (20, 4, [5], [], False, None),
    (20, 4, [5, 6], [9], False, None),
    (20, 3, [5, 6, 7], [], True, None),
    (20, 3, [5], [9], True, None),
    (64, 3, [5, 6], [], False, None),
    (64, 3, [5, 6], [9], True, None),
    (2, 12, [5, 6], [9], False, 2),
    (20, 16, [5, 6], [], True, 4),
]


def at_random(program, runs):
    """Kills at random moments. Answers how many runs were killed, and what was wrong."""
    killed, wrong, random_moment = 0, [], random.Random(7)
    for run in range(runs):
        side, rounds = (20, 40) if run % 2 == 0 else (128, 3)
        cells, actors = (4, None) if run % 8 < 4 else (12, 2)
        trial = Trial(program, Script(side, cells, list(range(1, rounds + 1)), actors=actors), [99] if run % 4 < 2 else [])
        began = trial.begin(trial.script.text())
        time.sleep(random_moment.uniform(0.002, 0.06 if side == 20 else 0.12))
        began.kill()
        killed += began.wait() < 0
        wrong += [f"run {run}, side {side}: {what}" for what in trial.wrong_after_next_run()]
        trial.remove()
    return killed, wrong


def at_each_call(program, preload):
    """Ends each script at each call in turn. Answers how many runs were ended, and what was wrong."""
    ended, wrong = 0, []
    for index, (side, cells, numbers, earlier, picture, actors) in enumerate(SCRIPTS):
        for kind, does in [("any", "kill"), ("write", "half")]:
            for number in range(1, 100000):
                trial = Trial(program, Script(side, cells, numbers, picture, actors), earlier)
                told = {**os.environ, "LD_PRELOAD": preload, "CALL_KIND": kind, "CALL_NUMBER": str(number), "CALL_DOES": does}
                status = trial.run(trial.script.text(), told).returncode
                what = trial.wrong_after_next_run()
                wrong += [f"script {index}, {kind} call {number}, {does}: {text}" for text in what]
                trial.remove()
                if status >= 0:
                    break
                ended += 1
    return ended, wrong


def main():
    program = n5.built(*sys.argv[1:2])
    runs = int(sys.argv[2]) if len(sys.argv) > 2 else 500
    killed, wrong = at_random(program, runs)
    print(f"killed at a random moment: {killed} of {runs} runs; {len(wrong)} faults")
    ended, more = at_each_call(program, library())
    print(f"ended at each call in turn: {ended} runs; {len(more)} faults")
    for what in (wrong + more)[:40]:
        print(what)
    sys.exit(1 if wrong or more else 0)


if __name__ == "__main__":
    main()
