#!/usr/bin/env python3
"""Lets each call on files of the built program fail in turn, and shows that no edit is lost unless it is named.

    tools/fault_program.py [PROGRAM]    (PROGRAM is crates/viewrun/out/viewrun, which a whole `rt ci` leaves there)

A library that is preloaded (stop_at_call.c) lets the n-th open, stat, mkdir, read, write, seek, truncate, close or remove
answer EIO, ENOSPC or EINTR, or move only half of its bytes; a write that fails leaves its first half behind. After each run
every file under cells/ must be whole, each cell that the run doesn't name `unsaved` or refuse must hold its last number,
no other file may be left, and the next run must read every voxel. An interruption and a short move must change nothing.
Then pipes, folders and sockets under keys, and the limit on the length of a file, must be faults at once. It needs gcc, and
a few minutes. No part of the gate.
"""
import errno
import os
import resource
import socket
import subprocess
import sys

import n5
from put_trials import Script, Trial, library

KINDS = ["open", "stat", "mkdir", "read", "write", "seek", "truncate", "close", "remove"]
ERRORS = {"EIO": errno.EIO, "ENOSPC": errno.ENOSPC, "EINTR": errno.EINTR}

# sides of the cells, cells, numbers that are set, numbers of earlier runs, whether a picture is put, actors on threads
SCRIPTS = [
    (2, 4, [5], [], False, None),
    (2, 4, [5, 6], [9], True, None),
    (20, 4, [5, 6], [9], False, None),
    (2, 12, [5, 6], [], True, 2),
    (20, 12, [5], [9], False, 2),
]


def named(text, cells):
    """The cells that a report names unsaved, and those of which a set was refused."""
    lines = text.splitlines()
    lost = {int(line.split()[1]) for line in lines if line.startswith("unsaved ")}
    refused = {number for number, line in enumerate(lines) if " refused " in line}
    return lost, refused


def fault_runs(program, preload):
    """Answers how many runs had a fault, and what was wrong."""
    runs, wrong = 0, []
    for index, (side, cells, numbers, earlier, picture, actors) in enumerate(SCRIPTS):
        script = Script(side, cells, numbers, picture, actors)
        for kind in KINDS:
            deeds = {name: str(number) for name, number in ERRORS.items()}
            if kind in ("read", "write"):
                deeds["short"] = "short"
            count = call_count(program, preload, script, earlier, kind)
            for name, does in deeds.items():
                for number in range(1, count + 1):
                    runs += 1
                    where = f"script {index}, {kind} call {number}, {name}"
                    wrong += [f"{where}: {what}" for what in one_fault(program, preload, script, earlier, kind, number, name, does)]
    return runs, wrong


def call_count(program, preload, script, earlier, kind):
    trial = Trial(program, script, earlier)
    counted = os.path.join(trial.path, "count")
    told = {**os.environ, "LD_PRELOAD": preload, "CALL_KIND": kind, "CALL_COUNT": counted}
    trial.run(script.text(), told)
    with open(counted, encoding="ascii") as file:
        count = int(file.read())
    trial.remove()
    return count


def one_fault(program, preload, script, earlier, kind, number, name, does):
    trial = Trial(program, script, earlier)
    told = {**os.environ, "LD_PRELOAD": preload, "CALL_KIND": kind, "CALL_NUMBER": str(number), "CALL_DOES": does}
    done = trial.run(script.text(), told)
    lost, refused = named(done.stdout.decode(), script.cells)
    wrong = []
    if done.returncode < 0:
        wrong.append(f"ended by signal {-done.returncode}")
    if name in ("EINTR", "short") and done.returncode != 0:
        wrong.append(f"status {done.returncode}")
    # where a set was refused, or nothing was run, the numbers of its cell are not all alike
    free = set(range(script.cells)) if refused or done.returncode not in (0, 5) else lost
    if not refused:
        wrong += trial.wrong_after_next_run(free if done.returncode in (0, 5, 6) else None)
    trial.remove()
    return wrong


def faults_at_once(program):
    """Pipes, folders and sockets under keys, and the limit on the length of a file."""
    wrong = []
    for kind in ("pipe", "folder", "socket"):
        for key in ("cells/s0/0/0/0", "vol/0/0/0", "views/shot.pgm"):
            trial = Trial(program, Script(2, 1, [5], True), [])
            path = os.path.join(trial.path, key)
            os.makedirs(os.path.dirname(path))
            if kind == "pipe":
                os.mkfifo(path)
            elif kind == "folder":
                os.mkdir(path)
            else:
                place = os.getcwd()
                os.chdir(os.path.dirname(path))
                socket.socket(socket.AF_UNIX).bind(os.path.basename(path))
                os.chdir(place)
            text = trial.script.text() if "views" in key else trial.script.head() + "actor\nget 0 0 0 0\n"
            status = trial.run(text, seconds=10).returncode
            if status != (5 if "views" in key else 1):
                wrong.append(f"a {kind} under {key}: status {status}")
            trial.remove()
    trial = Trial(program, Script(20, 2, [5]), [9])
    before = trial.files()
    limit = lambda: resource.setrlimit(resource.RLIMIT_FSIZE, (4096, 4096))
    done = limited(trial, limit)
    if done.returncode != 5 or b"unsaved 0 write-fault" not in done.stdout:
        wrong.append(f"the limit on the length of a file: status {done.returncode}, {done.stdout[-80:]}")
    after = trial.files()
    if after != before:
        wrong.append(f"the limit on the length of a file: other files: {sorted(after)}")
    trial.remove()
    return wrong


def limited(trial, limit):
    trial.write_script(trial.script.text())
    words = [trial.program, *trial.script.words()]
    return subprocess.run(words, cwd=trial.path, capture_output=True, timeout=60, check=False, preexec_fn=limit)


def main():
    program = n5.built(*sys.argv[1:2])
    wrong = faults_at_once(program)
    print(f"pipes, folders, sockets, the limit on the length of a file: {len(wrong)} faults")
    runs, more = fault_runs(program, library())
    print(f"one failing call a run: {runs} runs; {len(more)} faults")
    for what in (wrong + more)[:40]:
        print(what)
    sys.exit(1 if wrong or more else 0)


if __name__ == "__main__":
    main()
