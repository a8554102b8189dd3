#!/usr/bin/env python3
"""Runs the built program over real folders, and compares what it writes with what it is to write.

    tools/check_program.py [PROGRAM]        (PROGRAM is crates/viewrun/out/viewrun, which a whole `rt ci` leaves there)

It shows what no contract can say, since a folder is outside: an edit survives its eviction and a second run; a file where
the folder of edited cells should be is a fault that changes no other file; a view's picture is written, and put again over
an old one that was longer; where the folder of pictures can't be, the picture is named; six actors on threads edit and read
three cells, and too few slots for them are refused; the demonstration's line is the one of its number; scripts without a last line end, without a byte, and of one byte too
many get their statuses at once. `.ci/run` runs it after `rt ci`.
"""
import os
import subprocess
import sys
import tempfile

import n5

HEAD = "raw vol uint8 6 2 2 2 2 2\n"
EDITED = bytes.fromhex("000000030000000200000002000000020900000000000000")
UNIT = "1 1 0 0 0 1 0 0 0 0\n"
# The sums of the demonstration's pictures, by their number, computed apart from the program.
SUMS = {0: 133205634, 1: 133231600, 2: 133131660, 7: 133130260, 2**64 - 1: 133170152}
NOTHING = "tally hits 0 misses 0 loads 0 evictions 0 writebacks 0 closed 0\n"


class Folder:
    """A working folder of a run."""

    def __init__(self, program):
        self.program = program
        self.path = tempfile.mkdtemp()

    def write(self, name, data):
        n5.write(os.path.join(self.path, name), data)

    def files(self):
        found = {}
        for folder, _, names in os.walk(self.path):
            for name in names:
                path = os.path.join(folder, name)
                if os.path.islink(path):
                    continue
                with open(path, "rb") as file:
                    found[os.path.relpath(path, self.path)] = file.read()
        return found

    def pictures(self):
        return {name: data for name, data in self.files().items() if name.startswith("views")}

    def call(self, *words):
        """What a call writes, and its status."""
        done = subprocess.run([self.program, *words], cwd=self.path, capture_output=True, timeout=60, check=False)
        expect("standard error", done.stderr, b"")
        return done.stdout.decode(), done.returncode

    def run(self, script, status, text):
        self.write("script", script)
        expect("text and status", self.call("solo", "script", "--slots", "2"), (text, status))


def expect(what, found, wanted):
    if found != wanted:
        sys.exit(f"{what}: found {found!r}, wanted {wanted!r}")


def an_edit_survives(program):
    folder = Folder(program)
    commands = "phase\nactor\nset 0 0 0 0 9\nget 0 2 0 0\nget 0 4 0 0\nget 0 0 0 0\n"
    text = "0.0.0 done\n0.0.1 value 0\n0.0.2 value 0\n0.0.3 value 9\ntally hits 0 misses 4 loads 4 evictions 2 writebacks 1 closed 2\n"
    folder.run(HEAD + commands, 0, text)
    expect("the edited cell", folder.files()["cells/s0/0/0/0"], EDITED)
    folder.run(HEAD + "phase\nactor\nget 0 0 0 0\n", 0, "0.0.0 value 9\ntally hits 0 misses 1 loads 1 evictions 0 writebacks 0 closed 1\n")


def a_file_in_place_of_a_folder_is_a_fault(program):
    folder = Folder(program)
    folder.write("cells", "not a folder")
    folder.write("other", "stays")
    text = "0.0.0 refused read-fault\ntally hits 0 misses 1 loads 0 evictions 0 writebacks 0 closed 0\n"
    folder.run(HEAD + "phase\nactor\nset 0 0 0 0 9\n", 1, text)
    expect("the files", {name: data for name, data in folder.files().items() if name != "script"}, {"cells": b"not a folder", "other": b"stays"})


def a_put_that_fails_names_the_cell(program):
    folder = Folder(program)
    os.symlink("nowhere", os.path.join(folder.path, "cells"))
    folder.write("other", "stays")
    text = "0.0.0 done\ntally hits 0 misses 1 loads 1 evictions 0 writebacks 0 closed 0\nunsaved 0 write-fault\n"
    folder.run(HEAD + "phase\nactor\nset 0 0 0 0 9\n", 5, text)
    expect("the files", {name: data for name, data in folder.files().items() if name != "script"}, {"other": b"stays"})


def a_picture_is_put_again(program):
    folder = Folder(program)
    folder.write("vol/0/0/0", bytes.fromhex("0000000300000002000000020000000201ff000a00000000"))
    text = "0.0.0 frame level 0 complete\ntally hits 0 misses 1 loads 1 evictions 0 writebacks 0 closed 1\n"
    folder.run(HEAD + "phase\nactor\nview a_1 2 2 0 blocking " + UNIT, 0, text)
    expect("the pictures", folder.pictures(), {"views/a_1.pgm": b"P5\n2 2\n255\n\x01\xff\x00\x0a"})
    folder.write("views/other", "stays")
    text = "0.0.0 done\n0.0.1 frame level 0 complete\ntally hits 1 misses 1 loads 1 evictions 0 writebacks 1 closed 1\n"
    folder.run(HEAD + "phase\nactor\nset 0 0 0 0 7\nview a_1 1 1 0 blocking " + UNIT, 0, text)
    expect("the pictures", folder.pictures(), {"views/a_1.pgm": b"P5\n1 1\n255\n\x07", "views/other": b"stays"})
    # a view of a level that isn't there puts no picture
    folder.run(HEAD + "phase\nactor\nview a_1 2 2 1 blocking " + UNIT, 1, "0.0.0 refused outside\n" + NOTHING)
    expect("the pictures", folder.pictures(), {"views/a_1.pgm": b"P5\n1 1\n255\n\x07", "views/other": b"stays"})


def a_picture_that_fails_is_named(program):
    folder = Folder(program)
    folder.write("views", "not a folder")
    commands = f"phase\nactor\nset 0 0 0 0 9\nview b 1 1 0 blocking {UNIT}view a 1 1 0 dontload {UNIT}get 7 0 0 0\n"
    replies = "0.0.0 done\n0.0.1 frame level 0 complete\n0.0.2 frame level 0 complete\n0.0.3 refused outside\n"
    tally = "tally hits 2 misses 1 loads 1 evictions 0 writebacks 1 closed 1\n"
    folder.run(HEAD + commands, 5, replies + tally + "unwritten b write-fault\nunwritten a write-fault\n")
    expect("the pictures", folder.pictures(), {"views": b"not a folder"})
    expect("the edited cell", folder.files()["cells/s0/0/0/0"], EDITED)


def threads_edit_and_read(program):
    folder = Folder(program)
    phases = [[f"set 0 {actor} {row} 0 {10 * actor + row}" for row in (0, 1)] for actor in range(6)], [[f"get 0 {actor} {row} 0" for row in (0, 1)] for actor in range(6)]
    folder.write("script", HEAD + "".join("phase\n" + "".join("actor\n" + "\n".join(commands) + "\n" for commands in phase) for phase in phases))
    replies = [f"0.{actor}.{row} done" for actor in range(6) for row in (0, 1)] + [f"1.{actor}.{row} value {10 * actor + row}" for actor in range(6) for row in (0, 1)]
    for again in (1, 2):
        text, status = folder.call("run", "script", "--slots", "16", "--fetchers", "3")
        expect("the status of run", status, 0)
        expect("the replies of run", text.splitlines()[:-1], replies)
    written = {name: data[16:] for name, data in folder.files().items() if name.startswith("cells")}
    wanted = {f"cells/s0/{cell}/0/0": bytes([20 * cell, 20 * cell + 10, 20 * cell + 1, 20 * cell + 11, 0, 0, 0, 0]) for cell in range(3)}
    expect("the edited cells of run", written, wanted)
    expect("too few slots", folder.call("run", "script", "--slots", "15", "--fetchers", "3"), ("slots 15 outside 16 to 4096\n", 9))


def a_number_decides_the_line(program):
    # that of 1 twice, each time in an empty folder
    for number, total in [*SUMS.items(), (1, SUMS[1])]:
        folder = Folder(program)
        expect("the line of the demonstration", folder.call("demo", str(number)), (f"demo {number} cells 1152 edits 1024 complete 4 sum {total}\n", 0))
        expect("the sum of its pictures", sum(sum(data[-512 * 512 :]) for data in folder.pictures().values()), total)
    folder = Folder(program)
    folder.write("demo", b"")
    expect("a demonstration whose folder can't be made", folder.call("demo", "1"), ("store write-fault\n", 5))


def scripts_get_their_statuses(program):
    folder = Folder(program)
    folder.run(HEAD.rstrip("\n"), 0, NOTHING)
    folder.run("", 3, "script line 1 order\n")
    folder.run(b"#" * (2**20 + 1), 3, "script line 0 limit\n")
    folder.run(HEAD + "#" * (2**20 - len(HEAD)), 0, NOTHING)


def main():
    program = n5.built(*sys.argv[1:2])
    an_edit_survives(program)
    a_file_in_place_of_a_folder_is_a_fault(program)
    a_put_that_fails_names_the_cell(program)
    a_picture_is_put_again(program)
    a_picture_that_fails_is_named(program)
    threads_edit_and_read(program)
    a_number_decides_the_line(program)
    scripts_get_their_statuses(program)
    print("the program over real folders: as it is to be")


if __name__ == "__main__":
    main()
