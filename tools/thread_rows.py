#!/usr/bin/env python3
"""Runs random scripts by threads, again and again, and checks what every interleaving must give.

    tools/thread_rows.py [--runs 1000] [--seed 1] [PROGRAM]        (PROGRAM is crates/viewrun/out/viewrun)

Each voxel has one actor that may set it. So each actor's gets of its own voxels are decided, and so are all files at the end;
a get of another actor's voxel, and a pixel, shows a number that the voxel had in this phase. 2 to 16 actors and 0 to 16
fetchers share few slots or many; views are blocking or volatile, and `fetch` serves what they ask for. Compared are the
status, each reply, each pixel, the sums of the tally, and every file of the folder, byte for byte. A folder serves for two
runs, the second one over the first one's edited cells. Where something differs the folder as it was before is kept. No part
of the gate.
"""
import argparse
import collections
import json
import os
import random
import shutil
import subprocess
import sys
import tempfile

import n5
from solo_reference import Level, View, Volume

SECONDS = 120


class Arrays:
    """The voxels of a volume: what each holds, and what it held in this phase."""

    def __init__(self, volume):
        self.volume = volume
        self.values, self.had, self.edited = {}, {}, set()

    def get(self, voxel):
        return self.values.get(voxel, 0)

    def set(self, voxel, value):
        self.had.setdefault(voxel, {self.get(voxel)}).add(value)
        self.values[voxel] = value
        self.edited.add(self.volume.place(voxel[0], voxel[1:])[0])

    def held_in_phase(self, voxel):
        return self.had.get(voxel, {self.get(voxel)})

    def block(self, cell):
        """The cell's own block."""
        level, grid = self.volume.grid_of(cell)
        shape, sides = self.volume.shape_of(cell)
        ranges = [range(g * c, g * c + s) for g, c, s in zip(grid, shape.cell, sides)]
        values = [self.get((level, x, y, z)) for z in ranges[2] for y in ranges[1] for x in ranges[0]]
        return n5.block(sides, f"uint{8 * shape.width}", values)


class Team:
    """A random volume and random scripts over it, all decided by one number."""

    def __init__(self, seed):
        self.random = random.Random(seed)
        self.actors, self.fetchers = self.number(2, 16), self.random.choice([0, 0, 1, 2, 4, 16])
        self.levels = [Level([self.number(4, 12) for _ in range(3)], [self.number(1, 4) for _ in range(3)], self.random.choice(list(n5.WIDTHS)), [n + 1] * 3) for n in range(self.number(1, 3))]
        # as many as sums of a level's coordinates, so that each actor has voxels of its own
        self.actors = min(self.actors, max(sum(level.dims) - 2 for level in self.levels))
        self.volume = Volume("vol", False, self.levels)
        self.arrays = Arrays(self.volume)
        self.names = 0

    def number(self, low, high):
        return self.random.randint(low, high)

    def slots(self):
        least = max(2, 2 * self.actors + self.fetchers + 1)
        return self.random.choice([least, least, least + self.number(0, 8), 200])

    def write_volume(self, folder):
        for n, level in enumerate(self.levels):
            here = os.path.join(folder, f"vol/setup0/timepoint0/s{n}")
            kind = f"uint{8 * level.width}"
            told = {"dimensions": level.dims, "blockSize": level.cell, "dataType": kind, "compression": {"type": "raw"}}
            n5.write(os.path.join(here, "attributes.json"), json.dumps(told))
            for (x, y, z) in ((x, y, z) for z in range(level.dims[2]) for y in range(level.dims[1]) for x in range(level.dims[0])):
                self.arrays.values[(n, x, y, z)] = self.number(0, 255)
            n5.write_level(here, level.dims, level.cell, kind, lambda x, y, z, n=n: self.arrays.get((n, x, y, z)))
        factors = {"downsamplingFactors": [level.factor for level in self.levels]}
        n5.write(os.path.join(folder, "vol/setup0/attributes.json"), json.dumps(factors))

    def voxel(self, actor=None):
        """Any voxel, or one that an actor may set."""
        while True:
            level = self.number(0, len(self.levels) - 1)
            voxel = (level, *(self.number(0, d - 1) for d in self.levels[level].dims))
            if actor is None or sum(voxel) % self.actors == actor:
                return voxel

    def view(self):
        strategy = self.random.choice(["blocking", "blocking", "volatile", "volatile", "dontload", "budgeted 3"])
        level = self.random.choice(["auto", *range(len(self.levels))])
        q = self.number(1, 2)
        rows = [[self.number(-2, 2), self.number(-2, 2), self.number(0, 12)] for _ in range(3)]
        self.names += 1
        entries = " ".join(str(n) for n in [q, *rows[0], *rows[1], *rows[2]])
        return f"view v{self.names} {self.number(1, 16)} {self.number(1, 16)} {level} {strategy} {entries}"

    def command(self, actor):
        way = self.random.random()
        if way < 0.4:
            voxel = self.voxel(actor)
            return f"set {' '.join(map(str, voxel))} {self.number(0, 256 ** self.levels[voxel[0]].width - 1)}"
        if way < 0.7:
            return "get " + " ".join(map(str, self.voxel(actor if way < 0.55 else None)))
        return self.view() if way < 0.9 else f"fetch {self.number(0, 8)}"

    def script(self):
        """Phases of actors, each with its commands."""
        return [[[self.command(actor) for _ in range(self.number(0, 12))] for actor in range(self.actors)] for _ in range(self.number(1, 3))]


def text_of(phases):
    lines = ["open vol", "range 0 255"]
    for phase in phases:
        lines.append("phase")
        for commands in phase:
            lines += ["actor", *commands]
    return "\n".join(lines) + "\n"


class Judge:
    """What a run wrote, against what it may write."""

    def __init__(self, team, folder, text):
        self.team, self.arrays, self.folder = team, team.arrays, folder
        self.lines = text.splitlines()
        self.replies = dict(line.split(" ", 1) for line in self.lines if line[:1].isdigit())
        self.own = None
        self.wrong, self.pictures = [], set()

    def expect(self, what, good):
        if not good:
            self.wrong.append(what)

    def phase(self, number, phase):
        """All that is set in the phase may be seen by others; an actor's own voxels are decided."""
        before = dict(self.arrays.values)
        self.arrays.had = {}
        for commands in phase:
            for words in (command.split() for command in commands):
                if words[0] == "set":
                    self.arrays.set(tuple(map(int, words[1:5])), int(words[5]))
        after = self.arrays.values
        for actor, commands in enumerate(phase):
            self.arrays.values, self.own = dict(before), actor
            for call, command in enumerate(commands):
                self.command(f"{number}.{actor}.{call}", command, actor)
        self.arrays.values = after

    def may_hold(self, voxel):
        own = sum(voxel) % self.team.actors == self.own
        return {self.arrays.get(voxel)} if own else self.arrays.held_in_phase(voxel)

    def command(self, name, command, actor):
        words, reply = command.split(), self.replies.get(name, "no reply").split()
        if words[0] == "set":
            self.arrays.values[tuple(map(int, words[1:5]))] = int(words[5])
            self.expect(f"{name} {command}: {reply}", reply == ["done"])
        elif words[0] == "get":
            values = self.may_hold(tuple(map(int, words[1:5])))
            self.expect(f"{name} {command}: {reply}, not of {values}", reply[0] == "value" and int(reply[1]) in values)
        elif words[0] == "fetch":
            counts = [int(word) for word in reply[1::2]]
            self.expect(f"{name} {command}: {reply}", reply[::2] == ["fetched", "held", "refused"] and sum(counts) <= int(words[1]) and counts[2] == 0)
        else:
            self.frame(name, View(words, actor, [0, 255]), reply)

    def frame(self, name, view, reply):
        wanted = view.wanted(self.team.levels)
        complete = reply[-1] == "complete"
        self.expect(f"{name}: {reply}", reply[:3] == ["frame", "level", str(wanted)] and (complete or (reply[3] == "partial" and view.strategy != "blocking")))
        self.pictures.add(f"views/{view.name}.pgm")
        with open(os.path.join(self.folder, f"views/{view.name}.pgm"), "rb") as file:
            data = file.read()
        width, height = view.sides
        head = f"P5\n{width} {height}\n255\n".encode()
        self.expect(f"{name}: the head of its picture", data.startswith(head) and len(data) == len(head) + width * height)
        for at, value in enumerate(data[len(head) :]):
            shown = self.may_show(view, at % width, at // width, wanted, complete)
            if value not in shown:
                self.expect(f"{name} {view.strategy} pixel {at % width} {at // width}: {value}, not of {shown}", False)
                return

    def may_show(self, view, x, y, wanted, complete):
        """What a pixel may show: a number of its voxel at the wanted level, or at a coarser one where the frame is partial."""
        shown = set() if complete else {0}
        for level in range(wanted, wanted + 1 if complete else len(self.team.levels)):
            voxel = (level, *view.voxel(x, y, self.team.levels[level]))
            if self.team.volume.place(level, voxel[1:]) is None:
                return shown | {0}
            shown |= {view.shown(value) for value in self.may_hold(voxel)}
        return shown

    def counts(self, phases):
        words = next(line for line in self.lines if line.startswith("tally")).split()
        tally = dict(zip(words[1::2], map(int, words[2::2])))
        calls = sum(command[0] in "gs" for phase in phases for commands in phase for command in commands)
        self.expect(f"loads {tally}", tally["loads"] == tally["evictions"] + tally["closed"])
        self.expect(f"misses {tally}", tally["loads"] <= tally["misses"] and calls <= tally["hits"] + tally["misses"])
        self.expect(f"writebacks {tally}", len(self.marked(phases)) <= tally["writebacks"])

    def marked(self, phases):
        sets = [tuple(map(int, command.split()[1:5])) for phase in phases for commands in phase for command in commands if command.startswith("set")]
        return {self.team.volume.place(voxel[0], voxel[1:])[0] for voxel in sets}

    def files(self, before):
        """Each edited cell's file, each picture, and nothing else."""
        found = files_in(self.folder)
        wanted = dict(before)
        for cell in self.arrays.edited:
            wanted[self.team.volume.edited(cell)] = self.arrays.block(cell)
        names = {name for name in found.keys() | wanted.keys() if not name.startswith("views/")}
        self.wrong += [f"the file {name}" for name in sorted(names) if found.get(name) != wanted.get(name)]
        old = {name for name in before if name.startswith("views/")}
        self.expect("the pictures", {name for name in found if name.startswith("views/")} == old | self.pictures)


def files_in(folder):
    found = {}
    for where, _, names in os.walk(folder):
        for path in (os.path.join(where, name) for name in names):
            with open(path, "rb") as file:
                found[os.path.relpath(path, folder)] = file.read()
    return found


def run(program, team, folder, seen):
    """One run in the folder; what was wrong."""
    phases, slots = team.script(), team.slots()
    n5.write(folder + ".script", text_of(phases))
    before = files_in(folder)
    words = [program, "run", folder + ".script", "--slots", str(slots), "--fetchers", str(team.fetchers)]
    done = subprocess.run(words, cwd=folder, capture_output=True, timeout=SECONDS, check=False)
    text = done.stdout.decode()
    if done.returncode != 0 or done.stderr:
        return [f"status {done.returncode}, {done.stderr!r}, {text[-300:]}"]
    judge = Judge(team, folder, text)
    for number, phase in enumerate(phases):
        judge.phase(number, phase)
    judge.counts(phases)
    judge.files(before)
    seen.update(text.split())
    return judge.wrong


def main():
    words = argparse.ArgumentParser()
    words.add_argument("program", nargs="?")
    words.add_argument("--runs", type=int, default=1000)
    words.add_argument("--seed", type=int, default=1)
    words = words.parse_args()
    program, top, seen, good = n5.built(words.program), tempfile.mkdtemp(), collections.Counter(), 0
    for seed in range(words.seed, words.seed + (words.runs + 1) // 2):
        team, folder = Team(seed), os.path.join(top, str(seed))
        team.write_volume(folder)
        for again in (1, 2):
            shutil.copytree(folder, folder + ".before", dirs_exist_ok=True)
            wrong = run(program, team, folder, seen)
            if wrong:
                print(f"seed {seed}, run {again}, {team.actors} actors, {team.fetchers} fetchers, folder {folder}.before\n  " + "\n  ".join(wrong[:10]), flush=True)
                break
            good += 1
            shutil.rmtree(folder + ".before")
        else:
            shutil.rmtree(folder)
    told = ("value", "done", "complete", "partial", "fetched")
    print(" ".join(f"{word} {seen[word]}" for word in told))
    wanted = 2 * ((words.runs + 1) // 2)
    print(f"{good} of {wanted} runs by threads as every interleaving must give")
    if good < wanted:
        sys.exit(1)
    shutil.rmtree(top)


if __name__ == "__main__":
    main()
