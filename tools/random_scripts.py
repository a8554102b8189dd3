#!/usr/bin/env python3
"""Compares the built program with tools/solo_reference.py over small random volumes, pyramids and scripts.

    tools/random_scripts.py [--runs 200] [--seed 1] [PROGRAM]        (PROGRAM is crates/viewrun/out/viewrun)

A folder holds one volume, some of whose blocks are missing, broken or of the sizes that an end of an axis allows, and at
times a file or a dangling link where a folder should be. Two scripts run in it, one after the other, the second one over
the first one's edited cells and pictures. Text, status, standard error and each file of the folder are compared byte for
byte. Where something differs the script is cut line by line as long as it still does, and is printed; the folder as it was
before that run is kept. The scripts that were run are told by what they have. No part of the gate.
"""
import argparse
import collections
import json
import os
import random
import shutil
import subprocess
import sys
import tempfile

import n5
import solo_reference

KINDS = ("uint8", "uint8", "uint16", "uint32", "uint64")
STRATEGIES = ("blocking", "volatile", "volatile", "dontload", "budgeted")


def write(folder, key, data):
    n5.write(os.path.join(folder, key), data)


class Maker:
    """Random volumes and scripts, all decided by one number."""

    def __init__(self, seed):
        self.random = random.Random(seed)
        self.many = self.random.random() < 0.05  # so many cells that the prefetch list drops requests
        self.root, self.levels = self.random.choice(["vol", "a/b-c.d"]), self.make_levels()
        self.plain = len(self.levels) == 1 and self.chance(0.8)

    def chance(self, share):
        return self.random.random() < share

    def number(self, low, high):
        return self.random.randint(low, high)

    def make_levels(self):
        if self.many:
            return [([self.number(16, 24), self.number(16, 24), 2], [1, 1, 1], "uint8", [1, 1, 1])]
        return [
            (
                [self.number(1, 9) for _ in range(3)],
                [self.number(1, 4) for _ in range(3)],
                self.random.choice(KINDS),
                [1, 1, 1] if n == 0 and self.chance(0.9) else [self.number(1, 3) for _ in range(3)],
            )
            for n in range(self.random.choice([1, 1, 2, 2, 3]))
        ]

    def value(self, kind):
        return self.random.choice([self.number(0, 255), self.number(0, 256 ** solo_reference.WIDTHS[kind] - 1)])

    def block(self, dims, cell, kind, grid):
        need = [min(c, d - g * c) for c, d, g in zip(cell, dims, grid)]
        sides = [self.random.choice([n, self.number(n, c), c]) for n, c in zip(need, cell)]
        data = n5.block(sides, kind, [self.value(kind) for _ in range(sides[0] * sides[1] * sides[2])])
        if self.chance(0.95):
            return data
        broken = [data[:-1], data + b"\0", data[: self.number(0, 15)], b"\0\1" + data[2:], data[:3] + b"\2" + data[4:], data[:7] + b"\7" + data[8:]]
        return self.random.choice(broken)

    def write_volume(self, folder):
        volume = f"{self.root}/" if self.plain else f"{self.root}/setup0/timepoint0/s%d/"
        for n, (dims, cell, kind, _) in enumerate(self.levels):
            here = volume if self.plain else volume % n
            if not self.plain:
                attributes = {"dimensions": dims, "blockSize": cell, "dataType": kind, "compression": {"type": "raw"}}
                write(folder, here + "attributes.json", json.dumps(attributes))
            share = 0.05 if self.many else self.random.choice([0, 0.8, 0.8, 1])
            for (x, y, z), _ in n5.cells(dims, cell):
                if self.chance(share):
                    write(folder, f"{here}{x}/{y}/{z}", self.block(dims, cell, kind, [x, y, z]))
        if not self.plain:
            write(folder, f"{self.root}/setup0/attributes.json", json.dumps({"downsamplingFactors": [level[3] for level in self.levels]}))
        self.write_faults(folder)

    def write_faults(self, folder):
        if self.chance(0.1):
            os.symlink("nowhere", os.path.join(folder, self.random.choice(["cells", "views"])))
        elif self.chance(0.1):
            write(folder, self.random.choice(["cells", "views", "cells/s0", "cells/s0/0", "cells/s1"]), "a file")
        elif self.chance(0.1):
            os.makedirs(os.path.join(folder, "cells/s0"))
            os.symlink("nowhere", os.path.join(folder, "cells/s0", self.random.choice("01")))

    def entries(self):
        """A q and a matrix: the plain one, a turned one, or any."""
        q = self.number(1, 4)
        way = self.random.random()
        if way < 0.3:
            rows = [[q * (a == b) for b in range(2)] + [0] for a in range(3)]
            rows[2][2] = q * self.number(0, 8)
        elif way < 0.95:
            rows = [[self.number(-4, 4), self.number(-4, 4), self.number(-4, 16)] for _ in range(3)]
        else:
            q, rows = self.random.choice([1, 2**31, 12345]), [[self.random.choice([-(2**31), 0, 0, 1, 2**31]) for _ in range(3)] for _ in range(3)]
        return " ".join(str(n) for n in [q, *rows[0], *rows[1], *rows[2]])

    def view(self, name):
        strategy = self.random.choice(STRATEGIES)
        if strategy == "budgeted":
            strategy += f" {self.number(0, 6)}"
        level = self.random.choice(["auto", 0, 0, self.number(0, len(self.levels) - 1), self.number(0, len(self.levels) - 1), self.number(0, 7)])
        if self.many:
            return f"view {name} 24 24 0 {strategy} 1 1 0 0 0 1 0 0 0 {self.number(0, 1)}"
        return f"view {name} {self.number(1, 12)} {self.number(1, 12)} {level} {strategy} {self.entries()}"

    def voxel(self):
        level = self.number(0, len(self.levels) - 1) if self.chance(0.95) else self.number(0, 7)
        dims, _, kind, _ = self.levels[min(level, len(self.levels) - 1)]
        pos = " ".join(str(self.number(0, d if self.chance(0.05) else d - 1)) for d in dims)
        if self.chance(0.5):
            return f"get {level} {pos}"
        return f"set {level} {pos} {self.value(kind) if self.chance(0.9) else self.number(0, 2**64 - 1)}"

    def script(self, names):
        dims, cell, kind, _ = self.levels[0]
        lines = [f"raw {self.root} {kind} {' '.join(map(str, dims + cell))}" if self.plain else f"open {self.root}"]
        if self.chance(0.7):
            low = self.number(0, 200)
            lines.append(f"range {low} {low + self.number(1, 300)}")
        for _ in range(self.number(1, 3)):
            lines.append("phase")
            for _ in range(self.number(1, 3)):
                lines.append("actor")
                for _ in range(self.number(0, 8)):
                    way = self.random.random()
                    lines.append(self.voxel() if way < 0.45 else f"fetch {self.number(0, 300 if self.many else 12)}" if way < 0.6 else self.view(names.pop(0)))
        return "\n".join(lines) + "\n"

    def slots(self):
        return self.random.choice([2, 2, 3, 4, 5, 8, 16, 100])


def files(folder):
    found = {}
    for where, _, names in os.walk(folder):
        for path in (os.path.join(where, name) for name in names):
            if not os.path.islink(path):
                with open(path, "rb") as file:
                    found[os.path.relpath(path, folder)] = file.read()
    return found


def difference(program, script, slots, before, folder):
    """Runs the script in a copy, `folder`, of the folder `before`; the first difference, or None; and the text."""
    text, status, puts = solo_reference.solo(script, slots, before)
    wanted = {**files(before), **puts}
    shutil.rmtree(folder, ignore_errors=True)
    shutil.copytree(before, folder, symlinks=True)
    script_file = folder + ".script"
    with open(script_file, "w") as file:
        file.write(script)
    done = subprocess.run([program, "solo", script_file, "--slots", str(slots)], cwd=folder, capture_output=True, timeout=60, check=False)
    found = files(folder)
    for what, one, other in (("status", done.returncode, status), ("text", done.stdout.decode(), text), ("standard error", done.stderr, b"")):
        if one != other:
            return f"{what}: found {one!r}, wanted {other!r}", text
    for key in sorted(found.keys() | wanted.keys()):
        if found.get(key) != wanted.get(key):
            return f"{key}: found {found.get(key)}, wanted {wanted.get(key)}", text
    return None, text


def least(program, script, slots, before, folder):
    """The script without each line that the difference doesn't need."""
    lines, n = script.splitlines(), 1
    while n < len(lines):
        shorter = "\n".join(lines[:n] + lines[n + 1 :]) + "\n"
        last = lines[n] in ("phase", "actor") and n + 1 < len(lines) and lines[n + 1] not in ("phase", "actor")
        if not last and difference(program, shorter, slots, before, folder)[0]:
            del lines[n]
        else:
            n += 1
    return "\n".join(lines) + "\n"


def compare(program, seed, top, seen):
    """Two scripts in one folder; True where nothing differs."""
    maker = Maker(seed)
    names = [f"p{n}" for n in range(100)]
    before, after = os.path.join(top, f"{seed}"), os.path.join(top, f"{seed}.after")
    os.makedirs(before)
    maker.write_volume(before)
    for again in (False, True):
        script, slots = maker.script(list(names) if again else names), maker.slots()
        found, text = difference(program, script, slots, before, after)
        if found:
            script = least(program, script, slots, before, after)
            print(f"seed {seed}, script {again + 1}, --slots {slots}, folder {before}\n{script}{difference(program, script, slots, before, after)[0]}", flush=True)
            return False
        seen.update(text.split())
        seen.update(word for word in script.split() if word in STRATEGIES)
        shutil.rmtree(before)
        os.rename(after, before)
    shutil.rmtree(before)
    return True


def main():
    words = argparse.ArgumentParser()
    words.add_argument("program", nargs="?")
    words.add_argument("--runs", type=int, default=200)
    words.add_argument("--seed", type=int, default=1)
    words = words.parse_args()
    program, top, seen = n5.built(words.program), tempfile.mkdtemp(), collections.Counter()
    good = sum(compare(program, seed, top, seen) for seed in range(words.seed, words.seed + words.runs))
    told = ("value", "done", "complete", "partial", "fetched", "outside", "too-large", "malformed", "too-long", "read-fault", "write-fault", "unsaved", "unwritten")
    print(" ".join(f"{word} {seen[word]}" for word in (*dict.fromkeys(STRATEGIES), *told)))
    print(f"{good} of {words.runs} folders as the reference says")
    if good < words.runs:
        sys.exit(1)
    shutil.rmtree(top)


if __name__ == "__main__":
    main()
