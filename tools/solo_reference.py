#!/usr/bin/env python3
"""`viewrun solo`, told a second time in plain Python, to compare the program with.

    solo_reference.py SCRIPT --slots N          (in the working folder of the run)

It writes the report that the program is to write, ends with its status, and keeps the edited cells and the pictures in
memory alone. It shares no code with the program and is no part of the proof: it serves as an outside source of expected
values. Scripts of every line of the grammar are understood; the script has to be in the grammar. A file or a dangling link
where a folder should be is a fault, as it is for the program. tools/random_scripts.py compares it with the program.
"""
import json
import os
import struct
import sys

WIDTHS = {"uint8": 1, "uint16": 2, "uint32": 4, "uint64": 8}
PREFETCH = 256


class Level:
    def __init__(self, dims, cell, kind, factor):
        self.dims, self.cell, self.width, self.factor = dims, cell, WIDTHS[kind], factor
        self.counts = [-(-d // c) for d, c in zip(dims, cell)]
        self.cells = self.counts[0] * self.counts[1] * self.counts[2]


class Volume:
    """Cells, their sides and their keys."""

    def __init__(self, root, plain, levels):
        self.root, self.plain, self.levels = root, plain, levels
        self.first = [sum(level.cells for level in levels[:n]) for n in range(len(levels))]

    def place(self, level, pos):
        if level >= len(self.levels):
            return None
        shape = self.levels[level]
        if any(not 0 <= p < d for p, d in zip(pos, shape.dims)):
            return None
        grid = [p // c for p, c in zip(pos, shape.cell)]
        inside = [p % c for p, c in zip(pos, shape.cell)]
        sides = self.sides(shape, grid)
        cell = self.first[level] + grid[0] + shape.counts[0] * (grid[1] + shape.counts[1] * grid[2])
        return cell, inside[0] + sides[0] * (inside[1] + sides[1] * inside[2])

    @staticmethod
    def sides(shape, grid):
        return [min(c, d - g * c) for c, d, g in zip(shape.cell, shape.dims, grid)]

    def grid_of(self, cell):
        level = max(n for n in range(len(self.levels)) if self.first[n] <= cell)
        x, rest = (cell - self.first[level]) % self.levels[level].counts[0], (cell - self.first[level]) // self.levels[level].counts[0]
        return level, [x, rest % self.levels[level].counts[1], rest // self.levels[level].counts[1]]

    def shape_of(self, cell):
        """The cell's level, and its own sides."""
        level, grid = self.grid_of(cell)
        return self.levels[level], self.sides(self.levels[level], grid)

    def base(self, cell):
        level, grid = self.grid_of(cell)
        middle = "" if self.plain else f"setup0/timepoint0/s{level}/"
        return f"{self.root}/{middle}{grid[0]}/{grid[1]}/{grid[2]}"

    def edited(self, cell):
        level, grid = self.grid_of(cell)
        return f"cells/s{level}/{grid[0]}/{grid[1]}/{grid[2]}"


class Refused(Exception):
    """A refusal, in the report's words."""


def read_block(data, width, need, full, edited):
    where = "edited" if edited else "base"
    limit = 16 + width * full[0] * full[1] * full[2]
    if len(data) > limit:
        raise Refused(f"too-long {where} {len(data)} {limit}")
    if len(data) < 16:
        raise Refused(f"malformed {where} short {len(data)} 16")
    mode, axes, *sides = struct.unpack(">HHIII", data[:16])
    if mode != 0:
        raise Refused(f"malformed {where} mode {mode}")
    if axes != 3:
        raise Refused(f"malformed {where} axes {axes}")
    for axis in range(3):
        if not need[axis] <= sides[axis] <= full[axis]:
            raise Refused(f"malformed {where} side {axis} {sides[axis]}")
    length = 16 + width * sides[0] * sides[1] * sides[2]
    if len(data) < length:
        raise Refused(f"malformed {where} short {len(data)} {length}")
    if len(data) > length:
        raise Refused(f"malformed {where} trailing {len(data)} {length}")
    inside = (x + sides[0] * (y + sides[1] * z) for z in range(need[2]) for y in range(need[1]) for x in range(need[0]))
    return [int.from_bytes(data[16 + width * at : 16 + width * (at + 1)], "big") for at in inside]


class Folder:
    """The files of a folder, and what was put since, which stays in memory."""

    def __init__(self, path):
        self.path, self.put_files = path, {}

    def parents(self, key):
        parts = key.split("/")
        return [os.path.join(self.path, *parts[:n]) for n in range(1, len(parts))]

    def get(self, key):
        if key in self.put_files:
            return self.put_files[key]
        if any(os.path.isfile(parent) for parent in self.parents(key)):
            raise Refused("read-fault")
        path = os.path.join(self.path, key)
        if not os.path.isfile(path):
            return None
        with open(path, "rb") as file:
            return file.read()

    def put(self, key, data):
        done = all(os.path.isdir(parent) or not os.path.lexists(parent) for parent in self.parents(key))
        if done:
            self.put_files[key] = data
        return done


class Cache:
    def __init__(self, volume, slots, folder):
        self.volume, self.slots, self.folder = volume, slots, folder
        self.live = {}  # cell -> [slot, marked, values]
        self.cold, self.kept = [], []
        self.tally = dict.fromkeys(["hits", "misses", "loads", "evictions", "writebacks", "closed"], 0)

    def leave(self, slot):
        for slots in (self.cold, self.kept):
            if slot in slots:
                slots.remove(slot)

    def touch(self, slot):
        self.leave(slot)
        self.kept.append(slot)
        if len(self.kept) > self.slots // 2:
            self.cold.append(self.kept.pop(0))

    def turn_out(self, cell, counted):
        """The cell leaves, and its slot is free; or it stays, since its put failed."""
        slot, marked, values = self.live[cell]
        if marked:
            shape, sides = self.volume.shape_of(cell)
            head = struct.pack(">HHIII", 0, 3, *sides)
            if not self.folder.put(self.volume.edited(cell), head + b"".join(v.to_bytes(shape.width, "big") for v in values)):
                return False
            self.tally["writebacks"] += 1
        del self.live[cell]
        self.tally[counted] += 1
        self.leave(slot)
        return True

    def free_slot(self):
        taken = {entry[0] for entry in self.live.values()}
        if len(taken) < self.slots:
            return min(slot for slot in range(self.slots) if slot not in taken)
        slot = (self.cold + self.kept)[0]
        if self.turn_out(next(cell for cell, entry in self.live.items() if entry[0] == slot), "evictions"):
            return slot
        self.touch(slot)
        raise Refused("write-fault")

    def look(self, cell):
        """The cell's entry where it is live: a hit; else None: a miss."""
        if cell not in self.live:
            self.tally["misses"] += 1
            return None
        self.tally["hits"] += 1
        self.touch(self.live[cell][0])
        return self.live[cell]

    def acquire(self, cell):
        """The cell's entry, and whether it was loaded."""
        entry = self.look(cell)
        if entry is not None:
            return entry, False
        slot = self.free_slot()
        shape, sides = self.volume.shape_of(cell)
        values = [0] * (sides[0] * sides[1] * sides[2])
        for edited in (True, False):
            data = self.folder.get(self.volume.edited(cell) if edited else self.volume.base(cell))
            if data is not None:
                values = read_block(data, shape.width, sides, shape.cell, edited)
                break
        self.tally["loads"] += 1
        self.cold.append(slot)
        self.live[cell] = [slot, False, values]
        return self.live[cell], True

    def shut(self):
        """The cells whose last put failed."""
        return [cell for cell in sorted(self.live, key=lambda c: self.live[c][0]) if not self.turn_out(cell, "closed")]


class Queues:
    """Pairs of viewer and cell, by priority, and a prefetch list."""

    def __init__(self, priorities):
        self.lists = [[] for _ in range(priorities)]
        self.prefetch = []

    def put(self, pair, priority):
        for pairs in (*self.lists, self.prefetch):
            if pair in pairs:
                pairs.remove(pair)
        self.lists[priority].append(pair)

    def take(self):
        for pairs in (*self.lists, self.prefetch):
            if pairs:
                return pairs.pop(0)
        return None

    def clear(self, viewer):
        for pairs in self.lists:
            self.prefetch += [pair for pair in pairs if pair[0] == viewer]
            pairs[:] = [pair for pair in pairs if pair[0] != viewer]
        del self.prefetch[: max(0, len(self.prefetch) - PREFETCH)]


class View:
    def __init__(self, words, viewer, bounds):
        self.name, self.viewer, self.bounds = words[1], viewer, bounds
        self.sides, self.level, self.strategy = [int(w) for w in words[2:4]], words[4], words[5]
        self.budget = int(words[6]) if self.strategy == "budgeted" else 0
        self.q, *entries = [int(w) for w in words[7 if self.strategy == "budgeted" else 6 :]]
        self.rows = [entries[0:3], entries[3:6], entries[6:9]]

    def wanted(self, levels):
        """The view's level, or the first that is fine enough; None where there is no such level."""
        if self.level != "auto":
            return int(self.level) if int(self.level) < len(levels) else None
        fine = [n for n, level in enumerate(levels) if all(abs(m) <= self.q * f for row, f in zip(self.rows, level.factor) for m in row[:2])]
        return fine[0] if fine else len(levels) - 1

    def voxel(self, x, y, level):
        return [(2 * (row[0] * x + row[1] * y + row[2]) + self.q) // (2 * self.q * f) for row, f in zip(self.rows, level.factor)]

    def shown(self, value):
        low, high = self.bounds
        return 0 if value <= low else 255 if value >= high else (value - low) * 255 // (high - low)


class Painter:
    """One frame of a view."""

    def __init__(self, cache, queues, view):
        self.cache, self.queues, self.view = cache, queues, view
        self.left = view.budget
        self.held, self.values = None, None  # the cell of the last look, where it was ready
        self.unready = {}  # level -> the cell of its last look that wasn't

    def look(self, level, cell):
        """Whether the cell is held now."""
        if self.held == cell:
            return True
        if self.unready.get(level) == cell:
            return False
        self.held = None
        if self.view.strategy == "blocking" or self.left > 0:
            entry, loaded = self.cache.acquire(cell)
            self.left -= 1 if loaded and self.left > 0 else 0
        else:
            entry = self.cache.look(cell)
        if entry is None:
            if self.view.strategy != "dontload":
                self.queues.put((self.view.viewer, cell), len(self.cache.volume.levels) - 1 - level)
            self.unready[level] = cell
            return False
        self.held, self.values = cell, entry[2]
        return True

    def pixel(self, x, y, wanted):
        """The pixel's value and its mask, which is a level or None."""
        levels = self.cache.volume.levels
        for level in range(wanted, len(levels)):
            place = self.cache.volume.place(level, self.view.voxel(x, y, levels[level]))
            if place is None:
                return 0, level
            if self.look(level, place[0]):
                return self.view.shown(self.values[place[1]]), level
        return 0, None

    def paint(self):
        """The picture's bytes, the wanted level, and how many pixels don't show it."""
        self.queues.clear(self.view.viewer)
        wanted = self.view.wanted(self.cache.volume.levels)
        width, height = self.view.sides
        pixels = [self.pixel(x, y, wanted) for y in range(height) for x in range(width)]
        head = f"P5\n{width} {height}\n255\n".encode()
        return head + bytes(value for value, _ in pixels), wanted, sum(mask != wanted for _, mask in pixels)


class Run:
    """A script's commands, one after another."""

    def __init__(self, volume, slots, bounds, folder):
        self.cache, self.queues = Cache(volume, slots, folder), Queues(len(volume.levels))
        self.bounds = bounds or [0, 256 ** volume.levels[0].width - 1]
        self.pictures = []

    def voxel(self, words):
        volume = self.cache.volume
        level, pos = int(words[1]), [int(w) for w in words[2:5]]
        place = volume.place(level, pos)
        if place is None:
            raise Refused("outside")
        if words[0] == "set" and int(words[5]) >= 256 ** volume.levels[level].width:
            raise Refused(f"too-large {int(words[5])}")
        entry, _ = self.cache.acquire(place[0])
        if words[0] == "get":
            return f"value {entry[2][place[1]]}"
        entry[1], entry[2][place[1]] = True, int(words[5])
        return "done"

    def view(self, words, viewer):
        view = View(words, viewer, self.bounds)
        if view.wanted(self.cache.volume.levels) is None:
            raise Refused("outside")
        picture, wanted, others = Painter(self.cache, self.queues, view).paint()
        self.pictures.append((view.name, picture))
        return f"frame level {wanted} " + (f"partial {others}" if others else "complete")

    def fetch(self, words):
        counts = {"fetched": 0, "held": 0, "refused": 0}
        for _ in range(int(words[1])):
            pair = self.queues.take()
            if pair is None:
                break
            try:
                counts["fetched" if self.cache.acquire(pair[1])[1] else "held"] += 1
            except Refused:
                counts["refused"] += 1
        return " ".join(f"{name} {count}" for name, count in counts.items())

    def command(self, words, actor):
        try:
            if words[0] == "view":
                return self.view(words, actor)
            return self.fetch(words) if words[0] == "fetch" else self.voxel(words)
        except Refused as refusal:
            return f"refused {refusal}"


def read_json(path):
    with open(path) as file:
        return json.load(file)


def open_volume(head, folder):
    if head[0] == "raw":
        numbers = [int(w) for w in head[3:9]]
        return Volume(head[1], True, [Level(numbers[:3], numbers[3:], head[2], [1, 1, 1])])
    setup = os.path.join(folder, head[1], "setup0")
    factors = read_json(f"{setup}/attributes.json")["downsamplingFactors"]
    told = [read_json(f"{setup}/timepoint0/s{n}/attributes.json") for n in range(len(factors))]
    levels = [Level(one["dimensions"], one["blockSize"], one["dataType"], factor) for one, factor in zip(told, factors)]
    return Volume(head[1], False, levels)


def solo(script, slots, folder="."):
    """The text and the status of a run in a folder, and the files that it puts there."""
    lines = [line.split() for line in script.split("\n")]
    lines = [words for words in lines if words and not words[0].startswith("#")]
    bounds = [int(w) for w in lines[1][1:]] if len(lines) > 1 and lines[1][0] == "range" else None
    files = Folder(folder)
    run = Run(open_volume(lines[0], folder), slots, bounds, files)
    phase, actor, call, refused, out = -1, -1, 0, False, []
    for words in lines[1 + (bounds is not None) :]:
        if words[0] == "phase":
            phase, actor = phase + 1, -1
        elif words[0] == "actor":
            actor, call = actor + 1, 0
        else:
            answer = run.command(words, actor)
            refused = refused or answer.startswith("refused")
            out.append(f"{phase}.{actor}.{call} {answer}")
            call += 1
    unsaved = run.cache.shut()
    unwritten = [name for name, picture in run.pictures if not files.put(f"views/{name}.pgm", picture)]
    out.append("tally " + " ".join(f"{name} {count}" for name, count in run.cache.tally.items()))
    out += [f"unsaved {cell} write-fault" for cell in sorted(unsaved)]
    out += [f"unwritten {name} write-fault" for name in unwritten]
    return "".join(line + "\n" for line in out), 5 if unsaved or unwritten else 1 if refused else 0, files.put_files


def main():
    with open(sys.argv[1], "rb") as file:
        text, status, _ = solo(file.read().decode(), int(sys.argv[3]))
    print(text, end="")
    sys.exit(status)


if __name__ == "__main__":
    main()
