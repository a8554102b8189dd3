"""What kill_program.py and fault_program.py share: scripts that edit cells, runs of the program with a library
preloaded that ends it or lets a call fail, and the judgement of what a run left.

Cells of one kind lie side by side along x. A script sets some voxels of each cell to one number, cell after cell, once or
more, so that cells leave in between. A block is whole where these voxels hold one number and every other byte is as it must
be. On threads a cell may also leave between two of its sets: then the voxels hold what those before have left.
"""
import atexit
import os
import shutil
import subprocess
import tempfile

import n5

TOOLS = os.path.dirname(os.path.abspath(__file__))
PLACES = 18


def library():
    """The library that counts calls, compiled."""
    folder = tempfile.mkdtemp()
    atexit.register(shutil.rmtree, folder, True)
    path = os.path.join(folder, "stop_at_call.so")
    source = os.path.join(TOOLS, "stop_at_call.c")
    subprocess.run(["gcc", "-O1", "-shared", "-fPIC", "-o", path, source, "-ldl"], check=True)
    return path


class Script:
    """A script that sets voxels of each of `cells` cells of side `side`, once for each of `numbers`: on one thread, or by so
    many `actors` on threads, each with cells of its own, beside a fetcher."""

    def __init__(self, side, cells, numbers, picture=False, actors=None):
        self.side, self.cells, self.numbers, self.picture, self.actors = side, cells, numbers, picture, actors

    def words(self):
        if self.actors is None:
            return ["solo", "script", "--slots", "2"]
        return ["run", "script", "--slots", str(2 * self.actors + 2), "--fetchers", "1"]

    def head(self):
        side = self.side
        return f"raw vol uint8 {side * self.cells} {side} {side} {side} {side} {side}\nphase\n"

    def places(self):
        """Voxels of a cell, spread over its whole block."""
        last = self.side**3 - 1
        return [last * i // (PLACES - 1) for i in range(PLACES)]

    def at(self, cell, place):
        side = self.side
        return f"{cell * side + place % side} {place // side % side} {place // side**2}"

    def text(self):
        lines, actors = [self.head()], self.actors or 1
        for actor in range(actors):
            lines.append("actor\n")
            for number in self.numbers:
                for cell in range(actor, self.cells, actors):
                    lines += [f"set 0 {self.at(cell, place)} {number}\n" for place in self.order()]
        if self.picture:
            lines.append("view shot 4 4 0 blocking 1 1 0 0 0 1 0 0 0 0\n")
        return "".join(lines)

    def reading(self):
        gets = [f"get 0 {self.at(cell, place)}\n" for cell in range(self.cells) for place in self.places()]
        return self.head() + "actor\n" + "".join(gets)

    def order(self):
        """The places as they are set: the last one first, so that a block of which half was written is none of a set."""
        return self.places()[-1:] + self.places()[:-1]

    def versions(self, earlier):
        """What a run may leave at the places of a cell, over what earlier runs left: each number, and on threads what lies between two sets."""
        held = dict.fromkeys(self.places(), earlier[-1] if earlier else 0)
        versions = {tuple(map(held.get, self.places()))} if earlier else set()
        for number in self.numbers:
            for place in self.order():
                held[place] = number
                if self.actors or place == self.order()[-1]:
                    versions.add(tuple(map(held.get, self.places())))
        return versions

    def version_in(self, block):
        """The numbers at the places of a block, or None where there is no block, or another one than these make."""
        if block is None or len(block) != len(self.block([])):
            return None
        version = tuple(block[place - self.side**3] for place in self.places())
        return version if block == self.block(version) else None

    def block(self, version):
        data = bytearray(self.side**3)
        for place, number in zip(self.places(), version):
            data[place] = number
        return n5.block([self.side] * 3, "uint8", []) + bytes(data)


class Trial:
    """A folder in which a script runs, after earlier whole runs of it or none."""

    def __init__(self, program, script, earlier):
        self.program, self.script, self.earlier = program, script, earlier
        self.path = tempfile.mkdtemp()
        for number in earlier:
            before = Script(script.side, script.cells, [number], script.picture)
            if self.run(before.text()).returncode != 0:
                raise SystemExit("a run without faults has failed")

    def remove(self):
        shutil.rmtree(self.path, True)

    def write_script(self, text):
        with open(os.path.join(self.path, "script"), "w", encoding="ascii") as file:
            file.write(text)

    def run(self, text, told=None, seconds=60):
        self.write_script(text)
        words = [self.program, *self.script.words()]
        return subprocess.run(words, cwd=self.path, env=told, capture_output=True, timeout=seconds, check=False)

    def begin(self, text):
        self.write_script(text)
        words = [self.program, *self.script.words()]
        return subprocess.Popen(words, cwd=self.path, stdout=subprocess.DEVNULL, stderr=subprocess.DEVNULL)

    def files(self):
        found = {}
        for folder, _, names in os.walk(self.path):
            for name in names:
                path = os.path.join(folder, name)
                with open(path, "rb") as file:
                    found[os.path.relpath(path, self.path)] = file.read()
        found.pop("script", None)
        return found

    def wrong_files(self, lost=None):
        """What is wrong with the files: blocks that aren't whole, files that should not be there. A cell not in `lost`
        must hold the last number, if `lost` is given."""
        wrong, found, versions = [], self.files(), self.script.versions(self.earlier)
        for cell in range(self.script.cells):
            block = found.pop(f"cells/s0/{cell}/0/0", None)
            allowed = versions if self.earlier else versions | {None}
            if lost is not None and cell not in lost:
                allowed = {(self.script.numbers[-1],) * PLACES}
            version = self.script.version_in(block)
            if version not in allowed or (version is None and block is not None):
                wrong.append(f"cell {cell}: " + ("absent" if block is None else f"{len(block)} bytes, not whole"))
        picture = found.pop("views/shot.pgm", None)
        if self.script.picture and picture is not None and not (picture.startswith(b"P5\n4 4\n255\n") and len(picture) == 27):
            wrong.append("the picture isn't whole")
        return wrong + [f"a file {name}" for name in found]

    def wrong_after_next_run(self, lost=None):
        """The same once the next run has read each voxel, and what is wrong with its answers."""
        done = self.run(self.script.reading())
        wrong, lines = [], done.stdout.decode().splitlines()
        if done.returncode != 0:
            wrong.append(f"the next run: status {done.returncode}: {lines[:2]}")
        versions = self.script.versions(self.earlier) | (set() if self.earlier else {(0,) * PLACES})
        told = {tuple(f"value {number}" for number in version) for version in versions}
        for cell in range(self.script.cells):
            mine = tuple(line.split(" ", 1)[-1] for line in lines[cell * PLACES : (cell + 1) * PLACES])
            if mine not in told:
                wrong.append(f"cell {cell}: the next run reads voxels of two versions")
        return wrong + self.wrong_files(lost)
