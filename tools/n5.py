"""What the tools, the benches and the examples share: raw blocks of the N5 format, files, and where the built programs lie."""
import os
import shutil
import struct
import subprocess
import sys

TOP = os.path.dirname(os.path.dirname(os.path.abspath(__file__)))
WIDTHS = {"uint8": 1, "uint16": 2, "uint32": 4, "uint64": 8}


def built(path=None, crate="viewrun"):
    """The path of a built program: the one that was given, else the crate's. Says so and ends where it isn't there."""
    program = os.path.abspath(path) if path else os.path.join(TOP, f"crates/{crate}/out/{crate}")
    if not os.access(program, os.X_OK):
        how = "examples/build" if crate == "viewrun" else f"(cd crates/{crate} && rt run)"
        sys.exit(f"{os.path.relpath(program)} isn't built yet: {how} proves and builds it")
    return program


def built_rust(folder, source):
    """A program of bench/ in Rust, which is built with -O into a folder. None where there is no rustc."""
    rustc = shutil.which("rustc")
    if rustc is None:
        return None
    program = os.path.join(folder, os.path.splitext(source)[0])
    subprocess.run([rustc, "--edition", "2021", "-O", "-o", program, os.path.join(TOP, "bench", source)], check=True)
    return program


def write(path, data):
    """Writes bytes or text to a file, whose folders are made."""
    os.makedirs(os.path.dirname(path) or ".", exist_ok=True)
    with open(path, "wb") as file:
        file.write(data if isinstance(data, bytes) else data.encode())


def block(sides, kind, values):
    """A raw block: mode 0, three axes, the sides, then the values, x first, each big-endian."""
    width = WIDTHS[kind]
    return struct.pack(">HHIII", 0, 3, *sides) + b"".join(value.to_bytes(width, "big") for value in values)


def cells(sides, cell):
    """For each cell of a level, its position in the grid and its ranges of x, y and z; cropped at the end of an axis."""
    counts = [-(-side // length) for side, length in zip(sides, cell)]
    for grid in ((x, y, z) for z in range(counts[2]) for y in range(counts[1]) for x in range(counts[0])):
        yield grid, [range(g * c, min(g * c + c, s)) for g, c, s in zip(grid, cell, sides)]


def write_level(folder, sides, cell, kind, voxel):
    """Writes each cell of a level as a raw block under FOLDER/x/y/z, its values by `voxel(x, y, z)`."""
    for grid, (xs, ys, zs) in cells(sides, cell):
        values = [voxel(x, y, z) for z in zs for y in ys for x in xs]
        write(os.path.join(folder, *map(str, grid)), block((len(xs), len(ys), len(zs)), kind, values))
