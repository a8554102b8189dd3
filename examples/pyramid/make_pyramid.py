#!/usr/bin/env python3
"""Writes the pyramid of this example as raw N5 blocks: rings round the middle of 96 x 96 x 4 voxels of uint8.

    make_pyramid.py        (in the folder that is to hold `pyramid/`)

Level 1 halves x and y, level 2 halves them and z once more; each voxel there is the mean of its voxels in the level before,
rounded down. Cells are 16 x 16 x 4, cropped at the end of z. It needs Python alone.
"""
import json
import math
import os
import sys

sys.path.insert(0, os.path.join(os.path.dirname(os.path.abspath(__file__)), "../../tools"))
import n5  # noqa: E402

SIDES = [(96, 96, 4), (48, 48, 4), (24, 24, 2)]
FACTORS = [(1, 1, 1), (2, 2, 1), (4, 4, 2)]
CELL = (16, 16, 4)


def ring(x, y, z):
    """Rings that get thinner outwards, and turn from bright to dark as z grows."""
    far = math.hypot(x - 47.5, y - 47.5)
    return round(127.5 + 120 * math.cos(far * far / 110 + z / 2))


def means(finer, step, sides):
    """The level whose voxels are the means of `step` voxels of the finer one."""
    sx, sy, sz = (range(s) for s in step)
    count = step[0] * step[1] * step[2]
    return {
        (x, y, z): sum(finer[step[0] * x + a, step[1] * y + b, step[2] * z + c] for a in sx for b in sy for c in sz) // count
        for x in range(sides[0])
        for y in range(sides[1])
        for z in range(sides[2])
    }


def levels():
    """For each level its voxels, by place."""
    made = [{(x, y, z): ring(x, y, z) for x in range(96) for y in range(96) for z in range(4)}]
    for before, here, sides in zip(FACTORS, FACTORS[1:], SIDES[1:]):
        made.append(means(made[-1], [h // b for h, b in zip(here, before)], sides))
    return made


def write_level(folder, voxels, sides):
    attributes = {"dimensions": sides, "blockSize": CELL, "dataType": "uint8", "compression": {"type": "raw"}}
    n5.write(f"{folder}/attributes.json", json.dumps(attributes))
    n5.write_level(folder, sides, CELL, "uint8", lambda x, y, z: voxels[x, y, z])


def main():
    n5.write("pyramid/setup0/attributes.json", json.dumps({"downsamplingFactors": FACTORS}))
    for n, voxels in enumerate(levels()):
        write_level(f"pyramid/setup0/timepoint0/s{n}", voxels, SIDES[n])


if __name__ == "__main__":
    main()
