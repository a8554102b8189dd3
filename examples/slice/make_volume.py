#!/usr/bin/env python3
"""Writes the volume of this example as raw N5 blocks: a gyroid in a ball, in uint16.

The volume has 72 x 72 x 72 voxels in cells of 32 x 32 x 16; blocks at the end of an axis are cropped. Run it in the folder
that is to hold `volume/`. It needs Python alone, and takes a second or two.
"""
import math
import os
import sys

sys.path.insert(0, os.path.join(os.path.dirname(os.path.abspath(__file__)), "../../tools"))
import n5  # noqa: E402

SIDES = (72, 72, 72)
CELL = (32, 32, 16)
PERIOD = 36
RADIUS = 34

WAVE = [(math.sin(2 * math.pi * n / PERIOD), math.cos(2 * math.pi * n / PERIOD)) for n in range(max(SIDES))]


def voxel(x, y, z):
    """Bright walls along the gyroid's surface, brighter towards z's end; dim fog in the ball; nothing outside."""
    if sum((2 * p + 1 - s) ** 2 for p, s in zip((x, y, z), SIDES)) > 4 * RADIUS**2:
        return 0
    (sx, cx), (sy, cy), (sz, cz) = WAVE[x], WAVE[y], WAVE[z]
    wall = max(0.0, 1 - abs(sx * cy + sy * cz + sz * cx) / 0.45)
    return 6000 + round(wall * (20000 + 480 * z))


def main():
    n5.write_level("volume", SIDES, CELL, "uint16", voxel)


if __name__ == "__main__":
    main()
