#!/usr/bin/env python3
"""Writes the volume of this example as raw N5 blocks: a bright ball in dim, uneven light.

The volume has 24 x 20 x 10 voxels of uint8 in cells of 8 x 8 x 8; blocks at the end of an axis are cropped.
Run it in the folder that is to hold `volume/`. It needs Python alone.
"""
import os
import sys

sys.path.insert(0, os.path.join(os.path.dirname(os.path.abspath(__file__)), "../../tools"))
import n5  # noqa: E402

SIDES = (24, 20, 10)
CELL = (8, 8, 8)
CENTER = (12, 10, 5)
RADIUS = 6


def voxel(x, y, z):
    distance = sum((p - c) ** 2 for p, c in zip((x, y, z), CENTER)) ** 0.5
    light = 20 + x + y
    return light + (150 - 10 * int(distance) if distance <= RADIUS else 0)


def main():
    n5.write_level("volume", SIDES, CELL, "uint8", voxel)


if __name__ == "__main__":
    main()
