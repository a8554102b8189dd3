#!/usr/bin/env python3
"""Paints the script's views a second time, each pixel by itself from the pyramid's voxels, and compares the pictures.

    compare.py        (in the folder where the script was run)

The level that each pixel is to show is told here by hand, from what the script fetches; no cell or queue has a part in it.
"""
import sys

from make_pyramid import FACTORS, SIDES, levels

# For each picture its side, its step, and the level that a row shows: none, or one of the pyramid's.
WANTED = {
    "nothing": (96, 1, lambda row: None),
    "coarse": (96, 1, lambda row: 2),
    "middle": (96, 1, lambda row: 1),
    "half": (96, 1, lambda row: 0 if row < 48 else 1),
    "fine": (96, 1, lambda row: 0),
    "far": (32, 3, lambda row: 2),
}


def pixel(pyramid, place, level):
    """The voxel of the level that lies nearest to a place of level 0; 0 outside, and where no level is there."""
    if level is None:
        return 0
    voxel = tuple((2 * p + 1) // (2 * f) for p, f in zip(place, FACTORS[level]))
    inside = all(0 <= v < side for v, side in zip(voxel, SIDES[level]))
    return pyramid[level][voxel] if inside else 0


def main():
    pyramid = levels()
    for name, (side, step, level) in WANTED.items():
        pixels = bytes(pixel(pyramid, (step * x, step * y, 1), level(y)) for y in range(side) for x in range(side))
        with open(f"views/{name}.pgm", "rb") as file:
            if file.read() != f"P5\n{side} {side}\n255\n".encode() + pixels:
                sys.exit(f"views/{name}.pgm isn't the picture of the pyramid's voxels")
        print(f"views/{name}.pgm is the picture of the pyramid's voxels, pixel by pixel")


if __name__ == "__main__":
    main()
