#!/usr/bin/env python3
"""Paints the script's views a second time, each pixel by itself from the volume's formula, and compares the pictures.

    compare.py        (in the folder where the script was run)

No cell, block or cache has a part in it: a pixel's voxel is computed, the formula gives its value, the range its grey.
"""
import sys

from make_volume import SIDES, voxel


def shown(value, low, high):
    return 0 if value <= low else 255 if value >= high else (value - low) * 255 // (high - low)


def pixel(x, y, q, rows, low, high):
    """The grey of the voxel nearest to the pixel; 0 outside the volume."""
    place = [(2 * (row[0] * x + row[1] * y + row[2]) + q) // (2 * q) for row in rows]
    inside = all(0 <= p < side for p, side in zip(place, SIDES))
    return shown(voxel(*place), low, high) if inside else 0


def painting(words, low, high):
    """The bytes of the picture of a view's line."""
    width, height = int(words[2]), int(words[3])
    q, *entries = map(int, words[6:])
    rows = [entries[0:3], entries[3:6], entries[6:9]]
    head = f"P5\n{width} {height}\n255\n".encode()
    return head + bytes(pixel(x, y, q, rows, low, high) for y in range(height) for x in range(width))


def main():
    with open("script") as file:
        lines = [line.split() for line in file]
    low, high = next((int(words[1]), int(words[2])) for words in lines if words[:1] == ["range"])
    for words in lines:
        if words[:1] == ["view"]:
            with open(f"views/{words[1]}.pgm", "rb") as file:
                found = file.read()
            if found != painting(words, low, high):
                sys.exit(f"views/{words[1]}.pgm isn't the formula's picture")
            print(f"views/{words[1]}.pgm is the formula's picture, pixel by pixel")


if __name__ == "__main__":
    main()
