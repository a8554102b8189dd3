#!/usr/bin/env python3
"""Computes the line of the demonstration of a number apart from the program, in plain Python.

    tools/demo_line.py N

It draws the four planes that are painted from the generator, jumping over the others, sets the voxels that are edited, and adds
up the bytes that show them.
"""
import sys

FACTOR, STEP, WORD = 6364136223846793005, 1442695040888963407, 2**64
SIDE = 512


def state_after(state, steps):
    """The generator's state after so many steps."""
    factor, step = FACTOR, STEP
    while steps:
        if steps % 2:
            state = (state * factor + step) % WORD
        factor, step = factor * factor % WORD, (factor + 1) * step % WORD
        steps //= 2
    return state


def plane(number, z):
    """The voxels of a plane of level 0, row by row, as they are drawn."""
    state = state_after(number, SIDE * SIDE * z)
    drawn = []
    for _ in range(SIDE * SIDE):
        state = (state * FACTOR + STEP) % WORD
        drawn.append(state >> 48)
    return drawn


def total_of(number):
    """The sum of the bytes of all four pictures."""
    planes = {z: plane(number, z) for z in (8, 24, 40, 56)}
    for actor in range(4):
        for call in range(256):
            x, y, z = 2 * call, 128 * actor + call % 128, 7 * call % 64
            if z in planes:
                planes[z][SIDE * y + x] = 1000 * actor + call
    return sum(voxel * 255 // 65535 for drawn in planes.values() for voxel in drawn)


def line_of(number):
    return f"demo {number} cells 1152 edits 1024 complete 4 sum {total_of(number)}\n"


if __name__ == "__main__":
    if len(sys.argv) != 2 or not sys.argv[1].isdecimal() or int(sys.argv[1]) >= WORD:
        sys.exit("usage: tools/demo_line.py N")
    print(line_of(int(sys.argv[1])), end="")
