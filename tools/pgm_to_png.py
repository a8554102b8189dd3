#!/usr/bin/env python3
"""Writes PGM pictures of one height beside each other into a PNG, each pixel twice as large.

    tools/pgm_to_png.py PICTURE.png FIRST.pgm [SECOND.pgm ..]

PGM is Netpbm's P5 with 255 as the greatest value, as viewrun writes it. It needs Python alone.
"""
import struct
import sys
import zlib

SCALE, GAP, WHITE = 2, 8, 255


def rows_of(path):
    """The rows of a picture, each as bytes."""
    with open(path, "rb") as file:
        kind, sides, greatest, pixels = file.read().split(b"\n", 3)
    width, height = map(int, sides.split())
    if kind != b"P5" or greatest != b"255" or len(pixels) != width * height:
        sys.exit(f"{path} isn't a PGM of 255 greys")
    return [pixels[width * row : width * (row + 1)] for row in range(height)]


def chunk(name, data):
    return struct.pack(">I", len(data)) + name + data + struct.pack(">I", zlib.crc32(name + data))


def main():
    pictures = [rows_of(path) for path in sys.argv[2:]]
    gap = bytes([WHITE]) * (GAP * SCALE)
    lines = [gap.join(bytes(pixel for pixel in row for _ in range(SCALE)) for row in rows) for rows in zip(*pictures, strict=True)]
    data = zlib.compress(b"".join(b"\0" + line for line in lines for _ in range(SCALE)), 9)
    head = struct.pack(">IIBBBBB", len(lines[0]), SCALE * len(lines), 8, 0, 0, 0, 0)
    with open(sys.argv[1], "wb") as file:
        file.write(b"\x89PNG\r\n\x1a\n" + chunk(b"IHDR", head) + chunk(b"IDAT", data) + chunk(b"IEND", b""))


if __name__ == "__main__":
    main()
