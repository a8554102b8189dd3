#!/usr/bin/env python3
"""Writes a small uint16 pyramid with zarr's N5 writer, as a user's own tools would, and the same compressed by gzip.

    make_pyramid.py FOLDER

Level 0 has 20 x 12 x 6 voxels in blocks of 8 x 8 x 4, level 1 halves x and y. FOLDER/raw has raw blocks, the only kind that
viewrun reads; FOLDER/gzip is what most writers make. It needs Debian's python3-zarr and python3-numpy.
"""
import os
import sys

import numcodecs
import numpy
import zarr
from zarr.n5 import N5Store

FACTORS = [[1, 1, 1], [2, 2, 1]]


def main():
    folder = sys.argv[1]
    z, y, x = numpy.indices((6, 12, 20))
    level = (x + 100 * y + 2000 * z).astype("uint16")
    levels = [level, level.reshape(6, 6, 2, 10, 2).mean(axis=(2, 4)).astype("uint16")]

    for name, compressor in (("raw", None), ("gzip", numcodecs.GZip())):
        root = zarr.open_group(store=N5Store(os.path.join(folder, name)), mode="w")
        for number, voxels in enumerate(levels):
            path = f"setup0/timepoint0/s{number}"
            root.create_dataset(path, data=voxels, chunks=(4, 8, 8), compressor=compressor, overwrite=True)
        # zarr keeps attributes of its own beside ours; viewrun ignores what it doesn't know.
        root["setup0"].attrs["downsamplingFactors"] = FACTORS


if __name__ == "__main__":
    main()
