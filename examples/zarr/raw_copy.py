#!/usr/bin/env python3
"""Writes a raw copy of a pyramid in BigDataViewer's N5 layout, block by block, whatever compression its datasets have.

    raw_copy.py FROM TO

It needs Debian's python3-zarr.
"""
import sys

# README shows these lines.
import zarr
from zarr.n5 import N5Store

source = zarr.open_group(N5Store(sys.argv[1]), mode="r")
copy = zarr.open_group(N5Store(sys.argv[2]), mode="w")
copy.create_group("setup0").attrs["downsamplingFactors"] = source["setup0"].attrs["downsamplingFactors"]
for name, level in source["setup0/timepoint0"].arrays():
    zarr.copy(level, copy.require_group("setup0/timepoint0"), name=name, compressor=None)
