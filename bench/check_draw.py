#!/usr/bin/env python3
"""Compares draw.c with document 01's steps written out cell by cell, on small pictures of every kind.

    check_draw.py [SEED [COUNT]]

Python 3 standard library only, and gcc. Prints how many pictures agreed.
"""

import ctypes
import os
import random
import struct
import subprocess
import sys
import tempfile

HERE = os.path.dirname(os.path.abspath(__file__))


class Picture(ctypes.Structure):
    _fields_ = [("pixels", ctypes.c_char_p), ("height", ctypes.c_size_t), ("width", ctypes.c_size_t),
                ("stored", ctypes.c_uint), ("frame", ctypes.c_uint32), ("masks", ctypes.c_uint),
                ("mask", ctypes.c_uint32 * 64), ("vertical", ctypes.c_int32), ("horizontal", ctypes.c_int32),
                ("centre", ctypes.c_int64), ("window", ctypes.c_int64), ("inverse", ctypes.c_int)]


def steps(pixels, p):
    """Steps 1 and 3 to 7 for AVG_SUB, shifts in quarters."""
    height, width, stored, n = p.height, p.width, p.stored, p.masks
    samples = struct.unpack("<%dH" % (len(pixels) // 2), pixels)

    def cell(frame, row, column):
        return samples[((frame - 1) * height + row) * width + column] % 2 ** stored

    def mean(row, column):
        """The average of the mask frames, the row and the column limited to the picture's edges."""
        total = sum(cell(p.mask[k], min(max(row, 0), height - 1), min(max(column, 0), width - 1)) for k in range(n))
        return (2 * total + n) // (2 * n)

    image = []
    for r in range(height):
        for c in range(width):
            row, a = divmod(4 * r - p.vertical, 4)
            column, b = divmod(4 * c - p.horizontal, 4)
            mask = ((4 - a) * (4 - b) * mean(row, column) + (4 - a) * b * mean(row, column + 1)
                    + a * (4 - b) * mean(row + 1, column) + a * b * mean(row + 1, column + 1) + 8) // 16
            x = cell(p.frame, r, c) - mask + 2 ** (stored - 1)
            if 2000 * x <= 2 * p.centre - p.window:
                y = 0
            elif 2000 * x > 2 * p.centre + p.window - 2000:
                y = 255
            else:
                y = (255 * (2000 * x - 2 * p.centre + p.window) + p.window - 1000) // (2 * (p.window - 1000))
            y = min(max(y, 0), 255)
            image.append(255 - y if p.inverse else y)
    return bytes(image)


def chosen(source):
    stored = source.randrange(9, 17)
    frames, height, width = source.randrange(1, 9), source.randrange(1, 8), source.randrange(1, 12)
    n = source.choice((1, 2, 3, 4, 5, 7, 8, 9, 63, 64, source.randrange(1, 65)))
    size = 2 * frames * height * width
    pixels = b"\xFF" * size if source.random() < 0.1 else source.randbytes(size)
    farthest, step = source.choice((0, 1, 3, 64)), source.choice((1, 4))
    return pixels, Picture(
        pixels, height, width, stored, source.randrange(1, frames + 1), n,
        (ctypes.c_uint32 * 64)(*[source.randrange(1, frames + 1) for _ in range(n)]),
        *[step * source.randint(-farthest * 4 // step, farthest * 4 // step) for _ in range(2)],
        source.randint(-1000, 1000 * 2 ** stored),
        source.choice((1000, 1001, 2000, source.randint(1000, 1000 * 2 ** stored))),
        source.randrange(2))


def main():
    source = random.Random(int(sys.argv[1]) if len(sys.argv) > 1 else 1)
    count = int(sys.argv[2]) if len(sys.argv) > 2 else 1000
    with tempfile.TemporaryDirectory() as folder:
        library = os.path.join(folder, "draw.so")
        subprocess.run(["gcc", "-O2", "-shared", "-fPIC", "-o", library, os.path.join(HERE, "draw.c")], check=True)
        draw = ctypes.CDLL(library).draw
        draw.restype = None
        for number in range(count):
            pixels, p = chosen(source)
            image = ctypes.create_string_buffer(p.height * p.width)
            draw(ctypes.byref(p), image, ctypes.create_string_buffer(131072), (ctypes.c_uint32 * (3 * p.width))())
            if image.raw != steps(pixels, p):
                sys.exit("differ at picture %d" % number)
    print("%d pictures agree" % count)


if __name__ == "__main__":
    main()
