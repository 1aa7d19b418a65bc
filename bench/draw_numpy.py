#!/usr/bin/env python3
"""The same drawing as draw.c with numpy: one masked frame (AVG_SUB) of 16-bit samples.

    draw_numpy.py FILE FRAME IMAGE    prints the median time of a drawing in nanoseconds; IMAGE receives the picture

FILE is a bare data set. Finding the values in it is not timed.
"""

import statistics
import struct
import sys
import time

import numpy

import check_walker


def children(rows, row):
    """Rows directly below row `row`; in the root for -1."""
    at, end = row + 1, len(rows) if row < 0 else row + 1 + rows[row][5]
    while at < end:
        yield at
        at += 1 + rows[at][5]


def find(rows, row, tag):
    return next(k for k in children(rows, row) if rows[k][0] == tag)


def item(rows, sequence, number):
    return list(children(rows, sequence))[number - 1]


def plan(data, rows, frame):
    def us(row):
        return struct.unpack_from("<%dH" % (rows[row][4] // 2), data, rows[row][3])

    def text(row):
        return data[rows[row][3]:rows[row][3] + rows[row][4]].decode().split("\\")[0].strip()

    groups = item(rows, find(rows, -1, 0x52009230), frame)
    mask = item(rows, find(rows, -1, 0x00286100), 1)
    voi = item(rows, find(rows, groups, 0x00289132), 1)
    shift = find(rows, item(rows, find(rows, groups, 0x00289415), 1), 0x00286114)
    height, width = us(find(rows, -1, 0x00280010))[0], us(find(rows, -1, 0x00280011))[0]
    pixels = numpy.frombuffer(data, dtype="<u2", offset=rows[find(rows, -1, 0x7FE00010)][3])
    return dict(
        frames=pixels.reshape(-1, height, width), frame=frame,
        stored=us(find(rows, -1, 0x00280101))[0], masks=us(find(rows, mask, 0x00286110)),
        shift=[int(4 * n) for n in struct.unpack_from("<2f", data, rows[shift][3])],
        centre=round(float(text(find(rows, voi, 0x00281050))) * 1000),
        window=round(float(text(find(rows, voi, 0x00281051))) * 1000),
        inverse=text(find(rows, -1, 0x00280004)) == "MONOCHROME1")


def draw(frames, frame, stored, masks, shift, centre, window, inverse):
    bits, n = (1 << stored) - 1, len(masks)
    total = (frames[masks[0] - 1] & bits).astype(numpy.int32)
    for k in masks[1:]:
        total += frames[k - 1] & bits
    mean = (2 * total + n) // (2 * n)
    height, width = mean.shape
    (down, a), (right, b) = divmod(-shift[0], 4), divmod(-shift[1], 4)

    def moved(by_rows, by_columns):
        across = numpy.clip(numpy.arange(height) + down + by_rows, 0, height - 1)
        along = numpy.clip(numpy.arange(width) + right + by_columns, 0, width - 1)
        return mean[across][:, along]

    if a == 0 and b == 0:
        mean = moved(0, 0)
    else:
        mean = ((4 - a) * (4 - b) * moved(0, 0) + (4 - a) * b * moved(0, 1)
                + a * (4 - b) * moved(1, 0) + a * b * moved(1, 1) + 8) // 16
    x = numpy.arange(2 * bits + 1, dtype=numpy.int64) - bits + (1 << (stored - 1))
    low = 2 * centre - window
    levels = (255 * (2000 * x - low) + window - 1000) // max(2 * (window - 1000), 1)
    levels[2000 * x > 2 * centre + window - 2000] = 255
    levels[2000 * x <= low] = 0
    levels = numpy.clip(levels, 0, 255).astype(numpy.uint8)
    if inverse:
        levels = 255 - levels
    return levels[(frames[frame - 1] & bits) - mean + bits]


def main():
    with open(sys.argv[1], "rb") as source:
        data = source.read()
    code, _, rows = check_walker.read(data)
    if code != 0:
        sys.exit("the data set does not read")
    parts = plan(data, rows, int(sys.argv[2]))
    times = []
    for _ in range(15):
        start = time.perf_counter_ns()
        image = draw(**parts)
        times.append(time.perf_counter_ns() - start)
    with open(sys.argv[3], "wb") as out:
        out.write(image.tobytes())
    print(int(statistics.median(times)))


if __name__ == "__main__":
    main()
