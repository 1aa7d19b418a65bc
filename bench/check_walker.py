#!/usr/bin/env python3
"""Compares walker.c with a reader written apart from it, on small, whole and damaged data sets.

    check_walker.py [SEED [COUNT]]

Python 3 standard library only, and gcc. Prints how many data sets agreed, and how many there were of each code.
"""

import collections
import ctypes
import os
import random
import struct
import subprocess
import sys
import tempfile

HERE = os.path.dirname(os.path.abspath(__file__))
sys.path.insert(0, HERE)
import make_objects

LONG = "OB OD OF OL OV OW SQ SV UC UN UR UT UV".split()
SHORT = "AE AS AT CS DA DS DT FD FL IS LO LT PN SH SL SS ST TM UI UL US".split()
UNDEFINED = 0xFFFFFFFF
PATTERN = 0xA5A5A5A5


class Refusal(Exception):
    pass


def at_end(at, end, is_open):
    """Whether elements or items end at `at` without a delimiter. Refused if a delimiter is missing, or less than a header is left."""
    if at == end and is_open:
        raise Refusal(1, end)
    if 0 < end - at < 8:
        raise Refusal(1, at)
    return at == end


def check_length(at, start, length, end):
    """A defined length is even, and its value ends in time."""
    if length % 2:
        raise Refusal(4, at)
    if start + length > end:
        raise Refusal(1, at)


def read_elements(data, at, end, is_open, depth, holder, rows):
    """Elements from `at` on, in the item of row `holder`; answers where they end and where reading goes on."""
    before = -1
    while True:
        if at_end(at, end, is_open):
            return at, at
        group, number = struct.unpack_from("<HH", data, at)
        if group == 0xFFFE:
            if number == 0xE00D and is_open and data[at + 4:at + 8] == bytes(4):
                return at, at + 8
            raise Refusal(5, at)
        tag = group * 65536 + number
        if tag <= before:
            raise Refusal(2, at)
        before = tag
        vr = data[at + 4:at + 6].decode("latin-1")
        if vr not in LONG and vr not in SHORT:
            raise Refusal(3, at)
        if vr in LONG:
            if end - at < 12:
                raise Refusal(1, at)
            if data[at + 6:at + 8] != b"\0\0":
                raise Refusal(5, at)
            length, start = struct.unpack_from("<I", data, at + 8)[0], at + 12
        else:
            length, start = struct.unpack_from("<H", data, at + 6)[0], at + 8
        undefined = vr in LONG and length == UNDEFINED
        if undefined and vr != "SQ":
            raise Refusal(5, at)
        if not undefined:
            check_length(at, start, length, end)
        if vr == "SQ" and depth == 8:
            raise Refusal(6, at)
        row = [tag, ord(vr[0]) * 256 + ord(vr[1]), depth, start, length, 0, holder]
        rows.append(row)
        if vr != "SQ":
            at = start + length
            continue
        above = len(rows)
        stop, at = read_items(data, start, end if undefined else start + length, undefined, depth + 1, above, rows)
        row[4], row[5] = stop - start, len(rows) - above


def read_items(data, at, end, is_open, depth, holder, rows):
    while True:
        if at_end(at, end, is_open):
            return at, at
        group, number, length = struct.unpack_from("<HHI", data, at)
        if (group, number) == (0xFFFE, 0xE0DD) and is_open and length == 0:
            return at, at + 8
        if (group, number) != (0xFFFE, 0xE000):
            raise Refusal(5, at)
        start, undefined = at + 8, length == UNDEFINED
        if not undefined:
            check_length(at, start, length, end)
        row = [0xFFFEE000, 0, depth, start, length, 0, holder]
        rows.append(row)
        above = len(rows)
        stop, at = read_elements(data, start, end if undefined else start + length, undefined, depth, above, rows)
        row[4], row[5] = stop - start, len(rows) - above


def read(data):
    rows = []
    try:
        read_elements(data, 0, len(data), False, 0, 0, rows)
    except Refusal as refusal:
        return refusal.args + ([],)
    return 0, 0, rows


class Answer(ctypes.Structure):
    _fields_ = [("code", ctypes.c_uint32), ("offset", ctypes.c_uint32), ("rows", ctypes.c_uint32)]


def agree(walk, data, code, offset, rows):
    """Room exactly large enough, larger, and too small by one number; untouched parts keep their pattern."""
    flat = [n for row in rows for n in row]
    rooms = [len(flat), len(flat) + 7] + ([len(flat) - 1] if flat else [])
    for room in rooms:
        buffer = (ctypes.c_uint32 * (room + 1))(*[PATTERN] * (room + 1))
        answer = walk(data, len(data), buffer, room)
        expected = (8, 0, 0) if code == 0 and room < len(flat) else (code, offset, len(rows))
        written = flat if expected[0] == 0 else []
        if (answer.code, answer.offset, answer.rows) != expected:
            return False
        if list(buffer) != written + [PATTERN] * (room + 1 - len(written)):
            return False
    return True


def random_elements(source, encoders, depth):
    parts, tag = [], 0
    for _ in range(source.randrange(5)):
        tag += source.choice((1, 1, 16, 0x10000))
        encoder = source.choice(encoders)
        if source.random() < 0.45 and depth < 10:
            items = [encoder.item(random_elements(source, encoders, depth + 1)) for _ in range(source.randrange(3))]
            parts.append(encoder.sequence(tag, *items))
        else:
            vr = source.choice(SHORT + ["OB", "OW", "UN", "UT"])
            parts.append(make_objects.header(tag, vr, 2 * depth) + bytes(2 * depth))
    return b"".join(parts)


def damage(source, data):
    changed = bytearray(data)
    for _ in range(source.randrange(1, 3)):
        kind = source.randrange(4)
        if not changed:
            break
        place = source.randrange(len(changed))
        if kind == 0:
            del changed[place:]
        elif kind == 1:
            changed[place] = source.choice((0, 1, 2, 255, 254, source.randrange(256)))
        elif kind == 2:
            changed[place:place] = bytes.fromhex(source.choice(
                ("feff0de000000000", "feffdde000000000", "feff00e000000000", "feff00e0ffffffff", "01")))
        else:
            del changed[place:place + source.randrange(1, 9)]
    return bytes(changed)


def main():
    seed = int(sys.argv[1]) if len(sys.argv) > 1 else 1
    count = int(sys.argv[2]) if len(sys.argv) > 2 else 20000
    source = random.Random(seed)
    with tempfile.TemporaryDirectory() as folder:
        library = os.path.join(folder, "walker.so")
        subprocess.run(["gcc", "-O2", "-shared", "-fPIC", "-o", library, os.path.join(HERE, "walker.c")], check=True)
        loaded = ctypes.CDLL(library)
        walks = [loaded.walk, loaded.walk_trusting]
        for walk in walks:
            walk.restype = Answer
            walk.argtypes = [ctypes.c_char_p, ctypes.c_size_t, ctypes.c_void_p, ctypes.c_size_t]
        encoders = [make_objects.Encoder(lengths) for lengths in ("defined", "undefined", "mixed")]
        seen = collections.Counter()
        for number in range(count):
            if number % 50 == 0:
                encoder = source.choice(encoders)
                data = make_objects.before_pixels(encoder, source.randrange(1, 4), 2, 2, source.random() < 0.5, 0)
            else:
                data = random_elements(source, encoders, 0)
            if source.random() < 0.7:
                data = damage(source, data)
            code, offset, rows = read(data)
            seen[code] += 1
            for walk in walks:
                if not agree(walk, data, code, offset, rows):
                    sys.exit("differ at data set %d: %s" % (number, data.hex()))
    print("%d data sets agree; codes %s" % (count, dict(sorted(seen.items()))))


if __name__ == "__main__":
    main()
