#!/usr/bin/env python3
"""Writes accepted data sets whose shapes are made to be slow to judge. Python 3 standard library only.

    make_wide.py FOLDER SHAPE BYTES     about so many bytes, as FOLDER/SHAPE.bin; fewer where the shape has no more
    make_wide.py --list                 the shapes, one a line

Each frame is one cell of 8 bits, so that nearly all bytes are headers or values that a rule reads.
"""

import array
import os
import sys

from make_objects import Encoder, XA_STORAGE, element

MOST_FRAMES = 65535
MOST_VALUE = 65534                      # bytes of a value with a 16-bit length
FRAME_CONTENT, VOI, SHIFTS = 0x00209111, 0x00289132, 0x00289415
SHIFT, ITEM_ID, CENTER, WIDTH = 0x00286114, 0x00289416, 0x00281050, 0x00281051
# Tags of fillings: a million below all that rules look for in an item, the rest above.
LOW, LOW_END, HIGH = 0x00090000, 0x00189000, 0x30000000

encoder = Encoder("defined")
item, sequence = encoder.item, encoder.sequence


PLAIN = [int.from_bytes(b"LO\0\0", "little")]        # the numbers after the tag of an element without a value, 8 bytes in all
EMPTY = [int.from_bytes(b"SQ\0\0", "little"), 0]     # and of a sequence without items, 12 bytes


def headers(tags, words):
    numbers = array.array("I", bytes(4 * len(tags) * (1 + len(words))))
    numbers[0::1 + len(words)] = array.array("I", [tag >> 16 | (tag & 0xFFFF) << 16 for tag in tags])
    for place, word in enumerate(words, 1):
        numbers[place::1 + len(words)] = array.array("I", [word]) * len(tags)
    return numbers.tobytes()


def tags(count, step=1, first=0):
    """So many tags, `step` apart, as two ranges: those below all that rules look for, and those above."""
    low = range(LOW + first, LOW_END, step)[:count]
    return low, range(HIGH + first, HIGH + first + (count - len(low)) * step, step)


def around(groups, words, count, step=1, first=0):
    """The content of an item: the groups among so many fillings."""
    low, high = tags(count, step, first)
    return headers(low, words) + groups + headers(high, words)


def nested(tag, levels):
    """A sequence that holds an item that holds a sequence, and so on."""
    inside = b""
    for _ in range(levels - 1):
        inside = item(sequence(LOW, inside))
    return sequence(tag, inside)


CONTENT = sequence(FRAME_CONTENT, item())


def data_set(frames, shared, frame_items, masks=(), low=b"", middle=b""):
    """The bytes of an accepted object; `low` and `middle` are root elements, below nearly all that rules look for, and
    below the functional groups and the pixel data."""
    parts = [
        element(0x00080008, "CS", "DERIVED\\PRIMARY\\\\NONE"),       # Image Type
        element(0x00080016, "UI", XA_STORAGE),
        element(0x0008002A, "DT", "20240305050000"),                 # Acquisition DateTime
        element(0x00080060, "CS", "XA"),                             # Modality
        low,
        element(0x00189004, "CS", "PRODUCT"),                        # Content Qualification
        element(0x00189410, "CS", "SINGLE PLANE"),                   # Planes in Acquisition
        element(0x00189457, "CS", "MONOPLANE"),                      # Plane Identification
        element(0x00280002, "US", 1),                                # Samples per Pixel
        element(0x00280004, "CS", "MONOCHROME2"),
        element(0x00280008, "IS", "%d" % frames),                    # Number of Frames
        element(0x00280010, "US", 1),                                # Rows
        element(0x00280011, "US", 1),                                # Columns
        element(0x00280100, "US", 8),                                # Bits Allocated
        element(0x00280101, "US", 8),                                # Bits Stored
        element(0x00280102, "US", 7),                                # High Bit
        element(0x00280103, "US", 0),                                # Pixel Representation
        element(0x00280301, "CS", "NO"),                             # Burned In Annotation
        element(0x00282110, "CS", "00"),                             # Lossy Image Compression
        sequence(0x00286100, *masks) if masks else b"",              # Mask Subtraction
        element(0x20500020, "CS", "IDENTITY"),                       # Presentation LUT Shape
        middle,
        sequence(0x52009229, item(shared)),                          # Shared Functional Groups
        sequence(0x52009230, frame_items),                           # Per-frame Functional Groups
        element(0x7FE00010, "OB", bytes(frames + frames % 2)),
    ]
    return b"".join(parts)


def frames_for(size, each):
    return max(1, min(MOST_FRAMES, size // each))


# ---------------------------------------------------------------------------------------------------------------------
# The shapes


def shared_plain(size):
    """A shared item of plain elements, many frames."""
    frames = frames_for(size // 2, 29)
    return data_set(frames, around(b"", PLAIN, (size - 29 * frames) // 8), item(CONTENT) * frames)


def between(frames, count):
    """Frames' items with eight sequences each, whose odd tags are spread between the even tags of `count` fillings."""
    low, high = tags(count, 2)
    kinds = []
    for seed in range(min(64, frames)):
        chosen = sorted({(low if k % 2 or not high else high)[(seed * 977 + k * 7919) % len(low if k % 2 or not high else high)] + 1
                         for k in range(8)})
        kinds.append(item(headers([tag for tag in chosen if tag < FRAME_CONTENT], EMPTY) + CONTENT
                          + headers([tag for tag in chosen if tag > FRAME_CONTENT], EMPTY)))
    return b"".join(kinds[frame % len(kinds)] for frame in range(frames))


def shared_sequences(size):
    """A shared item of sequences, and in each of many frames eight whose tags lie between those."""
    frames = frames_for(size // 2, 125)
    count = (size - 125 * frames) // 12
    return data_set(frames, around(b"", EMPTY, count, 2), between(frames, count))


def shared_deep(size):
    """The same, each shared sequence nested seven deep, so that the way up from a row is the longest."""
    frames = frames_for(size // 2, 125)
    count = max(16, (size - 125 * frames) // len(nested(LOW, 7)))
    low, high = tags(count, 2)
    return data_set(frames, b"".join(nested(tag, 7) for part in (low, high) for tag in part), between(frames, count))


def both_wide(size):
    """One frame: its item and the shared one have equally many sequences, their tags in turn."""
    count = size // 24
    return data_set(1, around(b"", EMPTY, count, 2), item(around(CONTENT, EMPTY, count, 2, 1)))


def few_wide(size):
    """Sixteen frames with items as wide as the shared one."""
    count = size // (17 * 12)
    return data_set(16, around(b"", EMPTY, count, 2), item(around(CONTENT, EMPTY, count, 2, 1)) * 16)


def shift_item(number, filling=b""):
    return item(filling, element(SHIFT, "FL", (0.0, 0.0)), element(ITEM_ID, "US", number))


def shared_shifts(size):
    """A shared shift group of as many items as there are IDs, many frames."""
    frames = frames_for(size // 2, 29)
    group = sequence(SHIFTS, *[shift_item(number) for number in range(min(65536, (size - 29 * frames) // 34))])
    return data_set(frames, group, item(CONTENT) * frames)


def shared_shifts_wide(size):
    """The same with wide items: elements before those that are looked for."""
    frames = frames_for(size // 4, 29)
    items = 1024
    filling = headers(tags((size - 29 * frames) // items // 8)[0], PLAIN)
    return data_set(frames, sequence(SHIFTS, *[shift_item(number, filling) for number in range(items)]), item(CONTENT) * frames)


def frame_shifts(size):
    """A shift group of 64 items in each frame's item."""
    one = item(CONTENT, sequence(SHIFTS, *[shift_item(number) for number in range(64)]))
    frames = frames_for(size, len(one))
    return data_set(frames, b"", one * frames)


def frame_shifts_two(size):
    """A shift group of two items in each frame's item."""
    one = item(CONTENT, sequence(SHIFTS, shift_item(65535), shift_item(0)))
    frames = frames_for(size, len(one))
    return data_set(frames, b"", one * frames)


def window(filling=b"", values=1):
    centers = b"\\".join([b"0"] * values)
    return sequence(VOI, item(filling, element(CENTER, "DS", centers + b" " * (len(centers) % 2)),
                              element(WIDTH, "DS", b"\\".join([b"1"] * values) + b" " * (len(centers) % 2))))


def windows(size):
    """In each frame's item a window of as many centres and widths as a value holds. Rule 30 reads them all."""
    one = item(CONTENT, window(values=(MOST_VALUE + 1) // 2))
    frames = frames_for(size, len(one))
    return data_set(frames, b"", one * frames)


def windows_wide(size):
    """In each frame's item a window among 200 other elements."""
    one = item(CONTENT, window(headers(tags(200)[0], PLAIN)))
    frames = frames_for(size, len(one))
    return data_set(frames, b"", one * frames)


def shared_window(size):
    """A shared window of as many centres and widths as a value holds, many frames."""
    frames = frames_for(size, 29)
    return data_set(frames, window(values=(MOST_VALUE + 1) // 2), item(CONTENT) * frames)


def mask(frames, filling=b"", pairs=1):
    return item(filling, element(0x00286101, "CS", "AVG_SUB"),                      # Mask Operation
                element(0x00286102, "US", [frames, frames] * pairs),                # Applicable Frame Range
                element(0x00286110, "US", [1] * 64),                                # Mask Frame Numbers
                element(SHIFT, "FL", (0.0, 0.0)))


def ranges(size):
    """Sixteen mask items with as many ranges as a value holds."""
    frames = frames_for(size, 29)
    return data_set(frames, b"", item(CONTENT) * frames, [mask(frames, pairs=MOST_VALUE // 4)] * 16)


def masks_wide(size):
    """Sixteen mask items with wide bodies."""
    filling = headers(tags(size // 16 // 8)[0], PLAIN)
    return data_set(2, b"", item(CONTENT) * 2, [mask(2, filling)] * 16)


def root_low(size):
    """Root elements below nearly all that rules look for: a million at most."""
    return data_set(1, b"", item(CONTENT), low=headers(tags(size // 8)[0], PLAIN))


def root_middle(size):
    """Root elements below the functional groups and the pixel data."""
    return data_set(1, b"", item(CONTENT), middle=headers(range(HIGH, HIGH + size // 8), PLAIN))


def root_sequences(size):
    """Root elements that are sequences, nested eight deep."""
    one = len(nested(LOW, 8))
    return data_set(1, b"", item(CONTENT), low=b"".join(nested(tag, 8) for tag in tags(size // one)[0]))


def frames_deep(size):
    """In each frame's item sequences nested seven deep."""
    one = item(*[nested(LOW + k, 6) for k in range(8)], CONTENT)
    frames = frames_for(size, len(one))
    return data_set(frames, b"", one * frames)


def frames_bare(size):
    """Many frames with nothing but what they must have."""
    frames = frames_for(size, 29)
    return data_set(frames, b"", item(CONTENT) * frames)


SHAPES = (shared_plain, shared_sequences, shared_deep, both_wide, few_wide, shared_shifts, shared_shifts_wide, frame_shifts,
          frame_shifts_two, windows, windows_wide, shared_window, ranges, masks_wide, root_low, root_middle, root_sequences,
          frames_deep, frames_bare)


def main():
    shapes = {shape.__name__.replace("_", "-"): shape for shape in SHAPES}
    if sys.argv[1:] == ["--list"]:
        for name, shape in shapes.items():
            print(name + ": " + shape.__doc__.split("\n")[0])
        return
    if len(sys.argv) != 4 or sys.argv[2] not in shapes:
        sys.exit(__doc__)
    folder, name, size = sys.argv[1:]
    with open(os.path.join(folder, name + ".bin"), "wb") as out:
        out.write(shapes[name](int(size)))


if __name__ == "__main__":
    main()
