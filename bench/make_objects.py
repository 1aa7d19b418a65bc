#!/usr/bin/env python3
"""Writes Enhanced XA runs for the benchmarks. Python 3 standard library only.

    make_objects.py FOLDER run                     900 frames of 512 x 512, 16-bit samples
    make_objects.py FOLDER many                    65,535 frames of 2 x 2, about a million rows
    make_objects.py FOLDER draw                    8 frames of 1024 x 1024, 16-bit samples, to be drawn
    make_objects.py FOLDER run --leave-out 812     the per-frame item of frame 812 left out
    make_objects.py FOLDER many --frames 256 1024  one object for each count

Each object is written twice: NAME.bin is the bare data set in Explicit VR Little Endian, NAME.dcm the
same bytes after a preamble and a group 0002 head, for programs that want a DICOM file. Equal arguments
write equal bytes. Without --leave-out every object satisfies rules 1 to 38.
"""

import argparse
import os
import random
import struct

XA_STORAGE = "1.2.840.10008.5.1.4.1.1.12.1.1"
EXPLICIT_LITTLE_ENDIAN = "1.2.840.10008.1.2.1"
IMAGE_TYPE = "ORIGINAL\\PRIMARY\\ANGIO\\NONE"
UID_ROOT = "2.25.302614937159"          # 2.25: a root that anybody may use
LONG_FORM = {"OB", "OW", "SQ", "UN", "UT"}
UNDEFINED = 0xFFFFFFFF
ITEM, ITEM_END, SEQUENCE_END = 0xFFFEE000, 0xFFFEE00D, 0xFFFEE0DD


def tag_bytes(tag):
    return struct.pack("<HH", tag >> 16, tag & 0xFFFF)


def header(tag, vr, length):
    if vr in LONG_FORM:
        return tag_bytes(tag) + vr.encode() + b"\0\0" + struct.pack("<I", length)
    return tag_bytes(tag) + vr.encode() + struct.pack("<H", length)


def value_bytes(vr, value):
    """Text is padded to an even length: UI with a zero byte, the other text VRs with a space."""
    numbers = {"US": "H", "SS": "h", "UL": "I", "FL": "f", "FD": "d"}
    if vr in numbers:
        values = value if isinstance(value, (list, tuple)) else [value]
        return struct.pack("<%d%s" % (len(values), numbers[vr]), *values)
    if isinstance(value, bytes):
        return value
    text = value.encode("ascii")
    return text + (b"\0" if vr == "UI" else b" ") * (len(text) % 2)


def element(tag, vr, value):
    content = value_bytes(vr, value)
    return header(tag, vr, len(content)) + content


class Encoder:
    """How sequences and items end: `defined`, `undefined`, or `mixed` (items defined, sequences not)."""

    def __init__(self, lengths):
        self.items_open = lengths == "undefined"
        self.sequences_open = lengths in ("undefined", "mixed")

    def item(self, *elements):
        content = b"".join(elements)
        if self.items_open:
            return tag_bytes(ITEM) + struct.pack("<I", UNDEFINED) + content + tag_bytes(ITEM_END) + bytes(4)
        return tag_bytes(ITEM) + struct.pack("<I", len(content)) + content

    def sequence(self, tag, *items):
        content = b"".join(items)
        if self.sequences_open:
            return header(tag, "SQ", UNDEFINED) + content + tag_bytes(SEQUENCE_END) + bytes(4)
        return header(tag, "SQ", len(content)) + content


def date_time(frame):
    """The time of a frame at 15 frames a second, from one second past five in the morning."""
    microseconds = frame * 1_000_000 // 15
    seconds = 5 * 3600 + 1 + microseconds // 1_000_000
    return "20240305%02d%02d%02d.%06d" % (
        seconds // 3600 % 24, seconds // 60 % 60, seconds % 60, microseconds % 1_000_000)


def positioner(encoder, frame):
    return encoder.sequence(0x00189405, encoder.item(                         # Positioner Position
        element(0x00181510, "DS", "%.2f" % (frame % 360 / 4 - 45)),           # Positioner Primary Angle
        element(0x00181511, "DS", "%.2f" % (frame % 80 / 4 - 10))))           # Positioner Secondary Angle


def shared_item(encoder, full):
    """What all frames have in common; the positioner is here if the frames don't have their own."""
    groups = [] if full else [positioner(encoder, 0)]
    groups += [
        encoder.sequence(0x00189406, encoder.item(                            # Table Position
            element(0x00189469, "FL", 0.0),                                   # Table Horizontal Rotation Angle
            element(0x00189470, "FL", 0.0),                                   # Table Head Tilt Angle
            element(0x00189471, "FL", 0.0),                                   # Table Cradle Tilt Angle
            element(0x300A0128, "DS", "0"),                                   # Table Top Vertical Position
            element(0x300A0129, "DS", "0"),                                   # Table Top Longitudinal Position
            element(0x300A012A, "DS", "0"))),                                 # Table Top Lateral Position
        encoder.sequence(0x00189407, encoder.item(                            # Collimator Shape
            element(0x00181700, "CS", "RECTANGULAR"),
            element(0x00181702, "IS", "1"),
            element(0x00181704, "IS", "512"),
            element(0x00181706, "IS", "1"),
            element(0x00181708, "IS", "512"))),
        encoder.sequence(0x00189477, encoder.item(                            # Irradiation Event Identification
            element(0x00083010, "UI", UID_ROOT + ".5"))),
        encoder.sequence(0x00209071, encoder.item(                            # Frame Anatomy
            encoder.sequence(0x00082218, encoder.item(                        # Anatomic Region
                element(0x00080100, "SH", "80891009"),
                element(0x00080102, "SH", "SCT"),
                element(0x00080104, "LO", "Heart"))),
            element(0x00209072, "CS", "U"))),                                 # Frame Laterality
        encoder.sequence(0x00289443, encoder.item(                            # Frame Pixel Data Properties
            element(0x00089007, "CS", IMAGE_TYPE),                            # Frame Type
            element(0x00181164, "DS", "0.2\\0.2"),                            # Imager Pixel Spacing
            element(0x00281040, "CS", "LIN"),                                 # Pixel Intensity Relationship
            element(0x00281041, "SS", 1),                                     # Pixel Intensity Relationship Sign
            element(0x00289444, "CS", "UNIFORM"),                             # Geometrical Properties
            element(0x00289446, "CS", "NONE"))),                              # Image Processing Applied
    ]
    return encoder.item(*groups)


def frame_item(encoder, frame, full, quarters):
    """The functional groups of one frame: 17 rows with the item's own, or 25 with `full`."""
    groups = []
    if full:
        groups.append(positioner(encoder, frame))
    groups.append(encoder.sequence(0x00189412, encoder.item(                  # XA/XRF Frame Characteristics
        element(0x00181400, "LO", "NOISE REDUCED"))))                         # Acquisition Device Processing Description
    if full:
        groups.append(encoder.sequence(0x00189417, encoder.item(              # Frame Acquisition
            element(0x00180060, "DS", "%d" % (70 + frame % 9)),               # KVP
            element(0x00189330, "FD", 350.0 + frame % 7))))                   # X-Ray Tube Current in mA
    groups.append(encoder.sequence(0x00209111, encoder.item(                  # Frame Content
        element(0x00189074, "DT", date_time(frame)),                          # Frame Acquisition DateTime
        element(0x00189151, "DT", date_time(frame)),                          # Frame Reference DateTime
        element(0x00189220, "FD", 8.0))))                                     # Frame Acquisition Duration
    groups.append(encoder.sequence(0x00289132, encoder.item(                  # Frame VOI LUT
        element(0x00281050, "DS", "%d" % (2040 + frame % 17)),                # Window Center
        element(0x00281051, "DS", "%d.5" % (900 + frame % 201)))))            # Window Width
    groups.append(encoder.sequence(0x00289415, encoder.item(                  # Frame Pixel Shift
        element(0x00286114, "FL", (                                           # Mask Sub-pixel Shift
            frame % 5 - 2 + quarters[0] / 4, frame % 7 - 3 + quarters[1] / 4)),
        element(0x00289416, "US", 1))))                                       # Subtraction Item ID
    return encoder.item(*groups)


def before_pixels(encoder, frames, rows, columns, full, leave_out, masks=4, stored=12, quarters=(0, 0)):
    """All elements before Pixel Data."""
    mask_frames = [1 + k * (frames - 1) // max(masks - 1, 1) for k in range(min(masks, frames))]
    parts = [
        element(0x00080005, "CS", "ISO_IR 100"),                  # Specific Character Set
        element(0x00080008, "CS", IMAGE_TYPE),
        element(0x00080016, "UI", XA_STORAGE),
        element(0x00080018, "UI", UID_ROOT + ".1.%d.%d" % (frames, leave_out)),
        element(0x00080020, "DA", "20240305"),                    # Study Date
        element(0x00080023, "DA", "20240305"),                    # Content Date
        element(0x0008002A, "DT", date_time(0)),                  # Acquisition DateTime
        element(0x00080030, "TM", "050000"),                      # Study Time
        element(0x00080033, "TM", "050001"),                      # Content Time
        element(0x00080050, "SH", "A1"),                          # Accession Number
        element(0x00080060, "CS", "XA"),                          # Modality
        element(0x00080070, "LO", "Bench"),                       # Manufacturer
        element(0x00080090, "PN", ""),                            # Referring Physician's Name
        element(0x00081090, "LO", "Made run"),                    # Manufacturer's Model Name
        element(0x00100010, "PN", "Bench^Run"),
        element(0x00100020, "LO", "B-1"),
        element(0x00100030, "DA", ""),
        element(0x00100040, "CS", ""),
        element(0x00180060, "DS", "72"),                          # KVP
        element(0x00181000, "LO", "1"),                           # Device Serial Number
        element(0x00181020, "LO", "1"),                           # Software Versions
        element(0x00181154, "DS", "8"),                           # Average Pulse Width
        element(0x00181155, "CS", "GR"),                          # Radiation Setting
        element(0x0018115A, "CS", "PULSED"),                      # Radiation Mode
        element(0x00181508, "CS", "CARM"),                        # Positioner Type
        element(0x00189004, "CS", "PRODUCT"),                     # Content Qualification
        element(0x00189073, "FD", frames / 15),                   # Acquisition Duration
        element(0x00189332, "FD", 2.8 * frames),                  # Exposure in mAs
        element(0x00189410, "CS", "SINGLE PLANE"),                # Planes in Acquisition
        element(0x00189426, "FL", 20.0),                          # Distance Receptor Plane to Detector Housing
        element(0x00189457, "CS", "MONOPLANE"),                   # Plane Identification
        element(0x00189473, "FL", 1.0),                           # Acquired Image Area Dose Product
        element(0x00189474, "CS", "NO"),                          # C-arm Positioner Tabletop Relationship
        element(0x0020000D, "UI", UID_ROOT + ".2"),
        element(0x0020000E, "UI", UID_ROOT + ".3"),
        element(0x00200010, "SH", "1"),                           # Study ID
        element(0x00200011, "IS", "1"),                           # Series Number
        element(0x00200012, "IS", "1"),                           # Acquisition Number
        element(0x00200013, "IS", "1"),                           # Instance Number
        element(0x00280002, "US", 1),                             # Samples per Pixel
        element(0x00280004, "CS", "MONOCHROME2"),
        element(0x00280008, "IS", "%d" % frames),                 # Number of Frames
        element(0x00280010, "US", rows),
        element(0x00280011, "US", columns),
        element(0x00280100, "US", 16),                            # Bits Allocated
        element(0x00280101, "US", stored),                        # Bits Stored
        element(0x00280102, "US", stored - 1),                    # High Bit
        element(0x00280103, "US", 0),                             # Pixel Representation
        element(0x00280301, "CS", "NO"),                          # Burned In Annotation
        element(0x00281090, "CS", "SUB"),                         # Recommended Viewing Mode
        element(0x00282110, "CS", "00"),                          # Lossy Image Compression
        encoder.sequence(0x00286100, encoder.item(                # Mask Subtraction
            element(0x00286101, "CS", "AVG_SUB"),                 # Mask Operation
            element(0x00286102, "US", (1, frames)),               # Applicable Frame Range
            element(0x00286110, "US", mask_frames),               # Mask Frame Numbers
            element(0x00286112, "US", 1),                         # Contrast Frame Averaging
            element(0x00289416, "US", 1))),                       # Subtraction Item ID
        encoder.sequence(0x00400555),                             # Acquisition Context
        element(0x20500020, "CS", "IDENTITY"),                    # Presentation LUT Shape
        encoder.sequence(0x52009229, shared_item(encoder, full)), # Shared Functional Groups
        encoder.sequence(0x52009230, *[                           # Per-frame Functional Groups
            frame_item(encoder, f, full, quarters) for f in range(1, frames + 1) if f != leave_out]),
    ]
    return b"".join(parts)


def file_head(instance):
    group = b"".join([
        element(0x00020001, "OB", b"\0\1"),
        element(0x00020002, "UI", XA_STORAGE),
        element(0x00020003, "UI", instance),
        element(0x00020010, "UI", EXPLICIT_LITTLE_ENDIAN),
        element(0x00020012, "UI", UID_ROOT + ".4"),
    ])
    return bytes(128) + b"DICM" + element(0x00020000, "UL", len(group)) + group


def write(folder, name, frames, rows, columns, full, leave_out, lengths, masks, stored, quarters):
    instance = UID_ROOT + ".1.%d.%d" % (frames, leave_out)
    front = before_pixels(Encoder(lengths), frames, rows, columns, full, leave_out, masks, stored, quarters)
    size = rows * columns * 2
    source = random.Random(83)
    # 16 different frames are enough; a long run repeats them. Unused high bits hold junk.
    pictures = [source.randbytes(size) for _ in range(min(frames, 16))]
    for ending, head in ((".bin", b""), (".dcm", file_head(instance))):
        with open(os.path.join(folder, name + ending), "wb") as out:
            out.write(head + front + header(0x7FE00010, "OW", frames * size))
            whole = b"".join(pictures)
            for _ in range(frames // len(pictures)):
                out.write(whole)
            for k in range(frames % len(pictures)):
                out.write(pictures[k])
    print("%s: %d frames, %d bytes before the pixels" % (name, frames, len(front)))


def main():
    shapes = {"run": (900, 512, 512, True), "many": (65535, 2, 2, False), "draw": (8, 1024, 1024, False)}
    parser = argparse.ArgumentParser(description=__doc__, formatter_class=argparse.RawDescriptionHelpFormatter)
    parser.add_argument("folder", help="where the objects go; outside the repository")
    parser.add_argument("shape", choices=sorted(shapes))
    parser.add_argument("--frames", type=int, nargs="+", help="other frame counts, 1 to 65535")
    parser.add_argument("--leave-out", type=int, default=0, metavar="K", help="leave out the item of frame K")
    parser.add_argument("--size", type=int, help="other Rows and Columns")
    parser.add_argument("--masks", type=int, default=4, help="how many mask frames, 1 to 64 (4)")
    parser.add_argument("--stored", type=int, default=12, help="Bits Stored, 9 to 16 (12)")
    parser.add_argument("--quarters", type=int, nargs=2, default=(0, 0), metavar=("V", "H"),
                        help="how many quarters more each shift has, down and to the right (0 0)")
    parser.add_argument("--lengths", choices=("defined", "undefined", "mixed"), default="defined")
    parser.add_argument("--name", help="name of the files, without ending (one frame count only)")
    chosen = parser.parse_args()
    usual, rows, columns, full = shapes[chosen.shape]
    if chosen.size:
        rows = columns = chosen.size
    os.makedirs(chosen.folder, exist_ok=True)
    for frames in chosen.frames or [usual]:
        name = chosen.name or "%s-%d" % (chosen.shape, frames)
        if not chosen.name and chosen.leave_out:
            name += "-without-%d" % chosen.leave_out
        if not chosen.name and chosen.lengths != "defined":
            name += "-" + chosen.lengths
        write(chosen.folder, name, frames, rows, columns, full,
              chosen.leave_out, chosen.lengths, chosen.masks, chosen.stored, chosen.quarters)


if __name__ == "__main__":
    main()
