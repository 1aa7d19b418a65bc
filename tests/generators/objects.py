"""Builders of data sets in Explicit VR Little Endian: bytes from elements, items and sequences.

Two ways to build:

* by hand, with element(), item() and sequence(), where each length can be set to something wrong;
* from a model, with encode(): a data set is a dictionary tag -> (VR, value), the value is bytes or, for SQ, a list of
  such dictionaries, one for each item. Models are easy to change, and are written out sorted by tag.
"""

import struct

UNDEFINED = 0xFFFFFFFF
LONG_HEADER_VRS = ("OB", "OD", "OF", "OL", "OV", "OW", "SQ", "SV", "UC", "UN", "UR", "UT", "UV")
SHORT_HEADER_VRS = ("AE", "AS", "AT", "CS", "DA", "DS", "DT", "FD", "FL", "IS", "LO", "LT", "PN", "SH", "SL", "SS", "ST",
                    "TM", "UI", "UL", "US")


def tag_bytes(tag):
    return struct.pack("<HH", tag >> 16, tag & 0xFFFF)


def element_header(tag, vr, length):
    """The header of an element, with the long form where the VR has it."""
    if vr in LONG_HEADER_VRS:
        return tag_bytes(tag) + vr.encode("latin-1") + b"\0\0" + struct.pack("<I", length)
    return tag_bytes(tag) + vr.encode("latin-1") + struct.pack("<H", length)


def element(tag, vr, value=b"", length=None):
    """An element. `length` replaces the true length if a wrong one is wanted."""
    return element_header(tag, vr, len(value) if length is None else length) + value


def item_header(length):
    return tag_bytes(0xFFFEE000) + struct.pack("<I", length)


ITEM_END = tag_bytes(0xFFFEE00D) + bytes(4)
SEQUENCE_END = tag_bytes(0xFFFEE0DD) + bytes(4)


def item(content=b"", undefined=False):
    if undefined:
        return item_header(UNDEFINED) + content + ITEM_END
    return item_header(len(content)) + content


def sequence(tag, content=b"", undefined=False):
    if undefined:
        return element_header(tag, "SQ", UNDEFINED) + content + SEQUENCE_END
    return element(tag, "SQ", content)


def never():
    return False


def encode(model, undefined=never):
    """The bytes of a model. `undefined` is asked once for each sequence and item whether its length is undefined."""
    parts = []
    for tag in sorted(model):
        vr, value = model[tag]
        if isinstance(value, list):
            content = b"".join(item(encode(one, undefined), undefined()) for one in value)
            parts.append(sequence(tag, content, undefined()))
        else:
            parts.append(element(tag, vr, value))
    return b"".join(parts)


# ---------------------------------------------------------------------------------------------------------------------
# Random data sets for reading, without regard to what the elements mean


def random_tags(rng, count):
    """Ascending tags, none of group FFFE: near each other or far apart, the first and last groups among them."""
    tags = set()
    while len(tags) < count:
        group = rng.choice((0x0000, 0x0002, 0x0008, 0x0018, 0x0028, 0x5200, 0x7FE0, 0xFFFD, 0xFFFF, rng.randrange(65536)))
        if group != 0xFFFE:
            tags.add(group << 16 | rng.choice((0x0000, 0x0001, 0x0010, 0xE000, 0xE00D, 0xFFFF, rng.randrange(65536))))
    return sorted(tags)


def random_model(rng, depth=0, width=5):
    """A random data set that reads well: no sequence is deeper than depth 7."""
    model = {}
    for tag in random_tags(rng, rng.choice((0, 1, 1, 2, 3, width))):
        if depth < 8 and rng.random() < 0.35:
            count = rng.choice((0, 0, 1, 1, 2, 3))
            model[tag] = ("SQ", [random_model(rng, depth + 1, max(1, width - 1)) for _ in range(count)])
        else:
            vr = rng.choice([one for one in SHORT_HEADER_VRS + LONG_HEADER_VRS if one != "SQ"])
            model[tag] = (vr, rng.randbytes(2 * rng.choice((0, 0, 1, 1, 2, 3, 8, 20))))
    return model


def nest(rng, content, depth, undefined=None):
    """Content put into `depth` sequences, one in the other, with neighbours before and after at random.

    Lengths are undefined at random, or all as `undefined` says.
    """
    for _ in range(depth):
        choice = (lambda: rng.random() < 0.5) if undefined is None else (lambda: undefined)
        before = item(element(0x00080016, "UI", b"1\0"), choice()) if rng.random() < 0.3 else b""
        behind = item(b"", choice()) if rng.random() < 0.3 else b""
        content = sequence(0x52009229, before + item(content, choice()) + behind, choice())
        if rng.random() < 0.3:
            content = element(0x00280010, "US", b"\2\0") + content
        if rng.random() < 0.3:
            content = content + element(0x7FE00010, "OW", b"\1\2\3\4")
    return content
