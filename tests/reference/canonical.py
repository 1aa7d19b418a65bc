"""Writing a data set anew in one way: Q-10 of document 02, with the answers 0 to 8 and 21.

Every sequence and item gets a defined length and no end mark. Headers have the forms of document 01, "Reading". What is
written follows from the tags, VRs, nesting and values alone, so the lengths of the data set that was read leave no trace.
"""

from typing import NamedTuple

from .answers import DONE, TARGET_TOO_SMALL
from .reading import ITEM, LONG_VRS, read_with_elements


class CanonicalAnswer(NamedTuple):
    """The fields of the answer. Those that its code does not name are 0."""

    code: int
    offset: int = 0
    rows: int = 0
    length: int = 0


class CanonicalOutcome(NamedTuple):
    """The answer, the numbers written to the front of the row buffer, and the bytes written to the front of the target."""

    answer: CanonicalAnswer
    rows: tuple = ()
    target: bytes = b""


def header_length(vr):
    return 12 if vr in LONG_VRS else 8


def element_length(element):
    """How many bytes an element takes, header included."""
    return header_length(element.vr) + content_length(element)


def content_length(element):
    """The length in an element's header: that of its value, or of its items as they are written."""
    if element.items is None:
        return element.value_length
    return sum(8 + item_length(item) for item in element.items)


def item_length(item):
    """The length in an item's header."""
    return sum(element_length(element) for element in item.elements)


def tag_bytes(tag):
    """Group, then element, 16 bits each, little-endian."""
    return (tag >> 16).to_bytes(2, "little") + (tag & 0xFFFF).to_bytes(2, "little")


def write_element(data, element):
    if element.items is None:
        content = bytes(data[element.value_offset:element.value_offset + element.value_length])
    else:
        content = b"".join(write_item(data, item) for item in element.items)
    if element.vr in LONG_VRS:
        length = b"\0\0" + len(content).to_bytes(4, "little")
    else:
        length = len(content).to_bytes(2, "little")
    return tag_bytes(element.tag) + element.vr.encode("ascii") + length + content


def write_item(data, item):
    content = write_elements(data, item.elements)
    return tag_bytes(ITEM) + len(content).to_bytes(4, "little") + content


def write_elements(data, elements):
    """The elements of one data set, the root's or an item's, in their order."""
    return b"".join(write_element(data, element) for element in elements)


def write_canonical(data, row_buffer_length, target_length):
    """The call, with a row buffer of so many numbers and a target buffer of so many bytes."""
    read, elements = read_with_elements(data, row_buffer_length)
    if elements is None:
        return CanonicalOutcome(CanonicalAnswer(read.answer.code, offset=read.answer.offset))
    length = sum(element_length(element) for element in elements)
    if target_length < length:
        return CanonicalOutcome(CanonicalAnswer(TARGET_TOO_SMALL, length=length), rows=read.rows)
    answer = CanonicalAnswer(DONE, rows=read.answer.rows, length=length)
    return CanonicalOutcome(answer, rows=read.rows, target=write_elements(data, elements))
