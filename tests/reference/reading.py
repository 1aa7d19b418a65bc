"""Reading one data set: document 01, "Reading", with the answers 0 to 8, and Q-6 of document 02.

The data set is read into a tree of elements and items. The row table is that tree written down in byte order. Every
step answers the offset that it reached, or raises Refusal with the code and the offset of the header at fault.
"""

from .answers import (BAD_STRUCTURE, CUT_SHORT, DATA_SET_TOO_LARGE, DONE, ODD_LENGTH, ROW_BUFFER_TOO_SMALL, TAG_ORDER,
                      TOO_DEEP, UNKNOWN_VR, Answer, Outcome)

MAXIMUM_SIZE = 1_073_741_824
MAXIMUM_SEQUENCE_DEPTH = 7  # a sequence of depth 8 is refused
UNDEFINED = 0xFFFFFFFF
NUMBERS_IN_A_ROW = 7

# VRs whose header is tag, VR, two zero bytes, 32-bit length: 12 bytes.
LONG_VRS = frozenset("OB OD OF OL OV OW SQ SV UC UN UR UT UV".split())
# VRs whose header is tag, VR, 16-bit length: 8 bytes.
SHORT_VRS = frozenset("AE AS AT CS DA DS DT FD FL IS LO LT PN SH SL SS ST TM UI UL US".split())

DELIMITER_GROUP = 0xFFFE
ITEM = 0xFFFEE000
ITEM_DELIMITER = 0xFFFEE00D
SEQUENCE_DELIMITER = 0xFFFEE0DD


class Refusal(Exception):
    """A reading check failed: one of the codes 1 to 6, and the offset of the header (document 01: the place)."""

    def __init__(self, code, offset):
        super().__init__(code, offset)
        self.code = code
        self.offset = offset


class Element:
    """An element: its tag, its VR, and where its value is. A sequence also has its items."""

    def __init__(self, tag, vr, value_offset, value_length, items):
        self.tag = tag
        self.vr = vr
        self.value_offset = value_offset
        self.value_length = value_length
        self.items = items  # list of Item for SQ, None for every other VR


class Item:
    """An item of a sequence, with the elements that it holds."""

    def __init__(self, value_offset, value_length, elements):
        self.value_offset = value_offset
        self.value_length = value_length
        self.elements = elements


def number(data, offset, size):
    """The little-endian number of `size` bytes at `offset`."""
    return int.from_bytes(data[offset:offset + size], "little")


def tag_at(data, offset):
    """Group and element, 16 bits each, as group * 65,536 + element."""
    return number(data, offset, 2) * 65_536 + number(data, offset + 2, 2)


def read_elements(data, offset, end, depth, delimited):
    """The elements from `offset` on, and the offset reached.

    `end` is the innermost known end. With `delimited` they are those of an item of undefined length, which an item
    delimiter ends; else they end at `end`. The offset reached is the end, or that of the delimiter.
    """
    elements = []
    previous_tag = None
    while True:
        if offset == end:
            if delimited:
                raise Refusal(CUT_SHORT, end)  # an undefined length still open at the known end
            return elements, offset
        # Check 1.
        if end - offset < 8:
            raise Refusal(CUT_SHORT, offset)
        tag = tag_at(data, offset)
        # Check 2, among elements.
        if tag >> 16 == DELIMITER_GROUP:
            if tag == ITEM_DELIMITER and delimited and number(data, offset + 4, 4) == 0:
                return elements, offset
            raise Refusal(BAD_STRUCTURE, offset)
        # Check 3.
        if previous_tag is not None and tag <= previous_tag:
            raise Refusal(TAG_ORDER, offset)
        element, offset = read_element(data, offset, end, depth, tag)
        elements.append(element)
        previous_tag = tag


def read_element(data, offset, end, depth, tag):
    """The element whose header is at `offset`, from check 4 on, and the offset after it."""
    vr = bytes(data[offset + 4:offset + 6]).decode("latin-1")
    # Check 4.
    if vr not in LONG_VRS and vr not in SHORT_VRS:
        raise Refusal(UNKNOWN_VR, offset)
    if vr in LONG_VRS:
        # Check 5.
        if end - offset < 12:
            raise Refusal(CUT_SHORT, offset)
        if number(data, offset + 6, 2) != 0:
            raise Refusal(BAD_STRUCTURE, offset)
        length = number(data, offset + 8, 4)
        value_offset = offset + 12
        undefined = length == UNDEFINED
    else:
        length = number(data, offset + 6, 2)
        value_offset = offset + 8
        undefined = False  # FFFFH in 16 bits is a defined length, and odd
    # Check 6.
    if undefined and vr != "SQ":
        raise Refusal(BAD_STRUCTURE, offset)
    # Check 7.
    check_defined_length(length, undefined, offset, value_offset, end)
    # Check 8.
    if vr == "SQ" and depth > MAXIMUM_SEQUENCE_DEPTH:
        raise Refusal(TOO_DEEP, offset)
    if vr != "SQ":
        return Element(tag, vr, value_offset, length, None), value_offset + length
    value_end = end if undefined else value_offset + length
    items, reached = read_items(data, value_offset, value_end, depth + 1, undefined)
    element = Element(tag, vr, value_offset, reached - value_offset, items)
    return element, reached + 8 if undefined else reached


def read_items(data, offset, end, depth, delimited):
    """The items of a sequence from `offset` on, and the offset reached: `end`, or that of the sequence delimiter."""
    items = []
    while True:
        if offset == end:
            if delimited:
                raise Refusal(CUT_SHORT, end)
            return items, offset
        # Check 1.
        if end - offset < 8:
            raise Refusal(CUT_SHORT, offset)
        tag = tag_at(data, offset)
        length = number(data, offset + 4, 4)
        # Check 2, among items.
        if tag == SEQUENCE_DELIMITER and delimited and length == 0:
            return items, offset
        if tag != ITEM:
            raise Refusal(BAD_STRUCTURE, offset)
        undefined = length == UNDEFINED
        value_offset = offset + 8
        # Check 7.
        check_defined_length(length, undefined, offset, value_offset, end)
        value_end = end if undefined else value_offset + length
        elements, reached = read_elements(data, value_offset, value_end, depth, undefined)
        items.append(Item(value_offset, reached - value_offset, elements))
        offset = reached + 8 if undefined else reached


def check_defined_length(length, undefined, offset, value_offset, end):
    """Check 7: a defined length is even, and its value does not reach past the known end."""
    if undefined:
        return
    if length % 2 == 1:
        raise Refusal(ODD_LENGTH, offset)
    if value_offset + length > end:
        raise Refusal(CUT_SHORT, offset)


def read_data_set(data):
    """The elements of the whole data set (document 01: the root), or Refusal."""
    elements, _ = read_elements(data, 0, len(data), 0, False)
    return elements


def rows_of_elements(elements, depth, parent, before):
    """The rows of some elements of one data set, in byte order.

    A row is: tag, VR number, depth, value offset, value length, descendants (rows below it, at every level), parent. The
    parent is "the row number, counted from 1, of the item or sequence it stands directly in, 0 at the root" (Q-6). Here
    it is that of the item that holds these elements; `before` rows stand before theirs.
    """
    rows = []
    for element in elements:
        number = before + len(rows) + 1
        below = [] if element.items is None else rows_of_items(element.items, depth + 1, number, number)
        vr_number = ord(element.vr[0]) * 256 + ord(element.vr[1])
        rows.append((element.tag, vr_number, depth, element.value_offset, element.value_length, len(below), parent))
        rows.extend(below)
    return rows


def rows_of_items(items, depth, parent, before):
    """The rows of the items of one sequence, whose row number is `parent`. An item's VR number is 0; its elements have its
    own depth, and its row number as their parent."""
    rows = []
    for item in items:
        number = before + len(rows) + 1
        below = rows_of_elements(item.elements, depth, number, number)
        rows.append((ITEM, 0, depth, item.value_offset, item.value_length, len(below), parent))
        rows.extend(below)
    return rows


def rows_of(elements):
    """The rows of a whole data set."""
    return rows_of_elements(elements, 0, 0, 0)


def read_with_elements(data, row_buffer_length):
    """What `read` answers and writes, and the elements; these are None with the codes 1 to 8."""
    if len(data) > MAXIMUM_SIZE:
        return Outcome(Answer(DATA_SET_TOO_LARGE)), None
    try:
        elements = read_data_set(data)
    except Refusal as refusal:
        return Outcome(Answer(refusal.code, offset=refusal.offset)), None
    rows = rows_of(elements)
    if row_buffer_length < NUMBERS_IN_A_ROW * len(rows):
        return Outcome(Answer(ROW_BUFFER_TOO_SMALL)), None
    numbers = tuple(value for row in rows for value in row)
    return Outcome(Answer(DONE, rows=len(rows)), rows=numbers), elements


def count(data):
    """How many rows there are: the answer of `read` with room for as many rows as so many bytes can have, a header having at least 8.
    The papers have no such call."""
    return read(data, NUMBERS_IN_A_ROW * (len(data) // 8)).answer


def read(data, row_buffer_length):
    """The call `read`, with a row buffer of so many numbers."""
    outcome, _ = read_with_elements(data, row_buffer_length)
    return outcome
