"""Back to beam intensity: document 02, Q-8. The mapping of a frame, the call for it, and the square root derivation.

As the drawing steps, the mapping is defined for every data set that reads well, accepted or not: what it needs and does
not find raises Lacking. A frame without a TO_LINEAR item is not mapped, and lacks nothing.
"""

from math import isqrt

from . import attributes as tags
from .answers import BUFFER_TOO_SMALL, DONE, NO_SUCH_FRAME, NO_TO_LINEAR_ITEM, Answer, Outcome
from .drawing import Lacking, Pixels, frame_group, limited, needed
from .rules import entry_count, judge_with_root, to_linear_items
from .values import integer, items_of


class Table:
    """The LUT of a TO_LINEAR item: "LUT Descriptor (0028,3002) US gives entry count (0 stands for 65,536), first mapped cell
    and 16; LUT Data (0028,3006) OW holds two bytes an entry"."""

    def __init__(self, item):
        descriptor = needed(item.unsigned_shorts(tags.LUT_DESCRIPTOR), "LUT Descriptor")
        if len(descriptor) != 3 or descriptor[2] != 16:
            raise Lacking("a descriptor of three numbers, the last 16")
        self.count = entry_count(descriptor)
        self.first = descriptor[1]
        self.data = needed(item.value(tags.LUT_DATA, "OW"), "LUT Data")

    def entry(self, cell):
        """Cells below the first take the first entry, cells above the last take the last."""
        start = 2 * limited(cell - self.first, 0, self.count - 1)
        if start + 2 > len(self.data):
            raise Lacking("an entry")
        return int.from_bytes(self.data[start:start + 2], "little")


def to_linear_item(root, frame):
    """The TO_LINEAR item in the frame's Pixel Intensity Relationship LUT Sequence, the first if there are several; None
    if the frame has none."""
    group = frame_group(root, frame, tags.PIXEL_INTENSITY_RELATIONSHIP_LUT_SEQUENCE)
    if group is None:
        return None
    found = to_linear_items(needed(items_of(root.data, group), "a LUT sequence of VR SQ"))
    return found[0] if found else None


def mapped(root, frame):
    """Each cell of the frame mapped by its TO_LINEAR item, row by row; None if it has no such item; or Lacking."""
    item = to_linear_item(root, frame)
    if item is None:
        return None
    samples = Pixels(root).frame(frame)
    table = Table(item)
    return tuple(table.entry(cell) for row in samples for cell in row)


def linear(data, frame, row_buffer_length, values_buffer_length):
    """The call: it judges afresh, then maps. "20 if the frame has no such item, after 10; then 11 if the room is under
    Rows × Columns numbers"."""
    outcome, root = judge_with_root(data, row_buffer_length)
    if outcome.answer.code != DONE:
        return outcome
    if not 1 <= frame <= integer(root.text(tags.NUMBER_OF_FRAMES, "IS")):
        return Outcome(Answer(NO_SUCH_FRAME), rows=outcome.rows)
    numbers = mapped(root, frame)
    if numbers is None:
        return Outcome(Answer(NO_TO_LINEAR_ITEM), rows=outcome.rows)
    if values_buffer_length < len(numbers):
        return Outcome(Answer(BUFFER_TOO_SMALL), rows=outcome.rows)
    return Outcome(outcome.answer, rows=outcome.rows, values=numbers)


def root_level(cell):
    """The square root derivation, 14 bits to 8: "a 14-bit cell v (of a larger number the lowest 14 bits) becomes the largest
    p with p × p ≤ 4v"."""
    return isqrt(4 * (cell % 2 ** 14))


def root_entry(level):
    """"its LUT of 256 entries gives for p the number p × p / 4 rounded up"."""
    return -(-level * level // 4)
