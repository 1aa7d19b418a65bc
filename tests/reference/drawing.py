"""Drawing frame f: document 01, steps 1 to 7, with Q-2, Q-3, Q-4 and Q-9 of document 02, computed with whole numbers and fractions.

The steps are defined for every data set that reads well, accepted or not, so no rule is taken for granted here: what a
step needs and does not find raises Lacking. A step that is not taken needs nothing.
"""

from fractions import Fraction
from math import floor
from typing import NamedTuple

from . import attributes as tags
from .answers import BUFFER_TOO_SMALL, DONE, NO_SUCH_FRAME, Answer, Outcome
from .rules import LINEAR, LINEAR_EXACT, judge_with_root, voi_lut_function
from .values import UNIT, integer, items_of, millionths, whole_quarters

NO_SHIFT = (0, 0)


class Lacking(Exception):
    """A step does not find what it needs; the text says what."""


def needed(value, what):
    if value is None:
        raise Lacking(what)
    return value


# ---------------------------------------------------------------------------------------------------------------------
# Frames of samples


class Size(NamedTuple):
    """The size of a frame, the bytes of a sample and the bits stored in it."""

    rows: int
    columns: int
    sample_size: int
    stored: int


def size_of(root):
    """Samples are of whole bytes."""
    rows = needed(root.unsigned_short(tags.ROWS), "Rows")
    columns = needed(root.unsigned_short(tags.COLUMNS), "Columns")
    allocated = needed(root.unsigned_short(tags.BITS_ALLOCATED), "Bits Allocated")
    if allocated == 0 or allocated % 8 != 0:
        raise Lacking("a sample of whole bytes")
    stored = needed(root.unsigned_short(tags.BITS_STORED), "Bits Stored")
    return Size(rows, columns, allocated // 8, stored)


def pixel_element(root):
    element = needed(root.find(tags.PIXEL_DATA), "Pixel Data")
    if element.vr not in ("OW", "OB"):
        raise Lacking("Pixel Data of a VR that is read")
    return element


class Pixels:
    """The pixel bytes, and how they are parted into frames of samples (document 01: cells).

    Samples follow each other row by row, frames without padding.
    """

    def __init__(self, root):
        self.rows, self.columns, self.sample_size, self.stored = size_of(root)
        element = pixel_element(root)
        self.data = root.data
        self.offset = element.value_offset
        self.length = element.value_length

    def has_frame(self, frame):
        """Whether frame f lies whole inside the pixel bytes."""
        return frame >= 1 and frame * self.rows * self.columns * self.sample_size <= self.length

    def frame(self, frame):
        """The samples of a frame: a list of rows."""
        if not self.has_frame(frame):
            raise Lacking(f"frame {frame}")
        return [[self.sample(frame, row, column) for column in range(self.columns)] for row in range(self.rows)]

    def sample(self, frame, row, column):
        """Step 1. A cell is its little-endian number modulo 2^stored."""
        number = ((frame - 1) * self.rows + row) * self.columns + column
        start = self.offset + number * self.sample_size
        return int.from_bytes(self.data[start:start + self.sample_size], "little") % 2 ** self.stored


# ---------------------------------------------------------------------------------------------------------------------
# Functional groups


def frame_item(root, frame):
    """Item f of the per-frame groups."""
    items = needed(root.items(tags.PER_FRAME_FUNCTIONAL_GROUPS_SEQUENCE), "per-frame groups")
    if not 1 <= frame <= len(items):
        raise Lacking(f"item {frame}")
    return items[frame - 1]


def frame_group(root, frame, tag):
    """A frame's group: that in item f, of any VR, else the shared one. The shared item is opened only then."""
    own = frame_item(root, frame).find(tag)
    if own is not None:
        return own
    items = needed(root.items(tags.SHARED_FUNCTIONAL_GROUPS_SEQUENCE), "shared groups")
    if len(items) != 1:
        raise Lacking("the shared item")
    return items[0].find(tag)


# ---------------------------------------------------------------------------------------------------------------------
# The mask


def applying_item(root, frame):
    """Step 2. The first mask item whose range holds f (no range: all) applies. None: none of them."""
    if not root.present(tags.MASK_SUBTRACTION_SEQUENCE):
        return None
    for item in needed(root.items(tags.MASK_SUBTRACTION_SEQUENCE), "Mask Subtraction Sequence of VR SQ"):
        if not item.present(tags.APPLICABLE_FRAME_RANGE):
            return item
        numbers = needed(item.unsigned_shorts(tags.APPLICABLE_FRAME_RANGE), "a frame range")
        if len(numbers) % 2 != 0:
            raise Lacking("a frame range of pairs")
        if any(first <= frame <= last for first, last in zip(numbers[0::2], numbers[1::2])):
            return item
    return None


def mask_operation(item):
    operation = item.text(tags.MASK_OPERATION, "CS")
    if operation not in (b"NONE", b"AVG_SUB", b"TID"):
        raise Lacking("a mask operation")
    return operation


def average(samples):
    """Step 3, AVG_SUB. The mask is floor((2S + n) / 2n), S the sum of the n mask frames' cells."""
    return (2 * sum(samples) + len(samples)) // (2 * len(samples))


def mask_frame_numbers(item):
    return needed(item.unsigned_shorts(tags.MASK_FRAME_NUMBERS), "mask frame numbers")


def average_mask(item, pixels):
    numbers = mask_frame_numbers(item)
    known = {number: pixels.frame(number) for number in numbers}
    frames = [known[number] for number in numbers]
    return [[average([frame[row][column] for frame in frames]) for column in range(pixels.columns)]
            for row in range(pixels.rows)]


def tid_frame(root, item, frame):
    """Step 3, TID: frame f - offset (absent: 1). None if it is outside 1..N."""
    offset = 1
    if item.present(tags.TID_OFFSET):
        offset = needed(item.signed_short(tags.TID_OFFSET), "a TID offset")
    frames = needed(integer(root.text(tags.NUMBER_OF_FRAMES, "IS")), "Number of Frames")
    return frame - offset if 1 <= frame - offset <= frames else None


def shift(root, item, frame):
    """Step 4. The shift, in whole quarters."""
    _, pair = chosen_shift(root, item, frame)
    return needed(whole_quarters(pair), "whole quarters")


def chosen_shift(root, item, frame):
    """Step 4. The shift is no shift, the item's two numbers, or the frame's own two where its group names the item's ID
    (an absent group names none); the frame's own win, and where neither are present there is no shift.

    Says which, and the two numbers unchanged."""
    own = naming_item(root, item, frame)
    if own is not None:
        return "frame", needed(own.float_pair(tags.MASK_SUB_PIXEL_SHIFT), "a frame's shift")
    if item.present(tags.MASK_SUB_PIXEL_SHIFT):
        return "item", needed(item.float_pair(tags.MASK_SUB_PIXEL_SHIFT), "an item's shift")
    return "none", NO_SHIFT


def naming_item(root, item, frame):
    """The item of the frame's own group that names the mask item's ID; None if none does."""
    group = frame_group(root, frame, tags.FRAME_PIXEL_SHIFT_SEQUENCE)
    if group is None:
        return None
    members = needed(items_of(root.data, group), "Frame Pixel Shift of VR SQ")
    if not members:
        raise Lacking("an item of Frame Pixel Shift")
    wanted = needed(item.unsigned_short(tags.SUBTRACTION_ITEM_ID), "the mask item's ID")
    for member in members:
        if needed(member.unsigned_short(tags.SUBTRACTION_ITEM_ID), "an ID") == wanted:
            return member
    return None


def limited(number, low, high):
    return max(low, min(high, number))


def parted(number):
    """The whole number below a number of whole quarters, and the quarters above it: 0 to 3, also where it is negative."""
    whole = floor(number)
    return whole, int(4 * (number - whole))


def blended(mask, row, column):
    """Step 4, Q-4. "Let a and b be the quarters of row r - v and column c - h above the whole row and column. The mask
    value is the sum over the four neighbouring mask cells, with weights (4-a)(4-b), (4-a)b, a(4-b) and ab, in reading
    order from that whole row and column, plus 8, divided by 16, rounded down; each neighbour is limited to the edge."

    `row` and `column` are parted."""
    (top, a), (left, b) = row, column
    neighbours = ((top, left, (4 - a) * (4 - b)), (top, left + 1, (4 - a) * b),
                  (top + 1, left, a * (4 - b)), (top + 1, left + 1, a * b))
    total = sum(weight * mask[limited(r, 0, len(mask) - 1)][limited(c, 0, len(mask[0]) - 1)] for r, c, weight in neighbours)
    return (total + 8) // 16


def shifted(mask, pair):
    """Step 4. Vertical v, horizontal h: cell (r, c) takes the mask at row r - v and column c - h."""
    vertical, horizontal = pair
    rows = [parted(row - vertical) for row in range(len(mask))]
    columns = [parted(column - horizontal) for column in range(len(mask[0]) if mask else 0)]
    return [[blended(mask, row, column) for column in columns] for row in rows]


def mask_samples(root, frame, pixels):
    """Steps 2 to 4: the mask's samples, shifted. None: the frame is native."""
    item = applying_item(root, frame)
    if item is None:
        return None
    operation = mask_operation(item)
    if operation == b"NONE":
        return None
    if operation == b"AVG_SUB":
        mask = average_mask(item, pixels)
    else:
        number = tid_frame(root, item, frame)
        if number is None:
            return None
        mask = pixels.frame(number)
    return shifted(mask, shift(root, item, frame))


def half_of_range(stored):
    """2^(stored - 1), which is 1/2 for 0 bits stored."""
    return 2 ** (stored - 1) if stored else Fraction(1, 2)


def subtracted(sample, mask, stored):
    """Step 5. cell - mask + 2^(stored - 1); it stays signed."""
    return sample - mask + half_of_range(stored)


# ---------------------------------------------------------------------------------------------------------------------
# Window and polarity


def window(root, frame, stored):
    """Step 6. The function, and the first centre and width in millionths, C, W; without a VOI group LINEAR,
    1,000,000 × 2^(stored - 1) and 1,000,000 × 2^stored (Q-2, Q-3)."""
    group = frame_group(root, frame, tags.FRAME_VOI_LUT_SEQUENCE)
    if group is None:
        return LINEAR, UNIT * half_of_range(stored), UNIT * 2 ** stored
    items = needed(items_of(root.data, group), "Frame VOI LUT of VR SQ")
    if len(items) != 1:
        raise Lacking("the one item of Frame VOI LUT")
    centers = needed(items[0].texts(tags.WINDOW_CENTER, "DS"), "Window Center")
    widths = needed(items[0].texts(tags.WINDOW_WIDTH, "DS"), "Window Width")
    return (needed(voi_lut_function(items[0]), "a function"), needed(millionths(centers[0]), "a centre"),
            needed(millionths(widths[0]), "a width"))


def divided(number, divisor):
    """Rounded down. Step 6 needs "a divisor above 0 where it divides"."""
    if divisor <= 0:
        raise Lacking("a divisor above 0")
    return floor(Fraction(number, divisor))


def linear(x, center, width):
    """Step 6, with u = 1,000,000 for 1000 (Q-2). y = 0 if 2ux ≤ 2C - W; 255 if 2ux > 2C + W - 2u; else
    floor((255(2ux - 2C + W) + W - u) / (2(W - u)))."""
    if 2 * UNIT * x <= 2 * center - width:
        return 0
    if 2 * UNIT * x > 2 * center + width - 2 * UNIT:
        return 255
    return divided(255 * (2 * UNIT * x - 2 * center + width) + width - UNIT, 2 * (width - UNIT))


def linear_exact(x, center, width):
    """Q-3. "For LINEAR_EXACT (PS3.3 C.11.2.1.3), with u the units to one: 0 if 2ux ≤ 2C - W, 255 if 2ux > 2C + W, else
    floor((255(2ux - 2C + W) + W) / (2W))"."""
    if 2 * UNIT * x <= 2 * center - width:
        return 0
    if 2 * UNIT * x > 2 * center + width:
        return 255
    return divided(255 * (2 * UNIT * x - 2 * center + width) + width, 2 * width)


def level(x, function, center, width):
    """Step 6, by either function. "Then y is limited to 0..255" is struck (Q-9): y is within that by itself."""
    y = linear_exact(x, center, width) if function == LINEAR_EXACT else linear(x, center, width)
    assert 0 <= y <= 255, (x, function, center, width, y)
    return y


def photometric_of(root):
    return needed(root.text(tags.PHOTOMETRIC_INTERPRETATION, "CS"), "Photometric Interpretation")


def shown(y, photometric):
    """Step 7. MONOCHROME1: 255 - y."""
    return 255 - y if photometric == b"MONOCHROME1" else y


# ---------------------------------------------------------------------------------------------------------------------


def draw(root, frame):
    """All steps: whether the frame is masked, and its image (document 01: picture); or Lacking."""
    pixels = Pixels(root)
    samples = pixels.frame(frame)
    mask = mask_samples(root, frame, pixels)
    function, center, width = window(root, frame, pixels.stored)
    photometric = photometric_of(root)
    image = bytearray()
    for row in range(pixels.rows):
        for column in range(pixels.columns):
            x = samples[row][column]
            if mask is not None:
                x = subtracted(x, mask[row][column], pixels.stored)
            image.append(shown(level(x, function, center, width), photometric))
    return mask is not None, bytes(image)


def show(data, frame, row_buffer_length, image_buffer_length):
    """The call `show`: it judges afresh, then draws."""
    outcome, root = judge_with_root(data, row_buffer_length)
    if outcome.answer.code != DONE:
        return outcome
    if not 1 <= frame <= integer(root.text(tags.NUMBER_OF_FRAMES, "IS")):
        return Outcome(Answer(NO_SUCH_FRAME), rows=outcome.rows)
    if image_buffer_length < root.unsigned_short(tags.ROWS) * root.unsigned_short(tags.COLUMNS):
        return Outcome(Answer(BUFFER_TOO_SMALL), rows=outcome.rows)
    masked, image = draw(root, frame)
    return Outcome(Answer(DONE, rows=outcome.answer.rows, masked=int(masked)), rows=outcome.rows, image=image)
