"""Small data sets for the drawing steps, most of them not accepted, and what the independent program's steps answer.

Three kinds of cases: objects that are accepted; objects of which one change broke a rule; and data sets that have little
but what the steps read, each with one thing changed and a part of what is to be printed worked out by hand.
"""

import collections
import math
import random

from reference import attributes as tags
from reference import drawing, reading, values

from . import enhanced_xa as xa
from . import objects
from .enhanced_xa import fl, sq, ss, text, us
from .mutations import BAD_DECIMALS, BAD_FUNCTIONS, BAD_IDS, BAD_SHIFTS, CHANGES, GOOD_SHIFTS, NOT_A_NUMBER, OTHER_VRS

FRAMES = range(5)  # the frames that are asked for; no data set has a frame 0
LARGE = 1_000_000  # numbers in the row buffer, more than any of these cases takes

# ---------------------------------------------------------------------------------------------------------------------
# What is printed


def said(words, step, *arguments):
    """What a step answers, in words; `lacks` where it lacks something."""
    try:
        return words(step(*arguments))
    except drawing.Lacking:
        return "lacks"


def numbers(*some):
    return " ".join(str(one) for one in some)


def small(number):
    """A number of a shift in quarters: `other` unless they are whole and it is from -64 to 64."""
    whole = math.isfinite(number) and 4 * number == math.floor(4 * number)
    return str(int(4 * number)) if whole and -64 <= number <= 64 else "other"


def shift_words(chosen):
    kind, pair = chosen
    return f"{kind} {small(pair[0])} {small(pair[1])}"


def window_words(window):
    function, center, width = window
    if center != int(center):
        raise ValueError("a centre that is no whole number of millionths")
    return f"{function.decode()} {numbers(int(center), width)}"


def item_words(root, item, frame):
    """The mask item that applies, and what steps 3 and 4 give, whatever its operation is."""
    place = root.items(tags.MASK_SUBTRACTION_SEQUENCE).index(item) + 1
    tid = said(lambda mask: "native" if mask is None else str(mask), drawing.tid_frame, root, item, frame)
    shift = "-" if frame == 0 else said(shift_words, drawing.chosen_shift, root, item, frame)
    return (f"item {place} {said(bytes.decode, drawing.mask_operation, item)}"
            f" masks {said(lambda some: numbers(*some), drawing.mask_frame_numbers, item)} tid {tid} shift {shift}")


def frame_line(root, frame, size):
    try:
        whole = "whole" if drawing.Pixels(root).has_frame(frame) else "part"
    except drawing.Lacking:
        whole = "-"
    mask = said(lambda item: "native" if item is None else item_words(root, item, frame), drawing.applying_item, root, frame)
    asked = frame != 0 and size is not None and size.stored <= 16
    window = said(window_words, drawing.window, root, frame, size.stored) if asked else "-"
    return f"frame {frame} {whole} {mask} window {window}"


def listing(data):
    """The lines that `steps_cases` prints for a data set."""
    if reading.read(data, LARGE).answer.code != 0:
        return ["unread"]
    root = values.Level(data, reading.read_data_set(data))
    try:
        size = drawing.size_of(root)
    except drawing.Lacking:
        size = None
    inverse = said(lambda word: "yes" if word == b"MONOCHROME1" else "no", drawing.photometric_of, root)
    pixels = said(lambda element: str(element.value_length), drawing.pixel_element, root)
    return [f"size {'lacks' if size is None else numbers(*size)} inverse {inverse} pixels {pixels}",
            *(frame_line(root, frame, size) for frame in FRAMES)]


# ---------------------------------------------------------------------------------------------------------------------
# Objects that are accepted, and objects that one change broke

# What the steps read of the root.
READ = (tags.PHOTOMETRIC_INTERPRETATION, tags.NUMBER_OF_FRAMES, tags.ROWS, tags.COLUMNS, tags.BITS_ALLOCATED, tags.BITS_STORED,
        tags.MASK_SUBTRACTION_SEQUENCE, tags.SHARED_FUNCTIONAL_GROUPS_SEQUENCE, tags.PER_FRAME_FUNCTIONAL_GROUPS_SEQUENCE,
        tags.PIXEL_DATA)
# No step reads the tables of beam intensity, and they would fill what the program reads.
NO_TABLES = {"properties": "absent", "luts": "absent"}

READ_BY_RULE = {10, 11, 12, 15, 25, 26, 27, 30, 31, 32, 33, 34, 35, 36, 37, 38}  # the rules on what the steps read


def accepted():
    rng = random.Random(5)
    for number in range(12):
        shape = xa.random_shape(rng, frames=rng.choice((1, 2, 3, 4)), rows=1, columns=2, **NO_TABLES)
        yield f"accepted {number}", xa.encode_at_random(rng, xa.build(rng, shape))


def an_item_for_each_frame(model):
    """Frame k takes mask item k, the frames after the last item none, so that every item is asked for."""
    for number, item in enumerate(model.get(tags.MASK_SUBTRACTION_SEQUENCE, sq())[1], start=1):
        item[tags.APPLICABLE_FRAME_RANGE] = us(number, number)
        if tags.MASK_FRAME_NUMBERS in item:
            item[tags.MASK_FRAME_NUMBERS] = us(2, 1)


def only_read(model):
    """What the steps read, so that the case is small. Every rule that asks for something else is broken then."""
    for item in model.get(tags.PER_FRAME_FUNCTIONAL_GROUPS_SEQUENCE, ("", b""))[1] or ():
        if isinstance(item, dict):
            item.pop(tags.FRAME_CONTENT_SEQUENCE, None)
    return {tag: value for tag, value in model.items() if tag in READ}


def usual(rule):
    """The shape of an object that is to be changed, where the change does not ask for another: small."""
    return {"frames": 3, "rows": 1, "columns": 2, "windows": 1, "voi": "shared", "characteristics": "absent", "frame_shift": "absent",
            "masks": () if rule == 30 else ("AVG_SUB", "TID"), "extras": False}


# Rules that many changes alike break: of these only some are taken, since the cases below have the rest.
STRIDE = {30: 10, 32: 2, 35: 4, 36: 2, 37: 4}


def is_taken(rule, number):
    """Change `number`, from 0, of a rule: all of a rule on what the steps read, but for the stride, and one of another."""
    if rule in READ_BY_RULE:
        return number % STRIDE.get(rule, 1) == 0
    return rule != 0 and number == 0


def broken():
    rng = random.Random(6)
    counts = collections.Counter()
    for change in CHANGES:
        counts[change.rule] += 1
        if not is_taken(change.rule, counts[change.rule] - 1):
            continue
        model = xa.build(rng, xa.random_shape(rng, **{**NO_TABLES, **usual(change.rule), **change.shape}))
        an_item_for_each_frame(model)
        change.edit(model, 2)
        data = xa.encode_at_random(rng, only_read(model) if change.rule in READ_BY_RULE else model)
        if len(data) < 4096:
            yield f"rule {change.rule} {change.name}", data


# ---------------------------------------------------------------------------------------------------------------------
# One thing changed, and a part of what is printed, worked out by hand


def base():
    """Three frames of 1 × 2 samples of 8 bits. One mask item, which averages frames 1 and 3; no other group."""
    return {
        tags.PHOTOMETRIC_INTERPRETATION: text("CS", "MONOCHROME2"), tags.NUMBER_OF_FRAMES: text("IS", "3"), tags.ROWS: us(1), tags.COLUMNS: us(2),
        tags.BITS_ALLOCATED: us(8), tags.BITS_STORED: us(8), tags.MASK_SUBTRACTION_SEQUENCE: sq({tags.MASK_OPERATION: text("CS", "AVG_SUB"),
                                                                                                 tags.MASK_FRAME_NUMBERS: us(1, 3)}),
        tags.SHARED_FUNCTIONAL_GROUPS_SEQUENCE: sq({}), tags.PER_FRAME_FUNCTIONAL_GROUPS_SEQUENCE: sq({}, {}, {}), tags.PIXEL_DATA: ("OB", bytes(6)),
    }


class Edits:
    """Edits of a model: each takes tags and values, and None for a value leaves the element out."""

    @staticmethod
    def change(level, changes):
        for tag, value in changes.items():
            if value is None:
                level.pop(tag, None)
            else:
                level[tag] = value

    @classmethod
    def root(cls, changes):
        return lambda model: cls.change(model, changes)

    @classmethod
    def mask(cls, changes):
        return lambda model: cls.change(model[tags.MASK_SUBTRACTION_SEQUENCE][1][0], changes)

    @classmethod
    def own(cls, changes, frame=1):
        return lambda model: cls.change(model[tags.PER_FRAME_FUNCTIONAL_GROUPS_SEQUENCE][1][frame - 1], changes)

    @classmethod
    def shared(cls, changes):
        return lambda model: cls.change(model[tags.SHARED_FUNCTIONAL_GROUPS_SEQUENCE][1][0], changes)


root, mask, own, shared = Edits.root, Edits.mask, Edits.own, Edits.shared


def window(center, width):
    return {tags.WINDOW_CENTER: text("DS", center), tags.WINDOW_WIDTH: text("DS", width)}


def pair(item_id, *floats):
    return {tags.SUBTRACTION_ITEM_ID: us(item_id), tags.MASK_SUB_PIXEL_SHIFT: fl(*floats)}


def voi(*items):
    """Frame 1 has a VOI group."""
    return own({tags.FRAME_VOI_LUT_SEQUENCE: sq(*items)})


def windowed(center, width):
    return voi(window(center, width))


def with_function(value):
    """Frame 1 has a VOI group with a function."""
    return voi({**window("40", "0.5"), tags.VOI_LUT_FUNCTION: value})


def moved_by(*items):
    """Frame 1 has a Frame Pixel Shift."""
    return own({tags.FRAME_PIXEL_SHIFT_SEQUENCE: sq(*items)})


def mask_id(number, more={}):
    return mask({tags.SUBTRACTION_ITEM_ID: us(number), **more})


TID = {tags.MASK_OPERATION: text("CS", "TID"), tags.MASK_FRAME_NUMBERS: None}
SEVERAL = sq({tags.APPLICABLE_FRAME_RANGE: us(3, 3), tags.MASK_OPERATION: text("CS", "NONE")}, {tags.APPLICABLE_FRAME_RANGE: us(9, 9, 2, 2)},
             {tags.MASK_OPERATION: text("CS", "TID")},
             {tags.APPLICABLE_FRAME_RANGE: ss(1, 1)})

# Name, edits, line (0: the data set's, 1 to 5: frames 0 to 4), what it contains.
SPECIAL = [
    ("base", (), 0, "size 1 2 1 8 inverse no pixels 6"),
    ("frame 0", (), 1, "frame 0 part item 1 AVG_SUB masks 1 3 tid native shift - window -"),
    ("frame 1", (), 2, "frame 1 whole item 1 AVG_SUB masks 1 3 tid native shift none 0 0 window LINEAR 128000000 256000000"),
    ("frame 4, without an item", (), 5, "frame 4 part item 1 AVG_SUB masks 1 3 tid 3 shift lacks window lacks"),
    # Frames and samples (D-2, D-3, D-8).
    ("a frame beyond N", (root({tags.NUMBER_OF_FRAMES: text("IS", "1")}),), 4, "frame 3 whole item 1 AVG_SUB masks 1 3 tid native"),
    ("no Number of Frames", (root({tags.NUMBER_OF_FRAMES: None}),), 3, "frame 2 whole item 1 AVG_SUB masks 1 3 tid lacks shift none 0 0"),
    ("Number of Frames x", (root({tags.NUMBER_OF_FRAMES: text("IS", "x")}),), 3, "tid lacks"),
    ("Number of Frames -3", (root({tags.NUMBER_OF_FRAMES: text("IS", "-3")}),), 3, "tid native"),
    ("Number of Frames of VR US", (root({tags.NUMBER_OF_FRAMES: us(3)}),), 3, "tid lacks"),
    ("Number of Frames twice", (root({tags.NUMBER_OF_FRAMES: text("IS", "3\\3")}),), 3, "tid lacks"),
    ("Number of Frames of 11 digits", (root({tags.NUMBER_OF_FRAMES: text("IS", "99999999999")}),), 3, "tid 1"),
    ("Rows 0", (root({tags.ROWS: us(0)}),), 5, "frame 4 whole"),
    ("Rows 0, frame 0", (root({tags.ROWS: us(0)}),), 1, "frame 0 part"),
    ("Rows twice", (root({tags.ROWS: us(1, 1)}),), 0, "size lacks inverse no pixels 6"),
    ("Rows twice, frame 1", (root({tags.ROWS: us(1, 1)}),), 2, "frame 1 - item 1"),
    ("no Columns", (root({tags.COLUMNS: None}),), 0, "size lacks"),
    ("Columns of VR SS", (root({tags.COLUMNS: ss(2)}),), 0, "size lacks"),
    ("Bits Allocated 0", (root({tags.BITS_ALLOCATED: us(0)}),), 0, "size lacks"),
    ("Bits Allocated 12", (root({tags.BITS_ALLOCATED: us(12)}),), 0, "size lacks"),
    ("Bits Allocated 24", (root({tags.BITS_ALLOCATED: us(24)}),), 0, "size 1 2 3 8"),
    ("Bits Allocated 24, one frame", (root({tags.BITS_ALLOCATED: us(24)}),), 3, "frame 2 part"),
    ("Bits Allocated 65528", (root({tags.BITS_ALLOCATED: us(65528)}),), 0, "size 1 2 8191 8"),
    ("65535 × 65535 samples of 8191 bytes", (root({tags.ROWS: us(65535), tags.COLUMNS: us(65535), tags.BITS_ALLOCATED: us(65528)}),), 2,
     "frame 1 part"),
    ("Bits Stored 0", (root({tags.BITS_STORED: us(0)}),), 0, "size 1 2 1 0"),
    ("Bits Stored 0, masked", (root({tags.BITS_STORED: us(0)}),), 2, "item 1 AVG_SUB masks 1 3"),
    ("Bits Stored 0, window", (root({tags.BITS_STORED: us(0)}),), 2, "window LINEAR 500000 1000000"),
    ("Bits Stored 0, native", (root({tags.BITS_STORED: us(0), tags.MASK_SUBTRACTION_SEQUENCE: None}),), 2,
     "frame 1 whole native window LINEAR 500000 1000000"),
    ("Bits Stored 0, VOI", (root({tags.BITS_STORED: us(0)}), own({tags.FRAME_VOI_LUT_SEQUENCE: sq(window("0", "2"))})), 2, "window LINEAR 0 2000000"),
    ("Bits Stored 1", (root({tags.BITS_STORED: us(1)}),), 2, "window LINEAR 1000000 2000000"),
    ("Bits Stored 16", (root({tags.BITS_STORED: us(16)}),), 2, "window LINEAR 32768000000 65536000000"),
    ("Bits Stored 17", (root({tags.BITS_STORED: us(17)}),), 0, "size 1 2 1 17"),
    ("Bits Stored 17, window", (root({tags.BITS_STORED: us(17)}),), 2, "window -"),
    ("no Pixel Data", (root({tags.PIXEL_DATA: None}),), 0, "pixels lacks"),
    ("no Pixel Data, frame 1", (root({tags.PIXEL_DATA: None}),), 2, "frame 1 - item 1"),
    ("Pixel Data of VR UN", (root({tags.PIXEL_DATA: ("UN", bytes(6))}),), 0, "pixels lacks"),
    ("Pixel Data a sequence", (root({tags.PIXEL_DATA: sq({})}),), 0, "pixels lacks"),
    ("Pixel Data empty", (root({tags.PIXEL_DATA: ("OW", b"")}),), 0, "pixels 0"),
    ("Pixel Data empty, frame 1", (root({tags.PIXEL_DATA: ("OW", b"")}),), 2, "frame 1 part"),
    ("Pixel Data too short", (root({tags.PIXEL_DATA: ("OB", bytes(4))}),), 4, "frame 3 part"),
    ("Pixel Data longer", (root({tags.PIXEL_DATA: ("OW", bytes(8))}),), 5, "frame 4 whole"),
    # Mask items (D-1, D-4).
    ("no mask items", (root({tags.MASK_SUBTRACTION_SEQUENCE: None}),), 2, "frame 1 whole native window"),
    ("mask sequence empty", (root({tags.MASK_SUBTRACTION_SEQUENCE: sq()}),), 2, "native"),
    ("mask sequence of VR UN", (root({tags.MASK_SUBTRACTION_SEQUENCE: ("UN", b"")}),), 2, "frame 1 whole lacks window"),
    ("several mask items, frame 1", (root({tags.MASK_SUBTRACTION_SEQUENCE: SEVERAL}),), 2, "item 3 TID masks lacks tid native"),
    ("several mask items, frame 2", (root({tags.MASK_SUBTRACTION_SEQUENCE: SEVERAL}),), 3, "item 2 lacks masks lacks tid 1"),
    ("several mask items, frame 3", (root({tags.MASK_SUBTRACTION_SEQUENCE: SEVERAL}),), 4, "item 1 NONE masks lacks tid 2"),
    ("a bad range after one that holds", (root({tags.MASK_SUBTRACTION_SEQUENCE: sq({tags.APPLICABLE_FRAME_RANGE: us(1, 1)},
                                                                                   {tags.APPLICABLE_FRAME_RANGE: us()})}),), 2, "item 1 lacks"),
    ("a bad range before one that holds", (root({tags.MASK_SUBTRACTION_SEQUENCE: sq({tags.APPLICABLE_FRAME_RANGE: us()},
                                                                                    {tags.APPLICABLE_FRAME_RANGE: us(1, 1)})}),), 2,
     "whole lacks window"),
    ("no range holds", (mask({tags.APPLICABLE_FRAME_RANGE: us(2, 1, 4, 9)}),), 4, "frame 3 whole native"),
    ("a range from 0", (mask({tags.APPLICABLE_FRAME_RANGE: us(0, 9)}),), 1, "frame 0 part item 1"),
    ("range of half a pair", (mask({tags.APPLICABLE_FRAME_RANGE: us(1, 1, 1)}),), 2, "whole lacks window"),
    ("range of one number", (mask({tags.APPLICABLE_FRAME_RANGE: us(1)}),), 2, "whole lacks window"),
    ("range empty", (mask({tags.APPLICABLE_FRAME_RANGE: us()}),), 2, "whole lacks window"),
    ("range of VR SS", (mask({tags.APPLICABLE_FRAME_RANGE: ss(1, 1)}),), 2, "whole lacks window"),
    ("range a sequence", (mask({tags.APPLICABLE_FRAME_RANGE: sq({})}),), 2, "whole lacks window"),
    ("operation REV_TID", (mask({tags.MASK_OPERATION: text("CS", "REV_TID")}),), 2, "item 1 lacks masks 1 3 tid native shift none"),
    ("operation in spaces", (mask({tags.MASK_OPERATION: text("CS", "  TID ")}),), 2, "item 1 TID"),
    ("operation twice", (mask({tags.MASK_OPERATION: text("CS", "TID\\TID")}),), 2, "item 1 lacks"),
    ("no operation", (mask({tags.MASK_OPERATION: None}),), 2, "item 1 lacks"),
    ("operation empty", (mask({tags.MASK_OPERATION: text("CS", "")}),), 2, "item 1 lacks"),
    ("operation of VR LO", (mask({tags.MASK_OPERATION: text("LO", "TID")}),), 2, "item 1 lacks"),
    # Mask frames.
    ("no mask frames", (mask({tags.MASK_FRAME_NUMBERS: None}),), 2, "AVG_SUB masks lacks"),
    ("mask frames empty", (mask({tags.MASK_FRAME_NUMBERS: us()}),), 2, "AVG_SUB masks lacks"),
    ("mask frames of VR SS", (mask({tags.MASK_FRAME_NUMBERS: ss(1)}),), 2, "AVG_SUB masks lacks"),
    ("mask frame 0", (mask({tags.MASK_FRAME_NUMBERS: us(0)}),), 2, "AVG_SUB masks 0 tid"),
    ("mask frame 65535", (mask({tags.MASK_FRAME_NUMBERS: us(1, 65535)}),), 2, "AVG_SUB masks 1 65535 tid"),
    ("65 mask frames", (mask({tags.MASK_FRAME_NUMBERS: us(*range(65))}),), 2, "masks " + " ".join(str(k) for k in range(65)) + " tid"),
    # TID offsets.
    ("TID offset absent", (mask(TID),), 4, "item 1 TID masks lacks tid 2"),
    ("TID offset empty", (mask({**TID, tags.TID_OFFSET: ss()}),), 4, "tid lacks"),
    ("TID offset twice", (mask({**TID, tags.TID_OFFSET: ss(1, 1)}),), 4, "tid lacks"),
    ("TID offset of VR US", (mask({**TID, tags.TID_OFFSET: us(1)}),), 4, "tid lacks"),
    ("TID offset 0", (mask({**TID, tags.TID_OFFSET: ss(0)}),), 4, "tid 3"),
    ("TID offset 0, frame 0", (mask({**TID, tags.TID_OFFSET: ss(0)}),), 1, "tid native"),
    ("TID offset 0, frame 4", (mask({**TID, tags.TID_OFFSET: ss(0)}),), 5, "tid native"),
    ("TID offset -2", (mask({**TID, tags.TID_OFFSET: ss(-2)}),), 2, "tid 3"),
    ("TID offset -2, beyond N", (mask({**TID, tags.TID_OFFSET: ss(-2)}),), 3, "tid native"),
    ("TID offset 3", (mask({**TID, tags.TID_OFFSET: ss(3)}),), 4, "tid native"),
    ("TID offset 32767", (mask({**TID, tags.TID_OFFSET: ss(32767)}),), 4, "tid native"),
    ("TID offset -32768", (mask({**TID, tags.TID_OFFSET: ss(-32768)}),), 4, "tid native"),
    ("TID offset -32768 of many", (mask({**TID, tags.TID_OFFSET: ss(-32768)}), root({tags.NUMBER_OF_FRAMES: text("IS", "65535")})), 4, "tid 32771"),
    # The frame's item and the shared one.
    ("no shared item", (root({tags.SHARED_FUNCTIONAL_GROUPS_SEQUENCE: sq()}),), 2, "shift lacks window lacks"),
    ("shared groups absent", (root({tags.SHARED_FUNCTIONAL_GROUPS_SEQUENCE: None}),), 2, "shift lacks window lacks"),
    ("two shared items", (root({tags.SHARED_FUNCTIONAL_GROUPS_SEQUENCE: sq({}, {})}),), 2, "shift lacks window lacks"),
    ("shared groups of VR UN", (root({tags.SHARED_FUNCTIONAL_GROUPS_SEQUENCE: ("UN", b"")}),), 2, "shift lacks window lacks"),
    ("no shared item, groups in the frame", (root({tags.SHARED_FUNCTIONAL_GROUPS_SEQUENCE: sq()}),
                                             own({tags.FRAME_VOI_LUT_SEQUENCE: sq(window("1", "2")),
                                                  tags.FRAME_PIXEL_SHIFT_SEQUENCE: sq(pair(1, 5.0, 6.0))}),
                                             mask_id(1)), 2, "shift frame 20 24 window LINEAR 1000000 2000000"),
    ("item 2 missing", (root({tags.PER_FRAME_FUNCTIONAL_GROUPS_SEQUENCE: sq({})}),), 3, "shift lacks window lacks"),
    ("per-frame groups absent", (root({tags.PER_FRAME_FUNCTIONAL_GROUPS_SEQUENCE: None}),), 2, "shift lacks window lacks"),
    ("per-frame groups of VR OB", (root({tags.PER_FRAME_FUNCTIONAL_GROUPS_SEQUENCE: ("OB", bytes(8))}),), 2, "shift lacks window lacks"),
    # Shifts (D-5).
    ("the item's shift", (mask({tags.MASK_SUB_PIXEL_SHIFT: fl(-64.0, 64.0)}),), 2, "shift item -256 256"),
    ("minus zeros", (mask({tags.MASK_SUB_PIXEL_SHIFT: GOOD_SHIFTS["minus zeros"]}),), 2, "shift item 0 0"),
    ("NaN", (mask({tags.MASK_SUB_PIXEL_SHIFT: NOT_A_NUMBER}),), 2, "shift item other 0"),
    ("an eighth", (mask({tags.MASK_SUB_PIXEL_SHIFT: fl(3.0, 0.125)}),), 2, "shift item 12 other"),
    ("quarters", (mask({tags.MASK_SUB_PIXEL_SHIFT: fl(-3.25, 0.75)}),), 2, "shift item -13 3"),
    ("65", (mask({tags.MASK_SUB_PIXEL_SHIFT: fl(65.0, -65.0)}),), 2, "shift item other other"),
    ("one number", (mask({tags.MASK_SUB_PIXEL_SHIFT: fl(1.0)}),), 2, "shift lacks"),
    ("three numbers", (mask({tags.MASK_SUB_PIXEL_SHIFT: fl(1.0, 2.0, 3.0)}),), 2, "shift lacks"),
    ("an empty shift", (mask({tags.MASK_SUB_PIXEL_SHIFT: fl()}),), 2, "shift lacks"),
    ("a shift of VR FD", (mask({tags.MASK_SUB_PIXEL_SHIFT: ("FD", bytes(8))}),), 2, "shift lacks"),
    ("group empty", (moved_by(),), 2, "shift lacks"),
    ("group of VR UN", (own({tags.FRAME_PIXEL_SHIFT_SEQUENCE: ("UN", b"")}),), 2, "shift lacks"),
    ("group in the frame names the ID", (mask_id(7, {tags.MASK_SUB_PIXEL_SHIFT: fl(1.0, 1.0)}), moved_by(pair(8, 2.0, 2.0), pair(7, 3.0, -4.0))), 2,
     "shift frame 12 -16"),
    ("group in the frame names another", (mask_id(9, {tags.MASK_SUB_PIXEL_SHIFT: fl(1.0, 1.0)}), moved_by(pair(8, 2.0, 2.0), pair(7, 3.0, -4.0))), 2,
     "shift item 4 4"),
    ("group names another, no shift of the item", (mask_id(9), moved_by(pair(8, 2.0, 2.0))), 2, "shift none 0 0"),
    ("group names another, the item's shift is bad", (mask_id(9, {tags.MASK_SUB_PIXEL_SHIFT: fl()}), moved_by(pair(8, 2.0, 2.0))), 2, "shift lacks"),
    ("group names the ID, the item's shift is bad", (mask_id(8, {tags.MASK_SUB_PIXEL_SHIFT: fl()}), moved_by(pair(8, 2.0, 2.0))), 2,
     "shift frame 8 8"),
    ("group names the ID twice", (mask_id(8), moved_by(pair(8, 2.0, 2.0), pair(8, 3.0, 3.0))), 2, "shift frame 8 8"),
    ("no ID in the mask item", (moved_by(pair(8, 2.0, 2.0)),), 2, "shift lacks"),
    ("no ID in the mask item, frame without a group", (moved_by(pair(8, 2.0, 2.0)),), 3, "shift none 0 0"),
    ("no ID before the one that is equal", (mask_id(7), moved_by({}, pair(7, 3.0, 3.0))), 2, "shift lacks"),
    ("no ID after the one that is equal", (mask_id(7), moved_by(pair(7, 3.0, 3.0), {})), 2, "shift frame 12 12"),
    ("two IDs", (mask_id(7), moved_by({tags.SUBTRACTION_ITEM_ID: us(7, 7), tags.MASK_SUB_PIXEL_SHIFT: fl(1.0, 1.0)})), 2, "shift lacks"),
    ("the named item has no shift", (mask_id(7), moved_by({tags.SUBTRACTION_ITEM_ID: us(7)})), 2, "shift lacks"),
    ("the named item has NaN", (mask_id(7), moved_by({tags.SUBTRACTION_ITEM_ID: us(7), tags.MASK_SUB_PIXEL_SHIFT: NOT_A_NUMBER})), 2,
     "shift frame other 0"),
    ("a shared group", (mask_id(7), shared({tags.FRAME_PIXEL_SHIFT_SEQUENCE: sq(pair(7, 5.0, 6.0))})), 4, "shift frame 20 24"),
    ("a shared group, hidden", (mask_id(7), shared({tags.FRAME_PIXEL_SHIFT_SEQUENCE: sq(pair(7, 5.0, 6.0))}),
                                own({tags.FRAME_PIXEL_SHIFT_SEQUENCE: ("LO", b"")}, 3)), 4, "shift lacks"),
    # Windows (D-6).
    ("window", (windowed("40", "400"),), 2, "window LINEAR 40000000 400000000"),
    ("window of the shared group", (shared({tags.FRAME_VOI_LUT_SEQUENCE: sq(window("-.5", "+1.25"))}),), 2, "window LINEAR -500000 1250000"),
    ("window of the shared group, hidden", (shared({tags.FRAME_VOI_LUT_SEQUENCE: sq(window("1", "2"))}),
                                            own({tags.FRAME_VOI_LUT_SEQUENCE: ("UN", b"")})), 2, "window lacks"),
    ("VOI group empty", (voi(),), 2, "window lacks"),
    ("VOI group of two items", (voi(window("1", "2"), window("1", "2")),), 2, "window lacks"),
    ("VOI item empty", (voi({}),), 2, "window lacks"),
    ("no width", (voi({tags.WINDOW_CENTER: text("DS", "1")}),), 2, "window lacks"),
    ("no centre", (voi({tags.WINDOW_WIDTH: text("DS", "1")}),), 2, "window lacks"),
    ("width 0", (windowed("40", "0"),), 2, "window LINEAR 40000000 0"),
    ("width negative", (windowed("40", "-7.5"),), 2, "window LINEAR 40000000 -7500000"),
    ("centre -0", (windowed("-0", "-0"),), 2, "window LINEAR 0 0"),
    ("centre empty", (windowed("", "1"),), 2, "window lacks"),
    ("centre blank", (windowed("  ", "1"),), 2, "window lacks"),
    ("centre of VR IS", (voi({tags.WINDOW_CENTER: text("IS", "1"), tags.WINDOW_WIDTH: text("DS", "1")}),), 2, "window lacks"),
    ("first values good, others not", (windowed("1\\x", "0.001\\\\8"),), 2, "window LINEAR 1000000 1000"),
    ("first centre bad", (windowed("1E\\1", "1\\1"),), 2, "window lacks"),
    ("first width bad", (windowed("1", ".\\1"),), 2, "window lacks"),
    ("seven digits", (windowed("0000001", "1"),), 2, "window LINEAR 1000000 1000000"),
    ("four decimals", (windowed("1", "1.0000"),), 2, "window LINEAR 1000000 1000000"),
    ("an exponent", (windowed("2.048E3", "4.096e+03"),), 2, "window LINEAR 2048000000 4096000000"),
    ("six decimals", (windowed("-.000001", "123456.654321"),), 2, "window LINEAR -1 123456654321"),
    ("zero with a large exponent", (windowed("0E99999999999999", "-0E-999999999999"),), 2, "window LINEAR 0 0"),
    ("a small exponent", (windowed("9999999999990E-7", "1E-6"),), 2, "window LINEAR 999999999999 1"),
    ("a long exponent", (windowed("1E00000000000005", "1E-0000000000006"),), 2, "window LINEAR 100000000000 1"),
    ("16 characters in spaces", (windowed("  1.00000000000000  ", " 0000000000000001"),), 2, "window LINEAR 1000000 1000000"),
    ("largest", (windowed("-999999.999999", "9.99999999999E5"),), 2, "window LINEAR -999999999999 999999999999"),
    ("largest of three decimals", (windowed("-999999.999", "999999.999"),), 2, "window LINEAR -999999999000 999999999000"),
    # VOI LUT Function.
    ("LINEAR", (with_function(text("CS", "LINEAR")),), 2, "window LINEAR 40000000 500000"),
    ("LINEAR_EXACT", (with_function(text("CS", " LINEAR_EXACT ")),), 2, "window LINEAR_EXACT 40000000 500000"),
    ("LINEAR_EXACT of the shared group", (shared({tags.FRAME_VOI_LUT_SEQUENCE: sq({**window("1", "-2"),
                                                                                   tags.VOI_LUT_FUNCTION: text("CS", "LINEAR_EXACT")})}),), 2,
     "window LINEAR_EXACT 1000000 -2000000"),
    ("LINEAR_EXACT, width 0", (voi({**window("1", "0"), tags.VOI_LUT_FUNCTION: text("CS", "LINEAR_EXACT")}),), 2, "window LINEAR_EXACT 1000000 0"),
    ("LINEAR_EXACT, centre bad", (voi({**window("x", "1"), tags.VOI_LUT_FUNCTION: text("CS", "LINEAR_EXACT")}),), 2, "window lacks"),
    ("LINEAR_EXACT beside the VOI group", (windowed("1", "2"), own({tags.VOI_LUT_FUNCTION: text("CS", "LINEAR_EXACT")})), 2,
     "window LINEAR 1000000 2000000"),
    ("SIGMOID beside the VOI group", (windowed("1", "2"), root({tags.VOI_LUT_FUNCTION: text("CS", "SIGMOID")})), 2, "window LINEAR 1000000 2000000"),
    # Photometric Interpretation (D-7).
    ("MONOCHROME1", (root({tags.PHOTOMETRIC_INTERPRETATION: text("CS", " MONOCHROME1 ")}),), 0, "inverse yes"),
    ("RGB", (root({tags.PHOTOMETRIC_INTERPRETATION: text("CS", "RGB")}),), 0, "inverse no"),
    ("blank", (root({tags.PHOTOMETRIC_INTERPRETATION: text("CS", "  ")}),), 0, "inverse no"),
    ("empty", (root({tags.PHOTOMETRIC_INTERPRETATION: ("CS", b"")}),), 0, "inverse lacks"),
    ("MONOCHROME1 twice", (root({tags.PHOTOMETRIC_INTERPRETATION: text("CS", "MONOCHROME1\\MONOCHROME1")}),), 0, "inverse lacks"),
    ("a backslash", (root({tags.PHOTOMETRIC_INTERPRETATION: text("CS", "MONOCHROME1\\")}),), 0, "inverse lacks"),
    ("of VR LO", (root({tags.PHOTOMETRIC_INTERPRETATION: text("LO", "MONOCHROME1")}),), 0, "inverse lacks"),
    ("absent", (root({tags.PHOTOMETRIC_INTERPRETATION: None}),), 0, "inverse lacks"),
]
SPECIAL += [(f"function {word!r}", (with_function(text("CS", word)),), 2, "window lacks") for word in BAD_FUNCTIONS]
SPECIAL += [(f"function of VR {name}", (with_function(value),), 2, "window lacks") for name, value in OTHER_VRS.items()]
for number, word in enumerate(BAD_DECIMALS):
    as_center = (f"centre {word!r}", (windowed(word + "\\1", "1"),), 2, "window lacks")
    as_width = (f"width {word!r}", (windowed("1", word + "\\1"),), 2, "window lacks")
    SPECIAL.append(as_width if number % 2 else as_center)
for name, value in BAD_IDS.items():
    SPECIAL.append((f"ID of the mask item {name}", (mask({tags.SUBTRACTION_ITEM_ID: value}), moved_by(pair(1, 2.0, 2.0))), 2, "shift lacks"))
    its_id = {} if value is None else {tags.SUBTRACTION_ITEM_ID: value}
    SPECIAL.append((f"ID of the frame's item {name}", (mask_id(1), moved_by({**its_id, tags.MASK_SUB_PIXEL_SHIFT: fl(1.0, 1.0)})), 2, "shift lacks"))
for name, value in BAD_SHIFTS.items():
    two = value[0] == "FL" and len(value[1]) == 8
    SPECIAL.append((f"shift of the mask item: {name}", (mask({tags.MASK_SUB_PIXEL_SHIFT: value}),), 2, "shift item" if two else "shift lacks"))
    SPECIAL.append((f"shift of the frame: {name}", (mask_id(7), moved_by({tags.SUBTRACTION_ITEM_ID: us(7), tags.MASK_SUB_PIXEL_SHIFT: value})), 2,
                    "shift frame" if two else "shift lacks"))


def special():
    for name, edits, line, part in SPECIAL:
        model = base()
        for edit in edits:
            edit(model)
        yield name, objects.encode(model), line, part
    yield "no bytes", b"", 0, "size lacks inverse lacks pixels lacks"
    yield "no bytes, frame 1", b"", 2, "frame 1 - native window -"
    yield "cut short", objects.encode(base())[:-1], 0, "unread"
