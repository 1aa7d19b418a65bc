"""How far judging looks: Q-11 of document 02. The sum is a definition, worked out from the elements of an accepted data set alone.

"When an element is looked for in one data set, count the rows looked at there: what stands below a row is passed over by its
rows-below number, and the search stops at the first tag not below the one sought."
"""

from bisect import bisect_left

from . import attributes as tags

# "in the root, each tag whose number rules 1 to 26, 31 and 38 give, but (0028,6101)": by rule; 5 and 7 give none.
IN_ROOT = {
    1: (tags.SOP_CLASS_UID,),
    2: (tags.MODALITY,),
    3: (tags.IMAGE_TYPE,),
    4: (tags.PLANES_IN_ACQUISITION,),
    6: (tags.PLANE_IDENTIFICATION,),
    8: (tags.ACQUISITION_DATE_TIME,),
    9: (tags.SAMPLES_PER_PIXEL,),
    10: (tags.PHOTOMETRIC_INTERPRETATION,),
    11: (tags.ROWS, tags.COLUMNS),
    12: (tags.BITS_ALLOCATED, tags.BITS_STORED),
    13: (tags.HIGH_BIT,),
    14: (tags.PIXEL_REPRESENTATION,),
    15: (tags.NUMBER_OF_FRAMES,),
    16: (tags.CONTENT_QUALIFICATION,),
    17: (tags.BURNED_IN_ANNOTATION,),
    18: (tags.LOSSY_IMAGE_COMPRESSION,),
    19: (tags.LOSSY_IMAGE_COMPRESSION_RATIO, tags.LOSSY_IMAGE_COMPRESSION_METHOD),
    20: (tags.REFERENCED_OTHER_PLANE_SEQUENCE,),
    21: (tags.PRESENTATION_LUT_SHAPE,),
    22: (tags.KVP, tags.RADIATION_MODE, tags.RADIATION_SETTING),
    23: (tags.EXPOSURE_IN_MAS, tags.EXPOSURE_TIME_IN_MS, tags.X_RAY_TUBE_CURRENT_IN_MA),
    24: (tags.POSITIONER_TYPE,),
    25: (tags.SHARED_FUNCTIONAL_GROUPS_SEQUENCE,),
    26: (tags.PER_FRAME_FUNCTIONAL_GROUPS_SEQUENCE,),
    31: (tags.MASK_SUBTRACTION_SEQUENCE,),
    38: (tags.PIXEL_DATA,),
}

# "in each mask item, (0028,6101) and each such tag of 32 to 36, but (0028,9415)".
IN_MASK_ITEM = {
    31: (tags.MASK_OPERATION,),
    32: (tags.APPLICABLE_FRAME_RANGE,),
    33: (tags.MASK_FRAME_NUMBERS, tags.CONTRAST_FRAME_AVERAGING),
    34: (tags.TID_OFFSET,),
    35: (tags.MASK_SUB_PIXEL_SHIFT,),
    36: (tags.SUBTRACTION_ITEM_ID,),
}

# "for each frame and each of rules 28, 29, 30, 36, 37 and 39, its groups ... and in each item of the frame's groups what the rule
# reads there": rule, group, what is read in each of its items. 28, 29 and 36 read nothing there.
IN_FRAME = (
    (28, tags.FRAME_CONTENT_SEQUENCE, ()),
    (29, tags.XA_XRF_FRAME_CHARACTERISTICS_SEQUENCE, ()),
    (30, tags.FRAME_VOI_LUT_SEQUENCE, (tags.WINDOW_CENTER, tags.WINDOW_WIDTH, tags.VOI_LUT_FUNCTION)),
    (36, tags.FRAME_PIXEL_SHIFT_SEQUENCE, ()),
    (37, tags.FRAME_PIXEL_SHIFT_SEQUENCE, (tags.SUBTRACTION_ITEM_ID, tags.MASK_SUB_PIXEL_SHIFT)),
    (39, tags.PIXEL_INTENSITY_RELATIONSHIP_LUT_SEQUENCE, (tags.LUT_FUNCTION, tags.LUT_DESCRIPTOR, tags.LUT_DATA)),
    (39, tags.FRAME_PIXEL_DATA_PROPERTIES_SEQUENCE, (tags.PIXEL_INTENSITY_RELATIONSHIP,)),
)
IN_BOTH = 28  # "(28's in both)"

MOST = 40  # times (N + 1) × the number of rows


class DataSet:
    """The root or an item: its elements, and their tags, which ascend."""

    def __init__(self, elements):
        self.elements = elements
        self.tags = [element.tag for element in elements]
        self.known_items = {}

    def looked_at(self, tag):
        """"The count is the number of that data set's elements with a lower tag, plus one if an element remains"."""
        lower = bisect_left(self.tags, tag)
        return lower + 1 if lower < len(self.tags) else lower

    def has(self, tag):
        return tag in self.tags[bisect_left(self.tags, tag):][:1]

    def items(self, tag):
        """The items of the sequence with this tag, as data sets; none where it is absent or no sequence."""
        if tag not in self.known_items:
            found = [element for element in self.elements if element.tag == tag]
            self.known_items[tag] = [DataSet(item.elements) for element in found for item in element.items or ()]
        return self.known_items[tag]


def looked_at_for(data_set, wanted):
    """The sum over some tags, by rule, sought in one data set."""
    return sum(data_set.looked_at(tag) for sought in wanted.values() for tag in sought)


def of_group(own, shared, rule, group, read):
    """One rule at one frame: "its groups in item f and, only if not there, in the shared item", and what is read in the items of the
    frame's group."""
    count = own.looked_at(group)
    if rule == IN_BOTH or not own.has(group):
        count += shared.looked_at(group)
    for item in (own if own.has(group) else shared).items(group) if read else ():
        count += sum(item.looked_at(tag) for tag in read)
    return count


def of_frame(own, shared):
    """"Rule 27 counts instead, for each frame, the elements of item f plus those of the shared item"; and the groups."""
    return len(own.tags) + len(shared.tags) + sum(of_group(own, shared, *group) for group in IN_FRAME)


def searches(elements):
    """The sum for an accepted data set, from its root elements: one shared item (rule 25), N items of frames (rule 26)."""
    root = DataSet(elements)
    shared = root.items(tags.SHARED_FUNCTIONAL_GROUPS_SEQUENCE)[0]
    in_masks = sum(looked_at_for(item, IN_MASK_ITEM) for item in root.items(tags.MASK_SUBTRACTION_SEQUENCE))
    in_frames = sum(of_frame(own, shared) for own in root.items(tags.PER_FRAME_FUNCTIONAL_GROUPS_SEQUENCE))
    return looked_at_for(root, IN_ROOT) + in_masks + in_frames


def most(frames, rows):
    """What the sum is at most, for N frames and so many rows."""
    return MOST * (frames + 1) * rows
