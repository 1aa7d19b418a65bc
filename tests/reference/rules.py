"""The rule list of document 01: rules 1 to 38, one function each, rule 39 of document 02, and the verdict.

Each function answers whether its rule holds for a data set that reads well; the per-frame ones, whether it holds at a
frame. Rules are asked in order and the first broken one ends the asking, so a rule may rely on the ones before it. The
docstrings are the paper's words.
"""

from . import attributes as tags
from .answers import DONE, RULE_BROKEN, Answer
from .reading import read_with_elements
from .searches import searches
from .values import UNIT, Level, integer, items_of, millionths

XA_STORAGE = b"1.2.840.10008.5.1.4.1.1.12.1.1"
XRF_STORAGE = b"1.2.840.10008.5.1.4.1.1.12.2.1"


# ---------------------------------------------------------------------------------------------------------------------
# What several rules look at


def is_xrf(root):
    return root.text(tags.SOP_CLASS_UID, "UI") == XRF_STORAGE


def image_type_1(root):
    return root.texts(tags.IMAGE_TYPE, "CS")[0]


def planes(root):
    return root.text(tags.PLANES_IN_ACQUISITION, "CS")


def number_of_frames(root):
    """N."""
    return integer(root.text(tags.NUMBER_OF_FRAMES, "IS"))


def shared_item(root):
    return root.items(tags.SHARED_FUNCTIONAL_GROUPS_SEQUENCE)[0]


def frame_item(root, frame):
    """Item f of the per-frame groups; frames count from 1."""
    return root.items(tags.PER_FRAME_FUNCTIONAL_GROUPS_SEQUENCE)[frame - 1]


def frame_group(root, frame, tag):
    """A frame's group is that in item f, of any VR, else the shared one. None if neither is present."""
    own = frame_item(root, frame).find(tag)
    return own if own is not None else shared_item(root).find(tag)


def mask_items(root):
    """The mask items, none where the sequence is absent."""
    return root.items(tags.MASK_SUBTRACTION_SEQUENCE) or []


def one_item(items):
    return items is not None and len(items) == 1


LINEAR, LINEAR_EXACT = b"LINEAR", b"LINEAR_EXACT"


def voi_lut_function(item):
    """The function of a VOI item (Q-3): LINEAR where VOI LUT Function (0028,1056) CS is absent, LINEAR or LINEAR_EXACT as it says,
    None for "SIGMOID, all other words, an empty value and another VR"."""
    if not item.present(tags.VOI_LUT_FUNCTION):
        return LINEAR
    word = item.text(tags.VOI_LUT_FUNCTION, "CS")
    return word if word in (LINEAR, LINEAR_EXACT) else None


def small_shift(level):
    """A Mask Sub-pixel Shift as rule 35 asks it: FL, two whole multiples of 1/4 from -64 to 64."""
    pair = level.quarter_pair(tags.MASK_SUB_PIXEL_SHIFT)
    return pair is not None and all(-64 <= number <= 64 for number in pair)


# ---------------------------------------------------------------------------------------------------------------------
# Rules 1 to 26


def rule_1(root):
    """SOP Class UID (0008,0016) UI is 1.2.840.10008.5.1.4.1.1.12.1.1 (XA) or 1.2.840.10008.5.1.4.1.1.12.2.1 (XRF)."""
    return root.text(tags.SOP_CLASS_UID, "UI") in (XA_STORAGE, XRF_STORAGE)


def rule_2(root):
    """Modality (0008,0060) CS: XA, or RF for XRF (001)."""
    return root.text(tags.MODALITY, "CS") == (b"RF" if is_xrf(root) else b"XA")


def rule_3(root):
    """Image Type (0008,0008) CS: at least 4 values, first ORIGINAL, DERIVED or MIXED, fourth NONE."""
    values = root.texts(tags.IMAGE_TYPE, "CS")
    return (values is not None and len(values) >= 4 and values[0] in (b"ORIGINAL", b"DERIVED", b"MIXED")
            and values[3] == b"NONE")


def rule_4(root):
    """Planes in Acquisition (0018,9410) CS: SINGLE PLANE, BIPLANE, UNDEFINED."""
    return planes(root) in (b"SINGLE PLANE", b"BIPLANE", b"UNDEFINED")


def rule_5(root):
    """UNDEFINED only if Image Type 1 is DERIVED."""
    return planes(root) != b"UNDEFINED" or image_type_1(root) == b"DERIVED"


def rule_6(root):
    """Plane Identification (0018,9457) CS: absent if UNDEFINED, else had."""
    if planes(root) == b"UNDEFINED":
        return not root.present(tags.PLANE_IDENTIFICATION)
    return root.has(tags.PLANE_IDENTIFICATION, "CS")


def rule_7(root):
    """With BIPLANE it is not MONOPLANE."""
    if planes(root) != b"BIPLANE":
        return True
    value = root.text(tags.PLANE_IDENTIFICATION, "CS")  # a value that is compared is single
    return value is not None and value != b"MONOPLANE"


def rule_8(root):
    """Has Acquisition DateTime (0008,002A) DT."""
    return root.has(tags.ACQUISITION_DATE_TIME, "DT")


def rule_9(root):
    """Samples per Pixel (0028,0002) US 1."""
    return root.unsigned_short(tags.SAMPLES_PER_PIXEL) == 1


def rule_10(root):
    """Photometric Interpretation (0028,0004) CS: MONOCHROME1 or MONOCHROME2."""
    return root.text(tags.PHOTOMETRIC_INTERPRETATION, "CS") in (b"MONOCHROME1", b"MONOCHROME2")


def rule_11(root):
    """Rows (0028,0010), Columns (0028,0011) US at least 1."""
    rows = root.unsigned_short(tags.ROWS)
    columns = root.unsigned_short(tags.COLUMNS)
    return rows is not None and columns is not None and rows >= 1 and columns >= 1


def rule_12(root):
    """Bits Allocated (0028,0100), Bits Stored (0028,0101) US: 8 with 8, 16 with 9 to 16."""
    allocated = root.unsigned_short(tags.BITS_ALLOCATED)
    stored = root.unsigned_short(tags.BITS_STORED)
    if allocated is None or stored is None:
        return False
    return (allocated == 8 and stored == 8) or (allocated == 16 and 9 <= stored <= 16)


def rule_13(root):
    """High Bit (0028,0102) US = stored - 1."""
    return root.unsigned_short(tags.HIGH_BIT) == root.unsigned_short(tags.BITS_STORED) - 1


def rule_14(root):
    """Pixel Representation (0028,0103) US 0."""
    return root.unsigned_short(tags.PIXEL_REPRESENTATION) == 0


def rule_15(root):
    """Number of Frames (0028,0008) IS, optional sign then 1 to 11 digits, 1..65,535 (D)."""
    frames = number_of_frames(root)
    return frames is not None and 1 <= frames <= 65_535


def rule_16(root):
    """Content Qualification (0018,9004) CS: PRODUCT, RESEARCH, SERVICE."""
    return root.text(tags.CONTENT_QUALIFICATION, "CS") in (b"PRODUCT", b"RESEARCH", b"SERVICE")


def rule_17(root):
    """Burned In Annotation (0028,0301) CS NO."""
    return root.text(tags.BURNED_IN_ANNOTATION, "CS") == b"NO"


def rule_18(root):
    """Lossy Image Compression (0028,2110) CS 00 or 01."""
    return root.text(tags.LOSSY_IMAGE_COMPRESSION, "CS") in (b"00", b"01")


def rule_19(root):
    """Ratio (0028,2112) DS and Method (0028,2114) CS: both had at 01, both absent at 00."""
    if root.text(tags.LOSSY_IMAGE_COMPRESSION, "CS") == b"01":
        return (root.has(tags.LOSSY_IMAGE_COMPRESSION_RATIO, "DS")
                and root.has(tags.LOSSY_IMAGE_COMPRESSION_METHOD, "CS"))
    return not (root.present(tags.LOSSY_IMAGE_COMPRESSION_RATIO) or root.present(tags.LOSSY_IMAGE_COMPRESSION_METHOD))


def rule_20(root):
    """Referenced Other Plane Sequence (0008,9410): one item with BIPLANE, else absent."""
    if planes(root) == b"BIPLANE":
        return one_item(root.items(tags.REFERENCED_OTHER_PLANE_SEQUENCE))
    return not root.present(tags.REFERENCED_OTHER_PLANE_SEQUENCE)


def rule_21(root):
    """Presentation LUT Shape (2050,0020) CS: IDENTITY with MONOCHROME2, INVERSE with MONOCHROME1."""
    inverse = root.text(tags.PHOTOMETRIC_INTERPRETATION, "CS") == b"MONOCHROME1"
    return root.text(tags.PRESENTATION_LUT_SHAPE, "CS") == (b"INVERSE" if inverse else b"IDENTITY")


def rule_22(root):
    """If ORIGINAL: has KVP (0018,0060) DS and Radiation Mode (0018,115A) CS; Radiation Setting (0018,1155) CS is SC or
    GR (003)."""
    if image_type_1(root) != b"ORIGINAL":
        return True
    return (root.has(tags.KVP, "DS") and root.has(tags.RADIATION_MODE, "CS")
            and root.text(tags.RADIATION_SETTING, "CS") in (b"SC", b"GR"))


def rule_23(root):
    """If ORIGINAL: has Exposure in mAs (0018,9332) FD, or both (0018,9328) and (0018,9330) FD."""
    if image_type_1(root) != b"ORIGINAL":
        return True
    return root.has(tags.EXPOSURE_IN_MAS, "FD") or (root.has(tags.EXPOSURE_TIME_IN_MS, "FD")
                                                    and root.has(tags.X_RAY_TUBE_CURRENT_IN_MA, "FD"))


def rule_24(root):
    """If ORIGINAL and XRF: Positioner Type (0018,1508) CS COLUMN."""
    if image_type_1(root) != b"ORIGINAL" or not is_xrf(root):
        return True
    return root.text(tags.POSITIONER_TYPE, "CS") == b"COLUMN"


def rule_25(root):
    """Shared groups (5200,9229): one item."""
    return one_item(root.items(tags.SHARED_FUNCTIONAL_GROUPS_SEQUENCE))


def rule_26(root):
    """Per-frame groups (5200,9230): N items."""
    items = root.items(tags.PER_FRAME_FUNCTIONAL_GROUPS_SEQUENCE)
    return items is not None and len(items) == number_of_frames(root)


# ---------------------------------------------------------------------------------------------------------------------
# Rules 27 to 39


def sequence_tags(level):
    return {element.tag for element in level.elements if element.vr == "SQ"}


def rule_27(root, frame):
    """Per frame: no tag is SQ both in the shared item and in item f."""
    return not (sequence_tags(shared_item(root)) & sequence_tags(frame_item(root, frame)))


def rule_28(root, frame):
    """Per frame: Frame Content (0020,9111) absent, of any VR, from the shared item, one item in f."""
    return (not shared_item(root).present(tags.FRAME_CONTENT_SEQUENCE)
            and one_item(frame_item(root, frame).items(tags.FRAME_CONTENT_SEQUENCE)))


def rule_29(root, frame):
    """Per frame: Frame Characteristics (0018,9412), if present, one item (000)."""
    group = frame_group(root, frame, tags.XA_XRF_FRAME_CHARACTERISTICS_SEQUENCE)
    return group is None or one_item(items_of(root.data, group))


def rule_30(root, frame):
    """Per frame: Frame VOI LUT (0028,9132), if present, one item; has Window Center (0028,1050) and Width (0028,1051)
    DS, equally many, each a whole count of millionths, below one million in size (Q-2); widths at least 1, for LINEAR_EXACT
    above 0; VOI LUT Function (0028,1056) CS absent, LINEAR or LINEAR_EXACT (Q-3)."""
    group = frame_group(root, frame, tags.FRAME_VOI_LUT_SEQUENCE)
    if group is None:
        return True
    items = items_of(root.data, group)
    if not one_item(items):
        return False
    centers = items[0].texts(tags.WINDOW_CENTER, "DS")
    widths = items[0].texts(tags.WINDOW_WIDTH, "DS")
    if centers is None or widths is None or len(centers) != len(widths):
        return False
    if any(millionths(text) is None for text in centers + widths):
        return False
    function = voi_lut_function(items[0])
    if function is None:
        return False
    least = 1 if function == LINEAR_EXACT else UNIT
    return all(millionths(text) >= least for text in widths)


def rule_31(root):
    """Mask Subtraction Sequence (0028,6100), if present, 1 to 16 (D) items; each Mask Operation (0028,6101) CS NONE,
    AVG_SUB or TID (D)."""
    if not root.present(tags.MASK_SUBTRACTION_SEQUENCE):
        return True
    items = root.items(tags.MASK_SUBTRACTION_SEQUENCE)
    if items is None or not 1 <= len(items) <= 16:
        return False
    return all(item.text(tags.MASK_OPERATION, "CS") in (b"NONE", b"AVG_SUB", b"TID") for item in items)


def rule_32(root):
    """Applicable Frame Range (0028,6102) in a mask item, if present, US pairs, at least one, 1 ≤ first ≤ last ≤ N."""
    for item in mask_items(root):
        if not item.present(tags.APPLICABLE_FRAME_RANGE):
            continue
        numbers = item.unsigned_shorts(tags.APPLICABLE_FRAME_RANGE)
        if numbers is None or len(numbers) % 2 != 0:
            return False
        if not all(1 <= first <= last <= number_of_frames(root) for first, last in zip(numbers[0::2], numbers[1::2])):
            return False
    return True


def rule_33(root):
    """AVG_SUB: in that item 1 to 64 (D) Mask Frame Numbers (0028,6110) US in 1..N; Contrast Frame Averaging (0028,6112)
    US absent or 1 (D)."""
    for item in mask_items(root):
        if item.text(tags.MASK_OPERATION, "CS") != b"AVG_SUB":
            continue
        numbers = item.unsigned_shorts(tags.MASK_FRAME_NUMBERS)
        if numbers is None or len(numbers) > 64:
            return False
        if not all(1 <= number <= number_of_frames(root) for number in numbers):
            return False
        if item.present(tags.CONTRAST_FRAME_AVERAGING) and item.unsigned_short(tags.CONTRAST_FRAME_AVERAGING) != 1:
            return False
    return True


def rule_34(root):
    """TID: in that item TID Offset (0028,6120) SS absent (then 1) or one value."""
    for item in mask_items(root):
        if item.text(tags.MASK_OPERATION, "CS") != b"TID":
            continue
        if item.present(tags.TID_OFFSET) and item.signed_short(tags.TID_OFFSET) is None:
            return False
    return True


def rule_35(root):
    """Mask Sub-pixel Shift (0028,6114) FL in a mask item, if present, two whole multiples of 1/4 from -64 to 64 (D, Q-4)."""
    return all(small_shift(item) for item in mask_items(root) if item.present(tags.MASK_SUB_PIXEL_SHIFT))


def all_different_ids(items):
    """Whether each item has a Subtraction Item ID, US and single, and all are different."""
    ids = [item.unsigned_short(tags.SUBTRACTION_ITEM_ID) for item in items]
    return None not in ids and len(set(ids)) == len(ids)


def rule_36(root):
    """If any frame has Frame Pixel Shift (0028,9415): every mask item has Subtraction Item ID (0028,9416) US, all
    different."""
    for frame in range(1, number_of_frames(root) + 1):
        group = frame_group(root, frame, tags.FRAME_PIXEL_SHIFT_SEQUENCE)
        if group is not None and group.vr == "SQ" and group.value_length != 0:
            return all_different_ids(mask_items(root))
    return True


def rule_37(root, frame):
    """Per frame: Frame Pixel Shift, if present, at least one item; each has an ID (US), none twice, and has a shift as
    in 35."""
    group = frame_group(root, frame, tags.FRAME_PIXEL_SHIFT_SEQUENCE)
    if group is None:
        return True
    items = items_of(root.data, group)
    return (items is not None and len(items) >= 1 and all_different_ids(items)
            and all(small_shift(item) for item in items))


def rule_38(root):
    """Pixel Data (7FE0,0010) OW, or OB at 8 bits, length N × Rows × Columns × bytes per cell, plus 1 if odd."""
    allocated = root.unsigned_short(tags.BITS_ALLOCATED)
    length = (number_of_frames(root) * root.unsigned_short(tags.ROWS) * root.unsigned_short(tags.COLUMNS)
              * (allocated // 8))
    element = root.find(tags.PIXEL_DATA)
    return (element is not None and (element.vr == "OW" or (element.vr == "OB" and allocated == 8))
            and element.value_length == length + length % 2)


def to_linear_items(items):
    """The items whose LUT Function (0028,9474) CS is TO_LINEAR."""
    return [item for item in items if item.text(tags.LUT_FUNCTION, "CS") == b"TO_LINEAR"]


def entry_count(descriptor):
    """LUT Descriptor gives entry count (0 stands for 65,536), first mapped cell and 16."""
    return descriptor[0] or 65_536


def has_lut(item):
    """A TO_LINEAR item's descriptor has three numbers, the last 16, and its data are two bytes for each entry."""
    descriptor = item.unsigned_shorts(tags.LUT_DESCRIPTOR)
    if descriptor is None or len(descriptor) != 3 or descriptor[2] != 16:
        return False
    data = item.value(tags.LUT_DATA, "OW")
    return data is not None and len(data) == 2 * entry_count(descriptor)


def rule_39(root, frame):
    """Per frame: (0028,9443), if present, has one item; (0028,9422), if present, has at least one item and at most one
    TO_LINEAR item, and is present with one if Pixel Intensity Relationship (0028,1040) CS in (0028,9443) is LOG; a
    TO_LINEAR item's descriptor has three numbers, the last 16, and its data are two bytes for each entry (02, Q-8)."""
    logarithmic = False
    properties = frame_group(root, frame, tags.FRAME_PIXEL_DATA_PROPERTIES_SEQUENCE)
    if properties is not None:
        items = items_of(root.data, properties)
        if not one_item(items):
            return False
        logarithmic = items[0].text(tags.PIXEL_INTENSITY_RELATIONSHIP, "CS") == b"LOG"
    luts = frame_group(root, frame, tags.PIXEL_INTENSITY_RELATIONSHIP_LUT_SEQUENCE)
    if luts is None:
        return not logarithmic
    items = items_of(root.data, luts)
    if not items:
        return False
    linear = to_linear_items(items)
    if logarithmic and not linear:
        return False
    return len(linear) <= 1 and all(has_lut(item) for item in linear)


# ---------------------------------------------------------------------------------------------------------------------
# The verdict

RULES = {number: globals()[f"rule_{number}"] for number in range(1, 40)}
PER_FRAME_RULES = frozenset((27, 28, 29, 30, 37, 39))


def first_broken_rule(root):
    """The first broken rule, and at that rule the lowest frame (0 where not per frame). None if all rules hold."""
    for number, rule in RULES.items():
        if number in PER_FRAME_RULES:
            for frame in range(1, number_of_frames(root) + 1):
                if not rule(root, frame):
                    return number, frame
        elif not rule(root):
            return number, 0
    return None


def judge_with_root(data, row_buffer_length):
    """What `judge` answers and writes, and the root; this is None with the codes 1 to 8."""
    outcome, elements = read_with_elements(data, row_buffer_length)
    if outcome.answer.code != DONE:
        return outcome, None
    root = Level(data, elements)
    broken = first_broken_rule(root)
    if broken is not None:
        rule, frame = broken
        outcome = outcome._replace(answer=Answer(RULE_BROKEN, rows=outcome.answer.rows, rule=rule, frame=frame))
    return outcome, root


def judge(data, row_buffer_length):
    """The call `judge`: "With code 0 judge reports the sum of these searches", "Other answers report 0" (Q-11)."""
    outcome, root = judge_with_root(data, row_buffer_length)
    if outcome.answer.code == DONE:
        outcome = outcome._replace(answer=outcome.answer._replace(searches=searches(root.elements)))
    return outcome
