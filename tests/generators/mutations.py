"""Changes to objects that break no rule: ways to break each rule, and near misses that break none.

A change is an edit of a model with the shape that it needs. Per-frame ones are made at a given frame.
"""

import copy
import dataclasses
import struct
from typing import Callable

from .enhanced_xa import fd, fl, sq, ss, text, us
from reference import attributes as tags

BIPLANE = {"planes": "BIPLANE"}
SINGLE = {"planes": "SINGLE PLANE"}
UNDEFINED = {"planes": "UNDEFINED", "image_type": "DERIVED"}
ORIGINAL = {"image_type": "ORIGINAL", "planes": "SINGLE PLANE"}
DERIVED = {"image_type": "DERIVED", "planes": "SINGLE PLANE"}
XA = {"sop_class": "XA"}
XRF = {"sop_class": "XRF"}
EIGHT = {"bits_allocated": 8, "bits_stored": 8}
TWELVE = {"bits_allocated": 16, "bits_stored": 12, "pixel_vr": "OW"}
FRAMES = {"frames": 5}
SUB = {"masks": ("NONE", "AVG_SUB", "TID", "AVG_SUB")}  # mask items 0 to 3
NO_MASKS = {"masks": ()}
NO_FRAME_SHIFT = {"frame_shift": "absent"}
OWN_SHIFTS = {"frame_shift": "frames", "masks": ("AVG_SUB", "TID")}
SHARED_SHIFT = {"frame_shift": "shared", "masks": ("AVG_SUB", "TID")}
NO_INTENSITY = {"luts": "absent", "properties": "absent"}
OWN_VOI = {"voi": "frames", "windows": 2}
OLD = {"function": ""}
LINEAR = {"function": "LINEAR"}
EXACT = {"function": "LINEAR_EXACT"}
SHARED_VOI = {"voi": "shared", "windows": 2}


@dataclasses.dataclass
class Change:
    rule: int  # the rule that it breaks; 0: none, a near miss
    name: str
    edit: Callable  # edit(model, frame)
    shape: dict
    per_frame: bool = False
    frame: int = 0  # for what breaks a per-frame rule at one frame of its own: that frame
    about: int = 0  # the rule of a near miss, if that is noted; else the rule itself


CHANGES = []


def add(rule, name, edit, *shapes, per_frame=False, frame=0, about=0):
    shape = {}
    for part in shapes:
        shape.update(part)
    if per_frame:
        shape.update(FRAMES)
    CHANGES.append(Change(rule, name, edit, shape, per_frame, frame, about or rule))


def put(tag, value):
    def edit(model, frame):
        model[tag] = copy.deepcopy(value)  # changes share their values, and a later change may edit what this one put
    return edit


def drop(*dropped):
    def edit(model, frame):
        for tag in dropped:
            model.pop(tag, None)
    return edit


def all_of(*edits):
    def edit(model, frame):
        for one in edits:
            one(model, frame)
    return edit


def shared_item(model):
    return model[tags.SHARED_FUNCTIONAL_GROUPS_SEQUENCE][1][0]


def frame_item(model, frame):
    return model[tags.PER_FRAME_FUNCTIONAL_GROUPS_SEQUENCE][1][frame - 1]


def in_shared(inner):
    return lambda model, frame: inner(shared_item(model), frame)


def in_frame(inner):
    return lambda model, frame: inner(frame_item(model, frame), frame)


def in_mask(number, inner):
    return lambda model, frame: inner(model[tags.MASK_SUBTRACTION_SEQUENCE][1][number], frame)


def in_group(tag, inner, number=0):
    """An edit of an item of the functional group that item f has."""
    return lambda model, frame: inner(frame_item(model, frame)[tag][1][number], frame)


def in_shared_group(tag, inner, number=0):
    return lambda model, frame: inner(shared_item(model)[tag][1][number], frame)


def never_had(rule, tag, vr, good, *shapes):
    """Absent, empty, of another VR, doubled: what breaks every rule that compares a value."""
    add(rule, "absent", drop(tag), *shapes)
    add(rule, "empty", put(tag, (vr, b"")), *shapes)
    add(rule, "other VR", put(tag, ("SS" if vr == "US" else "LO", good[1])), *shapes)
    add(rule, "VR UN", put(tag, ("UN", good[1])), *shapes)
    separator = b"" if vr == "US" else b"\\"
    doubled = good[1] + separator + good[1]
    add(rule, "twice the same value", put(tag, (vr, doubled + b" " * (len(doubled) % 2))), *shapes)


def wrong_words(rule, tag, words, *shapes):
    for word in words:
        add(rule, f"word {word!r}", put(tag, text("CS", word)), *shapes)


def zero_padded(value):
    return ("CS", value + b"\0" * (2 - len(value) % 2))


# ---------------------------------------------------------------------------------------------------------------------
# Rules 1 to 26

XA_UID = "1.2.840.10008.5.1.4.1.1.12.1.1"
never_had(1, tags.SOP_CLASS_UID, "UI", text("UI", XA_UID))
for uid in (XA_UID + ".1", XA_UID[:-1], "1.2.840.10008.5.1.4.1.1.12.1", " " + XA_UID, XA_UID + " ", "\0" + XA_UID,
            XA_UID + "\\", "1.2.840.10008.5.1.4.1.1.12.3.1"):
    add(1, f"UID {uid!r}", put(tags.SOP_CLASS_UID, text("UI", uid)))
add(0, "UID with many zero bytes", put(tags.SOP_CLASS_UID, text("UI", XA_UID + "\0" * 6)), XA)

never_had(2, tags.MODALITY, "CS", text("CS", "XA"), XA)
wrong_words(2, tags.MODALITY, ("RF", "xa", "XA\\", "\\XA", "X A", "CT", "XAX", "\tXA "), XA)
wrong_words(2, tags.MODALITY, ("XA", "XRF", "RF\\RF"), XRF)
add(2, "padded by zero bytes", put(tags.MODALITY, zero_padded(b"XA")), XA)
add(0, "spaces around", put(tags.MODALITY, text("CS", "   XA     ")), XA)

never_had(3, tags.IMAGE_TYPE, "CS", text("CS", "DERIVED\\P\\S"), DERIVED)
wrong_words(3, tags.IMAGE_TYPE, ("DERIVED\\PRIMARY\\NONE", "DERIVED\\A\\B\\SOME\\NONE", "OTHER\\A\\B\\NONE", "\\A\\B\\NONE",
                               "DERIVED\\A\\B\\", "DERIVEDX\\A\\B\\NONE", "DERIVED A B NONE"), DERIVED)
add(0, "more values", put(tags.IMAGE_TYPE, text("CS", "DERIVED\\\\\\ NONE \\\\X")), DERIVED)

never_had(4, tags.PLANES_IN_ACQUISITION, "CS", text("CS", "SINGLE PLANE"), SINGLE)
wrong_words(4, tags.PLANES_IN_ACQUISITION, ("SINGLEPLANE", "SINGLE  PLANE", "MONOPLANE", "BIPLANE\\BIPLANE", " "), SINGLE)

for kind in ("ORIGINAL", "MIXED"):
    add(5, f"UNDEFINED with {kind}", put(tags.IMAGE_TYPE, text("CS", f"{kind}\\P\\S\\NONE")), UNDEFINED)
    add(5, f"{kind} made UNDEFINED", put(tags.PLANES_IN_ACQUISITION, text("CS", "UNDEFINED ")), {"image_type": kind}, SINGLE)
add(5, "DERIVED not in place 1", put(tags.IMAGE_TYPE, text("CS", "MIXED\\DERIVED\\S\\NONE")), UNDEFINED)

for name, value in (("had", text("CS", "MONOPLANE")), ("empty", ("CS", b"")), ("of another VR", ("UN", b""))):
    add(6, f"{name} though UNDEFINED", put(tags.PLANE_IDENTIFICATION, value), UNDEFINED)
for planes in (SINGLE, BIPLANE):
    add(6, "absent", drop(tags.PLANE_IDENTIFICATION), planes)
    add(6, "empty", put(tags.PLANE_IDENTIFICATION, ("CS", b"")), planes)
    add(6, "other VR", put(tags.PLANE_IDENTIFICATION, text("LO", "PLANE A")), planes)
add(0, "several planes", put(tags.PLANE_IDENTIFICATION, text("CS", "PLANE A\\PLANE B")), SINGLE)
add(0, "blank plane", put(tags.PLANE_IDENTIFICATION, text("CS", "  ")), SINGLE)
add(0, "blank plane of two", put(tags.PLANE_IDENTIFICATION, text("CS", "  ")), BIPLANE)
add(0, "MONOPLANE with a letter more", put(tags.PLANE_IDENTIFICATION, text("CS", "MONOPLANES")), BIPLANE)

wrong_words(7, tags.PLANE_IDENTIFICATION, ("MONOPLANE", " MONOPLANE ", "PLANE A\\PLANE B", "MONOPLANE\\PLANE A", "PLANE A\\"),
            BIPLANE)

add(8, "absent", drop(tags.ACQUISITION_DATE_TIME))
add(8, "empty", put(tags.ACQUISITION_DATE_TIME, ("DT", b"")))
add(8, "other VR", put(tags.ACQUISITION_DATE_TIME, text("LO", "20240501")))
add(0, "blank", put(tags.ACQUISITION_DATE_TIME, text("DT", "  ")))

never_had(9, tags.SAMPLES_PER_PIXEL, "US", us(1))
for value in (0, 3, 256, 257):
    add(9, f"{value}", put(tags.SAMPLES_PER_PIXEL, us(value)))

never_had(10, tags.PHOTOMETRIC_INTERPRETATION, "CS", text("CS", "MONOCHROME2"))
wrong_words(10, tags.PHOTOMETRIC_INTERPRETATION, ("MONOCHROME", "MONOCHROME3", "monochrome2", "RGB", "MONOCHROME2\\", "MONOCHROME1\\MONOCHROME2"))
add(10, "padded by a zero byte", put(tags.PHOTOMETRIC_INTERPRETATION, zero_padded(b"MONOCHROME2")))

for tag in (tags.ROWS, tags.COLUMNS):
    never_had(11, tag, "US", us(4))
    add(11, "0", put(tag, us(0)))

never_had(12, tags.BITS_ALLOCATED, "US", us(16), TWELVE)
never_had(12, tags.BITS_STORED, "US", us(12), TWELVE)
for allocated, stored in ((8, 7), (8, 9), (8, 16), (16, 8), (16, 17), (16, 0), (32, 12), (12, 12), (0, 8), (264, 8), (8, 264)):
    add(12, f"{allocated} with {stored}", all_of(put(tags.BITS_ALLOCATED, us(allocated)), put(tags.BITS_STORED, us(stored))))

never_had(13, tags.HIGH_BIT, "US", us(11), TWELVE)
for value in (12, 10, 15, 7, 0, 267):
    add(13, f"{value}", put(tags.HIGH_BIT, us(value)), TWELVE)

never_had(14, tags.PIXEL_REPRESENTATION, "US", us(0))
for value in (1, 256, 65535):
    add(14, f"{value}", put(tags.PIXEL_REPRESENTATION, us(value)))

never_had(15, tags.NUMBER_OF_FRAMES, "IS", text("IS", "5"), FRAMES)
for word in ("0", "+0", "-5", "5.", "5.0", "1 2", "  ", "+", "+ 5", "--5", "5\\", "000000000005", "65536", "65541", "4294967301", "99999999999",
             "5E0", "0x5", "+000000000005", "\t5"):
    add(15, f"{word!r}", put(tags.NUMBER_OF_FRAMES, text("IS", word)), FRAMES)
for word in ("5", "+5", " 5 ", "00000000005", "+00000000005", "    +05"):
    add(0, f"frames {word!r}", put(tags.NUMBER_OF_FRAMES, text("IS", word)), FRAMES)
add(15, "padded by a zero byte", put(tags.NUMBER_OF_FRAMES, ("IS", b"5\0")), FRAMES)

never_had(16, tags.CONTENT_QUALIFICATION, "CS", text("CS", "PRODUCT"))
wrong_words(16, tags.CONTENT_QUALIFICATION, ("PRODUCTS", "product", "RESEARCH\\SERVICE", "CLINICAL"))

never_had(17, tags.BURNED_IN_ANNOTATION, "CS", text("CS", "NO"))
wrong_words(17, tags.BURNED_IN_ANNOTATION, ("YES", "no", "N O", "NO\\", "N"))

never_had(18, tags.LOSSY_IMAGE_COMPRESSION, "CS", text("CS", "00"))
wrong_words(18, tags.LOSSY_IMAGE_COMPRESSION, ("0", "1", "02", "000", "00\\01"))

LOSSY = {"lossy": "01"}
LOSSLESS = {"lossy": "00"}
for tag, vr, other in ((tags.LOSSY_IMAGE_COMPRESSION_RATIO, "DS", "IS"), (tags.LOSSY_IMAGE_COMPRESSION_METHOD, "CS", "LO")):
    add(19, "absent at 01", drop(tag), LOSSY)
    add(19, "empty at 01", put(tag, (vr, b"")), LOSSY)
    add(19, "other VR at 01", put(tag, (other, b"10")), LOSSY)
    add(19, "had at 00", put(tag, (vr, b"10")), LOSSLESS)
    add(19, "empty at 00", put(tag, (vr, b"")), LOSSLESS)
    add(19, "UN, empty, at 00", put(tag, ("UN", b"")), LOSSLESS)
    add(0, "several values at 01", put(tag, (vr, b"a\\b\\c ")), LOSSY)
    add(0, "blank at 01", put(tag, (vr, b"  ")), LOSSY)
add(19, "01 made 00", put(tags.LOSSY_IMAGE_COMPRESSION, text("CS", "00")), LOSSY)
add(19, "00 made 01", put(tags.LOSSY_IMAGE_COMPRESSION, text("CS", "01")), LOSSLESS)

add(20, "absent", drop(tags.REFERENCED_OTHER_PLANE_SEQUENCE), BIPLANE)
add(20, "no item", put(tags.REFERENCED_OTHER_PLANE_SEQUENCE, sq()), BIPLANE)
add(20, "two items", put(tags.REFERENCED_OTHER_PLANE_SEQUENCE, sq({}, {})), BIPLANE)
add(20, "VR UN", put(tags.REFERENCED_OTHER_PLANE_SEQUENCE, ("UN", bytes(8))), BIPLANE)
for planes in (SINGLE, UNDEFINED):
    add(20, "one item without BIPLANE", put(tags.REFERENCED_OTHER_PLANE_SEQUENCE, sq({})), planes)
    add(20, "empty without BIPLANE", put(tags.REFERENCED_OTHER_PLANE_SEQUENCE, sq()), planes)
    add(20, "VR LO without BIPLANE", put(tags.REFERENCED_OTHER_PLANE_SEQUENCE, ("LO", b"")), planes)
add(0, "an item with content", put(tags.REFERENCED_OTHER_PLANE_SEQUENCE, sq({tags.REFERENCED_OTHER_PLANE_SEQUENCE: sq()})), BIPLANE)

ONE = {"photometric": "MONOCHROME1"}
TWO = {"photometric": "MONOCHROME2"}
never_had(21, tags.PRESENTATION_LUT_SHAPE, "CS", text("CS", "IDENTITY"), TWO)
wrong_words(21, tags.PRESENTATION_LUT_SHAPE, ("INVERSE", "identity", "IDENTITY\\INVERSE"), TWO)
wrong_words(21, tags.PRESENTATION_LUT_SHAPE, ("IDENTITY", "LIN OD"), ONE)

for tag, vr in ((tags.KVP, "DS"), (tags.RADIATION_MODE, "CS")):
    add(22, "absent", drop(tag), ORIGINAL)
    add(22, "empty", put(tag, (vr, b"")), ORIGINAL)
    add(22, "other VR", put(tag, ("LO", b"80")), ORIGINAL)
    add(0, "blank", put(tag, (vr, b"  ")), ORIGINAL)
    add(0, "several values", put(tag, (vr, b"1\\2 ")), ORIGINAL)
    add(0, "absent, not ORIGINAL", drop(tag), DERIVED)
never_had(22, tags.RADIATION_SETTING, "CS", text("CS", "SC"), ORIGINAL)
wrong_words(22, tags.RADIATION_SETTING, ("SCR", "sc", "SC\\GR"), ORIGINAL)
add(0, "other setting, not ORIGINAL", put(tags.RADIATION_SETTING, text("CS", "XX")), DERIVED)
add(22, "ORIGINAL from DERIVED", put(tags.IMAGE_TYPE, text("CS", "ORIGINAL\\P\\S\\NONE")), DERIVED)

EXPOSURE = (tags.EXPOSURE_IN_MAS, tags.EXPOSURE_TIME_IN_MS, tags.X_RAY_TUBE_CURRENT_IN_MA)
add(23, "all absent", drop(*EXPOSURE), ORIGINAL)
add(23, "time alone", all_of(drop(*EXPOSURE), put(tags.EXPOSURE_TIME_IN_MS, fd(1.0))), ORIGINAL)
add(23, "current alone", all_of(drop(*EXPOSURE), put(tags.X_RAY_TUBE_CURRENT_IN_MA, fd(1.0))), ORIGINAL)
add(23, "exposure of VR DS", all_of(drop(*EXPOSURE), put(tags.EXPOSURE_IN_MAS, text("DS", "10"))), ORIGINAL)
add(23, "exposure empty, time empty", all_of(put(tags.EXPOSURE_IN_MAS, fd()), put(tags.EXPOSURE_TIME_IN_MS, fd()),
                                             put(tags.X_RAY_TUBE_CURRENT_IN_MA, fd(1.0))),
    ORIGINAL)
add(23, "current of VR FL", all_of(drop(*EXPOSURE), put(tags.EXPOSURE_TIME_IN_MS, fd(1.0)), put(tags.X_RAY_TUBE_CURRENT_IN_MA, fl(1.0))), ORIGINAL)
add(0, "exposure bad, the others had", all_of(put(tags.EXPOSURE_IN_MAS, ("UN", b"")), put(tags.EXPOSURE_TIME_IN_MS, fd(1.0)),
                                             put(tags.X_RAY_TUBE_CURRENT_IN_MA, fd(2.0))), ORIGINAL)
add(0, "exposure of two bytes", all_of(drop(*EXPOSURE), put(tags.EXPOSURE_IN_MAS, ("FD", b"ab"))), ORIGINAL)
add(0, "exposure absent, not ORIGINAL", drop(*EXPOSURE), DERIVED)

never_had(24, tags.POSITIONER_TYPE, "CS", text("CS", "COLUMN"), ORIGINAL, XRF)
wrong_words(24, tags.POSITIONER_TYPE, ("CARM", "COLUMNS", "COLUMN\\"), ORIGINAL, XRF)
add(0, "other positioner, XA", put(tags.POSITIONER_TYPE, text("CS", "ANY")), ORIGINAL, XA)
add(0, "other positioner, not ORIGINAL", put(tags.POSITIONER_TYPE, text("CS", "CARM")), DERIVED, XRF)

NO_GROUPS = {"voi": "frames", "characteristics": "absent", "frame_shift": "absent", **NO_INTENSITY}
add(25, "absent", drop(tags.SHARED_FUNCTIONAL_GROUPS_SEQUENCE))
add(25, "no item", put(tags.SHARED_FUNCTIONAL_GROUPS_SEQUENCE, sq()))
add(25, "two items", put(tags.SHARED_FUNCTIONAL_GROUPS_SEQUENCE, sq({}, {})), NO_GROUPS)
add(25, "VR OB", put(tags.SHARED_FUNCTIONAL_GROUPS_SEQUENCE, ("OB", bytes(8))), NO_GROUPS)
add(25, "VR UN, empty", put(tags.SHARED_FUNCTIONAL_GROUPS_SEQUENCE, ("UN", b"")), NO_GROUPS)
add(0, "one empty item", put(tags.SHARED_FUNCTIONAL_GROUPS_SEQUENCE, sq({})), NO_GROUPS)


def frames_left_out(*numbers):
    def edit(model, frame):
        for number in sorted(numbers, reverse=True):
            del model[tags.PER_FRAME_FUNCTIONAL_GROUPS_SEQUENCE][1][number - 1]
    return edit


add(26, "absent", drop(tags.PER_FRAME_FUNCTIONAL_GROUPS_SEQUENCE))
add(26, "no item", put(tags.PER_FRAME_FUNCTIONAL_GROUPS_SEQUENCE, sq()))
add(26, "VR UN", put(tags.PER_FRAME_FUNCTIONAL_GROUPS_SEQUENCE, ("UN", bytes(8))), {"frames": 1})
add(26, "first item left out", frames_left_out(1), FRAMES)
add(26, "middle item left out", frames_left_out(3), FRAMES)
add(26, "last item left out", frames_left_out(5), FRAMES)
add(26, "two items left out", frames_left_out(2, 3), FRAMES)
add(26, "one item more", lambda model, frame: model[tags.PER_FRAME_FUNCTIONAL_GROUPS_SEQUENCE][1].append({tags.FRAME_CONTENT_SEQUENCE: sq({})}))
add(26, "3 frames, 2 items", frames_left_out(3), {"frames": 3})
add(26, "65535 frames told", put(tags.NUMBER_OF_FRAMES, text("IS", "65535")), FRAMES)

# ---------------------------------------------------------------------------------------------------------------------
# Rules 27 to 30

for tag in (0x00080001, 0x00209116, 0x00289999, 0xFFFF0010):
    add(27, f"{tag:08X} in both", all_of(in_shared(put(tag, sq({}))), in_frame(put(tag, sq({})))), per_frame=True)
    add(27, f"{tag:08X} in both, empty", all_of(in_shared(put(tag, sq())), in_frame(put(tag, sq()))), per_frame=True)
add(27, "VOI in both", in_frame(put(tags.FRAME_VOI_LUT_SEQUENCE, sq({}))), SHARED_VOI, per_frame=True)
add(27, "pixel shift in both", in_frame(put(tags.FRAME_PIXEL_SHIFT_SEQUENCE, sq({}))), SHARED_SHIFT, per_frame=True)
for name, one, other in (("SQ and UN", sq({}), ("UN", b"")), ("LO and SQ", text("LO", "x"), sq({})),
                         ("LO and LO", text("LO", "x"), text("LO", "x"))):
    add(0, f"same tag, {name}", all_of(in_shared(put(0x00289999, one)), in_frame(put(0x00289999, other))), per_frame=True)
add(0, "same tag deeper", all_of(in_shared(put(0x00289998, sq({0x00289999: sq()}))), in_frame(put(0x00289999, sq()))),
    per_frame=True)

for name, value in (("absent", None), ("no item", sq()), ("two items", sq({}, {})), ("VR UN", ("UN", bytes(8)))):
    add(28, name, in_frame(drop(tags.FRAME_CONTENT_SEQUENCE) if value is None else put(tags.FRAME_CONTENT_SEQUENCE, value)), per_frame=True)
for name, value in (("UN", ("UN", b"")), ("LO", text("LO", "x"))):
    add(28, f"in the shared item, {name}", in_shared(put(tags.FRAME_CONTENT_SEQUENCE, value)), FRAMES, frame=1)


def shared_content_first_without(model, frame):
    shared_item(model)[tags.FRAME_CONTENT_SEQUENCE] = sq({})
    del frame_item(model, 1)[tags.FRAME_CONTENT_SEQUENCE]


add(27, "Frame Content shared, frame 1 without", shared_content_first_without, FRAMES, frame=2)
add(28, "Frame Content shared and nowhere else", all_of(
    in_shared(put(tags.FRAME_CONTENT_SEQUENCE, sq({}))),
    lambda model, frame: [item.pop(tags.FRAME_CONTENT_SEQUENCE) for item in model[tags.PER_FRAME_FUNCTIONAL_GROUPS_SEQUENCE][1]]), FRAMES, frame=1)

for name, value in (("no item", sq()), ("two items", sq({}, {})), ("VR UN", ("UN", b"")), ("VR OB", ("OB", bytes(8)))):
    add(29, name, in_frame(put(tags.XA_XRF_FRAME_CHARACTERISTICS_SEQUENCE, value)), {"characteristics": "frames"}, per_frame=True)
    add(29, f"shared, {name}", in_shared(put(tags.XA_XRF_FRAME_CHARACTERISTICS_SEQUENCE, value)), {"characteristics": "absent"}, FRAMES, frame=1)
for name, value in (("VR UN", ("UN", b"")), ("VR LO", text("LO", "x"))):
    add(29, f"{name} hides the shared one", in_frame(put(tags.XA_XRF_FRAME_CHARACTERISTICS_SEQUENCE, value)), {"characteristics": "shared"},
        per_frame=True)


def broken_shared_hidden_from(frame_count, tag, shared_value, own_value):
    """A broken shared group that the first frames do not see, since they have their own."""

    def edit(model, frame):
        shared_item(model)[tag] = shared_value
        for number in range(1, frame_count + 1):
            frame_item(model, number)[tag] = own_value
    return edit


add(29, "broken shared one, seen by frame 3 first",
    broken_shared_hidden_from(2, tags.XA_XRF_FRAME_CHARACTERISTICS_SEQUENCE, ("UN", b""), sq({})), {"characteristics": "absent"}, FRAMES, frame=3)
add(0, "broken shared one, seen by no frame",
    broken_shared_hidden_from(5, tags.XA_XRF_FRAME_CHARACTERISTICS_SEQUENCE, ("UN", b""), sq({})), {"characteristics": "absent"}, FRAMES)

WINDOW = {tags.WINDOW_CENTER: text("DS", "40\\50"), tags.WINDOW_WIDTH: text("DS", "10\\20")}
for name, value in (("no item", sq()), ("two items", sq(WINDOW, WINDOW)), ("VR UN", ("UN", b"")), ("an empty item", sq({}))):
    add(30, name, in_frame(put(tags.FRAME_VOI_LUT_SEQUENCE, value)), OWN_VOI, per_frame=True)
for name, value in (("VR UN", ("UN", b"")), ("VR OB", ("OB", bytes(8)))):
    add(30, f"{name} hides the shared one", in_frame(put(tags.FRAME_VOI_LUT_SEQUENCE, value)), SHARED_VOI, per_frame=True)
    add(30, f"shared one of {name}", in_shared(put(tags.FRAME_VOI_LUT_SEQUENCE, value)), {"voi": "absent"}, FRAMES, frame=1)
    add(30, f"shared one of {name}, seen by frame 4 first",
        broken_shared_hidden_from(3, tags.FRAME_VOI_LUT_SEQUENCE, value, sq(WINDOW)), {"voi": "absent"}, FRAMES, frame=4)
    add(0, f"shared one of {name}, seen by no frame",
        broken_shared_hidden_from(5, tags.FRAME_VOI_LUT_SEQUENCE, value, sq(WINDOW)), {"voi": "absent"}, FRAMES)
for tag in (tags.WINDOW_CENTER, tags.WINDOW_WIDTH):
    for name, edit in (("absent", drop(tag)), ("empty", put(tag, ("DS", b""))), ("VR IS", put(tag, text("IS", "40\\50"))),
                       ("one value of two", put(tag, text("DS", "40"))), ("three values", put(tag, text("DS", "40\\50\\60")))):
        add(30, f"{tag:08X} {name}", in_group(tags.FRAME_VOI_LUT_SEQUENCE, edit), OWN_VOI, per_frame=True)
        add(30, f"shared {tag:08X} {name}", in_shared_group(tags.FRAME_VOI_LUT_SEQUENCE, edit), SHARED_VOI, FRAMES, frame=1)
BAD_DECIMALS = (".", "+", "+.", "", "  ", "4 0", "--1", "+-1", "1..2", "1.2.3", "1,5", "1234567", "\t4", "4\0", "0x4", "1+", "1.+5", "\u00b2",
                # The exponent: no digit before it or in it, a second one, a point or a space in it.
                "E", "e1", "E3", "+E3", ".E3", "-.E+3", "1E", "1e+", "5.E-", "1E1.5", "1E1.", "1E 1", "1 E1", "1EE1", "1E1e1", "1E+-1", "1E1-", "1D1",
                "1E1\t", "1_0", "INF", "NAN",
                # 17 characters.
                "00000000000000001", "1.000000000000000", "1E000000000000005", "0E999999999999999", "+1E00000000000005",
                # No whole count of millionths.
                "0.0000001", "0.0000005", "-1.0000001", "1E-7", "9E-7", "15E-7", "1.5E-6", "999999.9999999", "1E-9999999999999", "1E-99999999",
                # Not below one million in size.
                "1000000", "1E6", "-1E6", "1e+6", "1000000.0", "1000000000000E-6", ".1E7", "1E12", "1E99999999999999", "-9E99999999999", "10E5")
GOOD_CENTERS = (".5", "5.", "-.5", "+1", "000001", "-0", "000000.000", "999999.999", "-999999.999", " 7 ", "0.0", "0000001", "1.0000", "1E1", "1e1",
                "2.048E3", "5.E3", ".5E3", "-.5e+03", "0.000001", "-0.000001", "1E-6", "10E-7", "0.0000010", "999999.999999", "-999999.999999",
                "9.99999999999E5", "9999999999990E-7", "1E5", "1E00000000000005", "1E+0000000000005", "1E-0000000000006", "0E99999999",
                "0E99999999999999", "-0E9999999999999", "0E-9999999999999", ".0e+999999999999", "0000000000000001", "1.00000000000000",
                "  +99999900000E-5  ", "-000000000000001")
GOOD_WIDTHS = ("1", "1.", "1.0", "1.000", "+1.000", "000001", "000001.000", "999999.999", "  1  ", "0000001", "1.0000", "1E0", "1e-0", ".1E1", "10E-1",
               "1000000E-6", "1.000001", "1000001E-6", "2.048E3", "999999.999999", "100000000000E-11", "1E00000000000000")


def add_decimals(rule, words, *places, shape={}):
    """Each word as a value of each tag's element, the first and the second of two in turn."""
    for number, word in enumerate(words):
        for tag in places:
            values = ("40", word) if (number + (tag == tags.WINDOW_WIDTH)) % 2 else (word, "50")
            add(rule, f"{shape.get('function', '')} {tag:08X} {values}", in_group(tags.FRAME_VOI_LUT_SEQUENCE, put(tag, text("DS", *values))),
                OWN_VOI, shape,
                per_frame=True)


UNDER_1 = ("0.999", ".999", "+0.5", "0.999999", "999999E-6", "9.99999E-1", "1E-6", "1E-1", "0.000001", ".0000010")
NOT_ABOVE_0 = ("0", "-1", "-0", "000000.000", "-40", "0E99999999999999", "-1E0", "-999999.999999", "-0.000001", "-1E-6", "-0.5")
SMALL_WIDTHS = UNDER_1 + NOT_ABOVE_0
add_decimals(30, BAD_DECIMALS, tags.WINDOW_CENTER, tags.WINDOW_WIDTH)
add_decimals(30, SMALL_WIDTHS, tags.WINDOW_WIDTH, shape=OLD)
add_decimals(30, SMALL_WIDTHS, tags.WINDOW_WIDTH, shape=LINEAR)
add_decimals(30, NOT_ABOVE_0, tags.WINDOW_WIDTH, shape=EXACT)
add_decimals(0, UNDER_1, tags.WINDOW_WIDTH, shape=EXACT)
add_decimals(0, SMALL_WIDTHS + GOOD_CENTERS, tags.WINDOW_CENTER)
add_decimals(0, GOOD_WIDTHS, tags.WINDOW_WIDTH)

BAD_FUNCTIONS = ("SIGMOID", "LINEAR_EXACTLY", "LINEAR EXACT", "LINEAREXACT", "LINEAR-EXACT", "LINEA", "LINEAR_", "EXACT", "IDENTITY", "linear",
                 "Linear", "linear_exact", "LINEAR_exact", "L INEAR", "\tLINEAR", "LINEAR\t", "LINEAR\0", "LINEAR_EXACT\0", "", " ", "    ",
                 "LINEAR\\LINEAR", "LINEAR_EXACT\\LINEAR_EXACT", "LINEAR\\", "\\LINEAR", "\\", "LINEAR\\SIGMOID", "LINEAR_EXACT\\LINEAR")
GOOD_FUNCTIONS = ("LINEAR", "LINEAR_EXACT", " LINEAR", "LINEAR  ", "  LINEAR_EXACT   ")
OTHER_VRS = {"LO": text("LO", "LINEAR"), "SH": text("SH", "LINEAR_EXACT"), "UI": text("UI", "LINEAR"), "UN": ("UN", b"LINEAR"), "OB": ("OB", b"LINEAR"),
             "UN, empty": ("UN", b""), "LO, empty": ("LO", b""), "DS": text("DS", "1"), "US": us(1), "SQ": sq({}), "SQ, empty": sq()}
ALL_GOOD = all_of(put(tags.WINDOW_CENTER, text("DS", "40", "50")), put(tags.WINDOW_WIDTH, text("DS", "10", "1E1")))  # for either function
for word in BAD_FUNCTIONS:
    add(30, f"function {word!r}", in_group(tags.FRAME_VOI_LUT_SEQUENCE, all_of(ALL_GOOD, put(tags.VOI_LUT_FUNCTION, text("CS", word)))), OWN_VOI,
        per_frame=True)
for name, value in OTHER_VRS.items():
    add(30, f"function of VR {name}", in_group(tags.FRAME_VOI_LUT_SEQUENCE, all_of(ALL_GOOD, put(tags.VOI_LUT_FUNCTION, value))), OWN_VOI,
        per_frame=True)
    add(30, f"shared function of VR {name}", in_shared_group(tags.FRAME_VOI_LUT_SEQUENCE, all_of(ALL_GOOD, put(tags.VOI_LUT_FUNCTION, value))),
        SHARED_VOI, FRAMES, frame=1)
for word in GOOD_FUNCTIONS:
    add(0, f"function {word!r}", in_group(tags.FRAME_VOI_LUT_SEQUENCE, all_of(ALL_GOOD, put(tags.VOI_LUT_FUNCTION, text("CS", word)))), OWN_VOI,
        per_frame=True)
add(30, "shared function SIGMOID", in_shared_group(tags.FRAME_VOI_LUT_SEQUENCE, put(tags.VOI_LUT_FUNCTION, text("CS", "SIGMOID"))), SHARED_VOI,
    FRAMES, frame=1)
for name, value in (("SIGMOID", text("CS", "SIGMOID")), ("VR UN", ("UN", b"LINEAR")), ("empty", ("CS", b""))):
    add(0, f"function {name} at the root, in the frame and in the shared item",
        all_of(put(tags.VOI_LUT_FUNCTION, value), in_shared(put(tags.VOI_LUT_FUNCTION, value)), in_frame(put(tags.VOI_LUT_FUNCTION, value))),
        OWN_VOI, per_frame=True)
add(0, "function SIGMOID deeper", in_group(tags.FRAME_VOI_LUT_SEQUENCE, put(0x00080001, sq({tags.VOI_LUT_FUNCTION: text("CS", "SIGMOID")}))),
    OWN_VOI, per_frame=True)
add(30, "function LINEAR_EXACT deeper, width under 1",
    in_group(tags.FRAME_VOI_LUT_SEQUENCE, all_of(put(tags.WINDOW_WIDTH, text("DS", "0.5", "0.5")),
                                                 put(0x00080001, sq({tags.VOI_LUT_FUNCTION: text("CS", "LINEAR_EXACT")})))), OWN_VOI, OLD,
    per_frame=True)
add(30, "LINEAR_EXACT taken away, width under 1",
    in_group(tags.FRAME_VOI_LUT_SEQUENCE, all_of(put(tags.WINDOW_WIDTH, text("DS", "0.5", "2")), drop(tags.VOI_LUT_FUNCTION))), OWN_VOI, EXACT,
    per_frame=True)

# ---------------------------------------------------------------------------------------------------------------------
# Rules 31 to 38

add(31, "no item", put(tags.MASK_SUBTRACTION_SEQUENCE, sq()), NO_FRAME_SHIFT)
add(31, "VR UN", put(tags.MASK_SUBTRACTION_SEQUENCE, ("UN", bytes(8))), NO_FRAME_SHIFT)
add(31, "VR LO, empty", put(tags.MASK_SUBTRACTION_SEQUENCE, ("LO", b"")), NO_FRAME_SHIFT)
add(31, "17 items", put(tags.MASK_SUBTRACTION_SEQUENCE, sq(*({tags.MASK_OPERATION: text("CS", "NONE")} for _ in range(17)))), NO_FRAME_SHIFT)
add(0, "16 items", put(tags.MASK_SUBTRACTION_SEQUENCE, sq(*({tags.MASK_OPERATION: text("CS", "NONE")} for _ in range(16)))), NO_FRAME_SHIFT)
for number in (0, 2, 3):
    for name, edit in (("absent", drop(tags.MASK_OPERATION)), ("empty", put(tags.MASK_OPERATION, ("CS", b""))),
                       ("VR LO", put(tags.MASK_OPERATION, text("LO", "NONE"))), ("twice", put(tags.MASK_OPERATION, text("CS", "TID\\TID"))),
                       ("REV_TID", put(tags.MASK_OPERATION, text("CS", "REV_TID"))), ("small letters", put(tags.MASK_OPERATION, text("CS", "tid")))):
        add(31, f"operation of item {number + 1} {name}", in_mask(number, edit), SUB)

for number in range(4):
    bad_ranges = {
        "empty": us(), "one number": us(1), "three numbers": us(1, 2, 3), "first 0": us(0, 2), "last 0": us(1, 0),
        "first over last": us(3, 2), "last over N": us(1, 6), "second pair bad": us(1, 5, 2, 6), "VR SS": ss(1, 2),
        "VR UN": ("UN", us(1, 2)[1]), "65535": us(1, 65535),
    }
    for name, value in bad_ranges.items():
        add(32, f"range of item {number + 1} {name}", in_mask(number, put(tags.APPLICABLE_FRAME_RANGE, value)), SUB, FRAMES)
    for name, value in {"all": us(1, 5), "one frame": us(5, 5), "overlapping": us(2, 4, 1, 5, 3, 3)}.items():
        add(0, f"range of item {number + 1} {name}", in_mask(number, put(tags.APPLICABLE_FRAME_RANGE, value)), SUB, FRAMES)

for number in (1, 3):
    bad_numbers = {
        "absent": None, "empty": us(), "0": us(0), "over N": us(6), "second over N": us(1, 6), "last of 64 over N": us(*[1] * 63, 6),
        "65 numbers": us(*[1] * 65), "VR SS": ss(1), "VR OW": ("OW", us(1)[1]),
    }
    for name, value in bad_numbers.items():
        edit = drop(tags.MASK_FRAME_NUMBERS) if value is None else put(tags.MASK_FRAME_NUMBERS, value)
        add(33, f"mask frames of item {number + 1} {name}", in_mask(number, edit), SUB, FRAMES)
    for name, value in {"0": us(0), "2": us(2), "257": us(257), "empty": us(), "two": us(1, 1), "VR SS": ss(1)}.items():
        add(33, f"averaging of item {number + 1} {name}", in_mask(number, put(tags.CONTRAST_FRAME_AVERAGING, value)), SUB)
    for name, value in {"64 numbers": us(*[5] * 64), "repeated": us(1, 1, 2), "N": us(5)}.items():
        add(0, f"mask frames of item {number + 1} {name}", in_mask(number, put(tags.MASK_FRAME_NUMBERS, value)), SUB, FRAMES)
for number in (0, 2):
    for name, value in {"0": us(0), "2": us(2), "VR UN": ("UN", b"")}.items():
        add(0, f"averaging of item {number + 1} {name}", in_mask(number, put(tags.CONTRAST_FRAME_AVERAGING, value)), SUB)
    add(0, f"mask frames of item {number + 1}", in_mask(number, put(tags.MASK_FRAME_NUMBERS, us(0, 65535))), SUB)

for name, value in {"empty": ss(), "two": ss(1, 1), "VR US": us(1), "VR UN, empty": ("UN", b""), "VR SL": ("SL", bytes(4))}.items():
    add(34, f"offset {name}", in_mask(2, put(tags.TID_OFFSET, value)), SUB)
    for number in (0, 1):
        add(0, f"offset {name} in item {number + 1}", in_mask(number, put(tags.TID_OFFSET, value)), SUB)
for value in (0, 1, -1, 32767, -32768):
    add(0, f"offset {value}", in_mask(2, put(tags.TID_OFFSET, ss(value))), SUB)
add(0, "offset absent", in_mask(2, drop(tags.TID_OFFSET)), SUB)


def raw_float(bits):
    return struct.pack("<I", bits)


NOT_A_NUMBER = ("FL", raw_float(0x7FC00000) + bytes(4))
BAD_SHIFTS = {
    "empty": fl(), "one": fl(1.0), "three": fl(1.0, 2.0, 3.0), "6 bytes": ("FL", bytes(6)), "0.125": fl(0.125, 0.0), "-0.125": fl(0.0, -0.125),
    "0.3": fl(0.3, 0.0), "-0.3": fl(0.0, -0.3), "63.875": fl(63.875, 0.0), "3.0625": fl(3.0625, 0.0), "64.25": fl(64.25, 0.0), "-64.25": fl(0.0, -64.25),
    "just above 0.25": ("FL", raw_float(0x3E800001) + bytes(4)), "just below 0.75": ("FL", bytes(4) + raw_float(0x3F3FFFFF)),
    "65": fl(65.0, 0.0), "-65": fl(0.0, -65.0), "NaN": NOT_A_NUMBER, "infinity": ("FL", raw_float(0x7F800000) + bytes(4)),
    "-infinity": ("FL", bytes(4) + raw_float(0xFF800000)), "just above 64": ("FL", raw_float(0x42800001) + bytes(4)),
    "just below 64": ("FL", raw_float(0x427FFFFF) + bytes(4)), "smallest": ("FL", bytes(4) + raw_float(1)), "VR FD": fd(1.0),
    "VR UN": ("UN", bytes(8)), "huge": fl(1e30, 0.0), "signalling NaN": ("FL", bytes(4) + raw_float(0xFF800001)),
    "just above 1": ("FL", raw_float(0x3F800001) + bytes(4)), "2^24": fl(16777216.0, 0.0),
}
GOOD_SHIFTS = {
    "minus zeros": ("FL", raw_float(0x80000000) * 2), "64": fl(64.0, -64.0), "-64": fl(-64.0, 64.0), "1": fl(1.0, -1.0), "63": fl(63.0, -63.0),
    "0.5": fl(0.5, 0.0), "-0.25": fl(0.0, -0.25), "0.75": fl(0.75, 0.25), "63.75": fl(-63.75, 63.75), "31.25": fl(31.25, -31.5),
}
for number in range(4):
    for name, value in BAD_SHIFTS.items():
        add(35, f"shift of item {number + 1} {name}", in_mask(number, put(tags.MASK_SUB_PIXEL_SHIFT, value)), SUB)
    for name, value in GOOD_SHIFTS.items():
        add(0, f"shift of item {number + 1} {name}", in_mask(number, put(tags.MASK_SUB_PIXEL_SHIFT, value)), SUB)

BAD_IDS = {"absent": None, "empty": us(), "two": us(1, 2), "VR SS": ss(1), "VR UN": ("UN", us(1)[1])}
for where in (OWN_SHIFTS, SHARED_SHIFT):
    for number in (0, 1):
        for name, value in BAD_IDS.items():
            edit = drop(tags.SUBTRACTION_ITEM_ID) if value is None else put(tags.SUBTRACTION_ITEM_ID, value)
            add(36, f"ID of item {number + 1} {name}", in_mask(number, edit), where, FRAMES)
    add(36, "the same ID twice", all_of(in_mask(0, put(tags.SUBTRACTION_ITEM_ID, us(7))), in_mask(1, put(tags.SUBTRACTION_ITEM_ID, us(7)))), where)
    add(0, "IDs 0 and 65535", all_of(in_mask(0, put(tags.SUBTRACTION_ITEM_ID, us(0))), in_mask(1, put(tags.SUBTRACTION_ITEM_ID, us(65535)))), where)
GOOD_FRAME_SHIFT = {tags.SUBTRACTION_ITEM_ID: us(500), tags.MASK_SUB_PIXEL_SHIFT: fl(1.0, 2.0)}
WITHOUT_ID = in_mask(0, drop(tags.SUBTRACTION_ITEM_ID))
for frame in (1, 3, 5):
    def one_frame_has(model, _, frame=frame):
        frame_item(model, frame)[tags.FRAME_PIXEL_SHIFT_SEQUENCE] = sq(GOOD_FRAME_SHIFT)
    add(36, f"only frame {frame} has a pixel shift", all_of(WITHOUT_ID, one_frame_has), SUB, NO_FRAME_SHIFT, FRAMES)
add(36, "a pixel shift that is broken itself", all_of(WITHOUT_ID, in_frame(put(tags.FRAME_PIXEL_SHIFT_SEQUENCE, sq({})))), OWN_SHIFTS, FRAMES)
add(0, "no frame has a pixel shift", all_of(WITHOUT_ID, in_mask(1, put(tags.SUBTRACTION_ITEM_ID, ("UN", b"")))), SUB, NO_FRAME_SHIFT)
add(0, "pixel shifts without mask items", drop(tags.MASK_SUBTRACTION_SEQUENCE), {"frame_shift": "frames"})
for name, value in (("empty", sq()), ("VR UN", ("UN", bytes(8)))):
    add(37, f"pixel shift {name} in one frame, mask items without ID",
        all_of(WITHOUT_ID, in_frame(put(tags.FRAME_PIXEL_SHIFT_SEQUENCE, value))), SUB, NO_FRAME_SHIFT, per_frame=True)


def shift_items(*items):
    return in_frame(put(tags.FRAME_PIXEL_SHIFT_SEQUENCE, sq(*items)))


add(37, "no item", shift_items(), OWN_SHIFTS, per_frame=True)
add(37, "VR UN", in_frame(put(tags.FRAME_PIXEL_SHIFT_SEQUENCE, ("UN", b""))), OWN_SHIFTS, per_frame=True)
add(37, "VR UN hides the shared one", in_frame(put(tags.FRAME_PIXEL_SHIFT_SEQUENCE, ("UN", b""))), SHARED_SHIFT, per_frame=True)
add(37, "the same ID twice", shift_items(GOOD_FRAME_SHIFT, {**GOOD_FRAME_SHIFT, tags.SUBTRACTION_ITEM_ID: us(3)}, GOOD_FRAME_SHIFT), OWN_SHIFTS,
    per_frame=True)
add(0, "many IDs", shift_items(*({**GOOD_FRAME_SHIFT, tags.SUBTRACTION_ITEM_ID: us(number)} for number in (0, 65535, 256, 1, 65280))), OWN_SHIFTS,
    per_frame=True)
for position in (0, 1):
    for name, value in BAD_IDS.items():
        bad = {**GOOD_FRAME_SHIFT}
        drop(tags.SUBTRACTION_ITEM_ID)(bad, 0) if value is None else put(tags.SUBTRACTION_ITEM_ID, value)(bad, 0)
        items = [GOOD_FRAME_SHIFT, GOOD_FRAME_SHIFT | {tags.SUBTRACTION_ITEM_ID: us(501)}]
        items[position] = bad
        add(37, f"ID of item {position + 1} {name}", shift_items(*items), OWN_SHIFTS, per_frame=True)
    for name, value in {**BAD_SHIFTS, "absent": None}.items():
        bad = {tags.SUBTRACTION_ITEM_ID: us(600)} if value is None else {tags.SUBTRACTION_ITEM_ID: us(600), tags.MASK_SUB_PIXEL_SHIFT: value}
        items = [GOOD_FRAME_SHIFT, GOOD_FRAME_SHIFT | {tags.SUBTRACTION_ITEM_ID: us(501)}]
        items[position] = bad
        add(37, f"shift of item {position + 1} {name}", shift_items(*items), OWN_SHIFTS, per_frame=True)
    for name, value in GOOD_SHIFTS.items():
        items = [GOOD_FRAME_SHIFT, GOOD_FRAME_SHIFT | {tags.SUBTRACTION_ITEM_ID: us(501)}]
        items[position] = {tags.SUBTRACTION_ITEM_ID: us(600), tags.MASK_SUB_PIXEL_SHIFT: value}
        add(0, f"frame shift of item {position + 1} {name}", shift_items(*items), OWN_SHIFTS, per_frame=True)


def shared_shift_broken(model, frame):
    shared_item(model)[tags.FRAME_PIXEL_SHIFT_SEQUENCE] = ("UN", b"")
    for number in (1, 2):
        frame_item(model, number)[tags.FRAME_PIXEL_SHIFT_SEQUENCE] = sq(GOOD_FRAME_SHIFT)


add(37, "broken shared one, seen by frame 3 first", shared_shift_broken, NO_MASKS, NO_FRAME_SHIFT, FRAMES, frame=3)


def shared_shift_seen_by(*frames):
    """A good shared pixel shift that only these of the 5 frames see: the others have something else of that tag."""

    def edit(model, frame):
        shared_item(model)[tags.FRAME_PIXEL_SHIFT_SEQUENCE] = sq(GOOD_FRAME_SHIFT)
        for number in range(1, 6):
            if number not in frames:
                frame_item(model, number)[tags.FRAME_PIXEL_SHIFT_SEQUENCE] = ("UN", b"")
    return edit


add(37, "shared one seen by no frame, mask items without ID", all_of(WITHOUT_ID, shared_shift_seen_by()), SUB, NO_FRAME_SHIFT, FRAMES,
    frame=1)
add(36, "shared one seen by frame 5 alone, mask items without ID", all_of(WITHOUT_ID, shared_shift_seen_by(5)), SUB, NO_FRAME_SHIFT,
    FRAMES)

# Elements that are deeper, or at the wrong level, are not found.


def moved_down(tag, into):
    """An element moved from its data set into an item of a sequence there."""

    def edit(model, frame):
        model[into] = sq({tag: model.pop(tag)})
    return edit


add(2, "only in a sequence", moved_down(tags.MODALITY, 0x00081140))
add(11, "only in a sequence", moved_down(tags.ROWS, 0x00081140))
add(15, "only in a sequence", moved_down(tags.NUMBER_OF_FRAMES, 0x00080001))
add(38, "only in a sequence", moved_down(tags.PIXEL_DATA, 0x7FE00001))
add(28, "only in a sequence", in_frame(moved_down(tags.FRAME_CONTENT_SEQUENCE, 0x00189504)), per_frame=True)
add(30, "centre only in a sequence", in_group(tags.FRAME_VOI_LUT_SEQUENCE, moved_down(tags.WINDOW_CENTER, 0x00080001)), OWN_VOI, per_frame=True)
add(31, "operation only in a sequence", in_mask(1, moved_down(tags.MASK_OPERATION, 0x00080001)), SUB)
add(37, "ID only in a sequence", in_group(tags.FRAME_PIXEL_SHIFT_SEQUENCE, moved_down(tags.SUBTRACTION_ITEM_ID, 0x00080001)), OWN_SHIFTS,
    per_frame=True)
add(0, "characteristics only in a sequence", in_frame(moved_down(tags.XA_XRF_FRAME_CHARACTERISTICS_SEQUENCE, 0x00189504)),
    {"characteristics": "frames"},
    per_frame=True)
add(0, "masks only in a sequence", moved_down(tags.MASK_SUBTRACTION_SEQUENCE, 0x00081140), SUB, NO_FRAME_SHIFT)
add(0, "broken VOI at the root", put(tags.FRAME_VOI_LUT_SEQUENCE, ("UN", b"")))
add(0, "frame content at the root", put(tags.FRAME_CONTENT_SEQUENCE, sq({}, {})))
add(0, "mask items in the shared item", in_shared(put(tags.MASK_SUBTRACTION_SEQUENCE, sq({}))))


def pixel_length(change):
    def edit(model, frame):
        vr, value = model[tags.PIXEL_DATA]
        model[tags.PIXEL_DATA] = (vr, value[:change] if change < 0 else value + bytes(change))
    return edit


def pixel_vr(vr):
    def edit(model, frame):
        model[tags.PIXEL_DATA] = (vr, model[tags.PIXEL_DATA][1])
    return edit


ODD = {**EIGHT, "frames": 3, "rows": 5, "columns": 7}
for bits in (EIGHT, TWELVE, ODD):
    add(38, "absent", drop(tags.PIXEL_DATA), bits)
    add(38, "empty", put(tags.PIXEL_DATA, ("OW", b"")), bits)
    add(38, "two bytes short", pixel_length(-2), bits)
    add(38, "two bytes more", pixel_length(2), bits)
    for vr in ("UN", "OF", "SQ"):
        add(38, f"VR {vr}", put(tags.PIXEL_DATA, sq()) if vr == "SQ" else pixel_vr(vr), bits)
    add(0, "VR OW", pixel_vr("OW"), bits)
add(38, "OB at 16 bits", pixel_vr("OB"), TWELVE)
add(0, "OB at 8 bits", pixel_vr("OB"), EIGHT)
add(38, "rows doubled", lambda model, frame: put(tags.ROWS, us(8))(model, frame), {"rows": 4})
add(38, "one frame of pixels too few", pixel_length(-40), TWELVE, {"rows": 4, "columns": 5})
add(38, "a product beyond 32 bits", all_of(put(tags.ROWS, us(65535)), put(tags.COLUMNS, us(65535))), {"rows": 1, "columns": 1})
# Products that 32 bits do not hold: 2^32, and 2^32 + 196,604.
add(38, "a product that is 0 in 32 bits",
    all_of(put(tags.ROWS, us(32768)), put(tags.COLUMNS, us(32768)), put(tags.PIXEL_DATA, ("OW", b""))), EIGHT, {"frames": 4})
add(38, "a product that is 196604 in 32 bits",
    all_of(put(tags.ROWS, us(65535)), put(tags.COLUMNS, us(13108)), put(tags.PIXEL_DATA, ("OW", bytes(196604)))), EIGHT, {"frames": 5})

# ---------------------------------------------------------------------------------------------------------------------
# Rule 39

GOOD_LUT = {tags.LUT_FUNCTION: text("CS", "TO_LINEAR"), tags.LUT_DESCRIPTOR: us(3, 10, 16), tags.LUT_DATA: ("OW", b"abcdef")}
OTHER_LUT = {tags.LUT_FUNCTION: text("CS", "TO_LOG"), tags.LUT_DESCRIPTOR: us(3, 10), tags.LUT_DATA: ("OB", b"")}
LOG = sq({tags.PIXEL_INTENSITY_RELATIONSHIP: text("CS", "LOG")})


def changed_lut(descriptor=(3, 10, 16), **values):
    """A TO_LINEAR item with other elements: `LUT_DATA=None` leaves it out."""
    item = {**GOOD_LUT, tags.LUT_DESCRIPTOR: us(*descriptor)}
    for name, value in values.items():
        drop(getattr(tags, name))(item, 0) if value is None else put(getattr(tags, name), value)(item, 0)
    return item


BAD_LUTS = {
    "descriptor absent": changed_lut(LUT_DESCRIPTOR=None), "descriptor empty": changed_lut(LUT_DESCRIPTOR=("US", b"")),
    "descriptor of 1 number": changed_lut((3,)), "descriptor of 2 numbers": changed_lut((3, 10)),
    "descriptor of 4 numbers": changed_lut((3, 10, 16, 16)), "descriptor of 6 numbers": changed_lut((3, 10, 16, 3, 10, 16)),
    "descriptor SS": changed_lut(LUT_DESCRIPTOR=ss(3, 10, 16)), "descriptor UN": changed_lut(LUT_DESCRIPTOR=("UN", us(3, 10, 16)[1])),
    "8 bits": changed_lut((3, 10, 8)), "15 bits": changed_lut((3, 10, 15)), "17 bits": changed_lut((3, 10, 17)),
    "0 bits": changed_lut((3, 10, 0)), "bits first": changed_lut((16, 10, 3)), "272 bits": changed_lut((3, 10, 272)),
    "data absent": changed_lut(LUT_DATA=None), "data empty": changed_lut(LUT_DATA=("OW", b"")),
    "data OB": changed_lut(LUT_DATA=("OB", b"abcdef")), "data US": changed_lut(LUT_DATA=("US", b"abcdef")),
    "data UN": changed_lut(LUT_DATA=("UN", b"abcdef")), "data SQ": changed_lut(LUT_DATA=sq()),
    "data an entry short": changed_lut(LUT_DATA=("OW", b"abcd")), "data an entry long": changed_lut(LUT_DATA=("OW", b"abcdefgh")),
    "a byte an entry": changed_lut((6, 10, 16)), "65,536 entries and no data": changed_lut((0, 10, 16), LUT_DATA=("OW", b"")),
    "65,536 entries, data an entry short": changed_lut((0, 0, 16), LUT_DATA=("OW", bytes(131_070))),
    "65,536 entries, data an entry long": changed_lut((0, 0, 16), LUT_DATA=("OW", bytes(131_074))),
    "65,535 entries, data for 65,536": changed_lut((65_535, 0, 16), LUT_DATA=("OW", bytes(131_072))),
}
GOOD_LUTS = {
    "three entries": GOOD_LUT, "one entry": changed_lut((1, 65_535, 16), LUT_DATA=("OW", b"ab")),
    "65,536 entries": changed_lut((0, 65_535, 16), LUT_DATA=("OW", bytes(131_072))),
    "65,535 entries": changed_lut((65_535, 1, 16), LUT_DATA=("OW", bytes(131_070))),
}
NOT_LINEAR = {
    "without a function": changed_lut((1,), LUT_FUNCTION=None), "with an empty function": changed_lut((1,), LUT_FUNCTION=("CS", b"")),
    "with a function of VR LO": changed_lut((1,), LUT_FUNCTION=text("LO", "TO_LINEAR")),
    "with two functions": changed_lut((1,), LUT_FUNCTION=text("CS", "TO_LINEAR", "TO_LINEAR")),
    "with another function": OTHER_LUT, "with a function in small letters": changed_lut((1,), LUT_FUNCTION=text("CS", "to_linear")),
    "with a longer function": changed_lut((1,), LUT_FUNCTION=text("CS", "TO_LINEARX")),
}


def own_luts(*items):
    return in_frame(put(tags.PIXEL_INTENSITY_RELATIONSHIP_LUT_SEQUENCE, sq(*items)))


def shared_luts(*items):
    return in_shared(put(tags.PIXEL_INTENSITY_RELATIONSHIP_LUT_SEQUENCE, sq(*items)))


for name, item in BAD_LUTS.items():
    add(39, name, own_luts(item), NO_INTENSITY, per_frame=True)
    add(39, f"{name}, among others", own_luts(OTHER_LUT, item, {}), NO_INTENSITY, per_frame=True)
    add(39, f"{name}, shared", shared_luts(item), NO_INTENSITY, FRAMES, frame=1)
for name, item in GOOD_LUTS.items():
    add(0, name, own_luts(item), NO_INTENSITY, per_frame=True, about=39)
    add(0, f"{name}, among others", own_luts({}, OTHER_LUT, item), NO_INTENSITY, per_frame=True, about=39)
    add(0, f"{name}, shared", shared_luts(item), NO_INTENSITY, about=39)
    add(0, f"{name}, shared, and LOG", all_of(shared_luts(item), in_frame(put(tags.FRAME_PIXEL_DATA_PROPERTIES_SEQUENCE, LOG))), NO_INTENSITY,
        per_frame=True, about=39)
for name, item in NOT_LINEAR.items():
    add(0, f"an item {name}", own_luts(item, item), NO_INTENSITY, per_frame=True, about=39)
    add(39, f"LOG and an item {name}", all_of(own_luts(item), in_frame(put(tags.FRAME_PIXEL_DATA_PROPERTIES_SEQUENCE, LOG))), NO_INTENSITY,
        per_frame=True)
    add(0, f"LOG, an item {name} and a table", all_of(own_luts(item, GOOD_LUT, item), in_frame(put(tags.FRAME_PIXEL_DATA_PROPERTIES_SEQUENCE, LOG))),
        NO_INTENSITY,
        per_frame=True, about=39)
for name, value in (("no items", sq()), ("VR UN", ("UN", b"")), ("VR LO", text("LO", "x"))):
    add(39, f"LUT sequence: {name}", in_frame(put(tags.PIXEL_INTENSITY_RELATIONSHIP_LUT_SEQUENCE, value)), NO_INTENSITY, per_frame=True)
    add(39, f"properties: {name}", in_frame(put(tags.FRAME_PIXEL_DATA_PROPERTIES_SEQUENCE, value)), NO_INTENSITY, per_frame=True)
    add(39, f"shared LUT sequence: {name}", in_shared(put(tags.PIXEL_INTENSITY_RELATIONSHIP_LUT_SEQUENCE, value)), NO_INTENSITY, FRAMES, frame=1)
    add(39, f"shared properties: {name}", in_shared(put(tags.FRAME_PIXEL_DATA_PROPERTIES_SEQUENCE, value)), NO_INTENSITY, FRAMES, frame=1)
for name, value in (("VR UN", ("UN", b"")), ("VR LO", text("LO", "x"))):
    add(39, f"shared table hidden by {name}", all_of(shared_luts(GOOD_LUT), in_frame(put(tags.PIXEL_INTENSITY_RELATIONSHIP_LUT_SEQUENCE, value))),
        NO_INTENSITY, per_frame=True)
    add(39, f"shared LOG hidden by {name}",
        all_of(shared_luts(GOOD_LUT), in_shared(put(tags.FRAME_PIXEL_DATA_PROPERTIES_SEQUENCE, LOG)),
               in_frame(put(tags.FRAME_PIXEL_DATA_PROPERTIES_SEQUENCE, value))), NO_INTENSITY, per_frame=True)
add(39, "properties of two items", in_frame(put(tags.FRAME_PIXEL_DATA_PROPERTIES_SEQUENCE, sq({}, {}))), NO_INTENSITY, per_frame=True)
add(39, "two tables", own_luts(GOOD_LUT, GOOD_LUT), NO_INTENSITY, per_frame=True)
add(39, "two tables, one at each end", own_luts(GOOD_LUT, OTHER_LUT, {}, GOOD_LUT), NO_INTENSITY, per_frame=True)
add(39, "two tables, shared", shared_luts(GOOD_LUT, GOOD_LUT), NO_INTENSITY, FRAMES, frame=1)
add(39, "a good and a bad table", own_luts(GOOD_LUT, changed_lut((1,))), NO_INTENSITY, per_frame=True)
add(39, "LOG without a table", in_frame(put(tags.FRAME_PIXEL_DATA_PROPERTIES_SEQUENCE, LOG)), NO_INTENSITY, per_frame=True)
add(39, "LOG with spaces, without a table", in_frame(put(tags.FRAME_PIXEL_DATA_PROPERTIES_SEQUENCE,
                                                         sq({tags.PIXEL_INTENSITY_RELATIONSHIP: text("CS", "  LOG ")}))), NO_INTENSITY,
    per_frame=True)
add(39, "shared LOG without a table", in_shared(put(tags.FRAME_PIXEL_DATA_PROPERTIES_SEQUENCE, LOG)), NO_INTENSITY, FRAMES, frame=1)
add(0, "LOG with a table", all_of(own_luts(GOOD_LUT), in_frame(put(tags.FRAME_PIXEL_DATA_PROPERTIES_SEQUENCE, LOG))), NO_INTENSITY, per_frame=True,
    about=39)
for name, value in (("LOG twice", text("CS", "LOG", "LOG")), ("LOG of VR LO", text("LO", "LOG")), ("log", text("CS", "log")),
                    ("LOGE", text("CS", "LOGE")), ("LIN", text("CS", "LIN")), ("an empty one", ("CS", b""))):
    add(0, f"relationship: {name}", in_frame(put(tags.FRAME_PIXEL_DATA_PROPERTIES_SEQUENCE, sq({tags.PIXEL_INTENSITY_RELATIONSHIP: value}))),
        NO_INTENSITY, per_frame=True, about=39)
add(0, "properties of an empty item", in_frame(put(tags.FRAME_PIXEL_DATA_PROPERTIES_SEQUENCE, sq({}))), NO_INTENSITY, per_frame=True, about=39)


def shared_log_and_tables_but(model, frame):
    """LOG for all, and a table in every frame but one."""
    shared_item(model)[tags.FRAME_PIXEL_DATA_PROPERTIES_SEQUENCE] = LOG
    for number in range(1, 6):
        if number != frame:
            frame_item(model, number)[tags.PIXEL_INTENSITY_RELATIONSHIP_LUT_SEQUENCE] = sq(GOOD_LUT)


def tables_hidden_from(model, frame):
    """A broken shared table that only this frame sees."""
    shared_item(model)[tags.PIXEL_INTENSITY_RELATIONSHIP_LUT_SEQUENCE] = ("UN", b"")
    for number in range(1, 6):
        if number != frame:
            frame_item(model, number)[tags.PIXEL_INTENSITY_RELATIONSHIP_LUT_SEQUENCE] = sq(GOOD_LUT)


for one in (1, 3, 5):
    add(39, f"shared LOG, no table in frame {one} alone", lambda model, _, one=one: shared_log_and_tables_but(model, one), NO_INTENSITY, FRAMES,
        frame=one)
    add(39, f"a broken shared LUT sequence, seen by frame {one} alone", lambda model, _, one=one: tables_hidden_from(model, one), NO_INTENSITY,
        FRAMES, frame=one)
add(0, "shared LOG, tables in all frames", lambda model, frame: shared_log_and_tables_but(model, 0), NO_INTENSITY, FRAMES, about=39)
add(39, "LOG, and the function only in a sequence",
    all_of(in_frame(put(tags.FRAME_PIXEL_DATA_PROPERTIES_SEQUENCE, LOG)), own_luts({0x00281100: sq(GOOD_LUT)})), NO_INTENSITY, per_frame=True)
add(0, "LUTs at the root", put(tags.PIXEL_INTENSITY_RELATIONSHIP_LUT_SEQUENCE, ("UN", b"")), about=39)
add(0, "properties at the root", put(tags.FRAME_PIXEL_DATA_PROPERTIES_SEQUENCE, sq({}, {})), about=39)
add(27, "LUTs in both places", all_of(shared_luts(GOOD_LUT), own_luts(GOOD_LUT)), NO_INTENSITY, per_frame=True)
add(38, "LUTs broken too", all_of(drop(tags.PIXEL_DATA), shared_luts(), in_shared(put(tags.FRAME_PIXEL_DATA_PROPERTIES_SEQUENCE, sq()))),
    NO_INTENSITY)
