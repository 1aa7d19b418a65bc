"""A generator of Enhanced XA and XRF objects that break no rule, in many shapes, as models (see objects.py)."""

import dataclasses
import struct

from reference import attributes as tags

from .objects import encode


# ---------------------------------------------------------------------------------------------------------------------
# Values


def text(vr, *values):
    """An element of text values, padded to even length: UI by a zero byte, others by a space."""
    raw = "\\".join(values).encode("latin-1")
    return (vr, raw + (b"\0" if vr == "UI" else b" ") * (len(raw) % 2))


def us(*values):
    return ("US", struct.pack(f"<{len(values)}H", *values))


def ss(*values):
    return ("SS", struct.pack(f"<{len(values)}h", *values))


def fl(*values):
    return ("FL", struct.pack(f"<{len(values)}f", *values))


def fd(*values):
    return ("FD", struct.pack(f"<{len(values)}d", *values))


def sq(*items):
    return ("SQ", list(items))


# ---------------------------------------------------------------------------------------------------------------------
# Shapes


@dataclasses.dataclass
class Shape:
    """What an object is like. Where a functional group is: "shared", "frames", "some" (of the frames), "absent"."""

    sop_class: str = "XA"
    image_type: str = "ORIGINAL"
    planes: str = "SINGLE PLANE"
    bits_allocated: int = 16
    bits_stored: int = 12
    frames: int = 3
    rows: int = 4
    columns: int = 5
    photometric: str = "MONOCHROME2"
    lossy: str = "00"
    voi: str = "shared"
    windows: int = 1
    function: str = ""  # VOI LUT Function; "": absent
    characteristics: str = "absent"
    masks: tuple = ()  # operations, one for each mask item; none: the sequence is absent
    ranges: bool = True  # whether mask items may have ranges
    shifts: bool = True  # whether mask items may have shifts
    frame_shift: str = "absent"
    properties: str = "absent"  # Frame Pixel Data Properties
    luts: str = "absent"  # Pixel Intensity Relationship LUT Sequence
    pixel_vr: str = "OW"
    extras: bool = True  # elements that no rule speaks of


PLACES = ("shared", "frames", "some", "absent")
OPERATIONS = ("NONE", "AVG_SUB", "TID")
FUNCTIONS = ("LINEAR", "LINEAR_EXACT")


def random_shape(rng, **fixed):
    """A shape at random, with the given features fixed."""
    allocated = fixed.get("bits_allocated", rng.choice((8, 16, 16)))
    image_type = fixed.get("image_type", rng.choice(("ORIGINAL", "DERIVED", "MIXED")))
    possible_planes = ["SINGLE PLANE", "BIPLANE"] + (["UNDEFINED"] if image_type == "DERIVED" else [])
    shape = Shape(
        sop_class=rng.choice(("XA", "XRF")),
        image_type=image_type,
        planes=rng.choice(possible_planes),
        bits_allocated=allocated,
        bits_stored=8 if allocated == 8 else rng.randrange(9, 17),
        frames=rng.choice((1, 2, 3, 4, 5, 7, 12)),
        rows=rng.choice((1, 2, 3, 4, 5, 7)),
        columns=rng.choice((1, 2, 3, 4, 5, 7)),
        photometric=rng.choice(("MONOCHROME1", "MONOCHROME2")),
        lossy=rng.choice(("00", "01")),
        voi=rng.choice(PLACES),
        windows=rng.choice((1, 1, 2, 5)),
        function=rng.choice(("", *FUNCTIONS)),
        characteristics=rng.choice(PLACES),
        masks=tuple(rng.choice(OPERATIONS) for _ in range(rng.choice((0, 1, 1, 2, 3, 16)))),
        ranges=rng.random() < 0.7,
        shifts=rng.random() < 0.7,
        frame_shift=rng.choice(PLACES),
        properties=rng.choice(PLACES),
        luts=rng.choice(PLACES),
        pixel_vr=rng.choice(("OW", "OB")) if allocated == 8 else "OW",
        extras=rng.random() < 0.5,
    )
    return dataclasses.replace(shape, **fixed)


# ---------------------------------------------------------------------------------------------------------------------
# Models


def padded(rng, vr, *values):
    """A text element whose values have outer spaces (UI: trailing zero bytes) at random."""
    parts = []
    for value in values:
        if vr == "UI":
            parts.append(value + "\0" * rng.choice((0, 0, 1, 2)))
        else:
            parts.append(" " * rng.choice((0, 0, 0, 1, 2)) + value + " " * rng.choice((0, 0, 0, 1, 3)))
    return text(vr, *parts)


MILLION = 1_000_000


def plain(count):
    """A count of millionths as a DS with as few digits as it takes, without an exponent."""
    whole, part = divmod(abs(count), MILLION)
    decimals = f".{part:06d}".rstrip("0").rstrip(".")
    return f"{'-' if count < 0 else ''}{whole}{decimals}"


def written(rng, count):
    """A count of millionths, below 10^12 in size, as a DS of at most 16 characters: one of the many ways to write it."""
    digits = str(abs(count))
    cut = len(digits.rstrip("0")) if count else rng.randrange(1, len(digits) + 1)
    digits, power = digits[:cut], len(digits) - cut - 6  # the number is digits * 10^power
    point = rng.randrange(len(digits) + 1)
    exponent = power + len(digits) - point
    sign = "-" if count < 0 else rng.choice(("", "", "+"))
    front = digits[:point] + rng.choice((".", "") if point == len(digits) else (".",)) + digits[point:]
    power_words = rng.choice((f"{exponent}", f"{exponent:+d}", f"{exponent:03d}"))
    forms = [sign + plain(abs(count)), f"{sign}{abs(count) // MILLION:06d}.{abs(count) % MILLION:06d}", f"{sign}{digits}E{power}",
             f"{sign}{front}{rng.choice('Ee')}{power_words}", f"{sign}{front}e{exponent}"]
    return rng.choice([form for form in forms if len(form) <= 16])


def random_small_width(rng, stored):
    """A width above 0, under 1 half of the time."""
    count = rng.choice((1, 2, 255, MILLION // 2, MILLION - 1, rng.randrange(1, MILLION), rng.randrange(1, 1000)))
    return rng.choice((written(rng, count), random_width(rng, stored)))


def random_width(rng, stored):
    count = rng.choice((MILLION, MILLION + 1, 2 * MILLION, rng.randrange(MILLION, 20 * MILLION), rng.randrange(MILLION, MILLION ** 2),
                        rng.randrange(1, 2 ** stored + 1) * MILLION, rng.randrange(1000, 300_000) * 1000))
    return rng.choice(("1", "1.000", "1.001", "10", "000001", "+7.5", "999999.999", "1E0", "2.048E3", "1.000001", "999999.999999",
                       str(2 ** stored), *[written(rng, count)] * 8))


def random_center(rng, stored):
    count = rng.choice((0, 1, -1, rng.randrange(2 ** stored) * MILLION, rng.randrange(-MILLION, 2 ** stored * MILLION),
                        rng.randrange(-500_000, 500_000) * 1000, rng.randrange(1 - MILLION ** 2, MILLION ** 2)))
    return rng.choice(("0", "-0", ".5", "5.", "-.5", "+1", "-100.25", "000040", "000000.000", "-999999.999", "0E99999999999999",
                       "1.024E3", "-999999.999999", str(2 ** (stored - 1)), *[written(rng, count)] * 8))


def voi_item(rng, shape):
    count = shape.windows
    width = random_small_width if shape.function == "LINEAR_EXACT" else random_width
    item = {tags.WINDOW_CENTER: padded(rng, "DS", *(random_center(rng, shape.bits_stored) for _ in range(count))),
            tags.WINDOW_WIDTH: padded(rng, "DS", *(width(rng, shape.bits_stored) for _ in range(count)))}
    if shape.function:
        item[tags.VOI_LUT_FUNCTION] = padded(rng, "CS", shape.function)
    return item


def random_shift(rng):
    """Two whole multiples of 1/4 from -64 to 64."""
    whole = float(rng.randrange(-64, 65))
    quarters = rng.randrange(-256, 257) / 4
    return fl(*(rng.choice((0.0, -0.0, 1.0, -1.0, 2.0, -3.0, 64.0, -64.0, 0.25, -1.5, -63.75, whole, quarters, quarters)) for _ in range(2)))


def mask_item(rng, shape, operation, item_id):
    model = {tags.MASK_OPERATION: padded(rng, "CS", operation)}
    if shape.ranges and rng.random() < 0.6:
        numbers = []
        for _ in range(rng.choice((1, 1, 2, 3))):
            numbers += sorted(rng.randrange(1, shape.frames + 1) for _ in range(2))
        model[tags.APPLICABLE_FRAME_RANGE] = us(*numbers)
    if shape.shifts and rng.random() < 0.6:
        model[tags.MASK_SUB_PIXEL_SHIFT] = random_shift(rng)
    if operation == "AVG_SUB":
        count = rng.choice((1, 1, 2, 3, 4, 7, 64, rng.randrange(1, 65)))
        model[tags.MASK_FRAME_NUMBERS] = us(*(rng.randrange(1, shape.frames + 1) for _ in range(count)))
        if rng.random() < 0.4:
            model[tags.CONTRAST_FRAME_AVERAGING] = us(1)
    if operation == "TID" and rng.random() < 0.7:
        model[tags.TID_OFFSET] = ss(rng.choice((1, -1, 0, 2, -2, 3, shape.frames, -shape.frames, 32767, -32768)))
    if operation != "TID" and rng.random() < 0.1:
        model[tags.TID_OFFSET] = ss()  # read for TID only
    if operation != "AVG_SUB" and rng.random() < 0.1:
        model[tags.MASK_FRAME_NUMBERS] = us(0)  # read for AVG_SUB only
    if item_id is not None:
        model[tags.SUBTRACTION_ITEM_ID] = us(item_id)
    return model


def frame_shift_items(rng, ids):
    """Items of a Frame Pixel Shift: some of the mask items' IDs, and IDs of no mask item."""
    chosen = [one for one in ids if rng.random() < 0.6]
    chosen += [one for one in rng.sample(range(1000, 1010), rng.choice((0, 1, 2)))]
    chosen = chosen or [2000]
    rng.shuffle(chosen)
    return [{tags.SUBTRACTION_ITEM_ID: us(one), tags.MASK_SUB_PIXEL_SHIFT: random_shift(rng)} for one in chosen]


def lut_items(rng, with_linear):
    """Items of a Pixel Intensity Relationship LUT Sequence: at most one TO_LINEAR item, and others, of which nothing is asked."""
    others = ({}, {tags.LUT_FUNCTION: padded(rng, "CS", "TO_LOG"), tags.LUT_DESCRIPTOR: us(9)}, {tags.LUT_FUNCTION: text("LO", "TO_LINEAR")},
              {tags.LUT_FUNCTION: text("CS", "TO_LINEAR", "TO_LINEAR"), tags.LUT_DATA: ("OW", b"")})
    items = [rng.choice(others) for _ in range(rng.choice((0, 0, 1, 2)))]
    if with_linear:
        count = rng.choice((1, 2, 3, 17, 256))
        items.append({tags.LUT_FUNCTION: padded(rng, "CS", "TO_LINEAR"), tags.LUT_DESCRIPTOR: us(count, rng.choice((0, 0, 1, 100, 65535)), 16),
                      tags.LUT_DATA: ("OW", rng.randbytes(2 * count))})
    rng.shuffle(items)
    return items or [{}]


def properties_item(rng, may_be_log):
    words = ("LIN", "DISP", "SQRT", "LOG\\LOG", "log") + ("LOG",) * 5 * may_be_log
    return rng.choice(({tags.PIXEL_INTENSITY_RELATIONSHIP: padded(rng, "CS", *rng.choice(words).split("\\"))},
                       {tags.PIXEL_INTENSITY_RELATIONSHIP: text("LO", "LOG")}, {}))


def place_group(rng, shape, model, where, tag, make):
    """Puts a functional group where the shape wants it. `make` builds its items."""
    if where == "shared":
        model[tags.SHARED_FUNCTIONAL_GROUPS_SEQUENCE][1][0][tag] = sq(*make())
    for item in model[tags.PER_FRAME_FUNCTIONAL_GROUPS_SEQUENCE][1]:
        if where == "frames" or (where == "some" and rng.random() < 0.5):
            item[tag] = sq(*make())


def build(rng, shape):
    """The model of an object that breaks no rule."""
    xrf = shape.sop_class == "XRF"
    model = {
        tags.SOP_CLASS_UID: padded(rng, "UI", "1.2.840.10008.5.1.4.1.1.12." + ("2.1" if xrf else "1.1")),
        tags.MODALITY: padded(rng, "CS", "RF" if xrf else "XA"),
        tags.IMAGE_TYPE: padded(rng, "CS", shape.image_type, rng.choice(("PRIMARY", "")), rng.choice(("", "SINGLE A")), "NONE",
                           *rng.choice(((), ("EXTRA",), ("", "NONE")))),
        tags.PLANES_IN_ACQUISITION: padded(rng, "CS", shape.planes),
        tags.ACQUISITION_DATE_TIME: text("DT", "20240501050000"),
        tags.SAMPLES_PER_PIXEL: us(1),
        tags.PHOTOMETRIC_INTERPRETATION: padded(rng, "CS", shape.photometric),
        tags.ROWS: us(shape.rows),
        tags.COLUMNS: us(shape.columns),
        tags.BITS_ALLOCATED: us(shape.bits_allocated),
        tags.BITS_STORED: us(shape.bits_stored),
        tags.HIGH_BIT: us(shape.bits_stored - 1),
        tags.PIXEL_REPRESENTATION: us(0),
        tags.NUMBER_OF_FRAMES: padded(rng, "IS", rng.choice(("", "+", "0", "+00")) + str(shape.frames)),
        tags.CONTENT_QUALIFICATION: padded(rng, "CS", rng.choice(("PRODUCT", "RESEARCH", "SERVICE"))),
        tags.BURNED_IN_ANNOTATION: padded(rng, "CS", "NO"),
        tags.LOSSY_IMAGE_COMPRESSION: padded(rng, "CS", shape.lossy),
        tags.PRESENTATION_LUT_SHAPE: padded(rng, "CS", "INVERSE" if shape.photometric == "MONOCHROME1" else "IDENTITY"),
        tags.SHARED_FUNCTIONAL_GROUPS_SEQUENCE: sq({}),
        tags.PER_FRAME_FUNCTIONAL_GROUPS_SEQUENCE: sq(*({tags.FRAME_CONTENT_SEQUENCE: sq({0x00209156: us(number % 65536)} if shape.frames < 100
                                                                                         else {})}
                        for number in range(1, shape.frames + 1))),
    }
    if shape.planes != "UNDEFINED":
        single = shape.planes == "SINGLE PLANE"
        model[tags.PLANE_IDENTIFICATION] = padded(rng, "CS", rng.choice(("MONOPLANE", "PLANE A") if single
                                                                    else ("PLANE A", "PLANE B")))
    if shape.planes == "BIPLANE":
        model[tags.REFERENCED_OTHER_PLANE_SEQUENCE] = sq(rng.choice(({}, {0x00081155: text("UI", "1.2.3")})))
    if shape.lossy == "01":
        model[tags.LOSSY_IMAGE_COMPRESSION_RATIO] = padded(rng, "DS", *rng.choice((("10",), ("10", "2.5"), ("junk",))))
        model[tags.LOSSY_IMAGE_COMPRESSION_METHOD] = padded(rng, "CS", "ISO_10918_1")
    if shape.image_type == "ORIGINAL":
        model[tags.KVP] = padded(rng, "DS", "80")
        model[tags.RADIATION_MODE] = padded(rng, "CS", rng.choice(("PULSED", "CONTINUOUS")))
        model[tags.RADIATION_SETTING] = padded(rng, "CS", rng.choice(("SC", "GR")))
        exposure = rng.choice(("whole", "parts", "all"))
        if exposure != "parts":
            model[tags.EXPOSURE_IN_MAS] = fd(1.5)
        if exposure != "whole":
            model[tags.EXPOSURE_TIME_IN_MS] = fd(10.0)
            model[tags.X_RAY_TUBE_CURRENT_IN_MA] = fd(20.0)
        if xrf:
            model[tags.POSITIONER_TYPE] = padded(rng, "CS", "COLUMN")
    place_group(rng, shape, model, shape.characteristics, tags.XA_XRF_FRAME_CHARACTERISTICS_SEQUENCE, lambda: [{}])
    place_group(rng, shape, model, shape.voi, tags.FRAME_VOI_LUT_SEQUENCE, lambda: [voi_item(rng, shape)])
    with_ids = shape.frame_shift != "absent"
    ids = rng.sample((0, 1, 2, 3, 65535, *range(100, 120)), len(shape.masks)) if with_ids else []
    if shape.masks:
        model[tags.MASK_SUBTRACTION_SEQUENCE] = sq(*(mask_item(rng, shape, operation, ids[number] if with_ids else rng.choice((None, 7)))
                            for number, operation in enumerate(shape.masks)))
    place_group(rng, shape, model, shape.frame_shift, tags.FRAME_PIXEL_SHIFT_SEQUENCE, lambda: frame_shift_items(rng, ids))
    # LOG asks for a table at every frame.
    logarithmic = shape.luts in ("shared", "frames") and rng.random() < 0.5
    place_group(rng, shape, model, shape.properties, tags.FRAME_PIXEL_DATA_PROPERTIES_SEQUENCE, lambda: [properties_item(rng, logarithmic)])
    place_group(rng, shape, model, shape.luts, tags.PIXEL_INTENSITY_RELATIONSHIP_LUT_SEQUENCE,
                lambda: lut_items(rng, logarithmic or rng.random() < 0.8))
    if shape.extras:
        add_extras(rng, model)
    length = shape.frames * shape.rows * shape.columns * (shape.bits_allocated // 8)
    model[tags.PIXEL_DATA] = (shape.pixel_vr, random_pixels(rng, shape, length) + rng.randbytes(length % 2))
    return model


def random_pixels(rng, shape, length):
    """Pixel bytes: noise (also in the unused high bits), or values near each other, or the extremes."""
    kind = rng.randrange(3)
    if kind == 0:
        return rng.randbytes(length)
    size = shape.bits_allocated // 8
    middle = rng.randrange(2 ** shape.bits_stored)
    choices = [0, 2 ** shape.bits_stored - 1, middle] if kind == 1 else [max(0, middle - near) for near in range(12)]
    return b"".join(rng.choice(choices).to_bytes(size, "little") for _ in range(length // size))


def add_extras(rng, model):
    """Elements that no rule speaks of, at every level; among them sequences that only look like the named ones."""
    extras = {
        0x00080018: text("UI", "1.2.3.4"),
        0x00090010: text("LO", "PRIVATE"),
        0x00091001: ("UN", b"\1\2"),
        0x00100010: text("PN", "Doe^Jane"),
        0x00081140: sq({tags.MODALITY: text("CS", "CT"), tags.ROWS: us(0)}, {}),
        0x00289415: sq({tags.SUBTRACTION_ITEM_ID: us(1)}),  # a Frame Pixel Shift at the root is none of a frame
        0xFFFF0010: text("LO", "last"),
    }
    for tag, value in extras.items():
        if rng.random() < 0.4:
            model[tag] = value
    if rng.random() < 0.4:
        model[tags.SHARED_FUNCTIONAL_GROUPS_SEQUENCE][1][0][0x00189477] = sq({})
    if rng.random() < 0.4:
        for item in model[tags.PER_FRAME_FUNCTIONAL_GROUPS_SEQUENCE][1]:
            item[0x00189504] = rng.choice((sq(), sq({tags.FRAME_VOI_LUT_SEQUENCE: sq()}), text("LO", "x")))
    for item in model.get(tags.MASK_SUBTRACTION_SEQUENCE, sq())[1]:
        if rng.random() < 0.2:
            item[0x00286190] = text("ST", "a mask")


def encode_at_random(rng, model):
    """The bytes of a model, with lengths undefined nowhere, at random, or everywhere."""
    share = rng.choice((0.0, 0.5, 1.0))
    return encode(model, lambda: rng.random() < share)
