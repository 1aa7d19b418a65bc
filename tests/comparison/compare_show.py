"""Compares xa_show with the reference: every frame and sample of accepted objects, and refusals that touch no image."""

import random
import struct
import tempfile

from generators import enhanced_xa as xa
from generators import outside, reading_cases
from generators.mutations import CHANGES
from reference import attributes as tags
from reference import drawing

from .common import DifferenceFound, enough_numbers, exact_numbers, run_as_program


def check_show(comparison, name, data, frame, row_buffer_length, image_buffer_length):
    """One call compared; answers the reference's answer."""
    known = {}

    def difference(candidate):
        expected = drawing.show(candidate, frame, row_buffer_length, image_buffer_length)
        known[candidate] = expected.answer
        return comparison.library.show(candidate, frame, row_buffer_length, image_buffer_length).difference(expected)

    comparison.check(f"{name}, frame {frame}, row buffer {row_buffer_length}, image buffer {image_buffer_length}", data, difference)
    answer = known[data]
    comparison.note(("code", answer.code))
    comparison.note(("masked", answer.masked))
    return answer


def check_every_frame(comparison, name, model, rng, frames=None):
    """An accepted object: each of its frames must be drawn. Answers (frame, masked or native) of each."""
    data = xa.encode_at_random(rng, model)
    count = exact_numbers(data)
    rows, columns = (struct.unpack("<H", model[tag][1])[0] for tag in (tags.ROWS, tags.COLUMNS))
    drawn = {}
    for frame in frames or range(1, len(model[tags.PER_FRAME_FUNCTIONAL_GROUPS_SEQUENCE][1]) + 1):
        answer = check_show(comparison, name, data, frame, count + rng.choice((0, 0, 9)), rows * columns + rng.choice((0, 0, 1, 40)))
        if answer.code != 0:
            raise DifferenceFound(f"the comparison itself is at fault: {name}, frame {frame} is not drawn: {answer}")
        drawn[frame] = answer.masked
    return drawn


def check_refusals(comparison, name, model, rng):
    """An accepted object with frame numbers and buffers that are refused, one thing and several at once."""
    data = xa.encode_at_random(rng, model)
    count = exact_numbers(data)
    rows, columns = (struct.unpack("<H", model[tag][1])[0] for tag in (tags.ROWS, tags.COLUMNS))
    frames = len(model[tags.PER_FRAME_FUNCTIONAL_GROUPS_SEQUENCE][1])
    size = rows * columns
    no_frames = (0, frames + 1, 256 * 256 + 1, 2 ** 31 + 1, 2 ** 32, 2 ** 32 + 1, 2 ** 63, 2 ** 64 - 1)
    cases = [(frame, count, size, 10) for frame in no_frames]
    cases += [(0, count, size - 1, 10), (frames + 1, count, 0, 10), (1, count, size - 1, 11), (frames, count, 0, 11),
              (frames, count + 1, size, 0), (1, count - 1, size, 8), (0, count - 1, 0, 8), (1, 0, size, 8)]
    for frame, row_length, image_length, code in cases:
        answer = check_show(comparison, name, data, frame, row_length, image_length)
        comparison.must_equal(f"{name}, frame {frame}: code", answer.code, code)


# ---------------------------------------------------------------------------------------------------------------------


def base_shape(rng, **fixed):
    """A shape with little in it but what is fixed."""
    return xa.random_shape(rng, **{"masks": (), "voi": "absent", "frame_shift": "absent", "characteristics": "absent", "properties": "absent",
                                   "luts": "absent", "extras": False, **fixed})


def every_value(stored):
    """16 by 16 samples with every value of 8 bits, or values spread over all of the stored bits."""
    if stored == 8:
        return bytes(range(256))
    step = 2 ** stored // 256
    return b"".join(struct.pack("<H", number * step + number % step) for number in range(256))


WINDOWS = (("50", "1"), ("40", "10"), ("128", "256"), ("0", "1"), ("-10", "50"), ("-10.5", "40.25"), ("127.5", "255"), ("128", "1.001"),
           ("128", "1.5"), ("128.001", "1.999"), ("300", "100"), ("999999.999", "999999.999"), ("-999999.999", "999999.999"), ("0.5", "2"),
           ("200", "999999.999"), (".5", "+1.000"), ("100.25", "3.75"), ("2048", "4096"), ("1000", "2500.5"), ("2.048E3", "4.096e+3"),
           ("128.500001", "1.000001"), ("100.5", "1.000255"), ("-.5E-5", "100E-2"), ("999999.999999", "999999.999999"), ("1E2", "1E1"))


EXACT_WINDOWS = (("50", "0.000001"), ("128", "1E-6"), ("49.999999", "0.000002"), ("50.25", ".5"), ("128", "0.999999"), ("127.5", "0.75"))


def compare_windows(comparison, rng):
    """Each window of each function on every 8-bit value, and on values of more bits; native and masked, both photometric
    interpretations."""
    windows = [(center, width, function) for center, width in WINDOWS for function in ("", *xa.FUNCTIONS)]
    windows += [(center, width, "LINEAR_EXACT") for center, width in EXACT_WINDOWS]
    for number, (center, width, function) in enumerate(windows):
        for photometric in ("MONOCHROME1", "MONOCHROME2") if comparison.count >= 200 else (("MONOCHROME1", "MONOCHROME2")[number % 2],):
            for stored in (8, 9 + number % 8):
                shape = base_shape(rng, bits_allocated=8 if stored == 8 else 16, bits_stored=stored, frames=2, rows=16, columns=16,
                                   photometric=photometric, masks=("AVG_SUB",), ranges=False, shifts=False, pixel_vr="OW")
                model = xa.build(rng, shape)
                model[tags.MASK_SUBTRACTION_SEQUENCE][1][0][tags.APPLICABLE_FRAME_RANGE] = xa.us(2, 2)
                model[tags.MASK_SUBTRACTION_SEQUENCE][1][0][tags.MASK_FRAME_NUMBERS] = xa.us(1)
                values = every_value(stored)
                model[tags.PIXEL_DATA] = ("OW", values + rng.randbytes(len(values)))
                place = rng.choice((model[tags.SHARED_FUNCTIONAL_GROUPS_SEQUENCE][1], model[tags.PER_FRAME_FUNCTIONAL_GROUPS_SEQUENCE][1]))
                for item in place:
                    item[tags.FRAME_VOI_LUT_SEQUENCE] = xa.sq({tags.WINDOW_CENTER: xa.padded(rng, "DS", center, "1"),
                                                               tags.WINDOW_WIDTH: xa.padded(rng, "DS", width, "7")})
                    if function:
                        item[tags.FRAME_VOI_LUT_SEQUENCE][1][0][tags.VOI_LUT_FUNCTION] = xa.padded(rng, "CS", function)
                drawn = check_every_frame(comparison, f"window {function} {center}, {width}, {stored} bits, {photometric}", model, rng)
                comparison.must_equal("native, then masked", drawn, {1: 0, 2: 1})


def compare_no_window(comparison, rng):
    for stored in range(8, 17):
        shape = base_shape(rng, bits_allocated=8 if stored == 8 else 16, bits_stored=stored, frames=1, rows=16, columns=16, pixel_vr="OW")
        model = xa.build(rng, shape)
        model[tags.PIXEL_DATA] = ("OW", every_value(stored))
        check_every_frame(comparison, f"no window, {stored} bits", model, rng)


def compare_averages(comparison, rng):
    """Averages of 1 to 64 frames."""
    for count in range(1, 65):
        shape = base_shape(rng, masks=("AVG_SUB",), frames=rng.choice((2, 5, 20)), rows=2, columns=3, voi=rng.choice(xa.PLACES))
        model = xa.build(rng, shape)
        item = model[tags.MASK_SUBTRACTION_SEQUENCE][1][0]
        item.pop(tags.APPLICABLE_FRAME_RANGE, None)
        item[tags.MASK_FRAME_NUMBERS] = xa.us(*(rng.randrange(1, shape.frames + 1) for _ in range(count)))
        if count == 64:
            model[tags.PIXEL_DATA] = (model[tags.PIXEL_DATA][0], b"\xFF" * len(model[tags.PIXEL_DATA][1]))
        drawn = check_every_frame(comparison, f"average of {count}", model, rng, frames=[1, shape.frames])
        comparison.must_equal("all masked", set(drawn.values()), {1})


def compare_average_rounding(comparison, rng):
    """For each n, sums with every remainder by n, small and great: a mask that is off by one shows in a narrow window.

    The last frame holds q where the sum is q * n + r, so it is drawn as 2^(stored - 1) or one less.
    """
    for count in range(1, 65):
        for stored in (16, rng.choice((12, 14, 15))):
            top = 2 ** stored - 1
            sums = [(q, r) for q in (0, 1, top // 2, top - 1) for r in range(count)] + [(top, 0)]
            shape = base_shape(rng, bits_allocated=16, bits_stored=stored, frames=count, rows=1, columns=len(sums), masks=("AVG_SUB",),
                               ranges=False, shifts=False)
            model = xa.build(rng, shape)
            model[tags.MASK_SUBTRACTION_SEQUENCE][1][0][tags.MASK_FRAME_NUMBERS] = xa.us(*range(1, count + 1))
            model[tags.SHARED_FUNCTIONAL_GROUPS_SEQUENCE][1][0][tags.FRAME_VOI_LUT_SEQUENCE] = xa.sq({tags.WINDOW_CENTER: xa.text("DS",
                                                                                                                                  str(2 ** (stored - 1))), tags.WINDOW_WIDTH: xa.text("DS", "10")})
            junk = 65536 - top - 1  # unused high bits, set in every second sample
            model[tags.PIXEL_DATA] = ("OW", b"".join(struct.pack("<H", q + (frame < r) + junk * (frame % 2))
                                                   for frame in range(count) for q, r in sums))
            drawn = check_every_frame(comparison, f"rounding of an average of {count}", model, rng, frames=[count])
            comparison.must_equal("masked", drawn, {count: 1})


def compare_shifts(comparison, rng, rounds):
    """Shifts of the item and of the frame, at small images and at one that is larger than the greatest shift."""
    numbers = (0, 0.25, -0.25, 0.5, -0.5, 0.75, -0.75, 1, -1, 1.25, -1.75, 2, -2, 5.5, -5.25, 63, -63.75, 63.75, 64, -64)
    for number in range(rounds):
        rows, columns = rng.choice(((1, 1), (1, 9), (9, 1), (3, 5), (4, 4), (7, 6), (1, 2)))
        if number % 40 == 0:
            rows, columns = 67, 70
        shape = base_shape(rng, masks=("AVG_SUB",), frames=2, rows=rows, columns=columns, ranges=False)
        model = xa.build(rng, shape)
        item = model[tags.MASK_SUBTRACTION_SEQUENCE][1][0]
        item[tags.MASK_FRAME_NUMBERS] = xa.us(1)
        item.pop(tags.MASK_SUB_PIXEL_SHIFT, None)
        pair = [float(rng.choice(numbers)), float(rng.choice(numbers))]
        other = [rng.randrange(-256, 257) / 4, rng.choice((0.0, -0.0, rng.randrange(-256, 257) / 4))]
        kind = number % 5
        if kind in (0, 1, 2):
            item[tags.MASK_SUB_PIXEL_SHIFT] = xa.fl(*pair)  # 0: the item's alone
        if kind in (1, 2, 3):
            item[tags.SUBTRACTION_ITEM_ID] = xa.us(7)  # 1: the frame's own wins; 2: its group names another ID; 3: the frame's alone
            named = 7 if kind != 2 else 8
            members = [{tags.SUBTRACTION_ITEM_ID: xa.us(named), tags.MASK_SUB_PIXEL_SHIFT: xa.fl(*other)},
                       {tags.SUBTRACTION_ITEM_ID: xa.us(3), tags.MASK_SUB_PIXEL_SHIFT: xa.fl(9.0, 9.0)}]
            rng.shuffle(members)
            for place in rng.choice((model[tags.SHARED_FUNCTIONAL_GROUPS_SEQUENCE][1], model[tags.PER_FRAME_FUNCTIONAL_GROUPS_SEQUENCE][1])):
                place[tags.FRAME_PIXEL_SHIFT_SEQUENCE] = xa.sq(*members)
        check_every_frame(comparison, f"shift {pair}, frame's own {other}, kind {kind}", model, rng)


def each_level_its_own(rng, model):
    """Samples and a window so that every masked x is drawn as a level of its own: a mask that is off by one shows."""
    stored = struct.unpack("<H", model[tags.BITS_STORED][1])[0]
    size = 1 if stored == 8 else 2
    low = rng.randrange(2 ** stored - 120)
    length = len(model[tags.PIXEL_DATA][1])
    samples = b"".join(rng.randrange(low, low + 120).to_bytes(size, "little") for _ in range(length // size))
    model[tags.PIXEL_DATA] = (model[tags.PIXEL_DATA][0], samples)
    model[tags.SHARED_FUNCTIONAL_GROUPS_SEQUENCE][1][0][tags.FRAME_VOI_LUT_SEQUENCE] = xa.sq({tags.WINDOW_CENTER: xa.text("DS",
                                                                                                                          str(2 ** (stored - 1))),
                                                                                              tags.WINDOW_WIDTH: xa.text("DS", "256")})


def moved(rng, model, pair, own):
    """The mask is moved by this pair: by the frame's own where `own` says so, else by the mask item's."""
    item = model[tags.MASK_SUBTRACTION_SEQUENCE][1][0]
    if not own:
        item[tags.MASK_SUB_PIXEL_SHIFT] = xa.fl(*pair)
        return
    item[tags.MASK_SUB_PIXEL_SHIFT] = xa.fl(*(rng.randrange(-256, 257) / 4 for _ in range(2)))
    item[tags.SUBTRACTION_ITEM_ID] = xa.us(7)
    for place in rng.choice((model[tags.SHARED_FUNCTIONAL_GROUPS_SEQUENCE][1], model[tags.PER_FRAME_FUNCTIONAL_GROUPS_SEQUENCE][1])):
        place[tags.FRAME_PIXEL_SHIFT_SEQUENCE] = xa.sq({tags.SUBTRACTION_ITEM_ID: xa.us(8), tags.MASK_SUB_PIXEL_SHIFT: xa.fl(0.5, 0.5)},
                                                       {tags.SUBTRACTION_ITEM_ID: xa.us(7), tags.MASK_SUB_PIXEL_SHIFT: xa.fl(*pair)})


def quartered(rng, operation, count, rows, columns, pair, own, stored):
    """An object of `count` + 1 frames whose mask is moved by `pair`: the average of the first `count` frames, or TID."""
    model = xa.build(rng, base_shape(rng, masks=(operation,), frames=count + 1, rows=rows, columns=columns, ranges=False, shifts=False,
                                     bits_allocated=8 if stored == 8 else 16, bits_stored=stored, pixel_vr="OW"))
    if operation == "AVG_SUB":
        model[tags.MASK_SUBTRACTION_SEQUENCE][1][0][tags.MASK_FRAME_NUMBERS] = xa.us(*range(1, count + 1))
    else:
        model[tags.MASK_SUBTRACTION_SEQUENCE][1][0][tags.TID_OFFSET] = xa.ss(1)
    each_level_its_own(rng, model)
    moved(rng, model, pair, own)
    return model


QUARTERED_SIZES = ((1, 1), (1, 7), (7, 1), (3, 5), (2, 2), (5, 3))
WHOLE_PARTS = ((0, 0), (-1, 0), (0, -1), (-1, -1), (-2, 1), (1, -3), (63, -64), (-64, 63), (-64, -64), (63, 63))


def compare_quarters(comparison, rng):
    """All pairs of quarters, down and up, right and left, small and larger than the picture, at pictures of one row, of one
    column and of odd sizes; of averages and of TID; in the mask item and in the frame."""
    number = 0
    for rows, columns in QUARTERED_SIZES:
        for a in range(4):
            for b in range(4):
                for down, right in WHOLE_PARTS:
                    number += 1
                    operation, count = (("AVG_SUB", 1), ("AVG_SUB", 2), ("TID", 1), ("AVG_SUB", 5), ("AVG_SUB", 3))[number % 5]
                    pair = (down + a / 4, right + b / 4)
                    own = number % 3 == 0
                    model = quartered(rng, operation, count, rows, columns, pair, own, rng.choice((8, 8, 9, 12, 16)))
                    name = f"quarters {pair}, {rows} x {columns}, {operation} of {count}, {'frame' if own else 'item'}"
                    drawn = check_every_frame(comparison, name, model, rng, frames=[count + 1])
                    comparison.must_equal(f"{name}: masked", drawn, {count + 1: 1})
                    for part, pixels in ((pair[0], rows), (pair[1], columns)):
                        comparison.note(("quarters", part % 1, part < 0, abs(part) > pixels, operation, own))
    comparison.insist([("quarters", part / 4, negative, larger, operation, own) for part in range(4) for negative in (False, True)
                       for larger in (False, True) for operation in ("AVG_SUB", "TID") for own in (False, True)])


def compare_quarter_averages(comparison, rng):
    """Averages of 1 to 64 frames, moved by quarters: the average comes first."""
    for count in range(1, 65):
        for stored in (8, rng.randrange(9, 17)):
            pair = tuple(rng.randrange(-8, 9) + rng.choice((0.25, 0.5, 0.75)) for _ in range(2))
            model = quartered(rng, "AVG_SUB", count, 5, 7, pair, rng.random() < 0.5, stored)
            check_every_frame(comparison, f"average of {count} moved by {pair}", model, rng, frames=[count + 1])


def compare_wide(comparison, rng):
    """As many columns, and as many rows, as there can be, moved by quarters and by whole numbers, as far as it goes."""
    for rows, columns in ((2, 65_535), (65_535, 2)):
        for pair in ((63.75, -63.75), (-64.0, 64.0), (-0.25, 63.25), (63.5, -0.75)):
            model = quartered(rng, "AVG_SUB", 1, rows, columns, pair, False, 8)
            check_every_frame(comparison, f"{rows} x {columns} moved by {pair}", model, rng, frames=[2])


def compare_tid(comparison, rng):
    """TID offsets: positive, negative, zero, absent, out of range."""
    for offset in (None, 1, -1, 0, 2, -2, 3, 4, 5, -4, -5, 32767, -32768):
        for frames in (1, 3, 5):
            shape = base_shape(rng, masks=("TID",), frames=frames, ranges=False)
            model = xa.build(rng, shape)
            item = model[tags.MASK_SUBTRACTION_SEQUENCE][1][0]
            item.pop(tags.TID_OFFSET, None)
            if offset is not None:
                item[tags.TID_OFFSET] = xa.ss(offset)
            drawn = check_every_frame(comparison, f"TID {offset}", model, rng)
            step = 1 if offset is None else offset
            comparison.must_equal(f"TID {offset}: masked or native", drawn,
                                  {frame: int(1 <= frame - step <= frames) for frame in range(1, frames + 1)})


def compare_first_item(comparison, rng):
    """The first mask item whose range holds f applies, also where it makes the frame native."""
    shape = base_shape(rng, masks=("TID", "NONE", "AVG_SUB", "AVG_SUB"), frames=9, ranges=False)
    model = xa.build(rng, shape)
    items = model[tags.MASK_SUBTRACTION_SEQUENCE][1]
    items[0][tags.TID_OFFSET] = xa.ss(2)
    for item, pairs in zip(items, ((2, 3), (3, 5, 9, 9), (5, 7), (4, 4, 8, 9))):
        item[tags.APPLICABLE_FRAME_RANGE] = xa.us(*pairs)
    drawn = check_every_frame(comparison, "first mask item", model, rng)
    # Frame 1: no item. 2: TID of frame 0. 3: TID of frame 1. 4, 5, 9: NONE. 6, 7: third item. 8: fourth.
    comparison.must_equal("first mask item", drawn, {1: 0, 2: 0, 3: 1, 4: 0, 5: 0, 6: 1, 7: 1, 8: 1, 9: 0})


def compare_random_objects(comparison, rng, count):
    for number in range(count):
        model = xa.build(rng, xa.random_shape(rng, frames=rng.choice((1, 2, 3, 5, 7))))
        check_every_frame(comparison, f"object {number}", model, rng)
        if number % 10 == 0:
            check_refusals(comparison, f"object {number}", model, rng)


def compare_larger(comparison, rng):
    """A few larger images of odd sizes."""
    for rows, columns, bits in ((1, 700, 8), (301, 3, 16), (97, 101, 8), (64, 65, 16), (257, 256, 8)):
        shape = xa.random_shape(rng, frames=3, rows=rows, columns=columns, bits_allocated=bits, bits_stored=8 if bits == 8 else 12,
                                masks=("AVG_SUB",), ranges=False, frame_shift="frames", voi="frames", windows=1, pixel_vr="OW")
        check_every_frame(comparison, f"{rows} rows, {columns} columns", xa.build(rng, shape), rng, frames=[2])


def compare_refused(comparison, rng):
    """Objects that break a rule, and data sets that do not read: no byte of the image is touched."""
    for change in rng.sample(CHANGES, len(CHANGES) // 3):
        frame = 3 if change.per_frame else 0
        model = xa.build(rng, xa.random_shape(rng, **change.shape))
        change.edit(model, frame)
        data = xa.encode_at_random(rng, model)
        count = exact_numbers(data)
        answer = check_show(comparison, f"rule {change.rule}, {change.name}", data, rng.choice((1, 2, 0)), count, rng.choice((0, 100, 2000)))
        comparison.must_equal("rule named", answer.rule, change.rule)
    for name, data, _ in reading_cases.CASES:
        check_show(comparison, f"small case {name}", data, 1, 1000, 100)


def compare_size_limit(comparison):
    comparison.too_large("a picture", lambda memory, length: drawing.show(memory, 1, length, 16),
                         lambda memory, length: comparison.library.call_on_mapping("xa_show", memory, length))


def compare_pixel_intensity(comparison, rng):
    """A TO_LINEAR table in a frame's groups is no part of the display: the image is the one without it."""
    table = {0x00283002: xa.us(256, 0, 16), 0x00283006: ("OW", bytes(reversed(range(256))) * 2), 0x00289474: xa.text("CS", "TO_LINEAR")}
    for where in ("shared", "frames"):
        model = xa.build(rng, base_shape(rng, bits_allocated=8, bits_stored=8, masks=("AVG_SUB",), voi="shared", frames=3))
        for item in model[tags.SHARED_FUNCTIONAL_GROUPS_SEQUENCE][1] if where == "shared" else model[tags.PER_FRAME_FUNCTIONAL_GROUPS_SEQUENCE][1]:
            item[0x00289422] = xa.sq(table)
            item[0x00289443] = xa.sq({0x00281040: xa.text("CS", "LOG")})
        check_every_frame(comparison, "TO_LINEAR table", model, rng)


def compare_outside(comparison, rng, required):
    """Objects that others made or wrote, and images that others drew."""
    found = outside.pydicom_data_sets()
    if required and not (found and outside.has_pydicom() and outside.has_dcmtk()):
        raise DifferenceFound("no outside objects: python3-pydicom or dcmtk is not installed")
    for name, _, data in found:
        check_show(comparison, name, data, 1, exact_numbers(data), 100)
    with tempfile.TemporaryDirectory() as folder:
        written = sum(compare_rewritten(comparison, rng, folder) for _ in range(max(5, comparison.count // 80)))
        drawn = compare_windowed(comparison, rng, folder) if outside.has_dcmtk() else 0
    return f"{len(found)} outside objects, {written} written and {drawn} drawn by others"


def compare_rewritten(comparison, rng, folder):
    """An accepted object as other programs write it: it is accepted, and each frame is drawn as of our own bytes."""
    model = xa.build(rng, xa.random_shape(rng, frames=3))
    original = xa.encode_at_random(rng, model)
    rows, columns = (struct.unpack("<H", model[tag][1])[0] for tag in (tags.ROWS, tags.COLUMNS))
    written = 0
    for writer, data in outside.rewritten(folder, original):
        count = exact_numbers(data)
        for frame in (1, 2, 3):
            answer = check_show(comparison, f"written by {writer}", data, frame, count, rows * columns)
            comparison.must_equal(f"written by {writer}, frame {frame}: code", answer.code, 0)
            pictures = [drawing.show(encoded, frame, enough_numbers(encoded), rows * columns).image for encoded in (original, data)]
            comparison.must_equal(f"written by {writer}, frame {frame}: image", *pictures)
        written += 1
    return written


def drawn_by_dcmtk(rng, folder):
    """(name, data set, frame, cells) of native frames with a window as dcmtk's dcm2pnm draws them. It cuts off where step 6 rounds, so
    its levels may be one lower."""
    for center, width in (("40", "10"), ("128", "256"), ("2048", "4096"), ("1000", "2500.5"), ("100.25", "30.75"), ("30000", "65535")):
        for stored in (8, 12, 16):
            shape = base_shape(rng, bits_allocated=8 if stored == 8 else 16, bits_stored=stored, frames=2, rows=16, columns=16,
                               photometric=rng.choice(("MONOCHROME1", "MONOCHROME2")), pixel_vr="OW")
            model = xa.build(rng, shape)
            values = every_value(stored)
            model[tags.PIXEL_DATA] = ("OW", values + values[::-1] if stored == 8 else values * 2)
            model[tags.SHARED_FUNCTIONAL_GROUPS_SEQUENCE][1][0][tags.FRAME_VOI_LUT_SEQUENCE] = xa.sq({tags.WINDOW_CENTER: xa.text("DS", center),
                                                                                                      tags.WINDOW_WIDTH: xa.text("DS", width)})
            data = xa.encode_at_random(rng, model)
            for frame in (1, 2):
                name = f"window {center}, {width}, {stored} bits, frame {frame}, drawn by dcmtk"
                yield name, data, frame, outside.windowed_by_dcmtk(folder, data, frame, center, width)


def compare_windowed(comparison, rng, folder):
    """Frames that dcmtk draws as well."""
    drawn = 0
    for name, data, frame, theirs in drawn_by_dcmtk(rng, folder):
        count = exact_numbers(data)
        check_show(comparison, name, data, frame, count, 256)
        ours = drawing.show(data, frame, count, 256).image
        comparison.must_equal(f"{name}: size", len(theirs), 256)
        far = [(place, one, other) for place, (one, other) in enumerate(zip(ours, theirs)) if abs(one - other) > 1]
        comparison.must_equal(f"{name}: levels that differ by more than one", far, [])
        drawn += 1
    return drawn


def run(comparison, arguments):
    rng = random.Random(comparison.seed)
    compare_windows(comparison, rng)
    compare_no_window(comparison, rng)
    compare_averages(comparison, rng)
    compare_average_rounding(comparison, rng)
    compare_shifts(comparison, rng, max(40, comparison.count // 4))
    compare_quarters(comparison, rng)
    compare_quarter_averages(comparison, rng)
    compare_tid(comparison, rng)
    compare_first_item(comparison, rng)
    compare_random_objects(comparison, rng, comparison.count)
    compare_larger(comparison, rng)
    if comparison.count >= 200:
        compare_wide(comparison, rng)
    compare_refused(comparison, rng)
    compare_pixel_intensity(comparison, rng)
    compare_size_limit(comparison)
    line = compare_outside(comparison, rng, arguments.require_outside)
    comparison.insist([("code", code) for code in range(12)])
    comparison.insist([("masked", 0), ("masked", 1)])
    return f"{comparison.tally[('masked', 1)]} masked frames; {line}"


if __name__ == "__main__":
    run_as_program("show", run)
