"""Compares xa_compare with the reference: our own pictures, pictures off by less, as much and more than the tolerance at chosen and at all
places, every refusal, and what is promised of tolerances."""

import random
import struct
import tempfile

from generators import enhanced_xa as xa
from generators import outside, reading_cases
from generators.mutations import CHANGES
from reference import attributes as tags
from reference import comparing, drawing

from .common import DifferenceFound, exact_numbers, run_as_program
from .compare_show import EXACT_WINDOWS, WINDOWS, base_shape, drawn_by_dcmtk, every_value


def check_picture(comparison, name, data, frame, cells, tolerance, row_buffer_length):
    """One call compared; answers the reference's answer."""
    known = {}

    def difference(candidate):
        known[candidate] = comparing.compare(candidate, frame, cells, tolerance, row_buffer_length)
        return comparison.library.compare(candidate, frame, cells, tolerance, row_buffer_length).difference(known[candidate])

    comparison.check(f"{name}, frame {frame}, {len(cells)} cells, tolerance {tolerance}, row buffer {row_buffer_length}", data, difference)
    found = known[data][0]
    comparison.note(("code", found.answer.code))
    return found


def size_of(model):
    rows, columns = (struct.unpack("<H", model[tag][1])[0] for tag in (tags.ROWS, tags.COLUMNS))
    return rows * columns


def moved(level, by):
    """A level that is `by` away from another: upwards where that fits, else downwards; None where neither does."""
    return level + by if level + by <= 255 else level - by if level >= by else None


def with_levels(ours, places, by):
    """Our picture with the levels at some places `by` away, and the places where that could be done."""
    cells, changed = bytearray(ours), []
    for place in places:
        level = moved(ours[place], by)
        if level is not None:
            cells[place] = level
            changed.append(place)
    return bytes(cells), changed


def check_frame(comparison, name, data, frame, size, room, rng):
    ours = drawing.show(data, frame, room, size).image
    if len(ours) != size:
        raise DifferenceFound(f"the comparison itself is at fault: {name}, frame {frame} is not drawn")
    drawn = comparison.library.show(data, frame, room, size)
    comparison.must_equal(f"{name}: the library's own picture", bytes(drawn.image.memory)[64:64 + size], ours)
    for tolerance in (0, 1, 254, 255):
        found = check_picture(comparison, name, data, frame, ours, tolerance, room + rng.choice((0, 0, 9)))
        comparison.must_equal(f"{name}: our own picture at {tolerance}", found.same, 1)
    chosen = {(0,), (size - 1,), tuple(sorted({0, size - 1})), tuple(range(size)), tuple(sorted(rng.sample(range(size), rng.randrange(1, size + 1))))}
    for places in sorted(chosen):
        by = rng.choice((1, 1, 2, 3, 100, 128, 254, 255))
        cells, changed = with_levels(ours, places, by)
        for tolerance in sorted({0, by - 1, by, min(255, by + 1), 255}):
            found = check_picture(comparison, name, data, frame, cells, tolerance, room)
            off = changed if tolerance < by else []
            meant = (0, off[0], len(off)) if off else (1, 0, 0)
            comparison.must_equal(f"{name}: {len(changed)} places {by} away at {tolerance}", (found.same, found.first, found.count), meant)
            comparison.note(("same", found.same))
            comparison.note(("edge", tolerance - by))
    cells = bytes(rng.randrange(256) for _ in range(size))
    passed = [check_picture(comparison, name, data, frame, cells, tolerance, room).same for tolerance in (0, 7, 60, 128, 200, 255)]
    comparison.must_equal(f"{name}: once it passes it passes at every larger tolerance", passed, sorted(passed))
    comparison.must_equal(f"{name}: any picture passes at 255", passed[-1], 1)


def compare_random_objects(comparison, rng, count):
    for number in range(count):
        model = xa.build(rng, xa.random_shape(rng, frames=rng.choice((1, 2, 3))))
        data = xa.encode_at_random(rng, model)
        room, size = exact_numbers(data), size_of(model)
        for frame in range(1, len(model[tags.PER_FRAME_FUNCTIONAL_GROUPS_SEQUENCE][1]) + 1):
            check_frame(comparison, f"object {number}", data, frame, size, room, rng)
        if number % 10 == 0:
            check_refusals(comparison, f"object {number}", rng)


def compare_shapes(comparison, rng):
    """One cell, one row, one column, and lines longer than others, masked and not, with whole shifts and quarters."""
    for rows, columns in ((1, 1), (1, 9), (9, 1), (3, 200), (200, 3)):
        for masks in ((), ("AVG_SUB",), ("TID",)):
            for stored in (8, 12, 16):
                shape = xa.random_shape(rng, bits_allocated=8 if stored == 8 else 16, bits_stored=stored, frames=3, rows=rows, columns=columns,
                                        masks=masks, extras=False)
                data = xa.encode_at_random(rng, xa.build(rng, shape))
                check_frame(comparison, f"{rows} × {columns}, {masks}, {stored} bits", data, rng.randrange(1, 4), rows * columns,
                            exact_numbers(data), rng)


def check_refusals(comparison, name, rng):
    """8 before 10, 10 before 22, 22 before 23; a tolerance is refused even where every cell would pass."""
    model = xa.build(rng, xa.random_shape(rng, frames=3))
    data = xa.encode_at_random(rng, model)
    room, size = exact_numbers(data), size_of(model)
    ours = drawing.show(data, 2, room, size).image
    wrong = (ours[:-1], ours + b"\0", b"", ours * 2)
    cases = [(frame, cells, tolerance, room, 10) for frame in (0, 4, 65_538, 2 ** 32 + 2, 2 ** 64 - 1) for cells in (ours, b"") for tolerance in (0, 256)]
    cases += [(2, cells, tolerance, room, 22) for cells in wrong for tolerance in (0, 255, 256, 2 ** 64 - 1)]
    cases += [(2, ours, tolerance, room, 23) for tolerance in (256, 257, 511, 512, 2 ** 32, 2 ** 32 + 5, 2 ** 63, 2 ** 64 - 1)]
    cases += [(2, ours, 255, room, 0), (2, ours, 0, room + 1, 0), (2, ours, 0, room - 1, 8), (0, b"", 256, room - 1, 8), (2, ours, 300, 0, 8)]
    for frame, cells, tolerance, row_length, code in cases:
        found = check_picture(comparison, name, data, frame, cells, tolerance, row_length)
        comparison.must_equal(f"{name}, frame {frame}, {len(cells)} cells, tolerance {tolerance}: code", found.answer.code, code)


def compare_changes(comparison, rng):
    """Some ways to break a rule, with cells and tolerances that would be refused too; data sets that do not read."""
    for change in rng.sample([change for change in CHANGES if change.rule != 0], 40):
        model = xa.build(rng, xa.random_shape(rng, **change.shape))
        change.edit(model, 1 if change.per_frame else 0)
        data = xa.encode_at_random(rng, model)
        found = check_picture(comparison, f"rule {change.rule}, {change.name}", data, rng.choice((0, 1)), b"", rng.choice((0, 256)), exact_numbers(data))
        comparison.must_equal(f"rule {change.rule}, {change.name}: rule named", found.answer.rule, change.rule)
    for name, data, _ in reading_cases.CASES:
        check_picture(comparison, f"small case {name}", data, 1, bytes(4), 256, 1000)


def compare_outside(comparison, rng, required):
    """Pictures that dcmtk draws: they pass at 1, and mostly not at 0. Answers how many were compared, and how many passed at 0."""
    if not outside.has_dcmtk():
        if required:
            raise DifferenceFound("no outside pictures: dcmtk is not installed")
        return 0, 0
    compared = exact = 0
    with tempfile.TemporaryDirectory() as folder:
        for name, data, frame, cells in drawn_by_dcmtk(rng, folder):
            room = exact_numbers(data)
            exact += check_picture(comparison, name, data, frame, bytes(cells), 0, room).same
            found = check_picture(comparison, name, data, frame, bytes(cells), 1, room)
            comparison.must_equal(f"{name}: within 1 of ours", found.same, 1)
            compared += 1
    return compared, exact


def windowed_object(rng, stored, windows):
    """A data set of three frames of 16 × 16 with a window each (centre, width, function): native, averaged and TID, moved by quarters."""
    model = xa.build(rng, base_shape(rng, bits_allocated=8 if stored == 8 else 16, bits_stored=stored, frames=3, rows=16, columns=16,
                                     pixel_vr="OW"))
    photometric = rng.choice(("MONOCHROME1", "MONOCHROME2"))
    model[tags.PHOTOMETRIC_INTERPRETATION] = xa.text("CS", photometric)  # pydicom keeps spaces in front of a word
    model[tags.PRESENTATION_LUT_SHAPE] = xa.text("CS", "INVERSE" if photometric == "MONOCHROME1" else "IDENTITY")
    size = 1 if stored == 8 else 2
    noise = [b"".join(rng.randrange(2 ** stored).to_bytes(size, "little") for _ in range(256)) for _ in range(2)]
    model[tags.PIXEL_DATA] = ("OW", every_value(stored) + noise[0] + noise[1])
    shifts = [xa.fl(*(rng.randrange(-20, 21) / rng.choice((1, 4)) for _ in range(2))) for _ in range(2)]
    model[tags.MASK_SUBTRACTION_SEQUENCE] = xa.sq(
        {tags.MASK_OPERATION: xa.text("CS", "AVG_SUB"), tags.APPLICABLE_FRAME_RANGE: xa.us(2, 2), tags.MASK_FRAME_NUMBERS: xa.us(1, 3, 3),
         tags.MASK_SUB_PIXEL_SHIFT: shifts[0]},
        {tags.MASK_OPERATION: xa.text("CS", "TID"), tags.APPLICABLE_FRAME_RANGE: xa.us(3, 3), tags.TID_OFFSET: xa.ss(rng.choice((1, 2))),
         tags.MASK_SUB_PIXEL_SHIFT: shifts[1]})
    for item, (center, width, function) in zip(model[tags.PER_FRAME_FUNCTIONAL_GROUPS_SEQUENCE][1], windows):
        voi = {tags.WINDOW_CENTER: xa.text("DS", center), tags.WINDOW_WIDTH: xa.text("DS", width)}
        if function:
            voi[tags.VOI_LUT_FUNCTION] = xa.text("CS", function)
        item[tags.FRAME_VOI_LUT_SEQUENCE] = xa.sq(voi)
    return xa.encode_at_random(rng, model)


def compare_pydicom(comparison, rng, count, required):
    """Native and subtracted frames as pydicom windows them in floating point: all pass at 1. Every window of the list, up to `count` of them,
    at 8, 12 and 16 bits, native, averaged and TID. Answers how many frames and cells were compared, and how many cells are off at 0."""
    if not outside.has_pydicom_windows():
        if required:
            raise DifferenceFound("no outside pictures: python3-pydicom or python3-numpy is not installed")
        return 0, 0, 0
    windows = [(*window, rng.choice(("", "LINEAR"))) for window in WINDOWS] + [(*window, "LINEAR_EXACT") for window in WINDOWS + EXACT_WINDOWS]
    wide = {stored: [(str(2 ** (stored - 1)), str(2 ** stored), function) for function in ("", *xa.FUNCTIONS)] for stored in (8, 12, 16)}
    objects = []
    for stored in (8, 12, 16):
        chosen = wide[stored] + rng.sample(windows, min(count, len(windows)))
        objects += [windowed_object(rng, stored, [chosen[(place + turn) % len(chosen)] for turn in range(3)]) for place in range(len(chosen))]
    off = 0
    with tempfile.TemporaryDirectory() as folder:
        for number, cells in enumerate(outside.windowed_by_pydicom(folder, objects)):
            data, room = objects[number], exact_numbers(objects[number])
            comparison.must_equal(f"object {number}: the cells that pydicom answers", len(cells), 3 * 256)
            for frame in (1, 2, 3):
                theirs = cells[256 * (frame - 1):256 * frame]
                off += check_picture(comparison, f"object {number}, windowed by pydicom", data, frame, theirs, 0, room).count
                found = check_picture(comparison, f"object {number}, windowed by pydicom", data, frame, theirs, 1, room)
                comparison.must_equal(f"object {number}, frame {frame}, windowed by pydicom: within 1 of ours", found.same, 1)
    return 3 * len(objects), 3 * 256 * len(objects), off


def compare_size_limit(comparison):
    comparison.too_large("a comparison", lambda memory, length: comparing.compare(memory, 1, b"", 256, length),
                         lambda memory, length: comparison.library.compare_on_mapping(memory, b"", 256, length))


def run(comparison, arguments):
    rng = random.Random(comparison.seed)
    compare_shapes(comparison, rng)
    check_refusals(comparison, "refusals", rng)
    compare_changes(comparison, rng)
    compare_random_objects(comparison, rng, comparison.count)
    compare_size_limit(comparison)
    drawn, exact = compare_outside(comparison, rng, arguments.require_outside)
    frames, cells, off = compare_pydicom(comparison, rng, comparison.count, arguments.require_outside)
    comparison.insist([("code", code) for code in (*range(11), 22, 23)] + [("same", 0), ("same", 1), ("edge", -1), ("edge", 0), ("edge", 1)])
    line = f"{comparison.tally[('code', 0)]} pictures compared, {comparison.tally[('same', 0)]} of them answered no"
    return (f"{line}; {drawn} drawn by dcmtk, all within 1, {exact} equal; {frames} frames windowed by pydicom, all within 1,"
            f" {off} of their {cells} cells not equal")


if __name__ == "__main__":
    run_as_program("pictures", run)
