"""Compares the library with itself: two data sets with the same rows but for places and lengths, whose values differ only in four patient
items, must get the same verdict, slip, pictures, sheets and intensities (document 02, Q-7). The row tables may differ, and do."""

import random
import struct

from generators import enhanced_xa as xa
from generators import objects, outside
from generators.mutations import CHANGES
from reference import drawing, reading, sheet

from .common import DifferenceFound, exact_numbers, run_as_program
from .library import GuardedBuffer

PATIENT_ITEMS = {0x00100010: ("PN", 64), 0x00100020: ("LO", 64), 0x00100030: ("DA", 8), 0x00204000: ("LT", 10240)}
OTHER_VRS = ("CS", "UI", "UN", "OB", "UT", "US", "IS")
SEQUENCE = 0x5351
MANY_FRAMES = 1 << 16
MANY_CELLS = 1 << 22


# ---------------------------------------------------------------------------------------------------------------------
# Pairs of data sets


def rows_of(data):
    """The rows of a data set that reads well, each a list of its numbers; None of another."""
    outcome = reading.read(data, reading.NUMBERS_IN_A_ROW * (len(data) // 8))
    if outcome.answer.code != 0:
        return None
    width = reading.NUMBERS_IN_A_ROW
    return [outcome.rows[at:at + width] for at in range(0, len(outcome.rows), width)]


def is_patient_item(row):
    return row[0] in PATIENT_ITEMS and row[2] == 0


def kept(data):
    """The rows without places and lengths, with every value but those of the patient items and of sequences and items."""
    found = []
    for row in rows_of(data):
        tag, vr, depth, offset, length, below, parent = row
        value = None if vr in (0, SEQUENCE) or is_patient_item(row) else data[offset:offset + length]
        found.append((tag, vr, depth, below, parent, value))
    return found


def random_value(rng, vr, most):
    """A value of even length: empty, of the usual size, as long as it may be, or bytes that look like headers."""
    longest = 70_000 if vr in objects.LONG_HEADER_VRS else 65_534
    size = rng.choice((0, 2, rng.randrange(0, most + 1, 2), rng.randrange(0, 600, 2), longest if rng.random() < 0.02 else 4))
    kind = rng.randrange(4)
    if kind == 0:
        return bytes(rng.randrange(256) for _ in range(size))
    if kind == 1:
        return (objects.ITEM_END + objects.SEQUENCE_END + b"\\" * 4 + b"ORIGINAL\\NO ")[:size]
    return bytes(rng.choice(b"ABCabc^=\\ 0123") for _ in range(size))


def two_models(rng, model, equal_sizes):
    """Two models that differ only in patient items, of which some are absent from both. They share the VRs, and where asked the lengths."""
    first, second = dict(model), dict(model)
    for tag, (vr, most) in PATIENT_ITEMS.items():
        first.pop(tag, None), second.pop(tag, None)
        if rng.random() < 0.85:
            vr = vr if rng.random() < 0.8 else rng.choice(OTHER_VRS)
            first[tag] = (vr, random_value(rng, vr, most))
            second[tag] = (vr, rng.randbytes(len(first[tag][1])) if equal_sizes else random_value(rng, vr, most))
    return first, second


def changed_in_place(rng, data):
    """A data set with other values in its patient items; None where it has none of them."""
    changed = None
    for tag, vr, depth, offset, length, *others in reversed(rows_of(data)):
        if not is_patient_item((tag, vr, depth)) or vr == SEQUENCE:
            continue
        letters = vr.to_bytes(2, "big").decode("latin-1")
        value = random_value(rng, letters, PATIENT_ITEMS[tag][1])
        width = 4 if letters in objects.LONG_HEADER_VRS else 2
        data = data[:offset - width] + struct.pack({2: "<H", 4: "<I"}[width], len(value)) + value + data[offset + length:]
        changed = data
    return changed


# ---------------------------------------------------------------------------------------------------------------------
# Both through every call


def called(call):
    """What a call answers, and its buffers afterwards but for the rows; each call gets buffers of the same content."""
    GuardedBuffer.start_at(1)
    observed = call()
    return observed.answer, [bytes(buffer.memory) for buffer in (observed.image, observed.values, observed.sheet) if buffer]


def slip_of(library, answer):
    GuardedBuffer.start_at(1)
    code, slip = library.write_slip(answer, 64)
    return code, bytes(slip.memory)


def check_pair(comparison, name, first, second, rng):
    """Two data sets through judge, slips, show, linear, sheet and compare, with the same rooms and frame numbers."""
    library = comparison.library
    if kept(first) != kept(second):
        raise DifferenceFound(f"the comparison itself is at fault: {name}: more differs than the patient items")
    comparison.note(("lengths", "same" if len(first) == len(second) else "differ"))
    exact = exact_numbers(first)

    def same(what, call):
        before, after = called(lambda: call(first)), called(lambda: call(second))
        comparison.must_equal(f"{name}: {what}: answer", after[0], before[0])
        comparison.must_be_right(f"{name}: {what}", None if after == before else "a buffer differs")
        comparison.note((what.split()[0], before[0].code))
        return before[0]

    for room in (exact, exact + 7, max(0, exact - 1)):
        answer = same(f"judge with {room}", lambda data: library.call_with_rows("xa_judge", data, room))
        comparison.must_equal(f"{name}: slip", *(slip_of(library, library.call_with_rows("xa_judge", data, room).answer) for data in (second, first)))
        if answer.code in (0, 8) or rng.random() < 0.2:
            frames = {0, 1, rng.randrange(1, 6), MANY_FRAMES}
            for frame in sorted(frames):
                size = rng.choice((0, 16, 4096, 4096, 1 << 16))
                same(f"show frame {frame}, {room}, {size}", lambda data: library.show(data, frame, room, size))
                same(f"linear frame {frame}, {room}, {size}", lambda data: library.linear(data, frame, room, size))
                last = rng.randrange(0, 6)
                same(f"sheet frames {frame} to {last}, {room}", lambda data: library.sheet(data, frame, last, room, sheet.NUMBERS))
                if rng.random() < 0.03:
                    check_comparing(comparison, name, first, second, frame, room, rng)
    tables = [called_rows(library, data, exact) for data in (first, second)]
    comparison.note(("row tables", "same" if tables[0] == tables[1] else "differ"))


def check_comparing(comparison, name, first, second, frame, room, rng):
    """Another workstation's picture, made from the reference's where there is one, against a frame of both."""
    ours = drawing.show(first, frame, exact_numbers(first), MANY_CELLS).image
    cells = bytes(min(255, level + rng.randrange(3)) for level in ours) or rng.randbytes(3)
    tolerance = rng.choice((0, 1, 2, 255, 256))
    before, after = (comparison.library.compare(data, frame, cells, tolerance, room).answer for data in (first, second))
    comparison.must_equal(f"{name}: compare frame {frame}, tolerance {tolerance}, {room}", after, before)
    comparison.note(("compare", before.answer.code))


def called_rows(library, data, room):
    GuardedBuffer.start_at(1)
    return bytes(library.call_with_rows("xa_read", data, room).rows.memory)


def compare_generated(comparison, rng, count):
    """Accepted runs, and runs with a broken rule, each encoded twice: sequences of defined length in one may be of undefined length in the other."""
    for number in range(count):
        change = rng.choice(CHANGES) if rng.random() < 0.4 else None
        model = xa.build(rng, xa.random_shape(rng, **(change.shape if change else {})))
        if change:
            change.edit(model, 1 if change.per_frame else 0)
        equal_sizes = rng.random() < 0.2
        models = two_models(rng, model, equal_sizes)
        first, second = (objects.encode(one) if equal_sizes else xa.encode_at_random(rng, one) for one in models)
        if rows_of(first) is not None and rows_of(second) is not None:
            check_pair(comparison, f"run {number}", first, second, rng)


def compare_outside(comparison, rng, required):
    """Answers how many objects that others made were compared, in words."""
    found = [(name, data) for name, _, data in outside.pydicom_data_sets()] + outside.dcmtk_data_sets(comparison.folder)
    if required and not found:
        raise DifferenceFound("no outside objects: python3-pydicom's test files or dcmtk are not installed")
    compared = 0
    for name, data in found:
        if rows_of(data) is None:
            continue
        for turn in range(3):
            other = changed_in_place(rng, data)
            if other is not None:
                check_pair(comparison, f"{name}, turn {turn}", data, other, rng)
                compared += turn == 0
    if required and not compared:
        raise DifferenceFound("no outside object has a patient item")
    return f"{compared} outside objects"


def run(comparison, arguments):
    rng = random.Random(comparison.seed)
    compare_generated(comparison, rng, comparison.count)
    line = compare_outside(comparison, rng, arguments.require_outside)
    comparison.insist([("judge", code) for code in (0, 8, 9)] + [("show", code) for code in (0, 8, 9, 10, 11)]
                      + [("linear", code) for code in (0, 10, 11, 20)] + [("sheet", code) for code in (0, 9, 10, 19)]
                      + [("lengths", "differ"), ("lengths", "same"), ("row tables", "differ")])
    return line


if __name__ == "__main__":
    run_as_program("privacy", run)
