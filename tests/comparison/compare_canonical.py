"""Compares xa_canonical with the reference: answers, row buffers, targets, and what must stay untouched. What is written is also held to
the claims of Q-10: read back, written again, written from other lengths, judged and drawn."""

import random

from generators import enhanced_xa as xa
from generators import objects, outside, reading_cases, sample_cases
from generators.mutations import CHANGES
from reference import canonical, drawing, reading
from reference.canonical import CanonicalAnswer

from .common import DifferenceFound, run_as_program, zeros
from .compare_read import cut_and_joined, flipped

AMPLE = 1 << 20


def check_canonical(comparison, name, data, row_buffer_length, target_length):
    """One call compared; answers the reference's answer."""

    def difference(candidate):
        expected = canonical.write_canonical(candidate, row_buffer_length, target_length)
        return comparison.library.canonical(candidate, row_buffer_length, target_length).difference(expected)

    comparison.check(name, data, difference)
    return canonical.write_canonical(data, row_buffer_length, target_length).answer


def room_for_rows(data):
    """How many numbers the rows are, 0 where the data set is refused."""
    return len(reading.read(data, AMPLE + 8 * len(data)).rows)


def check_with_buffers(comparison, name, data, rng):
    """A data set with row buffers and targets that are short, exact and larger; a refused one with any. Answers the code with ample room."""
    exact = room_for_rows(data)
    whole = canonical.write_canonical(data, exact, len(data)).answer
    if whole.code == 0:
        row_rooms = {exact, exact + rng.choice((1, 7, 50)), max(0, exact - 1)}
        targets = {whole.length, whole.length + rng.choice((1, 8, 100)), max(0, whole.length - 1), rng.randrange(whole.length + 1), len(data)}
    else:
        row_rooms = {0, rng.randrange(100)}
        targets = {0, rng.randrange(100)}
    for row_room in sorted(row_rooms):
        for target in sorted(targets):
            found = check_canonical(comparison, f"{name}, row buffer of {row_room}, target of {target}", data, row_room, target)
            comparison.note(("code", found.code))
            if found.code == 0:
                comparison.note(("room", (target > found.length) - (target < found.length)))
    return whole.code


def form_of(comparison, name, data):
    """What the library writes of a data set that reads well."""
    observed = comparison.library.canonical(data, room_for_rows(data), len(data))
    if observed.answer.code != 0:
        raise DifferenceFound(f"{name}: {observed.answer}, though it reads well")
    return bytes(observed.target.memory)[64:64 + observed.answer.length]


def rows_without_places(data):
    """Tag, VR, depth, rows below and what follows it in a row; and the value of an element that is not SQ."""
    numbers = reading.read(data, AMPLE + 8 * len(data)).rows
    width = len(numbers) // max(1, reading.read(data, AMPLE + 8 * len(data)).answer.rows)
    found = []
    for at in range(0, len(numbers), max(1, width)):
        tag, vr, depth, offset, length, *others = numbers[at:at + width]
        value = data[offset:offset + length] if vr not in (0, 0x5351) else None
        found.append((tag, vr, depth, others, value))
    return found


# ---------------------------------------------------------------------------------------------------------------------
# Small cases with answers worked out by hand

# (0008,1140) SQ undefined { item undefined { (0028,0010) US 2 } item of length 0 } then (0028,0011) US 2.
MIXED = bytes.fromhex("08004011 5351 0000 FFFFFFFF FEFF00E0 FFFFFFFF 28001000 5553 0200 0200 FEFF0DE0 00000000 FEFF00E0 00000000"
                      "FEFFDDE0 00000000 28001100 5553 0200 0200")
MIXED_FORM = bytes.fromhex("08004011 5351 0000 1A000000 FEFF00E0 0A000000 28001000 5553 0200 0200 FEFF00E0 00000000"
                           "28001100 5553 0200 0200")


def compare_by_hand(comparison, rng):
    observed = comparison.library.canonical(MIXED, 5 * 7, len(MIXED_FORM))
    comparison.must_equal("worked out by hand: the answer", observed.answer, CanonicalAnswer(0, rows=5, length=len(MIXED_FORM)))
    comparison.must_be_right("worked out by hand: the target", observed.target.fault(MIXED_FORM))
    observed = comparison.library.canonical(MIXED, 5 * 7, len(MIXED_FORM) - 1)
    comparison.must_equal("one byte short: the answer", observed.answer, CanonicalAnswer(21, length=len(MIXED_FORM)))
    comparison.must_be_right("one byte short: the target", observed.target.fault(b""))
    for name, data, _ in sample_cases.READING + [(name, data, None) for name, data, _ in reading_cases.CASES]:
        check_with_buffers(comparison, name, data, rng)


# ---------------------------------------------------------------------------------------------------------------------
# Generated data sets


def compare_generated(comparison, rng, count):
    """Each data set with defined lengths, with undefined ones, and mixed: all have the form of the first, which the builder of objects wrote."""
    for number in range(count):
        model = objects.random_model(rng)
        form = objects.encode(model)
        for share in (0.0, rng.random(), 1.0):
            data = objects.encode(model, lambda: rng.random() < share)
            name = f"generated {number}, {share:.2f} of the lengths undefined"
            if check_with_buffers(comparison, name, data, rng) != 0:
                raise DifferenceFound(f"the comparison itself is at fault: {name} is refused")
            comparison.must_be_right(name, None if form_of(comparison, name, data) == form else "another form than its defined lengths have")
        comparison.note(("same", len(form) > 0))
        if form:
            for change in (flipped, cut_and_joined):
                changed = change(rng, data)
                comparison.note((change.__name__, check_with_buffers(comparison, f"{name}, {change.__name__}", changed, rng)))


def compare_nested(comparison, rng, rounds):
    """To the last depth that is read, and one deeper."""
    for _ in range(rounds):
        for depth in range(10):
            data = objects.nest(rng, objects.element(0x00280010, "US", b"\2\0"), depth, rng.choice((None, True, False)))
            code = check_with_buffers(comparison, f"nested {depth}", data, rng)
            comparison.must_equal(f"nested {depth}: the code", code, 6 if depth == 9 else 0)


def compare_many_rows(comparison):
    """Far more rows than any stack holds: elements in one item, items in one sequence."""
    many_items = objects.sequence(0x52009230, objects.item(b"", True) * 50_000, True)
    many_elements = objects.sequence(0x52009230, objects.item(
        b"".join(objects.element(0x00100000 + number, "CS", b"") for number in range(50_000)), True), True)
    for name, data in (("many items", many_items), ("many elements", many_elements)):
        exact = room_for_rows(data)
        length = canonical.write_canonical(data, exact, len(data)).answer.length
        for target in (length - 1, length, len(data)):
            check_canonical(comparison, f"{name}, target of {target}", data, exact, target)


def compare_size_limit(comparison):
    """1,073,741,824 bytes are read, and with a short target answered with 21; one more is refused before anything else is looked at."""
    limit = reading.MAXIMUM_SIZE
    head = objects.element_header(0x7FE00010, "OW", limit - 12)
    for name, size, start, expected in (("as large as allowed", limit, head, CanonicalAnswer(21, length=limit)),
                                        ("too large", limit + 1, head, CanonicalAnswer(7)), ("too large, and faulty", limit + 1, bytes(8), CanonicalAnswer(7))):
        memory = zeros(size)
        memory[:len(start)] = start
        outcome = canonical.write_canonical(memory, 20, 16)
        comparison.must_equal(f"{name}: the reference", outcome.answer, expected)
        comparison.must_be_right(name, comparison.library.canonical_on_mapping(memory, 20, 16).difference(outcome))
        comparison.note(("code", expected.code))


# ---------------------------------------------------------------------------------------------------------------------
# The claims


def compare_claims(comparison, rng, count):
    """Runs that are accepted and runs with a broken rule, written with lengths of all kinds: the form reads back as the same rows and values, is its own
    form, and is judged and drawn as the run was."""
    for number in range(count):
        change = rng.choice(CHANGES) if rng.random() < 0.5 else None
        model = xa.build(rng, xa.random_shape(rng, **(change.shape if change else {})))
        if change:
            change.edit(model, 1 if change.per_frame else 0)
        data = objects.encode(model, lambda: rng.random() < 0.5)
        name = f"run {number}"
        if reading.read(data, 8 * len(data)).answer.code != 0:
            continue
        form = form_of(comparison, name, data)
        comparison.must_be_right(f"{name}, written again", None if form_of(comparison, name, form) == form else "its form has another form")
        comparison.must_be_right(f"{name}, read back", None if rows_without_places(form) == rows_without_places(data) else "rows or values differ")
        comparison.must_be_right(f"{name}, its length", None if len(form) <= len(data) else "the form is longer")
        exact = room_for_rows(data)
        for room in (exact, max(0, exact - 1)):
            before, after = (comparison.library.call_with_rows("xa_judge", one, room).answer for one in (data, form))
            comparison.must_equal(f"{name}, judged with {room} numbers", after, before)
            comparison.note(("judged", before.code))
            frame = rng.choice((0, 1, 1, 2, 3))
            before, after = (comparison.library.show(one, frame, room, 1 << 16) for one in (data, form))
            comparison.must_equal(f"{name}, frame {frame}", after.answer, before.answer)
            if before.answer.code == 0:
                picture = drawing.show(data, frame, room, 1 << 16).image
                comparison.must_be_right(f"{name}, picture of frame {frame}", before.image.fault(picture) or after.image.fault(picture))
            comparison.note(("shown", before.answer.code))


# ---------------------------------------------------------------------------------------------------------------------
# Objects made by others


def compare_outside(comparison, rng, required):
    """Answers how many were compared, in words."""
    found = [(name, data) for name, _, data in outside.pydicom_data_sets()]
    made = outside.dcmtk_data_sets(comparison.folder)
    if required and not (found and made):
        raise DifferenceFound("no outside objects: python3-pydicom's test files or dcmtk are not installed")
    for name, data in found + made:
        check_with_buffers(comparison, name, data, rng)
    written = compare_writers(comparison, found + made)
    if required and not all(written.values()):
        raise DifferenceFound(f"no outside writer wrote what it read: {written}")
    return f"{len(found) + len(made)} outside objects; our form byte for byte: " + ", ".join(f"{name} {count}" for name, count in written.items())


def compare_writers(comparison, data_sets):
    """What dcmconv +e and pydicom write for an object is its canonical form, wherever they keep every element as it was. Answers how often, by writer."""
    written = {}
    for name, data in data_sets:
        if reading.read(data, 8 * len(data)).answer.code != 0:
            continue
        form = form_of(comparison, name, data)
        for writer, theirs in outside.written_defined(comparison.folder, data):
            if reading.read(theirs, 8 * len(theirs)).answer.code != 0 or rows_without_places(theirs) != rows_without_places(data):
                continue
            comparison.must_be_right(f"{name} by {writer}", None if theirs == form else "another form")
            written[writer] = written.get(writer, 0) + 1
    return written


def run(comparison, arguments):
    rng = random.Random(comparison.seed)
    compare_by_hand(comparison, rng)
    compare_nested(comparison, rng, 3)
    compare_generated(comparison, rng, comparison.count)
    compare_many_rows(comparison)
    compare_size_limit(comparison)
    compare_claims(comparison, rng, max(20, comparison.count // 20))
    comparison.insist([("judged", 0), ("judged", 8), ("judged", 9), ("shown", 0), ("shown", 8), ("shown", 9), ("shown", 10)])
    line = compare_outside(comparison, rng, arguments.require_outside)
    comparison.insist([("code", code) for code in (*range(9), 21)] + [("room", 0), ("room", 1), ("same", True)])
    return line


if __name__ == "__main__":
    run_as_program("canonical", run)
