"""Compares xa_linear, xa_root_level and xa_root_entry with the reference: every frame and number of accepted objects, refusals
that touch no number, and the square root derivation over all cells and levels."""

import random
import struct

from generators import enhanced_xa as xa
from generators import reading_cases
from generators.mutations import CHANGES
from reference import attributes as tags
from reference import intensity

from .common import DifferenceFound, exact_numbers, run_as_program

CELLS = 2 ** 14
LEVELS = 2 ** 8


def check_linear(comparison, name, data, frame, row_buffer_length, values_buffer_length):
    """One call compared; answers the reference's answer and the numbers."""
    known = {}

    def difference(candidate):
        expected = intensity.linear(candidate, frame, row_buffer_length, values_buffer_length)
        known[candidate] = expected
        return comparison.library.linear(candidate, frame, row_buffer_length, values_buffer_length).difference(expected)

    comparison.check(f"{name}, frame {frame}, row buffer {row_buffer_length}, values buffer {values_buffer_length}", data, difference)
    comparison.note(("code", known[data].answer.code))
    return known[data].answer, known[data].values


def size_of(model):
    rows, columns = (struct.unpack("<H", model[tag][1])[0] for tag in (tags.ROWS, tags.COLUMNS))
    return rows * columns


def check_every_frame(comparison, name, model, rng, codes=None):
    """An accepted object: each of its frames is mapped, or has no TO_LINEAR item. `codes`, if given, says which. Answers the
    numbers of each frame."""
    data = xa.encode_at_random(rng, model)
    count, size = exact_numbers(data), size_of(model)
    numbers = {}
    for frame in range(1, len(model[tags.PER_FRAME_FUNCTIONAL_GROUPS_SEQUENCE][1]) + 1):
        answer, numbers[frame] = check_linear(comparison, name, data, frame, count + rng.choice((0, 0, 9)), size + rng.choice((0, 0, 1, 40)))
        wanted = (0, 20) if codes is None else (codes[frame],)
        if answer.code not in wanted:
            raise DifferenceFound(f"the comparison itself is at fault: {name}, frame {frame}: {answer}, meant were {wanted}")
    return numbers


# ---------------------------------------------------------------------------------------------------------------------
# The square root derivation


def compare_derivation(comparison, rng):
    """Every 14-bit cell, larger numbers, and every level: the numbers, and what the request says of them."""
    library = comparison.library
    levels = [library.root_level(cell) for cell in range(CELLS)]
    entries = [library.root_entry(level) for level in range(LEVELS)]
    for cell, level in enumerate(levels):
        comparison.must_equal(f"level of cell {cell}", level, intensity.root_level(cell))
        comparison.must_equal(f"cell {cell} less the entry of its level, 0 to 127", 0 <= cell - entries[level] <= 127, True)
    for level, entry in enumerate(entries):
        comparison.must_equal(f"entry of level {level}", entry, intensity.root_entry(level))
        if level != 1:
            comparison.must_equal(f"level {level} through its entry", levels[entry], level)
    comparison.must_equal("a cell that becomes 1", 1 in levels, False)
    larger = [CELLS * high + low for high in (1, 2, 3, 2 ** 18, 2 ** 50 - 1) for low in (0, 1, 2, 4095, 4096, CELLS - 1)]
    for cell in larger + [rng.randrange(2 ** 64) for _ in range(2000)]:
        comparison.must_equal(f"level of {cell}, its lowest 14 bits", library.root_level(cell), levels[cell % CELLS])


# ---------------------------------------------------------------------------------------------------------------------
# The mapping


def plain_shape(rng, **fixed):
    """A shape with little in it but what is fixed."""
    return xa.random_shape(rng, **{"masks": (), "voi": "absent", "frame_shift": "absent", "characteristics": "absent", "extras": False,
                                   "luts": "absent", "properties": "absent", **fixed})


def table(entries, first):
    """A TO_LINEAR item; an entry count of 65,536 is written as 0."""
    return {tags.LUT_FUNCTION: xa.text("CS", "TO_LINEAR"), tags.LUT_DESCRIPTOR: xa.us(len(entries) % 65536, first, 16),
            tags.LUT_DATA: ("OW", struct.pack(f"<{len(entries)}H", *entries))}


def cells_about(first, count, stored):
    """Cells at and about both ends of the table, at the ends of the stored bits, and a few between."""
    edges = (0, first, first + count - 1, 2 ** stored - 1, 255, 256)
    found = {edge + near for edge in edges for near in (-2, -1, 0, 1, 2)} | {first + count // 2, 2 ** (stored - 1)}
    return sorted(cell for cell in found if 0 <= cell < 2 ** stored)


def compare_edges(comparison, rng):
    """Tables of 1 to 65,536 entries from cells low, high and beyond every cell, at 8 to 16 bits stored. Entries that are next to
    each other differ, so a place that is off by one shows; unused high bits are set in every second cell."""
    for count in (1, 2, 3, 255, 256, 257, 4096, 65_535, 65_536):
        for first in (0, 1, 10, 255, 4095, 65_535):
            for stored in (8, rng.randrange(9, 16), 16):
                cells = cells_about(first, count, stored)
                entries = [(37 * place + 11) % 65536 for place in range(count)]
                shape = plain_shape(rng, bits_allocated=8 if stored == 8 else 16, bits_stored=stored, frames=1, rows=1, columns=len(cells),
                                    pixel_vr="OW")
                model = xa.build(rng, shape)
                model[tags.SHARED_FUNCTIONAL_GROUPS_SEQUENCE][1][0][tags.PIXEL_INTENSITY_RELATIONSHIP_LUT_SEQUENCE] = xa.sq(table(entries, first))
                unused = 0 if stored in (8, 16) else 2 ** 16 - 2 ** stored
                content = b"".join((cell + unused * (place % 2)).to_bytes(1 if stored == 8 else 2, "little") for place, cell in enumerate(cells))
                model[tags.PIXEL_DATA] = ("OW", content + bytes(len(content) % 2))
                name = f"{count} entries from cell {first}, {stored} bits"
                numbers = check_every_frame(comparison, name, model, rng, {1: 0})[1]
                # Below the first the first entry, above the last the last, worked out here once more.
                meant = tuple(entries[0] if cell < first else entries[-1] if cell >= first + count else entries[cell - first] for cell in cells)
                comparison.must_equal(f"{name}: numbers", numbers, meant)
                comparison.note(("below", any(cell < first for cell in cells)))
                comparison.note(("above", any(cell >= first + count for cell in cells)))
    comparison.insist([("below", True), ("below", False), ("above", True), ("above", False)])


def compare_whose_table(comparison, rng):
    """Of three frames: each its own table, one for all, one that only some see."""
    def model_of():
        model = xa.build(rng, plain_shape(rng, bits_allocated=8, bits_stored=8, frames=3, rows=1, columns=2, pixel_vr="OB"))
        model[tags.PIXEL_DATA] = ("OB", bytes((7, 8) * 3))
        return model, model[tags.SHARED_FUNCTIONAL_GROUPS_SEQUENCE][1][0], model[tags.PER_FRAME_FUNCTIONAL_GROUPS_SEQUENCE][1]

    luts = lambda *tables: xa.sq(*tables)
    model, shared, own = model_of()
    for number, item in enumerate(own):
        item[tags.PIXEL_INTENSITY_RELATIONSHIP_LUT_SEQUENCE] = luts(table([100 * number, 1, 2, 3], 7))
    numbers = check_every_frame(comparison, "own tables", model, rng, {1: 0, 2: 0, 3: 0})
    comparison.must_equal("own tables", numbers, {1: (0, 1), 2: (100, 1), 3: (200, 1)})
    model, shared, own = model_of()
    shared[tags.PIXEL_INTENSITY_RELATIONSHIP_LUT_SEQUENCE] = luts(table([9, 5], 8))
    numbers = check_every_frame(comparison, "a shared table", model, rng, {1: 0, 2: 0, 3: 0})
    comparison.must_equal("a shared table", numbers, {1: (9, 9), 2: (9, 9), 3: (9, 9)})
    model, shared, own = model_of()
    own[1][tags.PIXEL_INTENSITY_RELATIONSHIP_LUT_SEQUENCE] = luts({}, table([40, 50], 7), {tags.LUT_FUNCTION: xa.text("CS", "TO_LOG")})
    numbers = check_every_frame(comparison, "one own table, among other items", model, rng, {1: 20, 2: 0, 3: 20})
    comparison.must_equal("one own table, among other items", numbers, {1: (), 2: (40, 50), 3: ()})
    model, shared, own = model_of()
    shared[tags.PIXEL_INTENSITY_RELATIONSHIP_LUT_SEQUENCE] = luts({tags.LUT_FUNCTION: xa.text("CS", "TO_LOG")})
    check_every_frame(comparison, "a shared table of another function", model, rng, {1: 20, 2: 20, 3: 20})


def compare_masked(comparison, rng):
    """Cells go to the mapping as they are stored: neither mask nor window nor polarity changes a number."""
    for photometric in ("MONOCHROME1", "MONOCHROME2"):
        model = xa.build(rng, plain_shape(rng, bits_allocated=8, bits_stored=8, frames=3, rows=2, columns=4, masks=("AVG_SUB",), ranges=False,
                                          voi="shared", photometric=photometric, pixel_vr="OB"))
        model[tags.SHARED_FUNCTIONAL_GROUPS_SEQUENCE][1][0][tags.PIXEL_INTENSITY_RELATIONSHIP_LUT_SEQUENCE] = xa.sq(table(list(range(1000, 1256)), 0))
        cells = model[tags.PIXEL_DATA][1]
        numbers = check_every_frame(comparison, f"masked, {photometric}", model, rng, {1: 0, 2: 0, 3: 0})
        comparison.must_equal("stored cells", numbers, {frame: tuple(1000 + cell for cell in cells[8 * frame - 8:8 * frame]) for frame in (1, 2, 3)})


def compare_random_objects(comparison, rng, count):
    for number in range(count):
        shape = xa.random_shape(rng, frames=rng.choice((1, 2, 3, 5)), luts=rng.choice(xa.PLACES[:3] * 3 + ("absent",)))
        model = xa.build(rng, shape)
        check_every_frame(comparison, f"object {number}", model, rng)
        if number % 10 == 0:
            check_refusals(comparison, f"object {number}", rng)


# ---------------------------------------------------------------------------------------------------------------------
# Refusals


def check_refusals(comparison, name, rng):
    """An accepted object whose frame 2 alone has a table, with frame numbers and buffers that are refused, one thing and several
    at once: 8 before 10, 10 before 20, 20 before 11."""
    model = xa.build(rng, plain_shape(rng, frames=3))
    model[tags.PER_FRAME_FUNCTIONAL_GROUPS_SEQUENCE][1][1][tags.PIXEL_INTENSITY_RELATIONSHIP_LUT_SEQUENCE] = xa.sq(table([1, 2, 3], 0))
    data = xa.encode_at_random(rng, model)
    count, size = exact_numbers(data), size_of(model)
    cases = [(frame, count, room, 10) for frame in (0, 4, 65_538, 2 ** 32 + 2, 2 ** 64 - 1) for room in (size, 0)]
    cases += [(1, count, size, 20), (1, count, size - 1, 20), (3, count, 0, 20), (2, count, size - 1, 11), (2, count, 0, 11),
              (2, count, size, 0), (2, count + 1, size + 1, 0), (2, count - 1, size, 8), (1, count - 1, 0, 8), (0, 0, 0, 8)]
    for frame, row_length, room, code in cases:
        answer, _ = check_linear(comparison, name, data, frame, row_length, room)
        comparison.must_equal(f"{name}, frame {frame}: code", answer.code, code)


def compare_changes(comparison, rng):
    """Every way to break rule 39 and every near miss of it, and some of the other rules'; data sets that do not read."""
    others = [change for change in CHANGES if change.rule not in (0, 39)]
    for change in [change for change in CHANGES if change.about == 39] + rng.sample(others, len(others) // 10):
        for frame in (1, 3, 5) if change.per_frame else (0,):
            model = xa.build(rng, xa.random_shape(rng, **change.shape))
            change.edit(model, frame)
            data = xa.encode_at_random(rng, model)
            name = f"rule {change.rule}, {change.name}"
            answer, _ = check_linear(comparison, name, data, max(1, frame), exact_numbers(data), rng.choice((100, 2000)))
            comparison.must_equal(f"{name}: rule named", answer.rule, change.rule)
            comparison.note(("rule", answer.rule))
    for name, data, _ in reading_cases.CASES:
        check_linear(comparison, f"small case {name}", data, 1, 1000, 100)
    comparison.insist([("rule", 39), ("rule", 0)])


def compare_odd_data(comparison, rng):
    """LUT Data of an odd length, a byte short or long, does not read: code 4."""
    for extra in (-1, 1):
        model = xa.build(rng, plain_shape(rng, frames=1))
        item = table([1, 2, 3], 0)
        item[tags.LUT_DATA] = ("OW", bytes(6 + extra))
        model[tags.SHARED_FUNCTIONAL_GROUPS_SEQUENCE][1][0][tags.PIXEL_INTENSITY_RELATIONSHIP_LUT_SEQUENCE] = xa.sq(item)
        data = xa.encode_at_random(rng, model)
        answer, _ = check_linear(comparison, f"LUT Data of {6 + extra} bytes", data, 1, 1000, 1000)
        comparison.must_equal("an odd length", answer.code, 4)


def compare_size_limit(comparison):
    comparison.too_large("a map", lambda memory, length: intensity.linear(memory, 1, length, 8),
                         lambda memory, length: comparison.library.call_on_mapping("xa_linear", memory, length))


def run(comparison, arguments):
    rng = random.Random(comparison.seed)
    compare_derivation(comparison, rng)
    compare_edges(comparison, rng)
    compare_whose_table(comparison, rng)
    compare_masked(comparison, rng)
    compare_changes(comparison, rng)
    compare_odd_data(comparison, rng)
    compare_random_objects(comparison, rng, comparison.count)
    compare_size_limit(comparison)
    comparison.insist([("code", code) for code in (*range(12), 20)])
    return f"{CELLS} cells and {LEVELS} levels of the square root; {comparison.tally[('code', 0)]} frames mapped"


if __name__ == "__main__":
    run_as_program("linear", run)
