"""Compares xa_sheet with the reference: sheets of whole runs and of parts of them, refusals that come with zeros, windows that change
from frame to frame, and the sheet held against the pictures of xa_show."""

import random
import struct

from generators import enhanced_xa as xa
from generators import reading_cases
from generators.mutations import CHANGES
from reference import attributes as tags
from reference import sheet

from .common import DifferenceFound, exact_numbers, run_as_program

NUMBERS = sheet.NUMBERS


def check_sheet(comparison, name, data, first, last, row_buffer_length, sheet_length=NUMBERS):
    """One call compared; answers the reference's outcome."""
    known = {}

    def difference(candidate):
        expected = sheet.sheet(candidate, first, last, row_buffer_length, sheet_length)
        known[candidate] = expected
        return comparison.library.sheet(candidate, first, last, row_buffer_length, sheet_length).difference(expected)

    comparison.check(f"{name}, frames {first} to {last}, row buffer {row_buffer_length}, sheet {sheet_length}", data, difference)
    comparison.note(("code", known[data].answer.code))
    return known[data]


def size_of(model):
    rows, columns = (struct.unpack("<H", model[tag][1])[0] for tag in (tags.ROWS, tags.COLUMNS))
    return rows * columns


def check_done(comparison, name, model, rng):
    """An accepted object: the sheet of all frames, of each by itself, and of parts; what the request says of their numbers."""
    data = xa.encode_at_random(rng, model)
    room, size, frames = exact_numbers(data), size_of(model), len(model[tags.PER_FRAME_FUNCTIONAL_GROUPS_SEQUENCE][1])
    parts = {(1, frames), (1, 1), (frames, frames)} | {tuple(sorted(rng.choices(range(1, frames + 1), k=2))) for _ in range(3)}
    for first, last in sorted(parts):
        outcome = check_sheet(comparison, name, data, first, last, room + rng.choice((0, 0, 9)), NUMBERS + rng.choice((0, 0, 1, 5)))
        if outcome.answer.code != 0:
            raise DifferenceFound(f"the comparison itself is at fault: {name}, frames {first} to {last}: {outcome.answer}")
        counts, (native, lowest, highest, total) = outcome.sheet[:256], outcome.sheet[256:]
        comparison.must_equal(f"{name}: counts add up", sum(counts), (last - first + 1) * size)
        comparison.must_equal(f"{name}: sum", total, sum(level * count for level, count in enumerate(counts)))
        comparison.must_equal(f"{name}: lowest and highest", (lowest, highest), (min(filter(counts.__getitem__, range(256))), max(filter(counts.__getitem__, range(256)))))
        comparison.note(("native", "all" if native == last - first + 1 else "none" if native == 0 else "some"))
    return data


def check_pictures(comparison, name, model, rng):
    """The sheet of two frames against what xa_show draws of them."""
    data = xa.encode_at_random(rng, model)
    room, size, frames = exact_numbers(data), size_of(model), len(model[tags.PER_FRAME_FUNCTIONAL_GROUPS_SEQUENCE][1])
    counts = [0] * 256
    first = rng.randrange(1, frames + 1)
    last = min(frames, first + 1)
    native = 0
    for frame in range(first, last + 1):
        shown = comparison.library.show(data, frame, room, size)
        native += 1 - shown.answer.masked
        for level in bytes(shown.image.memory)[64:64 + size]:
            counts[level] += 1
    outcome = sheet.sheet(data, first, last, room)
    comparison.must_equal(f"{name}: counts of the pictures", outcome.sheet[:257], (*counts, native))


def compare_windows(comparison, rng):
    """Small and large frames whose windows are all the same, change once, change with every frame, and come back: a table of levels that
    was kept too long would show. All stored bits, both polarities, both functions."""
    for stored in (8, 9, 12, 16):
        for rows, columns in ((1, 1), (2, 2), (5, 3), (40, 30)):
            for turn in (0, 1, 2, 5):
                shape = xa.random_shape(rng, bits_allocated=8 if stored == 8 else 16, bits_stored=stored, frames=7, rows=rows, columns=columns,
                                        voi="frames", masks=rng.choice(((), ("AVG_SUB",), ("TID",))), extras=False)
                model = xa.build(rng, shape)
                windows = [item[tags.FRAME_VOI_LUT_SEQUENCE] for item in model[tags.PER_FRAME_FUNCTIONAL_GROUPS_SEQUENCE][1]
                           if tags.FRAME_VOI_LUT_SEQUENCE in item]
                if turn and windows:
                    for place, item in enumerate(model[tags.PER_FRAME_FUNCTIONAL_GROUPS_SEQUENCE][1]):
                        item[tags.FRAME_VOI_LUT_SEQUENCE] = windows[(place // turn) % len(windows)]
                check_done(comparison, f"windows, {stored} bits, {rows} × {columns}, turn {turn}", model, rng)


def compare_random_objects(comparison, rng, count):
    for number in range(count):
        model = xa.build(rng, xa.random_shape(rng, frames=rng.choice((1, 2, 3, 5, 9))))
        check_done(comparison, f"object {number}", model, rng)
        check_pictures(comparison, f"object {number}", model, rng)
        if number % 10 == 0:
            check_refusals(comparison, f"object {number}", rng)


def check_refusals(comparison, name, rng):
    """8 before 19, 19 before 10, 10 before 11; each with zeros, or with a buffer that is left alone where it is too small."""
    model = xa.build(rng, xa.random_shape(rng, frames=3))
    data = xa.encode_at_random(rng, model)
    room = exact_numbers(data)
    far = (4, 65_537, 2 ** 32 + 1, 2 ** 63, 2 ** 64 - 1)
    cases = [(2, 1, room, 19), (1, 0, room, 19), (3, 2, room, 19), (9, 0, room, 19), (2 ** 64 - 1, 0, room, 19), (2 ** 64 - 1, 4, room, 19)]
    cases += [(0, 0, room, 10), (0, 3, room, 10), (0, 9, room, 10), (4, 4, room, 10)] + [(1, last, room, 10) for last in far] + [(at, at, room, 10) for at in far]
    cases += [(1, 3, room - 1, 8), (2, 1, room - 1, 8), (0, 9, 0, 8), (1, 3, room, 0), (3, 3, room + 1, 0)]
    for first, last, rows, code in cases:
        for length in (NUMBERS, NUMBERS + 2, NUMBERS - 1, 0):
            outcome = check_sheet(comparison, name, data, first, last, rows, length)
            wanted = 11 if code == 0 and length < NUMBERS else code
            comparison.must_equal(f"{name}, frames {first} to {last}, sheet {length}: code", outcome.answer.code, wanted)


def compare_changes(comparison, rng):
    """Ways to break each rule, and data sets that do not read: 9 and 1 to 6, whatever the frames."""
    for change in rng.sample(CHANGES, len(CHANGES) // 6):
        model = xa.build(rng, xa.random_shape(rng, **change.shape))
        change.edit(model, 1 if change.per_frame else 0)
        data = xa.encode_at_random(rng, model)
        outcome = check_sheet(comparison, f"rule {change.rule}, {change.name}", data, rng.choice((0, 1, 2)), rng.choice((0, 1, 2)), exact_numbers(data))
        comparison.must_equal(f"rule {change.rule}, {change.name}: rule named", outcome.answer.rule, change.rule)
    for name, data, _ in reading_cases.CASES:
        for first, last in ((1, 1), (2, 1)):
            check_sheet(comparison, f"small case {name}", data, first, last, 1000)


def compare_size_limit(comparison):
    comparison.too_large("a sheet", lambda memory, length: sheet.sheet(memory, 1, 1, length),
                         lambda memory, length: comparison.library.sheet_on_mapping(memory, length, NUMBERS))


def run(comparison, arguments):
    rng = random.Random(comparison.seed)
    compare_windows(comparison, rng)
    compare_changes(comparison, rng)
    compare_random_objects(comparison, rng, comparison.count)
    compare_size_limit(comparison)
    comparison.insist([("code", code) for code in (*range(12), 19)] + [("native", kind) for kind in ("all", "some", "none")])
    return f"{comparison.tally[('code', 0)]} sheets"


if __name__ == "__main__":
    run_as_program("sheet", run)
