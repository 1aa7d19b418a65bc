"""Compares xa_read and xa_count with the reference: answers, row buffers, and what must stay untouched."""

import random
import re

from generators import objects, outside, reading_cases, sample_cases
from reference import parents, reading
from reference.answers import Answer
from reference.reading import NUMBERS_IN_A_ROW

from .common import DifferenceFound, enough_numbers, run_as_program, zeros
from .library import HEADER


def check_read(comparison, name, data, row_buffer_length):
    """One call compared; answers the reference's answer."""

    def difference(candidate):
        expected = reading.read(candidate, row_buffer_length)
        return comparison.library.call_with_rows("xa_read", candidate, row_buffer_length).difference(expected)

    comparison.check(name, data, difference)
    outcome = reading.read(data, row_buffer_length)
    if outcome.answer.code == 0:
        check_parents(comparison, name, outcome.rows)
    return outcome.answer


def check_count(comparison, name, data):
    """The rows counted, with no buffer lent."""

    def difference(candidate):
        found, fault = comparison.library.count(candidate)
        expected = reading.count(candidate)
        return fault if found == expected else f"xa_count answers {found}, expected {expected}"

    comparison.check(f"{name}: count", data, difference)
    comparison.note(("counted", reading.count(data).code))


def check_version(comparison):
    """The library says the version that its header has."""
    with open(HEADER) as file:
        version = int(re.search(r"^#define XA_VERSION (\d+)$", file.read(), re.MULTILINE).group(1))
    comparison.must_equal("version", comparison.library.version(), version)


def check_parents(comparison, name, numbers):
    """What Q-6 says of the last number, of rows that the library wrote as well."""
    table = parents.table_of(numbers)
    comparison.must_be_right(f"{name}: parents", parents.fault(table))
    comparison.note(("steps", parents.steps(table)))


def check_read_with_buffers(comparison, name, data, rng):
    """A data set counted, and read with row buffers one number short, exact and larger; a refused one with any length."""
    check_count(comparison, name, data)
    answer = reading.read(data, enough_numbers(data)).answer
    if answer.code == 0:
        exact = NUMBERS_IN_A_ROW * answer.rows
        lengths = {exact, exact + rng.choice((1, 5, 6, 7, 50)), max(0, exact - 1), max(0, exact - answer.rows), rng.randrange(exact + 1)}
    else:
        lengths = {0, rng.randrange(100)}
    for length in sorted(lengths):
        found = check_read(comparison, f"{name}, row buffer of {length}", data, length)
        comparison.note(("code", found.code))
    return answer


# ---------------------------------------------------------------------------------------------------------------------
# Sample cases and small cases with answers worked out by hand


def compare_samples(comparison, rng):
    for name, data, expected in sample_cases.READING:
        if reading.read(data, 1000) != expected:
            raise DifferenceFound(f"sample case {name}: the reference is wrong")
        found = comparison.library.call_with_rows("xa_read", data, 1000).difference(expected)
        comparison.must_be_right(f"sample case {name}", found)
        check_read_with_buffers(comparison, f"sample case {name}", data, rng)
    for name, data, (code, number) in reading_cases.CASES:
        observed = comparison.library.call_with_rows("xa_read", data, 1000)
        worked_out = Answer(0, rows=number) if code == 0 else Answer(code, offset=number)
        comparison.must_equal(f"small case {name}", observed.answer, worked_out)
        check_read_with_buffers(comparison, f"small case {name}", data, rng)


# ---------------------------------------------------------------------------------------------------------------------
# Generated data sets

FIRST = objects.element(0x00280010, "US", b"\2\0")
DELIMITER_OF_LENGTH_2 = objects.tag_bytes(0xFFFEE00D) + b"\2\0\0\0ab"


def faulty_elements(rng):
    """One element of each fault, as (code, bytes). They read as faulty in a root or an item of any kind of length."""
    long_vr = rng.choice([vr for vr in objects.LONG_HEADER_VRS if vr != "SQ"])
    short_vr = rng.choice(objects.SHORT_HEADER_VRS)
    high = 0x60000000 + rng.randrange(0x1000000)
    value = rng.randbytes(2 * rng.randrange(4))
    other_fffe = objects.tag_bytes(0xFFFE0000 | rng.choice((0xE0DD, 0xE000, 0x0000, 0xE00C, 0xFFFF)))
    unknown_vr = rng.choice((b"XX", b"us", b"S\0", b"\0\0", b"  ", b"QS", b"OO", b"OA", b"UZ", b"\xFF\xFF"))
    return [
        (1, objects.element(high, short_vr, value, len(value) + 60_000)),
        (1, objects.element(high, long_vr, value, len(value) + rng.choice((100_000, 0x7FFFFFFE, 0xFFFFFFF0)))),
        (2, FIRST + objects.element(rng.choice((0x00280010, 0x0028000F, 0x00270011, 0)), short_vr, value)),
        (3, objects.tag_bytes(high) + unknown_vr + bytes(4)),
        (4, objects.element(high, short_vr, value + b"a")),
        (4, objects.element(high, long_vr, value, rng.choice((0xFFFFFFFD, 1, 7)))),
        (4, objects.element(high, short_vr, value, 0xFFFF)),
        (5, objects.tag_bytes(high) + long_vr.encode() + rng.choice((b"\0\1", b"\1\0", b"\xFF\xFF")) + bytes(4)),
        (5, objects.element(high, long_vr, value, objects.UNDEFINED)),
        (5, other_fffe + bytes(4)),
        (5, DELIMITER_OF_LENGTH_2),
        (5, objects.sequence(high, FIRST)),
        (5, objects.sequence(high, DELIMITER_OF_LENGTH_2, True)),
    ]


def compare_codes_at_depths(comparison, rng, rounds):
    """Each fault at each depth 0 to 8, in sequences and items of defined and of undefined length."""
    for round_number in range(rounds):
        for depth in range(9):
            undefined = (None, True, False)[round_number % 3]
            for code, faulty in faulty_elements(rng):
                if depth == 8 and faulty[4:6] == b"SQ":
                    continue
                before = FIRST if rng.random() < 0.5 and code != 2 else b""
                data = objects.nest(rng, before + faulty, depth, undefined)
                answer = check_read_with_buffers(comparison, f"fault {code} at depth {depth}", data, rng)
                if answer.code != code:
                    raise DifferenceFound(f"the comparison itself is at fault: {answer} where {code} was meant")
                comparison.note(("code at depth", answer.code, depth))
            deep = objects.nest(rng, objects.nest(rng, b"", 9 - depth, undefined), depth, undefined)
            answer = check_read_with_buffers(comparison, "nested 9", deep, rng)
            if answer.code != 6:
                raise DifferenceFound(f"the comparison itself is at fault: {answer} where 6 was meant")
            shallow = objects.nest(rng, FIRST, depth, undefined)
            answer = check_read_with_buffers(comparison, f"nested {depth}", shallow, rng)
            comparison.note(("code at depth", answer.code, depth))


def flipped(rng, data):
    """Some bytes or bits changed, at random or where lengths and tags are likely to be."""
    changed = bytearray(data)
    for _ in range(rng.choice((1, 1, 2, 4))):
        position = rng.randrange(len(changed))
        kind = rng.randrange(3)
        if kind == 0:
            changed[position] ^= 1 << rng.randrange(8)
        elif kind == 1:
            changed[position] = rng.choice((0, 1, 2, 8, 0xFE, 0xFF, 0xE0, 0xDD, 0x0D, rng.randrange(256)))
        else:
            changed[position:position + 4] = rng.choice((b"\xFF\xFF\xFF\xFF", bytes(4), b"\xFE\xFF\x0D\xE0"))
    return bytes(changed)


def cut_and_joined(rng, data):
    """A part taken out, doubled, or put elsewhere."""
    start = rng.randrange(len(data) + 1)
    end = min(len(data), start + rng.choice((1, 2, 8, 10, 12, 20, rng.randrange(100) + 1)))
    place = rng.randrange(len(data) + 1)
    return rng.choice((
        data[:start],
        data[start:],
        data[:start] + data[end:],
        data[:end] + data[start:],
        data[:place] + data[start:end] + data[place:],
        data[:place] + rng.choice((objects.ITEM_END, objects.SEQUENCE_END, objects.item(), FIRST)) + data[place:],
    ))


def compare_generated(comparison, rng, count):
    for number in range(count):
        share = rng.choice((0.0, 0.5, 1.0))
        data = objects.encode(objects.random_model(rng), lambda: rng.random() < share)
        answer = check_read_with_buffers(comparison, f"generated {number}", data, rng)
        if answer.code != 0:
            raise DifferenceFound(f"the comparison itself is at fault: generated {number} is refused: {answer}")
        if not data:
            continue
        for change in (flipped, cut_and_joined):
            changed = change(rng, data)
            answer = check_read_with_buffers(comparison, f"generated {number}, {change.__name__}", changed, rng)
            comparison.note((change.__name__, answer.code))


def compare_every_cut(comparison, rng):
    """One data set with sequences of both kinds, cut at every byte."""
    inner = objects.sequence(0x00081140, objects.item(FIRST) + objects.item(FIRST, True), True)
    data = inner + objects.sequence(0x52009229, objects.item(inner, True) + objects.item(inner)) + \
        objects.element(0x7FE00010, "OW", bytes(6))
    for length in range(len(data) + 1):
        check_read_with_buffers(comparison, f"cut at {length}", data[:length], rng)


def compare_random_bytes(comparison, rng, count):
    for number in range(count):
        data = rng.randbytes(rng.randrange(40))
        check_read_with_buffers(comparison, f"random bytes {number}", data, rng)


def compare_many_rows(comparison, rng):
    """Far more rows than any stack holds: elements in one item, items in one sequence."""
    many_items = objects.sequence(0x52009230, objects.item() * 50_000, True)
    many_elements = b"".join(objects.element(0x00100000 + number, "CS", b"") for number in range(50_000))
    for name, data in (("many items", many_items), ("many elements", objects.nest(rng, many_elements, 1))):
        exact = NUMBERS_IN_A_ROW * reading.read(data, enough_numbers(data)).answer.rows
        check_count(comparison, name, data)
        for length in (exact - 1, exact, exact + 7):
            check_read(comparison, name, data, length)


def compare_size_limit(comparison):
    """1,073,741,824 bytes are read, one more is refused before anything else is looked at."""
    limit = reading.MAXIMUM_SIZE
    cases = (
        ("as large as allowed", limit, objects.element_header(0x7FE00010, "OW", limit - 12), Answer(0, rows=1)),
        ("too large", limit + 1, objects.element_header(0x7FE00010, "OW", limit - 12), Answer(7)),
        ("too large, and faulty", limit + 1, bytes(8), Answer(7)),
    )
    for name, size, head, expected in cases:
        memory = zeros(size)
        memory[:len(head)] = head
        comparison.must_equal(f"{name}: count", comparison.library.count_on_mapping(memory), expected)
        comparison.note(("counted", expected.code))
        for length in (0, NUMBERS_IN_A_ROW - 1, NUMBERS_IN_A_ROW, NUMBERS_IN_A_ROW + 3):
            outcome = reading.read(memory, length)
            if expected.code == 7 or length >= NUMBERS_IN_A_ROW:
                comparison.must_equal(f"{name}: the reference", outcome.answer, expected)
            observed = comparison.library.call_on_mapping("xa_read", memory, length)
            comparison.must_be_right(f"{name}, row buffer of {length}", observed.difference(outcome))
            comparison.note(("code", outcome.answer.code))


# ---------------------------------------------------------------------------------------------------------------------
# Objects made by others


def compare_outside(comparison, rng, required):
    """Answers how many were compared, in words."""
    found = [(name, data) for name, _, data in outside.pydicom_data_sets()]
    if not found:
        if required:
            raise DifferenceFound("no outside objects: python3-pydicom's test files are not installed")
        return "outside objects SKIPPED: python3-pydicom's test files are not installed"
    made = outside.dcmtk_data_sets(comparison.folder)
    if required and not made:
        raise DifferenceFound("no outside objects made by dcmtk: it is not installed")
    good = 0
    for name, data in found + made:
        good += check_read_with_buffers(comparison, name, data, rng).code == 0
    for name, data in made:
        comparison.must_equal(f"{name} reads well", reading.read(data, enough_numbers(data)).answer.code, 0)
    return f"{len(found)} outside objects of pydicom, {len(made)} of dcmtk, {good} of them read well"


def run(comparison, arguments):
    rng = random.Random(comparison.seed)
    check_version(comparison)
    compare_samples(comparison, rng)
    compare_every_cut(comparison, rng)
    compare_codes_at_depths(comparison, rng, max(3, comparison.count // 400))
    compare_generated(comparison, rng, comparison.count)
    compare_random_bytes(comparison, rng, comparison.count // 4)
    compare_many_rows(comparison, rng)
    compare_size_limit(comparison)
    line = compare_outside(comparison, rng, arguments.require_outside)
    comparison.insist([("code", code) for code in range(9)])
    comparison.insist([("counted", code) for code in range(8)])
    comparison.insist([("code at depth", code, depth) for code in range(6) for depth in range(9)])
    comparison.insist([("steps", steps) for steps in (0, 2, *range(1, parents.MOST_STEPS + 1, 2))])
    return line


if __name__ == "__main__":
    run_as_program("read", run)
