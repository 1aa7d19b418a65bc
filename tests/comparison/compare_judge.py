"""Compares xa_judge with the reference: verdicts, row buffers, and what must stay untouched."""

import copy
import dataclasses
import random

from generators import enhanced_xa as xa
from generators import objects, outside, reading_cases
from generators.mutations import CHANGES
from reference import attributes as tags
from reference import reading, rules
from reference.answers import Answer

from .common import DifferenceFound, exact_numbers, run_as_program, zeros
from .compare_read import cut_and_joined, flipped


def check_judge(comparison, name, data, row_buffer_length):
    """One call compared; answers the reference's answer."""
    known = {}

    def difference(candidate):
        expected = rules.judge(candidate, row_buffer_length)
        known[candidate] = expected.answer
        return comparison.library.call_with_rows("xa_judge", candidate, row_buffer_length).difference(expected)

    comparison.check(name, data, difference)
    answer = known[data]
    comparison.note(("code", answer.code))
    if answer.code == 9:
        comparison.note(("rule", answer.rule))
    return answer


def check_model(comparison, name, model, rng):
    """The bytes of a model, with a row buffer that is exact or larger, and now and then one that is one number short."""
    data = xa.encode_at_random(rng, model)
    exact = exact_numbers(data)
    if rng.random() < 0.1 and exact:
        check_judge(comparison, f"{name}, row buffer one number short", data, exact - 1)
    return check_judge(comparison, name, data, exact + rng.choice((0, 0, 1, 7)))


def meant(name, answer, rule, frame):
    """The verdict that a change was made for, as the author of the change worked it out, not the reference."""
    expected = (9, rule, frame) if rule else (0, 0, 0)
    if (answer.code, answer.rule, answer.frame) != expected:
        raise DifferenceFound(f"the comparison itself is at fault: {name} gives {answer}, meant were {expected}")


# ---------------------------------------------------------------------------------------------------------------------


def compare_samples(comparison):
    answer = check_judge(comparison, "no bytes", b"", 0)
    comparison.must_equal("no bytes: 9, rule 1, frame 0", answer, Answer(9, rule=1))
    for name, data, (code, number) in reading_cases.CASES:
        answer = check_judge(comparison, f"small case {name}", data, 1000)
        meant_answer = Answer(9, rows=number, rule=1) if code == 0 else Answer(code, offset=number)
        comparison.must_equal(f"small case {name}", answer, meant_answer)


def compare_good(comparison, rng, count):
    """Objects of many shapes that break no rule."""
    for number in range(count):
        shape = xa.random_shape(rng)
        name = f"good object {number}"
        meant(name, check_model(comparison, name, xa.build(rng, shape), rng), 0, 0)
        for field in dataclasses.fields(shape):
            value = getattr(shape, field.name)
            comparison.note((field.name, value if field.name != "masks" else frozenset(value)))
    comparison.insist([("sop_class", one) for one in ("XA", "XRF")])
    comparison.insist([("planes", one) for one in ("SINGLE PLANE", "BIPLANE", "UNDEFINED")])
    comparison.insist([("image_type", one) for one in ("ORIGINAL", "DERIVED", "MIXED")])
    comparison.insist([("bits_stored", one) for one in range(8, 17)])
    comparison.insist([(group, one) for group in ("voi", "characteristics", "frame_shift", "properties", "luts") for one in xa.PLACES])


def frames_of(change):
    return (1, 3, 5) if change.per_frame else (0,)


def compare_changes(comparison, rng, rounds):
    """Each way to break a rule, and each near miss; per-frame ones at the first, a middle and the last frame."""
    for _ in range(rounds):
        for change in CHANGES:
            for frame in frames_of(change):
                model = xa.build(rng, xa.random_shape(rng, **change.shape))
                change.edit(model, frame)
                name = f"rule {change.rule}, {change.name}, frame {frame}"
                answer = check_model(comparison, name, model, rng)
                meant(name, answer, change.rule, frame if change.per_frame and change.rule else change.frame)
                comparison.note(("ways", change.rule))


def compare_lowest_frame(comparison, rng):
    """The same fault at two frames: the lower one is named."""
    for change in CHANGES:
        if change.per_frame and change.rule:
            low, high = sorted(rng.sample(range(1, 6), 2))
            model = xa.build(rng, xa.random_shape(rng, **change.shape))
            for frame in (high, low):
                change.edit(model, frame)
            name = f"rule {change.rule}, {change.name}, frames {low} and {high}"
            meant(name, check_model(comparison, name, model, rng), change.rule, low)


def compare_two_changes(comparison, rng, count):
    """Two changes in one object. They may get in each other's way, so only the reference says what comes of it."""
    made = 0
    breaking = [change for change in CHANGES if change.rule]
    while made < count:
        first, second = rng.choice(breaking), rng.choice(CHANGES)
        if any(first.shape[key] != second.shape[key] for key in first.shape.keys() & second.shape.keys()):
            continue
        model = xa.build(rng, xa.random_shape(rng, **first.shape, **{
            key: value for key, value in second.shape.items() if key not in first.shape}))
        name = f"rule {first.rule}, {first.name}, and rule {second.rule}, {second.name}"
        try:
            for change in (first, second):
                change.edit(model, rng.choice(frames_of(change)))
        except (KeyError, IndexError, TypeError):
            continue  # the first change took away what the second one edits
        check_model(comparison, name, model, rng)
        made += 1


# ---------------------------------------------------------------------------------------------------------------------
# Changes without regard to a rule


def places(model):
    """Every element of a model, as (its data set, its tag)."""
    found = []
    for tag, (_, value) in model.items():
        found.append((model, tag))
        if isinstance(value, list):
            for item in value:
                found += places(item)
    return found


def value_variants(vr, value):
    """Other elements in the place of one with a value of bytes: padded, multiple, empty, of another VR, and more."""
    even = lambda raw, pad=b" ": raw + pad * (len(raw) % 2)
    yield "empty", (vr, b"")
    for other in ("UN", "LO", "CS", "US", "SS", "OB"):
        if other != vr:
            yield f"VR {other}", (other, value)
    yield "made an empty sequence", ("SQ", [])
    if vr in ("US", "SS", "FL", "FD", "OW", "OB"):
        yield "doubled", (vr, value + value)
        yield "half", (vr, even(value[:len(value) // 2], b"\0"))
        yield "two bytes more", (vr, value + b"\0\0")
        yield "all ones", (vr, b"\xFF" * len(value))
        yield "zeros", (vr, bytes(len(value)))
        yield "one more", (vr, bytes([(value[0] + 1) % 256]) + value[1:] if value else b"\1\0")
    else:
        stripped = value.strip(b" \0")
        yield "spaces around", (vr, even(b"   " + stripped + b"  "))
        yield "zero bytes behind", (vr, stripped + b"\0" * (2 + len(stripped) % 2))
        yield "zero byte in front", (vr, even(b"\0" + stripped))
        yield "backslash behind", (vr, even(stripped + b"\\"))
        yield "backslash in front", (vr, even(b"\\" + stripped))
        yield "doubled", (vr, even(stripped + b"\\" + stripped))
        yield "blank", (vr, b"  ")
        yield "small letters", (vr, even(stripped.lower()))
        yield "a letter less", (vr, even(stripped[:-1]))
        yield "a letter more", (vr, even(stripped + b"1"))
        yield "tabs around", (vr, even(b"\t" + stripped + b"\t"))


def sequence_variants(items):
    """Other elements in the place of a sequence."""
    yield "no items", ("SQ", [])
    yield "VR UN", ("UN", b"")
    yield "VR LO", ("LO", b"ab")
    yield "an item more", ("SQ", items + [{}])
    yield "an empty item in front", ("SQ", [{}] + items)
    yield "first item twice", ("SQ", items[:1] + items)
    yield "first item left out", ("SQ", items[1:])
    yield "last item left out", ("SQ", items[:-1])
    yield "items turned round", ("SQ", items[::-1])


def variants(vr, value):
    return list(sequence_variants(value) if isinstance(value, list) else value_variants(vr, value))


def compare_variants(comparison, rng, count):
    """Every element of some objects absent, and in each of its variants."""
    made = 0
    while made < count:
        shape = xa.random_shape(rng, frames=rng.choice((1, 2, 3)), masks=rng.choice((("AVG_SUB", "TID"), ("NONE", "AVG_SUB"), ())))
        model = xa.build(rng, shape)
        for data_set, tag in places(model):
            kept = data_set.pop(tag)
            for name, other in [("absent", None)] + variants(*kept):
                if other is not None:
                    data_set[tag] = other
                check_model(comparison, f"{tag:08X} {name}", model, rng)
                made += 1
            data_set[tag] = kept


def compare_random_edits(comparison, rng, count):
    """A few changes at random places, then at times a change of the bytes themselves."""
    for number in range(count):
        model = xa.build(rng, xa.random_shape(rng, frames=rng.choice((1, 2, 3, 4))))
        model = copy.deepcopy(model)
        for _ in range(rng.choice((1, 1, 2, 3))):
            data_set, tag = rng.choice(places(model))
            if rng.random() < 0.15:
                del data_set[tag]
            else:
                data_set[tag] = rng.choice(variants(*data_set[tag]))[1]
        check_model(comparison, f"random edit {number}", model, rng)
        data = xa.encode_at_random(rng, xa.build(rng, xa.random_shape(rng)))
        change = rng.choice((flipped, cut_and_joined))
        check_judge(comparison, f"random edit {number}, {change.__name__}", change(rng, data), len(data))


# ---------------------------------------------------------------------------------------------------------------------
# Wide items


def filler(rng):
    """An element that no rule speaks of: a value, or a sequence with up to some thousand rows below it."""
    kind = rng.randrange(8)
    if kind < 5:
        return ("LO", rng.choice((b"", b"ab", b"abcd")))
    if kind == 5:
        return xa.sq(*({} for _ in range(rng.choice((0, 1, 3, rng.randrange(40))))))
    nested = xa.sq({tags.ROWS: xa.us(0), tags.FRAME_VOI_LUT_SEQUENCE: xa.sq({})})
    for _ in range(rng.randrange(4)):
        nested = xa.sq({tags.FRAME_VOI_LUT_SEQUENCE: nested, tags.PIXEL_DATA: ("OW", b"")}, *({} for _ in range(rng.randrange(3))))
    return nested


def widen(rng, level, count, parity, taken):
    """So many more elements in a data set, of tags with this lowest bit that nothing in the object has: near to those that it has,
    and anywhere, but in turn only below the last of them, only above the first."""
    near = sorted(level) or [tags.FRAME_VOI_LUT_SEQUENCE]
    lowest, highest = rng.choice(((0, near[-1]), (near[0], 0xFFFFFFFF), (0, 0xFFFFFFFF), (0, 0xFFFFFFFF)))
    made = 0
    while made < count:
        tag = rng.choice((rng.choice(near) + rng.randrange(-4000, 4001), rng.randrange(lowest, highest + 1))) & 0xFFFFFFFF
        tag = tag & ~1 | parity
        if lowest <= tag <= highest and tag not in taken and tag not in level and tag >> 16 != 0xFFFE:
            level[tag] = filler(rng)
            made += 1


def levels_of(model):
    """The data sets that rules look into, each with the lowest bit that its own fillers get: the shared item's is another than the
    frames', so that rule 27 stays as it is."""
    yield model, 0
    for item in model[tags.SHARED_FUNCTIONAL_GROUPS_SEQUENCE][1]:
        yield item, 0
    for item in model[tags.PER_FRAME_FUNCTIONAL_GROUPS_SEQUENCE][1]:
        yield item, 1
    for level in (*model[tags.SHARED_FUNCTIONAL_GROUPS_SEQUENCE][1], *model[tags.PER_FRAME_FUNCTIONAL_GROUPS_SEQUENCE][1]):
        for tag in (tags.FRAME_VOI_LUT_SEQUENCE, tags.FRAME_PIXEL_SHIFT_SEQUENCE, tags.PIXEL_INTENSITY_RELATIONSHIP_LUT_SEQUENCE,
                    tags.FRAME_PIXEL_DATA_PROPERTIES_SEQUENCE):
            for item in level[tag][1] if tag in level and isinstance(level[tag][1], list) else ():
                yield item, 0
    _, masks = model.get(tags.MASK_SUBTRACTION_SEQUENCE, ("SQ", []))
    for item in masks if isinstance(masks, list) else ():
        yield item, 0


def compare_wide_items(comparison, rng, rounds):
    """Changes in objects whose data sets have up to thousands of elements: what is looked for is first, last, between or absent."""
    usable = [change for change in CHANGES if change.rule >= 27 or (change.rule == 0 and change.per_frame)]
    for number in range(rounds):
        change = rng.choice(usable)
        frame = rng.choice(frames_of(change))
        model = xa.build(rng, xa.random_shape(rng, **change.shape))
        change.edit(model, frame)
        taken = {tag for _, tag in places(model)} | {value for name, value in vars(tags).items() if name.isupper()}
        levels = list(levels_of(model))
        wide = rng.choice((1, 10, 100, 100, 300, 1000))
        for level, parity in rng.sample(levels, min(len(levels), rng.choice((1, 2, 3)))):
            widen(rng, level, wide, parity, taken)
        name = f"wide items {number}, rule {change.rule}, {change.name}, frame {frame}"
        answer = check_model(comparison, name, model, rng)
        meant(name, answer, change.rule, frame if change.per_frame and change.rule else change.frame)


# ---------------------------------------------------------------------------------------------------------------------
# Large runs, the size limit, objects made by others


def compare_large(comparison, rng):
    """The run of 900 frames with an item left out, and runs as long as a run can be."""
    for frames, left_out in ((900, 812), (900, None)):
        model = xa.build(rng, xa.random_shape(rng, frames=frames, rows=2, columns=2))
        if left_out:
            del model[tags.PER_FRAME_FUNCTIONAL_GROUPS_SEQUENCE][1][left_out - 1]
        meant("900 frames", check_model(comparison, f"{frames} frames, {left_out} left out", model, rng), 26 if left_out else 0, 0)
    shape = xa.random_shape(rng, frames=65_535, rows=1, columns=1, bits_allocated=8, bits_stored=8, voi="shared", masks=("AVG_SUB",),
                            frame_shift="absent", characteristics="absent", extras=False)
    model = xa.build(rng, shape)
    model[tags.MASK_SUBTRACTION_SEQUENCE][1][0][tags.APPLICABLE_FRAME_RANGE] = xa.us(1, 65_535)
    model[tags.MASK_SUBTRACTION_SEQUENCE][1][0][tags.SUBTRACTION_ITEM_ID] = xa.us(1)
    meant("65,535 frames", check_model(comparison, "65,535 frames", model, rng), 0, 0)
    last = model[tags.PER_FRAME_FUNCTIONAL_GROUPS_SEQUENCE][1][-1]
    last[tags.FRAME_PIXEL_SHIFT_SEQUENCE] = xa.sq({})
    meant("65,535 frames", check_model(comparison, "65,535 frames, the last broken", model, rng), 37, 65_535)


def compare_size_limit(comparison):
    for size, code in ((reading.MAXIMUM_SIZE, 9), (reading.MAXIMUM_SIZE + 1, 7)):
        memory = zeros(size)
        head = objects.element_header(0x00080008, "OB", reading.MAXIMUM_SIZE - 12)
        memory[:len(head)] = head
        outcome = rules.judge(memory, reading.NUMBERS_IN_A_ROW)
        comparison.must_equal("size limit: the reference", outcome.answer.code, code)
        observed = comparison.library.call_on_mapping("xa_judge", memory, reading.NUMBERS_IN_A_ROW)
        comparison.must_be_right(f"judge {size} bytes", observed.difference(outcome))
        comparison.note(("code", code))


def compare_outside(comparison, required):
    found = outside.pydicom_data_sets()
    if not found and required:
        raise DifferenceFound("no outside objects: python3-pydicom's test files are not installed")
    for name, _, data in found:
        check_judge(comparison, name, data, exact_numbers(data))
    return f"{len(found)} outside objects" if found else "outside objects SKIPPED: python3-pydicom is not installed"


def run(comparison, arguments):
    rng = random.Random(comparison.seed)
    count = comparison.count
    compare_samples(comparison)
    compare_changes(comparison, rng, max(1, count // 1000))
    compare_lowest_frame(comparison, rng)
    compare_good(comparison, rng, max(200, count))
    compare_two_changes(comparison, rng, count)
    compare_variants(comparison, rng, 2 * count)
    compare_random_edits(comparison, rng, 2 * count)
    compare_wide_items(comparison, rng, count // 10)
    if count >= 200:
        compare_large(comparison, rng)
    compare_size_limit(comparison)
    line = compare_outside(comparison, arguments.require_outside)
    comparison.insist([("code", code) for code in range(10)])
    comparison.insist([("rule", rule) for rule in rules.RULES])
    few = [rule for rule in rules.RULES if comparison.tally.get(("ways", rule), 0) < 3]
    if few:
        raise DifferenceFound(f"the comparison itself is at fault: fewer than three ways to break rules {few}")
    return line


if __name__ == "__main__":
    run_as_program("judge", run)
