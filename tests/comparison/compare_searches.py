"""Compares the searches that xa_judge and xa_judge_file report (document 02, Q-11) with the reference: groups in every place, wide items, mask
items, LUT groups, elements around each tag that is sought; refused objects and every other call report 0; the sum stays within its bound."""

import random

from generators import enhanced_xa as xa
from generators import objects, reading_cases, search_cases
from generators.mutations import CHANGES
from reference import attributes as tags
from reference import comparing, drawing, files, intensity, reading, searches, sheet

from .common import DifferenceFound, exact_numbers, run_as_program
from .compare_files import CLASSES, elements_of, file_of
from .compare_judge import check_judge, levels_of, meant, places, widen

GROUPS = {"characteristics": tags.XA_XRF_FRAME_CHARACTERISTICS_SEQUENCE, "voi": tags.FRAME_VOI_LUT_SEQUENCE,
          "frame_shift": tags.FRAME_PIXEL_SHIFT_SEQUENCE, "properties": tags.FRAME_PIXEL_DATA_PROPERTIES_SEQUENCE,
          "luts": tags.PIXEL_INTENSITY_RELATIONSHIP_LUT_SEQUENCE}
BOTH = "both"  # a sequence in every frame, and in the shared item another VR, which rule 27 allows
KNOWN_TAGS = {value for name, value in vars(tags).items() if name.isupper()}


# ---------------------------------------------------------------------------------------------------------------------
# One object in both calls


def check_file(comparison, name, data, sop_class, room):
    """xa_judge_file of the object in a file."""
    def difference(file):
        return comparison.library.call_with_rows("xa_judge_file", file, room).difference(files.judge_file(file, room))

    file = file_of(elements_of(sop_class).values(), data)
    comparison.check(f"{name}, in a file", file, difference)
    return files.judge_file(file, room).answer


def check(comparison, name, model, rng):
    """Both calls compared; answers the reference's answer. The sum is within its bound, and above 0 for an accepted object alone."""
    data = xa.encode_at_random(rng, model)
    room = exact_numbers(data) + rng.choice((0, 0, 7))
    answer = check_judge(comparison, name, data, room)
    in_file = check_file(comparison, name, data, model[tags.SOP_CLASS_UID][1].rstrip(b"\0") if tags.SOP_CLASS_UID in model else CLASSES["XA"], room)
    if answer.code == 0:
        comparison.must_equal(f"{name}: the same of its file", in_file, answer)
        frames = len(model[tags.PER_FRAME_FUNCTIONAL_GROUPS_SEQUENCE][1])
        if not 0 < answer.searches <= searches.most(frames, answer.rows):
            raise DifferenceFound(f"{name}: {answer.searches} is above {searches.most(frames, answer.rows)}, or 0")
        share = answer.searches / searches.most(frames, answer.rows)
        comparison.largest_share = max(getattr(comparison, "largest_share", 0), share)
    else:
        comparison.must_equal(f"{name}: refused", answer.searches, 0)
    return answer


def accepted(comparison, name, model, rng):
    answer = check(comparison, name, model, rng)
    meant(name, answer, 0, 0)
    return answer.searches


# ---------------------------------------------------------------------------------------------------------------------
# Objects


def compare_by_hand(comparison, rng):
    for name, model, total in search_cases.CASES:
        comparison.must_equal(f"{name}, counted by hand", accepted(comparison, f"{name}, counted by hand", model, rng), total)


def place_in_both(model, tag):
    """Every frame has the group as a sequence; the shared item has the tag with another VR."""
    if all(tag in item for item in model[tags.PER_FRAME_FUNCTIONAL_GROUPS_SEQUENCE][1]):
        model[tags.SHARED_FUNCTIONAL_GROUPS_SEQUENCE][1][0][tag] = ("LO", b"ab")


def compare_places(comparison, rng, rounds):
    """Each group shared, in all frames, in some, in none, and in both; every other group anywhere."""
    for _ in range(rounds):
        for group, tag in GROUPS.items():
            for place in (*xa.PLACES, BOTH):
                shape = xa.random_shape(rng, **{group: "frames" if place == BOTH else place})
                model = xa.build(rng, shape)
                if place == BOTH:
                    place_in_both(model, tag)
                accepted(comparison, f"{group} {place}", model, rng)
                comparison.note((group, place))


def compare_all_in_both(comparison, rng):
    """Every group in every frame, and in the shared item with another VR or not at all."""
    for chosen in range(2 ** len(GROUPS)):
        model = xa.build(rng, xa.random_shape(rng, **{group: "frames" for group in GROUPS}))
        for number, tag in enumerate(GROUPS.values()):
            if chosen >> number & 1:
                place_in_both(model, tag)
        accepted(comparison, f"groups in both, {chosen:05b}", model, rng)


def compare_masks(comparison, rng):
    """0 to 16 mask items, whose elements are there or not, with a Frame Pixel Shift or without."""
    for count in range(17):
        for frame_shift in ("absent", "frames", "shared"):
            masks = tuple(rng.choice(xa.OPERATIONS) for _ in range(count))
            model = xa.build(rng, xa.random_shape(rng, masks=masks, frame_shift=frame_shift))
            for item in model.get(tags.MASK_SUBTRACTION_SEQUENCE, xa.sq())[1]:
                surround(rng, item, (tags.MASK_OPERATION, tags.APPLICABLE_FRAME_RANGE, tags.MASK_FRAME_NUMBERS, tags.CONTRAST_FRAME_AVERAGING,
                                     tags.MASK_SUB_PIXEL_SHIFT, tags.TID_OFFSET, tags.SUBTRACTION_ITEM_ID))
            accepted(comparison, f"{count} mask items, Frame Pixel Shift {frame_shift}", model, rng)
            comparison.note(("mask items", count))


def compare_luts(comparison, rng):
    """LUT groups of 1 to 6 items, shared and in frames: of each item three tags are sought, TO_LINEAR or not."""
    for count in range(1, 7):
        for place in ("shared", "frames", "some"):
            model = xa.build(rng, xa.random_shape(rng, luts=place))
            for level in (*model[tags.SHARED_FUNCTIONAL_GROUPS_SEQUENCE][1], *model[tags.PER_FRAME_FUNCTIONAL_GROUPS_SEQUENCE][1]):
                if tags.PIXEL_INTENSITY_RELATIONSHIP_LUT_SEQUENCE in level:
                    while len(level[tags.PIXEL_INTENSITY_RELATIONSHIP_LUT_SEQUENCE][1]) < count:
                        other = rng.choice(({}, {tags.LUT_FUNCTION: xa.text("CS", "TO_LOG")}, {tags.LUT_DATA: ("OW", b"")},
                                            {tags.LUT_DESCRIPTOR: xa.us(1)}))
                        level[tags.PIXEL_INTENSITY_RELATIONSHIP_LUT_SEQUENCE][1].insert(rng.randrange(2), dict(other))
                    for item in level[tags.PIXEL_INTENSITY_RELATIONSHIP_LUT_SEQUENCE][1]:
                        surround(rng, item, (tags.LUT_FUNCTION, tags.LUT_DESCRIPTOR, tags.LUT_DATA))
            accepted(comparison, f"LUT groups of {count} items, {place}", model, rng)
            comparison.note(("LUT items", count))


# ---------------------------------------------------------------------------------------------------------------------
# Elements around those that are sought


def surround(rng, level, sought, share=0.5):
    """Elements just below and just above the tags that are sought in a data set, whether these are there or not; and at both ends."""
    for tag in (*(tag + step for tag in sought for step in (-1, 1)), 0x00020001, 0x00080005, 0x7FE10001, 0xFFFF0001):
        if tag not in KNOWN_TAGS and tag not in level and rng.random() < share:
            level[tag] = ("LO", rng.choice((b"", b"ab")))


SOUGHT_IN_ROOT = tuple(tag for tag in KNOWN_TAGS if tag not in GROUPS.values())
SOUGHT_IN_FRAMES = (tags.FRAME_CONTENT_SEQUENCE, *GROUPS.values())


def sought_in(model):
    """The data sets that are searched, each with the tags that are sought there."""
    yield model, SOUGHT_IN_ROOT
    for level in (*model[tags.SHARED_FUNCTIONAL_GROUPS_SEQUENCE][1], *model[tags.PER_FRAME_FUNCTIONAL_GROUPS_SEQUENCE][1]):
        yield level, SOUGHT_IN_FRAMES
        for tag, sought in ((tags.FRAME_VOI_LUT_SEQUENCE, (tags.WINDOW_CENTER, tags.WINDOW_WIDTH, tags.VOI_LUT_FUNCTION)),
                            (tags.FRAME_PIXEL_SHIFT_SEQUENCE, (tags.SUBTRACTION_ITEM_ID, tags.MASK_SUB_PIXEL_SHIFT)),
                            (tags.PIXEL_INTENSITY_RELATIONSHIP_LUT_SEQUENCE, (tags.LUT_FUNCTION, tags.LUT_DESCRIPTOR, tags.LUT_DATA)),
                            (tags.FRAME_PIXEL_DATA_PROPERTIES_SEQUENCE, (tags.PIXEL_INTENSITY_RELATIONSHIP,)),
                            (tags.XA_XRF_FRAME_CHARACTERISTICS_SEQUENCE, ()), (tags.FRAME_CONTENT_SEQUENCE, ())):
            for item in level[tag][1] if tag in level else ():
                yield item, sought


def compare_surrounded(comparison, rng, count):
    """Objects whose data sets have elements below, between and above the tags sought; in turn few, half of them, all."""
    for number in range(count):
        model = xa.build(rng, xa.random_shape(rng))
        share = rng.choice((0.1, 0.5, 1.0))
        for level, sought in list(sought_in(model)):
            if rng.random() < 0.7:
                surround(rng, level, sought, share)
        accepted(comparison, f"surrounded {number}", model, rng)


def compare_one_more(comparison, rng):
    """One element more, plain or with rows below it, at each place of the root, the shared item, an item of a frame and a mask item."""
    shape = xa.random_shape(rng, frames=2, masks=("AVG_SUB", "TID"), voi="shared", frame_shift="frames", luts="some", extras=False)
    model = xa.build(rng, shape)
    for level in (model, model[tags.SHARED_FUNCTIONAL_GROUPS_SEQUENCE][1][0], model[tags.PER_FRAME_FUNCTIONAL_GROUPS_SEQUENCE][1][1],
                  model[tags.MASK_SUBTRACTION_SEQUENCE][1][0]):
        for tag in sorted({0x00020001, 0xFFFF0001, *(tag + step for tag in KNOWN_TAGS for step in (-1, 1))} - KNOWN_TAGS - set(level)):
            level[tag] = rng.choice((("LO", b""), xa.sq(), xa.sq({tags.ROWS: xa.us(1)}, {})))
            accepted(comparison, f"one more at {tag:08X}", model, rng)
            del level[tag]


def compare_wide(comparison, rng, count):
    """Data sets of up to a thousand elements, the shared item among them; first one whose sum goes beyond 16 bits."""
    model = xa.build(rng, xa.random_shape(rng, frames=12, **{group: "absent" for group in GROUPS}))
    model[tags.SHARED_FUNCTIONAL_GROUPS_SEQUENCE][1][0].update({0x00110000 + number * 2: ("LO", b"") for number in range(1000)})
    if accepted(comparison, "a wide shared item", model, rng) < 2 ** 16:
        raise DifferenceFound("the comparison itself is at fault: the sum of a wide shared item is too small")
    for number in range(count):
        model = xa.build(rng, xa.random_shape(rng))
        taken = {tag for _, tag in places(model)} | KNOWN_TAGS
        levels = list(levels_of(model))
        chosen = rng.sample(levels, min(len(levels), rng.choice((1, 2, 4)))) + [(model[tags.SHARED_FUNCTIONAL_GROUPS_SEQUENCE][1][0],
                                                                                 0)] * rng.randrange(2)
        for level, parity in chosen:
            widen(rng, level, rng.choice((1, 10, 100, 300, 1000)), parity, taken)
        accepted(comparison, f"wide {number}", model, rng)


def compare_random(comparison, rng, count):
    for number in range(count):
        accepted(comparison, f"object {number}", xa.build(rng, xa.random_shape(rng)), rng)


# ---------------------------------------------------------------------------------------------------------------------
# What reports 0


def compare_refused(comparison, rng):
    """Each way to break a rule, and each near miss; row buffers that are short; data sets that do not read."""
    for change in CHANGES:
        frame = rng.choice((1, 3, 5)) if change.per_frame else 0
        model = xa.build(rng, xa.random_shape(rng, **change.shape))
        change.edit(model, frame)
        name = f"rule {change.rule}, {change.name}, frame {frame}"
        meant(name, check(comparison, name, model, rng), change.rule, frame if change.per_frame and change.rule else change.frame)
    data = objects.encode(search_cases.FULL)
    check_judge(comparison, "row buffer one number short", data, exact_numbers(data) - 1)
    check_file(comparison, "row buffer one number short", data, CLASSES["XRF"], exact_numbers(data) - 1)
    comparison.must_equal("another class in the head", check_file(comparison, "another class in the head", data, CLASSES["XA"], 10_000).code, 18)
    for name, data, _ in reading_cases.CASES:
        check_judge(comparison, f"small case {name}", data, 1000)


def compare_other_calls(comparison, rng, count):
    """Every other call reports 0 of an object that judge accepts."""
    for number in range(count):
        model = search_cases.FULL if number == 0 else xa.build(rng, xa.random_shape(rng, frames=2, luts="frames"))
        data = xa.encode_at_random(rng, model)
        room, name, library = exact_numbers(data), f"object {number}", comparison.library
        file = file_of(elements_of(model[tags.SOP_CLASS_UID][1].rstrip(b"\0")).values(), data)
        calls = (
            ("xa_read", data, lambda one: library.call_with_rows("xa_read", one, room).difference(reading.read(one, room))),
            ("xa_show", data, lambda one: library.show(one, 2, room, 64).difference(drawing.show(one, 2, room, 64))),
            ("xa_sheet", data, lambda one: library.sheet(one, 1, 2, room, 260).difference(sheet.sheet(one, 1, 2, room, 260))),
            ("xa_linear", data, lambda one: library.linear(one, 2, room, 64).difference(intensity.linear(one, 2, room, 64))),
            ("xa_compare", data, lambda one: library.compare(one, 2, bytes(64), 0, room).difference(comparing.compare(one, 2, bytes(64), 0, room))),
            ("xa_read_file", file, lambda one: library.call_with_rows("xa_read_file", one, room).difference(files.read_file(one, room))),
            ("xa_show_file", file, lambda one: library.show(one, 2, room, 64, "xa_show_file").difference(files.show_file(one, 2, room, 64))))
        for call, content, difference in calls:
            comparison.check(f"{call} of {name}", content, difference)
        cells = drawing.show(data, 2, room, 64).image
        comparison.check(f"xa_compare of {name}, done", data, lambda one: library.compare(one, 2, cells, 0, room).difference(
            comparing.compare(one, 2, cells, 0, room)))


# ---------------------------------------------------------------------------------------------------------------------
# Large sums


def compare_large(comparison, rng):
    """A run of 900 frames; and one whose sum goes beyond 32 bits. The reference's rules would take hours over it: it is accepted by how it is
    made, and only its code and sum are compared."""
    model = xa.build(rng, xa.random_shape(rng, frames=900, rows=1, columns=1))
    accepted(comparison, "900 frames", model, rng)
    frames, wide = 6000, 100_000
    model = xa.build(rng, xa.random_shape(rng, frames=frames, rows=1, columns=1, voi="shared", frame_shift="absent", luts="absent",
                                          properties="absent", characteristics="shared", masks=(), extras=False))
    model[tags.SHARED_FUNCTIONAL_GROUPS_SEQUENCE][1][0].update({0x00110000 + number * 2: ("LO", b"") for number in range(wide)})
    data = objects.encode(model)
    total = searches.searches(reading.read_data_set(data))
    if not 2 ** 32 < total <= searches.most(frames, reading.read(data, len(data)).answer.rows):
        raise DifferenceFound(f"the comparison itself is at fault: the large sum is {total}")
    found = comparison.library.call_with_rows("xa_judge", data, len(data)).answer
    comparison.must_equal("a sum beyond 32 bits", (found.code, found.searches), (0, total))


def run(comparison, arguments):
    rng = random.Random(comparison.seed)
    count = comparison.count
    compare_by_hand(comparison, rng)
    compare_other_calls(comparison, rng, max(3, count // 20))
    compare_places(comparison, rng, max(1, count // 50))
    compare_all_in_both(comparison, rng)
    compare_masks(comparison, rng)
    compare_luts(comparison, rng)
    compare_surrounded(comparison, rng, count)
    compare_one_more(comparison, rng)
    compare_wide(comparison, rng, max(5, count // 5))
    compare_random(comparison, rng, count)
    compare_refused(comparison, rng)
    if count >= 200:
        compare_large(comparison, rng)
    comparison.insist([("code", code) for code in (0, 1, 2, 3, 4, 5, 6, 8, 9)])
    comparison.insist([(group, place) for group in GROUPS for place in (*xa.PLACES, BOTH)])
    comparison.insist([("mask items", number) for number in range(17)] + [("LUT items", number) for number in range(1, 7)])
    return f"{comparison.tally[('code', 0)]} sums of accepted objects, the largest share of the bound {comparison.largest_share:.2f}"


if __name__ == "__main__":
    run_as_program("searches", run)
