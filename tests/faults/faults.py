"""Stand-ins for the library that do one thing wrong, by the comparison that has to find them out."""

import ctypes

from reference import canonical, comparing, drawing, files, intensity, reading, rules, searches, sheet, slips
from reference.answers import Answer
from reference.parents import table_of
from reference.reading import ITEM, NUMBERS_IN_A_ROW
from reference.values import UNIT

from .stand_in import StandIn, write


def answer_changed(**changes):
    """A fault in the answer of those outcomes that `changes` leaves different."""

    def change(outcome, data):
        fields = {name: function(outcome.answer) for name, function in changes.items()}
        return outcome._replace(answer=outcome.answer._replace(**fields))

    return change


def answer_at_code(at, /, **fields):
    """Other fields of the answer wherever it has this code."""
    return StandIn(lambda o, data: o._replace(answer=o.answer._replace(**fields)) if o.answer.code == at else o)


def at_code(at, /, **written):
    """Something else written wherever the answer has this code."""
    return StandIn(lambda o, data: o._replace(**written) if o.answer.code == at else o)


def row_number_changed(which, function):
    def change(outcome, data):
        numbers = list(outcome.rows)
        for position in range(which, len(numbers), NUMBERS_IN_A_ROW):
            numbers[position] = function(numbers[position])
        return outcome._replace(rows=tuple(numbers))

    return change


def parents_changed(function):
    """Another parent in each row: `function(table, number)` answers it for row `number`, counted from 1."""

    def change(outcome, data):
        table = table_of(outcome.rows)
        changed = [row[:-1] + (function(table, number),) for number, row in enumerate(table, start=1)]
        return outcome._replace(rows=tuple(value for row in changed for value in row))

    return change


def sequence_for_item(table, number):
    """The sequence's number in place of the item's."""
    parent = table[number - 1][-1]
    return table[parent - 1][-1] if parent and table[parent - 1][0] == ITEM else parent


def touched(place):
    """A fault in what is written: `place(outcome, data, rows, rows_length)` answers an address, or None for no write."""

    def after(outcome, data, rows, rows_length):
        address = place(outcome, data, rows, rows_length)
        if address is not None:
            write(address, bytes([ctypes.string_at(address, 1)[0] ^ 0x55]))

    return after


def six_suffice(data, row_buffer_length):
    """Code 8 under 6 numbers a row."""
    outcome = reading.read(data, row_buffer_length)
    if outcome.answer.code != 8:
        return outcome
    whole = reading.read(data, len(data))
    if row_buffer_length < 6 * whole.answer.rows:
        return outcome
    return whole._replace(rows=whole.rows[:row_buffer_length])


def last_number_of(rows, rows_length):
    return rows + 4 * rows_length - 4 if rows_length else None


def counted_otherwise(**changes):
    """A stand-in whose count answers something else where `changes` leave it different."""

    def count(data):
        answer = reading.count(data)
        return answer._replace(**{name: function(answer) for name, function in changes.items()})

    return StandIn(count=count)


READ_FAULTS = {
    "count of the numbers, not of the rows": counted_otherwise(rows=lambda a: NUMBERS_IN_A_ROW * a.rows),
    "count of the rows at depth 0 alone": StandIn(count=lambda data: reading.count(data)._replace(
        rows=sum(row[2] == 0 for row in table_of(reading.read(data, len(data)).rows)))),
    "a refusal counted as 0 rows": counted_otherwise(code=lambda a: 0, offset=lambda a: 0),
    "count refused a byte late": counted_otherwise(offset=lambda a: a.offset + (0 < a.code < 7)),
    "another version": StandIn(version=2),
    "row count one more": StandIn(answer_changed(rows=lambda a: a.rows + (a.code == 0))),
    "row count given with code 8": answer_at_code(8, rows=1),
    "code 4 given as 1": answer_at_code(4, code=1),
    "place of code 2 one element early": StandIn(answer_changed(offset=lambda a: max(0, a.offset - 10 * (a.code == 2)))),
    "masked not 0": StandIn(answer_changed(masked=lambda a: 1)),
    "depth one more": StandIn(row_number_changed(2, lambda value: value + 1)),
    "length of an undefined sequence with its delimiter": StandIn(row_number_changed(4, lambda v: v + 8 if v == 34 else v)),
    "rows below not given": StandIn(row_number_changed(5, lambda value: 0)),
    "parents counted from 0": StandIn(row_number_changed(6, lambda value: max(0, value - 1))),
    "parents one more": StandIn(row_number_changed(6, lambda value: value + 1 if value else 0)),
    "the sequence in place of the item": StandIn(parents_changed(sequence_for_item)),
    "the root's rows with a parent": StandIn(parents_changed(lambda table, number: table[number - 1][-1] or number - 1)),
    "the row before as parent": StandIn(parents_changed(lambda table, number: number - 1)),
    "its own number as parent": StandIn(parents_changed(lambda table, number: number)),
    "parents of depth 8 lost": StandIn(parents_changed(lambda table, number: table[number - 1][-1] if table[number - 1][2] < 8 else 0)),
    "six numbers suffice": StandIn(read=six_suffice),
    "rows not written": StandIn(lambda outcome, data: outcome._replace(rows=())),
    "last row not written": StandIn(lambda outcome, data: outcome._replace(rows=outcome.rows[:-NUMBERS_IN_A_ROW])),
    "row buffer touched at a refusal": StandIn(after=touched(
        lambda o, data, rows, length: rows if o.answer.code in range(1, 7) and length else None)),
    "row buffer touched at code 8": StandIn(after=touched(
        lambda o, data, rows, length: last_number_of(rows, length) if o.answer.code == 8 else None)),
    "row buffer touched behind the rows": StandIn(after=touched(
        lambda o, data, rows, length: rows + 4 * len(o.rows) if o.answer.code == 0 and length > len(o.rows) else None)),
    "written behind the row buffer": StandIn(after=touched(lambda o, data, rows, length: rows + 4 * length)),
    "written in front of the row buffer": StandIn(after=touched(lambda o, data, rows, length: rows - 1)),
    "input changed": StandIn(after=touched(lambda o, data, rows, length: data - 1 if o.answer.code != 7 else None)),
}



def judge_by(first_broken_rule):
    """A judge with another search for the broken rule. Where that search falls over, it accepts."""

    def judge(data, row_buffer_length):
        outcome, root = rules.judge_with_root(data, row_buffer_length)
        if root is None:
            return outcome
        try:
            broken = first_broken_rule(root)
        except (AttributeError, IndexError, KeyError, TypeError):
            broken = None
        count = outcome.answer.rows
        if broken is not None:
            return outcome._replace(answer=Answer(9, rows=count, rule=broken[0], frame=broken[1]))
        try:
            return outcome._replace(answer=Answer(0, rows=count, searches=searches.searches(root.elements)))
        except IndexError:  # accepted, though it has no shared item
            return outcome._replace(answer=Answer(0, rows=count))

    return StandIn(judge=judge)


def with_rules(changed_rules):
    """A judge with other rules in the place of some."""

    def first_broken_rule(root):
        kept = dict(rules.RULES)
        rules.RULES.update(changed_rules)
        try:
            return rules.first_broken_rule(root)
        finally:
            rules.RULES.update(kept)

    return judge_by(first_broken_rule)


def highest_frame(root):
    broken = rules.first_broken_rule(root)
    if broken is None or broken[0] not in rules.PER_FRAME_RULES:
        return broken
    number = broken[0]
    return number, max(frame for frame in range(1, rules.number_of_frames(root) + 1)
                       if not rules.RULES[number](root, frame))


def last_broken_rule(root):
    found = None
    for number, rule in rules.RULES.items():
        if number in rules.PER_FRAME_RULES:
            frames = [frame for frame in range(1, rules.number_of_frames(root) + 1) if not rule(root, frame)]
            found = (number, frames[0]) if frames else found
        elif not rule(root):
            found = (number, 0)
    return found


def shared_preferred(root):
    """The shared group preferred to the frame's own."""
    original = rules.frame_group

    def frame_group(root, frame, tag):
        shared = rules.shared_item(root).find(tag)
        return shared if shared is not None else rules.frame_item(root, frame).find(tag)

    rules.frame_group = frame_group
    try:
        return rules.first_broken_rule(root)
    finally:
        rules.frame_group = original


def always(*arguments):
    return True


JUDGE_FAULTS = {
    "everything refused": judge_by(lambda root: (1, 0)),
    "everything accepted": judge_by(lambda root: None),
    "the highest frame": judge_by(highest_frame),
    "the last broken rule": judge_by(last_broken_rule),
    "the shared group preferred": judge_by(shared_preferred),
    "row count not given with code 9": answer_at_code(9, rows=0),
    "rows not written with code 9": at_code(9, rows=()),
    "frame named for rule 26": StandIn(answer_changed(frame=lambda a: 1 if a.rule == 26 else a.frame)),
    **{f"rule {number} skipped": with_rules({number: always}) for number in rules.RULES},
}



def slip_written(change):
    """A writer whose slip is changed."""

    def write_slip(answer, length):
        code, written = slips.write_slip(answer, length)
        return code, change(written) if written else written

    return StandIn(write_slip=write_slip)


def buffer_first(answer, length):
    """Looks at the buffer before the verdict."""
    return (11, b"") if length < 17 else slips.write_slip(answer, length)


def wrapped(answer, length):
    """Cuts fields to the slip's widths."""
    cut = answer._replace(code=answer.code % 256, rule=answer.rule % 256, frame=answer.frame % 65536)
    return slips.write_slip(cut, length)


def one_row_more(answer, length):
    """Takes 134,217,729 rows, too."""
    if answer.rows == 2 ** 27 + 1:
        code, written = slips.write_slip(answer._replace(rows=0), length)
        return code, written[:13] + answer.rows.to_bytes(4, "little") if written else written
    return slips.write_slip(answer, length)


def count_for_every_code(answer, length):
    """Writes a row count with codes 1 to 8, too."""
    code, written = slips.write_slip(answer._replace(rows=0) if answer.rows is not None else answer, length)
    return code, written[:13] + answer.rows.to_bytes(4, "little") if written else written


def unknown_as(rows):
    """A writer that takes a row count that is not known for a number."""
    return StandIn(write_slip=lambda answer, length: slips.write_slip(
        answer._replace(rows=rows) if answer.rows is None else answer, length))


def frame_let_through(slip):
    """Lets rule 26 with a frame through."""
    code, verdict = slips.read_slip(slip)
    if code == 14 and len(slip) == 17 and slip[5] == 9 and slip[6] == 26 and slip[9:] == bytes(8):
        return 0, Answer(9, rule=26, frame=int.from_bytes(slip[7:9], "little"))
    return code, verdict


def old_count(rows):
    """A reader that answers the row count of a slip of version 1 as a number."""

    def read_slip(slip):
        code, verdict = slips.read_slip(slip)
        return code, verdict._replace(rows=rows) if verdict.rows is None else verdict

    return StandIn(read_slip=read_slip)


def length_first(slip):
    """Tests the length before the version."""
    return slips.read_slip(slip) if len(slip) in (13, 17) else (12, Answer(0))


def either_length(slip):
    """Takes both lengths for both versions."""
    if slip[:5] == b"XAV\1\0" and len(slip) == 17:
        return slips.read_slip(slip[:13])
    if slip[:5] == b"XAV\2\0" and len(slip) == 13:
        return slips.read_slip(slip + bytes(4))
    return slips.read_slip(slip)


def as_version_1(slip):
    return slip[:3] + b"\1\0" + slip[5:13]


SLIP_FAULTS = {
    "one slip for all": slip_written(lambda slip: slips.slip_bytes(0, 0, 0, 0, 0)),
    "version 1 written": slip_written(as_version_1),
    "version 1 in 17 bytes": slip_written(lambda slip: as_version_1(slip) + slip[13:]),
    "bytes of the frame swapped": slip_written(lambda slip: slip[:7] + slip[8:9] + slip[7:8] + slip[9:]),
    "bytes of the place swapped": slip_written(lambda slip: slip[:9] + slip[9:13][::-1] + slip[13:]),
    "bytes of the row count swapped": slip_written(lambda slip: slip[:13] + slip[13:][::-1]),
    "row count before the place": slip_written(lambda slip: slip[:9] + slip[13:] + slip[9:13]),
    "an 18th byte touched": slip_written(lambda slip: slip + b"\0"),
    "16 bytes written": slip_written(lambda slip: slip[:16]),
    "the buffer before the verdict": StandIn(write_slip=buffer_first),
    "fields wrapped": StandIn(write_slip=wrapped),
    "134,217,729 rows": StandIn(write_slip=one_row_more),
    "a row count for every code": StandIn(write_slip=count_for_every_code),
    "not known written as 0": unknown_as(0),
    "not known written as a number": unknown_as(57),
    "a frame let through": StandIn(read_slip=frame_let_through),
    "18 bytes taken": StandIn(read_slip=lambda slip: slips.read_slip(slip[:17])),
    "the count of version 1 as 0": old_count(0),
    "the count of version 1 as a number": old_count(57),
    "length before version": StandIn(read_slip=length_first),
    "either length for either version": StandIn(read_slip=either_length),
    "version 1 no longer read": StandIn(read_slip=lambda slip: (13, Answer(0)) if slip[:5] == b"XAV\1\0" else slips.read_slip(slip)),
    "version not looked at": StandIn(read_slip=lambda slip: slips.read_slip(slip[:3] + b"\2\0" + slip[5:])),
    "mark not looked at": StandIn(read_slip=lambda slip: slips.read_slip(b"XAV" + slip[3:])),
    "fields given with 14": StandIn(read_slip=lambda slip: (14, Answer(slip[5])) if slips.read_slip(slip)[0] == 14
                                   else slips.read_slip(slip)),
}



def with_others(module, call, functions):
    """A call during which some functions of a module of the reference are replaced by others."""

    def changed(*arguments):
        kept = {name: getattr(module, name) for name in functions}
        for name, function in functions.items():
            setattr(module, name, function)
        try:
            return call(*arguments)
        finally:
            for name, function in kept.items():
                setattr(module, name, function)

    return changed


def drawn_with(**functions):
    """Draws with other functions in place of some of the reference's."""
    return StandIn(show=with_others(drawing, drawing.show, functions))


def high_bits_left(self, frame, row, column):
    number = ((frame - 1) * self.rows + row) * self.columns + column
    start = self.offset + number * self.sample_size
    return int.from_bytes(self.data[start:start + self.sample_size], "little")


class PixelsWithHighBits(drawing.Pixels):
    sample = high_bits_left


def with_whole_width(x, center, width):
    """W in place of W - u in the divisor of LINEAR."""
    if 2 * UNIT * x <= 2 * center - width:
        return 0
    if 2 * UNIT * x > 2 * center + width - 2 * UNIT:
        return 255
    return drawing.limited((255 * (2 * UNIT * x - 2 * center + width) + width - UNIT) // (2 * width), 0, 255)


def rounded_down(x, center, width):
    if 2 * UNIT * x <= 2 * center - width:
        return 0
    if 2 * UNIT * x > 2 * center + width - 2 * UNIT:
        return 255
    return drawing.limited(255 * (2 * UNIT * x - 2 * center + width) // (2 * (width - UNIT)), 0, 255)


def less_one_unit(x, center, width):
    """W - u in place of W in LINEAR_EXACT."""
    if 2 * UNIT * x <= 2 * center - width:
        return 0
    if 2 * UNIT * x > 2 * center + width or width <= UNIT:
        return 255
    return drawing.limited((255 * (2 * UNIT * x - 2 * center + width) + width - UNIT) // (2 * (width - UNIT)), 0, 255)


def last_window(root, frame, stored):
    function, center, width = original_window(root, frame, stored)
    group = drawing.frame_group(root, frame, drawing.tags.FRAME_VOI_LUT_SEQUENCE)
    if group is not None:
        item = drawing.items_of(root.data, group)[0]
        center = drawing.millionths(item.texts(drawing.tags.WINDOW_CENTER, "DS")[-1])
        width = drawing.millionths(item.texts(drawing.tags.WINDOW_WIDTH, "DS")[-1])
    return function, center, width


def window_changed(change):
    """A window changed: `change` takes function, centre and width, and answers them."""
    return drawn_with(window=lambda root, frame, stored: change(*original_window(root, frame, stored)))


def last_applying_item(root, frame):
    found = None
    for item in root.items(drawing.tags.MASK_SUBTRACTION_SEQUENCE) or []:
        numbers = item.unsigned_shorts(drawing.tags.APPLICABLE_FRAME_RANGE)
        if numbers is None or any(first <= frame <= last for first, last in zip(numbers[0::2], numbers[1::2])):
            found = item
    return found


def item_shift_first(root, item, frame):
    """The frame's own shift loses to the item's."""
    return item.quarter_pair(drawing.tags.MASK_SUB_PIXEL_SHIFT) or original_shift(root, item, frame)


def to_linear_used(data, frame, *buffers):
    """Sends an 8-bit picture through the TO_LINEAR table where there is one."""
    outcome = drawing.show(data, frame, *buffers)
    position = data.find(b"TO_LINEAR")
    if outcome.answer.code or position < 0:
        return outcome
    return outcome._replace(image=bytes(255 - level for level in outcome.image))


def frame_wrapped(data, frame, *buffers):
    """A frame number of 16 bits."""
    return drawing.show(data, frame % 65536, *buffers)


def small_image_first(data, frame, rows_length, image_length):
    """Tests the image buffer before the frame number."""
    outcome = drawing.show(data, frame, rows_length, image_length)
    if outcome.answer.code == 10 and drawing.show(data, 1, rows_length, image_length).answer.code == 11:
        return outcome._replace(answer=Answer(11))
    return outcome


def frame_1_for_all(data, frame, *buffers):
    outcome = drawing.show(data, frame, *buffers)
    return outcome if outcome.answer.code else outcome._replace(image=drawing.show(data, 1, *buffers).image)


def blended_before_average(root, frame, pixels):
    """Each mask frame is moved before the average is made."""
    item = drawing.applying_item(root, frame)
    if item is None or drawing.mask_operation(item) != b"AVG_SUB":
        return original_mask_samples(root, frame, pixels)
    pair = drawing.shift(root, item, frame)
    frames = [drawing.shifted(pixels.frame(number), pair) for number in drawing.mask_frame_numbers(item)]
    return [[drawing.average([one[row][column] for one in frames]) for column in range(pixels.columns)] for row in range(pixels.rows)]


def cut_to_whole(mask, pair):
    """The quarters of a shift left out."""
    return original_shifted(mask, (int(pair[0]), int(pair[1])))


original_mask_samples = drawing.mask_samples
original_shift = drawing.shift
original_shifted = drawing.shifted
original_subtracted = drawing.subtracted
original_tid_frame = drawing.tid_frame
original_shown = drawing.shown
original_window = drawing.window
SHOW_FAULTS = {
    "nothing written": StandIn(lambda o, data: o._replace(image=b"")),
    "frame 1 for every frame": StandIn(show=frame_1_for_all),
    "a byte too many written": StandIn(lambda o, data: o._replace(image=o.image + b"\0") if o.image else o),
    "image touched at code 10": at_code(10, image=b"\0"),
    "image touched at code 9": at_code(9, image=b"\0"),
    "image touched at code 2": at_code(2, image=b"\0"),
    "rows not written at code 11": at_code(11, rows=()),
    "row count given with code 10": answer_at_code(10, rows=5),
    "masked given as native": StandIn(answer_changed(masked=lambda a: 0)),
    "16-bit frame number": StandIn(show=frame_wrapped),
    "image buffer before frame": StandIn(show=small_image_first),
    "the TO_LINEAR table used": StandIn(show=to_linear_used),
    "unused high bits left in": drawn_with(Pixels=PixelsWithHighBits),
    "W in place of W - u": drawn_with(linear=with_whole_width),
    "not rounded": drawn_with(linear=rounded_down),
    "the last window": drawn_with(window=last_window),
    "the function ignored": window_changed(lambda function, center, width: (b"LINEAR", center, max(width, UNIT))),
    "LINEAR_EXACT always": window_changed(lambda function, center, width: (b"LINEAR_EXACT", center, width)),
    "W - u in place of W": drawn_with(linear_exact=less_one_unit),
    "the last mask item": drawn_with(applying_item=last_applying_item),
    "-v for v": drawn_with(shifted=lambda mask, pair: original_shifted(mask, (-pair[0], pair[1]))),
    "v and h swapped": drawn_with(shifted=lambda mask, pair: original_shifted(mask, pair[::-1])),
    "the item's shift wins": drawn_with(shift=item_shift_first),
    "the blend before the average": drawn_with(mask_samples=blended_before_average),
    "the quarters of a shift left out": drawn_with(shifted=cut_to_whole),
    "no shift": drawn_with(shift=lambda root, item, frame: (0, 0)),
    "average rounded down": drawn_with(average=lambda samples: sum(samples) // len(samples)),
    "x not signed": drawn_with(subtracted=lambda sample, mask, stored: max(0, original_subtracted(sample, mask, stored))),
    "TID the other way": drawn_with(tid_frame=lambda root, item, frame: original_tid_frame(root, item, 2 * frame - (
        original_tid_frame(root, item, frame) or frame))),
    "MONOCHROME1 not inverted": drawn_with(shown=lambda y, photometric: y),
}

DECIMAL_FAULTS = {
    "the width's own number forgotten": window_changed(lambda function, center, width: (function, center, 10 * UNIT)),
    "the centre one millionth more": window_changed(lambda function, center, width: (function, center + 1, width)),
    "the width one millionth less": window_changed(lambda function, center, width: (function, center, width - 1)),
}

WINDOW_FAULTS = {name: SHOW_FAULTS[name] for name in ("W in place of W - u", "not rounded", "the function ignored", "LINEAR_EXACT always",
                                                      "W - u in place of W", "MONOCHROME1 not inverted")}

def with_end_marks(data, row_buffer_length, target_length):
    """Writes what it was handed where that reads well: lengths and end marks stay."""
    outcome = canonical.write_canonical(data, row_buffer_length, target_length)
    if outcome.answer.code != 0 or target_length < len(data):
        return outcome
    return outcome._replace(answer=outcome.answer._replace(length=len(data)), target=bytes(data))


CANONICAL_FAULTS = {
    "lengths and end marks kept": StandIn(write_canonical=with_end_marks),
    "length not given with code 21": answer_at_code(21, length=0),
    "length of what was read": StandIn(lambda o, data: o._replace(answer=o.answer._replace(length=len(data))) if o.answer.code == 21 else o),
    "row count given with code 21": answer_at_code(21, rows=1),
    "offset not given": StandIn(answer_changed(offset=lambda a: 0)),
    "target touched at code 21": StandIn(lambda o, data: o._replace(target=b"\0") if o.answer.code == 21 and o.answer.length > 1 else o),
    "target touched at code 2": at_code(2, target=b"\0"),
    "a byte too many written": StandIn(lambda o, data: o._replace(target=o.target + b"\0") if o.target else o),
    "last byte not written": StandIn(lambda o, data: o._replace(target=o.target[:-1])),
    "nothing written": StandIn(lambda o, data: o._replace(target=b"")),
    "rows not written at code 21": at_code(21, rows=()),
    "row buffer touched at code 8": StandIn(after=touched(
        lambda o, data, rows, length: last_number_of(rows, length) if o.answer.code == 8 else None)),
    "code 21 given as 11": answer_at_code(21, code=11),
    "another form judged otherwise": StandIn(judge=lambda data, length: rules.judge(data, length) if b"\xFF\xFF\xFF\xFF" in bytes(data[:1 << 16])
                                             else rules.judge(data, length)._replace(answer=Answer(8))),
}


def mapped_with(**functions):
    """Maps with other functions in place of some of the reference's."""
    return StandIn(linear=with_others(intensity, intensity.linear, functions))


def cut_to_8_bits(self, frame):
    return [[cell % 256 for cell in row] for row in drawing.Pixels.frame(self, frame)]


class PixelsOf8Bits(drawing.Pixels):
    frame = cut_to_8_bits


class DrawnPixels(drawing.Pixels):
    """The cells of the picture that is drawn, not the stored ones."""

    def __init__(self, root):
        super().__init__(root)
        self.root = root

    def frame(self, frame):
        _, image = drawing.draw(self.root, frame)
        return [image]


class LastEntryEarly(intensity.Table):
    """Cells above the last take the entry before the last."""

    def entry(self, cell):
        return super().entry(min(cell, self.first + max(self.count - 2, 0)))


class WrappedTable(intensity.Table):
    """Places modulo the entry count in place of the first and the last entry."""

    def entry(self, cell):
        return super().entry(self.first + (cell - self.first) % self.count)


class SwappedTable(intensity.Table):
    """The high byte of an entry first."""

    def entry(self, cell):
        return int.from_bytes(super().entry(cell).to_bytes(2, "little"), "big")


def another_linear(change):
    """`change(outcome, data, frame, rows, room)` answers another outcome of the call."""

    def linear(data, frame, row_length, room):
        return change(intensity.linear(data, frame, row_length, room), data, frame, row_length, room)

    return StandIn(linear=linear)


def room_before_item(outcome, data, frame, row_length, room):
    """Code 11 before code 20; the sizes of a picture are those of `show`."""
    small = outcome.answer.code == 20 and drawing.show(data, frame, row_length, room).answer.code == 11
    return outcome._replace(answer=Answer(11)) if small else outcome


def item_before_frame(outcome, data, frame, row_length, room):
    return outcome._replace(answer=Answer(20)) if outcome.answer.code == 10 else outcome


def shared_table(root, frame, tag):
    """The shared table preferred to the frame's own."""
    shared = root.items(drawing.tags.SHARED_FUNCTIONAL_GROUPS_SEQUENCE)[0].find(tag)
    return shared if shared is not None else drawing.frame_group(root, 1, tag)


LINEAR_FAULTS = {
    "nothing written": StandIn(lambda o, data: o._replace(values=())),
    "frame 1 for every frame": another_linear(
        lambda o, data, frame, rows, room: o if o.answer.code else o._replace(values=intensity.linear(data, 1, rows, room).values)),
    "a number too many written": StandIn(lambda o, data: o._replace(values=o.values + (0,)) if o.values else o),
    "values touched at code 20": at_code(20, values=(0,)),
    "values touched at code 11": at_code(11, values=(0,)),
    "values touched at code 9": at_code(9, values=(0,)),
    "rows not written at code 20": at_code(20, rows=()),
    "row count given with code 20": answer_at_code(20, rows=5),
    "code 20 given as 10": answer_at_code(20, code=10),
    "zeros where there is no item": StandIn(lambda o, data: o._replace(answer=Answer(0, rows=len(o.rows) // NUMBERS_IN_A_ROW))
                                            if o.answer.code == 20 else o),
    "11 before 20": another_linear(room_before_item),
    "20 before 10": another_linear(item_before_frame),
    "16-bit frame number": StandIn(linear=lambda data, frame, *rooms: intensity.linear(data, frame % 65536, *rooms)),
    "cells of 8 bits": mapped_with(Pixels=PixelsOf8Bits),
    "unused high bits left in": mapped_with(Pixels=PixelsWithHighBits),
    "drawn cells": mapped_with(Pixels=DrawnPixels),
    "the last entry off by one": mapped_with(Table=LastEntryEarly),
    "places wrapped": mapped_with(Table=WrappedTable),
    "the high byte first": mapped_with(Table=SwappedTable),
    "one table for all frames": mapped_with(frame_group=shared_table),
    "the root of v": StandIn(root_level=lambda cell: intensity.root_level(cell // 4)),
    "rounded to the nearest": StandIn(root_level=lambda cell: round((4 * (cell % 2 ** 14)) ** 0.5) % 256),
    "the lowest 13 bits": StandIn(root_level=lambda cell: intensity.root_level(cell % 2 ** 13)),
    "16 bits": StandIn(root_level=lambda cell: intensity.root_level(cell) if cell < 2 ** 14 else intensity.isqrt(cell % 2 ** 16) % 256),
    "an entry rounded down": StandIn(root_entry=lambda level: level * level // 4),
    "the last entry changed": StandIn(root_entry=lambda level: intensity.root_entry(level) - (level == 255)),
}

def files_with(**functions):
    """The calls for files with some functions of the reference's files changed."""

    def call(name):
        def changed(*arguments):
            kept = {function: getattr(files, function) for function in functions}
            for function, other in functions.items():
                setattr(files, function, other)
            try:
                return FILE_CALLS[name](*arguments)
            finally:
                for function, other in kept.items():
                    setattr(files, function, other)
        return changed

    return StandIn(**{name: call(name) for name in FILE_CALLS})


FILE_CALLS = {"data_set": files.data_set, "read_file": files.read_file, "judge_file": files.judge_file, "show_file": files.show_file}
READ_HEAD, HEAD_ELEMENTS, INSIDE, SINGLE_UID = files.read_head, files.head_elements, files.inside, files.single_uid


def any_syntax(file):
    elements, end = files.head_elements(file)
    sop_class = files.single_uid(file, elements, files.MEDIA_STORAGE_SOP_CLASS_UID)
    if sop_class is None or files.single_uid(file, elements, files.TRANSFER_SYNTAX_UID) is None:
        raise files.HeadRefusal(16)
    return end, sop_class


def length_ignored(file):
    """The head up to the last element of group 0002, whatever its group length says."""
    elements, end = HEAD_ELEMENTS(file)
    while file[end:end + 2] == b"\2\0" and len(file) - end >= 8:
        end += 8 + reading.number(file, end + 6, 2)
    return elements, end


def class_first(file, row_buffer_length, call):
    """18 before 8."""
    outcome = INSIDE(file, row_buffer_length, call)
    enough = INSIDE(file, 1 << 40, call)
    return outcome._replace(answer=enough.answer) if outcome.answer.code == 8 and enough.answer.code == 18 else outcome


def any_values(data, elements, tag):
    """The first of several UIDs taken."""
    for element in elements:
        if element.tag == tag and element.vr == "UI" and element.value_length > 0:
            return bytes(data[element.value_offset:element.value_offset + element.value_length]).split(b"\\")[0].rstrip(b"\0")
    return None


FILE_FAULTS = {
    "the group length ignored": files_with(head_elements=length_ignored),
    "the transfer syntax not compared": files_with(read_head=any_syntax),
    "18 before 8": files_with(inside=class_first),
    "the data set's start off by the group length element": files_with(read_head=lambda file: (READ_HEAD(file)[0] - 12, READ_HEAD(file)[1])),
    "several UIDs": files_with(single_uid=any_values),
    "18 not given": files_with(inside=lambda file, length, call: call(file[files.read_head(file)[0]:]) if files.data_set(file)[0] == 0
                              else INSIDE(file, length, call)),
    "15 given as 16": StandIn(answer_changed(code=lambda a: 16 if a.code == 15 else a.code), data_set=lambda file: (
        files.data_set(file)[0], files.data_set(file)[1])),
    "start given with 16": StandIn(data_set=lambda file: (files.data_set(file)[0], files.data_set(file)[1] or 144)),
    "rows not written at code 18": at_code(18, rows=()),
    "row count given with code 18": answer_at_code(18, rows=5),
    "a picture at code 18": at_code(18, image=b"\0"),
    "rows touched at code 16": at_code(16, rows=(0,)),
    "places from the file's start": StandIn(lambda o, data: o._replace(answer=o.answer._replace(offset=o.answer.offset + files.data_set(data)[1]))
                                            if 1 <= o.answer.code <= 6 else o),
}


def another_sheet(change):
    """`change(numbers)` answers other numbers of a sheet that was done."""
    return StandIn(lambda o, data: o._replace(sheet=tuple(change(list(o.sheet)))) if o.answer.code == 0 and o.sheet else o)


def moved_number(place, more):
    def change(numbers):
        numbers[place] += more
        return numbers

    return another_sheet(change)


def last_cell_left_out(numbers):
    numbers[numbers[258]] -= 1
    return numbers


def other_frames(first, last):
    """The sheet of other frames: so many more at either end, kept within what there is."""
    def sample(data, a, b, *rooms):
        outcome = sheet.sheet(data, a, b, *rooms)
        if outcome.answer.code != 0 or not outcome.sheet:
            return outcome
        other = sheet.sheet(data, max(1, a + first), b + last, *rooms)
        return outcome._replace(sheet=other.sheet) if other.answer.code == 0 else outcome

    return StandIn(sample=sample)


unmasked = with_others(drawing, drawing.draw, {"mask_samples": lambda *arguments: None})
# Counts native cells for masked ones.
native_cells = with_others(sheet, sheet.sheet, {"draw": lambda root, frame: (drawing.draw(root, frame)[0], unmasked(root, frame)[1])})


SHEET_FAULTS = {
    "nothing written": StandIn(lambda o, data: o._replace(sheet=())),
    "the last cell left out": another_sheet(last_cell_left_out),
    "native cells for masked ones": StandIn(sample=native_cells),
    "frame a - 1 too": other_frames(-1, 0),
    "frame b + 1 too": other_frames(0, 1),
    "frame b left out": other_frames(0, -1),
    "a refusal that leaves counts": StandIn(lambda o, data: o._replace(sheet=(1, *o.sheet[1:])) if o.answer.code == 10 and o.sheet else o),
    "a refusal that writes nothing": at_code(19, sheet=()),
    "a number too many written": StandIn(lambda o, data: o._replace(sheet=o.sheet + (0,)) if o.sheet else o),
    "a small buffer touched": StandIn(lambda o, data: o if o.sheet or o.answer.code != 11 else o._replace(sheet=(0,))),
    "masked frames counted": another_sheet(lambda n: n[:256] + [max(0, n[256] - 1)] + n[257:]),
    "lowest off by one": moved_number(257, 1),
    "highest off by one": moved_number(258, -1),
    "sum of counts": another_sheet(lambda n: n[:259] + [sum(n[:256])]),
    "32-bit sum": another_sheet(lambda n: n[:259] + [n[259] % 2 ** 16]),
    "rows not written at code 19": at_code(19, rows=()),
    "row count given with code 19": answer_at_code(19, rows=5),
    "19 given as 10": answer_at_code(19, code=10),
    "10 given as 19": answer_at_code(10, code=19),
    "16-bit frame numbers": StandIn(sample=lambda data, a, b, *rooms: sheet.sheet(data, a % 65536, b % 65536, *rooms)),
}

def compared_otherwise(change):
    """`change(compared)` answers another answer of xa_compare."""
    def compare(data, *arguments):
        found, rows = comparing.compare(data, *arguments)
        return change(found), rows

    return StandIn(compare=compare)


def with_off_places(named):
    """`named(places)` answers the place and the count that are named of the places that are off."""
    def compare(data, frame, cells, tolerance, row_buffer_length):
        found, rows = comparing.compare(data, frame, cells, tolerance, row_buffer_length)
        if found.answer.code or found.same:
            return found, rows
        ours = drawing.show(data, frame, row_buffer_length, len(cells)).image
        first, count = named(comparing.places_off(ours, cells, tolerance))
        return found._replace(first=first, count=count), rows

    return StandIn(compare=compare)


def last_cell_not_looked_at(data, frame, cells, tolerance, row_buffer_length):
    found, rows = comparing.compare(data, frame, cells, tolerance, row_buffer_length)
    if found.answer.code or found.same:
        return found, rows
    ours = drawing.show(data, frame, row_buffer_length, len(cells)).image
    off = comparing.places_off(ours[:-1], cells[:-1], tolerance)
    return (found._replace(first=off[0], count=len(off)) if off else found._replace(same=1, first=0, count=0)), rows


def tolerance_first(data, frame, cells, tolerance, row_buffer_length):
    found, rows = comparing.compare(data, frame, cells, tolerance, row_buffer_length)
    if found.answer.code == 22 and tolerance > comparing.MOST:
        found = found._replace(answer=found.answer._replace(code=23))
    return found, rows


PICTURE_FAULTS = {
    "always yes": compared_otherwise(lambda c: c._replace(same=1, first=0, count=0) if c.answer.code == 0 else c),
    "always no": compared_otherwise(lambda c: c._replace(same=0, count=1) if c.same else c),
    "one more allowed": StandIn(compare=lambda data, f, cells, t, room: comparing.compare(data, f, cells, t + 1 if t < 255 else t, room)),
    "one less allowed": StandIn(compare=lambda data, f, cells, t, room: comparing.compare(data, f, cells, t - 1 if 0 < t < 256 else t, room)),
    "the last place in place of the first": with_off_places(lambda places: (places[-1], len(places))),
    "places from 1": with_off_places(lambda places: (places[0] + 1, len(places))),
    "one counted for all": with_off_places(lambda places: (places[0], 1)),
    "cells that pass counted": with_off_places(lambda places: (places[0], len(places) + 1)),
    "the last cell not looked at": StandIn(compare=last_cell_not_looked_at),
    "23 before 22": StandIn(compare=tolerance_first),
    "a tolerance of 8 bits": StandIn(compare=lambda data, f, cells, t, room: comparing.compare(data, f, cells, t % 256, room)),
    "a tolerance of 32 bits": StandIn(compare=lambda data, f, cells, t, room: comparing.compare(data, f, cells, t % 2 ** 32, room)),
    "frame 1 for every frame": StandIn(compare=lambda data, f, cells, t, room: comparing.compare(data, 1 if f in (2, 3) else f, cells, t, room)),
    "the first place given with yes": compared_otherwise(lambda c: c._replace(first=1) if c.same else c),
    "row count given with code 22": compared_otherwise(lambda c: c._replace(answer=c.answer._replace(rows=4)) if c.answer.code == 22 else c),
    "masked given": compared_otherwise(lambda c: c._replace(answer=c.answer._replace(masked=1)) if c.answer.code == 0 else c),
    "rows not written at code 23": StandIn(compare=lambda *arguments: (lambda found, rows: (found, () if found.answer.code == 23 else rows))(
        *comparing.compare(*arguments))),
}

PATIENT_ID = b"\x10\x00\x20\x00"  # the tag, as bytes


def seen_of_patient(change):
    """`change(outcome, number)` answers another outcome, by a number that Patient ID's value and length come to."""
    return StandIn(lambda o, data: change(o, sum(data[data.index(PATIENT_ID):][4:16]) % 5) if PATIENT_ID in data else o)


def given_by_patient(field):
    return seen_of_patient(lambda o, n: o._replace(answer=o.answer._replace(**{field: getattr(o.answer, field) + n})) if o.answer.code in (0, 9) else o)


PRIVACY_FAULTS = {
    "a rule by Patient ID": given_by_patient("rule"),
    "a frame by Patient ID": given_by_patient("frame"),
    "a row count by Patient ID": given_by_patient("rows"),
    "masked by Patient ID": given_by_patient("masked"),
    "a picture by Patient ID": seen_of_patient(lambda o, n: o._replace(image=bytes([n]) + o.image[1:]) if o.image else o),
    "a sheet by Patient ID": seen_of_patient(lambda o, n: o._replace(sheet=(n, *o.sheet[1:])) if o.sheet else o),
    "intensities by Patient ID": seen_of_patient(lambda o, n: o._replace(values=(n, *o.values[1:])) if o.values else o),
}

def given_by_others(call):
    """A call of another name that reports searches with code 0."""
    def given(*arguments):
        outcome = call(*arguments)
        return outcome._replace(answer=outcome.answer._replace(searches=1)) if outcome.answer.code == 0 else outcome

    return given


def compared_with_searches(*arguments):
    found, rows = comparing.compare(*arguments)
    return found._replace(answer=found.answer._replace(searches=5)) if found.answer.code == 0 else found, rows


SEARCH_FAULTS = {
    "no sum": StandIn(answer_changed(searches=lambda a: 0)),
    "one more": StandIn(answer_changed(searches=lambda a: a.searches + 1 if a.searches else 0)),
    "a sum of 16 bits": StandIn(answer_changed(searches=lambda a: a.searches % 2 ** 16)),
    "given with code 9": StandIn(answer_changed(searches=lambda a: a.rows if a.code == 9 else a.searches)),
    "given with code 8": answer_at_code(8, searches=1),
    "not given by judge_file": StandIn(judge_file=lambda *given: (lambda o: o._replace(answer=o.answer._replace(searches=0)))(files.judge_file(*given))),
    "given with code 18": StandIn(judge_file=lambda *given: (lambda o: o._replace(answer=o.answer._replace(
        searches=1 if o.answer.code == 18 else o.answer.searches)))(files.judge_file(*given))),
    "given by read": StandIn(read=given_by_others(reading.read)),
    "given by show": StandIn(show=given_by_others(drawing.show)),
    "given by sheet": StandIn(sample=given_by_others(sheet.sheet)),
    "given by linear": StandIn(linear=given_by_others(intensity.linear)),
    "given by compare": StandIn(compare=compared_with_searches),
    "given by read_file": StandIn(read_file=given_by_others(files.read_file)),
    "given by show_file": StandIn(show_file=given_by_others(files.show_file)),
}

FAULTS = {"read": READ_FAULTS, "judge": JUDGE_FAULTS, "slips": SLIP_FAULTS, "decimals": DECIMAL_FAULTS, "windows": WINDOW_FAULTS,
          "show": SHOW_FAULTS, "canonical": CANONICAL_FAULTS, "linear": LINEAR_FAULTS, "sheet": SHEET_FAULTS,
          "pictures": PICTURE_FAULTS, "files": FILE_FAULTS, "privacy": PRIVACY_FAULTS, "searches": SEARCH_FAULTS}
