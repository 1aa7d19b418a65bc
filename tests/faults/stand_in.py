"""A stand-in for the library: the C functions played by the reference, with a fault put in where one is wanted.

With no fault it must pass every comparison; with a fault it must fail one. So it shows that the comparisons can fail.
"""

import ctypes

from comparison.library import ROWS_NOT_KNOWN, ComparedStruct, PartStruct, RewrittenStruct, SlipStruct, answer_of, struct_of
from reference import canonical, comparing, drawing, files, intensity, reading, rules, sheet, slips


VERSION = 1  # XA_VERSION of the header that the stand-in plays


def write(address, content):
    ctypes.memmove(address, bytes(content), len(content))


def write_rows(address, numbers):
    write(address, b"".join((number & 0xFFFFFFFF).to_bytes(4, "little") for number in numbers))


def view(address, size):
    """The input: its bytes, or where it is huge something that is taken apart like bytes, without a copy."""
    if size < 1 << 28:
        return ctypes.string_at(address, size)
    return (ctypes.c_char * size).from_address(address)


class StandIn:
    """The C functions. `change(outcome, data)` may answer another outcome, `after(...)` may write where nothing may be
    written; the calls themselves may be played by others than the reference's."""

    def __init__(self, change=None, after=None, read=reading.read, judge=rules.judge, show=drawing.show,
                 write_slip=slips.write_slip, read_slip=slips.read_slip, write_canonical=canonical.write_canonical,
                 data_set=files.data_set, read_file=files.read_file, judge_file=files.judge_file, show_file=files.show_file,
                 linear=intensity.linear, root_level=intensity.root_level, root_entry=intensity.root_entry,
                 sample=sheet.sheet, compare=comparing.compare, count=reading.count, version=VERSION):
        self.read = read
        self.judge = judge
        self.show = show
        self.data_set = data_set
        self.read_file = read_file
        self.judge_file = judge_file
        self.show_file = show_file
        self.write_slip = write_slip
        self.read_slip = read_slip
        self.write_canonical = write_canonical
        self.linear = linear
        self.sample = sample
        self.compare = compare
        self.count = count
        self.xa_version = lambda: version
        self.xa_root_level = root_level
        self.xa_root_entry = root_entry
        self.change = change or (lambda outcome, data: outcome)
        self.after = after or (lambda outcome, data, rows, rows_length: None)

    def with_rows(self, call, data, size, rows, rows_length):
        content = view(data, size)
        outcome = self.change(call(content, rows_length), content)
        write_rows(rows, outcome.rows)
        self.after(outcome, data, rows, rows_length)
        return struct_of(outcome.answer)

    def with_image(self, call, data, size, frame, rows, rows_length, image, image_length):
        content = view(data, size)
        outcome = self.change(call(content, frame, rows_length, image_length), content)
        write_rows(rows, outcome.rows)
        write(image, outcome.image)
        self.after(outcome, data, rows, rows_length)
        return struct_of(outcome.answer)

    def xa_count(self, data, size):
        return struct_of(self.count(view(data, size)))

    def xa_read(self, *given):
        return self.with_rows(self.read, *given)

    def xa_judge(self, *given):
        return self.with_rows(self.judge, *given)

    def xa_show(self, *given):
        return self.with_image(self.show, *given)

    def xa_data_set(self, file, size):
        return PartStruct(*self.data_set(view(file, size)))

    def xa_read_file(self, *given):
        return self.with_rows(self.read_file, *given)

    def xa_judge_file(self, *given):
        return self.with_rows(self.judge_file, *given)

    def xa_show_file(self, *given):
        return self.with_image(self.show_file, *given)

    def xa_canonical(self, data, size, rows, rows_length, target, target_length):
        content = view(data, size)
        outcome = self.change(self.write_canonical(content, rows_length, target_length), content)
        write_rows(rows, outcome.rows)
        write(target, outcome.target)
        self.after(outcome, data, rows, rows_length)
        return RewrittenStruct(*outcome.answer)

    def xa_linear(self, data, size, frame, rows, rows_length, values, values_length):
        content = view(data, size)
        outcome = self.change(self.linear(content, frame, rows_length, values_length), content)
        write_rows(rows, outcome.rows)
        write(values, b"".join((number & 0xFFFF).to_bytes(2, "little") for number in outcome.values))
        self.after(outcome, data, rows, rows_length)
        return struct_of(outcome.answer)

    def xa_sheet(self, data, size, first, last, rows, rows_length, numbers, numbers_length):
        content = view(data, size)
        outcome = self.change(self.sample(content, first, last, rows_length, numbers_length), content)
        write_rows(rows, outcome.rows)
        write(numbers, b"".join((number & 0xFFFFFFFFFFFFFFFF).to_bytes(8, "little") for number in outcome.sheet))
        self.after(outcome, data, rows, rows_length)
        return struct_of(outcome.answer)

    def xa_compare(self, data, size, frame, cells, cells_length, tolerance, rows, rows_length):
        answer, written = self.compare(view(data, size), frame, ctypes.string_at(cells, cells_length), tolerance, rows_length)
        write_rows(rows, written)
        return ComparedStruct(struct_of(answer.answer), *answer[1:])

    def xa_write_slip(self, verdict, rows_known, slip, slip_length):
        verdict = answer_of(verdict)
        code, written = self.write_slip(verdict if rows_known else verdict._replace(rows=None), slip_length)
        write(slip, written)
        return code

    def xa_read_slip(self, slip, slip_length):
        code, verdict = self.read_slip(ctypes.string_at(slip, slip_length))
        if verdict.rows is None:
            return SlipStruct(code, 0, struct_of(verdict._replace(rows=ROWS_NOT_KNOWN)))
        return SlipStruct(code, 1 if code == 0 else 0, struct_of(verdict))
