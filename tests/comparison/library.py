"""The library's C interface, called through ctypes, with everything around a call watched.

* The input lies in memory that ends at an unreadable page, so a read past its end stops the process; it must be the
  same after the call.
* Each buffer handed to a call is filled with a pattern before it, and has guard zones in front of and behind it; a
  write outside the buffer, or inside it where nothing may be written, is seen.
"""

import ctypes
import mmap
import os
import struct
import tempfile

from reference.answers import Answer
from reference.canonical import CanonicalAnswer
from reference.comparing import Compared

GUARD = 64  # bytes before and after a buffer
ROOT = os.path.dirname(os.path.dirname(os.path.dirname(os.path.abspath(__file__))))
HEADER = os.path.join(ROOT, "include", "luuxidgaan.h")


class AnswerStruct(ctypes.Structure):
    """xa_answer of include/luuxidgaan.h."""

    _fields_ = [*((name, ctypes.c_uint32) for name in ("code", "offset", "rows", "rule", "frame", "masked")), ("searches", ctypes.c_uint64)]


class RewrittenStruct(ctypes.Structure):
    """xa_rewritten of include/luuxidgaan.h."""

    _fields_ = [(name, ctypes.c_uint32) for name in ("code", "offset", "rows", "length")]


class ComparedStruct(ctypes.Structure):
    """xa_compared of include/luuxidgaan.h."""

    _fields_ = [("answer", AnswerStruct), *((name, ctypes.c_uint32) for name in ("same", "first", "count"))]


class SlipStruct(ctypes.Structure):
    """xa_slip of include/luuxidgaan.h."""

    _fields_ = [("code", ctypes.c_uint32), ("rows_known", ctypes.c_uint32), ("verdict", AnswerStruct)]


class PartStruct(ctypes.Structure):
    """xa_part of include/luuxidgaan.h."""

    _fields_ = [("code", ctypes.c_uint32), ("start", ctypes.c_size_t)]


ROWS_NOT_KNOWN = 0xFFFFFFFF  # XA_ROWS_NOT_KNOWN of the header

SIGNATURES = {
    "xa_version": (ctypes.c_uint32, []),
    "xa_count": (AnswerStruct, [ctypes.c_void_p, ctypes.c_size_t]),
    "xa_read": (AnswerStruct, [ctypes.c_void_p, ctypes.c_size_t, ctypes.c_void_p, ctypes.c_size_t]),
    "xa_judge": (AnswerStruct, [ctypes.c_void_p, ctypes.c_size_t, ctypes.c_void_p, ctypes.c_size_t]),
    "xa_show": (AnswerStruct, [ctypes.c_void_p, ctypes.c_size_t, ctypes.c_uint64, ctypes.c_void_p, ctypes.c_size_t,
                               ctypes.c_void_p, ctypes.c_size_t]),
    "xa_data_set": (PartStruct, [ctypes.c_void_p, ctypes.c_size_t]),
    "xa_read_file": (AnswerStruct, [ctypes.c_void_p, ctypes.c_size_t, ctypes.c_void_p, ctypes.c_size_t]),
    "xa_judge_file": (AnswerStruct, [ctypes.c_void_p, ctypes.c_size_t, ctypes.c_void_p, ctypes.c_size_t]),
    "xa_show_file": (AnswerStruct, [ctypes.c_void_p, ctypes.c_size_t, ctypes.c_uint64, ctypes.c_void_p, ctypes.c_size_t,
                                    ctypes.c_void_p, ctypes.c_size_t]),
    "xa_canonical": (RewrittenStruct, [ctypes.c_void_p, ctypes.c_size_t, ctypes.c_void_p, ctypes.c_size_t, ctypes.c_void_p,
                                       ctypes.c_size_t]),
    "xa_linear": (AnswerStruct, [ctypes.c_void_p, ctypes.c_size_t, ctypes.c_uint64, ctypes.c_void_p, ctypes.c_size_t,
                                 ctypes.c_void_p, ctypes.c_size_t]),
    "xa_sheet": (AnswerStruct, [ctypes.c_void_p, ctypes.c_size_t, ctypes.c_uint64, ctypes.c_uint64, ctypes.c_void_p, ctypes.c_size_t,
                                ctypes.c_void_p, ctypes.c_size_t]),
    "xa_compare": (ComparedStruct, [ctypes.c_void_p, ctypes.c_size_t, ctypes.c_uint64, ctypes.c_void_p, ctypes.c_size_t, ctypes.c_uint64,
                                    ctypes.c_void_p, ctypes.c_size_t]),
    "xa_root_level": (ctypes.c_uint8, [ctypes.c_uint64]),
    "xa_root_entry": (ctypes.c_uint16, [ctypes.c_uint8]),
    "xa_write_slip": (ctypes.c_uint32, [AnswerStruct, ctypes.c_uint32, ctypes.c_void_p, ctypes.c_size_t]),
    "xa_read_slip": (SlipStruct, [ctypes.c_void_p, ctypes.c_size_t]),
}


def answer_of(struct_value):
    return Answer(*(getattr(struct_value, name) for name in Answer._fields))


def struct_of(answer):
    return AnswerStruct(*answer[:len(AnswerStruct._fields_)])


def rewritten_of(struct_value):
    return CanonicalAnswer(*(getattr(struct_value, name) for name in CanonicalAnswer._fields))


def compared_of(struct_value):
    return Compared(answer_of(struct_value.answer), *(getattr(struct_value, name) for name in Compared._fields[1:]))


class GuardedBuffer:
    """A buffer of `length` bytes full of a pattern, between two guard zones of the same pattern.

    The pattern differs from call to call, so that bytes written by chance equal to it do not go unseen for long.
    """

    _count = 0

    @classmethod
    def start_at(cls, count):
        """So that buffers made from now on hold the same as buffers made after an earlier such call."""
        cls._count = count

    def __init__(self, length):
        GuardedBuffer._count += 1
        shift = GuardedBuffer._count % 241
        unit = bytes((position * 7 + shift) % 251 + 3 for position in range(251))
        total = length + 2 * GUARD
        self.before = (unit * (total // 251 + 1))[:total]
        self.length = length
        self.memory = (ctypes.c_ubyte * total).from_buffer_copy(self.before)
        self.address = ctypes.addressof(self.memory) + GUARD

    def fill(self, content):
        """Puts the whole content there before a call that may not change it."""
        ctypes.memmove(self.address, content, self.length)
        self.before = bytes(self.memory)

    def fault(self, written):
        """None if the front of the buffer holds `written` and all else is as before; else what is wrong, in words."""
        expected = self.before[:GUARD] + written + self.before[GUARD + len(written):]
        after = bytes(self.memory)
        if after == expected:
            return None
        position = next(at for at in range(len(after)) if after[at] != expected[at]) - GUARD
        if position < 0:
            return f"written in front of the buffer, at byte {position}"
        if position >= self.length:
            return f"written behind the buffer of {self.length} bytes, at byte {position}"
        if position >= len(written):
            return f"byte {position} is touched, though only {len(written)} bytes are to be written"
        return (f"byte {position} is {after[position + GUARD]:02X}H, expected {written[position]:02X}H"
                f" (of {len(written)} bytes written)")


class InputMemory:
    """Memory for the input, up against an unreadable page.

    It is a file in the given folder, so that after a crash the last input can be taken from it: its size stands in the
    first 8 bytes, the input itself ends one page before the file's end.
    """

    def __init__(self, folder, capacity):
        page = mmap.PAGESIZE
        size = (capacity + GUARD + 8 + page - 1) // page * page + page
        self.path = os.path.join(folder, f"last-input-{os.getpid()}")
        with open(self.path, "w+b") as file:
            file.truncate(size)
            self.memory = mmap.mmap(file.fileno(), size)
        self.capacity = capacity
        self.base = ctypes.addressof(ctypes.c_char.from_buffer(self.memory))
        self.end = self.base + size - page
        libc = ctypes.CDLL(None, use_errno=True)
        libc.mprotect.argtypes = [ctypes.c_void_p, ctypes.c_size_t, ctypes.c_int]
        if libc.mprotect(self.end, page, 0) != 0:
            raise OSError(ctypes.get_errno(), "mprotect")

    def place(self, data):
        """Puts the input down and answers its address."""
        self.memory[0:8] = struct.pack("<Q", len(data))
        self.content = b"\xA5" * GUARD + bytes(data)
        ctypes.memmove(self.end - len(self.content), self.content, len(self.content))
        return self.end - len(data)

    def fault(self):
        if ctypes.string_at(self.end - len(self.content), len(self.content)) == self.content:
            return None
        return "the input was changed"


class Library:
    """The calls of a library. `functions` is a ctypes library, or a stand-in with the same functions."""

    def __init__(self, functions, folder=None):
        self.functions = {}
        for name, (result, parameters) in SIGNATURES.items():
            function = getattr(functions, name)
            if isinstance(functions, ctypes.CDLL):
                function.restype = result
                function.argtypes = parameters
            self.functions[name] = function
        self.folder = folder or tempfile.mkdtemp(prefix="luuxidgaan-tests-")
        self.input = None

    @classmethod
    def load(cls, path, folder=None):
        return cls(ctypes.CDLL(os.path.abspath(path)), folder)

    def _place(self, data):
        if self.input is None or self.input.capacity < len(data):
            self.input = InputMemory(self.folder, max(1 << 16, 2 * len(data)))
        return self.input.place(data)

    def version(self):
        return int(self.functions["xa_version"]())

    def count(self, data):
        """What xa_count answers, and what is wrong with the input afterwards (None: nothing)."""
        address = self._place(data)
        return answer_of(self.functions["xa_count"](address, len(data))), self.input.fault()

    def count_on_mapping(self, memory):
        """The same of a large mapping (for the size limit); whether it changed is not looked at."""
        return answer_of(self.functions["xa_count"](ctypes.addressof(ctypes.c_char.from_buffer(memory)), len(memory)))

    def call_with_rows(self, name, data, row_buffer_length):
        """xa_read, xa_judge, or one of these of a file: the answer, and the buffers to look at."""
        address = self._place(data)
        rows = GuardedBuffer(4 * row_buffer_length)
        result = self.functions[name](address, len(data), rows.address, row_buffer_length)
        return Observation(answer_of(result), rows, GuardedBuffer(0), self.input)

    def show(self, data, frame, row_buffer_length, image_buffer_length, name="xa_show"):
        address = self._place(data)
        rows = GuardedBuffer(4 * row_buffer_length)
        image = GuardedBuffer(image_buffer_length)
        result = self.functions[name](address, len(data), frame, rows.address, row_buffer_length, image.address,
                                      image_buffer_length)
        return Observation(answer_of(result), rows, image, self.input)

    def canonical(self, data, row_buffer_length, target_length):
        address = self._place(data)
        rows = GuardedBuffer(4 * row_buffer_length)
        target = GuardedBuffer(target_length)
        result = self.functions["xa_canonical"](address, len(data), rows.address, row_buffer_length, target.address,
                                                target_length)
        return CanonicalObservation(rewritten_of(result), rows, target, self.input)

    def canonical_on_mapping(self, memory, row_buffer_length, target_length):
        """The call on a large mapping (for the size limit); whether it changed is not looked at."""
        address = ctypes.addressof(ctypes.c_char.from_buffer(memory))
        rows = GuardedBuffer(4 * row_buffer_length)
        target = GuardedBuffer(target_length)
        result = self.functions["xa_canonical"](address, len(memory), rows.address, row_buffer_length, target.address,
                                                target_length)
        return CanonicalObservation(rewritten_of(result), rows, target, None)

    def linear(self, data, frame, row_buffer_length, values_buffer_length):
        address = self._place(data)
        rows = GuardedBuffer(4 * row_buffer_length)
        values = GuardedBuffer(2 * values_buffer_length)
        result = self.functions["xa_linear"](address, len(data), frame, rows.address, row_buffer_length, values.address,
                                             values_buffer_length)
        return Observation(answer_of(result), rows, GuardedBuffer(0), self.input, values)

    def sheet(self, data, first, last, row_buffer_length, sheet_length):
        address = self._place(data)
        rows = GuardedBuffer(4 * row_buffer_length)
        sheet = GuardedBuffer(8 * sheet_length)
        result = self.functions["xa_sheet"](address, len(data), first, last, rows.address, row_buffer_length, sheet.address, sheet_length)
        return Observation(answer_of(result), rows, GuardedBuffer(0), self.input, sheet=sheet)

    def sheet_on_mapping(self, memory, row_buffer_length, sheet_length):
        """The call on a large mapping (for the size limit), frames 1 to 1; whether it changed is not looked at."""
        address = ctypes.addressof(ctypes.c_char.from_buffer(memory))
        rows = GuardedBuffer(4 * row_buffer_length)
        sheet = GuardedBuffer(8 * sheet_length)
        result = self.functions["xa_sheet"](address, len(memory), 1, 1, rows.address, row_buffer_length, sheet.address, sheet_length)
        return Observation(answer_of(result), rows, GuardedBuffer(0), None, sheet=sheet)

    def compare(self, data, frame, cells, tolerance, row_buffer_length):
        address = self._place(data)
        rows = GuardedBuffer(4 * row_buffer_length)
        lent = GuardedBuffer(len(cells))
        lent.fill(cells)
        result = self.functions["xa_compare"](address, len(data), frame, lent.address, len(cells), tolerance, rows.address, row_buffer_length)
        return ComparedObservation(compared_of(result), rows, lent, self.input)

    def compare_on_mapping(self, memory, cells, tolerance, row_buffer_length):
        """The call on a large mapping (for the size limit), frame 1; whether it changed is not looked at."""
        address = ctypes.addressof(ctypes.c_char.from_buffer(memory))
        rows = GuardedBuffer(4 * row_buffer_length)
        lent = GuardedBuffer(len(cells))
        lent.fill(cells)
        result = self.functions["xa_compare"](address, len(memory), 1, lent.address, len(cells), tolerance, rows.address, row_buffer_length)
        return ComparedObservation(compared_of(result), rows, lent, None)

    def root_level(self, cell):
        return int(self.functions["xa_root_level"](cell))

    def root_entry(self, level):
        return int(self.functions["xa_root_entry"](level))

    def call_on_mapping(self, name, memory, row_buffer_length):
        """A call on a large mapping (for the size limit); whether it changed is not looked at. Show and linear get frame 1."""
        address = ctypes.addressof(ctypes.c_char.from_buffer(memory))
        rows = GuardedBuffer(4 * row_buffer_length)
        image = GuardedBuffer(16)
        lent = {"xa_show": image.length, "xa_show_file": image.length, "xa_linear": image.length // 2}.get(name)
        between = () if lent is None else (1,)
        behind = () if lent is None else (image.address, lent)
        result = self.functions[name](address, len(memory), *between, rows.address, row_buffer_length, *behind)
        return Observation(answer_of(result), rows, image, None)

    def data_set(self, file):
        """The code and start that xa_data_set answers, and what is wrong with the input afterwards (None: nothing)."""
        address = self._place(file)
        result = self.functions["xa_data_set"](address, len(file))
        return (int(result.code), int(result.start)), self.input.fault()

    def write_slip(self, verdict, slip_buffer_length, flag=1, unknown=ROWS_NOT_KNOWN):
        """The code answered, and the slip buffer. `flag` says that the rows are known; where they are None, the flag handed
        over is 0 and `unknown` takes their place."""
        slip = GuardedBuffer(slip_buffer_length)
        if verdict.rows is None:
            verdict, flag = verdict._replace(rows=unknown), 0
        code = self.functions["xa_write_slip"](struct_of(verdict), flag, slip.address, slip_buffer_length)
        return int(code), slip

    def read_slip(self, slip):
        """The code answered, the verdict, and what is wrong with the row count or the input afterwards (None: nothing)."""
        address = self._place(slip)
        result = self.functions["xa_read_slip"](address, len(slip))
        code, known, verdict = int(result.code), int(result.rows_known), answer_of(result.verdict)
        fault = self.input.fault()
        if known != (1 if code == 0 and verdict.rows != ROWS_NOT_KNOWN else 0):
            fault = f"rows_known {known} with code {code} and {verdict.rows} rows"
        if code == 0 and known == 0:
            verdict = verdict._replace(rows=None)
        return code, verdict, fault


def difference_in(buffers, answer, expected_answer, input_memory):
    """None if the answers are equal, each of the buffers (name, buffer, bytes written) holds what it has to, and the input is as it was; else
    the first thing that differs, in words."""
    if answer != expected_answer:
        return f"answer {answer}, expected {expected_answer}"
    for name, buffer, written in buffers:
        fault = buffer.fault(written)
        if fault:
            return f"{name}: {fault}"
    return input_memory.fault() if input_memory else None


def packed(numbers):
    return struct.pack(f"<{len(numbers)}I", *numbers)


class Observation:
    """What a call answered, with the buffers that it was given."""

    def __init__(self, answer, rows, image, input_memory, values=None, sheet=None):
        self.answer = answer
        self.rows = rows
        self.image = image
        self.input = input_memory
        self.values = values
        self.sheet = sheet

    def difference(self, expected):
        """None if the call did what the outcome `expected` says; else the first thing that differs, in words."""
        buffers = [("row buffer", self.rows, packed(expected.rows)), ("image buffer", self.image, expected.image)]
        if self.values:
            buffers.append(("values buffer", self.values, struct.pack(f"<{len(expected.values)}H", *expected.values)))
        if self.sheet:
            buffers.append(("sheet", self.sheet, struct.pack(f"<{len(expected.sheet)}Q", *expected.sheet)))
        return difference_in(buffers, self.answer, expected.answer, self.input)


class CanonicalObservation:
    """What xa_canonical answered, with the buffers that it was given."""

    def __init__(self, answer, rows, target, input_memory):
        self.answer = answer
        self.rows = rows
        self.target = target
        self.input = input_memory

    def difference(self, expected):
        buffers = [("row buffer", self.rows, packed(expected.rows)), ("target", self.target, expected.target)]
        return difference_in(buffers, self.answer, expected.answer, self.input)


class ComparedObservation:
    """What xa_compare answered, with the row buffer and the cells that it was given."""

    def __init__(self, answer, rows, cells, input_memory):
        self.answer = answer
        self.rows = rows
        self.cells = cells
        self.input = input_memory

    def difference(self, expected):
        answer, rows = expected
        return difference_in([("row buffer", self.rows, packed(rows)), ("cells", self.cells, b"")], self.answer, answer, self.input)
