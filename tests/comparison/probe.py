"""A small accepted object whose window and samples are put in place before each call: for very many windows."""

import ctypes
import random
import struct

from generators import enhanced_xa as xa
from generators import objects

from .common import exact_numbers
from reference import attributes as tags

FIELD = 26  # bytes of each value of the window: shorter ones are padded with spaces
PLACES = {tags.WINDOW_CENTER: "DS", tags.WINDOW_WIDTH: "DS", tags.VOI_LUT_FUNCTION: "CS"}


class Probe:
    """One frame of one row, of so many samples of 16 bits. VOI LUT Function is absent, or its value is put in place as well."""

    def __init__(self, library, samples=1, photometric="MONOCHROME2", function=False):
        shape = xa.Shape(bits_stored=16, frames=1, rows=1, columns=samples, photometric=photometric, voi="absent", extras=False)
        model = xa.build(random.Random(1), shape)
        places = [tags.WINDOW_CENTER, tags.WINDOW_WIDTH] + ([tags.VOI_LUT_FUNCTION] if function else [])
        marks = {tag: bytes([number + 1]) * FIELD for number, tag in enumerate(places)}
        model[tags.PER_FRAME_FUNCTIONAL_GROUPS_SEQUENCE][1][0][tags.FRAME_VOI_LUT_SEQUENCE] = xa.sq({tag: (PLACES[tag], mark) for tag,
                                                                                                     mark in marks.items()})
        model[tags.PIXEL_DATA] = ("OW", bytes(2 * samples))
        data = objects.encode(model)
        self.places = [data.index(mark) for mark in marks.values()]
        self.pixels = len(data) - 2 * samples
        self.library = library
        self.input = (ctypes.c_ubyte * len(data)).from_buffer_copy(data)
        self.view = memoryview(self.input).cast("B")
        self.numbers = exact_numbers(data)
        self.rows = (ctypes.c_uint32 * self.numbers)()
        self.image = (ctypes.c_ubyte * samples)()
        self.front = (ctypes.addressof(self.input), len(data))
        self.row_buffer = (ctypes.addressof(self.rows), self.numbers)

    def put(self, center, width, samples=(), function=b""):
        """The values' bytes; `samples` may be fewer than the object has, the others stay."""
        for place, value in zip(self.places, (center, width, function)):
            self.view[place:place + FIELD] = value.ljust(FIELD)
        self.view[self.pixels:self.pixels + 2 * len(samples)] = struct.pack(f"<{len(samples)}H", *samples)

    def verdict(self):
        """(code, rule, frame) that the library answers."""
        answer = self.library.functions["xa_judge"](*self.front, *self.row_buffer)
        return answer.code, answer.rule, answer.frame

    def levels(self):
        """The code, and the levels that the library draws."""
        answer = self.library.functions["xa_show"](*self.front, 1, *self.row_buffer, ctypes.addressof(self.image), len(self.image))
        return answer.code, bytes(self.image)
