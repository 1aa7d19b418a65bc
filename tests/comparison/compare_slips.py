"""Compares xa_write_slip and xa_read_slip with the reference: every boundary of every field of both versions, all lengths,
random slips, and the slips that were written before Q-13."""

import itertools
import os
import random

from reference import slips
from reference.answers import Answer

from .common import run_as_program

CODES = (*range(0, 17), 127, 128, 255, 256, 257, 264, 265, 511, 512, 65536, 65545, 2 ** 31, 2 ** 32 - 1)
RULES = (*range(0, 42), 127, 128, 255, 256, 257, 283, 293, 294, 65536, 65563, 2 ** 32 - 1)
FRAMES = (0, 1, 2, 255, 256, 32767, 32768, 65534, 65535, 65536, 65537, 2 ** 31, 2 ** 32 - 1)
OFFSETS = (0, 1, 255, 256, 65535, 65536, 2 ** 30 - 1, 2 ** 30, 2 ** 30 + 1, 2 ** 31, 2 ** 32 - 1)
ROWS = (0, 1, 2, 57, 255, 256, 65535, 65536, 2 ** 24, 2 ** 27 - 1, 2 ** 27, 2 ** 27 + 1, 2 ** 28, 2 ** 31, 2 ** 32 - 1)
KNOWN_FLAGS = (1, 2, 256, 65536, 2 ** 31, 2 ** 32 - 1)
VERDICTS = ((0, 0, 0, 0), (7, 0, 0, 0), (8, 0, 0, 0), (1, 0, 0, 0), (2, 0, 0, 10), (6, 0, 0, 2 ** 30), (9, 1, 0, 0), (9, 26, 0, 0),
            (9, 27, 1, 0), (9, 37, 65535, 0), (9, 38, 0, 0), (9, 39, 1, 0), (9, 39, 65535, 0))  # code, rule, frame, offset
VERSION_1 = os.path.join(os.path.dirname(os.path.abspath(__file__)), "version_1_slips.txt")


def version_1_slips():
    """The slips that the library wrote before Q-13, each with its verdict: a line is code, offset, rule, frame and bytes."""
    with open(VERSION_1, encoding="ascii") as file:
        lines = [line.split() for line in file if not line.startswith("#")]
    for code, offset, rule, frame, text in lines:
        yield Answer(int(code), offset=int(offset), rows=None, rule=int(rule), frame=int(frame)), bytes.fromhex(text)


def one_field_changed():
    """Each verdict of the list with one of its fields, in turn, at each boundary."""
    for fields in VERDICTS:
        for place, values in enumerate((CODES, RULES, FRAMES, OFFSETS)):
            for value in values:
                yield (*fields[:place], value, *fields[place + 1:])


def fits_slip(code, rule, frame, offset):
    return code < 256 and rule < 256 and frame < 65536


def check_write(comparison, verdict, buffer_length, **handed):
    code, written = slips.write_slip(verdict, buffer_length)
    found, buffer = comparison.library.write_slip(verdict, buffer_length, **handed)
    name = f"write {verdict}, buffer of {buffer_length}, {handed}"
    comparison.must_equal(name, found, code)
    comparison.must_be_right(name + ", slip buffer", buffer.fault(written))
    comparison.note(("write", code))
    return written


def check_read(comparison, slip):
    def difference(candidate):
        found = comparison.library.read_slip(candidate)
        expected = (*slips.read_slip(candidate), None)
        return None if found == expected else f"{found}, expected {expected}"

    comparison.check("read slip", slip, difference)
    comparison.note(("read", slips.read_slip(slip)[0], len(slip)))


def compare_writing(comparison, rng):
    """Every boundary of every field, in all combinations; the buffer 17 bytes or another length."""
    for code, rule, frame, offset in itertools.product(CODES, RULES, FRAMES, OFFSETS):
        interesting = slips.possible(code, rule, frame, offset) or rng.random() < 0.1
        if interesting:
            verdict = Answer(code, offset, rng.choice(ROWS) if code in (0, 9) else 0, rule, frame, 0)
            written = check_write(comparison, verdict, rng.choice((17, 17, 18, 24)))
            if written:
                comparison.must_equal(f"written and read back {verdict}", comparison.library.read_slip(written), (0, verdict, None))
            if rng.random() < 0.2:
                check_write(comparison, verdict, rng.randrange(17))
    for code, rule, frame, offset in one_field_changed():
        check_write(comparison, Answer(code, offset, 0, rule, frame, 0), 17)
    for length in range(25):
        for verdict in (Answer(0, rows=57), Answer(2, offset=10), Answer(9, rule=26), Answer(9, rule=37, frame=812, rows=57), Answer(9, rule=37),
                        Answer(9, rule=39, frame=812, rows=57), Answer(9, rule=39), Answer(10), Answer(3, rows=1), Answer(0, rows=2 ** 27 + 1)):
            check_write(comparison, verdict, length)
            check_write(comparison, verdict._replace(rows=None), length)
    # Every boundary of the row count with each verdict, known by each flag; masked or native and the searches play no part.
    for (code, rule, frame, offset), rows in itertools.product(((10, 0, 0, 0), *VERDICTS), ROWS):
        for masked in (0, 1, 2 ** 32 - 1):
            verdict = Answer(code, offset, rows, rule, frame, masked, rng.choice((0, 1, 343, 2 ** 32, 2 ** 64 - 1)))
            check_write(comparison, verdict, 17, flag=rng.choice(KNOWN_FLAGS))
            check_write(comparison, verdict._replace(rows=None), 17, unknown=rows)
            check_write(comparison, verdict._replace(rows=None), rng.randrange(17), unknown=rows)


def compare_reading(comparison, rng, count):
    good = [slips.slip_bytes(*fields, rows) for fields in VERDICTS
            for rows in (None, *((0, 57, 2 ** 27) if fields[0] in (0, 9) else (0,)))]
    for slip in good:
        for length in range(25):
            check_read(comparison, (slip + bytes(12))[:length])
            check_read(comparison, (slip + slip)[:length])
        for position in range(len(slip)):
            for value in range(256):
                check_read(comparison, slip[:position] + bytes([value]) + slip[position + 1:])
    for fields in itertools.product(CODES, RULES, FRAMES, OFFSETS):
        if fits_slip(*fields) and rng.random() < 0.1:
            check_read(comparison, slips.slip_bytes(*fields, None))
            check_read(comparison, slips.slip_bytes(*fields, rng.choice(ROWS)))
    for fields in filter(lambda fields: fits_slip(*fields), one_field_changed()):
        check_read(comparison, slips.slip_bytes(*fields, None))
        check_read(comparison, slips.slip_bytes(*fields, 0))
    for fields, rows in itertools.product(((10, 0, 0, 0), *VERDICTS), ROWS):
        check_read(comparison, slips.slip_bytes(*fields, rows))
    for mark in (b"XAV", b"xav", b"XAW", b"VAX", b"XA\0", b"\0\0\0"):
        for version in (0, 1, 2, 3, 255, 256, 257, 258, 512, 65535):
            for length in range(20):
                check_read(comparison, mark + version.to_bytes(2, "little") + bytes(length))
    for _ in range(count):
        start = rng.choice((b"", b"XAV", b"XAV\1\0", b"XAV\2\0"))
        check_read(comparison, start + rng.randbytes(rng.choice((8, 12, 13, 17, rng.randrange(25)))))


def compare_version_1(comparison):
    """What was written before Q-13 reads as its verdict, with the row count not known."""
    for verdict, slip in version_1_slips():
        check_read(comparison, slip)
        comparison.must_equal(f"a slip of version 1, {slip.hex()}", comparison.library.read_slip(slip), (0, verdict, None))
        comparison.note("version 1")


def run(comparison, arguments):
    rng = random.Random(comparison.seed)
    compare_version_1(comparison)
    compare_writing(comparison, rng)
    compare_reading(comparison, rng, comparison.count)
    comparison.insist(["version 1", *(("write", code) for code in (0, 11, 14))])
    comparison.insist([("read", *ended) for ended in ((0, 13), (0, 17), (12, 3), (12, 4), (12, 5), (12, 13), (12, 17), (13, 5), (13, 13),
                                                      (13, 17), (14, 13), (14, 17))])
    return "every boundary of every field of both versions"


if __name__ == "__main__":
    run_as_program("slips", run)
