"""Verdict slips: document 01, "What is handed back", last paragraph; document 02, Q-13.

A slip records a verdict: bytes "XAV", version (16 bits), code (8), rule (8), frame (16), place (32), little-endian. "Version
2 adds a 32-bit row count at the end, 17 bytes." Version 1, of 13 bytes, is read and no longer written. The `rows` of a
verdict whose row count is not known are None.
"""

from .answers import BUFFER_TOO_SMALL, DONE, IMPOSSIBLE_VERDICT, NOT_A_SLIP, SLIP_VERSION, Answer
from .reading import MAXIMUM_SIZE
from .rules import PER_FRAME_RULES

MARK = b"XAV"
LENGTHS = {1: 13, 2: 17}  # by version
VERSION = 2  # the one that is written
LENGTH = LENGTHS[VERSION]
MOST_ROWS = 134_217_728


def possible(code, rule, frame, offset):
    """Whether the fields are those of a verdict.

    "Possible: code 0, 7 or 8, rest 0; 1-6 with place up to 1,073,741,824, rest 0; 9 with rule 1-38, place 0, frame 1 to
    65,535 for rules 27-30 and 37, else 0." Q-8: "Slips take rule 39, with a frame of at least 1."
    """
    if code in (0, 7, 8):
        return rule == 0 and frame == 0 and offset == 0
    if 1 <= code <= 6:
        return rule == 0 and frame == 0 and 0 <= offset <= MAXIMUM_SIZE
    if code == 9:
        if rule in PER_FRAME_RULES:
            return 1 <= frame <= 65_535 and offset == 0
        return 1 <= rule <= 39 and frame == 0 and offset == 0
    return False


def possible_rows(code, rows):
    """ "It is 0 for codes 1 to 8, and 0 to 134,217,728 for codes 0 and 9." """
    return 0 <= rows <= MOST_ROWS if code in (0, 9) else rows == 0


def slip_bytes(code, rule, frame, offset, rows):
    """The 17 bytes of a verdict, or where its row count is None the 13 bytes that version 1 had."""
    version, end = (1, b"") if rows is None else (2, rows.to_bytes(4, "little"))
    return (MARK + version.to_bytes(2, "little") + code.to_bytes(1, "little") + rule.to_bytes(1, "little")
            + frame.to_bytes(2, "little") + offset.to_bytes(4, "little") + end)


def write_slip(answer, slip_buffer_length):
    """The code answered, and the bytes written to the front of the slip buffer."""
    if answer.rows is None or not possible(answer.code, answer.rule, answer.frame, answer.offset):
        return IMPOSSIBLE_VERDICT, b""
    if not possible_rows(answer.code, answer.rows):
        return IMPOSSIBLE_VERDICT, b""
    if slip_buffer_length < LENGTH:
        return BUFFER_TOO_SMALL, b""
    return DONE, slip_bytes(answer.code, answer.rule, answer.frame, answer.offset, answer.rows)


def read_slip(slip):
    """The code answered, and the verdict; its fields are 0 with a refusal."""
    nothing = Answer(0)
    if len(slip) < 5 or slip[0:3] != MARK:
        return NOT_A_SLIP, nothing
    version = int.from_bytes(slip[3:5], "little")
    if version not in LENGTHS:
        return SLIP_VERSION, nothing
    if len(slip) != LENGTHS[version]:
        return NOT_A_SLIP, nothing
    code = slip[5]
    rule = slip[6]
    frame = int.from_bytes(slip[7:9], "little")
    offset = int.from_bytes(slip[9:13], "little")
    rows = int.from_bytes(slip[13:17], "little") if version == 2 else None
    if not possible(code, rule, frame, offset):
        return IMPOSSIBLE_VERDICT, nothing
    if rows is not None and not possible_rows(code, rows):
        return IMPOSSIBLE_VERDICT, nothing
    return DONE, Answer(code, offset=offset, rows=rows, rule=rule, frame=frame)
