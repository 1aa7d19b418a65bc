"""The sample cases of document 01 that are about reading, with the paper's answers written out. Q-6 adds the last number of a row."""

from reference.answers import Answer, Outcome

from .reading_cases import ROWS, nested


def hexed(text):
    return bytes.fromhex(text)


# Name, bytes, what the call answers and writes with a large enough row buffer.
READING = [
    ("no bytes: 0 rows", b"", Outcome(Answer(0, rows=0))),
    ("7 bytes: 1, place 0", hexed("28 00 10 00 55 53 02"), Outcome(Answer(1, offset=0))),
    ("one row", hexed("28 00 10 00 55 53 02 00 02 00"),
     Outcome(Answer(0, rows=1), rows=(0x00280010, 0x5553, 0, 8, 2, 0, 0))),
    ("the same twice: 2, place 10", hexed("28 00 10 00 55 53 02 00 02 00" * 2), Outcome(Answer(2, offset=10))),
    ("length 03 00 instead: 4", hexed("28 00 10 00 55 53 03 00 02 00"), Outcome(Answer(4, offset=0))),
    ("an item at root: 5", hexed("FE FF 00 E0 00 00 00 00"), Outcome(Answer(5, offset=0))),
    ("an empty sequence of undefined length: one row, length 0",
     hexed("00 52 29 92 53 51 00 00 FF FF FF FF FE FF DD E0 00 00 00 00"),
     Outcome(Answer(0, rows=1), rows=(0x52009229, 0x5351, 0, 12, 0, 0, 0))),
    ("nesting 8 reads", nested(8, b"", False),
     Outcome(Answer(0, rows=16),
             rows=tuple(number for level in range(8) for number in (
                 0x52009229, 0x5351, level, 20 * level + 12, 20 * (7 - level) + 8, 15 - 2 * level, 2 * level,
                 0xFFFEE000, 0, level + 1, 20 * level + 20, 20 * (7 - level), 14 - 2 * level, 2 * level + 1)))),
    ("nesting 9 is code 6", nested(9, ROWS, True), Outcome(Answer(6, offset=160))),
]
