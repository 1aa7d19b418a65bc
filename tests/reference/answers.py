"""What a call hands back: "What is handed back" of document 01."""

from typing import NamedTuple


class Answer(NamedTuple):
    """The fields of an answer. Those that its code does not name are 0."""

    code: int
    offset: int = 0
    rows: int = 0
    rule: int = 0
    frame: int = 0
    masked: int = 0
    searches: int = 0  # judge with code 0, of a data set and of a file


class Outcome(NamedTuple):
    """An answer together with what the call writes.

    `rows` are the numbers written to the front of the row buffer, `image` the bytes written to the front of the image
    buffer, `values` the 16-bit numbers written to the front of the values buffer, `sheet` the 64-bit numbers written to the front of the
    sheet's buffer. What lies behind them keeps what it had.
    """

    answer: Answer
    rows: tuple = ()
    image: bytes = b""
    values: tuple = ()
    sheet: tuple = ()


DONE = 0
CUT_SHORT = 1  # a header or value reaches past the innermost known end
TAG_ORDER = 2
UNKNOWN_VR = 3
ODD_LENGTH = 4
BAD_STRUCTURE = 5
TOO_DEEP = 6
DATA_SET_TOO_LARGE = 7
ROW_BUFFER_TOO_SMALL = 8
RULE_BROKEN = 9
NO_SUCH_FRAME = 10
BUFFER_TOO_SMALL = 11  # the image buffer, the values buffer, or the slip buffer
NOT_A_SLIP = 12
SLIP_VERSION = 13
IMPOSSIBLE_VERDICT = 14
NO_MARK = 15
BAD_HEAD = 16
OTHER_TRANSFER_SYNTAX = 17
SOP_CLASSES_DIFFER = 18
FIRST_ABOVE_LAST = 19
NO_TO_LINEAR_ITEM = 20
TARGET_TOO_SMALL = 21
WRONG_NUMBER_OF_CELLS = 22
TOLERANCE_TOO_LARGE = 23
