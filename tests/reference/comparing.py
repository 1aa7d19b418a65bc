"""The other workstation's pictures: Q-12 of document 02."""

from typing import NamedTuple

from . import attributes as tags
from .answers import DONE, NO_SUCH_FRAME, TOLERANCE_TOO_LARGE, WRONG_NUMBER_OF_CELLS, Answer
from .drawing import draw
from .rules import judge_with_root
from .values import integer

MOST = 255


class Compared(NamedTuple):
    """An answer, and with code 0 yes (1), or no (0) with the first place and how many."""

    answer: Answer
    same: int = 0
    first: int = 0
    count: int = 0


def places_off(ours, cells, tolerance):
    """The places, from 0, of the cells that are not within the tolerance of ours."""
    return [place for place, (our, their) in enumerate(zip(ours, cells)) if abs(our - their) > tolerance]


def compare(data, frame, cells, tolerance, row_buffer_length):
    """The call: it judges afresh. "all of show's up to 10, then 22 if the number of cells isn't Rows × Columns, then 23 if t is over 255".
    Answers what is answered, and the rows that are written."""
    outcome, root = judge_with_root(data, row_buffer_length)
    if outcome.answer.code != DONE:
        return Compared(outcome.answer), outcome.rows
    if not 1 <= frame <= integer(root.text(tags.NUMBER_OF_FRAMES, "IS")):
        return Compared(Answer(NO_SUCH_FRAME)), outcome.rows
    if len(cells) != root.unsigned_short(tags.ROWS) * root.unsigned_short(tags.COLUMNS):
        return Compared(Answer(WRONG_NUMBER_OF_CELLS)), outcome.rows
    if tolerance > MOST:
        return Compared(Answer(TOLERANCE_TOO_LARGE)), outcome.rows
    _, ours = draw(root, frame)
    off = places_off(ours, cells, tolerance)
    if not off:
        return Compared(outcome.answer, same=1), outcome.rows
    return Compared(outcome.answer, first=off[0], count=len(off)), outcome.rows
