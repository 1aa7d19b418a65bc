"""The sampling sheet: Q-5 of document 02."""

from . import attributes as tags
from .answers import BUFFER_TOO_SMALL, DONE, FIRST_ABOVE_LAST, NO_SUCH_FRAME, Answer, Outcome
from .drawing import draw
from .rules import judge_with_root
from .values import integer

LEVELS = 256
NUMBERS = LEVELS + 4
ZEROS = (0,) * NUMBERS


def numbers_of(pictures):
    """"256 counts of how often each grey level was drawn, the number of native frames, the lowest and highest level, and the sum of
    all levels", in that order. `pictures` are (masked, image)."""
    counts = [0] * LEVELS
    for _, image in pictures:
        for level in image:
            counts[level] += 1
    native = sum(not masked for masked, _ in pictures)
    levels = [level for _, image in pictures for level in image]
    return (*counts, native, min(levels), max(levels), sum(levels))


def sheet(data, first, last, row_buffer_length, sheet_length=NUMBERS):
    """The call: it judges afresh. "19 if a > b, before 10; 10 if either end isn't a frame; a refusal comes with a sheet of zeros."
    A C buffer for under 260 numbers is left alone; where the sheet was else done, the answer is 11."""
    outcome, root = judge_with_root(data, row_buffer_length)
    answer, numbers = outcome.answer, ZEROS
    if answer.code == DONE:
        count = integer(root.text(tags.NUMBER_OF_FRAMES, "IS"))
        if first > last:
            answer = Answer(FIRST_ABOVE_LAST)
        elif not (1 <= first <= count and 1 <= last <= count):
            answer = Answer(NO_SUCH_FRAME)
        elif sheet_length < NUMBERS:
            answer = Answer(BUFFER_TOO_SMALL)
        else:
            numbers = numbers_of([draw(root, frame) for frame in range(first, last + 1)])
    return Outcome(answer, rows=outcome.rows, sheet=numbers if sheet_length >= NUMBERS else ())


def printed(data):
    """What the program prints: the sheet of frames 1 to N, one number a line, or a refusal's code alone. "of more it prints 7"."""
    if len(data) > 65_536:
        return b"7\n"
    outcome, root = judge_with_root(data, 7 * (len(data) // 8))
    if outcome.answer.code != DONE:
        return b"%d\n" % outcome.answer.code
    count = integer(root.text(tags.NUMBER_OF_FRAMES, "IS"))
    return b"".join(b"%d\n" % number for number in numbers_of([draw(root, frame) for frame in range(1, count + 1)]))
