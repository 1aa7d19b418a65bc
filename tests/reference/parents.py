"""What Q-6 says of the last number of a row: "following it from a row must meet exactly the rows that count it among their
rows below, and reach 0 within 17 steps, the step to 0 counted; an item's depth is one above its sequence's, an element's
is its item's." It is worked out from the numbers of the rows alone.
"""

from .reading import ITEM, NUMBERS_IN_A_ROW

MOST_STEPS = 17
TAG, DEPTH, BELOW, PARENT = 0, 2, 5, 6


def table_of(numbers):
    """The rows, from all of their numbers."""
    return [numbers[start:start + NUMBERS_IN_A_ROW] for start in range(0, len(numbers), NUMBERS_IN_A_ROW)]


def met_from(table, number):
    """The row numbers met when the last number is followed from a row. More than there may be: as far as it was followed."""
    met = []
    parent = table[number - 1][PARENT]
    while parent != 0 and len(met) < MOST_STEPS:
        if not 1 <= parent <= len(table):
            return None
        met.append(parent)
        parent = table[parent - 1][PARENT]
    return met


def fault(table):
    """None if all of it holds, else what does not, in words."""
    counting = []  # the rows that count the present one among their rows below, as (row number, last row below it)
    for number, row in enumerate(table, start=1):
        counting = [(holder, last) for holder, last in counting if number <= last]
        met = met_from(table, number)
        if met is None:
            return f"row {number}: there is no such row on the way from it"
        if len(met) + 1 > MOST_STEPS:
            return f"row {number}: 0 is not reached within {MOST_STEPS} steps"
        if sorted(met) != [holder for holder, _ in counting]:
            return f"row {number}: met are {met}, it is counted by {[holder for holder, _ in counting]}"
        if not met:
            expected = 0
        else:
            expected = table[met[0] - 1][DEPTH] + (row[TAG] == ITEM)
        if row[DEPTH] != expected:
            return f"row {number}: depth {row[DEPTH]}, expected {expected}"
        counting.append((number, number + row[BELOW]))
    return None


def steps(table):
    """The most steps that it takes to reach 0, the step to 0 counted; 0 where there is no row."""
    return max((len(met_from(table, number)) + 1 for number in range(1, len(table) + 1)), default=0)
