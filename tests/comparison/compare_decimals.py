"""Compares how the library reads a DS with exact rational arithmetic: through Window Center and Window Width of small objects.

Whether a string is read at all, xa_judge tells: rule 30 is broken where it is not. As which number it is read, xa_show tells:
the window is chosen so that one millionth more or less draws another level.
"""

import random

from generators import enhanced_xa as xa
from generators.mutations import BAD_DECIMALS, GOOD_CENTERS, GOOD_WIDTHS, SMALL_WIDTHS
from reference import attributes as tags
from reference import drawing, rules
from reference.values import UNIT, millionths

from .common import DifferenceFound, exact_numbers, run_as_program
from .probe import FIELD, Probe

LIMIT = 10 ** 12  # numbers are below it in size, in millionths
ALPHABET = "0123456789+-.Ee "
ROUGHLY, EXACTLY = "roughly", "exactly"


def random_string(rng):
    """A string over the alphabet: at random, or a number that was written well and then changed at one place or none."""
    kind = rng.randrange(4)
    if kind == 0:
        return "".join(rng.choice(ALPHABET) for _ in range(rng.randrange(1, 18)))
    if kind == 1:
        digits = lambda most: "".join(rng.choice("0000123456789") for _ in range(rng.randrange(most + 1)))
        word = rng.choice(("", "", "+", "-")) + digits(8) + rng.choice(("", ".", ".")) + digits(7)
        word += rng.choice(("", rng.choice("Ee") + rng.choice(("", "+", "-")) + rng.choice((digits(1), digits(2), digits(12)))))
    else:
        word = xa.written(rng, rng.choice((rng.randrange(10 ** rng.randrange(1, 13)), rng.randrange(10 ** 6) * 10 ** 6)) * rng.choice((1, 1, -1)))
    if kind == 3:
        at = rng.randrange(len(word) + 1)
        word = word[:at] + rng.choice(("", rng.choice(ALPHABET), "0", "00")) + word[at + rng.randrange(2):]
    return word[:17] or "0"


def telling_centers(rng, center):
    """Windows that tell a centre from its neighbours: (sample, width) twice, or nothing where there are none.

    With t = 2ux - 2C + u and D = W - u, step 6 gives at least k exactly if 255t >= (2k - 256)D. It turns at D = 255t / (2k - 256):
    the last D on one side and the first on the other tell t from t - 2 and from t + 2, its next numbers.
    """
    near = (center // UNIT) + rng.randrange(-40, 41)
    sample = max(0, min(65_535, near))
    t = 2 * UNIT * sample - 2 * center + UNIT
    for slope in rng.randrange(2, 255, 2), 254:
        bound = 255 * t // slope if t > 0 else -(255 * t // slope) - 1
        if 1 <= bound and bound + 1 + UNIT < LIMIT:
            return [(sample, UNIT + bound), (sample, UNIT + bound + 1)]
    return []


def telling_widths(rng, width):
    """Windows that tell a width from its neighbours: (sample, centre) twice, or nothing where none was found."""
    found = []
    start = rng.randrange(127)
    for difference in (width - UNIT, width - UNIT - 1):  # at least k at this D, and no more at the next
        for more in range(127):
            half_slope = (start + more) % 127 + 1
            half = -(-half_slope * difference // 255)
            if difference >= 1 and 255 * half < half_slope * (difference + 1):
                sample = rng.randrange(65_536)
                center = UNIT * sample + UNIT // 2 - half
                if abs(center) < LIMIT:
                    found.append((sample, center))
                    break
    return found if len(found) == 2 else []


def same_level(sample, center, width, other_center, other_width):
    return drawing.linear(sample, center, width) == drawing.linear(sample, other_center, other_width)


def check_levels(comparison, probe, name, windows):
    """Each of (sample, centre's string, width's string, level) as the library draws it."""
    for sample, center, width, level in windows:
        probe.put(center, width, (sample,))
        comparison.must_equal(f"{name}: {center!r}, {width!r} at {sample}", probe.levels(), (0, bytes([level])))


def check_center(comparison, probe, rng, word):
    """A string as Window Center."""
    number = millionths(word.strip(b" "))
    probe.put(word, b"10")
    comparison.must_equal(f"centre {word!r}", probe.verdict(), (9, 30, 1) if number is None else (0, 0, 0))
    if number is None:
        return None
    telling = telling_centers(rng, number)
    for other in (number - 1, number + 1):
        if telling and all(same_level(sample, number, width, other, width) for sample, width in telling):
            raise DifferenceFound(f"the comparison itself is at fault: {word!r} is not told from a neighbour")
    windows = telling or [(rng.randrange(65_536), rng.randrange(UNIT, LIMIT)) for _ in range(2)]
    check_levels(comparison, probe, f"centre {word!r}", [
        (sample, word, xa.written(rng, width).encode(), drawing.linear(sample, number, width)) for sample, width in windows])
    return EXACTLY if telling else ROUGHLY


def check_width(comparison, probe, rng, word):
    """A string as Window Width."""
    number = millionths(word.strip(b" "))
    good = number is not None and number >= UNIT
    probe.put(b"-1E1", word)
    comparison.must_equal(f"width {word!r}", probe.verdict(), (0, 0, 0) if good else (9, 30, 1))
    if not good:
        return None
    telling = telling_widths(rng, number)
    for other in (number - 1, number + 1):
        if telling and all(same_level(sample, center, number, center, other) for sample, center in telling):
            raise DifferenceFound(f"the comparison itself is at fault: {word!r} is not told from a neighbour")
    windows = telling or [(rng.randrange(65_536), rng.randrange(-LIMIT + 1, LIMIT)) for _ in range(2)]
    check_levels(comparison, probe, f"width {word!r}", [
        (sample, xa.written(rng, center).encode(), word, drawing.linear(sample, center, number)) for sample, center in windows])
    return EXACTLY if telling else ROUGHLY


def check_word(comparison, probe, rng, word):
    comparison.note(("length", len(word)))
    for kind, check in (("centre", check_center), ("width", check_width)):
        found = check(comparison, probe, rng, word)
        comparison.note((kind, found))


def compare_by_hand(comparison, probe, rng):
    """The forms of the request and their neighbours, with what was worked out by hand about them."""
    groups = ((BAD_DECIMALS, False, False), (GOOD_CENTERS, True, None), (GOOD_WIDTHS, True, True), (SMALL_WIDTHS, True, False))
    for words, as_center, as_width in groups:
        for word in words:
            raw = word.encode("latin-1")
            if len(raw) > FIELD or b"\\" in raw:
                raise DifferenceFound(f"the comparison itself is at fault: {word!r} does not fit")
            probe.put(raw, b"1")
            comparison.must_equal(f"centre {word!r}, by hand", probe.verdict()[0], 0 if as_center else 9)
            if as_width is not None:
                probe.put(b"1", raw)
                comparison.must_equal(f"width {word!r}, by hand", probe.verdict()[0], 0 if as_width else 9)
            check_word(comparison, probe, rng, raw)


def compare_characters(comparison, probe, rng):
    """Every byte in every place of some numbers: only digits, signs, point, E and e are allowed there, and spaces around."""
    for number in ("1", "12.5", "-2.5E3"):
        for at in range(len(number) + 1):
            for byte in range(256):
                if byte != ord("\\"):
                    raw = number.encode()
                    check_word(comparison, probe, rng, raw[:at] + bytes([byte]) + raw[at + 1:])


def compare_exponents(comparison, probe, rng):
    """Powers of ten about both limits, with every number of digits and every place of the point; exponents of any length."""
    for digits in ("1", "10", "99", "125", "1000000", "999999999999", "100000000000"):
        for point in range(len(digits) + 1):
            for exponent in range(-20, 21):
                word = f"{digits[:point]}.{digits[point:]}E{exponent}" if point else f"{digits}e{exponent}"
                if len(word) <= 17:
                    check_word(comparison, probe, rng, word.encode())
    for front in ("0", "1", "-0.", ".00", "5.0"):
        for sign in ("", "+", "-"):
            for digit in "09":
                for length in range(1, 18):
                    word = f"{front}E{sign}{digit * length}"
                    if len(word) <= 17:
                        check_word(comparison, probe, rng, word.encode())


def compare_random(comparison, probe, rng, count):
    for _ in range(count):
        check_word(comparison, probe, rng, random_string(rng).encode())


def compare_many_values(comparison, rng):
    """Thousands of values in one window: all good, and one of them bad, in any place."""
    good = [word for word in (random_string(rng) for _ in range(12_000)) if millionths(word.strip(" ").encode()) is not None][:3000]
    shape = xa.Shape(frames=2, rows=1, columns=1, voi="absent", extras=False)
    for bad in (None, 0, 1, len(good) // 2, len(good) - 1):
        for tag in (tags.WINDOW_CENTER, tags.WINDOW_WIDTH):
            values = good if tag == tags.WINDOW_CENTER else [word for word in good if millionths(word.strip(" ").encode()) >= UNIT]
            if bad is not None:
                place = bad * (len(values) - 1) // (len(good) - 1)
                values = values[:place] + [rng.choice(BAD_DECIMALS)] + values[place + 1:]
            model = xa.build(rng, shape)
            other = xa.text("DS", *["5"] * len(values))
            model[tags.PER_FRAME_FUNCTIONAL_GROUPS_SEQUENCE][1][1][tags.FRAME_VOI_LUT_SEQUENCE] = xa.sq({tags.WINDOW_CENTER: other,
                                                                                                         tags.WINDOW_WIDTH: other,
                                                                                                         tag: xa.text("DS", *values)})
            data = xa.encode_at_random(rng, model)
            outcome = rules.judge(data, exact_numbers(data))
            expected = (0, 0, 0) if bad is None else (9, 30, 2)
            comparison.must_equal("many values: the reference", (outcome.answer.code, outcome.answer.rule, outcome.answer.frame), expected)
            observed = comparison.library.call_with_rows("xa_judge", data, exact_numbers(data))
            comparison.must_be_right(f"{len(values)} values, bad is {bad}", observed.difference(outcome))


def run(comparison, arguments):
    rng = random.Random(comparison.seed)
    probe = Probe(comparison.library)
    probe.put(b"40", b"10")
    data = bytes(probe.input)
    comparison.must_equal("the object: the reference", rules.judge(data, probe.numbers).answer.code, 0)
    compare_by_hand(comparison, probe, rng)
    compare_random(comparison, probe, rng, comparison.count)
    if comparison.count >= 10_000:
        compare_characters(comparison, probe, rng)
        compare_exponents(comparison, probe, rng)
    compare_many_values(comparison, rng)
    comparison.insist([("length", length) for length in range(1, 18)])
    comparison.insist([(kind, found) for kind in ("centre", "width") for found in (None, ROUGHLY, EXACTLY)])
    told = {kind: comparison.tally[(kind, EXACTLY)] for kind in ("centre", "width")}
    return f"to the millionth: {told['centre']} centres, {told['width']} widths"


if __name__ == "__main__":
    run_as_program("decimals", run)
