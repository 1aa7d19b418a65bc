"""Compares how the library windows with exact rational arithmetic: both functions, very many windows, their edges, widths from
0 to 1 in millionths, both photometric interpretations.
"""

import random

from generators import enhanced_xa as xa
from generators.mutations import BAD_FUNCTIONS, GOOD_FUNCTIONS
from reference import drawing, rules
from reference.values import UNIT

from .common import DifferenceFound, run_as_program
from .probe import FIELD, Probe

LIMIT = 10 ** 12  # numbers are below it in size, in millionths
TOP = 65_535
SAMPLES = 48
FUNCTIONS = (None, b"LINEAR", b"LINEAR_EXACT")  # None: absent
FORMULAS = {None: drawing.linear, b"LINEAR": drawing.linear, b"LINEAR_EXACT": drawing.linear_exact}
PHOTOMETRIC = ("MONOCHROME1", "MONOCHROME2")


def least_width(function):
    return 1 if function == b"LINEAR_EXACT" else UNIT


def random_width(rng, function):
    """Narrow, wide, and about the whole numbers; of LINEAR_EXACT half of them under 1."""
    if function == b"LINEAR_EXACT" and rng.random() < 0.5:
        return rng.choice((rng.randrange(1, 20), rng.randrange(1, 1000), rng.randrange(1, UNIT), UNIT - rng.randrange(1, 600), 255, 510))
    return rng.choice((UNIT, UNIT + 1, UNIT + 255, UNIT + rng.randrange(1000), 2 * UNIT - 1, 2 * UNIT, rng.randrange(UNIT, 4 * UNIT),
                       rng.randrange(UNIT, 300 * UNIT), rng.randrange(1, 400) * UNIT, rng.randrange(UNIT, LIMIT), LIMIT - 1))


def random_center(rng, width):
    """Mostly where the samples are, so that an edge, or the middle, meets a sample exactly or by a millionth."""
    whole = rng.randrange(TOP + 1) * UNIT
    return rng.choice((whole, whole + UNIT // 2, whole + width // 2, whole - width // 2, whole + UNIT // 2 + width // 2, rng.randrange(-20 * UNIT, 65_600 * UNIT),
                       rng.randrange(1 - LIMIT, LIMIT))) + rng.choice((0, 0, 1, -1, rng.randrange(-300, 301)))


def telling_samples(rng, center, width):
    """Samples about both edges and the middle of either function's window, some inside, some anywhere."""
    edges = [(2 * center - width) // (2 * UNIT), (2 * center + width) // (2 * UNIT), (2 * center + width) // (2 * UNIT) - 1, center // UNIT]
    low, high = edges[0], edges[1] + 1
    samples = [edge + near for edge in edges for near in range(-3, 4)]
    samples += [rng.randrange(low, high + 1) for _ in range(12)]
    samples += [rng.randrange(TOP + 1) for _ in range(SAMPLES - len(samples))]
    return sorted(max(0, min(TOP, sample)) for sample in samples)


def expected_levels(function, center, width, samples, photometric):
    levels = [FORMULAS[function](sample, center, width) for sample in samples]
    return bytes(255 - level if photometric == "MONOCHROME1" else level for level in levels)


class Windows:
    """A probe for each photometric interpretation, with and without a function."""

    def __init__(self, comparison):
        self.comparison = comparison
        self.probes = {(photometric, present): Probe(comparison.library, SAMPLES, photometric, present)
                       for photometric in PHOTOMETRIC for present in (False, True)}

    def put(self, rng, photometric, function, center, width, samples=()):
        probe = self.probes[photometric, function is not None]
        spaces = b" " * rng.randrange(3)
        probe.put(xa.written(rng, center).encode(), xa.written(rng, width).encode(), samples, spaces + (function or b""))
        return probe

    def check(self, rng, photometric, function, center, width):
        """A window that rule 30 lets through: its levels, and that a greater sample never gets a smaller one."""
        samples = telling_samples(rng, center, width)
        name = f"{function}, {photometric}, centre {center}, width {width}, samples {samples}"
        code, levels = self.put(rng, photometric, function, center, width, samples).levels()
        self.comparison.must_equal(name, (code, list(levels)), (0, list(expected_levels(function, center, width, samples, photometric))))
        upwards = levels if photometric == "MONOCHROME2" else bytes(255 - level for level in levels)
        if list(upwards) != sorted(upwards):
            raise DifferenceFound(f"{name}: a greater sample gets a smaller level")
        for level in set(upwards):
            self.comparison.note((function, photometric, level))

    def check_verdict(self, rng, photometric, function, width):
        """Whether rule 30 lets a width through."""
        verdict = self.put(rng, photometric, function, rng.randrange(UNIT), width).verdict()
        expected = (0, 0, 0) if width >= least_width(function) else (9, 30, 1)
        self.comparison.must_equal(f"{function}, width {width}", verdict, expected)


def kinds():
    return [(function, photometric) for function in FUNCTIONS for photometric in PHOTOMETRIC]


def compare_random_windows(windows, rng, count):
    for _ in range(count):
        function, photometric = rng.choice(kinds())
        width = random_width(rng, function)
        center = max(1 - LIMIT, min(LIMIT - 1, random_center(rng, width)))
        windows.check(rng, photometric, function, center, width)


def compare_widths_to_1(windows, rng, count):
    """Widths from 0 to 1 in millionths: who lets them through, and what LINEAR_EXACT draws."""
    all_of_them = range(UNIT + 2)
    chosen = {*range(30), *range(UNIT - 30, UNIT + 2), 127, 128, 254, 255, 256, 509, 510, 511}
    chosen |= set(rng.sample(all_of_them, min(count, len(all_of_them))))
    for width in sorted(chosen):
        for function in FUNCTIONS:
            windows.check_verdict(rng, rng.choice(PHOTOMETRIC), function, width)
        if width:
            whole = rng.randrange(1, TOP) * UNIT
            for center in (whole + rng.randrange(-width, width + 1) // 2, whole + width // 2, whole - width // 2):
                windows.check(rng, rng.choice(PHOTOMETRIC), b"LINEAR_EXACT", center, width)
    for width in (-1, -UNIT, 1 - LIMIT, -rng.randrange(UNIT)):
        for function in FUNCTIONS:
            windows.check_verdict(rng, "MONOCHROME2", function, width)


def compare_every_level(windows, rng):
    """Windows of 255 levels, a millionth each, and of whole numbers: every level of either function is drawn."""
    for function, photometric in kinds():
        narrow = 255 if function == b"LINEAR_EXACT" else UNIT + 255
        for more in range(-130, 131):
            center = 1000 * UNIT + more + (0 if function == b"LINEAR_EXACT" else UNIT // 2)
            windows.check(rng, photometric, function, center, narrow)
        windows.check(rng, photometric, function, 128 * UNIT, 256 * UNIT)
    windows.comparison.insist([(*kind, level) for kind in kinds() for level in range(256)])


def compare_edges(windows, rng):
    """Windows whose edges are exactly at a sample, and a millionth beside it."""
    for function, photometric in kinds():
        less = 0 if function == b"LINEAR_EXACT" else UNIT  # the upper edge is at C + W / 2 - u for LINEAR
        for width in (UNIT, 2 * UNIT, 2 * UNIT + 2, 10 * UNIT, least_width(function) + 1, least_width(function) + 2 * rng.randrange(UNIT)):
            for edge in (-width, width - 2 * less):
                for beside in (-1, 0, 1):
                    windows.check(rng, photometric, function, 1000 * UNIT - edge // 2 + beside, width)


def compare_words(comparison, rng):
    """The function's words with a width of 1/2, that only LINEAR_EXACT takes, and of 2, that both take."""
    probe = Probe(comparison.library, 1, "MONOCHROME2", True)
    for word in BAD_FUNCTIONS + GOOD_FUNCTIONS:
        raw = word.encode("latin-1")
        if len(raw) > FIELD:
            raise DifferenceFound(f"the comparison itself is at fault: {word!r} does not fit")
        for width, taken in ((b"0.5", ("LINEAR_EXACT",)), (b"2", ("LINEAR", "LINEAR_EXACT"))):
            probe.put(b"7", width, (), raw)
            good = word in GOOD_FUNCTIONS and word.strip(" ") in taken
            comparison.must_equal(f"function {word!r}, width {width}", probe.verdict(), (0, 0, 0) if good else (9, 30, 1))


def compare_characters(comparison):
    """Every byte in every place of both words, and after them."""
    probe = Probe(comparison.library, 1, "MONOCHROME2", True)
    for word in (b"LINEAR", b"LINEAR_EXACT"):
        for at in range(len(word) + 1):
            for byte in range(256):
                changed = word[:at] + bytes([byte]) + word[at + 1:]
                probe.put(b"7", b"2", (), changed)
                good = changed.strip(b" ") in (b"LINEAR", b"LINEAR_EXACT")
                comparison.must_equal(f"function {changed!r}", probe.verdict(), (0, 0, 0) if good else (9, 30, 1))


def run(comparison, arguments):
    rng = random.Random(comparison.seed)
    windows = Windows(comparison)
    for (photometric, present), probe in windows.probes.items():
        probe.put(b"40", b"10", (), b"LINEAR")
        comparison.must_equal("the object: the reference", rules.judge(bytes(probe.input), probe.numbers).answer.code, 0)
    compare_words(comparison, rng)
    compare_edges(windows, rng)
    compare_random_windows(windows, rng, comparison.count)
    compare_widths_to_1(windows, rng, comparison.count)
    if comparison.count >= 1000:
        compare_every_level(windows, rng)
        compare_characters(comparison)
    return f"{len(kinds())} kinds of windows"


if __name__ == "__main__":
    run_as_program("windows", run)
