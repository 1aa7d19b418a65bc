"""What every comparison shares: its options, the first difference shrunk and stored, the summary line."""

import argparse
import faulthandler
import mmap
import os
import sys
import tempfile
import time

from reference import reading

from .library import Library

DEFAULT_SEED = 20240501
# The comparisons, those that take longest first, with their numbers of generated cases.
COUNTS = {"show": 2000, "judge": 3000, "decimals": 300_000, "windows": 20_000, "read": 10_000, "canonical": 2500, "files": 300, "searches": 300,
          "linear": 1000, "sheet": 400, "privacy": 500, "pictures": 200, "slips": 5000}


def enough_numbers(data):
    """Numbers in a row buffer that hold the rows of any data set of this size: a row has a header of at least 8 bytes."""
    return reading.NUMBERS_IN_A_ROW * (len(data) // 8)


def exact_numbers(data):
    """As many numbers as the rows of a data set take; 0 where it does not read."""
    return reading.NUMBERS_IN_A_ROW * reading.read(data, enough_numbers(data)).answer.rows


def zeros(size):
    """Zero bytes that take no memory until they are written to."""
    return mmap.mmap(-1, size, flags=mmap.MAP_PRIVATE | mmap.MAP_ANONYMOUS)


class DifferenceFound(Exception):
    """The library and the reference differ; the text says where."""


def shrink(data, differs, trials):
    """A smaller input that still differs: pieces are taken out, from large to small, as long as the difference stays."""
    size = len(data) // 2
    while size >= 1 and trials > 0:
        position = 0
        while position < len(data) and trials > 0:
            candidate = data[:position] + data[position + size:]
            trials -= 1
            if differs(candidate):
                data = candidate
            else:
                position += size
        size //= 2
    return data


class Comparison:
    """Counts what was compared, and stops at the first difference."""

    def __init__(self, library, seed, count, folder):
        self.library = library
        self.seed = seed
        self.count = count
        self.folder = folder
        self.compared = 0
        self.tally = {}
        self.shrink_trials = 600

    def note(self, key):
        """Counts one case of a kind, so that a comparison can insist that each kind was met."""
        self.tally[key] = self.tally.get(key, 0) + 1

    def insist(self, keys):
        missing = [key for key in keys if key not in self.tally]
        if missing:
            raise DifferenceFound(f"the comparison itself is at fault: nothing compared for {missing[:10]}")

    def check(self, name, data, difference):
        """Compares one input. `difference` takes the input and answers None, or in words what differs."""
        self.compared += 1
        text = difference(data)
        if text is None:
            return
        small = shrink(data, lambda candidate: difference(candidate) is not None, self.shrink_trials)
        self.fail(name, data, small, difference(small))

    def fail(self, name, data, small, text):
        path = os.path.join(self.folder, "difference")
        lines = [f"case {name}, seed {self.seed}: {text}"]
        for suffix, content in (("", data), ("-small", small)):
            with open(path + suffix + ".hex", "w") as file:
                file.write(content.hex() + "\n")
            lines.append(f"  input{suffix}: {len(content)} bytes, {path + suffix}.hex")
        if len(small) <= 200:
            lines.append("  " + small.hex(" "))
        raise DifferenceFound("\n".join(lines))

    def too_large(self, name, expected, observed):
        """One byte more than a data set may have is code 7. `expected` and `observed` take the bytes and the length of the row buffer."""
        memory = zeros(reading.MAXIMUM_SIZE + 1)
        outcome = expected(memory, reading.NUMBERS_IN_A_ROW)
        answer = getattr(outcome[0], "answer", outcome[0])  # xa_compare has its answer within another
        self.must_equal("size limit: the reference", answer.code, 7)
        self.must_be_right(f"{name} of too many bytes", observed(memory, reading.NUMBERS_IN_A_ROW).difference(outcome))
        self.note(("code", 7))

    def must_be_right(self, name, difference):
        """For what is not an input of bytes, or has its expectation written out: a difference in words, or None."""
        self.compared += 1
        if difference is not None:
            raise DifferenceFound(f"case {name}, seed {self.seed}: {difference}")

    def must_equal(self, name, found, expected):
        """For what is not an input of bytes: two values that must be equal."""
        self.compared += 1
        if found != expected:
            raise DifferenceFound(f"case {name}, seed {self.seed}: {found}, expected {expected}")


def options(description):
    parser = argparse.ArgumentParser(description=description)
    parser.add_argument("--library", required=True, help="the shared object to compare with")
    parser.add_argument("--seed", type=int, default=DEFAULT_SEED)
    parser.add_argument("--count", type=int, default=0, help="generated cases; 0: the comparison's own number")
    parser.add_argument("--folder", help="where a difference is stored")
    parser.add_argument("--require-outside", action="store_true", help="missing outside objects are an error")
    return parser


def main(name, run):
    """Runs one comparison as a program. `run(comparison, arguments)` answers a line about what was compared."""
    faulthandler.enable()
    arguments = options(f"Compares {name} with the reference.").parse_args()
    folder = arguments.folder or tempfile.mkdtemp(prefix="luuxidgaan-tests-")
    library = Library.load(arguments.library, folder)
    comparison = Comparison(library, arguments.seed, arguments.count or COUNTS[name], folder)
    start = time.monotonic()
    try:
        line = run(comparison, arguments)
    except DifferenceFound as difference:
        print(f"{name}: DIFFERENCE after {comparison.compared} comparisons")
        print(difference)
        return 1
    print(f"{name}: {comparison.compared} comparisons, no difference"
          f" (seed {arguments.seed}, {time.monotonic() - start:.1f} s; {line})")
    return 0


def run_as_program(name, run):
    status = main(name, run)
    sys.stdout.flush()
    sys.exit(status)
