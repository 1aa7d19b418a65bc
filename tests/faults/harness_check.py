"""Shows that the comparisons can fail: a stand-in without a fault passes, and each stand-in with a fault is detected."""

import argparse
import shutil
import sys
import tempfile

from comparison import (compare_canonical, compare_decimals, compare_files, compare_judge, compare_linear, compare_pictures,
                        compare_privacy, compare_read, compare_searches, compare_sheet, compare_show, compare_slips,
                        compare_windows)
from comparison.common import Comparison, DifferenceFound
from comparison.library import Library

from .faults import FAULTS
from .mutants import mutants
from .stand_in import StandIn

COUNTS = {"read": 60, "judge": 100, "slips": 200, "decimals": 200, "windows": 40, "show": 30, "canonical": 40,
          "linear": 20, "sheet": 10, "pictures": 5, "files": 20, "privacy": 40, "searches": 10}  # generated cases: as few as find every fault
RUNS = {"read": compare_read.run, "judge": compare_judge.run, "slips": compare_slips.run, "decimals": compare_decimals.run,
        "windows": compare_windows.run, "show": compare_show.run, "canonical": compare_canonical.run, "linear": compare_linear.run,
        "sheet": compare_sheet.run, "pictures": compare_pictures.run, "files": compare_files.run,
        "privacy": compare_privacy.run, "searches": compare_searches.run}


def attempt(name, stand_in, folder):
    """None if the comparison finds no difference, else the difference in words."""
    comparison = Comparison(Library(stand_in, folder), 1, COUNTS[name], folder)
    comparison.shrink_trials = 0
    try:
        RUNS[name](comparison, argparse.Namespace(require_outside=False))
    except DifferenceFound as difference:
        return str(difference)
    return None


def stand_ins(name, folder):
    """(what is wrong, the stand-in) for each fault that a comparison has to find."""
    yield from FAULTS[name].items()
    yield from mutants(folder, name)


def main():
    parser = argparse.ArgumentParser(description=__doc__)
    parser.add_argument("--only", help="only this comparison", choices=list(RUNS))
    parser.add_argument("--verbose", action="store_true", help="show how each fault was found")
    arguments = parser.parse_args()
    folder = tempfile.mkdtemp(prefix="luuxidgaan-tests-")
    wrong = 0
    found = 0
    for name in [arguments.only] if arguments.only else list(RUNS):
        difference = attempt(name, StandIn(), folder)
        if difference is not None:
            wrong += 1
            print(f"{name}: a stand-in without fault differs: {difference}")
        for fault, stand_in in stand_ins(name, folder):
            difference = attempt(name, stand_in, folder)
            if difference is None or "the comparison itself" in difference:
                wrong += 1
                print(f"{name}: NOT FOUND: {fault} ({difference})")
            else:
                found += 1
                if arguments.verbose:
                    print(f"{name}: {fault}: {difference}")
    shutil.rmtree(folder)
    print(f"harness: {found} faults found, {wrong} not found")
    return 1 if wrong or not found else 0


if __name__ == "__main__":
    sys.exit(main())
