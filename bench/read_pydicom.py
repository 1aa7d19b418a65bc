#!/usr/bin/env python3
"""Reads a DICOM file with pydicom, pixels left out, and visits every element.

    read_pydicom.py FILE            prints two times in nanoseconds: dcmread alone, and with every element visited
    read_pydicom.py FILE --frames   prints what it finds about the frames, and every warning
    read_pydicom.py DIR --folder    the same for every file of a folder: prints the time in nanoseconds, and how many
                                    could not be read; they may be without a file head
"""

import os
import sys
import time
import warnings

import pydicom


def visit_folder(folder):
    warnings.simplefilter("ignore")
    lost = 0
    start = time.perf_counter_ns()
    for name in sorted(os.listdir(folder)):
        try:
            for _ in pydicom.dcmread(os.path.join(folder, name), force=True, stop_before_pixels=True).iterall():
                pass
        except Exception:  # whatever it is, the file was not read
            lost += 1
    print(time.perf_counter_ns() - start, lost)


def main():
    if "--folder" in sys.argv:
        visit_folder(sys.argv[1])
        return
    with warnings.catch_warnings(record=True) as told:
        warnings.simplefilter("always")
        start = time.perf_counter_ns()
        data_set = pydicom.dcmread(sys.argv[1], stop_before_pixels=True)
        opened = time.perf_counter_ns() - start
        for _ in data_set.iterall():
            pass
        visited = time.perf_counter_ns() - start
    if "--frames" not in sys.argv:
        print(opened, visited)
        return
    items = data_set.PerFrameFunctionalGroupsSequence
    print("NumberOfFrames %d" % data_set.NumberOfFrames)
    print("PerFrameFunctionalGroupsSequence items %d" % len(items))
    print("warnings %d" % len(told))
    for warning in told:
        print("warning: %s" % warning.message)
    if len(items) >= 812:
        content = items[811].FrameContentSequence[0]
        print("PerFrameFunctionalGroupsSequence[811] FrameAcquisitionDateTime %s" % content.FrameAcquisitionDateTime)


if __name__ == "__main__":
    main()
