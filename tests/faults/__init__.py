"""What shows that the comparisons can fail: the reference in the library's place, with faults put in."""
