"""A second, plain implementation of document 01 and of the requests of document 02 that it names, to compare the library with.

Layers, each checkable against its paragraph:

    answers.py    what a call hands back, and the buffers afterwards
    attributes.py tags by their keywords in PS3.6
    reading.py    "Reading": data set -> elements, items, rows; codes 1 to 8; Q-6 in the rows and in code 8
    values.py     the value forms that rules and drawing steps read; Q-2 in the DS
    rules.py      "The rule list": rules 1 to 38 and Q-8's 39, first broken rule, lowest frame; Q-3 in rule 30, Q-4 in 35 and 37
    drawing.py    "Drawing frame f": steps 1 to 7, or something is lacking; Q-4 in step 4, Q-3 and Q-9 in step 6
    files.py      Q-1: the head of a file, and the calls on the data set after it
    sheet.py      Q-5: the sampling sheet
    parents.py    Q-6: what following a row's last number meets
    intensity.py  Q-8: a frame mapped back to beam intensity, or something is lacking; the square root derivation
    canonical.py  Q-10: the canonical form of a data set
    searches.py   Q-11: how many rows judging looks at
    comparing.py  Q-12: another workstation's picture against ours
    slips.py      verdict slips of both versions; Q-13
"""
