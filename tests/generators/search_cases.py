"""Two accepted objects whose searches (document 02, Q-11) are counted by hand, from the paper alone.

Sought and found at place k among the elements of its data set, a tag counts k; sought and absent, it counts the elements below it, and one
more if an element stands above it.
"""

from .enhanced_xa import fd, fl, sq, text, us

# The root has 21 elements, in the order below. Rule by rule:
#    1  (0008,0016)                            2        16  (0018,9004)                               5
#    2  (0008,0060)                            4        17  (0028,0301)                              16
#    3  (0008,0008)                            1        18  (0028,2110)                              17
#    4  (0018,9410)                            6        19  (0028,2112), (0028,2114): absent   18 + 18
#    6  (0018,9457): absent, 6 below           7        20  (0008,9410): absent, 4 below              5
#    8  (0008,002A)                            3        21  (2050,0020)                              18
#    9  (0028,0002)                            7        22  (0018,0060), (0018,115A), (0018,1155)     5 + 5 + 5
#   10  (0028,0004)                            8        23  (0018,9332), (0018,9328), (0018,9330)     6 + 6 + 6
#   11  (0028,0010), (0028,0011)         10 + 11        24  (0018,1508): absent, 4 below              5
#   12  (0028,0100), (0028,0101)         12 + 13        25  (5200,9229)                              19
#   13  (0028,0102)                           14        26  (5200,9230)                              20
#   14  (0028,0103)                           15        31  (0028,6100): absent, 17 below            18
#   15  (0028,0008)                            9        38  (7FE0,0010)                              21
# together 122 on the left and 213 on the right, 335.
# Item 1 has one element, the shared item none. Rule 27: 1 + 0. In item 1 each of (0020,9111), (0018,9412), (0028,9132), twice (0028,9415),
# (0028,9443) and (0028,9422) counts 1, for the one element is found, or above it, or below it; in the shared item each counts 0. 1 + 7.
SMALL_SUM = 335 + 8
SMALL = {
    0x00080008: text("CS", "DERIVED", "PRIMARY", "", "NONE"),
    0x00080016: text("UI", "1.2.840.10008.5.1.4.1.1.12.1.1"),
    0x0008002A: text("DT", "20240501050000"),
    0x00080060: text("CS", "XA"),
    0x00189004: text("CS", "PRODUCT"),
    0x00189410: text("CS", "UNDEFINED"),
    0x00280002: us(1),
    0x00280004: text("CS", "MONOCHROME2"),
    0x00280008: text("IS", "1"),
    0x00280010: us(1),
    0x00280011: us(2),
    0x00280100: us(8),
    0x00280101: us(8),
    0x00280102: us(7),
    0x00280103: us(0),
    0x00280301: text("CS", "NO"),
    0x00282110: text("CS", "00"),
    0x20500020: text("CS", "IDENTITY"),
    0x52009229: sq({}),
    0x52009230: sq({0x00209111: sq({})}),
    0x7FE00010: ("OW", b"\1\2"),
}

# All 33 tags sought in the root are its first 33 elements: 1 + 2 + ... + 33 = 561; the last element is above them all.
# Mask items. The first: (0028,6101) 1, 6102 2, 6110 3, 6112 4, 6114 5, 6120 absent with five below 6, (0028,9416) behind (0028,6190) 7: 28.
# The second: (0028,6101) 1; 6102, 6110, 6112, 6114 and 6120 absent, one below and one above, 2 each; (0028,9416) 2: 13.
# The shared item has (0018,9412), (0028,9132), (0028,9443). Item 1 has (0020,9111), (0028,9415), (0028,9422), item 2 the first and last of these.
#
#   rule                                                       frame 1                              frame 2
#     27  elements                                             3 + 3                                2 + 3
#     28  (0020,9111), in both                                 1, shared 2                          1, shared 2
#     29  (0018,9412)                                          1, shared 1                          1, shared 1
#     30  (0028,9132)                                          2, shared 2                          2, shared 2
#         center, width, function: absent, two below           1 + 2 + 2                            1 + 2 + 2
#     36  (0028,9415)                                          2                                    2, shared 3
#     37  (0028,9415)                                          2                                    2, shared 3
#         ID, shift in each item                               2 + 1, 3 + 2                         none
#     39  (0028,9443)                                          3, shared 3                          2, shared 3
#         relationship                                         1                                    1
#         (0028,9422)                                          3                                    2
#         function, descriptor, data in each item              3 + 1 + 2, none in the empty one     3 + 1 + 2
#
# Frame 1: 6 + 3 + 2 + 9 + 2 + 10 + 16 = 48. Frame 2: 5 + 3 + 2 + 9 + 5 + 5 + 14 = 43.
FULL_SUM = 561 + 28 + 13 + 48 + 43
LUT = {0x00283002: us(1, 0, 16), 0x00283006: ("OW", b"\1\2"), 0x00289474: text("CS", "TO_LINEAR")}
FULL = {
    0x00080008: text("CS", "ORIGINAL", "PRIMARY", "", "NONE"),
    0x00080016: text("UI", "1.2.840.10008.5.1.4.1.1.12.2.1"),
    0x0008002A: text("DT", "20240501050000"),
    0x00080060: text("CS", "RF"),
    0x00089410: sq({0x00081155: text("UI", "1.2.3")}),
    0x00180060: text("DS", "80"),
    0x00181155: text("CS", "GR"),
    0x0018115A: text("CS", "PULSED"),
    0x00181508: text("CS", "COLUMN"),
    0x00189004: text("CS", "PRODUCT"),
    0x00189328: fd(10.0),
    0x00189330: fd(20.0),
    0x00189332: fd(1.5),
    0x00189410: text("CS", "BIPLANE"),
    0x00189457: text("CS", "PLANE A"),
    0x00280002: us(1),
    0x00280004: text("CS", "MONOCHROME1"),
    0x00280008: text("IS", "2"),
    0x00280010: us(1),
    0x00280011: us(1),
    0x00280100: us(16),
    0x00280101: us(12),
    0x00280102: us(11),
    0x00280103: us(0),
    0x00280301: text("CS", "NO"),
    0x00282110: text("CS", "01"),
    0x00282112: text("DS", "10"),
    0x00282114: text("CS", "ISO_10918_1"),
    0x00286100: sq({0x00286101: text("CS", "AVG_SUB"), 0x00286102: us(1, 1), 0x00286110: us(2), 0x00286112: us(1), 0x00286114: fl(0.25, -1.0),
                    0x00286190: text("ST", "a mask"), 0x00289416: us(7)},
                   {0x00286101: text("CS", "NONE"), 0x00289416: us(8)}),
    0x20500020: text("CS", "INVERSE"),
    0x52009229: sq({0x00189412: sq({}), 0x00289132: sq({0x00281050: text("DS", "40"), 0x00281051: text("DS", "10")}),
                    0x00289443: sq({0x00281040: text("CS", "LOG")})}),
    0x52009230: sq({0x00209111: sq({}),
                    0x00289415: sq({0x00286114: fl(1.0, 2.0), 0x00289416: us(7)},
                                   {0x00080018: text("UI", "1.2.3.4"), 0x00286114: fl(0.0, 0.5), 0x00289416: us(9)}),
                    0x00289422: sq(LUT, {})},
                   {0x00209111: sq({}), 0x00289422: sq(LUT)}),
    0x7FE00010: ("OW", b"\1\2\3\4"),
    0xFFFF0010: text("LO", "last"),
}

CASES = (("small", SMALL, SMALL_SUM), ("full", FULL, FULL_SUM))  # name, model, sum
