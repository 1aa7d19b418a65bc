"""Small reading cases, each with its answer worked out by hand from document 01.

A case is a name, the bytes, and the answer: rows(n) or refused(code, place). The self-test holds the reference to these
answers; the comparison holds the library to them. As a program it prints the cases, or what `rowlist` prints for them.
"""

import argparse

from reference import reading

from .objects import ITEM_END, SEQUENCE_END, UNDEFINED, element, element_header, item, item_header, sequence, tag_bytes

ROWS = element(0x00280010, "US", b"\2\0")  # 10 bytes
COLUMNS = element(0x00280011, "US", b"\2\0")  # 10 bytes
SQ = 0x52009229  # a tag for sequences, above ROWS and COLUMNS
OPEN_SQ = element_header(SQ, "SQ", UNDEFINED)  # 12 bytes
OPEN_ITEM = item_header(UNDEFINED)  # 8 bytes


def rows(count):
    return (0, count)


def refused(code, place):
    return (code, place)


def nested(count, content, undefined):
    """Content in `count` sequences, one in the other: with defined lengths 20 bytes in front for each of them."""
    for _ in range(count):
        content = sequence(SQ, item(content, undefined), undefined)
    return content


CASES = [
    # Good ones.
    ("empty", b"", rows(0)),
    ("one_element", ROWS, rows(1)),
    ("two_elements", ROWS + COLUMNS, rows(2)),
    ("empty_value", element(0x00280010, "US"), rows(1)),
    ("long_form", element(0x7FE00010, "OW", b"\1\2\3\4"), rows(1)),
    ("first_and_last_tag", element(0x00000000, "UL", bytes(4)) + element(0xFFFFFFFF, "UN", b"ab"), rows(2)),
    ("groups_around_delimiters", element(0xFFFDFFFF, "LO", b"a ") + element(0xFFFF0000, "LO", b"b "), rows(2)),
    ("empty_sequence_defined", sequence(SQ), rows(1)),
    ("empty_sequence_undefined", sequence(SQ, undefined=True), rows(1)),
    ("empty_items_of_both_lengths", sequence(SQ, item() + item(undefined=True)), rows(3)),
    ("undefined_sequence_defined_item", sequence(SQ, item(ROWS), True), rows(3)),
    ("defined_sequence_undefined_item", sequence(SQ, item(ROWS, True)), rows(3)),
    ("element_behind_sequence", sequence(SQ, item(ROWS) + item(COLUMNS, True), True) + element(0x7FE00010, "OB", b"ab"),
     rows(6)),
    ("every_item_starts_anew", sequence(SQ, item(ROWS + COLUMNS) + item(ROWS)), rows(6)),
    ("inner_tags_do_not_count_outside", sequence(0x00080001, item(COLUMNS)) + ROWS, rows(4)),
    ("nested_8_defined", nested(8, ROWS, False), rows(17)),
    ("nested_8_undefined", nested(8, ROWS, True), rows(17)),
    ("un_is_never_opened", element(SQ, "UN", item(ROWS)), rows(1)),
    ("ob_holding_delimiters", element(0x7FE00010, "OB", ITEM_END + SEQUENCE_END), rows(1)),
    # Code 1: fewer than 8 bytes.
    ("seven_bytes", ROWS[:7], refused(1, 0)),
    ("one_byte_behind", ROWS + b"\x28", refused(1, 10)),
    ("open_sequence_nothing_behind", OPEN_SQ, refused(1, 12)),
    ("open_sequence_three_bytes_behind", OPEN_SQ + b"\xFE\xFF\xDD", refused(1, 12)),
    ("open_item_nothing_behind", OPEN_SQ + OPEN_ITEM, refused(1, 20)),
    ("open_item_after_element", OPEN_SQ + OPEN_ITEM + ROWS, refused(1, 30)),
    ("open_sequence_after_item", OPEN_SQ + item(ROWS), refused(1, 30)),
    ("open_item_in_defined_sequence", sequence(SQ, OPEN_ITEM + ROWS) + ITEM_END, refused(1, 30)),
    ("open_sequence_in_defined_item", sequence(SQ, item(OPEN_SQ)) + SEQUENCE_END, refused(1, 32)),
    ("item_of_four_bytes", sequence(SQ, item_header(4) + b"\x28\0\x10\0") + ROWS, refused(1, 20)),
    ("sequence_of_six_bytes", sequence(SQ, b"\xFE\xFF\0\xE0\0\0") + ROWS, refused(1, 12)),
    # Code 1: long form, or value, past.
    ("long_form_cut", element(0x7FE00010, "OW")[:11], refused(1, 0)),
    ("long_form_cut_bytes_not_zero", tag_bytes(0x7FE00010) + b"OW\1\1\0\0", refused(1, 0)),
    ("value_past_data_set", element(0x00280010, "US", b"\2\0", 4), refused(1, 0)),
    ("value_past_item", sequence(SQ, item(element(0x00280010, "US", b"\2\0", 4)) + item(COLUMNS)), refused(1, 20)),
    ("item_past_sequence", sequence(SQ, item_header(12) + ROWS) + element(0x7FE00010, "OB", b"ab"), refused(1, 12)),
    ("sequence_past_item", sequence(SQ, item(element(SQ, "SQ", item(), 10))) + ROWS, refused(1, 20)),
    ("greatest_even_length", element(0x7FE00010, "OW", b"ab", 0xFFFFFFFE), refused(1, 0)),
    ("item_of_greatest_even_length", OPEN_SQ + item_header(0xFFFFFFFE), refused(1, 12)),
    # Code 2.
    ("same_tag_twice", ROWS + ROWS, refused(2, 10)),
    ("lower_tag", COLUMNS + ROWS, refused(2, 10)),
    ("lower_group", ROWS + element(0x00189410, "CS"), refused(2, 10)),
    ("same_tag_twice_in_item", sequence(SQ, item(ROWS + ROWS)), refused(2, 30)),
    ("lower_tag_behind_sequence", sequence(SQ, item(ROWS, True), True) + ROWS, refused(2, 46)),
    ("order_comes_before_vr", COLUMNS + tag_bytes(0x00280010) + b"??\0\0", refused(2, 10)),
    # Code 3.
    ("unknown_vr", tag_bytes(0x00280010) + b"XX\2\0\2\0", refused(3, 0)),
    ("lower_case_vr", tag_bytes(0x00280010) + b"us\2\0\2\0", refused(3, 0)),
    ("zero_vr", bytes(8), refused(3, 0)),
    ("unknown_vr_in_undefined_item", OPEN_SQ + OPEN_ITEM + ROWS + tag_bytes(0x00280011) + b"OX\0\0", refused(3, 30)),
    # Code 4.
    ("odd_length", element(0x00280010, "US", b"\2\0", 3), refused(4, 0)),
    ("odd_and_past", element(0x00280010, "US", b"\2\0", 9), refused(4, 0)),
    ("ffff_in_16_bits", element(0x00280010, "US", b"\2\0", 0xFFFF), refused(4, 0)),
    ("odd_long_length", element(0x7FE00010, "OW", b"ab", 0xFFFFFFFD), refused(4, 0)),
    ("odd_sequence", element(SQ, "SQ", item() + b"\0", 9), refused(4, 0)),
    ("odd_item", sequence(SQ, item_header(11) + ROWS + b"\0" * 2), refused(4, 12)),
    # Code 5.
    ("item_at_root", item(), refused(5, 0)),
    ("item_delimiter_at_root", ROWS + ITEM_END, refused(5, 10)),
    ("other_fffe_tag", ROWS + tag_bytes(0xFFFE0001) + b"US\0\0", refused(5, 10)),
    ("fffe_behind_ffff", element(0xFFFF0000, "LO") + ITEM_END, refused(5, 8)),  # 5, not 2
    ("item_delimiter_in_defined_item", sequence(SQ, item(ROWS + ITEM_END)), refused(5, 30)),
    ("item_delimiter_of_length_2", OPEN_SQ + OPEN_ITEM + tag_bytes(0xFFFEE00D) + b"\2\0\0\0ab", refused(5, 20)),
    ("sequence_delimiter_of_length_2", OPEN_SQ + tag_bytes(0xFFFEE0DD) + b"\2\0\0\0ab", refused(5, 12)),
    ("sequence_delimiter_in_item", OPEN_SQ + OPEN_ITEM + ROWS + SEQUENCE_END, refused(5, 30)),
    ("sequence_delimiter_in_defined_sequence", sequence(SQ, item(ROWS) + SEQUENCE_END), refused(5, 30)),
    ("element_among_items", sequence(SQ, ROWS), refused(5, 12)),
    ("item_delimiter_among_items", OPEN_SQ + ITEM_END, refused(5, 12)),
    ("two_bytes_not_zero", tag_bytes(0x7FE00010) + b"OW\0\1\2\0\0\0ab", refused(5, 0)),
    ("undefined_pixel_data", element_header(0x7FE00010, "OB", UNDEFINED) + item() + SEQUENCE_END, refused(5, 0)),
    ("undefined_un", element_header(SQ, "UN", UNDEFINED) + SEQUENCE_END, refused(5, 0)),
    # Code 6, and what comes before it.
    ("nested_9_defined", nested(9, ROWS, False), refused(6, 160)),
    ("nested_9_undefined", nested(9, ROWS, True), refused(6, 160)),
    ("nested_9_empty", nested(8, sequence(SQ), False), refused(6, 160)),
    ("nested_9_odd", nested(8, element(SQ, "SQ", b"ab", 1), False), refused(4, 160)),
    ("nested_9_past", nested(8, element(SQ, "SQ", b"ab", 4), False), refused(1, 160)),
    ("nested_9_two_bytes_not_zero", nested(8, tag_bytes(SQ) + b"SQ\1\0\0\0\0\0", False), refused(5, 160)),
]


def rowlist(data):
    """The lines that the program `rowlist` prints for a data set."""
    try:
        table = reading.rows_of(reading.read_data_set(data))
    except reading.Refusal as refusal:
        return [f"code {refusal.code} place {refusal.offset}"]
    lines = [f"rows {len(table)}"]
    for tag, vr, *others in table:
        letters = chr(vr >> 8) + chr(vr & 0xFF) if vr else "--"
        lines.append(" ".join((f"{tag:08X}", letters, *map(str, others))))
    return lines


def main():
    parser = argparse.ArgumentParser(description="Prints the small reading cases.")
    form = parser.add_mutually_exclusive_group(required=True)
    form.add_argument("--hex", action="store_true", help="one line a case: its name and its bytes in hex")
    form.add_argument("--expected", action="store_true", help="for each case the lines that rowlist prints")
    arguments = parser.parse_args()
    for name, data, _ in CASES:
        if arguments.hex:
            print(name, data.hex())
        else:
            print("\n".join(rowlist(data)))


if __name__ == "__main__":
    main()
