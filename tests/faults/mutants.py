"""Stand-ins for the library, each made from the reference with one line changed.

Each is a copy of the reference package in which one piece of text replaces another. The comparison that is named has to detect
each of them, which shows that a library with such a mistake would not pass.
"""

import importlib
import os
import shutil
import sys

import reference
from generators.objects import LONG_HEADER_VRS, SHORT_HEADER_VRS
from reference import reading

from .stand_in import StandIn

REFERENCE = os.path.dirname(reference.__file__)

# In values.py: a text, and the texts that take its place, one at a time.
DECIMALS = [
    ("([+-]?)([0-9]*)", "([+-]?)([0-9]{0,6})", "([+-]?)([0-9]+)", "(-?)([0-9]*)"),
    ("(?:\\.([0-9]*))?", "(?:\\.([0-9]{0,6}))?", "(?:\\.([0-9]+))?", "(?:\\.([0-9]{0,3}))?"),
    ("[Ee]([+-]?[0-9]+)", "E([+-]?[0-9]+)", "[Ee](-?[0-9]+)", "[Ee]([+-]?[0-9]{1,2})", "[Ee]([+-]?[0-9]*)"),
    ("int(exponent) -", "abs(int(exponent)) -", "int(exponent) % 2 ** 32 -"),
    ("int(exponent) - len(fraction)", "int(exponent)"),
    ("DECIMAL_CHARACTERS = 16", "DECIMAL_CHARACTERS = 17", "DECIMAL_CHARACTERS = 15"),
    ("abs(number) < 1_000_000", "abs(number) <= 1_000_000", "number < 1_000_000"),
    (" or (number * UNIT).denominator != 1", ""),
    ("    if digits == 0:\n        return Fraction(0)\n", ""),
    ("    if not whole + fraction:\n        return None\n", "    whole = whole or b\"0\"\n"),
    ("-22 <= power <= 6", "-6 <= power <= 6", "-22 <= power <= 4"),
]

# In drawing.py. At its edges LINEAR_EXACT gives the same with and without its first two cases, so those are not among them.
LEVELS = [
    ("2 * UNIT * x <= 2 * center - width", "2 * UNIT * x < 2 * center - width"),  # shows at a width of 1 with LINEAR
    ("2 * UNIT * x > 2 * center + width - 2 * UNIT", "2 * UNIT * x >= 2 * center + width"),
    ("if 2 * UNIT * x > 2 * center + width:", "if 2 * UNIT * x > 2 * center + width - 2 * UNIT:"),
    ("+ width - UNIT, 2 * (width - UNIT))", ", 2 * (width - UNIT))"),
    ("+ width, 2 * width)", ", 2 * width)", "+ width - UNIT, 2 * width)", "+ width, 2 * width + 1)"),
    ("if function == LINEAR_EXACT else linear(", "if function != LINEAR_EXACT else linear("),
]

# The comparison, the file, a text in it, and the texts that take its place, one at a time.
MUTATIONS = [
    # Reading.
    ("read", "reading.py", "if end - offset < 8:", "if end - offset < 7:", "if end - offset <= 8:"),
    ("read", "reading.py", "if end - offset < 12:", "if end - offset < 10:", "if end - offset <= 12:"),
    ("read", "reading.py", "tag <= previous_tag", "tag < previous_tag"),
    ("read", "reading.py", "MAXIMUM_SEQUENCE_DEPTH = 7", "MAXIMUM_SEQUENCE_DEPTH = 8", "MAXIMUM_SEQUENCE_DEPTH = 6"),
    ("read", "reading.py", "MAXIMUM_SIZE = 1_073_741_824", "MAXIMUM_SIZE = 1_073_741_823", "MAXIMUM_SIZE = 1_073_741_825"),
    ("read", "reading.py", "raise Refusal(CUT_SHORT, end)", "raise Refusal(CUT_SHORT, len(data))"),
    ("read", "reading.py", "value_end = end if undefined else", "value_end = len(data) if undefined else"),
    ("read", "reading.py", "delimited and number(data, offset + 4, 4) == 0", "delimited"),
    ("read", "reading.py", "tag == ITEM_DELIMITER and delimited and", "tag == ITEM_DELIMITER and"),
    ("read", "reading.py", "tag == ITEM_DELIMITER and delimited", "tag in (ITEM_DELIMITER, SEQUENCE_DELIMITER) and delimited"),
    ("read", "reading.py", "tag == SEQUENCE_DELIMITER and delimited and length == 0", "tag == SEQUENCE_DELIMITER and delimited"),
    ("read", "reading.py", "undefined = False", "undefined = length == 0xFFFF"),
    ("read", "reading.py", "if undefined and vr != \"SQ\":", "if undefined and vr not in (\"SQ\", \"UN\"):"),
    ("read", "reading.py", "if length % 2 == 1:\n        raise Refusal(ODD_LENGTH, offset)\n    if value_offset + length > end:\n"
     "        raise Refusal(CUT_SHORT, offset)", "if value_offset + length > end:\n        raise Refusal(CUT_SHORT, offset)\n"
     "    if length % 2 == 1:\n        raise Refusal(ODD_LENGTH, offset)"),
    ("read", "reading.py", "if number(data, offset + 6, 2) != 0:", "if data[offset + 6] != 0:", "if data[offset + 7] != 0:"),
    ("read", "reading.py", "        if end - offset < 12:\n            raise Refusal(CUT_SHORT, offset)\n        if number(data, offset + 6, 2)"
     " != 0:\n            raise Refusal(BAD_STRUCTURE, offset)", "        if number(data, offset + 6, 2) != 0:\n            raise Refusal("
     "BAD_STRUCTURE, offset)\n        if end - offset < 12:\n            raise Refusal(CUT_SHORT, offset)"),
    ("read", "reading.py", "    # Check 7.\n    check_defined_length(length, undefined, offset, value_offset, end)\n    # Check 8.\n"
     "    if vr == \"SQ\" and depth > MAXIMUM_SEQUENCE_DEPTH:\n        raise Refusal(TOO_DEEP, offset)",
     "    if vr == \"SQ\" and depth > MAXIMUM_SEQUENCE_DEPTH:\n        raise Refusal(TOO_DEEP, offset)\n"
     "    check_defined_length(length, undefined, offset, value_offset, end)"),
    ("read", "reading.py", "reached - value_offset, items)", "reached - value_offset + 8 * undefined, items)"),
    ("read", "reading.py", "element.value_length, len(below), parent))", "element.value_length, len(element.items or []), parent))"),
    ("read", "reading.py", "item.value_length, len(below), parent))", "item.value_length, 0, parent))"),
    ("read", "reading.py", "rows.append((ITEM, 0, depth,", "rows.append((ITEM, 0, depth - 1,"),
    ("read", "reading.py", "previous_tag = tag", "previous_tag = tag if element.items is None else previous_tag"),
    ("read", "reading.py", "row_buffer_length < NUMBERS_IN_A_ROW * len(rows)", "row_buffer_length <= NUMBERS_IN_A_ROW * len(rows)",
     "row_buffer_length < NUMBERS_IN_A_ROW * len(rows) - 1"),
    ("read", "reading.py", "rows_of_items(element.items, depth + 1, number, number)", "rows_of_items(element.items, depth + 1, parent, number)"),
    ("read", "reading.py", "rows_of_elements(item.elements, depth, number, number)", "rows_of_elements(item.elements, depth, parent, number)",
     "rows_of_elements(item.elements, depth, number, 0)"),
    ("read", "reading.py", "number = before + len(rows) + 1", "number = before + len(rows)", "number = len(rows) + 1"),
    ("read", "reading.py", "rows_of_elements(elements, 0, 0, 0)", "rows_of_elements(elements, 0, 1, 0)"),
    *[("read", "reading.py", f"{vr} ", "") for vr in LONG_HEADER_VRS + SHORT_HEADER_VRS if vr not in ("UV", "US", "SQ")],
    ("read", "reading.py", " UV\"", "\""),
    ("read", "reading.py", "UL US\"", "UL\"", "UL US XX\""),
    # Values.
    ("judge", "values.py", "and element.value_length != 0", ""),
    ("judge", "values.py", "element.vr == vr and", ""),
    ("judge", "values.py", "in self.elements:", "in self.elements[:-1 if len(self.elements) > 60 else None]:",
     "in self.elements[1 if len(self.elements) > 60 else 0:]:", "in self.elements[:200]:"),
    ("judge", "values.py", "and len(values) == 1", "and len(values) >= 1"),
    ("judge", "values.py", "part.rstrip(b\"\\0\") if", "part.rstrip(b\"\\0 \") if", "part.strip(b\"\\0\") if"),
    ("judge", "values.py", "part.strip(b\" \")", "part.rstrip(b\" \")", "part.strip(b\" \\0\")", "part.strip()"),
    ("judge", "values.py", "[+-]?[0-9]{1,11}", "[+-]?[0-9]{1,12}", "[+-]?[0-9]{1,10}", "[0-9]{1,11}"),
    *[(comparison, "values.py", *texts) for comparison in ("judge", "decimals") for texts in DECIMALS],
    ("judge", "values.py", "len(value) != 8", "len(value) < 8"),
    ("judge", "values.py", "len(value) != 2", "len(value) < 2"),
    # Rules.
    ("judge", "rules.py", "(b\"RF\" if is_xrf(root) else b\"XA\")", "b\"XA\""),
    ("judge", "rules.py", "len(values) >= 4", "len(values) == 4"),
    ("judge", "rules.py", "values[3] == b\"NONE\"", "values[-1] == b\"NONE\""),
    ("judge", "rules.py", "return value is not None and value != b\"MONOPLANE\"", "return value != b\"MONOPLANE\""),
    ("judge", "rules.py", "rows >= 1 and columns >= 1", "rows >= 1"),
    ("judge", "rules.py", "9 <= stored <= 16", "8 <= stored <= 16", "9 <= stored <= 17"),
    ("judge", "rules.py", "1 <= frames <= 65_535", "0 <= frames <= 65_535", "1 <= frames <= 65_536", "1 <= frames < 65_535"),
    ("judge", "rules.py", "in (b\"SC\", b\"GR\")", "in (b\"SC\",)"),
    ("judge", "rules.py", "root.has(tags.EXPOSURE_TIME_IN_MS, \"FD\")\n", "True\n"),
    ("judge", "rules.py", "len(items) == number_of_frames(root)", "len(items) >= number_of_frames(root)", "len(items) <= number_of_frames(root)"),
    ("judge", "rules.py", "if element.vr == \"SQ\"}", "}"),
    ("judge", "rules.py", "not shared_item(root).present(tags.FRAME_CONTENT_SEQUENCE)",
     "shared_item(root).items(tags.FRAME_CONTENT_SEQUENCE) is None"),
    ("judge", "rules.py", "return own if own is not None else", "return own if own is not None and own.vr == \"SQ\" else",
     "return own if own is not None and own.value_length else"),
    ("judge", "rules.py", "or len(centers) != len(widths)", ""),
    ("judge", "rules.py", "in centers + widths)", "in centers[:1] + widths)", "in centers + widths[:1])"),
    ("judge", "rules.py", ">= least for text in widths)", "> least for text in widths)", ">= least - 1 for text in widths)",
     ">= least for text in widths[:1])"),
    ("judge", "rules.py", "least = 1 if function == LINEAR_EXACT else UNIT", "least = UNIT", "least = 1",
     "least = 0 if function == LINEAR_EXACT else UNIT", "least = 2 if function == LINEAR_EXACT else UNIT"),
    ("judge", "rules.py", "return word if word in (LINEAR, LINEAR_EXACT) else None", "return word if word is not None else None",
     "return word if word in (LINEAR, LINEAR_EXACT, b\"SIGMOID\") else None", "return word if word in (LINEAR, LINEAR_EXACT) else LINEAR",
     "return word if word in (LINEAR, LINEAR_EXACT, b\"\") else None", "return word if (word or b\"\").upper() in (LINEAR, LINEAR_EXACT) else None"),
    ("judge", "rules.py", "if not item.present(tags.VOI_LUT_FUNCTION):", "if not item.has(tags.VOI_LUT_FUNCTION, \"CS\"):"),
    ("judge", "rules.py", "word = item.text(tags.VOI_LUT_FUNCTION, \"CS\")", "word = item.texts(tags.VOI_LUT_FUNCTION, \"CS\")[0]"),
    ("judge", "attributes.py", "VOI_LUT_FUNCTION = 0x00281056", "VOI_LUT_FUNCTION = 0x00281055"),
    ("judge", "rules.py", "1 <= len(items) <= 16", "0 <= len(items) <= 16", "1 <= len(items) <= 15", "1 <= len(items) <= 17"),
    ("judge", "rules.py", "1 <= first <= last <= number_of_frames(root)", "1 <= first <= last", "first <= last <= number_of_frames(root)",
     "1 <= first < last <= number_of_frames(root)"),
    ("judge", "rules.py", "len(numbers) > 64", "len(numbers) > 63", "len(numbers) > 65"),
    ("judge", "rules.py", "1 <= number <= number_of_frames(root)", "number <= number_of_frames(root)", "1 <= number"),
    ("judge", "rules.py", "if item.text(tags.MASK_OPERATION, \"CS\") != b\"AVG_SUB\":", "if item.text(tags.MASK_OPERATION, \"CS\") == b\"TID\":"),
    ("judge", "rules.py", "if item.text(tags.MASK_OPERATION, \"CS\") != b\"TID\":", "if item.text(tags.MASK_OPERATION, \"CS\") == b\"NONE\":"),
    ("judge", "rules.py", "item.present(tags.TID_OFFSET)", "item.has(tags.TID_OFFSET, \"SS\")"),
    ("judge", "rules.py", "-64 <= number <= 64", "-64 <= number <= 65", "-64 < number <= 64", "-64.25 <= number <= 64", "-64 <= number < 64.5"),
    ("judge", "values.py", "4 * Fraction(number)", "Fraction(number)", "2 * Fraction(number)", "8 * Fraction(number)"),
    ("judge", "rules.py", "and len(set(ids)) == len(ids)", ""),
    ("judge", "rules.py", "None not in ids and", ""),
    ("judge", "rules.py", "and group.vr == \"SQ\" and group.value_length != 0", ""),
    ("judge", "rules.py", "(element.vr == \"OB\" and allocated == 8)", "element.vr == \"OB\"", "False"),
    ("judge", "rules.py", "== length + length % 2)", "== length)", ">= length + length % 2)", "== (length + length % 2) % 2 ** 32)"),
    ("decimals", "values.py", "return -number if sign", "return number if sign"),
    ("decimals", "values.py", "return int(number * UNIT)", "return int(number * UNIT) + (abs(number) > 1000)", "return int(number * 1000) * 1000",
     "return int(float(text) * UNIT)"),
    ("decimals", "rules.py", ">= least for text in widths)", ">= 1000 for text in widths)"),
    ("windows", "rules.py", "least = 1 if function == LINEAR_EXACT else UNIT", "least = UNIT", "least = 1",
     "least = 0 if function == LINEAR_EXACT else UNIT"),
    ("windows", "rules.py", "return word if word in (LINEAR, LINEAR_EXACT) else None", "return word if word in (LINEAR, LINEAR_EXACT) else LINEAR"),
    ("judge", "rules.py", "== b\"LOG\"", "== b\"LIN\""),
    ("judge", "rules.py", "== b\"TO_LINEAR\"", "in (b\"TO_LINEAR\", b\"TO_LOG\")"),
    ("judge", "rules.py", "return not logarithmic", "return True"),
    ("judge", "rules.py", "if logarithmic and not linear:", "if not linear:", "if False:"),
    ("judge", "rules.py", "len(linear) <= 1 and", "len(linear) <= 2 and"),
    ("judge", "rules.py", "descriptor[0] or 65_536", "descriptor[0]", "descriptor[0] or 65_535"),
    ("judge", "rules.py", "len(descriptor) != 3 or descriptor[2] != 16", "len(descriptor) < 3 or descriptor[2] != 16",
     "len(descriptor) not in (2, 3) or descriptor[-1] not in (10, 16)", "len(descriptor) != 3 or descriptor[2] % 256 != 16", "len(descriptor) != 3"),
    ("judge", "rules.py", "item.value(tags.LUT_DATA, \"OW\")", "item.value(tags.LUT_DATA, \"OW\") or item.value(tags.LUT_DATA, \"OB\")"),
    ("judge", "rules.py", "len(data) == 2 * entry_count(descriptor)", "len(data) >= 2 * entry_count(descriptor)",
     "len(data) <= 2 * entry_count(descriptor)"),
    ("judge", "rules.py", "frame_group(root, frame, tags.PIXEL_INTENSITY_RELATIONSHIP_LUT_SEQUENCE)",
     "frame_item(root, frame).find(tags.PIXEL_INTENSITY_RELATIONSHIP_LUT_SEQUENCE)"),
    ("judge", "rules.py", "frame_group(root, frame, tags.FRAME_PIXEL_DATA_PROPERTIES_SEQUENCE)",
     "frame_item(root, frame).find(tags.FRAME_PIXEL_DATA_PROPERTIES_SEQUENCE)"),
    # Mapping and derivation.
    ("sheet", "sheet.py", "if first > last:", "if first >= last:"),
    ("sheet", "sheet.py", "1 <= first <= count and 1 <= last <= count", "0 <= first <= count and 1 <= last <= count", "1 <= first <= count"),
    ("sheet", "sheet.py", "counts[level] += 1", "counts[255 - level] += 1"),
    ("sheet", "sheet.py", "sum(not masked for", "sum(masked for"),
    ("sheet", "sheet.py", "range(first, last + 1)])\n    return", "range(first, last)])\n    return"),
    ("pictures", "comparing.py", "abs(our - their) > tolerance", "abs(our - their) >= tolerance", "our - their > tolerance"),
    ("pictures", "comparing.py", "tolerance > MOST", "tolerance >= MOST"),
    ("pictures", "comparing.py", "first=off[0]", "first=off[-1]"),
    ("pictures", "comparing.py", "count=len(off)", "count=off[-1] - off[0] + 1"),
    ("linear", "intensity.py", "limited(cell - self.first, 0, self.count - 1)", "limited(cell - self.first, 0, self.count - 2)",
     "limited(cell - self.first, 1, self.count - 1)", "limited(cell, 0, self.count - 1)", "limited(cell - self.first - 1, 0, self.count - 1)"),
    ("linear", "intensity.py", "self.data[start:start + 2], \"little\"", "self.data[start:start + 1], \"little\""),
    ("linear", "intensity.py", "values_buffer_length < len(numbers)", "values_buffer_length <= len(numbers)",
     "values_buffer_length < 2 * len(numbers)"),
    ("linear", "intensity.py", "isqrt(4 * (cell % 2 ** 14))", "isqrt(4 * (cell % 2 ** 15))", "isqrt(4 * (cell % 2 ** 14) + 1)"),
    ("linear", "intensity.py", "-(-level * level // 4)", "(level * level + 2) // 4"),
    # Slips.
    ("slips", "slips.py", "0 <= offset <= MAXIMUM_SIZE", "0 <= offset < MAXIMUM_SIZE", "True"),
    ("slips", "slips.py", "1 <= rule <= 39 and", "1 <= rule <= 40 and", "0 <= rule <= 39 and"),
    ("slips", "slips.py", "1 <= frame <= 65_535", "0 <= frame <= 65_535"),
    ("slips", "slips.py", "if code in (0, 7, 8):", "if code in (0, 7, 8, 10):"),
    ("slips", "slips.py", "if slip_buffer_length < LENGTH:", "if slip_buffer_length != LENGTH:"),
    ("slips", "slips.py", "MOST_ROWS = 134_217_728", "MOST_ROWS = 134_217_729"),
    ("slips", "slips.py", "0 <= rows <= MOST_ROWS", "0 <= rows < MOST_ROWS", "1 <= rows <= MOST_ROWS"),
    ("slips", "slips.py", "if code in (0, 9) else", "if code in (0, 8, 9) else", "if code == 9 else"),
    ("slips", "slips.py", "VERSION = 2 ", "VERSION = 1 "),
    ("slips", "slips.py", "if len(slip) < 5 or", "if len(slip) < 6 or"),
    ("slips", "slips.py", "slip[13:17]", "slip[9:13]"),
    ("slips", "slips.py", "if version == 2 else None", "if version == 2 else 0"),
    # Drawing.
    ("show", "drawing.py", "first <= frame <= last for", "first < frame <= last for", "first <= frame < last for"),
    ("show", "drawing.py", "numbers[0::2], numbers[1::2]", "numbers[0:1], numbers[1:2]"),
    ("show", "drawing.py", "    offset = 1\n", "    offset = 0\n"),
    ("show", "drawing.py", "1 <= frame - offset <= frames", "1 <= frame - offset < frames"),
    ("show", "drawing.py", "== wanted:", "!= wanted:"),
    ("show", "drawing.py", "limited(c, 0, len(mask[0]) - 1)", "c % len(mask[0])"),
    ("show", "drawing.py", "limited(r, 0, len(mask) - 1)", "r % len(mask)"),
    ("show", "drawing.py", "(top, left + 1, (4 - a) * b)", "(top, left + 1, a * (4 - b))"),
    ("show", "drawing.py", "(top + 1, left, a * (4 - b))", "(top + 1, left, (4 - a) * b)"),
    ("show", "drawing.py", "(top + 1, left + 1, a * b)", "(top, left, a * b)"),
    ("show", "drawing.py", "(top, left, (4 - a) * (4 - b)),", "(top + 1, left + 1, (4 - a) * (4 - b)),"),
    ("show", "drawing.py", "(total + 8) // 16", "total // 16", "(total + 7) // 16", "(total + 9) // 16"),
    ("show", "drawing.py", "    whole = floor(number)\n", "    whole = int(number)\n", "    whole = -floor(-number)\n"),
    ("show", "drawing.py", "int(4 * (number - whole))", "0"),
    ("show", "drawing.py", "top + 1, left", "top - 1, left"),
    ("show", "drawing.py", "shifted(mask, shift(root, item, frame))", "shifted(mask, (shift(root, item, frame)[0], 0))",
     "shifted(mask, (0, shift(root, item, frame)[1]))"),
    ("show", "drawing.py", "column - horizontal", "column + horizontal"),
    *[(comparison, "drawing.py", *texts) for comparison in ("show", "windows") for texts in LEVELS],
    ("show", "drawing.py", "% 2 ** self.stored", ""),
    ("show", "drawing.py", "centers[0]", "centers[-1]"),
    ("show", "drawing.py", "widths[0]", "widths[-1]"),
    ("show", "drawing.py", "2 ** (stored - 1) if stored", "2 ** 7 if stored"),
    ("show", "drawing.py", "image_buffer_length < root", "image_buffer_length <= root"),
    ("show", "drawing.py", "((frame - 1) * self.rows + row)", "(row)"),
    ("show", "drawing.py", "own = naming_item(root, item, frame)", "own = None"),
    # The searches.
    ("searches", "searches.py", "return lower + 1 if lower < len(self.tags) else lower", "return lower", "return lower + 1",
     "return lower + self.has(tag)", "return min(lower + 1, len(self.tags)) if lower else 1", "return len(self.tags)"),
    ("searches", "searches.py", "rule == IN_BOTH or not own.has(group)", "not own.has(group)", "True", "rule == IN_BOTH",
     "rule == IN_BOTH or not own.items(group)[1:]"),
    ("searches", "searches.py", "count = own.looked_at(group)", "count = own.looked_at(group) if own.has(group) else 0"),
    ("searches", "searches.py", "(own if own.has(group) else shared).items(group)", "own.items(group)", "shared.items(group)",
     "(own if own.has(group) else shared).items(group)[:1]"),
    ("searches", "searches.py", "len(own.tags) + len(shared.tags) + ", "", "len(own.tags) + ", "len(own.tags) * len(shared.tags) + "),
    ("searches", "searches.py", "for item in root.items(tags.MASK_SUBTRACTION_SEQUENCE))", "for item in root.items(tags.MASK_SUBTRACTION_SEQUENCE)[:1])"),
    ("searches", "searches.py", "(tags.MASK_SUBTRACTION_SEQUENCE,)", "(tags.MASK_SUBTRACTION_SEQUENCE, tags.MASK_OPERATION)"),
    ("searches", "searches.py", "36: (tags.SUBTRACTION_ITEM_ID,)", "36: (tags.SUBTRACTION_ITEM_ID, tags.FRAME_PIXEL_SHIFT_SEQUENCE)"),
    ("searches", "searches.py", "2: (tags.MODALITY,)", "2: (tags.MODALITY, tags.SOP_CLASS_UID)"),
    ("searches", "searches.py", "4: (tags.PLANES_IN_ACQUISITION,)", "5: (tags.PLANES_IN_ACQUISITION, tags.IMAGE_TYPE)"),
    ("searches", "searches.py", "    (36, tags.FRAME_PIXEL_SHIFT_SEQUENCE, ()),\n", ""),
    ("searches", "searches.py", "(36, tags.FRAME_PIXEL_SHIFT_SEQUENCE, ())", "(36, tags.FRAME_PIXEL_SHIFT_SEQUENCE, (tags.SUBTRACTION_ITEM_ID,))"),
    ("searches", "searches.py", "FRAME_CONTENT_SEQUENCE, ()", "FRAME_CONTENT_SEQUENCE, (tags.ROWS,)"),
    ("searches", "searches.py", "tags.WINDOW_WIDTH, tags.VOI_LUT_FUNCTION", "tags.WINDOW_WIDTH"),
    ("searches", "searches.py", "tags.SUBTRACTION_ITEM_ID, tags.MASK_SUB_PIXEL_SHIFT", "tags.SUBTRACTION_ITEM_ID,"),
    ("searches", "searches.py", "tags.LUT_FUNCTION, tags.LUT_DESCRIPTOR, tags.LUT_DATA", "tags.LUT_FUNCTION,"),
    ("searches", "searches.py", "FRAME_PIXEL_DATA_PROPERTIES_SEQUENCE, (tags.PIXEL_INTENSITY_RELATIONSHIP,)", "FRAME_PIXEL_DATA_PROPERTIES_SEQUENCE, ()"),
    *[("searches", "searches.py", f"(tags.{name},)", "()") for name in ("POSITIONER_TYPE", "PLANE_IDENTIFICATION", "PIXEL_DATA", "TID_OFFSET")],
    *[("searches", "searches.py", f", tags.{name}", ",") for name in ("RADIATION_SETTING", "X_RAY_TUBE_CURRENT_IN_MA", "COLUMNS", "CONTRAST_FRAME_AVERAGING")],
    # The canonical form.
    ("canonical", "canonical.py", "return 12 if vr in LONG_VRS else 8", "return 12"),
    ("canonical", "canonical.py", "return sum(8 + item_length(item) for item in element.items)", "return sum(item_length(item) for item in element.items)"),
    ("canonical", "canonical.py", "target_length < length", "target_length <= length", "target_length < len(data)"),
    ("canonical", "canonical.py", "if target_length < length:", "if False:"),
    ("canonical", "canonical.py", "length = b\"\\0\\0\" + len(content)", "length = b\"\\1\\0\" + len(content)"),
    ("canonical", "canonical.py", "len(content).to_bytes(2, \"little\")", "len(content).to_bytes(2, \"big\")"),
    ("canonical", "canonical.py", "tag_bytes(ITEM) + len(content)", "tag_bytes(ITEM) + (8 + len(content))"),
    ("canonical", "canonical.py", "+ content\n\n\ndef write_elements", "+ content + tag_bytes(0xFFFEE00D) + bytes(4)\n\n\ndef write_elements"),
    ("canonical", "canonical.py", "(tag >> 16).to_bytes(2, \"little\") + (tag & 0xFFFF).to_bytes(2, \"little\")", "tag.to_bytes(4, \"little\")"),
    ("canonical", "canonical.py", "TARGET_TOO_SMALL, length=length), rows=read.rows)", "TARGET_TOO_SMALL, length=length))"),
]


def mutants(folder, wanted):
    """(what is wrong, the stand-in) for each change that a comparison has to find."""
    for number, (comparison, file, text, *others) in enumerate(MUTATIONS):
        for turn, other in enumerate(others if comparison == wanted else ()):
            yield f"{file}: {text!r} changed to {other!r}", mutant(folder, f"mutant_{number}_{turn}", file, text, other)


def mutant(folder, name, file, text, other):
    """A stand-in that answers as the changed copy of the reference does."""
    target = os.path.join(folder, name)
    shutil.copytree(REFERENCE, target, ignore=shutil.ignore_patterns("__pycache__"))
    path = os.path.join(target, file)
    with open(path) as source:
        content = source.read()
    if text not in content:
        raise ValueError(f"{file} has no {text!r}")
    with open(path, "w") as source:
        source.write(content.replace(text, other))
    if folder not in sys.path:
        sys.path.insert(0, folder)
    importlib.invalidate_caches()
    load = lambda part: importlib.import_module(f"{name}.{part}")
    intensity = load("intensity")
    return StandIn(read=load("reading").read, judge=forgiving(load("rules").judge), show=forgiving(load("drawing").show),
                   write_slip=load("slips").write_slip, read_slip=load("slips").read_slip, write_canonical=load("canonical").write_canonical,
                   linear=forgiving(intensity.linear), root_level=intensity.root_level, root_entry=intensity.root_entry,
                   sample=forgiving(load("sheet").sheet), compare=load("comparing").compare)


def forgiving(call):
    """A changed line may let through what a later one relies on not to come. If the call then fails, it answers "done"."""

    def call_or_done(data, *arguments):
        try:
            return call(data, *arguments)
        except Exception:  # whatever a changed line may lead to
            row_buffer_length = arguments[0] if len(arguments) == 1 else arguments[1]
            return reading.read(data, row_buffer_length)

    return call_or_done
