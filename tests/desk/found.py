"""What a refusal found: counts, lengths, values and absent elements, held to the rows and values of the independent program."""

import json
import random
import re
import struct

from desk.common import LARGE, REFUSED, SENTENCES, Desk, good_run, item_left_out, rows_of, with_head
from generators import enhanced_xa as xa
from generators.mutations import CHANGES
from generators.objects import element, element_header, encode, item_header
from reference import attributes as tags
from reference import rules

TEXTS = ("AE", "AS", "CS", "DA", "DS", "DT", "IS", "LO", "LT", "PN", "SH", "ST", "TM", "UC", "UI", "UR", "UT")
WHERE = (27, 36)  # the rules whose findings say where a group is, and not how many items it has
NUMBERS = {"US": "H", "SS": "h", "UL": "I", "SL": "i", "FL": "f", "FD": "d"}


def tag_text(tag):
    return f"({tag >> 16:04X},{tag & 0xFFFF:04X})"


def changed(edit, seed=1, **shape):
    """A run with a change."""
    model = xa.build(random.Random(seed), xa.Shape(**{"extras": False, "frames": 5, **shape}))
    edit(model)
    return encode(model)


class TestFound(Desk):
    def found(self, data):
        """The findings of a refused data set."""
        self.put("run.xa", data)
        said = json.loads(self.lines("judge", "run.xa", "--json", status=REFUSED)[0])
        line = self.lines("judge", "run.xa", found=True, status=REFUSED)[0]
        texts = [finding["text"] for finding in said["found"]]
        if said["code"] == 9:
            self.assertTrue(line.endswith(f"{SENTENCES[said['rule']]} Found: {'; '.join(texts)}."), line)
        else:
            self.assertIn("; found: " + "; ".join(texts), line)
        return texts

    def test_items_and_frames(self):
        """The sender left out one of 900 items."""
        def left_out(model):
            del model[tags.PER_FRAME_FUNCTIONAL_GROUPS_SEQUENCE][1][811]
        self.assertEqual(self.found(changed(left_out, frames=900, rows=1, columns=1)), [
            "899 items in Per-frame Functional Groups Sequence (5200,9230)", "900 frames by Number of Frames (0028,0008)"])
        self.assertEqual(self.found(item_left_out())[0][:7], "4 items")

    def test_both_lengths(self):
        def shortened(model):
            vr, value = model[tags.PIXEL_DATA]
            model[tags.PIXEL_DATA] = (vr, value[:-4])
        self.assertEqual(self.found(changed(shortened, frames=3, rows=4, columns=5)), [
            "116 bytes in Pixel Data (7FE0,0010) OW", "3 frames x 4 rows x 5 columns x 16 bits are 120 bytes"])

    def test_a_word(self):
        for tag, name, rule in ((tags.MODALITY, "Modality", 2), (tags.PHOTOMETRIC_INTERPRETATION, "Photometric Interpretation", 10),
                                (tags.CONTENT_QUALIFICATION, "Content Qualification", 16), (tags.BURNED_IN_ANNOTATION, "Burned In Annotation", 17),
                                (tags.LOSSY_IMAGE_COMPRESSION, "Lossy Image Compression", 18)):
            called = f"{name} {tag_text(tag)}"
            for value, text in ((("CS", b"ODD WORD"), f'{called} CS "ODD WORD"'), (("LO", b"XA"), f'{called} LO "XA"'),
                                (("CS", b""), f"{called} CS empty"), (("CS", b"A\\B "), f'{called} CS "A\\B"'),
                                (None, f"{called} absent")):
                def put(model):
                    model.pop(tag) if value is None else model.__setitem__(tag, value)
                self.assertEqual(self.found(changed(put))[0], text)
                self.assertEqual(rules.judge(changed(put), LARGE).answer.rule, rule)

    def test_numbers(self):
        def odd(model):
            model[tags.BITS_STORED] = xa.us(17)
        self.assertEqual(self.found(changed(odd)), ["Bits Allocated (0028,0100) US 16", "Bits Stored (0028,0101) US 17"])

    def test_the_item_of_a_frame(self):
        """A group is named as the frame's own or the shared one, an item by its number."""
        def lost(model):
            del model[tags.PER_FRAME_FUNCTIONAL_GROUPS_SEQUENCE][1][3][tags.FRAME_VOI_LUT_SEQUENCE][1][0][tags.WINDOW_WIDTH]
        texts = self.found(changed(lost, voi="frames"))
        self.assertEqual(texts[0], "1 item in Frame VOI LUT Sequence (0028,9132) in frame 4")
        self.assertEqual(texts[2], "Window Width (0028,1051) absent from item 1 of (0028,9132) of frame 4")

        def lost_for_all(model):
            del model[tags.SHARED_FUNCTIONAL_GROUPS_SEQUENCE][1][0][tags.FRAME_VOI_LUT_SEQUENCE][1][0][tags.WINDOW_WIDTH]
        self.assertEqual(self.found(changed(lost_for_all, voi="shared"))[2],
                         "Window Width (0028,1051) absent from item 1 of (0028,9132) of the shared item")

        def twice(model):
            model[tags.PER_FRAME_FUNCTIONAL_GROUPS_SEQUENCE][1][2][tags.FRAME_VOI_LUT_SEQUENCE] = model[tags.SHARED_FUNCTIONAL_GROUPS_SEQUENCE][1][0][tags.FRAME_VOI_LUT_SEQUENCE]
        self.assertEqual(self.found(changed(twice, voi="shared")), ["Frame VOI LUT Sequence (0028,9132) in the shared item and in frame 3"])

    def test_mask_items(self):
        def odd(model):
            for item, word in zip(model[tags.MASK_SUBTRACTION_SEQUENCE][1], ("AVG_SUB", " REV_TID")):
                item[tags.MASK_OPERATION] = xa.text("CS", word)
        self.assertEqual(self.found(changed(odd, masks=("AVG_SUB", "TID"))), [
            "2 items in Mask Subtraction Sequence (0028,6100)", 'Mask Operation (0028,6101) CS "AVG_SUB" in item 1 of (0028,6100)',
            'Mask Operation (0028,6101) CS " REV_TID" in item 2 of (0028,6100)'])

    def test_every_way_to_break_a_rule(self):
        """Each finding names an element of the rule's sentence, with its row and its value, or as absent."""
        rng = random.Random(21)
        answers = []
        for number, change in enumerate(CHANGES):
            model = xa.build(rng, xa.random_shape(rng, **change.shape))
            change.edit(model, rng.choice((1, 3, 5)) if change.per_frame else 0)
            data = xa.encode_at_random(rng, model)
            answers.append((data, rules.judge(data, LARGE).answer))
            self.put(f"runs/{number:04d}.xa", data)
        said = list(map(json.loads, self.lines("judge", "runs", "--json", status=REFUSED)))
        broken = set()
        for one, (data, answer) in zip(said, answers, strict=True):
            self.assertEqual((one["code"], one["rule"]), (answer.code, answer.rule))
            if answer.code == 9:
                broken.add(answer.rule)
                self.one(data, answer.rule, one["found"])
        self.assertEqual(broken, set(rules.RULES))

    def one(self, data, rule, found):
        rows = rows_of(data)
        self.assertTrue(found, rule)
        spoken = set(re.findall(r"\([0-9A-F]{4},[0-9A-F]{4}\)", SENTENCES[rule]))
        for finding in found:
            if "tag" not in finding:
                self.assertEqual(rule, 38)
                continue
            if rule != 27:  # its sentence cannot say which sequences are repeated
                self.assertIn(finding["tag"], spoken | {"(0008,0016)"} if rule == 2 else spoken)
            self.assertIn(finding["tag"], finding["text"])
            if finding["row"] == 0:
                self.assertIn(" absent", finding["text"])
            else:
                row = rows[finding["row"] - 1]
                self.assertEqual(tag_text(row[0]), finding["tag"])
                self.assertTrue(self.shows(data, rows, finding, rule), (rule, finding))

    def shows(self, data, rows, finding, rule):
        """Whether a finding gives the value of its element, or its size; for rules that ask only where a group is, its place."""
        number, text = finding["row"], finding["text"]
        _, vr, _, offset, length, _, _ = rows[number - 1]
        vr = chr(vr >> 8) + chr(vr & 255)
        value = data[offset:offset + length]

        def says(*wanted):
            """A number does not count as the end of a longer one."""
            return any(re.search(r"(?<!\d)" + re.escape(one), text) for one in wanted)
        if says(f"{length} byte{'' if length == 1 else 's'} in "):
            return True
        if vr == "SQ":
            items = sum(row[6] == number for row in rows)
            return says(" in frame ", " in the shared item") if rule in WHERE else says(f"{items} item{'' if items == 1 else 's'} in ", f" SQ {items} item")
        if length == 0:
            return says(f" {vr} empty")
        if vr in TEXTS:
            plain = "".join(letter if letter.isprintable() else f"\\x{ord(letter):02X}" for letter in value.rstrip(b"\0 ").decode("cp1252", "replace"))
            return says(f' {vr} "{plain[:400]}', f"{plain.strip().lstrip('+0')} frame")
        if vr in NUMBERS and length % struct.calcsize(NUMBERS[vr]) == 0:
            numbers = [number for number, in struct.iter_unpack("<" + NUMBERS[vr], value)]
            if vr in ("FL", "FD"):
                return self.same_numbers(re.search(f" {vr} ([^ ]*)", text)[1], numbers, NUMBERS[vr])
            return says(f" {vr} " + "\\".join(map(str, numbers))[:400])
        return says(f" {vr} {length} byte")

    def same_numbers(self, text, numbers, form):
        """Whether a text gives these floating-point numbers; of a text that was cut at 400 characters, the last number is not complete."""
        given = text.removesuffix("...").split("\\")
        if text.endswith("..."):
            given, numbers = given[:-1], numbers[:len(given) - 1]
        return len(given) == len(numbers) > 0 and all(
            number != number and one == "NaN" or struct.pack(form, float(one)) == struct.pack(form, number) for one, number in zip(given, numbers))

    def test_where_reading_stopped(self):
        first = element(0x00080060, "CS", b"XA")
        for data, texts in (
                (first + b"\x28\0\x10\0ZZ\2\0\1\0", ['Rows (0028,0010), VR "ZZ", length 2, followed by 2 bytes',
                                                    "the element before it is Modality (0008,0060)"]),
                (first + element(0x00080008, "CS", b"XA"), ['Image Type (0008,0008), VR "CS", length 2, followed by 2 bytes',
                                                           "the element before it is Modality (0008,0060)"]),
                (first + b"\1\2\3", ["3 bytes left: 01 02 03", "the element before it is Modality (0008,0060)"]),
                (element_header(0x7FE00010, "OW", 1000), ['Pixel Data (7FE0,0010), VR "OW", length 1000, followed by 0 bytes']),
                (element_header(0x7FE00010, "OB", 0xFFFFFFFF), ['Pixel Data (7FE0,0010), VR "OB", undefined length, followed by 0 bytes']),
                (item_header(0), ["Item (FFFE,E000), length 0, followed by 0 bytes"])):
            self.assertEqual(self.found(data), texts)

    def test_files(self):
        """A file's head: no mark, a bad head, another class."""
        self.bare = False
        self.assertEqual(self.found(b"\1" * 100), ["the file has 100 bytes"])
        self.assertEqual(self.found(b"\1" * 200), ["bytes 128 to 131 are 01 01 01 01"])
        self.assertEqual(self.found(bytes(128) + b"DICM" + element(0x00020010, "UI", b"1.2\0")),
                         ['Transfer Syntax UID (0002,0010), VR "UI", length 4, followed by 4 bytes'])
        self.assertEqual(self.found(with_head(good_run(), b"1.2.3\0")), [
            'Media Storage SOP Class UID (0002,0002) UI "1.2.3"', 'SOP Class UID (0008,0016) UI "1.2.840.10008.5.1.4.1.1.12.1.1"'])

    def test_no_end_of_items(self):
        """The line stays short, however much there is."""
        def many(model):
            model[tags.MASK_SUBTRACTION_SEQUENCE] = xa.sq(*({tags.MASK_OPERATION: xa.text("CS", "X" * 600)} for _ in range(5000)))
        texts = self.found(changed(many))
        self.assertEqual(texts[0], "5000 items in Mask Subtraction Sequence (0028,6100)")
        self.assertLess(len("; ".join(texts)), 40_000)
        self.assertLess(max(map(len, texts)), 600)
