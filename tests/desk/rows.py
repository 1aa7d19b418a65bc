"""`luux rows`: the numbers of each row, the tree; attribute names from a dictionary that Debian packages, and short values."""

import random
import runpy

from desk.common import FAILED, FINE, REFUSED, Desk, good_run, rows_of
from generators import enhanced_xa as xa
from generators.objects import element, element_header, encode, item_header
from generators.reading_cases import rowlist

DICTIONARY = "/usr/lib/python3/dist-packages/pydicom/_dicom_dict.py"


class TestRows(Desk):
    def tree(self, data):
        """The tree, drawn from the parents alone."""
        rows = rows_of(data)
        members = {}
        for number, row in enumerate(rows, 1):
            members.setdefault(row[6], []).append(number)
        lines = [f"rows {len(rows)}"]
        wide = len(str(len(rows)))

        def draw(number, before, branch):
            tag, vr, _, offset, length, _, parent = rows[number - 1]
            what = f"({tag >> 16:04X},{tag & 65535:04X}) {chr(vr >> 8)}{chr(vr & 255)}"
            if vr == 0:
                what = f"item {members[parent].index(number) + 1}"
            lines.append(f"{number:{wide}d} {before}{branch}{what}, {length} bytes at {offset}")
            below = before + {"": "", "|-- ": "|   ", "`-- ": "    "}[branch]
            for member in members.get(number, []):
                draw(member, below, "`-- " if member == members[number][-1] else "|-- ")

        for number in members.get(0, []):
            draw(number, "", "")
        return lines

    def test_rows(self):
        for name, data in (("good", good_run()), ("empty", b""), ("sample", bytes.fromhex("28001000555302000200")),
                           ("long", good_run(frames=3000, rows=1, columns=1))):
            self.put(name, data)
            self.assertEqual(self.lines("rows", name), rowlist(data))
        self.assertEqual(self.lines("rows", "sample"), ["rows 1", "00280010 US 0 8 2 0 0"])

    def test_tree(self):
        for name, data in (("good", good_run(frames=12)), ("empty", b""), ("sample", bytes.fromhex("28001000555302000200"))):
            self.put(name, data)
            self.assertEqual(self.lines("rows", "--tree", name), self.tree(data))
        # Two items, the first with an empty sequence and an element, the second with nothing.
        inner = element_header(0x00081140, "SQ", 0) + element(0x00100010, "PN", b"AB")
        items = item_header(len(inner)) + inner + item_header(0)
        self.put("small", element_header(0x00081115, "SQ", len(items)) + items + element(0x00280010, "US", b"\2\0"))
        self.assertEqual(self.lines("rows", "--tree", "small"), [
            "rows 6",
            "1 (0008,1115) SQ, 38 bytes at 12",
            "2 |-- item 1, 22 bytes at 20",
            "3 |   |-- (0008,1140) SQ, 0 bytes at 32",
            "4 |   `-- (0010,0010) PN, 2 bytes at 40",
            "5 `-- item 2, 0 bytes at 50",
            "6 (0028,0010) US, 2 bytes at 58"])
        # Eight sequences deep.
        data = b""
        for depth in range(8):
            items = item_header(len(data)) + data
            data = element_header(0x00081115, "SQ", len(items)) + items + element(0x00280010, "US", b"\2\0")
        self.put("deep", data)
        self.assertEqual(self.lines("rows", "--tree", "deep"), self.tree(data))

    def test_refused(self):
        self.put("twice", 2 * bytes.fromhex("28001000555302000200"))
        self.assertTrue(self.lines("rows", "twice", status=REFUSED)[0].startswith("twice: code 2 at byte 10: "))
        for name in ("gone", "."):
            done = self.luux("rows", name, status=FAILED)
            self.assertEqual(done.stdout, b"")
            self.assertIn(f"luux: {name}: cannot be read".encode(), done.stderr)


class TestRowNames(Desk):
    def test_names_and_values(self):
        data = encode({0x00080008: xa.text("CS", "ORIGINAL", "PRIMARY"), 0x00080016: xa.text("UI", "1.2.3"), 0x00091010: ("UN", b"\1\2"),
                       0x00090010: xa.text("LO", "Somebody"), 0x00100010: xa.text("PN", "A^B"), 0x00189332: xa.fd(67.25), 0x00280010: xa.us(512),
                       0x00280009: ("AT", b"\x18\0\x63\x10"), 0x00286120: xa.ss(-2), 0x00289416: ("US", b""), 0x00284000: xa.text("LT", "x" * 80),
                       0x00286100: xa.sq({0x00286114: xa.fl(1.5, -2.0)}, {}), 0x60020010: xa.us(3), 0x7FE00010: ("OW", bytes(16)), 0x77760001: ("US", b"\1\0")})
        self.put("run.xa", data)
        lines = self.lines("rows", "run.xa", "--names")
        plain = self.lines("rows", "run.xa")
        told = [line[len(numbers):].strip() for line, numbers in zip(lines, plain, strict=True)]
        self.assertEqual(told, ["", 'Image Type: "ORIGINAL\\PRIMARY"', 'SOP Class UID: "1.2.3"', 'Private Creator: "Somebody"', "Private: 2 bytes",
                                "Patient's Name: not shown without --patient", "Exposure in mAs: 67.25", "Frame Increment Pointer: (0018,1063)", "Rows: 512",
                                f'Image Presentation Comments: "{"x" * 60}..."', "Mask Subtraction Sequence: 2 items", "", "Mask Sub-pixel Shift: 1.5\\-2", "",
                                "TID Offset: -2", "Subtraction Item ID: empty", "Overlay Rows: 3", "Unknown: 1", "Pixel Data: 16 bytes"])
        self.assertIn('Patient\'s Name: "A^B"', "\n".join(self.lines("rows", "run.xa", "--names", "--patient")))
        tree = self.lines("rows", "run.xa", "--names", "--tree")
        for line, drawn, said in zip(tree, self.lines("rows", "run.xa", "--tree"), told, strict=True):
            self.assertEqual(line, drawn + (f", {said}" if said else ""))

    def test_names_are_those_of_the_dictionary(self):
        known = runpy.run_path(DICTIONARY)["DicomDictionary"]
        data = good_run(frames=2)
        self.put("run.xa", data)
        for line, row in zip(self.lines("rows", "run.xa", "--names")[1:], rows_of(data), strict=True):
            if row[1]:
                self.assertIn(f" {known[row[0]][2]}: ", line)

    def test_any_bytes(self):
        """Wrong values for their VR, and long ones, are printed on one line each."""
        rng = random.Random(31)
        self.put("run.xa", b"".join(element(0x00090000 + 2 * number, rng.choice(("US", "FL", "FD", "AT", "LO", "UI", "OB", "PN", "IS")), rng.randbytes(rng.randrange(50) * 2))
                                    for number in range(2000)))
        lines = self.luux("rows", "run.xa", "--names", status=FINE).stdout.decode().split("\n")
        self.assertEqual(len(lines), 2002)
        self.assertLess(max(map(len, lines)), 500)
