"""`luux canonical` and `luux duplicates`."""

import hashlib
import json
import os
import random

from desk.common import FAILED, LARGE, REFUSED, Desk, with_head
from generators import enhanced_xa as xa
from generators.objects import encode, item, sequence
from reference import canonical


class TestCanonical(Desk):
    """Two copies of a run, with other lengths: equal bytes after `canonical`, found by `duplicates`."""

    def model(self, frames=3):
        return xa.build(random.Random(frames), xa.Shape(frames=frames, rows=4, columns=4))

    def both(self, model):
        """The bytes with defined and with undefined lengths throughout."""
        return encode(model), encode(model, lambda: True)

    def form(self, data):
        return canonical.write_canonical(data, LARGE, LARGE).target

    def content(self, name):
        with open(self.path(name), "rb") as file:
            return file.read()

    def groups(self, *words, **options):
        done = self.luux("duplicates", "--json", *words, **options)
        return [json.loads(line) for line in done.stdout.splitlines()], done.stderr.decode()

    def test_written(self):
        defined, undefined = self.both(self.model())
        self.assertNotEqual(defined, undefined)
        self.put("defined", defined)
        self.put("undefined", undefined)
        self.put("empty", b"")
        self.assertEqual(self.lines("canonical", "defined", "-o", "one"), [f"one: {len(defined)} bytes, unchanged"])
        self.assertEqual(self.lines("canonical", "undefined", "-o", "other"), [f"other: {len(defined)} bytes, in canonical form"])
        self.assertEqual(self.content("one"), self.form(defined))
        self.assertEqual(self.content("other"), self.form(undefined))
        self.luux("canonical", "empty", "-o", "none")
        self.assertEqual(self.content("none"), b"")

    def test_many_rows(self):
        data = sequence(0x52009230, item(b"", True) * 20_000, True)
        self.put("many", data)
        self.luux("canonical", "many", "-o", "out")
        self.assertEqual(self.content("out"), self.form(data))

    def test_refused(self):
        defined, _ = self.both(self.model())
        self.put("cut", defined[:-1])
        answer = canonical.write_canonical(defined[:-1], LARGE, LARGE).answer
        line, = self.lines("canonical", "cut", "-o", "out", status=REFUSED)
        self.assertTrue(line.startswith(f"cut: code {answer.code} at byte {answer.offset}: "), line)
        self.assertFalse(os.path.exists(self.path("out")))
        self.put("headed", with_head(defined))
        line, = self.lines("canonical", "headed", "-o", "out", status=REFUSED)
        self.assertTrue(line.startswith("headed: code 3 at byte 0: "), line)

    def test_not_written(self):
        defined, _ = self.both(self.model())
        self.put("run", defined)
        for out in ("run", os.path.join("no", "such", "folder"), "."):
            self.luux("canonical", "run", "-o", out, status=FAILED)
        self.assertEqual(self.content("run"), defined)
        self.luux("canonical", "missing", "-o", "out", status=FAILED)
        self.assertEqual(os.listdir(self.folder), ["run"])

    def test_never_over_the_input(self):
        self.put("run", self.both(self.model())[1])
        self.check_kept("run", "canonical", "run")

    def test_duplicates(self):
        defined, undefined = self.both(self.model())
        others = self.both(self.model(frames=4))
        changed = bytearray(defined)
        changed[-1] ^= 1
        for name, data in (("in/a", defined), ("in/b", undefined), ("in/c", others[0]), ("in/d", bytes(changed)), ("out/e", others[1]),
                           ("out/f", undefined), ("out/g", self.both(self.model(frames=5))[0])):
            self.put(name, data)
        found, told = self.groups("in", "out")
        self.assertEqual([[(file["path"], file["canonical"]) for file in group["files"]] for group in found],
                         [[("in/a", True), ("in/b", False), ("out/f", False)], [("in/c", True), ("out/e", False)]])
        for group, data in zip(found, (defined, others[0])):
            self.assertEqual(group["sha256"], hashlib.sha256(data).hexdigest())
            self.assertEqual(group["length"], len(data))
        self.assertIn("7 files: 5 equal in 2 groups, 0 refused, 0 could not be read", told)
        digest = hashlib.sha256(others[0]).hexdigest()
        self.assertEqual(self.lines("duplicates", "in/c", "out/e", "in/d"), [
            f"2 equal data sets, {len(others[0])} bytes in canonical form, SHA-256 {digest}", "  in/c", "  out/e",
            "3 files: 2 equal in 1 group, 0 refused, 0 could not be read"])

    def test_one_file_is_no_duplicate(self):
        self.put("a", self.both(self.model())[0])
        os.symlink("a", self.path("link"))
        found, told = self.groups("a", "a", "link")
        self.assertEqual(found, [])
        self.assertEqual(told.count("the same file was found already"), 2)

    def test_trouble(self):
        defined, undefined = self.both(self.model())
        self.put("a", defined)
        self.put("b", undefined)
        self.put("cut", defined[:-1])
        found, told = self.groups("a", "cut", "b", status=REFUSED)
        self.assertEqual([file["path"] for file in found[0]["files"]], ["a", "b"])
        self.assertIn("cut: code 1 at byte ", told)
        self.assertIn("3 files: 2 equal in 1 group, 1 refused, 0 could not be read", told)
        found, told = self.groups("a", "missing", "b", status=FAILED)
        self.assertEqual(len(found), 1)
        self.assertIn("1 could not be read", told)
        os.mkdir(self.path("empty"))
        self.luux("duplicates", "empty", status=FAILED)
