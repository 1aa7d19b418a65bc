"""Real folders: files that are not ours, files that are chosen or moved, names of all sorts."""

import json
import os
import random
import struct
import subprocess
import time

from desk.common import CLASSES, FAILED, LARGE, REFUSED, TOOL, Desk, good_run, item_left_out, with_head
from generators.objects import element, item, sequence
from reference import drawing, files, slips

CT = b"1.2.840.10008.5.1.4.1.1.2"
DIRECTORY = b"1.2.840.10008.1.3.10"
JPEG = b"1.2.840.10008.1.2.4.50"


def of_class(uid):
    """A data set that reads, of another SOP class."""
    return element(0x00080016, "UI", uid + b"\0" * (len(uid) % 2)) + element(0x00080060, "CS", b"CT")


OTHERS = {
    "DICOMDIR": (with_head(sequence(0x00041220, item(element(0x00041430, "CS", b"PATIENT ")), False), DIRECTORY), "a DICOMDIR"),
    "nothing": (b"", "an empty file"),
    "notes.txt": ("Der Befund für die Nacht\r\n".encode(), "text"),
    "latin.txt": ("Der Befund für die Nacht\r\n".encode("latin-1"), "text"),
    "wide.txt": ("Der Befund\r\n".encode("utf-16"), "text"),
    "picture.png": (b"\x89PNG\r\n\x1a\n" + bytes(300), "a picture (PNG)"),
    "picture.jpg": (b"\xff\xd8\xff\xe0" + bytes(300), "a picture (JPEG)"),
    "picture.bmp": (b"BM" + struct.pack("<I", 300) + bytes(294), "a picture (BMP)"),
    "report.pdf": (b"%PDF-1.7\n" + bytes(300), "a PDF document"),
    "letter.doc": (b"\xd0\xcf\x11\xe0\xa1\xb1\x1a\xe1" + bytes(300), "an Office document or Thumbs.db"),
    "letter.docx": (b"PK\3\4" + bytes(26) + b"[Content_Types].xml" + bytes(300), "an Office document"),
    "ct.dcm": (with_head(of_class(CT), CT), "another SOP class, CT Image (1.2.840.10008.5.1.4.1.1.2)"),
    "ct-jpeg.dcm": (with_head(of_class(CT), CT, JPEG), "another SOP class, CT Image (1.2.840.10008.5.1.4.1.1.2)"),
    "ct-cut.dcm": (with_head(of_class(CT)[:-1], CT), "another SOP class, CT Image (1.2.840.10008.5.1.4.1.1.2)"),
    "own.dcm": (with_head(of_class(b"1.2.3"), b"1.2.3"), "another SOP class, 1.2.3"),
}

# What might be a run, by name: the file, and its code.
DOUBTFUL = {
    "class-differs-a": (with_head(good_run(), CT), 18),
    "class-differs-b": (with_head(of_class(CT)), 18),
    "garbage": (bytes(range(256)) * 3, 15),
    "bare": (good_run(), 15),
    "compressed": (with_head(good_run(), syntax=JPEG), 17),
    "cut-and-damaged": (with_head(good_run()[:-2], CLASSES["XA"][:-3] + b"3.1"), 1),
    "no-class": (with_head(b""), 18),
    "archive.zip": (b"PK\3\4" + bytes(26) + b"runs/run.dcm" + bytes(300), 15),
}


class TestOthers(Desk):
    bare = False

    def test_a_real_folder_ends_well(self):
        for name, (content, _) in OTHERS.items():
            self.put(f"night/{name}", content)
            self.put(f"slips/night/{name}.slip", slips.slip_bytes(0, 0, 0, 0, 57))
        self.put("night/run.dcm", with_head(good_run()))
        names = sorted([*OTHERS, "run.dcm"])
        objects = [json.loads(line) for line in self.lines("judge", "night", "--json")]
        for name, one in zip(names, objects, strict=True):
            self.assertEqual(one["path"], f"night/{name}")
            if name in OTHERS:
                content, what = OTHERS[name]
                self.assertEqual((one["verdict"], one["what"], one["code"]), ("not ours", what, files.judge_file(content, LARGE).answer.code), name)
        said = self.lines("judge", "night", "--slips", "slips", "--move-accepted", "done", "--move-refused", "bad")
        for name, line in zip(names, said):
            wanted = f"not ours: {OTHERS[name][1]}; its old slip was moved aside to slips/night/{name}.slip.old" if name in OTHERS \
                else f"accepted; moved to done/night/{name}"
            self.assertEqual(line, f"night/{name}: {wanted}")
        self.assertEqual(said[-1], f"{len(names)} files: 1 accepted, 0 refused, 0 could not be read, {len(OTHERS)} not ours")
        self.assertFalse(os.path.exists(self.path("bad")))
        self.assertEqual(sorted(os.listdir(self.path("night"))), sorted(OTHERS))

    def test_doubtful_ones_stay_refused(self):
        for name, (content, code) in DOUBTFUL.items():
            self.assertEqual(files.judge_file(content, LARGE).answer.code, code, name)
            self.put(f"night/{name}", content)
        objects = [json.loads(line) for line in self.lines("judge", "night", "--json", status=REFUSED)]
        self.assertEqual([(os.path.basename(one["path"]), one["verdict"], one["code"]) for one in objects],
                         [(name, "refused", DOUBTFUL[name][1]) for name in sorted(DOUBTFUL)])

    def test_named_ones_are_not_passed_over(self):
        self.put("notes.txt", b"notes")
        self.put("in/notes.txt", b"notes")
        self.put("run.dcm", with_head(good_run()))
        self.luux("judge", "run.dcm", "in")
        self.assertEqual(self.lines("judge", "run.dcm", "notes.txt", status=REFUSED)[1], "notes.txt: not ours: text")
        done = self.luux("judge", "in", status=FAILED)
        self.assertIn(b"no runs were found", done.stderr)
        # With --bare every file is a data set.
        self.assertTrue(self.lines("judge", "--bare", "in", status=REFUSED)[0].startswith("in/notes.txt: code "))

    def test_duplicates(self):
        self.put("night/a.dcm", with_head(good_run()))
        self.put("night/b.dcm", with_head(good_run()))
        self.put("night/notes.txt", b"notes")
        done = self.luux("duplicates", "night")
        self.assertTrue(done.stdout.endswith(b"3 files: 2 equal in 1 group, 0 refused, 0 could not be read, 1 not ours\n"))
        self.assertIn(b"night/notes.txt: not ours: text", done.stderr)
        done = self.luux("duplicates", "night/notes.txt", "night", status=REFUSED)
        # A file that is found twice counts once.
        self.assertTrue(done.stdout.endswith(b"3 files: 2 equal in 1 group, 0 refused, 0 could not be read, 1 not ours, 1 skipped\n"))
        self.assertIn(b"night/notes.txt: skipped: the same file was found already", done.stderr)
        self.put("texts/notes.txt", b"notes")
        self.assertIn(b"nothing was compared: no runs were found", self.luux("duplicates", "texts", status=FAILED).stderr)

    def test_an_earlier_file_is_gone(self):
        """It is the one that could not be read; those that are equal to it are still found equal to each other."""
        for more in ((), ("--timeout", "60")):
            for name in ("0-gone", "2-b", "3-c"):
                self.put(f"night/{name}", with_head(good_run()))
            # Each of these holds luux up for a while, since somebody has it open for writing; all together for three seconds.
            for number in range(20):
                self.put(f"night/1-slow-{number:02d}", with_head(good_run()))
            slow = [open(self.path("night", f"1-slow-{number:02d}"), "ab") for number in range(20)]
            process = subprocess.Popen([TOOL, "duplicates", "night", *more], cwd=self.folder, stdout=subprocess.PIPE, stderr=subprocess.PIPE)
            time.sleep(1)
            os.remove(self.path("night", "0-gone"))
            out, told = process.communicate(timeout=60)
            for file in slow:
                file.close()
            self.assertEqual(process.returncode, FAILED)
            self.assertEqual(out.decode().splitlines()[1:], [
                "  night/2-b", "  night/3-c", "23 files: 2 equal in 1 group, 0 refused, 21 could not be read"])
            self.assertEqual(told.count(b"night/0-gone: cannot be read: no such file"), 1)
            self.assertNotIn(b"night/2-b: ", told)

    def test_code_18_from_every_command(self):
        """A good data set with a head of another class is refused by every command."""
        data = good_run(frames=2, rows=2, columns=2)
        self.put("run.dcm", with_head(data, CLASSES["XRF"] if CLASSES["XA"] in data else CLASSES["XA"]))
        self.put("run.xa", data)
        self.put("theirs", drawing.show(data, 1, LARGE, LARGE).image)
        self.put("folder/1", drawing.show(data, 1, LARGE, LARGE).image)
        for words in (("judge", "run.dcm"), ("rows", "run.dcm"), ("show", "run.dcm", "1", "-o", "x.png"), ("contact", "run.dcm", "-o", "x.png"),
                      ("sheet", "run.dcm"), ("linear", "run.dcm", "1", "-o", "x.png"), ("compare", "run.dcm", "1", "theirs"),
                      ("compare", "run.dcm", "folder"), ("canonical", "run.dcm", "-o", "x.png")):
            line = self.lines(*words, status=REFUSED)[0]
            self.assertTrue(line.startswith("run.dcm: code 18: "), line)
            self.assertFalse(os.path.exists(self.path("x.png")))
        for words in (("sheet", "run.dcm", "--json"), ("sheet", "run.dcm", "--numbers"), ("linear", "run.dcm", "1", "--csv"), ("duplicates", "run.dcm")):
            self.assertIn(b"run.dcm: code 18: ", self.luux(*words, status=REFUSED).stderr)
        self.luux("compare", "--bare", "run.xa", "1", "theirs")


class TestChoosing(Desk):
    def setUp(self):
        super().setUp()
        for name in ("a.dcm", "b.txt", "sub/c.dcm", "sub/d.DCM", "sub/deep/e.dcm", "old/f.dcm"):
            self.put(f"runs/{name}", good_run())

    def chosen(self, *words, **options):
        return [line.split(": ")[0] for line in self.lines("judge", *words, **options)[:-1]]

    def test_globs(self):
        for words, wanted in (
                (("--include", "*.dcm"), ["a.dcm", "old/f.dcm", "sub/c.dcm", "sub/deep/e.dcm"]),
                (("--include", "*.dcm", "--exclude", "[c-e].dcm"), ["a.dcm", "old/f.dcm"]),
                (("--include", "*.dcm", "--include", "b.*"), ["a.dcm", "b.txt", "old/f.dcm", "sub/c.dcm", "sub/deep/e.dcm"]),
                (("--exclude", "old"), ["a.dcm", "b.txt", "sub/c.dcm", "sub/d.DCM", "sub/deep/e.dcm"]),
                (("--exclude", "runs/sub/**"), ["a.dcm", "b.txt", "old/f.dcm"]),
                (("--include", "runs/*/*.{dcm,DCM}"), ["old/f.dcm", "sub/c.dcm", "sub/d.DCM"]),
                (("--include", "**/deep/*"), ["sub/deep/e.dcm"])):
            self.assertEqual(self.chosen("runs", *words), [f"runs/{name}" for name in wanted], words)
        self.assertEqual(self.chosen("runs/a.dcm", "runs/b.txt", "--exclude", "*.txt"), ["runs/a.dcm"])
        said = self.lines("judge", "runs", "--include", "*.dcm")
        self.assertEqual(said[-1], "4 files: 4 accepted, 0 refused, 0 could not be read, 2 left out by --include or --exclude")
        self.assertIn(b"nothing was judged", self.luux("judge", "runs", "--include", "none", status=FAILED).stderr)
        self.luux("judge", "runs", "--include", "[", status=FAILED)
        self.assertEqual(self.lines("duplicates", "runs", "--include", "[ac].dcm")[1:], [
            "  runs/a.dcm", "  runs/sub/c.dcm", "2 files: 2 equal in 1 group, 0 refused, 0 could not be read, 4 left out by --include or --exclude"])
        os.symlink("sub", self.path("runs", "again"))
        self.assertTrue(self.lines("duplicates", "runs")[-1].endswith(" 0 could not be read, 1 skipped"))
        self.assertEqual(self.lines("report", "runs", "--include", "[ac].dcm"), [
            "report.html: 2 files of 1 sender: 2 accepted, 0 refused, 0 could not be read, 1 skipped, 4 left out by --include or --exclude"])

    def test_names_that_are_no_text(self):
        self.put(b"more/\xff.dcm", good_run())
        self.put(b"more/\xff.txt", good_run())
        self.assertEqual(self.chosen("more", "--include", "?.dcm"), ["more/\\xFF.dcm"])


class TestMoving(Desk):
    bare = False

    def test_by_verdict(self):
        self.put("in/good.dcm", with_head(good_run()))
        self.put("in/sub/bad.dcm", with_head(item_left_out()))
        self.put("in/cut.dcm", with_head(good_run())[:200])
        self.put("in/notes.txt", b"notes")
        number = os.stat(self.path("in", "good.dcm")).st_ino
        words = ("judge", "in", "--move-accepted", "done", "--move-refused", "in/bad", "--slips", "slips")
        said = self.lines(*words, status=REFUSED)
        self.assertEqual(said[1], "in/good.dcm: accepted; moved to done/in/good.dcm")
        # A sentence is followed by a sentence.
        self.assertTrue(said[3].endswith(" says. Moved to in/bad/in/sub/bad.dcm."), said[3])
        self.assertEqual(os.stat(self.path("done", "in", "good.dcm")).st_ino, number)
        found = sorted(os.path.relpath(os.path.join(folder, name), self.folder) for folder, _, names in os.walk(self.folder) for name in names)
        self.assertEqual(found, ["done/in/good.dcm", "in/bad/in/cut.dcm", "in/bad/in/sub/bad.dcm", "in/notes.txt", "slips/in/good.dcm.slip",
                                 "slips/in/sub/bad.dcm.slip"])
        # What was moved into the folder is not judged again.
        done = self.luux(*words, status=FAILED)
        self.assertIn(b"in/bad: skipped: luux writes to this folder", done.stderr)

    def test_never_over_a_file(self):
        self.put("in/good.dcm", with_head(good_run()))
        self.put("done/in/good.dcm", b"another")
        said = self.lines("judge", "in", "--move-accepted", "done", status=FAILED)
        self.assertEqual(said, ["in/good.dcm: accepted; not moved to done/in/good.dcm: that file exists already",
                                "1 file: 1 accepted, 0 refused, 0 could not be read, 1 could not be moved"])
        found = json.loads(self.lines("judge", "in", "--move-accepted", "done", "--json", status=FAILED)[0])
        self.assertEqual((found["verdict"], found["move_error"]), ("accepted", "that file exists already"))
        with open(self.path("done", "in", "good.dcm"), "rb") as file:
            self.assertEqual(file.read(), b"another")
        self.assertTrue(os.path.exists(self.path("in", "good.dcm")))

    def test_links_and_other_file_systems(self):
        self.put("runs/good.dcm", with_head(good_run()))
        os.mkdir(self.path("in"))
        os.symlink("../runs/good.dcm", self.path("in", "link.dcm"))
        self.assertTrue(self.lines("judge", "in", "--move-accepted", "done", status=FAILED)[0].endswith("not moved to done/in/link.dcm: it is a link"))
        if os.path.isdir("/dev/shm") and os.stat("/dev/shm").st_dev != os.stat(self.folder).st_dev:
            place = f"/dev/shm/{os.path.basename(self.folder)}"
            said = self.lines("judge", "runs", "--move-accepted", place, status=FAILED)[0]
            self.assertTrue(said.endswith("it is on another file system, and luux only renames files"), said)
            os.removedirs(os.path.join(place, "runs"))
        self.assertTrue(os.path.exists(self.path("runs", "good.dcm")))


class TestNames(Desk):
    def test_bytes_that_are_no_text(self):
        self.put(b"\xff\xfe.xa", good_run())
        self.assertEqual(self.luux("judge", ".").stdout.splitlines()[0], b"./\\xFF\\xFE.xa: accepted")
        done = self.luux("judge", ".", "--json", "--slips", "slips")
        found = json.loads(done.stdout.decode("utf-8"))
        self.assertEqual(bytes.fromhex(found["path_hex"]), b"./\xff\xfe.xa")
        self.assertEqual(bytes.fromhex(found["slip_hex"]), b"slips/\xff\xfe.xa.slip")
        self.luux("show", b"\xff\xfe.xa", "1", "-o", b"\xfd.png")
        self.assertTrue(os.path.exists(os.fsencode(self.folder) + b"/\xfd.png"))

    def test_a_line_stays_a_line(self):
        name = 'a\n"b"\\\té\x1b.xa'
        self.put(name, good_run())
        said = self.luux("judge", name).stdout.decode().split("\n")
        self.assertEqual(said[0], 'a\\x0A"b"\\\\\\x09é\\x1B.xa: accepted')
        self.assertEqual(json.loads(self.lines("judge", name, "--json")[0])["path"], name)

    def test_dashes_and_spaces(self):
        self.put("-o x.xa", good_run())
        self.assertEqual(self.lines("judge", "--", "-o x.xa")[0], "-o x.xa: accepted")


HOSTILE = {
    "right-to-left-\u202egnp.dcm": "right-to-left-\\u{202E}gnp.dcm",
    "line\u2028and\u2029paragraph": "line\\u{2028}and\\u{2029}paragraph",
    "c1-\u009b31m": "c1-\\u{9B}31m",
    "escape-\x1b[31m": "escape-\\x1B[31m",
    "back\\slash\\x0A": "back\\\\slash\\\\x0A",
    "zero\u200bwidth\ufeff": "zero\\u{200B}width\\u{FEFF}",
    "tag\U000e0041": "tag\\u{E0041}",
    "delete\x7f": "delete\\x7F",
    "no-break\u00a0space": "no-break\\u{A0}space",
    "plain é 漢字 e\u0301 'quoted' \"twice\"": "plain é 漢字 e\u0301 'quoted' \"twice\"",
    "new\nline: accepted": "new\\x0Aline: accepted",
    b"raw\x9b\xff\xc3": "raw\\x9B\\xFF\\xC3",
}


class TestHostileNames(Desk):
    def test_lines(self):
        """Each name is printed as listed, on one line, and can be read back."""
        for name in HOSTILE:
            self.put(b"in/" + os.fsencode(name), good_run())
        said = self.luux("judge", "in", "--slips", "s").stdout.decode("utf-8")
        self.assertEqual(len(said.split("\n")), len(HOSTILE) + 2)
        self.assertEqual(sorted(said.split("\n")[:-2]), sorted(f"in/{shown}: accepted" for shown in HOSTILE.values()))
        self.assertTrue(all(letter.isprintable() or letter == "\n" for letter in said))
        self.assertEqual({back(shown) for shown in HOSTILE.values()}, {os.fsencode(name) for name in HOSTILE})
        told = self.luux("duplicates", "in").stdout.decode("utf-8")
        self.assertTrue(all(letter.isprintable() or letter == "\n" for letter in told))

    def test_json(self):
        for name in HOSTILE:
            self.put(b"in/" + os.fsencode(name), good_run())
        lines = self.luux("judge", "in", "--json").stdout.decode("utf-8").split("\n")[:-1]
        self.assertEqual(len(lines), len(HOSTILE))
        self.assertTrue(all(line.isprintable() for line in lines))
        found = [json.loads(line) for line in lines]
        names = {bytes.fromhex(one["path_hex"]) if "path_hex" in one else one["path"].encode() for one in found}
        self.assertEqual(names, {b"in/" + os.fsencode(name) for name in HOSTILE})

    def test_random_names(self):
        """No two names look the same: the bytes can be read back from what is printed."""
        rng = random.Random(7)
        letters = ["a", "\\", "x", "u", "{", "}", "0", "A", "\n", "\x85", "\u202e", "\u2028", "é", " "]
        names = {b"in/" + b"".join(rng.choice([rng.choice(letters).encode(), rng.randbytes(1).replace(b"/", b"_").replace(b"\0", b"_")])
                                   for _ in range(rng.randrange(1, 12))) for _ in range(400)} - {b"in/.", b"in/.."}
        for name in names:
            self.put(name, b"\0")
        shown = self.luux("judge", "in", status=REFUSED).stdout.decode("utf-8").split("\n")[:-2]
        self.assertEqual({back(line.rsplit(": code 1 at byte 0: ", 1)[0]) for line in shown}, names)
        self.assertEqual(len(shown), len(names))


def back(shown):
    """The bytes of a printed name."""
    made, at = b"", 0
    while at < len(shown):
        if shown[at] != "\\":
            made += shown[at].encode()
            at += 1
        elif shown[at + 1] == "\\":
            made += b"\\"
            at += 2
        elif shown[at + 1] == "x":
            made += bytes([int(shown[at + 2:at + 4], 16)])
            at += 4
        else:
            end = shown.index("}", at)
            made += chr(int(shown[at + 3:end], 16)).encode()
            at = end + 1
    return made
