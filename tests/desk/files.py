"""DICOM files with their heads."""

import json
import os
import random
import struct

from desk.common import CLASSES, LARGE, REFUSED, Desk, expected_line, good_run, mixed_runs, read_pgm, with_head
from generators import enhanced_xa as xa
from generators import outside
from generators.objects import element, encode
from reference import canonical, files, slips


class TestFiles(Desk):
    bare = False

    def test_verdicts(self):
        """Lines, JSON and slips of files of all sorts, as the independent program gives them. 15 to 18 get no slip."""
        rng = random.Random(11)
        runs = [with_head(data, rng.choice(list(CLASSES.values()))) for data in mixed_runs(400)]
        for number in range(0, len(runs), 7):
            spoilt = bytearray(runs[number])
            spoilt[rng.choice((rng.randrange(128, len(with_head(b""))), rng.randrange(128, min(230, len(spoilt)))))] ^= 1 << rng.randrange(8)
            runs[number] = bytes(spoilt)
        runs += [b"", good_run(), with_head(b""), with_head(good_run(), syntax=b"1.2.840.10008.1.2"), with_head(good_run())]
        answers = [files.judge_file(content, LARGE).answer for content in runs]
        self.assertLessEqual({0, 1, 9, 15, 16, 17, 18}, {answer.code for answer in answers})
        for number, content in enumerate(runs):
            self.put(f"runs/{number:03d}.dcm", content)
        said = self.lines("judge", "runs", "--slips", "slips", status=REFUSED)
        accepted = sum(answer.code == 0 for answer in answers)
        objects = [json.loads(line) for line in self.lines("judge", "runs", "--json", status=REFUSED)]
        others = [one["path"] for one in objects if one["verdict"] == "not ours"]
        self.assertEqual(others, [f"runs/{len(runs) - 5:03d}.dcm"])
        self.assertEqual(said[-1], f"{len(runs)} files: {accepted} accepted, {len(runs) - accepted - 1} refused, 0 could not be read, 1 not ours")
        for number, (line, one, content, answer) in enumerate(zip(said, objects, runs, answers)):
            if one["path"] in others:
                self.assertEqual((line, one["code"]), (f"{one['path']}: not ours: an empty file", answer.code))
                continue
            code, start = files.data_set(content)
            wanted = f"runs/{number:03d}.dcm: {expected_line(answer, content[start:], start)}"
            self.assertTrue(line == wanted or answer.code not in (0, 9) and line.startswith(wanted), (line, wanted))
            self.check_json(one, answer)
            self.assertEqual(one["start"], start)
            slip = self.path("slips", "runs", f"{number:03d}.dcm.slip")
            self.assertEqual(os.path.exists(slip), answer.code < 15, (line, number))
            if answer.code < 15:
                with open(slip, "rb") as file:
                    self.assertEqual(file.read(), slips.slip_bytes(answer.code, answer.rule, answer.frame, answer.offset, answer.rows))

    def test_never_taken_for_bare(self):
        """What a file is, is said and not guessed: bytes that are both get two answers, and each only where it is asked for."""
        like = element(0x00080001, "LO", b"x" * 120 + with_head(b"")[128:] + good_run()[:200]) + good_run()
        like = like[:6] + struct.pack("<H", len(like) - len(good_run()) - 8) + like[8:]
        self.assertEqual(like[128:134], b"DICM\2\0")
        self.put("like", like)
        self.assertEqual(self.lines("judge", "--bare", "like")[0], "like: accepted")
        answer = files.judge_file(like, LARGE).answer
        self.assertNotEqual(answer.code, 0)
        said = self.lines("judge", "like", status=REFUSED)[0]
        self.assertTrue(said.startswith("like: " + expected_line(answer, b"", files.data_set(like)[1])), said)
        self.put("file.dcm", with_head(good_run()))
        self.assertEqual(self.lines("judge", "file.dcm")[0], "file.dcm: accepted")
        self.assertTrue(self.lines("judge", "--bare", "file.dcm", status=REFUSED)[0].startswith("file.dcm: code 3 at byte 0: "))
        self.put("bare.xa", good_run())
        for words in (("judge", "bare.xa"), ("rows", "bare.xa"), ("show", "bare.xa", "1"), ("contact", "bare.xa"),
                      ("linear", "bare.xa", "1"), ("canonical", "bare.xa", "-o", "out")):
            said = self.lines(*words, status=REFUSED)[0]
            self.assertTrue(said.startswith("bare.xa: code 15: ") and said.endswith("--bare"), said)

    def test_other_transfer_syntaxes(self):
        for uid, name in ((b"1.2.840.10008.1.2", "Implicit VR Little Endian"), (b"1.2.840.10008.1.2.2", "Explicit VR Big Endian"),
                          (b"1.2.840.10008.1.2.4.50", "JPEG Baseline"), (b"1.2.840.10008.1.2.5", "RLE Lossless"),
                          (b"1.2.840.10008.1.2.4.90", "JPEG 2000 Lossless"), (b"1.2.3", "")):
            self.put("other.dcm", with_head(good_run(), syntax=uid))
            for words in (("judge", "other.dcm"), ("rows", "other.dcm"), ("show", "other.dcm", "1"), ("contact", "other.dcm")):
                said = self.lines(*words, status=REFUSED)[0]
                self.assertTrue(said.startswith("other.dcm: code 17: "), said)
                self.assertIn(f"{name} ({uid.decode()})" if name else "it is 1.2.3;", said)
                self.assertIn("ask the sender for Explicit VR Little Endian", said)
            one, = map(json.loads, self.lines("judge", "other.dcm", "--json", status=REFUSED))
            self.assertEqual((one["code"], one["start"]), (17, 0))
            self.assertIn(uid.decode(), one["hint"])

    def test_rows_and_pictures(self):
        data = good_run(frames=3)
        self.put("run.dcm", with_head(data))
        self.put("run.xa", data)
        self.assertEqual(self.lines("rows", "run.dcm"), self.lines("rows", "--bare", "run.xa"))
        for frame in (1, 3):
            self.luux("show", "run.dcm", str(frame), "-o", "x.pgm")
            self.luux("show", "--bare", "run.xa", str(frame), "-o", "y.pgm")
            self.assertEqual(read_pgm(self.path("x.pgm")), read_pgm(self.path("y.pgm")))
        self.luux("contact", "run.dcm", "-o", "x.pgm")
        self.luux("contact", "--bare", "run.xa", "-o", "y.pgm")
        self.assertEqual(read_pgm(self.path("x.pgm")), read_pgm(self.path("y.pgm")))

    def test_canonical(self):
        """A file keeps its head, byte for byte; equal data sets are found though their heads differ."""
        rng = random.Random(13)
        model = xa.build(rng, xa.random_shape(rng, frames=2))
        defined, undefined = encode(model), xa.encode_at_random(rng, model)
        form = canonical.write_canonical(undefined, LARGE, LARGE).target
        sop_class = CLASSES["XRF"] if CLASSES["XRF"] in undefined else CLASSES["XA"]
        self.put("in.dcm", with_head(undefined, sop_class))
        self.luux("canonical", "in.dcm", "-o", "out.dcm")
        with open(self.path("out.dcm"), "rb") as file:
            written = file.read()
        self.assertEqual(written, with_head(b"", sop_class) + form)
        self.assertEqual(files.judge_file(written, LARGE).answer._replace(offset=0), files.judge_file(with_head(undefined, sop_class), LARGE).answer._replace(offset=0))
        other = with_head(defined, sop_class)
        self.put("other.dcm", b"another" + other[7:])
        said = self.lines("duplicates", "in.dcm", "other.dcm")
        self.assertEqual(said[1:3], ["  in.dcm", "  other.dcm"])
        self.put("differ.dcm", with_head(undefined, b"1.2.3"))
        self.assertTrue(self.lines("canonical", "differ.dcm", "-o", "no", status=REFUSED)[0].startswith("differ.dcm: code 18: "))

    def test_files_written_by_others(self):
        """A file as dcmtk or pydicom writes it is judged and drawn with no preparation."""
        rng = random.Random(12)
        writers = set()
        for _ in range(3):
            data = xa.encode_at_random(rng, xa.build(rng, xa.random_shape(rng, frames=2)))
            for writer, content in outside.written_files(self.folder, data):
                self.put("written.dcm", content)
                self.assertEqual(self.lines("judge", "written.dcm")[0], "written.dcm: accepted", writer)
                for frame in (1, 2):
                    wanted = files.show_file(content, frame, LARGE, LARGE)
                    self.luux("show", "written.dcm", str(frame), "-o", "x.pgm")
                    self.assertEqual(read_pgm(self.path("x.pgm"))[2], wanted.image, writer)
                writers.add(writer)
        if not writers:
            self.skipTest("neither dcmtk nor pydicom is installed")
