"""`luux show` of one frame, and `luux contact`."""

import os
import random
import resource
import struct

from desk.common import FAILED, LARGE, OWN_MEMORY, REFUSED, SENTENCES, Desk, content_left_out, good_run, item_row, read_pgm, read_png
from generators import enhanced_xa as xa
from generators.objects import element_header, encode
from reference import attributes as tags
from reference import drawing
from reference.values import UNIT


class TestPictures(Desk):
    def test_frames_are_those_of_the_drawing_steps(self):
        """PNG and PGM of every frame, masked and native, against the independent program."""
        rng = random.Random(5)
        masked = set()
        for number in range(6):
            shape = xa.random_shape(rng, frames=3, rows=6, columns=9, masks=("NONE", "AVG_SUB", "TID")[number % 3:])
            data = xa.encode_at_random(rng, xa.build(rng, shape))
            self.put("run.xa", data)
            for frame in (1, 2, 3):
                wanted = drawing.show(data, frame, LARGE, LARGE)
                for name, reader in (("x.png", read_png), ("x.pgm", read_pgm)):
                    said = self.lines("show", "run.xa", str(frame), "-o", name)
                    kind = "masked" if wanted.answer.masked else "native"
                    self.assertEqual(said, [f"{name}: 9 x 6, frame {frame}, {kind}"])
                    self.assertEqual(reader(self.path(name)), (9, 6, wanted.image))
                masked.add(wanted.answer.masked)
        self.assertEqual(masked, {0, 1})

    def test_names(self):
        self.put("in/run.xa", good_run())
        self.luux("show", "in/run.xa", "2")
        self.luux("contact", "in/run.xa")
        self.assertEqual(sorted(os.listdir(self.folder)), ["in", "run.xa.contact.png", "run.xa.frame-2.png"])
        for words in (("show", "in/run.xa", "1", "-o", "x.jpg"), ("contact", "in/run.xa", "-o", "x")):
            self.assertIn(b"must end in .png or .pgm", self.luux(*words, status=FAILED).stderr)

    def test_no_such_frame(self):
        self.put("run.xa", good_run(frames=3))
        for frame in ("0", "4", "65536", "4294967297", "18446744073709551615"):
            said = self.lines("show", "run.xa", frame, "-o", "x.png", status=REFUSED)
            self.assertEqual(said, ["run.xa: code 10: no such frame; the run has frames 1 to 3"])
        for frame in ("one", "-1", "1.5", "", "18446744073709551616"):
            self.assertIn(b"error:", self.luux("show", "run.xa", frame, "-o", "x.png", status=FAILED).stderr)
        self.assertFalse(os.path.exists(self.path("x.png")))

    def test_refused_and_missing(self):
        data = content_left_out(5)
        self.put("run.xa", data)
        for words in (("show", "run.xa", "1"), ("contact", "run.xa")):
            self.assertEqual(self.lines(*words, status=REFUSED),
                             [f"run.xa: rule 28, frame 5, item 5 of (5200,9230), row {item_row(data, 5)}: {SENTENCES[28]}"])
        for words in (("show", "gone.xa", "1"), ("contact", "gone.xa")):
            self.assertIn(b"luux: gone.xa: cannot be read: no such", self.luux(*words, status=FAILED).stderr)
        self.assertEqual(os.listdir(self.folder), ["run.xa"])

    def test_cannot_be_written(self):
        self.put("run.xa", good_run())
        os.mkdir(self.path("folder.png"))
        for name in ("none/x.png", "folder.png", "run.xa/x.png"):
            for words in (("show", "run.xa", "1"), ("contact", "run.xa")):
                done = self.luux(*words, "-o", name, status=FAILED)
                self.assertIn(f"luux: {name}: cannot be written: ".encode(), done.stderr)
        self.assertEqual(sorted(os.listdir(self.folder)), ["folder.png", "run.xa"])

    def test_the_run_is_not_overwritten(self):
        self.put("run.png", good_run())
        self.check_kept("run.png", "show", "run.png", "1")
        self.check_kept("run.png", "contact", "run.png")

    def test_contact_sheet(self):
        """Size, chosen frames, and cells: each is one of the drawn frame, every second or third where that is large."""
        for frames, rows, columns, chosen in (
                (1, 5, 7, [1]), (5, 300, 400, [1, 2, 3, 4, 5]), (24, 4, 4, list(range(1, 25))),
                (100, 2, 3, [1 + k * 99 // 23 for k in range(24)])):
            data = good_run(frames=frames, rows=rows, columns=columns, masks=("NONE",), voi="absent")
            self.put("run.xa", data)
            said = self.lines("contact", "run.xa", "-o", "sheet.png")[0]
            step = max(1, -(-max(rows, columns) // 192))
            high, wide = -(-rows // step), -(-columns // step)
            across, down = min(len(chosen), 6), -(-len(chosen) // 6)
            width, height = across * (max(wide, 40) + 4) + 4, down * (high + 18) + 4
            self.assertEqual(said, f"sheet.png: {width} x {height}, {len(chosen)} of {frames} frames: "
                             + " ".join(map(str, chosen)))
            got_width, got_height, cells = read_png(self.path("sheet.png"))
            self.assertEqual((got_width, got_height), (width, height))
            self.assertEqual((chosen[0], chosen[-1]), (1, frames))
            for place, frame in list(enumerate(chosen))[:: max(1, len(chosen) - 1)]:
                self.luux("show", "run.xa", str(frame), "-o", "x.pgm")
                drawn = read_pgm(self.path("x.pgm"))[2]
                left, top = 4 + place % 6 * (max(wide, 40) + 4), 4 + place // 6 * (high + 18)
                for row in range(high):
                    start = (top + row) * width + left
                    line = drawn[row * step * columns:(row * step + 1) * columns:step]
                    self.assertEqual(cells[start:start + wide], line, (frames, frame, row))

    def test_a_run_of_300_megabytes(self):
        """With --map, judged and drawn without being taken into memory: the last of 600 frames, less the first, in every cell."""
        frames, side = 600, 512
        model = xa.build(random.Random(9), xa.Shape(frames=frames, voi="absent", extras=False))
        model[tags.ROWS] = model[tags.COLUMNS] = xa.us(side)
        model[tags.MASK_SUBTRACTION_SEQUENCE] = xa.sq({tags.MASK_OPERATION: xa.text("CS", "AVG_SUB"), tags.MASK_FRAME_NUMBERS: xa.us(1)})
        del model[tags.PIXEL_DATA]
        front = encode(model)
        with open(self.path("run.xa"), "wb") as file:
            file.write(front + element_header(tags.PIXEL_DATA, "OW", frames * side * side * 2))
            for frame in range(1, frames + 1):
                file.write(struct.pack("<H", 1000 + frame) * (side * side))
        self.assertGreater(os.path.getsize(self.path("run.xa")), 300_000_000)
        for words in (("judge", "run.xa"), ("show", "run.xa", "600", "-o", "x.pgm"), ("contact", "run.xa")):
            self.luux(*words, "--map", preexec_fn=lambda: resource.setrlimit(resource.RLIMIT_DATA, (OWN_MEMORY, OWN_MEMORY)))
        x = 1600 - 1001 + 2048
        grey = drawing.linear(x, 2048 * UNIT, 4096 * UNIT)
        grey = grey if b"MONOCHROME2" in front else 255 - grey
        self.assertEqual(read_pgm(self.path("x.pgm")), (side, side, bytes([grey]) * (side * side)))
        with open(self.path("run.xa"), "r+b") as file:
            file.truncate(len(front) + 12 + 200_000_001)
        said = self.lines("judge", "run.xa", status=REFUSED)[0]
        self.assertTrue(said.startswith(f"run.xa: code 1 at byte {len(front)}: "), said)
