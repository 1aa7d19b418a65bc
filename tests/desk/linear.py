"""`luux linear`: a frame mapped back to beam intensity."""

import os
import random
import struct

from desk.common import FAILED, LARGE, REFUSED, SENTENCES, Desk, content_left_out, good_run, item_row, read_pgm, read_png
from generators import enhanced_xa as xa
from generators.objects import encode
from reference import attributes as tags
from reference import intensity


class TestLinear(Desk):
    def run_with_tables(self, rng, frames=3):
        """A run of which at least one frame has a table."""
        shape = xa.random_shape(rng, frames=frames, rows=4, columns=7, luts=rng.choice(("shared", "frames")), properties="shared")
        model = xa.build(rng, shape)
        for item in (model[tags.SHARED_FUNCTIONAL_GROUPS_SEQUENCE][1] if shape.luts == "shared"
                     else model[tags.PER_FRAME_FUNCTIONAL_GROUPS_SEQUENCE][1]):
            item[tags.PIXEL_INTENSITY_RELATIONSHIP_LUT_SEQUENCE] = xa.sq(*xa.lut_items(rng, True))
        return xa.encode_at_random(rng, model)

    def test_numbers_are_those_of_the_mapping(self):
        """PNG, PGM and text of every frame, against the independent program."""
        rng = random.Random(8)
        for _ in range(4):
            data = self.run_with_tables(rng)
            self.put("run.xa", data)
            for frame in (1, 2, 3):
                wanted = intensity.linear(data, frame, LARGE, LARGE)
                self.assertEqual(wanted.answer.code, 0)
                cells = struct.pack(">28H", *wanted.values)
                for name, reader in (("x.png", read_png), ("x.pgm", read_pgm)):
                    said = self.lines("linear", "run.xa", str(frame), "-o", name)
                    self.assertEqual(said, [f"{name}: 7 x 4, frame {frame}, linear"])
                    self.assertEqual(reader(self.path(name), 2), (7, 4, cells))
                lines = self.lines("linear", "run.xa", str(frame), "--csv")
                self.assertEqual([[int(number) for number in line.split(",")] for line in lines],
                                 [list(wanted.values[7 * row:7 * row + 7]) for row in range(4)])

    def test_names(self):
        self.put("in/run.xa", self.run_with_tables(random.Random(9)))
        self.luux("linear", "in/run.xa", "2")
        self.assertEqual(sorted(os.listdir(self.folder)), ["in", "run.xa.linear-2.png"])
        self.assertIn(b"must end in .png or .pgm", self.luux("linear", "in/run.xa", "1", "-o", "x.csv", status=FAILED).stderr)
        self.assertIn(b"--csv", self.luux("linear", "in/run.xa", "1", "-o", "x.png", "--csv", status=FAILED).stderr)

    def test_refused(self):
        """No table, no such frame, a broken rule: a line, and no file. With --csv nothing but numbers goes to standard output."""
        self.put("plain.xa", good_run(frames=3))
        self.put("broken.xa", content_left_out(5))
        row = item_row(content_left_out(5), 5)
        for file, frame, line in (("plain.xa", "2", "code 20: the frame has no TO_LINEAR item"),
                                  ("plain.xa", "4", "code 10: no such frame; the run has frames 1 to 3"),
                                  ("broken.xa", "1", f"rule 28, frame 5, item 5 of (5200,9230), row {row}: {SENTENCES[28]}")):
            self.assertEqual(self.lines("linear", file, frame, "-o", "x.png", status=REFUSED), [f"{file}: {line}"])
            done = self.luux("linear", file, frame, "--csv", status=REFUSED)
            self.assertEqual((done.stdout, done.stderr.decode().rstrip().split(" Found: ")[0]), (b"", f"luux: {file}: {line}"))
        self.assertIn(b"luux: gone.xa: cannot be read", self.luux("linear", "gone.xa", "1", status=FAILED).stderr)
        self.assertEqual(sorted(os.listdir(self.folder)), ["broken.xa", "plain.xa"])

    def test_the_run_is_not_overwritten(self):
        self.put("run.png", self.run_with_tables(random.Random(10)))
        self.check_kept("run.png", "linear", "run.png", "1")

    def test_rule_39_is_told(self):
        """A run whose frame 2 says LOG and has no table."""
        model = xa.build(random.Random(11), xa.Shape(frames=3, extras=False))
        model[tags.PER_FRAME_FUNCTIONAL_GROUPS_SEQUENCE][1][1][tags.FRAME_PIXEL_DATA_PROPERTIES_SEQUENCE] = xa.sq({tags.PIXEL_INTENSITY_RELATIONSHIP: xa.text("CS", "LOG")})
        self.put("run.xa", encode(model))
        self.assertEqual(self.lines("judge", "run.xa", status=REFUSED)[0],
                         f"run.xa: rule 39, frame 2, item 2 of (5200,9230), row {item_row(encode(model), 2)}: {SENTENCES[39]}")
