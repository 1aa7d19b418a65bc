"""`luux sheet`: the sampling sheet of a run."""

import json
import os
import random

from desk.common import FAILED, LARGE, REFUSED, Desk, good_run, read_png
from generators import enhanced_xa as xa
from reference import sheet


class TestSheet(Desk):
    def test_numbers_are_those_of_the_pictures(self):
        """All frames, some, and one, as numbers, as JSON and in words, against the independent program."""
        rng = random.Random(12)
        for _ in range(3):
            data = xa.encode_at_random(rng, xa.build(rng, xa.random_shape(rng, frames=5, rows=4, columns=7)))
            self.put("run.xa", data)
            for words, first, last in (((), 1, 5), (("2-4",), 2, 4), (("3",), 3, 3)):
                numbers = sheet.sheet(data, first, last, LARGE).sheet
                self.assertEqual(self.lines("sheet", "run.xa", *words, "--numbers"), [str(number) for number in numbers])
                said = json.loads(self.lines("sheet", "run.xa", *words, "--json")[0])
                self.assertEqual(said, {"path": "run.xa", "first": first, "last": last, "native": numbers[256], "lowest": numbers[257],
                                        "highest": numbers[258], "sum": numbers[259], "counts": list(numbers[:256])})
                frames = f"frame {first}" if first == last else f"frames {first} to {last}"
                cells = 28 * (last - first + 1)
                lines = self.lines("sheet", "run.xa", *words)
                self.assertEqual(lines[0], f"run.xa: {frames}, {numbers[256]} native, {cells} cells, levels {numbers[257]} to {numbers[258]}, "
                                           f"mean {numbers[259] / cells:.2f}, sum {numbers[259]}")
                self.assertEqual((len(lines), lines[9], lines[10].split()), (11, "  " + "\u2500" * 64, ["0", "128", "255"]))
                drawn = {place // 4 for place in range(256) if numbers[place]}
                self.assertEqual({place - 2 for place, dot in enumerate(lines[8]) if dot != " "}, drawn)

    def test_plot(self):
        """The picture: a column for each level that was drawn, the highest as high as the plot."""
        data = good_run(frames=2, rows=6, columns=9)
        self.put("run.xa", data)
        numbers = sheet.sheet(data, 1, 2, LARGE).sheet
        self.assertEqual(self.lines("sheet", "run.xa", "-o", "x.png")[-1], "x.png: 792 x 360, plot")
        width, height, cells = read_png(self.path("x.png"))
        for level in range(256):
            column = [cells[(12 + y) * width + 12 + 3 * level] for y in range(320)]
            tall = max(int(numbers[level] / max(numbers[:256]) * 320), numbers[level] > 0)
            self.assertEqual(column.count(40), tall, level)
            self.assertTrue(all(cell == 40 for cell in column[320 - tall:]), level)
        self.assertIn(b"must end in .png or .pgm", self.luux("sheet", "run.xa", "-o", "x.csv", status=FAILED).stderr)

    def test_the_run_is_not_overwritten(self):
        self.put("run.png", good_run())
        for words in ((), ("--json",)):
            self.check_kept("run.png", "sheet", "run.png", *words)

    def test_refused(self):
        self.put("plain.xa", good_run(frames=3))
        for frames, line in (("0-2", "code 10: no such frame; the run has frames 1 to 3"),
                             ("2-4", "code 10: no such frame; the run has frames 1 to 3")):
            self.assertEqual(self.lines("sheet", "plain.xa", frames, status=REFUSED), [f"plain.xa: {line}"])
            for form in ("--json", "--numbers"):
                done = self.luux("sheet", "plain.xa", frames, form, status=REFUSED)
                self.assertEqual((done.stdout, done.stderr), (b"", f"luux: plain.xa: {line}\n".encode()))
        self.luux("sheet", "plain.xa", "one", status=FAILED)
        self.assertEqual(os.listdir(self.folder), ["plain.xa"])
