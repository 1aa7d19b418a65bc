"""`luux compare`: another workstation's pictures against ours."""

from desk.common import FAILED, LARGE, REFUSED, Desk, good_run, read_png
from reference import drawing


class TestCompare(Desk):
    def setUp(self):
        super().setUp()
        self.data = good_run(frames=3, rows=4, columns=7)
        self.put("run.xa", self.data)
        self.ours = {frame: drawing.show(self.data, frame, LARGE, 28).image for frame in (1, 2, 3)}

    def moved(self, frame, places, by):
        """Our picture with some cells `by` away."""
        return bytes(level if place not in places else level + by if level + by <= 255 else level - by for place, level in enumerate(self.ours[frame]))

    def test_forms(self):
        """Our own pictures, as luux show writes them and as plain cells, pass at 0."""
        for name in ("ours.png", "ours.pgm"):
            self.lines("show", "run.xa", "2", "-o", name)
            self.assertEqual(self.lines("compare", "run.xa", "2", name), [f"{name}: frame 2: yes, every cell is within 0 of ours"])
        self.put("ours.raw", self.ours[2])
        self.assertEqual(self.lines("compare", "run.xa", "2", "ours.raw", "--tolerance", "255"),
                         ["ours.raw: frame 2: yes, every cell is within 255 of ours"])
        self.put("head.pgm", b"P5 7 4 255\n" + self.ours[2])
        self.lines("compare", "run.xa", "2", "head.pgm")

    def test_differences(self):
        theirs = self.moved(3, {9, 10, 27}, 3)
        self.put("theirs", theirs)
        self.assertEqual(self.lines("compare", "run.xa", "3", "theirs", "--tolerance", "3"), ["theirs: frame 3: yes, every cell is within 3 of ours"])
        said = f"theirs: frame 3: no, 3 of 28 cells are more than 2 away; the first, at row 1, column 2 from 0, is {theirs[9]}, ours is {self.ours[3][9]}"
        self.assertEqual(self.lines("compare", "run.xa", "3", "theirs", "--tolerance", "2", status=REFUSED), [said])
        lines = self.lines("compare", "run.xa", "3", "theirs", "--tolerance", "2", "-o", "x.png", status=REFUSED)
        self.assertEqual(lines, [said, "x.png: 7 x 4, frame 3, white where it differs"])
        width, height, cells = read_png(self.path("x.png"))
        self.assertEqual((width, height), (7, 4))
        self.assertEqual(list(cells), [255 if place in (9, 10, 27) else level // 3 for place, level in enumerate(self.ours[3])])

    def test_folder(self):
        for frame in (1, 2, 3):
            self.put(f"theirs/frame-00{frame}.raw", self.moved(frame, {0} if frame == 2 else set(), 5))
        self.put("theirs/readme", b"no picture")
        done = self.luux("compare", "run.xa", "theirs", status=REFUSED)
        lines = done.stdout.decode().splitlines()
        self.assertEqual([line.split(": ")[:2] for line in lines[:3]], [[f"theirs/frame-00{frame}.raw", f"frame {frame}"] for frame in (1, 2, 3)])
        self.assertEqual([line.split()[3].rstrip(",") for line in lines[:3]], ["yes", "no", "yes"])
        self.assertEqual(lines[3], "3 pictures, 2 yes; the run has 3 frames")
        self.assertIn(b"its name has no frame number", done.stderr)
        self.assertEqual(self.lines("compare", "run.xa", "theirs", "--tolerance", "5")[-1], "3 pictures, 3 yes; the run has 3 frames")

    def test_the_inputs_are_not_overwritten(self):
        """Neither the run nor the other workstation's picture."""
        self.put("run.png", self.data)
        self.put("theirs.pgm", b"P5\n7 4\n255\n" + self.ours[1])
        self.check_kept("run.png", "compare", "run.png", "1", "theirs.pgm")
        self.check_kept("theirs.pgm", "compare", "run.png", "1", "theirs.pgm")

    def test_refused(self):
        self.put("short", self.ours[1][:-1])
        self.put("ours", self.ours[1])
        self.put("turned.pgm", b"P5\n4 7\n255\n" + self.ours[1])
        self.put("deep.pgm", b"P5\n7 4\n65535\n" + self.ours[1] * 2)
        for words, line in ((("1", "short"), "short: code 22: the number of cells is not Rows x Columns"),
                            (("1", "ours", "--tolerance", "256"), "ours: code 23: a tolerance over 255"),
                            (("1", "ours", "--tolerance", "18446744073709551615"), "ours: code 23: a tolerance over 255"),
                            (("4", "ours"), "ours: code 10: no such frame; the run has frames 1 to 3"),
                            (("1", "turned.pgm"), "turned.pgm: it is 4 x 7, but a frame of the run is 7 x 4")):
            self.assertEqual(self.lines("compare", "run.xa", *words, status=REFUSED), [line])
        self.assertIn(b"not a PGM", self.luux("compare", "run.xa", "1", "deep.pgm", status=FAILED).stderr)
        self.luux("compare", "run.xa", "1", "missing", status=FAILED)
        self.luux("compare", "run.xa", "one", "ours", status=FAILED)
        self.luux("compare", "run.xa", "1", "ours", "--tolerance", "-1", status=FAILED)
        self.luux("compare", "run.xa", "missing", status=FAILED)
