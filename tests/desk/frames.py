"""`luux show` of several frames, to folders and standard output; `luux movie`; --both; and what commands about one run print and write."""

import json
import os
import random
import struct
import zlib

from desk.common import FAILED, IS_INPUT, LARGE, REFUSED, Desk, content_left_out, good_run, read_pgm, read_png, unfilter
from generators import enhanced_xa as xa
from generators.objects import encode
from reference import attributes as tags
from reference import drawing, sheet


def split_pngs(content):
    """Concatenated PNG files."""
    parts = content.split(b"\x89PNG\r\n\x1a\n")
    return [b"\x89PNG\r\n\x1a\n" + part for part in parts[1:]]


def animation(path):
    """Width, height, frames per second, and the cells of each frame of an animated 8-bit grey PNG."""
    with open(path, "rb") as file:
        content = file.read()
    at, frames, count, delays = 8, [], None, []
    while at < len(content):
        length, kind = struct.unpack_from(">I4s", content, at)
        chunk = content[at + 8:at + 8 + length]
        assert struct.unpack_from(">I", content, at + 8 + length)[0] == zlib.crc32(kind + chunk), "a wrong checksum"
        if kind == b"IHDR":
            width, height = struct.unpack_from(">II", chunk)
        elif kind == b"acTL":
            count, plays = struct.unpack(">II", chunk)
            assert plays == 0, "it ends"
        elif kind == b"fcTL":
            delays.append(struct.unpack_from(">HH", chunk, 20))
            frames.append(b"")
        elif kind == b"IDAT":
            frames[-1] += chunk
        elif kind == b"fdAT":
            frames[-1] += chunk[4:]
        at += 12 + length
    assert count == len(frames) and len(set(delays)) == 1, (count, len(frames), set(delays))
    return width, height, delays[0][1] / delays[0][0], [unpacked(width, height, frame) for frame in frames]


def unpacked(width, height, packed):
    raw = zlib.decompress(packed)
    before, cells = bytes(width), []
    for row in range(height):
        line = bytearray(raw[row * (width + 1) + 1:(row + 1) * (width + 1)])
        unfilter(raw[row * (width + 1)], line, before, 1)
        cells.append(bytes(line))
        before = line
    return b"".join(cells)


def without_masks(model):
    """The same run with no mask item."""
    return encode({tag: value for tag, value in model.items() if tag != tags.MASK_SUBTRACTION_SEQUENCE})


def beside(width, left, right):
    return b"".join(left[at:at + width] + right[at:at + width] for at in range(0, len(left), width))


class TestFrames(Desk):
    def setUp(self):
        super().setUp()
        self.model = xa.build(random.Random(41), xa.Shape(frames=12, rows=6, columns=9, masks=("AVG_SUB", "TID"), extras=False, voi="frames"))
        self.data = encode(self.model)
        self.put("run.xa", self.data)

    def drawn(self, frame, data=None):
        shown = drawing.show(data or self.data, frame, LARGE, LARGE)
        return shown.image, "masked" if shown.answer.masked else "native"

    def test_folder(self):
        for words, frames, folder in ((("2-4", "-o", "some"), range(2, 5), "some"), (("all", "-o", "a/b/"), range(1, 13), "a/b"),
                                      (("7", "-o", "some"), (7,), "some"), (("3-3", "-o", "one"), (3,), "one")):
            lines = self.lines("show", "run.xa", *words)
            digits = 1 if words[0] == "7" else 2
            names = [f"{folder}/run.xa.frame-{frame:0{digits}d}.png" for frame in frames]
            self.assertEqual(lines, [f"{name}: 9 x 6, frame {frame}, {self.drawn(frame)[1]}" for name, frame in zip(names, frames)])
            for name, frame in zip(names, frames):
                self.assertEqual(read_png(self.path(name)), (9, 6, self.drawn(frame)[0]))
        self.luux("show", "run.xa", "1-2")
        self.assertTrue(os.path.exists(self.path("run.xa.frame-02.png")))
        self.luux("show", "run.xa", "1-2", "-o", "pgm", "--as", "pgm")
        self.assertEqual(read_pgm(self.path("pgm", "run.xa.frame-01.pgm")), (9, 6, self.drawn(1)[0]))

    def test_standard_output(self):
        done = self.luux("show", "run.xa", "5", "-o", "-")
        self.put("x.png", done.stdout)
        self.assertEqual(read_png(self.path("x.png")), (9, 6, self.drawn(5)[0]))
        self.assertEqual(done.stderr.decode(), f"luux: run.xa: frame 5, {self.drawn(5)[1]}\n")
        pictures = split_pngs(self.luux("show", "run.xa", "all", "-o", "-").stdout)
        self.assertEqual(len(pictures), 12)
        for frame, content in enumerate(pictures, 1):
            self.put("x.png", content)
            self.assertEqual(read_png(self.path("x.png"))[2], self.drawn(frame)[0])
        done = self.luux("show", "run.xa", "2-3", "-o", "-", "--as", "pgm")
        self.assertEqual(done.stdout, b"".join(b"P5\n9 6\n255\n" + self.drawn(frame)[0] for frame in (2, 3)))

    def test_refused(self):
        """Nothing is written if a frame is not in the run, no folder and no picture; with `-` the refusal goes to standard error."""
        for frames, out in (("0-3", "out"), ("5-13", "out"), ("13", "x.png"), ("13", "new/"), ("0", "-"), ("13", "-"), ("0-3", "-"), ("10-13", "-")):
            done = self.luux("show", "run.xa", frames, "-o", out, status=REFUSED)
            said = "run.xa: code 10: no such frame; the run has frames 1 to 12\n"
            self.assertEqual((done.stdout.decode(), done.stderr.decode()), ("", f"luux: {said}") if out == "-" else (said, ""))
        for words in (("4-2",), ("1-",), ("some",), ("1-2", "-o", "x.png"), ("1", "-o", "x.jpg"), ("1", "--as", "jpg"),
                      ("1", "--as", "pgm", "-o", "x.png"), ("1", "--as", "png", "-o", "x.png")):
            self.assertIn(b"error:", self.luux("show", "run.xa", *words, status=FAILED).stderr)
        self.put("bad.xa", content_left_out(5))
        done = self.luux("show", "bad.xa", "all", "-o", "-", status=REFUSED)
        self.assertEqual(done.stdout, b"")
        self.assertIn(b"rule 28, frame 5", done.stderr)
        self.assertEqual(sorted(os.listdir(self.folder)), ["bad.xa", "run.xa"])

    def test_both(self):
        """The right half is the frame of the same run without its mask items, as the independent program draws it."""
        plain = without_masks(self.model)
        masked = set()
        for frame in (1, 2, 7, 12):
            line, = self.lines("show", "run.xa", str(frame), "--both", "-o", "x.png")
            image, word = self.drawn(frame)
            native, kind = self.drawn(frame, plain)
            self.assertEqual((line, kind), (f"x.png: 18 x 6, frame {frame}, {word} beside native", "native"))
            self.assertEqual(read_png(self.path("x.png")), (18, 6, beside(9, image, native)))
            masked.add(image != native)
        self.assertIn(True, masked)
        with open(self.path("run.xa"), "rb") as file:
            self.assertEqual(file.read(), self.data)

    def test_both_for_every_operation(self):
        """No mask is left, however the operation is padded and wherever its item is."""
        rng = random.Random(42)
        for _ in range(25):
            model = xa.build(rng, xa.random_shape(rng, masks=tuple(rng.choice(("NONE", "AVG_SUB", "TID")) for _ in range(3)), frames=3))
            data = xa.encode_at_random(rng, model)
            width, height = struct.unpack("<HH", model[tags.COLUMNS][1] + model[tags.ROWS][1])
            self.put("some.xa", data)
            self.luux("show", "some.xa", "2", "--both", "-o", "x.pgm")
            native = self.drawn(2, without_masks(model))[0]
            self.assertEqual(read_pgm(self.path("x.pgm")), (2 * width, height, beside(width, self.drawn(2, data)[0], native)))

    def test_movie(self):
        plain = without_masks(self.model)
        self.assertEqual(self.lines("movie", "run.xa", "-o", "x.png"), ["x.png: 9 x 6, frames 1 to 12, 10 per second"])
        self.assertEqual(animation(self.path("x.png")), (9, 6, 10, [self.drawn(frame)[0] for frame in range(1, 13)]))
        self.assertEqual(self.lines("movie", "run.xa", "3-5", "--both", "--rate", "25"),
                         ["run.xa.movie.png: 18 x 6, frames 3 to 5, beside native, 25 per second"])
        self.assertEqual(animation(self.path("run.xa.movie.png")),
                         (18, 6, 25, [beside(9, self.drawn(frame)[0], self.drawn(frame, plain)[0]) for frame in (3, 4, 5)]))
        self.luux("movie", "run.xa", "4", "-o", "x.png")
        self.assertEqual(read_png(self.path("x.png")), (9, 6, self.drawn(4)[0]))

    def test_rate_of_the_run(self):
        for tag, rate in ((0x00180040, 15), (0x00082144, 30)):
            self.model[tag] = xa.text("IS", str(rate))
            self.put("run.xa", encode(self.model))
            self.assertIn(f", {rate} per second", self.lines("movie", "run.xa", "-o", "x.png")[0])
        self.model[0x00082144] = xa.text("IS", "0")
        self.put("run.xa", encode(self.model))
        self.assertIn(", 15 per second", self.lines("movie", "run.xa", "-o", "x.png")[0])

    def test_no_movie(self):
        self.assertIn(b"must end in .png", self.luux("movie", "run.xa", "-o", "x.gif", status=FAILED).stderr)
        self.assertIn("code 10", self.lines("movie", "run.xa", "10-13", "-o", "x.png", status=REFUSED)[0])
        self.luux("movie", "gone.xa", "-o", "x.png", status=FAILED)
        self.assertFalse(os.path.exists(self.path("x.png")))

    def test_the_run_is_not_overwritten(self):
        """By no movie, and by no picture in a folder; then none is written."""
        self.put("run.png", good_run())
        self.check_kept("run.png", "movie", "run.png")
        os.mkdir(self.path("out"))
        os.symlink("../run.xa", self.path("out", "run.xa.frame-03.png"))
        done = self.luux("show", "run.xa", "1-5", "-o", "out", status=FAILED)
        self.assertEqual((done.stdout, done.stderr.decode()), (b"", f"luux: out/run.xa.frame-03.png: {IS_INPUT}\n"))
        self.assertEqual(os.listdir(self.path("out")), ["run.xa.frame-03.png"])
        with open(self.path("run.xa"), "rb") as file:
            self.assertEqual(file.read(), self.data)


class TestOneRun(Desk):
    """What goes to standard output and what to standard error, and what is never written over."""

    def setUp(self):
        super().setUp()
        self.data = good_run(frames=3, rows=4, columns=7)
        self.put("run.xa", self.data)

    def test_sheet_of_all_frames(self):
        self.assertEqual(self.lines("sheet", "run.xa", "all"), self.lines("sheet", "run.xa"))
        self.assertIn(b"the first frame comes after the last", self.luux("sheet", "run.xa", "3-2", status=FAILED).stderr)

    def test_sheet_for_another_program(self):
        """With --json and --numbers nothing else goes to standard output, though a plot is written."""
        numbers = sheet.sheet(self.data, 1, 3, LARGE).sheet
        for words in ((), ("-o", "x.png")):
            done = self.luux("sheet", "run.xa", "--numbers", *words)
            self.assertEqual(done.stdout.decode(), "".join(f"{number}\n" for number in numbers))
            said = self.luux("sheet", "run.xa", "--json", *words)
            self.assertEqual(json.loads(said.stdout), {
                "path": "run.xa", "first": 1, "last": 3, "native": numbers[256], "lowest": numbers[257], "highest": numbers[258],
                "sum": numbers[259], "counts": list(numbers[:256])})
            self.assertEqual({done.stderr, said.stderr}, {b"luux: x.png: 792 x 360, plot\n" if words else b""})
        self.assertEqual(self.lines("sheet", "run.xa", "-o", "x.png")[-1], "x.png: 792 x 360, plot")

    def test_a_frame_without_a_picture(self):
        for words in (("1",), ("11",)):
            self.assertIn(b"needs a PICTURE to compare with", self.luux("compare", "run.xa", *words, status=FAILED).stderr)
        self.put("1/readme", b"no picture")
        self.assertIn(b"no file in it has a frame number in its name", self.luux("compare", "run.xa", "1", status=FAILED).stderr)
        self.assertIn(b"no such file or folder", self.luux("compare", "run.xa", "missing", status=FAILED).stderr)

    def test_no_input_is_written_over(self):
        self.luux("show", "run.xa", "2", "-o", "theirs.png")
        with open(self.path("theirs.png"), "rb") as file:
            theirs = file.read()
        os.symlink("theirs.png", self.path("link.png"))
        for name in ("theirs.png", "link.png"):
            done = self.luux("compare", "run.xa", "2", "theirs.png", "-o", name, status=FAILED)
            self.assertIn(b"cannot be written: it is the input itself", done.stderr)
        with open(self.path("theirs.png"), "rb") as file:
            self.assertEqual(file.read(), theirs)

    def test_neither_a_device_nor_a_pipe_is_replaced(self):
        os.mkfifo(self.path("pipe.png"))
        os.mkfifo(self.path("pipe"))
        for words in (("show", "run.xa", "1", "-o", "pipe.png"), ("canonical", "run.xa", "-o", "pipe"), ("report", "run.xa", "-o", "pipe")):
            self.assertIn(b"cannot be written: it exists, and is ", self.luux(*words, status=FAILED).stderr)

    def test_only_show_writes_to_standard_output(self):
        for words in (("canonical", "run.xa"), ("report", "run.xa")):
            done = self.luux(*words, "-o", "-", status=FAILED)
            self.assertEqual(done.stdout, b"")
            self.assertIn(b"only show writes to standard output", done.stderr)
        self.assertEqual(os.listdir(self.folder), ["run.xa"])

    def test_usage_steers_no_terminal(self):
        """Neither names nor values of options reach standard error as they are."""
        odd = "\x1b[31m\u202e"
        for words in (("show", "run.xa", "1", "-o", f"{odd}.jpg"), ("show", "run.xa", "1-2", "-o", f"{odd}.png"), ("movie", "run.xa", "-o", f"{odd}.jpg"),
                      ("contact", "run.xa", "-o", f"{odd}.jpg"), ("compare", "run.xa", odd, "run.xa"), ("show", "run.xa", odd), ("show", "run.xa", "1", odd),
                      ("sheet", "run.xa", f"--{odd}"), (odd,)):
            said = self.luux(*words, status=FAILED).stderr.decode()
            self.assertIn("\\x1B[31m\\u{202E}", said)
            self.assertTrue(all(letter.isprintable() or letter == "\n" for letter in said), said)

    def test_a_demonstration_replaces_nothing(self):
        """Only what another demonstration left there."""
        self.put("mine/runs/good.xa", self.data)
        self.put("ours/contact.png", b"a picture")
        for folder, name in (("mine", "runs/good.xa"), ("ours", "contact.png")):
            done = self.luux("demo", folder, status=FAILED)
            self.assertEqual((done.stdout, done.stderr.decode()), (
                b"", f"luux: {folder}/{name}: cannot be written: it exists, and is not of a demonstration; name another folder\n"))
        self.luux("demo", "new")
        self.luux("demo", "new")
