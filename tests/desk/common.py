"""What the tests of the desk tool share: generated runs, readers of pictures, and a folder in which commands run."""

import os
import random
import re
import shutil
import struct
import subprocess
import tempfile
import unittest
import zlib

from generators import enhanced_xa as xa
from generators.mutations import CHANGES
from generators.objects import element, encode
from reference.parents import table_of
from reference import attributes as tags
from reference import reading

TESTS = os.path.dirname(os.path.dirname(os.path.abspath(__file__)))
ROOT = os.path.dirname(TESTS)
WRAPPER = os.path.join(ROOT, "luux")
TOOL = os.path.join(ROOT, "host", "target", "release", "luux")
NOBODY = 65534
LARGE = 10_000_000  # numbers in the reference's row buffer, more than any object here needs
OWN_MEMORY = 32 << 20  # what the tool may take besides the mapped file
FINE, REFUSED, FAILED = 0, 1, 2
IS_INPUT = "cannot be written: it is the input itself; name another file"

# What each rule asks, by its number, from the source of the program judge_one.
with open(os.path.join(ROOT, "crates", "judge_one", "src", "sentence.rt"), encoding="ascii") as source:
    SENTENCES = dict(enumerate(re.findall(r'^    "(.*)",$', source.read().split("const SENTENCES:")[1].split("];")[0], re.MULTILINE), 1))


# ---------------------------------------------------------------------------------------------------------------------
# Generated runs


def good_run(seed=1, **shape):
    return encode(xa.build(random.Random(seed), xa.Shape(**{"masks": ("AVG_SUB",), "extras": False, **shape})))


def item_left_out(seed=2):
    model = xa.build(random.Random(seed), xa.Shape(frames=5, extras=False))
    del model[tags.PER_FRAME_FUNCTIONAL_GROUPS_SEQUENCE][1][2]
    return encode(model)


def content_left_out(frame):
    """Rule 28 is broken at the frame."""
    model = xa.build(random.Random(3), xa.Shape(frames=7, extras=False))
    del model[tags.PER_FRAME_FUNCTIONAL_GROUPS_SEQUENCE][1][frame - 1][tags.FRAME_CONTENT_SEQUENCE]
    return encode(model)


CLASSES = {"XA": b"1.2.840.10008.5.1.4.1.1.12.1.1", "XRF": b"1.2.840.10008.5.1.4.1.1.12.2.1"}


def with_head(data, sop_class=CLASSES["XA"], syntax=b"1.2.840.10008.1.2.1"):
    """The file of a data set."""
    group = (element(0x00020001, "OB", b"\0\1") + element(0x00020002, "UI", sop_class + b"\0" * (len(sop_class) % 2))
             + element(0x00020010, "UI", syntax + b"\0" * (len(syntax) % 2)))
    return bytes(128) + b"DICM" + element(0x00020000, "UL", struct.pack("<I", len(group))) + group + data


def mixed_runs(count):
    """Data sets of all sorts: good, each rule broken in many ways, cut short, damaged."""
    rng = random.Random(6)
    made = []
    while len(made) < count:
        change = rng.choice(CHANGES)
        model = xa.build(rng, xa.random_shape(rng, **change.shape))
        if rng.random() < 0.7:
            change.edit(model, rng.choice((1, 3, 5)) if change.per_frame else 0)
        data = xa.encode_at_random(rng, model)
        spoil = rng.random()
        if spoil < 0.1:
            data = data[:rng.randrange(len(data))]
        elif spoil < 0.2:
            place = rng.randrange(len(data))
            data = data[:place] + rng.randbytes(1) + data[place + 1:]
        made.append(data)
    return made


def rows_of(data):
    """The rows of the independent program: tag, VR, depth, offset, length, rows below, parent."""
    return table_of(reading.read(data, LARGE).rows)


def item_row(data, frame):
    """The number, from 1, of the row of a frame's item: among the rows whose parent is the per-frame sequence at the root."""
    rows = list(enumerate(rows_of(data), 1))
    sequence, = (number for number, row in rows if row[0] == tags.PER_FRAME_FUNCTIONAL_GROUPS_SEQUENCE and row[6] == 0)
    return [number for number, row in rows if row[6] == sequence][frame - 1]


def expected_line(answer, data, start=None):
    """What judge prints for an answer. The meaning of a code is the tool's own text, so only the start of the line is compared. `start` is
    where a file's data set starts."""
    if answer.code == 0:
        return "accepted"
    if answer.code == 9:
        item = f", item {answer.frame} of (5200,9230), row {item_row(data, answer.frame)}" if answer.frame else ""
        return f"rule {answer.rule}, frame {answer.frame}{item}: {SENTENCES[answer.rule]}"
    if answer.code > 6:
        return f"code {answer.code}: "
    place = "" if start is None else f" of the data set, byte {start + answer.offset} of the file"
    return f"code {answer.code} at byte {answer.offset}{place}: "


# ---------------------------------------------------------------------------------------------------------------------
# Pictures


def read_png(path, size=1):
    """Width, height and cells of a grey PNG with so many bytes a cell, every checksum tested."""
    with open(path, "rb") as file:
        content = file.read()
    assert content[:8] == b"\x89PNG\r\n\x1a\n", "no PNG"
    at, packed = 8, b""
    while at < len(content):
        length, kind = struct.unpack_from(">I4s", content, at)
        chunk = content[at + 8:at + 8 + length]
        assert struct.unpack_from(">I", content, at + 8 + length)[0] == zlib.crc32(kind + chunk), "a wrong checksum"
        if kind == b"IHDR":
            width, height, *form = struct.unpack(">IIBBBBB", chunk)
            assert form == [8 * size, 0, 0, 0, 0], f"not {8 * size}-bit grey"
        if kind == b"IDAT":
            packed += chunk
        at += 12 + length
    raw = zlib.decompress(packed)
    length = width * size + 1
    before, cells = bytes(length - 1), []
    for row in range(height):
        line = bytearray(raw[row * length + 1:(row + 1) * length])
        unfilter(raw[row * length], line, before, size)
        cells.append(bytes(line))
        before = line
    return width, height, b"".join(cells)


def unfilter(kind, line, above, size):
    """One row of a PNG, of so many bytes a cell, in place."""
    for place in range(len(line)):
        left = line[place - size] if place >= size else 0
        corner = above[place - size] if place >= size else 0
        up = above[place]
        near = min((abs(up - corner), 0, left), (abs(left - corner), 1, up), (abs(left + up - 2 * corner), 2, corner))
        line[place] = (line[place] + (0, left, up, (left + up) // 2, near[2])[kind]) % 256


def read_pgm(path, size=1):
    with open(path, "rb") as file:
        form, sizes, most, cells = file.read().split(b"\n", 3)
    assert (form, int(most)) == (b"P5", 256 ** size - 1), f"no PGM of {8 * size} bits"
    width, height = map(int, sizes.split())
    return width, height, cells


# ---------------------------------------------------------------------------------------------------------------------
# Tests


def alone(test):
    """Marks a test, or a class of tests, that runs while no other does."""
    test.alone = True
    return test


class Desk(unittest.TestCase):
    """A temporary folder in which commands run. If `bare`, runs are data sets without a head, and commands get --bare."""

    bare = True

    def setUp(self):
        self.folder = tempfile.mkdtemp(prefix="luux-tests-")
        os.chmod(self.folder, 0o755)
        self.addCleanup(shutil.rmtree, self.folder, ignore_errors=True)

    def path(self, *parts):
        return os.path.join(self.folder, *parts)

    def put(self, name, content):
        path = os.path.join(os.fsencode(self.folder), os.fsencode(name))
        os.makedirs(os.path.dirname(path), exist_ok=True)
        with open(path, "wb") as file:
            file.write(content)

    def luux(self, *words, status=FINE, tool=TOOL, **options):
        """Runs a command, checks its exit status, and returns its output as bytes."""
        if self.bare and words and words[0] in ("judge", "rows", "show", "contact", "canonical", "duplicates", "linear", "sheet", "compare", "movie", "report"):
            words = (words[0], "--bare", *words[1:])
        done = subprocess.run([tool, *words], **{"cwd": self.folder, "capture_output": True, "timeout": 100, **options})
        self.assertEqual(done.returncode, status, done.stdout[-2000:] + done.stderr[-2000:])
        self.assertNotIn(b"panicked", done.stderr)
        return done

    def lines(self, *words, found=False, **options):
        """The lines of a command, without what a refusal found unless `found`; that has tests of its own."""
        lines = self.luux(*words, **options).stdout.decode().splitlines()
        return lines if found else [re.sub(r" Found: .*?\.($| Moved to | Not moved | Its )", r"\1", line) for line in lines]

    def check_kept(self, name, *words):
        """A command whose output is its input `name`, under whatever name, says so before it reads, so that a damaged input makes no
        difference. The input stays as it is."""
        with open(self.path(name), "rb") as file:
            whole = file.read()
        hard, soft = (kind + os.path.splitext(name)[1] for kind in ("hard", "soft"))
        os.link(self.path(name), self.path(hard))
        os.symlink(name, self.path(soft))
        for content in (whole, whole[:-2]):
            self.put(name, content)
            for output in (name, f"./{name}", hard, soft):
                done = self.luux(*words, "-o", output, status=FAILED)
                self.assertEqual((done.stdout, done.stderr.decode()), (b"", f"luux: {output}: {IS_INPUT}\n"))
                with open(self.path(name), "rb") as file:
                    self.assertEqual(file.read(), content)
        self.put(name, whole)
        os.remove(self.path(hard))
        os.remove(self.path(soft))

    def check_json(self, one, answer):
        """An object of --json has these fields of an answer; any others that it shares with the answer are equal too."""
        self.assertLessEqual({"code", "offset", "rows", "rule", "frame", "searches"}, one.keys())
        named = {name: value for name, value in answer._asdict().items() if name in one}
        self.assertEqual({name: one[name] for name in named}, named)
