#!/usr/bin/env python3
"""Mutated files through every command of the desk tool.

A command may end with 0, 1 or 2 and nothing else, says one line for each file, and says of each what the independent program says of
it. Files are changed in all the ways in which storage and senders change them: bits, bytes, blocks, lengths, cuts, joins. The same seed
makes the same files.

    tests/desk/fuzz.py                     20,000 files
    tests/desk/fuzz.py --count 500 --seed 7
"""

import argparse
import json
import os
import random
import struct
import subprocess
import sys

TESTS = os.path.dirname(os.path.dirname(os.path.abspath(__file__)))
if __name__ == "__main__":
    sys.path.insert(0, TESTS)

from generators import enhanced_xa as xa  # noqa: E402
from desk.common import CLASSES, LARGE, TOOL, Desk, with_head  # noqa: E402
from reference import canonical, files, intensity, rules, sheet, slips  # noqa: E402
from reference.answers import Answer  # noqa: E402

BATCH = 250  # files that one luux judge gets
HEAD = len(with_head(b""))
FIELDS = ("code", "offset", "rows", "rule", "frame", "searches")


def changed(rng, data, others):
    """One change, of the sorts that storage and senders make."""
    if not data:
        return rng.randbytes(rng.randrange(8))
    data = bytearray(data)
    place = rng.randrange(len(data))
    length = rng.choice((1, 2, 4, 8, 64, 512))
    match rng.randrange(11):
        case 0:
            data[place] ^= 1 << rng.randrange(8)
        case 1:
            data[place] = rng.choice((0, 1, 0x7F, 0x80, 0xFE, 0xFF))
        case 2:
            del data[place:]
        case 3:
            del data[place:place + length]
        case 4:
            data[place:place] = rng.randbytes(length)
        case 5:
            data[place:place + length] = bytes(length)
        case 6:
            data[place:place] = data[place:place + length]
        case 7:
            other = rng.choice(others)
            data[place:] = other[rng.randrange(len(other) + 1):]
        case 8:
            number = rng.choice((0, 1, 0x7FFFFFFF, 0x80000000, 0xFFFFFFFE, 0xFFFFFFFF, len(data), len(data) - place))
            data[place:place + 4] = struct.pack("<I", number & 0xFFFFFFFF)
        case 9:
            data[place:place + 2] = struct.pack("<H", rng.choice((0, 1, 2, 0x7FFF, 0x8000, 0xFFFF)))
        case 10:
            data[place:place + 2] = rng.choice((b"SQ", b"OB", b"UN", b"US", b"UI", b"DS", b"XX"))
    return bytes(data)


def seeds(rng, count=40):
    """Files to start from, heads and all."""
    made = []
    for _ in range(count):
        data = xa.encode_at_random(rng, xa.build(rng, xa.random_shape(rng, frames=rng.choice((1, 2, 3)))))
        made.append(with_head(data, CLASSES["XRF"] if CLASSES["XRF"] in data else CLASSES["XA"]))
    return made


class Fuzz(Desk):
    """What the commands say of changed files, and what they should."""

    bare = False

    def runTest(self):
        """For the use outside of unittest."""

    def fuzz(self, seed, count):
        rng = random.Random(seed)
        whole = seeds(rng)
        codes = {}
        for start in range(0, count, BATCH):
            contents = []
            for _ in range(min(BATCH, count - start)):
                content = rng.choice(whole)
                for _ in range(rng.choice((0, 1, 1, 1, 2, 3, 5))):
                    content = changed(rng, content, whole)
                contents.append(content)
            for code in self.judged(contents, rng):
                codes[code] = codes.get(code, 0) + 1
            for content in rng.sample(contents, 5):
                self.other_commands(rng, content)
            self.slips_and_pictures(rng, whole[0])
        return codes

    def luux(self, *words, **options):
        done = subprocess.run([TOOL, *words], cwd=self.folder, capture_output=True, timeout=100, **options)
        self.assertIn(done.returncode, (0, 1, 2), (words, done))
        self.assertNotIn(b"panicked", done.stderr)
        return done

    def judged(self, contents, rng):
        """Verdicts and slips of a batch, as files and as bare data sets."""
        bare = rng.random() < 0.3
        if bare:
            contents = [content[HEAD:] for content in contents]
        for number, content in enumerate(contents):
            self.put(f"runs/{number:03d}", content)
        words = ["judge", "runs", "--json", "--slips", "slips", *(["--bare"] if bare else []), "--memory", rng.choice(("1M", "100M"))]
        done = self.luux(*words)
        objects = [json.loads(line) for line in done.stdout.decode().splitlines()]
        self.assertEqual([one["path"] for one in objects], [f"runs/{number:03d}" for number in range(len(contents))])
        for one, content in zip(objects, contents):
            answer = (rules.judge if bare else files.judge_file)(content, LARGE).answer
            self.assertEqual(Answer(**{name: one[name] for name in FIELDS}), answer, content.hex())
            accepted = answer.code == 0
            self.assertEqual(one["verdict"] == "accepted", accepted)
            self.assertEqual("slip" in one, answer.code < 15 and one["verdict"] != "not ours")
            if "slip" in one:
                with open(self.path(one["slip"]), "rb") as file:
                    self.assertEqual(file.read(), slips.slip_bytes(answer.code, answer.rule, answer.frame, answer.offset, answer.rows))
        return [one["code"] for one in objects]

    def other_commands(self, rng, content):
        self.put("run", content)
        code, start = files.data_set(content)
        data = content[start:]
        read = files.read_file(content, LARGE).answer
        judged = files.judge_file(content, LARGE).answer
        frame = rng.choice((0, 1, 2, 3, 4, 65536))
        self.assertEqual(self.luux("rows", "run").returncode, int(read.code != 0))
        self.assertEqual(self.luux("rows", "--tree", "run").returncode, int(read.code != 0))
        shown = files.show_file(content, frame, LARGE, LARGE)
        done = self.luux("show", "run", str(frame), "-o", "x.pgm")
        self.assertEqual(done.returncode, int(shown.answer.code != 0), (done, content.hex()))
        if shown.answer.code == 0:
            with open(self.path("x.pgm"), "rb") as file:
                self.assertEqual(file.read().split(b"\n", 3)[3], shown.image)
            self.put("theirs", shown.image)
            self.assertEqual(self.luux("compare", "run", str(frame), "theirs").returncode, 0)
        self.assertEqual(self.luux("contact", "run", "-o", "x.pgm").returncode, int(judged.code != 0))
        done = self.luux("sheet", "run", "--numbers")
        self.assertEqual(done.returncode, int(judged.code != 0))
        if judged.code == 0:
            frames = int(json.loads(self.luux("sheet", "run", "--json").stdout)["last"])
            wanted = sheet.sheet(data, 1, frames, LARGE).sheet
            self.assertEqual([int(line) for line in done.stdout.split()], list(wanted))
        mapped = intensity.linear(data, frame, LARGE, LARGE)
        self.assertEqual(self.luux("linear", "run", str(frame), "--csv").returncode, int(judged.code != 0 or mapped.answer.code != 0))
        done = self.luux("canonical", "run", "-o", "out")
        self.assertEqual(done.returncode, int(read.code != 0))
        if read.code == 0:
            with open(self.path("out"), "rb") as file:
                self.assertEqual(file.read(), content[:start] + canonical.write_canonical(data, LARGE, LARGE).target)

    def slips_and_pictures(self, rng, run):
        """Changed slips, and changed pictures of another workstation."""
        slip = slips.slip_bytes(9, 28, 3, 0, 57)
        for number in range(10):
            self.put(f"{number}.slip", changed(rng, slip, [slip]))
        done = self.luux("slip", "read", "--json", *(f"{number}.slip" for number in range(10)))
        for number, line in enumerate(done.stdout.decode().splitlines()):
            with open(self.path(f"{number}.slip"), "rb") as file:
                wanted = slips.read_slip(file.read())
            one = json.loads(line)
            self.assertEqual(one["verdict"] == "none", wanted[0] != 0)
        self.put("run", run)
        self.luux("show", "run", "1", "-o", "ours.png")
        self.luux("show", "run", "1", "-o", "ours.pgm")
        for name in ("ours.png", "ours.pgm"):
            with open(self.path(name), "rb") as file:
                content = file.read()
            for _ in range(3):
                self.put(f"theirs{name[4:]}", changed(rng, content, [content]))
                self.luux("compare", "run", "1", f"theirs{name[4:]}")


class TestFuzz(Fuzz):
    runTest = None

    def test_changed_files(self):
        codes = self.fuzz(1, 1000)
        self.assertLessEqual({0, 1, 9, 15, 16, 18}, set(codes), codes)


def main():
    parser = argparse.ArgumentParser(description=__doc__, formatter_class=argparse.RawDescriptionHelpFormatter)
    parser.add_argument("--count", type=int, default=20_000)
    parser.add_argument("--seed", type=int, default=1)
    wanted = parser.parse_args()
    case = Fuzz()
    case.setUp()
    try:
        codes = case.fuzz(wanted.seed, wanted.count)
    finally:
        case.doCleanups()
    print(f"{wanted.count} files, seed {wanted.seed}: " + ", ".join(f"code {code}: {codes[code]}" for code in sorted(codes)))


if __name__ == "__main__":
    main()
