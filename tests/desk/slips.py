"""Verdict slips: what is written, read, kept and moved aside."""

import json
import os
import re
import subprocess

from comparison import compare_slips
from desk.common import FAILED, FINE, IS_INPUT, LARGE, REFUSED, SENTENCES, TOOL, Desk, good_run, item_left_out, mixed_runs, with_head
from reference import rules, slips


class TestSlips(Desk):
    def test_round_trip(self):
        """A slip is what the independent program writes, and is read as what judge said, but for the item."""
        runs = mixed_runs(60)
        for number, data in enumerate(runs):
            self.put(f"runs/{number:02d}.xa", data)
        said = self.lines("judge", "runs", "--slips", "slips", status=REFUSED)
        names = [f"slips/runs/{number:02d}.xa.slip" for number in range(60)]
        for name, data in zip(names, runs):
            with open(self.path(name), "rb") as file:
                self.assertEqual(file.read(), slips.write_slip(rules.judge(data, LARGE).answer, slips.LENGTH)[1])
        read = self.lines("slip", "read", *names, status=REFUSED)
        self.assertEqual([re.sub(r", rows \d+", "", line.split(": ", 1)[1].split("; ")[0], count=1) for line in read],
                         [re.sub(r", item \d+ of \(5200,9230\), row \d+", "", line.split(": ", 1)[1].split("; ")[0])
                          for line in said[:-1]])
        for line, data in zip(read, runs, strict=True):
            self.assertIn(f", rows {rules.judge(data, LARGE).answer.rows}", line)
        self.assertEqual(os.listdir(self.path("slips")), ["runs"])

    def test_json(self):
        """What judge --json says of a run, slip read --json says of its slip, but for the item, the hint and the searches."""
        for number, data in enumerate(mixed_runs(20)):
            self.put(f"runs/{number:02d}.xa", data)
        wanted = list(map(json.loads, self.lines("judge", "runs", "--slips", "s", "--json", status=REFUSED)))
        names = [one.pop("slip") for one in wanted]
        said = map(json.loads, self.lines("slip", "read", "--json", *names, status=REFUSED))
        for name, found, judged in zip(names, said, wanted, strict=True):
            for field in ("hint", "item_row", "found", "identity", "searches"):
                judged.pop(field, None)
            self.assertEqual(found, {**judged, "path": name})
        self.put("no.slip", b"XAV")
        found = json.loads(self.lines("slip", "read", "--json", "no.slip", status=REFUSED)[0])
        self.assertEqual((found["path"], found["verdict"], found["error"][:9]), ("no.slip", "none", "code 12: "))

    def test_version_1(self):
        """A slip of yesterday still reads, and says that its row count is not known."""
        for number, (verdict, slip) in enumerate(compare_slips.version_1_slips()):
            name = f"{number}.slip"
            self.put(name, slip)
            status = REFUSED if verdict.code else FINE
            line, = self.lines("slip", "read", name, status=status)
            numbers = {0: "accepted", 7: "code 7", 8: "code 8", 9: f"rule {verdict.rule}, frame {verdict.frame}"}
            start = numbers.get(verdict.code, f"code {verdict.code} at byte {verdict.offset}")
            self.assertTrue(line.startswith(f"{name}: {start}, rows not known"), line)
            found = json.loads(self.lines("slip", "read", "--json", name, status=status)[0])
            self.assertEqual([found[field] for field in ("code", "offset", "rows", "rule", "frame")], list(verdict[:5]))
        self.assertGreater(number, 50)

    def test_names_do_not_collide(self):
        self.put("a/x.xa", good_run())
        self.put("b/x.xa", item_left_out())
        self.luux("judge", "a", "b", self.path("a", "x.xa"), "--slips", "s", status=REFUSED)
        found = sorted(os.path.relpath(os.path.join(folder, name), self.path("s"))
                       for folder, _, names in os.walk(self.path("s")) for name in names)
        self.assertEqual(found, sorted(["a/x.xa.slip", "b/x.xa.slip", self.path("a", "x.xa.slip")[1:]]))
        rows = rules.judge(good_run(), LARGE).answer.rows
        self.assertEqual(self.lines("slip", "read", "s/a/x.xa.slip"), [f"s/a/x.xa.slip: accepted, rows {rows}"])

    def test_one_name_for_two(self):
        """`..` has no place under the folder of the slips."""
        self.put("in/x.xa", good_run())
        self.put("x.xa", item_left_out())
        done = subprocess.run([TOOL, "judge", "--bare", "x.xa", "../x.xa", "--slips", "s"], cwd=self.path("in"), capture_output=True)
        self.assertEqual((done.returncode, done.stdout), (FAILED, b""))
        self.assertIn(b"judge the two separately", done.stderr)
        self.assertFalse(os.path.exists(self.path("in", "s")))

    def test_slips_in_the_folder_that_is_judged(self):
        self.put("runs/x.xa", good_run())
        for told in (b"", b"luux: runs/slips: skipped: luux writes to this folder\n"):
            done = self.luux("judge", "runs", "--slips", "runs/slips")
            self.assertEqual(done.stderr, told)
            self.assertTrue(done.stdout.startswith(b"runs/x.xa: accepted\n1 file: 1 accepted"), done.stdout)

    def test_slips_beside_their_runs(self):
        """In a folder a slip is not taken for a run; what only has the name of one is."""
        self.put("x.xa", good_run())
        self.put("y.slip", b"no slip")
        for skipped in ("", ", 1 skipped"):
            done = self.luux("judge", ".", "--slips", ".", status=REFUSED)
            self.assertTrue(done.stdout.endswith(f"2 files: 1 accepted, 1 refused, 0 could not be read{skipped}\n".encode()))
            os.remove(self.path("y.slip.slip"))
        self.assertIn(b"./x.xa.slip: skipped: a verdict slip", done.stderr)

    def test_never_over_an_input(self):
        """A file that has the name of another's slip, and is judged itself."""
        self.put("x", good_run())
        self.put("x.slip", item_left_out())
        for words in (("x", "x.slip"), (".",)):
            done = self.luux("judge", *words, "--slips", ".", status=FAILED)
            self.assertEqual((done.stdout, done.stderr.decode()), (b"", f"luux: ./x.slip: {IS_INPUT}\nluux: nothing was judged\n"))
            with open(self.path("x.slip"), "rb") as file:
                self.assertEqual(file.read(), item_left_out())
        self.luux("judge", ".", "--slips", "slips", status=REFUSED)

    def test_cannot_be_written(self):
        self.put("x.xa", good_run())
        self.put("s", b"a file, and no folder")
        said = self.lines("judge", "x.xa", "--slips", "s", status=FAILED)
        self.assertTrue(said[0].startswith("x.xa: accepted; its slip s/x.xa.slip cannot be written: "), said[0])
        self.assertIn("1 slip could not be written", said[1])
        found = json.loads(self.lines("judge", "x.xa", "--slips", "s", "--json", status=FAILED)[0])
        self.assertEqual(found["verdict"], "accepted")
        self.assertIn("slip_error", found)

    def test_sentences_are_those_of_judge_one(self):
        self.assertEqual(sorted(SENTENCES), sorted(rules.RULES))
        self.assertEqual(len(set(SENTENCES.values())), len(rules.RULES))
        for rule in rules.RULES:
            frame = 7 if rule in rules.PER_FRAME_RULES else 0
            self.put(f"{rule}.slip", slips.slip_bytes(9, rule, frame, 0, 57))
        said = self.lines("slip", "read", *(f"{rule}.slip" for rule in rules.RULES), status=REFUSED)
        for rule, line in zip(rules.RULES, said, strict=True):
            frame = 7 if rule in rules.PER_FRAME_RULES else 0
            self.assertEqual(line, f"{rule}.slip: rule {rule}, frame {frame}, rows 57: {SENTENCES[rule]}")

    def test_what_is_no_slip(self):
        good = slips.slip_bytes(0, 0, 0, 0, 57)
        for name, content, code in (("short", good[:16], 12), ("long", good + b"\0", 12), ("mark", b"Y" + good[1:], 12),
                                    ("empty", b"", 12), ("version", good[:3] + b"\3\0" + good[5:], 13), ("old", good[:3] + b"\1" + good[4:], 12),
                                    ("fields", slips.slip_bytes(9, 26, 3, 0, 57), 14), ("rows", good[:16] + b"\x09", 14)):
            self.put(name, content)
            self.assertTrue(self.lines("slip", "read", name, status=REFUSED)[0].startswith(f"{name}: code {code}: "))
        self.put("good", good)
        said = self.lines("slip", "read", "good", "gone", status=FAILED)
        self.assertEqual(said[0], "good: accepted, rows 57")
        self.assertTrue(said[1].startswith("gone: cannot be read"), said[1])


class TestKeepingSlips(Desk):
    bare = False

    def slip(self, *parts):
        with open(self.path(*parts), "rb") as file:
            return file.read()

    def test_old_slips_are_moved_aside(self):
        """Each time that a run cannot be judged its slip goes to another name; none is lost."""
        self.put("run.dcm", with_head(good_run()))
        for number, ending in enumerate((".old", ".old-2", ".old-3")):
            self.luux("judge", "run.dcm", "--slips", "s")
            good = self.slip("s", "run.dcm.slip")
            content = (b"", with_head(good_run(), syntax=b"1.2.840.10008.1.2"), None)[number]
            if content is None:
                os.remove(self.path("run.dcm"))
            else:
                self.put("run.dcm", content)
            said = self.luux("judge", "run.dcm", "--slips", "s", status=FAILED if content in (None, b"") else REFUSED).stdout.decode().splitlines()[0]
            self.assertTrue(said.endswith(f"; its old slip was moved aside to s/run.dcm.slip{ending}"), said)
            self.assertEqual(self.slip("s", f"run.dcm.slip{ending}"), good)
            self.assertFalse(os.path.exists(self.path("s", "run.dcm.slip")))
            self.put("run.dcm", with_head(good_run()))
        self.assertEqual(sorted(os.listdir(self.path("s"))), ["run.dcm.slip.old", "run.dcm.slip.old-2", "run.dcm.slip.old-3"])
        # They are slips still, and no runs.
        self.luux("slip", "read", "s/run.dcm.slip.old-2")
        self.assertIn(b"s/run.dcm.slip.old: skipped: a verdict slip", self.luux("judge", ".").stderr)

    def test_only_slips_are_replaced(self):
        """What has the name of a slip and is none stays, whether the run is judged or not; with it stays the run."""
        run = with_head(good_run())
        self.put("in/x", run)
        self.put("in/x.slip", with_head(good_run(seed=2)))
        self.put("in/notes", b"notes")
        self.put("in/notes.slip", run)
        self.put("s/in/x.slip.slip", slips.slip_bytes(9, 1, 0, 0, 57))
        before = {name: self.slip("in", name) for name in os.listdir(self.path("in"))}
        done = self.luux("judge", "x", "notes", "--slips", ".", "--move-accepted", "done", status=FAILED, cwd=self.path("in"))
        self.assertEqual(done.stdout.decode().splitlines(), [
            "x: accepted; its slip ./x.slip cannot be written: that file exists already, and is no slip", "notes: not ours: text",
            "2 files: 1 accepted, 0 refused, 0 could not be read, 1 not ours, 1 slip could not be written"])
        self.assertEqual({name: self.slip("in", name) for name in os.listdir(self.path("in"))}, before)
        # An older slip is replaced, and a link to nowhere is not.
        os.symlink("nowhere", self.path("s", "in", "x.slip"))
        self.put("in/x.slip", run)
        said = self.lines("judge", "in/x", "in/x.slip", "--slips", "s", status=FAILED)
        self.assertTrue(said[0].endswith("s/in/x.slip cannot be written: that file exists already, and is no slip"), said[0])
        self.assertEqual(said[1], "in/x.slip: accepted")
        self.luux("slip", "read", "s/in/x.slip.slip")

    def test_all_slips_though_nobody_listens(self):
        for number in range(300):
            self.put(f"in/{number:03d}.dcm", with_head(good_run() if number % 2 else item_left_out()))
        for words, out in ((("--slips", "s"), "pipe"), (("--slips", "t", "--json"), "pipe"), (("--slips", "u"), "full")):
            if out == "pipe":
                reading_end, writing_end = os.pipe()
                os.close(reading_end)
            else:
                writing_end = os.open("/dev/full", os.O_WRONLY)
            done = subprocess.run([TOOL, "judge", "in", *words], cwd=self.folder, stdout=writing_end, stderr=subprocess.PIPE, timeout=60)
            os.close(writing_end)
            self.assertEqual((done.returncode, done.stderr == b""), (FAILED, out == "pipe"))
            self.assertEqual(len(os.listdir(self.path(words[1], "in"))), 300)

    def test_no_draft_stays_and_none_is_judged(self):
        self.put("in/run.dcm", with_head(good_run()))
        self.put("in/.luux-abc.tmp", b"half")
        done = self.luux("judge", "in", "--slips", "in")
        self.assertIn(b"in/.luux-abc.tmp: skipped: a draft that luux left behind", done.stderr)
        self.assertEqual(sorted(os.listdir(self.path("in"))), [".luux-abc.tmp", "in", "run.dcm"])

    def test_permissions_are_those_that_the_user_gives(self):
        self.put("run.dcm", with_head(good_run()))
        for mask in (0o022, 0o077, 0o002):
            self.luux("judge", "run.dcm", "--slips", "s", preexec_fn=lambda: os.umask(mask))
            self.luux("show", "run.dcm", "1", "-o", "x.png", preexec_fn=lambda: os.umask(mask))
            for path in ("s/run.dcm.slip", "x.png"):
                self.assertEqual(os.stat(self.path(path)).st_mode & 0o777, 0o666 & ~mask)

    def test_synced_before_renamed(self):
        """In the order of the calls: written, synced, renamed."""
        self.put("run.dcm", with_head(good_run()))
        traced = subprocess.run(["strace", "-f", "-e", "trace=fsync,rename,renameat,renameat2,write", "-o", self.path("calls"), TOOL, "judge",
                                 "run.dcm", "--slips", "s"], cwd=self.folder, capture_output=True) if self.has_strace() else None
        if traced is None or traced.returncode:
            self.skipTest("strace cannot be used here")
        with open(self.path("calls"), encoding="utf-8") as file:
            calls = file.read()
        self.assertRegex(calls, r"(?s)write\(.*XAV.*fsync\(.*rename.*\.luux-[^\"]+\.tmp.*run\.dcm\.slip")

    @staticmethod
    def has_strace():
        return any(os.access(os.path.join(folder, "strace"), os.X_OK) for folder in os.environ["PATH"].split(os.pathsep))
