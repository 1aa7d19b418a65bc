"""`luux judge`: its lines, its JSON, and what it says of how far judging looks."""

import json
import os
import shutil
import subprocess

from desk.common import (FAILED, LARGE, NOBODY, REFUSED, SENTENCES, TOOL, Desk, content_left_out, expected_line, good_run, item_left_out, item_row,
                         mixed_runs, with_head)
from generators.objects import element, element_header, item_header
from reference import reading, rules


class TestJudge(Desk):
    def test_one_line_for_each(self):
        self.put("runs/b.xa", good_run())
        self.put("runs/a.xa", item_left_out())
        self.put("runs/sub/c.xa", content_left_out(5))
        self.put("runs/empty.xa", b"")
        self.put("runs/z.xa", good_run()[:-2])
        said = self.lines("judge", "runs", status=REFUSED)
        row = item_row(content_left_out(5), 5)
        self.assertEqual(said[:4], [
            f"runs/a.xa: rule 26, frame 0: {SENTENCES[26]}", "runs/b.xa: accepted",
            f"runs/empty.xa: rule 1, frame 0: {SENTENCES[1]}",
            f"runs/sub/c.xa: rule 28, frame 5, item 5 of (5200,9230), row {row}: {SENTENCES[28]}"])
        pixels = rules.judge(good_run()[:-2], LARGE).answer
        self.assertTrue(said[4].startswith(f"runs/z.xa: code 1 at byte {pixels.offset}: cut short"), said[4])
        self.assertEqual(said[5:], ["5 files: 1 accepted, 4 refused, 0 could not be read"])

    def test_all_accepted(self):
        self.put("one.xa", good_run())
        self.assertEqual(self.lines("judge", "one.xa"),
                         ["one.xa: accepted", "1 file: 1 accepted, 0 refused, 0 could not be read"])

    def test_order_is_that_of_the_words(self):
        for name in ("b", "a", "c"):
            self.put(name, good_run())
        said = self.lines("judge", "c", "a", "b", "a")
        self.assertEqual([line.split(":")[0] for line in said[:-1]], ["c", "a", "b", "a"])

    def test_missing(self):
        self.put("good.xa", good_run())
        said = self.lines("judge", "missing.xa", "good.xa", status=FAILED)
        self.assertTrue(said[0].startswith("missing.xa: cannot be read: no such file"), said[0])
        self.assertEqual(said[1:], ["good.xa: accepted", "2 files: 1 accepted, 0 refused, 1 could not be read"])

    def test_unreadable(self):
        """Root may read everything, so there the tool runs as nobody, and from where nobody can run it."""
        self.put("runs/closed.xa", good_run())
        self.put("runs/open.xa", good_run())
        self.put("runs/shut/inner.xa", good_run())
        os.chmod(self.path("runs", "closed.xa"), 0)
        os.chmod(self.path("runs", "shut"), 0)
        shutil.copy(TOOL, self.path("tool"))
        os.chmod(self.path("tool"), 0o755)
        other = {"user": NOBODY, "group": NOBODY, "extra_groups": []} if os.getuid() == 0 else {}
        said = self.lines("judge", "runs", status=FAILED, tool=self.path("tool"), **other)
        os.chmod(self.path("runs", "shut"), 0o755)
        self.assertTrue(said[0].startswith("runs/closed.xa: cannot be read: permission denied"), said[0])
        self.assertEqual(said[1], "runs/open.xa: accepted")
        self.assertTrue(said[2].startswith("runs/shut: cannot be listed: permission denied"), said[2])
        self.assertEqual(said[3], "3 files: 1 accepted, 0 refused, 2 could not be read")

    def test_nothing_to_judge(self):
        os.mkdir(self.path("none"))
        done = self.luux("judge", "none", status=FAILED)
        self.assertEqual(done.stdout, b"")
        self.assertIn(b"none: skipped: it contains no files", done.stderr)
        self.assertIn(b"nothing was judged", done.stderr)

    def test_empty_folder_beside_others(self):
        os.mkdir(self.path("none"))
        self.put("good.xa", good_run())
        done = self.luux("judge", "none", "good.xa")
        self.assertIn(b"none: skipped", done.stderr)
        self.assertTrue(done.stdout.endswith(b"1 file: 1 accepted, 0 refused, 0 could not be read, 1 skipped\n"))

    def test_links_and_pipes(self):
        self.put("runs/good.xa", good_run())
        os.symlink("good.xa", self.path("runs", "link.xa"))
        os.symlink("..", self.path("runs", "loop"))
        os.symlink("nowhere", self.path("runs", "lost.xa"))
        os.mkfifo(self.path("runs", "pipe"))
        done = self.luux("judge", "runs", status=FAILED)
        said = done.stdout.decode().splitlines()
        self.assertEqual(said[:2], ["runs/good.xa: accepted", "runs/link.xa: accepted"])
        self.assertTrue(said[2].startswith("runs/lost.xa: cannot be read"), said[2])
        self.assertEqual(said[3], "3 files: 2 accepted, 0 refused, 1 could not be read, 2 skipped")
        self.assertIn(b"runs/loop: skipped: a link to a folder", done.stderr)
        self.assertIn(b"runs/pipe: skipped: not a regular file", done.stderr)
        self.assertIn("not a regular file", self.lines("judge", "runs/pipe", status=FAILED)[0])

    def test_no_head_though_it_looks_like_one(self):
        """A bare data set whose value at byte 128 is that of a head is accepted, and otherwise keeps code and place."""
        like = element(0x00080001, "LO", b"x" * 120 + b"DICM\2\0" + b"x" * 2) + good_run()
        self.assertEqual(like[128:134], b"DICM\2\0")
        self.put("like.xa", like)
        self.assertEqual(self.lines("judge", "like.xa")[0], "like.xa: accepted")
        self.put("cut.xa", like[:-2])
        place = rules.judge(like[:-2], LARGE).answer.offset
        self.assertTrue(self.lines("judge", "cut.xa", status=REFUSED)[0].startswith(f"cut.xa: code 1 at byte {place}: "))

    def test_thousands_of_small_files(self):
        """Verdicts, order and counts, as the independent program gives them, with one worker and with several."""
        runs = mixed_runs(3000)
        for number, data in enumerate(runs):
            self.put(f"runs/{number // 100:02d}/{number:04d}.xa", data)
        answers = [rules.judge(data, LARGE).answer for data in runs]
        accepted = sum(answer.code == 0 for answer in answers)
        self.assertEqual({answer.rule for answer in answers}, {0, *rules.RULES})
        for jobs in ("1", "5"):
            said = self.lines("judge", "runs", "--jobs", jobs, status=REFUSED)
            self.assertEqual(said[-1], f"3000 files: {accepted} accepted, {3000 - accepted} refused, 0 could not be read")
            self.assertEqual(len(said), 3001)
            for number, (line, answer) in enumerate(zip(said, answers)):
                wanted = f"runs/{number // 100:02d}/{number:04d}.xa: {expected_line(answer, runs[number])}"
                self.assertTrue(line == wanted or answer.code in range(1, 7) and line.startswith(wanted), (line, wanted))
        objects = [json.loads(line) for line in self.lines("judge", "runs", "--json", status=REFUSED)]
        self.assertEqual(len(objects), len(answers))
        for one, answer in zip(objects, answers):
            self.check_json(one, answer)
        items = [item_row(data, answer.frame) if answer.frame else 0 for data, answer in zip(runs, answers)]
        self.assertEqual([one["item_row"] for one in objects], items)
        self.assertGreater(len(set(items)), 50)

    def test_many_rows(self):
        """More rows than the first buffer holds: up to the most that the bytes can have."""
        items = 300_000
        data = element_header(0x00081140, "SQ", 8 * items) + item_header(0) * items
        self.put("items.xa", data)
        objects = json.loads(self.lines("judge", "items.xa", "--json", status=REFUSED)[0])
        self.assertEqual((objects["code"], objects["rows"], objects["rule"]), (9, items + 1, 1))
        self.put("frames.xa", good_run(frames=20_000, rows=1, columns=1))
        self.assertEqual(self.lines("judge", "frames.xa")[0], "frames.xa: accepted")

    def test_changed_meanwhile(self):
        """A file that is touched again and again while millions of rows are read from it gets no verdict."""
        items = 3_000_000
        self.put("run.xa", element_header(0x00081140, "SQ", 8 * items) + item_header(0) * items)
        process = subprocess.Popen([TOOL, "judge", "--bare", "run.xa"], cwd=self.folder, stdout=subprocess.PIPE)
        times = 0
        while process.poll() is None:
            times += 1
            os.utime(self.path("run.xa"), (times, times))
        said = process.communicate()[0].decode().splitlines()
        self.assertEqual(process.returncode, FAILED)
        self.assertTrue(said[0].startswith("run.xa: changed while luux was reading it"), said[0])
        self.assertEqual(self.lines("judge", "run.xa", status=REFUSED)[0], f"run.xa: rule 1, frame 0: {SENTENCES[1]}")

    def test_too_large(self):
        """Code 7, with a file that has no bytes on the disk."""
        with open(self.path("huge.xa"), "wb") as file:
            file.truncate(2 ** 30 + 1)
        self.assertTrue(self.lines("judge", "huge.xa", status=REFUSED)[0].startswith("huge.xa: code 7: more than 1073741824"))

    def test_usage(self):
        for words in ((), ("judge",), ("judge", "x", "--jobs", "0"), ("judge", "--unknown", "x"), ("burn",), ("slip",)):
            self.assertIn(b"--help", self.luux(*words, status=FAILED).stderr)
        said = self.luux("--help").stdout.decode()
        for word in ("rows", "judge", "show", "contact", "slip", "demo", "Exit status"):
            self.assertIn(word, said)
        self.assertIn(b"--slips", self.luux("judge", "--help").stdout)


class TestJson(Desk):
    def test_fields(self):
        self.put("good.xa", good_run())
        self.put("bad.xa", content_left_out(5))
        self.put("head.dcm", with_head(good_run()))
        done = self.luux("judge", "good.xa", "bad.xa", "head.dcm", "gone.xa", "--json", status=FAILED)
        good, bad, head, gone = map(json.loads, done.stdout.decode().splitlines())
        rows = reading.read(good_run(), LARGE).answer.rows
        self.assertEqual(good.pop("identity").keys(), {"acquisition_datetime"})
        self.assertEqual(good, {"path": "good.xa", "verdict": "accepted", "code": 0, "offset": 0, "rows": rows, "rule": 0,
                                "frame": 0, "searches": rules.judge(good_run(), LARGE).answer.searches, "item_row": 0, "sentence": "accepted"})
        self.assertEqual((bad["verdict"], bad["code"], bad["rule"], bad["frame"], bad["item_row"], bad["sentence"]),
                         ("refused", 9, 28, 5, item_row(content_left_out(5), 5), SENTENCES[28]))
        self.assertEqual((head["code"], "start" in head, "hint" in head), (3, False, False))
        self.assertEqual((gone["path"], gone["verdict"]), ("gone.xa", "none"))
        self.assertIn("no such file", gone["error"])
        self.assertIn(b"4 files: 1 accepted, 2 refused, 1 could not be read", done.stderr)


class TestSearches(Desk):
    def test_told(self):
        """How many rows judging is said to look at, of a run that is accepted and of no other."""
        self.put("good.xa", good_run())
        self.put("bad.xa", content_left_out(5))
        sum = rules.judge(good_run(), LARGE).answer.searches
        good, bad = self.lines("judge", "good.xa", "bad.xa", "--searches", status=REFUSED)[:2]
        self.assertGreater(sum, 0)
        self.assertEqual(good, f"good.xa: accepted; searches: {sum} rows")
        self.assertNotIn("searches", bad)
