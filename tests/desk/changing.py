"""Files that change while the tool looks at them, and files that still arrive."""

import json
import mmap
import os
import random
import signal
import struct
import subprocess
import sys
import threading
import time
import unittest

from desk.common import FAILED, FINE, LARGE, NOBODY, REFUSED, TOOL, Desk, alone, good_run, read_pgm, with_head
from generators import enhanced_xa as xa
from generators.objects import encode
from reference import attributes as tags
from reference import files, slips

RUNS = 1000
STARVED = int(os.environ.get("LUUX_STARVED", 150))  # runs beside busy loops, with all of it on one processor
BUSY = 6
PAUSE = 0.1  # seconds between the two readings of a file without a lease
GAP = 0.01  # seconds; a file that is touched as often is never read
CHECKS = 10  # pictures, and refusals, of a file without a lease that must have been met
TRIES = 400  # the most runs in which a busy machine must let us see what we look for
CHANGED = b"changed while luux was reading it"
WRITTEN = b"another program has it open for writing"


def two_runs():
    """Two runs of one length: frames of another form, masks and pixels."""
    made = []
    for seed, rows, columns in ((1, 64, 256), (2, 256, 64)):
        model = xa.build(random.Random(3), xa.Shape(frames=3, rows=2, columns=2, masks=("AVG_SUB",), bits_allocated=16, bits_stored=12,
                                                    extras=False))
        model[tags.ROWS], model[tags.COLUMNS] = xa.us(rows), xa.us(columns)
        size = 3 * rows * columns
        model[tags.PIXEL_DATA] = ("OW", struct.pack(f"<{size}H", *random.Random(seed).choices(range(4096), k=size)))
        made.append(with_head(encode(model)))
    assert len(made[0]) == len(made[1])
    return made


class TestChanging(Desk):
    bare = False

    def writing(self, path, contents, how):
        """Writes one content after another over a file, with pauses of all lengths, until it is stopped."""
        stop = threading.Event()

        def work():
            rng = random.Random(4)
            number = 0
            while not stop.is_set():
                number += 1
                how(path, contents[number % len(contents)])
                time.sleep(rng.choice((0, 0, 0.001, 0.005, 0.03)))

        thread = threading.Thread(target=work)
        thread.start()
        self.addCleanup(thread.join)
        self.addCleanup(stop.set)
        return stop

    @staticmethod
    def overwrite(path, content):
        """In pieces, so that a reader meets old and new bytes."""
        with open(path, "r+b", buffering=0) as file:
            for start in range(0, len(content), 16384):
                os.pwrite(file.fileno(), content[start:start + 16384], start)

    @staticmethod
    def cut_and_write(path, content):
        with open(path, "wb") as file:
            file.write(content)

    @staticmethod
    def through_a_mapping(path, content):
        with open(path, "r+b") as file, mmap.mmap(file.fileno(), len(content)) as map:
            map[:] = content

    def show(self, *more, **options):
        return subprocess.run([TOOL, "show", "run.dcm", "2", "-o", "x.pgm", *more], cwd=self.folder, capture_output=True, timeout=100, **options)

    def pictures(self, contents, frame):
        wanted = []
        for content in contents:
            shown = files.show_file(content, frame, LARGE, LARGE)
            self.assertEqual(shown.answer.code, 0)
            wanted.append(shown.image)
        return wanted

    def test_no_picture_of_changed_bytes(self):
        """A thousand pictures of a run that another process writes over: each is of one of its two contents, or there is none."""
        contents = two_runs()
        ends = self.race(contents, ((self.overwrite, RUNS - 300), (self.cut_and_write, 300)))
        self.assertGreater(min(ends.values()), 20, ends)

    # Alone: its busy loops would slow down whatever else is on that processor.
    @alone
    def test_no_picture_of_changed_bytes_when_starved(self):
        """The same with the writer, the tool and busy loops on one processor, so that a writer stops anywhere for long; even within a write."""
        contents = two_runs()
        before = os.sched_getaffinity(0)
        self.addCleanup(os.sched_setaffinity, 0, before)
        # What is started from here on has the one processor.
        os.sched_setaffinity(0, {min(before)})
        for _ in range(BUSY):
            loop = subprocess.Popen([sys.executable, "-c", "while True: pass"])
            self.addCleanup(loop.wait)
            self.addCleanup(loop.kill)
        third = STARVED // 3
        rounds = ((self.overwrite, third), (self.cut_and_write, third), (self.through_a_mapping, third))
        ends = self.race(contents, rounds, own_process=True)
        # About one in 25 meets the writer, so that none does is rare, and ten times in a row does not happen.
        for _ in range(9):
            if min(ends.values()) > 0:
                break
            ends = self.race(contents, rounds, own_process=True)
        self.assertGreater(min(ends.values()), 0, ends)

    def race(self, contents, rounds, own_process=False):
        """Pictures beside a writer; how many there were, and how often there was none."""
        wanted = self.pictures(contents, 2)
        ends = {FINE: 0, FAILED: 0}
        for how, count in rounds:
            # The last writer may have been stopped halfway.
            self.put("run.dcm", contents[0])
            stop = (self.writing_apart if own_process else self.writing)(self.path("run.dcm"), contents, how)
            for _ in range(count):
                done = self.show()
                if done.returncode == REFUSED:
                    # Cut at that moment: a verdict on what the file then was.
                    self.assertEqual(how, self.cut_and_write, done.stdout)
                    continue
                self.assertIn(done.returncode, ends, done)
                ends[done.returncode] += 1
                if done.returncode == FINE:
                    self.assertTrue(read_pgm(self.path("x.pgm"))[2] in wanted, "a picture of mixed bytes")
                else:
                    self.assertRegex(done.stderr, CHANGED + b"|" + WRITTEN)
            stop.set()
            time.sleep(0.1)
        return ends

    def writing_apart(self, path, contents, how):
        """Like `writing`, by a process that gets its turn like any other."""
        child = os.fork()
        if child == 0:
            try:
                rng = random.Random(4)
                for number in range(10 ** 9):
                    how(path, contents[number % len(contents)])
                    time.sleep(rng.choice((0, 0, 0.001, 0.005, 0.03, 0.2)))
            finally:
                os._exit(0)
        stop = threading.Event()
        ended = []

        def end():
            if not ended:
                ended.append(True)
                os.kill(child, signal.SIGKILL)
                os.waitpid(child, 0)
        self.addCleanup(end)
        stop.set = end
        return stop

    def test_a_writer_that_stops_halfway(self):
        """Bytes of two runs, and nothing changes any more; but who wrote them is not done, by its file or by a mapping."""
        contents = two_runs()
        half = len(contents[0]) // 2
        self.put("run.dcm", contents[0])
        for mapped in (False, True):
            with open(self.path("run.dcm"), "r+b", buffering=0) as file:
                if mapped:
                    map = mmap.mmap(file.fileno(), len(contents[0]))
                    map[:half] = contents[1][:half]
                else:
                    os.pwrite(file.fileno(), contents[1][:half], 0)
                if mapped:
                    file.close()
                time.sleep(0.1)
                for words in (("judge",), ("rows",), ("show", "2", "-o", "x.pgm"), ("sheet",), ("contact", "-o", "x.pgm"), ("canonical", "-o", "x"),
                              ("duplicates",), ("linear", "1"), ("report",), ("judge", "--timeout", "60")):
                    done = self.luux(words[0], "run.dcm", *words[1:], status=FINE if words == ("report",) else FAILED)
                    if words == ("report",):
                        with open(self.path("report.html"), "rb") as page:
                            self.assertIn(WRITTEN, page.read())
                        os.remove(self.path("report.html"))
                    else:
                        self.assertIn(WRITTEN, done.stdout + done.stderr)
                self.assertEqual(os.listdir(self.folder), ["run.dcm"])
                done = self.luux("judge", "run.dcm", "--settle", "0.05", status=FAILED)
                self.assertIn(b"run.dcm: arriving: another program has it open for writing\n", done.stdout)
                if mapped:
                    map.close()
            self.put("run.dcm", contents[1])
            self.assertEqual(self.show().returncode, FINE)
            self.assertTrue(read_pgm(self.path("x.pgm"))[2] == self.pictures(contents, 2)[1])
            os.remove(self.path("x.pgm"))

    def test_writers_wait_for_no_more_than_the_reading(self):
        """A writer that opens the file meanwhile is held back, not refused, and the tool is not ended by that."""
        run = with_head(good_run(frames=1, rows=1, columns=1))
        self.put("run.dcm", run[:-2])
        os.truncate(self.path("run.dcm"), 300 << 20)
        time.sleep(0.1)
        met = 0
        for _ in range(40):
            process = subprocess.Popen([TOOL, "judge", "run.dcm"], cwd=self.folder, stdout=subprocess.PIPE, stderr=subprocess.PIPE)
            while process.poll() is None:
                with open(self.path("run.dcm"), "r+b"):
                    pass
            out, _ = process.communicate()
            self.assertIn(process.returncode, (REFUSED, FAILED), process)
            met += CHANGED in out or WRITTEN in out
        self.assertGreater(met, 0)

    # Alone: it measures time, and counts only pictures during which no write was held up.
    @alone
    @unittest.skipUnless(os.getuid() == 0, "users get leases on their own files; only root can act as another user")
    def test_no_lease(self):
        """Without a lease on another user's file, luux waits until it has been left alone, and refuses it if it reads differently the second time."""
        contents = two_runs()
        wanted = self.pictures(contents, 2)
        os.chmod(self.folder, 0o777)
        self.put("run.dcm", contents[0])
        other = {"user": NOBODY, "group": NOBODY, "extra_groups": []}
        begun = time.monotonic()
        self.assertEqual(self.show(**other).returncode, FINE)
        self.assertGreater(time.monotonic() - begun, 1.5)
        begun = time.monotonic()
        self.assertEqual(self.show(**other).returncode, FINE)
        self.assertLess(time.monotonic() - begun, 1.5)
        os.utime(self.path("run.dcm"), (1, 1))
        with open(self.path("run.dcm"), "r+b") as file, mmap.mmap(file.fileno(), len(contents[0])) as map:
            map[:] = contents[1]
            time.sleep(2.2)
            stop = threading.Event()
            begun, slowest, rest = time.monotonic(), 0, 0

            def flip():
                nonlocal begun, slowest
                number = 0
                while not stop.is_set():
                    number += 1
                    begun = time.monotonic()
                    map[:] = contents[number % 2]
                    slowest = max(slowest, time.monotonic() - begun)
                    time.sleep(rest)
            thread = threading.Thread(target=flip)
            thread.start()
            ends = {FINE: 0, FAILED: 0}
            try:
                # Without a rest, writes nearly always meet a reading. With rests so long that an even number of writes falls between the readings,
                # both often find the same run.
                for rest in (0, PAUSE / 4) * (TRIES // 2):
                    slowest = 0
                    done = self.show(**other)
                    self.assertIn(done.returncode, ends, done)
                    # A write that a busy machine stops for longer than the pause between the two readings goes unnoticed.
                    if max(slowest, time.monotonic() - begun) >= PAUSE:
                        continue
                    ends[done.returncode] += 1
                    if done.returncode == FINE:
                        self.assertTrue(read_pgm(self.path("x.pgm"))[2] in wanted, "a picture of mixed bytes")
                    else:
                        self.assertIn(CHANGED, done.stderr)
                    if min(ends.values()) >= CHECKS:
                        break
            finally:
                stop.set()
                thread.join()
            self.assertGreaterEqual(min(ends.values()), CHECKS, ends)

    def test_the_race_is_one(self):
        """What these tests look for does happen where the tool lends a mapping: a picture of no run, or a crash."""
        contents = two_runs()
        wanted = self.pictures(contents, 2)
        self.put("run.dcm", contents[0])
        child = os.fork()
        if child == 0:
            try:
                with open(self.path("run.dcm"), "r+b") as file, mmap.mmap(file.fileno(), len(contents[0])) as map:
                    while True:
                        for content in contents:
                            map[:] = content
            finally:
                os._exit(0)
        self.addCleanup(os.waitpid, child, 0)
        self.addCleanup(os.kill, child, signal.SIGKILL)
        for _ in range(2000):
            done = self.show("--map")
            crashed = done.returncode < 0
            if crashed or done.returncode == FINE and read_pgm(self.path("x.pgm"))[2] not in wanted:
                return
        self.fail("the writer met no picture in 2000")

    def test_no_crash_whoever_writes(self):
        """The size of a frame changes under a mapping, which shows in no time: every command ends by itself."""
        contents = two_runs()
        self.put("run.dcm", contents[0])
        stop = self.writing(self.path("run.dcm"), contents, self.through_a_mapping)
        for words in (("judge", "run.dcm"), ("rows", "run.dcm"), ("contact", "run.dcm", "-o", "x.pgm"), ("sheet", "run.dcm", "--numbers"),
                      ("canonical", "run.dcm", "-o", "x"), ("linear", "run.dcm", "1", "-o", "x.pgm"), ("show", "run.dcm", "3", "-o", "x.pgm")):
            for _ in range(15):
                done = subprocess.run([TOOL, *words], cwd=self.folder, capture_output=True, timeout=60)
                self.assertIn(done.returncode, (FINE, REFUSED, FAILED), (words, done))
        stop.set()

    def test_changed_meanwhile(self):
        """A run that is touched again and again gets no verdict, no picture and no sheet, whatever the command."""
        frames = 60
        model = xa.build(random.Random(5), xa.Shape(frames=frames, masks=("AVG_SUB",), bits_allocated=8, bits_stored=8, extras=False))
        model[tags.ROWS] = model[tags.COLUMNS] = xa.us(512)
        model[tags.PIXEL_DATA] = ("OB", bytes(frames * 512 * 512))
        self.put("run.dcm", with_head(encode(model)))
        for words in (("judge", "run.dcm"), ("contact", "run.dcm", "-o", "x.pgm"), ("sheet", "run.dcm"), ("show", "run.dcm", "1", "-o", "x.pgm"),
                      ("canonical", "run.dcm", "-o", "x")):
            for _ in range(TRIES):
                process = subprocess.Popen([TOOL, *words], cwd=self.folder, stdout=subprocess.PIPE, stderr=subprocess.PIPE)
                times = gap = 0
                last = time.monotonic()
                while process.poll() is None:
                    times += 1
                    os.utime(self.path("run.dcm"), (times, times))
                    gap, last = max(gap, time.monotonic() - last), time.monotonic()
                gap = max(gap, time.monotonic() - last)  # since the last touch
                out, told = process.communicate()
                if process.returncode != FINE or gap < GAP:
                    break
                # The machine was too busy to let us touch the run in time.
                for name in {"x", "x.pgm"} & set(os.listdir(self.folder)):
                    os.remove(self.path(name))
            self.assertEqual(process.returncode, FAILED, (words, gap))
            self.assertIn(CHANGED, out + told, words)
        self.assertEqual(os.listdir(self.folder), ["run.dcm"])


class TestArriving(Desk):
    bare = False

    def test_slow_copy(self):
        """A run that is copied in pieces is arriving until it is whole, though its time is set back after each piece."""
        content = with_head(good_run(frames=20, rows=32, columns=32))
        self.put("in/whole.dcm", content)
        os.utime(self.path("in", "whole.dcm"), (1, 1))
        half = threading.Event()

        def copy():
            step = len(content) // 8 + 1
            with open(self.path("in", "late.dcm"), "wb", buffering=0) as file:
                for start in range(0, len(content), step):
                    file.write(content[start:start + step])
                    os.utime(self.path("in", "late.dcm"), (1, 1))
                    half.set()
                    time.sleep(0.4)

        thread = threading.Thread(target=copy)
        thread.start()
        half.wait()
        done = self.luux("judge", "in", "--settle", "10")
        self.assertEqual(done.stdout.decode().splitlines(), [
            "in/late.dcm: arriving: it changed while luux was watching", "in/whole.dcm: accepted",
            "2 files: 1 accepted, 0 refused, 0 could not be read, 1 arriving"])
        thread.join()
        self.assertEqual(self.lines("judge", "in", "--settle", "0.3")[:2], ["in/late.dcm: accepted", "in/whole.dcm: accepted"])

    def test_young(self):
        self.put("in/old.dcm", with_head(good_run()))
        self.put("in/young.dcm", with_head(good_run())[:-2])
        self.put("in/future.dcm", with_head(good_run())[:-2])
        self.put("slips/in/young.dcm.slip", slips.slip_bytes(0, 0, 0, 0, 57))
        os.utime(self.path("in", "old.dcm"), (time.time() - 500,) * 2)
        os.utime(self.path("in", "young.dcm"), (time.time() - 100,) * 2)
        os.utime(self.path("in", "future.dcm"), (time.time() + 500,) * 2)
        words = ("judge", "in", "--settle", "300", "--slips", "slips", "--move-accepted", "done", "--move-refused", "bad")
        objects = [json.loads(line) for line in self.lines(*words, "--json")]
        self.assertEqual([(one["path"], one["verdict"]) for one in objects],
                         [("in/future.dcm", "arriving"), ("in/old.dcm", "accepted"), ("in/young.dcm", "arriving")])
        self.assertRegex(objects[2]["error"], "^written to 10[0-9] seconds ago, and --settle asks for 300$")
        # The slip of an older copy no longer holds.
        self.assertEqual(objects[2]["old_slip"], "slips/in/young.dcm.slip.old")
        self.assertEqual(sorted(os.listdir(self.path("in"))), ["future.dcm", "young.dcm"])
        self.luux("judge", "in", "--settle", "0", status=REFUSED)
        for wrong in ("-1", "soon", "nan", "inf"):
            self.assertIn(b"seconds", self.luux("judge", "in", f"--settle={wrong}", status=FAILED).stderr)

    def test_nothing_has_arrived(self):
        """Nobody looked at a run, so the status is not that of a good night: all are arriving, or the others are not ours."""
        for more in ((), ("notes.txt",)):
            for name in ("a.dcm", "b.dcm", *more):
                self.put(f"in/{name}", with_head(good_run()) if name.endswith(".dcm") else b"notes")
            if more:
                os.utime(self.path("in", "notes.txt"), (1, 1))
            for command, nothing in (("judge", b"nothing was judged: "), ("duplicates", b"nothing was compared: ")):
                done = self.luux(command, "in", "--settle", "300", status=FAILED)
                self.assertIn(b"2 arriving", done.stdout)
                self.assertIn(nothing + b"no runs were found, or all are still arriving\n", done.stderr)
        os.utime(self.path("in", "a.dcm"), (1, 1))
        for command in ("judge", "duplicates"):
            self.assertIn(b"1 not ours, 1 arriving", self.luux(command, "in", "--settle", "300").stdout)

    def test_other_commands(self):
        """Every command that searches folders leaves out files that are arriving, and says the same with --timeout."""
        for name, content in (("a", good_run()), ("b", good_run()), ("c", good_run()[:-2]), ("young", good_run())):
            self.put(f"in/{name}.dcm", with_head(content))
            os.utime(self.path("in", f"{name}.dcm"), (time.time() - (0 if name == "young" else 500),) * 2)
        done = self.luux("duplicates", "in", "--settle", "300", status=REFUSED)
        self.assertEqual(done.stdout.decode().splitlines()[1:], [
            "  in/a.dcm", "  in/b.dcm", "4 files: 2 equal in 1 group, 1 refused, 0 could not be read, 1 arriving"])
        self.assertRegex(done.stderr, b"in/young.dcm: arriving: written to \\d+ seconds ago")
        said = self.luux("report", "in", "--settle", "300", "--csv").stdout.decode()
        self.assertIn("2 accepted, 1 refused, 0 could not be read, 1 arriving", said)
        with open(self.path("report.csv"), encoding="utf-8") as file:
            self.assertRegex(file.read(), "in/young.dcm,arriving,")
        for words, status in ((("duplicates", "in"), REFUSED), (("report", "in", "--csv"), FINE)):
            said, tables = [], []
            for more in ((), ("--timeout", "60")):
                done = self.luux(*words, *more, status=status)
                said.append((done.stdout, done.stderr))
                with open(self.path("report.csv"), "rb") as file:
                    tables.append(file.read())
                with open(self.path("report.html"), "rb") as file:
                    tables.append(file.read().count(b"data:image/png"))
            self.assertEqual(said[0], said[1])
            self.assertEqual(tables[:2], tables[2:])
