"""Storage that fails, hangs or is full: one line for the file, and the batch goes on."""

import os
import shutil
import subprocess
import tempfile

from desk.common import FAILED, FINE, REFUSED, Desk, good_run, with_head
from reference import slips

HERE = os.path.dirname(os.path.abspath(__file__))


class TestDisks(Desk):
    bare = False

    @classmethod
    def setUpClass(cls):
        super().setUpClass()
        cls.built = tempfile.mkdtemp(prefix="luux-disk-")
        cls.stand_in = os.path.join(cls.built, "disk.so")
        subprocess.run(["gcc", "-shared", "-fPIC", "-O1", "-o", cls.stand_in, os.path.join(HERE, "disk.c"), "-ldl"], check=True)

    @classmethod
    def tearDownClass(cls):
        shutil.rmtree(cls.built)
        super().tearDownClass()

    def with_bad_disk(self, *words, status):
        return self.luux(*words, status=status, env={**os.environ, "LD_PRELOAD": self.stand_in})

    def test_a_sector_that_cannot_be_read(self):
        run = with_head(good_run(frames=3, rows=64, columns=64))
        for name in ("runs/a.dcm", "runs/bad-sector.dcm", "runs/c.dcm"):
            self.put(name, run)
        self.put("slips/runs/bad-sector.dcm.slip", slips.slip_bytes(0, 0, 0, 0, 57))
        for more in ((), ("--timeout", "20")):
            said = self.with_bad_disk("judge", "runs", "--slips", "slips", *more, status=FAILED).stdout.decode().splitlines()
            self.assertEqual((said[0], said[2]), ("runs/a.dcm: accepted", "runs/c.dcm: accepted"))
            self.assertTrue(said[1].startswith("runs/bad-sector.dcm: cannot be read: Input/output error"), said[1])
            self.assertEqual(said[3], "3 files: 2 accepted, 0 refused, 1 could not be read")
        self.assertEqual(sorted(os.listdir(self.path("slips", "runs"))), ["a.dcm.slip", "bad-sector.dcm.slip.old", "c.dcm.slip"])
        for words in (("rows", "runs/bad-sector.dcm"), ("show", "runs/bad-sector.dcm", "1"), ("contact", "runs/bad-sector.dcm"),
                      ("sheet", "runs/bad-sector.dcm"), ("canonical", "runs/bad-sector.dcm", "-o", "x"), ("linear", "runs/bad-sector.dcm", "1"),
                      ("duplicates", "runs")):
            self.assertIn(b"Input/output error", self.with_bad_disk(*words, status=FAILED).stderr)

    def test_a_device_that_ends_too_soon(self):
        """A real one: a file system whose device loses its second half."""
        if os.getuid() != 0 or not all(map(shutil.which, ("losetup", "mkfs.ext2", "mount"))):
            self.skipTest("only root can mount a file system of its own")
        os.mkdir(self.path("disk"))
        with open(self.path("image"), "wb") as image:
            image.truncate(16 << 20)
        subprocess.run(["mkfs.ext2", "-q", "-F", self.path("image")], check=True)
        found = subprocess.run(["losetup", "-f", "--show", self.path("image")], capture_output=True, text=True)
        if found.returncode:
            self.skipTest("there is no loop device")
        device = found.stdout.strip()
        self.addCleanup(subprocess.run, ["losetup", "-d", device])
        if subprocess.run(["mount", "-t", "ext2", device, self.path("disk")], capture_output=True).returncode:
            self.skipTest("nothing can be mounted")
        self.addCleanup(subprocess.run, ["umount", self.path("disk")])
        # Headers all over it.
        run = with_head(good_run(frames=65_000, rows=1, columns=1))
        self.assertGreater(len(run), 1_800_000)
        for name in "abcdef":
            self.put(f"disk/{name}.dcm", run)
        subprocess.run(["sync", "-f", self.path("disk")], check=True)
        os.truncate(self.path("image"), 6 << 20)
        for name in "abcdef":
            with open(self.path("disk", f"{name}.dcm"), "rb") as file:
                os.posix_fadvise(file.fileno(), 0, 0, os.POSIX_FADV_DONTNEED)
        said = self.lines("judge", *(f"disk/{name}.dcm" for name in "abcdef"), status=FAILED)
        bad = [line for line in said[:-1] if "cannot be read: Input/output error" in line]
        self.assertGreater(len(bad), 2, said)
        self.assertEqual(len(bad) + sum(line.endswith(": accepted") for line in said[:-1]), 6, said)
        self.assertEqual(said[-1], f"6 files: {6 - len(bad)} accepted, 0 refused, {len(bad)} could not be read")
        # Mapped, the process of the file ends by a signal, and the batch goes on.
        for line in self.lines("judge", "--map", "--timeout", "20", *(f"disk/{name}.dcm" for name in "abcdef"), status=FAILED)[:-1]:
            self.assertRegex(line, r"^disk/[a-f]\.dcm: (accepted|the process that judged it ended with signal 7; there is no verdict)$")

    def test_a_disk_that_hangs(self):
        for name in ("runs/a.dcm", "runs/slow-disk.dcm", "runs/c.dcm"):
            self.put(name, with_head(good_run()))
        said = self.with_bad_disk("judge", "runs", "--timeout", "1", status=FAILED).stdout.decode().splitlines()
        self.assertEqual(said, ["runs/a.dcm: accepted", "runs/c.dcm: accepted",
                                "runs/slow-disk.dcm: took longer than the --timeout of 1 s; there is no verdict",
                                "3 files: 2 accepted, 0 refused, 1 could not be read"])
        done = self.with_bad_disk("duplicates", "runs", "--timeout", "1", status=FAILED)
        self.assertTrue(done.stdout.endswith(b"3 files: 2 equal in 1 group, 0 refused, 1 could not be read\n"), done.stdout)
        self.assertEqual(done.stderr, b"luux: runs/slow-disk.dcm: took longer than the --timeout of 1 s; there is no verdict\n")
        done = self.with_bad_disk("report", "runs", "--timeout", "1", status=FINE)
        self.assertIn(b"2 accepted, 0 refused, 1 could not be read", done.stdout)

    def test_a_full_disk(self):
        """Slips, pictures and canonical forms that cannot be written leave nothing behind, and older files stay."""
        for name in ("runs/a.dcm", "runs/b.dcm"):
            self.put(name, with_head(good_run()))
        for place, trouble in (("full-disk", "No space left on device"), ("lost-disk", "Input/output error")):
            self.put(f"{place}/runs/a.dcm.slip", slips.slip_bytes(0, 0, 0, 0, 57))
            said = self.with_bad_disk("judge", "runs", "--slips", place, "--move-accepted", "done", status=FAILED).stdout.decode().splitlines()
            for name, line in zip("ab", said):
                start = f"runs/{name}.dcm: accepted; its slip {place}/runs/{name}.dcm.slip cannot be written: {trouble}"
                self.assertTrue(line.startswith(start), line)
            self.assertEqual(said[2], "2 files: 2 accepted, 0 refused, 0 could not be read, 2 slips could not be written")
            self.assertEqual(os.listdir(self.path(place, "runs")), ["a.dcm.slip"])
            for words in (("show", "runs/a.dcm", "1", "-o", f"{place}/x.png"), ("contact", "runs/a.dcm", "-o", f"{place}/x.pgm"),
                          ("canonical", "runs/a.dcm", "-o", f"{place}/x")):
                self.assertIn(trouble.encode(), self.with_bad_disk(*words, status=FAILED).stderr)
            self.assertEqual(os.listdir(self.path(place)), ["runs"])

    def test_a_small_disk(self):
        """The same on a file system that is full."""
        os.mkdir(self.path("small"))
        if os.getuid() != 0 or subprocess.run(["mount", "-t", "tmpfs", "-o", "size=16k", "none", self.path("small")], capture_output=True).returncode:
            self.skipTest("nothing can be mounted")
        self.addCleanup(subprocess.run, ["umount", self.path("small")])
        for number in range(30):
            self.put(f"runs/{number:02d}.dcm", with_head(good_run()))
        said = self.lines("judge", "runs", "--slips", "small", status=FAILED)
        lost = sum("No space left on device" in line for line in said)
        self.assertEqual(said[-1], f"30 files: 30 accepted, 0 refused, 0 could not be read, {lost} slips could not be written")
        left = [os.path.join(folder, name) for folder, _, names in os.walk(self.path("small")) for name in names]
        self.assertEqual(len(left), 30 - lost)
        self.luux("slip", "read", *left, status=FINE)


class TestTime(Desk):
    bare = False

    def test_the_same_verdicts(self):
        """With --timeout every file is judged in a process of its own, and what is said is the same."""
        self.put("runs/a.dcm", with_head(good_run()))
        self.put("runs/b.dcm", with_head(good_run()[:-2]))
        self.put("runs/c\n\\.txt", b"notes")
        self.put("runs/d.dcm", with_head(good_run(), syntax=b"1.2.840.10008.1.2.4.50"))
        self.put("runs/e.dcm", with_head(good_run(frames=3000, rows=1, columns=1)))
        for more in ((), ("--json",), ("--bare",), ("--map",), ("--memory", "2M")):
            wanted = self.luux("judge", "runs", *more, status=REFUSED)
            found = self.luux("judge", "runs", *more, "--timeout", "1e19" if "--map" in more else "60", status=REFUSED)
            self.assertEqual((found.stdout, found.stderr), (wanted.stdout, wanted.stderr), more)
        for wrong in ("-1", "never"):
            self.luux("judge", "runs", f"--timeout={wrong}", status=FAILED)
        self.assertNotIn(b"look", self.luux("--help").stdout.split(b"Commands:")[1].split(b"Options:")[0].replace(b"looked", b""))
