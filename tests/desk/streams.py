"""Standard output and standard error: closed pipes, full devices, terminals."""

import os
import pty
import subprocess

from desk.common import FAILED, REFUSED, TOOL, Desk, good_run


class TestStreams(Desk):
    def setUp(self):
        super().setUp()
        self.put("run.xa", good_run(frames=3000, rows=1, columns=1))
        for number in range(200):
            self.put(f"runs/{number}", b"\0")

    def test_closed_pipe(self):
        for words in (("judge", "runs"), ("judge", "runs", "--json"), ("rows", "run.xa", "--bare"), ("slip", "read", "run.xa"),
                      ("show", "run.xa", "1", "--bare"), ("demo",)):
            reading_end, writing_end = os.pipe()
            os.close(reading_end)
            done = subprocess.run([TOOL, *words], cwd=self.folder, stdout=writing_end, stderr=subprocess.PIPE, timeout=60)
            os.close(writing_end)
            self.assertEqual((done.returncode, done.stderr), (FAILED, b""), words)

    def test_full_device(self):
        with open("/dev/full", "wb") as full:
            done = subprocess.run([TOOL, "judge", "runs"], cwd=self.folder, stdout=full, stderr=subprocess.PIPE)
        self.assertEqual(done.returncode, FAILED)
        self.assertIn(b"standard output cannot be written", done.stderr)

    def test_closed_standard_error(self):
        reading_end, writing_end = os.pipe()
        os.close(reading_end)
        done = subprocess.run([TOOL, "judge", "runs", "--json"], cwd=self.folder, stdout=subprocess.DEVNULL,
                              stderr=writing_end)
        os.close(writing_end)
        self.assertEqual(done.returncode, REFUSED)

    def on_terminal(self, *words):
        """Standard output, and standard error where that is a terminal."""
        ours, theirs = pty.openpty()
        with open(self.path("out"), "wb") as out:
            process = subprocess.Popen([TOOL, *words], cwd=self.folder, stdout=out, stderr=theirs)
        os.close(theirs)
        said = b""
        try:
            while part := os.read(ours, 65536):
                said += part
        except OSError:
            pass  # so ends a terminal that nobody writes to any more
        os.close(ours)
        process.wait(timeout=60)
        with open(self.path("out"), "rb") as out:
            return out.read(), said

    def test_progress_only_on_a_terminal(self):
        out, said = self.on_terminal("judge", "runs")
        self.assertIn(b"of 200 files", said)
        self.assertEqual(len(out.splitlines()), 201)
        self.assertEqual(self.on_terminal("judge", "run.xa")[1], b"")
        self.assertEqual(self.luux("judge", "runs", status=REFUSED).stderr, b"")
