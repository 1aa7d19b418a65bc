"""The script ./luux, which builds the tool and starts it."""

import os
import subprocess

from desk.common import FAILED, FINE, REFUSED, WRAPPER, Desk, good_run


class TestWrapper(Desk):
    def test_paths_are_those_of_the_caller(self):
        self.put("here/good.xa", good_run())
        os.symlink(WRAPPER, self.path("linked"))
        for tool in (WRAPPER, self.path("linked")):
            done = subprocess.run([tool, "judge", "--bare", "good.xa"], cwd=self.path("here"), capture_output=True)
            self.assertEqual((done.returncode, done.stderr), (FINE, b""))
            self.assertTrue(done.stdout.startswith(b"good.xa: accepted\n"))

    def test_starts_at_once(self):
        best = 9.0  # of the processor's time, which other work on the machine leaves as it is
        for _ in range(10):
            start = os.times()
            subprocess.run([WRAPPER, "--version"], check=True, stdout=subprocess.DEVNULL)
            end = os.times()
            best = min(best, end.children_user + end.children_system - start.children_user - start.children_system)
        self.assertLess(best, 0.1, "seconds")

    def test_exit_status_goes_through(self):
        self.luux("judge", "gone", status=FAILED, tool=WRAPPER)
        self.put("bad.xa", b"")
        self.luux("judge", "bad.xa", status=REFUSED, tool=WRAPPER)
