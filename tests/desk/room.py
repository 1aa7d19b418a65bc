"""Memory: files in use at the same time stay within --memory, and a file gets room for exactly its rows."""

import os
import resource
import subprocess
import unittest

from desk.common import FAILED, FINE, REFUSED, ROOT, SENTENCES, TOOL, Desk, alone, good_run, with_head
from generators.objects import element_header, item_header

ROW = 28  # bytes
OWN = 24 << 20  # what the tool takes besides, stacks included
WORST = 48 << 20  # bytes of the worst file in the gate; the largest there is has 1 GiB
LARGEST = 1 << 30

# A host that reads a file and makes one call with just the room that it needs: code, rows, and the processor's seconds for the call alone.
ONE_CALL = r"""
#include <fcntl.h>
#include <stdio.h>
#include <stdlib.h>
#include <sys/stat.h>
#include <time.h>
#include <unistd.h>
#include "luuxidgaan.h"
int main(int count, char **words) {
    int file = open(words[1], O_RDONLY);
    struct stat about;
    fstat(file, &about);
    uint8_t *data = malloc(about.st_size);
    for (off_t at = 0; at < about.st_size;) at += read(file, data + at, about.st_size - at);
    size_t room = atol(words[2]) * XA_ROW_NUMBERS;
    uint32_t *rows = malloc(room * 4);
    struct timespec start, end;
    clock_gettime(CLOCK_PROCESS_CPUTIME_ID, &start);
    xa_answer answer = xa_judge(data, about.st_size, rows, room);
    clock_gettime(CLOCK_PROCESS_CPUTIME_ID, &end);
    double begun = start.tv_sec + start.tv_nsec / 1e9, ended = end.tv_sec + end.tv_nsec / 1e9;
    printf("%u %u %f\n", answer.code, answer.rows, ended - begun);
    return count != 3;
}
"""


def limited(size):
    """A limit for all memory of its own that a process takes."""
    return lambda: resource.setrlimit(resource.RLIMIT_DATA, (size, size))


# Alone: it compares processor times, and one test needs several files in memory at the same moment.
@alone
class TestMemory(Desk):
    bare = False

    def test_together(self):
        """Twelve files of 20 MB, eight at a time, in 50 MB; without that bound they take more."""
        size = 20 << 20
        run = with_head(good_run(frames=1, rows=1, columns=1))
        for number in range(12):
            self.put(f"runs/{number:02d}.dcm", run[:-2])
            os.truncate(self.path("runs", f"{number:02d}.dcm"), size)
        words = ("judge", "runs", "--jobs", "8")
        wanted = self.luux(*words, status=REFUSED).stdout
        for more in ((), ("--timeout", "60")):
            self.assertEqual(self.luux(*words, *more, "--memory", "50M", status=REFUSED, preexec_fn=limited((50 << 20) + OWN)).stdout, wanted)
        said = self.luux(*words, status=FAILED, preexec_fn=limited((50 << 20) + OWN)).stdout
        self.assertIn(b"cannot be read: not enough memory for 20971520 bytes", said)

    def test_one_that_is_too_large(self):
        """It gets a line from every command, and the other files are judged."""
        self.put("runs/a.dcm", with_head(good_run()))
        self.put("runs/b.dcm", with_head(good_run()))
        os.truncate(self.path("runs", "b.dcm"), 5_000_000)
        line = "cannot be read: it needs 5000000 bytes of memory, but --memory allows 4194304"
        for more in ((), ("--timeout", "60")):
            said = self.lines("judge", "runs", "--memory", "4M", *more, status=FAILED)
            self.assertEqual(said[0], "runs/a.dcm: accepted")
            self.assertTrue(said[1].startswith(f"runs/b.dcm: {line}"), said[1])
        for words in (("rows",), ("show", "1"), ("contact",), ("sheet",), ("linear", "1"), ("canonical", "-o", "x")):
            done = self.luux(words[0], "runs/b.dcm", *words[1:], "--memory", "4M", status=FAILED)
            self.assertIn(line.encode(), done.stderr)
        self.luux("judge", "runs", "--memory", "4M", "--map", status=REFUSED)
        for wrong in ("-1", "many", "4T", "99999999999999999999", "9999999999999G"):
            self.assertIn(b"such as 800M", self.luux("judge", "runs", f"--memory={wrong}", status=FAILED).stderr)

    def test_the_copy_without_masks_counts(self):
        """With --both a run takes its bytes twice."""
        self.put("run.dcm", with_head(good_run(frames=4, rows=64, columns=64)))
        size = os.path.getsize(self.path("run.dcm"))
        for words in (("show", "run.dcm", "2", "-o", "x.png"), ("movie", "run.dcm", "-o", "x.png")):
            self.luux(*words, "--memory", str(size))
            self.luux(*words, "--both", "--memory", str(2 * size))
            done = self.luux(*words, "--both", "--memory", str(2 * size - 1), status=FAILED)
            self.assertEqual(done.stderr.decode().split(" bytes")[0], f"luux: run.dcm: for its copy without masks it needs {size}")

    def test_rows_count(self):
        """Rows count as memory of a file: it waits while they do not fit beside others, and is refused if they never do."""
        items = 100_000
        data = element_header(0x00081140, "SQ", 8 * items) + item_header(0) * items
        for number in range(6):
            self.put(f"runs/{number}", data)
        takes = len(data) + (items + 1) * ROW
        for more in ((), ("--timeout", "60")):
            words = ("judge", "--bare", "runs", "--jobs", "6", *more)
            said = self.lines(*words, "--memory", str(takes), status=REFUSED)
            self.assertEqual(said[-1], "6 files: 0 accepted, 6 refused, 0 could not be read")
            said = self.lines(*words, "--memory", str(takes - 1), status=FAILED)
            self.assertEqual(said[-1], "6 files: 0 accepted, 0 refused, 6 could not be read")
            self.assertIn(f"needs {takes} bytes of memory", said[0])

    def test_rows_are_given_back(self):
        """Room that was lent for more rows than there are is free again for the next file: each is looked at though others are held."""
        run = with_head(good_run(frames=1, rows=1, columns=1))
        size = 3_000_000
        for number in range(6):
            self.put(f"runs/{number}.dcm", run[:-2])
            os.truncate(self.path("runs", f"{number}.dcm"), size)
        # One file's bytes, and room for as many rows as it could have; and all six beside each other in twice their bytes.
        for memory in (size + size // 8 * ROW, 2 * 6 * size, size):
            for words in (("judge",), ("report", "--jobs", "6"), ("report", "--jobs", "6", "--timeout", "60"), ("duplicates",)):
                said = self.luux(*words, "runs", "--memory", str(memory), status=FINE if words[0] == "report" else REFUSED)
                self.assertRegex((said.stdout + said.stderr).decode(), r"6 files.* 6 refused, 0 could not be read")

    def test_stack(self):
        """The calls take more of the stack than a small one has; they are made on threads whose stacks are large enough."""
        def small():
            resource.setrlimit(resource.RLIMIT_STACK, (256 << 10, 256 << 10))
        self.put("run.dcm", with_head(good_run(frames=4, rows=64, columns=64)))
        for words in (("judge",), ("show", "2", "-o", "x.pgm"), ("sheet",), ("contact", "-o", "x.pgm"), ("movie", "-o", "x.png"), ("report",),
                      ("judge", "--timeout", "60"), ("report", "--timeout", "60")):
            self.luux(words[0], "run.dcm", *words[1:], preexec_fn=small, env={**os.environ, "RUST_MIN_STACK": "65536"})

    def worst(self, size):
        """Nothing but headers: one sequence of empty items. How many rows it has, and what luux says."""
        items = size // 8 - 2
        with open(self.path("worst.xa"), "wb") as file:
            file.write(element_header(0x00081140, "SQ", 8 * items))
            block = item_header(0) * (1 << 17)
            for start in range(0, items, 1 << 17):
                file.write(block[:8 * min(1 << 17, items - start)])
        return items + 1, os.path.getsize(self.path("worst.xa"))

    def taking(self, *words, **options):
        """Runs a program to its end; what it says, and the processor's seconds that it took, from its start until its memory was given back."""
        before = resource.getrusage(resource.RUSAGE_CHILDREN)
        done = subprocess.run(words, cwd=self.folder, capture_output=True, timeout=400, **options)
        after = resource.getrusage(resource.RUSAGE_CHILDREN)
        return done.stdout.decode(), after.ru_utime + after.ru_stime - before.ru_utime - before.ru_stime

    def judge_worst(self, size):
        """Judges it under a limit of its bytes and its rows, and answers the processor's seconds for that, for a host that reads it and makes
        one call, and for the call alone. The time on the clock says more of what else the machine does."""
        rows, bytes_ = self.worst(size)
        said, taken = self.taking(TOOL, "judge", "--bare", "worst.xa", "--memory", str(bytes_ + rows * ROW),
                                  preexec_fn=limited(bytes_ + rows * ROW + OWN))
        self.assertEqual(said.splitlines()[0].split(" Found: ")[0], f"worst.xa: rule 1, frame 0: {SENTENCES[1]}")
        self.put("call.c", ONE_CALL.encode())
        subprocess.run(["gcc", "-O2", "-I", os.path.join(ROOT, "include"), "-o", self.path("call"), self.path("call.c"),
                        os.path.join(ROOT, "target", "staticlib", "libcabi.a")], check=True)
        said, host = self.taking(self.path("call"), self.path("worst.xa"), str(rows))
        code, found, call = said.split()
        self.assertEqual((int(code), int(found)), (9, rows))
        return taken, host, float(call)

    def test_the_worst_file(self):
        """Room for just its rows; in time, not much more than one call."""
        taken, host, _ = min(self.judge_worst(WORST) for _ in range(2))
        self.assertLess(taken, 1.2 * host + 0.1)

    @unittest.skipUnless(os.environ.get("LUUX_LARGE"), "5 GB of memory and a minute, with LUUX_LARGE=1")
    def test_the_worst_file_there_is(self):
        # The first time the system has to find the memory.
        taken, host, call = min(self.judge_worst(LARGEST) for _ in range(2))
        print(f"\n1 GiB of headers: luux judge {taken:.2f} s of the processor, a host that reads it and makes one call {host:.2f} s, the call {call:.2f} s")
        self.assertLess(taken, 1.2 * host)
