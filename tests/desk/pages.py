"""Shell completions, and the man pages made from the command's own description."""

import os
import re
import shutil
import subprocess
import unittest

from desk.common import FAILED, ROOT, TOOL, Desk

COMMANDS = {"rows", "judge", "show", "movie", "contact", "sheet", "compare", "canonical", "duplicates", "linear", "report", "completions", "slip", "demo"}


class TestPages(Desk):
    def test_commands_are_all(self):
        """The list above is what the help lists."""
        said = self.luux("-h").stdout.decode()
        listed = re.findall(r"^  ([a-z]+) ", said[said.index("Commands:"):said.index("Options:")], re.M)
        self.assertEqual({*listed} - {"help"}, COMMANDS)

    def test_completions(self):
        for shell in ("bash", "zsh", "fish"):
            script = self.luux("completions", shell).stdout.decode()
            for word in (*COMMANDS, "patient", "slips"):
                self.assertIn(word, script)
            if shutil.which(shell):
                self.put("script", script.encode())
                subprocess.run([shell, "-n", self.path("script")], check=True)
        self.luux("completions", "csh", status=FAILED)

    def test_bash_completes(self):
        """As bash calls it: after `luux ju` comes judge, after `luux judge --lo` comes --long."""
        self.put("script", self.luux("completions", "bash").stdout)
        for words, wanted in ((["luux", "ju"], "judge"), (["luux", "judge", "--lo"], "--long"), (["luux", "show", "--bo"], "--both")):
            script = (f"source ./script; COMP_WORDS=({' '.join(words)}); COMP_CWORD={len(words) - 1}; _luux luux {words[-1]} {words[-2]};"
                      " printf '%s\\n' \"${COMPREPLY[@]}\"")
            done = subprocess.run(["bash", "-c", script], cwd=self.folder, capture_output=True, text=True)
            self.assertEqual(done.stdout.split(), [wanted], done.stderr)

    @unittest.skipUnless(shutil.which("help2man"), "help2man is not installed")
    def test_man_pages(self):
        subprocess.run([os.path.join(ROOT, "host", "man"), TOOL, self.path("man")], check=True)
        pages = sorted(os.listdir(self.path("man", "man1")))
        self.assertEqual(pages, sorted(["luux.1", *(f"luux-{command}.1" for command in COMMANDS)]))
        for name in pages:
            with open(self.path("man", "man1", name), encoding="utf-8") as file:
                page = file.read()
            self.assertIn(".SH NAME", page)
            self.assertIn(".SH SYNOPSIS", page)
            self.assertNotIn("error:", page)
            if shutil.which("mandoc"):
                subprocess.run(["mandoc", "-Tutf8", self.path("man", "man1", name)], check=True, stdout=subprocess.DEVNULL)
        with open(self.path("man", "man1", "luux-judge.1"), encoding="utf-8") as file:
            page = file.read().replace("\\-", "-")
        for word in ("--slips", "--long", "--patient", "all rules"):
            self.assertIn(word, page)
