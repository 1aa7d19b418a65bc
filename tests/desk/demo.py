"""`luux demo`, and the page that quotes it."""

import os
import re

from desk.common import FAILED, LARGE, ROOT, SENTENCES, Desk, item_row, read_png
from reference import drawing, files, rules


class TestDemo(Desk):
    bare = False

    def test_demo(self):
        said = self.lines("demo")
        runs = "luux-demo/runs/"
        with open(self.path(runs, "window-lost.xa"), "rb") as file:
            lost = file.read()
        row = item_row(lost[files.data_set(lost)[1]:], 17)
        for line in (f"{runs}good.xa: accepted", f"{runs}item-left-out.xa: rule 26, frame 0: {SENTENCES[26]}",
                     f"{runs}window-lost.xa: rule 30, frame 17, item 17 of (5200,9230), row {row}: {SENTENCES[30]}",
                     "4 files: 1 accepted, 3 refused, 0 could not be read",
                     "luux-demo/frame-1.png: 256 x 256, frame 1, native",
                     "luux-demo/frame-11.png: 256 x 256, frame 11, masked"):
            self.assertIn(line, said)
        self.assertTrue(any(line.startswith(f"{runs}cut-short.xa: code 1 at byte ") for line in said))
        with open(self.path(runs, "good.xa"), "rb") as file:
            content = file.read()
        code, start = files.data_set(content)
        data = content[start:]
        self.assertEqual((code, files.judge_file(content, LARGE)), (0, rules.judge(data, LARGE)))
        self.assertEqual(rules.judge(data, LARGE).answer.code, 0)
        for frame in (1, 11):
            wanted = drawing.show(data, frame, LARGE, LARGE)
            self.assertEqual(read_png(self.path("luux-demo", f"frame-{frame}.png")), (256, 256, wanted.image))
        self.assertEqual(read_png(self.path("luux-demo", "contact.png"))[:2], (796, 588))

    def test_the_page_shows_the_demo(self):
        """docs/DESK.md quotes the demo's lines and shows its pictures."""
        said = self.lines("demo", found=True)
        with open(os.path.join(ROOT, "docs", "DESK.md"), encoding="utf-8") as file:
            page = file.read()
        start = said.index("$ luux judge luux-demo/runs")
        self.assertIn("\n" + "".join(f"    {line}\n" for line in said[start:start + 6]), page)
        drawn = self.lines("rows", "--tree", "luux-demo/runs/window-lost.xa")[230:241]
        self.assertIn("| sed -n 231,241p\n" + "".join(f"    {line}\n" for line in drawn) + "\n", page)
        shown = re.findall(r"\(pictures/(.*?)\)", page)
        self.assertEqual(len(shown), 3)
        for name in shown:
            kept = os.path.join(ROOT, "docs", "pictures", name)
            self.assertEqual(read_png(kept), read_png(self.path("luux-demo", name)), name)
            self.assertLess(os.path.getsize(kept), 100_000)

    def test_elsewhere_and_nowhere(self):
        self.luux("demo", "in/here")
        self.assertTrue(os.path.exists(self.path("in", "here", "contact.png")))
        self.put("file", b"")
        self.assertIn(b"cannot be written", self.luux("demo", "file", status=FAILED).stderr)
