"""`luux report`: the page in a real browser, that it shows, filters and sorts, and that nothing from a file becomes markup; the table; the letters."""

import base64
import csv
import html
import json
import os
import random
import re
import unittest

from desk import browser
from desk.common import FAILED, FINE, LARGE, SENTENCES, Desk, alone, read_png, with_head
from generators import enhanced_xa as xa
from generators.objects import encode
from reference import attributes as tags
from reference import drawing, sheet

HOSTILE = "<script>window.hurt=1</script>\"'><img src=x onerror=window.hurt=1>"
HOSTILE_FILE = "runs/<img src=x onerror='window.hurt=1'>&amp;\".dcm"


def run(seed, institution, station, edit=None, **shape):
    """A file of a sender."""
    model = xa.build(random.Random(seed), xa.Shape(**{"extras": False, "frames": 9, "rows": 20, "columns": 30, "masks": ("AVG_SUB",), **shape}))
    model[0x00080005] = xa.text("CS", "ISO_IR 192")
    for tag, vr, value in ((0x00080018, "UI", f"1.2.3.{seed}"), (0x0020000D, "UI", f"1.9.{seed}"), (0x00080080, "LO", institution),
                           (0x00081010, "SH", station), (tags.ACQUISITION_DATE_TIME, "DT", f"202403{31 - seed:02d}0500{seed:02d}"),
                           (0x00100010, "PN", "Secret^Person")):
        raw = value.encode()
        if raw:
            model[tag] = (vr, raw + (b"\0" if vr == "UI" else b" ") * (len(raw) % 2))
    if edit:
        edit(model)
    return with_head(encode(model))


def item_lost(model):
    del model[tags.PER_FRAME_FUNCTIONAL_GROUPS_SEQUENCE][1][4]


def width_lost(model):
    del model[tags.PER_FRAME_FUNCTIONAL_GROUPS_SEQUENCE][1][6][tags.FRAME_VOI_LUT_SEQUENCE][1][0][tags.WINDOW_WIDTH]


def another_word(model):
    model[tags.MODALITY] = xa.text("CS", "OT")


class Reported(Desk):
    """A folder with the runs of four senders, and its page and table."""

    bare = False

    def setUp(self):
        super().setUp()
        self.runs = {
            "runs/a-10.dcm": run(1, "Klinikum Nord", "ANGIO-1"), "runs/a-9.dcm": run(2, "Klinikum Nord", "ANGIO-1", item_lost),
            "runs/b.dcm": run(3, "Klinikum Nord", "ANGIO-2", width_lost, voi="frames"), "runs/c.dcm": run(4, "Hôpital Saint-Luc", "XA3", frames=2),
            "runs/d.dcm": run(5, "Hôpital Saint-Luc", "XA3", another_word), "runs/e.dcm": run(6, "Hôpital Saint-Luc", "XA3", another_word),
            "runs/f.dcm": run(7, "", ""), HOSTILE_FILE: run(8, HOSTILE, "=1+1", another_word),
            "runs/g.dcm": run(9, "Klinikum Nord", "ANGIO-1")[:-10]}
        for name, content in self.runs.items():
            self.put(name, content)
        os.symlink("nowhere", self.path("runs", "lost.dcm"))
        self.said = self.lines("report", "runs", "-o", "page.html", "--csv")
        with open(self.path("page.html"), encoding="utf-8") as file:
            self.page = file.read()


class TestReport(Reported):
    def test_written(self):
        self.assertEqual(self.said, ["page.html: 10 files of 5 senders: 3 accepted, 6 refused, 1 could not be read", "page.csv: 10 rows"])
        self.assertNotIn("Secret", self.page)
        self.lines("report", "runs", "-o", "page.html", "--patient", "--csv")
        for name in ("page.html", "page.csv"):
            with open(self.path(name), encoding="utf-8") as file:
                self.assertIn("Secret^Person", file.read())

    def test_table(self):
        with open(self.path("page.csv"), encoding="utf-8", newline="") as file:
            rows = {row["file"]: row for row in csv.DictReader(file)}
        self.assertEqual(list(rows), sorted([*self.runs, "runs/lost.dcm"]))
        row = rows["runs/a-9.dcm"]
        self.assertEqual((row["verdict"], row["by"], row["rule"], row["frame"], row["sentence"]), ("refused", "rule 26", "26", "0", SENTENCES[26]))
        self.assertEqual(row["found"], "8 items in Per-frame Functional Groups Sequence (5200,9230); 9 frames by Number of Frames (0028,0008)")
        self.assertEqual((row["sop_instance_uid"], row["institution_name"], row["station_name"]), ("1.2.3.2", "Klinikum Nord", "ANGIO-1"))
        self.assertEqual((rows["runs/b.dcm"]["by"], rows["runs/b.dcm"]["frame"]), ("rule 30", "7"))
        self.assertEqual((rows["runs/g.dcm"]["by"], rows["runs/g.dcm"]["institution_name"]), ("code 1", "Klinikum Nord"))
        self.assertEqual((rows["runs/a-10.dcm"]["verdict"], rows["runs/a-10.dcm"]["frames"], rows["runs/lost.dcm"]["verdict"]), ("accepted", "9", "none"))
        # As luux judge --json says it; the page says what the summary says.
        said = map(json.loads, self.lines("judge", "runs", "--json", status=FAILED))
        self.assertEqual({one["path"]: one["verdict"] for one in said}, {name: row["verdict"] for name, row in rows.items()})
        self.assertIn('data-verdict="could not be read"', self.page)
        # A cell that would be a formula is none; what is only text stays as it is.
        self.assertEqual((rows[HOSTILE_FILE]["station_name"], rows[HOSTILE_FILE]["institution_name"]), ("'=1+1", HOSTILE))

    def test_pictures(self):
        """Evenly chosen frames, cell for cell, and the plot that `luux sheet` makes."""
        part = self.page[self.page.index('data-file="runs&#x2F;a-10.dcm"'):]
        part = part[:part.index("</tbody>")]
        pictures = re.findall(r'<img alt="([^"]*)"[^>]* src="data:image/png;base64,([^"]*)"', part)
        data = self.runs["runs/a-10.dcm"]
        data = data[len(with_head(b"")):]
        self.assertEqual([int(about.split()[1].rstrip(",")) for about, _ in pictures[:6]], [1, 2, 4, 5, 7, 9])
        for about, content in pictures[:6]:
            frame = int(about.split()[1].rstrip(","))
            shown = drawing.show(data, frame, LARGE, LARGE)
            self.assertEqual(html.unescape(about), f"frame {frame}, {'masked' if shown.answer.masked else 'native'}")
            self.put("x.png", base64.b64decode(content))
            self.assertEqual(read_png(self.path("x.png")), (30, 20, shown.image))
        self.luux("sheet", "runs/a-10.dcm", "-o", "plot.png")
        self.put("x.png", base64.b64decode(pictures[6][1]))
        self.assertEqual(read_png(self.path("x.png")), read_png(self.path("plot.png")))
        numbers = sheet.sheet(data, 1, 9, LARGE).sheet
        self.assertIn(f"levels {numbers[257]} to {numbers[258]}, ", pictures[6][0])
        self.assertEqual(len(pictures), 7)

    def test_a_large_frame_is_sampled(self):
        self.put("big/one.dcm", run(1, "A", "B", frames=1, rows=260, columns=130, masks=(), voi="absent"))
        self.luux("report", "big", "-o", "big.html")
        with open(self.path("big.html"), encoding="utf-8") as file:
            self.assertIn('alt="frame 1, native" width="44" height="87"', file.read())

    def test_no_network(self):
        """Nothing is fetched: the page has no addresses but its own data and anchors."""
        for address in re.findall(r'(?:src|href|action)="([^"]*)"', self.page):
            self.assertRegex(address, r"^(data:image/png;base64,|#letter-\d+$)")
        self.assertIn("default-src 'none'", self.page)
        self.assertNotIn("http://", self.page)
        self.assertNotIn("https://", self.page)

    def test_trouble(self):
        os.mkdir(self.path("none"))
        self.assertIn(b"nothing was reported", self.luux("report", "none", status=FAILED).stderr)
        self.assertIn(b"cannot be written", self.luux("report", "runs", "-o", "no/such/page.html", status=FAILED).stderr)

    def test_an_older_report_is_replaced(self):
        """The page and the table are no runs; that they are skipped is said and counted."""
        for passed_over, told in (("", b""), (", 2 skipped", b"luux: runs/page.csv: skipped: luux writes this file\nluux: runs/page.html: skipped: luux writes this file\n")):
            done = self.luux("report", "runs", "-o", "runs/page.html", "--csv")
            self.assertTrue(done.stdout.decode().startswith(f"runs/page.html: 10 files of 5 senders: 3 accepted, 6 refused, 1 could not be read{passed_over}\n"), done.stdout)
            self.assertEqual(done.stderr, told)
        # Without --csv the table of another time is a file like any other.
        self.assertIn("1 could not be read, 1 not ours, 1 skipped", self.lines("report", "runs", "-o", "runs/page.html")[0])

    def test_nothing_else_is_replaced(self):
        """Neither a run nor any other file, whether it was named, found in a folder or neither; and nothing is looked at first."""
        self.put("other/notes.html", b"<!DOCTYPE html>\n<p>notes</p>")
        self.put("other/night.csv", b"file,verdict\n")
        self.put("runs/x.csv", self.runs["runs/c.dcm"])
        # A DICOM file may start with any 128 bytes.
        self.put("runs/odd.dcm", self.page.encode()[:128] + self.runs["runs/c.dcm"][128:])
        self.assertIn("runs/odd.dcm: accepted", self.lines("judge", "runs/odd.dcm"))
        before = self.content()
        page, table, run = ("it exists, and is no page that luux wrote; name another page", "it exists, and is no table that luux wrote; name another page",
                            "it is the input itself; name another file")
        for words, name, reason in (
                (("runs", "-o", "runs/c.dcm"), "runs/c.dcm", run), (("runs/c.dcm", "-o", "runs/c.dcm"), "runs/c.dcm", run),
                (("runs/d.dcm", "-o", "runs/c.dcm"), "runs/c.dcm", page), (("runs", "-o", "runs/odd.dcm"), "runs/odd.dcm", run),
                (("runs", "-o", "runs/x.html", "--csv"), "runs/x.csv", run), (("runs/x.csv", "-o", "runs/x.html", "--csv"), "runs/x.csv", run),
                (("page.html", "-o", "page.html"), "page.html", run), (("runs", "-o", "other/night.html", "--csv"), "other/night.csv", table),
                (("runs", "-o", "other/notes.html"), "other/notes.html", page), (("runs", "-o", "runs/lost.dcm"), "runs/lost.dcm", page),
                (("runs", "-o", "runs"), "runs", page), (("runs", "-o", "page.csv"), "page.csv", page),
                (("runs", "-o", "new.csv", "--csv"), "new.csv", "the table of --csv has the same name; name another page")):
            done = self.luux("report", *words, status=FAILED)
            self.assertEqual((done.stdout, done.stderr.decode()), (b"", f"luux: {name}: cannot be written: {reason}\n"))
        self.assertEqual(self.content(), before)

    def content(self):
        """All files, by name."""
        found = {}
        for folder, _, names in os.walk(self.folder):
            for name in names:
                path = os.path.join(folder, name)
                with open(path, "rb") if os.path.exists(path) else open(os.devnull, "rb") as file:
                    found[os.path.relpath(path, self.folder)] = file.read()
        return found

    def test_what_is_not_ours(self):
        """Files that are certainly no runs are listed as such, and count for no sender and no letter."""
        self.put("runs/notes.txt", b"no run\n")
        self.assertEqual(self.lines("report", "runs", "-o", "page.html", "--csv")[0],
                         "page.html: 11 files of 5 senders: 3 accepted, 6 refused, 1 could not be read, 1 not ours")
        with open(self.path("page.csv"), encoding="utf-8", newline="") as file:
            row, = (row for row in csv.DictReader(file) if row["file"] == "runs/notes.txt")
        self.assertEqual((row["verdict"], row["by"], row["sentence"]), ("not ours", "", "text"))
        self.assertTrue(self.lines("report", "runs", "-o", "page.html", "--include", "[ab]*.dcm")[0].startswith("page.html: 3 files of 2 senders: "))

    def test_one_worker_and_many(self):
        def stripped(*words):
            self.luux("report", "runs", "-o", "x.html", *words, status=FINE)
            with open(self.path("x.html"), encoding="utf-8") as file:
                return re.sub(r"made [-0-9: ]* UTC", "", file.read())
        self.assertEqual(stripped("--jobs", "1"), stripped("--jobs", "5"))


# Alone: some tests give the page a fraction of a second, and what it does later on a busy machine they would not see.
@alone
@unittest.skipUnless(browser.program(), "chromium is not installed")
class TestReportInABrowser(Reported):
    def setUp(self):
        super().setUp()
        self.browser = browser.Browser()
        self.addCleanup(self.browser.close)
        self.browser.open(self.path("page.html"))

    def shown(self):
        """The files whose lines are seen, from top to bottom."""
        return self.browser.run("[...document.querySelectorAll('.run')].filter(r => r.offsetHeight > 0)"
                                ".sort((a, b) => a.getBoundingClientRect().y - b.getBoundingClientRect().y).map(r => r.dataset.file)")

    def text(self, selector):
        return self.browser.run(f"document.querySelector('{selector}').innerText")

    def test_it_shows(self):
        page = self.browser
        self.assertEqual(self.shown(), sorted([*self.runs, "runs/lost.dcm"]))
        self.assertEqual(page.run("[...document.querySelectorAll('.tiles li')].map(t => t.innerText.split(/\\s+/)[0])"), ["10", "3", "6", "1", "0", "5"])
        senders = page.run("[...document.querySelectorAll('#senders tbody tr')].map(r => [...r.cells].map(c => c.innerText.trim()))")
        table = {(row[0], row[1]): [" ".join(cell.split()) for cell in row[2:6]] for row in senders}
        self.assertEqual(table[("Klinikum Nord", "ANGIO-1")], ["3", "1", "2", "code 1 × 1 rule 26 × 1"])
        self.assertEqual(table[("Hôpital Saint-Luc", "XA3")], ["3", "1", "2", "rule 2 × 2"])
        self.assertEqual(table[("not named", "not named")], ["1", "1", "0", ""])
        self.assertEqual(len(table), 5)
        # Every picture was decoded, and is as large as it says.
        self.assertTrue(page.run("document.querySelectorAll('img').forEach(i => i.loading = 'eager') || Promise.all([...document.images].map(i => i.decode())).then(() => true)"))
        self.assertEqual(page.run("[...document.images].filter(i => i.naturalWidth === 0).length"), 0)
        self.assertEqual(page.run("document.images.length"), 7 + 2 + 1 + 7)
        self.assertIn("8 items in Per-frame Functional Groups Sequence (5200,9230)", self.text("[data-file=\"runs/a-9.dcm\"] .found"))
        self.assertIn("1.2.3.2", self.text("[data-file=\"runs/a-9.dcm\"] dl"))
        self.assertLessEqual(page.run("document.documentElement.scrollWidth"), 1400)
        self.assertEqual((page.troubles, [url for url in page.requests if not url.startswith(("file://", "data:"))]), ([], []))

    def test_it_filters(self):
        page = self.browser
        for selector, value, wanted in (("#verdict", "accepted", ["runs/a-10.dcm", "runs/c.dcm", "runs/f.dcm"]), ("#verdict", "could not be read", ["runs/lost.dcm"]),
                                        ("#by", "rule 2", [HOSTILE_FILE, "runs/d.dcm", "runs/e.dcm"]), ("#by", "code 1", ["runs/g.dcm"])):
            page.choose(selector, value)
            self.assertEqual(self.shown(), wanted)
            self.assertEqual(self.text("#shown"), f"{len(wanted)} of 10")
            page.click("#filters button[type=reset]")
            self.assertEqual(page.run("new Promise(r => setTimeout(() => r(document.querySelector('#shown').innerText), 50))"), "10 of 10")
        page.type("#search", "nord  1.2.3.3")
        self.assertEqual(self.shown(), ["runs/b.dcm"])
        page.choose("#verdict", "accepted")
        self.assertEqual(self.shown(), [])
        self.assertTrue(page.run("document.querySelector('#none').offsetHeight > 0"))
        page.click("#filters button[type=reset]")
        # A count in the table of senders leads to its runs.
        page.click("#senders .chip[data-by='rule 30']")
        self.assertEqual(self.shown(), ["runs/b.dcm"])
        self.assertEqual(self.text("#shown"), "1 of 10")

    def test_it_sorts(self):
        page = self.browser
        files = sorted([*self.runs, "runs/lost.dcm"])
        natural = [HOSTILE_FILE, "runs/a-9.dcm", "runs/a-10.dcm", *files[3:]]
        page.click("thead [data-key=file]")
        self.assertEqual(self.shown(), natural)
        page.click("thead [data-key=file]")
        self.assertEqual(self.shown(), natural[::-1])
        page.click("thead [data-key=acquired]")
        self.assertEqual(self.shown()[1:], [HOSTILE_FILE if seed == 8 else name for seed, name in (
            (9, "runs/g.dcm"), (8, ""), (7, "runs/f.dcm"), (6, "runs/e.dcm"), (5, "runs/d.dcm"), (4, "runs/c.dcm"), (3, "runs/b.dcm"), (2, "runs/a-9.dcm"),
            (1, "runs/a-10.dcm"))])
        page.click("thead [data-key=order]")
        page.click("thead [data-key=order]")
        self.assertEqual(self.shown()[:6], ["runs/b.dcm", "runs/a-9.dcm", HOSTILE_FILE, "runs/d.dcm", "runs/e.dcm", "runs/g.dcm"])
        self.assertEqual(page.run("document.querySelector('thead [data-key=order]').parentElement.ariaSort"), "descending")
        # Each run keeps its details below it, and a filter holds while one sorts.
        self.assertTrue(page.run("[...document.querySelectorAll('.run')].every(r => r.rows.length === 2 && r.rows[1].className === 'details')"))
        page.choose("#by", "rule 2")
        page.click("thead [data-key=from]")
        self.assertEqual(self.shown(), [HOSTILE_FILE, "runs/d.dcm", "runs/e.dcm"])

    def test_letters(self):
        """The text for a sender quotes rule, frame, item, what was found, and which run it is; it is copied as it is."""
        page = self.browser
        letters = page.run("[...document.querySelectorAll('#letters section')].map(s => [s.querySelector('h3').innerText, s.querySelector('textarea').value])")
        letters = dict(letters)
        self.assertEqual(set(letters), {"Klinikum Nord, ANGIO-1", "Klinikum Nord, ANGIO-2", "Hôpital Saint-Luc, XA3", f"{HOSTILE}, =1+1"})
        text = letters["Klinikum Nord, ANGIO-2"]
        self.assertTrue(text.startswith("Institution Name: Klinikum Nord\nStation Name: ANGIO-2\n\nOur import desk refused the run that you sent. Please correct it and send it again."), text)
        for part in ("1. File: runs/b.dcm", "SOP Instance UID: 1.2.3.3", "Study Instance UID: 1.9.3",
                     "Rule 30, frame 7 (item 7 of (5200,9230), row ", f": {SENTENCES[30]}", "Window Width (0028,1051) absent from item 1 of (0028,9132) of frame 7"):
            self.assertIn(part, text)
        self.assertIn("Our import desk refused 2 of the 3 runs that you sent. Please correct them", letters["Hôpital Saint-Luc, XA3"])
        self.assertIn("2. File: runs/e.dcm", letters["Hôpital Saint-Luc, XA3"])
        page.click("#letters section:last-child .copy")
        self.assertEqual(page.run("new Promise(r => setTimeout(() => r(document.querySelector('#letters section:last-child .copy').innerText), 200))"), "Copied")

    def test_nothing_becomes_markup(self):
        """Names of files and senders are shown letter for letter, and no script of theirs runs."""
        page = self.browser
        self.assertIsNone(page.run("window.hurt"))
        self.assertEqual(page.run("document.scripts.length"), 1)
        self.assertEqual(page.run("[...document.images].filter(i => !i.src.startsWith('data:')).length"), 0)
        self.assertEqual(page.run("[...document.querySelectorAll('*')].filter(e => [...e.attributes].some(a => a.name.startsWith('on'))).length"), 0)
        self.assertIn(HOSTILE, page.run("[...document.querySelectorAll('#senders td')].map(c => c.innerText)"))
        self.assertIn(HOSTILE_FILE, page.run("[...document.querySelectorAll('.run th')].map(c => c.innerText)"))
        # Even what would slip through is not run: the page allows no script but its own.
        page.run("document.body.insertAdjacentHTML('beforeend', '<img src=x onerror=\"window.hurt=1\"><button onclick=\"window.hurt=1\" id=evil>x</button>')")
        page.click("#evil")
        self.assertIsNone(page.run("new Promise(r => setTimeout(() => r(window.hurt), 100))"))
