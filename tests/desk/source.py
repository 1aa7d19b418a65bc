"""What must hold of the sources themselves."""

import os
import re
import unittest

from desk.common import ROOT
from reference import reading


class TestSource(unittest.TestCase):
    def test_a_row_has_as_many_numbers_everywhere(self):
        for path, text in (("include/luuxidgaan.h", "#define XA_ROW_NUMBERS {}\n"), ("bench/walker.h", "#define ROW_NUMBERS {}\n"),
                           ("host/src/library.rs", "pub const ROW_WIDTH: usize = {};\n")):
            with open(os.path.join(ROOT, path), encoding="utf-8") as file:
                self.assertIn(text.format(reading.NUMBERS_IN_A_ROW), file.read(), path)

    def test_unsafe_stands_in_one_module(self):
        folder = os.path.join(ROOT, "host", "src")
        for name in sorted(os.path.relpath(os.path.join(inner, name), folder) for inner, _, names in os.walk(folder) for name in names):
            with open(os.path.join(folder, name), encoding="utf-8") as file:
                text = file.read()
            self.assertEqual(re.search(r"\bunsafe (\{|fn|impl)|allow\(unsafe_code\)", text) is not None,
                             name == "library.rs", name)
