"""What is installed, and what the header promises to hosts."""

import os
import random
import re
import shutil
import subprocess

from desk.common import CLASSES, LARGE, ROOT, Desk, good_run, with_head
from generators import enhanced_xa as xa
from reference import attributes as tags
from reference import drawing

HERE = os.path.dirname(os.path.abspath(__file__))
ARCHIVE = os.path.join(ROOT, "target", "staticlib", "libcabi.a")

HOST = r"""
#include <stdio.h>
#include "luuxidgaan.h"
int main(void) {
    const uint8_t data[] = {0x28, 0, 0x10, 0, 'U', 'S', 2, 0, 2, 0};
    uint32_t rows[XA_ROW_NUMBERS];
    xa_answer a = xa_read(data, sizeof data, rows, XA_ROW_NUMBERS);
    printf("code %u rows %u tag %08X\n", a.code, a.rows, rows[0]);
    return xa_version() != XA_VERSION || xa_count(data, sizeof data).rows != 1;
}
"""


class TestInstall(Desk):
    bare = False

    def run_quietly(self, *words, **options):
        done = subprocess.run(words, capture_output=True, text=True, **options)
        self.assertEqual(done.returncode, 0, done.stdout + done.stderr)
        return done.stdout

    def test_install(self):
        """Without rt on the PATH: a C host is made by pkg-config, linked both ways and run; luux runs; all can be taken away again."""
        tools = self.path("tools")
        os.mkdir(tools)
        for name in ("make", "gcc", "cc", "install", "sed", "mkdir", "ln", "rm", "printf", "sh", "as", "ld", "collect2", "bash", "chmod", "env", "help2man",
                     "perl"):
            if shutil.which(name):
                os.symlink(os.path.realpath(shutil.which(name)), os.path.join(tools, name))
        root, words = self.path("root"), ["PREFIX=/opt/xa", f"DESTDIR={self.path('root')}"]
        self.run_quietly("make", "-C", ROOT, "install", *words, env={"PATH": tools})
        prefix = os.path.join(root, "opt", "xa")
        with open(os.path.join(prefix, "include", "luuxidgaan.h"), encoding="utf-8") as file:
            version = re.search(r"^#define XA_VERSION (\d+)$", file.read(), re.M)[1]
        shared = f"libluuxidgaan.so.{version}"
        self.assertEqual(sorted(os.listdir(os.path.join(prefix, "lib"))), ["libluuxidgaan.a", "libluuxidgaan.so", shared, "pkgconfig"])
        self.assertIn(f"soname: [{shared}]", self.run_quietly("readelf", "-d", os.path.join(prefix, "lib", shared)))
        exported = self.run_quietly("nm", "-D", "--defined-only", os.path.join(prefix, "lib", shared)).split()[2::3]
        with open(os.path.join(ROOT, "include", "luuxidgaan.h"), encoding="utf-8") as file:
            declared = set(re.findall(r"\b(xa_\w+)\(", file.read()))
        self.assertEqual(set(exported), declared)
        self.assertNotIn("exec", re.search(r"GNU_STACK.*\n.*", self.run_quietly("readelf", "-lW", os.path.join(prefix, "lib", shared)))[0])

        self.put("host.c", HOST.encode())
        flags = ["-I" + os.path.join(prefix, "include"), "-L" + os.path.join(prefix, "lib"), "-lluuxidgaan"]
        if shutil.which("pkg-config"):
            told = self.run_quietly("pkg-config", "--cflags", "--libs", "luuxidgaan", env={
                **os.environ, "PKG_CONFIG_PATH": os.path.join(prefix, "lib", "pkgconfig"), "PKG_CONFIG_SYSROOT_DIR": root}).split()
            self.assertEqual(told, flags)
        self.run_quietly("gcc", self.path("host.c"), *flags, "-o", self.path("dynamic"))
        self.assertIn(shared, self.run_quietly("readelf", "-d", self.path("dynamic")))
        self.run_quietly("gcc", flags[0], self.path("host.c"), os.path.join(prefix, "lib", "libluuxidgaan.a"), "-o", self.path("static"))
        for host in ("dynamic", "static"):
            said = self.run_quietly(self.path(host), env={"LD_LIBRARY_PATH": os.path.join(prefix, "lib")})
            self.assertEqual(said, "code 0 rows 1 tag 00280010\n")
        self.put("run.dcm", with_head(good_run()))
        self.luux("judge", "run.dcm", tool=os.path.join(prefix, "bin", "luux"), env={})
        self.completions_and_pages(os.path.join(prefix, "share"))
        self.run_quietly("make", "-C", ROOT, "uninstall", *words, env={"PATH": tools})
        self.assertEqual([name for _, _, names in os.walk(root) for name in names], [])

    def completions_and_pages(self, share):
        """Each shell finds its completions under the prefix, and man a page for each command."""
        for name, words in (("bash-completion/completions/luux", "complete -F _luux"), ("zsh/site-functions/_luux", "#compdef luux"),
                            ("fish/vendor_completions.d/luux.fish", "complete -c luux")):
            with open(os.path.join(share, name), encoding="utf-8") as file:
                said = file.read()
            self.assertIn(words, said)
            self.assertIn("duplicates", said)
        self.run_quietly("bash", "-n", os.path.join(share, "bash-completion", "completions", "luux"))
        if shutil.which("help2man"):
            pages = os.listdir(os.path.join(share, "man", "man1"))
            commands = re.findall(r"^  ([a-z]+) ", self.luux("-h").stdout.decode().split("Commands:")[1].split("Options:")[0], re.M)
            self.assertEqual(sorted(pages), sorted(["luux.1", *(f"luux-{command}.1" for command in commands if command != "help")]))
            with open(os.path.join(share, "man", "man1", "luux-report.1"), encoding="utf-8") as file:
                self.assertIn("\\-\\-settle", file.read())

    def test_units(self):
        """The unit tests beside the tool's own functions."""
        said = self.run_quietly("cargo", "test", "--offline", "--quiet", "--target-dir", os.path.join(ROOT, "host", "target"),
                                cwd=os.path.join(ROOT, "host"))
        self.assertRegex(said, r"test result: ok\. [1-9]\d* passed; 0 failed; 0 ignored")

    def test_old_rust(self):
        """The wrapper says which Rust is needed before it proves or builds anything."""
        for name in ("luux", ".ci/packages", "host/Cargo.toml"):
            os.makedirs(os.path.dirname(self.path("root", name)), exist_ok=True)
            shutil.copy(os.path.join(ROOT, name), self.path("root", name))
        with open(self.path("root", "host", "Cargo.toml"), encoding="utf-8") as file:
            needed = re.search(r'^rust-version = "(.*)"$', file.read(), re.M)[1]
        self.put("tools/dpkg-query", b"#!/bin/sh\necho installed\n")
        self.put("tools/rt", b"#!/bin/sh\nexit 7\n")
        major, minor = map(int, needed.split("."))
        for version, too_old in ((f"{major}.{minor - 1}.9", True), (f"{major}.9.0", True), ("", True), (f"{needed}.0", False),
                                 (f"{major}.{minor + 100}.1-nightly", False), (f"{major + 1}.0.0", False)):
            self.put("tools/rustc", f"#!/bin/sh\necho 'rustc {version} (hash date)'\n".encode() if version else b"#!/bin/sh\nexit 1\n")
            for name in ("dpkg-query", "rt", "rustc"):
                os.chmod(self.path("tools", name), 0o755)
            said = self.luux("--version", tool=self.path("root", "luux"), status=2, env={**os.environ, "PATH": self.path("tools") + ":" + os.environ["PATH"]})
            wanted = f"luux: Rust {needed} or later is needed, and rustc --version says {version or 'nothing'}\n"
            self.assertEqual(said.stderr.decode() == wanted, too_old, said.stderr)
            self.assertEqual(b"proving and building the library" in said.stderr, not too_old, said.stderr)

    def test_constants(self):
        """Each code has one name; the sizes are those of the tool's own reader."""
        with open(os.path.join(ROOT, "include", "luuxidgaan.h"), encoding="utf-8") as file:
            header = file.read()
        codes = [int(code) for code in re.findall(r"^    XA_\w+ = (\d+),?$", header, re.M)]
        self.assertEqual(codes, list(range(24)))
        for language in ("c", "c++") if shutil.which("g++") else ("c",):
            subprocess.run(["gcc", "-x", language, "-Wall", "-Wextra", "-Werror", "-fsyntax-only", "-"], input=header.encode(), check=True)

    def stack_of(self, data, frame):
        """What each call takes of the stack for a data set."""
        self.put("file", with_head(data, CLASSES["XRF"] if CLASSES["XRF"] in data else CLASSES["XA"]))
        self.put("data", data)
        cells = len(drawing.show(data, frame, LARGE, LARGE).image)
        said = self.run_quietly(self.path("stack"), self.path("file"), self.path("data"), str(frame), env={"CELLS": str(cells)})
        taken = {}
        for line in said.splitlines():
            name, code, size = line.split()
            self.assertEqual(code, "0", line)
            taken[name] = int(size)
        return taken

    def test_stack(self):
        """No call takes more than the header says, and each figure is near what some run needs."""
        self.run_quietly("gcc", "-O2", "-I", os.path.join(ROOT, "include"), "-o", self.path("stack"), os.path.join(HERE, "stack.c"), ARCHIVE, "-lpthread")
        with open(os.path.join(ROOT, "include", "luuxidgaan.h"), encoding="utf-8") as file:
            table = re.findall(r"^ \* {15}(xa_[\w, ]+?|all others) {2,}([\d,]+) bytes", file.read(), re.M)
        stated = {name: int(size.replace(",", "")) for names, size in table for name in names.split(", ")}
        most = {}
        rng = random.Random(2)
        for _ in range(60):
            shape = xa.random_shape(rng, frames=3, luts=rng.choice(("shared", "frames")), properties="shared")
            model = xa.build(rng, shape)
            for one in model[tags.SHARED_FUNCTIONAL_GROUPS_SEQUENCE][1] if shape.luts == "shared" else model[tags.PER_FRAME_FUNCTIONAL_GROUPS_SEQUENCE][1]:
                one[tags.PIXEL_INTENSITY_RELATIONSHIP_LUT_SEQUENCE] = xa.sq(*xa.lut_items(rng, True))
            for name, size in self.stack_of(xa.encode_at_random(rng, model), 2).items():
                most[name] = max(most.get(name, 0), size)
        self.assertLessEqual(set(stated) - {"all others"}, set(most))
        for name, size in most.items():
            limit = stated.get(name, stated["all others"])
            self.assertLessEqual(size, limit, name)
            if name in stated:
                self.assertGreater(size, 0.8 * limit, name)
