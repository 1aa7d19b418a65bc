#!/usr/bin/env python3
"""Brings the repository's own definitions and lemmas to the spelling of the toolchain: words in snake case. Run once, at the top, after the
toolchain's own port script:

    python3 tools/respell.py

A name that begins with a small letter and has capitals inside, and that the toolchain's library does not have, becomes snake case:
`vrAt` is `vr_at`. Names that begin with a capital (types, facts, constructors, PS3.6 keywords) stay. Thirteen lemmas would then be called as
a definition is; each gets `_lem` after its name. `specs/Contracts.antt`, a name that the toolchain keeps for itself, becomes
`specs/Internal.antt`. Texts that turn: crates/ (.antt, .rt and .edit), and code spans of the pages.
"""

import glob
import os
import re
import subprocess
import sys

KIT = "/opt/rattle/rattle"
TOKEN = re.compile(r"[^\s(){}.;,@\"«»\[\]λ→\x60]+")
# Lemmas that are called as a definition would be, and the files that say them.
LEMMAS = ["count_fits", "first_off", "last_frame", "moves_before", "next_row", "node_at", "offset_at", "root_is", "rows_fit", "rows_left", "too_large",
    "whole_below", "whole_by", "window_on"]


def read(path):
    with open(path, encoding="utf-8") as f:
        return f.read()


def write(path, text):
    with open(path, "w", encoding="utf-8") as f:
        f.write(text)


def code_of(text):
    lines = [re.sub(r"(?<!\S)--.*", "", line) for line in text.split("\n")]
    return re.sub(r'"(?:[^"\\\n]|\\.)*"', "", "\n".join(lines))


def snake(word):
    word = re.sub(r"([a-z0-9])([A-Z])", r"\1_\2", word)
    return re.sub(r"([A-Z]+)([A-Z][a-z])", r"\1_\2", word).lower()


def texts(*ends):
    found = glob.glob("crates/**/*", recursive=True)
    return sorted(p for p in found if p.endswith(ends) and os.path.isfile(p) and "/out/" not in p)


def rename_contracts():
    for path in texts("/specs/Contracts.antt"):
        subprocess.run(["git", "mv", path, os.path.join(os.path.dirname(path), "Internal.antt")], check=True)
    for path in texts(".antt", ".rt", ".edit"):
        old = read(path)
        new = re.sub(r"\bspecs\.Contracts\b", "specs.Internal", old)
        new = re.sub(r"\bspecs/Contracts\.antt\b", "specs/Internal.antt", new)
        new = re.sub(r"\bmod Contracts\b", "mod Internal", new)
        if new != old:
            write(path, new)


def rename_lemmas():
    """A lemma's own file, and files that import it or name it behind an alias of that file."""
    for name in LEMMAS:
        word = re.compile(rf"(?<![\w.'-]){name}(?![\w'-])")
        declares = re.compile(rf"(?m)^ *(?:(?:pub|abbrev|unfoldable) +)*{name}(?: [({{][^\n]*?[)}}])* :")
        for path in texts(".antt"):
            text = read(path)
            if "/proofs/" not in path or not declares.search(code_of(text)):
                continue
            crate, rest = path.split("/proofs/")
            module = "Rattle." + os.path.basename(crate) + ".proofs." + rest[: -len(".antt")].replace("/", ".")
            write(path, word.sub(name + "_lem", text))
            for user in texts(".antt"):
                old = read(user)
                if user == path or module not in old:
                    continue
                new = old
                alias = re.search(rf"(?m)^use {re.escape(module)} as (\S+)", old)
                if alias:
                    new = re.sub(rf"(?<![\w.'-]){re.escape(alias[1])}\.{name}(?![\w'-])", f"{alias[1]}.{name}_lem", new)
                if re.search(rf"(?m)^use {re.escape(module)}\.\{{[^}}]*(?<![\w'-]){name}(?![\w'-])", old):
                    new = word.sub(name + "_lem", new)
                if new != old:
                    write(user, new)


def table():
    library = set()
    for path in glob.glob(KIT + "/**/*.antt", recursive=True):
        with open(path, encoding="utf-8", errors="replace") as f:
            library.update(TOKEN.findall(code_of(f.read())))
    ours = set()
    for path in texts(".antt"):
        ours.update(TOKEN.findall(code_of(read(path))))
    return {w: snake(w) for w in ours if re.fullmatch(r"[a-z][A-Za-z0-9_'-]*", w) and re.search(r"[a-z0-9][A-Z]", w) and (w not in library or w == "isOne")}


def rename_words(names):
    words = re.compile(r"(?<![\w'-])(" + "|".join(sorted(map(re.escape, names), key=len, reverse=True)) + r")(?![\w'-])")
    for path in texts(".antt", ".rt", ".edit"):
        old = read(path)
        new = words.sub(lambda m: names[m[1]], old)
        if new != old:
            write(path, new)
    for path in ["README.md"] + sorted(glob.glob("docs/**/*.md", recursive=True)) + sorted(glob.glob("tests/*.md")) + sorted(glob.glob("bench/*.md")):
        old = read(path)
        new = re.sub(r"\x60[^\x60\n]+\x60", lambda s: words.sub(lambda m: names[m[1]], s[0]), old)
        if new != old:
            write(path, new)


def main():
    if not os.path.isdir("crates"):
        sys.exit("run it at the top of the repository")
    rename_contracts()
    rename_lemmas()
    names = table()
    rename_words(names)
    print(len(names), "names")


main()
