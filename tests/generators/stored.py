"""The stored runs of programs, crates/NAME/{args,stdin,stdout}: written, or with --check compared with what would be written."""

import os
import sys

ROOT = os.path.dirname(os.path.dirname(os.path.dirname(os.path.abspath(__file__))))


def is_check():
    """Whether the command line asks for a check; any other word ends the program."""
    if sys.argv[1:] not in ([], ["--check"]):
        sys.exit(f"usage: {sys.argv[0]} [--check]")
    return sys.argv[1:] == ["--check"]


def content_of(crate, name):
    """The bytes of a stored file; None if there is none."""
    try:
        with open(os.path.join(ROOT, "crates", crate, name), "rb") as file:
            return file.read()
    except FileNotFoundError:
        return None


def store(crate, files):
    """Writes a program's files, given as bytes by name, or checks them."""
    for name, content in files.items():
        if not is_check():
            with open(os.path.join(ROOT, "crates", crate, name), "wb") as file:
                file.write(content)
        elif content_of(crate, name) != content:
            sys.exit(f"crates/{crate}/{name} is not what the independent program works out")


def store_cases(crate, cases, most=None):
    """A program's cases: bytes, each with the lines to be printed for it. Its input has each case behind its length in two bytes."""
    cases = list(cases)
    stdin = b"".join(len(data).to_bytes(2, "little") + data for data, _ in cases)
    if most is not None and len(stdin) > most:
        sys.exit(f"{len(stdin)} bytes are more than {crate} reads")
    store(crate, {"stdin": stdin, "stdout": "".join(line + "\n" for _, lines in cases for line in lines).encode("ascii")})
