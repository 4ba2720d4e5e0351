#!/usr/bin/env python3
"""The pictures of docs/pictures are the ones that tools/pictures draws from the sources, and each is shown on a page.

  tests/lint/pictures.py               draw them anew and compare
  tests/lint/pictures.py --self-test   change a source at a time: a picture must differ
"""
import importlib
import re
import sys

sys.dont_write_bytecode = True
from sources import TOP, tally  # noqa: E402

sys.path.insert(0, str(TOP / "tools/pictures"))
import read  # noqa: E402

FOLDER = "docs/pictures"
PICTURES = re.findall(r'"(\w+)"', re.search(r"^PICTURES = (.*)$", (TOP / "tools/pictures/draw").read_text(encoding="utf8"), re.M).group(1))
# a source, what is changed in it, and the pictures that tell
CHANGES = [
    ("crates/clients/specs/Limits.antt", "reference_lifetime = 90", "reference_lifetime = 91", ["steps", "states"]),
    ("crates/clients/specs/Limits.antt", "lifetime_most = 599", "lifetime_most = 598", ["steps", "states"]),
    ("crates/ledger/specs/Limits.antt", "token_lifetime = 300", "token_lifetime = 301", ["steps", "states"]),
    ("crates/ledger/specs/Limits.antt", "records_most = 200", "records_most = 100", ["bytes"]),
    ("crates/ledger/specs/Fields.antt", "holder_span = span 24 32", "holder_span = span 24 30", ["bytes"]),
    ("crates/ledger/specs/Fields.antt", '"scope bits"', '"scope"', ["bytes"]),
    ("crates/ledger/specs/Write.antt", "(with_holder who ", "(", ["bytes", "states"]),
    ("crates/desk/specs/Token.antt", "(NoKey when zeros q.presented)\n    ∷ ", "", ["states"]),
    ("crates/desk/specs/Answers.antt", "number_of NoHolder = 12", "number_of NoHolder = 21", ["states"]),
    ("docs/TRUST.md", "| Now is the time |", "| The time is right |", ["trust"]),
    ("crates.txt", "\nlines:", "\nother: lines\nlines:", ["crates"]),
]


def drawn(name):
    return importlib.import_module(name).draw().text()


def results():
    pages = "".join(path.read_text(encoding="utf8") for path in [TOP / "README.md", *TOP.glob("docs/*.md")])
    for name in PICTURES:
        file = TOP / FOLDER / f"{name}.svg"
        current = file.is_file() and file.read_text(encoding="utf8") == drawn(name)
        yield None if current else f"{FOLDER}/{name}.svg is not current: tools/pictures/draw"
        yield None if f"pictures/{name}.svg)" in pages else f"no page shows {FOLDER}/{name}.svg"
    yield from (f"{path.relative_to(TOP)} is drawn by nothing" for path in (TOP / FOLDER).glob("*") if path.stem not in PICTURES)


def changed(path, old, new, name):
    """Whether the picture differs where the source has other words."""
    before, plain = drawn(name), read.text_of
    if old not in plain(path):
        return False
    read.text_of = lambda file: plain(file).replace(old, new, 1) if file == path else plain(file)
    try:
        return drawn(name) != before
    except SystemExit:
        return True  # the sources no longer say what is drawn
    finally:
        read.text_of = plain


def self_test():
    tried = [(path, old, name, changed(path, old, new, name)) for path, old, new, names in CHANGES for name in names]
    wrong = [f"{name}.svg does not tell of {old!r} in {path}" for path, old, name, noticed in tried if not noticed]
    return tally(len(tried) - len(wrong), wrong)


def main():
    found = list(results())
    wrong = [problem for problem in found if problem]
    return tally(len(found) - len(wrong), wrong)


if __name__ == "__main__":
    sys.exit(self_test() if sys.argv[1:] == ["--self-test"] else main())
