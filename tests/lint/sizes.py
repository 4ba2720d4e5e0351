#!/usr/bin/env python3
"""The table of sizes in docs/CHANGING.md: tools/sizes --check notices what is no longer right in it, and --write keeps what was not measured.

  tests/lint/sizes.py    a table made anew, spoilt in one way at a time
"""
import importlib.machinery
import importlib.util
import re
import sys

sys.dont_write_bytecode = True
from sources import TOP, tally  # noqa: E402

LOADER = importlib.machinery.SourceFileLoader("sizes", str(TOP / "tools/sizes"))
sizes = importlib.util.module_from_spec(importlib.util.spec_from_loader("sizes", LOADER))
LOADER.exec_module(sizes)


def main():
    page = sizes.MARK[0] + sizes.table() + sizes.MARK[1]
    crate = sizes.crates()[0]
    row = re.search(rf"^\| `{crate}` \|.*\n", page, re.M).group()
    cells = row.split("|")
    lines = [page.replace(row, "|".join([*cells[:at], f" {int(cells[at]) * 2 + 100} ", *cells[at + 1:]])) for at in (2, 3, 4)]
    results = [
        ("the table made anew", not list(sizes.problems(page))),
        ("a row is missing", bool(list(sizes.problems(page.replace(row, ""))))),
        ("a row too many", bool(list(sizes.problems(page.replace(row, row + row.replace(crate, "nowhere")))))),
        ("no table", bool(list(sizes.problems(page.replace(sizes.MARK[0], ""))))),
        *((f"other lines of {part}", bool(list(sizes.problems(text)))) for part, text in zip(sizes.PARTS.values(), lines)),
        ("seconds of the log", sizes.row_of("none", {"Check, s": "7"}, "rt: none proved (12 s)\n")["Check, s"] == "12"),
        ("seconds that were not measured stay", sizes.row_of("none", {"Check, s": "7"}, "")["Check, s"] == "7"),
    ]
    wrong = [f"{said}: not as it should be" for said, good in results if not good]
    return tally(len(results) - len(wrong), wrong)


if __name__ == "__main__":
    sys.exit(main())
