#!/usr/bin/env python3
"""The layouts that a front's maker reads are the definitions': docs/FRONT.md's tables and the header's, field by field.

  tests/lint/layout.py               compare
  tests/lint/layout.py --self-test   drop each row, and move each end by one: each must be noticed
"""
import re
import sys

sys.dont_write_bytecode = True
from sources import TOP, tally  # noqa: E402

PAGE, HEADER = "docs/FRONT.md", "include/perdigolh.h"
LEDGER, CLIENTS = "crates/ledger/specs/Fields.antt", "crates/clients/specs/Fields.antt"
# the head's fields and the record's stand in one file; the record begins with its state
HEAD = ("clock_span", "next_span", "head_rest_span")
ROW = r"^\| (\d+)(?:\.\.(\d+))? \|"
REMARK = r"^ \*   (\d+)\.\.(\d+) "

spoilt = {}  # the self-test's files


def read(path):
    return spoilt.get(path) or (TOP / path).read_text(encoding="utf8")


def defined(path, wanted):
    """The places of the definitions' fields in order."""
    found = re.findall(r"^(\w+_span) = span (\d+) (\d+)$", read(path), re.M)
    return sorted((int(a), int(b)) for name, a, b in found if wanted(name))


def shown(path, begin, end, row):
    """The places of a table's rows between two texts; a single number is one byte."""
    part = read(path).partition(begin)[2].partition(end)[0]
    return [(int(a), int(b) if b else int(a) + 1) for a, b in re.findall(row, part, re.M)]


def results():
    clients = defined(CLIENTS, lambda name: True)
    yield "the page: a client's record", shown(PAGE, "### The client table", "### The ledger", ROW), clients
    yield "the header: a client's record", shown(HEADER, "The client table: ", "*/", REMARK), clients
    yield "the page: the ledger's head", shown(PAGE, "| Bytes of the head |", "The records follow", ROW), defined(LEDGER, lambda name: name in HEAD)
    yield "the page: a ledger's record", shown(PAGE, "| Bytes of a record |", "\n\n", ROW), defined(LEDGER, lambda name: name not in HEAD)


def differing():
    return [f"{name}: FAILED\n  said    {said}\n  defined {wanted}" for name, said, wanted in results() if said != wanted or not wanted]


def self_test():
    if differing():
        return tally(0, ["the layouts differ before they are spoilt", *differing()])
    passed, failures = 0, []
    for path, row, begin, end in ((PAGE, ROW, "### The client table", "## What the front owes"), (HEADER, REMARK, "The client table: ", "*/")):
        text = read(path)
        start = text.index(begin)
        for found in re.finditer(row, text[start:text.index(end, start)], re.M):
            a, b = start + found.start(), start + found.end()
            moved = found.group().replace(found.group(1), str(int(found.group(1)) + 1), 1)
            for fault in (text[:a] + text[text.index("\n", b) + 1:], text[:a] + moved + text[b:]):
                spoilt[path] = fault
                noticed = bool(differing())
                spoilt.clear()
                passed += noticed
                failures += [] if noticed else [f"was not noticed: {path}: {found.group()}"]
    return tally(passed, failures)


def main():
    wrong = differing()
    return tally(len(list(results())) - len(wrong), wrong)


if __name__ == "__main__":
    sys.exit(self_test() if sys.argv[1:] == ["--self-test"] else main())
