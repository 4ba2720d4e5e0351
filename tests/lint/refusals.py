#!/usr/bin/env python3
"""The rows of document 01's table "Numbers returned" are written once a language, and all say the same.

  tests/lint/refusals.py               compare
  tests/lint/refusals.py --self-test   drop each row of each list, and change its number and its words: each must be noticed

The definition (number_of) is what the others are held to: the enum in the code, whose cases have their numbers, the header, the bindings, the second program,
the tools, and PROMISES, which has a row for each number. The numbers of each call, in the order of its definition's checks, are held to the
header, the bindings, and the lists that the tests go by. So a new row is one line in each, and none can be missed.
"""
import ast
import functools
import re
import sys

sys.dont_write_bytecode = True
from sources import TOP, tally  # noqa: E402

CODE, DEFINITION = "crates/desk/src/answer.rt", "crates/desk/specs/Answers.antt"
HEADER, BINDINGS, CALLS = "include/perdigolh.h", "bindings/rust/src/refusal.rs", "bindings/rust/src/lib.rs"
SECOND, TOOLS, PROMISES = "second/src/desk.rs", "tools/frames.py", "docs/PROMISES.md"
PLAYS, STREAMS, BESIDE = "tests/runs/plays.py", "tests/generators/stream_maker.py", "tests/front/src/beside.rs"

# Each list: its file, what stands around it, and a row of it.
LISTS = {
    "the definition": (DEFINITION, r"(?s).*", r"^number_of (?P<name>\w+) = (?P<number>\d+)$"),
    "the enum": (CODE, r"pub enum Refusal \{\n(.*?)\n\}", r"^    (?P<name>\w+) = (?P<number>\d+),$"),
    "the header": (HEADER, r"enum perdigolh_number \{\n(.*?)\n\};", r"^    PERDIGOLH_(?P<name>\w+) = (?P<number>\d+),? *(?:/\* (?P<words>.*?) \*/)?$"),
    "the bindings": (BINDINGS, r"\nrefusals! \{\n(.*?)\n\}", r'^    (?P<name>\w+) = (?P<number>\d+), "(?P<words>[^"]*)";$'),
    "the second program": (SECOND, r"pub enum Refusal \{\n(.*?)\n\}", r"^    (?P<name>\w+) = (?P<number>\d+),$"),
    "the tools": (TOOLS, r"\nWORDS = \{\n(.*?)\n\}", r'^    (?P<number>\w+): "(?P<words>[^"]*)",$'),
    "PROMISES": (PROMISES, r"(?s).*", r"^\| (?P<number>\d+): (?P<words>[^|]*) \|.*$"),
}
NO_FRAME = 0xff
UNREACHED = {9, 20}  # no line can fail these: 2^64 pushes, a short output buffer
NAMED = ("push", "decide", "token", "resource", "sweep", "pending", "introspect")
READING = ("pending", "introspect")  # beyond document 01's six: no frames, so no plays and no streams of lines

spoilt = {}  # the self-test's files


@functools.cache
def stored(path):
    return (TOP / path).read_text(encoding="utf8")


def read(path):
    return spoilt.get(path) or stored(path)


@functools.cache
def bodies(name):
    """What stands behind the = of a definition of desk."""
    found = re.compile(rf"^{name} .*?=(.*?)(?=\n\n|\Z)", re.S | re.M)
    return [m.group(1) for path in sorted((TOP / "crates/desk/specs").glob("*.antt")) for m in found.finditer(stored(path))]


def matches(title):
    """The rows of a list, with where the list begins in its file."""
    path, around, row = LISTS[title]
    block = re.search(around, read(path), re.S)
    return block.start(block.lastindex or 0), list(re.finditer(row, block.group(block.lastindex or 0), re.M))


def rows(title, field):
    """The rows of a list in order, as numbers with a field."""
    return [(int(m["number"], 0), m[field]) for m in matches(title)[1]]


def shouted(name):
    return re.sub(r"(?<!^)(?=[A-Z])", "_", name).upper()


@functools.cache
def assigned(text, name):
    """What a Python text gives a name, read and not run."""
    for node in ast.parse(text).body:
        if isinstance(node, ast.Assign) and [getattr(target, "id", None) for target in node.targets] == [name]:
            return ast.literal_eval(node.value)
    return None


def listed(path, before, call, behind):
    """The numbers that a remark lists in front of a call."""
    found = re.search(before.format(call=call), read(path), re.S)
    return [int(n) for n in re.findall(r"\d+", re.split(behind, found.group(1))[0])] if found else None


def orders():
    """The numbers of each call, in the order of its definition's checks."""
    numbers = {name: number for number, name in rows("the definition", "name")}

    def checks(name):
        return [numbers[row] for body in bodies(name) for row in re.findall(r"\((\w+) when", body)]

    return {"start": [numbers["LedgerUnsound"]]} | {call: checks("begins") + checks(f"{call}_checks") for call in NAMED}


def results():
    """Each comparison as its name, what is said and what the definition says."""
    defined = rows("the definition", "name")
    numbers = [number for number, _ in defined]
    words = dict(rows("the tools", "words"))
    yield "each number stands once", sorted(set(numbers)), sorted(numbers)
    yield "the enum", rows("the enum", "name"), defined
    yield "the header: names", rows("the header", "name"), [(0, "DONE")] + [(number, shouted(name)) for number, name in defined]
    yield "the header: words", rows("the header", "words"), [(0, None)] + [(number, words.get(number)) for number in numbers]
    yield "the bindings: names", rows("the bindings", "name"), defined
    yield "the bindings: words", rows("the bindings", "words"), [(number, words.get(number)) for number in numbers]
    yield "the second program", [number for number, _ in rows("the second program", "name")], numbers
    yield "the tools", list(words), [0, *numbers, NO_FRAME]
    yield "the tools: what is no refusal", (words.get(0), words.get(NO_FRAME)), ("done", "no frame")
    yield "PROMISES: a row for each number", [number for number, _ in rows("PROMISES", "words")], numbers

    calls = orders()
    yield "every row is a check of some call", sorted({n for order in calls.values() for n in order}), sorted(numbers)
    plays, streams = assigned(read(PLAYS), "LISTS"), assigned(read(STREAMS), "ORDER")
    for call, order in calls.items():
        remark = r"/\*(?:(?!\*/).)*?Checks[^:]*: ((?:(?!\*/).)*?)\*/\s*\w+ perdigolh_{call}\("
        yield f"the header: the checks of {call}", listed(HEADER, remark, call, r"\.|for"), order
        beside = re.search(rf"Kind::{call.capitalize()} => &\[([^\]]*)\]", read(BESIDE))
        yield f"the archive's tests: {call}", [int(n) for n in beside.group(1).split(",")], [*order, 0]
        if call != "start":
            remark = r"/// Checks ((?:(?!/// Checks|pub fn).)*)pub fn {call}[(<]"
            yield f"the bindings: the checks of {call}", listed(CALLS, remark, call, r"[;.]"), order
        if call not in READING:
            yield f"the plays: {call}", plays.get(call), {0, *order}
        if call not in (*READING, "start"):
            yield f"the streams: {call}", streams.get(call), [n for n in order if n not in UNREACHED]


# The self-test.

def faults():
    """Each fault as what it is, the file, and its spoilt text."""
    for title, (path, _, _) in LISTS.items():
        text = read(path)
        begin, found = matches(title)
        for m in found:
            before, row, behind = text[:begin + m.start()], m.group(), text[begin + m.end():]
            yield f"{title}: {row.strip()[:60]!r} is dropped", path, before + behind.lstrip("\n")
            for field, other in (("number", "77"), ("name", "Another"), ("words", "something else")):
                if not (field == "name" and title == "the second program") and not (title == "PROMISES" and field == "words") and m.groupdict().get(field):
                    where = m.start(field) - m.start()
                    yield f"{title}: another {field} in {row.strip()[:60]!r}", path, before + row[:where] + other + row[where + len(m[field]):] + behind
    for path, old, new in [
        (HEADER, "Checks, in order: 1, 2, 17, 11, 18, 6, 19.", "Checks, in order: 1, 2, 17, 18, 11, 6, 19."),
        (CALLS, "/// Checks 1, 2, 17, 11, 18, 6, 19;", "/// Checks 1, 2, 17, 11, 18, 19;"),
        (PLAYS, '"resource": {0, 1, 2, 17, 11, 18, 6, 19}', '"resource": {0, 1, 2, 17, 11, 18, 6}'),
        (STREAMS, '"resource": [1, 2, 17, 11, 18, 6, 19]', '"resource": [1, 2, 17, 11, 6, 18, 19]'),
        (BESIDE, "Kind::Resource => &[1, 2, 17, 11, 18, 6, 19, 0]", "Kind::Resource => &[1, 2, 17, 11, 18, 6, 0]"),
        (HEADER, "Checks, in order: 1, 2, 20, 10, 11: decide's", "Checks, in order: 1, 2, 10, 11: decide's"),
        (CALLS, "/// Checks 1, 2, 20; then the front", "/// Checks 1, 20, 2; then the front"),
        (BESIDE, "Kind::Pending => &[1, 2, 20, 10, 11, 0]", "Kind::Pending => &[1, 2, 20, 11, 10, 0]"),
    ]:
        yield f"{path}: {new}", path, read(path).replace(old, new, 1)


def differing():
    return [f"{name}: FAILED\n  said    {said}\n  defined {wanted}" for name, said, wanted in results() if said != wanted]


def self_test():
    if differing():
        return tally(0, ["the lists differ before they are spoilt", *differing()])
    passed, failures = 0, []
    for said, path, text in list(faults()):
        unspoilt = read(path)
        spoilt[path] = text
        try:
            noticed = text != unspoilt and bool(differing())
        except (AttributeError, KeyError):  # a list that cannot be read is noticed too
            noticed = True
        spoilt.clear()
        passed += noticed
        failures += [] if noticed else [f"was not noticed: {said}"]
    return tally(passed, failures)


def main():
    wrong = differing()
    return tally(len(list(results())) - len(wrong), wrong)


if __name__ == "__main__":
    sys.exit(self_test() if sys.argv[1:] == ["--self-test"] else main())
