#!/usr/bin/env python3
"""The table of docs/OUTSIDE.md: what each number at each call is outside.

  tests/lint/outside.py check         the rows of bindings/rust/src/outside.rs are the numbers that each call gives, and the page has them
  tests/lint/outside.py write         write the page's table anew
  tests/lint/outside.py --self-test   drop each row of the bindings and of the page: each must be noticed

The names and the numbers of a call, in order, are read from the definitions in crates/desk/specs.
"""
import re
import sys

sys.dont_write_bytecode = True
from refusals import orders, read, rows as listed, spoilt  # noqa: E402
from sources import TOP, tally  # noqa: E402

SOURCE, PAGE = "bindings/rust/src/outside.rs", "docs/OUTSIDE.md"
BEGIN, END = "<!-- rows -->", "<!-- end -->"
HEAD = ["| Call | No. | Error | Status | Retry | Alarm | Log |", "|---|---|---|---|---|---|---|"]
RETRY = {"Never": "no", "Time": "the time read anew", "Fresh": "another fresh value", "Sweep": "after a sweep"}
ALARM = {"Never": "no", "Again": "again", "Always": "yes"}


def numbers():
    """Each refusal's number by its name, from the definition."""
    return {name: number for number, name in listed("the definition", "name")}


def rows():
    """The rows of the bindings: call, number, and the cells behind them."""
    body = read(SOURCE).rsplit("outside! {", 1)[1]
    for call, name, status, error, retry, alarm, log in re.findall(r'^    (\w+) (\w+): (\S+), (\S+), (\w+), (\w+), "(.*)";$', body, re.M):
        error = "-" if error == "-" else f"`{error.strip(chr(34))}`"
        yield call.lower(), numbers()[name], [error, status, RETRY[retry], ALARM[alarm], log]


def table():
    return HEAD + [f"| {call} | {number} | {' | '.join(cells)} |" for call, number, cells in rows()]


def results():
    said = {}
    for call, number, _ in rows():
        said.setdefault(call, []).append(number)
    yield "the calls", list(said), list(orders())
    for call, order in orders().items():
        yield f"the numbers of {call}", said.get(call), order
    yield "every line of the bindings' table is read", sum(map(len, said.values())), read(SOURCE).rsplit("outside! {", 1)[1].count(";\n")
    shown = read(PAGE).partition(BEGIN)[2].partition(END)[0].split()
    yield "the page's table", shown, "\n".join(table()).split()
    explained = {int(n) for line in re.findall(r"^\| ([^|]+) \|[^|]*\|$", read(PAGE).partition("## Why")[2], re.M) for n in re.findall(r"\d+", line)}
    yield "each number is explained", explained, set(numbers().values())


def differing():
    return [f"{name}: FAILED\n  said   {said}\n  wanted {wanted}" for name, said, wanted in results() if said != wanted]


def write():
    before, _, rest = read(PAGE).partition(BEGIN)
    text = "\n".join([before + BEGIN, "", *table(), "", END + rest.partition(END)[2]])
    (TOP / PAGE).write_text(text, encoding="utf8")
    return 0


def self_test():
    if differing():
        return tally(0, ["the table is not in order before it is spoilt", *differing()])
    passed, failures = 0, []
    for path, row in ((SOURCE, r"^    \w+ \w+: .*;\n"), (PAGE, r"^\| (?!Call|No\.|Number|-)[^\n]*\n")):
        for found in re.finditer(row, read(path), re.M):
            if path == PAGE and found.start() < read(PAGE).index(BEGIN):
                continue  # what goes out when it is done
            spoilt[path] = read(path)[:found.start()] + read(path)[found.end():]
            noticed = bool(differing())
            spoilt.clear()
            passed += noticed
            failures += [] if noticed else [f"was not noticed: {path} without {found.group().strip()[:60]}"]
    return tally(passed, failures)


def main(words):
    if words == ["write"]:
        return write()
    if words == ["--self-test"]:
        return self_test()
    if words != ["check"]:
        print(__doc__, file=sys.stderr)
        return 2
    wrong = differing()
    return tally(len(list(results())) - len(wrong), wrong)


if __name__ == "__main__":
    sys.exit(main(sys.argv[1:]))
