#!/usr/bin/env python3
"""Runs two line programs on the same random streams and compares them byte for byte.

Each answer's number is also compared with the one that the stream's maker knows it must be.
With --cover, a number that lines can reach and that no stream reached counts as failed.
"""
import argparse
import shlex
import subprocess
import sys
from collections import Counter
from pathlib import Path

sys.dont_write_bytecode = True
sys.path.insert(0, str(Path(__file__).resolve().parents[1] / "generators"))
from stream_maker import NO_FRAME, ORDER, Maker  # noqa: E402

# What lines can reach: 9 needs 2^64 pushes, 20 a short output buffer, which the line program never lends.
REACHABLE = {kind: [0, *numbers] for kind, numbers in ORDER.items()} | {"start": [0, 1], "client": [0, 3]}
NO_FRAMES = ["empty", "odd digits", "no hex", "CR", "unknown kind", "too short", "too long for its kind",
             "yes above 01", "over 640 digits"]
KINDS = ["start", "push", "decide", "token", "resource", "sweep", "client"]


def run(program, text):
    return subprocess.run(shlex.split(program), input=text, stdout=subprocess.PIPE, check=False)


def difference(lines, a, b):
    """The first thing wrong with the two runs, or None."""
    if a.returncode or b.returncode:
        return f"exit status {a.returncode} and {b.returncode}"
    answers, others = a.stdout.split(b"\n"), b.stdout.split(b"\n")
    for place, line in enumerate(lines):
        answer, other = ((part[place] if place < len(part) else b"") for part in (answers, others))
        if answer != other or answer[:2] != b"%02x" % line.number:
            return (f"line {place + 1}, {line.label}, must be {line.number}:\n  {line.text[:700].decode('latin-1')}\n"
                    f"  a {answer.decode('latin-1')}\n  b {other.decode('latin-1')}")
    if a.stdout != b.stdout or answers[len(lines):] != [b""]:
        return f"{len(lines)} lines, {len(answers) - 1} and {len(others) - 1} answers"
    return None


def table(reached):
    numbers = sorted({number for numbers in REACHABLE.values() for number in numbers})
    rows = [["", *numbers]]
    for kind in KINDS:
        rows.append([kind, *(reached[kind, n] or (0 if n in REACHABLE[kind] else ".") for n in numbers)])
    return "\n".join(f"{row[0]:<9}" + "".join(f"{cell:>6}" for cell in row[1:]) for row in rows)


def main():
    parser = argparse.ArgumentParser(description=__doc__, formatter_class=argparse.RawDescriptionHelpFormatter)
    parser.add_argument("--a", help="a line program")
    parser.add_argument("--b", help="the other one")
    parser.add_argument("--streams", type=int, default=200)
    parser.add_argument("--lines", type=int, default=400)
    parser.add_argument("--seed", default="1")
    parser.add_argument("--cover", action="store_true", help="fail where a reachable number was not reached")
    parser.add_argument("--make-only", type=int, nargs="?", const=0, metavar="INDEX", help="print one stream")
    options = parser.parse_args()
    if options.make_only is not None:
        sys.stdout.buffer.write(Maker(options.seed, options.make_only, options.lines).make()[1])
        return 0
    if not (options.a and options.b):
        parser.error("--a and --b are needed")

    passed = failed = 0
    reached = Counter()
    for index in range(options.streams):
        lines, text = Maker(options.seed, index, options.lines).make()
        a = run(options.a, text)
        wrong = difference(lines, a, run(options.b, text))
        if wrong:
            print(f"stream {index} of seed {options.seed}: {wrong}")
        failed, passed = failed + bool(wrong), passed + (not wrong)
        for line, answer in zip(lines, a.stdout.split(b"\n")):
            reached[line.label, line.number] += answer[:2] == b"%02x" % line.number
    print(table(reached))
    print("ff:", ", ".join(f"{label} {reached[label, NO_FRAME]}" for label in NO_FRAMES))
    wanted = [(kind, number) for kind in KINDS for number in REACHABLE[kind]]
    wanted += [(label, NO_FRAME) for label in NO_FRAMES]
    missing = [f"{label} {number}" for label, number in wanted if not reached[label, number]]
    if options.cover:
        failed, passed = failed + len(missing), passed + len(wanted) - len(missing)
    for name in missing:
        print(f"not reached: {name}")
    print(f"{passed} passed, {failed} failed")
    return 1 if failed else 0


if __name__ == "__main__":
    sys.exit(main())
