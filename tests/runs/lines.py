#!/usr/bin/env python3
"""Runs a line program on the stored streams of tests/data/lines/ and compares: tests/runs/lines.py PROGRAM

The worked grant of tools/grant is run too, and compared with tests/data/grant.expected.
"""
import shlex
import subprocess
import sys
from pathlib import Path

TOP = Path(__file__).resolve().parents[2]
DATA = TOP / "tests" / "data"


def output(command, source):
    with open(source, "rb") as text:
        return subprocess.run(command, stdin=text, stdout=subprocess.PIPE, timeout=600).stdout


def main():
    if len(sys.argv) != 2:
        sys.exit(__doc__)
    program = sys.argv[1]
    runs = [(source.name, shlex.split(program), source, source.with_suffix(".out"))
            for source in sorted((DATA / "lines").glob("*.in"))]
    runs.append(("tools/grant", [str(TOP / "tools" / "grant"), program], "/dev/null", DATA / "grant.expected"))
    failed = 0
    for name, command, source, expected in runs:
        got, want = output(command, source).split(b"\n"), expected.read_bytes().split(b"\n")
        if got != want:
            failed += 1
            place = next((i for i, pair in enumerate(zip(got, want)) if pair[0] != pair[1]), min(len(got), len(want)))
            got, want = ((part[place:] + [b"no more"])[0].decode("latin-1") for part in (got, want))
            print(f"failed: {name}, line {place + 1}\n  got  {got}\n  want {want}")
    print(f"{len(runs) - failed} passed, {failed} failed")
    return 1 if failed else 0


if __name__ == "__main__":
    sys.exit(main())
