#!/usr/bin/env python3
"""The archive's calls from C and from Rust: builds the tests of tests/front and bindings/rust and runs them, one tally for all.

Each line program over the archive (one in C, one on the Rust bindings) is run on the stored and on random streams, beside the desk's
own line program where crates.txt lists it, else beside the second program. tests/all runs the faults on their own.
"""
import os
import re
import subprocess
import sys
from pathlib import Path

TOP = Path(__file__).resolve().parents[2]
ARCHIVE = "target/staticlib/libfront.a"
NEEDED = f"test \"$(nm -u {ARCHIVE} | awk 'NF == 2 {{print $2}}' | sort -u | xargs)\" = 'memcpy memset'"  # what docs/FRONT.md says of it
STRICT = "-std=c11 -O1 -Wall -Wextra -Wpedantic -Wconversion -Werror -Iinclude -Itests/front".split()
STREAMS = "--streams 45 --lines 300 --seed front --cover".split()
LINES_IN_C, LINES_IN_RUST = "target/front/c/lines", "target/front/release/lines"
TALLY = re.compile(r"^(\d+) passed, (\d+) failed$|^test result: \w+\. (\d+) passed; (\d+) failed;", re.M)


def line_program():
    listed = re.search(r"^perdigolh\s*:", (TOP / "crates.txt").read_text(encoding="utf8"), re.M)
    return "crates/perdigolh/out/perdigolh" if listed else "target/second/release/second"


def cargo(*words, package, folder):
    return ["cargo", *words, "--offline", "--manifest-path", f"{package}/Cargo.toml", "--target-dir", f"target/{folder}"]


def steps():
    """Each step: what it is, its command, and whether it ends with tallies of its own."""
    yield "the archive needs memcpy and memset alone", ["bash", "-c", NEEDED], False
    for name in ("calls", "lines"):
        yield f"{name}.c compiles", ["cc", *STRICT, f"tests/front/{name}.c", ARCHIVE, "-o", f"target/front/c/{name}"], False
    yield "front.c compiles", ["cc", *STRICT, "examples/front.c", ARCHIVE, "-o", "target/front/c/front"], False
    for header in ("perdigolh.h", "perdigolh_text.h"):
        yield f"{header} is C++ too", ["c++", "-std=c++17", "-Wall", "-Wextra", "-Werror", "-fsyntax-only", "-x", "c++", f"include/{header}"], False
    yield "the Rust tests compile", cargo("build", "--release", package="tests/front", folder="front"), False
    yield "grants and refusals in C", ["target/front/c/calls"], True
    yield "grants and refusals in Rust", cargo("test", "--no-fail-fast", package="bindings/rust", folder="bindings"), True
    yield "the Rust example", cargo("run", "--example", "grant", package="bindings/rust", folder="bindings"), False
    for program in (LINES_IN_C, LINES_IN_RUST):
        yield f"stored streams: {program}", ["python3", "tests/runs/lines.py", program], True
        yield f"random streams: {program}", ["python3", "tests/runs/streams.py", "--a", program, "--b", line_program(), *STREAMS], True


def main():
    os.makedirs(TOP / "target/front/c", exist_ok=True)
    passed = failed = 0
    for name, command, tallied in steps():
        run = subprocess.run(command, cwd=TOP, stdin=subprocess.DEVNULL, stdout=subprocess.PIPE, stderr=subprocess.STDOUT, text=True)
        tallies = [[int(n) for n in found.groups() if n] for found in TALLY.finditer(run.stdout)] if tallied else [[1, 0]] if run.returncode == 0 else []
        good, bad = (sum(tally[i] for tally in tallies) for i in (0, 1))
        if good == 0 or (run.returncode and not bad):
            bad += 1
        passed, failed = passed + good, failed + bad
        print(f"{name}: {good} passed, {bad} failed")
        if bad:
            print(run.stdout)
    print(f"{passed} passed, {failed} failed")
    return 1 if failed else 0


if __name__ == "__main__":
    sys.exit(main())
