#!/usr/bin/env python3
"""The bench compiles and links against the archives, so that it can be run: nothing is measured here (bench/run does that)."""
import subprocess
import sys
from pathlib import Path

TOP = Path(__file__).resolve().parents[2]
STEPS = [
    ("the archives", ["tools/archives"]),
    ("the bench compiles", ["cargo", "build", "--release", "--offline", "--manifest-path", "bench/Cargo.toml", "--target-dir", "target/bench"]),
    ("bench/run reads its words", [sys.executable, "-c", "import ast, sys; ast.parse(open('bench/run', encoding='utf8').read())"]),
]


def main():
    failed = 0
    for name, command in STEPS:
        run = subprocess.run(command, cwd=TOP, stdin=subprocess.DEVNULL, stdout=subprocess.PIPE, stderr=subprocess.STDOUT, text=True)
        if run.returncode:
            failed += 1
            print(f"{name}: FAILED", run.stdout, sep="\n")
    print(f"{len(STEPS) - failed} passed, {failed} failed")
    return 1 if failed else 0


if __name__ == "__main__":
    sys.exit(main())
