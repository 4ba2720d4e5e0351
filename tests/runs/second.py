#!/usr/bin/env python3
"""The second program's own tests, one tally for all of them: cargo test, its builds in target/second."""
import re
import subprocess
import sys
from pathlib import Path

TOP = Path(__file__).resolve().parents[2]
COMMAND = ["cargo", "test", "--offline", "--no-fail-fast", "--manifest-path", "second/Cargo.toml", "--target-dir", "target/second"]


def main():
    run = subprocess.run(COMMAND, cwd=TOP, stdout=subprocess.PIPE, text=True)
    print(run.stdout, end="")
    results = re.findall(r"^test result: \w+\. (\d+) passed; (\d+) failed;", run.stdout, re.M)
    passed, failed = (sum(int(result[i]) for result in results) for i in (0, 1))
    # a build that fails runs no test, and tests that are not there prove nothing
    if passed == 0 or (run.returncode and not failed):
        failed += 1
    print(f"{passed} passed, {failed} failed")
    return 1 if failed else 0


if __name__ == "__main__":
    sys.exit(main())
