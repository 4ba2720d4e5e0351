#!/usr/bin/env python3
"""The keeper under faults, with a count of its own over what was handed out (docs/KEEPER.md).

  tests/runs/keeper.py                         the gate's part
  tests/runs/keeper.py --rounds 500 --seed 7   more of it, at every call and message; PART .. runs those parts alone
  tests/runs/keeper.py --without file-sync ..  the same with a keeper that lacks something: it must fail

Each part counts as one test.
"""
import argparse
import os
import random
import re
import subprocess
import sys
import tempfile
import time
import traceback
from concurrent.futures import ThreadPoolExecutor
from pathlib import Path

TOP = Path(__file__).resolve().parents[2]
sys.dont_write_bytecode = True
sys.path.insert(0, str(TOP / "tests/runs/keeper"))
import c_front  # noqa: E402
import file_faults as files  # noqa: E402
import postgres_faults as postgres  # noqa: E402
from lacking import LACKING, lacking  # noqa: E402
from workers import BUILT  # noqa: E402

# Each part, and for the gate how many rounds of it, or at which stride it goes over all calls or messages (--rounds 1: each).
PARTS = {
    "own-tests": (lambda *words: own_tests(), 1),
    "start-race": (files.start_race, 15),
    "killed-before-each-call": (lambda *words: files.each_call(*words, "kill-before"), 3),
    "killed-after-each-call": (lambda *words: files.each_call(*words, "kill-after"), 3),
    "EIO-at-each-call": (lambda *words: files.each_call(*words, "EIO"), 3),
    "ENOSPC-from-each-write": (lambda *words: files.each_call(*words, "ENOSPC", only=",write,", sticky=1), 1),
    "short-writes-and-reads": (lambda *words: files.each_call(*words, "short", only=",write,read,"), 3),
    "torn-files": (files.torn, 20),
    "kills": (files.kills, 15),
    "power": (files.power, 15),
    "power-at-each-call": (files.power_at_each_call, 1),
    "lost-answers": (files.lost_answers, 1),
    "16-redeem-one-code": (files.one_code, 6),
    "front-in-c": (c_front.in_c, 1),
    "postgres-settings": (postgres.settings, 1),
    "postgres-standby": (postgres.standby, 2),
    "postgres-start-race": (postgres.start_race, 5),
    "postgres-each-phase": (postgres.each_phase, 9),
    "postgres-each-commit": (postgres.at_commit, 3),
    "postgres-kills": (postgres.kills, 6),
    "postgres-server-kills": (postgres.server_kills, 2),
    "postgres-16-redeem-one-code": (postgres.one_code, 4),
}
STRIDES = {part for part in PARTS if part.endswith(("each-call", "each-write", "reads", "each-phase", "each-commit"))}
AT_A_TIME = 2
FAULT = "-shared -fPIC -O1 -Wall -Wextra -Werror"


def cargo(what, package, *words, target=BUILT):
    return ["cargo", what, "--offline", "--manifest-path", package / "Cargo.toml", "--target-dir", target, *words]


def build(package, features=(), target=BUILT):
    subprocess.run(cargo("build", package, "--release", *(f"--features={feature}" for feature in features), target=target), cwd=TOP, check=True)


def own_tests():
    """The keeper's own tests, and its example of many ledgers."""
    keeper = TOP / "bindings/keeper"
    done = subprocess.run(cargo("test", keeper), cwd=TOP, stdout=subprocess.PIPE, stderr=subprocess.STDOUT, text=True)
    assert done.returncode == 0, done.stdout
    with tempfile.TemporaryDirectory() as room:
        done_many = subprocess.run(cargo("run", keeper, "--example", "many", "--", room), cwd=TOP, stdout=subprocess.PIPE, text=True)
    lines = done_many.stdout.splitlines()
    grants = [line.split(": ")[1] for line in lines]
    assert done_many.returncode == 0 and len(set(grants)) == len(lines) == 12, lines  # a grant is named by ledger and number
    return f"{sum(map(int, re.findall(r'^test result: ok. ([0-9]+) passed', done.stdout, re.M)))} tests"


def held(part, program, given):
    """Runs a part and says how it went."""
    run, rounds = PARTS[part]
    rounds = rounds if not given.rounds else 1 if part in STRIDES else given.rounds
    began = time.time()
    try:
        tried = run(program, random.Random(f"{given.seed} {part}"), rounds)
        print(f"{part}: {tried} hold, {time.time() - began:.1f} s", flush=True)
        return True
    except Exception as error:  # whatever it is, the part does not hold
        why = str(error)[:200] if given.without else traceback.format_exc()
        print(f"{part}: FAILED after {time.time() - began:.1f} s: {why}", flush=True)
        return False


def main():
    words = argparse.ArgumentParser(description=__doc__, formatter_class=argparse.RawDescriptionHelpFormatter)
    words.add_argument("parts", nargs="*", metavar="PART", help=", ".join(PARTS))
    words.add_argument("--rounds", type=int, help="of each part")
    words.add_argument("--seed", default="1")
    words.add_argument("--without", choices=LACKING)
    given = words.parse_args()
    os.makedirs(BUILT, exist_ok=True)
    subprocess.run(["cc", *FAULT.split(), "-o", BUILT / "fault.so", TOP / "tests/runs/keeper/fault.c", "-ldl"], check=True)
    build(TOP / "bindings/keeper")
    build(TOP / "tests/runs/keeper", ["postgres"])
    program = lacking(given.without, build) if given.without else BUILT / "release/keeper_worker"
    with ThreadPoolExecutor(AT_A_TIME) as pool:
        parts = list(pool.map(lambda part: held(part, program, given), given.parts or PARTS))
    print(f"{sum(parts)} passed, {len(parts) - sum(parts)} failed")
    return 0 if all(parts) else 1


if __name__ == "__main__":
    sys.exit(main())
