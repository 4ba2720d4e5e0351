"""Faults of examples/keep.c, beside the keeper's worker, on one ledger without a journal."""
import itertools
import os
import subprocess
import tempfile
from concurrent.futures import ThreadPoolExecutor
from pathlib import Path

import count
from disk import Disk
from workers import BUILT, TOP, Place, words

FRONT = BUILT / "front_c"
STRICT = "-std=c11 -O1 -Wall -Wextra -Wpedantic -Wconversion -Werror -Iinclude".split()


def build():
    command = ["cc", *STRICT, "examples/keep.c", "target/staticlib/libfront.a", "-o", FRONT]
    subprocess.run(command, cwd=TOP, check=True)


class Pushed:
    """A folder with one ledger, and the pushes that were handed out of it: grant number and reference."""

    def __init__(self, folder, program):
        self.folder, self.place, self.handed = Path(folder), Place(f"files:{folder}", program, tick=1000), []
        assert self.front("start", "200") == ("started\n", 0)

    def front(self, *command, **fault):
        env = os.environ | ({"LD_PRELOAD": str(BUILT / "fault.so")} if fault else {})
        env |= {f"FAULT_{key.upper()}": str(value) for key, value in fault.items()}
        done = subprocess.run([FRONT, self.folder, "north", *command], env=env, stdout=subprocess.PIPE, text=True)
        self.handed += [tuple(line.split(" ")[1:]) for line in done.stdout.splitlines() if line.startswith("push ")]
        return done.stdout, done.returncode

    def keeper(self):
        self.handed += [(grant, reference) for grant, _, reference in words(self.place.lines("push north 2"), "push")]

    def check(self):
        """No number twice, and every reference that was handed out is in the stored ledger, under its number."""
        assert len({grant for grant, _ in self.handed}) == len(self.handed), f"a grant twice: {self.handed}"
        _, ledger = count.stored((self.folder / "north.ledger").read_bytes())
        records = [ledger[at:at + 256] for at in range(32, len(ledger), 256)]
        held = {(str(int.from_bytes(record[8:16], "big")), record[96:128].hex()) for record in records}
        assert set(self.handed) <= held, f"handed out, and not stored: {set(self.handed) - held}"


def in_c(program, chance, rounds):
    """The C front is killed, or its calls fail, at every call in turn; the power goes; then the keeper and the front go on."""
    build()
    runs = 0
    for how in ("kill-before", "kill-after", "EIO", "short"):
        for at in itertools.count(1):
            with tempfile.TemporaryDirectory() as room:
                disk, log = Disk(room, chance), Path(room, "log")
                pushed = Pushed(disk.folder, program)
                disk.settle()
                pushed.front("push", **disk.fault())
                pushed.front("push", **disk.fault(at=at, do=how, log=log))
                if not log.exists():
                    break
                disk.lose_power(all_of_it=chance.random() < 0.5)
                pushed.check()
                pushed.keeper()
                pushed.front("push")
                pushed.check()
                assert len(pushed.handed) >= 3, pushed.handed
                runs += 1
    with tempfile.TemporaryDirectory() as room, ThreadPoolExecutor(6) as pool:
        pushed = Pushed(room, program)
        list(pool.map(lambda k: pushed.keeper() if k % 2 else pushed.front("push"), range(40)))
        assert len(pushed.handed) == 40, pushed.handed
        pushed.check()
    return f"{runs} runs, and 40 pushes of both at once,"
