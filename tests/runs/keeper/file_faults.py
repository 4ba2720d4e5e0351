"""Faults of a ledger in files. Each part gives the number of runs that it tried; a run that does not hold raises AssertionError."""
import itertools
import subprocess
import tempfile
import time
from collections import Counter
from pathlib import Path

import count
from disk import Disk
from workers import BUILT, TOP, Place, ended, failures, words

REPLAY = BUILT / "release/replay"
LINE_PROGRAM = TOP / "crates/perdigolh/out/perdigolh"


class Files:
    """A folder with one ledger, north, and every line that was handed out of it."""

    def __init__(self, program, room, records=20, options="jm", folder=None):
        self.folder = Path(folder or room)
        self.place = Place(f"files:{self.folder}", program)
        self.handed = []
        if records:
            assert self.place.lines(f"start north {records} {options}") == ["started north"]

    def run(self, *commands, **fault):
        lines, status = self.place.run(commands, **fault)
        self.handed.append(lines)
        return lines, status

    def lines(self, *commands):
        lines, status = self.run(*commands)
        assert status == 0 and not failures(lines), f"without faults: {status} {lines}"
        return lines

    def check(self, replays=False):
        """The count; with replays also the journal through the line program and through the tool over the archive."""
        kept, journal = self.folder / "north.ledger", self.folder / "north.journal"
        calls, void = count.check(self.handed, "north", kept.read_bytes(), journal.read_text())
        if replays:
            replayed(calls, journal, kept)
        return calls, void


def replayed(calls, journal, kept):
    frames = "".join(call + "\n" for call, _ in calls)
    answers = "".join(answer + "\n" for _, answer in calls)
    run = subprocess.run([LINE_PROGRAM], input=frames, capture_output=True, text=True, check=True)
    assert run.stdout == answers, "the line program answers otherwise"
    run = subprocess.run([REPLAY, journal, kept], capture_output=True, text=True)
    assert run.returncode == 0 and run.stdout.startswith(f"{len(calls)} calls in "), f"replay: {run.stdout}{run.stderr}"
    run = subprocess.run([REPLAY, "--frames", journal, kept], capture_output=True, text=True, check=True)
    assert run.stdout == "".join(f"{call} {answer}\n" for call, answer in calls), "replay --frames prints other frames"


def start_race(program, chance, rounds):
    """Two processes start one new name at one moment: one of them does, and both go on in the one ledger."""
    for _ in range(rounds):
        with tempfile.TemporaryDirectory() as room:
            files = Files(program, room, records=0)
            script = ["start north 4 jm", "push north 1"]
            files.handed = files.place.together([script, script], lead=0.03)
            outcomes = sorted(line.split(" ")[0] for lines in files.handed for line in lines if not line.startswith("push"))
            assert outcomes == ["failed", "started"], f"{outcomes}: {files.handed}"
            assert sorted(grant for lines in files.handed for grant, *_ in words(lines, "push")) == ["1", "2"], files.handed
            files.check()
    return f"{rounds} runs"


SCRIPT = ["start south 4 jm", "push north 1", "grants north 1 2 7", "push north 3", "sweep north"]


def each_call(program, chance, rounds, how, **more):
    """The fault at every call of the script in turn, or at every so many-th: open, read, write, sync and rename. Then others go on."""
    for tried, at in enumerate(itertools.count(chance.randint(1, rounds), rounds)):
        with tempfile.TemporaryDirectory() as room:
            files = Files(program, room)
            log = Path(room, "log")
            lines, status = files.run(*SCRIPT, root=files.folder / "", at=at, do=how, log=log, **more)
            if not log.exists():
                return f"{tried} runs"
            fault = log.read_text().split()[0]
            assert (status == -9) == how.startswith("kill"), f"{how} at call {at}, {fault}: status {status}"
            told = set(failures(lines))
            assert told <= {"not-made", "in-doubt", "no-ledger"}, f"{how} at call {at}, {fault}: {lines}"
            files.lines("grants north 2 1 7", "push north 1")
            files.check(replays=tried % 8 == 0)


def kills(program, chance, rounds, workers=4):
    """Several processes write one ledger and are killed at random moments."""
    made = 0
    for _ in range(rounds):
        with tempfile.TemporaryDirectory() as room:
            files = Files(program, room, records=chance.choice([1, 3, 20, 200]))
            for _ in range(2):
                begun = [files.place.begin([f"grants north 500 {k % 4 + 1} {k % 3 + 5}"]) for k in range(workers)]
                for worker in begun:
                    time.sleep(chance.random() * 0.03)
                    worker.kill()
                files.handed += [ended(worker)[0] for worker in begun]
            lines, status = files.run("sweep north", "push north 1")
            assert status == 0 and not failures(lines), lines
            calls, _ = files.check(replays=chance.random() < 0.1)
            made += len(calls)
    return f"{rounds} runs with {made} calls"


def power(program, chance, rounds, workers=3):
    """The same, and then the power goes: what was not synced may be lost."""
    for _ in range(rounds):
        with tempfile.TemporaryDirectory() as room:
            disk = Disk(room, chance)
            files = Files(program, room, records=chance.choice([3, 20]), folder=disk.folder)
            disk.settle()
            for _ in range(3):
                begun = [files.place.begin([f"grants north 500 {k % 4 + 1} {k % 3 + 5}"], **disk.fault()) for k in range(workers)]
                time.sleep(chance.random() * 0.06)
                for worker in begun:
                    worker.kill()
                files.handed += [ended(worker)[0] for worker in begun]
                disk.lose_power()
                files.check()
            lines, status = files.run("sweep north", "push north 1")
            assert status == 0 and not failures(lines), lines
            files.check(replays=chance.random() < 0.1)
    return f"{rounds} runs"


def power_at_each_call(program, chance, rounds):
    """A process is killed at each call in turn, another answers what changes nothing, and the power goes: all that was not synced is lost."""
    for at in itertools.count(1):
        with tempfile.TemporaryDirectory() as room:
            disk = Disk(room, chance)
            files = Files(program, room, folder=disk.folder)
            disk.settle()
            pushed = files.run("push north 4", **disk.fault())[0]
            reference = words(pushed, "push")[0][2]
            _, status = files.run(f"yes north 4 9 {reference}", "push north 1", **disk.fault(at=at, do="kill-after"))
            again, _ = files.run(f"yes north 4 9 {reference}", **disk.fault())
            assert len(words(again, "yes")) == 1, again
            disk.lose_power(all_of_it=True)
            files.check()
            assert files.lines(f"yes north 4 9 {reference}") == again, "the yes was decided a second time"
            files.check()
            if status == 0:
                return f"{at - 1} runs"


def lost_answers(program, chance, rounds):
    """A yes whose answer is lost at every call in turn and is pressed again: one decision, one redirect, one code, one token."""
    for at in itertools.count(1):
        with tempfile.TemporaryDirectory() as room:
            files = Files(program, room)
            reference = words(files.lines("push north 1"), "push")[0][2]
            press = f"yes north 1 7 {reference}"
            lines, status = files.run(press, root=files.folder / "", at=at, do=chance.choice(["kill-before", "kill-after"]))
            second, third = files.lines(press), files.lines(press)
            assert second == third and len(second) == 1, (second, third)
            assert status == -9 or lines == second, (lines, second)
            code = words(second, "yes")[0][3]
            assert files.lines(f"token north 1 {code} {code}")[1] == "refused north token 15"
            calls, _ = files.check()
            assert sum(call.startswith("02") and answer.startswith("00") for call, answer in calls) == 1, "more than one decision"
            if status == 0:
                return f"{at - 1} runs"


def one_token(workers):
    """One of them has a token. The next one has 15, which ends it (document 02, Q-3), and the rest have 14."""
    every = [line.split(" ") for lines in workers for line in lines]
    refused = Counter(line[3] for line in every if line[0] == "refused")
    assert len(every) == len(workers) and sum(line[0] == "token" for line in every) == 1, every
    assert refused == {"15": 1, "14": len(workers) - 2}, refused


def one_code(program, chance, rounds, clients=16):
    """So many processes redeem one code at one moment: exactly one gets a token."""
    for _ in range(rounds):
        with tempfile.TemporaryDirectory() as room:
            files = Files(program, room)
            files.place.tick = 1000
            reference = words(files.lines("push north 1"), "push")[0][2]
            code = words(files.lines(f"yes north 1 7 {reference}"), "yes")[0][3]
            lines = files.place.together([[f"token north 1 {code}"]] * clients, lead=0.1)
            files.handed += lines
            one_token(lines)
            files.check(replays=True)
    return f"{rounds} runs"


def torn(program, chance, rounds):
    """A torn new file beside the ledger is never read; a ledger cut or spoilt is noticed, and nothing is handed out."""
    with tempfile.TemporaryDirectory() as room:
        files = Files(program, room)
        whole = (files.folder / "north.ledger").read_bytes()
        for _ in range(rounds):
            (files.folder / "north.new").write_bytes(whole[:chance.randrange(len(whole))])
            files.lines("push north 1")
            whole = (files.folder / "north.ledger").read_bytes()
            spoilt = bytearray(whole)
            spoilt[chance.randrange(len(whole))] ^= 1 << chance.randrange(8)
            for bad in (whole[:chance.randrange(len(whole))], bytes(spoilt)):
                (files.folder / "north.ledger").write_bytes(bad)
                lines, _ = files.run("push north 1")
                assert failures(lines) == ["damaged"] and len(lines) == 1, lines
            (files.folder / "north.ledger").write_bytes(whole)
        files.check(replays=True)
    return f"{rounds} runs"
