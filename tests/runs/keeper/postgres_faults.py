"""Faults of a ledger in PostgreSQL. Each part gives the number of runs that it tried; a run that does not hold raises AssertionError."""
import itertools
import signal
import tempfile
import time
from pathlib import Path
from subprocess import CalledProcessError

import count
from file_faults import one_token, replayed
from server import Server, send
from workers import Place, ended, failures, words

UNKNOWN = {"not-made", "in-doubt"}


class Rows:
    """A server with ledgers, one after the other, and every line that was handed out of each."""

    def __init__(self, program, server):
        self.server, self.place = server, Place(f"postgres:{server.address()}", program)
        self.handed, self.name, self.names = [], None, itertools.count(1)

    def begin(self, records=20, options="jm"):
        self.name, self.handed = f"north-{next(self.names)}", []
        assert self.place.lines(f"start {self.name} {records} {options}") == [f"started {self.name}"]

    def run(self, *commands, **fault):
        lines, status = self.place.run([command.replace("NAME", self.name) for command in commands], **fault)
        self.handed.append(lines)
        return lines, status

    def lines(self, *commands):
        lines, status = self.run(*commands)
        assert status == 0 and not failures(lines), f"without faults: {status} {lines}"
        return lines

    def check(self, replays=False):
        kept, journal = self.server.kept(self.name), self.server.journal(self.name)
        calls, void = count.check(self.handed, self.name, kept, journal)
        assert void == 0, "a block without its ledger, though both are one transaction"
        if replays:
            with tempfile.TemporaryDirectory() as room:
                Path(room, "kept").write_bytes(kept)
                Path(room, "journal").write_text(journal)
                replayed(calls, Path(room, "journal"), Path(room, "kept"))
        return calls

    def grants(self, workers):
        return [self.place.begin([f"grants {self.name} 500 {k % 4 + 1} {k % 3 + 5}"]) for k in range(workers)]


def with_server(part):
    def run(program, chance, rounds):
        with Server() as server:
            return part(Rows(program, server), chance, rounds)
    run.__doc__ = part.__doc__
    return run


@with_server
def start_race(rows, chance, rounds):
    """Several processes start one new name at one moment: one of them does, and all go on in the one ledger."""
    for k in range(rounds):
        rows.name = f"new-{k}"
        script = [f"start {rows.name} 4 jm", f"push {rows.name} 1"]
        rows.handed = rows.place.together([script] * 3, lead=0.05)
        outcomes = sorted(line.split(" ")[0] for lines in rows.handed for line in lines if not line.startswith("push"))
        assert outcomes == ["failed", "failed", "started"], rows.handed
        assert sorted(grant for lines in rows.handed for grant, *_ in words(lines, "push")) == ["1", "2", "3"], rows.handed
        rows.check()
    return f"{rounds} runs"


def faulty(rows, chance, stride, only):
    """A yes, a push and a sweep with the fault at every so many-th message; then the yes is pressed again, and others go on."""
    runs, doubts = 0, 0
    for how in ("kill-before", "kill-after", "cut-before", "cut-after"):
        for at in itertools.count(chance.randint(1, stride), stride):
            with tempfile.TemporaryDirectory() as room:
                log = Path(room, "log")
                rows.begin()
                reference = words(rows.lines("push NAME 1"), "push")[0][2]
                press = f"yes NAME 1 7 {reference}"
                lines, status = rows.run(press, "push NAME 2", "sweep NAME", root="/nowhere", at=at, do=how, only=only, log=log)
                if not log.exists():
                    break
                assert (status == -9) == how.startswith("kill") and set(failures(lines)) <= UNKNOWN, f"{how} {at}: {status} {lines}"
                doubts += "in-doubt" in failures(lines)
                again, once_more = rows.lines(press, press), rows.lines("grants NAME 1 3 8")
                assert again[:1] == again[1:] and len(words(again, "yes")) == 2 and once_more, again
                calls = rows.check(replays=at % 16 == 0)
                made = sum(call.startswith("02") and answer.startswith("00") for call, answer in calls)
                assert made == 2, f"{how} {at}: {made} decisions"
                runs += 1
    return runs, doubts


@with_server
def each_phase(rows, chance, rounds):
    """A client is killed, and its connection cut, before and after every message that it sends or awaits, or every so many-th."""
    return "%d runs with %d commits in doubt" % faulty(rows, chance, rounds, ",send,recv,commit,committed,")


@with_server
def at_commit(rows, chance, rounds):
    """The same at every commit and at its answer, or at every so many-th."""
    runs, doubts = faulty(rows, chance, rounds, ",commit,committed,")
    assert doubts > 0, "no commit was in doubt: it was not tried"
    return f"{runs} runs with {doubts} commits in doubt"


@with_server
def kills(rows, chance, rounds):
    """Several processes write one ledger; clients are killed at random moments, and the server's processes that serve them."""
    made = 0
    for k in range(rounds):
        rows.begin(records=chance.choice([1, 3, 20]))
        begun = rows.grants(4)
        time.sleep(0.05 + chance.random() * 0.1)
        if k % 3 == 0:
            serving = rows.server.backends()
            send(chance.choice(serving), signal.SIGTERM) if serving else None
        elif k % 3 == 1:
            serving = rows.server.backends()
            send(chance.choice(serving), signal.SIGKILL) if serving else None  # the server then restarts all of them
        time.sleep(chance.random() * 0.1)
        for worker in begun:
            worker.kill()
        rows.handed += [ended(worker)[0] for worker in begun]
        rows.server.back()
        made += len(rows.check(replays=k % 5 == 0))
        rows.lines("sweep NAME", "push NAME 1")
        rows.check()
    return f"{rounds} runs with {made} calls"


@with_server
def server_kills(rows, chance, rounds):
    """The whole server is killed at a random moment and started again: what was handed out is there."""
    made = 0
    for k in range(rounds):
        rows.begin(records=20)
        begun = rows.grants(4)
        time.sleep(0.05 + chance.random() * 0.2)
        rows.server.kill()
        for worker in begun:
            worker.kill()
        rows.handed += [ended(worker)[0] for worker in begun]
        rows.server.start()
        rows.server.back()
        made += len(rows.check(replays=k % 5 == 0))
        rows.lines("sweep NAME", "push NAME 1")
    return f"{rounds} runs with {made} calls"


@with_server
def one_code(rows, chance, rounds):
    """Sixteen processes redeem one code at one moment: exactly one gets a token."""
    rows.place.tick = 1000
    for _ in range(rounds):
        rows.begin()
        reference = words(rows.lines("push NAME 1"), "push")[0][2]
        code = words(rows.lines(f"yes NAME 1 7 {reference}"), "yes")[0][3]
        lines = rows.place.together([[f"token {rows.name} 1 {code}"]] * 16, lead=0.2)
        rows.handed += lines
        one_token(lines)
        rows.check(replays=True)
    return f"{rounds} runs"


def settings(program, chance, rounds):
    """A server that forgets is refused; a role of the fronts can neither end a ledger nor rewrite the journal."""
    with Server("fsync = off") as server:
        rows = Rows(program, server)
        lines, _ = rows.place.run(["start north 4 jm"])
        assert failures(lines) == ["not-made"] and "fsync off" in lines[0], lines
    with Server("synchronous_commit = off") as server:
        rows = Rows(program, server)
        rows.begin()
        for refused in ("DELETE FROM perdigolh_ledger", "TRUNCATE perdigolh_ledger CASCADE", "DELETE FROM perdigolh_journal",
                        "UPDATE perdigolh_journal SET block = ''"):
            try:
                server.sql(refused, role="front")
                raise AssertionError(f"the fronts may: {refused}")
            except CalledProcessError:
                pass
        server.sql("UPDATE perdigolh_ledger SET step = step + 1")
        assert failures(rows.run("push NAME 1")[0]) == ["damaged"]
        server.sql("UPDATE perdigolh_ledger SET step = step - 1, kept = set_byte(kept, 40, 255)")
        assert failures(rows.run("push NAME 1")[0]) == ["damaged"]
    return "8 runs"


@with_server
def standby(rows, chance, rounds):
    """A commit waits for a standby that does not come. Where the wait is cut short the server says COMMIT all the same, with a warning:
    the answer is in doubt, and not handed out."""
    server = rows.server
    for _ in range(rounds):
        server.sql("ALTER SYSTEM RESET synchronous_standby_names")
        server.sql("SELECT pg_reload_conf()")
        rows.begin()
        server.sql("ALTER SYSTEM SET synchronous_standby_names = 'elsewhere'")
        server.sql("SELECT pg_reload_conf()")
        worker = rows.place.begin([f"push {rows.name} 1"])
        waiting = "SELECT pid FROM pg_stat_activity WHERE usename = 'front' AND wait_event = 'SyncRep'"
        while not (pid := server.sql(waiting).strip()):
            assert worker.poll() is None, f"it did not wait: {ended(worker)}"
            time.sleep(0.01)
        server.sql(f"SELECT pg_cancel_backend({pid})")
        lines, _ = ended(worker)
        assert failures(lines) == ["in-doubt"] and len(lines) == 1, lines
    return f"{rounds} runs"

