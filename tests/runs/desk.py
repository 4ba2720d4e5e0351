#!/usr/bin/env python3
"""tools/frame and tools/desk, as an operator uses them: tests/runs/desk.py PROGRAM

What is a frame is held to the stored streams, whose 'ff' lines are document 01's; the answers in words to tests/data/grant.expected.
"""
import os
import re
import resource
import select
import subprocess
import sys
import tempfile
import time
from pathlib import Path

TOP = Path(__file__).resolve().parent.parent.parent
sys.dont_write_bytecode = True
sys.path[:0] = [str(TOP / "tools"), str(TOP / "tests" / "generators")]
from frames import WORDS, make, show, unframe  # noqa: E402
from stream_maker import Maker  # noqa: E402

FRAME, DESK = TOP / "tools/frame", TOP / "tools/desk"
PUSH = ["now=1", "client=0xa1*16", "auth=0xa2*32", "scope=4", "challenge=text:E*43", "fresh=0x11*32"]
STORED = sorted((TOP / "tests/data/lines").glob("*.in"))


PATIENCE = 20  # seconds


def run(*words, given=""):
    try:
        return subprocess.run(words, input=given.encode("latin-1"), capture_output=True, timeout=PATIENCE)
    except subprocess.TimeoutExpired:
        return subprocess.CompletedProcess(words, None, b"", b"")


def heard(process):
    """The next line of a program that runs, or nothing."""
    return process.stdout.readline() if select.select([process.stdout], [], [], PATIENCE)[0] else b""


def said(*words, given=""):
    """Standard output as lines, and the status."""
    done = run(*words, given=given)
    return done.stdout.decode("latin-1").split("\n")[:-1], done.returncode


def frames_in_words():
    for file in STORED:
        lines = file.read_bytes().decode("latin-1").removesuffix("\n").split("\n")
        answers = file.with_suffix(".out").read_text().split("\n")[:-1]
        yield f"{file.name}: what is a frame", [unframe(line) is None for line in lines] == [answer == "ff" for answer in answers]
        back = [make(words[0], words[1:]) for words in (show(line).split() for line in lines if unframe(line))]
        yield f"{file.name}: words make the frame again", back == [line.lower() for line in lines if unframe(line)]
        words, status = said(FRAME, "show", given=file.read_bytes().decode("latin-1"))
        yield f"{file.name}: shown from a pipe", words == [show(line) or "no frame" for line in lines] and status == ("ff" in answers)
        words, status = said(FRAME, "read", given="\n".join(answers) + "\n")
        yield f"{file.name}: every answer is one", status == 0 and len(words) == len(answers) and not any("no answer" in line for line in words)
    made = [line for index in range(18) for line in Maker("desk", index, 200).make()[0]]
    lines = [line.text.decode("latin-1") for line in made]
    yield "random streams: what is a frame", [unframe(line) is None for line in lines] == [line.number == 0xff for line in made]
    back = [(line, show(line).split()) for line in lines if unframe(line)]
    made = [make("push", [*PUSH, f"redirect={text}"]) for text in ("text:text:a", "text:0x11", "text:a*2", "text:s256:a", "0x", "0x20", "")]
    yield "texts that look like something else: words make the frame again", all(make("push", show(line).split()[1:]) == line for line in made)
    yield "random streams: words make the frame again", len(back) > 1000 and all(make(words[0], words[1:]) == line.lower() for line, words in back)


def answers_in_words():
    yield "a refusal in words", said(FRAME, "read", "11" + "00" * 28) == (["17: no record in state 3 with this token"], 0)
    yield "counts in words", said(FRAME, "read", "00000100020003") == (["0: done; pushed 1; consented 2; redeemed 3"], 0)
    redirect = b"https://a".hex()
    decided = "00" + "%016x%016x%08x%016x" % (1, 7, 4, 1070) + "09" + redirect
    wanted = "0: done; grant 1; holder 7; scope 4; expiry 1070; length 9; redirect https://a"
    yield "a decision in words", said(FRAME, "read", "--kind", "decide", decided) == ([wanted], 0)
    for line in ("", "0", "zz", "00 00", "FF", "15", "1500000000000000", "ff" + "00" * 28, "11" + "00" * 27 + "01", "02000000000001", decided + "00", "00" * 8):
        yield f"no answer: {line}", said(FRAME, "read", line)[1] == 1
    yield "no answer of that kind", said(FRAME, "read", "--kind", "push", "00")[1] == 1
    yield "a line that is none is said at its place", said(FRAME, "read", given="00\nzz\nff\n") == (["0: done", "no answer line", "255: no frame"], 1)
    for words in (["read", "a", "b"], ["what"], ["push", "now=1"], ["read", "--kind", "what", "00"]):
        told = run(FRAME, *words)
        yield f"not understood: {words}", told.returncode == 2 and told.stdout == b"" and told.stderr != b""


def grant():
    """The calls of one grant in words, and what is answered."""
    text = (TOP / "tests/data/grant.expected").read_text(encoding="utf8")
    return re.findall(r"^  tools/frame (.*)$", text, re.M), re.findall(r"^  that is (.*)$", text, re.M)


def at_the_desk(program):
    calls, answers = grant()
    yield "a whole grant", said(DESK, program, given="\n".join(calls) + "\n") == (answers, 0)
    with_rest = "# a remark\n\n" + "\n".join(calls)
    yield "remarks, empty lines, a last line without its end", said(DESK, program, given=with_rest) == (answers, 0)
    wrong = run(DESK, program, given="\n".join([calls[0], "what now", calls[1], "push now=1"] + calls[2:]))
    yield "a line that is no call is told, and the rest is answered", wrong.stdout.decode().split("\n")[:-1] == answers and wrong.returncode == 1
    yield "by its number, on standard error", re.findall(r"^desk: line (\d+): ", wrong.stderr.decode(), re.M) == ["2", "4"]
    drawn, status = said(DESK, program, given="\n".join([*calls[:2], re.sub(r"now=\S+ ", "", calls[2]).replace("fresh=0x11*32", "fresh=random")]))
    found = re.fullmatch(r"0: done; grant 1; holder 0; scope 4; expiry (\d+); fresh ([0-9a-f]{64})", drawn[-1])
    yield "the clock and a fresh value of its own", status == 0 and found and abs(int(found[1]) - 90 - time.time()) < 60
    for other, why in ((f"{sys.executable} -c pass", "no answer at all"), ("yes zz", "no answer's words"), ("yes 00000000000000", "another call's answer"), ("sh -c 'read line; printf 00'", "a line cut off"), ("/no/such/program", "no program")):
        told = run(DESK, other, given=calls[0] + "\n")
        yield f"a program that fails: {why}", told.returncode == 1 and told.stdout == b"" and told.stderr.startswith(b"desk: ")
    with subprocess.Popen([DESK, program], stdin=subprocess.PIPE, stdout=subprocess.PIPE, bufsize=0) as process:
        good = True
        for call, answer in zip(calls, answers):  # each answer comes before the next call is sent
            process.stdin.write(call.encode() + b"\n")
            good = good and heard(process) == answer.encode() + b"\n"
        process.stdin.close()
        yield "call by call", good


def by_the_page(program):
    """docs/OPERATOR.md: its first calls as they stand, and a row for each number."""
    page = (TOP / "docs/OPERATOR.md").read_text(encoding="utf8")
    calls = re.search(r"^```text\n(.*?)^```$", page, re.M | re.S).group(1).split("\n")[:-1]
    answers, status = said(DESK, program, given="\n".join(calls))
    yield "the page's calls are answered 0", len(calls) == 4 and status == 0 and all(line.startswith("0: done") for line in answers)
    rows = [int(n) for n in re.findall(r"^\| (\d+) \|", page.partition("## What each number asks of you")[2], re.M)]
    yield "the page has each number", rows == sorted(WORDS)


def with_a_log(program, room):
    calls, answers = grant()
    log = Path(room, "log")
    first = said(DESK, "--log", log, program, given="\n".join(calls[:4]))
    second = said(DESK, "--log", log, program, given="\n".join(calls[4:]))
    yield "a desk goes on where the last one ended", (first, second) == ((answers[:4], 0), (["replayed 4 calls", *answers[4:]], 0))
    frames = log.read_text().split("\n")[:-1]
    yield "the log has the frames", frames == [make(words[0], words[1:]) for words in map(str.split, calls)]
    yield "only its owner reads it", log.stat().st_mode & 0o777 == 0o600
    plain = subprocess.run([program], input=log.read_bytes(), capture_output=True, timeout=PATIENCE).stdout.decode()
    yield "the program replays it by itself", said(FRAME, "read", given=plain)[1] == 0 and len(plain.split("\n")[:-1]) == len(calls)
    with subprocess.Popen([DESK, "--log", log, program], stdin=subprocess.PIPE, stdout=subprocess.PIPE, bufsize=0) as held:
        heard(held)
        other = run(DESK, "--log", log, program)
        yield "two desks on one log", other.returncode == 1 and b"another desk" in other.stderr
        held.stdin.close()
    log.write_text("\n".join(frames[:2] + [frames[2][:-2]]))  # a push whose redirect is one byte shorter
    pushed = subprocess.run([program], input=log.read_bytes(), capture_output=True, timeout=PATIENCE).stdout.decode().split("\n")
    yield "a push that is cut off is a shorter push", pushed[2].startswith("00" + "%016x" % 1)
    cut = run(DESK, "--log", log, program, given="sweep now=9\n")
    yield "a log that is cut off is not replayed", cut.returncode == 1 and b"cut off" in cut.stderr and cut.stdout == b""
    log.write_text("\n".join(frames[:2] + ["00"]) + "\n")
    bad = run(DESK, "--log", log, program, given="sweep now=9\n")
    yield "nor one with a line that is no frame", bad.returncode == 1 and b"line 3" in bad.stderr and bad.stdout == b""
    limit = lambda: resource.setrlimit(resource.RLIMIT_FSIZE, (20, 20))  # noqa: E731
    full = subprocess.run([DESK, "--log", Path(room, "small"), program], input="\n".join(calls).encode(), capture_output=True, preexec_fn=limit, timeout=PATIENCE)
    yield "a log that takes no more: no answer", full.returncode == 1 and full.stdout == b"0: done\n" and full.stderr != b""


def main(program):
    passed = failed = 0
    program = os.path.abspath(program)
    with tempfile.TemporaryDirectory() as room:
        for results in (frames_in_words(), answers_in_words(), at_the_desk(program), by_the_page(program), with_a_log(program, room)):
            for name, good in results:
                passed, failed = passed + bool(good), failed + (not good)
                if not good:
                    print(f"failed: {name}")
    print(f"{passed} passed, {failed} failed")
    return 1 if failed else 0


if __name__ == "__main__":
    if len(sys.argv) != 2:
        sys.exit(__doc__.strip())
    sys.exit(main(sys.argv[1]))
