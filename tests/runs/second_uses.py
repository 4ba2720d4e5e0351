#!/usr/bin/env python3
"""Document 02, Q-3, "A code shown twice ends its token", in every order.

  tests/runs/second_uses.py A B   two line programs

One code is redeemed, and then come five moves, each of them any of: the code once more; once more with another verifier and a fresh value
of zeros; the code from another client; a reading; a sweep; the time of the token's expiry. Every order of them is a stream of its own.
Both programs must write the same bytes, and the numbers and counts that the documents give.
"""
import itertools
import shlex
import subprocess
import sys
from pathlib import Path

sys.dont_write_bytecode = True
TOP = Path(__file__).resolve().parents[2]
sys.path.insert(0, str(TOP / "tools"))
from frames import frame, s256  # noqa: E402

MOVES = 5
ISSUED, LIFETIME = 1020, 300
VERIFIER = b"dBjftJeZ4CVP-mB92K27uhbUJU1p1r_wW1gFWFOEjXk"
REFERENCE, CODE, TOKEN, UNUSED, BOUND = (bytes([b]) * 32 for b in (0x11, 0x22, 0x33, 0x77, 0xee))
A, A_KEY, B, B_KEY = b"\xa1" * 16, b"\xa2" * 32, b"\xb1" * 16, b"\xb2" * 32


def redeem(now, client=A, auth=A_KEY, fresh=UNUSED, verifier=VERIFIER):
    return frame("token", now=now, client=client, auth=auth, key=BOUND, code=CODE, fresh=fresh, verifier=verifier)


def read(now):
    return frame("resource", now=now, token=TOKEN, key=BOUND, scope=4, holder=7)


BEGIN = [
    frame("start", slots=1),
    frame("push", now=1000, client=A, auth=A_KEY, scope=4, challenge=s256(VERIFIER), fresh=REFERENCE, redirect=b"https://a"),
    frame("decide", now=1010, client=A, reference=REFERENCE, yes=1, holder=7, fresh=CODE),
    redeem(ISSUED, fresh=TOKEN),
]
CLIENTS = [frame("client", client=c, auth=k, permitted=5) for c, k in ((A, A_KEY), (B, B_KEY))]


def played(moves):
    """The lines of these moves, each with its answer's number and, of a sweep, the redeemed records that it frees."""
    now, clock, there = ISSUED, ISSUED, True
    for move in moves:
        now += 1
        expired = now >= ISSUED + LIFETIME
        if move == "late":
            now = max(now, ISSUED + LIFETIME)
            continue
        if move in ("again", "spoilt"):
            line = redeem(now) if move == "again" else redeem(now, fresh=bytes(32), verifier=b"a" * 43)
            yield line, 15 if there else 14, 0
            clock, there = now if there else clock, False
        elif move == "stranger":
            yield redeem(now, client=B, auth=B_KEY), 14, 0
        elif move == "read":
            number = 17 if not there else 11 if expired else 0
            yield read(now), number, 0
            clock = clock if number else now
        else:
            yield frame("sweep", now=now), 0, int(there and expired)
            clock, there = now, there and not expired
    yield frame("sweep", now=clock - 1), 2, 0
    yield frame("sweep", now=clock), 0, int(there and clock >= ISSUED + LIFETIME)


def streams():
    moves = ("again", "spoilt", "stranger", "read", "sweep", "late")
    for order in itertools.product(moves, repeat=MOVES):
        yield order, [(line, 0, 0) for line in BEGIN] + list(played(order))


def right(line, number, freed, answer):
    """The number; zeros beside a refusal; of a sweep, the counts."""
    if line.startswith("05"):
        return answer == f"{number:02x}00000000{freed:04x}"
    return answer[:2] == f"{number:02x}" and (number == 0 or not answer[2:].strip("0"))


def main(words):
    if len(words) != 2:
        sys.exit(__doc__)
    orders = list(streams())
    text = "".join(line + "\n" for line in CLIENTS + [line for _, lines in orders for line, _, _ in lines])
    first, second = (subprocess.run(shlex.split(word), input=text.encode(), stdout=subprocess.PIPE, check=True).stdout for word in words)
    answers = iter(second.decode().splitlines()[len(CLIENTS):])
    passed = failed = 0
    for order, lines in orders:
        wrong = [line for line, number, freed in lines if not right(line, number, freed, next(answers, ""))]
        passed, failed = passed + (not wrong), failed + bool(wrong)
        if wrong and failed < 4:
            print(f"FAILED: {' '.join(order)}: {wrong[0]}")
    if first != second:
        failed += 1
        print("FAILED: the two programs differ")
    else:
        passed += 1
    print(f"{passed} passed, {failed} failed")
    return 1 if failed else 0


if __name__ == "__main__":
    sys.exit(main(sys.argv[1:]))
