#!/usr/bin/env python3
"""Writes the stored streams of tests/data/lines/ with the answers of the second program: tests/generators/make_lines.py SECOND

Beside every line stands the number that documents 01 and 02 give it; an answer with another number stops the writing.
The example's answers are document 01's own text.
"""
import shlex
import subprocess
import sys
from pathlib import Path

sys.dont_write_bytecode = True
TOP = Path(__file__).resolve().parents[2]
LINES = TOP / "tests" / "data" / "lines"
sys.path.insert(0, str(TOP / "tools"))
from frames import frame, s256  # noqa: E402

FF = 0xff
ZERO = bytes(32)
END = 1 << 40
VERIFIER = b"dBjftJeZ4CVP-mB92K27uhbUJU1p1r_wW1gFWFOEjXk"
REFERENCE, CODE, TOKEN, UNUSED, BOUND = (bytes([b]) * 32 for b in (0x11, 0x22, 0x33, 0x77, 0xee))
A, A_KEY, B, B_KEY = b"\xa1" * 16, b"\xa2" * 32, b"\xb1" * 16, b"\xb2" * 32


def start(slots):
    return frame("start", slots=slots)


def client(ident=A, auth=A_KEY, permitted=5, lifetime=599):
    """A harbour kiosk, but where another lifetime is given."""
    return frame("client", client=ident, auth=auth, permitted=permitted, lifetime=lifetime)


def push(now=1000, **changed):
    return frame("push", now=now, **dict(client=A, auth=A_KEY, scope=4, challenge=s256(VERIFIER), fresh=REFERENCE,
                                         redirect=b"https://a") | changed)


def decide(now=1000, **changed):
    return frame("decide", now=now, **dict(client=A, reference=REFERENCE, yes=1, holder=7, fresh=CODE) | changed)


def token(now=1059, **changed):
    return frame("token", now=now, **dict(client=A, auth=A_KEY, key=BOUND, code=CODE, fresh=TOKEN,
                                          verifier=VERIFIER) | changed)


def resource(now=1059, **changed):
    return frame("resource", now=now, **dict(token=TOKEN, key=BOUND, scope=4, holder=7) | changed)


def sweep(now):
    return frame("sweep", now=now)


# Each stream: (line, number) in order.

EXAMPLE = [("0002", 0), ("050000000000000005", 0), ("050000000000000004", 2)]
EXAMPLE_ANSWERS = "00\n00000000000000\n02000000000000\n"

NO_FRAMES = [
    "", "0", "000", "00010", push() + "0", sweep(9)[:-1],
    "zz", "0g01", "0G01", "0/01", "0:01", "0@01", "0`01", "0x0001", "+1", "-1", "00 01", " 0001", "0001 ", "\t0001",
    "\r", "0001\r", sweep(9) + "\r", "00\x0001", "\x00", "0001\x7f", "\xe9\xe9", "\xff\xff",
    "07", "0701", "08" + "00" * 8, "10", "7f", "80" + "00" * 8, "ff", "FF" * 320,
    "00", "000101", "05", sweep(9)[:-2], sweep(9) + "00", client()[:-2], client() + "00",
    "01", push(redirect=b"")[:-2], "02", decide()[:-2], decide() + "00", "03", token(verifier=b"")[:-2],
    "04", resource()[:-2], resource() + "00", "06",
    decide(yes=2), decide(yes=0x10), decide(yes=0xff),
    push(redirect=b"a" * 185), token(verifier=b"a" * 168), "0" * 641, "0" * 642, "0" * 1280, "0" * 70001,
    "z" * 641, "z" * 5000, sweep(9) + " " * 640,
]
MALFORMED = [
    (start(2), 0), (sweep(5), 0), *((line, FF) for line in NO_FRAMES),
    (sweep(4), 2), (sweep(5), 0), (push(now=5, redirect=b"a" * 184), 3), (client().upper(), 0),
    (push(now=5, redirect=b"a" * 184), 5), (token(now=5, verifier=b"a" * 167).upper(), 5),
    (push(now=5, redirect=b"").upper(), 5), (token(now=5, verifier=b""), 5), (push(now=5).upper(), 0),
    (sweep(6)[:-1], FF),
]

GRANT = [
    # 1 and 3: no ledger yet, a bad slot count, no clients yet.
    (push(), 1), (decide(), 1), (token(), 1), (resource(), 1), (sweep(1000), 1),
    (start(0), 1), (start(201), 1), (start(255), 1), (sweep(1000), 1), (start(2), 0), (sweep(1000), 0),
    (push(), 3), (token(), 3), (decide(), 10), (client(), 0), (client(B, B_KEY, 2), 0),
    # Push.
    (push(now=999), 2), (push(now=END), 2), (push(client=b"\x01" * 16), 4), (push(client=B), 4), (push(auth=B_KEY), 4),
    (push(redirect=b"https://"), 5), (push(redirect=b"http://ab"), 5), (push(redirect=b"https://" + b"a" * 57), 5),
    (push(redirect=b"https://a b"), 5), (push(challenge=b"." + s256(VERIFIER)[1:]), 5), (push(scope=0), 6),
    (push(scope=2), 6), (push(fresh=ZERO), 7), (push(), 0), (push(fresh=REFERENCE), 7), (push(fresh=UNUSED), 0),
    (push(fresh=BOUND), 8),
    # Decide.
    (decide(now=999), 2), (decide(now=1 << 63), 2), (decide(reference=CODE), 10), (decide(client=B), 10),
    (decide(now=1599), 11), (decide(holder=0), 12), (decide(yes=0, holder=0), 12), (decide(fresh=ZERO), 7),
    (decide(fresh=REFERENCE), 7), (decide(fresh=UNUSED), 7), (token(code=REFERENCE), 14), (decide(), 0), (decide(), 10),
    (decide(reference=UNUSED, yes=0, fresh=ZERO), 0), (decide(reference=UNUSED), 10),
    # Token.
    (token(now=999), 2), (token(client=b"\x01" * 16), 4), (token(auth=B_KEY), 4), (token(key=ZERO), 13),
    (token(verifier=VERIFIER[:42]), 5), (token(verifier=b"a" * 129), 5), (token(verifier=b"+" + VERIFIER[1:]), 5),
    (token(code=REFERENCE), 14), (token(client=B, auth=B_KEY), 14), (token(now=1060), 11),
    (token(verifier=b"~" + VERIFIER[1:]), 16), (token(verifier=b"a" * 128), 16), (token(fresh=ZERO), 7),
    (token(fresh=CODE), 7), (resource(token=CODE), 17), (token(), 0),
    (token(client=B, auth=B_KEY), 14),
    # Resource.
    (resource(now=1058), 2), (resource(token=CODE), 17), (resource(token=ZERO), 17), (resource(now=1359), 11),
    (resource(key=A_KEY), 18), (resource(key=ZERO), 18), (resource(scope=0), 6), (resource(scope=5), 6),
    (resource(holder=8), 19), (resource(holder=0), 19), (resource(), 0), (resource(now=1358), 0),
    # An unsound client shows in push and token alone; the token's record is freed, and its values come back.
    (push(now=1358, fresh=TOKEN), 7), (push(now=1358, fresh=REFERENCE), 0), (client(A, B_KEY), 0),
    (push(now=1358, fresh=UNUSED), 3), (token(now=1358), 3), (resource(now=1358), 0),
    (decide(now=1358, fresh=UNUSED), 0), (sweep(1358), 0), (sweep(1359), 0), (resource(now=1359), 17),
    (sweep(1417), 0), (sweep(1418), 0), (sweep(END - 1), 0), (sweep(END), 2), (sweep(0), 2),
]

ONE_SLOT = [
    (client(), 0), (start(1), 0), (push(), 0), (push(fresh=UNUSED), 8), (decide(yes=0), 0), (push(fresh=UNUSED), 0),
    (sweep(1598), 0), (decide(now=1598, reference=UNUSED), 0), (push(now=1598, fresh=UNUSED), 8), (sweep(1657), 0),
    (token(now=1657), 0), (push(now=1657, fresh=UNUSED), 8), (sweep(1956), 0), (resource(now=1956), 0),
    (sweep(1957), 0), (push(now=1957, fresh=CODE), 0), (start(0), 1), (push(now=1957, fresh=TOKEN), 8),
    (start(1), 0), (push(now=0, fresh=TOKEN), 0), (push(now=0, fresh=CODE), 8),
]

# Document 02, Q-3: a code shown twice ends its token, and the clock moves; another client's call does nothing.
SECOND_USE = [
    (client(), 0), (client(B, B_KEY, 2), 0), (start(1), 0), (push(), 0), (decide(), 0), (token(), 0),
    (token(now=1100, client=B, auth=B_KEY, fresh=UNUSED), 14), (resource(), 0), (push(now=1100, fresh=UNUSED), 8),
    (token(now=1100, fresh=UNUSED), 15), (sweep(1099), 2), (resource(now=1100), 17), (token(now=1100), 14), (sweep(1100), 0),
    # Whatever the verifier and the fresh value; the values come back.
    (push(now=1100), 0), (decide(now=1100), 0), (token(now=1101), 0), (token(now=1102, verifier=b"a" * 42), 5),
    (token(now=1102, verifier=b"a" * 43, fresh=ZERO), 15), (resource(now=1102), 17),
    # Expired or not; no sweep counts it.
    (push(now=1102), 0), (decide(now=1102), 0), (token(now=1102), 0), (resource(now=1401), 0), (resource(now=1402), 11),
    (token(now=9000, verifier=b"a" * 43), 15), (sweep(8999), 2), (sweep(9000), 0),
]


def value(number):
    return number.to_bytes(32, "big")


TWO_HUNDRED_SLOTS = [
    (client(), 0), (start(200), 0), *((push(now=i, fresh=value(i)), 0) for i in range(1, 201)),
    (push(now=200, fresh=value(201)), 8), (push(now=200, fresh=value(200)), 7), (push(now=200, fresh=value(1)), 7),
    (decide(now=200, reference=value(200), fresh=value(201)), 0), (decide(now=200, reference=value(201)), 10),
    (decide(now=200, reference=value(1), fresh=value(202)), 0), (token(now=210, code=value(201)), 0),
    (resource(now=210), 0), (decide(now=210, reference=value(100), yes=0), 0), (push(now=210, fresh=value(100)), 0),
    (push(now=210, fresh=value(300)), 8), (sweep(260), 0), (sweep(700), 0), (sweep(798), 0), (sweep(2000), 0),
    (push(now=2000, fresh=value(1)), 0), (start(201), 1), (sweep(1999), 2), (start(200), 0), (sweep(0), 0),
]


def numbered(i):
    return client(bytes([i]) * 16, bytes([i ^ 0xff]) * 32, 4, 0)


def push_of(i, fresh):
    return push(client=bytes([i]) * 16, auth=bytes([i ^ 0xff]) * 32, fresh=value(fresh))


CLIENTS_64 = [
    (start(3), 0), *((numbered(i), 0) for i in range(1, 65)), (push_of(1, 1), 0), (push_of(64, 2), 0),
    (push_of(65, 3), 4), (push_of(32, 3), 0),
]
CLIENTS_65 = [
    *CLIENTS_64[:-1], (numbered(65), 3), (numbered(1), 3), (client(bytes(16)), 3), (push_of(65, 3), 4),
    (push_of(64, 3), 0), (start(1), 0), (numbered(66), 3), (push_of(1, 1), 0),
]

# Document 02, Q-2: clients that say 599, 1 and 0, the last good second of each one's reference and the one after it; then one that says 600.
KIOSK, QUICK, PLAIN = 0x61, 0x62, 0x63


def of(i, **changed):
    return dict(client=bytes([i]) * 16, auth=bytes([i ^ 0xff]) * 32) | changed


def saying(i, lifetime):
    return client(**{"ident": bytes([i]) * 16, "auth": bytes([i ^ 0xff]) * 32}, lifetime=lifetime)


def decide_of(i, now, **changed):
    return decide(now=now, client=bytes([i]) * 16, reference=value(i), **dict(fresh=value(i + 100)) | changed)


LIFETIMES = [
    (start(3), 0), (saying(KIOSK, 599), 0), (saying(QUICK, 1), 0), (saying(PLAIN, 0), 0),
    *((push(**of(i, fresh=value(i))), 0) for i in (KIOSK, QUICK, PLAIN)),
    (decide_of(QUICK, 1001), 11), (decide_of(QUICK, 1000), 0),
    (decide_of(PLAIN, 1090), 11), (decide_of(PLAIN, 1089), 0),
    (decide_of(KIOSK, 1599), 11), (sweep(1598), 0), (decide_of(KIOSK, 1598), 0), (sweep(1658), 0),
    (push(now=1700, **of(PLAIN, fresh=value(1))), 0), (push(now=1700, **of(QUICK, fresh=value(2))), 0),
    (sweep(1700), 0), (sweep(1701), 0), (sweep(1789), 0), (sweep(1790), 0),
    (push(now=1800, **of(KIOSK, fresh=value(3))), 0), (saying(0x64, 600), 0),
    (push(now=1800, **of(PLAIN, fresh=value(4))), 3), (push(now=1800, **of(0x64, fresh=value(4))), 3),
    (token(now=1800, **of(PLAIN)), 3), (decide(now=2398, client=bytes([KIOSK]) * 16, reference=value(3)), 0), (sweep(2458), 0),
]

STREAMS = {
    "example": EXAMPLE, "malformed": MALFORMED, "grant": GRANT, "one-slot": ONE_SLOT, "second-use": SECOND_USE,
    "two-hundred-slots": TWO_HUNDRED_SLOTS, "64-clients": CLIENTS_64, "65-clients": CLIENTS_65,
    "lifetimes": LIFETIMES,
}


def main():
    if len(sys.argv) != 2:
        sys.exit(__doc__)
    for name, steps in STREAMS.items():
        lines = [line.encode("latin-1") for line, _ in steps]
        text = b"\n".join(lines) + (b"" if name == "malformed" else b"\n")
        output = subprocess.run(shlex.split(sys.argv[1]), input=text, stdout=subprocess.PIPE, check=True).stdout
        answers = output.decode().splitlines()
        for place, ((line, number), answer) in enumerate(zip(steps, answers, strict=True)):
            if answer[:2] != f"{number:02x}":
                sys.exit(f"{name}, line {place + 1}: must be {number}, is {answer}\n{line[:700]}")
        if name == "example" and output.decode() != EXAMPLE_ANSWERS:
            sys.exit("the example's answers are not document 01's")
        (LINES / f"{name}.in").write_bytes(text)
        (LINES / f"{name}.out").write_bytes(output)


if __name__ == "__main__":
    main()
