#!/usr/bin/env python3
"""The texts of introspect (document 02, Q-1), through the shared library, held against Python's json and base64.

Ledgers are laid out here by document 01, their records at random and at the edges of holder, expiry and scope. Each text is read by
json, which is not ours, and each member compared with the record's; the text is also what json writes of those members without blanks.
Tried beside it: the last good second and the first bad one, values that are no token, outputs one byte too short and just long enough,
the bytes behind the text, the order of the refusals, the greatest length of the header, and that the ledger stays as it was.
"""
import base64
import ctypes
import json
import random
import re
import subprocess
import sys
from pathlib import Path

TOP = Path(__file__).resolve().parents[2]
HEADER, LIBRARY = TOP / "include/perdigolh.h", TOP / "target/shared/libperdigolh.so.1"
CHALLENGE = b"E9Melhoa2OwvFrEMTJguCHaoeK1t8URWbuGJSstw-cM"
NOW, LIMIT = 1000, 2**40
HOLDERS = [1, 2, 9, 10, 11, 99, 100, 2**32 - 1, 2**32, 2**63 - 1, 2**63, 2**64 - 1, *(10**k for k in range(2, 20)), *(10**k - 1 for k in range(2, 20))]
EXPIRIES = [1, 2, 9, 10, 11, 2**32 - 1, 2**32, LIMIT - 1, LIMIT, 2 * LIMIT - 1, *(10**k for k in range(2, 13)), *(10**k - 1 for k in range(2, 13))]
SCOPES = [*(1 << bit for bit in range(32)), 2**32 - 1, 2**32 - 2, 2**31 - 1, 5, 0x80000001, 0x55555555, 0xaaaaaaaa]
INACTIVE = b'{"active":false}'
MARK, SPARE = 0xCC, 40
TEXT_MOST = int(re.search(r"#define PERDIGOLH_TEXT_MOST (\d+)", HEADER.read_text(encoding="utf8")).group(1))


class Introspected(ctypes.Structure):
    _fields_ = [("number", ctypes.c_uint8), ("length", ctypes.c_size_t)]


def big(number, width):
    return number.to_bytes(width, "big")


class Record:
    """A redeemed record by document 01's layout, or one of another state."""

    def __init__(self, chance, holder=None, expiry=None, scope=None, state=3):
        self.state = state
        self.holder = holder or chance.randrange(1, 1 << chance.randrange(1, 65))
        self.expiry = expiry or chance.randrange(NOW + 1, 1 << chance.randrange(11, 42))
        self.scope = scope or chance.randrange(1, 1 << chance.randrange(1, 33))
        self.client, self.value, self.token, self.key = (chance.randbytes(size) for size in (16, 32, 32, 32))

    def laid_out(self, grant):
        redirect = b"https://buyer.example/back"
        holder = self.holder if self.state > 1 else 0
        token, key = (self.token, self.key) if self.state == 3 else (bytes(32), bytes(32))
        head = bytes([self.state, len(redirect), 0, 0]) + big(self.scope, 4) + big(grant, 8) + big(self.expiry, 8) + big(holder, 8)
        return head + self.client + CHALLENGE + bytes(5) + self.value + token + key + redirect.ljust(64, b"\0")

    def text(self):
        """The members in the request's order, as json writes them without blanks."""
        names = " ".join(f"s{bit}" for bit in range(32) if self.scope >> bit & 1)
        key = base64.urlsafe_b64encode(self.key).decode().rstrip("=")
        described = {"active": True, "client_id": self.client.hex(), "sub": str(self.holder), "exp": self.expiry, "scope": names, "cnf": {"x5t#S256": key}}
        return json.dumps(described, separators=(",", ":")).encode()


def ledger_of(records, clock=NOW, slots=None):
    free = bytes(256 * ((slots or len(records)) - len(records)))
    return big(clock, 8) + big(len(records) + 1, 8) + bytes(16) + b"".join(r.laid_out(i + 1) for i, r in enumerate(records)) + free


class Desk:
    """A ledger lent to the library; every call must leave it as it was, and every byte behind a text."""

    library = None

    def __init__(self, ledger):
        self.ledger, self.lent = ledger, ctypes.create_string_buffer(ledger, len(ledger))
        self.kept = True

    def said(self, token, time=NOW, room=None, length=None):
        """The number and the text; no number where a byte behind the text was written."""
        room = TEXT_MOST if room is None else room
        output = ctypes.create_string_buffer(bytes([MARK]) * (room + SPARE), room + SPARE)
        answer = self.library.perdigolh_introspect(self.lent, len(self.ledger) if length is None else length, time, token, output, room)
        text, behind = output.raw[:answer.length], output.raw[answer.length:]
        self.kept = self.kept and self.lent.raw == self.ledger
        return (answer.number if set(behind) <= {MARK} else None, text)


def members(text):
    """The members of a text in order, each with its value as its own text: 7 is not "7"."""
    try:
        return json.loads(text, object_pairs_hook=lambda pairs: [(name, repr(value)) for name, value in pairs])
    except ValueError:
        return None


def described(desk, record):
    """What is wrong with the text of a live record, or None."""
    time = min(record.expiry, LIMIT) - 1  # the last good second, where time goes so far
    text = record.text()
    number, said = desk.said(record.token, time)
    if number != 0:
        return f"answered {number}: {said}"
    if members(said) != members(text):
        return f"other members: {said}"
    if said != text:
        return f"other characters: {said}"
    if (desk.said(record.token, time, len(text)), desk.said(record.token, time, len(text) - 1)) != ((0, text), (20, b"")):
        return "an output just long enough, or one byte too short"
    if record.expiry < LIMIT and desk.said(record.token, record.expiry) != (0, INACTIVE):
        return "its first bad second"
    return None


def edges(chance):
    yield from (Record(chance, holder=holder) for holder in HOLDERS)
    yield from (Record(chance, expiry=expiry) for expiry in EXPIRIES)
    yield from (Record(chance, scope=scope) for scope in SCOPES)
    yield Record(chance, 2**64 - 1, 2 * LIMIT - 1, 2**32 - 1)


def texts(chance):
    """Two ledgers of 200 redeemed records, the first one's at the edges first."""
    records = list(edges(chance))
    records += [Record(chance) for _ in range(400 - len(records))]
    wrong = []
    for part in (records[:200], records[200:]):
        desk = Desk(ledger_of(part, clock=0))
        for record in part:
            problem = described(desk, record)
            wrong += [f"holder {record.holder} expiry {record.expiry} scope {record.scope:#x}: {problem}"] if problem else []
        yield "the ledger stays as it was", desk.kept
    print(*wrong[:5], sep="\n", end="\n" if wrong else "")
    yield f"the texts of {len(records)} records", not wrong
    yield "the longest is the header's greatest length", max(len(record.text()) for record in records) == TEXT_MOST


def inactive(chance):
    """What is no token of a redeemed record, on a ledger that has records of every state."""
    records = [Record(chance, state=state) for state in (1, 2, 3, 3)]
    desk = Desk(ledger_of(records, slots=6))
    values = [bytes(32), b"\xff" * 32, *(r.value for r in records), *(r.key for r in records), *(r.token for r in records[:2]), chance.randbytes(32)]
    near = [bytes([*token[:at], token[at] ^ 1, *token[at + 1:]]) for token in (records[2].token,) for at in range(32)]
    yield "what is no token", all(desk.said(value) == (0, INACTIVE) for value in values + near)
    yield "and its tokens", all(desk.said(record.token)[1] != INACTIVE for record in records[2:])
    for room, wanted in ((0, (20, b"")), (15, (20, b"")), (16, (0, INACTIVE)), (17, (0, INACTIVE))):
        yield f"the inactive text in {room} bytes", desk.said(bytes(32), room=room) == wanted
    yield "json reads it", members(desk.said(bytes(32))[1]) == [("active", "False")]
    yield "the ledger stays as it was, with every state", desk.kept


def refused(chance):
    record = Record(chance, expiry=NOW + 300)
    good = ledger_of([record], slots=2)
    desk = Desk(good)
    for time, wanted in ((NOW - 1, 2), (0, 2), (LIMIT, 2), (2**64 - 1, 2), (NOW, 20), (LIMIT - 1, 20)):
        yield f"at {time} with no room", desk.said(record.token, time, 0) == (wanted, b"")
    for length in (0, 1, 31, 32, 287, len(good) - 1, len(good) - 255):
        yield f"a ledger of {length} bytes", desk.said(record.token, NOW - 1, 0, length) == (1, b"")
    for at in (16, 31, 32 + 2, 32 + 91, 32 + 256 + 5):
        spoilt = Desk(good[:at] + b"\1" + good[at + 1:])
        yield f"a byte at {at} that must be zero", spoilt.said(record.token, NOW - 1, 0) == (1, b"") and spoilt.kept
    yield "refusals leave the ledger as it was", desk.kept


def main():
    made = subprocess.run(["make", "-s", "shared"], cwd=TOP)
    if made.returncode:
        print("0 passed, 1 failed")
        return 1
    Desk.library = ctypes.CDLL(str(LIBRARY))
    size, pointer = ctypes.c_size_t, ctypes.c_char_p
    Desk.library.perdigolh_introspect.argtypes = [pointer, size, ctypes.c_uint64, pointer, pointer, size]
    Desk.library.perdigolh_introspect.restype = Introspected
    chance = random.Random("introspect")
    found = [pair for part in (texts, inactive, refused) for pair in part(chance)]
    wrong = [name for name, good in found if not good]
    for name in wrong:
        print(f"failed: {name}")
    print(f"{len(found) - len(wrong)} passed, {len(wrong)} failed")
    return 1 if wrong else 0


if __name__ == "__main__":
    sys.exit(main())
