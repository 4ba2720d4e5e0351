#!/usr/bin/env python3
"""The verdicts that crates/verdicts must write, from document 01's rules of soundness.

  tests/runs/verdicts.py print   the expected lines
  tests/runs/verdicts.py check   compare crates/verdicts/stdout with them, each case with the rules, and its bytes with those of the script

A case names its bytes and the one rule of the document that it breaks, or none. Beside the table below each rule stands as a test of bytes,
so that a case is held to break that rule and no other. The script, crates/verdicts/stdin, is read here again, so that the program is
known to judge these bytes.
"""
import pathlib
import re
import sys

VERDICTS = pathlib.Path(__file__).resolve().parents[2] / "crates" / "verdicts"

# ---- The rules, each under its sentence.


def number(data):
    return int.from_bytes(data, "big")


def records_of(ledger):
    return [ledger[a:a + 256] for a in range(32, len(ledger) - 255, 256)]


def used(record):
    return record[0] != 0


def each(test):
    """A rule of every record that is not free."""
    return lambda ledger: all(test(r) for r in records_of(ledger) if used(r))


def pool_apart(ledger):
    """No two records hold the same value or token."""
    held = [{bytes(r[a:a + 32]) for a in (96, 128)} - {bytes(32)} for r in records_of(ledger)]
    return not any(held[i] & held[j] for i in range(len(held)) for j in range(i))


def grants_apart(ledger):
    numbers = [number(r[8:16]) for r in records_of(ledger) if used(r)]
    return len(numbers) == len(set(numbers))


def challenge_ok(text):
    return re.fullmatch(rb"[A-Za-z0-9_-]{43}", text) is not None


def redirect_ok(text):
    return text[:8] == b"https://" and all(0x21 <= c <= 0x7E for c in text)


LEDGER = {
    "length": lambda l: len(l) in range(288, 51233, 256),             # 1 to 200 records of 256 bytes, so 288 to 51,232 bytes
    "clock": lambda l: number(l[0:8]) < 2**40,                        # clock below 2^40
    "next": lambda l: number(l[8:16]) >= 1,                           # next number at least 1
    "head zero": lambda l: not any(l[16:32]),                         # zero fields zero: 16..32 of the head
    "zero": each(lambda r: not any(r[2:4]) and not any(r[91:96])),    # zero fields zero: 2..4 and 91..96 of a record
    "state": lambda l: all(r[0] <= 3 for r in records_of(l)),         # no state above 3
    "free": lambda l: all(used(r) or not any(r) for r in records_of(l)),  # a free record all zeros
    "grant": lambda l: each(lambda r: 1 <= number(r[8:16]) <= number(l[8:16]) - 1)(l),  # grant number from 1 to one less than the next
    "distinct": grants_apart,                                         # and distinct
    "scope": each(lambda r: any(r[4:8])),                             # scope,
    "client": each(lambda r: any(r[32:48])),                          # client id
    "value": each(lambda r: any(r[96:128])),                          # and value not zero
    "expiry": each(lambda r: number(r[16:24]) < 2**41),               # expiry below 2^41
    "challenge": each(lambda r: challenge_ok(r[48:91])),              # challenge
    "redirect": each(lambda r: redirect_ok(r[192:192 + r[1]])),       # and redirect well formed,
    "redirect length": each(lambda r: 9 <= r[1] <= 64),               # of 9 to 64 bytes,
    "behind": each(lambda r: not any(r[192 + r[1]:])),                # zeros behind the redirect
    "holder": each(lambda r: any(r[24:32]) == (r[0] != 1)),           # holder is zero in state 1 and nonzero in 2 and 3
    "token": each(lambda r: any(r[128:160]) == (r[0] == 3)),          # token
    "key": each(lambda r: any(r[160:192]) == (r[0] == 3)),            # and bound key are zero in 1 and 2 and nonzero in 3
    "pool": pool_apart,                                               # two records never hold the same value or token,
    "own": each(lambda r: r[96:128] != r[128:160] or not any(r[96:128])),  # nor does one record hold it in both fields
}


def clients_of(table):
    return [table[a:a + 64] for a in range(0, len(table) - 63, 64)]


TABLE = {
    "table length": lambda t: len(t) in range(64, 4097, 64),                       # 1 to 64 records of 64 bytes: length right
    "table id": lambda t: all(any(c[0:16]) for c in clients_of(t)),                # no id
    "table key": lambda t: all(any(c[16:48]) for c in clients_of(t)),              # or key all zeros
    "table ids": lambda t: len({c[0:16] for c in clients_of(t)}) == len(clients_of(t)),  # ids distinct
    "table lifetime": lambda t: all(int.from_bytes(c[52:54], "big") <= 599 for c in clients_of(t)),  # document 02, Q-2: 3 also when the field is above 599
    "table zero": lambda t: not any(any(c[54:64]) for c in clients_of(t)),         # last twelve bytes zero, but for those two
}

# ---- What is spoiled.


def laid(bytes_at, room):
    data = bytearray(room)
    for a, xs in bytes_at:
        data[a:a + len(xs)] = xs
    return bytes(data)


def record(state, grant, value, token=None):
    """A sound record in use: redirect length 9, scope 4, expiry 0x600, holder 7 but in state 1."""
    parts = [(0, bytes([state, 9])), (7, b"\4"), (15, bytes([grant])), (22, b"\6\0"), (32, b"\xa1" * 16),
             (48, b"E9Melhoa2OwvFrEMTJguCHaoeK1t8URWbuGJSstw-cM"), (96, bytes([value]) * 32), (192, b"https://a")]
    if state > 1:
        parts.append((31, b"\7"))
    if state > 2:
        parts += [(128, bytes([token]) * 32), (160, b"\xee" * 32)]
    return laid(parts, 256)


# clock 1000, next number 5; pushed at 32, consented at 288, redeemed at 544 and 800, free at 1056
BASE = laid([(6, b"\3\xe8"), (15, b"\5"), (32, record(1, 1, 0x11)), (288, record(2, 2, 0x22)),
             (544, record(3, 3, 0x33, 0x34)), (800, record(3, 4, 0x44, 0x45))], 1312)
CLIENTS = laid([(0, b"\xa1" * 16), (16, b"\xa2" * 32), (51, b"\5"), (64, b"\xb1" * 16), (80, b"\xb2" * 32), (115, b"\7")], 128)
MANY = b"".join(bytes([k + 1]) * 16 + b"\xa2" * 32 + bytes(16) for k in range(65))


def sized(n):
    return laid([(15, b"\1")], 51488)[:n]


def spoil(base, *parts):
    data = bytearray(base)
    for a, xs in parts:
        data[a:a + len(xs)] = xs
    return bytes(data)


def ledger(*parts):
    return spoil(BASE, *parts)


def table(*parts):
    return spoil(CLIENTS, *parts)


PUSHED, CONSENTED, REDEEMED, LAST, FREE = 32, 288, 544, 800, 1056

# ---- The cases in the program's order: name, bytes, the rule that is broken.
CASES = [
    ("length-32", sized(32), "length"),
    ("length-287", sized(287), "length"),
    ("length-288", sized(288), None),
    ("length-289", sized(289), "length"),
    ("length-544", sized(544), None),
    ("length-51231", sized(51231), "length"),
    ("length-51232", sized(51232), None),
    ("length-51233", sized(51233), "length"),
    ("length-51488", sized(51488), "length"),
    ("clock-below-2^40", ledger((0, (2**40 - 1).to_bytes(8, "big"))), None),
    ("clock-2^40", ledger((0, (2**40).to_bytes(8, "big"))), "clock"),
    ("clock-2^63", ledger((0, b"\x80")), "clock"),
    ("next-0", bytes(288), "next"),
    ("next-1", sized(288), None),
    ("next-2^64-1", ledger((8, b"\xff" * 8)), None),
    ("head-byte-16", ledger((16, b"\1")), "head zero"),
    ("head-byte-31", ledger((31, b"\1")), "head zero"),
    ("states-0-to-3", BASE, None),
    ("state-4", ledger((CONSENTED, b"\4")), "state"),
    ("state-255", ledger((CONSENTED, b"\xff")), "state"),
    ("free-byte-1", ledger((FREE + 1, b"\1")), "free"),
    ("free-byte-15", ledger((FREE + 15, b"\1")), "free"),
    ("free-byte-96", ledger((FREE + 96, b"\1")), "free"),
    ("free-byte-255", ledger((FREE + 255, b"\1")), "free"),
    ("zero-byte-2", ledger((PUSHED + 2, b"\1")), "zero"),
    ("zero-byte-3", ledger((PUSHED + 3, b"\1")), "zero"),
    ("zero-byte-91", ledger((PUSHED + 91, b"\1")), "zero"),
    ("zero-byte-92", ledger((PUSHED + 92, b"\1")), "zero"),
    ("zero-byte-93", ledger((PUSHED + 93, b"\1")), "zero"),
    ("zero-byte-94", ledger((PUSHED + 94, b"\1")), "zero"),
    ("zero-byte-95", ledger((PUSHED + 95, b"\1")), "zero"),
    ("grant-0", ledger((LAST + 15, b"\0")), "grant"),
    ("grant-next", ledger((LAST + 15, b"\5")), "grant"),
    ("grant-above-next", ledger((LAST + 8, b"\1")), "grant"),
    ("grant-twice", ledger((LAST + 15, b"\3")), "distinct"),
    ("grant-twice-far", ledger((LAST + 15, b"\1")), "distinct"),
    ("scope-0", ledger((PUSHED + 4, bytes(4))), "scope"),
    ("scope-2^31", ledger((PUSHED + 4, b"\x80\0\0\0")), None),
    ("expiry-0", ledger((PUSHED + 16, bytes(8))), None),
    ("expiry-below-2^41", ledger((PUSHED + 16, (2**41 - 1).to_bytes(8, "big"))), None),
    ("expiry-2^41", ledger((PUSHED + 16, (2**41).to_bytes(8, "big"))), "expiry"),
    ("client-zeros", ledger((PUSHED + 32, bytes(16))), "client"),
    ("client-last-byte", ledger((PUSHED + 32, bytes(15))), None),
    ("value-zeros", ledger((PUSHED + 96, bytes(32))), "value"),
    ("value-last-byte", ledger((PUSHED + 96, bytes(31))), None),
    ("challenge-plus-first", ledger((PUSHED + 48, b"+")), "challenge"),
    ("challenge-equals-last", ledger((PUSHED + 90, b"=")), "challenge"),
    ("challenge-dot", ledger((PUSHED + 68, b".")), "challenge"),
    ("challenge-zero-byte", ledger((PUSHED + 90, b"\0")), "challenge"),
    ("challenge-underscore", ledger((PUSHED + 48, b"_")), None),
    ("redirect-length-8", ledger((PUSHED + 1, b"\x08"), (PUSHED + 200, b"\0")), "redirect length"),
    ("redirect-length-64", ledger((PUSHED + 1, b"\x40"), (PUSHED + 200, b"a" * 56)), None),
    ("redirect-length-65", ledger((PUSHED + 1, b"\x41"), (PUSHED + 200, b"a" * 56)), "redirect length"),
    ("redirect-http", ledger((PUSHED + 192, b"http://ab")), "redirect"),
    ("redirect-capitals", ledger((PUSHED + 192, b"HTTPS://a")), "redirect"),
    ("redirect-byte-20", ledger((PUSHED + 200, b"\x20")), "redirect"),
    ("redirect-byte-21", ledger((PUSHED + 200, b"\x21")), None),
    ("redirect-byte-7e", ledger((PUSHED + 200, b"\x7e")), None),
    ("redirect-byte-7f", ledger((PUSHED + 200, b"\x7f")), "redirect"),
    ("behind-redirect", ledger((PUSHED + 201, b"a")), "behind"),
    ("behind-redirect-last", ledger((PUSHED + 255, b"\1")), "behind"),
    ("holder-in-1", ledger((PUSHED + 31, b"\7")), "holder"),
    ("holder-in-1-high", ledger((PUSHED + 24, b"\1")), "holder"),
    ("no-holder-in-2", ledger((CONSENTED + 31, b"\0")), "holder"),
    ("no-holder-in-3", ledger((REDEEMED + 31, b"\0")), "holder"),
    ("holder-in-3-high", ledger((REDEEMED + 24, b"\1" + bytes(7))), None),
    ("token-in-1", ledger((PUSHED + 128, b"\t" * 32)), "token"),
    ("token-in-1-last", ledger((PUSHED + 159, b"\1")), "token"),
    ("token-in-2", ledger((CONSENTED + 128, b"\t" * 32)), "token"),
    ("no-token-in-3", ledger((REDEEMED + 128, bytes(32))), "token"),
    ("key-in-1", ledger((PUSHED + 160, b"\t" * 32)), "key"),
    ("key-in-2", ledger((CONSENTED + 160, b"\t" * 32)), "key"),
    ("key-in-2-last", ledger((CONSENTED + 191, b"\1")), "key"),
    ("no-key-in-3", ledger((REDEEMED + 160, bytes(32))), "key"),
    ("key-as-token", ledger((REDEEMED + 160, b"\x34" * 32)), None),  # keys are not in the pool
    ("value-twice", ledger((PUSHED + 96, b"\x22" * 32)), "pool"),
    ("value-twice-far", ledger((PUSHED + 96, b"\x44" * 32)), "pool"),
    ("value-but-last-byte", ledger((PUSHED + 96, b"\x22" * 31)), None),
    ("value-as-later-token", ledger((PUSHED + 96, b"\x45" * 32)), "pool"),
    ("token-as-earlier-value", ledger((REDEEMED + 128, b"\x11" * 32)), "pool"),
    ("tokens-equal", ledger((LAST + 128, b"\x34" * 32)), "pool"),
    ("token-as-own-value", ledger((REDEEMED + 128, b"\x33" * 32)), "own"),
]
TABLE_CASES = [
    ("table-length-0", MANY[:0], "table length"),
    ("table-length-63", MANY[:63], "table length"),
    ("table-length-64", MANY[:64], None),
    ("table-length-65", MANY[:65], "table length"),
    ("table-length-4096", MANY[:4096], None),  # 64 clients, and all share a key
    ("table-length-4160", MANY[:4160], "table length"),
    ("table-id-zeros", table((0, bytes(16))), "table id"),
    ("table-id-zeros-second", table((64, bytes(16))), "table id"),
    ("table-key-zeros", table((16, bytes(32))), "table key"),
    ("table-ids-twice", table((64, b"\xa1" * 16)), "table ids"),
    ("table-ids-but-last-byte", table((64, b"\xa1" * 15)), None),
    ("table-lifetime-1", table((52, b"\0\1")), None),
    ("table-lifetime-256", table((52, b"\1\0")), None),
    ("table-lifetime-599", table((52, b"\2\x57")), None),
    ("table-lifetime-599-second", table((116, b"\2\x57")), None),
    ("table-lifetime-600", table((52, b"\2\x58")), "table lifetime"),
    ("table-lifetime-600-second", table((116, b"\2\x58")), "table lifetime"),
    ("table-lifetime-turned", table((52, b"\x57\2")), "table lifetime"),
    ("table-lifetime-most", table((116, b"\xff\xff")), "table lifetime"),
    ("table-byte-54", table((54, b"\1")), "table zero"),
    ("table-byte-63", table((63, b"\1")), "table zero"),
    ("table-byte-127", table((127, b"\1")), "table zero"),
    ("table-permitted-0", table((48, bytes(4))), None),  # permitted scope may be 0
    ("table-key-shared", table((80, b"\xa2" * 32)), None),  # two clients may share a key
]


def lines():
    return [f"{name} {'unsound' if rule else 'sound'}" for name, _, rule in CASES + TABLE_CASES]


def scripted():
    """What the script has judged: kind, name, bytes."""
    space, judged = bytes(51488), []
    for line in (VERDICTS / "stdin").read_text().splitlines():
        kind, *words = line.split(" ")
        if kind == "clear":
            space = bytes(len(space))
        elif kind in ("put", "ledger", "table"):
            at = words if kind == "put" else words[2:]
            parts = [(int(a), w[1:].encode() if w[0] == '"' else bytes.fromhex(w)) for a, w in zip(at[::2], at[1::2])]
            if kind == "put":
                space = spoil(space, *parts)
            else:
                judged.append((kind, words[1], spoil(space[:int(words[0])], *parts)))
    return judged


def check():
    passed = failed = 0

    def hold(what, good):
        nonlocal passed, failed
        passed, failed = passed + bool(good), failed + (not good)
        if not good:
            print(f"FAILED: {what}")

    written, wanted = (VERDICTS / "stdout").read_text().splitlines(), lines()
    hold(f"{len(written)} lines written, {len(wanted)} expected", len(written) == len(wanted))
    for i, line in enumerate(wanted):
        hold(line, i < len(written) and written[i] == line)
    wanted = [(kind, name, data) for kind, cases in (("ledger", CASES), ("table", TABLE_CASES)) for name, data, _ in cases]
    hold("the script judges other bytes", scripted() == wanted)
    for rules, cases in ((LEDGER, CASES), (TABLE, TABLE_CASES)):
        for name, data, rule in cases:
            broken = [r for r, test in rules.items() if not test(data)]
            hold(f"{name} breaks {broken}, not {rule} alone", broken == ([rule] if rule else []))
        for rule in rules:
            hold(f"no case breaks {rule} alone", any(r == rule for _, _, r in cases))
    print(f"{passed} passed, {failed} failed")
    return 1 if failed else 0


def main(words):
    if words == ["print"]:
        print("\n".join(lines()))
        return 0
    if words == ["check"]:
        return check()
    print(__doc__, file=sys.stderr)
    return 2


if __name__ == "__main__":
    sys.exit(main(sys.argv[1:]))
