"""Makes seeded streams of lines for the line program.

A light model of clients, records and time lets most calls get far. A call starts out in order; then none, one or
two of its fields are spoilt. The model knows the number that each spoilt field earns and the order of document 01's
checks, so every line comes with the number that it must get.
"""
import random
import sys
from dataclasses import dataclass
from pathlib import Path

sys.dont_write_bytecode = True
sys.path.insert(0, str(Path(__file__).resolve().parents[2] / "tools"))
from frames import KINDS, frame, s256  # noqa: E402

CLOCK_END = 1 << 40
REFERENCE_LIFETIME, MAX_REFERENCE_LIFETIME, CODE_LIFETIME, TOKEN_LIFETIME = 90, 599, 60, 300
MAX_SLOTS, MAX_CLIENTS, MAX_DIGITS = 200, 64, 640
NO_FRAME = 0xff
SECOND_USE = 15  # document 02, Q-3: the one refusal that writes

# The order of the checks, call by call, without those that no line can fail (9 and 20).
ORDER = {
    "push": [1, 2, 3, 4, 5, 6, 7, 8],
    "decide": [1, 2, 10, 11, 12, 7],
    "token": [1, 2, 3, 4, 13, 5, 14, 15, 11, 16, 7],
    "resource": [1, 2, 17, 11, 18, 6, 19],
    "sweep": [1, 2],
}

BASE64URL = b"ABCDEFGHIJKLMNOPQRSTUVWXYZabcdefghijklmnopqrstuvwxyz0123456789-_"
UNRESERVED = BASE64URL + b".~"
NOT_UNRESERVED = b"+/=@[`{:,^ \x00\x7f\x80\xff"
NOT_HEX = b"gG/:@` xX-+\t\r\x00\x7f\x80\xff"
HOLDERS = [1, 2, 3, 7, 256, 1 << 32, 1 << 63, (1 << 64) - 1]
ZERO = bytes(32)

# What streams are about, in turn. A calm one spoils few calls, pushes often and sweeps seldom, so that it fills up.
PROFILES = {
    "small": dict(slots=(1, 8), clients=(1, 4)),
    "one slot": dict(slots=(1, 1), clients=(1, 3)),
    "middle": dict(slots=(9, 60), clients=(2, 10)),
    "largest": dict(slots=(199, 200), clients=(2, 4), calm=True),
    "65 clients": dict(slots=(2, 20), clients=(63, 65)),
    "unsound client": dict(slots=(2, 20), clients=(1, 4), unsound=True),
    "late start": dict(slots=(2, 8), clients=(1, 3), late_start=True),
    "late clients": dict(slots=(2, 8), clients=(0, 0)),
    "end of time": dict(slots=(2, 8), clients=(1, 3), late_clock=True),
}
# What makes a client record unsound, in turn.
UNSOUND = ["id all zeros", "key all zeros", "last bytes not zero", "id of another", "lifetime above the most"]


@dataclass
class Record:
    state: int
    client: tuple
    scope: int
    expiry: int
    value: bytes
    verifier: bytes
    matches: bool
    holder: int = 0
    token: bytes = b""
    key: bytes = b""


@dataclass
class Line:
    text: bytes
    label: str  # the kind of frame, or what makes it none
    number: int


def flip(rng, value):
    """The value with one bit changed, often in its first or last byte."""
    place = rng.choice([0, len(value) - 1, rng.randrange(len(value))])
    changed = bytearray(value)
    changed[place] ^= 1 << rng.randrange(8)
    return bytes(changed)


class Maker:
    def __init__(self, seed, index, count):
        self.rng = random.Random(f"{seed}/{index}")
        turn, place = divmod(index, len(PROFILES))
        self.profile = list(PROFILES.values())[place]
        self.unsound = UNSOUND[turn % len(UNSOUND)]
        self.count = count
        self.lines = []
        self.slots, self.clock, self.records = 0, 0, []
        self.clients, self.sound = [], True
        self.spent = []

    def make(self):
        """The lines, and the stream's bytes; the last line may lack its LF."""
        opening = [self.start] if not self.profile.get("late_start") else []
        opening += [self.client] * self.rng.randint(*self.profile["clients"])
        if self.rng.random() < 0.5:
            opening.reverse()
        for action in opening[:self.count]:
            action()
        while len(self.lines) < self.count:
            self.step()
        text = b"\n".join(line.text for line in self.lines)
        open_end = self.lines and self.lines[-1].text and self.rng.random() < 0.5
        return self.lines, text + (b"" if open_end or not self.lines else b"\n")

    def step(self):
        waiting = {r.state for r in self.records}
        alive = {r.state for r in self.records if r.expiry > self.clock}
        room = len(self.records) < self.slots
        late_start = self.profile.get("late_start") and len(self.lines) < self.count // 4
        spoil = self.profile.get("unsound") and self.sound and len(self.lines) > self.count * 2 // 3
        calm = self.profile.get("calm")
        weights = {
            self.push: (40 if calm else 3) if room else 0.6,
            self.decide: 3 if 1 in alive else 0.5 if 1 in waiting else 0.1,
            self.token: 6 if 2 in alive else 1 if waiting & {2, 3} else 0.1,
            self.resource: 3 if 3 in alive else 0.5 if 3 in waiting else 0.1,
            self.sweep: 0.05 if calm else 0.7 if room else 1.2,
            self.start: 0 if late_start else 0.06 if self.slots else 1,
            self.client: 0.3 if self.clients else 0.6,
            self.unsound_client: 1 if spoil else 0,
            self.no_frame: 0.6,
        }
        self.rng.choices(list(weights), list(weights.values()))[0]()

    # Lines

    def add(self, kind, number, **fields):
        """Adds a frame, in lower, upper or mixed case."""
        text = frame(kind, **fields)
        case = self.rng.choice([str.lower, str.lower, str.upper, self.mixed])
        self.lines.append(Line(case(text).encode(), kind, number))

    def mixed(self, text):
        upper = f"{self.rng.getrandbits(len(text)):0{len(text)}b}"
        return "".join(c.upper() if bit == "1" else c for c, bit in zip(text, upper))

    def start(self):
        bad = self.slots and self.rng.random() < 0.4
        slots = self.rng.choice([0, 201, 202, 255]) if bad else self.rng.randint(*self.profile["slots"])
        if not bad:
            self.slots, self.clock = slots, 0
            self.free(lambda record: True)
        self.add("start", int(bool(bad)), slots=slots)

    def client(self):
        key = self.rng.choice(self.clients)[1] if self.clients and self.rng.random() < 0.2 else self.rng.randbytes(32)
        permitted = self.rng.choice([5, 5, 7, 1 << 31, 0xffffffff, self.rng.getrandbits(32), 0 if self.clients else 1])
        ident = self.rng.randbytes(16)
        if self.clients and self.rng.random() < 0.3:
            ident = flip(self.rng, self.rng.choice(self.clients)[0])
        if any(ident == client[0] for client in self.clients):
            return
        lifetime = self.rng.choice([0, 0, 1, 2, REFERENCE_LIFETIME, MAX_REFERENCE_LIFETIME, MAX_REFERENCE_LIFETIME, self.rng.randint(1, MAX_REFERENCE_LIFETIME)])
        self.append_client(ident, key, permitted, lifetime, bytes(10))

    def unsound_client(self):
        ident, key, lifetime, zero = self.rng.randbytes(16), self.rng.randbytes(32), 0, bytes(10)
        if self.unsound == "id all zeros":
            ident = bytes(16)
        elif self.unsound == "key all zeros":
            key = bytes(32)
        elif self.unsound == "last bytes not zero":
            zero = flip(self.rng, zero)
        elif self.unsound == "id of another":
            ident = self.rng.choice(self.clients)[0]
        elif self.unsound == "lifetime above the most":
            lifetime = self.rng.choice([MAX_REFERENCE_LIFETIME + 1, 0x5702, 0xffff, self.rng.randint(MAX_REFERENCE_LIFETIME + 1, 0xffff)])
        self.sound = len(self.clients) == MAX_CLIENTS
        self.append_client(ident, key, 5, lifetime, zero)

    def append_client(self, ident, key, permitted, lifetime, zero):
        room = len(self.clients) < MAX_CLIENTS
        if room:
            self.clients.append((ident, key, permitted, lifetime))
        self.add("client", 0 if room else 3, client=ident, auth=key, permitted=permitted, lifetime=lifetime, zero=zero)

    # Calls

    def push(self):
        rng = self.rng
        client = self.some_client()
        permitted, lifetime = client[2], client[3] or REFERENCE_LIFETIME
        scope = permitted & rng.getrandbits(32) or permitted
        verifier = self.new_verifier()
        challenge, matches = s256(verifier), True
        if rng.random() < 0.1:  # pad bits set: well formed, and no digest's text
            last = BASE64URL.index(challenge[-1:])
            challenge, matches = challenge[:-1] + BASE64URL[last + rng.randint(1, 3):][:1], False
        fields = dict(now=self.soon(), client=client[0], auth=client[1], scope=scope or 1, challenge=challenge,
                      fresh=self.new_value(), redirect=self.new_redirect())
        faults = [
            (4, dict(client=self.other(client[0], [c[0] for c in self.clients]))),
            (4, dict(auth=self.other(client[1], []))),
            (5, dict(challenge=self.with_bad(challenge, NOT_UNRESERVED + b".~"))),
            (5, dict(redirect=self.bad_redirect())),
            (6, dict(scope=0 if permitted == 0xffffffff else rng.choice([0, self.outside(permitted, scope)]))),
            (7, dict(fresh=self.used_value())),
            (2, dict(now=self.bad_now())),
        ]
        given = set() if permitted else {6}
        given |= {8} if len(self.records) >= self.slots else set()
        if self.call("push", fields, faults, given):
            self.records.append(Record(1, client, fields["scope"], fields["now"] + lifetime,
                                       fields["fresh"], verifier, matches))

    def decide(self):
        rng = self.rng
        record, given = self.pick({1}, 10)
        yes = int(rng.random() < 0.8)
        fields = dict(now=self.soon(record), client=record.client[0], reference=record.value, yes=yes,
                      holder=rng.choice(HOLDERS), fresh=self.new_value() if yes or rng.random() < 0.5 else ZERO)
        used = ZERO if given else rng.choice([record.value, self.used_value()])
        faults = [
            (10, dict(reference=self.not_in_state(record.value, {1}))),
            (10, dict(client=self.other(record.client[0], []))),
            (12, dict(holder=0)),
            (7 if yes else 0, dict(fresh=used)),  # a no does not look at the fresh value
            (11, dict(now=record.expiry + rng.choice([0, 0, 1, 1000]))),
            (2, dict(now=self.bad_now())),
        ]
        if self.call("decide", fields, faults, given, record):
            if not yes:
                return self.free(lambda other: other is record)
            self.spent.append(record.value)
            record.state, record.holder, record.value = 2, fields["holder"], fields["fresh"]
            record.expiry = fields["now"] + CODE_LIFETIME

    def token(self):
        rng = self.rng
        waiting = any(r.state == 2 for r in self.records)
        record, given = self.pick({2} if waiting and rng.random() < 0.85 else {3}, 14)
        given |= ({15} if record.state == 3 else set()) | (set() if record.matches else {16})
        ident, key, _, _ = record.client
        fields = dict(now=self.soon(record), client=ident, auth=key, code=record.value, verifier=record.verifier,
                      key=rng.choice([key, rng.randbytes(32)]), fresh=self.new_value())
        used = ZERO if 14 in given else rng.choice([record.value, self.used_value()])
        strangers = [client for client in self.clients if client[0] != ident]
        faults = [
            (4, dict(client=self.other(ident, [c[0] for c in self.clients]))),
            (4, dict(auth=self.other(key, []))),
            (13, dict(key=ZERO)),
            (5, dict(verifier=self.bad_verifier(record.verifier))),
            (14, dict(code=self.not_in_state(record.value, {2, 3}))),
            (16, dict(verifier=self.wrong_verifier(record.verifier))),
            (7, dict(fresh=used)),
            (11, dict(now=record.expiry + rng.choice([0, 0, 1, 1000]))),
            (2, dict(now=self.bad_now())),
        ]
        if strangers:
            stranger = rng.choice(strangers)
            faults += [(14, dict(client=stranger[0], auth=stranger[1]))] * 2
        if self.call("token", fields, faults, given, record):
            record.state, record.token, record.key = 3, fields["fresh"], fields["key"]
            record.expiry = fields["now"] + TOKEN_LIFETIME
        elif self.number == SECOND_USE:
            self.free(lambda other: other is record)

    def resource(self):
        rng = self.rng
        record, given = self.pick({3}, 17)
        scope, key = record.scope, record.key or rng.randbytes(32)
        fields = dict(now=self.soon(record), token=record.token or rng.randbytes(32), key=key,
                      scope=scope & rng.getrandbits(32) or scope, holder=record.holder)
        faults = [
            (17, dict(token=self.not_in_state(fields["token"], set()))),
            (18, dict(key=record.client[1] if record.client[1] != key else self.other(key, []))),
            (18, dict(key=self.other(key, []))),
            (6, dict(scope=0 if scope == 0xffffffff else rng.choice([0, self.outside(scope, scope)]))),
            (19, dict(holder=rng.choice([h for h in [0, *HOLDERS] if h != record.holder]))),
            (11, dict(now=record.expiry + rng.choice([0, 0, 1, 1000]))),
            (2, dict(now=self.bad_now())),
        ]
        self.call("resource", fields, faults, given, record)

    def sweep(self):
        rng = self.rng
        edges = [record.expiry - rng.randint(0, 1) for record in self.records]
        edges = [now for now in edges if self.clock <= now < CLOCK_END]
        now = rng.choice(edges) if edges and rng.random() < 0.6 else self.soon()
        if self.profile.get("late_clock") and now < CLOCK_END // 2:
            now = CLOCK_END - rng.choice([1, 2, 60, 61, 600, 2000, 5000])
        faults = [(2, dict(now=self.bad_now()))] if rng.random() < 0.4 else []
        if self.call("sweep", dict(now=now), faults, set()):
            self.free(lambda record: record.expiry <= self.clock)

    def call(self, kind, fields, faults, given, record=None):
        """Spoils none, one or two things of a call, adds it, and says whether it is accepted."""
        rng, numbers, touched = self.rng, set(given), set()
        counts = [0] * 9 + [1] if self.profile.get("calm") and len(self.records) < self.slots else [0, 0, 0, 1, 1, 2]
        for number, spoilt in rng.sample(faults, min(rng.choice(counts), len(faults))):
            if touched.isdisjoint(spoilt):
                fields |= spoilt
                touched |= set(spoilt)
                numbers |= {number} - {2, 11}
        now = fields["now"]
        numbers |= {1} if not self.slots else set()
        numbers |= {2} if now < self.clock or now >= CLOCK_END else set()
        numbers |= {3} if not (self.sound and self.clients) else set()
        numbers |= {11} if record and now >= record.expiry else set()
        number = next((n for n in ORDER[kind] if n in numbers), 0)
        self.add(kind, number, **fields)
        self.number = number
        if number in (0, SECOND_USE):
            self.clock = now
        return number == 0

    # Parts of calls

    def pick(self, states, unknown):
        """A record in one of these states, seldom an expired one; else one that the ledger does not have."""
        fitting = [r for r in self.records if r.state in states]
        alive = [r for r in fitting if r.expiry > self.clock]
        if fitting and self.rng.random() < 0.97:
            return self.rng.choice(alive if alive and self.rng.random() < 0.85 else fitting), set()
        nobody = Record(0, self.some_client(), 1, self.clock + 100, self.rng.randbytes(32), self.new_verifier(), True, 1)
        return nobody, {unknown}

    def some_client(self):
        stranger = (self.rng.randbytes(16), self.rng.randbytes(32), 5, 0)
        return self.rng.choice(self.clients or [stranger])

    def soon(self, record=None):
        """A time not behind the clock; with a living record, not past its last good second."""
        now = self.clock + self.rng.choice([0, 0, 1, 2, self.rng.randint(0, 15)])
        if self.clock == 0 and self.rng.random() < 0.3:
            now = self.rng.choice([1000, 1 << 30, 1 << 32])
        if record and record.expiry > self.clock:
            now = record.expiry - 1 if self.rng.random() < 0.1 else min(now, record.expiry - 1)
        return min(now, CLOCK_END - 1)

    def bad_now(self):
        behind = [self.clock - 1, self.rng.randrange(self.clock)] if self.clock else []
        return self.rng.choice(behind * 2 + [CLOCK_END, CLOCK_END + self.clock, (1 << 64) - 1])

    def new_value(self):
        """A value not in the pool: random, or freed before, or one bit beside one of the pool."""
        pool = self.pool()
        choice = self.rng.random()
        value = self.rng.randbytes(32)
        if choice < 0.15 and self.spent:
            value = self.rng.choice(self.spent)
        elif choice < 0.3 and pool:
            value = flip(self.rng, self.rng.choice(pool))
        return value if value not in pool and value != ZERO else self.rng.randbytes(32)

    def used_value(self):
        return self.rng.choice([ZERO] + self.pool() * 3)

    def pool(self):
        return [value for r in self.records for value in (r.value, r.token) if value]

    def not_in_state(self, value, states):
        """A value that no record in these states has as its reference or code; without states, none as its token."""
        right = [r.value for r in self.records if r.state in states] if states else [r.token for r in self.records]
        tempting = [wrong for wrong in self.pool() + self.spent[-3:] if wrong not in right] or [ZERO]
        wrong = self.rng.choice([ZERO, flip(self.rng, value), flip(self.rng, value), *self.rng.choices(tempting, k=2)])
        return wrong if wrong not in right else self.rng.randbytes(32)

    def other(self, value, taken):
        wrong = self.rng.choice([flip(self.rng, value), bytes(len(value)), self.rng.randbytes(len(value))])
        return wrong if wrong != value and wrong not in taken else self.rng.randbytes(len(value))

    def outside(self, bits, scope):
        return scope | 1 << self.rng.choice([i for i in range(32) if not bits >> i & 1])

    def new_verifier(self):
        length = self.rng.choice([43, 55, 56, 63, 64, 119, 120, 128, self.rng.randint(43, 128)])
        return bytes(self.rng.choices(UNRESERVED, k=length))

    def bad_verifier(self, verifier):
        length = self.rng.choice([0, 1, 42, 129, 130, 167])
        return self.rng.choice([bytes(self.rng.choices(UNRESERVED, k=length)),
                                self.with_bad(verifier, NOT_UNRESERVED)])

    def wrong_verifier(self, verifier):
        place = self.rng.choice([0, len(verifier) - 1, self.rng.randrange(len(verifier))])
        new = self.rng.choice(UNRESERVED.replace(verifier[place:place + 1], b""))
        return verifier[:place] + bytes([new]) + verifier[place + 1:]

    def new_redirect(self):
        length = self.rng.choice([9, 64, self.rng.randint(9, 64)])
        return b"https://" + bytes(self.rng.choices(range(0x21, 0x7f), k=length - 8))

    def bad_redirect(self):
        good, long = self.new_redirect(), self.rng.choice([65, 66, 128, 184])
        bad_byte = good[:8] + self.with_bad(good[8:], b" \x00\x1f\x7f\x80\xff")
        return self.rng.choice([
            b"", b"https://", b"http://ab", b"HTTPS://a", b"https:/aa", flip(self.rng, good[:8]) + b"abc",
            good[:8] + b"a" * (long - 8), good[:63] + b"\x00", bad_byte, bad_byte, bad_byte,
        ])

    def with_bad(self, text, bad):
        place = self.rng.choice([0, len(text) - 1, self.rng.randrange(len(text))])
        return text[:place] + bytes([self.rng.choice(bad)]) + text[place + 1:]

    def free(self, gone):
        self.spent += [value for r in self.records if gone(r) for value in (r.value, r.token) if value]
        self.records = [r for r in self.records if not gone(r)]

    # Lines that are no frame

    def no_frame(self):
        label, text = self.rng.choice(self.no_frames())
        self.lines.append(Line(text, label, NO_FRAME))

    def no_frames(self):
        """Each way to be no frame, made from a frame of random content."""
        rng = self.rng
        kind = rng.choice(list(KINDS))
        widths = [width or 0 for _, width in KINDS[kind][1]]
        least = 1 + sum(widths)
        open_ended = KINDS[kind][1][-1][1] is None
        good = bytes([KINDS[kind][0]]) + rng.randbytes(least - 1)
        if kind == "decide":
            good = good[:57] + b"\x01" + good[58:]
        text = good.hex().encode()
        place = rng.randrange(len(text))
        too_long = rng.choice([MAX_DIGITS + 1, MAX_DIGITS + 2, 700, 2 * MAX_DIGITS, 5000])
        if rng.random() < 0.02:
            too_long = 70000
        unknown = bytes([rng.choice([7, 8, 0x10, 0x7f, 0x80, 0xff])])
        decided = bytes([2]) + rng.randbytes(56) + bytes([rng.choice([2, 3, 0x10, 0x80, 0xff])]) + rng.randbytes(40)
        return [
            ("empty", b""),
            ("odd digits", rng.choice([text[:-1], text + b"0", text[:1]])),
            ("no hex", text[:place] + bytes([rng.choice(NOT_HEX)]) + text[place + 1:]),
            ("no hex", rng.choice([b"0x" + text, b" " + text, text + b" ", text + b"  ", b"\xef\xbb\xbf" + text])),
            ("CR", rng.choice([text + b"\r", b"\r", b"\r" + text, text[:-1] + b"\r"])),
            ("unknown kind", (unknown + rng.choice([good[1:], b"", rng.randbytes(319)])).hex().encode()),
            ("too short", good[:rng.choice([1, least - 1, rng.randrange(1, least)])].hex().encode()),
            ("too long for its kind" if not open_ended else "over 640 digits",
             (good + rng.randbytes(rng.choice([1, 2, 32]) if not open_ended else 321 - least)).hex().encode()),
            ("yes above 01", decided.hex().encode()),
            ("over 640 digits", (text * (too_long // len(text) + 1))[:too_long]),
            ("over 640 digits", rng.choice([b"z", b"\r", b" "]) * too_long),
        ]
