"""The independent count over what was handed out, beside the journal and the stored ledger, both read here from their documents.

What was handed out are the worker's lines. Nothing here shares code with the keeper.
"""
import struct
from collections import Counter, defaultdict

POLYNOMIAL = 0xC96C5795D7870F42  # CRC-64/XZ
CONSENTED = 2
ANSWER = struct.Struct(">BQQIQ")


def crc_table():
    table = []
    for byte in range(256):
        crc = byte
        for _ in range(8):
            crc = crc >> 1 ^ POLYNOMIAL if crc & 1 else crc >> 1
        table.append(crc)
    return table


TABLE = crc_table()


def crc64(data):
    crc = 2**64 - 1
    for byte in data:
        crc = TABLE[(crc ^ byte) & 255] ^ crc >> 8
    return crc ^ 2**64 - 1


def stored(data):
    """The step and the ledger of what a keeper stored (bindings/keeper/src/kept.rs)."""
    assert data[:8] == b"PERDIGO1" and crc64(data[:-8]) == int.from_bytes(data[-8:], "big"), "what is stored is damaged"
    step, length = int.from_bytes(data[8:16], "big"), int.from_bytes(data[20:24], "big")
    return step, data[32:32 + length]


def blocks(text):
    """The whole blocks of a journal (bindings/keeper/src/journal.rs): before and after, each step and checksum, and the calls."""
    lines, at, found = text.split("\n"), 0, []
    while at < len(lines):
        end = next((k for k in range(at + 1, len(lines)) if lines[k].startswith(("end ", "step "))), None)
        if lines[at].startswith("step ") and end and lines[end].startswith("end "):
            body = "".join(line + "\n" for line in lines[at:end])
            if f"end {crc64(body.encode()):016x}" == lines[end]:
                words = lines[at].split()
                calls = [(a[2:], b[2:]) for a, b in zip(lines[at + 1:end:2], lines[at + 2:end:2])]
                found.append(((words[1], words[3]), (words[2], words[4]), calls))
                at = end
        at += 1
    return found


def journal(text, data):
    """The calls that count, with their answers, and how many blocks do not count."""
    found, (step, ledger) = blocks(text), stored(data)
    last = (str(step), f"{crc64(ledger):016x}")
    follow = [block[0] for block in found[1:]] + [last]
    calls, reached, void = [], ("0", f"{0:016x}"), 0
    for (before, after, made), following in zip(found, follow):
        assert before == reached, f"the journal does not go on at step {before[0]}"
        if after == following:
            reached, calls = after, calls + made
        else:
            void += 1
    assert reached == last, "the journal does not reach the stored ledger"
    return calls, void


def said(call, answer):
    """A call of the journal in the worker's words, without its ledger: None for those that the worker does not print."""
    frame, given = bytes.fromhex(call), bytes.fromhex(answer)
    kind, number = frame[0], given[0]
    name = {1: "push", 2: "yes", 3: "token", 4: "read", 5: "sweep"}.get(kind)
    if name and number:
        return ("refused", name, str(number))
    if kind in (1, 2, 3, 4):
        _, grant, holder, _, _ = ANSWER.unpack(given[:29])
    if kind == 1:
        return ("push", str(grant), str(frame[9] - 0xA0), frame[104:136].hex())
    if kind == 2:
        return ("yes", str(grant), str(frame[9] - 0xA0), str(holder), frame[66:98].hex(), given[30:].decode())
    if kind == 3:
        return ("token", str(grant), str(frame[9] - 0xA0), str(holder), frame[121:153].hex())
    return ("read", str(grant), str(holder), frame[9:41].hex()) if kind == 4 else None


def handed_out(workers, ledger):
    """The lines on this ledger, by worker, each as words without the ledger; no failures."""
    kinds = ("push", "yes", "token", "read", "refused")
    split = [[line.split(" ") for line in lines] for lines in workers]
    return [[tuple(words[:1] + words[2:]) for words in lines if words[0] in kinds and words[1] == ledger] for lines in split]


def balance(workers):
    """Grant numbers and permissions over what was handed out."""
    every = [line for lines in workers for line in lines]
    for kind, what in (("push", "a reference"), ("token", "a token")):
        twice = [grant for grant, n in Counter(line[1] for line in every if line[0] == kind).items() if n > 1]
        assert not twice, f"grant {twice[0]} was handed {what} twice"
    codes = {line[1:5] for line in every if line[0] == "yes"}
    assert len({code[0] for code in codes}) == len(codes), "a grant was handed two codes"
    consents = Counter(code[1:3] for code in codes)
    tokens = Counter(line[2:4] for line in every if line[0] == "token")
    for who, count in tokens.items():
        assert count <= consents[who], f"client and holder {who}: {count} tokens, {consents[who]} consents"


def past(workers, calls):
    """Every answer handed out is in the journal, in each worker's order; a yes may be handed out again."""
    places = defaultdict(list)
    for place, (call, answer) in enumerate(calls):
        if " " not in call and (words := said(call, answer)):
            places[words].append(place)
    for lines in workers:
        reached, given = -1, set()
        for line in lines:
            if line[0] == "yes" and line in given:
                continue
            given.add(line)
            place = next((place for place in places[line] if place > reached), None)
            if place is None and line[0] == "yes" and places[line]:
                continue  # handed out again
            assert place is not None, f"handed out, and not in the journal behind what came before: {' '.join(line)}"
            reached = place
    for words, found in places.items():
        if words[0] != "refused" and words[0] != "read":
            assert len(found) == 1, f"made twice: {' '.join(words)}"


def books(calls, ledger):
    """Consents made are tokens made, codes that sweeps dropped, and codes that wait in the stored ledger."""
    made = Counter()
    for call, answer in calls:
        given = bytes.fromhex(answer)
        if " " in call or given[0]:
            continue
        made[int(call[:2], 16)] += 1
        if call[:2] == "05":
            made["dropped"] += int.from_bytes(given[3:5], "big")
    waiting = sum(ledger[at] == CONSENTED for at in range(32, len(ledger), 256))
    assert made[2] == made[3] + made["dropped"] + waiting, f"{made[2]} consents, {made[3]} tokens, {made['dropped']} dropped, {waiting} waiting"


def check(workers, name, data, text):
    """All of it for one ledger: the workers' lines, what is stored, the journal. Gives the calls that count and the blocks that do not."""
    handed = handed_out(workers, name)
    balance(handed)
    calls, void = journal(text, data)
    past(handed, calls)
    books(calls, stored(data)[1])
    return calls, void
