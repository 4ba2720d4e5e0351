"""The frames and answers of the line program (document 01, "The line program"), for tools/ and tests/."""
import base64
import hashlib
import re

# Each kind: its first byte and its fields with their widths; width None takes the rest of the line.
KINDS = {
    "start": (0, [("slots", 1)]),
    "push": (1, [("now", 8), ("client", 16), ("auth", 32), ("scope", 4), ("challenge", 43), ("fresh", 32), ("redirect", None)]),
    "decide": (2, [("now", 8), ("client", 16), ("reference", 32), ("yes", 1), ("holder", 8), ("fresh", 32)]),
    "token": (3, [("now", 8), ("client", 16), ("auth", 32), ("key", 32), ("code", 32), ("fresh", 32), ("verifier", None)]),
    "resource": (4, [("now", 8), ("token", 32), ("key", 32), ("scope", 4), ("holder", 8)]),
    "sweep": (5, [("now", 8)]),
    "client": (6, [("client", 16), ("auth", 32), ("permitted", 4), ("lifetime", 2), ("zero", 10)]),
}
NAMES = {byte: name for name, (byte, _) in KINDS.items()}
NUMBERS = {"slots", "now", "scope", "yes", "holder", "permitted", "lifetime"}
TEXTS = {"challenge", "redirect", "verifier"}
UNSAID = {"lifetime": 0, "zero": bytes(10)}  # what a frame has where nothing is said

WORDS = {
    0: "done",
    1: "ledger length wrong or ledger not sound",
    2: "now is below the clock, or 2^40 or more",
    3: "client table not sound",
    4: "no such client id, or its authentication key differs",
    5: "redirect or challenge (push), or verifier (token) ill formed",
    6: "scope 0, or not within the permitted (push) or granted (resource) bits",
    7: "fresh value all zeros, or in the pool",
    8: "no free record",
    9: "next grant number is 2^64 - 1",
    10: "no record in state 1 with this reference and client id",
    11: "the record is expired",
    12: "holder 0",
    13: "presented key all zeros",
    14: "no record in state 2 or 3 with this code and client id",
    15: "that record is in state 3, expired or not",
    16: "verifier does not match",
    17: "no record in state 3 with this token",
    18: "presented key differs from the bound key",
    19: "holder asked is not the record's holder",
    20: "output buffer shorter than 64 bytes (decide, pending) or than the text (introspect)",
    0xff: "no frame",
}

MOST_DIGITS = 640
NO_FRAME = 0xff

# The fields behind the number in an answer, by kind.
GRANT = [("grant", 8), ("holder", 8), ("scope", 4), ("expiry", 8)]
ANSWERS = {
    "start": [], "client": [], "push": GRANT, "token": GRANT, "resource": GRANT,
    "decide": GRANT + [("length", 1)],
    "sweep": [("pushed", 2), ("consented", 2), ("redeemed", 2)],
}


def frame(kind, **fields):
    """The frame as lower-case hexadecimal; numbers as int, all else as bytes."""
    byte, layout = KINDS[kind]
    parts = [bytes([byte])]
    for name, width in layout:
        value = fields.pop(name, UNSAID.get(name))
        if value is None:
            raise ValueError(f"{kind} needs {name}=")
        if isinstance(value, int):
            if not 0 <= value < 256 ** width:
                raise ValueError(f"{name}={value} does not fit {width} bytes")
            value = value.to_bytes(width, "big")
        if width not in (None, len(value)):
            raise ValueError(f"{name} has {len(value)} bytes, it needs {width}")
        parts.append(value)
    if fields:
        raise ValueError(f"{kind} has no {', '.join(fields)}")
    return b"".join(parts).hex()


def unframe(line):
    """A line as its kind and its fields in order, numbers as int and all else as bytes; None where it is no frame."""
    if len(line) > MOST_DIGITS or not re.fullmatch(r"(?:[0-9A-Fa-f]{2})+", line, re.A):
        return None
    data = bytes.fromhex(line)
    kind, rest = NAMES.get(data[0]), data[1:]
    fields = {}
    for name, width in KINDS[kind][1] if kind else []:
        value, rest = (rest, b"") if width is None else (rest[:width], rest[width:])
        if width not in (None, len(value)):
            return None
        fields[name] = int.from_bytes(value, "big") if name in NUMBERS else value
    return (kind, fields) if kind and not rest and fields.get("yes", 0) <= 1 else None


def read(line, kind=None):
    """An answer line as a dict, or None if it is no answer of this kind; without a kind its length tells."""
    if not re.fullmatch(r"(?:[0-9a-f]{2})+", line, re.A):
        return None
    data = bytes.fromhex(line)
    if data == bytes([NO_FRAME]):
        return {"number": NO_FRAME}
    if kind is None:
        kind = {1: "start", 7: "sweep", 29: "push"}.get(len(data), "decide")
    answer, rest = {"number": data[0]}, data[1:]
    for name, width in ANSWERS[kind]:
        if len(rest) < width:
            return None
        answer[name], rest = int.from_bytes(rest[:width], "big"), rest[width:]
    if kind == "decide":
        answer["redirect"] = rest
    good = len(rest) == answer.get("length", 0) and data[0] in WORDS and data[0] != NO_FRAME
    # a refusal has zeros beside its number
    return answer if good and (data[0] == 0 or not any(data[1:])) else None


def s256(verifier):
    """The challenge of a verifier (RFC 7636), from the standard library."""
    return base64.urlsafe_b64encode(hashlib.sha256(verifier).digest()).rstrip(b"=")


def value(name, text):
    """A field as people write it (tools/frame --help)."""
    if name in NUMBERS:
        return {"yes": 1, "no": 0}[text] if text in ("yes", "no") else int(text, 0)
    if name == "challenge" and text.startswith("s256:"):
        return s256(text[5:].encode())
    match = re.fullmatch(r"(text:.*|0x[0-9A-Fa-f]+)\*(\d+)", text)
    text, times = (match[1], int(match[2])) if match else (text, 1)
    if text.startswith("text:"):
        return text[5:].encode() * times
    if text.startswith("0x"):
        return bytes.fromhex(text[2:]) * times
    return text.encode() if name in TEXTS else bytes.fromhex(text)


def make(kind, arguments):
    """The frame of a kind from arguments NAME=VALUE."""
    fields = {}
    for argument in arguments:
        name, equals, text = argument.partition("=")
        if not equals or name not in dict(KINDS[kind][1]):
            raise ValueError(f"{kind} has no field {argument}")
        try:
            fields[name] = value(name, text)
        except ValueError as error:
            raise ValueError(f"{argument}: {error}") from None
    return frame(kind, **fields)


def told(name, value):
    """A field as `value` reads it back."""
    if isinstance(value, int):
        return {0: "no", 1: "yes"}[value] if name == "yes" else str(value)
    if name not in TEXTS:
        return value.hex()
    plain = re.fullmatch(rb"(?!text:|0x|s256:)[\x21-\x7e]*", value)
    return value.decode() if plain else "0x" + value.hex()


def show(line):
    """A frame in the words that make it, or None."""
    found = unframe(line)
    if found is None:
        return None
    kind, fields = found
    return " ".join([kind] + [f"{name}={told(name, value)}" for name, value in fields.items() if value != UNSAID.get(name)])


def say(line, kind=None):
    """An answer line in words, or None."""
    answer = read(line, kind)
    if answer is None:
        return None
    words = f"{answer['number']}: {WORDS[answer['number']]}"
    rest = [f"{name} {value.decode('latin-1') if name == 'redirect' else value}"
            for name, value in answer.items() if name != "number"]
    return words if answer["number"] else "; ".join([words] + rest)
