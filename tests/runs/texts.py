#!/usr/bin/env python3
"""Values as text: include/perdigolh_text.h in C and bindings/rust, held against Python's own codecs.

Tried are random and telling values, written and read back, and texts that are near one: each other character at each place, each
place left out and doubled, other cases, padding, pad bits, blanks, and what common decoders take besides. tests/runs/front.py builds
the Rust side before.
"""
import base64
import random
import re
import subprocess
import sys
from pathlib import Path

TOP = Path(__file__).resolve().parent.parent.parent
IN_C, IN_RUST = TOP / "target/front/c/texts", TOP / "target/front/release/texts"
COMPILE = "cc -std=c11 -O1 -Wall -Wextra -Wpedantic -Wconversion -Werror -Iinclude -Itests/front tests/front/texts.c target/staticlib/libfront.a -o".split()
URI = "urn:ietf:params:oauth:request_uri:"


def base64url(value):
    return base64.urlsafe_b64encode(value).rstrip(b"=").decode()


# kind: the value's size, the text's form, how Python writes it and how it reads what has that form
KINDS = {
    "code": (32, r"[0-9a-f]{64}", bytes.hex, bytes.fromhex),
    "client": (16, r"[0-9a-f]{32}", bytes.hex, bytes.fromhex),
    "reference": (32, URI + r"[0-9a-f]{64}", lambda value: URI + value.hex(), lambda text: bytes.fromhex(text[len(URI):])),
    "token": (32, r"[A-Za-z0-9_-]{43}", base64url, lambda text: base64.urlsafe_b64decode(text + "=")),
    "thumbprint": (32, r"[A-Za-z0-9_-]{43}", base64url, lambda text: base64.urlsafe_b64decode(text + "=")),
}


def wanted(kind, what, given):
    """What the line is answered: a text is good where it is what its own value is written as."""
    _, form, write, read = KINDS[kind]
    if what == "write":
        return write(given)
    text = given.decode("latin-1")
    value = read(text) if re.fullmatch(form, text, re.A) and not text.endswith("\n") else None
    return value.hex() if value is not None and write(value) == text else "no"


def near(text, chance):
    """Texts that are not the one, or are another value's."""
    for at in range(len(text)):
        yield text[:at] + chance.choice("09afAFgGzZ-_+/=%. \n\0\x7f\xff") + text[at + 1:]
        yield text[:at] + text[at].swapcase() + text[at + 1:]
        yield text[:at] + text[at + 1:]
        yield text[:at] + text[at] + text[at:]
    for last in "ABCDEFGHIJKLMNOPQRSTUVWXYZabcdefghijklmnopqrstuvwxyz0123456789-_":
        yield text[:-1] + last
    yield from (text.upper(), text.lower(), text + "=", text + "==", text + "\n", " " + text, text + " ", "\0" + text, text + "\0")
    yield from (text.replace("-", "+").replace("_", "/"), text.replace("urn", "URN"), text.replace(URI, ""), URI + text, "0x" + text, text[::2], text * 2, "")


def lines(chance):
    for kind, (size, _, write, _) in KINDS.items():
        values = [bytes(size), b"\xff" * size, bytes(range(size)), b"\xfb\xef\xbe" * 11]
        values = [value[:size] for value in values] + [chance.randbytes(size) for _ in range(200)]
        for value in values:
            yield kind, "write", value
            yield kind, "read", write(value).encode()
        for value in values[:12]:
            for text in near(write(value), chance):
                yield kind, "read", text.encode("latin-1")
        for _ in range(500):
            yield kind, "read", chance.randbytes(chance.randrange(110))


def main():
    tried = list(lines(random.Random(1)))
    answers = [wanted(*line) for line in tried]
    told = "".join(f"{kind} {what} {given.hex() or '-'}\n" for kind, what, given in tried)
    good = [what == "write" or answer != "no" for (_, what, _), answer in zip(tried, answers)]
    failed = 0 if good.count(True) > 1000 and good.count(False) > 1000 else 1  # both sides are tried
    built = subprocess.run([*COMPILE, IN_C], cwd=TOP).returncode == 0
    for program in (IN_C, IN_RUST):
        run = subprocess.run([program], input=told, capture_output=True, text=True) if built else None
        said = run.stdout.split("\n")[:-1] if run and run.returncode == 0 else []
        wrong = [f"{line} said {got} wanted {want}" for line, got, want in zip(tried, said, answers) if got != want]
        if wrong or len(said) != len(tried):
            failed += 1
            print(f"failed: {program.name} of {program.parent.name}: {len(said)} answers to {len(tried)} lines", *wrong[:5], sep="\n  ")
    print(f"{len(tried)} lines, {good.count(False)} of them no value's text")
    print(f"{3 - failed} passed, {failed} failed")
    return 1 if failed else 0


if __name__ == "__main__":
    sys.exit(main())
