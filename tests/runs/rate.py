#!/usr/bin/env python3
"""Lines a second of two line programs on one stream, at 1 slot and at 200: tests/runs/rate.py PROGRAM OTHER

The ledger is filled but for one slot with redeemed grants; then push, decide with no, and two readings take turns, all at one time, so that
every call reads a full ledger. Processor seconds count, of the best of several runs by turns. No test: nothing is compared with a limit.
"""
import hashlib
import resource
import shlex
import subprocess
import sys
import tempfile
from pathlib import Path

sys.dont_write_bytecode = True
sys.path.insert(0, str(Path(__file__).resolve().parents[1] / "generators"))
from stream_maker import MAX_SLOTS  # noqa: E402
from frames import frame, s256  # noqa: E402

RUNS = 7
VERIFIER = b"dBjftJeZ4CVP-mB92K27uhbUJU1p1r_wW1gFWFOEjXk"
BUYER = dict(client=b"\xa1" * 16, auth=b"\xa2" * 32)
NOW = 1000
CYCLES = {1: 25000, MAX_SLOTS: 250}


def fresh(number):
    """A value as a random source would give it."""
    return hashlib.sha256(number.to_bytes(8, "big")).digest()


def push(reference):
    return frame("push", now=NOW, **BUYER, scope=4, challenge=s256(VERIFIER), fresh=reference, redirect=b"https://buyer.example/back")


def decide(reference, yes, code):
    return frame("decide", now=NOW, client=BUYER["client"], reference=reference, yes=yes, holder=7, fresh=code)


def reading(token):
    return frame("resource", now=NOW, token=token, key=b"\xee" * 32, scope=4, holder=7)


def stream(slots):
    lines = [frame("start", slots=slots), frame("client", **BUYER, permitted=5)]
    tokens = []
    for grant in range(1, slots):
        reference, code, token = (fresh(3 * grant + i) for i in range(3))
        lines += [push(reference), decide(reference, 1, code),
                  frame("token", now=NOW, **BUYER, key=b"\xee" * 32, code=code, fresh=token, verifier=VERIFIER)]
        tokens.append(token)
    for cycle in range(CYCLES[slots]):
        reference = fresh(1 << 32 | cycle)
        shown = tokens[cycle % len(tokens)] if tokens else reference
        lines += [push(reference), decide(reference, 0, fresh(1)), reading(shown), reading(shown)]
    return ("\n".join(lines) + "\n").encode(), len(lines)


def processor():
    used = resource.getrusage(resource.RUSAGE_CHILDREN)
    return used.ru_utime + used.ru_stime


def seconds(program, text):
    with tempfile.TemporaryFile() as file:
        file.write(text)
        file.seek(0)
        began = processor()
        output = subprocess.run(shlex.split(program), stdin=file, stdout=subprocess.PIPE, check=True).stdout
    return processor() - began, output


def main():
    if len(sys.argv) != 3:
        sys.exit(__doc__)
    for slots in CYCLES:
        text, count = stream(slots)
        best, outputs = [float("inf")] * 2, [b""] * 2
        for _ in range(RUNS):
            for place, program in enumerate(sys.argv[1:]):
                took, outputs[place] = seconds(program, text)
                best[place] = min(best[place], took)
        if outputs[0] != outputs[1]:
            sys.exit(f"rate: the programs differ at {slots} slots")
        rates = [count / took for took in best]
        print(f"{slots} slots, {count} lines, {len(text)} bytes: {rates[0]:.0f} and {rates[1]:.0f} lines a second, ratio {rates[0] / rates[1]:.2f}")


if __name__ == "__main__":
    main()
