#!/usr/bin/env python3
"""The lines that crates/plays must write for its script, a call a line, from documents 01 and 02.

  tests/runs/plays.py print   the expected lines
  tests/runs/plays.py check   compare crates/plays/stdout with them, and see that the script plays these calls and every number of each call's list

A line is the call's name, its answer, and the clock and next number of the ledger that it leaves: a refusal other than 15 leaves both. The script
is crates/plays/stdin: a line of it is the same name, and what is asked.
"""
import pathlib
import sys

PLAYS = pathlib.Path(__file__).resolve().parents[2] / "crates" / "plays"

# "The calls, with checks in order": what each call may answer, done included.
LISTS = {
    "start": {0, 1},
    "push": {0, 1, 2, 3, 4, 5, 6, 7, 8, 9},
    "decide": {0, 1, 2, 20, 10, 11, 12, 7},
    "token": {0, 1, 2, 3, 4, 13, 5, 14, 15, 11, 16, 7},
    "resource": {0, 1, 2, 17, 11, 18, 6, 19},
    "sweep": {0, 1, 2},
}
LAST = 2**64 - 1  # the next number at which push gives 9
LIMIT = 2**40
OLD = int.from_bytes(b"x" * 8, "big")  # what the old content of a buffer says

lines = []
calls = []  # each line's name and number
clock = following = 0  # the ledger's clock and next number


def call_of(name):
    """A line is named by its call."""
    return name.split("-")[0]


def add(name, number, words):
    calls.append((name, number))
    lines.append(f"{name}: {number}{words}; clock {clock} next {following}")


def ledger(time, number):
    """Another ledger is played on, or a call moved this one."""
    global clock, following
    clock, following = time, number


def started(name, number):
    add(name, number, "")


def granted(name, number=0, grant=0, holder=0, scope=0, expiry=0):
    """What push, token and resource answer; a refusal has zeros beside its number."""
    add(name, number, f" grant {grant} holder {holder} scope {scope} expiry {expiry}")


def decided(name, number=0, grant=0, holder=0, scope=0, expiry=0, length=0, output="." * 66):
    add(name, number, f" grant {grant} holder {holder} scope {scope} expiry {expiry} length {length} output {output}")


def swept(name, number=0, pushed=0, consented=0, redeemed=0):
    add(name, number, f" pushed {pushed} consented {consented} redeemed {redeemed}")


def refused(name, number):
    {"decide": decided, "sweep": swept}.get(call_of(name), granted)(name, number)


REDIRECT = "https://a".ljust(64, "_") + ".."  # the redirect in the first 64 output bytes, zero-padded; later bytes stay


def starts():
    ledger(0, 0)
    started("start-0", 1)      # 1 if the length is wrong; there are no bytes to read a clock from
    ledger(OLD, OLD)
    started("start-287", 1)    # P2; the buffer keeps its content
    ledger(0, 1)
    started("start-288", 0)    # P1: old content ignored; writes zeros and next number 1
    ledger(OLD, OLD)
    started("start-289", 1)    # records have 256 bytes
    ledger(0, 1)
    started("start-51232", 0)  # P3
    ledger(OLD, OLD)
    started("start-51488", 1)  # P3: 201 records


def unsound():
    ledger(0, 0)                                       # zeros: the next number is not at least 1
    refused("push-1", 1)                               # ledger not sound
    refused("decide-1", 1)                             # on yes
    refused("decide-1-no", 1)                          # on no
    refused("token-1", 1)
    refused("resource-1", 1)
    refused("sweep-1", 1)
    decided("decide-1-before-20", 1, output="." * 63)  # each call but start begins with 1
    refused("sweep-1-before-2", 1)                     # then 2
    refused("push-1-empty", 1)                         # ledger length wrong
    refused("sweep-1-empty", 1)


def pushing():
    ledger(0, 1)
    started("start-800", 0)                    # zeros and next number 1
    refused("push-2-limit", 2)                 # now is 2^40
    refused("push-3-empty", 3)                 # a table of no clients
    refused("push-3-600", 3)                   # a fifth client, whose record says 600: 3 for everybody
    refused("push-4-id", 4)                    # no such client id
    refused("push-4-key", 4)                   # its authentication key differs: this is another client's
    refused("push-6-zero", 6)                  # P7: scope 0
    refused("push-6-outside", 6)               # P7: permitted 5, asked 2
    refused("push-6-partly", 6)                # permitted 5, asked 6: bit 2 is outside
    refused("push-7-zeros", 7)                 # fresh value all zeros
    refused("push-5-short", 5)                 # P10: https:// alone
    refused("push-5-http", 5)                  # P10: http://ab
    refused("push-5-space", 5)                 # a byte 0x20 in the redirect
    refused("push-5-before-6", 5)              # an empty redirect and scope 0: 5 is first
    refused("push-5-42", 5)                    # a challenge of 42 characters
    refused("push-5-44", 5)                    # and of 44
    refused("push-5-letter", 5)                # a challenge with +
    ledger(1000, 2)
    granted("push-0", 0, 1, 0, 4, 1599)        # P7, P10: grant 1, no holder yet, expiry 1000 + 599, as its client's record says
    refused("push-2-back", 2)                  # now 999 is below the clock
    refused("push-7-taken", 7)                 # fresh equals the reference; the clock stays
    ledger(1000, 3)
    granted("push-0-other", 0, 2, 0, 7, 1599)  # now may equal the clock; the next number rises by one
    ledger(1002, 4)
    granted("push-0-last", 0, 3, 0, 1, 1601)   # the third record; expiry 1002 + 599
    refused("push-8", 8)                       # no free record
    refused("push-7-before-8", 7)              # and a taken fresh value: 7 is first


def deciding():
    for no in ("", "-no"):
        refused("decide-2-back" + no, 2)                          # now 1001 is below the clock, 1002
        refused("decide-2-limit" + no, 2)
        decided("decide-20" + no, 20, output="." * 63)            # output buffer shorter than 64 bytes
        decided("decide-20-before-10" + no, 20, output="." * 63)  # and no such reference: 20 is first
        refused("decide-10-unknown" + no, 10)                     # no record with this reference
        refused("decide-10-client" + no, 10)                      # the reference is another client's
        refused("decide-11" + no, 11)                             # P4: at 1,599 it is expired
        refused("decide-11-before-12" + no, 11)                   # and holder 0: 11 is first
        refused("decide-12" + no, 12)                             # holder 0, on no too
    refused("decide-7-zeros", 7)                                  # fresh value all zeros
    refused("decide-7-own", 7)                                    # P11: the reference that it would replace
    refused("decide-7-other", 7)                                  # another record's reference
    refused("decide-12-before-7", 12)                             # 7 is checked last
    ledger(1010, 4)
    decided("decide-0-yes", 0, 1, 7, 4, 1070, 9, REDIRECT)        # that holder, expiry 1010 + 60
    ledger(1011, 4)
    decided("decide-0-no", 0, 3, 8, 0, 0, 9, REDIRECT)            # grant number, holder given, zeros; a taken fresh value is not looked at
    refused("decide-10-code", 10)                                 # a code is no reference
    refused("decide-10-replaced", 10)                             # the reference was replaced by the code
    refused("decide-10-declined", 10)                             # the declined record is free


def redeeming():
    refused("token-2-back", 2)            # now 1010 is below the clock, 1011
    refused("token-2-limit", 2)
    refused("token-3", 3)                 # a table of no clients
    refused("token-3-600", 3)             # a fifth client, whose record says 600
    refused("token-4-id", 4)
    refused("token-4-key", 4)
    refused("token-14-unknown", 14)       # no record with this code
    refused("token-14-client", 14)        # another client's code must give 14
    refused("token-14-reference", 14)     # a reference is no code
    refused("token-11", 11)               # at 1010 + 60 the code is expired
    refused("token-7-zeros", 7)
    refused("token-7-own", 7)             # the code itself
    refused("token-7-other", 7)           # another record's reference
    refused("token-5-42", 5)              # P9
    refused("token-5-129", 5)             # P9
    refused("token-5-letter", 5)          # + is no character of a verifier
    refused("token-16-43", 16)            # P9: well formed, as ~ is one, and does not match
    refused("token-16-128", 16)           # P9: well formed, as . is one
    refused("token-13", 13)               # presented key all zeros; and the verifier does not match
    refused("token-13-before-5", 13)      # and an empty verifier: 13 is first
    ledger(1020, 4)
    granted("token-0", 0, 1, 7, 4, 1320)  # RFC 7636, Appendix B; expiry 1020 + 300
    refused("token-14-redeemed", 14)      # another client's code, redeemed


def reading():
    refused("resource-2-back", 2)                        # now 1019 is below the clock, 1020
    refused("resource-2-limit", 2)
    refused("resource-17-unknown", 17)                   # no record with this token
    refused("resource-17-code", 17)                      # a code is no token
    refused("resource-17-reference", 17)                 # nor is a reference
    refused("resource-17-zeros", 17)                     # the zeros of the other records are no token
    refused("resource-11", 11)                           # at 1020 + 300 the token is expired
    refused("resource-11-before-18", 11)                 # and another key
    refused("resource-18-registered", 18)                # it is the bound key that counts, not the registered one
    refused("resource-18-before-6", 18)                  # another key, scope 0 and another holder
    refused("resource-6-zero", 6)                        # scope 0
    refused("resource-6-outside", 6)                     # granted 4, asked 1
    refused("resource-6-partly", 6)                      # granted 4, asked 5, of another holder
    refused("resource-19", 19)                           # holder asked is not the record's
    ledger(1030, 4)
    granted("resource-0", 0, 1, 7, 4, 1320)              # as the record has them; only the clock changes
    granted("resource-0-again", 0, 1, 7, 4, 1320)
    ledger(1319, 4)
    granted("resource-0-last-second", 0, 1, 7, 4, 1320)


def sweeping():
    refused("sweep-2-back", 2)                                # now 1318 is below the clock, 1319
    refused("sweep-2-limit", 2)                               # P8
    swept("sweep-0-nothing")                                  # the token is good at 1319
    ledger(1320, 4)
    swept("sweep-0-redeemed", 0, 0, 0, 1)                     # at its expiry it is expired
    refused("token-14-swept", 14)                             # the code has no record any more
    refused("resource-17-swept", 17)                          # nor has the token
    ledger(1400, 5)
    granted("push-0-again", 0, 4, 0, 5, 1999)                 # a value that stood in the freed record; the next grant number
    ledger(1400, 6)
    granted("push-0-third", 0, 5, 0, 1, 1999)
    ledger(1401, 6)
    decided("decide-0-again", 0, 5, 9, 1, 1461, 9, REDIRECT)
    ledger(1599, 6)
    swept("sweep-0-each", 0, 1, 1, 0)                         # grant 2, pushed, expires at 1599; grant 5, consented, at 1461
    ledger(LIMIT - 1, 6)
    swept("sweep-0-pushed", 0, 1, 0, 0)                       # P8: 2^40 - 1 is accepted; grant 4
    swept("sweep-0-same-second")                              # nothing is left


def numbers():
    ledger(1000, LAST)
    granted("push-0-last-number", 0, LAST - 1, 0, 4, 1599)  # 2^64 - 2 is given
    refused("push-9", 9)                                    # next grant number is 2^64 - 1
    refused("push-7-before-9", 7)                           # a taken fresh value: 7 is first
    granted("push-0-one-record", 0, LAST - 1, 0, 4, 1599)
    refused("push-8-before-9", 8)                           # no free record: 8 is first


def edges():
    ledger(0, 1)
    started("start-edge", 0)
    ledger(1000, 2)
    granted("push-0-edge", 0, 1, 0, 5, 1599)
    refused("decide-11-edge", 11)             # P4: at 1,599
    ledger(1598, 2)
    full = "https://buyer.example/landed/weights/back?from=desk&to=program01.."
    decided("decide-0-edge", 0, 1, 7, 5, 1658, 64, full)  # P4: at 1,598 accepted; a redirect of 64 bytes has no zeros behind it
    refused("token-11-edge", 11)                          # P5: 60 seconds after the consent
    ledger(1657, 2)
    granted("token-0-edge", 0, 1, 7, 5, 1957)             # P5: 59 seconds after it
    refused("resource-11-edge", 11)                       # P6: 300 seconds after the token
    ledger(1956, 2)
    granted("resource-0-edge", 0, 1, 7, 5, 1957)          # P6: 299 seconds after it; the granted scope, not the one asked
    swept("sweep-0-edge-before")                          # not expired at 1956
    ledger(1957, 2)
    swept("sweep-0-edge", 0, 0, 0, 1)                     # expired at 1957


def lifetimes():
    ledger(0, 1)
    started("start-lifetimes", 0)
    ledger(1000, 2)
    granted("push-0-says-0", 0, 1, 0, 7, 1090)               # 0 means 90
    ledger(1000, 3)
    granted("push-0-says-1", 0, 2, 0, 7, 1001)
    refused("decide-11-says-1", 11)                          # one second after the push
    decided("decide-0-says-1", 0, 2, 7, 7, 1060, 9, REDIRECT)  # in the same second
    refused("decide-11-says-0", 11)                          # 90 seconds after the push
    ledger(1089, 3)
    decided("decide-0-says-0", 0, 1, 7, 7, 1149, 9, REDIRECT)  # 89 seconds after it
    ledger(1149, 3)
    swept("sweep-0-lifetimes", 0, 0, 2, 0)                   # both codes are expired
    ledger(1149, 4)
    granted("push-0-says-1-again", 0, 3, 0, 7, 1150)
    ledger(1149, 5)
    granted("push-0-says-0-again", 0, 4, 0, 7, 1239)
    swept("sweep-0-says-1-before")
    ledger(1150, 5)
    swept("sweep-0-says-1", 0, 1, 0, 0)
    ledger(1238, 5)
    swept("sweep-0-says-0-before")
    ledger(1239, 5)
    swept("sweep-0-says-0", 0, 1, 0, 0)


def second_uses():
    """Document 02, Q-3: 15 frees the record and sets the clock."""
    ledger(0, 1)
    started("start-second-use", 0)
    ledger(1000, 2)
    granted("push-0-second-use", 0, 1, 0, 4, 1599)
    ledger(1010, 2)
    decided("decide-0-second-use", 0, 1, 7, 4, 1070, 9, REDIRECT)
    ledger(1020, 2)
    granted("token-0-second-use", 0, 1, 7, 4, 1320)
    refused("token-14-stranger", 14)               # another client's code: 14, and nothing is freed
    ledger(1021, 2)
    granted("resource-0-second-use", 0, 1, 7, 4, 1320)
    ledger(1025, 2)
    refused("token-15", 15)                        # the record was not freed at redemption; now it is
    refused("resource-17-ended", 17)               # the token has no record any more
    refused("token-14-third-use", 14)
    ledger(1026, 2)
    swept("sweep-0-ended")
    ledger(1030, 3)
    granted("push-0-values-again", 0, 2, 0, 4, 1629)
    ledger(1031, 3)
    decided("decide-0-values-again", 0, 2, 7, 4, 1091, 9, REDIRECT)
    ledger(1032, 3)
    granted("token-0-values-again", 0, 2, 7, 4, 1332)
    ledger(1033, 3)
    refused("token-15-before-16", 15)              # another verifier, and a fresh value of zeros
    refused("resource-17-values-again", 17)
    ledger(1040, 4)
    granted("push-0-expiring", 0, 3, 0, 4, 1639)
    ledger(1041, 4)
    decided("decide-0-expiring", 0, 3, 7, 4, 1101, 9, REDIRECT)
    ledger(1042, 4)
    granted("token-0-expiring", 0, 3, 7, 4, 1342)
    ledger(1342, 4)
    refused("token-15-expired", 15)                # 15 comes before 11
    swept("sweep-0-expiring")                      # no sweep counts it


for play in (starts, unsound, pushing, deciding, redeeming, reading, sweeping, numbers, edges, lifetimes, second_uses):
    play()


def check():
    passed = failed = 0

    def hold(what, good):
        nonlocal passed, failed
        passed, failed = passed + bool(good), failed + (not good)
        if not good:
            print(f"FAILED: {what}")

    written = (PLAYS / "stdout").read_text().splitlines()
    hold(f"{len(written)} lines written, {len(lines)} expected", len(written) == len(lines))
    for i, line in enumerate(lines):
        hold(f"{line}\n   not: {''.join(written[i:i + 1])}", i < len(written) and written[i] == line)
    played = [line.split()[0] for line in (PLAYS / "stdin").read_text().splitlines()]
    hold("the script plays other calls", [name for name in played if call_of(name) in LISTS] == [name for name, _ in calls])
    for call, numbers_of in LISTS.items():
        given = {number for name, number in calls if call_of(name) == call}
        hold(f"{call} is played to {sorted(given)}, its list is {sorted(numbers_of)}", given == numbers_of)
    print(f"{passed} passed, {failed} failed")
    return 1 if failed else 0


def main(words):
    if words == ["print"]:
        print("\n".join(lines))
        return 0
    if words == ["check"]:
        return check()
    print(__doc__, file=sys.stderr)
    return 2


if __name__ == "__main__":
    sys.exit(main(sys.argv[1:]))
