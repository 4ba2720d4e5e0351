#!/usr/bin/env python3
"""No lifetime, limit or width of document 01 stands as a bare number outside the one place where it belongs.

  tests/lint/bare.py               look at crates/*/src and crates/*/specs
  tests/lint/bare.py --self-test   look at made-up crates, where the answer is known

Numbers count by their value, however they are spelled (1_000, 0x3e8, 599u64, 2 ^ 40, 1 << 40); comments and strings do not count.
- A number of PLAIN is a lifetime or limit in every crate. It stands in an associated constant or in specs/Limits.antt, of one crate.
- A number of WIDTHS is a limit or a width in every crate. It stands in an associated constant or in Limits.antt.
- OWN is what such a number is in a crate of the ground or in one file, and OPEN what waits for a name. An entry that nothing needs is a finding.
9 is looked for where redirects are told; 16 and 32 are not, since every id, key and value has that width. Proofs may compute with numbers.
"""
import re
import sys
import tempfile
from collections import defaultdict
from pathlib import Path

sys.dont_write_bytecode = True
from sources import ANTT_SKIP, RATTLE_SKIP, TOP, blank, closing, tally, without  # noqa: E402

PLAIN = {
    90: "lifetime of a reference",
    599: "the most that a client's record may say",
    60: "lifetime of a code",
    300: "lifetime of a token",
    600: "the profile's limit of a reference",
    2**40: "limit of the clock",
    2**41: "limit of an expiry",
    2**64 - 1: "last grant number",
    200: "most slots",
    288: "least ledger",
    51232: "greatest ledger",
    640: "most digits of a frame",
    320: "most bytes of a frame",
}
WIDTHS = {
    43: "a challenge, the shortest verifier",
    64: "the longest redirect, a client's record, the most clients",
    128: "the longest verifier",
    256: "a record",
}
REDIRECT = {9: "the shortest redirect"}  # elsewhere 9 is a number returned, or a place in a frame
TELLS_REDIRECTS = {"forms", "ledger"}
# What a number is in a crate that knows nothing of ledgers, or in one file.
OWN = {
    ("octets", 256): "the values of a byte, in which numbers are read and written",
    ("forms", 90): "0x5A, the letter Z",
    ("crates/history/specs/Example.antt", 90): "0x5A, a Z in a challenge",
    ("sha256", 64): "the bytes of a block, the words of a schedule, the rounds",
    ("sha256", 128): "0x80, the mark behind a message",
    ("texts", 64): "the letters of base64url",
    ("texts", 256): "the values of a byte",
    ("crates/ledger/specs/Fields.antt", 128): "where the value ends and the token begins",
    ("crates/ledger/specs/Fields.antt", 256): "where the redirect ends",
    ("crates/clients/specs/Fields.antt", 64): "where the last ten bytes end",
}
# Places that wait for a name, each with the name that there is or should be.
OPEN = {
}
LIMITS = "Limits.antt"
# The edges P1 to P12, the verdicts and the plays are written with the paper's own numbers, so that a wrong limit shows.
EXEMPT = {"cases/specs", "plays/src", "verdicts/src"}

# a name may hold digits behind its letters, as blocks_55 does
LITERAL = r"(?<!\w)(0x[0-9a-fA-F_]+|0b[01_]+|0o[0-7_]+|[0-9][0-9_]*?)_?(?:[ui](?:8|16|32|64|size))?(?!\w)"
NUMBER = re.compile(LITERAL)
POWER = re.compile(LITERAL + r"\s*(\^|<<)\s*" + LITERAL + r"(\s*-\s*1(?!\w))?")
IMPL = re.compile(r"^\s*impl\b(?:<[^>]*>)?\s+(\w+)", re.M)
CONST = re.compile(r"\bconst\s+(\w+)\s*:(?:\[[^\]]*\]|[^=;\[])*=((?:\[[^\]]*\]|[^;\[])*);")
MOST_WORD = re.compile(r"\bu64::MAX\b")
# the remainder that a byte holds and a byte's bound, not a record's size
BYTE = re.compile(r"%\s*256(?!\w)|\(\w+ < 256\)|\b(?:get_or \w+ \w+ 0|slice_index \w+ \w+) < 256(?!\w)")


def impl_blocks(text):
    """Each impl block as its type's name, start and end."""
    for head in IMPL.finditer(text):
        at = text.index("{", head.end())
        yield head.group(1), at, closing(text, at)


def cut_constants(text):
    """The text without its associated constants, and those as (Type::NAME, value's text)."""
    constants = []
    for kind, start, end in list(impl_blocks(text)):
        for const in CONST.finditer(text, start, end):
            constants.append((f"{kind}::{const.group(1)}", const.group(2)))
            text = text[:const.start()] + blank(const.group()) + text[const.end():]
    return text, constants


def value(literal):
    return int(literal.replace("_", ""), 0) if literal[:2] in ("0x", "0b", "0o") else int(literal.replace("_", ""))


def numbers(text):
    """Each number of the text with its offset; a power of two literals counts as its value alone."""
    for m in POWER.finditer(text):
        base, exponent = value(m.group(1)), min(value(m.group(3)), 64)
        power = base**exponent if m.group(2) == "^" else base << exponent
        yield power - (1 if m.group(4) else 0), m.start()
    for m in NUMBER.finditer(without(POWER, text)):
        yield value(m.group(1)), m.start()
    for m in MOST_WORD.finditer(text):
        yield 2**64 - 1, m.start()


def look(file, crate, homes):
    """What stands bare in one file, as (path, line, number); homes gathers where each number of PLAIN has its place."""
    path = f"crates/{file.relative_to(crate.parent)}"
    text = file.read_text(encoding="utf8")
    if file.suffix == ".rt":
        text, constants = cut_constants(without(RATTLE_SKIP, text))
        for name, given in constants:
            for number, _ in numbers(given):
                homes["src", number].add((crate.name, name))
    else:
        text = without(ANTT_SKIP, text)
        if file.name == LIMITS:
            for number, _ in numbers(text):
                homes["specs", number].add((crate.name, LIMITS))
            return set()
    wanted = PLAIN | WIDTHS | (REDIRECT if crate.name in TELLS_REDIRECTS else {})
    return {(path, text.count("\n", 0, at) + 1, number) for number, at in numbers(without(BYTE, text)) if number in wanted}


def check(top, own, waiting):
    """The findings by crate, and those on numbers that have a place in two crates, and on entries that nothing needs."""
    homes, by_crate, needed = defaultdict(set), {}, set()
    crates = sorted(p for p in (top / "crates").glob("*") if p.is_dir())
    for crate in crates:
        files = [f for part, end in (("src", "rt"), ("specs", "antt")) if f"{crate.name}/{part}" not in EXEMPT for f in sorted((crate / part).rglob(f"*.{end}"))]
        found = sorted(finding for f in files for finding in look(f, crate, homes))
        needed |= {key for path, _, number in found for key in ((crate.name, number), (path, number))}
        bare = [(path, line, number) for path, line, number in found if not {(crate.name, number), (path, number)} & (own.keys() | waiting.keys())]
        by_crate[crate.name] = [f"{path}:{line}: {number} stands bare ({(PLAIN | WIDTHS | REDIRECT)[number]})" for path, line, number in bare]
    twice = []
    for (part, number), places in sorted(homes.items()):
        if number in PLAIN and len({crate for crate, _ in places}) > 1:
            twice.append(f"{number} ({PLAIN[number]}) has a place in {part}/ of more than one crate: " + ", ".join(f"{c} {n}" for c, n in sorted(places)))
    there = {crate.name for crate in crates}
    stale = [key for key in own | waiting if key not in needed and ("/" in key[0] or key[0] in there)]
    return by_crate, twice, [f"{where} has no {number} that needs an entry" for where, number in stale]


def report(results):
    """Prints what failed and the tally; answers the status."""
    return tally(sum(not findings for _, findings in results), [f"{name}: FAILED\n  " + "\n  ".join(findings) for name, findings in results if findings])


# Made-up files of one tree, each with the numbers that are to be found in it.
SAMPLES = [
    ("desk/src/a.rt", "fn f(t: u64) -> u64 { t + 599 }", [599]),
    ("desk/src/b.rt", "const LIFE: u64 = 300;\n", [300]),
    ("desk/src/c.rt", "// 599\n/* 300\n600 */ fn f() -> &[u8] { b\"https://599\" } fn g() -> u64 { 60 }", [60]),
    ("desk/src/d.rt", "fn f() -> u64 { 0x100_0000_0000 } fn g() -> u64 { 1 << 41 } fn h() -> u64 { 51_232u64 }", [2**40, 2**41, 51232]),
    ("desk/src/e.rt", "fn f() -> u64 { 0xffff_ffff_ffff_ffff }\nfn g() -> u64 { u64::MAX }", [2**64 - 1, 2**64 - 1]),
    ("desk/src/f.rt", "fn f(a: [u8; 43]) -> u8 {\n let b = [0u8; 64];\n let c = &b[0..64]; c[9] }", [43, 64, 64]),
    ("desk/src/g.rt", "fn f(a: [u8; 288]) -> u64 { 1599 + 5990 + 6_000 }", [288]),
    ("decide/src/lib.rt", "fn f(time: u64) -> u64 {\n    time + 60\n}", [60]),
    ("token/src/lib.rt", "fn f(time: u64, v: &[u8]) -> bool {\n    v.len() < 43 || 128 < v.len()\n}", [43, 128]),
    ("resource/src/lib.rt", "fn f(k: usize, t: u64) -> usize { 32 + k * 0x100 + t + 300 }", [256, 300]),
    ("history/specs/Demand3.antt", "young = t < u + 300\nBytes xs = (i : ℕ) → get_or xs i 0 < 256\nOthers xs = (i : ℕ) → slice_index xs i < 256\nlong = n < 256", [300, 256]),
    ("newcomer/specs/Any.antt", "a = 60\nb = 43\nc = 64\nd = 128\ne = 256\nf = 300\ng = 599\nh = 32 + 16\ni = 90", [60, 43, 64, 128, 256, 300, 599, 90]),
    ("ledger/src/a.rt", "impl Code {\n    pub const LIFETIME: u64 = 60;\n    pub fn f() -> u64 { 60 }\n}\nfn g() -> u64 { 9 }", [60, 9]),
    ("ledger/src/b.rt", "impl Token {\n    const LIFETIME: u64 = 300;\n}\nimpl Clock {\n    pub const LIMIT: u64 = 0x100_0000_0000;\n}", []),
    ("ledger/src/c.rt", "fn f(r: &[u8])\n    requires { length r.now ≡ 256 }\n{ }", [256]),
    ("ledger/src/d.rt", "fn f(n: usize) -> u8 { (n % 256) as u8 }\nfn g(k: usize) -> usize { k * 256 }", [256]),
    ("ledger/src/e.rt", "fn f(n: u8) -> usize\n    ensures { (result ≡ n) × (result < 256) }\nfn g(s: &[u8])\n    requires { length s.now < 256 }", [256]),
    ("clients/src/a.rt", "impl Client {\n    const LIFE: u64 = 300;\n    const IDS: [u8; 64] = [0; 64];\n}\nfn f(k: usize) -> usize { 64 * k }", [64]),
    ("frames/src/a.rt", "fn f(a: [u8; Redirect::MOST]) -> [u8; 64] { a }", []),
    ("frames/src/b.rt", "fn f(a: [u8; Redirect::MOST]) -> [u8; 64] { a }", [64]),
    ("sha256/src/a.rt", "fn f(w: [u32; 64], i: usize) -> u32 { if i < 64 { w[i] } else { 0x80 } }\nfn g(t: u64) -> u64 { t + 43 + 60 }", [43, 60]),
    ("octets/specs/Numbers.antt", "num_from acc (x ∷ xs) = num_from (acc * 256 + x) xs\nwide = 64", [64]),
    ("ledger/specs/Limits.antt", "abbrev pub clock_limit : ℕ\nclock_limit = 2 ^ 40\ncode_life = 60", []),
    ("ledger/specs/Fields.antt", "token r = part r 128 32\nchallenge r = part r 48 43\nlife = 599", [43, 599]),
    ("ledger/specs/Sound.antt", "-- below 2^40, 43 characters\npub blocks_43 : ltb t (2 ^ 41) -- 599\nlast = 2 ^ 64 - 1\nlow = n % 2 ^ 64", [2**41, 2**64 - 1]),
    ("ledger/specs/Text.antt", "long r = length r ≡ 43", [43]),
    ("cases/specs/Edges.antt", "p1 = start (blank 288)", []),
]
SAMPLE_OWN = {("sha256", 64): "", ("sha256", 128): "", ("octets", 256): "", ("sha256", 256): "", ("gone", 64): "", ("crates/ledger/specs/Fields.antt", 128): ""}
SAMPLE_OPEN = {("crates/frames/src/a.rt", 64): "", ("crates/frames/src/a.rt", 43): ""}
TWICE = ["300 (lifetime of a token) has a place in src/ of more than one crate: clients Client::LIFE, ledger Token::LIFETIME"]
STALE = ["sha256 has no 256 that needs an entry", "crates/frames/src/a.rt has no 43 that needs an entry"]


def self_test():
    with tempfile.TemporaryDirectory() as room:
        for name, text, _ in SAMPLES:
            Path(room, "crates", name).parent.mkdir(parents=True, exist_ok=True)
            Path(room, "crates", name).write_text(text, encoding="utf8")
        by_crate, twice, stale = check(Path(room), SAMPLE_OWN, SAMPLE_OPEN)
    found = defaultdict(list)
    for finding in sum(by_crate.values(), []):
        found[finding[len("crates/"):].split(":")[0]].append(int(finding.split()[1]))
    results = [(name, [] if sorted(found[name]) == sorted(wanted) else [f"found {found[name]}, wanted {wanted}"]) for name, _, wanted in SAMPLES]
    results += [(name, [] if said == wanted else [f"found {said}"]) for name, said, wanted in (("two places", twice, TWICE), ("stale entries", stale, STALE))]
    return report(results)


def main():
    crates, doubled, stale = check(TOP, OWN, OPEN)
    return report(list(crates.items()) + [("one place for each limit", doubled), ("no entry that nothing needs", stale)])


if __name__ == "__main__":
    sys.exit(self_test() if sys.argv[1:] == ["--self-test"] else main())
