#!/usr/bin/env python3
"""The lines that crates/vectors must write, made by Python's own SHA-256 and base64.

  tests/runs/vectors.py print   the expected lines
  tests/runs/vectors.py check   compare crates/vectors/stdout with them, and the published digests and text with both
"""
import base64
import hashlib
import pathlib
import sys

STDOUT = pathlib.Path(__file__).resolve().parents[2] / "crates" / "vectors" / "stdout"

# The digests that the documents print: the examples of FIPS 180-4, and RFC 7636, Appendix B.
PUBLISHED = {
    "fips-empty": "e3b0c44298fc1c149afbf4c8996fb92427ae41e4649b934ca495991b7852b855",
    "fips-abc": "ba7816bf8f01cfea414140de5dae2223b00361a396177a9cb410ff61f20015ad",
    "fips-448": "248d6a61d20638b8e5c026930c3e6039a33ce45964ff2167f6ecedd419db06c1",
    "fips-896": "cf5b16a778af8380036ce59e7b0492370b249b11e8f07a51afac45037afee9d1",
    "fips-million": "cdc76e5c9914fb9281a1c7e284d73e67f1809a48a497200e046d39ccc7112cd0",
    "rfc7636-verifier": bytes([
        19, 211, 30, 150, 26, 26, 216, 236, 47, 22, 177, 12, 76, 152, 46, 8,
        118, 168, 120, 173, 109, 241, 68, 86, 110, 225, 137, 74, 203, 112, 249, 195,
    ]).hex(),
}
# The texts that they print: the challenge of RFC 7636, Appendix B, for the verifier beside it.
VERIFIER = b"dBjftJeZ4CVP-mB92K27uhbUJU1p1r_wW1gFWFOEjXk"
PUBLISHED_TEXT = {"rfc7636-verifier": "E9Melhoa2OwvFrEMTJguCHaoeK1t8URWbuGJSstw-cM"}


def messages():
    yield "fips-empty", b""
    yield "fips-abc", b"abc"
    yield "fips-448", b"abcdbcdecdefdefgefghfghighijhijkijkljklmklmnlmnomnopnopq"
    yield "fips-896", (b"abcdefghbcdefghicdefghijdefghijkefghijklfghijklmghijklmn"
                       b"hijklmnoijklmnopjklmnopqklmnopqrlmnopqrsmnopqrstnopqrstu")
    yield "fips-million", b"a" * 1_000_000
    yield "rfc7636-verifier", VERIFIER
    for n in range(131):
        yield f"length-{n}", bytes((7 * i + 3) % 256 for i in range(n))


def columns(digest):
    """The texts of a digest, a column each: hexadecimal, and base64url without padding."""
    return [digest.hex(), base64.urlsafe_b64encode(digest).rstrip(b"=").decode()]


def expected():
    return [" ".join([label] + columns(hashlib.sha256(m).digest())) for label, m in messages()]


def check():
    passed = failed = 0

    def hold(what, good):
        nonlocal passed, failed
        if good:
            passed += 1
        else:
            failed += 1
            print(f"FAILED: {what}")

    written = STDOUT.read_text().splitlines()
    lines = expected()
    hold(f"{len(written)} lines written, {len(lines)} expected", len(written) == len(lines))
    for i, line in enumerate(lines):
        hold(line, i < len(written) and written[i] == line)
    texts = {label: words for label, *words in (line.split(" ") for line in written)}
    for column, published in enumerate((PUBLISHED, PUBLISHED_TEXT)):
        for label, text in published.items():
            hold(f"{label}, published", texts.get(label, [])[column:column + 1] == [text])
    print(f"{passed} passed, {failed} failed")
    return 1 if failed else 0


def main(words):
    if words == ["print"]:
        print("\n".join(expected()))
        return 0
    if words == ["check"]:
        return check()
    print(__doc__, file=sys.stderr)
    return 2


if __name__ == "__main__":
    sys.exit(main(sys.argv[1:]))
