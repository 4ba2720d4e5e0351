#!/usr/bin/env python3
"""Every sign of the definitions and contracts is explained in docs/READING.md, section "Signs".

  tests/lint/signs.py               read crates/*/specs and the contracts and ghosts of crates/*/src
  tests/lint/signs.py --self-test   take each row out of the page, and bring new signs in: each must be noticed

A sign is a run of characters that are no letters, digits or brackets; a word of the languages (WORDS); a name that a file takes from the kit
by a `use`; an infix name of the repository's own, as `◌when◌`. It is explained where the first cell of a row has it in backticks.
"""
import re
import sys

sys.dont_write_bytecode = True
from sources import ANTT_SKIP, RATTLE_SKIP, TOP, closing, tally, without  # noqa: E402

PAGE = "docs/READING.md"
WORDS = {"Type", "Unit", "where", "record", "data", "module", "infixr", "infixl", "abbrev", "unfoldable", "pub", "use", "as", "mod", "let", "in", "λ",
         "result", "now", "old", "new", "entry", "ghost_name", "Self", "ensures", "requires", "ghost", "case", "if", "do"}
SIGN = re.compile(r"[^\w\s(){}\[\]'◌\"`]+|λ|\b0x")
STRING = re.compile(r'"(?:\\.|[^"\\\n])*"')  # what a text says is no sign
WORD = re.compile(r"(?<![\w'])[A-Za-z][\w']*")
OWN = {path.name for path in TOP.glob("crates/*")}
USE = re.compile(r"^\s*(?:ghost |pub )?use\s+([^\s{;]+?)(?:\.\{([^}]*)\})?;?\s*$", re.M)


def clauses(text):
    """The contracts of a file of code, and the ghosts of its traits, conversions and structs, with the words before them."""
    for m in re.finditer(r"\b(?:(?:ensures|requires)(?: \w+)?|ghost \w+(?: =|:)) \{", text):
        yield text[m.start():closing(text, m.end() - 1)]


def taken(text):
    """What a file takes from the kit."""
    for module, listed in USE.findall(text):
        if listed and not (module.startswith("Rattle.") and module.split(".")[1] in OWN):
            yield from (re.split(r"\s+as\s+", name.strip())[0].strip("◌") for name in listed.split(",") if name.strip())


def signs(text):
    """The signs of a piece of a definition or of a contract."""
    yield from SIGN.findall(text)
    yield from (word for word in WORD.findall(text) if word in WORDS)


def found(files):
    """Each sign and a file that has it."""
    where = {}
    for path, text in files.items():
        antt = path.endswith(".antt")
        text = without(STRING, without(ANTT_SKIP, text)) if antt else without(RATTLE_SKIP, text)
        pieces = [USE.sub("", text)] if antt else list(clauses(text))
        for sign in [*taken(text), *(sign for piece in pieces for sign in signs(piece)), *(re.findall(r"(?<!\S)◌(\w+)◌(?= :)", text) if antt else [])]:
            where.setdefault(sign, path)
    return where


def explained(page):
    """The signs in the first cells of the section's tables."""
    section = re.search(r"^## Signs\n(.*?)(?=^## )", page, re.M | re.S).group(1)
    cells = [re.sub(r"\\\|", "|", m) for m in re.findall(r"^\| ((?:[^|\\]|\\.)*) \|", section, re.M)]
    spans = " ".join(span for cell in cells for span in re.findall(r"`([^`]*)`", cell))
    return set(SIGN.findall(spans)) | set(re.findall(r"[^\s(){},;.]+", spans))


def files():
    here = [*TOP.glob("crates/*/specs/**/*.antt"), *TOP.glob("crates/*/src/**/*.rt")]
    return {str(path.relative_to(TOP)): path.read_text(encoding="utf8") for path in sorted(here)}


def missing(sources, page):
    known = explained(page)
    return [f"{PAGE} does not explain `{sign}`, of {path}" for sign, path in found(sources).items() if sign not in known]


def self_test():
    sources, page = files(), (TOP / PAGE).read_text(encoding="utf8")
    results = [("the page as it is", not missing(sources, page))]
    rows = [row for row in re.findall(r"^\| `.*$", re.search(r"^## Signs\n(.*?)(?=^## )", page, re.M | re.S).group(1), re.M)]
    # a row none of whose signs stands in another row, and each of which is used, is missed
    for row in rows:
        rest = page.replace(row + "\n", "", 1)
        needed = explained(page) - explained(rest)
        if needed & set(found(sources)):
            results.append((f"without {row[:40]}", bool(missing(sources, rest))))
    for said, more in (("a new sign", "a : A\na = b ⊕ c\n"), ("a new word", "f x = case x\n"), ("a name of the kit", "use Rattle.std.specs.Prelude.{reverse}\n"), ("an infix", "◌upon◌ : A\n")):
        results.append((said, bool(missing(sources | {"crates/x/specs/X.antt": more}, page))))
    results.append(("a contract's sign", bool(missing(sources | {"crates/x/src/lib.rt": "fn f()\n    ensures last { ⟦ result ⟧ }\n"}, page))))
    for ghost in ("ghost from_gives = { λ x y. ⟦ y ⟧ };", "ghost width: { ⟦ ℕ ⟧ };", "ghost fits: { x ⟦ 1 },"):
        results.append((ghost, bool(missing(sources | {"crates/x/src/lib.rt": f"impl A for B {{\n    {ghost}\n}}\n"}, page))))
    wrong = [f"{said}: not as it should be" for said, good in results if not good]
    return tally(len(results) - len(wrong), wrong)


def main():
    sources, page = files(), (TOP / PAGE).read_text(encoding="utf8")
    wrong = missing(sources, page)
    return tally(len(found(sources)) - len(wrong), wrong)


if __name__ == "__main__":
    sys.exit(self_test() if sys.argv[1:] == ["--self-test"] else main())
