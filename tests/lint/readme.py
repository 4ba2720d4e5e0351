#!/usr/bin/env python3
"""What the pages show to be typed is there to be typed, and README's examples are the ones that are run and compiled.

  tests/lint/readme.py               read the indented blocks of README.md and docs/*.md
  tests/lint/readme.py --self-test   spoil each line of them in turn: each must be noticed

- README's worked example is what tools/grant prints: its lines stand in tests/data/grant.expected, in order.
- README's lines of Rust stand in tests/front/src/readme.rs, in order, which the gate compiles.
- Every other indented line is a command: its program is one of the kit's, of the system's or of this repository, the crates that it names
  are listed, and so are the sources of what it names in target/ or in a crate's out/.
"""
import re
import sys

sys.dont_write_bytecode = True
from sources import TOP, tally  # noqa: E402

README, EXAMPLE, RUST = "README.md", "tests/data/grant.expected", "tests/front/src/readme.rs"
SECTION, INDENT = "One grant, step by step", "    "
VERBS = {"check", "ci", "run", "lib", "try", "fmt", "must-fail"}
SYSTEM = {"cc", "cargo", "cd"}
# what is made, and the source that it is made of
MADE = [
    (r"crates/(\w+)/out/\1", "crates/{}/src/main.rt"),
    (r"target/staticlib/lib(\w+)\.a", "crates/{}/src/lib.rt"),
    (r"target/front/release/(\w+)", "tests/front/src/bin/{}.rs"),
    (r"target/keeper/release/(\w+)", "bindings/keeper/src/bin/{}.rs"),
]

spoilt = {}  # the self-test's pages


def read(path):
    return spoilt.get(path) or (TOP / path).read_text(encoding="utf8")


def blocks(page):
    """Each indented line of a page that is no fenced block's: its section, and the line without indent and remark."""
    section, fenced = "", False
    for line in read(page).split("\n"):
        fenced ^= line.startswith("```")
        section = line.lstrip("# ") if line.startswith("#") else section
        if line.startswith(INDENT) and not fenced:
            yield section, line[len(INDENT):]


def bare(line):
    """Without the remark at its end."""
    return re.sub(r"\s+(?://|#) .*$", "", line).strip()


def in_order(lines, path):
    """The first line that does not stand in the file behind the one before it."""
    there = iter([line.strip() for line in read(path).split("\n")])
    missing = [line for line in lines if line.strip() not in there]  # a search in an iterator goes on from the last find
    return f"{path} has not, at its place: {missing[0]}" if missing else None


def missing(word, after):
    """What a word of a command names that is not there."""
    for pattern, source in MADE:
        if made := re.fullmatch(pattern, word):
            return None if (TOP / source.format(made.group(1))).is_file() else f"nothing makes {word}"
    if after == "--example":
        return None if (TOP / f"bindings/rust/examples/{word}.rs").is_file() else f"no example {word}"
    if word.startswith("-I"):
        word = word[2:] + "/"
    word = word.lstrip("<")
    return None if "/" not in word or (TOP / word).exists() else f"no {word}"


def command_problem(words):
    crates = re.findall(r"^(\w+)[^#:\n]*:", read("crates.txt"), re.M)
    program = words[0]
    if program == "rt":
        if words[1] not in VERBS:
            return f"rt has no {words[1]}"
        unlisted = [word for word in words[2:] if not word.startswith(("-", "<")) and word not in crates]
        return f"no crate {unlisted[0]}" if unlisted else next(filter(None, (missing(word, None) for word in words[2:] if word.startswith("<"))), None)
    if program not in SYSTEM and missing(program, None):
        return missing(program, None)
    if program not in SYSTEM and "/" not in program:
        return f"no command {program}"
    found = [missing(word, after) for after, word in zip(words, words[1:]) if not re.match(r"-[^I]|\[", word)]
    return next(filter(None, found), None)


def results():
    shown = [line for section, line in blocks(README) if section == SECTION]
    yield (in_order(shown, EXAMPLE) if shown else f"{README} shows no example") or None
    rust = [bare(line) for _, line in blocks(README) if line.startswith("let ")]
    yield (in_order(rust, RUST) if rust else f"{README} shows no Rust") or None
    for page in [README, *(str(path.relative_to(TOP)) for path in sorted(TOP.glob("docs/*.md")))]:
        for section, line in blocks(page):
            if section != SECTION and not line.startswith("let "):
                for command in bare(line).split(" && "):
                    wrong = command_problem(command.split())
                    yield f"{page}: {command}: {wrong}" if wrong else None


def faults():
    """Each line shown, with a letter changed in its first and in its last word that names something."""
    for page in [README, *(str(path.relative_to(TOP)) for path in sorted(TOP.glob("docs/*.md")))]:
        text = read(page)
        for section, line in blocks(page):
            if section == SECTION:
                yield f"{page}: {line}", page, text.replace(INDENT + line, INDENT + line + "x", 1)
                continue
            shown = bare(line)
            for word in [word for word in shown.split() if line.startswith("let ") or re.search(r"[/.]|^\w+$", word)]:
                if word in ("let", "mut", "=", "run", "front.c", "&&"):
                    continue
                spoiled = shown.replace(word, word[:-1] + "Q", 1)
                yield f"{page}: {word} in {shown}", page, text.replace(shown, spoiled, 1)
    yield "a line of Rust left out", RUST, re.sub(r"\n[^\n]*ledger\.token[^\n]*", "", read(RUST))
    yield "the example left out", README, read(README).replace(f"## {SECTION}", "## Another")


def self_test():
    failures = [problem for problem in results() if problem]
    if failures:
        return tally(0, ["the pages are not in order before they are spoilt", *failures])
    passed = 0
    for said, page, text in list(faults()):
        spoilt[page] = text
        noticed = any(results())
        spoilt.clear()
        passed += noticed
        failures += [] if noticed else [f"was not noticed: {said}"]
    return tally(passed, failures)


def main():
    found = list(results())
    wrong = [problem for problem in found if problem]
    return tally(len(found) - len(wrong), wrong)


if __name__ == "__main__":
    sys.exit(self_test() if sys.argv[1:] == ["--self-test"] else main())
