#!/usr/bin/env python3
"""What the pages point to is there: every file and name that is cited, every link, a statement in every row of PROMISES.

  tests/lint/names.py               read README.md, docs/*.md and docs/landings/*.md
  tests/lint/names.py --self-test   spoil the pages in one way at a time: each must be noticed; and look for names in a made-up source

- A citation is `path/to/file: name, name`, in backticks; each name counts as one test. A path alone, `crates/NAME/src`, must exist.
  In .rt a name is a function, struct, enum, trait, constant or case (`Type::name` is a name of that type's file, in an impl of a trait too:
  `u8::from`); in .antt a definition, law, record, field, data type or ruleset; in other files a string that occurs. Names, no lines: `line 12`
  behind a citation is a finding.
- A block fenced as ```antt path``` stands in that file, word for word.
- A link, [text](path#heading), leads to a file or folder, and to a heading of that page.
- Every row of docs/PROMISES.md is at most LONGEST characters long, has all its cells, is held in one of the ways of HELD, and cites what holds it, or sends the reader to a
  heading of the page or to a page of docs/. What is trusted, decided or not built needs no statement; what is decided names entries that
  DECISIONS.md has.
Landing notes speak of the tree as it was: their links must lead somewhere, their citations need not.
"""
import functools
import re
import sys

sys.dont_write_bytecode = True
from sources import ANTT_SKIP, BLOCK, CITATION, RATTLE_COMMENT, TOP, closing, names, tally, without  # noqa: E402

PROMISES, DECISIONS = "docs/PROMISES.md", "docs/DECISIONS.md"
LINE = re.compile(CITATION.pattern + r",? +lines? \d+")
LINK = re.compile(r"\[[^\]]*\]\(([^)\s]+)\)")
ROW = re.compile(r"^\|(.*)\|$", re.M)
HEADING = re.compile(r"^#+ +(.+?) *$", re.M)
LONGEST = 420
HELD = re.compile(r"proved|run|trusted|decided|not built|see there")
NEEDS_NONE = re.compile(r"^(?:trusted|decided|not built)")
SEE = re.compile(r'see "([^"]+)"')
# Rows that are held by what they say, and cite nothing.
BY_WORDS = {
    'Time is whole seconds and comes in as "now"',
    "At every moment",
    '"A body reader remembers the lent body and the place reached", "lends a small tally that is raised in place" (02)',
    '"If a form cannot be had today, docs/DECISIONS.md states which form and what takes its place"',
}

spoilt = {}  # the self-test's pages


def read(path):
    return spoilt.get(path) or (TOP / path).read_text(encoding="utf8")


def in_rattle(text, name):
    text = without(RATTLE_COMMENT, text)
    kind, _, word = name.rpartition("::")
    blocks = re.finditer(rf"\b(impl|enum|trait)\b(?:<[^>]*>)?\s+(?:[^{{;]+ for )?{kind or '[A-Za-z]+'}(?:<[^>{{]*>)?\s*(?::[^{{;]*)?\{{", text)
    bodies = [(m.group(1), text[m.end():closing(text, m.end() - 1) - 1]) for m in blocks]
    if any(re.search(rf"^\s*{re.escape(word)}\b\s*(?:[({{,=]|$)", body, re.M) for block, body in bodies if block == "enum"):
        return True
    places = [body for block, body in bodies if block != "enum"] if kind else [text]
    return any(re.search(rf"\b(?:fn|struct|enum|const|trait)\s+{re.escape(word)}\b", place) for place in places)


def in_antt(text, name):
    text, word = without(ANTT_SKIP, text), re.escape(name)
    signature = rf"^\s*(?:(?:abbrev|unfoldable|pub)\s+)*{word}(?:\s+\{{[^}}]*\}})*\s*:(?=\s|$)"
    declared = rf"^\s*(?:pub\s+)?(?:record|data|ruleset)\s+{word}(?=\s|$)"
    return bool(re.search(signature, text, re.M) or re.search(declared, text, re.M))


@functools.cache
def defines(file, name):
    text = file.read_text(encoding="utf8")
    return {".rt": in_rattle, ".antt": in_antt}.get(file.suffix, str.__contains__)(text, name)


def citations(page):
    """For each name that the page cites what is wrong with it, or None."""
    text = read(page)
    for path, block in BLOCK.findall(text):
        file = TOP / path
        yield None if file.is_file() and block in file.read_text(encoding="utf8") else f"{page}: a block is not in {path}"
    for number, line in enumerate(text.split("\n"), 1):
        for path, cited in CITATION.findall(line):
            file = TOP / path
            for name in names(cited) or [None]:
                if not (file.is_file() if name else file.exists()):
                    yield f"{page}:{number}: no {path}"
                elif name and not defines(file, name):
                    yield f"{page}:{number}: {path} defines no {name}"
                else:
                    yield None
        for found in LINE.finditer(line):
            yield f"{page}:{number}: a line is cited: {found.group()}"


def slug(heading):
    """The anchor of a heading."""
    return re.sub(r"[^\w\- ]", "", heading.lower()).replace(" ", "-")


def links(page):
    for number, line in enumerate(read(page).split("\n"), 1):
        for link in LINK.findall(line):
            path, _, anchor = link.partition("#")
            if re.match(r"\w+:", link):
                continue  # another place than this repository
            target = (TOP / page).parent / path if path else TOP / page
            if not target.resolve().exists():
                yield f"{page}:{number}: a dead link, {link}"
            elif anchor and anchor not in {slug(heading) for heading in HEADING.findall(read(str(target.resolve().relative_to(TOP))))}:
                yield f"{page}:{number}: no such heading, {link}"
            else:
                yield None


def cells(row):
    """The cells of a row; a bar in backticks parts nothing."""
    kept = re.sub(r"`[^`]*`", lambda m: m.group().replace("|", "\0"), row)
    return [cell.strip().replace("\0", "|") for cell in kept.split("|")]


def tables(text):
    """Each row below a head, as the head's cells and its own."""
    head = None
    for line in text.split("\n"):
        m = ROW.match(line)
        if not m:
            head = None
        elif head is None:
            head = cells(m.group(1))
        elif not re.fullmatch(r"[\s|:-]+", m.group(1)):
            yield head, cells(m.group(1))


def ways_of(head, row):
    """How a row is held; where the table does not say, it is proved."""
    return [part.strip() for part in re.split(r"[;,](?![^(]*\))", dict(zip(head, row)).get("Held", "proved"))]


def needs_none(head, row):
    """Nothing needs to be stated: it is trusted, decided or not built, or held by its words."""
    return all(NEEDS_NONE.match(way) for way in ways_of(head, row)) or row[0] in BY_WORDS


def row_problem(head, row, text):
    if len(row) != len(head) or not all(row):
        return "a cell is missing"
    if len(" | ".join(row)) > LONGEST:
        return f"is longer than {LONGEST} characters: split it"
    ways = ways_of(head, row)
    if not any(HELD.match(way) for way in ways):
        return f"is held by {', '.join(ways)!r}"
    decided = {int(n) for part in ways if part.startswith("decided") for n in re.findall(r"\d+", part)}
    lacking = decided and decided - {int(n) for n in re.findall(r"^#+ (\d+)\.", read(DECISIONS), re.M)}
    if lacking:
        return f"names decisions that are not there: {sorted(lacking)}"
    if needs_none(head, row):
        return None
    sent = SEE.findall(" ".join(row[1:]))
    unknown = [heading for heading in sent if heading not in HEADING.findall(text)]
    if unknown:
        return f"sends to no heading: {unknown[0]}"
    if row[1] == "-" or not (sent or any(CITATION.search(part) for part in row[1:])):
        return "has no statement"
    return None


def promises():
    text = read(PROMISES)
    found = [(row[0], row_problem(head, row, text)) for head, row in tables(text)]
    yield from (f"{PROMISES}: {sentence!r} {wrong}" if wrong else None for sentence, wrong in found)
    yield from (f"{PROMISES} has no row {words!r}" for words in sorted(BY_WORDS - {sentence for sentence, _ in found}))


def pages():
    here = [str(path.relative_to(TOP)) for path in sorted(TOP.glob("docs/*.md"))]
    return ["README.md", *here], [str(path.relative_to(TOP)) for path in sorted(TOP.glob("docs/landings/*.md"))]


def of_page(page):
    """For each thing that a page points to what is wrong with it, or None."""
    if page == PROMISES:
        yield from promises()
    yield from links(page)
    if page in pages()[0]:
        yield from list(citations(page)) or [f"{page} cites nothing"]


def results():
    return [problem for page in sum(pages(), []) for problem in of_page(page)]


# The self-test.

def faults():
    """Each fault as what it is, the page, and its spoilt text."""
    standing, landings = pages()
    for page in standing:
        text = read(page)
        path, cited = next((pair for pair in CITATION.findall(text) if pair[1]), (None, None))
        if path:
            name = names(cited)[0]
            where = text.index(f"`{path}: {name}") + len(f"`{path}: ")
            yield f"{page}: another name", page, text[:where] + "no-such-" + text[where:]
            yield f"{page}: another file", page, text.replace(f"`{path}:", f"`{path}x:", 1)
            yield f"{page}: the name is not cited", page, text.replace(f"`{path}: {cited}`", f"`{path}: {cited}, no-such-name`", 1)
            yield f"{page}: a line is cited", page, text.replace(f"`{path}: {cited}`", f"`{path}: {cited}` line 12", 1)
            yield f"{page}: a line is cited", page, text.replace(f"`{path}: {cited}`", f"`{path}:12`", 1)
        for number, block in enumerate(BLOCK.findall(text)):
            yield f"{page}: block {number} says something else", page, text.replace(block[1], block[1].replace("→", "←").replace("when", "unless"), 1)
    for page in standing + landings:
        text = read(page)
        yield f"{page}: a link to no file", page, text + "\n[there](no-such-file.md)\n"
        yield f"{page}: a link to no heading", page, text + "\n[there](#no-such-heading)\n"
        for link in LINK.findall(text):
            yield f"{page}: {link} leads elsewhere", page, text.replace(f"]({link})", f"]({link}x)", 1)
    text = read(PROMISES)
    for head, row in tables(text):
        whole = next(line for line in text.split("\n") if ROW.match(line) and cells(line[1:-1]) == row)
        lost = [row[0]] + ["-" if name != "Held" else cell for name, cell in list(zip(head, row))[1:]]
        if not needs_none(head, row):
            yield f"{PROMISES}: {row[0]!r} loses its statement", PROMISES, text.replace(whole, "| " + " | ".join(lost) + " |", 1)
    row = next(line for line in text.split("\n") if line.endswith("| proved |"))
    yield "a row with a cell less", PROMISES, text.replace(row, row.replace("| proved |", "|"), 1)
    yield "a row that is too long", PROMISES, text.replace(row, row.replace("| proved |", f"| proved; {'see there, ' * 40}|"), 1)
    yield "a row with an empty cell", PROMISES, text.replace(row, row.replace("| proved |", "| |"), 1)
    yield "a row held by nothing known", PROMISES, text.replace(row, row.replace("| proved |", "| surely |"), 1)
    yield "a decision that is not there", PROMISES, text.replace(row, row.replace("| proved |", "| decided (999) |"), 1)
    seen = SEE.search(text)
    yield "a heading that is not there", PROMISES, text.replace(seen.group(), 'see "Nowhere"', 1)


SAMPLE = """pub struct Free { at: u8 }
pub enum State {
    Pushed = 1,
    Redeemed = 2,
}
impl From<State> for u8 {
    fn from(s: State) -> u8 { s as u8 }
}
impl<'a> Held<'a> {
    pub fn first<F: Fn(u8) -> u8>(f: F) -> u8 { 1 }
}
pub trait Number: Copy {
    fn read(s: &[u8]) -> Self;
}
impl Number for u16 {
    fn low(s: &[u8]) -> u16 { 1 }
}
"""
DEFINED = {"Free", "State", "State::Pushed", "State::Redeemed", "u8::from", "Held::first", "first", "Number", "Number::read", "u16::low"}
UNDEFINED = {"Pushed::from", "State::from", "State::Free", "u8::read", "u16::read", "Number::low", "Held::read", "Free::at", "u8::low"}


def self_test():
    failures = [problem for problem in results() if problem]
    if failures:
        return tally(0, ["the pages are not in order before they are spoilt", *failures])
    failures = [f"the sample does not define {name}" for name in sorted(DEFINED) if not in_rattle(SAMPLE, name)]
    failures += [f"the sample defines {name}" for name in sorted(UNDEFINED) if in_rattle(SAMPLE, name)]
    passed = len(DEFINED | UNDEFINED) - len(failures)
    for said, page, text in list(faults()):
        spoilt[page] = text
        noticed = any(of_page(page))
        spoilt.clear()
        passed += noticed
        failures += [] if noticed else [f"was not noticed: {said}"]
    return tally(passed, failures)


def main():
    found = list(results())
    wrong = [problem for problem in found if problem]
    return tally(len(found) - len(wrong), wrong)


if __name__ == "__main__":
    sys.exit(self_test() if sys.argv[1:] == ["--self-test"] else main())
