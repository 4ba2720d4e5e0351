#!/usr/bin/env python3
"""Brings the names of this repository's own definitions and lemmas to snake case, in specs/, proofs/, clauses and must-fail edits.

usage: python3 tools/respell.py        once, at the top, right after the kit's port.py
       python3 tools/respell.py --map  prints each old name with its new one, and writes nothing

    numFrom, byte-set, is-sound, getD-digits  ->  num_from, byte_set, is_sound, get_or_digits

Types, facts and modules keep their capitals, names of the library and names that Rattle makes stay, strings and plain words of comments too.
A lemma that would fall together with the definition that it speaks of gets `_lem`.
"""
import os
import re
import sys

NAME = re.compile(r"[^\s(){}\[\].,;\"`]+")
# A comment is text: there only what stands between backticks, and what has a capital inside, is a name.
SPELLED = re.compile(r"[a-z◌][^\s(){}\[\].,;\"`]*")
DECLARED = re.compile(r"^(?:(?:abbrev|unfoldable|pub|ruleset|data|record) )*([^\s:{}()]+)(?: [^:]*)? : ")
FIELD = re.compile(r"^  (?:pub )?([^\s:{}()]+) : ")
WORD = re.compile(r"^[a-z][A-Za-z0-9'₀-₉_]*(?:-[A-Za-z0-9'₀-₉_]+)*$")
FROM_LIBRARY = re.compile(r"^(?:ghost )?use (?:Rattle\.std|borrow|native|mathlib|lib|Prim|antt|denote)\b[^{]*\{([^}]*)\}", re.M)

# Where a dashed name and a capitalised one are one word in snake case, the dashed one, a lemma, is told apart by `_lem`,
# but for these, which no file has beside the other one.
APART = {"answer-no", "is_free", "is-sound", "scope-fits", "rest-zero", "token-leaves", "too_short", "one_more", "second-use", "no-token"}
# The words that port.py had respelled before.
RESPELLED = {"push_at", "is_known", "read_back"}
# (crate, name): what stands there in place of the rule's answer.
THERE = {
    ("ledger_laws", "no-token"): "no_token_lem",
    ("history", "secondUse"): "is_second_use",
    ("cases", "bound-key"): "other_key",
    ("demands", "code-place"): "place_of_code",
    ("sha256", "lengthPut"): "with_length",
    ("sha256", "markPut"): "with_mark",
}


def snake(name):
    name = re.sub(r"^getD(?![a-z])", "get_or", name).replace("-", "_")
    return re.sub(r"(?<=[a-z0-9'₀-₉])([A-Z])", lambda m: "_" + m.group(1).lower(), name)


def odd(name):
    """Whether a name is one that the rule changes."""
    return bool(WORD.match(name)) and snake(name) != name


def read(path):
    with open(path, encoding="utf-8", newline="") as f:
        return f.read()


def files(ends):
    for folder, folders, names in os.walk("crates"):
        folders[:] = sorted(x for x in folders if x != "out")
        for name in sorted(names):
            if name.endswith(ends):
                yield os.path.join(folder, name)


def is_of_function(path):
    """Whether a file is the proof of one function: proofs/MODULE/FUNCTION/Proof.antt."""
    parts = path.split(os.sep)
    return parts[2] == "proofs" and len(parts) > 4


def library():
    found = set()
    for path in files((".antt", ".rt")):
        for listed in FROM_LIBRARY.findall(read(path)):
            for item in listed.split(","):
                found.update(item.strip().split(" as "))
    return found


def declared():
    """Names that specs/ and lemma files declare, with their fields."""
    found = set()
    for path in files(".antt"):
        for line in read(path).split("\n"):
            for form in (DECLARED, FIELD):
                m = form.match(line)
                if m and not line.startswith(("--", "use")) and (form is DECLARED or not is_of_function(path)):
                    found.add(m.group(1))
    return found


class Names:
    def __init__(self):
        self.library = library()
        self.declared = declared()
        by = {}
        for name in self.declared:
            by.setdefault(snake(name), set()).add(name)
        self.clash = {n for group in by.values() if len(group) > 1 for n in group if "-" in n or n in RESPELLED} - APART
        self.own = {n for n in self.declared if odd(n)} | (self.clash & RESPELLED)

    def of(self, crate, name, field=False):
        there = THERE.get((crate, name))
        if there and not (field and name.startswith("bound")):
            return there
        if name in self.clash and not field:
            return snake(name) + "_lem"
        return snake(name)


def turned(text, path, names):
    crate = path.split(os.sep)[1]
    alone = set()
    for listed in FROM_LIBRARY.findall(text):
        for item in listed.split(","):
            alone.update(item.strip().split(" as "))
    of_function, code, edit = is_of_function(path), path.endswith(".rt"), path.endswith(".edit")

    def name_in(m):
        name = m.group(0)
        behind_dot = m.start() > 0 and m.string[m.start() - 1] == "."
        if name in alone or (name in names.library and name not in names.declared):
            return name
        if (code or edit) and not (name in names.own and odd(name)):
            return name
        if of_function and name not in names.own:
            return name
        if name not in names.own and not odd(name):
            return name
        # A generated step has its function's name, so it never gets an ending.
        return names.of(crate, name, of_function and behind_dot)

    def in_comment(m):
        name = m.group(0)
        return names.of(crate, name) if name in names.own and "-" not in name and odd(name) else name

    def in_line(line):
        mark = "//" if code else "--"
        at = line.find(mark) if not edit else -1
        head, tail = (line, "") if at < 0 or (at and line[at - 1] not in " \t") else (line[:at], line[at:])
        if code and "-" in head and not head.startswith("ghost use"):
            head = SPELLED.sub(lambda m: name_in(m) if "-" not in m.group(0) else m.group(0), head)
        else:
            parts = re.split(r'("(?:[^"\\]|\\.)*")', head)
            head = "".join(p if p.startswith('"') and len(p) > 1 else NAME.sub(name_in, p) for p in parts)
        return head + NAME.sub(in_comment, tail)

    return "\n".join(in_line(line) for line in text.split("\n"))


def main(argv):
    names = Names()
    if argv == ["--map"]:
        for name in sorted(names.own):
            print(name, names.of("", name))
        return 0
    if argv:
        print(__doc__, file=sys.stderr)
        return 2
    for path in list(files((".antt", ".rt", ".edit"))):
        old = read(path)
        new = turned(old, path, names)
        if new != old:
            with open(path, "w", encoding="utf-8", newline="") as f:
                f.write(new)
            print(path)
    return 0


if __name__ == "__main__":
    sys.exit(main(sys.argv[1:]))
