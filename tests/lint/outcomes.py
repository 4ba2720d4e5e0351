#!/usr/bin/env python3
"""Every public function's contract settles its outcome, and docs/OUTCOMES.md lists it so.

  tests/lint/outcomes.py check         one test a function: its form, and its row on the page
  tests/lint/outcomes.py write         write the table of the page anew
  tests/lint/outcomes.py --self-test   spoil each function in turn (contract dropped, `requires` added, row dropped), add a function without
                                       a row, let each definition that a contract reads through lose a field, and look at contracts that leave
                                       something open: each must be noticed

A function is public where a caller of its crate can name it: `pub fn` in lib.rt or in a module that lib.rt makes public, each function of a
public trait there, and `from` of an `impl From` there, whose contract is from_gives; and wherever it stands, where it is exported to C. Programs
have none.
The forms, x being a buffer lent to be written:
  value   result ≡ ..                             slice   result.now ≡ ..
  bytes   x.new ≡ ..                              both    (result ≡ ..) × (x.new ≡ ..)
  fields  (result.a ≡ ..) × (result.b ≡ ..)       call    k result x.new ≡ .., k putting each of its arguments, or each field of one, into a record
On the left stand all that is returned and every buffer lent to be written; on the right neither stands. A buffer as it was at entry may stand
on both sides. There is no `requires`.
In a trait a ghost member may stand before result, as in `value result ≡ ..`, where every impl gives it as the value itself: `λ n. n`, or the
items of a type that is an array.
A second `ensures` only narrows what is allowed, so one of them has to have a form, or the plain equations of all of them together.
"""
import re
import sys

sys.dont_write_bytecode = True
from sources import RATTLE_COMMENT, TOP, closing, tally, without  # noqa: E402

PAGE = "docs/OUTCOMES.md"
BEGIN, END = "<!-- functions -->", "<!-- end -->"
EXIT = re.compile(r"(?<![\w.])(\w+)\.new\b")
ENTRY = re.compile(r"(?<![\w.])(?!result\b)\w+\.(?:old|now|entry)\b")  # known before the call, on whichever side it stands
RESULT = re.compile(r"(?<![\w.])result(?!\w)")
GENERICS = r"(?:<(?:->|[^<>]|<[^<>]*>)*>)?"
FUNCTION = re.compile(rf'\b(pub )?(extern "C" )?fn (\w+){GENERICS}\s*\(')
IMPL = re.compile(rf"\bimpl{GENERICS}\s+(\w+){GENERICS}\s*\{{")
TRAIT = re.compile(r"\bpub trait\s+(\w+)[^{;]*\{")
FROM = re.compile(r"\bimpl From<(?P<value>[^{]+)> for (?P<kind>\w+)\s*\{")
GIVES = re.compile(r"ghost from_gives = (?P<open>\{) λ (?P<value>\w+) (?P<result>\w+)\. ")
LENT = re.compile(r"(\w+)\s*:\s*&(?:'\w+ )?mut\b|&(?:'\w+ )?mut (self)\b")
IMPORT = re.compile(r"\buse\s+Rattle\.(?!std\b)(\w+)\.specs\.([\w.]+)\.\{([^}]*)\}")

spoilt = {}  # the self-test's files


def read(path):
    return spoilt.get(path) or (TOP / path).read_text(encoding="utf8")


def functions(text):
    """Each public or exported function: name with its type, whether it is exported, parameters, returned type, clauses, and where these stand."""
    impls = [(m.group(1), m.end(), closing(text, m.end() - 1)) for m in IMPL.finditer(text)]
    traits = [(m.group(1), m.end(), closing(text, m.end() - 1)) for m in TRAIT.finditer(text)]
    for m in FUNCTION.finditer(text):
        if not m.group(1) and not any(a <= m.start() < b for _, a, b in traits):
            continue
        end = closing(text, m.end() - 1)
        at, clauses = end, {"requires": [], "ensures": []}
        returned = re.match(r"\s*->\s*([^\n{]+?)\s*(?=\n|\{|requires|ensures)", text[at:])
        at += returned.end() if returned else 0
        begin = at
        while clause := re.match(r"\s*(requires|ensures)(?:\s+\w+)?\s*\{", text[at:]):
            stop = closing(text, at + clause.end() - 1)
            clauses[clause.group(1)] += [text[at + clause.end():stop - 1]]
            at = stop
        name = "::".join([kind for kind, a, b in impls + traits if a <= m.start() < b] + [m.group(3)])
        yield name, bool(m.group(2)), text[m.end():end - 1], returned.group(1) if returned else None, clauses, (begin, at)
    yield from conversions(text)


def conversions(text):
    """Each `impl From`, as the function that it is: what from_gives says of the value and the result is its contract."""
    for m in FROM.finditer(text):
        end = closing(text, m.end() - 1)
        gives = GIVES.search(text, m.end(), end)
        begin = gives.start() if gives else m.end()
        stop = closing(text, gives.start("open")) if gives else begin
        said = [re.sub(rf"(?<![\w.]){gives['result']}(?!\w)", "result", text[gives.end():stop - 1])] if gives else []
        asked = re.findall(r"\brequires\b", text[m.end():end])
        yield f"{m['kind']}::from", False, f"{gives['value']}: {m['value']}" if gives else "", m["kind"], {"requires": asked, "ensures": said}, (begin, stop)


def crates():
    for line in read("crates.txt").splitlines():
        words = line.partition("#")[0].partition(":")[0].split()  # the name, and the word staticlib behind it
        yield from words[:1]


def files(crate):
    """Each source of a crate, and whether another crate can name what is public in it."""
    root = f"crates/{crate}/src"
    lib = f"{root}/lib.rt"
    named = {"lib"} | set(re.findall(r"\bpub mod (\w+);", without(RATTLE_COMMENT, read(lib)))) if (TOP / lib).is_file() else set()
    ordered = ([lib] if named else []) + [f"{root}/{name}.rt" for name in re.findall(r"\bmod (\w+);", read(lib) if named else "")]
    rest = [str(path.relative_to(TOP)) for path in sorted((TOP / root).rglob("*.rt"))]
    for path in dict.fromkeys(ordered + rest):
        yield path, path[len(root) + 1:-len(".rt")] in named


def origin(path, head):
    """The file of the definition that a name means in a source: its own, or the one that is imported."""
    text = read(path)
    for crate, module, items in IMPORT.findall(text):
        for item in items.split(","):
            name, _, local = item.strip().partition(" as ")
            if (local or name) == head:
                return f"crates/{crate}/specs/{module.replace('.', '/')}.antt", name
    return path, head


def definition(path, head):
    """A definition that makes a record of its arguments, or hands them to another that does: its file, and the match."""
    path, name = origin(path, head)
    body = r"record \{(?P<fields>[^}]*)\}|(?P<other>\w+)(?P<given>(?: (?:\w+|\[\]))+)$"
    found = re.search(rf"^{re.escape(name)}(?P<arguments>(?: \w+)+) =\s*(?:{body})", read(path), re.M) if path.endswith(".antt") else None
    return path, found


def keeps_all(path, head):
    """The definition puts each of its arguments, or each field of its one argument, into a field of a record."""
    path, found = definition(path, head)
    if not found:
        return False
    arguments = found["arguments"].split()
    if found["other"]:
        return set(arguments) <= set(found["given"].split()) and keeps_all(path, found["other"])
    named = re.findall(r"(\w+)\s*=\s*([^;]+?)\s*(?:;|$)", found["fields"])
    if sorted(arguments) == sorted(value for _, value in named):
        return True
    copied = [re.fullmatch(rf"(?:(\w+) )?{arguments[0]}\.{field}", value) for field, value in named]
    whole = len(arguments) == 1 and all(copied) and len(named) == width(path, name_of(found))
    return whole and all(keeps_all(path, c.group(1)) for c in copied if c.group(1))


def name_of(found):
    return found.group().split()[0]


def width(path, name):
    """How many fields the struct has that a definition takes."""
    kind = re.search(rf"^(?:abbrev |unfoldable |pub )*{re.escape(name)} : (\w+) →", read(path), re.M)
    for crate, module, items in IMPORT.findall(read(path)) if kind else []:
        for item in items.split(","):
            struct, _, local = item.strip().partition(" as ")
            if (local or struct) == kind.group(1) and module.startswith("declared."):
                modules = module.split(".")[1:-1]
                return len(fields(read(f"crates/{crate}/src/{'/'.join(modules) or 'lib'}.rt"), struct))
    return None


def fields(source, name):
    """The fields of a struct that the source declares, or takes from another module of its crate."""
    plain = re.sub(r"\bghost \w+: \{[^}]*\},?", "", source)  # a ghost field is not returned
    found = re.search(rf"\bpub struct {re.escape(name)}\s*\{{([^}}]*)\}}", plain) if name else None
    return set(re.findall(r"(\w+)\s*:", found.group(1))) if found else set()


def with_used(path, source):
    """The source with the modules of its crate behind it that it takes names from."""
    used = sorted(set(re.findall(r"^use super::(\w+)::", source, re.M)))
    near = [f"{path.rpartition('/')[0]}/{module}.rt" for module in used]
    return "\n".join([source] + [without(RATTLE_COMMENT, read(file)) for file in near if (TOP / file).is_file()])


def conjuncts(statement):
    """The statements that × puts together, brackets around them taken off."""
    if statement.startswith("(") and closing(statement, 0) == len(statement):
        return conjuncts(statement[1:-1])
    first = closing(statement, 0) if statement.startswith("(") else 0
    if first and statement[first:].startswith(" × "):
        return conjuncts(statement[:first]) + conjuncts(statement[first + 3:])
    return [statement]


def split_equation(side):
    left, sign, right = side.partition(" ≡ ")
    if not sign:
        raise ValueError("no equation")
    return left.strip(), right.strip()


def says_all(member, source):
    """Each impl of the source gives the ghost member as the value itself, or the type whose items it is as an array."""
    *kind, name = member.split(".")
    given = re.findall(rf"\btype {kind[-1]} = (.*);" if kind else rf"\bghost {name} = \{{ ([^}}]*) \}}", source)
    return bool(given) and all(re.fullmatch(r"\[u8; \d+\]" if kind else r"λ (\w+)\. \1", text) for text in given)


def uncovered(part, source):
    """The equation without the member before its result."""
    told = re.match(r"([\w.]+) (?=result ≡ )", part)
    return part[told.end():] if told and says_all(told.group(1), source) else part


def form(clauses, lent, returned, path, source):
    """The form's name and the equation's right side of the first clause that has a form, or ValueError with what is wrong."""
    wrong = ValueError("has a requires" if clauses["requires"] else "has no ensures")
    said = [] if clauses["requires"] else [conjuncts(" ".join(clause.split())) for clause in clauses["ensures"]]
    said = [[uncovered(part, source) for part in parts] for parts in said]
    plain = [part for parts in said for part in parts if re.match(r"result(?:\.\w+)? ≡ |\w+\.new ≡ ", part)]
    for parts in said + ([plain] if plain else []):
        try:
            return form_of(parts, lent, returned, path, source)
        except ValueError as found:
            wrong = found
    raise wrong


def form_of(parts, lent, returned, path, source):
    sides = [split_equation(part) for part in parts]
    lefts, rights = [left for left, _ in sides], "; ".join(right for _, right in sides)
    settled = [x for left in lefts for x in EXIT.findall(left)]
    if set(settled) != lent:
        raise ValueError(f"says {sorted(set(settled))} of the buffers {sorted(lent)}")
    if EXIT.search(rights) or RESULT.search(rights):
        raise ValueError("is no equation with what is known at entry")
    simple = {("result",): "value", ("result.now",): "slice"}.get(tuple(lefts))
    if simple and not lent:
        return simple, rights
    if returned is None and len(lefts) == 1 and EXIT.fullmatch(lefts[0]):
        return "bytes", rights
    if len(lefts) == 2 and lefts[0] == "result" and EXIT.fullmatch(lefts[1]):
        return "both", rights
    if not lent and {f"result.{field}" for field in fields(source, returned)} == set(lefts):
        return "fields", rights
    rest = ENTRY.sub("", EXIT.sub("", lefts[0]))
    heads = [word for word in re.findall(r"[^\s()]+", rest) if not RESULT.match(word)]
    whole = re.search(r"(?<![\w.])result(?![\w.])", rest) or fields(source, returned) == set(re.findall(r"(?<![\w.])result\.(\w+)", rest))
    if len(lefts) == 1 and heads and whole and all(keeps_all(path, head) for head in heads):
        return "call", rights
    raise ValueError(f"has none of the forms: {' × '.join(parts)}")


def rows_of(path, public):
    """For each public function of a source its row, or what is wrong with it; a row begins with the function's citation."""
    source = without(RATTLE_COMMENT, read(path))
    for name, exported, parameters, returned, clauses, _ in functions(source):
        where = f"`{path}: {name}`"
        if not (public or exported):
            continue
        try:
            lent = {name or receiver for name, receiver in LENT.findall(parameters)}
            kind, right = form(clauses, lent, returned, path, with_used(path, source))
            yield f"| {where} | {kind} | `{right}` |", None
        except ValueError as wrong:
            yield where, str(wrong)


def rows(names=None):
    return [row for crate in names or crates() for path, public in files(crate) for row in rows_of(path, public)]


def check(found, page):
    """How many functions are in order, and what is wrong."""
    before, _, rest = page.partition(BEGIN)
    table, _, behind = rest.partition(END)
    listed = set(table.split("\n"))
    excepted = dict(re.findall(r"^\| (`[^`]+`) \| ([^|]+) \|$", behind, re.M))
    wrong = [f"{row} {said or 'is not on the page'}" for row, said in found if not (row in excepted if said else row in listed)]
    stale = {row for row in listed if row.startswith("| `")} - {row for row, _ in found}
    stale |= set(excepted) - {row for row, said in found if said}
    return len(found) - len(wrong), wrong + [f"{row} is no such function" for row in sorted(stale)]


def write(page):
    before, _, rest = page.partition(BEGIN)
    lines = [row for row, wrong in rows() if not wrong]
    table = "\n".join([BEGIN, "", "| Function | Form | Equal to |", "|---|---|---|", *lines, "", END])
    (TOP / PAGE).write_text(before + table + rest.partition(END)[2], encoding="utf8")


# The self-test.

ADDED = [
    'pub fn another(x: u8) -> u8\n    ensures { result ≡ x }\n{\n    x\n}\n',
    'pub fn another<F: Fn(&[u8]) -> u8>(f: F, x: u8) -> u8\n    ensures { result ≡ x }\n{\n    x\n}\n',
    "impl<'a> Another<'a> {\n    pub fn another(x: u8) -> u8\n        ensures { result ≡ x }\n    {\n        x\n    }\n}\n",
    'pub trait Another {\n    fn another(x: u8) -> u8\n        ensures { result ≡ x };\n}\n',
    'impl From<u8> for Another {\n    ghost from_gives = { λ x another. another ≡ x };\n\n    fn from(x: u8) -> Another {\n        x\n    }\n}\n',
]
EXPORTED = [
    '#[unsafe(no_mangle)]\npub extern "C" fn another(x: u8) -> u8\n    ensures { result ≡ x }\n{\n    x\n}\n',
    '#[unsafe(no_mangle)]\npub extern "C" fn another(x: u8) -> u8 {\n    x\n}\n',
]
# What has no form, whatever the page says.
UNSAID = [
    ("a receiver's bytes", 'impl Another {\n    pub fn another(&mut self) -> u8\n        ensures { result ≡ 0 }\n    {\n        0\n    }\n}\n'),
    ("a generic function's result", 'pub fn another<F: Fn(u8) -> u8>(f: F) -> u8 {\n    f(0)\n}\n'),
    ("a trait function's result", 'pub trait Another {\n    fn another(x: u8) -> u8\n        requires { x ≡ 0 }\n        ensures { result ≡ x };\n}\n'),
    ("a conversion's result", 'impl From<u8> for Another {\n    ghost from_gives = { λ x another. another < x };\n\n    fn from(x: u8) -> Another {\n        x\n    }\n}\n'),
    ("a result of another module's conversion", 'impl From<u8> for Another {\n    fn from(x: u8) -> Another {\n        x\n    }\n}\n'),
]


def faults(page):
    """Each fault as what it is, the file that is spoilt, and its text."""
    for crate in crates():
        for path, public in files(crate):
            text = read(path)
            plain = without(RATTLE_COMMENT, text)
            for name, exported, _, _, clauses, (begin, end) in functions(plain):
                if public or exported:
                    yield f"{path}: the contract of {name} is dropped", path, text[:begin] + text[end:]
                    yield f"{path}: {name} asks for something", path, text[:begin] + "\n    requires { 1 ≡ 1 }" + text[begin:]
                    row = next(line for line in page.split("\n") if line.startswith(f"| `{path}: {name}` |"))
                    yield f"{path}: {name} has no row", PAGE, page.replace(row + "\n", "")
                for member in re.findall(r"(\w+) result ≡ ", " ".join(clauses["ensures"])):
                    hides = re.sub(rf"(ghost {member} = \{{ λ \w+\. )\w+ ", r"\g<1>0 ", text, count=1)
                    if hides != text:
                        yield f"{path}: an impl's {member} hides the value", path, hides
            for added in (ADDED if public else []) + EXPORTED:
                yield f"{path}: a function without a row", path, text + added
    heads = {origin(path, head) for crate in crates() for path, public in files(crate) for head in heads_in(path, public)}
    for path, name in sorted(heads):
        text, made = read(path), definition(path, name)[1]
        if made["other"]:
            last = made["arguments"].split()[-1]
            less = re.sub(rf"(?<= ){last}(?= |$)", "[]", made["given"])
            yield f"{path}: {name} loses {last}", path, text.replace(made.group(), made.group().replace(made["given"], less))
        else:
            less = made["fields"].rpartition(";")[0] + " "
            yield f"{path}: {name} loses a field", path, text.replace(made.group(), made.group().replace(made["fields"], less))
    yield "a row of a function that is not there", PAGE, page.replace(END, "| `crates/octets/src/part.rt: another` | value | `x` |\n" + END)


def heads_in(path, public):
    """The definitions that the contracts of a source's public functions read the outcome through."""
    for _, exported, _, _, clauses, _ in functions(without(RATTLE_COMMENT, read(path))):
        lefts = " ".join(clause.partition(" ≡ ")[0] for clause in clauses["ensures"] if " ≡ " in clause and (public or exported))
        yield from (word for word in re.findall(r"\w+", lefts) if definition(path, word)[1])


def self_test():
    page = read(PAGE)
    found = rows()
    passed, failures = check(found, page)
    if failures:
        return tally(0, ["the tree is not in order before it is spoilt", *failures])
    passed = 0
    for said, path, text in list(faults(page)):
        spoilt[path] = text
        crate = path.split("/")[1]
        if path == PAGE:
            noticed = check(found, text)[1]
        elif path.endswith(".antt"):
            noticed = check(rows(), page)[1]
        else:  # the rows of the other crates are as they were
            others = [row for row in found if not row[0].lstrip("| ").startswith(f"`crates/{crate}/")]
            noticed = check(others + rows([crate]), page)[1]
        spoilt.clear()
        failures += [] if noticed else [f"was not noticed: {said}"]
        passed += bool(noticed)
    path = next(path for crate in crates() for path, public in files(crate) if public)
    for said, text in UNSAID:
        spoilt[path] = read(path) + text
        noticed = any(wrong for where, wrong in rows_of(path, True) if re.search(r"[ :]another`|Another::", where))
        spoilt.clear()
        failures += [] if noticed else [f"{said} is not settled, and this was not noticed"]
        passed += noticed
    return tally(passed, failures)


def main(given):
    if given == ["write"]:
        write(read(PAGE))
        return 0
    if given == ["check"]:
        return tally(*check(rows(), read(PAGE)))
    if given == ["--self-test"]:
        return self_test()
    print(__doc__, file=sys.stderr)
    return 2


if __name__ == "__main__":
    sys.exit(main(sys.argv[1:]))
