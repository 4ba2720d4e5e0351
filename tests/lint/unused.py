#!/usr/bin/env python3
"""Every top-level name is reached by something: no law, definition, function or import stands there for nothing.

  tests/lint/unused.py                  look at this tree
  tests/lint/unused.py --top DIR        look at another one
  tests/lint/unused.py --drop-imports   write the sources without the imports that are not used; rt fmt then sets the lines
  tests/lint/unused.py --self-test      look at a made-up tree, where the answer is known

Names are the definitions, laws, records, data types and rulesets of specs/ and proofs/, and the functions, structs, enums, traits and
constants of src/. A trait's function and those of its impls in the same file are one name; what else an impl of a trait says is text of the
trait, and the whole impl of a trait of another file, as of From, is text of its type. A name is reached from a root, or from a name that is
reached and has it in its text; its own text does not count, nor does an import. Roots are `main`, exported functions, the answers and
invariants of functions (of a type `goal.NAME`, goal being a function's Goals or Given; `NAME-spec` in a Proof.antt), what a page of docs/ or
README cites or quotes, and a function that takes nothing and answers a constant, whose contract ties it to its definition. The table of
docs/OUTCOMES.md is no root: it is written from the sources. Fields and variants are not looked at; where a page cites a field, it cites its
record.
A word stands for a name wherever it is no projection, so that a local variable can hide an unused name, and a finding is one.
An import is unused where no text of its file has the name, nor a function of a trait that is imported (of std's, METHODS); a crate of
crates.txt where no source of the other has it.
"""
import argparse
import contextlib
import re
import sys
import tempfile
from pathlib import Path

sys.dont_write_bytecode = True
from sources import ANTT_SKIP, BLOCK, CITATION, RATTLE_SKIP, TOP, blank, closing, names, tally, without  # noqa: E402

WORD = re.compile(r"(\.?)(\[\]|[^\s(){}\[\],;.]+)")
FIELD = re.compile(r"(?<=[{;])\s*[^\s={}();]+\s*=(?=\s)")  # record { field = .. }
SIGNATURE = re.compile(r"(?:(?:abbrev|unfoldable|pub)\s+)*([^\s(){}:]+)(?:\s+\{[^}]*\})*\s*:(?=\s)")
DECLARED = re.compile(r"(?:pub\s+)?(?:record|data|ruleset)\s+(\S+)")
USE = re.compile(r"^(?:pub |ghost )*use\s+([^\s{;]+?)(?:\.\{([^}]*)\}|\s+as\s+(\S+?))?;?\s*$", re.M)
RUST_USE = re.compile(r"^\s*(?:pub )?use\s+((?:\w+::)*)(?:\{([^}]*)\}|(\w+(?:\s+as\s+\w+)?));", re.M)
CLAUSE = r"(?:requires|ensures|measure|invariant)\*?(?:\s+\w+)?\s*"
RUST_NAME = re.compile(r"\b(?:fn|struct|enum|const|trait)\s+(\w+)")
PRIMITIVE = re.compile(r"[iu](?:8|16|32|64|128|size)")
# a function that takes nothing and answers a constant is there for its contract: it ties the constant to its definition
TIE = re.compile(r"^fn \w+\(\) -> \w+\s+ensures(?:\s+\w+)?\s*\{[^{}]*\}\s*\{\s*\w+::[A-Z_]+\s*\}$")
METHODS = {"Read": {"chain", "read_exact"}}  # a trait of std is imported for its methods
IMPL = re.compile(r"^(?:impl\b(?:<[^>]*>)?\s+(?:([^{]+?)\s+for\s+)?|(?:pub )?trait\s+)(\w+)[^{]*\{", re.M)  # the trait of an impl, and the type or trait


def words(text):
    """The words of an antt text and those behind an alias, `alias.word`; a projection, `r.field`, is none."""
    plain, behind = set(), set()
    text = FIELD.sub("", text)
    for m in WORD.finditer(text):
        before = re.search(r"[^\s(){}\[\],;.]+$", text[max(0, m.start() - 80):m.start()])
        if not m.group(1):
            plain.add(m.group(2))
        elif before:
            behind.add((before.group(), m.group(2)))
    return plain, behind


def named(trait):
    """The name of a trait, without its path and what it is of."""
    return trait.partition("<")[0].rpartition("::")[2]


def has(plain, name):
    """The words have the name; of an operator, `◌when◌`, each part."""
    return name in plain or ("◌" in name and all(part in plain for part in name.split("◌") if part))


class File:
    """A source: its declarations {name: text}, fields {field: record}, imports {local name: (file, name)} and aliases {alias: file}."""

    def __init__(self, tree, path):
        self.tree, self.path = tree, path
        self.crate, self.part = path.split("/")[1:3]
        text = (tree.top / path).read_text(encoding="utf8")
        self.names, self.fields, self.imports, self.aliases, self.roots, self.goals = {}, {}, {}, {}, set(), set()
        if path.endswith(".rt"):
            self.read_rattle(without(RATTLE_SKIP, text))
        else:
            self.read_antt(without(ANTT_SKIP, text))

    # antt

    def take_uses(self, text):
        for m in USE.finditer(text):
            if m.group(3):
                self.aliases[m.group(3)] = self.tree.module(m.group(1))
                if m.group(1).endswith((".Goals", ".Given")):
                    self.goals.add(m.group(3))
            for item in filter(None, map(str.strip, (m.group(2) or "").split(","))):
                name, _, local = item.partition(" as ")
                self.imports[local.strip() or name] = self.tree.target(m.group(1), name)
        return without(USE, text)

    def read_antt(self, text):
        """Declarations begin where the file's or a module's body stands; the module's head counts with each of them."""
        lines = [(len(line) - len(line.lstrip()), line.strip()) for line in self.take_uses(text).split("\n") if line.strip()]
        bodies, records, name, head = [(0, "")], set(), None, None
        for depth, line in lines:
            if head is not None and head.endswith("where"):
                bodies.append((depth, bodies[-1][1] + " " + head))
                head = None
            while depth < bodies[-1][0]:
                bodies.pop()
            outer = depth == bodies[-1][0]
            begins = outer and (DECLARED.match(line) or SIGNATURE.match(line))
            if head is not None:
                head += " " + line
            elif outer and re.match(r"(?:pub )?module\b", line):
                head = line
            elif outer and re.match(r"(?:infix|pub mod\b|mod\b)", line):
                name = None
            elif begins:
                name = begins.group(1)
                records |= {name} if DECLARED.match(line) else set()
                self.names[name] = self.names.get(name, "") + bodies[-1][1] + " " + line
                if self.is_root(name, line):
                    self.roots.add(name)
            elif name:
                field = SIGNATURE.match(line) if name in records else None
                if field:
                    self.fields.setdefault(field.group(1), name)
                self.names[name] += "\n" + (line[field.end():] if field else line)

    def is_root(self, name, line):
        """Whether a declaration is what the check asks of a function's proof."""
        if self.path.endswith("/Proof.antt"):
            return name.endswith("-spec")
        asked = re.search(r":\s+([^\s(){}.]+)\.", line)
        return bool(asked) and asked.group(1) in self.goals

    # Rattle

    def read_rattle(self, text):
        text = self.take_ghosts(text)
        for m in RUST_USE.finditer(text):
            for item in filter(None, map(str.strip, (m.group(2) or m.group(3)).split(","))):
                name, _, local = item.partition(" as ")
                self.imports[local.strip() or name] = self.tree.rust_target(self, m.group(1).split("::")[:-1], name)
        text = without(RUST_USE, text)
        impls = [(*m.groups(), m.end() - 1, closing(text, m.end() - 1)) for m in IMPL.finditer(text)]
        traits, rest = set(re.findall(r"\btrait\s+(\w+)", text)), text
        for m in RUST_NAME.finditer(text):
            around = [(trait, name) for trait, name, a, b in impls if a <= m.start() < b]
            if any(trait and named(trait) not in traits for trait, _ in around):
                continue
            kind = "".join(f"{named(trait or name)}::" for trait, name in around)
            name, own = kind + m.group(1), text[m.start():self.item_end(text, m.end())]
            rest = rest[:m.start()] + blank(own) + rest[m.start() + len(own):] if around else rest
            self.names[name] = f"{self.names[name]}\n{own}" if name in self.names else own
            line = text[text.rfind("\n", 0, m.start()) + 1:m.start()]
            if m.group(1) == "main" or "extern" in line or TIE.search(own):
                self.roots.add(kind + m.group(1))
        # what a type is by a trait is part of the trait that is declared here, or of the type that is; where neither is, it is there for itself
        for trait, name, a, b in (impl for impl in impls if impl[0]):
            own = named(trait) in traits
            declared = [word for word in [named(trait) if own else name, *re.findall(r"\w+", trait)] if word in self.names]
            key = declared[0] if declared else f"{name} by {trait}"
            self.roots |= set() if declared else {key}
            self.names[key] = self.names.get(key, "") + (rest if own else text)[a:b]

    def take_ghosts(self, text):
        ghosts = "\n".join(m.group(1) for m in re.finditer(r"^ *(ghost use [^;]*;)", text, re.M))
        self.take_uses(ghosts)
        return re.sub(r"^ *ghost use [^;]*;", "", text, flags=re.M)

    @staticmethod
    def item_end(text, at):
        """Behind the item's body, clauses before it passed over; a constant ends at its semicolon."""
        while at < len(text):
            if text[at] in "([":
                at = closing(text, at)
            elif text[at] == ";":
                return at
            elif text[at] == "{":
                clause = re.search(rf"\b{CLAUSE}$", text[:at])
                at = closing(text, at)
                if not clause:
                    return at
            else:
                at += 1
        return at

    def reached_by(self, text):
        """The names, as (file, name), that a text of this file has."""
        plain, behind = words(text)
        found = {(self.path, name) for name in self.names if has(plain, name)}
        found |= {key for local, key in self.imports.items() if key and has(plain, local)}
        found |= {(self.aliases[alias], name) for alias, name in behind if self.aliases.get(alias)}
        if self.path.endswith(".rt"):
            found |= self.rust_reached(text)
        return found

    def rust_reached(self, text):
        found = set()
        for name in re.findall(r"\b\w+\b", text):
            if name in self.names:
                found.add((self.path, name))
            if self.imports.get(name):
                found.add(self.imports[name])
        for path in re.findall(r"\b\w+(?:::\w+)+", text):
            found |= self.tree.rust_path(self, path.split("::"))
            found |= self.tree.methods(path.split("::")[-1]) if PRIMITIVE.match(path) else set()
        for name in re.findall(r"\.(\w+)\(", text):
            found |= self.tree.methods(name)
        return found

    def functions_of(self, local):
        """The functions of a trait that is imported."""
        path, name = self.imports[local] or (None, None)
        home = self.tree.files.get(path)
        known = home.names if home and home.names.get(name, "").startswith("trait ") else {}
        return {known_name.rpartition("::")[2] for known_name in known if known_name.startswith(f"{name}::")}

    def unused_imports(self):
        text = "\n".join(self.names.values())
        plain, behind = words(text)
        rust = set(re.findall(r"\w+", text)) if self.path.endswith(".rt") else set()
        unused = [local for local in self.imports if not has(plain, local) and not rust & {local, *METHODS.get(local, []), *self.functions_of(local)}]
        return unused + [alias for alias in self.aliases if alias not in {before for before, _ in behind}]


class Tree:
    def __init__(self, top):
        self.top = top
        sources = sorted(p for end in ("rt", "antt") for p in top.glob(f"crates/*/*/**/*.{end}"))
        paths = [str(p.relative_to(top)) for p in sources]
        self.paths = {p for p in paths if p.split("/")[2] in ("src", "specs", "proofs")}
        self.files = {p: File(self, p) for p in sorted(self.paths)}

    def module(self, path):
        """The file of an antt module, or None where it is not ours or made by the check."""
        m = re.fullmatch(r"Rattle\.(\w+)\.(specs|proofs)\.(.+)", path)
        file = m and f"crates/{m.group(1)}/{m.group(2)}/{m.group(3).replace('.', '/')}.antt"
        return file if file in self.paths else None

    def target(self, path, name):
        """What `use path.{name}` means: a name of a file of antt, or a declared type of src/."""
        declared = re.fullmatch(r"Rattle\.(\w+)\.specs\.declared\.((?:\w+\.)*?)(\w+)(?:\.TheVariants)?", path)
        if declared:
            crate, modules, kind = declared.groups()
            return self.rust_file(crate, modules.split(".")[:-1]), kind
        file = self.module(path)
        return (file, name) if file else None

    def rust_file(self, crate, modules):
        for root in ("lib", "main"):
            path = f"crates/{crate}/src/{'/'.join(modules) or root}.rt"
            if path in self.paths:
                return path
        return None

    def crate_of(self, file, path):
        """The crate that a path begins with, and the rest of the path."""
        if path and path[0] in ("super", "crate"):
            return file.crate, path[1:]
        if path and self.rust_file(path[0], []) and not self.rust_file(file.crate, path[:1]):
            return path[0], path[1:]
        return file.crate, path

    def rust_path(self, file, path):
        """What `a::b::c` may mean: a name, or one of a type, in a file that the path's first words tell."""
        home, word = file.imports.get(path[0]) or (None, None)
        if home:
            path = ([word] if word else []) + path[1:]
            return {(home, path[0]), (home, "::".join(path[:2]))}
        crate, rest = self.crate_of(file, path)
        found = {(file.path, "::".join(path[:2]))}
        for depth in range(len(rest)):
            home = self.rust_file(crate, rest[:depth])
            found |= {(home, rest[depth]), (home, "::".join(rest[depth:depth + 2]))} if home else set()
        return found

    def rust_target(self, file, path, name):
        """What `use path::name;` means: a name of a file, or a file whose name it is."""
        crate, path = self.crate_of(file, path)
        module = self.rust_file(crate, path + [name])
        if module and not module.endswith(("/lib.rt", "/main.rt")):
            return module, None
        home = self.rust_file(crate, path)
        return (home, name) if home else None

    def methods(self, name):
        return {(path, known) for path, file in self.files.items() for known in file.names if known.endswith(f"::{name}")}

    def pages(self):
        """What the pages cite or quote."""
        for page in [self.top / "README.md", *sorted(self.top.glob("docs/*.md"))]:
            text = page.read_text(encoding="utf8") if page.is_file() else ""
            text = re.sub(r"<!-- functions -->.*?<!-- end -->", "", text, flags=re.S)
            for path, cited in CITATION.findall(text):
                yield from ((path, name) for name in names(cited))
            for path, block in BLOCK.findall(text):
                yield from ((path, m.group(1)) for line in block.split("\n") if (m := DECLARED.match(line) or SIGNATURE.match(line)))

    def told(self):
        """The laws that a function tells the check to use, `#[tactic(auto, using(crate::proofs::Laws::law))]`: they are roots too."""
        for path, file in self.files.items():
            text = without(RATTLE_SKIP, (self.top / path).read_text(encoding="utf8")) if path.endswith(".rt") else ""
            for said in re.findall(r"#!?\[tactic\([^\]]*?using\(([^)]*)\)", text):
                for crate, module, name in re.findall(r"(\w+)::proofs::([\w:]+)::([^\s:,]+)", said):
                    yield f"crates/{file.crate if crate == 'crate' else crate}/proofs/{module.replace('::', '/')}.antt", name

    def unused_crates(self):
        """Each crate with one that it lists and does not name."""
        for line in (self.top / "crates.txt").read_text(encoding="utf8").splitlines():
            said, _, below = line.partition("#")[0].partition(":")
            crate = (said.split() or [""])[0]
            sources = [path for path in self.paths if path.startswith(f"crates/{crate}/")]
            text = "\n".join((self.top / path).read_text(encoding="utf8") for path in sources)
            for name in below.split():
                if not re.search(rf"Rattle\.{name}\.|\b{name}::", text):
                    yield crate, name

    def live(self):
        waiting = [(path, name) for path, file in self.files.items() for name in file.roots] + [*self.pages(), *self.told()]
        reached = set()
        while waiting:
            path, name = waiting.pop()
            file = self.files.get(path)
            if file and name not in file.names:
                name = file.fields.get(name)
            if file is None or (path, name) in reached or name is None:
                continue
            reached.add((path, name))
            waiting += file.reached_by(file.names[name])
            if "::" in name:
                waiting.append((path, name.split("::")[0]))
        return reached


def check(top):
    """How many names are reached, and the findings."""
    tree = Tree(top)
    reached = tree.live()
    unused = [f"{path}: nothing reaches {name}" for path, file in tree.files.items() for name in file.names if (path, name) not in reached]
    imports = [f"{path}: imports {name} and does not use it" for path, file in tree.files.items() for name in file.unused_imports()]
    crates = [f"crates.txt: {crate} lists {below} and does not use it" for crate, below in tree.unused_crates()]
    return len(reached), unused + imports + crates if tree.files else [f"{top} has no sources"]


def without_import(text, local):
    """The text of a source without the import of a name or alias."""
    def shorter(m):
        items = [item.strip() for item in m.group(2).split(",") if item.strip()]
        left = [item for item in items if item.split(" as ")[-1].strip() != local]
        return f"{m.group(1)}{{{', '.join(left)}}}{m.group(3)}" if left else ""

    text = re.sub(r"^((?:ghost |pub )?use [^\s{]+(?:\.|::))\{([^}]*)\}(;?\n)", shorter, text, flags=re.M)
    text = re.sub(rf"^use \S+ as {re.escape(local)}\n", "", text, flags=re.M)
    return re.sub(rf"^use (?:\w+::)+(?:{re.escape(local)}|\w+ as {re.escape(local)});\n", "", text, flags=re.M)


def drop_imports(top):
    for path, file in Tree(top).files.items():
        text = old = (top / path).read_text(encoding="utf8")
        for local in file.unused_imports():
            text = without_import(text, local)
        if text != old:
            (top / path).write_text(text, encoding="utf8")
            print(path)
    return 0


# A made-up tree, and the findings in it.
SAMPLE = {
    "crates.txt": "# ground\na staticlib:\nb: a c\n",
    "README.md": "`crates/a/specs/Cited.antt: cited`\n",
    "docs/PROMISES.md": """`crates/a/proofs/Laws.antt: law`, `crates/a/src/lib.rt: T::cited`, `crates/a/specs/Cited.antt: sentence`

```antt crates/a/specs/Cited.antt
quoted : ℕ
```
""",
    "docs/OUTCOMES.md": "<!-- functions -->\n| `crates/a/src/lib.rt: listed` |\n<!-- end -->\n",
    "docs/landings/0001.md": "`crates/a/specs/Cited.antt: landed`\n",
    "crates/a/specs/Cited.antt": "pub cited : ℕ\ncited = 1\n\nquoted : ℕ\nquoted = 2\n\npub landed : ℕ\nlanded = 3\n\npub record Demand : Type 0 where\n  sentence : ℕ\n",
    "crates/a/specs/Defs.antt": """-- said here
use Rattle.std.specs.Prelude.{ℕ, List, [], ◌∷◌}
use Rattle.std.specs.Prelude.{Bool, true}
use Rattle.a.specs.declared.T.{T}
pub used : List ℕ → ℕ
used [] = 0
used (x ∷ xs) = used xs
-- said is only said
pub said : Bool
said = true
pub itself : ℕ → ℕ
itself n = itself n
pub record Held : Type 0 where
  field : ℕ
  said : ℕ
pub ◌when◌ : ℕ → Bool → ℕ
(n when b) = n
pub data Kind : Type 0 where
  one two : Kind
""",
    "crates/a/proofs/Laws.antt": """use Rattle.a.specs.Defs.{used, ◌when◌, Held, itself as own}
use Rattle.a.proofs.More as more
use Rattle.a.proofs.Fewer as fewer
module _ (h : Held)
    (n : ℕ) where
  helper : ℕ
  helper = n
  pub law : used [] ≡ more.needed
  law = helper when h.said
  pub loose : ℕ
  loose = other
other : ℕ
other = 1
first : ℕ
first = second
second : ℕ
second = first
""",
    "crates/a/proofs/More.antt": "pub needed : ℕ\nneeded = 1\n\npub kept : ℕ → ℕ\nkept n = n\n\npub spare : ℕ\nspare = 1\n\npub told : ℕ\ntold = 1\n\npub told_too : ℕ\ntold_too = 1\n",
    "crates/a/proofs/called/Answers.antt": """use Rattle.a.proofs.called.Goals as goal
use Rattle.a.specs.Defs.{used}
part : ℕ
part = used []
aside : ℕ
aside = 1
pub returns-of_T : goal.returns-of_T
unfolding used
returns-of_T c = part
""",
    "crates/a/proofs/called/Invariants.antt": """use Rattle.a.proofs.called.Given as given
use Rattle.a.proofs.More.{kept}
abbrev pub invariant-loop-i : given.invariant-loop-i
invariant-loop-i l = kept l.i
abbrev pub nowhere : goals.invariant-loop-j
nowhere l = kept l.i
""",
    "crates/a/proofs/f/Proof.antt": """use Rattle.a.proofs.More.{needed}
returns : ℕ
returns = 1
stray : ℕ
stray = 1
pub f-spec : ℕ
f-spec = returns
""",
    "crates/a/src/lib.rt": """ghost use Rattle.a.specs.Defs.{used};
pub mod m;
use super::m::{g, idle};
use super::n::Wide;
pub struct T { x: u8 }
pub enum Lone { A, B }
impl T {
    pub const SIZE: usize = 1;
    pub const LOOSE: usize = 2;
    pub fn size() -> usize
        ensures { result ≡ used }
    {
        T::SIZE
    }
    pub fn cited() -> usize { 3 }
    pub fn called(self) -> usize { 3 }
    pub fn uncalled(self) -> usize { T::LOOSE }
}
pub fn listed() -> usize { 1 }
#[tactic(auto, using(crate::proofs::More::told, a::proofs::More::told_too), unfolding(crate::specs::Defs::said))]
pub fn whole() -> usize { 1 }
// fn said() {}
#[unsafe(no_mangle)]
pub extern "C" fn out(t: T) -> usize
    ensures first { result ≡ used }
    ensures second { result ≡ used }
{
    g() + t.called()
}
""",
    "crates/a/src/m.rt": "pub fn g() -> usize { m_only() }\nfn m_only() -> usize { 1 }\npub fn idle() -> usize { 1 }\n",
    "crates/a/src/n.rt": """ghost use Rattle.a.specs.Defs.{used};
ghost use Rattle.a.proofs.More.{needed, kept as near_kept};
pub struct Far {}
impl Far {
    pub const AT: usize = 1;
    pub const OFF: usize = 1;
}
impl From<u8> for Far {
    ghost from_gives = { λ n far. used n ≡ far };
    fn from(n: u8) -> Far { near(n) }
}
fn near(n: u8) -> Far { Far {} }
pub struct Off {}
impl From<u8> for Off {
    fn from(n: u8) -> Off { off(n) }
}
fn off(n: u8) -> Off { Off {} }
pub struct Model<'a> { ghost inside: { needed }, x: &'a u8 }
impl<'a> Model<'a> {
    pub fn modelled() -> usize { inner() }
}
impl std::marker::Model for Model<'_> {
    ghost view = { λ m. near_kept m };
}
fn inner() -> usize { 1 }
pub fn far() -> usize { Model::modelled() }
pub trait Wide {
    fn wide() -> usize;
    fn spare(self) -> usize;
    fn lent(self) -> usize;
}
impl Wide for u8 {
    fn wide() -> usize { below() }
    fn spare(self) -> usize { least() }
    fn lent(self) -> usize { 1 }
}
impl Wide for u16 {
    ghost width = { most };
    fn wide() -> usize { 2 }
    fn spare(self) -> usize { 2 }
    fn lent(self) -> usize { 2 }
}
fn below() -> usize { 1 }
fn least() -> usize { 1 }
fn most() -> usize { 1 }
""",
    "crates/a/src/o.rt": """use super::n::{Far, Wide};
pub struct Own {}
impl Wide for Own {
    fn wide() -> usize { owned() }
}
fn owned() -> usize { 1 }
impl From<Far> for u8 {
    fn from(f: Far) -> u8 { numbered() }
}
fn numbered() -> u8 { 1 }
pub struct Alone {}
impl Wide for Alone {
    fn wide() -> usize { alone() }
}
fn alone() -> usize { 1 }
""",
    "crates/b/src/main.rt": """use a::m;
use a::n::Wide;
use a::o::Own;
use std::io::{Read, Write};
fn main() { r().read_exact(b); let x = m::g(); let y = a::n::far() + a::n::Far::AT + a::whole() + u16::wide() + Own {}.lent(); }
fn beside() {}
""",
}
FOUND = [
    ("crates/a/specs/Cited.antt", "reaches landed"),
    *(("crates/a/specs/Defs.antt", f"reaches {name}") for name in ("said", "itself", "Kind")),
    *(("crates/a/proofs/Laws.antt", f"reaches {name}") for name in ("loose", "other", "first", "second")),
    ("crates/a/proofs/More.antt", "reaches spare"),
    ("crates/a/proofs/f/Proof.antt", "reaches stray"),
    ("crates/a/proofs/called/Answers.antt", "reaches aside"),
    ("crates/a/proofs/called/Invariants.antt", "reaches nowhere"),
    *(("crates/a/src/lib.rt", f"reaches {name}") for name in ("Lone", "T::LOOSE", "T::uncalled", "listed")),
    ("crates/a/src/m.rt", "reaches idle"),
    *(("crates/a/src/n.rt", f"reaches {name}") for name in ("Far::OFF", "Off", "off", "Wide::spare", "least")),
    *(("crates/a/src/o.rt", f"reaches {name}") for name in ("Alone", "alone")),
    ("crates/b/src/main.rt", "reaches beside"),
    ("crates/b/src/main.rt", "imports Write"),
    ("crates/a/specs/Defs.antt", "imports T"),
    ("crates/a/proofs/Laws.antt", "imports own"),
    ("crates/a/proofs/Laws.antt", "imports fewer"),
    ("crates/a/proofs/f/Proof.antt", "imports needed"),
    ("crates/a/src/lib.rt", "imports idle"),
    ("crates/a/src/lib.rt", "imports Wide"),
    ("crates.txt", "b lists c"),
]


def self_test():
    with tempfile.TemporaryDirectory() as room:
        for name, text in SAMPLE.items():
            Path(room, name).parent.mkdir(parents=True, exist_ok=True)
            Path(room, name).write_text(text, encoding="utf8")
        findings = check(Path(room))[1]
        with contextlib.redirect_stdout(None):
            drop_imports(Path(room))
        left = [finding for finding in check(Path(room))[1] if " imports " in finding]
    wanted = [f"{path}: nothing {said}" if said.startswith("reaches") else f"{path}: {said} and does not use it" for path, said in FOUND]
    wrong = [f"not noticed: {finding}" for finding in sorted(set(wanted) - set(findings))]
    wrong += [f"is none: {finding}" for finding in sorted(set(findings) - set(wanted))]
    wrong += [f"was not dropped: {finding}" for finding in left]
    return tally(len(wanted), wrong)


if __name__ == "__main__":
    parser = argparse.ArgumentParser(description=__doc__, formatter_class=argparse.RawDescriptionHelpFormatter)
    parser.add_argument("--top", type=Path, default=TOP)
    parser.add_argument("--drop-imports", action="store_true")
    parser.add_argument("--self-test", action="store_true")
    options = parser.parse_args()
    if options.drop_imports:
        sys.exit(drop_imports(options.top))
    sys.exit(self_test() if options.self_test else tally(*check(options.top)))
