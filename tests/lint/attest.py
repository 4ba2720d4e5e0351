#!/usr/bin/env python3
"""tools/attest: a tree in order is said to be in order, and each single thing that is amiss is told.

  tests/lint/attest.py    made-up trees, reports and kits
"""
import importlib.machinery
import importlib.util
import sys
import tempfile
from pathlib import Path

sys.dont_write_bytecode = True
from sources import TOP, tally  # noqa: E402

LOADER = importlib.machinery.SourceFileLoader("attest", str(TOP / "tools/attest"))
attest = importlib.util.module_from_spec(importlib.util.spec_from_loader("attest", LOADER))
LOADER.exec_module(attest)

KIT, COMMIT = "kit-1 logic 00ff", "c0ffee"
WORDS = "sum=00ff native=nat,char,string logic-built=trusted libraries-built=trusted statements=trusted\n"
DESK = "== desk\nfn desk::check: proved\nlogic=proved functions=3 " + WORDS + "rt: desk proved\n"
PROGRAM = ("== program\naxioms libc: libc::heap::make, libc::read, libc::see, ... (5 of the 50 declared)\naxioms os: os::c::told (1 of the 10 declared)\n"
           "logic=proved functions=1 axioms=6 target=x cpu=y " + WORDS + "rt: program proved\n")
REFUSED = "rt: must-fail desk/wrong.edit: refused, as it must be: ./proofs/check/Answers.antt:2:3: error: it does not follow\n"
GATE_LOG = "target/gate.log"
FILES = {
    "crates.txt": "desk:\nprogram: desk io libc\n",
    "crates/desk/specs/Demands.antt": "".join(f"pub record Demand{n} : Type 0 where\n  pub holds : P{n}\n\n" for n in (1, 2, 3)),
    **{f"crates/desk/proofs/Demand{n}.antt": f"pub demand{n} : Demand{n}\ndemand{n} = ..\n" for n in (1, 2, 3)},
    "crates/desk/must-fail/wrong.edit": "",
    "target/gate.txt": f"date 2026-01-01T00:00:00Z\ncommit {COMMIT}\nkit {KIT}\nseconds 9\ntally 7 passed, 0 failed\n",
    GATE_LOG: DESK + PROGRAM + REFUSED,
    "kit/libc/src/lib.rt": 'extern "C" {\n    // reads\n    pub fn read(fd: i32, to: &mut [u8; 8]) -> isize\n        ensures { Moved result };\n    pub fn see() -> i32;\n}\n',
    "kit/libc/src/heap.rt": 'extern "C" {\n    // makes\n    pub unsafe fn make<R: Ends>() -> i32;\n}\n',
    "kit/os/src/lib.rt": 'pub mod c {\n    extern "C" {\n        // tells\n        pub fn told() -> i32;\n    }\n}\n',
    "kit/libc/specs/Io.antt": "-- what it may answer\nabbrev pub Moved : ℤ → Type 0\nMoved k = k ≡ 0\n",
}
SPOILT = [
    ("a failure", "target/gate.txt", "0 failed", "1 failed"),
    ("nothing passed", "target/gate.txt", "7 passed", "0 passed"),
    ("another commit", "target/gate.txt", COMMIT, "decade"),
    ("a tree with changes at the gate", "target/gate.txt", COMMIT, COMMIT + " with changes"),
    ("another kit at the gate", "target/gate.txt", KIT, "kit-2"),
    ("no run", "target/gate.txt", FILES["target/gate.txt"], ""),
    ("a crate not proved", GATE_LOG, "logic=proved functions=3", "logic=not-proved functions=3"),
    ("a crate with no report", GATE_LOG, DESK, ""),
    ("a crate kept from an earlier run", GATE_LOG, DESK, "rt: desk is kept: an earlier run on this machine proved the same files\n"),
    ("a crate whose tests alone have a report", GATE_LOG, "== desk\n", "== desk: its tests\n"),
    ("a crate more", "crates.txt", "desk:", "other:\ndesk:"),
    ("a word that trusts more", GATE_LOG, "libraries-built", "cache=trusted libraries-built"),
    ("another native", GATE_LOG, "nat,char", "nat,float,char"),
    ("an axiom that is not counted", GATE_LOG, "axioms=6", "axioms=7"),
    ("an axiom with no text", "kit/libc/src/lib.rt", "pub fn read", "pub fn reads"),
    ("an axiom of a module with no text", "kit/os/src/lib.rt", "pub fn told", "pub fn tells"),
    ("a demand that is gone", "crates/desk/specs/Demands.antt", "record Demand2", "record Demand4"),
    ("a demand with no proof", "crates/desk/proofs/Demand3.antt", "pub demand3", "pub demand4"),
    ("an edit that was not refused", GATE_LOG, "refused, as it must be", "NOT REFUSED"),
]


def told(files, **other):
    """What is told to be amiss, and the page."""
    with tempfile.TemporaryDirectory() as room:
        for path, text in files.items():
            (Path(room) / path).parent.mkdir(parents=True, exist_ok=True)
            (Path(room) / path).write_text(text, encoding="utf8")
        tree = attest.Tree(Path(room), Path(room) / "target", Path(room) / "kit")
        state = {"commit": COMMIT, "clean": True, "version": KIT, "pinned": KIT} | other
        wrong = list(attest.problems(tree, **state))
        return wrong, "\n".join(attest.page(tree, state["commit"], state["version"], state["pinned"], wrong))


def main():
    wrong, page = told(FILES)
    shown = ["7 passed, 0 failed", COMMIT, KIT, "Edits refused: 1 of 1", "Moved k = k ≡ 0", "to: &mut [u8; 8]", "Moved result", "program: 5 of libc, 1 of os", "// makes", "pub holds : P3", "2026-01-01", "native=nat,char,string: 2 of 2"]
    results = [("a tree in order", not wrong and "In order" in page)] + [(f"the page shows {words}", words in page) for words in shown]
    for said, path, old, new in SPOILT:
        assert old in FILES[path], said
        results.append((said, bool(told(FILES | {path: FILES[path].replace(old, new, 1)})[0])))
    for said, other in (("no commit", {"commit": None}), ("changes", {"clean": False}), ("another kit", {"version": "kit-2"}), ("another pin", {"pinned": "kit-2"})):
        results.append((said, bool(told(FILES, **other)[0])))
    failures = [f"{said}: not as it should be" for said, good in results if not good]
    return tally(len(results) - len(failures), failures)


if __name__ == "__main__":
    sys.exit(main())
