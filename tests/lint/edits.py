#!/usr/bin/env python3
"""Every edit of must-fail/ can be made, and is one of code or definitions: told in a second, before the check tries them all.

  tests/lint/edits.py               look at crates/*/must-fail/*.edit
  tests/lint/edits.py --self-test   look at made-up edits, where the answer is known

An edit opens with a remark, `# ..`, that says what is at stake. It names a file of its crate's src/ or specs/, never of proofs/, since an
edited proof shows nothing of the desk; its old text stands there once, outside remarks, in what its earlier changes made, and its new text is
another. No more than MOST in all: each pays the check of its whole crate.
"""
import re
import sys
import tempfile
from pathlib import Path

sys.dont_write_bytecode = True
from sources import ANTT_SKIP, RATTLE_COMMENT, TOP, tally, without  # noqa: E402

MOST = 64


def changes(text):
    """Each change of an edit as (file, old, new)."""
    file = old = None
    for line in text.split("\n"):
        word, _, rest = line.partition(": ")
        if word == "file":
            file = rest
        elif word == "old":
            old = rest
        elif word == "new":
            yield file, old, rest
            old = None


def problem(edit):
    """What is wrong with an edit, or None."""
    crate, text = edit.parent.parent, edit.read_text(encoding="utf8")
    found, made = list(changes(text)), {}
    if not re.match(r"# \S", text):
        return "says not what is at stake"
    if not found:
        return "changes nothing"
    for file, old, new in found:
        if not file or not re.match(r"(?:src|specs)/", file):
            return f"is an edit of {file}"
        if not (crate / file).is_file():
            return f"there is no {file}"
        if not old or old.strip() == new.strip():
            return "the new text is the old one"
        source = made.get(file) or (crate / file).read_text(encoding="utf8")
        plain = without(RATTLE_COMMENT, source) if file.endswith(".rt") else without(ANTT_SKIP, source)
        places = [at.start() for at in re.finditer(re.escape(old), source)]
        if len(places) != 1:
            return f"its old text stands {len(places)} times in {file}"
        if not plain[places[0]:places[0] + len(old)].strip():
            return "is an edit of a remark"
        made[file] = source.replace(old, new)
    return None


def check(top):
    edits = sorted(top.glob("crates/*/must-fail/*.edit"))
    wrong = [f"{edit.relative_to(top)}: {said}" for edit in edits if (said := problem(edit))]
    wrong += [f"{len(edits)} edits, more than {MOST}"] if len(edits) > MOST else []
    return len(edits) - len(wrong), wrong if edits else [f"{top} has no edits"]


CODE = 'fn f(a: u8) -> u8 { a + 1 }\nfn g(a: u8) -> u8 { same(a, b"https://") } // twice\n// twice, said\n'
SAMPLES = {
    "good": ("# why\nfile: src/lib.rt\nold: a + 1\nnew: a + 2\n", None),
    "two": ("# why\nfile: src/lib.rt\nold: a + 1\nnew: a + 2\nold: same(\nnew: other(\n", None),
    "then": ("# why\nfile: src/lib.rt\nold: a + 1\nnew: a + 2 + 3\nold: 2 + 3\nnew: 5\n", None),
    "text": ('# why\nfile: src/lib.rt\nold: b"https://"\nnew: b"http://"\n', None),
    "silent": ("file: src/lib.rt\nold: a + 1\nnew: a + 2\n", "says not what is at stake"),
    "empty": ("# why\nfile: src/lib.rt\n", "changes nothing"),
    "proof": ("# why\nfile: proofs/f/Answers.antt\nold: f\nnew: g\n", "is an edit of proofs/f/Answers.antt"),
    "gone": ("# why\nfile: src/gone.rt\nold: f\nnew: g\n", "there is no src/gone.rt"),
    "same": ("# why\nfile: src/lib.rt\nold: a + 1\nnew:  a + 1\n", "the new text is the old one"),
    "stale": ("# why\nfile: src/lib.rt\nold: a + 9\nnew: a + 2\n", "its old text stands 0 times in src/lib.rt"),
    "many": ("# why\nfile: src/lib.rt\nold: a: u8\nnew: b: u8\n", "its old text stands 2 times in src/lib.rt"),
    "remark": ("# why\nfile: src/lib.rt\nold: // twice, said\nnew: // once\n", "is an edit of a remark"),
}


def self_test():
    with tempfile.TemporaryDirectory() as room:
        crate = Path(room, "crates/a")
        for folder in ("src", "proofs/f", "must-fail"):
            (crate / folder).mkdir(parents=True)
        (crate / "src/lib.rt").write_text(CODE, encoding="utf8")
        (crate / "proofs/f/Answers.antt").write_text("f : g\n", encoding="utf8")
        for name, (text, _) in SAMPLES.items():
            (crate / f"must-fail/{name}.edit").write_text(text, encoding="utf8")
        found = check(Path(room))[1]
        for number in range(MOST):
            (crate / f"must-fail/more{number}.edit").write_text(SAMPLES["good"][0], encoding="utf8")
        more = check(Path(room))[1]
    wanted = [f"crates/a/must-fail/{name}.edit: {said}" for name, (_, said) in sorted(SAMPLES.items()) if said]
    too_many = f"{len(SAMPLES) + MOST} edits, more than {MOST}"
    wrong = [f"not noticed: {said}" for said in [*wanted, too_many] if said not in [*found, *more]] + [f"is none: {said}" for said in found if said not in wanted]
    return tally(len(wanted) + 1 - len(wrong), wrong)


if __name__ == "__main__":
    sys.exit(self_test() if sys.argv[1:] == ["--self-test"] else tally(*check(TOP)))
