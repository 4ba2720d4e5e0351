#!/usr/bin/env python3
"""The kit that proves is the kit that is pinned: `rt version` is the line of .ci/kit, README has it, and every report of a check names its logic.
A crate that the gate's run passed has a report, or rt says that an earlier run on this machine passed the same files, with the same kit.

  tests/lint/kit.py               ask rt, and read target/ci.log
  tests/lint/kit.py --self-test   other kits and reports of another logic: each must be noticed
"""
import re
import subprocess
import sys

sys.dont_write_bytecode = True
from sources import TOP, tally  # noqa: E402

PIN = ".ci/kit"


def asked():
    try:
        return subprocess.run(["rt", "version"], capture_output=True, text=True, check=True).stdout.strip()
    except (OSError, subprocess.CalledProcessError) as wrong:
        return f"nothing ({wrong})"


def said_by_rt():
    log = TOP / "target/ci.log"
    return log.read_text(encoding="utf8") if log.is_file() else ""


def reports(said):
    """The verdict line of each crate's check, and of its tests', in what the gate's rt ci said."""
    parts = re.split(r"^== (\w+(?:: its tests)?)$", said, flags=re.M)
    found = {crate: re.findall(r"^logic=.*$", said, re.M) for crate, said in zip(parts[1::2], parts[2::2])}
    return {crate: lines[0] for crate, lines in found.items() if lines}


def unseen(said, crates):
    """The crates of crates.txt of which a run of rt ci says neither a report nor that it is kept."""
    seen = set(reports(said)) | set(re.findall(r"^rt: (\w+) is kept: ", said, re.M))
    return [crate for crate in crates if crate not in seen] if said else []


def results(pinned, here, verdicts, page, left=()):
    yield from (f"rt ci says nothing of {crate}" for crate in left)
    yield None if f"`{pinned}`" in page else f"README.md does not name the kit `{pinned}`"
    yield None if here == pinned else f"the kit is another: {PIN} has '{pinned}', rt version says '{here}'"
    logic = re.search(r"\blogic (\w+)$", pinned)
    if not logic:
        yield f"{PIN} names no logic"
        return
    for crate, line in verdicts.items():
        yield None if re.match(r"logic=proved\b", line) and re.search(rf"\bsum={logic.group(1)}\b", line) else f"{crate} was checked otherwise: {line}"


def self_test():
    pinned, line = "kit-1 logic 00ff", "logic=proved functions=1 sum=00ff native=nat"
    page = f"proved with `{pinned}`"
    cases = [
        ("in order", False, results(pinned, pinned, {"a": line}, page)),
        ("another kit", True, results(pinned, "kit-2 logic 00ff", {"a": line}, page)),
        ("another logic", True, results(pinned, "kit-1 logic 00fe", {"a": line}, page)),
        ("no kit", True, results(pinned, "nothing (no rt)", {}, page)),
        ("a report of another logic", True, results(pinned, pinned, {"a": line, "b": line.replace("00ff", "00fe")}, page)),
        ("a crate that is not proved", True, results(pinned, pinned, {"a": "logic=not-proved"}, page)),
        ("a page of another kit", True, results(pinned, pinned, {"a": line}, page.replace("kit-1", "kit-2"))),
        ("a pin with no logic", True, results("kit-1", "kit-1", {"a": line}, "`kit-1`")),
        ("a crate that is kept", False, results(pinned, pinned, {}, page, unseen("rt: a is kept: an earlier run\n", ["a"]))),
        ("a crate left out", True, results(pinned, pinned, {}, page, unseen("rt: a is kept: an earlier run\n", ["a", "b"]))),
    ]
    wrong = [f"{said}: {'not noticed' if bad else 'a false finding'}" for said, bad, found in cases if any(found) != bad]
    return tally(len(cases) - len(wrong), wrong)


def main():
    said, page = said_by_rt(), (TOP / "README.md").read_text(encoding="utf8")
    crates = re.findall(r"^(\w+)[^#:\n]*:", (TOP / "crates.txt").read_text(encoding="utf8"), re.M)
    found = list(results((TOP / PIN).read_text(encoding="utf8").strip(), asked(), reports(said), page, unseen(said, crates)))
    wrong = [problem for problem in found if problem]
    return tally(len(found) - len(wrong), wrong)


if __name__ == "__main__":
    sys.exit(self_test() if sys.argv[1:] == ["--self-test"] else main())
