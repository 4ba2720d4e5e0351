#!/usr/bin/env python3
"""All Rust here builds with the compiler that Debian 12 packages.

Each package says so (rust-version, and a lock file that its cargo reads). A newer compiler does not see by itself that a function of
the standard library is too new; clippy does, where it is installed. With the packaged compiler the builds of the other tests show it.

  tests/lint/rust.py               look
  tests/lint/rust.py --self-test   look at a made-up package that uses what is too new
"""
import re
import subprocess
import sys
import tempfile
from pathlib import Path

TOP = Path(__file__).resolve().parent.parent.parent
PACKAGED = "1.63"
LOCK = 3  # cargo of that time reads no later form
CLIPPY = ["cargo", "clippy", "--offline", "--all-targets", "--quiet"]
LINT = ["--", "-A", "clippy::all", "-D", "clippy::incompatible_msrv"]


def manifests():
    return sorted(path for path in TOP.rglob("Cargo.toml") if "target" not in path.relative_to(TOP).parts)


def too_new(manifest, target):
    """What clippy says of a package; None where there is no clippy."""
    if subprocess.run(["cargo", "clippy", "--version"], capture_output=True).returncode:
        return None
    run = subprocess.run([*CLIPPY, "--manifest-path", manifest, "--target-dir", target, *LINT], cwd=TOP, capture_output=True, text=True)
    return run.stderr if run.returncode else ""


def results():
    for manifest in manifests():
        name = str(manifest.parent.relative_to(TOP))
        text, lock = manifest.read_text(encoding="utf8"), manifest.with_name("Cargo.lock")
        yield f"{name}: rust-version", re.findall(r'^rust-version = "(.*)"$', text, re.M) == [PACKAGED], ""
        yield f"{name}: lock file", lock.is_file() and re.findall(r"^version = (\d+)$", lock.read_text(encoding="utf8"), re.M) == [str(LOCK)], ""
        said = too_new(manifest, TOP / "target" / "clippy")
        yield f"{name}: nothing newer than {PACKAGED} is used" + (" (no clippy here)" if said is None else ""), not said, said


def self_test():
    with tempfile.TemporaryDirectory() as room:
        manifest = Path(room, "Cargo.toml")
        manifest.write_text(f'[package]\nname = "late"\nversion = "0.1.0"\nedition = "2021"\nrust-version = "{PACKAGED}"\n', encoding="utf8")
        Path(room, "src").mkdir()
        found = []
        for body, late in [("8usize.div_ceil(3)", True), ("Some(1).is_some_and(|n| n > 0)", True), ("8usize.pow(2)", False)]:
            Path(room, "src", "main.rs").write_text(f"fn main() {{\n    let _ = {body};\n}}\n", encoding="utf8")
            said = too_new(manifest, Path(room, "target"))
            found.append(said is None or bool(said) == late)
    print(f"{found.count(True)} passed, {found.count(False)} failed")
    return 0 if all(found) else 1


def main():
    passed = failed = 0
    for name, good, said in results():
        passed, failed = passed + good, failed + (not good)
        if not good:
            print(f"failed: {name}", said or "", sep="\n")
    print(f"{passed} passed, {failed} failed")
    return 1 if failed else 0


if __name__ == "__main__":
    sys.exit(self_test() if sys.argv[1:] == ["--self-test"] else main())
