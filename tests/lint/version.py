#!/usr/bin/env python3
"""One release and one interface everywhere.

The file VERSION names the release. The header, crates/front and the Rust crates say the same. The interface's number stands in the
header, in crates/front, in crates/front_c, in the bindings and in the name of the function that callers ask for; tests/data/interface-N.txt has its
declarations, so that a struct or a function that changes asks for the next number.

  tests/lint/version.py               compare
  tests/lint/version.py --self-test   spoil one file at a time: the comparison must fail each time
"""
import re
import sys
from pathlib import Path

TOP = Path(__file__).resolve().parent.parent.parent
HEADER, LIBRARY = "include/perdigolh.h", "bindings/rust/src/lib.rs"
RUST = ["bindings/rust"]  # what others build on; the rest of the Rust here is the project's own

spoilt = {}  # the self-test's files


def read(path):
    return spoilt.get(path) or (TOP / path).read_text(encoding="utf8")


def found(pattern, path):
    match = re.search(pattern, read(path), re.M)
    return match and match.group(1)


def declarations(header):
    """Each exported function and each struct on a line, without comments and layout."""
    plain = re.sub(r"/\*.*?\*/", "", header, flags=re.S)
    shapes = re.findall(r"^\w+ perdigolh_\w+\([^;{]*\);|^typedef struct.*?\} \w+;", plain, re.S | re.M)
    return sorted(re.sub(r"\s+", " ", shape) for shape in shapes)


def results():
    version = read("VERSION").strip()
    yield "VERSION has three numbers", bool(re.fullmatch(r"\d+\.\d{1,3}\.\d{1,3}", version)), True
    major, minor, patch = map(int, version.split("."))
    number = str(major * 1000000 + minor * 1000 + patch)
    yield "header: the release", found(r'^#define PERDIGOLH_VERSION "(.*)"$', HEADER), version
    yield "header: the release's number", found(r"^#define PERDIGOLH_VERSION_NUMBER (\d+)$", HEADER), number
    yield "crates/front: the release's number", found(r"impl Version \{\s*pub const NUMBER: u32 = (\d+);", "crates/front/src/version.rt"), number
    said = found(r"^version_number = (.*)$", "crates/front/specs/Version.antt")
    yield "crates/front: the definition", said, f"{major} * 1000000 + {minor} * 1000 + {patch}"
    yield "bindings: the release's number", found(r"^pub const VERSION_NUMBER: u32 = (\d+);$", LIBRARY), number
    for crate in RUST:
        yield f"{crate}: the release", found(r'^version = "(.*)"$', f"{crate}/Cargo.toml"), version

    interface = found(r"^#define PERDIGOLH_INTERFACE (\d+)$", HEADER)
    yield "crates/front: the interface", found(r"impl Interface \{\s*pub const NUMBER: u32 = (\d+);", "crates/front/src/version.rt"), interface
    yield "crates/front: the definition of the interface", found(r"^interface_number = (\d+)$", "crates/front/specs/Version.antt"), interface
    yield "bindings: the interface", found(r"^pub const INTERFACE: u32 = (\d+);$", LIBRARY), interface
    for path in ("crates/front/src/lib.rt", "crates/front_c/src/lib.rt", HEADER, LIBRARY, "bindings/rust/src/raw.rs"):
        yield f"{path}: the name asked for", set(re.findall(r"\bperdigolh_interface_(\d+)", read(path))), {interface}
    stored = f"tests/data/interface-{interface}.txt"
    kept = read(stored).splitlines() if (TOP / stored).is_file() else []
    yield f"the declarations of {stored}", declarations(read(HEADER)), [line for line in kept if not line.startswith("#")]


SPOILS = [
    ("VERSION", "0.1.0", "0.1.1"),
    (HEADER, '"0.1.0"', '"0.2.0"'),
    (HEADER, "VERSION_NUMBER 1000", "VERSION_NUMBER 1001"),
    (HEADER, "PERDIGOLH_INTERFACE 1", "PERDIGOLH_INTERFACE 2"),
    (HEADER, "= perdigolh_interface_1;", "= perdigolh_interface_2;"),
    (HEADER, "    size_t redeemed;\n", "    size_t redeemed;\n    size_t waiting;\n"),
    (HEADER, "uint64_t grant;", "uint32_t grant;"),
    (HEADER, "uint32_t scope, uint64_t holder);", "uint32_t scope, uint64_t holder, uint64_t more);"),
    (LIBRARY, "VERSION_NUMBER: u32 = 1000", "VERSION_NUMBER: u32 = 1001"),
    (LIBRARY, "raw::perdigolh_interface_1", "raw::perdigolh_interface_2"),
    ("bindings/rust/Cargo.toml", "0.1.0", "0.1.1"),
    ("crates/front/src/version.rt", "NUMBER: u32 = 1000", "NUMBER: u32 = 1001"),
    ("crates/front/src/version.rt", "NUMBER: u32 = 1;", "NUMBER: u32 = 2;"),
    ("crates/front_c/src/lib.rt", "fn perdigolh_interface_1", "fn perdigolh_interface_2"),
    ("crates/front/specs/Version.antt", "1 * 1000", "2 * 1000"),
]


def self_test():
    failed = 0
    for path, old, new in SPOILS:
        text = (TOP / path).read_text(encoding="utf8")
        spoilt.update({path: text.replace(old, new, 1)})
        if old not in text or all(said == wanted for _, said, wanted in results()):
            failed += 1
            print(f"{path}: {old!r} for {new!r} was not noticed")
        spoilt.clear()
    print(f"{len(SPOILS) - failed} passed, {failed} failed")
    return 1 if failed else 0


def main():
    passed = failed = 0
    for name, said, wanted in results():
        passed, failed = passed + (said == wanted), failed + (said != wanted)
        if said != wanted:
            print(f"{name}: FAILED\n  said   {said}\n  wanted {wanted}")
    print(f"{passed} passed, {failed} failed")
    return 1 if failed else 0


if __name__ == "__main__":
    sys.exit(self_test() if sys.argv[1:] == ["--self-test"] else main())
