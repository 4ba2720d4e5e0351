#!/usr/bin/env python3
"""A front as docs/FRONT.md says it is built: its commands as they stand, the grant of examples/front.c, the installed library.

Also that an archive of another interface is noticed: by the linker, by the loader, and from Rust.
"""
import os
import re
import subprocess
import sys
import tempfile
from pathlib import Path

TOP = Path(__file__).resolve().parent.parent.parent
PAGE, ARCHIVE = TOP / "docs/FRONT.md", TOP / "target/staticlib/libfront.a"
RECORDS = 8
# document 02, Q-2: push 90 seconds where the record says 0; document 01: done is 0
GRANT = """push: 0, grant {}, for 90 seconds under urn:ietf:params:oauth:request_uri:..
pending: 0, grant {}, scope 4, for https://buyer.example/back
decide: 0, holder 7, back to https://buyer.example/back
token: 0, scope 4
resource: 0, grant {}, holder 7
introspect: 0, {{"active":true,"client_id":"a..
"""
# document 02, Q-3: the second use of a code is 15 and ends the token, which is unknown from then on
TWICE = """token: 15, scope 0
resource: 17, grant 0, holder 0
"""


def run(*words, **more):
    return subprocess.run(words, cwd=TOP, stdin=subprocess.DEVNULL, capture_output=True, text=True, **more)


def commands():
    """The commands of the page's first block, without their remarks."""
    block = re.search(r"^```sh\n(.*?)^```$", PAGE.read_text(encoding="utf8"), re.M | re.S).group(1)
    return [re.split(r"\s{2,}#", line)[0].strip() for line in block.splitlines()]


def grant(number):
    return GRANT.format(number, number, number)


def by_the_page():
    """The page's own commands, in the order that it has them. The gate has made the archive."""
    said = commands()
    yield "the page has the archive, the example and the Rust example", [line.split()[0] for line in said] == ["tools/archives", "cc", "target/front-example", "cargo"]
    yield said[1], run("sh", "-c", said[1]).returncode == 0
    Path(TOP, said[2].split()[1]).unlink(missing_ok=True)
    first = run("sh", "-c", said[2])
    yield said[2], (first.returncode, first.stdout) == (0, "start: 0\n" + grant(1))
    elsewhere = {**os.environ, "CARGO_TARGET_DIR": "target/bindings"}  # a test leaves nothing in the tree
    last = run("sh", "-c", said[3], env=elsewhere)
    yield said[3], last.returncode == 0 and "the code a second time: 15" in last.stdout


def in_a_file(program, room):
    """What the example leaves in its file, and what many of it at a time leave."""
    ledger = Path(room, "ledger")
    first = run(program, ledger)
    bytes_ = ledger.read_bytes()
    yield "a started ledger and a grant", first.stdout == "start: 0\n" + grant(1)
    yield "the file is a ledger with one redeemed record", len(bytes_) == 32 + RECORDS * 256 and bytes_[32] == 3 and not any(bytes_[32 + 256:])
    yield "next number 2, grant 1, holder 7", [int.from_bytes(bytes_[a:a + 8], "big") for a in (8, 40, 56)] == [2, 1, 7]
    yield "no other file is left but the lock", sorted(path.name for path in Path(room).iterdir()) == ["ledger", "ledger.lock"]
    yield "only its owner reads it", ledger.stat().st_mode & 0o777 == 0o600
    again = Path(room, "twice")
    yield "a code shown twice: 15, and from the file 17", run(program, again, "twice").stdout == "start: 0\n" + grant(1) + TWICE
    bytes_ = again.read_bytes()
    yield "what 15 left is stored: no record, and the next number", not any(bytes_[32:]) and int.from_bytes(bytes_[8:16], "big") == 2
    more = [subprocess.Popen([program, ledger], stdout=subprocess.PIPE, text=True) for _ in range(RECORDS - 1)]
    said = sorted(process.communicate()[0] for process in more)
    yield "seven at a time: each its own grant", said == [grant(n) for n in range(2, RECORDS + 1)]
    last = run(program, ledger)
    yield "no record free, and none expired: 8", (last.returncode, last.stdout) == (1, "push: 8\n")
    before = ledger.read_bytes()
    old = bytearray(before)
    for at in range(32, len(old), 256):  # each record expired
        old[at + 16:at + 24] = (1).to_bytes(8, "big")
    ledger.write_bytes(old)
    yield "expired records are swept", run(program, ledger).stdout == grant(RECORDS + 1)
    ledger.write_bytes(before[:-1])
    short = run(program, ledger)
    yield "a file of another length is told", short.returncode == 1 and short.stderr != "" and ledger.read_bytes() == before[:-1]
    yield "a folder that is not there is told", run(program, Path(room, "no", "ledger")).returncode == 1


def installed(room):
    prefix, program, other = Path(room, "prefix"), Path(room, "front"), Path(room, "static")
    made = run("make", "install", f"PREFIX={prefix}")
    yield "make install", made.returncode == 0
    version = (TOP / "VERSION").read_text(encoding="utf8").strip()
    paths = {**os.environ, "PKG_CONFIG_PATH": f"{prefix}/lib/pkgconfig"}
    yield "pkg-config knows the release", run("pkg-config", "--modversion", "perdigolh", env=paths).stdout.strip() == version
    flags = run("pkg-config", "--cflags", "--libs", "perdigolh", env=paths).stdout.split()
    yield "compiled with what pkg-config says", run("cc", "examples/front.c", *flags, "-o", program).returncode == 0
    loaded = {**os.environ, "LD_LIBRARY_PATH": f"{prefix}/lib"}
    yield "with the shared library", run(program, Path(room, "a"), env=loaded).stdout == "start: 0\n" + grant(1)
    yield "with the archive", run("cc", "examples/front.c", f"-I{prefix}/include", f"{prefix}/lib/libperdigolh.a", "-o", other).returncode == 0
    yield "and run", run(other, Path(room, "b")).stdout == "start: 0\n" + grant(1)
    in_rust = ["cargo", "run", "--offline", "--example", "grant", "--manifest-path", "bindings/rust/Cargo.toml", "--target-dir", "target/another"]
    ran = run(*in_rust, env={**os.environ, "PERDIGOLH_ARCHIVE": f"{prefix}/lib"})
    yield "from Rust", ran.returncode == 0 and "the code a second time: 15" in ran.stdout
    stage = Path(room, "stage")
    yield "DESTDIR is respected", run("make", "install", "PREFIX=/usr", f"DESTDIR={stage}").returncode == 0 and (stage / "usr/lib/libperdigolh.so.1").is_file()
    yield "and not written down", "prefix=/usr\n" in (stage / "usr/lib/pkgconfig/perdigolh.pc").read_text()


def another_interface(room):
    """The same archive, but for the name that says its interface."""
    folder = Path(room, "another")
    folder.mkdir()
    other = folder / "libfront.a"
    yield "an archive of another interface", run("objcopy", "--redefine-sym", "perdigolh_interface_1=perdigolh_interface_2", ARCHIVE, other).returncode == 0
    linked = run("cc", "-Iinclude", "examples/front.c", other, "-o", folder / "front")
    yield "is not linked", linked.returncode != 0 and "perdigolh_interface_1" in linked.stderr
    shared = Path(room, "prefix/lib/libperdigolh.so.1")
    run("cc", "-shared", "-o", shared, "-Wl,--whole-archive", other, "-Wl,--no-whole-archive")
    loaded = run(Path(room, "front"), Path(room, "c"), env={**os.environ, "LD_LIBRARY_PATH": str(shared.parent)})
    yield "is not loaded", loaded.returncode != 0 and "perdigolh_interface_1" in loaded.stderr and not Path(room, "c").exists()
    build = ["cargo", "build", "--offline", "--example", "grant", "--manifest-path", "bindings/rust/Cargo.toml", "--target-dir", "target/another"]
    in_rust = run(*build, env={**os.environ, "PERDIGOLH_ARCHIVE": str(folder)})
    yield "is not linked with the Rust bindings", in_rust.returncode != 0 and "perdigolh_interface_1" in in_rust.stderr


def all_results(room):
    yield from by_the_page()
    yield from in_a_file(TOP / "target/front-example", Path(room, "file"))
    yield from installed(room)
    yield from another_interface(room)


def main():
    passed = failed = 0
    with tempfile.TemporaryDirectory() as room:
        Path(room, "file").mkdir()
        for name, good in all_results(room):
            passed, failed = passed + good, failed + (not good)
            if not good:
                print(f"failed: {name}")
    print(f"{passed} passed, {failed} failed")
    return 1 if failed else 0


if __name__ == "__main__":
    sys.exit(main())
