"""Keepers that lack something, made by an edit of a copy: the tests must fail with each of them."""
import shutil

from workers import TOP

KEEPER, WORKER = "bindings/keeper", "tests/runs/keeper"
FILES, FILE_LOCK, POSTGRES = "src/file/mod.rs", "src/file/lock.rs", "src/postgres/mod.rs"
RENAME, PUT = "fs::rename(&self.new, &self.ledger)", "self.put_in_place().and_then(|()| lock.set_known(kept.step))"
# Each: the file, what stands in it, and what takes its place.
EDITS = {
    "lock": (FILE_LOCK, "unsafe { flock(file.as_raw_fd(), LOCK_EX) } == 0", "file.as_raw_fd() >= 0"),
    "file-sync": (FILES, "file.write_all(bytes)?;\n        file.sync_all()", "file.write_all(bytes)"),
    "folder-sync": (FILES, f"{RENAME}?;\n        File::open(&self.folder)?.sync_all()", RENAME),
    "journal-sync": ("src/file/append.rs", "file.sync_data()", "Ok(())"),
    "order": (
        FILES,
        "Some(kept) => files",
        "Some(kept) if kept.step > 1 => {\n"
        "                std::thread::spawn(move || files.store(&kept, &lock).is_ok());\n"
        "                Ok(())\n"
        "            }\n"
        "            Some(kept) => files",
    ),
    "settling": (FILES, "Some(kept) if kept.step > known =>", "Some(kept) if kept.step > known + (1 << 40) =>"),
    "doubt": (FILES, f"{PUT}.map_err(|error| (Made::Perhaps, error))", f"let _ = {PUT};\n        Ok(())"),
    "for-update": (POSTGRES, " FOR UPDATE\"", "\""),
    "commit-order": (
        POSTGRES,
        "Ok(()) => connection.commit()?,",
        "Ok(()) => {\n                std::thread::spawn(move || connection.commit().is_ok());\n                return Ok(());\n            }",
    ),
    "commit-doubt": (POSTGRES, "Ok(()) => connection.commit()?,", "Ok(()) => drop(connection.commit()),"),
}
LACKING = list(EDITS)


def lacking(what, build):
    """The worker over a keeper without it."""
    copy = TOP / "target/keeper-lacking" / what
    shutil.rmtree(copy, ignore_errors=True)
    for folder in (KEEPER, WORKER, "bindings/rust"):
        shutil.copytree(TOP / folder, copy / folder)
    (copy / "target").mkdir()
    (copy / "target/staticlib").symlink_to(TOP / "target/staticlib")
    name, old, new = EDITS[what]
    file = copy / KEEPER / name
    text = file.read_text()
    assert text.count(old) == 1, f"{what}: {name} has changed"
    file.write_text(text.replace(old, new))
    build(copy / WORKER, ["postgres"], copy / "built")
    return copy / "built/release/keeper_worker"
