"""A folder on a disk that forgets: what was not synced may be lost when the power goes (fault.c has what was)."""
import os
import shutil
from pathlib import Path


class Disk:
    def __init__(self, room, chance):
        self.folder, self.safe, self.chance = Path(room, "ledgers"), Path(room, "disk"), chance
        self.folder.mkdir()
        self.settle()

    def fault(self, **fault):
        return {"root": self.folder, "disk": self.safe} | fault

    def settle(self):
        """All that is there is safe."""
        shutil.rmtree(self.safe, ignore_errors=True)
        self.safe.mkdir()
        names = []
        for file in self.folder.iterdir():
            inode = file.stat().st_ino
            shutil.copyfile(file, self.safe / str(inode))
            os.link(file, self.safe / f"held.{inode}")
            names.append(f"{file.name} {inode}\n")
        (self.safe / "list").write_text("".join(names))

    def lose_power(self, all_of_it=False):
        """What the machine finds afterwards: names as at the folder's last sync or as they stood, contents as at each file's last sync
        or as they stood, and a file that was never synced cut anywhere; or all that was not synced lost."""
        self.lost = 1 if all_of_it else 0.5
        listed = [line.split() for line in (self.safe / "list").read_text().splitlines()]
        now = {file.name: file.stat().st_ino for file in self.folder.iterdir()}
        names = dict(now) if self.chance.random() >= self.lost else {name: int(inode) for name, inode in listed}
        contents = {name: self.content(name, inode, now) for name, inode in names.items()}
        shutil.rmtree(self.folder)
        self.folder.mkdir()
        for name, content in contents.items():
            if content is not None:
                (self.folder / name).write_bytes(content)
        self.settle()

    def content(self, name, inode, now):
        current = (self.folder / name).read_bytes() if now.get(name) == inode else None
        if (self.safe / str(inode)).exists():
            synced = (self.safe / str(inode)).read_bytes()
            if current is None or self.chance.random() < self.lost:
                return synced
            cut = len(synced) if current.startswith(synced) else len(current)
            return current[:self.chance.randint(cut, len(current))]
        return current[:self.chance.randint(0, len(current))] if current is not None else None
