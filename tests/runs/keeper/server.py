"""A PostgreSQL server of Debian's package, of the test's own: on a socket in a temporary folder, run as the package's user where root."""
import glob
import os
import shutil
import signal
import subprocess
import tempfile
import threading
import time
from pathlib import Path

from workers import TOP

BINARIES = max(glob.glob("/usr/lib/postgresql/*/bin"), key=lambda path: int(path.split("/")[-2]), default="")
PACKAGE_USER = "postgres"
SETTINGS = """
listen_addresses = ''
shared_buffers = 16MB
max_connections = 60
log_min_messages = fatal
"""


class Server:
    first, once = None, threading.Lock()

    def __init__(self, settings="", folder="/tmp"):
        assert BINARIES, "no PostgreSQL server: install Debian's package postgresql"
        self.room = Path(tempfile.mkdtemp(prefix="keeper-", dir=folder))
        self.data = self.room / "data"
        self.user = PACKAGE_USER if os.getuid() == 0 else None
        self.initialise()
        with open(self.data / "postgresql.conf", "a", encoding="utf8") as file:
            file.write(f"{SETTINGS}unix_socket_directories = '{self.room}'\n{settings}\n")
        self.start()
        self.sql("CREATE ROLE front LOGIN")
        self.psql("-v", "front=front", "-f", TOP / "bindings/keeper/postgres.sql")

    def initialise(self):
        """initdb once; every other server begins with a copy of what it left."""
        os.chmod(self.room, 0o755)
        if self.user:
            shutil.chown(self.room, self.user)
        with Server.once:
            if not Server.first:
                self.command("initdb", "-D", self.data, "-A", "trust", "-U", "owner", "--no-sync", "--locale=C", "-E", "UTF8")
                Server.first = tempfile.TemporaryDirectory(prefix="keeper-first-")
                subprocess.run(["cp", "-a", self.data, Server.first.name], check=True)
            else:
                subprocess.run(["cp", "-a", f"{Server.first.name}/data", self.room], check=True)

    def command(self, name, *words, **more):
        run = ["runuser", "-u", self.user, "--"] if self.user else []
        done = subprocess.run([*run, f"{BINARIES}/{name}", *words], cwd=self.room, stdin=subprocess.DEVNULL, stdout=subprocess.PIPE,
                              stderr=subprocess.STDOUT, text=True, **more)
        assert done.returncode == 0, f"{name}: {done.stdout}"

    def start(self):
        """Starts it; after a kill the old processes may still be leaving."""
        for left in range(40, -1, -1):
            try:
                log = self.room / "log"
                return self.command("pg_ctl", "start", "-D", self.data, "-l", log, "-w", "-s", timeout=60)
            except AssertionError:
                if not left:
                    raise
                time.sleep(0.1)

    def __enter__(self):
        return self

    def __exit__(self, *_):
        try:
            self.command("pg_ctl", "stop", "-D", self.data, "-m", "immediate", "-s")
        finally:
            shutil.rmtree(self.room, ignore_errors=True)

    def address(self, role="front"):
        return f"host={self.room} user={role} dbname=postgres"

    def psql(self, *words, role="owner"):
        command = ["psql", "-X", "-A", "-t", "-q", "-v", "ON_ERROR_STOP=1", "-d", self.address(role), *words]
        return subprocess.run(command, check=True, stdout=subprocess.PIPE, stderr=subprocess.PIPE, text=True).stdout

    def sql(self, text, role="owner"):
        return self.psql("-c", text, role=role)

    def kept(self, name):
        return bytes.fromhex(self.sql(f"SELECT encode(kept, 'hex') FROM perdigolh_ledger WHERE name = '{name}'").strip())

    def journal(self, name):
        return self.sql(f"SELECT block FROM perdigolh_journal WHERE name = '{name}' ORDER BY number")

    def backends(self):
        """The processes that serve the fronts."""
        return [int(pid) for pid in self.sql("SELECT pid FROM pg_stat_activity WHERE usename = 'front'").split()]

    def postmaster(self):
        return int((self.data / "postmaster.pid").read_text().split("\n")[0])

    def kill(self):
        """The whole server, at once: the first process and all that it began."""
        first = self.postmaster()
        pids = [first] + [int(pid) for pid in Path(f"/proc/{first}/task/{first}/children").read_text().split()]
        for pid in pids:
            send(pid, signal.SIGKILL)

    def back(self):
        """Waits until it answers."""
        for left in range(200, -1, -1):
            try:
                return self.sql("SELECT 1")
            except subprocess.CalledProcessError:
                if not left:
                    raise
                time.sleep(0.05)


def send(pid, what):
    try:
        os.kill(pid, what)
    except ProcessLookupError:
        pass
