"""Workers: a front's processes over one place, their commands and the lines that they handed out."""
import os
import subprocess
import time
from pathlib import Path

TOP = Path(__file__).resolve().parents[3]
BUILT = TOP / "target/keeper"


class Place:
    """Where the ledgers are, and the program that keeps them there."""

    def __init__(self, place, program, tick=20):
        self.place, self.program, self.tick = place, program, tick

    def begin(self, commands, **fault):
        """A worker on its way. Its lines go to a pipe of its own, so that what it wrote before a kill is there."""
        env = os.environ | {"KEEPER_TICK": str(self.tick)}
        if fault:
            env |= {"LD_PRELOAD": str(BUILT / "fault.so")} | {f"FAULT_{key.upper()}": str(value) for key, value in fault.items()}
        worker = subprocess.Popen([self.program, self.place], env=env, text=True, stdin=subprocess.PIPE, stdout=subprocess.PIPE,
                                  stderr=subprocess.DEVNULL)
        try:
            worker.stdin.write("\n".join(commands) + "\n")
            worker.stdin.close()
        except BrokenPipeError:
            pass
        return worker

    def run(self, commands, **fault):
        """The lines that it handed out, and its status."""
        return ended(self.begin(commands, **fault))

    def lines(self, *commands):
        lines, status = self.run(commands)
        assert status == 0, f"a worker without faults ended with {status}"
        return lines

    def together(self, scripts, lead=0.15):
        """Workers that begin at one moment."""
        begin = f"at {int((time.time() + lead) * 1000)}"
        workers = [self.begin([begin, *script]) for script in scripts]
        return [ended(worker)[0] for worker in workers]


def ended(worker):
    lines = worker.stdout.read().split("\n")
    worker.stdout.close()
    return lines[:-1], worker.wait()  # a last line without its end was not handed out


def words(lines, kind):
    """The words of the lines of a kind, behind kind and ledger."""
    return [line.split(" ")[2:] for line in lines if line.startswith(kind + " ")]


def failures(lines):
    return [line.split(" ")[3] for line in lines if line.startswith("failed ")]
