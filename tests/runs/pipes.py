#!/usr/bin/env python3
"""Feeds a line program the same stream through a pipe in small pieces, and waits for each answer: tests/runs/pipes.py PROGRAM

However the input is cut, the output is the one of the whole file; and an answer comes before more input is sent. A failed read or write ends it, and standard
error says which of the two failed and why.
"""
import errno
import fcntl
import os
import select
import shlex
import struct
import subprocess
import sys
import tempfile
import termios
from pathlib import Path

sys.dont_write_bytecode = True
sys.path.insert(0, str(Path(__file__).resolve().parents[1] / "generators"))
from stream_maker import Maker  # noqa: E402

PIECES = [1, 2, 3, 641]
SEED, LINES = "pipes", 60
PATIENCE = 10  # seconds


def whole(program, text):
    with tempfile.TemporaryFile() as file:
        file.write(text)
        file.seek(0)
        return subprocess.run(program, stdin=file, stdout=subprocess.PIPE, timeout=PATIENCE).stdout


def in_pieces(program, text, size):
    """Sends a piece only when the one before has been read, so that no read spans two."""
    with tempfile.TemporaryFile() as output:
        with subprocess.Popen(program, stdin=subprocess.PIPE, stdout=output, bufsize=0) as process:
            pipe = process.stdin.fileno()
            for place in range(0, len(text), size):
                os.write(pipe, text[place:place + size])
                while unread(pipe) and process.poll() is None:
                    os.sched_yield()
            process.stdin.close()
            process.wait(PATIENCE)
        output.seek(0)
        return output.read()


def unread(pipe):
    return struct.unpack("i", fcntl.ioctl(pipe, termios.FIONREAD, bytes(4)))[0]


def answer_by_answer(program, lines, expected):
    """Sends a line and the beginning of the next one, and wants the line's answer before anything else."""
    with subprocess.Popen(program, stdin=subprocess.PIPE, stdout=subprocess.PIPE, bufsize=0) as process:
        try:
            for place, answer in enumerate(expected):
                following = lines[place + 1] if place + 1 < len(lines) else b""
                begun = lines[place][1:] if place % 2 else lines[place]
                os.write(process.stdin.fileno(), begun + b"\n" + (b"" if place % 2 else following[:1]))
                if read_line(process.stdout.fileno()) != answer:
                    return False
            return True
        finally:
            process.stdin.close()
            process.wait(PATIENCE)


def told(program, closed=None, **streams):
    """What it says on standard error, and None where it does not end by itself, though its input stays open."""
    close = None if closed is None else lambda: os.close(closed)
    with subprocess.Popen(program, bufsize=0, stderr=subprocess.PIPE, preexec_fn=close, **streams) as process:
        if process.stdin:
            os.write(process.stdin.fileno(), b"\n")
        try:
            process.wait(PATIENCE)
        except subprocess.TimeoutExpired:
            process.kill()
            return None
        return process.stderr.read()


def failure(stream, error):
    """What is to be said of a stream at an error: the system's own words for it."""
    return f"perdigolh: standard {stream}: {os.strerror(error)}\n".encode()


def idle():
    """A pipe that is open, empty and non-blocking."""
    end, _ = os.pipe2(os.O_NONBLOCK)
    return end


def read_line(pipe):
    line = b""
    while not line.endswith(b"\n") and select.select([pipe], [], [], PATIENCE)[0]:
        piece = os.read(pipe, 1)
        if not piece:
            break
        line += piece
    return line


def main():
    if len(sys.argv) != 2:
        sys.exit(__doc__)
    program = shlex.split(sys.argv[1])
    results = []

    def check(name, good):
        results.append(good)
        if not good:
            print(f"failed: {name}")

    for index in (0, 2):
        lines, text = Maker(SEED, index, LINES).make()
        lines = [line.text for line in lines]
        expected = whole(program, text)
        answers = expected.splitlines(keepends=True)
        check(f"stream {index}: an answer for each line", len(answers) == len(lines))
        for size in PIECES:
            check(f"stream {index} in pieces of {size}", in_pieces(program, text, size) == expected)
        check(f"stream {index}, answer by answer", answer_by_answer(program, lines, answers))
    check("no input, no answer", in_pieces(program, b"", 1) == b"")
    check("a whole run says nothing on standard error", told(program, stdin=subprocess.DEVNULL, stdout=subprocess.DEVNULL) == b"")
    with open("/dev/full", "wb") as full:
        check("a full output", told(program, stdin=subprocess.PIPE, stdout=full) == failure("output", errno.ENOSPC))
    check("a closed output", told(program, closed=1, stdin=subprocess.PIPE) == failure("output", errno.EBADF))
    folder = os.open("/", os.O_RDONLY)
    check("a directory as input", told(program, stdin=folder, stdout=subprocess.DEVNULL) == failure("input", errno.EISDIR))
    os.close(folder)
    check("a closed input", told(program, closed=0, stdout=subprocess.DEVNULL) == failure("input", errno.EBADF))
    check("an input that does not wait", told(program, stdin=idle(), stdout=subprocess.DEVNULL) == failure("input", errno.EAGAIN))
    print(f"{sum(results)} passed, {len(results) - sum(results)} failed")
    return 0 if all(results) else 1


if __name__ == "__main__":
    sys.exit(main())
