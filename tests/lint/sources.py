"""What the lints share: comments and strings taken out, brackets paired, citations of pages, the tally."""
import re
from pathlib import Path

TOP = Path(__file__).resolve().parents[2]

RATTLE_COMMENT = re.compile(r"//[^\n]*|/\*.*?\*/", re.S)
RATTLE_SKIP = re.compile(r'//[^\n]*|/\*.*?\*/|b?"(?:\\.|[^"\\])*"|b?\'(?:\\.|[^\'\\])\'', re.S)
ANTT_SKIP = re.compile(r"(?<!\S)--[^\n]*|\{-.*?-\}", re.S)
# `path/to/file: name, name` or a path alone, in backticks
CITATION = re.compile(r"`((?:crates|docs|tests|second|tools|include|bindings|bench)/[^`:\s]+)(?::\s*([^`]+))?`")
# a block of a source, word for word
BLOCK = re.compile(r"^```antt (\S+)\n(.*?)^```$", re.S | re.M)


def blank(text):
    return re.sub(r"[^\n]", " ", text)


def without(pattern, text):
    """The text with spaces for what the pattern finds, so that places stay."""
    return pattern.sub(lambda m: blank(m.group()), text)


def closing(text, at):
    """The place behind the bracket that closes the one at `at`."""
    pairs = {"(": ")", "{": "}", "[": "]"}
    depth = 0
    for i in range(at, len(text)):
        depth += (text[i] == text[at]) - (text[i] == pairs[text[at]])
        if depth == 0:
            return i + 1
    raise ValueError(text[at:at + 80])


def names(cited):
    """The names of a citation."""
    return re.split(r",\s*", cited.strip()) if cited else []


def tally(passed, failures):
    """Prints each failure and the tally; answers the status."""
    print(*failures, sep="\n", end="\n" if failures else "")
    print(f"{passed} passed, {len(failures)} failed")
    return 1 if failures else 0
