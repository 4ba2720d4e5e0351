"""What the pictures say, read from the sources: crates.txt, the definitions in specs/, docs/TRUST.md. What is not found is an error."""
import re
from pathlib import Path

TOP = Path(__file__).resolve().parents[2]
CALLS = ["push", "decide", "token", "resource"]
WRITERS = {"pushed": "push", "consented": "decide", "redeemed": "token"}  # what ledger's definitions write, and the call that does


def text_of(path):
    return (TOP / path).read_text(encoding="utf8")


def found(pattern, text, what):
    m = re.search(pattern, text, re.M | re.S)
    if not m:
        raise SystemExit(f"pictures: the sources say nothing of {what}")
    return m


def limit(name):
    """A lifetime or limit, by its definition."""
    both = "\n".join(text_of(f"crates/{crate}/specs/Limits.antt") for crate in ("ledger", "clients"))
    return int(found(rf"^{name} = (\d+)$", both, name).group(1))


def states():
    """The states and their numbers."""
    return [(name, int(number)) for name, number in re.findall(r"^state_number (\w+) = (\d+)$", text_of("crates/ledger/specs/Fields.antt"), re.M)]


def spaced(name):
    """redirect_length, RecordExpired: words."""
    return re.sub(r"(?<=[a-z])([A-Z])", r" \1", name).replace("_", " ").lower()


def fields():
    """The fields of the head and of a record: name, document's words, first byte, byte behind the last."""
    head, record = found(r"(.*)-- ---- the fields of a record(.*)", text_of("crates/ledger/specs/Fields.antt"), "fields").groups()
    return laid_out(head, limit("head_size")), laid_out(record, limit("record_size"))


def laid_out(text, size):
    quoted = {}
    for places, words in re.findall(r'^-- ([\d. and]+?): "([^"]*)"', text, re.M):
        for place in places.split(" and "):
            quoted[int(place.split(".")[0])] = words
    spans = [(name, quoted.get(int(a)), int(a), int(b)) for name, a, b in re.findall(r"^(\w+)_span = span (\d+) (\d+)$", text, re.M)]
    spans.sort(key=lambda span: span[2])
    if [a for _, _, a, _ in spans] != [0, *(b for *_, b in spans[:-1])] or spans[-1][3] != size:
        raise SystemExit("pictures: the fields do not fill their bytes one after the other")
    return spans


def writes():
    """The fields that each call writes to its record: {call: [field]}."""
    text = text_of("crates/ledger/specs/Write.antt")
    return {call: [name for name in reversed(re.findall(r"\bwith_(\w+)", found(rf"^{name} .*?=\n?(.*?)(?:\n\n|\Z)", text, name).group(1)))]
            for name, call in WRITERS.items()}


def numbers():
    """The table's number of each refusal."""
    return {name: int(number) for name, number in re.findall(r"^number_of (\w+) = (\d+)$", text_of("crates/desk/specs/Answers.antt"), re.M)}


def checks(call):
    """The numbers of a call's checks, in their order."""
    begins = found(r"^begins .*?=(.*)$", text_of("crates/desk/specs/Checks.antt"), "begins").group(1)
    own = found(rf"^{call}_checks [^=]*=\n(.*?)(?:\n\n|\Z)", text_of(f"crates/desk/specs/{call.capitalize()}.antt"), call).group(1)
    order = re.findall(r"\(?(\w+)\s+when\b", begins) + re.findall(r"(\w+)\s+when\b", own)
    return [numbers()[name] for name in order]


def crates():
    """The crates and what they name: {crate: [crate]}."""
    listed = re.findall(r"^(\w+)[^#:\n]*:[ \t]*(.*?)[ \t]*(?:#.*)?$", text_of("crates.txt"), re.M)
    return {name: deps.split() for name, deps in listed}


def kind(crate):
    """program, functions or statements, by what stands in its src/."""
    if (TOP / f"crates/{crate}/src/main.rt").is_file():
        return "program"
    sources = "".join(path.read_text(encoding="utf8") for path in (TOP / f"crates/{crate}/src").rglob("*.rt"))
    return "functions" if re.search(r"^\s*(?:pub )?(?:extern \"C\" )?fn ", sources, re.M) else "statements"


def demands():
    """The crates whose specs/ have the records Demand1, Demand2 and Demand3."""
    there = {f"Demand{n}": path.parts[-3] for path in TOP.glob("crates/*/specs/*.antt") for n in (1, 2, 3)
             if re.search(rf"^pub record Demand{n}\b", path.read_text(encoding="utf8"), re.M)}
    if len(there) != 3:
        raise SystemExit("pictures: not every demand has its record")
    return there


def trust(heading):
    """The first cells of a table of docs/TRUST.md, as far as their colon; or the items of its list, as far as their stop or colon."""
    part = found(rf"^## {heading}\n(.*?)(?=^## |\Z)", text_of("docs/TRUST.md"), heading).group(1)
    rows = re.findall(r"^\| (.*?) \|", part, re.M)[1:] or [re.split(r"[.:]", item)[0] for item in re.findall(r"^- (.*)$", part, re.M)]
    return [re.sub(r"`", "", row.split(":")[0]) for row in rows if not re.fullmatch(r"[-|]+", row)]
