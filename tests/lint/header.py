#!/usr/bin/env python3
"""include/perdigolh.h and bindings/rust say of the exported calls what crates/front_c and the crates below it say.

Read from both sides and compared: the functions, their arguments in order with names and types, what they answer; the structs with
their fields in order; the sizes and lifetimes; that YES is the one yes and NO none. A slice is a pointer and a length, an array behind a
reference a pointer to its first byte. refusals.py compares the numbers returned.

  tests/lint/header.py               compare
  tests/lint/header.py --self-test   spoil the header or the bindings in one way at a time: the comparison must fail each time
"""
import re
import sys

sys.dont_write_bytecode = True
from sources import TOP, tally  # noqa: E402

NUMBERS = {"u8": "uint8_t", "u32": "uint32_t", "u64": "uint64_t", "usize": "size_t"}
STRUCTS = ("Answer", "Decided", "Swept", "Introspected")
EXPORTS = "crates/front_c/src/lib.rt"
REPR_C = r"#\[repr\(C\)\]\s*(?:#\[derive\([^\]]*\)\]\s*)?pub struct (\w+) \{([^}]*)\}"
# each size and lifetime: its name in the header, in the bindings, and the file and name of its source
CONSTANTS = [
    ("LEDGER_HEAD", "ledger/src/limit.rt", "Ledger::HEAD"),
    ("LEDGER_RECORD", "ledger/src/limit.rt", "Ledger::RECORD"),
    ("LEDGER_LEAST", "ledger/src/limit.rt", "Ledger::LEAST"),
    ("LEDGER_MOST", "ledger/src/limit.rt", "Ledger::MOST"),
    ("CLIENT_SIZE", "clients/src/record.rt", "Client::SIZE"),
    ("TABLE_MOST", "clients/src/table.rt", "Table::MOST"),
    ("OUTPUT_LEAST", "forms/src/lib.rt", "Redirect::MOST"),
    ("REDIRECT_LEAST", "forms/src/lib.rt", "Redirect::LEAST"),
    ("REDIRECT_MOST", "forms/src/lib.rt", "Redirect::MOST"),
    ("CHALLENGE_LENGTH", "forms/src/lib.rt", "Challenge::LENGTH"),
    ("VERIFIER_LEAST", "forms/src/lib.rt", "Verifier::LEAST"),
    ("VERIFIER_MOST", "forms/src/lib.rt", "Verifier::MOST"),
    ("REFERENCE_LIFETIME", "clients/src/lifetime.rt", "Reference::LIFETIME"),
    ("REFERENCE_MOST", "clients/src/lifetime.rt", "Reference::MOST"),
    ("CODE_LIFETIME", "ledger/src/limit.rt", "Code::LIFETIME"),
    ("TOKEN_LIFETIME", "ledger/src/limit.rt", "Token::LIFETIME"),
    ("TIME_LIMIT", "ledger/src/limit.rt", "Clock::LIMIT"),
    ("YES", "front/src/choice.rt", "Choice::YES"),
    ("VERSION_NUMBER", "front/src/version.rt", "Version::NUMBER"),
    ("INTERFACE", "front/src/version.rt", "Interface::NUMBER"),
]


spoilt = {}  # the self-test's files


def read(path):
    return spoilt.get(path) or (TOP / path).read_text(encoding="utf8")


def squeeze(text):
    return re.sub(r"\s+", " ", text).strip()


def snake(name):
    return re.sub(r"(?<!^)(?=[A-Z])", "_", name).lower()


def c_type(rattle):
    return NUMBERS.get(rattle) or f"perdigolh_{snake(rattle)}"


# The source: Rattle.

def rattle_calls(text):
    """Each exported function as {name: (arguments as C has them, answer as C has it)}."""
    calls = {}
    for name, arguments, answer in re.findall(r'#\[unsafe\(no_mangle\)\]\s*pub extern "C" fn (\w+)\(([^)]*)\)\s*->\s*(\w+)', text):
        flat = []
        for argument in filter(None, map(squeeze, arguments.split(","))):
            word, kind = re.fullmatch(r"(\w+): (.+)", argument).groups()
            lent = re.fullmatch(r"&(mut )?\[u8(?:; (\d+))?\]", kind)
            if lent is None:
                flat.append((word, c_type(kind)))
            elif lent.group(2):
                flat.append((word, f"{'' if lent.group(1) else 'const '}uint8_t[{lent.group(2)}]"))
            else:
                flat += [(word, f"{'' if lent.group(1) else 'const '}uint8_t*"), (f"{word}_length", "size_t")]
        calls[name] = (flat, c_type(answer))
    return calls


def structs(text):
    """Each struct behind #[repr(C)] as its fields in order, with the types of C."""
    found = {}
    for name, body in re.findall(REPR_C, text):
        found[name] = [(field, c_type(kind)) for field, kind in re.findall(r"pub (\w+): (\w+),", body)]
    return found


# The header: C.

def header_calls(text):
    calls = {}
    for answer, name, arguments in re.findall(r"^(\w+) (perdigolh_\w+)\(([^;]*)\);", text, re.M):
        flat = []
        for argument in map(squeeze, [] if arguments == "void" else arguments.split(",")):
            array = re.fullmatch(r"((?:const )?uint8_t) (\w+)\[(\d+)\]", argument)
            slice_or_number = re.fullmatch(r"((?:const )?\w+) (\*?)(\w+)", argument)
            if array:
                flat.append((array.group(2), f"{array.group(1)}[{array.group(3)}]"))
            else:
                flat.append((slice_or_number.group(3), slice_or_number.group(1) + slice_or_number.group(2)))
        calls[name] = (flat, answer)
    return calls


def header_structs(text):
    found = {}
    for name, body in re.findall(r"typedef struct (\w+) \{(.*?)\} \1;", text, re.S):
        found[name] = [(field, kind) for kind, field in re.findall(r"(\w+) (\w+);", body)]
    return found


# The bindings: Rust.

def raw_calls(text):
    calls = {}
    for name, arguments, answer in re.findall(r"pub fn (perdigolh_\w+)\(([^)]*)\) -> (\w+);", text):
        flat = []
        for argument in filter(None, map(squeeze, arguments.split(","))):
            word, kind = re.fullmatch(r"(\w+): (.+)", argument).groups()
            pointer = re.fullmatch(r"\*(const|mut) (?:u8|\[u8; (\d+)\])", kind)
            if pointer is None:
                flat.append((word, c_type(kind)))
            else:
                const = "const " if pointer.group(1) == "const" else ""
                flat.append((word, f"{const}uint8_t" + (f"[{pointer.group(2)}]" if pointer.group(2) else "*")))
        calls[name] = (flat, c_type(answer))
    return calls


def constant(path, name):
    kind, word = name.split("::")
    body = read(f"crates/{path}").split(f"impl {kind} {{", 1)[1]
    return int(re.search(rf"pub const {word}: \w+ = (\w+);", body).group(1), 0)


def text_most():
    """The greatest length of a text: the sum that its definition has."""
    def defined(path, name):
        return " ".join(re.search(rf"^{name}(?: \w+)? =\s+(.*?)(?=\n\n|\Z)", read(f"crates/{path}"), re.M | re.S).group(1).split())

    text = "description/specs/Apart.antt"
    names = {"n": defined(text, "expiry_digits"), "decimal_most": defined("texts/specs/Decimal.antt", "decimal_most"), "scope_most": defined("description/specs/Scope.antt", "scope_most"),
             "client_size": defined(text, "client_size"), "key_size": defined(text, "key_size")}
    total = re.sub(r"[A-Za-z]\w*", lambda name: names[name.group()], defined(text, "most_with")).replace("/", "//")
    return eval(total) if re.fullmatch(r"[\d+*/() ]+", total) and defined(text, "live_most") == "most_with expiry_digits" else None  # numbers and signs alone


def results():
    """Each comparison as its name, what is said and what the source says."""
    exports, answers = read(EXPORTS), read("crates/front/src/answer.rt")
    header, raw = read("include/perdigolh.h"), read("bindings/rust/src/raw.rs")
    plain = re.sub(r"/\*.*?\*/", "", header, flags=re.S)
    library = read("bindings/rust/src/lib.rs")

    calls = rattle_calls(exports)
    names = ("start", "push", "decide", "token", "resource", "sweep", "pending", "introspect", "version", f"interface_{constant('front/src/version.rt', 'Interface::NUMBER')}")
    yield "the source exports the calls, version and interface", sorted(calls), sorted(f"perdigolh_{n}" for n in names)
    sources = [path.relative_to(TOP) for crate in ("front", "front_c") for path in sorted((TOP / "crates" / crate / "src").rglob("*.rt"))]
    yield "nothing else of the front's crates is exported", sum(len(re.findall("no_mangle", read(str(path)))) for path in sources), len(calls)
    for side, said in (("header", header_calls(plain)), ("bindings", raw_calls(raw))):
        yield f"{side}: the calls", sorted(said), sorted(calls)
        for name in calls:
            yield f"{side}: {name}", said.get(name), calls[name]

    source = structs(answers)
    yield "the source has the structs", sorted(source), sorted(STRUCTS)
    bound = structs(raw)
    declared = header_structs(plain)
    for name in STRUCTS:
        yield f"header: struct {name}", declared.get(c_type(name)), source[name]
        yield f"bindings: struct {name}", bound.get(name), source[name]

    for name, wanted in [(name, constant(path, origin)) for name, path, origin in CONSTANTS] + [("TEXT_MOST", text_most())]:
        said = re.search(rf"#define PERDIGOLH_{name} (\d+)", header)
        yield f"header: {name}", said and int(said.group(1)), wanted
        said = re.search(rf"const {name}: \w+ = (\d+);", library)
        yield f"bindings: {name}", said and int(said.group(1)), wanted

    yes = constant("front/src/choice.rt", "Choice::YES")
    for side, said in (("header", re.search(r"#define PERDIGOLH_NO (\d+)\n", header)), ("bindings", re.search(r"const NO: u8 = (\d+);", library))):
        yield f"{side}: NO is a no", said is not None and int(said.group(1)) != yes, True


HEADER, RAW, LIBRARY = "include/perdigolh.h", "bindings/rust/src/raw.rs", "bindings/rust/src/lib.rs"
SPOILS = [
    (HEADER, "const uint8_t client[16], const uint8_t key[32], uint32_t scope", "const uint8_t key[32], const uint8_t client[16], uint32_t scope"),
    (HEADER, "uint8_t yes, uint64_t holder", "uint32_t yes, uint64_t holder"),
    (HEADER, "const uint8_t token[32]", "const uint8_t token[16]"),
    (HEADER, "uint8_t perdigolh_start(uint8_t *ledger", "uint8_t perdigolh_start(const uint8_t *ledger"),
    (HEADER, "perdigolh_swept perdigolh_sweep(", "perdigolh_answer perdigolh_sweep("),
    (HEADER, "    uint64_t holder;\n    uint32_t scope;\n", "    uint32_t scope;\n    uint64_t holder;\n"),
    (HEADER, "size_t consented;", "uint32_t consented;"),
    (HEADER, "perdigolh_pending(const uint8_t *ledger", "perdigolh_pending(uint8_t *ledger"),
    (HEADER, "    uint8_t number;\n    size_t length;\n", "    uint8_t number;\n    uint8_t length;\n"),
    (HEADER, "#define PERDIGOLH_TEXT_MOST 304", "#define PERDIGOLH_TEXT_MOST 303"),
    (HEADER, "#define PERDIGOLH_CODE_LIFETIME 60", "#define PERDIGOLH_CODE_LIFETIME 61"),
    (HEADER, "#define PERDIGOLH_REFERENCE_LIFETIME 90", "#define PERDIGOLH_REFERENCE_LIFETIME 599"),
    (HEADER, "PERDIGOLH_YES 1", "PERDIGOLH_YES 2"),
    (HEADER, "PERDIGOLH_NO 0", "PERDIGOLH_NO 1"),
    (HEADER, "#define PERDIGOLH_NO 0\n", ""),
    (LIBRARY, "const NO: u8 = 0", "const NO: u8 = 1"),
    (RAW, "verifier: *const u8", "verifier: *mut u8"),
    (RAW, "presented: *const [u8; 32],\n        code", "code: *const [u8; 32],\n        presented"),
    (RAW, "    pub expiry: u64,\n", ""),
    (RAW, "pub fn perdigolh_introspect(\n        ledger: *const u8", "pub fn perdigolh_introspect(\n        ledger: *mut u8"),
    (LIBRARY, "TOKEN_LIFETIME: u64 = 300", "TOKEN_LIFETIME: u64 = 301"),
    (LIBRARY, "TEXT_MOST: usize = 304", "TEXT_MOST: usize = 340"),
    (LIBRARY, "REFERENCE_MOST: u64 = 599", "REFERENCE_MOST: u64 = 600"),
]


def differing():
    return [f"{name}: FAILED\n  said   {said}\n  source {wanted}" for name, said, wanted in results() if said != wanted]


def self_test():
    failures = differing()
    if failures:
        return tally(0, ["the files differ before they are spoilt", *failures])
    for path, old, new in SPOILS:
        text = (TOP / path).read_text(encoding="utf8")
        spoilt.update({path: text.replace(old, new, 1)})
        if old not in text or not differing():
            failures.append(f"{path}: {old!r} for {new!r} was not noticed")
        spoilt.clear()
    return tally(len(SPOILS) - len(failures), failures)


def main():
    wrong = differing()
    return tally(len(list(results())) - len(wrong), wrong)


if __name__ == "__main__":
    sys.exit(self_test() if sys.argv[1:] == ["--self-test"] else main())
