"""What is proved, what is run, what is trusted: one inside the other, as docs/TRUST.md lists them."""
from read import demands, trust
from sheet import AMBER, BLUE, GREEN, GREY, SOFT, Sheet, wrapped

SIZE, STEP = 12, 17
WIDE = 1180


def listed(items, room):
    """Items as lines, each behind a dot."""
    rows = []
    for item in items:
        first, *rest = wrapped(item, SIZE, room - 16)
        rows += [(True, first), *((False, line) for line in rest)]
    return rows


def column(sheet, x, y, rows):
    for dot, line in rows:
        if dot:
            sheet.add("circle", cx=x + 4, cy=y - 4, r=2, fill=SOFT)
        sheet.words(x + 14, y, line, SIZE)
        y += STEP
    return y


def two(sheet, x, y, items, room):
    """Items in two columns; answers the place below."""
    half = -(-len(items) // 2)
    return max(column(sheet, x + side * room // 2, y, listed(part, room // 2 - 10)) for side, part in enumerate((items[:half], items[half:])))


def height(items, room):
    half = -(-len(items) // 2)
    return STEP * max(len(listed(part, room // 2 - 10)) for part in (items[:half], items[half:]))


def draw():
    there = demands()
    proved = [f"Demand 1: every call, on every input, answers from the table and checks for itself (crates/{there['Demand1']})",
              f"Demand 2: acceptance is exact, and every byte afterwards is as written (crates/{there['Demand2']})",
              f"Demand 3: in every run of calls, permissions out never exceed consents in (crates/{there['Demand3']})",
              "Each function, of each crate: its contract, for every input; it ends; no index, sum or cast goes wrong"]
    layers = [("Assumed of those around the desk", trust("Assumed"), GREY), ("Trusted tools", trust("Trusted tools"), AMBER),
              ("Run and compared, by the gate", trust("Run, not proved"), BLUE), ("Proved, by the gate", proved, GREEN)]
    room = [WIDE - 60 - 48 * depth for depth in range(4)]
    talls = [48 + height(items, room[depth]) for depth, (_, items, _) in enumerate(layers)]
    missing = trust("Not covered")
    total = sum(talls) + 20 * 3
    sheet = Sheet(WIDE, total + 70 + height(missing, WIDE - 60), "What is proved, what is run, what is trusted",
                  "Nested: what is proved stands on what is run, on trusted tools, and on what is assumed of those around the desk.")
    y = 16
    for depth, (name, items, fill) in enumerate(layers):
        x = 16 + 24 * depth
        sheet.box(x, y, WIDE - 2 * x, total - sum(talls[:depth]) - 20 * depth, fill, round_=10)
        sheet.words(x + 14, y + 24, name, 15, bold=True)
        two(sheet, x + 14, y + 46, items, room[depth])
        y += talls[depth]
    y = 16 + total + 30
    sheet.words(30, y, "Outside all of it, not covered", 15, bold=True)
    two(sheet, 30, y + 24, missing, WIDE - 60)
    return sheet
