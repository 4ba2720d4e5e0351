"""The crates by layer: each rests on crates of the layers below it. An arrow that others imply is left out."""
from read import crates, kind
from sheet import AMBER, BLUE, GREEN, GREY, LINE, SOFT, Sheet

FILLS = {"functions": BLUE, "statements": GREEN, "program": AMBER, "kit": GREY}
WIDE, TALL, GAP, DEEP = 108, 34, 22, 78


def below(listed):
    """All that each crate reaches."""
    reached = {}

    def of(name):
        if name not in reached:
            reached[name] = set().union(*({dep} | of(dep) for dep in listed.get(name, [])))
        return reached[name]

    return {name: of(name) for name in listed}


def layers(listed):
    """The crates by the longest way down."""
    depth = {}

    def of(name):
        if name not in depth:
            depth[name] = 1 + max((of(dep) for dep in listed[name] if dep in listed), default=-1)
        return depth[name]

    rows = [[] for _ in range(1 + max(map(of, listed)))]
    for name in listed:
        rows[of(name)].append(name)
    return rows


def direct(listed):
    """What each crate names and reaches by no other crate that it names."""
    reach = below(listed)
    return {name: [dep for dep in deps if dep in listed and not any(dep in reach[other] for other in deps if other in listed)] for name, deps in listed.items()}


def placed(rows, edges):
    """A place across for each crate: near the middle of what it rests on, so that arrows are short."""
    wide = max(len(row) for row in rows) * (WIDE + GAP)
    x = {}
    for row in rows:
        row.sort(key=lambda name: (sum(x[dep] for dep in edges[name]) / len(edges[name])) if edges[name] else 0)
        step = wide / len(row)
        for place, name in enumerate(row):
            x[name] = round(40 + step * (place + 0.5))
    return x, wide


def way(name, dep, rows, x, y):
    """From a crate to one that it rests on: past the boxes of the layers between, not behind them."""
    points = [(x[name], y[name] + TALL)]
    for row in reversed(rows):
        here = y[row[0]]
        if y[name] < here < y[dep]:
            slope = (x[dep] - points[-1][0]) / (y[dep] - points[-1][1])
            enters, leaves = (points[-1][0] + slope * (high - points[-1][1]) for high in (here, here + TALL))
            hit = next((x[other] for other in row if any(abs(x[other] - at) < WIDE / 2 + 6 for at in (enters, leaves))), None)
            if hit is not None:
                enters = leaves = hit + (WIDE / 2 + GAP / 2) * (1 if enters + leaves >= 2 * hit else -1)
            points += [(round(enters), here), (round(leaves), here + TALL)]
    return [*points, (x[dep], y[dep])]


def draw():
    listed = crates()
    rows, edges = layers(listed), direct(listed)
    x, wide = placed(rows, edges)
    high = len(rows) * DEEP + 10
    sheet = Sheet(wide + 80, high + 30, "The crates by layer", "Each crate rests on crates of the layers below it; arrows that others imply are left out.")
    y = {name: high - 50 - depth * DEEP for depth, row in enumerate(rows) for name in row}
    for name, deps in edges.items():
        for dep in deps:
            points = " ".join(f"{a},{b}" for a, b in way(name, dep, rows, x, y))
            sheet.add("polyline", points=points, fill="none", stroke=LINE, stroke_width=1, marker_end="url(#head)")
    for name in listed:
        sheet.box(x[name] - WIDE // 2, y[name], WIDE, TALL, FILLS[kind(name)])
        sheet.words(x[name], y[name] + 22, name, 13, bold=kind(name) != "functions", anchor="middle")
    at = 40
    for what, words in (("functions", "code with contracts"), ("statements", "definitions and laws, no code"), ("program", "a program: it also reads and writes, by the kit's std")):
        sheet.box(at, high - 2, 22, 16, FILLS[what], round_=3)
        sheet.words(at + 30, high + 11, words, 12)
        at += 70 + len(words) * 7
    return sheet
