"""What a crash leaves of a step of the keeper on a file: its points in time, the ledger that stands between them, and what became of the call."""
from sheet import AMBER, BLUE, GREEN, GREY, LINE, PAPER, SOFT, Sheet, width_of, wrapped

POINTS = [("lock", 60), ("read", 150), ("call", 240), ("journal written and synced", 370), ("new file written and synced", 520), ("rename", 660),
          ("folder synced", 790), ("number in the lock's file", 910), ("answer", 1040)]
END = 1140
# a row: what it tells; its parts as first point, last point, colour, words
ROWS = [
    ("The ledger that stands", [(0, 5, BLUE, "the ledger before the call"), (5, 6, GREY, "either, whole"), (6, None, GREEN, "the ledger after the call")]),
    ("The call, if the machine stops here", [
        (0, 5, BLUE, "not made: nobody has an answer, it can be made again; the block in the journal does not count"),
        (5, 6, AMBER, "in doubt: the next step stores it again"), (6, 8, AMBER, "made: nobody has the answer"), (8, None, GREEN, "made, and handed out")]),
]
TIME, ROW = 86, 92


def draw():
    height = TIME + len(ROWS) * ROW + 40
    sheet = Sheet(1180, height, "A step of the keeper, and a crash in it", "The points of a step on a file, the ledger that stands between them, and what became of the call.")
    sheet.arrow((40, TIME), (END + 20, TIME))
    for words, x in POINTS:
        lines = wrapped(words, 11, 96)
        sheet.lines(x, TIME - 14 - 14 * (len(lines) - 1), lines, 11, 14, anchor="middle")
        sheet.add("line", x1=x, y1=TIME - 6, x2=x, y2=height - 30, stroke=LINE, stroke_dasharray="3 4")
    for number, (told, parts) in enumerate(ROWS):
        top = TIME + 34 + number * ROW
        sheet.add("rect", x=38, y=top - 20, width=round(width_of(told, 13)), height=16, fill=PAPER)
        sheet.words(40, top - 8, told, 12, bold=True, fill=SOFT)
        for first, last, fill, words in parts:
            a, b = POINTS[first][1], POINTS[last][1] if last is not None else END
            sheet.box(a, top, b - a, 50, fill)
            lines = wrapped(words, 11, b - a - 10)
            sheet.lines((a + b) // 2, top + 29 - 7 * (len(lines) - 1), lines, 11, 14, anchor="middle")
    return sheet
