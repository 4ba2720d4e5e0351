"""The bytes of a ledger: the head, and a record, field by field, with the calls that write each."""
from read import fields, limit, writes
from sheet import AMBER, BLUE, GREEN, GREY, SOFT, WHITE, Sheet, width_of, wrapped

LEFT, CELL, ROW, ACROSS = 70, 33, 62, 32
HEADS = {"clock": "clock", "next": "next grant number", "head_rest": "zero"}


ALONE = {"push": BLUE, "decide": AMBER, "token": GREEN}


def fill_of(calls):
    return GREY if not calls else ALONE.get(calls[0], WHITE) if len(calls) == 1 else WHITE


def row_of(sheet, y, cells, written, first):
    """The parts of fields that stand in one row of bytes; what is too narrow for its name has it above."""
    above = sum(not fits(words, b - a) for _, words, a, b in cells)
    for name, words, a, b in cells:
        x, wide = LEFT + (a - first) * CELL, (b - a) * CELL
        middle = x + wide / 2
        calls = [call for call, names in written.items() if name in names]
        sheet.box(x, y, wide, ROW - 16, fill_of(calls), round_=3)
        place = (str(a) if b - a == 1 else f"{a}..{b}") + (f": {', '.join(calls)}" if calls else "")
        if fits(words, b - a):
            sheet.words(middle, y + 19, words, 12, bold=True, anchor="middle")
            sheet.words(middle, y + 36, place, 10, anchor="middle", fill=SOFT)
        else:
            top = y + 4 - 18 * above
            sheet.add("line", x1=middle, y1=y, x2=middle, y2=top + 3, stroke=SOFT)
            sheet.words(middle - 4, top, f"{words} ({place})", 11)
            above -= 1


def fits(words, count):
    return width_of(words, 12) + 8 <= count * CELL


def cut(spans, first, last):
    """The fields as far as they stand in these bytes."""
    return [(name, words, max(a, first), min(b, last)) for name, words, a, b in spans if a < last and b > first]


def draw():
    head, record = fields()
    head = [(name, HEADS.get(name, name), a, b) for name, _, a, b in head]
    short = [(name, (words or name).split(",")[0].split(":")[0], a, b) for name, words, a, b in record]
    size, top = limit("record_size"), 200
    sheet = Sheet(LEFT + ACROSS * CELL + 30, top + size // ACROSS * ROW + 130, "The bytes of a ledger",
                  "The head of 32 bytes and a record of 256, field by field, with the calls that write each field.")
    sheet.words(LEFT, 34, f"The head: {limit('head_size')} bytes, once.", 13, bold=True)
    row_of(sheet, 56, cut(head, 0, limit("head_size")), {"every accepted call": ["clock"], "start, push": ["next"]}, 0)
    sheet.words(LEFT, 132, f"A record: {size} bytes; {limit('records_least')} to {limit('records_most')} of them. Behind a field's bytes stand the calls that write it.", 13, bold=True)
    written = writes()
    for row in range(size // ACROSS):
        y = top + row * ROW
        sheet.words(LEFT - 10, y + 28, str(row * ACROSS), 12, anchor="end", fill=SOFT)
        row_of(sheet, y, cut(short, row * ACROSS, (row + 1) * ACROSS), written, row * ACROSS)
    legend(sheet, top + size // ACROSS * ROW + 10, record)
    return sheet


def legend(sheet, y, record):
    x = LEFT
    for fill, words in ((BLUE, "push alone"), (AMBER, "decide alone"), (GREEN, "token alone"), (WHITE, "more than one of them"), (GREY, "always zero")):
        sheet.box(x, y, 22, 16, fill, round_=3)
        sheet.words(x + 30, y + 13, words, 12)
        x += 60 + width_of(words, 12)
    said = [f"{a}: {words}" for _, words, a, b in record if words and (":" in words)]
    said.append("Decide with no, and sweep, make all bytes of a record zero. Numbers are big-endian.")
    sheet.lines(LEFT, y + 42, [line for text in said for line in wrapped(text, 12, ACROSS * CELL)], 12, 19)
