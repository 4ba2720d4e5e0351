"""The states of a record: what leads from one to the next, for how long it is good, and the refusals on the way."""
from read import checks, limit, numbers, spaced, states, writes
from sheet import AMBER, BLUE, GREEN, GREY, LINE, SOFT, WHITE, Sheet, wrapped

LEFT, WIDE, GAP, TOP, TALL = 30, 190, 130, 190, 92
FILLS = [GREY, BLUE, AMBER, GREEN]
NAMED = {"redirect_length": "redirect length", "grant": "grant number", "client": "client id", "bound_key": "bound key"}


def middle(place):
    return LEFT + place * (WIDE + GAP) + WIDE // 2


def card(sheet, x, call, lines):
    """What a call does on its way, and its refusals in the order of its checks."""
    wide = 270
    rows = [row for line in lines for row in wrapped(line, 11, wide - 16)]
    refusals = wrapped("refused by " + " ".join(map(str, checks(call))), 11, wide - 16)
    tall = 30 + 16 * (len(rows) + len(refusals))
    y = TOP - 44 - tall
    sheet.box(x - wide // 2, y, wide, tall, WHITE)
    sheet.words(x - wide // 2 + 8, y + 18, call, 13, bold=True)
    below = sheet.lines(x - wide // 2 + 8, y + 36, rows, 11, 16)
    sheet.lines(x - wide // 2 + 8, below, refusals, 11, 16, fill="#9a3324")
    return y + tall


def draw():
    names = states()
    sheet = Sheet(1370, 608, "The states of a record", "Free, pushed, consented, redeemed; the calls that lead from one to the next, lifetimes and refusals.")
    inside = {"Free": "all zeros", "Pushed": "value is the reference", "Consented": "value is the code", "Redeemed": "the code stays; token and bound key"}
    for place, (name, number) in enumerate(names):
        x = LEFT + place * (WIDE + GAP)
        sheet.box(x, TOP, WIDE, TALL, FILLS[place], round_=14)
        sheet.words(middle(place), TOP + 32, f"{number}  {name.lower()}", 16, bold=True, anchor="middle")
        sheet.lines(middle(place), TOP + 54, wrapped(inside[name], 11, WIDE - 12), 11, anchor="middle", fill=SOFT)
    written = {call: "writes " + ", ".join(NAMED.get(name, name) for name in fields) for call, fields in writes().items()}
    ways = [("push", ["the first free record", f"expiry = now + {limit('reference_lifetime')}, or what the client's record says, {limit('lifetime_most')} at most", written["push"]]),
            ("decide", ["yes, of this reference and client id", f"expiry = now + {limit('code_lifetime')}", written["decide"]]),
            ("token", ["this code, client id and secret", f"expiry = now + {limit('token_lifetime')}", written["token"]])]
    for place, (call, lines) in enumerate(ways):
        x = LEFT + (place + 1) * (WIDE + GAP) - GAP // 2
        below = card(sheet, x, call, lines)
        sheet.add("line", x1=x, y1=below, x2=x, y2=TOP + 40, stroke=LINE, stroke_dasharray="2 3")
        sheet.arrow((x - GAP // 2 + 3, TOP + 46), (x + GAP // 2 - 3, TOP + 46))
    x = middle(3) + 132
    below = card(sheet, x, "resource", ["this token, its bound key, a part of its scope, its holder", "writes nothing to the record"])
    loop = middle(3) + 40
    sheet.add("line", x1=loop + 18, y1=below, x2=loop + 18, y2=TOP - 26, stroke=LINE, stroke_dasharray="2 3")
    sheet.arrow((loop, TOP - 2), (loop, TOP - 26), (loop + 36, TOP - 26), (loop + 36, TOP - 2))
    back(sheet)
    legend(sheet)
    return sheet


def back(sheet):
    """The ways to free."""
    bottom = TOP + TALL
    for place, (begin, shift, words) in enumerate([
            (middle(1) - 60, 60, "decide, no: freed at once"), (middle(1) - 30, 30, "sweep, once expired"),
            (middle(2), 0, "sweep, once expired: a code dropped"), (middle(3), -30, "sweep, once expired"),
            (middle(3) + 30, -60, f"token, the code a second time: refused by {numbers()['CodeRedeemed']}, and freed at once, expired or not")]):
        y, end = bottom + 30 + place * 28, middle(0) + shift
        sheet.arrow((begin, bottom + 2), (begin, y), (end, y), (end, bottom + 3))
        sheet.words(middle(0) + 72, y - 6, words, 11)


def legend(sheet):
    y = TOP + TALL + 194
    sheet.words(LEFT, y, "A refusal gives its number, zeros beside it, and changes no byte; 15 alone frees its record and sets the clock. Expired: now is at or past the expiry. The numbers, as the definitions name them:", 12)
    rows = sorted((number, spaced(name)) for name, number in numbers().items())
    for place, (number, name) in enumerate(rows):
        column, row = divmod(place, -(-len(rows) // 5))
        sheet.words(LEFT + column * 245, y + 24 + row * 18, f"{number:>2}  {name}", 12)
