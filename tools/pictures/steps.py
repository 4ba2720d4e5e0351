"""The four steps of a grant between program, front, holder and desk, with what each holds."""
from read import limit
from sheet import AMBER, BLUE, GREEN, GREY, LINE, PAPER, SOFT, WHITE, Sheet, width_of, wrapped

LANES = [("The program", BLUE, "its key; a secret of its own"), ("The web front", GREY, "logins, certificates, random numbers, the time"),
         ("The holder", AMBER, "her login, her choice"), ("The desk", GREEN, "the ledger: one record a grant, and the clock")]
MIDDLE, HALF = [150, 440, 730, 1020], 115
HEAD, BAND = 118, 204


def bands():
    """Each step: its name; its arrows as lane, lane, words; what program and desk hold afterwards."""
    reference, most, code, token = limit("reference_lifetime"), limit("lifetime_most"), limit("code_lifetime"), limit("token_lifetime")
    yield ("1  push", [(0, 1, "request, hash of the secret"), (1, 3, "push: client id, key it has verified, scope, challenge, redirect, fresh value"),
                       (3, 1, "done; the fresh value is the reference"), (1, 0, "reference")],
           "secret, reference", f"state 1: client, scope, challenge, reference; expires at now + {reference}, or what its client's record says, {most} at most")
    yield ("2  decide", [(0, 2, "reference, by her browser"), (2, 1, "logs in, sees the request (pending), allows it"),
                         (1, 3, "decide: reference, client id, yes, her number, fresh value"),
                         (3, 1, "done, and the redirect; the fresh value is the code"), (1, 0, "code, by her browser")],
           "secret, code", f"state 2: her number, the code over the reference; expires at now + {code}")
    yield ("3  token", [(0, 1, "code, secret, key"), (1, 3, "token: client id, keys it has verified, code, secret, fresh value"),
                        (3, 1, "done; the fresh value is the token"), (1, 0, "token")],
           "token, key", f"state 3: the token, the key it is tied to, the code; expires at now + {token}")
    yield ("4  resource", [(0, 1, "token, key, what it asks"), (1, 3, "resource: token, key it has verified, scope asked, holder asked"),
                           (3, 1, "done: grant number, holder, scope, expiry"), (1, 0, "the figures she allowed")],
           "her figures, as far as she allowed", "state 3, as before; only the clock moved")


def draw():
    height = HEAD + 4 * BAND + 56
    sheet = Sheet(1180, height, "The four steps of a grant", "Push, decide, token and resource, between the program, the web front, the holder and the desk.")
    for (name, fill, holds), x in zip(LANES, MIDDLE):
        sheet.box(x - HALF, 16, 2 * HALF, 76, fill)
        sheet.words(x, 38, name, 15, bold=True, anchor="middle")
        sheet.lines(x, 58, wrapped(f"holds {holds}", 11, 2 * HALF - 8), 11, anchor="middle", fill=SOFT)
        sheet.add("line", x1=x, y1=92, x2=x, y2=height - 44, stroke=LINE, stroke_dasharray="3 4")
    for number, (name, arrows, program, desk) in enumerate(bands()):
        top = HEAD + number * BAND
        sheet.add("line", x1=16, y1=top - 12, x2=1164, y2=top - 12, stroke=LINE)
        sheet.box(16, top - 4, 112, 24, WHITE)
        sheet.words(24, top + 13, name, 13, bold=True)
        for place, (a, b, words) in enumerate(arrows):
            y = top + 32 + place * 28
            way = 8 if b > a else -8
            sheet.arrow((MIDDLE[a] + way, y), (MIDDLE[b] - way, y))
            label(sheet, MIDDLE[a], MIDDLE[b], y - 6, words)
        for lane, fill, holds in ((0, BLUE, program), (3, GREEN, desk)):
            lines = wrapped(holds, 11, 2 * HALF - 14)
            y = top + BAND - 22 - 15 * len(lines) - 6
            sheet.box(MIDDLE[lane] - HALF, y, 2 * HALF, 15 * len(lines) + 8, fill)
            sheet.lines(MIDDLE[lane], y + 15, lines, 11, 15, anchor="middle")
    sheet.words(16, height - 20, "A refused call gives out a number alone, and changes nothing unless a code comes twice. Two readings under one grant show the same program and the same key: "
                "so the answer is one.", 12)
    return sheet


def label(sheet, a, b, y, words):
    """Words on an arrow, on paper so that a lane's line does not cross them."""
    middle, wide = (a + b) / 2, width_of(words, 11)
    sheet.add("rect", x=round(middle - wide / 2 - 2), y=y - 11, width=round(wide + 4), height=14, fill=PAPER)
    sheet.words(round(middle), y, words, 11, anchor="middle")
