"""A sheet to draw on, as SVG: boxes, words, arrows. One style for all pictures; the background is set, so that they read on light and on dark."""
from html import escape

INK, PAPER, LINE, SOFT = "#1c2733", "#fbfaf6", "#5b6b7a", "#46535f"
BLUE, GREEN, AMBER, GREY, WHITE = "#d6e6f5", "#d9ecd6", "#f8e6bd", "#e6e6e1", "#ffffff"
FONT = "Verdana, 'DejaVu Sans', sans-serif"
WIDE = 0.61  # of a character, in its size: wider than most, so that words fit


def width_of(words, size):
    return len(words) * size * WIDE


def wrapped(words, size, room):
    """Words as lines that fit the room."""
    lines = []
    for word in words.split():
        if lines and width_of(f"{lines[-1]} {word}", size) <= room:
            lines[-1] += f" {word}"
        else:
            lines.append(word)
    return lines


class Sheet:
    def __init__(self, width, height, title, about):
        self.width, self.height, self.title, self.about, self.parts = width, height, title, about, []

    def add(self, kind, inner=None, **words):
        said = " ".join(f'{name.rstrip("_").replace("_", "-")}="{value}"' for name, value in words.items())
        self.parts.append(f"  <{kind} {said}/>" if inner is None else f"  <{kind} {said}>{inner}</{kind}>")

    def box(self, x, y, width, height, fill=WHITE, line=LINE, round_=6, dash=None):
        more = {"stroke_dasharray": dash} if dash else {}
        self.add("rect", x=x, y=y, width=width, height=height, rx=round_, fill=fill, stroke=line, **more)

    def words(self, x, y, text, size=13, bold=False, anchor="start", fill=INK, italic=False):
        more = ({"font_weight": "bold"} if bold else {}) | ({"font_style": "italic"} if italic else {})
        self.add("text", escape(text, quote=False), x=x, y=y, font_size=size, text_anchor=anchor, fill=fill, **more)

    def lines(self, x, y, lines, size=13, step=None, **more):
        """Lines of words, one below the other; answers the place below them."""
        for line in lines:
            self.words(x, y, line, size, **more)
            y += step or round(size * 1.4)
        return y

    def arrow(self, *points, dash=None, head=True):
        more = ({"stroke_dasharray": dash} if dash else {}) | ({"marker_end": "url(#head)"} if head else {})
        self.add("polyline", points=" ".join(f"{x},{y}" for x, y in points), fill="none", stroke=INK, stroke_width=1.5, **more)

    def text(self):
        return "\n".join([
            f'<svg xmlns="http://www.w3.org/2000/svg" width="{self.width}" height="{self.height}" viewBox="0 0 {self.width} {self.height}" '
            f'font-family="{FONT}" role="img">',
            f"  <title>{escape(self.title, quote=False)}</title>",
            f"  <desc>{escape(self.about, quote=False)}</desc>",
            '  <defs><marker id="head" viewBox="0 0 10 10" refX="9" refY="5" markerWidth="8" markerHeight="8" orient="auto-start-reverse">'
            f'<path d="M0,0 L10,5 L0,10 z" fill="{INK}"/></marker></defs>',
            f'  <rect width="{self.width}" height="{self.height}" fill="{PAPER}"/>',
            *self.parts, "</svg>", ""])
