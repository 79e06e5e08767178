"""A page of a picture: boxes, words and arrows as SVG. A page refuses words that leave their box or cross other words,
by the widths of a wide sans-serif font, so that a viewer with another font shows no overlap either."""

INK, GREY, LINE = "#222", "#666", "#8a8a8a"
BLUE, TEAL, ORANGE, GREEN, RED = "#164a9c", "#1f7480", "#b35806", "#176b2c", "#b3151b"
PALE = {
    "": "#fff", GREY: "#f3f3f3", BLUE: "#e6eefa", TEAL: "#e0f2f4", ORANGE: "#fdebd8", GREEN: "#e0f3e4", RED: "#fae3e3",
}
TRUSTED, BESIDE = "#f6c65b", "#fdeec6"
WIDTH = 900

# Widths of characters, as parts of the font's size; all others are 0.65.
NARROW = {**dict.fromkeys("ijl'", 0.29), **dict.fromkeys(" ,.:;|!/()[]-frtI", 0.42), **dict.fromkeys("mwMW@%+=<>", 1.0)}
CAPITAL = 0.79


def width(words, size, bold=False):
    """How wide words are at most, in pixels."""
    ems = sum(NARROW.get(c, CAPITAL if c.isupper() else 0.65) for c in words)
    return ems * size * (1.12 if bold else 1)


def folded(words, room, size):
    """Words in lines that are no wider than the room."""
    lines = [""]
    for word in words.split():
        longer = (lines[-1] + " " + word).strip()
        if width(longer, size) <= room or not lines[-1]:
            lines[-1] = longer
        else:
            lines.append(word)
    return lines


class Page:
    """A white page, as wide as all others, with a heading, and a sentence for those who cannot see it."""

    def __init__(self, height, heading, told):
        self.height, self.heading, self.told = height, heading, told
        self.drawn, self.placed = [], []
        self.words(20, 30, heading, size=17, bold=True)

    def words(self, x, y, words, size=12, bold=False, colour=INK, anchor="start", room=None):
        """A line of words at its base line. With a room, no wider than that."""
        wide = width(words, size, bold)
        left = x - {"start": 0, "middle": wide / 2, "end": wide}[anchor]
        here = (left, y - 0.78 * size, left + wide, y + 0.22 * size)
        if room is not None and wide > room:
            raise ValueError("too wide by %d: %s" % (wide - room, words))
        if here[0] < 4 or here[2] > WIDTH - 4 or here[1] < 0 or here[3] > self.height:
            raise ValueError("off the page: " + words)
        for there, other in self.placed:
            if here[0] < there[2] and there[0] < here[2] and here[1] < there[3] and there[1] < here[3]:
                raise ValueError("crosses %r: %r" % (other, words))
        self.placed.append((here, words))
        style = "".join((
            " font-size='%g'" % size,
            " font-weight='bold'" if bold else "",
            " fill='%s'" % colour if colour != INK else "",
            " text-anchor='%s'" % anchor if anchor != "start" else "",
        ))
        escaped = words.replace("&", "&amp;").replace("<", "&lt;")
        self.drawn.append("<text x='%g' y='%g'%s>%s</text>" % (x, y, style, escaped))

    def lines(self, x, y, words, room, size=12, **style):
        """Words folded into lines from this base line on; the base line after the last."""
        for line in folded(words, room, size):
            self.words(x, y, line, size=size, room=room, **style)
            y += size + 4
        return y

    def rect(self, x, y, w, h, fill="#fff", stroke=LINE, dashed=False, thick=1.2, round_=5):
        dash = " stroke-dasharray='5 3'" if dashed else ""
        self.drawn.append(
            "<rect x='%g' y='%g' width='%g' height='%g' rx='%g' fill='%s' stroke='%s' stroke-width='%g'%s/>"
            % (x, y, w, h, round_, fill, stroke, thick, dash)
        )

    def box(self, x, y, w, h, title, words, colour=GREY, dashed=False):
        """A box with a title and folded words; they must not run over its foot."""
        self.rect(x, y, w, h, fill=PALE[colour], stroke=colour or LINE, dashed=dashed)
        at = y + 19
        for line in folded(title, (w - 18) / 1.12, 13):
            self.words(x + 9, at, line, size=13, bold=True, colour=colour if colour != GREY else INK, room=w - 18)
            at += 17
        at = self.lines(x + 9, at + 1, words, w - 18)
        if at - 16 > y + h - 5:
            raise ValueError("too low by %d: %s" % (at - 16 - y - h + 5, title))

    def arrow(self, *points, colour=INK, dashed=False):
        """A line through points with a head at the last one; its parts go along or down the page."""
        (px, py), (x, y) = points[-2:]
        dx, dy = (x > px) - (x < px), (y > py) - (y < py)
        path = "M" + "L".join("%g %g" % point for point in points[:-1] + ((x - 7 * dx, y - 7 * dy),))
        dash = " stroke-dasharray='5 3'" if dashed else ""
        self.drawn.append("<path d='%s' fill='none' stroke='%s' stroke-width='1.8'%s/>" % (path, colour, dash))
        sides = [(x - 9 * dx - 5 * dy * s, y - 9 * dy - 5 * dx * s) for s in (1, -1)]
        self.drawn.append(
            "<path d='M%g %gL%g %gL%g %gz' fill='%s'/>" % ((x, y) + sides[0] + sides[1] + (colour,))
        )

    def svg(self):
        head = (
            "<svg xmlns='http://www.w3.org/2000/svg' role='img' width='%d' height='%d' viewBox='0 0 %d %d'"
            " font-family='sans-serif' fill='%s'>" % (WIDTH, self.height, WIDTH, self.height, INK)
        )
        told = ["<title>%s</title>" % self.heading, "<desc>%s</desc>" % self.told]
        ground = ["<rect width='100%' height='100%' fill='#fff'/>"]
        return "\n".join([head] + told + ground + self.drawn + ["</svg>"]) + "\n"
