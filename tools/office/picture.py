"""SVG for the pictures: paints, symbols, and labels that keep clear of each other. Lengths are pixels."""
import math
from collections.abc import Sequence
from dataclasses import dataclass, field
from xml.sax.saxutils import escape

from office.structures import Finding
from office.surfaces import Look

INK, SOFT, PAPER, RULE, GROUND = "#1f2933", "#5b6875", "#fcfbf8", "#c9c4b8", "#f4f2ec"
FONT = "Helvetica Neue, Helvetica, Arial, Liberation Sans, DejaVu Sans, sans-serif"
LETTER = 0.56  # the mean width of a letter, of its size
MINUS = "\u2212"
Box = tuple[float, float, float, float]  # left, top, right, bottom
Pixel = tuple[float, float]


@dataclass(frozen=True)
class Paint:
    fill: str
    opacity: float
    line: str
    dash: str = ""


LOOKS = {
    Look.HORIZONTAL: Paint("#a9cfa4", .42, "#5e9459"), Look.CONICAL: Paint("#e9dba6", .50, "#b39a43"),
    Look.PRIMARY: Paint("#5f6f82", .55, "#3f4d5c"), Look.APPROACH: Paint("#5b8fc9", .50, "#2f5f99"),
    Look.SECOND_APPROACH: Paint("#8fb6dd", .34, "#2f5f99"), Look.TRANSITIONAL: Paint("#9a7bb5", .42, "#77589a"),
    Look.BEYOND_CONE: Paint("#9a7bb5", .16, "#77589a", "4 3"),
}
NOTICE_LINE, CIRCLE_LINE = "#b87512", "#a3404a"


@dataclass(frozen=True)
class Mark:
    """How a finding is shown: the colour of its symbol, that of its words, the words, and the corners of the symbol."""
    symbol: str
    text: str
    words: str
    corners: tuple[Pixel, ...] = ()


MARKS = {
    Finding.OBSTRUCTION: Mark("#c1272d", "#a81f26", "obstruction (a standard is exceeded)", ((0, -1.2), (1.15, .85), (-1.15, .85))),
    Finding.NOTICE: Mark("#e29a1a", "#945a00", "notice only (77.9)", ((0, -1.15), (1.15, 0), (0, 1.15), (-1.15, 0))),
    Finding.NONE: Mark("#17806f", "#11655a", "no rule of the desk is met"),
    Finding.UNKNOWN: Mark("#7a828a", "#5b6875", "not judged yet"),
}


def number(value: float) -> str:
    """A coordinate of an SVG."""
    return f"{value:.1f}".rstrip("0").rstrip(".")


def points(some: Sequence[Pixel]) -> str:
    return " ".join(f"{number(x)},{number(y)}" for x, y in some)


def figure(value: float, places: int = 1) -> str:
    """A number for a reader of the picture."""
    return f"{value:,.{places}f}".replace("-", MINUS)


def width_of(text: str, size: float) -> float:
    return LETTER * size * len(text)


def cut(text: str, size: float, width: float) -> str:
    """A text that fits a width, its end left out where it is longer."""
    most = max(1, int(width / (LETTER * size)))
    return text if len(text) <= most else text[:most - 1].rstrip() + "\u2026"


def round_step(span: float, parts: int) -> float:
    """A round length, 1, 2 or 5 with zeros, that parts a span into about so many."""
    power = 10 ** math.floor(math.log10(span / parts))
    return min((step * power for step in (1, 2, 5, 10)), key=lambda step: abs(step - span / parts))


def upright(turn: float) -> float:
    """A turn of words in degrees, so that they are not upside down."""
    return (turn + 90) % 180 - 90


@dataclass(frozen=True)
class Style:
    """Of words. A halo of the paper's colour keeps them legible over lines."""
    size: float = 13
    fill: str = INK
    anchor: str = "start"
    bold: bool = False
    italic: bool = False
    halo: bool = False
    turn: float = 0

    def attributes(self, at: Pixel) -> str:
        out = f'font-size="{number(self.size)}" text-anchor="{self.anchor}"'
        out += f' transform="rotate({number(self.turn)} {number(at[0])} {number(at[1])})"' if self.turn else ""
        return out + (' font-weight="bold"' if self.bold else "") + (' font-style="italic"' if self.italic else "")


BESIDE = (  # where a label may stand: across and down, in gaps from its point, and its anchor
    (1, 0, "start"), (-1, 0, "end"), (.7, -1, "start"), (.7, 1, "start"), (-.7, -1, "end"), (-.7, 1, "end"), (0, -1.3, "middle"), (0, 1.3, "middle"))
FARTHER = (0, 14, 30, 48)  # pixels by which it may move off
CELL = 50  # pixels
OUTSIDE = 1e6  # the cost of a label that leaves its room


@dataclass(frozen=True)
class Place:
    """A place for a label, its box, and what it costs: pixels that are covered, and the way from the point."""
    cost: float
    at: Pixel
    anchor: str
    box: Box
    is_far: bool


def cells(box: Box) -> list[tuple[int, int]]:
    """The cells of the sheet that a box meets."""
    left, top, right, bottom = (math.floor(edge / CELL) for edge in box)
    return [(column, row) for column in range(left, right + 1) for row in range(top, bottom + 1)]


@dataclass
class Svg:
    width: int
    height: int
    title: str
    out: list[str] = field(default_factory=list)
    taken: dict[tuple[int, int], list[Box]] = field(default_factory=dict)  # by the cells of CELL pixels that they meet

    def put(self, text: str) -> None:
        self.out.append(text)

    def words(self, at: Pixel, text: str, style: Style = Style()) -> None:
        place = f'<text x="{number(at[0])}" y="{number(at[1])}" {style.attributes(at)}'
        if style.halo:  # a text of its own: not every program knows paint-order
            self.put(f'{place} fill="none" stroke="{PAPER}" stroke-width="3.5" stroke-linejoin="round" stroke-opacity=".85">{escape(text)}</text>')
        self.put(f'{place} fill="{style.fill}">{escape(text)}</text>')

    def line(self, a: Pixel, b: Pixel, stroke: str = INK, width: float = 1, dash: str = "") -> None:
        self.polyline([a, b], stroke, width, dash)

    def polyline(self, some: Sequence[Pixel], stroke: str, width: float, dash: str = "") -> None:
        extra = f' stroke-dasharray="{dash}"' if dash else ""
        self.put(f'<polyline points="{points(some)}" fill="none" stroke="{stroke}" stroke-width="{number(width)}"{extra}/>')

    def circle(self, at: Pixel, radius: float, stroke: str, width: float, fill: str = "none", dash: str = "") -> None:
        extra = f' stroke-dasharray="{dash}"' if dash else ""
        self.put(f'<circle cx="{number(at[0])}" cy="{number(at[1])}" r="{number(radius)}" fill="{fill}" stroke="{stroke}" '
                 f'stroke-width="{number(width)}"{extra}/>')

    def box(self, box: Box, fill: str = "none", stroke: str = "none", width: float = 1, opacity: float = 1) -> None:
        left, top, right, bottom = box
        self.put(f'<rect x="{number(left)}" y="{number(top)}" width="{number(right - left)}" height="{number(bottom - top)}" fill="{fill}" '
                 f'fill-opacity="{opacity:g}" stroke="{stroke}" stroke-width="{number(width)}"/>')

    def area(self, some: Sequence[Pixel], look: Look, hole: Sequence[Pixel] = (), extra: str = "") -> None:
        """A polygon as a surface is painted. A hole lies within it."""
        paint = LOOKS[look]
        rings = " ".join(f"M{points(ring)}Z" for ring in (some, hole) if ring)
        dash = f' stroke-dasharray="{paint.dash}"' if paint.dash else ""
        self.put(f'<path fill-rule="evenodd" d="{rings}" fill="{paint.fill}" fill-opacity="{paint.opacity}" stroke="{paint.line}" '
                 f'stroke-linejoin="round"{dash}{extra}/>')

    def symbol(self, at: Pixel, finding: Finding, size: float = 7) -> None:
        """Each finding has a shape of its own, so that it is told without colour too."""
        mark = MARKS[finding]
        if mark.corners:
            corners = [(at[0] + x * size, at[1] + y * size) for x, y in mark.corners]
            self.put(f'<polygon points="{points(corners)}" fill="{mark.symbol}" stroke="#fff" stroke-width="1.4"/>')
        elif finding is Finding.UNKNOWN:
            self.circle(at, size * .82, mark.symbol, 2, PAPER)
        else:
            self.circle(at, size * .82, "#fff", 1.4, mark.symbol)

    def take(self, box: Box) -> None:
        """Labels keep clear of this box from now on."""
        for cell in cells(box):
            self.taken.setdefault(cell, []).append(box)

    def take_about(self, at: Pixel, across: float, down: float) -> None:
        self.take((at[0] - across, at[1] - down, at[0] + across, at[1] + down))

    def take_along(self, a: Pixel, b: Pixel, half: float) -> None:
        steps = max(1, int(math.dist(a, b) / half))
        for i in range(steps + 1):
            self.take_about((a[0] + (b[0] - a[0]) * i / steps, a[1] + (b[1] - a[1]) * i / steps), half, half)

    def clash(self, box: Box) -> float:
        """How many square pixels of a box are taken."""
        left, top, right, bottom = box
        near = {other for cell in cells(box) for other in self.taken.get(cell, ())}
        return sum((min(right, r) - max(left, p)) * (min(bottom, t) - max(top, q))
                   for p, q, r, t in near if p < right and r > left and q < bottom and t > top)

    def places(self, at: Pixel, text: str, size: float, gap: float, room: Box) -> list[Place]:
        wide, out = width_of(text, size), []
        for far in FARTHER:
            for order, (across, down, anchor) in enumerate(BESIDE):
                x, y = at[0] + across * (gap + far), at[1] + down * (gap + far) + size * .35
                left = x - {"start": 0, "middle": wide / 2, "end": wide}[anchor]
                box = left - 2, y - size, left + wide + 2, y + size * .3
                is_inside = room[0] <= box[0] and box[2] <= room[2] and room[1] <= box[1] and box[3] <= room[3]
                cost = self.clash(box) + far * 3 + order + (0 if is_inside else OUTSIDE)
                out.append(Place(cost, (x, y), anchor, box, far > 0))
        return out

    def label(self, at: Pixel, text: str, style: Style, gap: float, room: Box) -> None:
        """Words beside a point, where they cover least; a thin line leads to them where they are far off."""
        best = min(self.places(at, text, style.size, gap, room), key=lambda place: place.cost)
        if best.is_far:
            self.line(at, (best.at[0], best.at[1] - style.size * .35), SOFT, .8)
        self.take(best.box)
        self.words(best.at, text, Style(style.size, style.fill, best.anchor, style.bold, style.italic, True))


def stacked(sheets: Sequence[Svg]) -> str:
    """Sheets as the text of one SVG, each below the one before it."""
    width, height, top = sheets[0].width, sum(sheet.height for sheet in sheets), 0
    out = [f'<svg xmlns="http://www.w3.org/2000/svg" viewBox="0 0 {width} {height}" width="{width}" height="{height}" font-family="{FONT}" role="img">',
           f'<title>{escape(sheets[0].title)}</title><rect width="{width}" height="{height}" fill="{PAPER}"/>', *sheets[0].out]
    for above, sheet in zip(sheets, sheets[1:]):
        top += above.height
        out += [f'<g transform="translate(0 {top})">', f'<path d="M0,0H{width}" stroke="{RULE}"/>', *sheet.out, "</g>"]
    return "\n".join([*out, "</svg>"]) + "\n"


def boxes_along(at: Pixel, turn: float, length: float) -> list[Box]:
    """Small boxes under words that stand turned about a point."""
    u, v = math.cos(math.radians(turn)), math.sin(math.radians(turn))
    return [(at[0] + u * step - 6, at[1] + v * step - 6, at[0] + u * step + 6, at[1] + v * step + 6)
            for step in range(-int(length / 2), int(length / 2) + 1, 8)]
