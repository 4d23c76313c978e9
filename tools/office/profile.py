"""The profile of oe-draw: a runway or a heliport from the side, the surfaces over it, and the structures near it."""
import math
from collections.abc import Sequence
from dataclasses import dataclass

from office import lists, picture
from office.faults import Fault
from office.lists import Listing, Numbered
from office.picture import INK, MARKS, SOFT, Pixel, Style, Svg, figure
from office.register import CIVIL, Airfield, Heliport
from office.sheet import MILE, MILE_BARS
from office.sides import HeliportSide, Near, RunwaySide, Side, Trace
from office.structures import Finding, Structure
from office.surfaces import has_surfaces

WIDE, HIGH = 1200, 700
LEFT, TOP, RIGHT, BOTTOM = 76, 196, 1176, 560
EARTH = "#7a5a3a"
NAME_ROWS = 4


@dataclass(frozen=True)
class Options:
    """`within` is how far beside the line structures are shown, or nothing for what is usual there."""
    title: str | None
    source: str
    within: float | None = None
    whole: bool = False
    notice: bool = False
    every: bool = False


class Scale:
    """From feet to pixels; heights are drawn steeper than they are."""
    def __init__(self, west: float, east: float, low: float, high: float):
        self.west, self.east = west - (east - west) * .015, east + (east - west) * .015
        self.low, self.high = low - (high - low) * .08, high + (high - low) * .06
        self.across, self.up = (RIGHT - LEFT) / (self.east - self.west), (BOTTOM - TOP) / (self.high - self.low)

    def __call__(self, along: float, height: float) -> Pixel:
        return LEFT + (along - self.west) * self.across, BOTTOM - (height - self.low) * self.up


def draw_axes(svg: Svg, at: Scale, side: Side) -> None:
    step = picture.round_step(at.high - at.low, 6)
    for i in range(math.floor(at.low / step) + 1, math.floor(at.high / step) + 1):
        y = at(0, i * step)[1]
        svg.line((LEFT, y), (RIGHT, y), "#e2ded3")
        svg.words((LEFT - 9, y + 4), figure(i * step, 0), Style(11.5, SOFT, "end"))
    svg.words((22, (TOP + BOTTOM) / 2), "feet above mean sea level", Style(12, SOFT, "middle", turn=-90))
    step = picture.round_step(at.east - at.west, 8)
    for i in range(math.floor(at.west / step) + 1, math.floor(at.east / step) + 1):
        x = at(i * step, 0)[0]
        svg.line((x, BOTTOM), (x, BOTTOM + 6))
        svg.words((x, BOTTOM + 20), figure(i * step, 0), Style(11.5, SOFT, "middle"))
    svg.words((RIGHT, BOTTOM + 38), side.origin, Style(12, SOFT, "end"))
    miles = max(bar for bar in MILE_BARS if bar * MILE < (at.east - at.west) / 5)
    mile = miles * MILE * at.across
    svg.line((LEFT, BOTTOM + 36), (LEFT + mile, BOTTOM + 36), INK, 2)
    for x in (LEFT, LEFT + mile):
        svg.line((x, BOTTOM + 31), (x, BOTTOM + 41), INK, 1.4)
    svg.words((LEFT + mile + 8, BOTTOM + 40), f"{miles:g} NM", Style(12, bold=True))
    svg.box((LEFT, TOP, RIGHT, BOTTOM), stroke=INK, width=1.2)


def draw_ground(svg: Svg, at: Scale, side: Side) -> None:
    (a, low), (b, high) = side.ground
    svg.line(at(a, low), at(b, high), "#10161c", 3)
    for label in side.labels:
        x, y = at(label.along, low if label.along <= (a + b) / 2 else high)
        svg.words((x, y + 18), label.words, Style(13, anchor="middle", bold=True, halo=True))
        svg.take((x - 12, y + 4, x + 12, y + 24))


def name_trace(svg: Svg, at: Scale, trace: Trace) -> None:
    """Words along a line, where they cover least."""
    (ax, ay), (bx, by) = at(*trace.line[0]), at(*trace.line[-1])
    length, wide = math.hypot(bx - ax, by - ay), picture.width_of(trace.words, 12)
    if not trace.words or length < wide * .9:
        return
    u, v, half = (bx - ax) / length, (by - ay) / length, wide / 2 / length
    turn = picture.upright(math.degrees(math.atan2(by - ay, bx - ax)))

    def place(part: float, off: float) -> Pixel:
        return ax + (bx - ax) * part - v * off, ay + (by - ay) * part + u * off

    def cost(choice: tuple[float, float]) -> tuple[int, float]:
        boxes = picture.boxes_along(place(*choice), turn, wide)
        return round(sum(map(svg.clash, boxes))), abs(choice[0] - .6)
    choices = [(i / 40, off) for i in range(41) for off in (-11, 11) if half <= i / 40 <= 1 - half] or [(.5, -11), (.5, 11)]
    best = place(*min(choices, key=cost))
    down = math.cos(math.radians(turn)) * 4
    svg.words((best[0] - math.sin(math.radians(turn)) * 4, best[1] + down), trace.words,
              Style(12, trace.colour, "middle", italic=True, halo=True, turn=turn))
    for box in picture.boxes_along(best, turn, wide):
        svg.take(box)


def draw_names(svg: Svg, at: Scale, near: Sequence[Near]) -> list[Numbered]:
    """Names in rows above the picture, each with a thin line down to its mast, which passes behind other names. What has no room is given back."""
    rows: list[list[tuple[float, float]]] = [[] for _ in range(NAME_ROWS)]
    words, rest = [], []
    for one in near:
        x, y = at(one.along, one.structure.top)
        text = f"{one.number} {picture.cut(one.structure.name or f'line {one.structure.line}', 12, 140)}"
        wide = max(picture.width_of(text, 12.5), picture.width_of(one.side, 11)) + 12
        left = min(max(x - wide / 2, LEFT), RIGHT - wide)
        row = next((i for i, taken in enumerate(rows) if all(left > b or left + wide < a for a, b in taken)), None)
        if row is None:  # its number alone, by its top
            svg.label((x, y), str(one.number), Style(12.5, MARKS[one.structure.finding].text, bold=True), 10, (LEFT, TOP, RIGHT, BOTTOM))
            rest.append((one.number, one.structure))
            continue
        rows[row].append((left, left + wide))
        top = TOP - 30 - row * 29
        svg.line((x, top + 20), (x, y), MARKS[one.structure.finding].symbol, .8, "2 3")
        words.append(((left + wide / 2, top), text, one))
    for (x, top), text, one in words:
        svg.words((x, top + 2), text, Style(12.5, MARKS[one.structure.finding].text, "middle", bold=True, halo=True))
        svg.words((x, top + 15), one.side, Style(11, SOFT, "middle", halo=True))
    return sorted(rest, key=lambda row: row[0])


def draw_mast(svg: Svg, at: Scale, one: Near) -> None:
    """From the ground to the top; red is what stands above the lowest standard that the desk found exceeded."""
    structure = one.structure
    foot, top = at(one.along, structure.ground), at(one.along, structure.top)
    svg.put(f'<g opacity="{1 if one.is_under else .55}">')
    svg.line(foot, top, INK if one.is_under else SOFT, 3.2)
    if structure.excess:
        svg.line(at(one.along, max(structure.top - structure.excess, structure.ground)), top, MARKS[Finding.OBSTRUCTION].symbol, 3.2)
    svg.line((foot[0] - 9, foot[1]), (foot[0] + 9, foot[1]), EARTH, 3)
    svg.put("</g>")
    svg.symbol(top, structure.finding, 6.5)


def draw_key(svg: Svg, near: Sequence[Near]) -> None:
    x: float = LEFT
    y = HIGH - 56
    for finding in [finding for finding in MARKS if any(one.structure.finding is finding for one in near)]:
        svg.symbol((x + 7, y - 4.5), finding, 6.5)
        svg.words((x + 20, y), MARKS[finding].words, Style(12))
        x += 40 + picture.width_of(MARKS[finding].words, 12)
    x, y = LEFT, HIGH - 35
    red = MARKS[Finding.OBSTRUCTION].symbol
    for colour, words in ((red, "what stands above the lowest standard exceeded"), (EARTH, "ground as entered (no terrain between)")):
        svg.line((x, y - 4), (x + 16, y - 4), colour, 3)
        svg.words((x + 24, y), words, Style(12))
        x += 48 + picture.width_of(words, 12)
    svg.words((x, y), "pale masts: beside the primary and approach surface", Style(12, SOFT))


def side_of(airfields: dict[str, Airfield], chosen: str, options: Options) -> Side:
    """The side that ID:RUNWAY names, by the runway or one of its ends, or the ID of a heliport."""
    name, _, runway = chosen.partition(":")
    airfield = airfields[name]
    if isinstance(airfield, Heliport):
        if runway:
            raise Fault(f"{name} is a heliport and has no runway: write --profile {name}")
        if not has_surfaces(airfield):
            raise Fault(f'{name} is "{airfield.category}": the surfaces of 77.23 do not stand over it')
        return HeliportSide(airfield, options.notice)
    ends = set(runway.split("/"))
    names = [name for name in airfield.runways if name == runway] or [name for name in airfield.runways if ends <= set(name.split("/"))]
    if len(names) != 1 or not runway:
        raise Fault(f"{name} has no runway {runway or '(none was named: write ID:RUNWAY)'}; it has: {', '.join(airfield.runways) or 'none'}")
    if airfield.category not in CIVIL:
        raise Fault(f'{name} is "{airfield.category}": the surfaces of 77.19 do not stand over it')
    return RunwaySide(airfield, names[0], options.whole, options.notice)


def draw_lines(svg: Svg, at: Scale, side: Side, near: Sequence[Near], traces: Sequence[Trace]) -> None:
    """The surfaces with their names, clear of the structures."""
    for trace in traces:
        svg.polyline([at(*place) for place in trace.line], trace.colour, trace.width, trace.dash)
    draw_ground(svg, at, side)
    for one in near:
        place = at(one.along, one.structure.top)
        svg.take_about(place, 8, 8)
        svg.take_along(place, at(one.along, one.structure.ground), 4)
    for trace in traces:
        svg.take_along(at(*trace.line[0]), at(*trace.line[-1]), 2)
    for trace in traces:
        name_trace(svg, at, trace)


def draw(airfields: dict[str, Airfield], chosen: str, structures: Sequence[Structure], options: Options) -> list[Svg]:
    """The profile, and the sheets that list the structures whose names have no room in it."""
    side = side_of(airfields, chosen, options)
    within = side.beside if options.within is None else options.within
    near, traces = side.near(structures, within), side.traces()
    heights = [height for trace in traces for _, height in trace.line]
    heights += [height for one in near for height in (one.structure.ground, one.structure.top)]
    at = Scale(side.west, side.east, min(heights), max(heights))
    svg = Svg(WIDE, HIGH, options.title or side.title)
    svg.words((LEFT, 38), svg.title, Style(22, bold=True))
    svg.words((LEFT, 60), f"{side.lead} Heights are drawn {at.up / at.across:.0f} times as steep as they are. "
              f"Shown: {len(near)} of {len(structures)} structure{'' if len(structures) == 1 else 's'}, at most {figure(within, 0)} ft beside it.", Style(13, SOFT))
    svg.box((LEFT, TOP, RIGHT, BOTTOM), picture.GROUND)
    draw_axes(svg, at, side)
    draw_lines(svg, at, side, near, traces)
    rest = draw_names(svg, at, near)
    order = list(Finding)
    for one in sorted(near, key=lambda one: -order.index(one.structure.finding)):  # the gravest finding above the others
        draw_mast(svg, at, one)
    draw_key(svg, near)
    rows = sorted(((one.number, one.structure) for one in near), key=lambda row: row[0]) if options.every else rest
    listing = Listing(rows, {number for number, _ in rows}, 0, len(airfields), 0, options.every)
    return lists.sheets(svg, rest, listing, "Structures that stand in the profile by their number alone", options.source)
