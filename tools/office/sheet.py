"""The sheet of a plan without its airfields: the frame with its grid, the scale bars, and the panel beside the map."""
import math
from collections.abc import Sequence

from office import lists, picture
from office.lists import WIDE, Listing, Numbered
from office.picture import INK, MARKS, PAPER, RULE, SOFT, Box, Pixel, Style, Svg, figure
from office.register import Point
from office.structures import Finding
from office.surfaces import Look

HIGH = 940
MAP: Box = (64, 76, 860, 872)
MILE = 6_076.1  # a nautical mile in feet
LEAST_SIDE, MARGIN = 4_000, 1.06  # feet of the smallest map, and the room around what is drawn
MILE_BARS = (.1, .2, .5, 1, 2, 5, 10, 20, 50)


class Frame:
    """From feet of the grid to pixels of the map, which shows a square of it."""
    def __init__(self, west: float, south: float, east: float, north: float):
        self.side = max(east - west, north - south, LEAST_SIDE) * MARGIN
        self.west, self.south = (west + east - self.side) / 2, (south + north - self.side) / 2
        self.scale = (MAP[2] - MAP[0]) / self.side

    def __call__(self, at: Point) -> Pixel:
        return MAP[0] + (at[0] - self.west) * self.scale, MAP[3] - (at[1] - self.south) * self.scale

    def all(self, some: Sequence[Point]) -> list[Pixel]:
        return [self(at) for at in some]

    def has(self, at: Point, margin: float = 0) -> bool:
        x, y = self(at)
        return MAP[0] + margin <= x <= MAP[2] - margin and MAP[1] + margin <= y <= MAP[3] - margin


def ticks(low: float, side: float) -> list[float]:
    step = picture.round_step(side, 5)
    edge = side * .02  # a label at a corner would meet that of the other axis
    return [step * i for i in range(math.ceil((low + edge) / step), math.floor((low + side - edge) / step) + 1)]


def draw_crosses(svg: Svg, frame: Frame) -> None:
    for x, y in (frame((east, north)) for east in ticks(frame.west, frame.side) for north in ticks(frame.south, frame.side)):
        svg.line((x - 5, y), (x + 5, y), "#8b8f94", .8)
        svg.line((x, y - 5), (x, y + 5), "#8b8f94", .8)


def draw_grid(svg: Svg, frame: Frame) -> None:
    left, top, right, bottom = MAP
    svg.box(MAP, stroke=INK, width=1.2)
    for east in ticks(frame.west, frame.side):
        x = frame((east, 0))[0]
        svg.line((x, bottom), (x, bottom + 6))
        svg.line((x, top), (x, top - 5))
        svg.words((x, bottom + 20), figure(east, 0), Style(11.5, SOFT, "middle"))
    for north in ticks(frame.south, frame.side):
        y = frame((0, north))[1]
        svg.line((left - 6, y), (left, y))
        svg.line((right, y), (right + 5, y))
        svg.words((left - 11, y), figure(north, 0), Style(11.5, SOFT, "middle", turn=-90))
    svg.words((left, bottom + 38), "The grid of the records: feet east and north of its origin.", Style(11.5, SOFT))


def draw_bar(svg: Svg, at: Pixel, length: float, labels: tuple[str, str], unit: str) -> None:
    x, y = at
    for i in range(4):
        svg.box((x + length * i / 4, y, x + length * (i + 1) / 4, y + 6), INK if i % 2 == 0 else PAPER, INK, .8)
    for part, label in zip((0, .5, 1), ("0", *labels)):
        svg.words((x + length * part, y - 4), label, Style(11, anchor="middle" if part else "start"))
    svg.words((x + length + 8, y + 7), unit, Style(11.5, bold=True))


def draw_scale(svg: Svg, frame: Frame, busy: Sequence[Pixel]) -> None:
    """The scale bars, in the corner where the fewest of the busy points lie."""
    feet = picture.round_step(frame.side * .30, 1)
    miles = max((bar for bar in MILE_BARS if bar * MILE < frame.side * .32), default=MILE_BARS[0])
    wide = max(feet, miles * MILE) * frame.scale
    corners = [(MAP[0] + 16, MAP[3] - 58), (MAP[2] - wide - 62, MAP[3] - 58), (MAP[0] + 16, MAP[1] + 24)]

    def box_at(corner: Pixel) -> Box:
        return corner[0] - 10, corner[1] - 18, corner[0] + wide + 56, corner[1] + 50

    def is_in(at: Pixel, box: Box) -> bool:
        return box[0] - 6 <= at[0] <= box[2] + 6 and box[1] - 6 <= at[1] <= box[3] + 6
    corner = min(corners, key=lambda place: sum(is_in(at, box_at(place)) for at in busy))
    svg.box(box_at(corner), PAPER, RULE, opacity=.93)
    svg.take(box_at(corner))
    draw_bar(svg, corner, feet * frame.scale, (figure(feet / 2, 0), figure(feet, 0)), "ft")
    draw_bar(svg, (corner[0], corner[1] + 28), miles * MILE * frame.scale, (f"{miles / 2:g}", f"{miles:g}"), "NM")


def draw_north(svg: Svg) -> None:
    x, y = MAP[2] - 34, MAP[1] + 22
    svg.circle((x, y + 20), 27, RULE, 1, PAPER)
    svg.put(f'<polygon points="{picture.points([(x, y), (x + 8, y + 24), (x, y + 19)])}" fill="{INK}"/>')
    svg.put(f'<polygon points="{picture.points([(x, y), (x - 8, y + 24), (x, y + 19)])}" fill="{PAPER}" stroke="{INK}"/>')
    svg.words((x, y + 38), "grid N", Style(11, anchor="middle", bold=True))
    svg.take((x - 30, y - 10, x + 30, y + 50))


def draw_legend(svg: Svg, at: Pixel, looks: Sequence[Look], lines: Sequence[tuple[str, str, str]], findings: Sequence[Finding]) -> Pixel:
    """What the colours mean: surfaces, lines (colour, dashes, words), and findings. The place below is given back."""
    x, y = at
    svg.words((x, y), "Surfaces of 14 CFR 77.19 and 77.23" if looks else "No surfaces of 77.19 or 77.23 here", Style(13.5, bold=True))
    for look in looks:
        y += 21
        svg.area([(x, y - 11), (x + 26, y - 11), (x + 26, y + 2), (x, y + 2)], look)
        svg.words((x + 36, y), look.value)
    for colour, dash, words in lines:
        y += 21
        svg.line((x, y - 5), (x + 26, y - 5), colour, 1.8, dash)
        svg.words((x + 36, y), words)
    y += 34
    svg.words((x, y), "Structures, by the replies of the desk", Style(13.5, bold=True))
    for finding in findings:
        y += 21
        svg.symbol((x + 13, y - 4.5), finding)
        svg.words((x + 36, y), MARKS[finding].words)
    return x, y + 34


def draw_panel(svg: Svg, looks: Sequence[Look], lines: Sequence[tuple[str, str, str]], listing: Listing) -> list[Numbered]:
    """The legend and the table beside the map. The structures without room in the table are given back."""
    found = {one.finding for _, one in listing.rows}
    findings = [finding for finding in MARKS if finding is not Finding.UNKNOWN or finding in found]
    return lists.draw_beside(svg, draw_legend(svg, (WIDE - lists.EDGE - lists.PANEL, MAP[1] + 12), looks, lines, findings), listing)
