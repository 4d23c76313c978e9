"""The picture of oe-high: over a raster how high one may build, by colour the rule that comes first, and contours; one sheet for notice, one for the standards."""
import math
from collections import Counter
from collections.abc import Sequence

from office import picture, plan, sheet
from office.charts import Chart
from office.heights import Limit
from office.lists import EDGE, PANEL, WIDE
from office.picture import CIRCLE_LINE, GROUND, INK, LOOKS, NOTICE_LINE, SOFT, Pixel, Style, Svg, figure
from office.records import TENTHS
from office.register import Airfield, Airport
from office.replies import RULES
from office.sheet import HIGH, MAP, Frame
from office.sites import Raster
from office.surfaces import Look

DISCLAIMER = "Heights are the desk's replies at the places of the raster, contours lie between them in floating point. No terrain is known. No determination of the FAA."
AT_GROUND = "ground"  # in place of a rule, if something is found at the ground already
NAMES = {
    AT_GROUND: "none: met at the ground already", "17a1": "77.17(a)(1) 499 ft above ground", "17a2": "77.17(a)(2) near an airport",
    **{rule: f"{RULES[rule].paragraph} {RULES[rule].short}" for rule in ("19a", "19b", "19c", "19d", "19e", "23p", "23a", "23t", "9b1", "9b2", "9b3")},
    "9a": "77.9(a) 200 ft above the ground"}
FILLS = {  # by the rule that comes first
    AT_GROUND: "#c1272d", "17a1": GROUND, "9a": GROUND, "17a2": CIRCLE_LINE, "9b1": NOTICE_LINE, "9b2": "#d79a4a", "9b3": "#e5c07b",
    "19a": LOOKS[Look.HORIZONTAL].fill, "19b": LOOKS[Look.CONICAL].fill, "19c": LOOKS[Look.PRIMARY].fill, "19d": LOOKS[Look.APPROACH].fill,
    "19e": LOOKS[Look.TRANSITIONAL].fill, "23p": "#3f4d5c", "23a": LOOKS[Look.SECOND_APPROACH].fill, "23t": "#c3a8d8"}
OPACITY = .5
LINE, STRONG, STRONG_ONES = .9, 1.8, 5  # pixels of contours, and of every fifth
FLAT = .05  # pixels that a point of a contour may lie beside the line of its neighbors
LETTERS = 11.5  # pixels of the height on a contour
LEAST_LABELLED = 70  # pixels of a contour that has its height on it
TRIED_PLACES, MOST_COVERED = 40, 40  # along a contour, and square pixels that its height may cover


def rule_of(limit: Limit) -> str:
    return AT_GROUND if limit.height is None and not limit.is_never else limit.entries[0].rule.name if limit.entries else ""


def draw_rules(svg: Svg, frame: Frame, raster: Raster, rules: Sequence[str]) -> None:
    """A square about each place in the colour of its rule, those of a row that are alike in one piece."""
    paths: dict[str, list[str]] = {}
    for row, some in enumerate(raster.rowwise(rules)):
        start = 0
        for column in range(1, len(some) + 1):
            if column == len(some) or some[column] != some[start]:
                (left, top), (right, bottom) = frame(raster.at(start - .5, row + .5)), frame(raster.at(column - .5, row - .5))
                paths.setdefault(some[start], []).append(f"M{picture.number(left)},{picture.number(top)}H{picture.number(right)}V{picture.number(bottom)}H{picture.number(left)}Z")
                start = column
    for rule, pieces in paths.items():
        if rule in FILLS:
            svg.put(f'<path d="{"".join(pieces)}" fill="{FILLS[rule]}" fill-opacity="{OPACITY}" shape-rendering="crispEdges"/>')


def thinned(line: Sequence[Pixel]) -> list[Pixel]:
    """A line without the points that lie on it between their neighbors."""
    out = list(line[:2])
    for at in line[2:]:
        (ax, ay), (bx, by) = out[-2], out[-1]
        long = math.dist((ax, ay), at)
        if long and abs((bx - ax) * (at[1] - ay) - (by - ay) * (at[0] - ax)) / long < FLAT:
            out[-1] = at
        else:
            out.append(at)
    return out


def whole(value: float) -> str:
    return figure(value, 0 if value == int(value) else 1)


def draw_contours(svg: Svg, chart: Chart, lines: Sequence[list[Pixel]]) -> None:
    for one, line in zip(chart.contours, lines):
        is_strong = round(one.level / chart.every) % STRONG_ONES == 0
        svg.polyline(thinned(line), INK, STRONG if is_strong else LINE)


def name_contours(svg: Svg, chart: Chart, lines: Sequence[list[Pixel]]) -> None:
    """Their heights, on the longest ones first."""
    for one, line in sorted(zip(chart.contours, lines), key=lambda pair: -len(pair[1])):
        name_contour(svg, line, whole(one.level))


def name_contour(svg: Svg, line: Sequence[Pixel], words: str) -> None:
    """A height on a contour, where it covers least."""
    wide = picture.width_of(words, LETTERS)
    if sum(math.dist(a, b) for a, b in zip(line, line[1:])) < LEAST_LABELLED:
        return

    def turn_at(i: int) -> float:
        (ax, ay), (bx, by) = line[max(i - 2, 0)], line[min(i + 2, len(line) - 1)]
        return picture.upright(math.degrees(math.atan2(by - ay, bx - ax)))

    def cost(i: int) -> tuple[float, float]:
        x, y = line[i]
        is_inside = MAP[0] + wide < x < MAP[2] - wide and MAP[1] + wide < y < MAP[3] - wide
        covered = sum(map(svg.clash, picture.boxes_along(line[i], turn_at(i), wide)))
        return covered + (0 if is_inside else picture.OUTSIDE), abs(i - len(line) / 2)
    best = min(range(0, len(line), max(1, len(line) // TRIED_PLACES)), key=cost)
    if cost(best)[0] > MOST_COVERED:
        return
    (x, y), turn = line[best], turn_at(best)
    down = 4  # pixels from the middle of a letter to its foot
    at = x - down * math.sin(math.radians(turn)), y + down * math.cos(math.radians(turn))
    svg.words(at, words, Style(LETTERS, INK, "middle", halo=True, turn=turn))
    for box in picture.boxes_along((x, y), turn, wide):
        svg.take(box)


def notes_of(chart: Chart) -> list[str]:
    raster, heights = chart.raster, [limit.feet for limit in chart.limits if limit.feet is not None]
    out = [f"Contours every {whole(chart.every)} ft, in feet above the ground,", f"which is at {figure(raster.ground / TENTHS)} ft everywhere.",
           f"{raster.columns:,} by {raster.rows:,} places, {figure(raster.step / TENTHS)} ft apart."]
    out += [f"Heights from {figure(min(heights))} to {figure(max(heights))} ft."] if heights else []
    return [*out, "A contour ends where the height jumps", "at the edge of a surface."]


def draw_panel(svg: Svg, chart: Chart, rules: Sequence[str]) -> None:
    """What the colours mean, with the part of the raster that each has, and what the contours are."""
    x, y = WIDE - EDGE - PANEL, MAP[1] + 12
    svg.words((x, y), "The rule that comes first, by colour", Style(13.5, bold=True))
    for rule, count in Counter(rules).most_common():
        if rule in FILLS:
            y += 21
            svg.box((x, y - 11, x + 26, y + 2), FILLS[rule], SOFT, .6, OPACITY)
            svg.words((x + 36, y), NAMES[rule], Style(12))
            share = round(100 * count / len(rules))
            svg.words((x + PANEL, y), f"{share}%" if share else "<1%", Style(12, SOFT, "end"))
    for line, note in enumerate(notes_of(chart)):
        svg.words((x, y + 34 + 17 * line), note, Style(12, SOFT))


def draw(airfields: Sequence[Airfield], chart: Chart, title: str | None, source: str) -> Svg:
    """The sheet of one of the two limits."""
    raster, sort = chart.raster, chart.sort
    rules = [rule_of(limit) for limit in chart.limits]
    frame = Frame(*raster.at(0, 0), *raster.at(raster.columns - 1, raster.rows - 1))
    svg = Svg(WIDE, HIGH, title or sort.title)
    svg.words((MAP[0], 38), f"{title}: {sort.key}" if title else sort.title, Style(22, bold=True))
    svg.words((MAP[0], 60), f"{sort.lead} Ground at {figure(raster.ground / TENTHS)} ft everywhere.", Style(13, SOFT))
    svg.put(f'<clipPath id="{sort.key}"><rect x="{MAP[0]}" y="{MAP[1]}" width="{MAP[2] - MAP[0]}" height="{MAP[3] - MAP[1]}"/></clipPath>')
    svg.put(f'<g clip-path="url(#{sort.key})">')
    draw_rules(svg, frame, raster, rules)
    lines = [frame.all([raster.at(*at) for at in one.points]) for one in chart.contours]
    draw_contours(svg, chart, lines)
    for airport in (one for one in airfields if isinstance(one, Airport)):
        plan.draw_runways(svg, frame, airport)
    sheet.draw_crosses(svg, frame)
    sheet.draw_scale(svg, frame, [])
    sheet.draw_north(svg)
    for airfield in airfields:
        plan.name_airfield(svg, frame, airfield)
    name_contours(svg, chart, lines)
    svg.put("</g>")
    sheet.draw_grid(svg, frame)
    draw_panel(svg, chart, rules)
    svg.words((WIDE - EDGE, svg.height - 14), f"oe-high, from {source}. {DISCLAIMER}", Style(11, SOFT, "end"))
    return svg


def drawn(airfields: Sequence[Airfield], charts: Sequence[Chart], title: str | None, source: str) -> str:
    """All sheets, one below the other."""
    return picture.stacked([draw(airfields, chart, title, source) for chart in charts])
