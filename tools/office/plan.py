"""The plan of oe-draw: surfaces over the airfields, runways, and structures by what was found of them."""
import math
from collections.abc import Sequence
from dataclasses import dataclass

from office import lists, picture, reaches, sheet
from office.faults import Fault
from office.picture import CIRCLE_LINE, INK, LOOKS, MARKS, NOTICE_LINE, PAPER, SOFT, Pixel, Style, Svg, figure
from office.register import Airfield, Airport, Point
from office.lists import WIDE, Listing
from office.sheet import HIGH, MAP, Frame
from office.structures import Finding, Structure
from office.surfaces import CONE_REACH, AirportSurfaces, Approach, HeliportSurfaces, Look, RunwaySurfaces, Surfaces, surfaces_of

LEGEND = (Look.PRIMARY, Look.APPROACH, Look.SECOND_APPROACH, Look.BEYOND_CONE, Look.TRANSITIONAL, Look.HORIZONTAL, Look.CONICAL)
STRUCTURES_WITHIN = 60_000  # feet from an airfield; the frame takes no farther one in
HELIPORT_FRAME, BARE_FRAME = 4_600, 20_000  # feet about an airfield without surfaces of 77.19
RUNWAY_WIDTH = 150  # feet, as a runway is painted
LEGIBLE = 45  # pixels of a conical surface that has room for words
NOTICE_DASH, CIRCLE_DASH = "10 5", "2 4"
CLUSTER = 3  # pixels between symbols that hide each other
NUMBERS_OF_CLUSTER = 5
PAST_END = ((14, 0), (10, 15), (10, -15), (30, 0), (16, 26), (16, -26))  # pixels out and aside where a designator may stand


@dataclass(frozen=True)
class Options:
    """`last_change` is the number of the last change of an airfield, as far as it is known."""
    title: str | None
    source: str
    last_change: int = 0
    whole: bool = False
    notice: bool = False
    circles: bool = False
    every: bool = False


@dataclass(frozen=True)
class Drawn:
    """An airfield with what stands over it."""
    airfield: Airfield
    surfaces: Surfaces | None

    @property
    def of_airport(self) -> AirportSurfaces | None:
        return self.surfaces if isinstance(self.surfaces, AirportSurfaces) else None

    @property
    def looks(self) -> set[Look]:
        return {area.look for area in self.surfaces.areas} if self.surfaces else set()


def corners_about(at: Point, reach: float) -> list[Point]:
    return [(at[0] - reach, at[1] - reach), (at[0] + reach, at[1] + reach)]


def frame_of(drawn: Sequence[Drawn], structures: Sequence[Structure], options: Options) -> Frame:
    """The square that shows the conical surfaces, what the options ask for, and the structures that are not far off."""
    near: list[Point] = []
    for one in drawn:
        if one.of_airport:
            near += one.of_airport.cone
            near += [at for approach in one.of_airport.approaches if options.whole for at in approach.line.strip(0, approach.length, approach.half)]
        else:
            near += corners_about(one.airfield.at, HELIPORT_FRAME if one.surfaces else BARE_FRAME)
        reach = reaches.notice_reach(one.airfield) if options.notice else None
        near += [at for line in (reach.lines() if reach else []) for at in line]
        near += [at for radius, _ in (reaches.height_circles(one.airfield) if options.circles else []) for at in corners_about(one.airfield.at, radius)]
    near += [structure.at for structure in structures
             if not drawn or min(math.dist(structure.at, one.airfield.at) for one in drawn) < STRUCTURES_WITHIN]
    if not near:
        raise Fault("nothing to draw: no airfield was accepted, and no structure was answered")
    easts, norths = zip(*near)
    return Frame(min(easts), min(norths), max(easts), max(norths))


def draw_surfaces(svg: Svg, frame: Frame, surfaces: Surfaces, number: int) -> None:
    """The areas of an airfield, the widest first, without words."""
    clip = f"beyond-{number}"
    if isinstance(surfaces, AirportSurfaces):
        cone = picture.points(frame.all(surfaces.cone))
        svg.put(f'<clipPath id="{clip}"><path clip-rule="evenodd" d="M0,0H{WIDE}V{HIGH}H0Z M{cone}Z"/></clipPath>')
    for area in surfaces.areas:
        is_clipped = area.look is Look.BEYOND_CONE
        for outline in area.outlines:
            hole = [] if is_clipped else frame.all(area.hole)
            svg.area(frame.all(outline), area.look, hole, f' clip-path="url(#{clip})"' if is_clipped else "")


def draw_runways(svg: Svg, frame: Frame, airport: Airport) -> None:
    for runway in airport.runways.values():
        a, b = (frame(end.at) for end in runway.ends)
        svg.line(a, b, "#10161c", max(3.0, RUNWAY_WIDTH * frame.scale))
        if RUNWAY_WIDTH * frame.scale > 4:
            svg.line(a, b, "#fff", 1, "9 7")
        svg.take_along(a, b, 6)


def draw_reach(svg: Svg, frame: Frame, airfield: Airfield, options: Options) -> None:
    """The edge of the notice slope and the circles of 77.17(a)(2), without words."""
    reach = reaches.notice_reach(airfield) if options.notice else None
    for line in reach.lines() if reach else []:
        pixels = frame.all(line)
        svg.polyline(pixels, NOTICE_LINE, 1.8, NOTICE_DASH)
        for at in pixels:
            svg.take_about(at, 3, 3)
    for radius, _ in reaches.height_circles(airfield) if options.circles else []:
        svg.circle(frame(airfield.at), radius * frame.scale, CIRCLE_LINE, 1.5, dash=CIRCLE_DASH)


def name_reach(svg: Svg, frame: Frame, airfield: Airfield, options: Options) -> None:
    reach = reaches.notice_reach(airfield) if options.notice else None
    if reach:
        edge = sorted((at for line in reach.lines() for at in line), key=lambda at: at[1])
        name_at(svg, frame, (edge[-1], edge[0]), f"{airfield.id}: notice slope {reach.slope}:1 ends here", NOTICE_LINE)
    x, y = airfield.at
    for radius, words in reaches.height_circles(airfield) if options.circles else []:
        name_at(svg, frame, ((x, y - radius), (x, y + radius)), f"{airfield.id}: {words}", CIRCLE_LINE)


def name_at(svg: Svg, frame: Frame, places: Sequence[Point], words: str, colour: str) -> None:
    """Words just above a line, at that of some places where they cover least."""
    half = picture.width_of(words, 12) / 2

    def box(at: Point) -> picture.Box:
        x, y = frame(at)
        return x - half, y - 20, x + half, y - 4
    best = min((at for at in places if frame.has(at)), key=lambda at: svg.clash(box(at)), default=None)
    if best:
        x, y = frame(best)
        svg.words((x, y - 7), words, Style(12, colour, "middle", italic=True, halo=True))
        svg.take(box(best))


def inner_map() -> picture.Box:
    return MAP[0] + 4, MAP[1] + 4, MAP[2] - 4, MAP[3] - 4


def name_heliport(svg: Svg, frame: Frame, surfaces: HeliportSurfaces) -> None:
    turn = picture.upright(-surfaces.axis.turn)
    for approach in surfaces.approaches:
        middle = approach.line.at(2_900)
        if 500 * frame.scale > 24 and frame.has(middle, 20):
            x, y = frame(middle)
            svg.words((x, y + 4), f"approach {approach.number} · {approach.slope:g}:1",
                      Style(12, LOOKS[Look.APPROACH].line, "middle", italic=True, halo=True, turn=turn))
            svg.take_about((x, y), 50, 10)


def name_ends(svg: Svg, frame: Frame, airport: Airport) -> None:
    """The designators of the runways, past their ends where there is room."""
    ends = [approach for runway in airport.runways.values() for approach in RunwaySurfaces(runway).approaches]
    for approach in ends:
        if not frame.has(approach.line.a, 10):
            continue
        places = [frame(approach.line.at(out / frame.scale, aside / frame.scale)) for out, aside in PAST_END]
        x, y = min(places, key=lambda at: svg.clash((at[0] - 10, at[1] - 8, at[0] + 10, at[1] + 8)))
        svg.words((x, y + 4.5), approach.name, Style(12.5, anchor="middle", bold=True, halo=True))
        svg.take_about((x, y), 12, 9)


def name_part(svg: Svg, frame: Frame, approach: Approach, start: float, end: float, some: Sequence[str]) -> None:
    """The longest of some words that has room along a part of an approach, where it covers least."""
    seen = [along for along in (start + (end - start) * i / 60 for i in range(61)) if frame.has(approach.line.at(along), 20)]
    turn = picture.upright(-approach.line.turn)
    for words in some:
        half = picture.width_of(words, 12) / 2
        room = [along for along in seen if seen[0] + half / frame.scale <= along <= seen[-1] - half / frame.scale]
        if not room:
            continue
        middle = room[len(room) * 3 // 5]

        def cost(place: tuple[float, float]) -> tuple[float, float, float]:
            along, aside = place
            boxes = picture.boxes_along(frame(approach.line.at(along, aside)), turn, 2 * half)
            return sum(map(svg.clash, boxes)), abs(aside), abs(along - middle)
        best = min(((along, aside * approach.half(along)) for along in room[::2] for aside in (0, .3, -.3)), key=cost)
        if cost(best)[0] < 25:
            at = frame(approach.line.at(*best))
            svg.words((at[0], at[1] + 4), words, Style(12, LOOKS[Look.APPROACH].line, "middle", italic=True, halo=True, turn=turn))
            for box in picture.boxes_along(at, turn, 2 * half):
                svg.take(box)
            return


def name_surfaces(svg: Svg, frame: Frame, surfaces: AirportSurfaces) -> None:
    """The names and heights of the surfaces, turned along them."""
    for approach in surfaces.approaches:
        for start, end, slope in approach.parts:
            short = f"{slope}:1"
            name_part(svg, frame, approach, start, end, [f"approach {approach.name} · {short}", f"{approach.name} · {short}"] if start == 0 else [short])
    if CONE_REACH * frame.scale < LEGIBLE:
        return
    for beyond, look, words in ((-1500, Look.HORIZONTAL, f"horizontal {figure(surfaces.level)} ft"),
                                (CONE_REACH / 2, Look.CONICAL, f"conical 20:1 to {figure(surfaces.level + 200)} ft")):
        name_ring(svg, frame, surfaces, beyond, Style(12.5, LOOKS[look].line, "middle", italic=True, halo=True), words)


def name_ring(svg: Svg, frame: Frame, surfaces: AirportSurfaces, beyond: float, style: Style, words: str) -> None:
    """Words along the edge of the horizontal surface, away from the approaches and where little is."""
    middle = [sum(parts) / len(surfaces.discs) for parts in zip(*(center for center, _ in surfaces.discs))]
    ways = [math.radians(approach.line.turn) for approach in surfaces.approaches]

    def direction(at: Point) -> float:
        return math.atan2(at[1] - middle[1], at[0] - middle[0])

    def freedom(at: Point) -> tuple[float, float, float]:
        apart = min(abs((direction(at) - way + math.pi) % (2 * math.pi) - math.pi) for way in ways)
        x, y = frame(at)
        return round(min(apart, .6), 1), -svg.clash((x - 50, y - 50, x + 50, y + 50)), at[1]
    places = [(at, normal) for at, normal in zip(surfaces.outline(beyond), surfaces.rays) if frame.has(at, 40)]
    best = max(places, key=lambda place: freedom(place[0]), default=None)
    if best:
        at, (u, v) = best
        x, y = frame(at)
        turn = picture.upright(90 - math.degrees(math.atan2(v, u)))
        svg.words((x, y + 4), words, Style(style.size, style.fill, "middle", italic=True, halo=True, turn=turn))
        for box in picture.boxes_along((x, y), turn, picture.width_of(words, style.size)):
            svg.take(box)


def name_airfield(svg: Svg, frame: Frame, airfield: Airfield) -> None:
    if not frame.has(airfield.at):
        return
    x, y = frame(airfield.at)
    if isinstance(airfield, Airport):
        svg.line((x - 5, y), (x + 5, y), "#fff", 1.6)
        svg.line((x, y - 5), (x, y + 5), "#fff", 1.6)
    else:
        svg.circle((x, y), 9, INK, 1.6, PAPER)
        svg.words((x, y + 4.5), "H", Style(12.5, anchor="middle", bold=True))
    svg.take_about((x, y), 10, 10)
    svg.label((x, y), airfield.id, Style(15, bold=True), 15, inner_map())


def clusters(frame: Frame, shown: Sequence[tuple[int, Structure]]) -> list[list[tuple[int, Structure]]]:
    """Structures whose symbols would hide each other stand together, the gravest finding first."""
    out: list[list[tuple[int, Structure]]] = []
    for pair in shown:
        same = next((some for some in out if math.dist(frame(some[0][1].at), frame(pair[1].at)) < CLUSTER), None)
        if same is None:
            out.append([pair])
        else:
            same.append(pair)
    order = list(Finding)
    return [sorted(some, key=lambda pair: order.index(pair[1].finding)) for some in out]


def numbers_of(some: list[int]) -> str:
    """The first numbers of a cluster, and how many others there are."""
    shown = ", ".join(map(str, sorted(some)[:NUMBERS_OF_CLUSTER]))
    return shown + (f" and {len(some) - NUMBERS_OF_CLUSTER} more" if len(some) > NUMBERS_OF_CLUSTER else "")


def draw_structures(svg: Svg, frame: Frame, shown: Sequence[tuple[int, Structure]]) -> None:
    groups = clusters(frame, shown)
    for some in groups:
        svg.symbol(frame(some[0][1].at), some[0][1].finding)
    for some in groups:
        numbers = numbers_of([number for number, _ in some])
        name = picture.cut(some[0][1].name, 12.5, 150) if len(some) == 1 else ""
        svg.label(frame(some[0][1].at), f"{numbers} {name}".strip(), Style(12.5, MARKS[some[0][1].finding].text, bold=True), 10, inner_map())


def busy_places(frame: Frame, drawn: Sequence[Drawn], shown: Sequence[tuple[int, Structure]]) -> list[Pixel]:
    """Where the scale bars should not stand: on approaches, and still less on structures."""
    airports = [one.of_airport for one in drawn if one.of_airport]
    places = [frame(approach.line.at(along, aside * approach.half(along))) for airport in airports for approach in airport.approaches
              for along in range(0, int(approach.length) + 1, 500) for aside in (-1, 0, 1)]
    return places + [frame(one.at) for _, one in shown for _ in range(20)]


def draw_map(svg: Svg, frame: Frame, drawn: Sequence[Drawn], shown: Sequence[tuple[int, Structure]], options: Options) -> None:
    for number, one in enumerate(drawn):
        if one.surfaces:
            draw_surfaces(svg, frame, one.surfaces, number)
    for one in drawn:
        if isinstance(one.airfield, Airport):
            draw_runways(svg, frame, one.airfield)
        elif not one.surfaces:
            svg.polyline(frame.all(one.airfield.ends), LOOKS[Look.PRIMARY].line, 3)
        draw_reach(svg, frame, one.airfield, options)
    sheet.draw_crosses(svg, frame)
    sheet.draw_scale(svg, frame, busy_places(frame, drawn, shown))
    sheet.draw_north(svg)
    for _, structure in shown:
        svg.take_about(frame(structure.at), 8, 8)
    draw_words(svg, frame, drawn, options)
    draw_structures(svg, frame, shown)


def draw_words(svg: Svg, frame: Frame, drawn: Sequence[Drawn], options: Options) -> None:
    """The names of all but the structures, those with the least choice of a place first."""
    for one in drawn:
        if isinstance(one.airfield, Airport):
            name_ends(svg, frame, one.airfield)
    for one in drawn:
        name_reach(svg, frame, one.airfield, options)
    for one in drawn:
        if one.of_airport:
            name_surfaces(svg, frame, one.of_airport)
        elif isinstance(one.surfaces, HeliportSurfaces):
            name_heliport(svg, frame, one.surfaces)
    for one in drawn:
        name_airfield(svg, frame, one.airfield)


def heading(airfields: Sequence[Airfield]) -> str:
    names = ", ".join(airfield.id for airfield in airfields[:6]) + (", .." if len(airfields) > 6 else "")
    return f"Part 77 surfaces: {names}" if airfields else "Structures (no airfield is registered)"


def facts(airfields: Sequence[Airfield], count: int) -> str:
    some = [f"{one.id}: {'airport' if isinstance(one, Airport) else 'heliport'}, {one.category}, {figure(one.elevation)} ft" for one in airfields[:3]]
    return "  ·  ".join(some + [f"{count} structure{'' if count == 1 else 's'}"])


def lines_of_legend(options: Options) -> list[tuple[str, str, str]]:
    out = [(NOTICE_LINE, NOTICE_DASH, "notice slope ends, 77.9(b)")] if options.notice else []
    return out + ([(CIRCLE_LINE, CIRCLE_DASH, "height near an airport, 77.17(a)(2)")] if options.circles else [])


def draw(airfields: Sequence[Airfield], structures: list[Structure], refused: int, options: Options) -> list[Svg]:
    """The plan, and the sheets that its table of structures needs. `refused` structures have no reply."""
    drawn = [Drawn(airfield, surfaces_of(airfield)) for airfield in airfields]
    frame = frame_of(drawn, structures, options)
    title = options.title or heading(airfields)
    svg = Svg(WIDE, HIGH, title)
    svg.words((MAP[0], 38), title, Style(22, bold=True))
    svg.words((MAP[0], 60), facts(airfields, len(structures)), Style(13, SOFT))
    map_box = f'x="{MAP[0]}" y="{MAP[1]}" width="{MAP[2] - MAP[0]}" height="{MAP[3] - MAP[1]}"'
    svg.put(f'<clipPath id="map"><rect {map_box}/></clipPath>')
    svg.box(MAP, picture.GROUND)
    svg.put('<g clip-path="url(#map)">')
    rows = list(enumerate(structures, 1))
    shown = [(number, one) for number, one in rows if frame.has(one.at)]
    draw_map(svg, frame, drawn, shown, options)
    svg.put("</g>")
    sheet.draw_grid(svg, frame)
    looks = {look for one in drawn for look in one.looks}
    listing = Listing(rows, {number for number, _ in shown}, refused, len(airfields), options.last_change, options.every)
    rest = sheet.draw_panel(svg, [look for look in LEGEND if look in looks], lines_of_legend(options), listing)
    return lists.sheets(svg, rest, listing, "The table of structures, continued", options.source)
