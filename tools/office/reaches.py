"""How far the notice slopes of 77.9(b) and the height near an airport of 77.17(a)(2) reach, in feet."""
import math
from dataclasses import dataclass

from office.register import NOT_DESCRIBED, Airfield, Airport, Heliport, Point
from office.surfaces import Line, Polygon

LONG_RUNWAY = 3_200  # feet; the longest runway of an airport is longer, or not
FAR_SLOPE_REACH, NEAR_SLOPE_REACH, HELIPORT_REACH = 20_000, 10_000, 5_000
NAUTICAL_MILE = 6_076.1
LEVEL_CIRCLE, LAST_CIRCLE = 3 * NAUTICAL_MILE, 5.99 * NAUTICAL_MILE
ARC_STEP, SIDE_STEP = 3, 250  # degrees of an arc, feet of a straight side


@dataclass(frozen=True)
class Band:
    """All within a distance of a strip about a line: of a runway's centerline, or of a heliport's area."""
    line: Line
    half: float
    reach: float

    def distance(self, at: Point) -> float:
        along, left = self.line.place(at)
        past = max(-along, along - self.line.length, 0)
        return math.hypot(past, max(abs(left) - self.half, 0))

    def outline(self) -> Polygon:
        """Arcs about the four corners and straight sides between them, from the right of the line's start."""
        length, half, reach = self.line.length, self.half, self.reach
        corners = [((length, -half), -90), ((length, half), 0), ((0, half), 90), ((0, -half), 180)]
        out = []
        for (along, left), start in corners:
            for turn in range(start, start + 91, ARC_STEP):
                angle = math.radians(turn)
                out.append((along + reach * math.cos(angle), left + reach * math.sin(angle)))
        return [self.line.at(*place) for place in parted(out)]


def parted(places: Polygon) -> Polygon:
    """A closed outline with its long sides parted into short steps."""
    out = []
    for (ax, ay), (bx, by) in zip(places, [*places[1:], places[0]]):
        count = max(1, math.ceil(math.dist((ax, ay), (bx, by)) / SIDE_STEP))
        out += [(ax + (bx - ax) * i / count, ay + (by - ay) * i / count) for i in range(count)]
    return out


@dataclass(frozen=True)
class Reach:
    """The notice slope of an airfield: its rule, its slope and the bands that it covers together."""
    rule: str
    slope: int
    bands: list[Band]

    def covers(self, at: Point) -> bool:
        return any(band.distance(at) <= band.reach for band in self.bands)

    def lines(self) -> list[Polygon]:
        """The edge of all bands together, in open lines: of each outline what lies in no other band."""
        out: list[Polygon] = []
        for band in self.bands:
            others = [other for other in self.bands if other is not band]
            current: Polygon = []
            outline = band.outline()
            for at in [*outline, outline[0]]:
                if any(other.distance(at) < other.reach for other in others):
                    out, current = [*out, current], []
                else:
                    current.append(at)
            out.append(current)
        return [line for line in out if len(line) > 1]


def notice_reach(airfield: Airfield) -> Reach | None:
    """The notice slope of an airfield, or nothing where 77.9(b) sets none."""
    if airfield.category == NOT_DESCRIBED:
        return None
    if isinstance(airfield, Heliport):
        return Reach("9b3", 25, [Band(Line(*airfield.ends), airfield.width / 2, HELIPORT_REACH)])
    is_long = airfield.longest > LONG_RUNWAY
    rule, slope, reach = ("9b1", 100, FAR_SLOPE_REACH) if is_long else ("9b2", 50, NEAR_SLOPE_REACH)
    bands = [Band(Line(runway.ends[0].at, runway.ends[1].at), 0, reach) for runway in airfield.runways.values()]
    return Reach(rule, slope, bands) if bands else None


def height_circles(airfield: Airfield) -> list[tuple[float, str]]:
    """The circles of 77.17(a)(2) about a reference point, each with its words; none where the rule does not hold."""
    if not isinstance(airfield, Airport) or airfield.category == NOT_DESCRIBED or airfield.longest <= LONG_RUNWAY:
        return []
    return [(LEVEL_CIRCLE, "3 NM, 200 ft"), (LAST_CIRCLE, "5.99 NM, 499 ft")]
