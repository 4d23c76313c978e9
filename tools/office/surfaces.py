"""The surfaces of docs/SURFACES.md in feet and floating point, as areas of a picture. The desk's own are exact; these are for the eye."""
import math
from collections.abc import Callable, Sequence
from dataclasses import dataclass, field
from enum import Enum
from functools import cached_property

from office.register import CIVIL, MILITARY, NOT_DESCRIBED, Airport, Heliport, Point, Runway

Polygon = list[Point]
Length = Callable[[float], float]  # feet along a line to feet

PRIMARY_WIDTH = {  # 77.19(c), by use and approach
    ("utility", "V"): 250, ("utility", "NA"): 500, ("utility", "NL"): 500,
    ("other", "V"): 500, ("other", "NA"): 500, ("other", "NL"): 1000, ("other", "P"): 1000,
}
HARD_OVERRUN = 200  # a primary surface goes so far past the ends of a hard runway
SMALL_RADIUS, GREAT_RADIUS = 5_000, 10_000  # 77.19(a)
ABOVE_AIRPORT = 150  # the horizontal surface
CONE_REACH, CONE_SLOPE = 4_000, 20  # 77.19(b)
TRANSITIONAL_SLOPE, BESIDE_PRECISION = 7, 5_000  # 77.19(e)
PRECISION_FIRST_PART = 10_000  # feet at 50 to 1, then 40 to 1
HELIPORT_APPROACH, HELIPORT_HALF_WIDTH = 4_000, 250  # 77.23(b), (c)
HELIPORT_SLOPE, MILITARY_HELIPORT_SLOPE, HELIPORT_SIDE_SLOPE = 8, 10, 2
STEP = 250  # feet between the samples of a transitional surface's outer edge
DIRECTIONS = 720  # of the corners of a horizontal surface
HALVINGS = 12


@dataclass(frozen=True)
class ApproachSize:
    """77.19(d): the width at the far end, the length, and the slope of the first part."""
    outer_width: float
    length: float
    slope: float


APPROACH_SIZE = {
    ("utility", "V"): ApproachSize(1_250, 5_000, 20), ("utility", "NA"): ApproachSize(2_000, 5_000, 20),
    ("utility", "NL"): ApproachSize(2_000, 5_000, 20), ("other", "V"): ApproachSize(1_500, 5_000, 20),
    ("other", "NA"): ApproachSize(3_500, 10_000, 34), ("other", "NL"): ApproachSize(4_000, 10_000, 34),
    ("other", "P"): ApproachSize(16_000, 50_000, 50),
}
SECOND_PRECISION_SLOPE = 40


class Look(Enum):
    """How an area is painted."""
    PRIMARY = "primary"
    APPROACH = "approach"
    SECOND_APPROACH = "approach, second part (40:1)"
    TRANSITIONAL = "transitional"
    BEYOND_CONE = "transitional past the conical surface"
    HORIZONTAL = "horizontal"
    CONICAL = "conical"


def contains(polygon: Sequence[Point], at: Point) -> bool:
    """Whether a point lies within a polygon, by the edges east of it."""
    inside, (x, y) = False, at
    for (ax, ay), (bx, by) in zip(polygon, [*polygon[1:], polygon[0]]):
        if (ay > y) != (by > y) and x < ax + (bx - ax) * (y - ay) / (by - ay):
            inside = not inside
    return inside


class Line:
    """A line from a to b: along it, and to its left."""
    def __init__(self, a: Point, b: Point):
        self.a, self.length = a, math.dist(a, b)
        self.ux, self.uy = (b[0] - a[0]) / self.length, (b[1] - a[1]) / self.length

    def at(self, along: float, left: float = 0) -> Point:
        return self.a[0] + self.ux * along - self.uy * left, self.a[1] + self.uy * along + self.ux * left

    def place(self, at: Point) -> tuple[float, float]:
        """How far along the line and to its left a point is."""
        x, y = at[0] - self.a[0], at[1] - self.a[1]
        return x * self.ux + y * self.uy, y * self.ux - x * self.uy

    @property
    def turn(self) -> float:
        """The direction of the line, in degrees to the left of east."""
        return math.degrees(math.atan2(self.uy, self.ux))

    def strip(self, start: float, end: float, half: Length) -> Polygon:
        """The ground within a half width of the line."""
        return [self.at(start, half(start)), self.at(end, half(end)), self.at(end, -half(end)), self.at(start, -half(start))]

    def side(self, start: float, end: float, inner: Length, outer: Length, sign: int) -> Polygon:
        """The ground between two distances from the line, at its left (1) or right (-1)."""
        return [self.at(start, sign * inner(start)), self.at(end, sign * inner(end)), self.at(end, sign * outer(end)), self.at(start, sign * outer(start))]


@dataclass(frozen=True)
class Area:
    """The ground that a surface covers, less a hole, and its height over a point. Rule and key are those of findings. It rises one foot over `slope`
    feet, or is level or follows a centerline where that is 0. Between its folds, lengths along its line, it is one plane, unless it is conical."""
    rule: str
    key: str
    look: Look
    outlines: list[Polygon]
    height: Callable[[Point], float]
    hole: Polygon = field(default_factory=list)
    slope: float = 0
    line: Line | None = None
    folds: tuple[float, ...] = ()

    def covers(self, at: Point) -> bool:
        return any(contains(outline, at) for outline in self.outlines) and not (self.hole and contains(self.hole, at))


class Approach:
    """The approach surface at an end of a runway: along `line` outward from the primary surface."""
    def __init__(self, runway: "RunwaySurfaces", number: int):
        end, here, other = runway.runway.ends[number - 1], runway.centers[number - 1], runway.centers[2 - number]
        self.number, self.kind, self.elevation, self.name = number, end.kind, end.elevation, runway.runway.end_name(number)
        self.line = Line(here, (2 * here[0] - other[0], 2 * here[1] - other[1]))
        self.inner, self.size = runway.width, APPROACH_SIZE[runway.runway.use, end.kind]
        self.is_precision = end.kind == "P"
        self.length = self.size.length

    @property
    def parts(self) -> list[tuple[float, float, float]]:
        """Where each part begins and ends, and its slope."""
        if self.is_precision:
            return [(0, PRECISION_FIRST_PART, self.size.slope), (PRECISION_FIRST_PART, self.length, SECOND_PRECISION_SLOPE)]
        return [(0, self.length, self.size.slope)]

    @property
    def folds(self) -> tuple[float, ...]:
        return (PRECISION_FIRST_PART,) if self.is_precision else ()

    def half(self, along: float) -> float:
        return (self.inner + (self.size.outer_width - self.inner) * along / self.length) / 2

    def height(self, along: float) -> float:
        first = min(along, PRECISION_FIRST_PART) if self.is_precision else along
        return self.elevation + first / self.size.slope + (along - first) / SECOND_PRECISION_SLOPE


class RunwaySurfaces:
    """What stands over one runway: its primary surface, from center to center, and its approaches."""
    def __init__(self, runway: Runway):
        self.runway = runway
        self.line = Line(runway.ends[0].at, runway.ends[1].at)
        self.past = HARD_OVERRUN if runway.surface == "hard" else 0
        self.centers = self.line.at(-self.past), self.line.at(self.line.length + self.past)
        self.axis = Line(*self.centers)
        self.width = max(PRIMARY_WIDTH[runway.use, end.kind] for end in runway.ends)
        is_small = runway.use == "utility" or all(end.kind == "V" for end in runway.ends)
        self.radius = SMALL_RADIUS if is_small else GREAT_RADIUS
        self.approaches = [Approach(self, 1), Approach(self, 2)]

    def half(self, _: float) -> float:
        return self.width / 2

    def height(self, along: float) -> float:
        """The elevation of the centerline, at a length along the primary surface."""
        first, second = (end.elevation for end in self.runway.ends)
        return first + (second - first) * min(max((along - self.past) / self.line.length, 0), 1)

    @property
    def folds(self) -> tuple[float, ...]:
        """The ends of the runway, along the primary surface, if it slopes between them."""
        first, second = (end.elevation for end in self.runway.ends)
        return (self.past, self.past + self.line.length) if self.past and first != second else ()


class AirportSurfaces:
    """What stands over a civil airport with runways."""
    def __init__(self, airport: Airport):
        self.airport = airport
        self.runways = [RunwaySurfaces(airport.runways[name]) for name in sorted(airport.runways)]
        self.level = airport.elevation + ABOVE_AIRPORT
        self.discs = [(center, runway.radius) for runway in self.runways for center in runway.centers]
        angles = [2 * math.pi * i / DIRECTIONS for i in range(DIRECTIONS)]
        self.rays = [(math.cos(angle), math.sin(angle)) for angle in angles]
        self.farthest = [max(self.discs, key=lambda disc: disc[0][0] * u + disc[0][1] * v + disc[1]) for u, v in self.rays]
        self.horizontal, self.cone = self.outline(0), self.outline(CONE_REACH)
        self.edges = [Line(a, b) for a, b in zip(self.horizontal, [*self.horizontal[1:], self.horizontal[0]])]

    @property
    def approaches(self) -> list[Approach]:
        return [approach for runway in self.runways for approach in runway.approaches]

    def outline(self, beyond: float) -> Polygon:
        """The hull of the arcs, so much wider: in each direction the farthest point."""
        return [(x + (radius + beyond) * u, y + (radius + beyond) * v) for ((x, y), radius), (u, v) in zip(self.farthest, self.rays)]

    def beyond(self, at: Point) -> float:
        """How far a point is outside the horizontal surface, by its farthest edge; 0 within it. Every tenth edge first, then those about the best."""
        if any(math.dist(at, center) <= radius for center, radius in self.discs):
            return 0
        def out(i: int) -> float:
            return -self.edges[i % DIRECTIONS].place(at)[1]
        near = max(range(0, DIRECTIONS, 10), key=out)
        return max(0, *(out(i) for i in range(near - 10, near + 11)))

    def cone_height(self, at: Point) -> float:
        return self.level + self.beyond(at) / CONE_SLOPE

    def cap(self, at: Point) -> float | None:
        """The horizontal or conical surface there, at which transitional surfaces end."""
        out = self.beyond(at)
        return None if out > CONE_REACH else self.level + out / CONE_SLOPE

    @cached_property
    def areas(self) -> list[Area]:
        """All areas, those that are painted first to begin with."""
        out = [Area("19b", "-", Look.CONICAL, [self.cone], self.cone_height, self.horizontal, CONE_SLOPE),
               Area("19a", "-", Look.HORIZONTAL, [self.horizontal], lambda _: self.level)]
        precision = [(runway, approach) for runway in self.runways for approach in runway.approaches if approach.is_precision]
        out += [beside_precision(self, runway.runway.name, approach) for runway, approach in precision]
        out += [area for runway in self.runways for approach in runway.approaches for area in approach_areas(runway.runway.name, approach)]
        out += [area for runway in self.runways for area in transitional_areas(self, runway)]
        return out + [primary_area(runway) for runway in self.runways]


def level_across(line: Line, low: Length) -> Callable[[Point], float]:
    """The height of a surface that is level at right angles to a line."""
    return lambda at: low(line.place(at)[0])


def primary_area(runway: RunwaySurfaces) -> Area:
    outline = runway.axis.strip(0, runway.axis.length, runway.half)
    return Area("19c", runway.runway.name, Look.PRIMARY, [outline], level_across(runway.axis, runway.height), line=runway.axis, folds=runway.folds)


def approach_areas(name: str, approach: Approach) -> list[Area]:
    looks = (Look.APPROACH, Look.SECOND_APPROACH)
    return [Area("19d", f"{name}.{approach.number}", look, [approach.line.strip(start, end, approach.half)],
                 level_across(approach.line, approach.height), slope=slope) for look, (start, end, slope) in zip(looks, approach.parts)]


def rise(line: Line, half: Length, low: Length, slope: float) -> Callable[[Point], float]:
    """The height of a surface that rises sideways from an edge beside a line."""
    def height(at: Point) -> float:
        along, left = line.place(at)
        return low(along) + (abs(left) - half(along)) / slope
    return height


def beside_precision(airport: AirportSurfaces, name: str, approach: Approach) -> Area:
    """The transitional surfaces beside a precision approach where there is neither horizontal nor conical surface."""
    outlines = [approach.line.side(0, approach.length, approach.half, lambda along: approach.half(along) + BESIDE_PRECISION, sign) for sign in (1, -1)]
    height = rise(approach.line, approach.half, approach.height, TRANSITIONAL_SLOPE)
    return Area("19e", f"{name}.{approach.number}", Look.BEYOND_CONE, outlines, height, airport.cone, TRANSITIONAL_SLOPE, approach.line, approach.folds)


def transitional_areas(airport: AirportSurfaces, runway: RunwaySurfaces) -> list[Area]:
    """The transitional surfaces of a runway where they are below the horizontal or conical surface."""
    sides: list[tuple[int, Line, float, Length, Length, tuple[float, ...]]] = [
        (0, runway.axis, runway.axis.length, runway.half, runway.height, runway.folds),
        *((approach.number, approach.line, approach.length, approach.half, approach.height, approach.folds) for approach in runway.approaches)]
    return [Area("19e", f"{runway.runway.name}.{number}", Look.TRANSITIONAL,
                 [outline for sign in (1, -1) for outline in Flank(airport, line, length, half, low, sign).outlines()],
                 rise(line, half, low, TRANSITIONAL_SLOPE), [], TRANSITIONAL_SLOPE, line, folds) for number, line, length, half, low, folds in sides]


@dataclass(frozen=True)
class Flank:
    """One side of a line, from the edge of a surface outward at 7 to 1, below the cap."""
    airport: AirportSurfaces
    line: Line
    length: float
    half: Length
    low: Length
    sign: int

    def is_below_cap(self, along: float, beside: float) -> bool:
        cap = self.airport.cap(self.line.at(along, self.sign * beside))
        return cap is not None and self.low(along) + (beside - self.half(along)) / TRANSITIONAL_SLOPE <= cap

    def reach(self, along: float) -> float:
        """How far from the line it meets the cap. The surface rises faster than the cap, so it meets it once."""
        near, low = self.half(along), self.low(along)
        flat = near + TRANSITIONAL_SLOPE * (self.airport.level - low)
        if flat >= near and self.airport.beyond(self.line.at(along, self.sign * flat)) == 0:
            return flat  # it meets the horizontal surface
        if not self.is_below_cap(along, near):
            return near
        far = near + TRANSITIONAL_SLOPE * (self.airport.level + CONE_REACH / CONE_SLOPE - low) + 1
        for _ in range(HALVINGS):
            middle = (near + far) / 2
            near, far = (middle, far) if self.is_below_cap(along, middle) else (near, middle)
        return near

    def is_there(self, along: float) -> bool:
        return self.is_below_cap(along, self.half(along))

    def turning(self, here: float, there: float) -> float:
        """Where the surface begins or ends between two lengths, of which it stands over the first alone."""
        for _ in range(HALVINGS):
            middle = (here + there) / 2
            here, there = (middle, there) if self.is_there(middle) else (here, middle)
        return here

    def stretches(self) -> list[list[float]]:
        """The lengths over which the surface stands, as samples of each stretch."""
        count = max(2, math.ceil(self.length / STEP))
        out: list[list[float]] = []
        before: float | None = None
        for along in (self.length * i / count for i in range(count + 1)):
            is_there = self.is_there(along)
            if is_there and before is None:
                out.append([] if along == 0 else [self.turning(along, along - self.length / count)])
            if is_there:
                out[-1].append(along)
            elif before is not None:
                out[-1].append(self.turning(before, along))
            before = along if is_there else None
        return out

    def outlines(self) -> list[Polygon]:
        return [[self.line.at(along, self.sign * self.half(along)) for along in stretch]
                + [self.line.at(along, self.sign * self.reach(along)) for along in reversed(stretch)] for stretch in self.stretches()]


def has_surfaces(airfield: Airport | Heliport) -> bool:
    if isinstance(airfield, Airport):
        return airfield.category in CIVIL and bool(airfield.runways)
    return airfield.category != NOT_DESCRIBED


@dataclass(frozen=True)
class HeliportApproach:
    number: int
    line: Line
    slope: float


class HeliportSurfaces:
    """What stands over a heliport of a described category (77.23)."""
    def __init__(self, heliport: Heliport):
        self.heliport = heliport
        self.axis = Line(*heliport.ends)
        self.slope = MILITARY_HELIPORT_SLOPE if heliport.category in MILITARY else HELIPORT_SLOPE
        self.approaches = [HeliportApproach(1, Line(heliport.ends[0], self.axis.at(-self.axis.length)), self.slope),
                           HeliportApproach(2, Line(heliport.ends[1], self.axis.at(2 * self.axis.length)), self.slope)]

    def half(self, _: float) -> float:
        return self.heliport.width / 2

    def approach_half(self, along: float) -> float:
        return self.heliport.width / 2 + (HELIPORT_HALF_WIDTH - self.heliport.width / 2) * along / HELIPORT_APPROACH

    def level(self, _: float) -> float:
        return self.heliport.elevation

    def approach_height(self, along: float) -> float:
        return self.heliport.elevation + along / self.slope

    def side_area(self, number: int, line: Line, length: float, half: Length, low: Length) -> Area:
        outlines = [line.side(0, length, half, lambda _: HELIPORT_HALF_WIDTH, sign) for sign in (1, -1)]
        return Area("23t", str(number), Look.TRANSITIONAL, outlines, rise(line, half, low, HELIPORT_SIDE_SLOPE), slope=HELIPORT_SIDE_SLOPE)

    @cached_property
    def areas(self) -> list[Area]:
        out = [self.side_area(0, self.axis, self.axis.length, self.half, self.level)]
        for approach in self.approaches:
            out.append(self.side_area(approach.number, approach.line, HELIPORT_APPROACH, self.approach_half, self.approach_height))
            outline = approach.line.strip(0, HELIPORT_APPROACH, self.approach_half)
            out.append(Area("23a", str(approach.number), Look.APPROACH, [outline], level_across(approach.line, self.approach_height), slope=self.slope))
        outline = self.axis.strip(0, self.axis.length, self.half)
        return out + [Area("23p", "-", Look.PRIMARY, [outline], lambda _: self.heliport.elevation)]


Surfaces = AirportSurfaces | HeliportSurfaces


def surfaces_of(airfield: Airport | Heliport) -> Surfaces | None:
    """The surfaces over an airfield, or nothing where none stand over it."""
    if not has_surfaces(airfield):
        return None
    return AirportSurfaces(airfield) if isinstance(airfield, Airport) else HeliportSurfaces(airfield)
