"""What is seen from the side along a line: a runway's centerline and its extensions, or the axis of a heliport. Lengths are feet."""
from collections.abc import Sequence
from dataclasses import dataclass

from office import reaches
from office.picture import LOOKS, NOTICE_LINE, figure
from office.register import Airfield, Airport, Heliport
from office.structures import Structure
from office.surfaces import CONE_REACH, HELIPORT_APPROACH, HELIPORT_HALF_WIDTH, HELIPORT_SIDE_SLOPE, AirportSurfaces, HeliportSurfaces, Line, Look

LEAST_SHOWN, MOST_SHOWN = 14_800, 17_000  # of an approach, where not the whole is asked for
BESIDE_RUNWAY, BESIDE_HELIPORT = 5_000, 500  # how far beside the line structures are shown, where nothing else is asked for
PAST_APPROACH = 200  # of a heliport, so that its end is seen
SAMPLES = 800

Height = tuple[float, float]  # feet along the line, feet above mean sea level


@dataclass(frozen=True)
class Trace:
    """A surface as a line over the ground."""
    words: str
    colour: str
    line: list[Height]
    width: float = 2.2
    dash: str = ""


@dataclass(frozen=True)
class Near:
    """A structure by the line: its number in the file, how far along it stands, and how far to the left."""
    number: int
    along: float
    left: float
    structure: Structure
    is_under: bool

    @property
    def side(self) -> str:
        if abs(self.left) < 1:
            return "on the line"
        return f"{figure(abs(self.left), 0)} ft {'left' if self.left > 0 else 'right'}"


@dataclass(frozen=True)
class Label:
    """A name below the ground of a profile, at a place along it."""
    words: str
    along: float


class Side:
    """A line with what stands over it, from `west` to `east` along it. `ground` is the runway or the area, `lead` says what is where."""
    title: str
    lead: str
    origin: str
    line: Line
    west: float
    east: float
    beside: float
    labels: list[Label]
    ground: list[Height]

    def traces(self) -> list[Trace]:
        raise NotImplementedError

    def half_width(self, along: float) -> float:
        """How far beside the line the primary or approach surface reaches."""
        raise NotImplementedError

    def near(self, structures: Sequence[Structure], within: float) -> list[Near]:
        out = []
        for number, one in enumerate(structures, 1):
            along, left = self.line.place(one.at)
            if self.west <= along <= self.east and abs(left) <= within:
                out.append(Near(number, along, left, one, abs(left) <= self.half_width(along)))
        return sorted(out, key=lambda near: near.along)

    def ending(self, number: int) -> float:
        """Where the line's end 1 or 2 is."""
        return 0 if number == 1 else self.line.length

    def notice_trace(self, airfield: Airfield, number: int, elevation: float) -> list[Trace]:
        """The notice slope outward from an end of this line alone."""
        reach = reaches.notice_reach(airfield)
        if reach is None:
            return []
        start, far = self.ending(number), reach.bands[0].reach
        end = max(start - far, self.west) if number == 1 else min(start + far, self.east)
        line = [(start, elevation), (end, elevation + abs(end - start) / reach.slope)]
        return [Trace(f"notice {reach.slope}:1", NOTICE_LINE, line, 1.6, "10 5")]


class RunwaySide(Side):
    beside = BESIDE_RUNWAY

    def __init__(self, airport: Airport, name: str, is_whole: bool, has_notice: bool):
        self.airport, self.surfaces, self.has_notice = airport, AirportSurfaces(airport), has_notice
        self.runway = next(one for one in self.surfaces.runways if one.runway.name == name)
        first, second = self.runway.approaches
        shown = [approach.length if is_whole else max(min(approach.length, MOST_SHOWN), LEAST_SHOWN) for approach in (first, second)]
        self.line, self.past = self.runway.line, self.runway.past
        self.length = self.line.length
        self.west, self.east = -self.past - shown[0], self.length + self.past + shown[1]
        self.title = f"{airport.id} runway {name} from the side"
        self.lead = f"Along the extended centerline, {first.name} at the left."
        self.origin = f"feet along the centerline, from the end of {first.name}"
        self.labels = [Label(first.name, 0), Label(second.name, self.length)]
        self.ground = [(self.ending(number), end.elevation) for number, end in enumerate(self.runway.runway.ends, 1)]

    def out_from(self, number: int, along: float) -> float:
        """Feet along the centerline of a place beyond the primary surface, at an end."""
        return -self.past - along if number == 1 else self.length + self.past + along

    def traces(self) -> list[Trace]:
        first, second = self.ground
        primary = [(-self.past, first[1]), first, second, (self.length + self.past, second[1])]
        out = [Trace("", LOOKS[Look.PRIMARY].line, primary, 5), *self.approach_traces(), *self.level_traces()]
        ends = enumerate(self.runway.runway.ends, 1) if self.has_notice else []
        return out + [trace for number, end in ends for trace in self.notice_trace(self.airport, number, end.elevation)]

    def approach_traces(self) -> list[Trace]:
        out = []
        for approach in self.runway.approaches:
            room = self.out_from(1, self.west) if approach.number == 1 else self.east - self.length - self.past
            for part, (start, end, slope) in enumerate(approach.parts):
                end = min(end, room)
                if start < end:
                    line = [(self.out_from(approach.number, along), approach.height(along)) for along in (start, end)]
                    out.append(Trace(f"approach {approach.name} {slope}:1", LOOKS[Look.APPROACH].line, line, dash="9 4" if part else ""))
        return out

    def level_traces(self) -> list[Trace]:
        """The horizontal and conical surfaces where they stand over the line."""
        places = [self.west + (self.east - self.west) * i / SAMPLES for i in range(SAMPLES + 1)]
        beyond = [(along, self.surfaces.beyond(self.line.at(along))) for along in places]
        level = self.surfaces.level
        flat = [along for along, out in beyond if out == 0]
        lines = [Trace(f"horizontal {figure(level)} ft", LOOKS[Look.HORIZONTAL].line, [(flat[0], level), (flat[-1], level)])]
        for some in ([pair for pair in beyond if pair[0] <= flat[0]], [pair for pair in beyond if pair[0] >= flat[-1]]):
            rise = [(along, level + out / 20) for along, out in some if out <= CONE_REACH]
            if len(rise) > 1:
                lines.append(Trace("conical 20:1", LOOKS[Look.CONICAL].line, rise))
        return lines

    def half_width(self, along: float) -> float:
        first, second = self.runway.approaches
        approach, out = (first, -self.past - along) if along < self.length / 2 else (second, along - self.length - self.past)
        if out <= 0:
            return self.runway.width / 2
        return approach.half(out) if out <= approach.length else 0


class HeliportSide(Side):
    """Along the axis of the takeoff and landing area, from its end 1 to its end 2, and out along both approaches."""
    beside = BESIDE_HELIPORT

    def __init__(self, heliport: Heliport, has_notice: bool):
        self.heliport, self.surfaces, self.has_notice = heliport, HeliportSurfaces(heliport), has_notice
        self.line, self.elevation = self.surfaces.axis, heliport.elevation
        shown = (max(HELIPORT_APPROACH, reaches.HELIPORT_REACH) if has_notice else HELIPORT_APPROACH) + PAST_APPROACH
        self.west, self.east = -shown, self.line.length + shown
        self.title = f"{heliport.id} heliport from the side"
        self.lead = "Along the axis of the area, approach 1 at the left."
        self.origin = "feet along the axis, from the end of the area at approach 1"
        self.labels = [Label("H", self.line.length / 2)]
        self.ground = [(0, self.elevation), (self.line.length, self.elevation)]

    def out_from(self, number: int, along: float) -> float:
        """Feet along the axis of a place beyond the area, at an end."""
        return -along if number == 1 else self.line.length + along

    def traces(self) -> list[Trace]:
        out = [Trace("", LOOKS[Look.PRIMARY].line, self.ground, 5)]
        for approach in self.surfaces.approaches:
            line = [(self.out_from(approach.number, along), self.surfaces.approach_height(along)) for along in (0, HELIPORT_APPROACH)]
            out.append(Trace(f"approach {approach.number} {approach.slope:g}:1", LOOKS[Look.APPROACH].line, line))
        out += self.edge_traces()
        return out + [trace for number in (1, 2) if self.has_notice for trace in self.notice_trace(self.heliport, number, self.elevation)]

    def edge_traces(self) -> list[Trace]:
        """The outer edges of the transitional surfaces, which reach 250 ft from the axis. Where the area is as wide there are none."""
        rise = (HELIPORT_HALF_WIDTH - self.heliport.width / 2) / HELIPORT_SIDE_SLOPE
        if rise == 0:
            return []
        words = f"transitional {HELIPORT_SIDE_SLOPE}:1, its edge {HELIPORT_HALF_WIDTH} ft from the axis"
        over = [(along, self.elevation + rise) for along, _ in self.ground]
        ends = [(self.out_from(number, HELIPORT_APPROACH), self.surfaces.approach_height(HELIPORT_APPROACH)) for number in (1, 2)]
        lines = [("", over), (words, [over[0], ends[0]]), (words, [over[1], ends[1]])]
        return [Trace(text, LOOKS[Look.TRANSITIONAL].line, line, 1.6, "4 3") for text, line in lines]

    def half_width(self, along: float) -> float:
        out = max(-along, along - self.line.length, 0)
        return self.surfaces.approach_half(out) if out <= HELIPORT_APPROACH else 0
