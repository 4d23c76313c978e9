"""The airfields that accepted records lead to. Lengths are feet here."""
import math
from collections.abc import Iterable, Mapping
from dataclasses import dataclass, field

from office.desk import Pair
from office.records import feet
from office.replies import Accepted

Point = tuple[float, float]
CIVIL = ("public", "building", "federal", "procedure")  # categories with the surfaces of 77.19
MILITARY = ("military", "dod")
AIRFIELD_FORMS = ("airport", "heliport", "runway", "drop", "droprunway")
NOT_DESCRIBED = "private"  # the one category that 77.9(d) does not list
KINDS = ("V", "NA", "NL", "P")  # of approaches, the most precise last


def end_name(runway: str, number: int) -> str:
    """The designator of a runway end, as 04 of 04/22, or its number if the name has not two designators."""
    designators = runway.split("/")
    return designators[number - 1] if len(designators) == 2 and all(designators) else f"{runway} end {number}"


@dataclass(frozen=True)
class RunwayEnd:
    at: Point
    elevation: float
    kind: str  # of the approach that its surfaces follow


@dataclass(frozen=True)
class Runway:
    name: str
    use: str
    surface: str
    ends: tuple[RunwayEnd, RunwayEnd]

    @property
    def length(self) -> float:
        return math.dist(self.ends[0].at, self.ends[1].at)

    def end_name(self, number: int) -> str:
        return end_name(self.name, number)


@dataclass(frozen=True)
class Airport:
    id: str
    category: str
    at: Point
    elevation: float
    runways: dict[str, Runway] = field(default_factory=dict)

    @property
    def longest(self) -> float:
        return max((runway.length for runway in self.runways.values()), default=0)


@dataclass(frozen=True)
class Heliport:
    id: str
    category: str
    ends: tuple[Point, Point]
    width: float
    elevation: float

    @property
    def at(self) -> Point:
        (ax, ay), (bx, by) = self.ends
        return (ax + bx) / 2, (ay + by) / 2


Airfield = Airport | Heliport


def point(values: Mapping[str, str], number: str = "") -> Point:
    return feet(values["X" + number]), feet(values["Y" + number])


def effective(approaches: str) -> str:
    """The more precise of the approaches that an end has and is planned for, of a field as V or V/P."""
    return max(approaches.split("/"), key=KINDS.index)


def runway(values: Mapping[str, str]) -> Runway:
    first, second = (RunwayEnd(point(values, n), feet(values["ELEVATION" + n]), effective(values["KIND" + n])) for n in "12")
    return Runway(values["NAME"], values["USE"], values["SURFACE"], (first, second))


def heliport(values: Mapping[str, str]) -> Heliport:
    ends = point(values, "A"), point(values, "B")
    return Heliport(values["ID"], values["CATEGORY"], ends, feet(values["WIDTH"]), feet(values["ELEVATION"]))


@dataclass
class Register:
    """What is known of the desk's register from the pairs of a file, up to some line."""
    airfields: dict[str, Airfield] = field(default_factory=dict)
    entries: set[int] = field(default_factory=set)
    last_change: int = 0  # the entry that changed an airfield last

    def is_whole(self, changes: int) -> bool:
        """Whether all changes up to this number stand in the file, so that nothing is registered but what is known."""
        return len(self.entries) == changes

    def take(self, pair: Pair) -> None:
        """Follows an accepted change. One that was accepted before changes nothing."""
        if not isinstance(pair.reply, Accepted) or pair.reply.number in self.entries:
            return
        self.entries.add(pair.reply.number)
        values = pair.record.values
        if pair.record.form in AIRFIELD_FORMS:
            self.last_change = pair.reply.number
        match pair.record.form:
            case "airport":
                kept = self.airfields.get(values["ID"])
                runways = kept.runways if isinstance(kept, Airport) else {}
                self.airfields[values["ID"]] = Airport(values["ID"], values["CATEGORY"], point(values), feet(values["ELEVATION"]), runways)
            case "heliport":
                self.airfields[values["ID"]] = heliport(values)
            case "drop":
                self.airfields.pop(values["ID"], None)
            case "runway" | "droprunway":
                self.take_runway(pair)

    def take_runway(self, pair: Pair) -> None:
        airport = self.airfields.get(pair.record.values["ID"])
        if not isinstance(airport, Airport):
            return  # of an airport that was registered before this file
        if pair.record.form == "runway":
            airport.runways[pair.record.values["NAME"]] = runway(pair.record.values)
        else:
            airport.runways.pop(pair.record.values["NAME"], None)


def register_after(pairs: Iterable[Pair]) -> Register:
    register = Register()
    for pair in pairs:
        register.take(pair)
    return register
