"""Records out of points with latitude, longitude and feet of elevation."""
import math
import re
from collections.abc import Iterable, Mapping
from dataclasses import dataclass, field
from functools import partial

from office import forms
from office.faults import Fault, FinalFault, gathered
from office.forms import Value
from office.grids import Grid, Place
from office.measures import Axis, degrees, tenths
from office.records import TENTHS, show
from office.tables import GROUND, TOP, Row

SAME_OF_ENDS = {"end": ("use", "surface"), "pad": ("category", "width_ft", "elev_ft")}
FAR_FROM_PUBLISHED = 10  # feet
ABOVE_AIRPORT, BELOW_AIRPORT = 1, 500  # feet of an end from its airport's elevation, which is that of the highest point of its runways
EXCHANGED, FAR_FROM_NUMBER = 120, 40  # degrees of a runway from its number; magnetic north is some 20 off at most
HALF_TURN, FULL_TURN, DEGREES_OF_NUMBER = 180, 360, 10
WHOLE_DEGREES = re.compile(r"-?[0-9]+")  # as a spreadsheet leaves them that shows no decimals
RUNWAY_NUMBERS = re.compile(r"(0?[1-9]|[12][0-9]|3[0-6])[A-Z]?/[0-9]{1,2}[A-Z]?")
STUDY = re.compile(r"([0-9]{4})-([A-Z]+)-([0-9]+)-([A-Z]+)")

Words = Mapping[str, Value]
NEEDED_WORDS: Mapping[str, Words] = {
    "airport": {"id": forms.ID, "category": forms.CATEGORY},
    "end": {"id": forms.ID, "name": forms.NAME, "use": forms.USE, "surface": forms.PAVEMENT, "kind": forms.APPROACH},
    "pad": {"id": forms.ID, "category": forms.CATEGORY},
    "structure": {"kind": forms.STRUCTURE},
    "notice": {"kind": forms.STRUCTURE, "study": forms.spelling(STUDY.pattern, "a study as 2026-AWP-101-OE"), "start": forms.DAY},
}
OF_STRUCTURES: Words = {"flags": forms.FLAGS, "id": forms.ON}
OTHER_WORDS: Mapping[str, Words] = {
    "structure": OF_STRUCTURES,
    "notice": {**OF_STRUCTURES, "permit": forms.DAY_OR_NONE, "fcc": forms.DAY_OR_NONE, "urgency": forms.URGENCY, "statement": forms.YES},
}
STRUCTURES = ("structure", "notice")
NEEDED_FEET = {"airport": (GROUND,), "end": (GROUND,), "pad": (GROUND, "width_ft"), "structure": ("height_ft",), "notice": ("height_ft",)}
OTHER_FEET = {"structure": (GROUND, TOP, "mobile_ft"), "notice": (GROUND, TOP, "mobile_ft")}


@dataclass(frozen=True)
class Point:
    """A row with its place on the grid; its feet are tenths of a foot."""
    row: Row
    lat: float
    lon: float
    place: Place
    feet: Mapping[str, int]

    @property
    def elevation(self) -> int:
        return self.feet[GROUND]

    def as_end(self) -> tuple[int, int, int, str]:
        """The fields of a runway's end."""
        return self.place.x, self.place.y, self.elevation, self.row.need("kind")

    def as_site(self) -> tuple[str | int, ...]:
        """The fields of a structure."""
        row = self.row
        return (self.place.x, self.place.y, self.elevation, self.feet["height_ft"], row.need("kind"), self.feet.get("mobile_ft", 0),
                row.get("flags") or "-", row.get("id") or "-")


def check_word(row: Row, column: str, value: Value) -> None:
    text = row.get(column)
    if not text and column in NEEDED_WORDS[row.get("what")]:
        row.need(column)
    if text and not value.fits(text, {}):
        why = forms.cause(text, forms.Field(column, value))
        raise Fault(f"{row.where}: {column} {forms.quoted(text)}" + (f" ({why})" if why else "") + f"; wanted is {value.wanted}")


def check_words(row: Row) -> None:
    what = row.get("what")
    some = {**NEEDED_WORDS[what], **OTHER_WORDS.get(what, {})}
    gathered(*(partial(check_word, row, column, value) for column, value in some.items()))


def angle_in(row: Row, column: str, axis: Axis) -> float:
    return degrees(row.need(column), axis, f"{row.label}, {column}")


def feet_in(row: Row, column: str) -> tuple[str, int]:
    return column, tenths(row.need(column), f"{row.label}, {column}")


def feet_of(row: Row) -> dict[str, int]:
    """The feet of a row by column, in tenths; a structure's ground may be said by its top."""
    what = row.get("what")
    columns = [*NEEDED_FEET[what], *(column for column in OTHER_FEET.get(what, ()) if row.get(column))]
    columns += [] if {GROUND, TOP} & set(columns) else [GROUND]
    out = dict(gathered(*(partial(feet_in, row, column) for column in columns)))
    if TOP in out:
        ground = out[TOP] - out["height_ft"]
        if out.setdefault(GROUND, ground) != ground:
            top = (out[GROUND] + out["height_ft"]) / TENTHS
            raise Fault(f"{row.label}: elev_ft and height_ft give a top of {show(top)} ft, and top_ft is {show(out[TOP] / TENTHS)} ft")
    return out


@dataclass
class Writer:
    """Writes the records of points; an end waits for the other end of its runway or pad. A row that is refused is named, and the next one is taken."""
    grid: Grid
    caller: str
    key: str
    records: list[str] = field(default_factory=list)
    names: list[tuple[str, ...]] = field(default_factory=list)
    notes: list[str] = field(default_factory=list)
    faults: list[str] = field(default_factory=list)
    waiting: dict[tuple[str, str, str], Point] = field(default_factory=dict)
    broken: set[tuple[str, str, str]] = field(default_factory=set)
    elevations: dict[str, int] = field(default_factory=dict)
    changes: int = 0

    def put(self, row: Row, *fields: str | int) -> None:
        """A record, tested as the desk tests it, so that a fault is named by the row's line."""
        cells = [str(cell) for cell in fields]
        number = forms.first_bad_field(cells)
        if number is not None:
            field_of, cell = forms.FORMS[cells[0]][number - 2], cells[number - 1]
            why = forms.cause(cell, field_of)
            raise Fault(f"{row.where}: {field_of.name} {forms.quoted(cell)}" + (f" ({why})" if why else "") + f"; wanted is {field_of.wanted}")
        self.records.append(",".join(cells))

    def put_change(self, row: Row, form: str, *fields: str | int) -> None:
        self.changes += 1
        self.put(row, form, self.caller, self.key_of(row), *fields)

    def key_of(self, row: Row) -> str:
        return f"{self.key}{self.changes}"

    def take_all(self, rows: Iterable[Row]) -> None:
        """Takes every row; `faults` has what is wrong with them."""
        for row in rows:
            try:
                self.take(row)
            except FinalFault:
                raise
            except Fault as fault:
                self.faults += str(fault).splitlines()
                self.broken.add(row.pair)
        for pair, point in self.waiting.items():
            if pair not in self.broken:
                self.faults.append(f"{point.row.where}: {pair[1]} {pair[2]}".rstrip() + " has one end; two rows with the same id and name make it")

    def take(self, row: Row) -> None:
        what = row.get("what")
        if row.faults:
            raise Fault("\n".join(row.faults))
        if what not in NEEDED_WORDS:
            raise Fault(f'{row.where}: what is "{what}"; wanted is {", ".join(NEEDED_WORDS)}')
        point = self.locate(row)
        if what == "airport":
            self.elevations[row.get("id")] = point.elevation
            self.put_change(row, "airport", row.need("id"), row.need("category"), point.place.x, point.place.y, point.elevation)
        elif what in STRUCTURES:
            self.put_structure(point)
        elif row.pair in self.waiting:
            first = self.waiting.pop(row.pair)
            self.check_ends(first, point)
            self.put_runway(first, point) if what == "end" else self.put_pad(first, point)
        else:
            self.waiting[row.pair] = point

    def locate(self, row: Row) -> Point:
        """A row's place and feet; a fault names all that is wrong with it."""
        (lat, lon, place), feet, _ = gathered(partial(self.position, row), partial(feet_of, row), partial(check_words, row))
        return Point(row, lat, lon, place, feet)

    def position(self, row: Row) -> tuple[float, float, Place]:
        lat, lon = gathered(partial(angle_in, row, "lat", Axis.LATITUDE), partial(angle_in, row, "lon", Axis.LONGITUDE))
        self.note_whole_degrees(row)
        return lat, lon, self.grid.place(lat, lon, row.label)

    def note_whole_degrees(self, row: Row) -> None:
        whole = [f"{column} {row.get(column)}" for column in ("lat", "lon") if WHOLE_DEGREES.fullmatch(row.get(column))]
        if whole:
            self.notes.append(f"CAUTION: {row.label}: {' and '.join(whole)} without decimals: were they cut off? A degree of latitude is some 69 miles")

    def put_structure(self, point: Point) -> None:
        """A structure to be screened, or the notice of one: 2026-AWP-101-OE is CALLER 2026.AWP and KEY 101.OE."""
        row, site = point.row, point.as_site()
        if row.get("what") == "notice":
            year, region, number, kind = STUDY.fullmatch(row.need("study")).groups()
            self.put(row, "file", f"{year}.{region}", f"{number}.{kind}", row.need("start"), row.get("permit") or "-", row.get("fcc") or "-", row.get("urgency") or "normal",
                     row.get("statement") or "-", *site)
        else:
            self.put(row, "screen", *site)
        if row.get("name"):
            self.names.append((*map(str, site[:4]), row.get("name")))

    def check_ends(self, first: Point, second: Point) -> None:
        what, name, runway = second.row.pair
        for column in SAME_OF_ENDS[what]:
            one, other = first.row.get(column), second.row.get(column)
            if one != other:
                raise Fault(f'{second.row.where}: the two ends of {name} {runway}'.rstrip() + f' differ in {column}: "{one}" and "{other}"; which is it?')

    def put_runway(self, first: Point, second: Point) -> None:
        row = second.row
        self.check_direction(first, second)
        self.put_change(row, "runway", row.need("id"), row.need("name"), row.need("use"), row.need("surface"), *first.as_end(), *second.as_end())
        self.note_length(first, second)
        for end in (first, second):
            self.note_elevation(end)

    def check_direction(self, first: Point, second: Point) -> None:
        """A runway leads from its first end as its first number says, but for what magnetic north is off."""
        row, numbers = second.row, RUNWAY_NUMBERS.fullmatch(second.row.get("name"))
        if first.place == second.place:
            raise Fault(f"{row.where}: the two ends of {row.get('id')} {row.get('name')} are one place")
        if not numbers:
            return
        bearing = self.grid.bearing(first.lat, first.lon, second.lat, second.lon)
        off = abs((bearing - DEGREES_OF_NUMBER * int(numbers[1]) + HALF_TURN) % FULL_TURN - HALF_TURN)
        said = f"{row.where}: {row.get('id')} {row.get('name')} leads {bearing:.0f} degrees from its first end to its second"
        if off > EXCHANGED:
            raise Fault(f"{said}: are its two rows exchanged? That of {row.get('name').partition('/')[0]} comes first")
        if off > FAR_FROM_NUMBER:
            self.notes.append(f"CAUTION: {said}, {off:.0f} off its number: look at the coordinates")

    def note_elevation(self, end: Point) -> None:
        """A caution where an end is above its airport, or far below it."""
        name, runway = end.row.get("id"), end.row.get("name")
        above = (end.elevation - self.elevations.get(name, end.elevation)) / TENTHS
        if above > ABOVE_AIRPORT or above < -BELOW_AIRPORT:
            self.notes.append(f"CAUTION: {end.row.where}: an end of {name} {runway} is {show(abs(above))} ft {'above' if above > 0 else 'below'} the airport's elevation, "
                              "which is that of the highest point of its runways: is one of them mistyped, or in metres?")

    def note_length(self, first: Point, second: Point) -> None:
        """The length on the grid beside that on the ellipsoid and the published one, as a check of the coordinates."""
        row = second.row
        flat = math.dist((first.place.x, first.place.y), (second.place.x, second.place.y)) / TENTHS
        round_way = self.grid.ellipsoid_feet(first.lat, first.lon, second.lat, second.lon)
        note = f"{row.get('id')} {row.get('name')}: {show(flat)} ft on the grid, {show(round_way)} ft on the ellipsoid"
        given = {one.row.get("published_ft") for one in (first, second)} - {""}
        if len(given) > 1:
            raise Fault(f"{row.where}: the two ends of {row.get('id')} {row.get('name')} differ in published_ft: {' and '.join(sorted(given))}; which is it?")
        if given:
            published = tenths(given.pop(), f"{row.where}, published_ft") / TENTHS
            note += f"; published {show(published, 0)} ft, {flat - published:+.1f} ft"
            note += " CAUTION: look at the coordinates" if abs(flat - published) > FAR_FROM_PUBLISHED else ""
        self.notes.append(note)

    def put_pad(self, first: Point, second: Point) -> None:
        row = second.row
        self.put_change(row, "heliport", row.need("id"), row.need("category"), first.place.x, first.place.y, second.place.x, second.place.y,
                        second.feet["width_ft"], second.elevation)
