"""Places to build at: named ones, some along a line, and those of a raster; and their heights as a table."""
import csv
import io
import math
import re
from collections.abc import Iterable, Sequence
from dataclasses import dataclass
from typing import TYPE_CHECKING

from office import cautions, forms, measures, words
from office.faults import Fault
from office.heights import Heights, Limit, Place
from office.records import TENTHS, Record, show
from office.register import AIRFIELD_FORMS, Register
from office.replies import NONE, Entry
from office.structures import Names, name_of

if TYPE_CHECKING:
    from office.grids import Grid

MOST_PLACES = 4_000_000  # of a raster; a desk and this tool hold them in memory
ANY = "any"  # in place of a height, if no notice is ever required

SITE_FORMS = ("screen", "verdict", "file")

GridPoint = tuple[int, int]  # tenths of a foot


def grid_point(text: str, grid: "Grid | None", option: str) -> GridPoint:
    """A place as X,Y in tenths of a foot on the grid, or as latitude and longitude, which have points or letters."""
    parts = re.split(r"\s*,\s*", text.strip())
    if len(parts) != 2:
        raise Fault(f"{option} {text}: write X,Y in tenths of a foot, or LAT,LON in degrees, as 40.77925,-73.97292")
    if all(map(forms.is_whole, parts)):
        for name, part in zip("XY", parts):
            if not forms.COORDINATE.fits(part, {}):
                raise Fault(f"{option} {text}: {name} is {forms.COORDINATE.wanted}")
        return int(parts[0]), int(parts[1])
    if grid is None:
        raise Fault(f"{option} {text}: these are no whole tenths of a foot on the grid; latitude and longitude want --grid FILE")
    lat = measures.degrees(parts[0], measures.Axis.LATITUDE, option)
    lon = measures.degrees(parts[1], measures.Axis.LONGITUDE, option)
    place = grid.place(lat, lon, f"{option} {text}")
    return place.x, place.y


@dataclass(frozen=True)
class Site:
    """A place with what it is called, or how many feet along a line it lies."""
    place: Place
    name: str = ""
    along: float | None = None


def of_record(record: Record, names: Names, path: str) -> Site:
    """The place of a structure, its height aside."""
    number = forms.first_bad_field(record.fields)
    if number is not None:
        raise Fault(f"{path} line {record.line}: field {number} of {forms.quoted(record.text)} is not as wanted (oe-clean says how)")
    values = record.values
    place = Place(int(values["X"]), int(values["Y"]), int(values["GROUND"]), values["KIND"], values["MOBILE"], values["FLAGS"], values["ON"])
    return Site(place, name_of(record, names) or f"line {record.line}")


def of_records(some: Iterable[Record], names: Names, path: str) -> list[Site]:
    return [of_record(record, names, path) for record in some if record.form in SITE_FORMS]


def airfields_of(some: Iterable[Record], path: str) -> list[Record]:
    """The records of airfields. One of no form is refused, since it may be meant as one."""
    out = []
    for record in some:
        if record.form not in forms.FORMS:
            raise Fault(f"{path} line {record.line}: there is no form {forms.quoted(record.form)} (oe-clean says what is meant)")
        out += [record] if record.form in AIRFIELD_FORMS else []
    return out


def cautions_of(some: Sequence[Site], register: Register) -> list[str]:
    """Where the heights may look better than they are: no airfield, or all of them far away. Of a line or a raster its ends and its middle are looked at."""
    if not register.airfields:
        return ["no airfield is registered, so this says nothing of airports: was --over forgotten, another file named, or the airfields refused?"]
    named = [site for site in some if site.name]
    if named:
        return [f"{site.name}: {caution}" for site in named for caution in cautions.of_point(site.place.feet, register)]
    found = [cautions.of_point(site.place.feet, register) for site in (some[0], some[len(some) // 2], some[-1])]
    return found[0] if all(found) else []


def along_legs(legs: Sequence[tuple[GridPoint, GridPoint]], step: int, ground: int) -> list[Site]:
    """Places along straight lines one after another, at their ends and at each step between, in tenths of a foot."""
    out, behind = list[Site](), 0.0
    for (ax, ay), (bx, by) in legs:
        length = math.dist((ax, ay), (bx, by))
        count = max(1, math.ceil(length / step))
        for i in range(count + 1):
            part = min(i * step / length, 1) if length else 0
            at = round(ax + (bx - ax) * part), round(ay + (by - ay) * part)
            if not out or (out[-1].place.x, out[-1].place.y) != at:
                out.append(Site(Place(*at, ground), along=round((behind + length * part) / TENTHS, 1)))
        behind += length
    return out


@dataclass(frozen=True)
class Raster:
    """A rectangle of places, a step apart, from its south west corner on; all in tenths of a foot."""
    west: int
    south: int
    step: int
    columns: int
    rows: int
    ground: int

    def places(self) -> list[Place]:
        """Its places row by row, from the south."""
        return [Place(self.west + self.step * column, self.south + self.step * row, self.ground) for row in range(self.rows) for column in range(self.columns)]

    def rowwise(self, some: Sequence[object]) -> list[Sequence[object]]:
        return [some[start:start + self.columns] for start in range(0, len(some), self.columns)]

    def at(self, column: float, row: float) -> tuple[float, float]:
        """A point of it, in feet of the grid."""
        return (self.west + self.step * column) / TENTHS, (self.south + self.step * row) / TENTHS


def raster(a: GridPoint, b: GridPoint, step: int, ground: int) -> Raster:
    (west, east), (south, north) = sorted((a[0], b[0])), sorted((a[1], b[1]))
    out = Raster(west, south, step, (east - west) // step + 1, (north - south) // step + 1, ground)
    if out.columns < 2 or out.rows < 2:
        raise Fault(f"the raster is {show((east - west) / TENTHS)} by {show((north - south) / TENTHS)} ft, and wants at least one step of {show(step / TENTHS)} ft each way")
    if out.columns * out.rows > MOST_PLACES:
        raise Fault(f"the raster has {out.columns * out.rows:,} places, and at most {MOST_PLACES:,} are taken: a greater --step, or parts of it")
    return out


def tenths_as_feet(tenths: int) -> str:
    return f"{tenths / TENTHS:.1f}"


def cells_of(limit: Limit, ground: int) -> tuple[str, str, str]:
    """Its height above the ground, the top, and what rules."""
    if limit.is_never:
        return ANY, ANY, NONE
    if limit.height is None:
        return NONE, NONE, limit.rules
    return tenths_as_feet(limit.height), tenths_as_feet(ground + limit.height), limit.rules


COLUMNS = ("east_ft", "north_ft", "ground_ft", "notice_ft", "notice_top_ft", "notice_rule", "standard_ft", "standard_top_ft", "standard_rule")


def row_of(heights: Heights) -> tuple[str, ...]:
    place = heights.place
    return (tenths_as_feet(place.x), tenths_as_feet(place.y), tenths_as_feet(place.ground), *cells_of(heights.notice, place.ground), *cells_of(heights.standard, place.ground))


def as_number(cell: str) -> str | float | None:
    """A cell as a number if it is one; a height that there is not is none."""
    if cell in (NONE, ANY):
        return None
    return float(cell) if re.fullmatch(r"-?[0-9]+\.[0-9]", cell) else cell


def table(sites: Sequence[Site], some: Sequence[Heights], grid: "Grid | None") -> str:
    """A table (CSV): names or lengths along a line if there are some, and latitude and longitude if the grid is known."""
    rows: Iterable[tuple[object, ...]] = map(row_of, some)
    head: tuple[str, ...] = COLUMNS
    if grid:
        places = grid.on_earth([site.place.feet for site in sites])
        rows, head = ((*row, f"{lat:.7f}", f"{lon:.7f}") for row, (lon, lat) in zip(rows, places)), (*head, "lat", "lon")
    if any(site.along is not None for site in sites):
        rows, head = ((site.along, *row) for site, row in zip(sites, rows)), ("along_ft", *head)
    if any(site.name for site in sites):
        rows, head = ((site.name, *row) for site, row in zip(sites, rows)), ("name", *head)
    out = io.StringIO()
    csv.writer(out, lineterminator="\n").writerows([head, *rows])
    return out.getvalue()


def say_entry(entry: Entry) -> str:
    paragraph, text, _ = words.say_entry(entry)
    return f"{paragraph} {text}"


def say_limit(limit: Limit, ground: int, what: str, never: str) -> str:
    """A limit in words."""
    if limit.is_never:
        return never
    rules = "; ".join(map(say_entry, limit.entries))
    if limit.height is None:
        return f"{what} at every height: {rules}"
    return f"no {what} up to {words.feet_of(limit.height)} above the ground, top {words.feet_of(ground + limit.height)}; then {rules}"


def say(site: Site, heights: Heights) -> list[str]:
    place = site.place
    head = f"{site.name}: " if site.name else ""
    return [f"{head}E {show(place.x / TENTHS)} N {show(place.y / TENTHS)} ft, ground {words.feet_of(place.ground)}",
            "    " + say_limit(heights.notice, place.ground, "notice", "no notice at any height: a flag takes every notice rule away (77.9(e))"),
            "    " + say_limit(heights.standard, place.ground, "obstruction", "no standard at any height")]
