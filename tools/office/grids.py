"""The grid of an office: a state plane zone in feet, by PROJ, less an origin. It is kept in a file, as one desk has one grid."""
import math
import os
import re
from collections.abc import Sequence
from dataclasses import dataclass
from functools import cached_property

from office.faults import Fault, FinalFault
from office.records import TENTHS, show

try:
    import pyproj
except ImportError as error:
    raise Fault("the library pyproj is missing (on Debian: apt-get install python3-pyproj)") from error

NAD83, WGS84 = "EPSG:4269", "EPSG:4326"
FEET = {"US survey foot": 1200 / 3937, "foot": 0.3048}  # metres
MILE = 1609.344  # metres
EARTH = pyproj.Geod(ellps="GRS80")
FARTHEST = 20_000_000  # tenths of a foot from the origin
ROUND_ORIGIN = 100_000
AROUND_ZONE = 0.5  # degrees outside of a zone that are let pass


class OffGrid(Fault):
    """A place outside of the zone or of the grid."""


@dataclass(frozen=True)
class Choice:
    """What --crs, --origin and --datum say, or a grid's file."""
    crs: str | None
    origin: str | None
    datum: str | None

    def lines(self) -> list[str]:
        return [f"{name}={value}\n" for name, value in vars(self).items()]


@dataclass(frozen=True)
class Place:
    """A point on the grid, in tenths of a foot."""
    x: int
    y: int


def accuracy(transformer: "pyproj.Transformer") -> str:
    """How exactly PROJ takes one datum for another."""
    metres = transformer.accuracy
    return f"to within {metres / FEET['foot']:.0f} ft" if metres and metres > 0 else "with an unknown error"


def miles(one: tuple[float, float], other: tuple[float, float]) -> float:
    """Statute miles between two points of latitude and longitude."""
    return EARTH.inv(one[1], one[0], other[1], other[0])[2] / MILE


def read_choice(path: str) -> Choice:
    try:
        with open(path, encoding="utf-8") as file:
            kept = dict(line.strip().split("=", 1) for line in file if "=" in line)
        return Choice(kept["crs"], kept["origin"], kept["datum"])
    except (OSError, UnicodeDecodeError, KeyError) as error:
        raise Fault(f"{path}: it is no file that --grid wrote (crs, origin and datum, a line each)") from error


def kept_choice(said: Choice, path: str | None) -> Choice:
    """The choice of a grid's file where there is one; another one beside it is refused."""
    if not path or not os.path.exists(path):
        if path and not said.crs:
            raise Fault(f"{path}: no such file; the first time, --crs and --origin stand beside --grid, which then keeps them there")
        return said
    kept = read_choice(path)
    for name, value in vars(said).items():
        if value and value != getattr(kept, name):
            raise Fault(f"{path} has {name} {getattr(kept, name)}, and --{name} says {value}: one desk has one grid")
    return kept


def keep(choice: Choice, path: str) -> None:
    try:
        with open(path, "x", encoding="utf-8") as file:
            file.writelines(choice.lines())
    except FileExistsError:
        return
    except OSError as error:
        raise Fault(f"{path}: {error.strerror}") from error


def system(text: str, option: str) -> "pyproj.CRS":
    try:
        return pyproj.CRS.from_user_input(int(text) if text.isdigit() else text)
    except pyproj.exceptions.CRSError as error:
        raise Fault(f"{option} {text}: PROJ does not know it") from error


class Grid:
    def __init__(self, choice: Choice):
        if not choice.crs:
            raise Fault("say the grid: --crs with the EPSG code of a state plane zone in feet, or --grid FILE")
        if choice.origin and not re.fullmatch(r"-?[0-9]+,-?[0-9]+", choice.origin):
            raise Fault(f"--origin {choice.origin}: write E,N in whole feet of the zone")
        self.choice = Choice(choice.crs, choice.origin, choice.datum or NAD83)
        self.crs, self.datum = system(choice.crs, "--crs"), system(choice.datum or NAD83, "--datum")
        units = sorted({axis.unit_name for axis in self.crs.axis_info})
        if not self.crs.is_projected or len(units) != 1 or units[0] not in FEET:
            raise Fault(f"--crs {choice.crs} ({self.crs.name}) is in {', '.join(units)}; the desk counts feet: take the zone with ftUS or ft in its name")
        if not self.datum.is_geographic:
            raise Fault(f"--datum {self.choice.datum} ({self.datum.name}) has no latitudes")
        self.unit = units[0]
        self.transformer = pyproj.Transformer.from_crs(self.datum, self.crs, always_xy=True)
        self.origin = [int(part) for part in choice.origin.split(",")] if choice.origin else None

    def place(self, lat: float, lon: float, where: str) -> Place:
        """A point of the earth on the grid, to the nearest tenth of a foot."""
        self.check_zone(lat, lon, where)
        east, north = self.transformer.transform(lon, lat)
        if not (math.isfinite(east) and math.isfinite(north)):
            raise OffGrid(f"{where}: PROJ does not find latitude {lat:.5f}, longitude {lon:.5f} in {self.crs.name}")
        if self.origin is None:
            near = ",".join(f"{round(value / ROUND_ORIGIN) * ROUND_ORIGIN}" for value in (east, north))
            raise FinalFault(f"{where} is at E {show(east)} N {show(north)} of {self.crs.name}; give one --origin for this desk and keep it, as --origin {near}")
        x, y = (round((value - origin) * 10) for value, origin in zip((east, north), self.origin))
        if max(abs(x), abs(y)) > FARTHEST:
            raise OffGrid(f"{where} is {show(max(abs(x), abs(y)) / 10, 0)} ft from the origin, and the grid reaches {show(FARTHEST / 10, 0)}; "
                        f"it is at E {show(east, 0)} N {show(north, 0)} of {self.crs.name}")
        return Place(x, y)

    def degrees(self, x: int, y: int) -> tuple[float, float]:
        """Latitude and longitude of a point on the grid, in tenths of a foot."""
        east, north = self.in_zone((x / TENTHS, y / TENTHS))
        lon, lat = self.transformer.transform(east, north, direction="INVERSE")
        if not (math.isfinite(lat) and math.isfinite(lon)):
            raise Fault(f"PROJ does not find E {show(east)} N {show(north)} of {self.crs.name} on the earth")
        return lat, lon

    def check_zone(self, lat: float, lon: float, where: str) -> None:
        zone = self.crs.area_of_use
        if zone is None:
            return

        def is_within(lat: float, lon: float) -> bool:
            return zone.west - AROUND_ZONE <= lon <= zone.east + AROUND_ZONE and zone.south - AROUND_ZONE <= lat <= zone.north + AROUND_ZONE
        if not is_within(lat, lon):
            cause = "a western longitude is negative" if is_within(lat, -lon) else "are lat and lon exchanged?" if is_within(lon, lat) else "is this the zone of the place?"
            raise OffGrid(f"{where}: latitude {lat:.5f}, longitude {lon:.5f} is outside of {self.crs.name} ({zone.south:g} to {zone.north:g}, "
                        f"{zone.west:g} to {zone.east:g}); {cause}")

    def ellipsoid_feet(self, lat: float, lon: float, to_lat: float, to_lon: float) -> float:
        """The way between two points over the ellipsoid, in feet of the grid."""
        return self.geodesic(lat, lon, to_lat, to_lon)[2] / FEET[self.unit]

    def bearing(self, lat: float, lon: float, to_lat: float, to_lon: float) -> float:
        """The true direction in which the shortest way between two points begins, in degrees."""
        return self.geodesic(lat, lon, to_lat, to_lon)[0] % 360

    def geodesic(self, lat: float, lon: float, to_lat: float, to_lon: float) -> tuple[float, float, float]:
        """Both directions and the metres of the shortest way."""
        geod = self.own_datum().get_geod()
        if geod is None:
            raise FinalFault(f"--crs {self.choice.crs} ({self.crs.name}) has no ellipsoid")
        return geod.inv(lon, lat, to_lon, to_lat)

    def own_datum(self) -> "pyproj.CRS":
        """The latitudes and longitudes under the grid."""
        geodetic = self.crs.geodetic_crs
        if geodetic is None:
            raise FinalFault(f"--crs {self.choice.crs} ({self.crs.name}) stands over no latitudes")
        return geodetic

    def words(self) -> list[str]:
        east, north = self.choice.origin.split(",") if self.choice.origin else ("-", "-")
        out = [f"grid: {self.crs.name}, {self.unit}, less E {east} N {north}"]
        own = self.own_datum()
        if self.datum.datum != own.datum:
            out.append(f"CAUTION: the latitudes are of {self.datum.name} and the zone is of {own.name}; PROJ takes one for the other {accuracy(self.transformer)}")
        return out

    @cached_property
    def to_earth(self) -> "pyproj.Transformer":
        return pyproj.Transformer.from_crs(self.crs, WGS84, always_xy=True)

    def in_zone(self, at: tuple[float, float]) -> tuple[float, float]:
        """Easting and northing in the zone of a point in feet of the grid."""
        if self.origin is None:
            raise Fault("the grid has no origin: it is that of the desk's coordinates, as --origin of oe-from-points")
        return at[0] + self.origin[0], at[1] + self.origin[1]

    def on_earth(self, some: Sequence[tuple[float, float]]) -> list[tuple[float, float]]:
        """Longitudes and latitudes of WGS 84 of points in feet of the grid."""
        easts, norths = zip(*map(self.in_zone, some))
        out = list(zip(*self.to_earth.transform(easts, norths)))
        for at, place in zip(some, out):
            if not all(map(math.isfinite, place)):
                raise Fault(f"PROJ finds no latitude for E {show(at[0])} N {show(at[1])} of the grid: is it the grid of these records?")
        return out

    def about_earth(self) -> str:
        """How the latitudes of a map come from those of the zone."""
        return f"WGS 84: PROJ takes it from {self.own_datum().name} {accuracy(self.to_earth)}"
