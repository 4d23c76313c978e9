"""The surfaces of a written map as areas, to be held against the desk's replies: heights come from the corners that stand in the file alone."""
import json
import math
import xml.etree.ElementTree as Xml
from collections.abc import Iterable, Iterator, Sequence
from functools import cache

from office.register import Point
from office.surfaces import Area, Look
from tests import drawn

ZONE, ORIGIN = 2236, (600_000, 100_000)  # Florida East, US survey feet
GRID = f"crs={ZONE}\norigin={ORIGIN[0]},{ORIGIN[1]}\ndatum=EPSG:4269\n"
FOOT = 1200 / 3937  # metres
KML = "{http://www.opengis.net/kml/2.2}"
PLANE = 0.1  # feet that a corner may lie off the plane of the others

Place = tuple[float, float, float]  # feet of the grid, and of height


@cache
def transformer() -> "object":
    import pyproj
    return pyproj.Transformer.from_crs(4326, ZONE, always_xy=True)


def from_earth(positions: Iterable[Sequence[float]]) -> list[Place]:
    """Longitudes, latitudes and metres in feet of the grid, by PROJ alone."""
    lons, lats, *metres = zip(*positions)
    xs, ys = transformer().transform(lons, lats)
    return [(x - ORIGIN[0], y - ORIGIN[1], z / FOOT) for x, y, z in zip(xs, ys, metres[0] if metres else [math.nan] * len(xs))]


def cross(o: Place, a: Place, b: Place) -> float:
    return (a[0] - o[0]) * (b[1] - o[1]) - (a[1] - o[1]) * (b[0] - o[0])


class Plane:
    """The plane through the corners of a polygon that make the widest triangle of some; all others must lie on it."""
    def __init__(self, ring: Sequence[Place]):
        self.a = ring[0]
        self.b = max(ring, key=lambda corner: math.dist(self.a[:2], corner[:2]))
        self.c = max(ring, key=lambda corner: abs(cross(self.a, self.b, corner)))
        off = max(abs(self((x, y)) - z) for x, y, z in ring)
        if off > PLANE:
            raise AssertionError(f"a corner lies {off} ft off the plane of a polygon at {self.a}")

    def __call__(self, at: Point) -> float:
        place, whole = (*at, 0.0), cross(self.a, self.b, self.c)
        weights = cross(place, self.b, self.c) / whole, cross(self.a, place, self.c) / whole
        return self.a[2] * weights[0] + self.b[2] * weights[1] + self.c[2] * (1 - sum(weights))


class Slope:
    """What rises evenly from an inner edge to an outer one."""
    def __init__(self, outer: Sequence[Place], inner: Sequence[Place]):
        self.outer, self.inner = outer, inner

    def far(self, ring: Sequence[Place], at: Point) -> float:
        return min(drawn.distance(at, a[:2], b[:2]) for a, b in zip(ring, ring[1:]))

    def __call__(self, at: Point) -> float:
        low, high = self.far(self.inner, at), self.far(self.outer, at)
        return self.inner[0][2] + (self.outer[0][2] - self.inner[0][2]) * low / (low + high)


def area_of(properties: dict[str, str], rings: Sequence[Sequence[Sequence[float]]]) -> Area:
    outer, *holes = (from_earth(ring) for ring in rings)
    height = Slope(outer, *holes) if holes else Plane(outer)
    return Area(properties["rule"], properties["key"], Look(properties["surface"]), [[corner[:2] for corner in outer]], height,
                [corner[:2] for corner in holes[0]] if holes else [])


def areas_of_geojson(text: str) -> list[tuple[str, Area]]:
    surfaces = [one for one in json.loads(text)["features"] if one["properties"]["layer"] == "surface"]
    return [(one["properties"]["airfield"], area_of(one["properties"], rings)) for one in surfaces for rings in one["geometry"]["coordinates"]]


def data_of(placemark: Xml.Element) -> dict[str, str]:
    return {one.get("name"): one.findtext(f"{KML}value") or "" for one in placemark.iter(f"{KML}Data")}


def positions(ring: Xml.Element) -> list[list[float]]:
    return [[float(number) for number in position.split(",")] for position in (ring.findtext(f"{KML}coordinates") or "").split()]


def areas_of_kml(text: str) -> Iterator[tuple[str, Area]]:
    for placemark in Xml.fromstring(text).iter(f"{KML}Placemark"):
        data = data_of(placemark)
        for polygon in placemark.iter(f"{KML}Polygon") if "surface" in data else []:
            yield data["airfield"], area_of(data, [positions(ring) for ring in polygon.iter(f"{KML}LinearRing")])
