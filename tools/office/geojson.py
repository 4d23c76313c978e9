"""GeoJSON (RFC 7946): longitude and latitude of WGS 84, and metres above mean sea level."""
import json
import math
from collections.abc import Callable, Iterable, Sequence

from office.faults import Fault
from office.shapes import ABOUT, Corner, Feature, Ring, Shape
from office.grids import FEET, Grid

METRES = FEET["US survey foot"]  # of a foot of height; an international one differs by 2 in a million
LONGEST_EDGE = 2_500  # feet; a straight line of the grid is bent on the earth, so that a longer one has corners between
DEGREE_PLACES, METRE_PLACES = 8, 3
HALF_WAY_ROUND = 180  # degrees
HEIGHTS = "The third number of a position is metres above mean sea level; RFC 7946 means the ellipsoid, which lies up to some 50 m off in the United States."

Position = list[float]


def parted(ring: Sequence[Corner]) -> Ring:
    """A line with corners between those that are far from each other."""
    out: Ring = []
    for (ax, ay, az), (bx, by, bz) in zip(ring, ring[1:]):
        count = max(1, math.ceil(math.dist((ax, ay), (bx, by)) / LONGEST_EDGE))
        steps = [i / count for i in range(count)]
        out += [(ax + (bx - ax) * step, ay + (by - ay) * step, az + (bz - az) * step if az is not None and bz is not None else None) for step in steps]
    return [*out, ring[-1]]


def positions(grid: Grid, ring: Sequence[Corner]) -> list[Position]:
    """A line on the earth."""
    corners = parted(ring)
    places = grid.on_earth([corner[:2] for corner in corners])
    lons = [lon for lon, _ in places]
    if max(lons) - min(lons) > HALF_WAY_ROUND:
        raise Fault("a shape crosses 180 degrees of longitude, and a map here is not cut there")
    return [[round(lon, DEGREE_PLACES), round(lat, DEGREE_PLACES)] + ([] if height is None else [round(height * METRES, METRE_PLACES)])
            for (lon, lat), (*_, height) in zip(places, corners)]


def coordinates(feature: Feature, place: Callable[[Ring], list[Position]]) -> list[object]:
    """The coordinates of a geometry, nested as its shape wants."""
    parts: list[list[list[Position]]] = [[place(ring) for ring in rings] for rings in feature.parts]
    return {Shape.POLYGONS: parts, Shape.LINE: parts[0][0], Shape.POINT: parts[0][0][0]}[feature.shape]


def member(feature: Feature, grid: Grid) -> dict[str, object]:
    geometry = {"type": feature.shape.value, "coordinates": coordinates(feature, lambda ring: positions(grid, ring))}
    return {"type": "Feature", "properties": {"layer": feature.layer.value, **feature.properties}, "geometry": geometry}


def text_of(features: Iterable[dict[str, object]], title: str, about: str) -> str:
    """A collection, a line for each feature."""
    head = {"type": "FeatureCollection", "name": title, "about": about}
    lines = ",\n".join(json.dumps(one, ensure_ascii=False, separators=(",", ":")) for one in features)
    return json.dumps(head, ensure_ascii=False)[:-1] + f', "features": [\n{lines}\n]}}\n'


def collection(features: Iterable[Feature], grid: Grid, title: str) -> str:
    return text_of((member(one, grid) for one in features), title, f"{ABOUT} {HEIGHTS} {grid.about_earth()}.")
