"""Heights as GeoJSON: the contours of a raster, or places with both of their limits."""
from collections.abc import Sequence

from office import geojson, sites
from office.charts import Chart
from office.grids import Grid
from office.heights import Heights
from office.records import TENTHS
from office.sites import Site

ABOUT = "Heights are the desk's replies at places; contours lie between them in floating point and end where the height jumps. No determination of the FAA."

Member = dict[str, object]


def feature(kind: str, coordinates: object, properties: Member) -> Member:
    return {"type": "Feature", "properties": properties, "geometry": {"type": kind, "coordinates": coordinates}}


def contour_features(charts: Sequence[Chart], grid: Grid) -> list[Member]:
    """The contours of all charts, at the height of the tops that they stand for."""
    out = []
    for chart in charts:
        ground = chart.raster.ground / TENTHS
        for one in chart.contours:
            line = geojson.positions(grid, [(*chart.raster.at(*at), ground + one.level) for at in one.points])
            out.append(feature("LineString", line, {"limit": chart.sort.key, "height_ft": one.level, "top_ft": round(ground + one.level, 1), "ground_ft": ground}))
    return out


def place_features(some: Sequence[Site], heights: Sequence[Heights], grid: Grid) -> list[Member]:
    """The places, at their ground. A height that there is not is null."""
    out = []
    for site, one in zip(some, heights):
        named: Member = {"name": site.name} if site.along is None else {"along_ft": site.along}
        (position,) = geojson.positions(grid, [(*site.place.feet, site.place.ground / TENTHS)])
        out.append(feature("Point", position, named | dict(zip(sites.COLUMNS, map(sites.as_number, sites.row_of(one))))))
    return out


def collection(features: Sequence[Member], grid: Grid, title: str) -> str:
    return geojson.text_of(features, title, f"{ABOUT} {geojson.HEIGHTS} {grid.about_earth()}.")
