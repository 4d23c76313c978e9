"""What a map shows of airfields and structures: shapes with heights in feet of the grid, and what is known of each."""
import math
from collections.abc import Iterable, Sequence

from office import reaches, words
from office.faults import Fault
from office.records import show
from office.register import Airfield, Airport, Point
from office.replies import RULES, Entry
from office.shapes import Feature, Layer, Ring
from office.structures import Finding, Structure
from office.surfaces import Area, Look, surfaces_of

try:
    import shapely.geometry as geometry
    from shapely.geometry.polygon import orient
    from shapely.ops import unary_union
except ImportError as error:
    raise Fault("the library shapely is missing (on Debian: apt-get install python3-shapely)") from error

BEYOND_ALL = 1e7  # feet; no surface reaches so far from a line
LEAST_AREA = 1  # square feet; a smaller piece of a surface is an error of its edges
CIRCLE = 360  # corners of a circle


def rings_of(polygon: "geometry.Polygon", area: Area | None) -> list[Ring]:
    """The rings of a polygon, the outer one counterclockwise and its holes clockwise, with heights where an area has them."""
    turned = orient(polygon)
    return [[(x, y, area.height((x, y)) if area else None) for x, y in ring.coords] for ring in (turned.exterior, *turned.interiors)]


def polygons_of(shape: "geometry.base.BaseGeometry") -> list["geometry.Polygon"]:
    """The polygons that a shape has, without slivers."""
    return [one for one in getattr(shape, "geoms", [shape]) if isinstance(one, geometry.Polygon) and one.area > LEAST_AREA]


def ground_of(area: Area) -> "geometry.base.BaseGeometry":
    """The ground that an area covers. The edges of the conical surface keep their corners in order."""
    if area.look is Look.CONICAL:
        return geometry.Polygon(area.outlines[0], [area.hole])
    covered = unary_union([geometry.Polygon(outline).buffer(0) for outline in area.outlines if len(outline) > 2])
    return covered.difference(geometry.Polygon(area.hole)) if area.hole else covered


def pieces_of(area: Area) -> list[list["geometry.Polygon"]]:
    """The ground of an area, cut at its folds, so that each piece is one plane; the conical surface is left whole."""
    ground, out = ground_of(area), []
    edges = [-BEYOND_ALL, *area.folds, BEYOND_ALL]
    for start, end in zip(edges, edges[1:]):
        strip = geometry.Polygon(area.line.strip(start, end, lambda _: BEYOND_ALL)) if area.line and area.folds else None
        out.append(polygons_of(ground.intersection(strip) if strip else ground))
    return [some for some in out if some]


def slope_of(area: Area) -> str:
    return f"{area.slope:g}:1" if area.slope else "level" if area.rule in ("19a", "23p") else "as the centerline"


def surface_features(airfield: Airfield) -> list[Feature]:
    out, surfaces = [], surfaces_of(airfield)
    for area in surfaces.areas if surfaces else []:
        section, name, _ = words.say_entry(Entry(RULES[area.rule], airfield.id, area.key, 0))
        for some in pieces_of(area):
            parts = [rings_of(polygon, area) for polygon in some]
            heights = [height for rings in parts for ring in rings for *_, height in ring if height is not None]
            out.append(Feature(Layer.SURFACE, airfield.id, name, {
                "surface": area.look.value, "airfield": airfield.id, "rule": area.rule, "key": area.key, "section": section, "name": name,
                "slope": slope_of(area), "low_ft": round(min(heights), 1), "high_ft": round(max(heights), 1)}, parts))
    return out


def circle(at: Point, radius: float) -> "geometry.Polygon":
    turns = (2 * math.pi * i / CIRCLE for i in range(CIRCLE))
    return geometry.Polygon([(at[0] + radius * math.cos(turn), at[1] + radius * math.sin(turn)) for turn in turns])


def reach_feature(airfield: Airfield, rule: str, name: str, ground: "geometry.base.BaseGeometry") -> Feature:
    properties = {"airfield": airfield.id, "rule": rule, "section": RULES[rule].paragraph, "name": name}
    return Feature(Layer.REACH, airfield.id, name, properties, [rings_of(polygon, None) for polygon in polygons_of(ground)])


def reach_features(airfield: Airfield) -> list[Feature]:
    """The ground below the notice slope of 77.9(b), and that of the height near an airport of 77.17(a)(2), without heights."""
    out, reach = [], reaches.notice_reach(airfield)
    if reach:
        ground = unary_union([geometry.Polygon(band.outline()).buffer(0) for band in reach.bands])
        name = f"notice slope {reach.slope}:1 of {airfield.id}, {show(reach.bands[0].reach, 0)} ft"
        out.append(reach_feature(airfield, reach.rule, name, ground))
    for radius, said in reaches.height_circles(airfield):
        out.append(reach_feature(airfield, "17a2", f"height near {airfield.id}, {said}", circle(airfield.at, radius)))
    return out


def airfield_features(airfield: Airfield) -> list[Feature]:
    """The airfield as a point, and its runways as their centerlines."""
    is_airport = isinstance(airfield, Airport)
    sort = "airport" if is_airport else "heliport"
    properties = {"airfield": airfield.id, "sort": sort, "category": airfield.category, "elevation_ft": airfield.elevation}
    out = [Feature(Layer.AIRFIELD, airfield.id, airfield.id, properties, [[[(*airfield.at, airfield.elevation)]]])]
    for runway in airfield.runways.values() if is_airport else []:
        first, second = runway.ends
        out.append(Feature(Layer.RUNWAY, airfield.id, f"{airfield.id} {runway.name}", {
            "airfield": airfield.id, "runway": runway.name, "use": runway.use, "pavement": runway.surface, "length_ft": round(runway.length, 1),
            "end_1": runway.end_name(1), "approach_1": first.kind, "elevation_1_ft": first.elevation,
            "end_2": runway.end_name(2), "approach_2": second.kind, "elevation_2_ft": second.elevation}, [[[(*end.at, end.elevation) for end in runway.ends]]]))
    return out


def said_of(structure: Structure) -> str:
    """The findings of a structure in words."""
    if structure.entries:
        return "; ".join(" ".join(word for word in words.say_entry(entry) if word) for entry in structure.entries)
    return {Finding.NONE: "no rule that the desk knows is met", Finding.UNKNOWN: "not judged yet"}.get(structure.finding, structure.finding.value)


def structure_feature(structure: Structure, last_change: int) -> Feature:
    is_old = structure.changes is not None and structure.changes < last_change
    name = structure.name or f"line {structure.line}"
    return Feature(Layer.STRUCTURE, "", name, {
        "name": name, "finding": structure.finding.value, "ground_ft": structure.ground, "height_ft": structure.height, "top_ft": round(structure.top, 1),
        "excess_ft": structure.excess, "words": said_of(structure) + (" (asked before the airfields changed)" if is_old else "")},
        [[[(*structure.at, structure.top)]]])


def features(airfields: Sequence[Airfield], structures: Iterable[Structure], last_change: int) -> list[Feature]:
    """All that a map shows, layer by layer."""
    some = [one for airfield in airfields for one in (*surface_features(airfield), *reach_features(airfield), *airfield_features(airfield))]
    some += [structure_feature(structure, last_change) for structure in sorted(structures, key=lambda one: list(Finding).index(one.finding))]
    return [one for layer in Layer for one in some if one.layer is layer]
