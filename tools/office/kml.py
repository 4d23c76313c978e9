"""KML for Google Earth: folders of airfields and of structures, heights in metres above mean sea level."""
import html
import xml.etree.ElementTree as Xml
from collections.abc import Iterable, Sequence

from office.shapes import ABOUT, Feature, Layer, Ring, Shape, conical_faces, is_conical
from office.geojson import positions
from office.grids import Grid
from office.picture import CIRCLE_LINE, LOOKS, MARKS, NOTICE_LINE
from office.structures import Finding
from office.surfaces import Look

NAMESPACE = "http://www.opengis.net/kml/2.2"
RUNWAY_LINE = "#10161c"
FOLDERS = {Layer.SURFACE: "Surfaces", Layer.REACH: "Reaches of notice", Layer.RUNWAY: "Runways", Layer.AIRFIELD: "Airfield"}
ON_GROUND = (Layer.REACH, Layer.RUNWAY, Layer.AIRFIELD)  # what is draped on the terrain
HIDDEN = (Layer.REACH,)  # what is shown when its box is ticked


def put(parent: Xml.Element, tag: str, text: object = None, **attributes: str) -> Xml.Element:
    child = Xml.SubElement(parent, tag, attributes)
    child.text = None if text is None else str(text)
    return child


def colour(rgb: str, opacity: float = 1) -> str:
    """A colour as KML writes it: opacity, blue, green, red."""
    red, green, blue = ((rgb[i:i + 2] if len(rgb) == 7 else rgb[i // 2 + 1] * 2) for i in (1, 3, 5))
    return f"{round(opacity * 255):02x}{blue}{green}{red}"


def put_styles(document: Xml.Element) -> None:
    def style(name: str, line: str, width: float, fill: str = "", opacity: float = 0) -> Xml.Element:
        out = put(document, "Style", id=name)
        stroke = put(out, "LineStyle")
        put(stroke, "color", colour(line))
        put(stroke, "width", width)
        area = put(out, "PolyStyle")
        put(area, "color", colour(fill or line, opacity))
        put(area, "outline", int(name != style_name(Look.CONICAL.value)))
        return out
    for look, paint in LOOKS.items():
        style(style_name(look.value), paint.line, 1.2, paint.fill, paint.opacity)
    style("reach-9b", NOTICE_LINE, 2)
    style("reach-17a2", CIRCLE_LINE, 2)
    style("runway", RUNWAY_LINE, 4)
    style("airfield", RUNWAY_LINE, 1)
    for finding, mark in MARKS.items():
        out = Xml.Element("IconStyle")
        put(out, "color", colour(mark.symbol))
        style(finding.value, mark.symbol, 3).insert(0, out)


def style_name(look: str) -> str:
    return "".join(letter if letter.isalnum() else "-" for letter in look)


def style_of(feature: Feature) -> str:
    if feature.layer is Layer.REACH:
        return "#reach-17a2" if feature.properties["rule"] == "17a2" else "#reach-9b"
    return "#" + style_name(feature.look)


def coordinates(grid: Grid, ring: Ring) -> str:
    return " ".join(",".join(f"{number:.10g}" for number in position) for position in positions(grid, ring))


def put_geometry(parent: Xml.Element, tag: str, feature: Feature) -> Xml.Element:
    out, is_on_ground = put(parent, tag), feature.layer in ON_GROUND
    if is_on_ground and tag != "Point":
        put(out, "tessellate", 1)
    put(out, "altitudeMode", "clampToGround" if is_on_ground else "absolute")
    return out


def put_polygon(parent: Xml.Element, feature: Feature, rings: Sequence[Ring], grid: Grid) -> None:
    out = put_geometry(parent, "Polygon", feature)
    for number, ring in enumerate(rings):
        edge = put(put(out, "innerBoundaryIs" if number else "outerBoundaryIs"), "LinearRing")
        put(edge, "coordinates", coordinates(grid, ring))


def put_shape(placemark: Xml.Element, feature: Feature, grid: Grid) -> None:
    """The geometry of a feature. A structure is its top and a line up to it; a conical surface small planes, since viewers bend a large polygon."""
    if feature.shape is Shape.POLYGONS:
        several = put(placemark, "MultiGeometry")
        for rings in [[face] for face in conical_faces(feature)] if is_conical(feature) else feature.parts:
            put_polygon(several, feature, rings, grid)
    elif feature.shape is Shape.LINE:
        put(put_geometry(placemark, "LineString", feature), "coordinates", coordinates(grid, feature.parts[0][0]))
    else:
        several, (corner,) = put(placemark, "MultiGeometry"), feature.parts[0][0]
        put(put_geometry(several, "Point", feature), "coordinates", coordinates(grid, [corner]))
        if feature.layer is Layer.STRUCTURE:
            foot = (*corner[:2], float(feature.properties["ground_ft"]))
            put(put_geometry(several, "LineString", feature), "coordinates", coordinates(grid, [foot, corner]))


def put_feature(folder: Xml.Element, feature: Feature, grid: Grid) -> None:
    placemark = put(folder, "Placemark")
    put(placemark, "name", feature.name)
    if feature.layer in HIDDEN:
        put(placemark, "visibility", 0)
    if "words" in feature.properties:
        put(placemark, "description", "<br/>".join(html.escape(text, quote=False) for text in str(feature.properties["words"]).split("; ")))
    put(placemark, "styleUrl", style_of(feature))
    data = put(placemark, "ExtendedData")
    for name, value in feature.properties.items():
        put(put(data, "Data", name=name), "value", value)
    put_shape(placemark, feature, grid)


def put_folder(parent: Xml.Element, name: str, features: Sequence[Feature], grid: Grid) -> None:
    if features:
        folder = put(parent, "Folder")
        put(folder, "name", name)
        for feature in features:
            put_feature(folder, feature, grid)


def document(features: Iterable[Feature], grid: Grid, title: str) -> str:
    some = list(features)
    root = Xml.Element("kml", xmlns=NAMESPACE)
    top = put(root, "Document")
    put(top, "name", title)
    put(top, "description", html.escape(f"{ABOUT} {grid.about_earth()}.", quote=False))
    put_styles(top)
    for airfield in dict.fromkeys(one.airfield for one in some if one.airfield):
        own = [one for one in some if one.airfield == airfield]
        folder = put(top, "Folder")
        put(folder, "name", airfield)
        for layer, name in FOLDERS.items():
            put_folder(folder, name, [one for one in own if one.layer is layer], grid)
    structures = [one for one in some if one.layer is Layer.STRUCTURE]
    if structures:
        folder = put(top, "Folder")
        put(folder, "name", "Structures")
        for finding in Finding:
            put_folder(folder, MARKS[finding].words, [one for one in structures if one.properties["finding"] == finding.value], grid)
    Xml.indent(root, " ")
    return '<?xml version="1.0" encoding="UTF-8"?>\n' + Xml.tostring(root, encoding="unicode") + "\n"
