"""GeoPackage and DXF by GDAL, in the eastings, northings and heights of the zone, all in its feet."""
import json
import os
import sqlite3
from collections.abc import Sequence
from contextlib import closing

from office import qml
from office.faults import Fault
from office.shapes import SHAPES, Feature, Layer, Ring, Shape
from office.geojson import coordinates
from office.grids import Grid
from office.picture import CIRCLE_LINE, INK, LOOKS, MARKS, NOTICE_LINE

try:
    from osgeo import gdal, ogr, osr
except ImportError as error:
    raise Fault("the library GDAL is missing (on Debian: apt-get install python3-gdal)") from error

KINDS = {Shape.POLYGONS: ogr.wkbMultiPolygon25D, Shape.LINE: ogr.wkbLineString25D, Shape.POINT: ogr.wkbPoint25D}
LETTER = 100  # feet, the height of the words of a drawing
STYLES = """CREATE TABLE layer_styles (id INTEGER PRIMARY KEY AUTOINCREMENT NOT NULL, f_table_catalog TEXT(256), f_table_schema TEXT(256),
f_table_name TEXT(256), f_geometry_column TEXT(256), styleName TEXT(30), styleQML TEXT, styleSLD TEXT, useAsDefault BOOLEAN, description TEXT,
owner TEXT(30), ui TEXT(30), update_time DATETIME DEFAULT (strftime('%Y-%m-%dT%H:%M:%fZ', 'now')))"""
DRAWN = {look.value: (f"P77_{look.name}", paint.line) for look, paint in LOOKS.items()}
DRAWN |= {finding.value: (f"STRUCTURE_{finding.name}", mark.symbol) for finding, mark in MARKS.items()}
DRAWN |= {Layer.RUNWAY.value: ("RUNWAY", INK), Layer.AIRFIELD.value: ("AIRFIELD", INK), "17a2": ("HEIGHT_NEAR_AIRPORT", CIRCLE_LINE)}
DRAWN |= {rule: ("NOTICE_REACH", NOTICE_LINE) for rule in ("9b1", "9b2", "9b3")}


def system(grid: Grid) -> "osr.SpatialReference":
    out = osr.SpatialReference()
    out.ImportFromWkt(grid.crs.to_wkt())
    out.SetAxisMappingStrategy(osr.OAMS_TRADITIONAL_GIS_ORDER)
    return out


def created(driver: str, path: str) -> "ogr.DataSource":
    """A new file in the place of the one before it."""
    gdal.UseExceptions()
    ogr.UseExceptions()
    try:
        if os.path.exists(path):
            os.remove(path)
        return ogr.GetDriverByName(driver).CreateDataSource(path)
    except (RuntimeError, OSError) as error:
        raise Fault(f"{path}: {getattr(error, 'strerror', None) or error}") from error


def placed(grid: Grid, ring: Ring) -> list[list[float]]:
    return [[*grid.in_zone(corner[:2]), *([] if corner[2] is None else [corner[2]])] for corner in ring]


def geometry_of(feature: Feature, grid: Grid) -> "ogr.Geometry":
    nested = coordinates(feature, lambda ring: placed(grid, ring))
    return ogr.CreateGeometryFromJson(json.dumps({"type": feature.shape.value, "coordinates": nested}))


def put_table(source: "ogr.DataSource", layer: Layer, features: Sequence[Feature], grid: Grid) -> None:
    """A layer with a column for each property."""
    kind = KINDS[SHAPES[layer]] if layer is not Layer.REACH else ogr.wkbMultiPolygon
    table = source.CreateLayer(layer.value, system(grid), kind)
    properties = {"layer": layer.value, **features[0].properties}
    for name, value in properties.items():
        table.CreateField(ogr.FieldDefn(name, ogr.OFTReal if isinstance(value, float | int) else ogr.OFTString))
    table.StartTransaction()
    for one in features:
        row = ogr.Feature(table.GetLayerDefn())
        for name, value in {**one.properties, "layer": layer.value}.items():
            row.SetField(name, value)
        row.SetGeometry(geometry_of(one, grid))
        table.CreateFeature(row)
    table.CommitTransaction()


def put_styles(path: str, layers: Sequence[Layer]) -> None:
    """The table in which QGIS looks for the styles of a GeoPackage's layers."""
    with closing(sqlite3.connect(path)) as opened, opened:
        opened.execute(STYLES)
        opened.execute("INSERT INTO gpkg_contents (table_name, data_type, identifier) VALUES ('layer_styles', 'attributes', 'layer_styles')")
        opened.executemany("INSERT INTO layer_styles (f_table_catalog, f_table_schema, f_table_name, f_geometry_column, styleName, styleQML, useAsDefault) "
                           "VALUES ('', '', ?, 'geom', 'oe-map', ?, 1)", [(layer.value, qml.style(SHAPES[layer])) for layer in layers])


def write_package(features: Sequence[Feature], grid: Grid, path: str) -> None:
    source, there = created("GPKG", path), [layer for layer in Layer if any(one.layer is layer for one in features)]
    for layer in there:
        put_table(source, layer, [one for one in features if one.layer is layer], grid)
    source = None  # which closes the file
    put_styles(path, there)


def drawn_as(feature: Feature) -> tuple[str, str]:
    """The layer of a drawing that a feature is on, and its colour."""
    return DRAWN[str(feature.properties["rule"]) if feature.layer is Layer.REACH else feature.look]


def put_entity(entities: "ogr.Layer", layer: str, style: str, geometry: "ogr.Geometry") -> None:
    row = ogr.Feature(entities.GetLayerDefn())
    row.SetField("Layer", layer)
    row.SetStyleString(style)
    row.SetGeometry(geometry)
    entities.CreateFeature(row)


def line_of(grid: Grid, ring: Ring) -> "ogr.Geometry":
    return ogr.CreateGeometryFromJson(json.dumps({"type": "LineString", "coordinates": placed(grid, ring)}))


def write_drawing(features: Sequence[Feature], grid: Grid, path: str) -> None:
    """Outlines as lines with heights; structures as points with a line from their ground and their name."""
    source = created("DXF", path)
    entities = source.CreateLayer("entities")
    for one in features:
        (layer, colour), corner = drawn_as(one), one.parts[0][0][0]
        pen = f"PEN(c:{colour})"
        if one.shape is not Shape.POINT:
            for ring in (ring for rings in one.parts for ring in rings):
                put_entity(entities, layer, pen, line_of(grid, ring))
            continue
        put_entity(entities, layer, pen, geometry_of(one, grid))
        if one.layer is Layer.STRUCTURE:
            put_entity(entities, layer, pen, line_of(grid, [(*corner[:2], float(one.properties["ground_ft"])), corner]))
        name = one.name.replace("\\", " ").replace('"', "'")
        put_entity(entities, layer, f'LABEL(f:"Arial",t:"{name}",s:{LETTER}g,c:{colour})', geometry_of(one, grid))
    source = None  # which closes the file
