"""Styles that QGIS takes (QML): one for polygons, one for lines and one for points, by what the features say of themselves."""
import os
import xml.etree.ElementTree as Xml
from collections.abc import Sequence
from dataclasses import dataclass

from office.shapes import Layer, Shape
from office.picture import CIRCLE_LINE, INK, LOOKS, MARKS, NOTICE_LINE
from office.records import write_text

PAPER = "#ffffff"
NAMES = {Shape.POLYGONS: "polygons", Shape.LINE: "lines", Shape.POINT: "points"}
SYMBOLS = {Shape.POLYGONS: ("fill", "SimpleFill"), Shape.LINE: ("line", "SimpleLine"), Shape.POINT: ("marker", "SimpleMarker")}
GEOMETRY_TYPES = {Shape.POINT: 0, Shape.LINE: 1, Shape.POLYGONS: 2}  # QGIS's own numbers
MARKERS = {"obstruction": "triangle", "notice": "diamond", "none": "circle", "unknown": "circle"}


@dataclass(frozen=True)
class Rule:
    """Which features, under which words of the legend, with which properties of a symbol."""
    filter: str
    label: str
    properties: dict[str, object]


def colour(rgb: str, opacity: float = 1) -> str:
    return ",".join(str(int(rgb[i:i + 2], 16)) for i in (1, 3, 5)) + f",{round(opacity * 255)}"


def equals(field: str, value: str) -> str:
    return f"\"{field}\" = '{value}'"


def outline(rgb: str, width: float, dash: str = "solid") -> dict[str, object]:
    return {"outline_color": colour(rgb), "outline_style": dash, "outline_width": width}


def rules(shape: Shape) -> list[Rule]:
    """The wide surfaces first, so that the small ones are drawn above them."""
    if shape is Shape.LINE:
        return [Rule(equals("layer", Layer.RUNWAY.value), "runway", {"line_color": colour(INK), "line_width": 1.2, "capstyle": "flat"})]
    if shape is Shape.POINT:
        some = [Rule(equals("finding", finding.value), mark.words, {"color": colour(mark.symbol), "name": MARKERS[finding.value], "size": 3.4, **outline(PAPER, .3)})
                for finding, mark in MARKS.items()]
        return [*some, Rule(equals("layer", Layer.AIRFIELD.value), "airfield", {"color": colour(INK), "name": "cross", "size": 3, **outline(INK, .4)})]
    some = [Rule(equals("surface", look.value), look.value, {"color": colour(paint.fill, paint.opacity), "style": "solid", **outline(paint.line, .2, "dash" if paint.dash else "solid")})
            for look, paint in LOOKS.items()]
    return some + [
        Rule("\"layer\" = 'reach' AND \"rule\" <> '17a2'", "notice slope ends, 77.9(b)", {"style": "no", **outline(NOTICE_LINE, .5, "dash")}),
        Rule("\"layer\" = 'reach' AND \"rule\" = '17a2'", "height near an airport, 77.17(a)(2)", {"style": "no", **outline(CIRCLE_LINE, .4, "dot")})]


def put_symbol(parent: Xml.Element, shape: Shape, number: int, rule: Rule) -> None:
    kind, maker = SYMBOLS[shape]
    symbol = Xml.SubElement(parent, "symbol", type=kind, name=str(number), alpha="1", clip_to_extent="1", force_rhr="0")
    layer = Xml.SubElement(symbol, "layer", {"class": maker, "enabled": "1", "locked": "0", "pass": str(number)})
    options = Xml.SubElement(layer, "Option", type="Map")
    for name, value in rule.properties.items():
        Xml.SubElement(options, "Option", type="QString", name=name, value=str(value))
        Xml.SubElement(layer, "prop", k=name, v=str(value))


def style(shape: Shape) -> str:
    some: Sequence[Rule] = rules(shape)
    root = Xml.Element("qgis", version="3.22", styleCategories="Symbology|MapTips")
    renderer = Xml.SubElement(root, "renderer-v2", type="RuleRenderer", symbollevels="1", forceraster="0", enableorderby="0")
    top, symbols = Xml.SubElement(renderer, "rules", key="all"), Xml.SubElement(renderer, "symbols")
    for number, rule in enumerate(some):
        Xml.SubElement(top, "rule", key=f"rule-{number}", filter=rule.filter, symbol=str(number), label=rule.label)
        put_symbol(symbols, shape, number, rule)
    tip = Xml.SubElement(root, "mapTip")
    tip.text = "[% if(\"layer\" = 'structure', \"name\" || ': ' || \"words\", coalesce(\"name\", \"airfield\")) %]"
    Xml.SubElement(root, "layerGeometryType").text = str(GEOMETRY_TYPES[shape])
    Xml.indent(root, " ")
    return "<!DOCTYPE qgis PUBLIC 'http://mrcc.com/qgis.dtd' 'SYSTEM'>\n" + Xml.tostring(root, encoding="unicode") + "\n"


def write_all(folder: str) -> None:
    for shape, name in NAMES.items():
        write_text(os.path.join(folder, f"{name}.qml"), style(shape))
