"""What a map is made of: features with a shape in feet of the grid, and what is known of each."""
from dataclasses import dataclass
from enum import Enum

from office.surfaces import Look

ABOUT = ("Surfaces of 14 CFR 77.19 and 77.23 in floating point, beside the proved desk and not proved themselves. "
         "What a structure exceeds is the desk's reply. No determination of the FAA.")

Corner = tuple[float, float, float | None]  # east, north and height, which is nothing where it has none
Ring = list[Corner]  # its last corner is its first


class Layer(Enum):
    SURFACE = "surface"
    REACH = "reach"
    RUNWAY = "runway"
    AIRFIELD = "airfield"
    STRUCTURE = "structure"


class Shape(Enum):
    POLYGONS = "MultiPolygon"
    LINE = "LineString"
    POINT = "Point"


SHAPES = {Layer.SURFACE: Shape.POLYGONS, Layer.REACH: Shape.POLYGONS, Layer.RUNWAY: Shape.LINE, Layer.AIRFIELD: Shape.POINT, Layer.STRUCTURE: Shape.POINT}


@dataclass(frozen=True)
class Feature:
    """A shape, and its properties by name. `parts` are polygons of rings, the outer ring of each first; a line is one ring that may be open, and a
    point one ring of one corner. All features of a layer have the same properties."""
    layer: Layer
    airfield: str
    name: str
    properties: dict[str, str | float]
    parts: list[list[Ring]]

    @property
    def shape(self) -> Shape:
        return SHAPES[self.layer]

    @property
    def look(self) -> str:
        """How it is painted: a surface by its sort, a structure by its finding."""
        return str(self.properties.get("surface") or self.properties.get("finding") or self.layer.value)


def conical_faces(feature: Feature) -> list[Ring]:
    """The conical surface of a feature as many small planes, between corners of its two edges in the same direction."""
    (outer, inner), = feature.parts
    inner = inner[::-1]
    return [[outer[i], outer[i + 1], inner[i + 1], inner[i], outer[i]] for i in range(len(outer) - 1)]


def is_conical(feature: Feature) -> bool:
    return feature.properties.get("surface") == Look.CONICAL.value
