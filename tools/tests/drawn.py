"""What the pictures say of a structure, to be held against the desk's replies."""
import math
from collections.abc import Iterable
from dataclasses import dataclass

from office.records import Record, feet
from office.register import Airfield, Point, point
from office.replies import Entry
from office.surfaces import Area, Line, surfaces_of

RAISED = {"object": 0.0, "antenna": 0.0, "interstate": 17.0, "road": 15.0, "rail": 23.0}
DRAWN_RULES = ("19", "23")
ROUNDED = 0.35  # feet; the desk rounds an excess down and has corners at whole tenths
BESIDE = 2.0  # feet; how near a point is to an edge where the picture may err

Drawn = dict[tuple[str, str, str], float]


@dataclass(frozen=True)
class Site:
    at: Point
    top: float


def site_of(record: Record) -> Site:
    """A structure with its top for standards, 77.17(b)."""
    values = record.values
    mobile = feet(values["MOBILE"])
    raised = RAISED.get(values["KIND"], max(10.0, mobile) if values["KIND"] == "private" else mobile)
    top = feet(values["GROUND"]) + feet(values["HEIGHT"]) + (0 if "G" in values["FLAGS"] else raised)
    return Site(point(values), top)


def areas_of(airfields: Iterable[Airfield]) -> list[tuple[str, Area]]:
    found = [(airfield.id, surfaces_of(airfield)) for airfield in airfields]
    return [(name, area) for name, surfaces in found if surfaces for area in surfaces.areas]


def said(entries: Iterable[Entry]) -> Drawn:
    return {(entry.rule.name, entry.airfield, entry.key): entry.excess / 10 for entry in entries if entry.rule.name.startswith(DRAWN_RULES)}


def distance(at: Point, a: Point, b: Point) -> float:
    """From a point to the stretch between two others."""
    if a == b:
        return math.dist(at, a)
    line = Line(a, b)
    along = min(max(line.place(at)[0], 0), line.length)
    return math.dist(at, line.at(along))


def is_at_edge(area: Area, at: Point) -> bool:
    outlines = [*area.outlines, area.hole] if area.hole else area.outlines
    return any(distance(at, a, b) < BESIDE for outline in outlines for a, b in zip(outline, [*outline[1:], outline[0]]))


def difference(excess: float | None, over: list[float]) -> str | None:
    """What a finding and the drawn heights of one surface below a top say differently."""
    if excess is None:
        return f"drawn {max(over):.2f} ft below the top, and not found" if over and max(over) > ROUNDED else None
    if not over:
        return "found, and not drawn there"
    return f"drawn {over} ft below the top, found {excess} ft" if min(abs(one - excess) for one in over) > ROUNDED else None


def differences(site: Site, entries: Iterable[Entry], areas: list[tuple[str, Area]]) -> list[str]:
    """Each surface of which the picture says another thing than the desk. At its very edge a point may be covered or not, and the height is compared alone."""
    replied, out = said(entries), []
    parts: dict[tuple[str, str, str], list[Area]] = {}
    for name, area in areas:
        parts.setdefault((area.rule, name, area.key), []).append(area)
    for surface, some in parts.items():
        excess, over = replied.get(surface), [site.top - area.height(site.at) for area in some if area.covers(site.at)]
        why = difference(excess, over)
        if why and any(is_at_edge(area, site.at) for area in some):
            why = None if excess is None else difference(excess, [site.top - area.height(site.at) for area in some])
        if why:
            out.append(f"{surface} at {site.at}: {why}")
    return out
