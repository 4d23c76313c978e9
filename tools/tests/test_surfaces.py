"""What is drawn against the desk's replies: stored ones, and those of a program that is named; the outline against shapely."""
import importlib.util
import math
import random
import re
import unittest
from collections.abc import Iterable
from dataclasses import dataclass

from office import desk, reaches
from office.picture import LOOKS
from office.records import records
from office.register import Airfield, Airport, Heliport, Point, Register, register_after
from office.replies import Found
from office.sides import HeliportSide, RunwaySide, Side, Trace
from office.surfaces import APPROACH_SIZE, CONE_REACH, PRIMARY_WIDTH, AirportSurfaces, ApproachSize, Look, contains, surfaces_of
from tests import drawn, stored
from tests.trial import PROGRAM

PARTS = (.02, .31, .5, .77, .98)  # of a straight line
TALL = 100_000  # tenths of a foot; over all surfaces of these airfields
AIRFIELDS = """airport,a,1,BIG,public,0,0,206
runway,a,2,BIG,04/22,other,hard,-31847,-29187,206,P,5463,29566,121,P
runway,a,3,BIG,13/31,other,hard,-16346,18375,125,P,42880,-18778,67,NA
airport,a,4,SMALL,federal,-5000000,0,1000
runway,a,5,SMALL,09/27,utility,soft,-5012000,1000,1000,V,-4988000,-2000,1012,NL
runway,a,6,SMALL,18,other,soft,-5000000,60000,1000,NL,-4999000,100000,900,V
heliport,a,7,PAD,public,5000000,0,5000800,600,1000,50
heliport,a,8,BASE,dod,5000000,5000000,5001000,5000000,5000,50
heliport,a,9,CAMP,military,-5000000,-5000000,-5000200,-4999700,400,-120
"""


def airfields() -> dict[str, Airfield]:
    told = [f"ok,{number},published,{line.partition(',')[0]}" for number, line in enumerate(AIRFIELDS.splitlines(), 1)]
    return register_after(desk.pair_up(records(AIRFIELDS.encode()), told, "airfields")).airfields


def sides_of(airfield: Airfield, has_notice: bool) -> list[Side]:
    if isinstance(airfield, Airport):
        return [RunwaySide(airfield, name, True, has_notice) for name in airfield.runways]
    return [HeliportSide(airfield, has_notice)]


@dataclass(frozen=True)
class Sample:
    """A point below a line of a profile, with the rule that the line stands for and its height there."""
    rule: str
    at: Point
    height: float


def samples(side: Side, trace: Trace) -> list[Sample]:
    """Points of a trace between its ends. Of a transitional surface, whose edge is drawn, 1 ft within it at both sides, half a foot lower."""
    word, is_runway = trace.words.partition(" ")[0], isinstance(side, RunwaySide)
    rule = {"approach": "19d" if is_runway else "23a", "horizontal": "19a", "conical": "19b", "notice": "9b1" if is_runway else "9b3"}.get(word, "19c" if is_runway else "23p")
    is_edge = trace.colour == LOOKS[Look.TRANSITIONAL].line
    places = trace.line[1:-1]  # of a surface that is drawn through many
    if len(trace.line) <= 4:
        places = [(a + (b - a) * part, low + (high - low) * part) for (a, low), (b, high) in zip(trace.line, trace.line[1:]) for part in PARTS if a != b]
    if is_edge:
        return [Sample("23t", side.line.at(along, left), height - .5) for along, height in places for left in (-249, 249)]
    return [Sample(rule, side.line.at(along), height) for along, height in places]


def asked_about(airfield: Airfield, count: int, spread: float, seed: int) -> list[tuple[int, int]]:
    """Points about an airfield, in tenths of a foot."""
    draw = random.Random(seed)
    return [tuple(round((place + draw.uniform(-spread, spread)) * 10) for place in airfield.at) for _ in range(count)]


class Tables(unittest.TestCase):
    """The sizes that are drawn are those of docs/SURFACES.md, which has them in tenths of a foot."""
    def rows(self, heading: str) -> list[list[str]]:
        text = (stored.TOP / "docs" / "SURFACES.md").read_text()
        table = text[text.index(heading):].split("\n\n")[0].splitlines()[2:]
        return [[cell.strip().replace(",", "") if index > 1 else cell.strip() for index, cell in enumerate(row.split("|"))][1:-1] for row in table]

    def test_widths(self) -> None:
        kinds = ("V", "NA", "NL", "P")
        said = {(use, kind): int(width.replace(",", "")) / 10 for use, *widths in self.rows("| Use | V | NA | NL | P |") for kind, width in zip(kinds, widths) if width}
        self.assertEqual(said, PRIMARY_WIDTH)

    def test_approaches(self) -> None:
        said = {}
        for use, kinds, outer, length, slope, *_ in self.rows("| Use | Approach | Outer width"):
            for kind in kinds.split():
                said[use, kind] = ApproachSize(int(outer) / 10, int(length) / 10, int(slope.split()[0]))
        self.assertEqual(said, APPROACH_SIZE)

    def test_circles(self) -> None:
        text = (stored.TOP / "docs" / "SURFACES.md").read_text()
        level = re.search(r"`d <= ([0-9,]+)` \(3 nautical miles\)", text)[1]
        hundredths, mile = re.search(r"`100\*d <= ([0-9]+)\*([0-9,]+)`", text).groups()
        self.assertAlmostEqual(reaches.LEVEL_CIRCLE * 10, int(level.replace(",", "")))
        self.assertAlmostEqual(reaches.LAST_CIRCLE * 1000, int(hundredths) * int(mile.replace(",", "")))


class Stored(unittest.TestCase):
    def test_stored_structures(self) -> None:
        """Every structure of the stored sessions: each surface covers it or not, and at the height, as the desk found."""
        structures = surfaces = 0
        for session in stored.known():
            register, state, areas = Register(), -1, []
            for pair in session.pairs():
                register.take(pair)
                if isinstance(pair.reply, Found):
                    if state != len(register.entries):
                        state, areas = len(register.entries), drawn.areas_of(register.airfields.values())
                    self.assertEqual(drawn.differences(drawn.site_of(pair.record), pair.reply.entries, areas), [], (session.title, pair.record.line))
                    structures, surfaces = structures + 1, surfaces + len(areas)
        self.assertGreater(structures, 300)
        self.assertGreater(surfaces, 5000)

    def test_a_wrong_picture_is_seen(self) -> None:
        """The comparison itself: a structure moved by 100 ft, or a surface 1 ft too high, is found."""
        pairs = stored.sessions()["surfaces of a runway"].pairs()
        areas = drawn.areas_of(register_after(pairs).airfields.values())
        found = [(drawn.site_of(pair.record), pair.reply.entries) for pair in pairs if isinstance(pair.reply, Found)]
        lower = [drawn.Site(site.at, site.top - 1) for site, _ in found]
        self.assertTrue(any(drawn.differences(site, entries, areas) for site, (_, entries) in zip(lower, found)))
        beside = [drawn.Site((site.at[0], site.at[1] + 100), site.top) for site, _ in found]
        self.assertTrue(any(drawn.differences(site, entries, areas) for site, (_, entries) in zip(beside, found)))

    def test_stored_notices(self) -> None:
        """Who is on a slope of 77.9(b), or above the height near an airport, is within its reach; and the other way about where it is tall."""
        met = missed = 0
        for session in stored.known():
            register = Register()
            for pair in session.pairs():
                register.take(pair)
                if not isinstance(pair.reply, Found):
                    continue
                site, said = drawn.site_of(pair.record), {(entry.rule.name.removeprefix("9c-"), entry.airfield) for entry in pair.reply.entries}
                for airfield in register.airfields.values():
                    met, missed = met + self.check_reach(site, said, airfield), missed + 1
                    self.check_circle(site, said, airfield)
        self.assertGreater(met, 100)
        self.assertGreater(missed, met)

    def check_reach(self, site: drawn.Site, said: set[tuple[str, str]], airfield: Airfield) -> bool:
        reach = reaches.notice_reach(airfield)
        rule = reach.rule if reach else "9b1"
        is_met = (rule, airfield.id) in said or (rule.removeprefix("9"), airfield.id) in said
        if is_met:
            assert reach is not None
            self.assertLess(min(band.distance(site.at) - band.reach for band in reach.bands), drawn.BESIDE)
        return is_met

    def check_circle(self, site: drawn.Site, said: set[tuple[str, str]], airfield: Airfield) -> None:
        if ("17a2", airfield.id) in said:
            circles = reaches.height_circles(airfield)
            self.assertLess(math.dist(site.at, airfield.at), circles[-1][0] + drawn.BESIDE)


class Outlines(unittest.TestCase):
    def airports(self) -> Iterable[AirportSurfaces]:
        return [AirportSurfaces(airfield) for airfield in airfields().values() if isinstance(airfield, Airport)]

    @unittest.skipUnless(importlib.util.find_spec("shapely"), "shapely is missing")
    def test_the_hull_is_shapelys(self) -> None:
        from shapely.geometry import Point, Polygon
        from shapely.ops import unary_union
        for airport in self.airports():
            for beyond, ours in ((0, airport.horizontal), (CONE_REACH, airport.cone)):
                hull = unary_union([Point(center).buffer(radius + beyond, 256) for center, radius in airport.discs]).convex_hull
                differing = Polygon(ours).symmetric_difference(hull).area
                self.assertLess(differing / hull.length, 0.5, "feet along the edge")

    def test_how_far_beyond(self) -> None:
        """A point that is pushed out from the edge, along its normal, is as far beyond."""
        for airport in self.airports():
            for out in (1, 100, 3999):
                for at in airport.outline(out)[::7]:
                    self.assertAlmostEqual(airport.beyond(at), out, delta=0.5)
            self.assertEqual(airport.beyond(airport.discs[0][0]), 0)

    def test_reaches_enclose(self) -> None:
        """Every point of the edge of a notice slope is at its distance from the nearest runway."""
        for airport in self.airports():
            reach = reaches.notice_reach(airport.airport)
            points = [at for line in reach.lines() for at in line]
            self.assertGreater(len(points), 100)
            for at in points:
                self.assertAlmostEqual(min(band.distance(at) for band in reach.bands), reach.bands[0].reach, delta=30)

    def test_profiles_are_the_areas(self) -> None:
        """Each line of a profile lies on its surface as the plan has it, between its ends."""
        for airfield in airfields().values():
            areas = surfaces_of(airfield).areas
            for side in sides_of(airfield, has_notice=False):
                for trace in side.traces():
                    for sample in samples(side, trace):
                        there = [area.height(sample.at) for area in areas if area.rule == sample.rule and area.covers(sample.at)]
                        self.assertTrue(any(abs(one - sample.height) < 0.2 for one in there), (trace.words, sample, there))

    def test_contains(self) -> None:
        square = [(0, 0), (10, 0), (10, 10), (0, 10)]
        self.assertTrue(contains(square, (5, 5)))
        self.assertFalse(contains(square, (15, 5)) or contains(square, (5, -1)))


@unittest.skipUnless(PROGRAM, "no program is named")
class Asked(unittest.TestCase):
    """Drawn points that the program is asked about."""
    def test_profiles(self) -> None:
        """A very tall structure below a line of a profile exceeds the surface by just what it stands above the line."""
        kept = airfields()
        some = [(name, sample) for name, airfield in kept.items() for side in sides_of(airfield, isinstance(airfield, Heliport))
                for trace in side.traces() for sample in samples(side, trace)]
        asked = AIRFIELDS + "".join(f"screen,{round(one.at[0] * 10)},{round(one.at[1] * 10)},0,{TALL},object,0,-,-\n" for _, one in some)
        pairs = [pair for pair in desk.asked(asked.encode(), [], "profiles", PROGRAM) if isinstance(pair.reply, Found)]
        self.assertEqual(len(pairs), len(some))
        for (name, one), pair in zip(some, pairs):
            above = [entry.excess / 10 for entry in pair.reply.entries if (entry.airfield, entry.rule.name) == (name, one.rule)]
            self.assertTrue(any(abs(TALL / 10 - excess - one.height) < drawn.ROUNDED for excess in above), (name, one, above))
        self.assertEqual({one.rule for _, one in some}, {"19a", "19b", "19c", "19d", "23p", "23a", "23t", "9b3"})

    COUNT, SPREADS = 400, {"BIG": (42_000, 25_000, 6_000), "SMALL": (16_000, 3_000), "PAD": (4_600, 400), "BASE": (4_600, 400), "CAMP": (4_600, 400)}

    def test_drawn_points(self) -> None:
        register = register_after(desk.asked(AIRFIELDS.encode(), [], "airfields", PROGRAM))
        areas, questions = drawn.areas_of(register.airfields.values()), 0
        for name, airfield in register.airfields.items():
            points = [at for seed, spread in enumerate(self.SPREADS[name]) for at in asked_about(airfield, self.COUNT, spread, seed)]
            pairs = desk.asked((AIRFIELDS + "".join(f"screen,{x},{y},0,{TALL},object,0,-,-\n" for x, y in points)).encode(), [], "points", PROGRAM)
            own = [(of, area) for of, area in areas if of == name]
            for pair in pairs:
                if isinstance(pair.reply, Found):
                    entries = [entry for entry in pair.reply.entries if entry.airfield == name]
                    site = drawn.site_of(pair.record)
                    self.assertEqual(drawn.differences(site, entries, own), [], pair.record.text)
                    self.check_reaches(site, {entry.rule.name for entry in entries}, airfield)
                    questions += len({(area.rule, area.key) for _, area in own})
        self.assertGreater(questions, 20_000)

    def check_reaches(self, site: drawn.Site, rules: set[str], airfield: Airfield) -> None:
        """A very tall structure is on a notice slope, and above the height near an airport, exactly within their reach."""
        reach = reaches.notice_reach(airfield)
        beyond = min(band.distance(site.at) - band.reach for band in reach.bands)
        if abs(beyond) > drawn.BESIDE:
            self.assertEqual(reach.rule in rules, beyond < 0, site)
        circles = reaches.height_circles(airfield)
        out = math.dist(site.at, airfield.at) - circles[-1][0] if circles else math.inf
        if abs(out) > drawn.BESIDE:
            self.assertEqual("17a2" in rules, out < 0, site)
