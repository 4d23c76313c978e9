"""oe-high: both heights beside the desk's replies to `screen`, lines, rasters and contours beside what follows from the rules, and what is refused."""
import csv
import importlib.util
import io
import json
import math
import random
import subprocess
import unittest
import xml.etree.ElementTree as Xml

from office import charts, contours, desk, sites
from office.contours import Squares
from office.faults import Fault
from office.heights import Asker, Heights, Limit, Place
from office.replies import Found, read_entries
from tests import mapped
from tests.test_draw import Whole
from tests.test_map import FIELDS, asked_points
from tests.trial import PROGRAM, Trial

HAS_PROJ = importlib.util.find_spec("pyproj") is not None
HAS_CONTOURPY = importlib.util.find_spec("contourpy") is not None
LEVEL = """airport,office,1,AAA,public,0,0,1000
runway,office,2,AAA,09/27,other,hard,-50000,0,1000,P,50000,0,1000,NA
"""  # that of docs/OFFICE.md, on its level
MILE = 6_076.1
NO_SLOPE = 1e9  # feet; a change that is no jump


def row(text: str) -> dict[str, str]:
    (one,) = csv.DictReader(io.StringIO(text))
    return one


class Places(unittest.TestCase):
    def test_a_place(self) -> None:
        self.assertEqual(sites.grid_point("-152000, 7", None, "--at"), (-152_000, 7))
        for text, words in (("1", "write X,Y in tenths"), ("1,2,3", "write X,Y in tenths"), ("1.5,2", "want --grid FILE"), ("20000001,0", "X is tenths of a foot on the grid"),
                            ("01,0", "want --grid FILE"), ("24-44-24N,081-02-24W", "want --grid FILE")):
            with self.assertRaises(Fault) as fault:
                sites.grid_point(text, None, "--at")
            self.assertIn(words, str(fault.exception))

    def test_along_a_line(self) -> None:
        """A place at each step and at each end; lengths go on behind a bend."""
        some = sites.along_legs([((0, 0), (2_500, 0)), ((2_500, 0), (2_500, -1_000))], 1_000, 70)
        self.assertEqual([(one.along, one.place.x, one.place.y, one.place.ground) for one in some],
                         [(0, 0, 0, 70), (100, 1_000, 0, 70), (200, 2_000, 0, 70), (250, 2_500, 0, 70), (350, 2_500, -1_000, 70)])
        self.assertEqual([one.along for one in sites.along_legs([((5, 5), (5, 5))], 10, 0)], [0])

    def test_a_raster(self) -> None:
        one = sites.raster((2_000, -1_000), (0, 1_500), 1_000, 0)
        self.assertEqual((one.columns, one.rows), (3, 3))
        self.assertEqual([(place.x, place.y) for place in one.places()][:4], [(0, -1_000), (1_000, -1_000), (2_000, -1_000), (0, 0)])
        self.assertEqual(one.at(1.5, 2), (150, 100))
        for corner, step, words in (((0, 5_000), 1_000, "wants at least one step"), ((20_000_000, 20_000_000), 1, "at most 4,000,000 are taken")):
            with self.assertRaises(Fault) as fault:
                sites.raster((0, 0), corner, step, 0)
            self.assertIn(words, str(fault.exception))


class Contours(unittest.TestCase):
    def length(self, some: list[list[tuple[float, float]]]) -> float:
        return sum(math.dist(a, b) for line in some for a, b in zip(line, line[1:]))

    @unittest.skipUnless(HAS_CONTOURPY, "contourpy is missing")
    def test_beside_another_program(self) -> None:
        """Over fields without jumps the lines are as long as contourpy's, level by level, and as many; saddles among them."""
        import contourpy
        for seed in range(3):
            draw = random.Random(seed)
            waves = [(draw.uniform(3, 12), draw.uniform(0, 6), draw.uniform(-1, 1), draw.uniform(-1, 1)) for _ in range(8)]
            field = [[sum(high * math.sin(shift + east * x + north * y) for high, shift, east, north in waves) for x in range(40)] for y in range(30)]
            theirs, ours = contourpy.contour_generator(z=field), contours.contours(Squares(field, lambda _: NO_SLOPE), 4)
            levels = sorted({one.level for one in ours})
            self.assertGreater(len(levels), 5)
            for level in levels:
                own, other = [one.points for one in ours if one.level == level], [line.tolist() for line in theirs.lines(level)]
                self.assertAlmostEqual(self.length(own), self.length(other), delta=self.length(other) * .02)
                self.assertEqual({(round(x, 6), round(y, 6)) for line in own for x, y in line}, {(round(x, 6), round(y, 6)) for line in other for x, y in line})

    def test_a_plane(self) -> None:
        field = [[10 * x + 1 for x in range(5)] for _ in range(4)]
        some = contours.contours(Squares(field, lambda _: NO_SLOPE), 10)
        self.assertEqual([one.level for one in some], [10, 20, 30, 40])
        for one in some:
            self.assertEqual({round(x, 9) for x, _ in one.points}, {(one.level - 1) / 10})
            self.assertEqual(sorted(y for _, y in one.points), [0, 1, 2, 3])

    def test_a_ring_is_closed(self) -> None:
        field = [[100 - (x - 5) ** 2 - (y - 5) ** 2 for x in range(11)] for y in range(11)]
        (ring,) = (one for one in contours.contours(Squares(field, lambda _: NO_SLOPE), 90) if one.level == 90)
        self.assertEqual(ring.points[0], ring.points[-1])
        self.assertGreater(len(ring.points), 8)

    def test_no_line_crosses_a_jump(self) -> None:
        """Neither where the height jumps by more than it may, nor beside a place without a height."""
        cliff = [[0, 1, 2, 50, 51, 52] for _ in range(3)]
        self.assertEqual(contours.contours(Squares(cliff, lambda _: 5), 10), [])
        self.assertEqual({one.level for one in contours.contours(Squares(cliff, lambda _: NO_SLOPE), 10)}, {10, 20, 30, 40, 50})
        hole = [[1, 11, 21], [1, None, 21], [1, 11, 21]]
        self.assertEqual(contours.contours(Squares(hole, lambda _: NO_SLOPE), 10), [])

    def test_what_may_be_steep(self) -> None:
        """The transitional surfaces of heliports rise 2 to 1, those of runways 7 to 1."""
        heliport, runway = (Limit(0, read_entries([text])) for text in ("23t HHH 0 1", "19e AAA 09/27.0 1"))
        self.assertTrue(1 / 2 < charts.steepest(heliport) < .6)
        self.assertTrue(1 / 7 < charts.steepest(runway) < .2)


@unittest.skipUnless(PROGRAM, "no program is named")
class Asked(Trial):
    """Heights of a named program, held against its replies to `screen`, or against the rules."""
    def high(self, fields: str, *words: str) -> str:
        return self.good("oe-high", self.write("fields.rec", fields), *words, desk=PROGRAM).out

    def test_beside_screen(self) -> None:
        """At its height a place has no finding of the sort, and a tenth higher just those that are said."""
        draw = random.Random(5)
        kinds = [("object", "0", "-", "-"), ("antenna", "0", "-", "BIG"), ("road", "0", "G", "-"), ("private", "120", "-", "-"), ("object", "0", "D", "-"), ("object", "0", "T", "SMALL")]
        beside = [(-13_192 + draw.randint(-9_000, 9_000), 190 + draw.randint(-9_000, 9_000)) for _ in range(80)]  # a runway, on whose primary surface a standard comes first
        places = [Place(x, y, draw.choice((-100, 100, 900, 1_500, 3_000)), *draw.choice(kinds)) for x, y in asked_points(FIELDS, 2) + beside]
        with Asker(PROGRAM, FIELDS.splitlines()) as asker:
            some = asker.heights(places)
        self.check(some, "standard", [one.standard for one in some], True)
        self.check(some, "notice", [one.notice for one in some], False)
        self.assertGreater(sum(not one.notice.is_never and one.standard.height is not None and (one.notice.height or 0) > one.standard.height for one in some), 5)
        self.assertEqual([one.notice.is_never for one in some], [place.is_exempt for place in places])

    def check(self, some: list[Heights], what: str, limits: list[Limit], is_standard: bool) -> None:
        asked, wanted = [], []
        for one, limit in zip(some, limits):
            asked += [one.place.asked(limit.height, one.place.flags)] if limit.height is not None else []
            wanted += [()] if limit.height is not None else []
            asked.append(one.place.asked(100_000 if limit.is_never else 0 if limit.height is None else limit.height + 1, one.place.flags))
            wanted.append(limit.entries)
        pairs = [pair for pair in desk.asked((FIELDS + "".join(asked)).encode(), [], "places", PROGRAM) if isinstance(pair.reply, Found)]
        for pair, entries in zip(pairs, wanted, strict=True):
            self.assertEqual(tuple(entry for entry in pair.reply.entries if entry.rule.is_standard == is_standard), entries, (what, pair.record.text))

    def test_in_words(self) -> None:
        """102,000 west of the runway's end, on its level: the slope of 100 to 1 has risen by 1,020, and the horizontal surface ends there, 1,500 above the airport."""
        self.assertEqual(self.high(LEVEL + "screen,-152000,0,1000,77,object,0,-,-\nscreen,0,20000,1000,0,object,0,S,AAA\nscreen,0,20000,1000,0,object,0,-,AAA\n"), """\
line 3: E -15,200.0 N 0.0 ft, ground 100.0 ft
    no notice up to 102.0 ft above the ground, top 202.0 ft; then 77.9(b)(1) 100 to 1 slope from AAA runway 09/27
    no obstruction up to 150.0 ft above the ground, top 250.0 ft; then 77.19(a) horizontal surface of AAA
line 4: E 0.0 N 2,000.0 ft, ground 100.0 ft
    no notice at any height: a flag takes every notice rule away (77.9(e))
    no obstruction up to 150.0 ft above the ground, top 250.0 ft; then 77.19(a) horizontal surface of AAA
line 5: E 0.0 N 2,000.0 ft, ground 100.0 ft
    notice at every height: 77.9(d) it is on the airfield AAA
    no obstruction up to 150.0 ft above the ground, top 250.0 ft; then 77.19(a) horizontal surface of AAA
""")

    def test_a_table(self) -> None:
        """Of a place that begins with a minus; a hill above the horizontal surface has no height below a standard."""
        text = self.high(LEVEL, "--at", "-152000,0", "--ground", "260", "-o", "high.csv") or (self.folder / "high.csv").read_text()
        self.assertEqual(row(text), {"name": "-152000,0", "east_ft": "-15200.0", "north_ft": "0.0", "ground_ft": "260.0", "notice_ft": "-", "notice_top_ft": "-",
                                     "notice_rule": "9b1 AAA 09/27", "standard_ft": "-", "standard_top_ft": "-", "standard_rule": "19a AAA"})

    def test_a_line(self) -> None:
        """Out along the centerline from 200 ft past the end: 50 to 1, until the horizontal surface is the lower one, past 7,500 ft."""
        rows = list(csv.DictReader(io.StringIO(self.high(LEVEL, "--line", "-62000,0", "-132000,0", "--step", "500", "--ground", "100"))))
        self.assertEqual([float(one["along_ft"]) for one in rows], [500 * i for i in range(15)])
        for one in rows:
            out = 1_000 + float(one["along_ft"])
            wanted = "19d AAA 09/27.1" if out < 7_500 else "19a AAA" if out > 7_500 else "19a AAA; 19d AAA 09/27.1"
            self.assertEqual((one["standard_rule"], float(one["standard_ft"])), (wanted, min(out / 50, 150)), one)
            self.assertEqual((one["notice_rule"], float(one["notice_ft"])), ("9b1 AAA 09/27", (out + 200) / 100))

    def test_a_raster(self) -> None:
        """Contours lie where the rules have their height: 25 ft up the conical surface, and 100 ft above the height near an airport, a mile past 3 nautical miles."""
        self.write("office.grid", mapped.GRID)
        self.high(LEVEL, "--raster", "-300000,-300000", "300000,300000", "--step", "500", "--ground", "100", "--every", "25", "--grid", "office.grid", "-o", "high.geojson", "-o", "high.csv")
        rows = list(csv.DictReader(io.StringIO((self.folder / "high.csv").read_text())))
        self.assertEqual(len(rows), 121 * 121)
        self.assertEqual([(one["east_ft"], one["north_ft"]) for one in rows[:2]], [("-30000.0", "-30000.0"), ("-29500.0", "-30000.0")])
        some = json.loads((self.folder / "high.geojson").read_text())["features"]
        lines = {(one["properties"]["limit"], one["properties"]["height_ft"]): mapped.from_earth(one["geometry"]["coordinates"]) for one in some}
        for x, y, z in lines["standard", 175]:
            self.assertAlmostEqual(z, 275, delta=.01)
            if abs(x) > 5_200:
                self.assertAlmostEqual(math.hypot(abs(x) - 5_200, y), 10_500, delta=12)
        for x, y, _ in lines["standard", 300]:
            self.assertAlmostEqual(math.hypot(x, y), 4 * MILE, delta=12)
        for x, y, _ in lines["notice", 100]:
            self.assertAlmostEqual(math.hypot(max(abs(x) - 5_000, 0), y), 10_000, delta=12)

    def test_places_on_a_map(self) -> None:
        self.write("office.grid", mapped.GRID)
        self.high(LEVEL, "--at", "24.74,-81.04", "--ground", "4", "--grid", "office.grid", "-o", "high.geojson")
        (one,) = json.loads((self.folder / "high.geojson").read_text())["features"]
        self.assertEqual([round(part, 6) for part in one["geometry"]["coordinates"][:2]], [-81.04, 24.74])
        self.assertEqual({name: one["properties"][name] for name in ("name", "ground_ft", "notice_ft", "standard_rule")},
                         {"name": "24.74,-81.04", "ground_ft": 4, "notice_ft": 200, "standard_rule": "17a1"})

    def test_an_office(self) -> None:
        """The airfields of an office's file, which is not changed."""
        self.write("field.rec", LEVEL)
        subprocess.run([PROGRAM, "desk", "--db", "office.db"], cwd=self.folder, input=LEVEL.encode(), stdout=subprocess.PIPE, check=True)
        before = (self.folder / "office.db").read_bytes()
        out = self.good("oe-high", "--over", "office.db", "--at", "-152000,0", "--ground", "100", desk=PROGRAM).out
        self.assertIn("no notice up to 102.0 ft", out)
        self.assertEqual((self.folder / "office.db").read_bytes(), before)

    def test_cautions(self) -> None:
        for fields, at, words in ((LEVEL.replace("09/27,other", "09/27,utility"), "0,0", "line 2 is refused (2 PrecisionOnUtility): runway,office,2"),
                                  ("", "0,0", "CAUTION: no airfield is registered"), (LEVEL, "9000000,0", "CAUTION: 9000000,0: the nearest airfield, AAA, is 900,000 ft away")):
            ended = self.good("oe-high", self.write("fields.rec", fields), "--at", at, "--ground", "0", desk=PROGRAM)
            self.assertIn(words, ended.err)
        self.assertEqual(self.good("oe-high", self.write("fields.rec", LEVEL), "--at", "0,0", "--ground", "0", desk=PROGRAM).err, "")


@unittest.skipUnless(PROGRAM, "no program is named")
class Picture(Whole, Trial):
    def test_the_picture(self) -> None:
        """Two sheets whose words are on them; the parts of the legend are those of the table."""
        self.write("fields.rec", FIELDS)
        self.good("oe-high", "fields.rec", "--raster", "-100000,-100000", "100000,100000", "--step", "400", "--ground", "20", "-o", "high.svg", "-o", "high.csv", "--title", "A <b>", desk=PROGRAM)
        text = (self.folder / "high.svg").read_text()
        words = self.check(text, (1200, 2 * 940))
        self.assertTrue({"A <b>: notice", "A <b>: standard", "BIG", "51 by 51 places, 400.0 ft apart.", "77.19(a) horizontal", "77.9(b)(1) slope 100:1"} <= set(words), words)
        rows = list(csv.DictReader(io.StringIO((self.folder / "high.csv").read_text())))
        part = 100 * sum(one["standard_rule"].startswith("19a") for one in rows) / len(rows)
        self.assertEqual(words[words.index("77.19(a) horizontal") + 1], f"{round(part)}%")
        self.assertGreater(len(list(Xml.fromstring(text).iter("{http://www.w3.org/2000/svg}polyline"))), 20)


class Refused(Trial):
    def test_what_is_refused(self) -> None:
        self.write("fields.rec", LEVEL)
        for words, said in (
                ([], "name RECORDS, or an office's file"), (["fields.rec"], "there is no place to ask about"), (["fields.rec", "--at", "0,0"], "say the elevation of the ground with --ground"),
                (["fields.rec", "--at", "0,0", "--line", "0,0", "1,1", "--ground", "1"], "one at a time"), (["fields.rec", "--at", "0,0", "--ground", "1.25"], "finer than a tenth"),
                (["fields.rec", "--at", "0,0", "--ground", "30000"], "--ground 30000: in tenths of a foot it is 300000; wanted is the ground"),
                (["fields.rec", "--line", "0,0", "1,1", "--ground", "1", "--step", "0"], "--step 0: in tenths of a foot it is 0; wanted is one or more"),
                (["fields.rec", "--at", "0,0", "--ground", "1", "-o", "high.svg"], "high.svg: a picture is one of a raster"),
                (["fields.rec", "--at", "0,0", "--ground", "1", "-o", "high.geojson"], "high.geojson: latitude and longitude want --grid FILE"),
                (["fields.rec", "--at", "0,0", "--ground", "1", "-o", "high.txt"], "high.txt: its ending says what is written; there are .csv, .geojson, .svg"),
                (["fields.rec", "--at", "24.7,-81.0", "--ground", "1"], "latitude and longitude want --grid FILE"), (["none.rec", "--at", "0,0", "--ground", "1"], "none.rec: No such file")):
            self.fault(said, "oe-high", *words)
        self.fault('fields.rec line 1: there is no form "Screen"', "oe-high", self.write("fields.rec", "Screen,0,0,0,0,object,0,-,-\n"))
        self.fault("fields.rec line 1: field 5 of", "oe-high", self.write("fields.rec", "screen,0,0,0,2.5,object,0,-,-\n"))
