"""oe-map: the heights of what it writes beside the desk's replies, its files read back by GDAL, and what is refused."""
import importlib.util
import json
import math
import random
import re
import shutil
import sqlite3
import subprocess
import unittest
import xml.etree.ElementTree as Xml
from contextlib import closing
from pathlib import Path

from office import desk
from office.register import register_after
from office.replies import Found
from office.structures import Finding
from office.surfaces import Area, Look
from tests import drawn, mapped, stored
from tests.trial import PROGRAM, Trial

HAS_PROJ = all(importlib.util.find_spec(name) for name in ("pyproj", "shapely"))
HAS_GDAL = importlib.util.find_spec("osgeo") is not None
HAS_LEAFLET = Path("/usr/share/javascript/leaflet/leaflet.min.js").exists()
CHROMIUM = shutil.which("chromium")
TALL = 100_000  # tenths of a foot; over all surfaces
FIELDS = """airport,a,1,BIG,public,0,0,206
runway,a,2,BIG,04/22,other,hard,-31847,-29187,206,P,5463,29566,121,P
runway,a,3,BIG,13/31,other,hard,-16346,18375,125,P,42880,-18778,67,NA
airport,a,4,SMALL,federal,-600000,200000,1000
runway,a,5,SMALL,09/27,utility,soft,-612000,201000,1000,V,-588000,198000,1012,NL
runway,a,6,SMALL,18,other,soft,-600000,260000,1000,NL,-599000,300000,900,V
heliport,a,7,PAD,public,500000,-100000,500800,-99400,1000,50
heliport,a,8,BASE,dod,500000,100000,501000,100000,5000,50
"""
SPREADS = {"BIG": (42_000, 8_000), "SMALL": (16_000, 3_000), "PAD": (4_600, 400), "BASE": (4_600, 400)}  # feet about each
COUNT = 60  # points in each


def asked_points(register_text: str, seed: int) -> list[tuple[int, int]]:
    """Points about all airfields, in tenths of a foot."""
    told = [f"ok,{number},published,{line.partition(',')[0]}" for number, line in enumerate(register_text.splitlines(), 1)]
    airfields = register_after(desk.pair_up(desk.records(register_text.encode()), told, "airfields")).airfields
    draw = random.Random(seed)
    return [tuple(round((place + draw.uniform(-spread, spread)) * 10) for place in airfields[name].at)
            for name, spreads in SPREADS.items() for spread in spreads for _ in range(COUNT)]


def within(area: Area, draw: random.Random) -> tuple[int, int]:
    """A point of an area, in tenths of a foot."""
    xs, ys = zip(*area.outlines[0])
    while True:
        at = draw.uniform(min(xs), max(xs)), draw.uniform(min(ys), max(ys))
        if area.covers(at):
            return round(at[0] * 10), round(at[1] * 10)


class Mapped(Trial):
    """What is written of the example of the documents, with its stored replies."""
    def setUp(self) -> None:
        super().setUp()
        self.write("office.grid", mapped.GRID)

    def map(self, *words: str) -> None:
        session = stored.example()
        self.write("records", session.content)
        self.write("replies", "".join(reply + "\n" for reply in session.replies))
        self.good("oe-map", "records", "replies", "--grid", "office.grid", *words)

    def text(self, name: str) -> str:
        return (self.folder / name).read_text()


@unittest.skipUnless(HAS_PROJ, "pyproj or shapely is missing")
class Written(Mapped):
    def features(self) -> list[dict]:
        self.map("-o", "map.geojson")
        return json.loads(self.text("map.geojson"))["features"]

    def test_geojson(self) -> None:
        """RFC 7946: outer rings go counterclockwise and holes clockwise, all are closed, positions are longitude, latitude and metres."""
        layers = [one["properties"]["layer"] for one in self.features()]
        self.assertEqual({layer: layers.count(layer) for layer in layers}, {"surface": 17, "reach": 4, "runway": 1, "airfield": 2, "structure": 9})
        for one in self.features():
            for rings in one["geometry"]["coordinates"] if one["geometry"]["type"] == "MultiPolygon" else []:
                for number, ring in enumerate(rings):
                    self.assertEqual(ring[0], ring[-1])
                    turn = sum(ax * by - bx * ay for (ax, ay, *_), (bx, by, *_) in zip(ring, ring[1:]))
                    self.assertEqual(turn > 0, number == 0)
                    self.assertTrue(all(-83 < lon < -79 and 23 < lat < 26 for lon, lat, *_ in ring))

    def test_structures(self) -> None:
        """The first structures of the example: 200 ft at the middle of the runway, and what the desk replied in words."""
        first, second, *_ = sorted((one for one in self.features() if one["properties"]["layer"] == "structure"),
                                   key=lambda one: int(one["properties"]["name"].removeprefix("line ")))
        ((x, y, z),) = mapped.from_earth([first["geometry"]["coordinates"]])
        self.assertAlmostEqual(math.dist((x, y), (0, 0)), 0, delta=.01)
        self.assertAlmostEqual(z, 300, delta=.01)
        self.assertEqual({key: first["properties"][key] for key in ("finding", "ground_ft", "height_ft", "top_ft", "excess_ft")},
                         {"finding": "obstruction", "ground_ft": 100, "height_ft": 200, "top_ft": 300, "excess_ft": 200})
        self.assertEqual(second["properties"]["words"], "77.17(a)(2) the height near AAA by 0.1 ft; 77.19(a) horizontal surface of AAA by 50.1 ft; 77.19(c) primary surface of AAA "
                         "runway 09/27 by 200.1 ft; 77.9(a) 200 ft above the ground by 0.1 ft; 77.9(b)(1) 100 to 1 slope from AAA runway 09/27 by 200.1 ft (asked before the airfields changed)")

    def test_a_place_comes_back(self) -> None:
        """Latitude and longitude that went through oe-from-points stand on the map as they were given."""
        self.write("points.csv", "what,id,name,lat,lon,elev_ft,kind,height_ft\nstructure,,Mast <1>,24.7400123,-81.0400456,4,antenna,250\n")
        self.write("own.rec", self.good("oe-from-points", "points.csv", "--grid", "office.grid", "--names", "names.csv").out)
        self.write("own.out", "found,0,1,9a - - 500\n")
        self.good("oe-map", "own.rec", "own.out", "--grid", "office.grid", "--names", "names.csv", "-o", "own.geojson", "-o", "own.kml")
        (one,) = json.loads(self.text("own.geojson"))["features"]
        lon, lat, metres = one["geometry"]["coordinates"]
        self.assertAlmostEqual(lat, 24.7400123, delta=3e-7)  # a tenth of a foot
        self.assertAlmostEqual(lon, -81.0400456, delta=3e-7)
        self.assertAlmostEqual(metres, 254 * mapped.FOOT, delta=.001)
        self.assertEqual((one["properties"]["name"], one["properties"]["finding"]), ("Mast <1>", "notice"))
        self.assertIn("Mast <1>", [name.text for name in Xml.fromstring(self.text("own.kml")).iter(f"{mapped.KML}name")])

    def test_kml(self) -> None:
        """All rings are closed, surfaces and structures have absolute heights, and each feature has its place in a folder."""
        self.map("-o", "map.kml")
        root = Xml.fromstring(self.text("map.kml"))
        rings = list(root.iter(f"{mapped.KML}LinearRing"))
        self.assertGreater(len(rings), 700)
        for ring in rings:
            places = mapped.positions(ring)
            self.assertEqual(places[0], places[-1])
        styles = {"#" + one.get("id") for one in root.iter(f"{mapped.KML}Style")}
        placemarks = list(root.iter(f"{mapped.KML}Placemark"))
        self.assertEqual(len(placemarks), len(self.features()))
        for one in placemarks:
            data, modes = mapped.data_of(one), {mode.text for mode in one.iter(f"{mapped.KML}altitudeMode")}
            self.assertEqual(modes, {"absolute" if "surface" in data or "finding" in data else "clampToGround"})
            self.assertIn(one.findtext(f"{mapped.KML}styleUrl"), styles)
        folders = [one.findtext(f"{mapped.KML}name") for one in root.iter(f"{mapped.KML}Folder")]
        self.assertEqual(folders[:5], ["AAA", "Surfaces", "Reaches of notice", "Runways", "Airfield"])
        self.assertEqual(folders[-3], "Structures")

    def test_styles(self) -> None:
        """Each feature has just one rule of the style of its shape. A filter is one comparison, or several with AND."""
        self.map("--styles", ".")
        for shape, name in (("MultiPolygon", "polygons"), ("LineString", "lines"), ("Point", "points")):
            rules = [one.get("filter") for one in Xml.fromstring(self.text(f"{name}.qml")).iter("rule")]
            for one in (one for one in self.features() if one["geometry"]["type"] == shape):
                met = [rule for rule in rules if all(self.holds(part, one["properties"]) for part in rule.split(" AND "))]
                self.assertEqual(len(met), 1, one["properties"])

    def holds(self, comparison: str, properties: dict[str, object]) -> bool:
        field, sign, value = re.fullmatch(r"\"(\w+)\" (=|<>) '(.*)'", comparison).groups()
        return field in properties and (properties[field] == value) == (sign == "=")

    def test_what_is_refused(self) -> None:
        self.write("records", stored.example().content)
        self.fault("map.shp: its ending says what is written; there are .geojson, .kml", "oe-map", "records", "--grid", "office.grid", "-o", "map.shp")
        self.fault("name a file to write with --output", "oe-map", "records", "--grid", "office.grid")
        self.fault("none.grid: it is no file that --grid wrote", "oe-map", "records", "--grid", "none.grid", "-o", "map.kml")
        self.fault("no airfield ZZZ is registered", "oe-map", "records", "--grid", "office.grid", "--only", "ZZZ", "-o", "map.kml")
        self.write("bare.grid", f"crs={mapped.ZONE}\norigin=\ndatum=EPSG:4269\n")
        self.fault("the grid has no origin", "oe-map", "records", "--grid", "bare.grid", "-o", "map.kml")
        self.fault("tiles.example: write an address as https", "oe-map", "records", "--grid", "office.grid", "--tiles", "tiles.example", "-o", "map.html")
        self.assertFalse(list(self.folder.glob("map.*")))

    def test_a_library_that_is_missing(self) -> None:
        self.write("records", "airport,office,1,AAA,public,0,0,1000\n")
        self.write("replies", "ok,1,published,airport\n")
        for module, package, ending in (("osgeo", "python3-gdal", "gpkg"), ("shapely", "python3-shapely", "kml"), ("pyproj", "python3-pyproj", "kml")):
            self.assert_wants(module, package, "oe-map", "records", "replies", "--grid", "office.grid", "-o", f"map.{ending}")


@unittest.skipUnless(HAS_PROJ and HAS_LEAFLET, "pyproj, shapely or libjs-leaflet is missing")
class Page(Mapped):
    def page(self, *words: str) -> str:
        self.map("-o", "map.html", *words)
        return self.text("map.html")

    def test_it_wants_nothing_from_outside(self) -> None:
        text = self.page("--title", "A <b> & </script>")
        self.assertIn("<title>A &lt;b&gt; &amp; &lt;/script&gt;</title>", text)
        self.assertIn("default-src &#x27;none&#x27;; script-src &#x27;unsafe-inline&#x27;; style-src &#x27;unsafe-inline&#x27;; img-src data:\"", text)
        self.assertEqual(text.count("<script"), 3)
        self.assertEqual(re.findall(r"<(?:script|link|img|iframe)[^>]*(?:src|href)=", text), [])
        self.assertEqual([url for url in re.findall(r"url\(([^)]{1,30})", text) if not url.startswith(("data:", "#"))], [])

    def test_its_features(self) -> None:
        self.map("-o", "map.geojson")
        data = json.loads(re.search(r'<script type="application/json" id="data">(.*?)</script>', self.page(), re.S)[1])
        self.assertEqual(data["features"], json.loads(self.text("map.geojson"))["features"])
        self.assertEqual(set(data["marks"]), {finding.value for finding in Finding})
        self.assertLess({look.value for look in Look}, set(data["paints"]))

    def test_tiles(self) -> None:
        text = self.page("--tiles", "https://tiles.example/{z}/{x}/{y}.png", "--credit", "Example")
        self.assertIn("img-src data: https://tiles.example\"", text)


@unittest.skipUnless(HAS_PROJ and HAS_GDAL, "pyproj, shapely or GDAL is missing")
class ReadBack(Mapped):
    """GDAL reads each of the files."""
    def opened(self, name: str) -> "object":
        from osgeo import gdal, ogr
        gdal.UseExceptions()
        ogr.UseExceptions()
        self.map("-o", name)
        return ogr.Open(str(self.folder / name))

    def test_geojson_and_kml(self) -> None:
        geojson, kml = self.opened("map.geojson"), self.opened("map.kml")
        layer = geojson.GetLayer(0)
        self.assertEqual(layer.GetFeatureCount(), 33)
        self.assertTrue(all(one.GetGeometryRef().IsValid() for one in layer))
        self.assertEqual(sum(kml.GetLayer(i).GetFeatureCount() for i in range(kml.GetLayerCount())), 33)

    def test_geopackage(self) -> None:
        """In the zone's feet, with the heights of the GeoJSON, and a style for each layer."""
        source = self.opened("map.gpkg")
        self.map("-o", "map.geojson")
        there = {one["properties"]["name"]: one for one in json.loads(self.text("map.geojson"))["features"] if one["properties"]["layer"] == "surface"}
        layer = source.GetLayerByName("surface")
        self.assertEqual((layer.GetFeatureCount(), layer.GetSpatialRef().GetAuthorityCode(None)), (17, str(mapped.ZONE)))
        self.assertAlmostEqual(layer.GetSpatialRef().GetLinearUnits(), mapped.FOOT)
        heights = {}
        for one in layer:
            self.assertTrue(one.GetGeometryRef().IsValid())
            heights.setdefault(one.GetField("name"), set()).update({one.GetField("low_ft"), one.GetField("high_ft")})
        self.assertEqual(set(heights), set(there))
        (runway,) = source.GetLayerByName("runway")
        self.assertEqual(json.loads(runway.GetGeometryRef().ExportToJson())["coordinates"], [[595_000, 100_000, 100], [605_000, 100_000, 100]])
        styles = self.styles()
        self.assertEqual([name for name, _ in styles], ["surface", "reach", "runway", "airfield", "structure"])
        for _, text in styles:
            self.assertEqual(Xml.fromstring(text).tag, "qgis")

    def styles(self) -> list[tuple[str, str]]:
        with closing(sqlite3.connect(self.folder / "map.gpkg")) as opened:
            return opened.execute("SELECT f_table_name, styleQML FROM layer_styles WHERE useAsDefault ORDER BY id").fetchall()

    def test_drawing(self) -> None:
        """Lines and points in the zone's feet, each on a layer of its own sort."""
        some: dict[str, list] = {}
        source = self.opened("map.dxf")
        for one in source.GetLayer(0):
            some.setdefault(one.GetField("Layer"), []).append((one.GetField("Text"), json.loads(one.GetGeometryRef().ExportToJson())["coordinates"]))
        self.assertEqual(set(some), {"P77_HORIZONTAL", "P77_CONICAL", "P77_PRIMARY", "P77_APPROACH", "P77_SECOND_APPROACH", "P77_TRANSITIONAL", "P77_BEYOND_CONE", "NOTICE_REACH",
                                     "HEIGHT_NEAR_AIRPORT", "RUNWAY", "AIRFIELD", "STRUCTURE_OBSTRUCTION", "STRUCTURE_NOTICE"})
        self.assertEqual(some["RUNWAY"], [(None, [[595_000, 100_000, 100], [605_000, 100_000, 100]])])
        self.assertEqual({round(z, 6) for _, line in some["P77_HORIZONTAL"] for _, _, z in line}, {250})
        self.assertEqual({round(z) for _, line in some["P77_CONICAL"] for _, _, z in line}, {250, 450})
        self.assertIn(("line 3", [600_000, 100_000, 300]), some["STRUCTURE_OBSTRUCTION"])
        self.assertIn((None, [[600_000, 100_000, 100], [600_000, 100_000, 300]]), some["STRUCTURE_OBSTRUCTION"])


@unittest.skipUnless(PROGRAM and HAS_PROJ, "no program is named, or pyproj or shapely is missing")
class Asked(Trial):
    """Drawn points that the program is asked about: what covers them on the map, and how high it is there."""
    def setUp(self) -> None:
        super().setUp()
        self.write("office.grid", mapped.GRID)
        self.write("fields.rec", FIELDS)
        self.good("oe-map", "fields.rec", "--grid", "office.grid", "-o", "map.geojson", "-o", "map.kml", desk=PROGRAM)

    def replies(self, points: list[tuple[int, int]]) -> list[desk.Pair]:
        text = FIELDS + "".join(f"screen,{x},{y},0,{TALL},object,0,-,-\n" for x, y in points)
        return [pair for pair in desk.asked(text.encode(), [], "points", PROGRAM) if isinstance(pair.reply, Found)]

    def check(self, areas: list[tuple[str, Area]], points: list[tuple[int, int]]) -> None:
        covered = 0
        for pair in self.replies(points):
            self.assertEqual(drawn.differences(drawn.site_of(pair.record), pair.reply.entries, areas), [], pair.record.text)
            covered += len(drawn.said(pair.reply.entries))
        self.assertGreater(covered, len(points) // 2)

    def test_geojson(self) -> None:
        areas, draw = mapped.areas_of_geojson((self.folder / "map.geojson").read_text()), random.Random(7)
        self.assertGreater(len(areas), 70)
        self.check(areas, asked_points(FIELDS, 1) + [within(area, draw) for _, area in areas for _ in range(2)])

    def test_kml(self) -> None:
        areas, draw = list(mapped.areas_of_kml((self.folder / "map.kml").read_text())), random.Random(8)
        conical = [one for one in areas if one[1].rule == "19b"]
        self.assertGreater(len(conical), 1000)
        some = [within(area, draw) for _, area in [*(one for one in areas if one not in conical), *draw.sample(conical, 60)]]
        self.check(areas, some)

    @unittest.skipUnless(CHROMIUM and HAS_LEAFLET, "chromium or libjs-leaflet is missing")
    def test_the_page(self) -> None:
        """What the page says of a place that is clicked: just the surfaces of the desk, and their heights."""
        areas = mapped.areas_of_geojson((self.folder / "map.geojson").read_text())
        points = asked_points(FIELDS, 3)[::3]
        for pair, found in zip(self.replies(points), self.clicked(points), strict=True):
            site = drawn.site_of(pair.record)
            said, shown = drawn.said(pair.reply.entries), {(one["rule"], one["airfield"], one["key"]): one["height"] for one in found}
            at_edge = {(area.rule, name, area.key) for name, area in areas if drawn.is_at_edge(area, site.at)}
            self.assertEqual(set(said) - at_edge, set(shown) - at_edge, site)
            for surface in set(said) & set(shown):
                self.assertAlmostEqual(TALL / 10 - said[surface], shown[surface], delta=.5, msg=str((surface, site)))

    def clicked(self, points: list[tuple[int, int]]) -> list[list[dict]]:
        from office.grids import Grid, read_choice
        self.good("oe-map", "fields.rec", "--grid", "office.grid", "-o", "map.html", desk=PROGRAM)
        places = Grid(read_choice(str(self.folder / "office.grid"))).on_earth([(x / 10, y / 10) for x, y in points])
        text = (self.folder / "map.html").read_text()
        added = f"<script>document.body.textContent = 'FOUND' + JSON.stringify({json.dumps(places)}.map(([lon, lat]) => surfacesAt(lat, lon))) + 'END';</script></body>"
        page = self.write("asked.html", text.replace("</body>", added))
        done = subprocess.run([CHROMIUM, "--headless", "--no-sandbox", "--disable-gpu", f"--user-data-dir={self.folder}/profile", "--dump-dom", f"file://{page}"],
                              capture_output=True, text=True, timeout=300)
        return json.loads(re.search(r"FOUND(.*)END", done.stdout.replace("&lt;", "<").replace("&gt;", ">").replace("&amp;", "&"), re.S)[1])
