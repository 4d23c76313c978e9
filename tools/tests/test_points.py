"""oe-from-points: angles, feet, positions by PROJ, and what is refused by name."""
import importlib.util
import math
import subprocess
import unittest

from office.faults import Fault
from office.measures import Axis, degrees, tenths
from tests.trial import PROGRAM, TOOLS, Trial

HAS_PROJ = importlib.util.find_spec("pyproj") is not None
ZONE = "2263"  # New York Long Island, US survey feet
METRES = "32118"  # the same zone in metres
AT = ("--crs", ZONE, "--origin", "1000000,200000")
HEAD = "what,id,name,lat,lon,elev_ft,category,use,surface,kind,height_ft,width_ft,flags,published_ft\n"
# invented places within the zone
AIRPORT = "airport,TST,,40.75,-73.5,20.6,public,,,,,,,\n"
ENDS = "end,TST,09/27,40.75,-73.51,20.5,,other,hard,P,,,,\nend,TST,09/27,40-45-00.0N,073-29-24.0W,18,,other,hard,NA,,,,\n"
TOWER = "structure,TST,Tower,40.76,-73.52,30,,,,antenna,250.5,,T,\n"


class Measures(unittest.TestCase):
    def test_angles(self) -> None:
        for text, axis, value in (("40.75", Axis.LATITUDE, 40.75), ("40-45-00N", Axis.LATITUDE, 40.75), ("40-45.0N", Axis.LATITUDE, 40.75),
                                  ("073-30-36.0W", Axis.LONGITUDE, -73.51), ("-73.51", Axis.LONGITUDE, -73.51), ("12-00-00S", Axis.LATITUDE, -12.0),
                                  ("40-45-00.0n", Axis.LATITUDE, 40.75), ("40°45'00.0\"N", Axis.LATITUDE, 40.75), ("40° 45′ 00″ N", Axis.LATITUDE, 40.75),
                                  ("40 45 00 N", Axis.LATITUDE, 40.75), ("40°45.0'N", Axis.LATITUDE, 40.75), ("73.51W", Axis.LONGITUDE, -73.51), ("40.75 N", Axis.LATITUDE, 40.75)):
            self.assertAlmostEqual(degrees(text, axis, "here"), value, places=9)
        for text, axis in (("404500N", Axis.LATITUDE), ("40-60-00N", Axis.LATITUDE), ("40-45-60N", Axis.LATITUDE), ("91", Axis.LATITUDE), ("181", Axis.LONGITUDE),
                           ("40-45-00W", Axis.LATITUDE), ("40 45 00", Axis.LATITUDE), ("40,75", Axis.LATITUDE), ("40-45.5-10N", Axis.LATITUDE), ("", Axis.LATITUDE),
                           ("-40.75N", Axis.LATITUDE), ("-73°30'36\"", Axis.LONGITUDE), ("40N", Axis.LATITUDE), ("-73-30-36W", Axis.LONGITUDE)):
            self.assertRaises(Fault, degrees, text, axis, "here")

    def test_feet(self) -> None:
        for text, value in (("0", 0), ("20.6", 206), ("-3.5", -35), ("-0", 0), ("7.", 70), ("13.10", 131)):
            self.assertEqual(tenths(text, "here"), value)
        for text in ("20.65", "1,000", "1e3", "", "12 ft", "+5", "9" * 20000, "1." + "0" * 20000):
            self.assertRaises(Fault, tenths, text, "here")

    def test_what_is_said(self) -> None:
        for text, axis, words in (("40,75", Axis.LATITUDE, "(a comma: write a point); write 40.77925 or"), ("073-30-36.0", Axis.LONGITUDE, "(without E or W); write -73.97292 or"),
                                  ("073-30-36.0W", Axis.LATITUDE, "is no latitude (are lat and lon exchanged?)"), ("-120.14", Axis.LATITUDE, "more than 90 degrees: are lat and lon exchanged?"),
                                  ("north", Axis.LATITUDE, '"north" is no latitude; write')):
            with self.assertRaises(Fault) as fault:
                degrees(text, axis, "here")
            self.assertIn(words, str(fault.exception))
        for text, words in (("61 m", "are these metres?"), ("200 ft", ": write the number alone"), ("200'", ": write the number alone"), ("1,000.5", "no comma"), ("5,5", "no comma"),
                            ("9" * 70, f'"{"9" * 60}.." is no number of feet')):
            with self.assertRaises(Fault) as fault:
                tenths(text, "here")
            self.assertIn(words, str(fault.exception))


@unittest.skipUnless(HAS_PROJ, "pyproj is missing")
class Points(Trial):
    def records(self, rows: str, *words: str) -> list[str]:
        return self.good("oe-from-points", self.write("points.csv", HEAD + rows), *(words or AT)).out.splitlines()

    def refused(self, wanted: str, rows: str, *words: str) -> None:
        self.fault(wanted, "oe-from-points", self.write("points.csv", HEAD + rows), *(words or AT))

    def test_records(self) -> None:
        airport, runway, tower = self.records(AIRPORT + ENDS + TOWER, *AT, "--caller", "clerk", "--key", "k", "--names", "names.csv")
        self.assertRegex(airport, r"^airport,clerk,k1,TST,public,[0-9]+,[0-9]+,206$")
        self.assertRegex(runway, r"^runway,clerk,k2,TST,09/27,other,hard,[0-9]+,[0-9]+,205,P,[0-9]+,[0-9]+,180,NA$")
        self.assertRegex(tower, r"^screen,[0-9]+,[0-9]+,300,2505,antenna,0,T,TST$")
        site = tower.split(",")[1:5]
        self.assertEqual((self.folder / "names.csv").read_text(), ",".join([*site, "Tower"]) + "\n")

    def test_positions(self) -> None:
        """The origin of the zone's projection lies at its false easting and northing: the zone's own definition."""
        import pyproj
        zone = pyproj.CRS.from_epsg(int(ZONE))
        of = {parameter.name: parameter.value for parameter in zone.coordinate_operation.params}
        lat, lon = of["Latitude of false origin"], of["Longitude of false origin"]
        east, north = of["Easting at false origin"], of["Northing at false origin"]
        (record,) = self.records(f"airport,TST,,{lat:.9f},{lon:.9f},0,public,,,,,,,\n", "--crs", ZONE, "--origin", "900000,0")
        x, y = record.split(",")[5:7]
        self.assertLessEqual(abs(int(x) - (east - 900_000) * 10), 1)
        self.assertLessEqual(abs(int(y) - north * 10), 1)

    def test_one_place_in_three_spellings(self) -> None:
        rows = [self.records(AIRPORT.replace("40.75,-73.5", place)) for place in ("40.75,-73.5", "40-45-00.0N,073-30-00.0W", "40-45.0N,073-30.0W")]
        self.assertEqual(rows[0], rows[1])
        self.assertEqual(rows[0], rows[2])

    def test_lengths(self) -> None:
        """The ends are 0.02 degrees apart: the way on the grid is that on the ellipsoid, and a wrong published length is seen."""
        import pyproj
        feet = pyproj.Geod(ellps="GRS80").inv(-73.51, 40.75, -73.49, 40.75)[2] / (1200 / 3937)
        for kind, published, warned in (("NA", feet, False), ("NA", feet + 41, True), ("P", feet, False), ("P", feet + 41, True)):
            rows = ENDS.replace(f",{kind},,,,\n", f",{kind},,,,{published:.0f}\n")
            ended = self.good("oe-from-points", self.write("points.csv", HEAD + rows), *AT)
            *_, x1, y1, _, _, x2, y2, _, _ = ended.out.strip().split(",")
            self.assertAlmostEqual(math.dist((int(x1), int(y1)), (int(x2), int(y2))) / 10, feet, delta=1)
            self.assertIn(f"; published {published:,.0f} ft", ended.err)
            self.assertEqual("look at the coordinates" in ended.err, warned, ended.err)

    def test_a_pad(self) -> None:
        pad = "pad,PAD1,,40.7425,-73.9722,10,public,,,,,60,,\n"
        (record,) = self.records(pad + pad.replace("73.9722", "73.9719"))
        self.assertRegex(record, r"^heliport,points,p1,PAD1,public,-?[0-9]+,[0-9]+,-?[0-9]+,[0-9]+,600,100$")

    def test_a_way_with_its_traffic(self) -> None:
        """The traffic's height is in feet too, with a decimal, and 0 where its column is empty or not there."""
        rows = HEAD.replace("flags", "flags,mobile_ft") + "".join(f"structure,,,40.76,-73.52,30,,,,private,2,,,{mobile},\n" for mobile in ("12.5", ""))
        out = self.good("oe-from-points", self.write("ways.csv", rows), *AT).out.splitlines()
        self.assertEqual([record.split(",")[3:7] for record in out], [["300", "20", "private", "125"], ["300", "20", "private", "0"]])

    def test_a_kept_grid(self) -> None:
        self.records(AIRPORT, *AT, "--grid", "office.grid")
        self.assertEqual((self.folder / "office.grid").read_text(), f"crs={ZONE}\norigin=1000000,200000\ndatum=EPSG:4269\n")
        self.assertEqual(self.records(AIRPORT, "--grid", "office.grid"), self.records(AIRPORT))
        self.refused("office.grid has origin 1000000,200000, and --origin says 0,0", AIRPORT, "--grid", "office.grid", "--origin", "0,0")
        self.refused("ofice.grid: no such file; the first time, --crs and --origin stand beside --grid", AIRPORT, "--grid", "ofice.grid")
        self.refused("it is no file that --grid wrote", AIRPORT, "--grid", self.write("broken.grid", "crs=2263\n"))

    def test_grids_that_are_refused(self) -> None:
        self.refused("say the grid", AIRPORT, "--origin", "0,0")
        self.refused("is in metre; the desk counts feet", AIRPORT, "--crs", METRES, "--origin", "0,0")
        self.refused("the desk counts feet", AIRPORT, "--crs", "4269", "--origin", "0,0")
        self.refused("PROJ does not know it", AIRPORT, "--crs", "999999", "--origin", "0,0")
        self.refused("write E,N in whole feet", AIRPORT, "--crs", ZONE, "--origin", "1e6,0")
        self.refused("give one --origin for this desk and keep it, as --origin", AIRPORT, "--crs", ZONE)
        self.refused("has no latitudes", AIRPORT, *AT, "--datum", ZONE)

    def test_points_that_are_refused(self) -> None:
        for rows, words in (
                (AIRPORT.replace("-73.5", "73.5"), "points.csv line 2 (TST): latitude 40.75000, longitude 73.50000 is outside of"),
                (AIRPORT.replace("-73.5", "73.5"), "; a western longitude is negative"), (AIRPORT.replace("-73.5", "-93.5"), "; is this the zone of the place?"),
                (AIRPORT.replace("40.75,-73.5", "-73.5,40.75"), "; are lat and lon exchanged?"), (AIRPORT.replace("20.6", "6.3 m"), 'elev_ft: "6.3 m" is no number of feet: are these metres?'),
                (AIRPORT.replace("\n", ",more\n"), "line 2: the row has more cells than the first line has names"),
                (AIRPORT.replace("20.6", "20.65"), "points.csv line 2 (TST), elev_ft: 20.65 ft is finer than a tenth"),
                (AIRPORT.replace("40.75", "404500N"), "line 2 (TST), lat"), (AIRPORT.replace("40.75", ""), '"airport" wants lat'),
                (AIRPORT.replace("public", "PU"), 'line 2: category "PU" (write public); wanted is public'), (AIRPORT.replace("TST", "tst"), 'id "tst" (capital and small letters are different)'),
                (AIRPORT.replace("airport,", "aiport,"), 'what is "aiport"'), (ENDS.splitlines()[0] + "\n", "line 2: TST 09/27 has one end"),
                (ENDS.replace("hard,NA", "soft,NA"), 'differ in surface: "hard" and "soft"'),
                (ENDS.replace("P,,,,", "P,,,,5000").replace("NA,,,,", "NA,,,,5001"), "differ in published_ft: 5000 and 5001"), (ENDS.replace("NA", "PIR"), 'line 3: kind "PIR" (write P); wanted is V'),
                (TOWER.replace("250.5", ""), '"structure" wants height_ft'), (TOWER.replace("250.5", "11000"), 'HEIGHT "110000"'),
                ("", "there is no point in it")):
            self.refused(words, rows)
        self.refused("ft from the origin, and the grid reaches 2,000,000", AIRPORT, "--crs", ZONE, "--origin", "9000000,0")
        self.refused("no row has the id ZZZ", AIRPORT, *AT, "--only", "ZZZ")

    def test_all_faults_are_named(self) -> None:
        """Every row is looked at, and of a row every cell; an end is not said to be alone if its other one was refused."""
        rows = (AIRPORT.replace("40.75", "north").replace("20.6", "6 m").replace("public", "PU") + ENDS.replace("20.5", "20.55").replace("18,", "x,")
                + TOWER.replace("antenna", "tower").replace(",T,", ",TS,") + "end,TST,18/36,40.75,-73.5,20,,other,hard,V,,,,\n" + TOWER)
        ended = self.run_tool("oe-from-points", self.write("points.csv", HEAD + rows), *AT, "--grid", "office.grid", "--names", "names.csv")
        self.assertEqual((ended.status, ended.out), (1, ""))
        said = ended.err.splitlines()
        wanted = ('line 2 (TST), lat: "north"', 'line 2 (TST), elev_ft: "6 m"', 'line 2: category "PU"', "line 3 (TST 09/27), elev_ft: 20.55 ft is finer", 'line 4 (TST 09/27), elev_ft: "x"',
                  'line 5: kind "tower"', 'line 5: flags "TS"', "line 6: TST 18/36 has one end")
        self.assertEqual(len(said), len(wanted), ended.err)
        for line, words in zip(said, wanted):
            self.assertTrue(line.startswith("oe-from-points: points.csv " + words), line)
        self.assertEqual([path.name for path in self.folder.iterdir()], ["points.csv"])

    def test_exchanged_ends(self) -> None:
        """The runway leads east, 90 degrees: as 09/27 it is right, as 27/09 its rows are exchanged, and as 04/22 magnetic north is too far off."""
        first, second = ENDS.splitlines(keepends=True)
        self.refused("line 3: TST 09/27 leads 270 degrees from its first end to its second: are its two rows exchanged? That of 09 comes first", second + first)
        for name, words in (("09/27", ""), ("9/27", ""), ("09L/27R", ""), ("05/23", ""), ("12/30", ""), ("04/22", "09/27 leads 90 degrees"), ("14/32", ""), ("E/W", ""),
                            ("27/09", "exchanged"), ("22/04", "exchanged"), ("20/02", "off its number"), ("36/18", "off its number"), ("99/00", "")):
            ended = self.run_tool("oe-from-points", self.write("points.csv", HEAD + ENDS.replace("09/27", name)), *AT)
            self.assertEqual(ended.status, int(words == "exchanged"), ended)
            self.assertEqual("CAUTION" in ended.err, name in ("04/22", "14/32", "20/02", "36/18"), ended.err)
            self.assertIn(words.replace("09/27", name), ended.err)
        self.refused("line 3: the two ends of TST 09/27 are one place", first + first)

    def test_a_notice(self) -> None:
        """The record that was typed by hand before: the place is that of the same structure to be screened."""
        (screen,) = self.records(TOWER)
        head = HEAD.strip() + ",study,start,permit,fcc,urgency,statement,mobile_ft\n"
        tower = TOWER.strip().replace("structure", "notice")
        rows = f"{tower},2026-AWP-11234-OE,2026-03-01,,2026-01-15,,,\n{tower},2026-AEA-1-NRA,2026-03-01,2026-02-01,,emergency,yes,\n"
        out = self.good("oe-from-points", self.write("points.csv", head + rows), *AT, "--names", "names.csv").out.splitlines()
        site = screen.removeprefix("screen,")
        self.assertEqual(out, [f"file,2026.AWP,11234.OE,2026-03-01,-,2026-01-15,normal,-,{site}", f"file,2026.AEA,1.NRA,2026-03-01,2026-02-01,-,emergency,yes,{site}"])
        self.assertEqual((self.folder / "names.csv").read_text(), (",".join(site.split(",")[:4]) + ",Tower\n") * 2)
        for cells, words in (("2026-AWP-OE,2026-03-01,,,,,", 'study "2026-AWP-OE"; wanted is a study as 2026-AWP-101-OE'), (",2026-03-01,,,,,", '"notice" wants study'),
                             ("2026-AWP-1-OE,3/1/2026,,,,,", 'start "3/1/2026" (a spreadsheet\'s date'), ("2026-AWP-1-OE,,,,,,", '"notice" wants start'),
                             ("2026-AWP-1-OE,2026-03-01,no,,,,", 'permit "no"; wanted is -, or a day'),
                             ("2026-AWP-1-OE,2026-03-01,,,urgent,,", 'urgency "urgent"; wanted is normal or emergency')):
            self.fault(words, "oe-from-points", self.write("points.csv", f"{head}{tower},{cells}\n"), *AT)

    @unittest.skipUnless(PROGRAM, "no program is named")
    def test_the_program_takes_a_notice(self) -> None:
        head, tower = HEAD.strip() + ",study,start\n", TOWER.strip().replace("structure", "notice")
        out = self.good("oe-from-points", self.write("points.csv", f"{head}{tower},2026-AWP-11234-OE,2026-03-01\n"), *AT).out
        replies = subprocess.run([PROGRAM, "desk"], input="day,office,1,2026-01-15\n" + out, capture_output=True, text=True, check=True).stdout
        self.assertEqual(replies, "ok,1,published,day\nok,2,published,case,1,timely,-,-\n")

    def test_the_top_in_place_of_the_ground(self) -> None:
        """The top is the ground and the height: 30 ft and 250.5 ft."""
        head = HEAD.replace("elev_ft", "top_ft")
        (record,) = self.good("oe-from-points", self.write("points.csv", head + TOWER.replace("30", "280.5")), *AT).out.splitlines()
        self.assertEqual([record], self.records(TOWER))
        both = HEAD.strip() + ",top_ft\n"
        for top in ("280.5", ""):
            self.assertEqual(self.good("oe-from-points", self.write("points.csv", f"{both}{TOWER.strip()},{top}\n"), *AT).out, record + "\n")
        self.fault("(TST Tower): elev_ft and height_ft give a top of 280.5 ft, and top_ft is 281.0 ft", "oe-from-points", self.write("points.csv", f"{both}{TOWER.strip()},281\n"), *AT)
        self.fault('"airport" wants elev_ft', "oe-from-points", self.write("points.csv", head + AIRPORT), *AT)
        self.fault('"structure" wants elev_ft', "oe-from-points", self.write("points.csv", f"{both}{TOWER.strip().replace(',30,', ',,')},\n"), *AT)

    def test_columns_without_a_unit(self) -> None:
        for name in ("elev", "elev_m", "elevation"):
            hint = "the unit belongs into the name" if name != "elevation" else "no column elev_ft"
            self.fault(hint, "oe-from-points", self.write("points.csv", HEAD.replace("elev_ft", name) + AIRPORT), *AT)

    def test_sheets_of_other_machines(self) -> None:
        """Semicolons or tabs, a byte order mark, carriage returns, names of columns with capitals and spaces, padding; what is no table."""
        records, table = self.records(AIRPORT + ENDS + TOWER), HEAD + AIRPORT + ENDS + TOWER
        head, rest = table.split("\n", 1)
        for sheet in (table.replace(",", ";"), table.replace(",", "\t"), "\ufeff" + table.replace("\n", "\r\n"), head.title().replace(",", " , ") + "\n" + rest,
                      head + "\n" + rest.replace("\n", ",,,\n")):
            self.assertEqual(self.good("oe-from-points", self.write("points.csv", sheet), *AT).out.splitlines(), records)
        for sheet, words in (("", "points.csv: it is empty; its first line names the columns"), (table.encode("utf-16"), "no text in UTF-8; save the sheet as CSV UTF-8"),
                             (table + "A" * 200_000, "it is no CSV (field larger than field limit")):
            self.fault(words, "oe-from-points", self.write("points.csv", sheet), *AT)

    def test_an_end_above_its_airport(self) -> None:
        """The elevation of an airport is that of the highest point of its runways; metres beside feet are seen."""
        for airport, words in (("20.6", ""), ("19.5", ""), ("18", "line 3: an end of TST 09/27 is 2.5 ft above the airport's elevation"), ("530", "line 4: an end of TST 09/27 is 512.0 ft below")):
            ended = self.good("oe-from-points", self.write("points.csv", HEAD + AIRPORT.replace("20.6", airport) + ENDS), *AT)
            self.assertIn(words, ended.err)
            self.assertEqual("CAUTION" in ended.err, bool(words), ended.err)

    def test_whole_degrees(self) -> None:
        for lat, lon, words in (("41", "-73.5", "lat 41 without"), ("40.75", "-73", "lon -73 without"), ("41", "-73", "lat 41 and lon -73 without"), ("41-00-00.0N", "-73.0", "")):
            ended = self.good("oe-from-points", self.write("points.csv", HEAD + f"structure,,Tower,{lat},{lon},30,,,,antenna,250.5,,,\n"), *AT)
            self.assertEqual(f"CAUTION: points.csv line 2 (Tower): {words} decimals" in ended.err, bool(words), ended.err)

    def test_another_datum_is_said(self) -> None:
        ended = self.good("oe-from-points", self.write("points.csv", HEAD + AIRPORT), *AT, "--datum", "EPSG:4326")
        self.assertIn("CAUTION: the latitudes are of WGS 84", ended.err)

    def test_the_example_of_a_map(self) -> None:
        """The runway of the map's example is that of the other example, and one airfield is taken out of two."""
        examples = TOOLS / "examples"
        grid = ("--crs", "3421", "--origin", "700000,27900000")
        (record,) = self.good("oe-from-points", str(examples / "ends.csv"), "--columns", str(examples / "ends.ini"), "--only", "DEMO", *grid).out.splitlines()
        whole = self.good("oe-from-points", str(examples / "airfield.csv"), *grid).out.splitlines()
        self.assertEqual(record.split(",")[3:], whole[1].split(",")[3:])

    def test_a_table_of_another_source(self) -> None:
        table = ("Field,Strip,Lat,Long,Height,Pavement,Class\nTST,09/27,40.75,-73.51,20.5,Asphalt,C\n"
                 "TST,09/27,40-45-00.0N,073-29-24.0W,18,Asphalt,C\nQQQ,18/36,40.75,-73.51,20.5,Lava,C\n")
        columns = ('[columns]\nwhat = "end"\nid = Field\nname = Strip\nlat = Lat\nlon = Long\nelev_ft = Height\nsurface = Pavement\nuse = Class\nkind = Class\n'
                   "[surface]\nAsphalt = hard\n[use]\nC = other\n[kind]\nC = NA\n")
        path, mapped = self.write("theirs.csv", table), self.write("theirs.ini", columns)
        self.fault('theirs.csv line 4: "Lava" in column Pavement is not in the map\'s [surface]', "oe-from-points", path, "--columns", mapped, *AT)
        out = self.good("oe-from-points", path, "--columns", mapped, "--only", "TST", *AT).out
        self.assertEqual(out.split(","), [*self.records(ENDS.replace("P", "NA"))[0].split(",")[:-1], "NA\n"])
        for broken, words in ((columns.replace("= Lat\n", "= Latitude\n"), "no column Latitude"), (columns.replace("lat =", "latitude ="), "latitude is no column of ours"),
                              (columns.replace("elev_ft = Height\n", ""), "no column elev_ft"), ("lat = Lat\n", "File contains no section headers")):
            self.fault(words, "oe-from-points", path, "--columns", self.write("broken.ini", broken), *AT)

    def test_only_one_airfield(self) -> None:
        """Rows of others are not looked at, whatever stands in them; the ID may be their word or ours."""
        table = "Field,Lat,Long,Elev\nKTST,40.75,-73.5,20.6\nKQQQ,north,,no\nKRRR,40.75,-73.5,20.6,one cell more\n"
        columns = self.write("theirs.ini", '[columns]\nwhat = "airport"\ncategory = "public"\nid = Field\nlat = Lat\nlon = Long\nelev_ft = Elev\n[id]\nKTST = TST\n')
        path, wanted = self.write("theirs.csv", table), self.records(AIRPORT)
        for name in ("TST", "KTST"):
            self.assertEqual(self.good("oe-from-points", path, "--columns", columns, "--only", name, *AT).out.splitlines(), wanted)
        for name in ("AAA", "tst"):
            self.fault(f"theirs.csv: no row has the id {name}", "oe-from-points", path, "--columns", columns, "--only", name, *AT)
        ended = self.run_tool("oe-from-points", path, "--columns", columns, *AT)
        self.assertEqual([line.partition(": ")[2] for line in ended.err.splitlines()], [
            'theirs.csv line 3: "KQQQ" in column Field is not in the map\'s [id]', "theirs.csv line 4: the row has more cells than the first line has names"])

    def test_rows_that_a_map_leaves_out(self) -> None:
        """By the word -, which an empty cell may have too; the other end of a runway goes with one, and a word of the desk that is - stays."""
        table = ("Sort,Field,Strip,Lat,Long,Height,Class\nE,TST,09/27,40.75,-73.51,20.5,C\nE,TST,09/27,40-45-00.0N,073-29-24.0W,18,C\n"
                 "E,TST,18/36,40.76,-73.5,20.5,C\nE,TST,18/36,40.75,-73.5,20.5,\nW,LAKE,N/S,,,,\n")
        columns = ('[columns]\nwhat = Sort\nid = Field\nname = Strip\nlat = Lat\nlon = Long\nelev_ft = Height\nkind = Class\nuse = "other"\nsurface = "hard"\n'
                   '[what]\nE = end\nW = -\n[kind]\nC = NA\n"" = -\n')
        ended = self.good("oe-from-points", self.write("theirs.csv", table), "--columns", self.write("theirs.ini", columns), *AT)
        self.assertEqual(ended.out.splitlines(), self.records(ENDS.replace("hard,P", "hard,NA")))
        self.assertIn("rows that the map leaves out: 2\nCAUTION: theirs.csv line 4 (TST 18/36) is left out too, as the map leaves out its other end\n", ended.err)
        none = self.write("none.ini", columns.replace("= end", "= -"))
        self.fault("there is no point in it; rows that the map leaves out: 5", "oe-from-points", self.write("theirs.csv", table), "--columns", none, *AT)
        tower = "Kind,Lat,Long,Ground,Feet,Flag\nM,40.76,-73.52,30,250.5,none\n"
        columns = ('[columns]\nwhat = "structure"\nlat = Lat\nlon = Long\nelev_ft = Ground\nheight_ft = Feet\nkind = Kind\nflags = Flag\n[kind]\nM = antenna\n[flags]\nnone = -\n')
        (record,) = self.good("oe-from-points", self.write("theirs.csv", tower), "--columns", self.write("theirs.ini", columns), *AT).out.splitlines()
        self.assertTrue(record.endswith(",antenna,0,-,-"), record)

    def test_the_obstacle_file_by_a_map(self) -> None:
        """The names of the columns of the FAA's obstacle file as CSV: heights above ground and above mean sea level."""
        table = "OAS,LATDEC,LONDEC,TYPE,AGL,AMSL\n36-000001,40.76,-73.52,TOWER,00250,00280\n"
        columns = '[columns]\nwhat = "structure"\nkind = "object"\nname = OAS\nlat = LATDEC\nlon = LONDEC\nheight_ft = AGL\ntop_ft = AMSL\n'
        (record,) = self.good("oe-from-points", self.write("theirs.csv", table), "--columns", self.write("theirs.ini", columns), *AT).out.splitlines()
        self.assertRegex(record, r"^screen,[0-9]+,[0-9]+,300,2500,object,0,-,-$")
