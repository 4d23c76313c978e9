"""oe-from-nasr: the made-up files of the FAA in tools/examples, what is left out of them, and what the next ones change."""
import csv
import importlib.util
import math
import sqlite3
import subprocess
import unittest
from contextlib import closing
from pathlib import Path

from tests.trial import PROGRAM, TOOLS, Ended, Trial

HAS_PROJ = importlib.util.find_spec("pyproj") is not None
EXAMPLES = TOOLS / "examples"
GRID = ("--crs", "3421", "--origin", "700000,27900000")
BASE, RUNWAYS, ENDS = "APT_BASE.csv", "APT_RWY.csv", "APT_RWY_END.csv"
NEAR = ("--near", "39.33,-115.42")
DEMO_ROWS = ((0, "DEMO", "airport,public,9488,158469,60100"), (1, "DEMO 09/27", "other,hard,-25858,153351,60100,P,44848,155498,59915,NA"),
             (1, "DEMO 17/35", "utility,soft,3779,188607,59980,V,10926,144915,60045,V"))
BARE = ("--id", "BARE")
APPROACHES = {"A(V)": "utility V", "A(NP)": "utility NA", "B(V)": "other V", "C": "other NA", "D": "other NL", "PIR": "other P"}  # docs/SURFACES.md, 77.19


class Files(Trial):
    """A folder with copies of the three files, which a test changes."""
    def setUp(self) -> None:
        super().setUp()
        (self.folder / "faa").mkdir()
        for name in (BASE, RUNWAYS, ENDS):
            (self.folder / "faa" / name).write_text((EXAMPLES / name).read_text())

    def change(self, name: str, *pairs: tuple[str, str]) -> None:
        path = self.folder / "faa" / name
        for old, new in pairs:
            self.assertIn(old, path.read_text())
            path.write_text(path.read_text().replace(old, new))

    def made(self, *words: str) -> Ended:
        return self.good("oe-from-nasr", "faa", *(words or NEAR), *GRID)

    def refused(self, wanted: str, *words: str) -> None:
        self.fault(wanted, "oe-from-nasr", "faa", *words)

    def office(self, *rows: tuple[int, str, str]) -> None:
        """An office's file with these rows of docs/TABLES.md."""
        (self.folder / "office.db").unlink(missing_ok=True)
        with closing(sqlite3.connect(self.folder / "office.db")) as office, office:
            office.execute("CREATE TABLE kept (t, k, v)")
            office.executemany("INSERT INTO kept VALUES (?, ?, ?)", rows)

    def over(self, *words: str) -> Ended:
        return self.made("--over", "office.db", *words)


def of(form: str, ended: Ended) -> list[list[str]]:
    return [line.split(",") for line in ended.out.splitlines() if line.startswith(form + ",")]


@unittest.skipUnless(HAS_PROJ, "pyproj is missing")
class Airfields(Files):
    def test_the_samples(self) -> None:
        """DEMO is the airport of airfield.csv, so its records are those, but for CALLER and KEY."""
        ended = self.made()
        typed = self.good("oe-from-points", str(EXAMPLES / "airfield.csv"), *GRID).out.splitlines()
        ours = [line for line in ended.out.splitlines() if ",DEMO," in line]
        self.assertEqual([line.split(",")[3:] for line in ours], [line.split(",")[3:] for line in typed])
        self.assertEqual([line.split(",")[:3] for line in ours], [["airport", "nasr", "261126.DEMO"], ["runway", "nasr", "261126.DEMO.09"], ["runway", "nasr", "261126.DEMO.17"]])
        self.assertEqual([line.split(",")[3:5] for line in ended.out.splitlines()],
                         [["AFBX", "dod"], ["AFBX", "14/32"], ["DEMO", "public"], ["DEMO", "09/27"], ["DEMO", "17/35"], ["RNCH", "private"], ["RNCH", "01/19"]])
        for words in ("left out: DEMO H1: a helipad of an airport",
                      "left out: HOSP (INVENTED HOSPITAL): a heliport at latitude 39.34440000, longitude -115.43310000, 6050.0 ft above mean sea level, "
                      "H1 60 by 60 ft: latitude and longitude of both ends of the axis", "left out: LAKE (INVENTED LAKE): a seaplane base",
                      "left out: OLD1 (INVENTED OLD FIELD): ARPT_STATUS is CP",
                      "records: 7 (airports 3, runways 4, left out 4)\n", "DEMO 09/27: 7,073.9 ft on the grid"):
            self.assertIn(words, ended.err)

    @unittest.skipUnless(PROGRAM, "no program is named")
    def test_the_program_takes_them(self) -> None:
        """Every record is accepted, once: the same files sent again change nothing."""
        records, db = self.made().out, str(self.folder / "office.db")
        replies = [subprocess.run([PROGRAM, "desk", "--db", db], input=records, capture_output=True, text=True, check=True).stdout.splitlines() for _ in "12"]
        self.assertEqual(replies[0], [f"ok,{number},published,{line.split(',')[0]}" for number, line in enumerate(records.splitlines(), 1)])
        self.assertEqual(replies[1], replies[0])
        again = self.over()
        self.assertEqual(again.out, "")
        self.assertIn("records: 0 (as before 7, left out 1)\n", again.err)

    def test_codes(self) -> None:
        """The use and the approach of each FAR_PART_77_CODE; one that is blank or unknown keeps the runway out."""
        for code, wanted in APPROACHES.items():
            self.setUp()
            self.change(ENDS, ('"5991.5","C"', f'"5991.5","{code}"'), ('"6010.0","PIR"', f'"6010.0","{code}"'))
            (runway,) = [line for line in of("runway", self.made("--id", "DEMO")) if line[4] == "09/27"]
            self.assertEqual({" ".join((runway[5], kind)) for kind in (runway[10], runway[14])}, {wanted}, code)
        for code, words in (("", "FAR_PART_77_CODE of end 27 is blank"), ("B(NP)", 'FAR_PART_77_CODE of end 27 is "B(NP)", which is unknown'), ("c", '"c", which is unknown'),
                            ("A(NP)", "FAR_PART_77_CODE is PIR and A(NP), one of a utility runway and one of another, and A(NP) has no minimums")):
            self.setUp()
            self.change(ENDS, ('"5991.5","C"', f'"5991.5","{code}"'))
            ended = self.made("--id", "DEMO")
            self.assertNotIn("DEMO,09/27", ended.out)
            self.assertIn("left out: DEMO 09/27: ", ended.err)
            self.assertIn(words, ended.err)
        self.setUp()
        self.change(ENDS, ('"5991.5","C"', '"5991.5","A(V)"'))
        ended = self.made("--id", "DEMO")
        self.assertIn(",DEMO,09/27,other,hard,-25858,153351,60100,P,44848,155498,59915,V\n", ended.out)
        self.assertIn("look at this: DEMO 09/27 is written as other, as FAR_PART_77_CODE is PIR and A(V)", ended.err)

    def test_surfaces(self) -> None:
        for code, wanted, words in (("CONC", "hard", ""), ("PEM", "hard", ""), ("ASPH-CONC", "hard", ""), ("GRVL", "soft", ""), ("TURF-DIRT", "soft", ""),
                                    ("ASPH-TURF", "hard", "as its surface ASPH-TURF"),
                                    ("MATS", "hard", "as its surface MATS"), ("", "", "SURFACE_TYPE_CODE is blank"), ("LAVA", "", '"LAVA", which is unknown'),
                                    ("ASPH-LAVA", "", "unknown"),
                                    ("WATER", "", "left out: DEMO 09/27: a water lane")):
            self.setUp()
            self.change(RUNWAYS, ('"7074","100","ASPH"', f'"7074","100","{code}"'))
            ended = self.made("--id", "DEMO")
            self.assertEqual([line[6] for line in of("runway", ended) if line[4] == "09/27"], [wanted] if wanted else [], code)
            self.assertIn(words, ended.err)
            self.assertEqual("look at this: DEMO 09/27" in ended.err, "as its" in words)

    def test_categories(self) -> None:
        for owner, use, wanted, words in (("PU", "PU", "public", "by FACILITY_USE_CODE PU and OWNERSHIP_TYPE_CODE PU\n"), ("PR", "PU", "public", "is written as public"),
                                          ("MN", "PU", "public", "is it `dod` or `federal`?"),
                                          ("PU", "PR", "private", "`procedure` if an instrument procedure is approved"),
                                          ("PR", "PR", "private", "has an approach of FAR_PART_77_CODE C, PIR"),
                                          ("MA", "PR", "dod", "it has no surfaces of 77.19"), ("MR", "PR", "dod", ""), ("CG", "PR", "federal", ""),
                                          ("XX", "PU", "", "which make no category"), ("PU", "", "", "which make no category")):
            self.setUp()
            self.change(BASE, ('"INVENTED FIELD","PU","PU"', f'"INVENTED FIELD","{owner}","{use}"'))
            ended = self.made("--id", "DEMO")
            self.assertEqual([line[4] for line in of("airport", ended)], [wanted] if wanted else [])
            self.assertIn(words, ended.err)
            self.assertEqual("look at this: DEMO (INVENTED FIELD) is written as" in ended.err, bool(wanted))
        self.assertIn("; its runways (09/27, 17/35, H1) go with it", ended.err)
        ended = self.made("--id", "DEMO", "--category", "DEMO=procedure")
        self.assertEqual([line[4] for line in of("airport", ended)], ["procedure"])
        self.assertNotIn("is written as", ended.err)
        self.refused("--category DEMO=PU: wanted is public, building", "--id", "DEMO", "--category", "DEMO=PU", *GRID)
        self.refused("--category RNCH: no such airfield is chosen", "--id", "DEMO", "--category", "RNCH=public", *GRID)
        self.refused("--category DEMO: write NAME=VALUE", "--id", "DEMO", "--category", "DEMO", *GRID)

    def test_what_is_left_out(self) -> None:
        for name, old, new, words in (
                (ENDS, '"39.33388889"', '""', "left out: DEMO 09/27: LAT_DECIMAL is blank at end 27\n"),
                (ENDS, '"5991.5"', '""', "left out: DEMO 09/27: RWY_END_ELEV is blank at end 27\n"),
                (ENDS, '"5991.5"', '"low"', 'left out: DEMO 09/27: APT_RWY_END.csv line 2 (DEMO 09/27), elev_ft: "low" is no number of feet'),
                (ENDS, '"09/27","27"', '"09/27","28"', "left out: DEMO 09/27: APT_RWY_END.csv has ends 28, 09 of it"),
                (ENDS, '"17/35","35"', '"17/53","35"', "left out: DEMO 17/35: APT_RWY_END.csv has ends 17 of it"),
                (ENDS, '"39.33388889","-115.41250000"', '"40.70","-73.90"',
                 "left out: DEMO 09/27: APT_RWY_END.csv line 2 (DEMO 09/27): latitude 40.70000, longitude -73.90000 is outside of"),
                (BASE, '"6010.0"', '""', "left out: DEMO (INVENTED FIELD): ELEV is blank; its runways (09/27, 17/35, H1) go with it"),
                (BASE, '"00001.*A","A"', '"00001.*A","X"', 'left out: DEMO (INVENTED FIELD): SITE_TYPE_CODE is "X", which is unknown'),
                (BASE, '"RNCH"', '"DEMO"', "left out: DEMO: its ID stands in several rows (APT_BASE.csv line 2, APT_BASE.csv line 3)"),
                (BASE, '"6010.0","O"', '"6010.0","Z"', "ARPT_STATUS is Z\n")):
            self.setUp()
            self.change(name, (old, new))
            self.assertIn(words, self.made("--id", "DEMO").err)

    def test_exchanged_coordinates(self) -> None:
        """An end is that of its number wherever its row stands; if its coordinates are the other end's, the runway is left out."""
        self.change(ENDS, ('"39.33388889","-115.41250000"', "@"), ('"39.33333333","-115.43750000"', '"39.33388889","-115.41250000"'), ("@", '"39.33333333","-115.43750000"'))
        ended = self.made("--id", "DEMO")
        self.assertNotIn("09/27", ended.out)
        self.assertIn("DEMO 09/27 leads 268 degrees from its first end to its second: are its two rows exchanged?", ended.err)

    def test_elevations_are_rounded_down(self) -> None:
        """17/35 ends at 6,004.57 ft in the sample; below the sea, down is away from zero."""
        self.assertIn(",60045,V\n", self.made("--id", "DEMO").out)
        self.change(ENDS, ('"6004.57"', '"-10.01"'))
        self.assertIn(",-101,V\n", self.made("--id", "DEMO").out)

    def test_columns_by_name(self) -> None:
        wanted = self.made().out
        for name in (BASE, RUNWAYS, ENDS):
            path = self.folder / "faa" / name
            rows = [["more", *row[::-1]] for row in csv.reader(path.read_text().splitlines())]
            path.unlink()
            (self.folder / "faa" / name.lower()).write_text("\ufeff" + "".join(",".join(row) + "\r\n" for row in rows))
        self.assertEqual(self.made().out, wanted)

    def test_columns_that_are_missing(self) -> None:
        self.change(BASE, ("LAT_DECIMAL", "LATITUDE"), ("ELEV", "HEIGHT"))
        self.change(ENDS, ("LAT_DECIMAL", "LATITUDE"))
        ended = self.run_tool("oe-from-nasr", "faa", *NEAR, *GRID)
        first, second = ended.err.splitlines()
        self.assertEqual((ended.status, ended.out), (1, ""))
        self.assertTrue(first.startswith("oe-from-nasr: faa/APT_BASE.csv has no column LAT_DECIMAL, ELEV (its first line has EFF_DATE, SITE_NO,"), first)
        self.assertTrue(second.startswith("oe-from-nasr: faa/APT_RWY_END.csv has no column LAT_DECIMAL (its"), second)
        ended = self.made(*NEAR, "--column", "LAT_DECIMAL=LATITUDE", "--column", "ELEV=HEIGHT")
        self.assertEqual(ended.out, self.good("oe-from-nasr", str(EXAMPLES), *NEAR, *GRID).out)
        self.change(BASE, ("ARPT_NAME", "N"), ("ARPT_STATUS", "S"))
        self.change(RUNWAYS, ("RWY_LEN", "L"), ("RWY_WIDTH", "W"))
        ended = self.made("--id", "OLD1", "--id", "HOSP", "--id", "DEMO", "--column", "LAT_DECIMAL=LATITUDE", "--column", "ELEV=HEIGHT")
        for words in ("APT_BASE.csv has no column ARPT_STATUS: a closed airfield is not left out\n", "APT_BASE.csv has no column ARPT_NAME",
                      "APT_RWY.csv has no column RWY_LEN: no length is compared\n", "H1 ? by ? ft"):
            self.assertIn(words, ended.err)
        self.assertIn(",OLD1,public,", ended.out)
        self.assertNotIn("published", ended.err)
        self.change(BASE, ("EFF_DATE", "D"))
        self.refused("APT_BASE.csv has no one EFF_DATE, so say --key", "--id", "DEMO", "--column", "LAT_DECIMAL=LATITUDE", "--column", "ELEV=HEIGHT", *GRID)

    def test_which_airfields(self) -> None:
        """By a distance that is worked out on a sphere here, and by ID."""
        rows = {row["ARPT_ID"]: (float(row["LAT_DECIMAL"]), float(row["LONG_DECIMAL"])) for row in csv.DictReader((EXAMPLES / BASE).read_text().splitlines())}

        def miles(place: tuple[float, float]) -> float:
            lat, lon, here, there = map(math.radians, (39.33, -115.42, *place))
            return 3958.8 * 2 * math.asin(math.sqrt(math.sin((here - lat) / 2) ** 2 + math.cos(lat) * math.cos(here) * math.sin((there - lon) / 2) ** 2))
        for most in (1, 5, 8.5, 12, 14, 3000):
            ended = self.run_tool("oe-from-nasr", "faa", *NEAR, "--miles", str(most), "--table")
            seen = {name for name in rows if f": {name} (" in ended.err}
            self.assertEqual(seen, {name for name, place in rows.items() if miles(place) <= most}, most)
        self.assertEqual(self.made("--near", "39-19-48N,115-25-12W").out, self.made().out)
        self.refused("APT_BASE.csv has no airfield within 0.1 miles of 39.33,-115.42", *NEAR, "--miles", "0.1", *GRID)
        self.refused("APT_BASE.csv has no ARPT_ID KDEMO (is it DEMO?), demo (is it DEMO?), X", "--id", "KDEMO", "--id", "demo", "--id", "X", *GRID)
        self.change(BASE, ('"39.30000000"', '""'))
        self.assertIn("rows of APT_BASE.csv without a place, which --near does not find: 1\n", self.made().err)

    def test_a_table_to_fill_in(self) -> None:
        """What is blank is named again by oe-from-points; filled in, it is the records of the files."""
        table = self.good("oe-from-nasr", "faa", "--id", "DEMO", *BARE, "--id", "HOSP", "--id", "LAKE", "--table")
        for words in ("to fill in: BARE 08/26: FAR_PART_77_CODE of end 26 is blank\n",
                      'to fill in: BARE 03/21: LAT_DECIMAL is blank at end 21; LONG_DECIMAL is blank at end 21; RWY_END_ELEV is blank at end 21; '
                      'FAR_PART_77_CODE of end 03 is "E"', "left out: LAKE", "to fill in: HOSP"):
            self.assertIn(words, table.err)
        path = self.write("table.csv", table.out)
        ended = self.run_tool("oe-from-points", path, *GRID)
        wanting = [line.partition(": table.csv line ")[2] for line in ended.err.splitlines()]
        self.assertEqual(wanting, ['3: "end" wants use', '4: "end" wants use', '4: "end" wants kind', '7: "end" wants use', '7: "end" wants kind', '8: "end" wants lat',
                                   '8: "end" wants lon', '8: "end" wants elev_ft',
                                   '8: "end" wants use', '14: "pad" wants lat', '14: "pad" wants lon', '15: "pad" wants lat', '15: "pad" wants lon'])
        demo = "".join(line + "\n" for line in table.out.splitlines() if line.startswith("what") or ",DEMO," in line)
        records = self.good("oe-from-points", self.write("demo.csv", demo), *GRID).out.splitlines()
        self.assertEqual([line.split(",")[3:] for line in records], [line.split(",")[3:] for line in self.made("--id", "DEMO").out.splitlines()])

    def test_options_that_do_not_go_together(self) -> None:
        for words, wanted in (((), "say which airfields"), (("--dof", "x"), "name a FOLDER"), (("--id", "DEMO", "--miles", "3"), "--miles wants --near"),
                              (("--id", "DEMO", "--table", "--over", "x"), "--table is of airfields"),
                              (("--id", "DEMO", "--names", "x"), "--names wants --dof"), (("--near", "39"), '--near: "" is no longitude'),
                              (("--id", "DEMO", "--key", "261126.a"), "--key 261126.a: wanted is 1 to 7 letters")):
            self.refused(wanted, *words, *GRID)
        self.fault("name a FOLDER", "oe-from-nasr")
        self.fault("--id and --category are of airfields", "oe-from-nasr", "--dof", "x", "--id", "DEMO")
        self.fault("nowhere: No such file", "oe-from-nasr", "nowhere", "--id", "DEMO")
        (self.folder / "faa" / ENDS).write_text("A" * 200_000)
        self.refused("faa/APT_RWY_END.csv: it is no CSV (field larger", "--id", "DEMO", *GRID)
        (self.folder / "faa" / ENDS).unlink()
        self.refused("faa/APT_RWY_END.csv: No such file", "--id", "DEMO", *GRID)


@unittest.skipUnless(HAS_PROJ, "pyproj is missing")
class Over(Files):
    """The rows of an office are those of the records that the samples give; then the files change."""
    def test_nothing_changed(self) -> None:
        self.office(*DEMO_ROWS)
        ended = self.over()
        self.assertEqual(ended.out, "")
        self.assertIn("records: 0 (as before 3, left out 1)\n", ended.err)
        self.assertNotIn("ft on the grid", ended.err)
        self.assertNotIn("look at this", ended.err)

    def test_what_changed(self) -> None:
        """The published numbers, each by a line; the keys are those of the new cycle."""
        self.office(*DEMO_ROWS)
        for name in (BASE, RUNWAYS, ENDS):
            self.change(name, ("2026/11/26", "2026/12/24"))
        self.change(BASE, ('"6010.0","O"', '"6011.4","O"'))
        self.change(ENDS, ('"5991.5","C"', '"5992.25","D"'), ('"39.34300000"', '"39.34301000"'))
        ended = self.over()
        wanted = ["airport,nasr,261224.DEMO,DEMO,public", "runway,nasr,261224.DEMO.09,DEMO,09/27", "runway,nasr,261224.DEMO.17,DEMO,17/35"]
        self.assertEqual([",".join(line.split(",")[:5]) for line in ended.out.splitlines()], wanted)
        for words in ("changed: DEMO (INVENTED FIELD): elevation 6,010.0 to 6,011.4 ft\n",
                      "changed: DEMO 09/27: elevation of end 27 5,991.5 to 5,992.2 ft; approach of end 27 NA to NL\n",
                      "records: 3 (changed 3, left out 1)\n"):
            self.assertIn(words, ended.err)
        self.assertRegex(ended.err, r"changed: DEMO 17/35: place of end 17 by 3\.[67] ft\n")  # a hundred thousandth of a degree is 1.11 m
        self.assertRegex(ended.err, r"DEMO 17/35: 4,430\.[89] ft on the grid")

    def test_new_airfields(self) -> None:
        self.office(*DEMO_ROWS)
        ended = self.over(*NEAR)
        self.assertEqual([line[3] for line in of("airport", ended)], ["AFBX", "RNCH"])
        for words in ("new: RNCH (INVENTED RANCH)\n", "new: RNCH 01/19\n", "records: 4 (new airports 2, new runways 2, as before 3, left out 4)"):
            self.assertIn(words, ended.err)
        self.office(*DEMO_ROWS[:2])
        self.assertIn("new: DEMO 17/35\n", self.over().err)

    def test_what_the_office_decided_stays(self) -> None:
        """A category but `private`, a planned hard surface, planned approaches with the use that they want; by --category another one is said."""
        self.office((0, "DEMO", "airport,federal,9488,158469,60100"), (1, "DEMO 09/27", "other,hard,-25858,153351,60100,P,44848,155498,59915,NA/NL"),
                    (1, "DEMO 17/35", "other,hard,3779,188607,59980,V,10926,144915,60045,V/P"))
        ended = self.over()
        self.assertEqual(ended.out, "")
        for words in ("look at this: DEMO (INVENTED FIELD) stays federal; by the files it is public\n",
                      "look at this: DEMO 17/35 stays hard; by the files it is soft: is a hard surface planned"):
            self.assertIn(words, ended.err)
        self.assertEqual([line[4] for line in of("airport", self.over("--category", "DEMO=public"))], ["public"])
        self.change(ENDS, ('"6004.57","A(V)"', '"6004.7","A(V)"'), ('"5991.5","C"', '"5991.5","D"'))
        ended = self.over()
        self.assertEqual([line[4:] for line in of("runway", ended)], ["09/27,other,hard,-25858,153351,60100,P,44848,155498,59915,NL".split(","),
                                                                      "17/35,other,hard,3779,188607,59980,V,10926,144915,60047,V/P".split(",")])
        self.assertIn("changed: DEMO 09/27: approach of end 27 NA/NL to NL\n", ended.err)

    def test_ends_that_the_office_has_the_other_way(self) -> None:
        """The plan goes with the place of its end."""
        self.office(DEMO_ROWS[0], (1, "DEMO 09/27", "other,hard,44848,155498,59915,NA/P,-25858,153351,60100,P"), DEMO_ROWS[2])
        self.assertEqual([line[4:] for line in of("runway", self.over())], ["09/27,other,hard,-25858,153351,60100,P,44848,155498,59915,NA/P".split(",")])

    def test_a_private_airfield_that_opens(self) -> None:
        """From private the category follows the files, as that adds surfaces."""
        self.office((0, "DEMO", "airport,private,9488,158469,60100"), *DEMO_ROWS[1:])
        ended = self.over()
        self.assertEqual(of("airport", ended)[0][4], "public")
        self.assertIn("changed: DEMO (INVENTED FIELD): category private to public\n", ended.err)

    def test_what_is_gone(self) -> None:
        """Nothing is dropped by itself: the record that would do it is said."""
        self.office(*DEMO_ROWS, (0, "OLD1", "airport,public,0,0,60000"), (0, "OURS", "airport,building,0,0,60000"), (1, "DEMO 04/22", "other,hard,0,0,60000,V,5000,5000,60000,V"))
        ended = self.over()
        self.assertEqual(ended.out, "")
        for words in ("look at this: DEMO 04/22 is in office.db, and not in APT_RWY.csv: closed, renamed, or your own? To take it out: droprunway,nasr,261126.DEMOx04,DEMO,04/22\n",
                      "look at this: OLD1 (INVENTED OLD FIELD) is in office.db, and ARPT_STATUS is CP, closed permanently; to take it out: drop,nasr,261126.OLD1,OLD1\n",
                      "look at this: OURS is in office.db, and not in APT_BASE.csv: closed, renamed, or your own?\n"):
            self.assertIn(words, ended.err)
        self.assertNotIn("OURS", self.over("--id", "DEMO").err)

    def test_what_cannot_be_read_stays(self) -> None:
        """A runway that is left out, and an airport too, is as the office has it; the airport's runways go on."""
        self.office(*DEMO_ROWS)
        self.change(BASE, ('"6010.0","O"', '"","O"'))
        self.change(ENDS, ('"5991.5","C"', '"5991.5",""'), ('"5998.0"', '"5999.0"'))
        ended = self.over()
        self.assertEqual([line[4] for line in of("runway", ended)], ["17/35"])
        for words in ("left out: DEMO (INVENTED FIELD): ELEV is blank; the row in office.db stays\n",
                      "left out: DEMO 09/27: FAR_PART_77_CODE of end 27 is blank; the row in office.db stays\n", "changed: DEMO 17/35: elevation of end 17"):
            self.assertIn(words, ended.err)

    def test_heliports(self) -> None:
        """What the files have of one is compared; its axis is the office's own."""
        self.office((0, "HOSP", "heliport,private,0,0,600,0,600,60500"), (0, "RNCH", "heliport,private,0,0,600,0,600,61020"), (0, "LAKE", "airport,public,0,0,55000"))
        ended = self.over()
        self.assertEqual(ended.out, "")
        for words in ("left out: RNCH (INVENTED RANCH): it is an airport in the files, and a heliport in office.db; the row in office.db stays\n",
                      "left out: LAKE (INVENTED LAKE): a seaplane base: it is an airport only if visual markers "
                      "outline its sea lanes (77.3); the row in office.db stays\n", "records: 0 (as before 1, left out 2)"):
            self.assertIn(words, ended.err)
        self.office((0, "HOSP", "heliport,private,0,0,600,0,500,60510"))
        self.assertIn("look at this: HOSP (INVENTED HOSPITAL), in office.db: its elevation is 6,050.0 ft in the files, and 6,051.0 ft here; "
                      "its width is 60.0 ft in the files, and 50.0 ft here\n", self.over().err)
        self.change(RUNWAYS, ('"HOSP","NOWHERE","H1","60","60"', '"HOSP","NOWHERE","H1","60","wide"'))
        self.assertIn('(HOSP), width_ft: "wide" is no number of feet; the row in office.db stays\n', self.over().err)

    def test_faults(self) -> None:
        self.refused("none.db: no such file", "--over", "none.db", *GRID)
        self.office((0, "ZZZ", "airport,public,0,0,0"))
        self.refused("APT_BASE.csv has no airfield of office.db", "--over", "office.db", *GRID)

    @unittest.skipUnless(PROGRAM, "no program is named")
    def test_two_cycles_at_the_desk(self) -> None:
        """The changes are accepted, the case that they concern is marked, and then nothing is left to change."""
        db = str(self.folder / "office.db")

        def replies(text: str) -> list[str]:
            return subprocess.run([PROGRAM, "desk", "--db", db], input=text, capture_output=True, text=True, check=True).stdout.splitlines()
        replies(self.made().out + "day,office,1,2026-11-26\nfile,2026.AWP,1.OE,2027-02-01,-,-,normal,-,-4686,177667,60250,3050,antenna,0,-,-\ndetermine,2026.AWP,1.OE.det,1,none\n")
        self.assertEqual(replies("review\n"), ["review,0"])
        self.change(BASE, ("2026/11/26", "2026/12/24"), ('"6010.0","O"', '"6005.0","O"'))
        self.assertEqual(replies(self.over().out + "review\n"), ["ok,11,published,airport", "review,1,1"])
        self.assertEqual(self.over().out, "")


@unittest.skipUnless(HAS_PROJ, "pyproj is missing")
class ObstacleFile(Trial):
    def made(self, path: Path | str = EXAMPLES / "DOF.DAT", *words: str) -> Ended:
        return self.good("oe-from-nasr", "--dof", str(path), *GRID, *words)

    def test_both_forms(self) -> None:
        """The records of DOF.DAT and of the CSV, which has the places as degrees, are one."""
        fixed, table = (self.made(EXAMPLES / name, "--names", "names.csv") for name in ("DOF.DAT", "DOF.CSV"))
        self.assertEqual(fixed, table)
        heights = ["60250,3050", "59900,600", "64000,5100", "59000,1200"]  # of the top less that above the ground, and that
        self.assertEqual([line.split(",", 3)[3] for line in fixed.out.splitlines()], [f"{both},object,0,-,-" for both in heights])
        self.assertIn("obstacles: 6; dismantled 1; outside of the zone or the grid 1; asked 4\n", fixed.err)
        names = list(csv.reader((self.folder / "names.csv").read_text().splitlines()))
        self.assertEqual([row[4] for row in names], ["32-000101 TOWER (1A)", "32-000102 POLE (4D)", "32-000103 STACK (2C, unverified)", "32-000105 T-L TWR (5E)"])
        self.assertEqual([row[:4] for row in names], [line.split(",")[1:5] for line in fixed.out.splitlines()])

    def test_the_place(self) -> None:
        """The tower's is that of the same structure in a table of points."""
        table = "what,lat,lon,elev_ft,height_ft,kind\nstructure,39-20-24.0N,115-25-48.0W,6025,305,object\n"
        self.assertEqual(self.made().out.splitlines()[0] + "\n", self.good("oe-from-points", self.write("points.csv", table), *GRID).out)

    def test_near(self) -> None:
        ended = self.made(EXAMPLES / "DOF.DAT", *NEAR, "--miles", "5")
        self.assertEqual(len(ended.out.splitlines()), 2)
        self.assertIn("obstacles: 6; dismantled 1; not near 3; asked 2\n", ended.err)

    def test_lines_that_cannot_be_read(self) -> None:
        lines = (EXAMPLES / "DOF.DAT").read_text().splitlines()
        first = next(number for number, line in enumerate(lines) if line.startswith("32-"))
        lines[first] = lines[first][:40] + lines[first][41:]
        lines[first + 1] = lines[first + 1].replace("00060", "00 60")
        ended = self.made(self.write("broken.dat", "\n".join([*lines, "", "THE END"]) + "\n"))
        self.assertEqual(len(ended.out.splitlines()), 2)
        for words in (f"left out: broken.dat line {first + 1}: it is not in the columns of an obstacle\n",
                      f'left out: broken.dat line {first + 2} (32-000102 POLE (4D)), height_ft: "00 60" is no number of feet',
                      f"left out: broken.dat line {len(lines) + 2}: it is not in the columns",
                      "obstacles: 7; dismantled 1; outside of the zone or the grid 1; refused 1; not readable 2; asked 2\n"):
            self.assertIn(words, ended.err)
        self.fault("no line of it is in the columns of an obstacle", "oe-from-nasr", "--dof", str(EXAMPLES / "ends.ini"), *GRID)
        self.fault("has no column OAS, LATDEC, LONDEC, TYPE, AGL, AMSL", "oe-from-nasr", "--dof", str(EXAMPLES / "ends.csv"), *GRID)
        self.fault("No such file", "oe-from-nasr", "--dof", "none.dat", *GRID)

    def test_another_name_of_a_column(self) -> None:
        table = self.write("dof.csv", (EXAMPLES / "DOF.CSV").read_text().replace("AMSL", "TOP").replace("ACTION", "X"))
        ended = self.made(table, "--column", "AMSL=TOP")
        self.assertEqual(len(ended.out.splitlines()), 5)
        self.assertIn("has no column ACTION\n", ended.err)

    def test_the_list(self) -> None:
        """By the replies of a desk: by airfield and surface, the greatest excess first; notice rules are no surface."""
        program = self.folder / "oe"
        replies = "ok,1,published,airport\nok,2,published,runway\nfound,2,2,19a DEMO - 10,9a - - 5\nfound,2,0\nfound,2,2,17a1 - - 110,19a DEMO - 1705\nfound,2,1,19d DEMO 09/27.1 0\n"
        program.write_text(f'#!/bin/sh\ncat > asked\nprintf %s "{replies}"\n')
        program.chmod(0o755)
        with closing(sqlite3.connect(self.folder / "office.db")) as office, office:
            office.execute("CREATE TABLE kept (t, k, v)")
            office.executemany("INSERT INTO kept VALUES (?, ?, ?)", DEMO_ROWS[:2])
        ended = self.made(EXAMPLES / "DOF.DAT", "--over", "office.db", "--oe", str(program))
        self.assertEqual(list(csv.reader(ended.out.splitlines())), [
            ["paragraph", "surface", "excess_ft", "obstacle", "type", "agl_ft", "amsl_ft", "lat", "lon", "accuracy", "study"],
            ["77.17(a)(1)", "499 ft above the ground", "11.0", "32-000103", "STACK", "510", "6910", "39 26 00.00N", "115 33 00.00W", "2C", ""],
            ["77.19(a)", "horizontal surface of DEMO", "170.5", "32-000103", "STACK", "510", "6910", "39 26 00.00N", "115 33 00.00W", "2C", ""],
            ["77.19(a)", "horizontal surface of DEMO", "1.0", "32-000101", "TOWER", "305", "6330", "39 20 24.00N", "115 25 48.00W", "1A", "2025AWP00101OE"],
            ["77.19(d)", "approach surface of DEMO runway 09", "0.0", "32-000105", "T-L TWR", "120", "6020", "39 16 00.00N", "115 31 00.00W", "5E", ""]])
        self.assertEqual((self.folder / "asked").read_text().splitlines()[2:], self.made().out.splitlines())
        self.assertIn("obstacles that exceed a standard: 3\n", ended.err)
        table = self.write("dof.csv", (EXAMPLES / "DOF.CSV").read_text().replace(",305,", ",305.5,"))
        self.assertIn(",32-000101,TOWER,305.5,6330,", self.made(table, "--over", "office.db", "--oe", str(program)).out)

    @unittest.skipUnless(PROGRAM, "no program is named")
    def test_the_list_of_the_program(self) -> None:
        """The excesses are those of its replies to the same records."""
        airfields = self.good("oe-from-nasr", str(EXAMPLES), *NEAR, *GRID).out
        db = str(self.folder / "office.db")
        subprocess.run([PROGRAM, "desk", "--db", db], input=airfields, capture_output=True, text=True, check=True)
        replies = subprocess.run([PROGRAM, "desk", "--db", db], input=self.made().out, capture_output=True, text=True, check=True).stdout
        wanted = sorted(int(entry.split()[-1]) for line in replies.splitlines() for entry in line.split(",")[3:] if entry.startswith(("17", "19", "23")))
        rows = list(csv.DictReader(self.made(EXAMPLES / "DOF.DAT", "--over", db, "--oe", PROGRAM).out.splitlines()))
        self.assertEqual(sorted(round(float(row["excess_ft"]) * 10) for row in rows), wanted)
        self.assertGreater(len(wanted), 2)
