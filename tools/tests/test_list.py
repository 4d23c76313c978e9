"""oe-list: the register of cases beside the desk's own replies, read back from CSV and Excel, also while the file is served; and a copy of the file."""
import csv
import importlib.util
import io
import os
import shutil
import sqlite3
import subprocess
import unittest
from contextlib import closing
from pathlib import Path

from tests import stored, test_serve
from tests.trial import PROGRAM, Trial

CASES = (stored.TOP / "docs" / "case.csv").read_text()
UNTIL_MARKED = "".join(CASES.splitlines(keepends=True)[:19])  # the runway has grown, case 1 is in force
TODAY = """file,2029.AEA,1241.OE,2029-04-08,-,-,emergency,-,70000,60000,1000,400,object,0,T,-
file,2029.AEA,1242.OE,2029-06-15,-,-,normal,-,70000,60000,1000,2500,antenna,0,-,-
determine,2029.AEA,1242.OE.det,8,none
petition,2029.AEA,1242.OE.pet,8,commenter
file,2029.AEA,1243.OE,2029-06-15,-,-,normal,-,70000,60000,1000,2500,antenna,0,S,-
determine,2029.AEA,1243.OE.det,9,none
"""
STANDARDS = "77.17(a)(2) the height near EXM by 50.0 ft; 77.19(a) horizontal surface of EXM by 100.0 ft"
NOTICE_RULES = "77.9(a) 200 ft above the ground by 50.0 ft; 77.9(b)(1) 100 to 1 slope from EXM runway 09/27 by {} ft"
HEAD = "case,study,name,lat,lon,status,marked,decision,x_ft,y_ft,ground_ft,height_ft,top_ft,kind,"
GRID = "crs=2236\norigin=600000,100000\ndatum=EPSG:4269\n"  # of docs/OFFICE.md
Row = dict[str, str]


@unittest.skipUnless(PROGRAM, "no program is named")
class List(Trial):
    serve, link = test_serve.Served.serve, test_serve.Served.link

    def told(self, records: str, file: str = "office.db") -> list[str]:
        done = subprocess.run([str(PROGRAM), "desk", "--db", file], cwd=self.folder, input=records.encode(), stdout=subprocess.PIPE, check=True)
        return done.stdout.decode().splitlines()

    def rows(self, *words: str, file: str = "office.db") -> dict[str, Row]:
        """The rows of the table by the numbers of their cases."""
        text = self.good("oe-list", file, *words, desk=PROGRAM).out
        self.assertTrue(text.startswith(HEAD), text)
        return {row["case"]: row for row in csv.DictReader(io.StringIO(text))}

    def test_a_case_as_the_pages_have_it(self) -> None:
        """The replies to docs/case.csv that docs/OFFICE.md shows."""
        self.told(CASES)
        one, two, *_, six = self.rows().values()
        self.assertEqual({name: one[name] for name in ("study", "status", "marked", "decision", "x_ft", "y_ft", "ground_ft", "height_ft", "top_ft", "kind", "received", "notice", "work_starts",
                                                       "issued", "petitions_until", "effective", "expires", "extension_until", "standards", "notice_rules", "standards_now")},
                         {"study": "2026-AEA-1234-OE", "status": "expired", "marked": "", "decision": "nohazard", "x_ft": "7000.0", "y_ft": "6000.0", "ground_ft": "100.0", "height_ft": "250.0",
                          "top_ft": "350.0", "kind": "antenna", "received": "2026-01-15", "notice": "in time", "work_starts": "2026-03-01", "issued": "2026-01-15", "petitions_until": "2026-02-17",
                          "effective": "2026-02-24", "expires": "2029-02-24", "extension_until": "2029-02-09", "standards": STANDARDS, "notice_rules": NOTICE_RULES.format("186.7"), "standards_now": ""})
        self.assertEqual([two[name] for name in ("status", "decision", "notice", "permit", "expires", "lat", "name")], ["abandoned", "hazard", "late by 11 days", "2029-04-01", "", "", ""])
        self.assertEqual([six[name] for name in ("status", "notice", "form_due", "form_came", "flags", "standards", "standards_now", "notice_rules_now")],
                         ["awaiting", "emergency", "2029-03-03", "2029-03-05", "T", "", "none", "none"])

    def test_what_the_desk_says_of_each_case(self) -> None:
        """Status, decision, dates and mark are those of a desk over the file itself, of format 1, 2 and 3, of SQLite's and of a journal."""
        names = ("status", "decision", "issued", "petitions_until", "effective", "expires", "extension_until", "marked")
        for file, records in (("office.db", CASES + TODAY), ("marked.db", UNTIL_MARKED), ("office.oej", CASES + TODAY), ("format-1.db", ""), ("format-2.oej", "")):
            if not records:
                shutil.copy(Path(__file__).parent / "data" / file, self.folder)
            with self.subTest(file):
                self.told(records, file) if records else None
                before = (self.folder / file).read_bytes()
                rows = self.rows(file=file)
                self.assertEqual((self.folder / file).read_bytes(), before)
                wanted = [reply.split(",") for reply in self.told("".join(f"case,{number}\n" for number in rows), file)]
                self.assertEqual([["case", number, *[row[name] or "-" for name in names]] for number, row in rows.items()], wanted)
                self.assertEqual(self.told(f"case,{len(rows) + 1}\n", file), ["no,14,UnknownCase"])

    def test_the_lists(self) -> None:
        """Those that docs/TABLES.md shows of the worklists."""
        self.told(CASES + TODAY)
        for words, numbers in ((["--awaiting"], "6 7"), (["--petitions"], "8"), (["--forms-due"], "7"), (["--awaiting", "--petitions"], "6 7 8"), (["--expiring", "0"], ""),
                               (["--study", "2029-AEA-1242-OE"], "8"), (["--study", "2029.AEA.1242.OE"], "8"), (["--study", "2029 AEA 1242 OE", "--forms-due"], "7 8")):
            self.assertEqual(list(self.rows(*words)), numbers.split(), words)

    def test_a_petition_against_a_hazard(self) -> None:
        self.told(CASES + TODAY + "file,o,1,2029-06-15,-,-,normal,-,70000,60000,1000,2500,antenna,0,-,-\ndetermine,o,2,10,substantial\npetition,o,3,10,sponsor\n")
        self.assertEqual([(number, row["decision"]) for number, row in self.rows("--petitions").items()], [("8", "nohazard"), ("10", "hazard")])
        self.told("dispose,o,4,10,affirm\n")
        self.assertEqual(list(self.rows("--petitions")), ["8"])

    def test_what_expires(self) -> None:
        """As the desk's own report has it, up to a day."""
        self.told(CASES + TODAY)
        report = [line.split() for line in self.told("report,expiry\n")[1:]]
        self.assertEqual(len(report), 2)
        self.assertEqual(sorted(self.rows("--expiring", "36500")), sorted(number for _, number in report))
        self.assertEqual(self.told("report,expiry\n")[1], "2030-08-26       5")  # 506 days after 2029-04-07
        self.assertEqual(list(self.rows("--expiring", "505")), [])
        self.assertEqual(list(self.rows("--expiring", "506")), ["5"])

    def test_a_list_that_has_become_another(self) -> None:
        self.told(UNTIL_MARKED)
        (row,) = self.rows().values()
        self.assertEqual([row[name] for name in ("status", "marked", "notice_rules", "standards_now", "notice_rules_now")],
                         ["inforce", "marked", NOTICE_RULES.format("186.7"), STANDARDS, NOTICE_RULES.format("189.1")])

    def test_new_facts_and_a_flag(self) -> None:
        """After a revision ground and height are the new ones, and the name that was given to the first is found. Where a flag exempts, no notice rule was asked."""
        self.told("day,o,1,2026-01-15\nfile,o,2,2026-03-01,-,-,normal,-,0,0,1000,1500,object,0,-,-\ndetermine,o,3,1,-\nrevise,o,4,1,unstarted,1010,1600,-\n"
                  "file,o,5,2026-03-01,-,-,normal,-,0,0,1000,1500,object,0,S,-\ndetermine,o,6,2,-\n")
        names = self.write("names.csv", "0,0,1000,1500,Old mill\n")
        one, two = self.rows("--names", names).values()
        self.assertEqual([one[name] for name in ("study", "name", "ground_ft", "height_ft", "top_ft", "notice_rules")], ["o.2", "Old mill", "101.0", "160.0", "261.0", "none"])
        self.assertEqual(two["notice_rules"], "not asked (77.9(e))")

    def test_while_it_is_served(self) -> None:
        self.told(CASES + TODAY)
        before = self.rows()
        served, port = self.serve(1, "--db", "office.db")
        with self.link(served, port) as link:
            self.assertEqual(link.reply("sync"), "sync,39")
            self.assertEqual(self.rows(), before)
            self.assertEqual(link.reply("dispose,2029.AEA,1242.OE.dis,8,reverse"), "ok,40,published,dispose,8,reverse,-,-")
            self.assertEqual(self.rows("--petitions"), {})
            after = self.rows()
            self.assertEqual([after["8"]["status"], after["9"]], ["reversed", before["9"]])
            out = self.good("oe-list", "office.db", "--backup", "copy.db").out
            self.assertEqual(out, "copy.db: a copy of office.db after entry 40, the desk's day 2029-04-07\n")
        served.communicate()
        self.assertEqual(self.told("sync\ncase,8\n", "copy.db"), ["sync,40", "case,8,reversed,nohazard,2029-04-07,2029-05-07,-,-,-,-"])

    def test_copies(self) -> None:
        """A copy is whole alone, as readable as the file, and never in the place of another file."""
        for file, copy, other in (("office.db", "copy.db", "copy.oej"), ("office.oej", "copy.oej", "copy.db")):
            self.told(CASES, file)
            os.chmod(self.folder / file, 0o640)
            self.good("oe-list", file, "--backup", copy)
            self.assertEqual((self.folder / copy).stat().st_mode & 0o777, 0o640)
            self.assertEqual([path.name for path in self.folder.glob("copy*") if path.name.startswith(copy)], [copy])
            self.assertEqual(self.told("sync\n", copy), ["sync,33"])
            self.fault(f"{copy} is there: name a new file", "oe-list", file, "--backup", copy)
            (self.folder / copy).unlink()
            self.write(f"{copy}-wal", "")
            self.fault(f"{copy}-wal is there", "oe-list", file, "--backup", copy)
            (self.folder / f"{copy}-wal").unlink()
            self.fault("the copy of a journal has a name that ends in .oej", "oe-list", file, "--backup", other)
            self.fault("No such file", "oe-list", file, "--backup", f"nowhere/{copy}")
        self.assertEqual([path.name for path in self.folder.iterdir() if path.name.startswith(".oe-")], [])

    @unittest.skipUnless(importlib.util.find_spec("openpyxl"), "openpyxl is missing")
    def test_a_sheet_of_excel(self) -> None:
        """The same cells as the CSV, as numbers, days and text, and a row for each finding."""
        import openpyxl
        self.told(CASES + TODAY)
        names = self.write("names.csv", '70000,60000,1000,2500,=1+1\n250000,0,1000,1000,#N/A\n')
        self.good("oe-list", "office.db", "--names", names, "-o", "cases.xlsx", desk=PROGRAM)
        made = openpyxl.load_workbook(self.folder / "cases.xlsx")
        self.assertEqual(made.sheetnames, ["Cases", "Findings", "About"])
        first, *rows = made["Cases"].iter_rows(values_only=True)
        wanted = list(self.rows("--names", names).values())
        self.assertEqual(list(first), list(wanted[0]))
        for row, texts in zip(rows, wanted, strict=True):
            for value, text in zip(row, texts.values(), strict=True):
                if hasattr(value, "isoformat"):
                    self.assertEqual(value.date().isoformat(), text)
                elif isinstance(value, int | float):
                    self.assertEqual(value, float(text))
                else:
                    self.assertEqual(value or "", text)
        cells = dict(zip(first, next(made["Cases"].iter_rows(min_row=2))))
        self.assertEqual([cells[name].data_type for name in ("case", "name", "received", "height_ft", "standards")], ["n", "s", "d", "n", "s"])
        self.assertEqual(cells["name"].value, "=1+1")
        findings = list(made["Findings"].iter_rows(min_row=2, values_only=True))
        self.assertEqual(findings[0], (1, "2026-AEA-1234-OE", "=1+1", "determination", "standard", "17a2", "77.17(a)(2)", "EXM", None, 50, "the height near EXM by 50.0 ft"))
        self.assertEqual([row[9] for row in findings if row[0] == 1], [50, 100, 50, 186.7])
        self.assertIn("office.db after entry 39, the desk's day 2029-04-07; cases: 9 of 9 (all)", [row[0] for row in made["About"].iter_rows(values_only=True)])

    @unittest.skipUnless(importlib.util.find_spec("openpyxl"), "openpyxl is missing")
    def test_limits_of_excel(self) -> None:
        """A cell that is longer than Excel's says where the rest is; more rows than a sheet has are refused."""
        from office import workbooks
        from office.faults import Fault
        from openpyxl import Workbook
        made = Workbook(write_only=True)
        long = "; ".join(["77.9(b)(1) 100 to 1 slope"] * 2000)
        text = workbooks.cell_of(made.create_sheet("one"), long)
        self.assertLessEqual(len(text), 32_767)
        self.assertTrue(text.endswith("100 to 1 slope; .. (the rest stands in the sheet Findings)"), text[-80:])
        self.assertEqual(len(workbooks.cell_of(made["one"], "x" * 40_000)), 32_767)
        with self.assertRaisesRegex(Fault, "a sheet of Excel has 1,048,575"):
            workbooks.fill(made, "Cases", ("case",), [[1]] * 1_048_576)

    @unittest.skipUnless(importlib.util.find_spec("pyproj"), "pyproj is missing")
    def test_latitudes(self) -> None:
        """A point goes to its latitude and longitude and back to the same tenth of a foot. That of the tower in docs/OFFICE.md was typed there."""
        from office import grids
        self.told("day,o,1,2026-01-15\nfile,o,2,2026-03-01,-,-,normal,-,428917,477779,40,2500,antenna,0,-,-\n"
                  + "".join(f"file,o,{n + 3},2026-03-01,-,-,normal,-,{n * 98_765 - 1_234_567},{n * 43_210 + 7},40,2500,antenna,0,-,-\n" for n in range(40)))
        rows = self.rows("--grid", self.write("office.grid", GRID))
        self.assertAlmostEqual(float(rows["1"]["lat"]), 24 + 44 / 60 + 24 / 3600, delta=1e-6)
        self.assertAlmostEqual(float(rows["1"]["lon"]), -(81 + 2 / 60 + 24 / 3600), delta=1e-6)
        grid = grids.Grid(grids.read_choice(str(self.folder / "office.grid")))
        for row in rows.values():
            place = grid.place(float(row["lat"]), float(row["lon"]), "a case")
            self.assertEqual((place.x / 10, place.y / 10), (float(row["x_ft"]), float(row["y_ft"])))
        ended = self.good("oe-list", "office.db", desk=PROGRAM)
        self.assertIn("no --grid FILE: latitudes and longitudes are left out\n", ended.err)
        self.fault("the grid has no origin", "oe-list", "office.db", "--grid", self.write("bare.grid", GRID.replace("600000,100000", "")), desk=PROGRAM)

    def test_faults(self) -> None:
        self.told("file,o,1,2026-03-01,-,-,normal,-,0,0,1000,1500,object,0,-,-\n")
        self.fault("none.db: no such file", "oe-list", "none.db", desk=PROGRAM)
        self.fault("is it a file of `oe desk --db`?", "oe-list", self.write("odd.db", "no database " * 100), desk=PROGRAM)
        self.fault("has no day yet", "oe-list", "office.db", "--expiring", "30", desk=PROGRAM)
        self.fault("--expiring -1: say 0 to 36500 days", "oe-list", "office.db", "--expiring", "-1", desk=PROGRAM)
        self.fault("no case has the study 2026-AEA-1-OE", "oe-list", "office.db", "--study", "2026-AEA-1-OE", desk=PROGRAM)
        self.fault("ends in neither .csv nor .xlsx", "oe-list", "office.db", "-o", "cases.txt", desk=PROGRAM)
        self.fault("No such file", "oe-list", "office.db", "-o", "nowhere/cases.csv", desk=PROGRAM)
        self.fault("no file that --grid wrote", "oe-list", "office.db", "--grid", "none.grid", desk=PROGRAM)
        self.fault("no such program", "oe-list", "office.db", desk="/nowhere/oe")
        self.write("office.db-journal", "SQLite was here")
        self.fault("office.db-journal lies beside it", "oe-list", "office.db", desk=PROGRAM)

    def test_a_library_that_is_missing(self) -> None:
        self.assert_wants("openpyxl", "python3-openpyxl", "oe-list", "office.db", "-o", "cases.xlsx")
        self.assert_wants("pyproj", "python3-pyproj", "oe-list", "office.db", "--grid", "office.grid")

    def test_a_bad_row(self) -> None:
        """What the desk does not open is not listed."""
        self.told(CASES)
        with closing(sqlite3.connect(self.folder / "office.db")) as opened, opened:
            opened.execute("UPDATE kept SET v = 'x' WHERE t = 3 AND k = '000002'")
        self.fault("ended with status 6: oe: bad row filing 000002", "oe-list", "office.db", desk=PROGRAM)

    def test_an_office_without_cases(self) -> None:
        self.told("airport,o,1,AAA,public,0,0,1000\n")
        self.assertEqual(self.rows(), {})
