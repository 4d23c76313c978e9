"""oe-say: words of replies, cautions, and files that do not belong together."""
import sqlite3
import unittest
from contextlib import closing

from tests import stored
from tests.trial import PROGRAM, Trial

EMPTY = "no airfield is registered"
THEN = ("airport,u,1,AAA,public,0,0,1000\nrunway,u,2,AAA,09/27,other,hard,-50000,0,1000,P,50000,0,1000,NA\n"
        "asof,1,-152000,0,1000,2001,object,0,-,-\nasof,2,-152000,0,1000,2001,object,0,-,-\nasof,3,-152000,0,1000,2001,object,0,-,-\n")
THEN_TOLD = ("ok,1,published,airport\nok,2,published,runway\nasof,1,1,9a - - 1\n"
             "asof,2,5,17a2 AAA - 1,19a AAA - 501,19d AAA 09/27.1 1,9a - - 1,9b1 AAA 09/27 981\nno,39,NotKept,0,2\n")
TWO = "airport,a,1,AAA,public,0,0,0\nrunway,a,2,AAA,09/27,other,hard,-30000,0,0,V,30000,0,0,V\n"


class Say(Trial):
    def said(self, records: str, replies: str, *words: str) -> str:
        return self.good("oe-say", self.write("in", records), self.write("out", replies), *words).out

    def test_the_example(self) -> None:
        """The replies of docs/RECORDS.md, in words written by hand."""
        out = self.good("oe-say", str(stored.TOP / "docs" / "first.csv")).out
        for words in (
                "line 1: airport,office,1,AAA,public,0,0,1000\n    entry 1: airport AAA is registered\n",
                "line 3: screen: 200.0 ft on ground of 100.0 ft, top 300.0 ft\n    OBSTRUCTION, it exceeds:\n"
                "      77.19(a)        horizontal surface of AAA             by 50.0 ft\n"
                "      77.19(c)        primary surface of AAA runway 09/27   by 200.0 ft\n"
                "    NOTICE to the FAA is required (Form 7460-1), it meets:\n"
                "      77.9(b)(1)      100 to 1 slope from AAA runway 09/27  by 200.0 ft\n",
                "line 6: screen: 200.1 ft on ground of 100.0 ft, top 300.1 ft\n    OBSTRUCTION, it exceeds:\n"
                "      77.17(a)(2)     the height near AAA                   by less than 0.1 ft\n",
                "    REFUSED (5): a runway is 100 to 20,000 ft long: are the coordinates tenths of a foot?\n",
                '    REFUSED (13) at field 2, X: "20000001"; wanted is tenths of a foot on the grid, -20000000 to 20000000\n',
                "      77.23(b)        approach surface of heliport HHH, end 2                                     by 0.1 ft\n",
                "      77.23(c)        transitional surface of heliport HHH, beside the approach surface of end 2  by 0.1 ft\n",
                "      77.19(e)        transitional surface of AAA runway 09/27, beside its primary surface  by 13.1 ft\n",
                "      77.9(c), (b)(1) 100 to 1 slope from AAA runway 09/27, raised by its traffic  by 17.4 ft\n",
                "line 15: verdict: 20.0 ft on ground of 100.0 ft, top 120.0 ft\n    notice required: no; obstruction: yes; findings: 1 (`screen` lists them)\n",
                "screened: obstructions 8, notice only 1, without a finding 0; records refused 3; with a caution 0\n"):
            self.assertIn(words, out)
        self.assertNotIn("CAUTION", out)

    def test_a_case_from_notice_to_expiry(self) -> None:
        session = stored.sessions()["a case from notice to expiry"]
        out = self.good("oe-say", self.write("in", session.content)).out
        for words in ("entry 6: case 1: NO HAZARD, issued 2026-01-15; petitions until 2026-02-17; effective 2026-02-24; expires 2027-08-24",
                      "REFUSED (21): petitions were due by 2026-02-17, and it is 2026-02-20",
                      "entry 11: case 1: expires 2029-02-24 now; the last day to ask for another extension is 2029-02-09",
                      "REFUSED (16): the desk's day is 2027-08-09 and does not go back to 2027-08-08", "case 1 is expired: NO HAZARD"):
            self.assertIn(words, out)

    def test_an_emergency(self) -> None:
        session = stored.sessions()["emergency and presumption"]
        out = self.good("oe-say", self.write("in", session.content)).out
        for words in ("filed as case 1; an emergency, its form is due by 2026-01-20", "unexplained: presumed a hazard", "the form came, late by 1 day\n"):
            self.assertIn(words, out)

    def test_names_and_short(self) -> None:
        name = self.write("names", "0,0,0,2001,\"Mast, <old>\"\n")
        out = self.said(TWO + "screen,0,0,0,2001,object,0,-,-\n", "ok,1,published,airport\nok,2,published,runway\nfound,2,0\n", "--names", name, "--short")
        self.assertTrue(out.startswith("line 3: screen Mast, <old>: 200.1 ft"), out)

    def test_sheets_of_other_machines(self) -> None:
        """A byte order mark, carriage returns, quotes and an empty line: lines keep their numbers."""
        out = self.said('\ufeffday,a,1,2026-01-15\r\n\r\n"screen","0","0",0,0,object,0,-,-\r\n', "ok,1,published,day\nfound,1,0\n")
        self.assertIn("line 3: screen: 0.0 ft", out)
        self.assertTrue(out.startswith("line 1: day,a,1"), out)

    def test_bytes_that_are_no_text(self) -> None:
        ended = self.good("oe-say", self.write("in", b"screen,\xff\x1b[0m,0\n" + b"x" * 9000 + b"\n"), self.write("out", "no,13,Malformed,2\nno,13,Malformed,0\n"))
        self.assertIn('at field 2, X: "??[0m"', ended.out)
        self.assertIn("longer than 8,192 bytes", ended.out)
        self.assertTrue(all(len(line) < 200 and line.isprintable() for line in ended.out.splitlines()), ended.out)

    def test_a_first_field_that_is_no_form(self) -> None:
        records = "screen;0;0;0;1;object;0;-;-\nday\ta\t1\t2026-01-15\n,,,,\nScreen,0\nbuilding,0\n"
        out = self.said(records, "no,13,Malformed,1\n" * 5)
        for words in ('no record begins with "screen;0;0;0;1;object;0;-;-" (the columns are parted by semicolons or tabs: oe-clean', 'no record begins with "" (an empty row of a spreadsheet: oe-clean',
                      'no record begins with "Screen" (write screen)\n', 'no record begins with "building"\n'):
            self.assertIn(words, out)
        self.assertEqual(out.count("by semicolons or tabs"), 2)
        self.assertIn("UTF-16", self.said("s\0c\0\n", "no,13,Malformed,1\n"))

    def test_a_report(self) -> None:
        out = self.said("report,review\ncase,1\n", "report,review,1\n     1  nohazard  2026-01-15\nno,14,UnknownCase\n")
        self.assertIn("    report review, lines: 1\n         1  nohazard  2026-01-15\n", out)
        self.assertIn("line 2: case,1\n    REFUSED (14)", out)

    def test_ceilings(self) -> None:
        """The replies of `oe ceiling`: a height, none, a record of another form."""
        out = self.said("screen,0,0,1000,0,object,0,-,-\nscreen,0,0,1000,0,object,0,-,AAA\nreview\n",
                        "ceiling,2,1020,1,9b1 AAA 09/27 1\nceiling,2,-,1,9d AAA - 0\nno,13,Malformed,1\n")
        for words in ("without a finding up to 102.0 ft above the ground; 0.1 ft higher:\n"
                      "    NOTICE to the FAA is required (Form 7460-1), it meets:\n"
                      "      77.9(b)(1)      100 to 1 slope from AAA runway 09/27  by 0.1 ft\n",
                      "    at every height it has a finding:\n", "      77.9(d)         it is on the airfield AAA\n",
                      "read `screen` records, and this is `review`\n"):
            self.assertIn(words, out)

    def test_as_of_an_earlier_entry(self) -> None:
        """The replies of `oe asof`: before the runway was there, with it, and as of an entry that is not there."""
        out = self.said(THEN, THEN_TOLD)
        for words in ("line 3: asof 1: 200.1 ft on ground of 100.0 ft, top 300.1 ft\n    over the airfields after entry 1:\n"
                      "    NOTICE to the FAA is required (Form 7460-1), it meets:\n"
                      "      77.9(a)         200 ft above the ground  by 0.1 ft\n",
                      "line 4: asof 2: 200.1 ft on ground of 100.0 ft, top 300.1 ft\n    over the airfields after entry 2:\n    OBSTRUCTION, it exceeds:\n"
                      "      77.17(a)(2)     the height near AAA                   by 0.1 ft\n"
                      "      77.19(a)        horizontal surface of AAA             by 50.1 ft\n"
                      "      77.19(d)        approach surface of AAA runway 09     by 0.1 ft\n",
                      "      77.9(b)(1)      100 to 1 slope from AAA runway 09/27  by 98.1 ft\n",
                      "line 5: asof,3,-152000,0,1000,2001,object,0,-,-\n    REFUSED (39): this run can tell lists as of entries 0 to 2 alone: ",
                      "screened: obstructions 0, notice only 0, without a finding 0; records refused 1; with a caution 0\n"):
            self.assertIn(words, out)

    def test_refused_as_of(self) -> None:
        """A number that is none, a word that is no KIND, and a desk that does not answer it."""
        site = "-152000,0,1000,2001"
        out = self.said(f"asof,01,{site},object,0,-,-\nasof,1,{site},tower,0,-,-\nasof,1,{site},object,0,-,-\n",
                        "no,13,Malformed,2\nno,13,Malformed,7\nno,13,Malformed,1\n")
        for words in ('REFUSED (13) at field 2, N: "01" (a sign or zeros before the number); wanted is the number of an entry',
                      'REFUSED (13) at field 7, KIND: "tower" (write antenna for an antenna structure, else object); wanted is object', "REFUSED (13) at field 1: `oe asof` alone answers it"):
            self.assertIn(words, out)
        self.fault("another sort", "oe-say", self.write("in", f"asof,1,{site},object,0,-,-\n"), self.write("out", "found,1,1,9a - - 1\n"))

    def test_the_command_that_is_asked(self) -> None:
        """Where a record asks as of an earlier entry, `oe asof` is asked, and a desk that begins with an office's airfields is not."""
        program = self.folder / "oe"
        program.write_text(f'#!/bin/sh\ncat > /dev/null\n[ "$*" = asof ] && printf %s "{THEN_TOLD}"\n')
        program.chmod(0o755)
        self.assertIn("over the airfields after entry 2:", self.good("oe-say", self.write("in", THEN), desk=str(program)).out)
        self.fault("oe desk ended with status 1", "oe-say", self.write("in", TWO), desk=str(program))
        with closing(sqlite3.connect(self.folder / "office.db")) as office:
            office.execute("CREATE TABLE kept (t, k, v)")
            office.execute("INSERT INTO kept VALUES (0, 'AAA', 'airport,public,0,0,1000')")
            office.commit()
        self.fault("does not have the office's entries", "oe-say", self.write("in", THEN), "--over", "office.db", desk=str(program))

    @unittest.skipUnless(PROGRAM, "no program is named")
    def test_the_program_as_of_an_earlier_entry(self) -> None:
        records = self.write("in", THEN)
        told = self.good("oe-say", records, self.write("out", THEN_TOLD)).out
        self.assertEqual(self.good("oe-say", records, desk=PROGRAM).out, told)

    def test_the_last_entry(self) -> None:
        out = self.said("sync\n" + TWO + "sync\nsync,\n", "sync,0\nok,1,published,airport\nok,2,published,runway\nsync,2\nno,13,Malformed,2\n")
        for words in ("line 1: sync\n    no change was accepted yet: was --db forgotten, or another file named?\n",
                      "line 4: sync\n    the last accepted change is entry 2\n", "at field 2: sync has 1 field ("):
            self.assertIn(words, out)

    def test_replies_of_another_file(self) -> None:
        records = self.write("in", TWO)
        for replies, words in (("ok,1,published,airport\n", "the replies end before line 2"), ("ok,1,published,airport\n" * 2, "another sort"),
                               ("ok,1,published,airport\nok,2,published,runway\nfound,2,0\n", "more replies than records"),
                               ("ok,1,published,airport\nfound,x,0\n", "no whole reply"), ("report,expiry,3\n", "no whole reply")):
            self.fault(words, "oe-say", records, self.write("out", replies))
        for record, reply, words in (("file,a,1", "ok,1,published,case,1,timely,-,-", "another sort"), ("screen,0,0,0,x,object,0,-,-", "found,1,0", "another sort"),
                                     ("day,a,1,2026-01-15", "no,16,DayBack,2026-01-15", "no whole reply"), ("x", "no,13,Malformed,x", "no whole reply"),
                                     ("determine,a,1,1,-", "ok,1,published,determine,1,nohazard", "no whole reply"), ("airfield,AAA", "airfield,airport,public,x,0,0", "no whole reply"),
                                     ("screen,0,0,0,1,object,0,-,-", "found,1,1,19d AAA 09/27.3 1", "no whole reply"), ("screen,0,0,0,1,object,0,-,-", "found,1,1,23a AAA - 1", "no whole reply")):
            self.fault(words, "oe-say", self.write("in", record + "\n"), self.write("out", reply + "\n"))

    def test_faults(self) -> None:
        self.fault("No such file", "oe-say", "nothing")
        self.fault("no such program", "oe-say", self.write("in", TWO), desk="/nowhere/oe")
        self.fault("leave REPLIES out", "oe-say", self.write("in", TWO), self.write("out", ""), "--over", "office.db")
        self.fault("2 columns", "oe-say", self.write("in", ""), self.write("out", ""), "--names", self.write("names", "1,2\n"))
        self.fault("no such file", "oe-say", self.write("in", TWO), "--over", "office.db")
        self.fault("is it a file of", "oe-say", self.write("in", TWO), "--over", self.write("office.db", "no database" * 100))

    def test_files_that_are_no_records(self) -> None:
        """They are said to be none before a desk is asked, since it would run what looks like a record in them."""
        for content, words in ((b"SQLite format 3\0" + b"screen,0,0,0,1,object,0,-,-\n", "a database and no file of records"),
                               (TWO.encode() + b"review\0\n", "line 3 has a NUL in it"), (TWO.encode("utf-16"), "line 1 has a NUL in it (a sheet in UTF-16?"),
                               (b"what,id,lat,lon\nstructure,,1,2\n", 'line 1 begins with "what": a table of points'), (b"\nScreen,0\n", 'line 2 begins with "Screen": write screen'),
                               (b"screen;0;0\n", "by semicolons or tabs"), (b"<html>\n<p>\n", 'line 1 begins with "<html>"')):
            self.fault(words, "oe-say", self.write("in", content))


class Cautions(Trial):
    def said(self, records: str, replies: str) -> str:
        return self.good("oe-say", self.write("in", records), self.write("out", replies)).out

    def test_an_empty_desk(self) -> None:
        self.assertIn(EMPTY, self.said("screen,0,0,0,2500,object,0,-,-\n", "found,0,1,9a - - 500\n"))
        self.assertIn(EMPTY, self.said("day,a,1,2026-01-15\nscreen,0,0,0,2500,object,0,-,-\n", "ok,1,published,day\nfound,1,1,9a - - 500\n"))
        self.assertIn(EMPTY, self.said("verdict,0,0,0,2500,object,0,-,-\n", "verdict,0,yes,no,1\n"))
        self.assertIn(EMPTY, self.said("airport,a,1,AAA,public,0,0,999999\nscreen,0,0,0,2500,object,0,-,-\n", "no,9,ElevationRange\nfound,0,0\n"))

    def test_places_of_ceilings(self) -> None:
        """The height 0 of a place is no mistake, and a flag asks for the standards alone; an empty desk and a misspelt airfield are mistakes."""
        site = "screen,0,0,1000,0,object,0,"
        self.assertIn(EMPTY, self.said(f"{site}-,-\n", "ceiling,0,2000,1,9a - - 1\n"))
        self.assertNotIn("CAUTION", self.said(f"{site}-,-\n", "ceiling,2,1020,1,9b1 AAA 09/27 1\n"))
        self.assertNotIn("CAUTION", self.said(f"{site}-,AAA\n", "ceiling,2,-,1,9d AAA - 0\n"))
        self.assertIn("is AAB registered", self.said(f"{site}-,AAB\n", "ceiling,2,1020,1,9b1 AAA 09/27 1\n"))
        out = self.said(f"{site}S,-\n{site}R,-\n", "ceiling,2,1500,1,19a AAA - 1\nceiling,2,-,1,19c AAA 09/27 1\n")
        self.assertIn("    no standard is exceeded up to 150.0 ft above the ground; 0.1 ft higher:\n    OBSTRUCTION, it exceeds:\n"
                      "      77.19(a)        horizontal surface of AAA  by 0.1 ft\n    notice rules were not asked: flag S, D or R takes them away (77.9(e))\n", out)
        self.assertIn("    at every height a standard is exceeded:\n", out)
        self.assertNotIn("CAUTION", out)

    def test_as_of_an_earlier_entry(self) -> None:
        """Entry 0 has no airfield; an airfield may not have been there yet; a flag, and numbers in the wrong place, are as now."""
        for record, reply, words in (("asof,0,0,0,1000,2500,object,0,-,AAA", "asof,0,1,9a - - 500", "entry 0 stands before every change"),
                                     ("asof,3,0,0,1000,2500,object,0,-,AAB", "asof,3,1,9a - - 500", "was AAB registered by entry 3, not misspelt"),
                                     ("asof,3,0,0,1000,2500,object,0,S,AAB", "asof,3,0", "flag S, D or R"),
                                     ("asof,3,0,0,2500,0,object,0,-,-", "asof,3,0", "its height is 0")):
            out = self.said(record + "\n", reply + "\n")
            self.assertIn(words, out)
            self.assertEqual(out.count("CAUTION"), 1, out)
        self.assertNotIn("CAUTION", self.said("asof,3,0,0,1000,2500,object,0,-,AAA\n", "asof,3,2,9a - - 500,9d AAA - 0\n"))

    def test_airfields_of_a_file_before(self) -> None:
        """Where the desk has changes that this file does not have, nothing is said of an empty one."""
        self.assertNotIn(EMPTY, self.said("day,a,1,2026-01-15\nscreen,0,0,0,2500,object,0,-,-\n", "ok,9,published,day\nfound,9,0\n"))

    def test_an_airfield_that_is_not_registered(self) -> None:
        session = stored.sessions()["structures near a runway"]
        out = self.good("oe-say", self.write("in", session.content)).out
        last = out[out.index("line 10:"):]
        self.assertIn("it is said to be on ZZZ, and no airfield ZZZ is registered", last)
        self.assertNotIn("it is said to be on", out[:out.index("line 10:")])

    def test_an_airfield_that_may_not_be_registered(self) -> None:
        out = self.said("screen,0,0,0,250,object,0,-,AAB\n", "found,7,0\n")
        self.assertIn("is AAB registered, not misspelt, and not private?", out)
        self.assertNotIn("is AAA registered", self.said("screen,0,0,0,250,object,0,-,AAA\n", "found,7,1,9d AAA - 0\n"))

    def test_a_private_airfield(self) -> None:
        out = self.said(TWO.replace("public", "private") + "screen,0,0,0,1200,object,0,-,AAA\n", "ok,1,published,airport\nok,2,published,runway\nfound,2,0\n")
        self.assertIn("it is on AAA, which is private", out)

    def test_a_file_without_a_record(self) -> None:
        out = self.said("\n\n", "")
        self.assertIn("CAUTION: there is no record in this file", out)
        self.assertIn("with a caution 0, and 1 of the whole file\n", out)

    def test_a_day_that_is_far(self) -> None:
        """From the machine's, which is 2026-01-15 in tests, and then from the one before it in the file."""
        def day(number: int, text: str) -> str:
            return f"day,o,{number},{text}\n"
        for days, words in ((("2026-02-15",), ()), (("2025-12-15",), ()), (("2026-02-16",), ("this day is 32 days after 2026-01-15, this machine's day",)),
                            (("2062-01-15",), ("this day is 13,149 days after 2026-01-15, this machine's day",)),
                            (("2025-12-14",), ("this day is 32 days before 2026-01-15, this machine's day",)),
                            (("2026-01-14", "2026-01-15", "2062-01-16"), ("this day is 13,150 days after 2026-01-15, the day before it here",)),
                            (("2024-01-14", "2024-01-15"), ("this day is 732 days before 2026-01-15, this machine's day",))):
            records = "".join(day(number, text) for number, text in enumerate(days))
            out = self.good("oe-say", self.write("in", records), self.write("out", "".join(f"ok,{number},published,day\n" for number in range(1, len(days) + 1))), "--short").out
            self.assertEqual(out.count("CAUTION"), len(words), days)
            for text in words:
                self.assertIn(text + ": is it mistyped? The desk's day never goes back", out)
        self.assertNotIn("CAUTION", self.said(day(1, "2062-01-15"), "no,28,KeyReused,1\n"))

    def test_an_airfield_under_two_ids(self) -> None:
        here, there = "airport,a,1,SJC,public,0,0,620\n", "airport,a,2,KSJC,public,10000,0,620\n"
        two = "ok,1,published,airport\nok,2,published,airport\n"
        self.assertIn("line 2: airport,a,2,KSJC,public,10000,0,620\n    entry 2: airport KSJC is registered\n"
                      "    CAUTION: KSJC stands where SJC does: is it one airport under two IDs? `drop` takes one out\n", self.said(here + there, two))
        self.assertNotIn("CAUTION", self.said(here + there.replace("10000", "10001"), two))
        self.assertNotIn("CAUTION", self.said(here + there.replace("KSJC", "SJC"), two))
        pads = "heliport,a,1,HHH,public,0,0,500,0,500,50\nheliport,a,2,PAD,public,0,500,500,500,500,50\n"
        self.assertIn("PAD stands where HHH does", self.said(pads, two.replace("airport", "heliport")))
        self.assertNotIn("CAUTION", self.said(pads.replace("500,500,500", "501,500,501"), two.replace("airport", "heliport")))
        self.assertNotIn("CAUTION", self.said(here + pads.splitlines()[1] + "\n", "ok,1,published,airport\nok,2,published,heliport\n"))

    def test_numbers_in_the_wrong_place(self) -> None:
        answered = "ok,1,published,airport\nok,2,published,runway\nfound,2,0\n"
        for site, words in (("0,0,2500,0,object,0,-,-", "its height is 0"), ("0,0,30,9000,object,0,-,-", "are ground and height exchanged"),
                            ("0,0,30,300,object,0,-,-", "were feet written for tenths"),
                            ("9000000,0,30,3000,object,0,-,-", "the nearest airfield, AAA, is 900,000 ft away"),
                            ("0,0,30,3000,object,0,D,-", "flag S, D or R")):
            self.assertIn(words, self.said(TWO + f"screen,{site}\n", answered), site)
        self.assertNotIn("CAUTION", self.said(TWO + "screen,50000,0,30,3000,object,0,-,-\n", answered))
