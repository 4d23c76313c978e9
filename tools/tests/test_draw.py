"""oe-draw: pictures are whole, their words stay on the sheet, and what is not there is refused."""
import re
import subprocess
import unittest
import xml.etree.ElementTree as Xml
from pathlib import Path

from office import lists, picture, plan
from office.lists import WIDE
from office.register import Airport, Runway, RunwayEnd
from office.replies import Entry, Found
from office.sheet import HIGH
from office.structures import Finding, Structure
from tests import stored
from tests.trial import PROGRAM, Trial

SVG = "{http://www.w3.org/2000/svg}"
NARROW = 0.85  # how wide letters are drawn, of the width that is reckoned with, at least
OPTIONS = plan.Options(None, "a test")


def runway(name: str, at: float = 0, use: str = "other", kinds: str = "P V") -> Runway:
    first, second = kinds.split()
    return Runway(name, use, "hard", (RunwayEnd((at - 3000, at), 100, first), RunwayEnd((at + 3000, at + 500), 110, second)))


def airport(*runways: Runway, category: str = "public") -> Airport:
    return Airport("AAA", category, (0, 0), 100, {one.name: one for one in runways})


def structure(number: int, x: float, y: float, finding: Finding = Finding.NONE, name: str = "") -> Structure:
    return Structure(number, name, (x, y), 10, 100, finding)


class Whole(unittest.TestCase):
    def check_sheets(self, sheets: list[picture.Svg]) -> list[str]:
        return self.check(picture.stacked(sheets), (sheets[0].width, sheets[0].height))

    def check(self, text: str, size: tuple[int, int] = (WIDE, HIGH)) -> list[str]:
        """That a text is an SVG whose words are on its sheet, by the places in each; the words are given back."""
        root = Xml.fromstring(text)
        self.assertEqual(root.tag, SVG + "svg")
        self.assertNotRegex(text, r"\b(nan|inf)\b")
        words = []
        for one in root.iter(SVG + "text"):
            x, y, long = float(one.get("x")), float(one.get("y")), picture.width_of(one.text or "", float(one.get("font-size"))) * NARROW
            left = x - {"start": 0, "middle": long / 2, "end": long}[one.get("text-anchor")]
            is_turned = "transform" in one.attrib
            self.assertTrue(0 <= y <= size[1] and (is_turned or -1 <= left and left + long <= size[0] + 1), one.text)
            words.append(one.text or "")
        return words


    def listed(self, text: str) -> list[int]:
        """The numbers of the rows of all tables, in order."""
        return [int(one.text) for one in Xml.fromstring(text).iter(SVG + "text")
                if (one.get("text-anchor"), one.get("font-weight"), one.get("font-size")) == ("end", "bold", "13")]


class Plans(Whole):
    def test_one_airport(self) -> None:
        words = self.check_sheets(plan.draw([airport(runway("09/27"))], [structure(1, 500, 500, Finding.OBSTRUCTION, 'A <b> & "c"')], 2, OPTIONS))
        self.assertTrue({"AAA", "09", "27", "horizontal 250.0 ft", "conical 20:1 to 450.0 ft", "2 refused"} <= set(words), words)
        self.assertTrue(any('A <b> & "c"' in word for word in words))

    def test_east_is_right_and_north_is_up(self) -> None:
        """Structures, the figures of the east axis and those of the north axis, which are turned, lie as on a map of one scale."""
        at = {"East": (15_000, 0), "North": (0, 15_000), "West": (-15_000, 0), "South": (0, -15_000)}
        frame = plan.frame_of([plan.Drawn(airport(runway("09/27")), None)], [structure(1, *place) for place in at.values()], OPTIONS)
        (east, middle), (_, north), (west, _), (_, south) = frame.all(list(at.values()))
        self.assertGreater(east - west, 200)
        self.assertAlmostEqual(south - north, east - west)
        self.assertAlmostEqual(middle, (north + south) / 2)
        some = [structure(n, *place, name=name) for n, (name, place) in enumerate(at.items(), 1)]
        drawn = Xml.fromstring(picture.stacked(plan.draw([airport(runway("09/27"))], some, 0, OPTIONS)))
        labels = {(one.text, "transform" in one.attrib): (float(one.get("x")), float(one.get("y"))) for one in drawn.iter(SVG + "text")}
        far = {name: labels[f"{n} {name}", False] for n, name in enumerate(at, 1)}
        self.assertLess(far["West"][0] + 200, far["East"][0])
        self.assertLess(far["North"][1] + 200, far["South"][1])
        low, high = picture.figure(-10_000, 0), picture.figure(10_000, 0)
        self.assertLess(labels[low, False][0] + 200, labels[high, False][0])
        self.assertLess(labels[high, True][1] + 200, labels[low, True][1])

    def test_nothing_over_it(self) -> None:
        for one in (airport(), airport(runway("09/27"), category="private"), airport(runway("09/27"), category="dod")):
            words = self.check_sheets(plan.draw([one], [], 0, OPTIONS))
            self.assertIn("AAA", words)
            self.assertNotIn("horizontal", words)

    def test_no_airfield(self) -> None:
        words = self.check_sheets(plan.draw([], [structure(1, 0, 0)], 0, OPTIONS))
        self.assertIn("Structures (no airfield is registered)", words)

    def test_sixteen_runways_and_many_structures(self) -> None:
        many = [structure(n, (n * 977) % 30000 - 15000, (n * 7919) % 30000 - 15000, list(Finding)[n % 4], f"Structure number {n}") for n in range(120)]
        words = self.check_sheets(plan.draw([airport(*(runway(f"R{n}", n * 500) for n in range(16)))], many, 0, plan.Options("t" * 60, "x", whole=True, notice=True, circles=True)))
        self.assertIn("sheet 3 of 3", words)

    def test_no_structure_is_left_out(self) -> None:
        """As many as fit stand beside the map, and further sheets have the others, in order, each once."""
        field = airport(runway("09/27"))
        for count, sheets in ((1, 1), (13, 1), (14, 2), (69, 2), (70, 3), (200, 5)):
            drawn = plan.draw([field], [structure(n, n * 50, n * 70) for n in range(1, count + 1)], 2, OPTIONS)
            self.assertEqual(len(drawn), sheets, count)
            text = picture.stacked(drawn)
            self.assertEqual(self.listed(text), list(range(1, count + 1)))
            self.assertEqual(int(Xml.fromstring(text).get("height")), sheets * HIGH)
            words = self.check(text)
            self.assertEqual(words.count(f"sheet {sheets} of {sheets}"), int(sheets > 1))
            self.assertEqual(any("on the next sheet" in word for word in words), sheets > 1)

    def test_every_finding_is_listed(self) -> None:
        """Each on a line of its own, in order, standards first; what has no room continues in the next column, and on the next sheet."""
        def entries(count: int) -> tuple[Entry, ...]:
            return tuple(Entry.read(f"19e AAA 09/27.{n % 3} {n}") for n in range(1, count + 1)) + (Entry.read("9a - - 7"), Entry.read("9d AAA - 0"))
        some = [structure(1, 0, 0), structure(2, 500, 500), structure(3, 900, 0, name="Last")]
        some[1].judge(2, (Entry.read("9a - - 7"), *entries(200)[:-2]))
        some[2].judge(2, entries(3))
        drawn = plan.draw([airport(runway("09/27"))], some, 0, plan.Options(None, "a test", every=True))
        self.assertEqual(len(drawn), 4)
        words = self.check_sheets(drawn)
        self.assertEqual([word for word in words if re.fullmatch("by [0-9.]+ ft", word)], [f"by {n / 10} ft" for n in range(1, 201)] + ["by 0.7 ft", "by 0.1 ft", "by 0.2 ft", "by 0.3 ft", "by 0.7 ft"])
        surfaces = [word for word in words if word.startswith(("transitional ", "200 ft above", "on "))]
        self.assertEqual(surfaces[-5:], ["transitional AAA 09, beside approach", "transitional AAA 27, beside approach",
                                         "transitional AAA 09/27, beside primary", "200 ft above the ground", "on AAA"])
        self.assertEqual(words.count("line 2 (continued)"), 4)
        self.assertIn("every finding: on the next sheets", words)
        self.assertIn("no rule that the desk knows is met", words)

    def test_words_for_ends(self) -> None:
        """A runway end is named by its own designator, an approach of a heliport by the number that stands at it."""
        for text, words in (("19d AAA 09/27.2 10", "approach 27 +1.0 ft"), ("19e AAA 09/27.0 10", "transitional 09/27 +1.0 ft"), ("19e AAA 09/27.1 0", "transitional 09 by less than 0.1 ft"),
                            ("19d AAA 18.1 10", "approach 18 end 1 +1.0 ft"), ("23a HHH 2 10", "approach 2 +1.0 ft"), ("23t HHH 0 10", "transitional HHH +1.0 ft"),
                            ("23t HHH 1 10", "transitional beside approach 1 +1.0 ft"), ("9d AAA - 0", "on AAA"), ("17a1 - - 5", "499 ft above the ground +0.5 ft")):
            one = structure(1, 0, 0)
            one.judge(2, (Entry.read(text),))
            self.assertEqual("".join(lists.summary(one, 1)), words)
        one.judge(2, (Entry.read("19d AAA 09/27.2 10"), Entry.read("9a - - 7")))
        self.assertEqual(lists.summary(one, 2), ("approach AAA 27", " +1.0 ft, 1 more"))

    def test_a_long_name_does_not_hide_how_far(self) -> None:
        one = structure(1, 90_000_000, 0)
        one.judge(2, (Entry.read("19e AAAAAAAA 09L/27RR.0 123456"), Entry.read("9a - - 7")))
        words = self.check_sheets(plan.draw([airport(runway("09/27")), airport(runway("09/27"))], [one], 0, OPTIONS))
        self.assertTrue(any(word.startswith("tr") and word.endswith("\u2026 +12,345.6 ft, 1 more (off the map)") for word in words), words)

    def test_what_is_outside_of_the_map_is_listed(self) -> None:
        far = [structure(n, 9_000_000, n) for n in range(20)]
        text = picture.stacked(plan.draw([airport(runway("09/27"))], far, 0, OPTIONS))
        self.assertEqual(self.listed(text), list(range(1, 21)))
        self.assertEqual(sum("(off the map)" in word for word in self.check(text)), 20)

    def test_airfields_that_changed(self) -> None:
        """A structure that was asked before is marked, on the sheet where it stands."""
        some = [structure(n, n * 50, 0) for n in range(30)]
        some[25].changes = 3
        drawn = plan.draw([airport(runway("09/27"))], some, 0, plan.Options(None, "a test", last_change=4))
        self.assertEqual(["* asked before" in "".join(sheet.out) for sheet in drawn], [True, True])
        self.assertIn("no rule met *", self.check_sheets(drawn))

    def test_structures_at_one_point(self) -> None:
        words = self.check_sheets(plan.draw([airport(runway("09/27"))], [structure(n, 9000, 9000) for n in range(8)], 0, OPTIONS))
        self.assertIn("1, 2, 3, 4, 5 and 3 more", words)

    def test_reaches(self) -> None:
        words = self.check_sheets(plan.draw([airport(runway("09/27"))], [], 0, plan.Options(None, "x", notice=True, circles=True)))
        self.assertTrue({"AAA: notice slope 100:1 ends here", "AAA: 3 NM, 200 ft", "AAA: 5.99 NM, 499 ft"} <= set(words), words)

    def test_all_stored_sessions(self) -> None:
        from office.faults import Fault
        from office.register import register_after
        from office.structures import structures
        drawn = 0
        for session in list(stored.known())[::4]:
            airfields = register_after(session.pairs()).airfields
            found, refused = structures(session.pairs(), {})
            try:
                self.check_sheets(plan.draw([airfields[name] for name in sorted(airfields)], found, refused, OPTIONS))
                drawn += 1
            except Fault as fault:
                self.assertEqual((airfields, found), ({}, []), fault)
        self.assertGreater(drawn, 10)


class Tool(Trial, Whole):
    def setUp(self) -> None:
        super().setUp()
        session = stored.sessions()["surfaces of a runway"]
        self.files = self.write("in", session.content), self.write("out", "\n".join(session.replies) + "\n")

    def test_plan_and_profile(self) -> None:
        self.check(self.good("oe-draw", *self.files).out)
        words = self.check(self.good("oe-draw", *self.files, "--profile", "AAA:09/27", "--notice", "--whole").out, (1200, 700))
        self.assertTrue({"AAA runway 09/27 from the side", "horizontal 250.0 ft", "notice 100:1", "approach 09 50:1"} <= set(words), words)
        self.good("oe-draw", *self.files, "-o", "picture.svg", "--only", "AAA", "--circles", "--title", "A <title>")
        self.assertIn("A <title>", self.check((self.folder / "picture.svg").read_text()))

    def test_a_profile_by_a_runway_end(self) -> None:
        for chosen in ("09", "27", "27/09"):
            self.assertIn("AAA runway 09/27 from the side", self.check(self.good("oe-draw", *self.files, "--profile", f"AAA:{chosen}").out, (1200, 700)))

    def test_every_finding(self) -> None:
        """As many lines as the replies have entries; beside a runway, those of the structures that are shown."""
        entries = [entry for pair in stored.sessions()["surfaces of a runway"].pairs() if isinstance(pair.reply, Found) for entry in pair.reply.entries]
        words = self.check(self.good("oe-draw", *self.files, "--all").out)
        self.assertEqual(sum(word.startswith("77.") for word in words), len(entries))
        self.assertEqual(words.count("approach AAA 09"), 1)
        words = self.check(self.good("oe-draw", *self.files, "--all", "--profile", "AAA:27", "--within", "100", "--whole", "--sheet", "2").out, (1200, 700))
        self.assertTrue({"Every finding of each structure: No. 1 to 3", "77.19(d)", "approach AAA 09"} <= set(words), words)

    def test_heliports(self) -> None:
        pad = self.write("pad", "heliport,a,1,HHH,public,0,0,1000,0,500,0\nscreen,1000,3000,0,1000,object,0,-,-\nscreen,1000,6000,0,1000,object,0,-,-\n")
        replies = self.write("pad.out", "ok,1,published,heliport\nfound,1,0\nfound,1,0\n")
        self.check(self.good("oe-draw", pad, replies, "--notice").out)
        words = self.check(self.good("oe-draw", pad, replies, "--profile", "HHH").out, (1200, 700))
        edge = "transitional 2:1, its edge 250 ft from the axis"
        self.assertTrue({"HHH heliport from the side", "H", "approach 1 8:1", "approach 2 8:1", edge, "1 line 2", "300 ft left"} <= set(words), words)
        self.assertTrue(any("Shown: 1 of 2 structures, at most 500 ft beside it." in word for word in words), words)
        words = self.check(self.good("oe-draw", pad, replies, "--profile", "HHH", "--within", "600", "--notice").out, (1200, 700))
        self.assertTrue({"notice 25:1", "2 line 3", "600 ft left"} <= set(words), words)

    def test_sheets(self) -> None:
        many = self.write("many", "".join(f"screen,{n},0,0,100,object,0,-,-\n" for n in range(99)))
        replies = self.write("many.out", "found,0,0\n" * 99)
        ended = self.good("oe-draw", many, replies)
        self.assertEqual(ended.err, "oe-draw: 3 sheets, one below the other; --sheet N writes one alone\n")
        parts = [self.listed(self.good("oe-draw", many, replies, "--sheet", str(number)).out) for number in (1, 2, 3)]
        self.assertEqual(sum(parts, []), self.listed(ended.out))
        self.assertEqual(sum(parts, []), list(range(1, 100)))

    def test_a_profile_without_room_for_all_names(self) -> None:
        records, told = (path.read_text() for path in map(Path, self.files))
        here = self.write("in2", records + "".join(f"screen,{n * 10},0,1000,100,object,0,-,-\n" for n in range(60)))
        replies = self.write("out2", told + "found,2,0\n" * 60)
        text = self.good("oe-draw", here, replies, "--profile", "AAA:09/27").out
        words = self.check(text, (1200, 700))
        last = len(records.splitlines()) - 2 + 60
        named = {int(word.split()[0]) for word in words if re.fullmatch(r"[0-9]+ line [0-9]+", word)}
        self.assertEqual(sorted(named | set(self.listed(text)))[-60:], list(range(last - 59, last + 1)))
        self.assertFalse(named & set(self.listed(text)))

    def test_findings_are_the_desks(self) -> None:
        """Symbols follow the replies: where these are others, so is the picture."""
        before = self.good("oe-draw", *self.files).out
        replies = re.sub(r"^found,2,.*$", "found,2,0", (self.folder / "out").read_text(), flags=re.M)
        after = self.good("oe-draw", self.files[0], self.write("other", replies)).out
        red = picture.MARKS[Finding.OBSTRUCTION].symbol
        self.assertGreater(before.count(red), after.count(red))

    def test_faults(self) -> None:
        self.fault("no airfield BBB is registered", "oe-draw", *self.files, "--only", "BBB")
        self.fault("no airfield BBB", "oe-draw", *self.files, "--profile", "BBB:09/27")
        self.fault("AAA has no runway 18/36", "oe-draw", *self.files, "--profile", "AAA:18/36")
        self.fault("none was named", "oe-draw", *self.files, "--profile", "AAA")
        self.fault("No such file", "oe-draw", *self.files, "-o", "nowhere/picture.svg")
        self.fault("name RECORDS", "oe-draw")
        self.fault("--cases wants --over", "oe-draw", *self.files, "--cases")
        self.fault("nothing to draw", "oe-draw", self.write("none", "review\n"), self.write("none.out", "review,0\n"))
        self.fault("there is no record in it", "oe-draw", self.write("none", "\n"), self.write("none.out", ""))
        self.fault("the desk refuses each of its records; oe-say says why", "oe-draw", self.write("none", "screen,0\nbuilding,1\n"), self.write("none.out", "no,13,Malformed,3\nno,13,Malformed,1\n"))
        self.fault("a table of points: oe-from-points makes records of it", "oe-draw", self.write("none", "what,id\n"))
        pad = self.write("pad", "heliport,a,1,HHH,public,0,0,1000,0,500,0\n"), self.write("pad.out", "ok,1,published,heliport\n")
        self.fault("HHH is a heliport and has no runway", "oe-draw", *pad, "--profile", "HHH:1")
        self.fault("there is no sheet 2: the picture has 1 sheet", "oe-draw", *pad, "--sheet", "2")
        bare = self.write("bare", "heliport,a,1,HHH,private,0,0,1000,0,500,0\n"), pad[1]
        self.fault("the surfaces of 77.23 do not stand over it", "oe-draw", *bare, "--profile", "HHH")
        private = self.write("private", stored.sessions()["surfaces of a runway"].content.replace(b"public", b"private"))
        self.fault("do not stand over it", "oe-draw", private, self.files[1], "--profile", "AAA:09/27")


@unittest.skipUnless(PROGRAM, "no program is named")
class Office(Trial, Whole):
    """An office's file, which is only read."""
    RECORDS = """airport,a,1,AAA,public,0,0,1000
runway,a,2,AAA,09/27,other,hard,-50000,0,1000,P,50000,0,1000,NA
heliport,a,3,HHH,public,60000,90000,61000,90000,600,900
day,a,4,2026-01-15
file,a,5,2026-03-01,-,-,normal,-,20000,20000,1000,2001,object,0,-,-
file,a,6,2026-03-01,-,-,normal,-,20000,0,1000,20,object,0,-,-
abandon,a,7,2
"""

    def setUp(self) -> None:
        super().setUp()
        self.office = str(self.folder / "office.db")
        done = subprocess.run([PROGRAM, "desk", "--db", self.office], input=self.RECORDS.encode(), capture_output=True)
        self.assertEqual(done.stdout.decode().count("ok,"), 7, done)

    def bytes_of_office(self) -> list[bytes]:
        return [path.read_bytes() for path in sorted(self.folder.glob("office.db*")) if not path.name.endswith("-shm")]

    def test_over_an_office(self) -> None:
        before = self.bytes_of_office()
        given = b"screen,0,0,1000,2001,object,0,-,AAA\nscreen,0,0,1000,1,object,0,-,AAB\n"
        out = self.good("oe-say", "-", "--over", self.office, given=given, desk=PROGRAM).out
        self.assertIn("horizontal surface of AAA", out)
        self.assertIn("no airfield AAB is registered", out)
        words = self.check(self.good("oe-draw", "--over", self.office, "--cases", desk=PROGRAM).out)
        self.assertIn("1 case 1", words)
        self.assertFalse(any("case 2" in word for word in words))
        self.assertEqual(self.bytes_of_office(), before)

    def test_what_is_no_file_of_records(self) -> None:
        """The points in place of their records, and the office's file in place of both, would be a picture without structures."""
        points = self.write("towers.csv", "what,id,name,lat,lon,elev_ft\nstructure,,Tower,1,2,3\n")
        self.fault("a table of points: oe-from-points makes records of it", "oe-draw", points, "--over", self.office, desk=PROGRAM)
        self.fault("is a database and no file of records: name an office's file with --over", "oe-draw", self.office, desk=PROGRAM)
        self.fault("there is no record in it", "oe-draw", self.write("none", ""), "--over", self.office, desk=PROGRAM)

    def test_the_day_of_an_office(self) -> None:
        """Its day is 2026-01-15, as is the machine's in tests."""
        out = self.good("oe-say", "-", "--over", self.office, given=b"day,a,8,2026-02-16\n", desk=PROGRAM).out
        for words in ("this day is 32 days after 2026-01-15, this machine's day", "this day is 32 days after 2026-01-15, the office's day"):
            self.assertIn(words, out)
        self.assertNotIn("is it mistyped", self.good("oe-say", "-", "--over", self.office, given=b"day,a,8,2026-02-15\n", desk=PROGRAM).out)

    def test_an_office_that_is_open(self) -> None:
        """What a desk has acknowledged is there while it has the file."""
        with subprocess.Popen([PROGRAM, "desk", "--db", self.office], stdin=subprocess.PIPE, stdout=subprocess.PIPE) as open_desk:
            open_desk.stdin.write(b"airport,a,9,NEW,public,100,0,1000\n")
            open_desk.stdin.flush()
            self.assertIn(b"ok,8", open_desk.stdout.readline())
            out = self.good("oe-say", "-", "--over", self.office, given=b"airfield,NEW\n", desk=PROGRAM).out
            self.assertIn("airport, public, reference point 10.0 ft east 0.0 ft north", out)
            self.assertIn("NEW", self.check(self.good("oe-draw", "--over", self.office, "--cases", desk=PROGRAM).out))
            self.assertIn("ground 100.0 ft", self.good("oe-high", "--over", self.office, "--at", "100,0", "--ground", "100", desk=PROGRAM).out)
            open_desk.stdin.close()

    def test_an_office_without_its_log(self) -> None:
        """office.db copied without office.db-wal, while a desk has both, is an empty database."""
        with subprocess.Popen([PROGRAM, "desk", "--db", self.folder / "new.db"], stdin=subprocess.PIPE, stdout=subprocess.PIPE) as open_desk:
            open_desk.stdin.write(self.RECORDS.encode())
            open_desk.stdin.flush()
            for _ in self.RECORDS.splitlines():
                self.assertTrue(open_desk.stdout.readline())
            copy = self.write("copy.db", (self.folder / "new.db").read_bytes())
            open_desk.stdin.close()
        self.fault("copy.db-wal left behind", "oe-say", "-", "--over", copy, given=b"review\n", desk=PROGRAM)

    def test_what_memory_cannot_know(self) -> None:
        out = self.good("oe-say", "-", "--over", self.office, given=b"case,1\n", desk=PROGRAM).out
        self.assertIn("not its day, cases and keys: it answers case otherwise", out)
