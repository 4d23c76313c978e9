"""oe-letter: what a letter says beside the desk's own replies, that it is refused where nothing was decided, and its pictures beside those of oe-draw."""
import importlib.util
import io
import shutil
import subprocess
import unittest
import xml.etree.ElementTree as Xml
from pathlib import Path
from typing import TYPE_CHECKING

from tests import stored, test_serve
from tests.trial import PROGRAM, Trial

if TYPE_CHECKING:
    from PIL import Image

CASES = (stored.TOP / "docs" / "case.csv").read_text().splitlines(keepends=True)
DETERMINED, PETITIONED, AFFIRMED, IN_FORCE, MARKED = 9, 12, 15, 17, 19  # so many lines of docs/case.csv have been read
HAS_PAPER = importlib.util.find_spec("reportlab") and Path("/usr/share/fonts/truetype/liberation").exists()
NO_DETERMINATION = "This is no determination of the Federal Aviation Administration (FAA)."
LISTED = ("77.17(a)(2) the height near EXM by 50.0 ft", "77.19(a) horizontal surface of EXM by 100.0 ft", "77.9(a) 200 ft above the ground by 50.0 ft",
          "77.9(b)(1) 100 to 1 slope from EXM runway 09/27 by 186.7 ft")
WHO = "It may come from the sponsor, from whoever gave a substantive aeronautical comment"
SHOWN = 37, 4  # of 255: how far a picture may be from rsvg's anywhere, blurred over 13 pixels, and in the mean


def flat(text: str) -> str:
    """The words of a text on one line."""
    return " ".join(text.split())


@unittest.skipUnless(HAS_PAPER, "reportlab or fonts-liberation is missing")
class Letter(Trial):
    serve, link = test_serve.Served.serve, test_serve.Served.link

    def told(self, records: str, file: str = "office.db") -> list[str]:
        done = subprocess.run([str(PROGRAM), "desk", "--db", file], cwd=self.folder, input=records.encode(), stdout=subprocess.PIPE, check=True)
        return done.stdout.decode().splitlines()

    def until(self, count: int) -> None:
        self.told("".join(CASES[:count]))

    def letter(self, case: str, *words: str, file: str = "office.db") -> str:
        """The words of a letter as pdftotext reads them."""
        self.assertEqual(self.good("oe-letter", file, case, "-o", "letter.pdf", *words, desk=PROGRAM).out, "")
        done = subprocess.run(["pdftotext", "-layout", "letter.pdf", "-"], cwd=self.folder, capture_output=True, check=True)
        return flat(done.stdout.decode())

    def assert_says(self, text: str, *some: str) -> None:
        for words in some:
            self.assertIn(words, text)


@unittest.skipUnless(PROGRAM and shutil.which("pdftotext"), "no program is named, or pdftotext is missing")
class Words(Letter):
    """Days and findings are those of the replies that docs/OFFICE.md shows."""
    def test_on_the_day_of_the_determination(self) -> None:
        self.until(DETERMINED)
        head = self.write("head.txt", "Office of Łódź & Sons\nDesk of <airspace>\n")
        to = self.write("to.txt", "Mast Company\nMain Street\n")
        text = self.letter("1", "--head", head, "--to", to)
        self.assertTrue(text.startswith("Office of Łódź & Sons Desk of <airspace> January 15, 2026 Mast Company Main Street Study 2026-AEA-1234-OE: evaluation under 14 CFR Part 77 "
                                        + NO_DETERMINATION), text)
        self.assert_says(text, *LISTED, "Case 1 of this office's desk", "Structure antenna structure", "Place 7,000.0 ft east, 6,000.0 ft north on the office's grid",
                         "Heights 250.0 ft above the ground, which is 100.0 ft above mean sea level; top 350.0 ft above mean sea level",
                         "Notice received January 15, 2026, in time (77.7(b)); work to start March 1, 2026",
                         "Decision: no hazard Issued January 15, 2026 on the notice, over the airfields as they were registered after entry 5 of the desk.",
                         "Petitions until February 17, 2026 Effective February 24, 2026 Expires August 24, 2027 (77.33) Last day for an extension August 9, 2027, to ask for it (77.35)",
                         "On January 15, 2026 not yet effective",
                         f"A petition for discretionary review has to be received by February 17, 2026 (77.39(a), (c)). {WHO}", "had no opportunity to state it (77.37(a)).",
                         "Study 2026-AEA-1234-OE: over the airfields after entry 5", "EXM runway 09/27 from the side",
                         "Study 2026-AEA-1234-OE, case 1 · not a determination of the FAA page 1 of 3", "page 3 of 3")
        self.assertNotIn("One is pending", text)
        self.assertNotIn("Review", text)

    def test_as_time_goes_on(self) -> None:
        for count, some in ((PETITIONED, ("Effective no day is set", "On February 17, 2026 not yet effective: a petition is pending", "has to be received by February 17, 2026", "One is pending, so no day is set")),
                            (AFFIRMED, ("Effective February 24, 2026", "On February 20, 2026 not yet effective", "had to be received by February 17, 2026 (77.39(a), (c)). That day has passed.")),
                            (IN_FORCE, ("Expires August 24, 2027", "On February 24, 2026 in force")),
                            (MARKED, ("Review Marked for review: the airfields have changed since, and on February 24, 2026 the desk's list for this structure is another one",
                                      "(Form 7460-1), as of February 24, 2026 77.9(a) 200 ft above the ground by 50.0 ft 77.9(b)(1) 100 to 1 slope from EXM runway 09/27 by 189.1 ft",
                                      "over the airfields after entry 5")),
                            (len(CASES), ("Expires February 24, 2029", "On April 7, 2029 expired"))):
            with self.subTest(count):
                self.until(count)
                text = self.letter("1")
                self.assert_says(text, *LISTED, *some)
                self.assertEqual("Marked for review" in text, count == MARKED)

    def test_a_case_that_ended_before_its_deadline(self) -> None:
        self.until(DETERMINED)
        self.told("abandon,o,a,1\n")
        self.assert_says(self.letter("1"), "the structure was given up", "had to be received by February 17, 2026 (77.39(a), (c)). The case is abandoned, so none is taken now.")
        self.assertNotIn("That day has passed", self.letter("1"))

    def test_other_cases(self) -> None:
        self.until(len(CASES))
        self.assert_says(self.letter("3"), "Decision: hazard", "in effect; a determination of hazard does not expire (77.33(c))", "slope from EXM runway 09/27 by 189.1 ft")
        self.assertNotIn("Expires", self.letter("3"))
        self.assert_says(self.letter("2"), "late by 11 days (77.7(b))", "the structure was given up")
        self.assert_says(self.letter("4"), "counted from the application to the FCC in time (77.7(c))", "Expires June 30, 2032")
        self.assert_says(self.letter("5"), "Petitions until none are taken Effective February 26, 2029", "Obstruction standards that it exceeds none of those that the desk knows",
                         "No petition against it is taken (77.37(b)): it finds no hazard, and no obstruction standard is exceeded.", "No profile is shown: the structure stands beyond", "page 2 of 2")

    def test_facts_that_change_what_may_be_said(self) -> None:
        """A temporary structure, an exempt one, a revision, a presumption, an emergency, a structure on an airfield, and one without an airfield near it."""
        site = "70000,60000,1000"
        self.told("".join(CASES[:4]) + f"file,o,1,2026-03-01,-,-,normal,-,{site},2500,antenna,0,T,-\ndetermine,o,2,1,none\n"
                  f"file,o,3,2026-03-01,-,-,normal,-,{site},2500,antenna,0,S,-\ndetermine,o,4,2,none\n"
                  f"file,o,5,2026-03-01,-,-,normal,-,{site},1000,object,0,-,EXM\ndetermine,o,6,3,-\nrevise,o,7,3,unstarted,1000,1100,-\n"
                  "file,o,8,2026-03-01,-,-,emergency,-,9000000,0,0,20001,water,0,-,-\ndetermine,o,9,4,substantial\n")
        self.assert_says(self.letter("1"), "Facts temporary", "it finds no hazard, and the structure is temporary.")
        self.assert_says(self.letter("2"), "Facts shielded by others (77.9(e)(1))", "not asked the facts above exempt it from notice (77.9(e))")
        self.assert_says(self.letter("3"), "Heights 110.0 ft above the ground", "as a revision, on the new facts above (77.35(a))", "On the airfield EXM", "77.9(d) it is on the airfield EXM")
        text = self.letter("4")
        self.assert_says(text, "Structure waterway or other way", "as an emergency (77.7(e)), whose completed form was due January 20, 2026 and has not come", "77.17(a)(1) 499 ft above the ground",
                         "Presumption more than 2,000 ft, unexplained: presumed a hazard (77.7(d))", "No surfaces of 77.19 or 77.23 here", "page 2 of 2")

    def test_by_study_and_names(self) -> None:
        self.until(DETERMINED)
        names = self.write("names.csv", "70000,60000,1000,2500,Mill's mast\n")
        by_number = self.letter("1", "--names", names)
        self.assert_says(by_number, "Structure Mill's mast, antenna structure", "1 Mill's mast")
        for study in ("2026-AEA-1234-OE", "2026.AEA.1234.OE"):
            self.assertEqual(self.letter(study, "--names", names), by_number)

    @unittest.skipUnless(importlib.util.find_spec("pyproj"), "pyproj is missing")
    def test_latitude_and_longitude(self) -> None:
        """Those of the tower as they were typed in docs/OFFICE.md, to a few hundredths of a second."""
        self.told("day,o,1,2026-01-15\nfile,o,2,2026-03-01,-,-,normal,-,428917,477779,40,2500,antenna,0,-,-\ndetermine,o,3,1,-\n")
        text = self.letter("1", "--grid", self.write("office.grid", "crs=2236\norigin=600000,100000\ndatum=EPSG:4269\n"))
        self.assertRegex(text, r"Place 24-44-(24\.00|23\.99|24\.01)N 081-02-(24\.00|23\.99|24\.01)W \(NAD83\); 42,891\.7 ft east, 47,777\.9 ft north")

    def test_while_it_is_served(self) -> None:
        self.until(DETERMINED)
        served, port = self.serve(1, "--db", "office.db")
        with self.link(served, port) as link:
            self.assertEqual(link.reply("day,o,late,2026-02-18"), "ok,7,published,day")
            self.assert_says(self.letter("1"), "On February 18, 2026 not yet effective", "That day has passed.")
        served.communicate()

    def test_the_same_bytes(self) -> None:
        self.until(DETERMINED)
        self.letter("1")
        first = (self.folder / "letter.pdf").read_bytes()
        self.letter("1")
        self.assertEqual((self.folder / "letter.pdf").read_bytes(), first)


@unittest.skipUnless(PROGRAM, "no program is named")
class Refused(Letter):
    def test_a_case_without_a_determination(self) -> None:
        self.until(len(CASES))
        self.fault("case 6 (study 2029-AEA-1239-OE) is awaiting: it has no determination", "oe-letter", "office.db", "6", "-o", "no.pdf", desk=PROGRAM)
        self.fault("is awaiting: it has no determination", "oe-letter", "office.db", "2029-AEA-1239-OE", "-o", "no.pdf", desk=PROGRAM)
        self.told("abandon,o,a,6\n")
        self.fault("case 6 (study 2029-AEA-1239-OE) is abandoned: it has no determination", "oe-letter", "office.db", "6", "-o", "no.pdf", desk=PROGRAM)
        self.fault("there is no case 7", "oe-letter", "office.db", "7", "-o", "no.pdf", desk=PROGRAM)
        self.fault("no case has the study 2029-AEA-1-OE", "oe-letter", "office.db", "2029-AEA-1-OE", "-o", "no.pdf", desk=PROGRAM)
        self.assertFalse((self.folder / "no.pdf").exists())

    def test_a_library_that_is_missing(self) -> None:
        self.assert_wants("reportlab", "python3-reportlab", "oe-letter", "office.db", "1", "-o", "letter.pdf")

    def test_files_and_letters(self) -> None:
        self.until(DETERMINED)

        def refused(wanted: str, *words: str) -> None:
            self.fault(wanted, "oe-letter", "office.db", "1", *words, desk=PROGRAM)
        refused("No such file", "-o", "nowhere/letter.pdf")
        refused("No such file", "-o", "letter.pdf", "--head", "none.txt")
        refused("office.db: its name does not end in .pdf", "-o", "office.db")
        refused("is neither a text in UTF-8 nor a picture", "-o", "letter.pdf", "--head", self.write("head", b"\xff\xfe\x00"))
        refused("the font of the letter has no '北' (U+5317)", "-o", "letter.pdf", "--to", self.write("to", "北京\n"))
        refused("no picture that can be read", "-o", "letter.pdf", "--head", self.write("head.png", b"\x89PNG\r\n\x1a\nnothing"))


@unittest.skipUnless(HAS_PAPER, "reportlab or fonts-liberation is missing")
class Pictures(Trial):
    """A picture on paper beside the same one as rsvg draws it."""
    def on_paper(self, root: Xml.Element) -> "Image.Image":
        from office import paper
        from PIL import Image
        from reportlab.pdfgen.canvas import Canvas
        paper.load_fonts()
        wide, high = int(root.get("width")), int(root.get("height"))
        canvas = Canvas(str(self.folder / "picture.pdf"), pagesize=(wide, high))
        canvas.translate(0, high)
        canvas.scale(1, -1)
        paper.Painter(canvas).draw(root)
        canvas.save()
        subprocess.run(["pdftoppm", "-png", "-singlefile", "-r", "72", "picture.pdf", "picture"], cwd=self.folder, check=True)
        return Image.open(self.folder / "picture.png").convert("RGB")

    def differences(self, drawn: "Image.Image", wanted: "Image.Image") -> tuple[float, float]:
        """The greatest of the two pictures blurred, and the mean."""
        from PIL import ImageChops, ImageFilter, ImageStat
        blur = ImageFilter.BoxBlur(6)
        greatest = max(high for _, high in ImageChops.difference(drawn.filter(blur), wanted.filter(blur)).getextrema())
        return greatest, max(ImageStat.Stat(ImageChops.difference(drawn, wanted)).mean)

    @unittest.skipUnless(shutil.which("rsvg-convert") and shutil.which("pdftoppm"), "rsvg-convert or pdftoppm is missing")
    def test_pictures_of_the_documents(self) -> None:
        from PIL import Image
        for name in ("plan", "profile", "heliport", "tower"):
            path = stored.TOP / "docs" / f"{name}.svg"
            done = subprocess.run(["rsvg-convert", str(path)], capture_output=True, check=True)
            wanted, root = Image.open(io.BytesIO(done.stdout)).convert("RGB"), Xml.parse(path).getroot()
            with self.subTest(name):
                greatest, mean = self.differences(self.on_paper(root), wanted)
                self.assertTrue(greatest < SHOWN[0] and mean < SHOWN[1], (greatest, mean))
            for element in ("text", "path", "polygon", "polyline") if name == "plan" else ():  # a picture without these is found out
                parents = [(parent, part) for parent in root.iter() for part in parent if part.tag.endswith("}" + element) and not parent.tag.endswith("clipPath")]
                for parent, part in parents:
                    parent.remove(part)
                if parents:
                    self.assertGreater(self.differences(self.on_paper(root), wanted)[0], SHOWN[0], (name, element))
                    root = Xml.parse(path).getroot()

    def test_what_it_cannot_draw(self) -> None:
        from office.faults import Fault
        svg = '<svg xmlns="http://www.w3.org/2000/svg" width="9" height="9">{}</svg>'
        for part, wanted in (('<ellipse cx="1"/>', "<ellipse>"), ('<path d="M0,0L1,1"/>', "the step L"), ('<g transform="scale(2)"/>', "transform scale"), ('<text x="0" y="0" font-size="9">北</text>', "U[+]5317")):
            with self.assertRaisesRegex(Fault, wanted):
                self.on_paper(Xml.fromstring(svg.format(part)))
