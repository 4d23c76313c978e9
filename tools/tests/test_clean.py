"""oe-clean: what a spreadsheet makes of records."""
import csv

from office import forms
from tests import stored
from tests.trial import Trial


class Clean(Trial):
    def test_what_is_taken_off(self) -> None:
        sheet = ("\ufeff# airports,,,,,,,,\r\nairport,office,1,AAA,public, 0 ,0,1000,,,\r\n,,,,\r\n\r\n"
                 '"runway",office,2,AAA,09/27,other,hard,-50000,0,1000,P,50000,0,1000,NA,,\r\nreview,,,\r\n')
        ended = self.good("oe-clean", self.write("sheet.csv", sheet))
        self.assertEqual(ended.out, "\nairport,office,1,AAA,public,0,0,1000\n\n\nrunway,office,2,AAA,09/27,other,hard,-50000,0,1000,P,50000,0,1000,NA\nreview\n")

    def test_records_stay_as_they_are(self) -> None:
        """Records that the desk takes go through, out of every stored session; a session with a bad one does not."""
        passed = 0
        for session in stored.known()[::12]:
            pairs = session.pairs()
            whole = all(forms.first_bad_field(pair.record.fields or [""]) is None for pair in pairs)
            once = len({tuple(pair.record.fields[1:3]) for pair in pairs if "KEY" in pair.record.values})
            keys = len([pair for pair in pairs if "KEY" in pair.record.values])
            if whole and once == keys:
                ended = self.good("oe-clean", self.write("sheet.csv", session.content))
                self.assertEqual(ended.out.encode(), session.content, session.title)
                passed += 1
        self.assertGreater(passed, 3)

    def test_what_is_refused(self) -> None:
        for row, words in (
                ("day,office,1,1/15/2026", 'line 2: field 4, DATE: "1/15/2026" (a spreadsheet\'s date'),
                ("day,office,1,01.02.2026", "line 2: field 4, DATE"), ("day,office,1,2026-02-30", "line 2: field 4, DATE"),
                ("file,a,1,2026-03-01,3/1/2026,-,normal,-,0,0,0,2500,object,0,-,-", 'line 2: field 5, PERMIT: "3/1/2026"'),
                ("droprunway,a,1,AAA,22-Apr", 'line 2: field 5, NAME: "22-Apr"'), ("droprunway,a,1,AAA,4/22/26", 'the runway "4/22/26" was made a date'),
                ('screen,"1,000",0,0,1,object,0,-,-', "commas between thousands"), ("screen,37.4750,0,0,1,object,0,-,-", "degrees: oe-from-points makes"), ("screen,0,0,0,1,tower,0,-,-", "write antenna for"),
                ("screen,\u2013150000,0,0,1,object,0,-,-", "a dash that is no hyphen"), ("\u201cscreen\u201d,0", "write screen, without curly quotes"), ("screen,1.5,0,0,1,object,0,-,-", "a point"),
                ("screen,1E+06,0,0,1,object,0,-,-", "large number"), ("Screen,0,0,0,1,object,0,-,-", '"Screen": write screen'),
                ("screen,0,0,0,1,Object,0,-,-", 'field 6, KIND: "Object" (capital'), ("screen,0,0,0,1,object,0,-", "field 9, ON: nothing (it is wanting)"),
                ("screen,0,0,0,1,object,0,-,-,x", "screen has 9 fields, and the row has 10"), ("review\nscreen,0,0,0,1,object,0,-,-\nday;a;1;2026-01-15", 'line 4: "day;a;1;2026-01-15": its cells are not parted as those of the first record'),
                ('screen,0,0,0,"200,1",object,0,-,-', "a comma: write tenths of a foot without one, so 200.1 ft are 2001"), ("screen,0,0,0,200 ft,object,0,-,-", "a unit: write"),
                ("screen,0,0,0,61m,object,0,-,-", '"61m" (a unit'), (",x,y", '"": the first cell is empty'), ("airport,a,1,M\u00dcN,public,0,0,0", 'ID: "M\u00dcN"; wanted is 1 to 8'),
                ("screen,0,0,0,1,object,0,-," + "A" * 20000, f'ON: "{"A" * 60}.."; wanted'), ("screen;0;0;0;200,1;object;0;-;-", "a comma: write tenths"),
                ("asof,01,0,0,0,1,object,0,-,-", 'line 2: field 2, N: "01" (a sign or zeros before the number)'),
                ("asof,1,0,0,0,1,tower,0,-,-", 'field 7, KIND: "tower"'), ("X,Y,GROUND", 'no record begins with "X"; the words are airport, runway'), ("X,Y,GROUND", "begin a row of headings or remarks with #"), ("what,id,name,lat", '"what": a table of points: oe-from-points makes'), ("screen,20000001,0,0,1,object,0,-,-", 'X: "20000001"')):
            self.fault(words, "oe-clean", self.write("sheet.csv", f"# remark\n{row}\nreview\n"))

    def test_other_separators(self) -> None:
        """As a spreadsheet saves a sheet where a comma begins the decimals."""
        records = "\nscreen,0,0,0,2001,object,0,-,-\n\nday,office,1,2026-01-15\n"
        for separator in ";\t":
            rows = (["# one; two, three"], ["screen", "0", "0", "0", "2001", "object", "0", "-", "-"], [""] * 9, ["day", "office", "1", "2026-01-15"] + [""] * 5)
            sheet = "\ufeff" + "".join(separator.join(row) + "\r\n" for row in rows)
            self.assertEqual(self.good("oe-clean", self.write("sheet.csv", sheet)).out, records)

    def test_the_end_of_a_way(self) -> None:
        way = "screen,0,0,1000,850,interstate,0,-,-\n-\n"
        self.assertEqual(self.good("oe-clean", self.write("sheet.csv", way.replace("-\n", "-,,\n"))).out, way)

    def test_a_question_of_an_earlier_entry(self) -> None:
        """It goes out without the quotes of a spreadsheet: its word has none."""
        sheet = '"asof","2",0,0,1000,"850",object,0,-,-,,\n'
        self.assertEqual(self.good("oe-clean", self.write("sheet.csv", sheet)).out, "asof,2,0,0,1000,850,object,0,-,-\n")

    def test_a_sheet_without_a_record(self) -> None:
        for sheet in ("", "\r\n", "# remark\n,,,,\n"):
            self.assertIn("sheet.csv: there is no record in it\n", self.good("oe-clean", self.write("sheet.csv", sheet)).err)

    def test_all_faults_are_said(self) -> None:
        ended = self.run_tool("oe-clean", self.write("sheet.csv", "days,1\nreview\nday,a,b,1/2/2026\n"))
        self.assertEqual((ended.status, ended.out, len(ended.err.splitlines())), (1, "", 2))

    def test_files_that_are_no_sheet(self) -> None:
        self.fault("no UTF-8 text", "oe-clean", self.write("sheet.csv", "review\n".encode("utf-16")))
        self.fault("no UTF-8 text", "oe-clean", self.write("sheet.csv", b"review,\xe9\n"))
        self.fault("line 2: a cell goes over several lines", "oe-clean", self.write("sheet.csv", 'review\nday,"a\nb",1,2026-01-15\n'))
        self.fault("line 2: it is no row", "oe-clean", self.write("sheet.csv", 'review\nday,"a"b,1,2026-01-15\n'))
        self.fault("No such file", "oe-clean", "nothing.csv")
        self.fault("name a SHEET", "oe-clean")

    def test_a_key_twice(self) -> None:
        again = "day,a,1,2026-01-15\nday,a,1,2026-01-15\n"
        self.assertEqual(self.good("oe-clean", self.write("sheet.csv", again)).out, again)
        other = self.write("sheet.csv", "day,a,1,2026-01-15\nreview\nday,a,1,2026-01-16\n")
        self.fault("line 3: CALLER a and KEY 1 stand in line 1 for another request", "oe-clean", other)

    def test_a_day_that_is_far(self) -> None:
        """The records are written all the same."""
        sheet = "# days\nday,a,1,2026-01-16,,\nreview\nday,a,2,2062-01-15\n"
        ended = self.good("oe-clean", self.write("sheet.csv", sheet))
        self.assertEqual(ended.out, "\nday,a,1,2026-01-16\nreview\nday,a,2,2062-01-15\n")
        self.assertEqual(ended.err, f"oe-clean: {self.folder}/sheet.csv line 4: CAUTION: this day is 13,148 days after 2026-01-16, the day before it here: "
                         "is it mistyped? The desk's day never goes back\n")

    def test_the_template(self) -> None:
        sheet = self.good("oe-clean", "--template").out
        self.assertEqual(self.good("oe-clean", "-", given=sheet.encode()).out.strip(), "")
        heads = {row[0]: row[1:] for row in csv.reader(sheet.splitlines()) if row}
        for name, form in forms.FORMS.items():
            self.assertEqual(heads["#" + name], [field.name for field in form])
