"""Forms and replies against the stored sessions and docs/RECORDS.md."""
import re
import unittest

from office import forms, register, replies, words
from office.records import lines, record
from office.replies import Found, Refusal
from tests import stored


def table_words(heading: str) -> list[str]:
    """The first words in backquotes of the rows of a table in docs/RECORDS.md."""
    text = (stored.TOP / "docs" / "RECORDS.md").read_text()
    part = text[text.index(heading):]
    return re.findall(r"^\| `(\w+)`", part[:part.index("\n## ", 5)], re.M)


class Forms(unittest.TestCase):
    def test_all_forms_are_those_of_the_document(self) -> None:
        self.assertEqual(set(table_words("## Forms")), set(forms.FORMS))

    def test_the_field_that_is_refused(self) -> None:
        """Every stored refusal 13 names the field that our forms name, and no other record has a bad field."""
        refused = 0
        for session in stored.known():
            for pair in session.pairs():
                said = int(pair.reply.values[0]) if isinstance(pair.reply, Refusal) and pair.reply.number == words.MALFORMED else None
                fields = forms.cut(pair.record.text)
                ours = 0 if fields is None else forms.first_bad_field(fields)
                self.assertEqual(ours, said, (session.title, pair.record.text))
                refused += said is not None
        self.assertGreater(refused, 200)

    def test_the_field_of_a_structure_as_of_an_entry(self) -> None:
        """A structure stands one field later than in `screen`, and so does what is refused in it: by the stored refusals of `screen`."""
        refused = 0
        for session in stored.known():
            for pair in session.pairs():
                if pair.record.form == "screen":
                    said = int(pair.reply.values[0]) + 1 if isinstance(pair.reply, Refusal) and pair.reply.number == words.MALFORMED else None
                    self.assertEqual(forms.first_bad_field(["asof", "7", *pair.record.fields[1:]]), said, pair.record.text)
                    self.assertEqual(forms.first_bad_field(["asof", "07", *pair.record.fields[1:]]), 2, pair.record.text)
                    refused += said is not None
        self.assertGreater(refused, 50)
        for number, bad in (("0", None), ("999999999", None), ("1000000000", 2), ("-1", 2), ("", 2), ("1.0", 2)):
            self.assertEqual(forms.first_bad_field(["asof", number, "0", "0", "0", "1", "object", "0", "-", "-"]), bad, number)

    def test_a_line_is_cut_as_the_desk_cuts_it(self) -> None:
        self.assertEqual(lines(b"a\r\n\n\r\nb\r\r\nc\r"), ["a", "", "", "b\r", "c\r"])
        self.assertEqual(forms.cut('\ufeff"screen","0"'), ["screen", "0"])
        for text in ("\rreview", "\r\rreview", "\ufeff\rreview", "review\r", '\r"review"\r\r'):
            self.assertEqual(forms.cut(text), ["review"], text)
        self.assertEqual(forms.cut("\r\ufeffreview"), ["\ufeffreview"])
        self.assertIsNone(forms.cut("a\rb"))
        self.assertIsNone(forms.cut("\r\r"))
        self.assertIsNone(forms.cut("\ufeff"))

    def test_planned_approaches(self) -> None:
        field = next(one for one in forms.FORMS["runway"] if one.name == "KIND2")
        for text, fits in (("NA", True), ("V/P", True), ("P/P", True), ("", False), ("/P", False), ("V/", False), ("V/P/P", False), ("V/X", False), ("v", False)):
            self.assertEqual(field.value.fits(text, {}), fits, text)
        for text, effective in (("V", "V"), ("V/NA", "NA"), ("NL/NA", "NL"), ("P/V", "P"), ("NL/P", "P")):
            self.assertEqual(register.effective(text), effective, text)

    def check_causes(self, field: forms.Field, *pairs: tuple[str, str | None]) -> None:
        for text, cause in pairs:
            said = forms.cause(text, field)
            if cause is None:
                self.assertIsNone(said, text)
            else:
                self.assertIn(cause, said or "", text)

    def test_causes(self) -> None:
        self.check_causes(forms.FORMS["airport"][2], ("1/15/2026", "date"), ("22-Apr", "date"), ("1,000", "commas"), ("100.0", "point"), ("1E+06", "large"), ("007", "zeros"),
                          ("+5", "sign"), (" 5", "spaces"), ("aaa", "capital"), ("?", None))

    def test_degrees(self) -> None:
        """In a coordinate, and nowhere else: a height of 37.475 has a point, and feet and thousands are what they are."""
        coordinate, height = forms.FORMS["screen"][0], forms.FORMS["screen"][3]
        angles = ("37.475", "-122.1333", "-122,1333", "37.475N", "37-28-30.0N", "37\u00b028'30\"N", "37 28 30", "N37:28", "061-02-24.0W", "37\u00b0")
        self.check_causes(coordinate, *((text, "degrees: oe-from-points makes records") for text in angles), ("700.5", "a point: write tenths"), ("18.5", "a point: write tenths"),
                          ("700.125", "a point"), ("1,000", "commas"), ("150 ft", "a unit"), ("1 000", None), ("37-", None))
        self.check_causes(height, ("37.475", "a point: write tenths"), ("37-28-30.0N", None))

    def test_signs_of_set_text(self) -> None:
        """Curly quotes and longer dashes, as programs that set text put them."""
        self.check_causes(forms.FORMS["screen"][0], ("\u2013150000", "a dash that is no hyphen"), ("\u2212150000", "a dash"), ("\u201c2001\u201d", "curly quotes"), ("\u20182001", "curly quotes"))
        self.check_causes(forms.FORMS["screen"][7], ("\u2014", "a dash that is no hyphen"))
        self.assertEqual(forms.about_form("\u201cscreen\u201d"), "write screen, without curly quotes")

    def test_the_nearest_word(self) -> None:
        runway = {one.name: one for one in forms.FORMS["runway"]}
        self.check_causes(forms.FORMS["screen"][4], ("tower", "write antenna for an antenna structure, else object"), ("building", "write object"), ("crane", "write object"),
                          ("antena", "write antenna"), ("Antenna", "capital"), ("railway", "write rail"), ("?", None))
        self.check_causes(runway["SURFACE"], ("Asphalt", "write hard"), ("turf", "write soft"))
        self.check_causes(runway["KIND1"], ("PIR", "write P"), ("NP", "write NA or NL"))
        self.check_causes(forms.FORMS["airport"][3], ("PU", "write public"))
        self.check_causes(forms.FORMS["dispose"][3], ("affirmed", "write affirm"))
        self.assertEqual(forms.about_form("screeen"), "is it screen?")
        for form in forms.FORMS.values():  # each word that is proposed is one that the field takes
            for one in form:
                for meaning in one.value.meant.values():
                    found = [word for word in re.split(r"[ ,]+", meaning) if one.value.fits(word, {})]
                    self.assertTrue(found, (one.name, meaning))


class Replies(unittest.TestCase):
    def test_every_stored_reply_is_read_and_said(self) -> None:
        kinds, rules = set(), set()
        for session in stored.known():
            for pair in session.pairs():
                self.assertTrue(all(words.say(pair)), pair)
                kinds.add(type(pair.reply))
                rules |= {entry.rule.name for entry in pair.reply.entries} if isinstance(pair.reply, Found) else set()
        # the stored sessions are those of `oe desk`, which has no ceilings, no ways and no earlier lists; test_say and test_every_reply have them, and the last entry
        self.assertEqual(kinds | {replies.AsOf, replies.Ceiling, replies.Stations, replies.Sync}, set(replies.Reply.__args__))
        self.assertEqual(rules, set(replies.RULES))

    def test_each_rule_is_said_by_its_paragraph(self) -> None:
        """The name of a rule is its paragraph: 17a2 is 77.17(a)(2). Those of heliports have theirs in docs/SURFACES.md; a traverse way is 77.9(c)."""
        text = (stored.TOP / "docs" / "SURFACES.md").read_text()
        for name, rule in replies.RULES.items():
            raised, number, parts = re.fullmatch(r"(9c-)?([0-9]*)(\w+)", name).groups()
            if number == "23":
                (paragraph,) = set(re.findall(rf"^\| `{name}`[^|]*\| (77\.23\([abc]\))", text, re.M))
            else:
                paragraph = (f"77.{number}" if number else "") + "".join(f"({part})" for part in parts)
            self.assertEqual(rule.paragraph, f"77.9(c), {paragraph}" if raised else paragraph, name)
            self.assertEqual(rule.is_standard, number in ("17", "19", "23"), name)

    def test_every_refusal_of_the_document_has_words(self) -> None:
        text = (stored.TOP / "docs" / "RECORDS.md").read_text()
        numbers = {int(number) for number in re.findall(r"^\| ([0-9]+) \| `", text, re.M)}
        self.assertEqual(numbers, set(words.REFUSALS) | {words.MALFORMED})

    def test_the_values_of_a_refusal_are_in_its_words(self) -> None:
        for session in stored.known():
            for pair in session.pairs():
                if isinstance(pair.reply, Refusal) and pair.reply.number != words.MALFORMED:
                    said = words.say(pair)[0]
                    self.assertTrue(all(words.say_status(value) in said for value in pair.reply.values), said)

    def test_forms_of_changes_have_caller_and_key(self) -> None:
        for name, form in forms.FORMS.items():
            names = [field.name for field in form]
            self.assertEqual(len(names), len(set(names)), name)
            self.assertEqual("CALLER" in names, name not in ("screen", "verdict", "asof", "airfield", "case", "review", "sync", "report"), name)

    def test_fields_are_found_by_name(self) -> None:
        self.assertEqual(record(1, "fcc,a,b,7,granted,2026-01-31").values["DATE"], "2026-01-31")
