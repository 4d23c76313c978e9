"""The forms of records, with what each of their fields may hold (docs/RECORDS.md)."""
import csv
import difflib
import re
from collections.abc import Callable, Mapping
from dataclasses import dataclass, field
from datetime import date

LONGEST_LINE = 8192  # bytes
LONGEST_QUOTED = 60  # letters of a field that was refused
WORDS_OF_POINTS = ("what", "end", "pad", "structure", "notice")  # of a table for oe-from-points
SEPARATORS = ",;\t"  # a spreadsheet saves semicolons where a comma begins the decimals
FLAG_LETTERS = "SDRIGT"
EXEMPT = "SDR"  # flags that take every notice rule away, 77.9(e)
CURLY_QUOTES, DASHES = "\u201c\u201d\u201e\u2018\u2019\u201a\u00ab\u00bb", "\u2010\u2011\u2012\u2013\u2014\u2212"  # of programs that set text
MOST_DEGREES, DECIMALS_OF_FEET = 180, 3  # with the point
ALIKE = .75  # how near a word is to one that is wanted, of 1
AS_OF = "asof"  # the form that `oe asof` alone answers
END_OF_WAY = "-"  # a line that `oe stations` reads behind the points of a way
TRAVERSE_WAYS = ("interstate", "road", "private", "rail", "water")
TRAVERSE_WITH_MOBILE = ("private", "water")
Earlier = Mapping[str, str]


@dataclass(frozen=True)
class Value:
    """What a field may hold: in words, as a test of a text beside the fields before it, and as a choice of words with others that mean them."""
    wanted: str
    fits: Callable[[str, Earlier], bool]
    choice: tuple[str, ...] = ()
    meant: Mapping[str, str] = field(default_factory=dict)


@dataclass(frozen=True)
class Field:
    name: str
    value: Value

    @property
    def wanted(self) -> str:
        return self.value.wanted


def is_whole(text: str) -> bool:
    return re.fullmatch(r"0|-?[1-9][0-9]{0,8}", text) is not None


def is_day(text: str) -> bool:
    if not re.fullmatch(r"[0-9]{4}-[0-9]{2}-[0-9]{2}", text):
        return False
    try:
        return 1900 <= date.fromisoformat(text).year <= 2999
    except ValueError:
        return False


def is_flags(text: str) -> bool:
    chosen = "".join(letter for letter in FLAG_LETTERS if letter in text)
    return text == "-" or (text != "" and text == chosen)


def whole(wanted: str, low: int = -999_999_999, high: int = 999_999_999) -> Value:
    return Value(wanted, lambda text, _: is_whole(text) and low <= int(text) <= high)


def words(*some: str, meant: Mapping[str, str] = {}) -> Value:
    wanted = " or ".join([", ".join(some[:-1]), some[-1]]) if len(some) > 1 else some[0]
    return Value(wanted, lambda text, _: text in some, some, meant)


def spelling(pattern: str, wanted: str, meant: Mapping[str, str] = {}) -> Value:
    return Value(wanted, lambda text, _: re.fullmatch(pattern, text) is not None, meant=meant)


def each(meaning: str, *some: str) -> dict[str, str]:
    """The words that mean one that is wanted."""
    return dict.fromkeys(some, meaning)


def fits_mobile(text: str, earlier: Earlier) -> bool:
    most = 1000 if earlier.get("KIND") in TRAVERSE_WITH_MOBILE else 0
    return is_whole(text) and 0 <= int(text) <= most


def fits_fcc_date(text: str, earlier: Earlier) -> bool:
    return is_day(text) if earlier.get("WHAT") == "granted" else text == "-"


COORDINATE = whole("tenths of a foot on the grid, -20000000 to 20000000", -20_000_000, 20_000_000)
ELEVATION = whole("tenths of a foot above mean sea level, a whole number")
GROUND = whole("the ground in tenths of a foot above mean sea level, -20000 to 200000", -20_000, 200_000)
HEIGHT = whole("the height above the ground in tenths of a foot, 0 to 100000", 0, 100_000)
WIDTH = whole("the width in tenths of a foot, a whole number")
USE = words("utility", "other")
URGENCY = words("normal", "emergency")
STRUCTURE = words("object", "antenna", *TRAVERSE_WAYS, meant={
    "tower": "antenna for an antenna structure, else object", **each("object", "building", "house", "crane", "pole", "stack", "tank", "turbine", "wall"),
    "highway": "interstate or road", "street": "road", **each("rail", "railroad", "railway"), **each("water", "waterway", "river", "canal")})
MOBILE = Value("0; for private and water the tallest mobile object in tenths of a foot, up to 1000", fits_mobile)
FLAGS = Value("-, or letters of SDRIGT in this order, each once", lambda text, _: is_flags(text))
CALLER = spelling(r"[A-Za-z0-9._]{1,16}", "1 to 16 letters, digits, . and _")
ID = spelling(r"[A-Z0-9]{1,8}", "1 to 8 of A-Z and 0-9")
NAME = spelling(r"[A-Z0-9/]{1,8}", "1 to 8 of A-Z, 0-9 and /")
ON = spelling(r"-|[A-Z0-9]{1,8}", "-, or the ID of the airfield that it is on")
CATEGORY = words("public", "building", "military", "federal", "dod", "procedure", "private", meant={"pu": "public", "pr": "private"})
PAVEMENT = words("hard", "soft", meant={**each("hard", "asphalt", "asph", "concrete", "conc"), **each("soft", "turf", "grass", "gravel", "dirt")})
APPROACH = spelling(r"(V|NA|NL|P)(/(V|NA|NL|P))?", "V, NA, NL or P, or the planned one after it, as V/P",
                    {"visual": "V", **each("NA or NL", "np", "npi", "nonprecision"), **each("P", "pir", "precision", "ils")})
ENTRY = whole("the number of an entry, a whole number from 0 on", 0)
DAY = Value("a day as 2026-01-31, from 1900 to 2999", lambda text, _: is_day(text))
DAY_OR_NONE = Value("-, or a day as 2026-01-31", lambda text, _: text == "-" or is_day(text))
CASE = spelling(r"[1-9][0-9]{0,5}", "the number of a case, 1 to 999999")
MONTHS = spelling(r"[1-9]|1[0-8]", "months, 1 to 18")
FCC_DATE = Value("after granted the day of completion, as 2026-01-31; after refused -", fits_fcc_date)
YES = Value("yes or -", lambda text, _: text in ("yes", "-"))
FINDING = Value("-, none or substantial", lambda text, _: text in ("-", "none", "substantial"))


def fields(*pairs: Field | tuple[Field, ...]) -> tuple[Field, ...]:
    return tuple(one for pair in pairs for one in (pair if isinstance(pair, tuple) else (pair,)))


CHANGE = (Field("CALLER", CALLER), Field("KEY", CALLER))
SITE = (Field("X", COORDINATE), Field("Y", COORDINATE), Field("GROUND", GROUND), Field("HEIGHT", HEIGHT),
        Field("KIND", STRUCTURE), Field("MOBILE", MOBILE), Field("FLAGS", FLAGS), Field("ON", ON))
OF_CASE = fields(CHANGE, Field("CASE", CASE))


def runway_end(number: str) -> tuple[Field, ...]:
    return (Field("X" + number, COORDINATE), Field("Y" + number, COORDINATE), Field("ELEVATION" + number, ELEVATION),
            Field("KIND" + number, APPROACH))


FORMS: dict[str, tuple[Field, ...]] = {
    "airport": fields(CHANGE, Field("ID", ID), Field("CATEGORY", CATEGORY), Field("X", COORDINATE), Field("Y", COORDINATE),
                      Field("ELEVATION", ELEVATION)),
    "runway": fields(CHANGE, Field("ID", ID), Field("NAME", NAME), Field("USE", USE), Field("SURFACE", PAVEMENT), runway_end("1"), runway_end("2")),
    "droprunway": fields(CHANGE, Field("ID", ID), Field("NAME", NAME)),
    "heliport": fields(CHANGE, Field("ID", ID), Field("CATEGORY", CATEGORY), Field("XA", COORDINATE), Field("YA", COORDINATE),
                       Field("XB", COORDINATE), Field("YB", COORDINATE), Field("WIDTH", WIDTH), Field("ELEVATION", ELEVATION)),
    "drop": fields(CHANGE, Field("ID", ID)),
    "screen": SITE,
    "verdict": SITE,
    AS_OF: fields(Field("N", ENTRY), SITE),
    "airfield": (Field("ID", ID),),
    "day": fields(CHANGE, Field("DATE", DAY)),
    "closed": fields(CHANGE, Field("DATE", DAY)),
    "file": fields(CHANGE, Field("START", DAY), Field("PERMIT", DAY_OR_NONE), Field("FCC", DAY_OR_NONE),
                   Field("EMERGENCY", URGENCY), Field("STATEMENT", YES), SITE),
    "form": OF_CASE,
    "determine": fields(OF_CASE, Field("FINDING", FINDING)),
    "petition": fields(OF_CASE, Field("WHO", words("sponsor", "commenter", "latecomment"))),
    "dispose": fields(OF_CASE, Field("DISPOSITION", words("affirm", "reverse"))),
    "extend": fields(OF_CASE, Field("MONTHS", MONTHS), Field("WORK", words("started", "unstarted")), Field("FILED", DAY_OR_NONE),
                     Field("WARRANTED", words("yes", "no"))),
    "revise": fields(OF_CASE, Field("WORK", words("started", "unstarted")), Field("GROUND", GROUND), Field("HEIGHT", HEIGHT),
                     Field("FINDING", FINDING)),
    "fcc": fields(OF_CASE, Field("WHAT", words("granted", "refused")), Field("DATE", FCC_DATE)),
    "abandon": OF_CASE,
    "case": (Field("CASE", CASE),),
    "review": (),
    "sync": (),
    "report": (Field("NAME", words("review", "expiry", "airfields")),),
}


def cut(line: str) -> list[str] | None:
    """The fields of a line, or nothing if it is not one record. Carriage returns before it end records of no field, which do not count."""
    try:
        rows = [row for row in csv.reader([line.removeprefix("\ufeff").lstrip("\r")]) if row]
    except csv.Error:
        return None
    return rows[0] if len(rows) == 1 else None


def by_name(fields_of: list[str]) -> dict[str, str]:
    """The fields of a record by their names; nothing where its form is unknown."""
    return {field.name: text for field, text in zip(FORMS.get(fields_of[0], ()), fields_of[1:])}


def first_bad_field(fields_of: list[str]) -> int | None:
    """The number, from 1, of the first field that no record with the same earlier fields has."""
    form = FORMS.get(fields_of[0])
    if form is None:
        return 1
    values = by_name(fields_of)
    for number, field in enumerate(form, 2):
        if number > len(fields_of) or not field.value.fits(fields_of[number - 1], values):
            return number
    return len(form) + 2 if len(fields_of) > len(form) + 1 else None


def size(form: str) -> str:
    count = len(FORMS[form]) + 1
    return f"{form} has {count} field{'' if count == 1 else 's'}"


def is_sheet_date(text: str) -> bool:
    """Whether a text looks like a day as spreadsheets show it, 1/15/2026 or 22-Apr."""
    return re.fullmatch(r"[0-9]{1,2}[/.][0-9]{1,2}[/.][0-9]{2,4}|[0-9]{1,2}-[A-Z][a-z]{2}(-[0-9]{2,4})?|[A-Z][a-z]{2}-[0-9]{2,4}", text) is not None


def quoted(text: str) -> str:
    """A cell for a message, shortened."""
    return f'"{text}"' if len(text) <= LONGEST_QUOTED else f'"{text[:LONGEST_QUOTED]}.."'


def about_form(cell: str) -> str | None:
    """Why a first cell is no form, if that is plain."""
    word = cell.strip().strip(CURLY_QUOTES).lower()
    if word in FORMS:
        return f"write {word}" + (", without curly quotes" if any(letter in cell for letter in CURLY_QUOTES) else "")
    if word in WORDS_OF_POINTS:
        return "a table of points: oe-from-points makes records of it"
    if "\0" in cell:
        return "the file is in UTF-16: save the sheet as CSV UTF-8"
    if ";" in cell or "\t" in cell:
        return "the columns are parted by semicolons or tabs: oe-clean writes commas"
    if cell == END_OF_WAY:
        return "the end of a way: `oe stations` alone reads it"
    near = difflib.get_close_matches(word, FORMS, 1, ALIKE)
    return f"is it {near[0]}?" if near else None if cell else "an empty row of a spreadsheet: oe-clean takes it off"


def is_angle(text: str) -> bool:
    """Whether a coordinate looks like degrees: in parts, with the letter of its direction, or with more decimals than feet have."""
    found = re.fullmatch(r"([NSEW]?) ?(-?[0-9]{1,3})([.,][0-9]*)?([\u00b0\u00ba]| ?[-:\u00b0\u00ba ] ?[0-9]{1,2}\b.*)?([NSEW]?)", text.upper())
    if found is None:
        return False
    first, whole, decimals, parts, last = found.groups()
    return bool(first or parts or last) or len(decimals or "") > DECIMALS_OF_FEET and abs(int(whole)) <= MOST_DEGREES


def about_number(text: str, field: Field | None) -> str | None:
    """Why a text is no whole number of tenths, if that is plain."""
    if re.fullmatch(r"-?[0-9]{1,3}(,[0-9]{3})+(\.[0-9]*)?", text):
        return "commas between thousands"
    if field and field.value is COORDINATE and is_angle(text):
        return "degrees: oe-from-points makes records of latitudes and longitudes"
    if re.fullmatch(r"-?[0-9]*[.,][0-9]*", text) and any(letter.isdigit() for letter in text):
        return f"a {'point' if '.' in text else 'comma'}: write tenths of a foot without one, so 200.1 ft are 2001"
    if re.fullmatch(r"-?[0-9][0-9.,]* ?(m|ft|feet|'|\u2032|\u2019)\.?", text, re.I):
        return "a unit: write tenths of a foot alone, so 200.1 ft are 2001; convert metres to feet first"
    if re.fullmatch(r"-?[0-9]+(\.[0-9]+)?E[+-]?[0-9]+", text):
        return "a spreadsheet's large number: format the column as a number without decimals"
    return "a sign or zeros before the number" if re.fullmatch(r"\+[0-9]+|-?0[0-9]+|-0", text) else None


def about_word(text: str, field: Field) -> str | None:
    """The word that is meant, if it is one of a field's choice or a usual one for it."""
    value = field.value
    if value.fits(text.upper(), {}) or value.fits(text.lower(), {}):
        return "capital and small letters are different"
    near = difflib.get_close_matches(text.lower(), value.choice, 1, ALIKE)
    meant = value.meant.get(text.lower()) or (near[0] if near else None)
    return f"write {meant}" if meant else None


def cause(text: str, field: Field | None = None) -> str | None:
    """What a field that was refused looks like, if that is plain: mostly what a spreadsheet made of it."""
    if text != text.strip():
        return "there are spaces around it"
    if is_sheet_date(text):
        return "a spreadsheet's date: format the column as text"
    why = about_number(text, field)
    if why is None and any(letter in text for letter in CURLY_QUOTES):
        return "curly quotes: write none"
    if why is None and any(letter in text for letter in DASHES):
        return "a dash that is no hyphen: write -"
    return why or (about_word(text, field) if field else None)
