"""The register of cases as a table: one row for each case, and its findings as another; as CSV."""
import csv
import io
from collections.abc import Callable, Iterable, Sequence
from dataclasses import dataclass
from datetime import date

from office import words
from office.cases import Case, Office
from office.records import TENTHS
from office.replies import NONE, Entry
from office.structures import Names

Value = str | int | float | date | None
Degrees = Callable[[int, int], tuple[float, float]] | None  # of a point on the grid, in tenths of a foot
FIGURES = 7  # of a degree: a point goes back to the same tenth of a foot
DISCLAIMER = "Statuses, dates and findings are the desk's replies. No determination of the FAA."


@dataclass(frozen=True)
class Book:
    """What the table is made of: the chosen cases of an office, and what is known beside its file."""
    office: Office
    cases: Sequence[Case]
    names: Names
    degrees: Degrees


def day(text: str) -> Value:
    return None if text == NONE else date.fromisoformat(text)


def said(case: Case, entries: Iterable[Entry], is_standard: bool) -> str:
    some = [" ".join(words.say_entry(entry)).strip() for entry in entries if entry.rule.is_standard == is_standard]
    return "; ".join(some) or ("none" if is_standard or not case.is_exempt else "not asked (77.9(e))")


def listed(is_standard: bool) -> Callable[[Case], Value]:
    """The findings that a determination rests on."""
    return lambda case: said(case, case.determination.entries, is_standard) if case.determination else None


def listed_now(is_standard: bool) -> Callable[[Case], Value]:
    """The findings over the airfields as they are, where they are another list or no other is there."""
    return lambda case: said(case, case.now, is_standard) if has_list_now(case) else None


def has_list_now(case: Case) -> bool:
    return case.is_marked or case.state.status == "awaiting"


def lateness(text: str) -> Value:
    return None if text == NONE else "emergency" if text.startswith("emergency") else words.say_lateness(text)


def fact(name: str) -> Callable[[Case], Value]:
    return lambda case: None if case.facts[name] == NONE else case.facts[name]


def feet(name: str) -> Callable[[Case], Value]:
    return lambda case: case.feet(name)


def day_of(name: str) -> Callable[[Case], Value]:
    return lambda case: day(case.facts[name])


OF_CASE: dict[str, Callable[[Case], Value]] = {
    "status": lambda case: case.state.status, "marked": lambda case: "marked" if case.is_marked else None, "decision": lambda case: None if case.state.decision == NONE else case.state.decision,
    "x_ft": feet("X"), "y_ft": feet("Y"), "ground_ft": feet("GROUND"), "height_ft": feet("HEIGHT"), "top_ft": lambda case: (int(case.facts["GROUND"]) + int(case.facts["HEIGHT"])) / TENTHS,
    "kind": fact("KIND"), "flags": fact("FLAGS"), "on": fact("ON"),
    "received": day_of("RECEIVED"), "notice": lambda case: lateness(case.timely), "notice_fcc": lambda case: lateness(case.fcc), "work_starts": day_of("START"),
    "permit": day_of("PERMIT"), "fcc": day_of("FCC"), "form_due": lambda case: day(case.form_due), "form_came": day_of("FORM_CAME"),
    "issued": lambda case: day(case.state.issued), "petitions_until": lambda case: day(case.state.deadline), "petition": lambda case: "pending" if case.is_petitioned else None,
    "effective": lambda case: day(case.state.effective), "expires": lambda case: day(case.state.expiry), "extension_until": lambda case: day(case.state.last_day),
    "standards": listed(True), "notice_rules": listed(False), "standards_now": listed_now(True), "notice_rules_now": listed_now(False)}
COLUMNS = ("case", "study", "name", "lat", "lon", *OF_CASE)
OF_FINDING = ("case", "study", "name", "as_of", "sort", "rule", "paragraph", "airfield", "key", "excess_ft", "words")
PLACES = {"lat": FIGURES, "lon": FIGURES, "x_ft": 1, "y_ft": 1, "ground_ft": 1, "height_ft": 1, "top_ft": 1, "excess_ft": 1}  # decimals of a column


def row_of(book: Book, case: Case) -> list[Value]:
    lat, lon = book.degrees(*case.at) if book.degrees else (None, None)
    return [case.number, case.study, case.name(book.names) or None, lat, lon, *(value(case) for value in OF_CASE.values())]


def rows_of_findings(book: Book, case: Case) -> list[list[Value]]:
    """A row for each finding of the determination, and for each over the airfields as they are now where that list is another one."""
    lists = [("determination", case.determination.entries if case.determination else ()), ("now", case.now if has_list_now(case) else ())]
    return [[case.number, case.study, case.name(book.names) or None, as_of, "standard" if entry.rule.is_standard else "notice rule", entry.rule.name, entry.rule.paragraph,
             None if entry.airfield == NONE else entry.airfield, None if entry.key == NONE else entry.key,
             None if entry.rule.name == "9d" else entry.excess / TENTHS, " ".join(words.say_entry(entry)[1:]).strip()]
            for as_of, entries in lists for entry in entries]


def text_of(column: str, value: Value) -> str:
    return "" if value is None else f"{value:.{PLACES[column]}f}" if column in PLACES else str(value)


def as_csv(book: Book) -> str:
    out = io.StringIO()
    writer = csv.writer(out, lineterminator="\n")
    writer.writerow(COLUMNS)
    writer.writerows([text_of(column, value) for column, value in zip(COLUMNS, row_of(book, case))] for case in book.cases)
    return out.getvalue()
