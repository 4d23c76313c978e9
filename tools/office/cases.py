"""The cases of an office's file with what the desk replies about each: the notice, the determination, and how it stands on the desk's day.

A copy of the file is opened by a desk, which is sent the accepted notice and determination of each case once more. It answers them as it did, and nothing is
worked out here again."""
import argparse
from collections.abc import Iterable, Iterator, Mapping
from dataclasses import dataclass
from typing import TYPE_CHECKING

from office import desk, forms, replies, stores
from office.desk import Pair
from office.faults import Fault
from office.journals import RECEIPT_TABLE, Rows
from office.records import BEFORE, feet, printable, record, records
from office.replies import ENTRIES_OF_DETERMINATION, Accepted, CaseState, Entry, Refusal, read_entries
from office.structures import SITE_KEY, Names

if TYPE_CHECKING:
    from office import grids

FILED = tuple(field.name for field in forms.FORMS["file"][2:])
SITE = tuple(field.name for field in forms.SITE)
IN_ROW = (*FILED, "RECEIVED", "FORM_CAME", "ENDED")  # what a row of a case begins with (docs/TABLES.md)
ISSUING = ("determine", "revise")
CASE_FIELD = 3  # of a record of these forms
EMERGENCY = "emergency "  # before the day on which the form of one is due, in the reply to a notice


@dataclass(frozen=True)
class Determination:
    """A reply to `determine` or `revise`: what was decided, over the airfields after entry `version`, and the findings that it rests on."""
    form: str
    decision: str
    version: int
    issued: str
    entries: tuple[Entry, ...]

    @classmethod
    def read(cls, reply: Accepted) -> "Determination":
        _, decision, version, issued = reply.values[:4]
        return cls(reply.form, decision, int(version), issued, read_entries(list(reply.values[ENTRIES_OF_DETERMINATION:])))


@dataclass(frozen=True)
class Case:
    """`facts` are those of the notice, with the ground and the height of the last revision; `now` are the findings over the airfields as they are now."""
    number: int
    notice: Pair
    facts: Mapping[str, str]
    state: CaseState
    determination: Determination | None
    now: tuple[Entry, ...]

    @property
    def study(self) -> str:
        return study_of(self.notice.record.values["CALLER"], self.notice.record.values["KEY"])

    @property
    def timely(self) -> str:
        """`timely`, `late D` or `emergency DUE`, of the reply to the notice."""
        return self.notice.reply.values[1]

    @property
    def fcc(self) -> str:
        return self.notice.reply.values[2]

    @property
    def form_due(self) -> str:
        """The day on which the form of an emergency is due, or `-`."""
        return self.timely.removeprefix(EMERGENCY) if self.timely.startswith(EMERGENCY) else replies.NONE

    @property
    def is_form_due(self) -> bool:
        return self.form_due != replies.NONE and self.facts["FORM_CAME"] == replies.NONE and self.facts["ENDED"] == replies.NONE

    @property
    def is_petitioned(self) -> bool:
        """A petition is pending: the desk tells no day on which the determination becomes effective."""
        return self.state.status == "pending" and self.state.effective == replies.NONE

    @property
    def is_exempt(self) -> bool:
        """A flag takes every notice rule away, so none is asked."""
        return any(letter in self.facts["FLAGS"] for letter in forms.EXEMPT)

    @property
    def is_marked(self) -> bool:
        return self.state.mark == "marked"

    @property
    def at(self) -> tuple[int, int]:
        """Where it stands on the grid, in tenths of a foot."""
        return int(self.facts["X"]), int(self.facts["Y"])

    def name(self, names: Names) -> str:
        """The name of its structure as it is now, or as it was filed."""
        return printable(next((names[key] for key in (tuple(values[name] for name in SITE_KEY) for values in (self.facts, self.notice.record.values)) if key in names), ""))

    def feet(self, name: str) -> float:
        return feet(self.facts[name])


@dataclass(frozen=True)
class Receipt:
    """An accepted request: the number of its entry, the canonical record, which has no quotes, and the reply after `ok,N,published,`."""
    number: int
    request: str
    outcome: str

    @property
    def fields(self) -> list[str]:
        return self.request.split(",")

    @property
    def form(self) -> str:
        return self.request.partition(",")[0]

    @property
    def pair(self) -> Pair:
        return Pair(record(BEFORE, self.request), replies.read(iter([f"ok,{self.number},published,{self.outcome}"])))


@dataclass(frozen=True)
class Office:
    """The desk's day or `-`, its accepted requests in order, how many cases it has, and those that were asked for."""
    day: str
    receipts: list[Receipt]
    count: int
    cases: list[Case]

    @property
    def changes(self) -> int:
        """The number of the last entry."""
        return self.receipts[-1].number if self.receipts else 0


def add_arguments(parser: argparse.ArgumentParser) -> None:
    parser.add_argument("office", metavar="OFFICE", help="the file of an office (of `oe desk --db` or `oe serve --db`), which is only read")
    parser.add_argument("--grid", metavar="FILE", help="the grid of the office's feet, as oe-from-points --grid kept it, for latitudes and longitudes")
    parser.add_argument("--names", metavar="CSV", help="names of structures: X,Y,GROUND,HEIGHT,NAME in each line, as oe-from-points writes them")
    parser.add_argument("--oe", metavar="PROGRAM", help="the desk to ask (else the variable OE, else oe)")


def grid_of(path: str | None) -> "grids.Grid | None":
    """The grid that a file keeps, if one is named."""
    if path is None:
        return None
    from office import grids  # it wants pyproj
    return grids.Grid(grids.read_choice(path))


def study_of(caller: str, key: str) -> str:
    """The number of a study as the FAA writes it, of a CALLER and a KEY as 2026.AEA and 1234.OE; of others the two as they are."""
    parts = f"{caller}.{key}".split(".")
    is_number = len(parts) == 4 and parts[0].isdigit() and parts[1].isalpha() and parts[2].isdigit() and parts[3].isalpha()
    return ("-" if is_number else ".").join(parts)


def plain(study: str) -> str:
    """A study however it was typed: with hyphens, dots or spaces."""
    return study.strip().replace("-", ".").replace(" ", ".")


def receipts_of(rows: Rows) -> list[Receipt]:
    """The accepted requests in order."""
    parts = (value.split("\n", 2) for _, value in stores.table(rows, RECEIPT_TABLE))
    return sorted((Receipt(int(number), request, outcome) for number, request, outcome in parts), key=lambda one: one.number)


def day_in(rows: Rows) -> str:
    return rows.get((desk.DAY_TABLE, desk.DAY_KEY), replies.NONE)


def facts_of(row: str) -> dict[str, str]:
    return dict(zip(IN_ROW, row.split(",")))


@dataclass(frozen=True)
class Inquiry:
    """What a desk is asked of a case: its notice and its last determination, which it answers as it did, how it stands, and its list now."""
    number: int
    facts: Mapping[str, str]
    notice: str
    issuing: str | None

    @property
    def texts(self) -> list[str]:
        return [self.notice, *([self.issuing] if self.issuing else []), f"case,{self.number}", ",".join(["screen", *(self.facts[name] for name in SITE)])]

    def case(self, some: Iterator[Pair]) -> Case:
        """The case of the next replies."""
        notice = next(some)
        issuing = next(some) if self.issuing else None
        state, now = next(some).reply, next(some).reply
        return Case(self.number, notice, self.facts, state, Determination.read(issuing.reply) if issuing else None, now.entries)


def is_asked(number: int, notice: Receipt, asked: str | None) -> bool:
    """Whether a case is the one of this number, be it the case's or its study's; of nothing each is."""
    if asked is None:
        return True
    return int(asked) == number if asked.isdecimal() else plain(study_of(*notice.fields[1:3])) == plain(asked)


def inquiries_of(rows: Rows, receipts: Iterable[Receipt], asked: str | None) -> Iterator[Inquiry]:
    filed, issued = {}, {}
    for one in receipts:
        if one.form == "file":
            filed[int(one.outcome.split(",")[1])] = one
        elif one.form in ISSUING:
            issued[int(one.fields[CASE_FIELD])] = one.request
    for key, row in stores.table(rows, desk.CASE_TABLE):
        number = int(key)
        if is_asked(number, filed[number], asked):
            yield Inquiry(number, facts_of(row), filed[number].request, issued.get(number))


def read(copy: str, path: str, program: str, asked: str | None = None) -> Office:
    """The office of a copy of its file, of which a desk looks at each row: all cases, or the one of this number."""
    rows = stores.rows_in(copy, path)
    try:
        receipts = receipts_of(rows)
        inquiries = list(inquiries_of(rows, receipts, asked))
        content = "".join(f"{text}\n" for one in inquiries for text in one.texts).encode()
    except (ValueError, LookupError) as error:
        desk.ask(program, "desk", b"", "--db", copy)  # it names the first row that is bad
        raise Fault(f"{path}: a row of it is no row of a desk") from error
    pairs = desk.pair_up(records(content), desk.ask(program, "desk", content, "--db", copy), path)
    for pair in pairs:
        if isinstance(pair.reply, Refusal):
            raise Fault(f"{path}: the desk refuses what it accepted before: {pair.record.text} ({pair.reply.name})")
    some = iter(pairs)
    return Office(day_in(rows), receipts, len(stores.table(rows, desk.CASE_TABLE)), [one.case(some) for one in inquiries])
