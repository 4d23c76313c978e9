"""Proposed structures with what the desk found of them. Lengths are feet here."""
import csv
from collections.abc import Iterable, Mapping
from dataclasses import dataclass, field
from enum import Enum

from office.desk import Pair
from office.faults import Fault
from office.records import TENTHS, Record, feet, lines, read_bytes
from office.register import Point, point
from office.replies import ENTRIES_OF_DETERMINATION, Accepted, Entry, Found, Refusal, Stations, Verdict, read_entries

Names = Mapping[tuple[str, ...], str]
SITE_KEY = ("X", "Y", "GROUND", "HEIGHT")


class Finding(Enum):
    OBSTRUCTION = "obstruction"
    NOTICE = "notice"
    NONE = "none"
    UNKNOWN = "unknown"


def finding_of(entries: Iterable[Entry]) -> Finding:
    standards = {entry.rule.is_standard for entry in entries}
    return Finding.OBSTRUCTION if True in standards else Finding.NOTICE if standards else Finding.NONE


def finding_of_verdict(verdict: Verdict) -> Finding:
    return Finding.OBSTRUCTION if verdict.obstruction else Finding.NOTICE if verdict.notice else Finding.NONE


@dataclass
class Structure:
    """`changes` is over how many changes it was judged, and nothing where it was not."""
    line: int
    name: str
    at: Point
    ground: float
    height: float
    finding: Finding = Finding.UNKNOWN
    entries: tuple[Entry, ...] = field(default=())
    changes: int | None = None

    @property
    def top(self) -> float:
        return self.ground + self.height

    @property
    def excess(self) -> float:
        """The greatest excess over a standard."""
        return max((entry.excess / TENTHS for entry in self.entries if entry.rule.is_standard), default=0)

    def revise(self, ground: float, height: float) -> None:
        self.ground, self.height = ground, height

    def judge(self, changes: int, entries: tuple[Entry, ...]) -> None:
        self.changes, self.entries, self.finding = changes, entries, finding_of(entries)


def name_of(one: Record, names: Names) -> str:
    """The name under which a structure goes: that of the names, or caller and key of its notice."""
    given = names.get(tuple(one.values[key] for key in SITE_KEY))
    return given or (f"{one.values['CALLER']} {one.values['KEY']}" if "CALLER" in one.values else "")


def structure(one: Record, names: Names) -> Structure:
    return Structure(one.line, name_of(one, names), point(one.values), feet(one.values["GROUND"]), feet(one.values["HEIGHT"]))


def structures(pairs: Iterable[Pair], names: Names) -> tuple[list[Structure], int]:
    """The structures of `screen`, `verdict` and `file`, and how many of these records were refused."""
    some, cases, refused = [], {}, 0
    for pair in pairs:
        reply = pair.reply
        if pair.record.form in ("screen", "verdict", "file"):
            if isinstance(reply, Refusal):
                refused += 1
                continue
            if isinstance(reply, Stations):
                raise Fault(f"line {pair.record.line}: a way of `oe stations` is not drawn; oe-say says its reply")
            one = structure(pair.record, names)
            some.append(one)
            match reply:
                case Found():
                    one.judge(reply.changes, reply.entries)
                case Verdict():
                    one.changes, one.finding = reply.changes, finding_of_verdict(reply)
                case Accepted():
                    cases[reply.values[0]] = one
        elif isinstance(reply, Accepted) and reply.form in ("determine", "revise") and reply.values[0] in cases:
            judged = cases[reply.values[0]]
            if reply.form == "revise":
                judged.revise(feet(pair.record.values["GROUND"]), feet(pair.record.values["HEIGHT"]))
            judged.judge(int(reply.values[2]), read_entries(list(reply.values[ENTRIES_OF_DETERMINATION:])))
    return some, refused


def read_names(path: str | None) -> Names:
    """Names of structures: X, Y, GROUND, HEIGHT, NAME in each line."""
    names = {}
    for number, row in enumerate(csv.reader(lines(read_bytes(path))) if path else [], 1):
        if row and len(row) != len(SITE_KEY) + 1:
            raise Fault(f"{path} line {number}: {len(row)} columns, and wanted are X,Y,GROUND,HEIGHT,NAME")
        if row:
            names[tuple(row[:-1])] = row[-1]
    return names
