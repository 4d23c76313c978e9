"""The FAA's Digital Obstacle File, in its fixed columns (DOF.DAT) or as CSV, as rows for points.Writer. The columns are from memory."""
import os
import re
from collections.abc import Iterable
from dataclasses import dataclass, field

from office.desk import Pair
from office.faults import Fault
from office.nasr import Cells, columns_of
from office.records import TENTHS
from office.replies import RULES, Found
from office.tables import Row
from office.words import say_entry

BEGIN = re.compile(r"[0-9]{2}-[0-9]{6}")
FIXED = re.compile(  # columns 1 to 9 have the number, 84 to 88 AGL, 90 to 94 AMSL
    r"(?P<number>[0-9]{2}-[0-9]{6}) (?P<verified>.) .{2} .{2} .{16} (?P<lat>.{11}[NS]) (?P<lon>.{12}[EW]) (?P<kind>.{18}) . (?P<agl>[- 0-9]{5}) (?P<amsl>[- 0-9]{5}) "
    r". (?P<across>.) (?P<upward>.) .(?: (?P<study>.{14})(?: (?P<action>.))?)?")
WANTED = {"OAS": "number", "LATDEC": "lat", "LONDEC": "lon", "TYPE": "kind", "AGL": "agl", "AMSL": "amsl"}
USEFUL = {"VERIFIED STATUS": "verified", "ACCURACY": "accuracy", "FAA STUDY": "study", "ACTION": "action"}
DISMANTLED, UNVERIFIED = "D", "U"
LIST_HEAD = ("paragraph", "surface", "excess_ft", "obstacle", "type", "agl_ft", "amsl_ft", "lat", "lon", "accuracy", "study")


@dataclass(frozen=True)
class Obstacle:
    where: str
    number: str
    verified: str
    lat: str
    lon: str
    kind: str
    agl: str
    amsl: str
    accuracy: str
    study: str
    action: str

    @property
    def name(self) -> str:
        marks = ", ".join(filter(None, (self.accuracy, "unverified" if self.verified == UNVERIFIED else "")))
        return f"{self.number} {self.kind}" + (f" ({marks})" if marks else "")

    def cells(self) -> tuple[str, ...]:
        """For a list, its heights without the zeros before them."""
        return self.number, self.kind, f"{float(self.agl):g}", f"{float(self.amsl):g}", self.lat, self.lon, self.accuracy, self.study

    def row(self) -> Row:
        """A structure: the file does not say which tower is an antenna structure of 77.9(e)(4), so it is an object."""
        return Row(self.where, {"what": "structure", "name": self.name, "lat": self.lat, "lon": self.lon, "height_ft": self.agl, "top_ft": self.amsl, "kind": "object"})


@dataclass
class Obstacles:
    some: list[Obstacle] = field(default_factory=list)
    left_out: list[str] = field(default_factory=list)
    notes: list[str] = field(default_factory=list)
    unread: int = 0


def fixed(path: str, lines: list[str]) -> Obstacles:
    """The lines of DOF.DAT behind its heading."""
    out, is_heading = Obstacles(), True
    for number, line in enumerate(lines, 1):
        where = f"{os.path.basename(path)} line {number}"
        is_heading = is_heading and not BEGIN.match(line)
        found = FIXED.match(line)
        if found:
            parts = {name: (text or "").strip() for name, text in found.groupdict().items()}
            accuracy = parts.pop("across") + parts.pop("upward")
            out.some.append(Obstacle(where, accuracy=accuracy, **parts))
        elif line.strip() and not is_heading:
            out.left_out.append(f"{where}: it is not in the columns of an obstacle")
            out.unread += 1
    if not out.some:
        raise Fault(f"{path}: no line of it is in the columns of an obstacle, as DOF.DAT and the CSV have them")
    return out


def by_names(path: str, others: Cells) -> Obstacles:
    """The rows of the CSV form."""
    columns, names = columns_of(path, WANTED, USEFUL, others), {**WANTED, **USEFUL}
    if columns.fault:
        raise Fault(columns.fault)
    some = [Obstacle(where=row["where"], **{ours: row[theirs] for theirs, ours in names.items()}) for row in columns.rows()]
    return Obstacles(some, notes=[f"{path} has no column {name}" for name in columns.lacking])


def read(path: str, others: Cells) -> Obstacles:
    try:
        with open(path, encoding="latin-1") as file:
            lines = file.read().splitlines()
    except OSError as error:
        raise Fault(f"{path}: {error.strerror}") from error
    return by_names(path, others) if lines and "," in lines[0] else fixed(path, lines)


def exceeding(pairs: Iterable[tuple[Obstacle, Pair]]) -> list[tuple[str, ...]]:
    """Which obstacle exceeds which standard: by surface, the greatest excess first."""
    order, rows = list(RULES), []
    for one, pair in pairs:
        for entry in pair.reply.entries if isinstance(pair.reply, Found) else ():
            if entry.rule.is_standard:
                paragraph, surface, _ = say_entry(entry)
                cells = paragraph, surface, f"{entry.excess / TENTHS:.1f}", *one.cells()
                rows.append((entry.airfield, order.index(entry.rule.name), entry.key, -entry.excess, one.number, cells))
    return [row[-1] for row in sorted(rows)]
