"""Records of the FAA's airfields, and over an office's file only those that change it. What the office itself decided stays."""
import math
from collections import Counter
from collections.abc import Collection, Iterable, Mapping
from dataclasses import dataclass, field

from office import desk, forms
from office.faults import Fault, FinalFault
from office.measures import tenths
from office.nasr import BASE, RUNWAYS, Airfield, Part
from office.points import Writer
from office.records import TENTHS, feet, show
from office.register import KINDS, NOT_DESCRIBED, point
from office.tables import Row

WORDS = {"CATEGORY": "category", "USE": "use", "SURFACE": "surface"}
END_NUMBERS = ("1", "2")
ARTICLES = {"airport": "an airport", "heliport": "a heliport"}
OF_HELIPORT = {"elev_ft": "ELEVATION", "width_ft": "WIDTH"}

Fields = Mapping[str, str]


@dataclass
class Decided:
    """The fields of a record with the office's own decisions in them, and what to look at."""
    fields: dict[str, str]
    looks: list[str] = field(default_factory=list)


def ends_as_kept(new: Fields, kept: Fields) -> tuple[str, ...]:
    """Which end of the office's runway is which of the new one's: the nearer one."""
    same, crossed = (math.dist(point(new, "1"), point(kept, number)) for number in END_NUMBERS)
    return END_NUMBERS if same <= crossed else END_NUMBERS[::-1]


def keep_plans(out: Decided, kept: Fields) -> None:
    """Planned approaches (77.19), which the files do not have, while they are more precise than what is there, with the use of a runway that has one."""
    for number, old in zip(END_NUMBERS, ends_as_kept(out.fields, kept)):
        now, planned = out.fields["KIND" + number], kept["KIND" + old].partition("/")[2]
        if planned and KINDS.index(planned) > KINDS.index(now):
            out.fields["KIND" + number] = f"{now}/{planned}"
            out.fields["USE"] = "other" if kept["USE"] == "other" else out.fields["USE"]


def decided(label: str, new: Fields, kept: Fields, is_said: bool) -> Decided:
    """The new fields with what the office decided beyond the files: a category but `private`, a planned hard surface, planned approaches."""
    out = Decided(dict(new))
    if "CATEGORY" in new and not is_said and kept["CATEGORY"] not in (new["CATEGORY"], NOT_DESCRIBED):
        out.looks.append(f"{label} stays {kept['CATEGORY']}; by the files it is {new['CATEGORY']}")
        out.fields["CATEGORY"] = kept["CATEGORY"]
    if "SURFACE" in new and kept["SURFACE"] == "hard" != new["SURFACE"]:
        out.looks.append(f"{label} stays hard; by the files it is {new['SURFACE']}: is a hard surface planned (77.19(c))?")
        out.fields["SURFACE"] = "hard"
    if "KIND1" in new:
        keep_plans(out, kept)
    return out


def differences(new: Fields, kept: Fields, ends: list[str]) -> list[str]:
    """What a record changes, in words."""
    out = [f"{words} {kept[name]} to {new[name]}" for name, words in WORDS.items() if name in new and new[name] != kept[name]]
    for number in ("", *END_NUMBERS):
        if "X" + number not in new:
            continue
        of = f" of end {ends[int(number) - 1]}" if number else ""
        here, there, elevation, approach = point(new, number), point(kept, number), "ELEVATION" + number, "KIND" + number
        out += [f"place{of} by {show(math.dist(here, there))} ft"] if here != there else []
        out += [f"elevation{of} {show(feet(kept[elevation]))} to {show(feet(new[elevation]))} ft"] if new[elevation] != kept[elevation] else []
        out += [f"approach{of} {kept[approach]} to {new[approach]}"] if number and new[approach] != kept[approach] else []
    return out


def differences_of_pad(row: Row, kept: Fields) -> list[str]:
    """What the files say of a heliport otherwise than the office's row, as far as they say it."""
    return [f"its {name.lower()} is {show(tenths(row.get(column), f'{row.label}, {column}') / TENTHS)} ft in the files, and {show(feet(kept[name]))} ft here"
            for column, name in OF_HELIPORT.items() if row.get(column) and tenths(row.get(column), f"{row.label}, {column}") != int(kept[name])]


class Office:
    """The airfields of an office's file."""
    def __init__(self, path: str | None):
        office = desk.stored(path)
        self.kept = {(one.values["ID"], one.values.get("NAME", "")): one for one in office.airfields()} if office else {}

    def form(self, airfield: str, runway: str = "") -> str:
        """The form of its record, or nothing if the office does not have it."""
        one = self.kept.get((airfield, runway))
        return one.form if one else ""

    def values(self, airfield: str, runway: str = "") -> Fields:
        return self.kept[airfield, runway].values

    def ids(self) -> list[str]:
        return sorted({airfield for airfield, _ in self.kept})

    def runways(self, airfield: str) -> list[str]:
        return sorted(name for of, name in self.kept if of == airfield and name)


class KeyedWriter(Writer):
    """A KEY has the cycle, the airfield and the first end of the runway, so that a cycle which is sent again acts once."""
    def key_of(self, row: Row) -> str:
        first = row.get("name").partition("/")[0]
        return ".".join(filter(None, (self.key, row.get("id"), first)))


class Maker:
    """Writes the records of airfields. `lines` has what was left out, what to look at, and over an office's file the changes."""
    def __init__(self, writer: Writer, path: str | None, office: Office, said: Collection[str]):
        self.writer, self.path, self.office, self.said = writer, path, office, said
        self.lines: list[str] = []
        self.counts: Counter[str] = Counter()

    def look(self, some: Iterable[str]) -> None:
        self.lines += [f"look at this: {one}" for one in some]

    def leave_out(self, part: Part, why: Iterable[str], is_kept: bool) -> None:
        self.counts["left out"] += 1
        self.lines.append(f"left out: {part.label}: {'; '.join(why)}" + (f"; the row in {self.path} stays" if is_kept else ""))

    def record_of(self, form: str, key: str, *fields: str) -> str:
        return ",".join((form, self.writer.caller, f"{self.writer.key}.{key}", *fields))

    def take(self, airfield: Airfield) -> None:
        """An airfield with its runways."""
        own, kept = airfield.own, self.office.form(airfield.id)
        if kept and airfield.is_closed:
            self.look([f"{own.label} is in {self.path}, and {own.wanting[0]}; to take it out: {self.record_of('drop', airfield.id, airfield.id)}"])
        elif kept and own.rows and kept != airfield.form:
            self.leave_out(own, [f"it is {ARTICLES[airfield.form]} in the files, and {ARTICLES[kept]} in {self.path}"], True)
        elif kept == "heliport" and own.rows:
            self.compare_heliport(airfield)
        elif self.put(own, airfield.id) or kept:
            for name, part in airfield.runways.items():
                self.put(part, airfield.id, name)
            self.look_for_gone(airfield)
        elif airfield.runways:
            self.lines[-1] += f"; its runways ({', '.join(airfield.runways)}) go with it"

    def compare_heliport(self, airfield: Airfield) -> None:
        try:
            some = differences_of_pad(airfield.own.rows[0], self.office.values(airfield.id))
        except Fault as fault:
            self.leave_out(airfield.own, [str(fault)], True)
            return
        self.counts["as before"] += not some
        self.look([f"{airfield.own.label}, in {self.path}: {'; '.join(some)}"] if some else [])

    def look_for_gone(self, airfield: Airfield) -> None:
        for name in self.office.runways(airfield.id):
            if name not in airfield.published:
                record = self.record_of("droprunway", f"{airfield.id}x{name.partition('/')[0]}", airfield.id, name)
                self.look([f"{airfield.id} {name} is in {self.path}, and not in {RUNWAYS}: closed, renamed, or your own? To take it out: {record}"])

    def look_for_unknown(self, known: Collection[str]) -> None:
        """The office's airfields that the files do not have."""
        for name in self.office.ids():
            if name not in known:
                self.look([f"{name} is in {self.path}, and not in {BASE}: closed, renamed, or your own?"])

    def put(self, part: Part, airfield: str, runway: str = "") -> bool:
        """The record of a part, if nothing of it is wanting; whether there is one."""
        kept, notes = bool(self.office.form(airfield, runway)), len(self.writer.notes)
        if part.wanting:
            self.leave_out(part, part.wanting, kept)
            return False
        try:
            for row in part.rows:
                self.writer.take(row)
        except FinalFault:
            raise
        except Fault as fault:
            del self.writer.notes[notes:]
            self.leave_out(part, str(fault).splitlines(), kept)
            return False
        if kept and not self.changes(part, airfield, runway):
            self.writer.records.pop()
            self.writer.notes[notes:] = [note for note in self.writer.notes[notes:] if "CAUTION" in note]
        elif not kept:
            form = self.writer.records[-1].partition(",")[0]
            self.counts[f"new {form}s" if self.path else f"{form}s"] += 1
            self.lines += [f"new: {part.label}"] if self.path else []
            self.look(part.looks)
        return True

    def changes(self, part: Part, airfield: str, runway: str) -> bool:
        """Whether the last record changes the office's row. What it changes is said, and the office's own decisions go into it."""
        cells, old = self.writer.records[-1].split(","), self.office.values(airfield, runway)
        made = decided(part.label, forms.by_name(cells), old, airfield in self.said)
        some = differences(made.fields, old, runway.split("/"))
        self.counts["changed" if some else "as before"] += 1
        self.lines += [f"changed: {part.label}: {'; '.join(some)}"] if some else []
        self.look(made.looks + (part.looks if some and runway else []))
        self.writer.records[-1] = ",".join([cells[0], *made.fields.values()])
        return bool(some)
