"""Tables of points. A table of another source is read with a map of its columns; none of another's names are built in."""
import configparser
import csv
import io
import os
from collections.abc import Collection, Iterable
from dataclasses import dataclass, field

from office.faults import Fault
from office.forms import SEPARATORS

WANTED = ("what", "lat", "lon")
GROUND, TOP = "elev_ft", "top_ft"  # one of them is wanted
COLUMNS = (*WANTED, GROUND, TOP, "id", "name", "height_ft", "category", "use", "surface", "kind", "width_ft", "mobile_ft", "flags", "published_ft",
           "study", "start", "permit", "fcc", "urgency", "statement")
MAP_SECTION = "columns"
LEAVE_OUT = "-"  # a word of a map for a row that is no point of ours
WITH_OWN_DASH = ("id", "flags", "permit", "fcc", "statement")  # columns whose words have a - themselves
EMPTY = '""'  # how a map names an empty cell
PAIRED = ("end", "pad")
MORE = "more cells"  # what a row has beyond the named columns


@dataclass(frozen=True)
class ColumnMap:
    """Which column of a file is which of ours, words that stand for every row, and the words of a column in the desk's."""
    names: dict[str, str] = field(default_factory=lambda: {name: name for name in COLUMNS})
    constants: dict[str, str] = field(default_factory=dict)
    values: dict[str, dict[str, str]] = field(default_factory=dict)

    def cell(self, row: dict[str, str], ours: str) -> str:
        """What stands in a column of ours, before its words are mapped."""
        return self.constants.get(ours) or (row.get(self.names.get(ours, "")) or "").strip()

    def is_chosen(self, row: dict[str, str], only: Collection[str]) -> bool:
        """Whether a row is of one of these airfields, by its own word for the ID or by ours."""
        text = self.cell(row, "id")
        return not only or text in only or self.values.get("id", {}).get(text) in only

    def take(self, row: dict[str, str], where: str) -> "Row":
        """A row under our names."""
        values, faults, is_left_out = dict(self.constants), [], False
        for ours, theirs in self.names.items():
            text = self.cell(row, ours)
            words = self.values.get(ours)
            word = text if words is None else words.get(text or EMPTY)
            is_left_out |= words is not None and word == LEAVE_OUT and ours not in WITH_OWN_DASH
            if word is None:
                faults.append(f'{where}: "{text}" in column {theirs} is not in the map\'s [{ours}]')
            values[ours] = word or ""
        return Row(where, values, tuple(faults), is_left_out)


@dataclass(frozen=True)
class Row:
    """A point of a table: its values under our names, where it stands, what of it could not be read, and whether the map leaves it out."""
    where: str
    values: dict[str, str]
    faults: tuple[str, ...] = ()
    is_left_out: bool = False

    def get(self, column: str) -> str:
        return self.values.get(column, "")

    def need(self, column: str) -> str:
        if not self.get(column):
            raise Fault(f'{self.where}: "{self.get("what")}" wants {column}')
        return self.get(column)

    @property
    def pair(self) -> tuple[str, str, str]:
        """What the two ends of a runway or of a pad have in common."""
        what = self.get("what")
        return what, self.get("id"), self.get("name") if what == "end" else ""

    @property
    def label(self) -> str:
        """Where it stands, with its name."""
        names = " ".join(filter(None, (self.get("id"), self.get("name"))))
        return f"{self.where} ({names})" if names else self.where


@dataclass
class Table:
    """The rows of a table that were taken, and what to say of those that its map leaves out."""
    rows: list[Row] = field(default_factory=list)
    notes: list[str] = field(default_factory=list)


class MapParser(configparser.ConfigParser):
    """Keys keep their capital letters."""
    def optionxform(self, optionstr: str) -> str:
        return optionstr


def why_no_table(error: Exception) -> str:
    return f"it is no CSV ({error})" if isinstance(error, csv.Error) else "it is no text in UTF-8; save the sheet as CSV UTF-8"


def read_map(path: str) -> ColumnMap:
    """A map of columns from an INI file (see oe-from-points --help)."""
    parser = MapParser(delimiters=("=",), comment_prefixes=("#", ";"), interpolation=None)
    try:
        with open(path, encoding="utf-8-sig") as file:
            parser.read_file(file)
    except (OSError, UnicodeDecodeError, configparser.Error) as error:
        raise Fault(f"{path}: {getattr(error, 'strerror', None) or str(error).splitlines()[0]}") from error
    unknown = [name for name in parser.sections() if name not in (MAP_SECTION, *COLUMNS)]
    unknown += [name for name in (parser[MAP_SECTION] if MAP_SECTION in parser else ()) if name not in COLUMNS]
    if unknown or MAP_SECTION not in parser:
        raise Fault(f"{path}: " + (f"{unknown[0]} is no column of ours ({', '.join(COLUMNS)})" if unknown else f"it has no section [{MAP_SECTION}]"))
    given = dict(parser[MAP_SECTION])
    constants = {name: text[1:-1] for name, text in given.items() if len(text) > 1 and text[0] == text[-1] == '"'}
    names = {name: text for name, text in given.items() if name not in constants}
    return ColumnMap(names, constants, {name: dict(parser[name]) for name in parser.sections() if name != MAP_SECTION})


def check_columns(path: str, there: list[str], columns: ColumnMap, is_mapped: bool) -> None:
    missing = [name for name in columns.names.values() if name not in there] if is_mapped else []
    known = {*columns.names, *columns.constants} if is_mapped else set(there)
    missing += [name for name in WANTED if name not in known] + ([] if known & {GROUND, TOP} else [GROUND])
    if missing:
        stems = {name.split("_")[0] for name in missing}
        near = [name for name in there if name.split("_")[0] in stems]
        hint = f" (there is {', '.join(near)}: the unit belongs into the name, as in elev_ft)" if near and not is_mapped else ""
        raise Fault(f"{path}: no column {', '.join(missing)}{hint}")


def reader_of(text: str, is_mapped: bool) -> "csv.DictReader[str]":
    """The rows of a table by the names of its columns. Our own names may have capitals and spaces around them."""
    head = text.partition("\n")[0]
    separator = next((one for one in SEPARATORS if one in head), SEPARATORS[0])
    reader = csv.DictReader(io.StringIO(text, newline=""), restkey=MORE, delimiter=separator)
    if reader.fieldnames and not is_mapped:
        reader.fieldnames = [name.strip().lower() for name in reader.fieldnames]
    return reader


def has_more(row: dict[str, str]) -> bool:
    return any(text.strip() for text in row.get(MORE, []))


def is_empty(row: dict[str, str]) -> bool:
    return not has_more(row) and not any(text.strip() for text in row.values() if isinstance(text, str))


def read_row(row: dict[str, str], where: str, columns: ColumnMap) -> Row:
    if has_more(row):
        return Row(where, {}, (f"{where}: the row has more cells than the first line has names",))
    return columns.take(row, where)


def table_of(some: list[Row]) -> Table:
    """The rows but those that the map leaves out, whose other end goes with them."""
    gone = {row.pair for row in some if row.is_left_out and row.get("what") in PAIRED}
    rows = [row for row in some if not row.is_left_out and row.pair not in gone]
    count = sum(row.is_left_out for row in some)
    notes = [f"rows that the map leaves out: {count}"] if count else []
    return Table(rows, notes + [f"CAUTION: {row.label} is left out too, as the map leaves out its other end" for row in some if not row.is_left_out and row.pair in gone])


def read_rows(path: str, map_path: str | None, only: Collection[str] = ()) -> Table:
    """The points of a table, whose first line names the columns; with `only` those of some airfields alone, and the other rows are not looked at."""
    columns = read_map(map_path) if map_path else ColumnMap()
    some, seen = [], set()
    try:
        with open(path, newline="", encoding="utf-8-sig") as file:
            reader = reader_of(file.read(), bool(map_path))
        if not reader.fieldnames:
            raise Fault(f"{path}: it is empty; its first line names the columns")
        check_columns(path, list(reader.fieldnames), columns, bool(map_path))
        for row in reader:
            if is_empty(row) or not columns.is_chosen(row, only):
                continue
            seen |= {columns.cell(row, "id"), columns.values.get("id", {}).get(columns.cell(row, "id"), "")}
            some.append(read_row(row, f"{os.path.basename(path)} line {reader.line_num}", columns))
    except (OSError, UnicodeDecodeError, csv.Error) as error:
        raise Fault(f"{path}: {getattr(error, 'strerror', None) or why_no_table(error)}") from error
    missing = [name for name in only if name not in seen]
    if missing:
        raise Fault(f"{path}: no row has the id {', '.join(missing)}")
    return table_of(some)


def csv_text(rows: Iterable[Collection[str]]) -> str:
    text = io.StringIO()
    csv.writer(text, lineterminator="\n").writerows(rows)
    return text.getvalue()
