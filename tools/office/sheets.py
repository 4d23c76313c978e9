"""Records out of a spreadsheet's CSV, each cell as the form of its row wants it; what is not so is refused by its line."""
import csv
import re
from collections.abc import Iterator
from dataclasses import dataclass

from office import forms
from office.cautions import Days
from office.faults import Fault
from office.records import read_bytes

REMARK = "#"
OTHER_ENCODINGS = (b"\xff\xfe", b"\xfe\xff")  # the marks of UTF-16
TEMPLATE_REMARKS = (
    f"{REMARK} A row that begins with {REMARK} is a remark and is left out. Type records below the heading of their form.",
    f"{REMARK} Lengths and heights are whole tenths of a foot: 200 ft is 2000. Format all columns as text before you type.",
)


@dataclass(frozen=True)
class Row:
    """A row of a sheet: its line, and its cells without spaces around them and without empty ones at the end."""
    line: int
    cells: list[str]

    @property
    def is_record(self) -> bool:
        return bool(self.cells) and not self.cells[0].startswith(REMARK)


def text_of(path: str) -> str:
    content = read_bytes(path)
    try:
        if content.startswith(OTHER_ENCODINGS):
            raise UnicodeDecodeError("utf-8", content, 0, 2, "UTF-16")
        return content.decode("utf-8-sig")
    except UnicodeDecodeError as error:
        raise Fault(f"{path}: it is no UTF-8 text; save the sheet as CSV UTF-8") from error


def trimmed(cells: list[str]) -> list[str]:
    bare = [cell.strip() for cell in cells]
    while bare and not bare[-1]:
        bare.pop()
    return bare


def separator_of(text: str) -> str:
    """What parts the cells: what stands behind the first form that begins a line."""
    found = re.search(rf'^\s*"?({"|".join(forms.FORMS)})"?\s*([{forms.SEPARATORS}])', text, re.M | re.I)
    return found[2] if found else forms.SEPARATORS[0]


def rows(path: str) -> Iterator[Row]:
    """The rows of a sheet. A cell that goes over several lines is refused."""
    text = text_of(path)
    reader = csv.reader(text.splitlines(keepends=True), strict=True, delimiter=separator_of(text))
    line = 0
    try:
        for cells in reader:
            line += 1
            if reader.line_num != line:
                raise Fault(f"{path} line {line}: a cell goes over several lines")
            yield Row(line, trimmed(cells))
    except csv.Error as error:
        raise Fault(f"{path} line {reader.line_num}: it is no row of a CSV ({error})") from error


def about_form(cell: str) -> str:
    """Why a first cell is no form."""
    first, *others = re.split(f"[{forms.SEPARATORS}]", cell)
    if others and first.strip().lower() in forms.FORMS:
        return f"{forms.quoted(cell)}: its cells are not parted as those of the first record"
    why = forms.about_form(cell) if cell else "the first cell is empty"
    return f"{forms.quoted(cell)}: {why}" if why else f'no record begins with {forms.quoted(cell)}; the words are {", ".join(forms.FORMS)}; begin a row of headings or remarks with {REMARK}'


def about_runway(cells: list[str]) -> str | None:
    """A name that the desk would take, and that a spreadsheet made of 04/22."""
    name = forms.by_name(cells).get("NAME", "")
    return f'the runway "{name}" was made a date; format the column as text' if name.count("/") > 1 and forms.is_sheet_date(name) else None


def fault_of(row: Row) -> str | None:
    """What is wrong with a row's cells, or nothing."""
    if row.cells == [forms.END_OF_WAY]:
        return None
    number = forms.first_bad_field(row.cells)
    if number is None:
        return about_runway(row.cells)
    if number == 1:
        return about_form(row.cells[0])
    form = forms.FORMS[row.cells[0]]
    if number > len(form) + 1:
        return f"field {number}: {forms.size(row.cells[0])}, and the row has {len(row.cells)}"
    field = form[number - 2]
    cell = row.cells[number - 1] if number <= len(row.cells) else ""
    why = forms.cause(cell, field) if cell else "it is wanting"
    return f"field {number}, {field.name}: " + (forms.quoted(cell) if cell else "nothing") + (f" ({why})" if why else "") + f"; wanted is {field.wanted}"


def reused_keys(some: list[Row]) -> Iterator[tuple[int, str]]:
    """Rows with the CALLER and KEY of an earlier one that are another request."""
    seen: dict[tuple[str, str], Row] = {}
    for row in some:
        values = forms.by_name(row.cells)
        if "CALLER" not in values or forms.first_bad_field(row.cells) is not None:
            continue
        first = seen.setdefault((values["CALLER"], values["KEY"]), row)
        if first.cells != row.cells:
            yield row.line, f"CALLER {values['CALLER']} and KEY {values['KEY']} stand in line {first.line} for another request"


def clean(path: str) -> tuple[list[str], list[str]]:
    """The lines of a sheet as records, an empty one for each row that is none, and what is wrong with others."""
    some = list(rows(path))
    wrong = [(row.line, why) for row in some if row.is_record and (why := fault_of(row))]
    wrong += reused_keys([row for row in some if row.is_record])
    return ([",".join(row.cells) if row.is_record else "" for row in some],
            [f"{path} line {line}: {why}" for line, why in sorted(wrong)])


def far_days(path: str, some: list[str]) -> Iterator[str]:
    """A caution for each `day` that is far from the one before it in a sheet's records, the first from the machine's."""
    days = Days.of_office()
    for line, text in enumerate(some, 1):
        if text.startswith("day,"):
            yield from (f"{path} line {line}: CAUTION: {caution}" for caution in days.cautions(forms.by_name(text.split(","))["DATE"]))


def template() -> list[list[str]]:
    """A sheet with the heading of every form, and below it what each field wants."""
    sheet = [[remark] for remark in TEMPLATE_REMARKS]
    for name, form in forms.FORMS.items():
        sheet += [[], [REMARK + name, *(field.name for field in form)], [REMARK, *(field.wanted for field in form)]]
    return sheet
