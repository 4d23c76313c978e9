"""The register of cases as an Excel sheet (openpyxl), with each finding in a row of its own."""
from collections.abc import Sequence

from office.casebook import COLUMNS, DISCLAIMER, OF_FINDING, Book, Value, row_of, rows_of_findings, text_of
from office.faults import Fault

try:
    from openpyxl import Workbook
    from openpyxl.cell import Cell, WriteOnlyCell
    from openpyxl.styles import Font
    from openpyxl.utils import get_column_letter
    from openpyxl.worksheet._write_only import WriteOnlyWorksheet
except ImportError as error:
    raise Fault("the library openpyxl is missing (on Debian: apt-get install python3-openpyxl)") from error

TEXT = "s"  # the type of such a cell
TAKEN = ("=", "#")  # how a text begins that is taken for a formula or an error
WIDEST = 60  # letters of a column
LONGEST_CELL = 32_767  # letters, of Excel
MOST_ROWS = 1_048_575  # of Excel, below a heading
CUT = "; .. (the rest stands in the sheet Findings)"


def cell_of(sheet: WriteOnlyWorksheet, value: Value) -> Value | Cell:
    """A number, a day or a text, which is never taken for a formula."""
    if not isinstance(value, str):
        return value
    if len(value) > LONGEST_CELL:
        room = LONGEST_CELL - len(CUT)
        value = value[:max(value.rfind(";", 0, room), 0) or room] + CUT
    if not value.startswith(TAKEN):
        return value
    cell = WriteOnlyCell(sheet, value)
    cell.data_type = TEXT
    return cell


def fill(made: Workbook, title: str, columns: Sequence[str], rows: Sequence[Sequence[Value]]) -> None:
    """A sheet with a heading that stays above its rows."""
    if len(rows) > MOST_ROWS:
        raise Fault(f"{title.lower()}: {len(rows):,} rows, and a sheet of Excel has {MOST_ROWS:,} below its heading; choose fewer cases, or write CSV")
    sheet = made.create_sheet(title)
    for place, column in enumerate(columns):
        widest = max((len(text_of(column, row[place])) for row in rows), default=0)
        sheet.column_dimensions[get_column_letter(place + 1)].width = min(max(widest, len(column)), WIDEST) + 2
    sheet.freeze_panes = "D2"
    sheet.auto_filter.ref = f"A1:{get_column_letter(len(columns))}{len(rows) + 1}"
    heading = [WriteOnlyCell(sheet, column) for column in columns]
    for cell in heading:
        cell.font = Font(bold=True)
    sheet.append(heading)
    for row in rows:
        sheet.append([cell_of(sheet, value) for value in row])


def write_xlsx(book: Book, about: Sequence[str], path: str) -> None:
    """The cases, their findings, and where all of it is from."""
    made = Workbook(write_only=True)
    fill(made, "Cases", COLUMNS, [row_of(book, case) for case in book.cases])
    fill(made, "Findings", OF_FINDING, [row for case in book.cases for row in rows_of_findings(book, case)])
    fill(made, "About", ("about",), [[line] for line in [*about, DISCLAIMER]])
    try:
        made.save(path)
    except OSError as error:
        raise Fault(f"{path}: {error.strerror}") from error
