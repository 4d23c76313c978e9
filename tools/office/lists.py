"""The structures of a picture as a table: beside the plan as far as there is room, then on further sheets; there with every finding, if that is asked for."""
from collections.abc import Iterator, Sequence
from dataclasses import dataclass

from office import picture, words
from office.picture import MARKS, RULE, SOFT, Pixel, Style, Svg, figure
from office.replies import NONE, Entry
from office.structures import Finding, Structure

ROW = 39  # pixels of a structure
WIDE, EDGE = 1200, 20  # pixels of every sheet, and of its margin at the right
PANEL = 294  # pixels of the column beside a plan
COLUMNS, COLUMN, GAP, LEFT, HEAD, FOOT = 3, 352, 30, 64, 100, 62  # of a further sheet
WIDE_COLUMNS, WIDE_COLUMN = 2, 543  # of one with every finding
OFF_MAP = " (off the map)"
TITLE, LINE = 30, 16  # pixels of a structure's own line there, and of a finding
DISCLAIMER = "A picture in floating point; the findings are the desk's. No determination of the FAA."

Numbered = tuple[int, Structure]  # a structure with its number in the picture


def place_of(entry: Entry, airfields: int) -> str:
    """The surface of a finding in few words. Of one airfield its name is left out, if there is a runway."""
    key = words.short_key(entry)
    names = (entry.airfield if airfields != 1 or not key else NONE, key)
    return " ".join([entry.rule.short, *(name for name in names if name not in (NONE, ""))])


def summary(one: Structure, airfields: int) -> tuple[str, str]:
    """What was found, in one short line: the rule that goes farthest, and behind it how far, and how many others."""
    if not one.entries:
        return {Finding.NONE: "no rule met", Finding.NOTICE: "notice", Finding.OBSTRUCTION: "obstruction"}.get(one.finding, "not judged yet"), ""
    standards = [entry for entry in one.entries if entry.rule.is_standard]
    most = max(standards or one.entries, key=lambda entry: entry.excess)
    more = f", {len(one.entries) - 1} more" if len(one.entries) > 1 else ""
    excess = f" +{figure(most.excess / 10)} ft" if most.excess else " by less than 0.1 ft"
    return place_of(most, airfields), ("" if most.rule.name == "9d" else excess) + more


@dataclass(frozen=True)
class Line:
    """A finding of a structure: its paragraph, its surface, how far it is exceeded, and the finding that its colour shows."""
    paragraph: str
    surface: str
    excess: str
    finding: Finding


def lines_of(one: Structure) -> list[Line]:
    """Every finding of a structure, standards first."""
    if not one.entries:
        said = {Finding.NONE: "no rule that the desk knows is met", Finding.NOTICE: "notice is required: `screen` lists by which rule",
                Finding.OBSTRUCTION: "a standard is exceeded: `screen` lists which"}
        return [Line("", said.get(one.finding, "not judged yet"), "", one.finding)]
    out = []
    for entry in sorted(one.entries, key=lambda entry: not entry.rule.is_standard):
        paragraph, _, excess = words.say_entry(entry)
        beside = f", beside {'approach' if words.parts_of(entry)[1] else 'primary'}" if entry.rule.name == "19e" else ""
        out.append(Line(paragraph, place_of(entry, 0) + beside, excess, Finding.OBSTRUCTION if entry.rule.is_standard else Finding.NOTICE))
    return out


@dataclass(frozen=True)
class Listing:
    """What a table lists: structures with their numbers, the numbers of those in the picture, how many records were refused, and whether every finding."""
    rows: list[Numbered]
    shown: set[int]
    refused: int
    airfields: int
    last_change: int
    is_all: bool = False

    def is_old(self, one: Structure) -> bool:
        """Whether a structure was judged before the airfields changed the last time."""
        return one.changes is not None and one.changes < self.last_change

    def notes(self) -> list[str]:
        counts = [(len(self.rows) - len(self.shown), "off the map"), (self.refused, "refused")]
        left_out = " · ".join(f"{count} {words}" for count, words in counts if count)
        every = ["every finding: on the next sheets"] if self.is_all and self.rows else []
        return ([left_out] if left_out else []) + self.remarks([one for _, one in self.rows]) + every

    def remarks(self, some: Sequence[Structure]) -> list[str]:
        return ["* asked before the airfields changed"] if any(map(self.is_old, some)) else []


def numbers(rows: Sequence[Numbered]) -> str:
    first, last = rows[0][0], rows[-1][0]
    return f"No. {first}" if first == last else f"No. {first} to {last}"


def draw_head(svg: Svg, at: Pixel, width: float) -> None:
    x, y = at
    svg.words((x, y), "No.", Style(11.5, SOFT))
    svg.words((x + 36, y), "structure and finding", Style(11.5, SOFT))
    svg.words((x + width, y), "height · top, ft", Style(11.5, SOFT, "end"))


def draw_title(svg: Svg, at: Pixel, width: float, row: Numbered, more: str = "") -> None:
    """The line of a structure: its number, symbol, name, height and top."""
    (x, y), (number, one) = at, row
    svg.line((x, y - 30), (x + width, y - 30), RULE, .7)
    svg.symbol((x + 28, y - 17), one.finding, 5.5)
    svg.words((x + 18, y - 12.5), str(number), Style(13, bold=True, anchor="end"))
    svg.words((x + width, y - 12.5), f"{figure(one.height)} · {figure(one.top)}", Style(12.5, anchor="end"))
    svg.words((x + 40, y - 12.5), picture.cut((one.name or f"line {one.line}") + more, 12.5, width - 144), Style(12.5))


def draw_row(svg: Svg, at: Pixel, width: float, row: Numbered, listing: Listing) -> None:
    (x, y), (number, one) = at, row
    draw_title(svg, at, width, row)
    place, rest = summary(one, listing.airfields)
    rest += ("" if number in listing.shown else OFF_MAP) + (" *" if listing.is_old(one) else "")
    place = picture.cut(place, 11.5, width - 40 + GAP / 2 - picture.width_of(rest, 11.5))
    svg.words((x + 40, y + 2.5), place + rest, Style(11.5, MARKS[one.finding].text))


def rows_of(height: float) -> int:
    """How many rows a column of a further sheet has."""
    return int((height - FOOT - HEAD) / ROW)


def draw_beside(svg: Svg, at: Pixel, listing: Listing) -> list[Numbered]:
    """The table beside a plan. What has no room in it is given back."""
    x, y = at
    draw_head(svg, at, PANEL)
    room = int((svg.height - FOOT - y) / ROW)
    count = len(listing.rows) if len(listing.rows) <= room else room - 1
    for place, row in enumerate(listing.rows[:count], 1):
        draw_row(svg, (x, y + ROW * place), PANEL, row, listing)
    rest, warning = listing.rows[count:], Style(11.5, MARKS[Finding.OBSTRUCTION].text)
    if rest:
        is_one = len(rest) <= COLUMNS * rows_of(svg.height)
        svg.words((x, y + ROW * room - 12.5), f"{numbers(rest)}: on the next sheet{'' if is_one else 's'}", warning)
    for line, note in enumerate(listing.notes()):
        svg.words((x, svg.height - 48 + 15 * line), note, warning)
    return rest


def new_sheet(first: Svg, head: str) -> Svg:
    """A further sheet in the size of the first."""
    svg = Svg(first.width, first.height, first.title)
    svg.words((LEFT, 38), picture.cut(first.title, 22, 900), Style(22, bold=True))
    svg.words((LEFT, 60), head, Style(13, SOFT))
    return svg


def put_remarks(svg: Svg, listing: Listing, some: Sequence[Numbered]) -> None:
    for remark in listing.remarks([one for _, one in some]):
        svg.words((LEFT, svg.height - 14), remark, Style(11.5, MARKS[Finding.OBSTRUCTION].text))


def further(first: Svg, rows: Sequence[Numbered], listing: Listing, head: str) -> Svg:
    """A sheet with a part of the table, column after column."""
    svg, a_column = new_sheet(first, f"{head}: {numbers(rows)}"), rows_of(first.height)
    for place, row in enumerate(rows):
        column, line = divmod(place, a_column)
        x = LEFT + column * (COLUMN + GAP)
        if line == 0:
            draw_head(svg, (x, HEAD), COLUMN)
        draw_row(svg, (x, HEAD + ROW * (line + 1)), COLUMN, row, listing)
    put_remarks(svg, listing, rows)
    return svg


@dataclass(frozen=True)
class Part:
    """Lines of a structure that stand in one column, from `top` pixels below its head."""
    row: Numbered
    lines: list[Line]
    top: float
    is_rest: bool


def columns_of(rows: Sequence[Numbered], height: float) -> Iterator[list[Part]]:
    """The structures with all their lines, column after column. What has no room in a column continues in the next one."""
    room, parts, used = height - FOOT - HEAD, [], 0
    for row in rows:
        lines, is_rest = lines_of(row[1]), False
        while lines:
            count = int((room - used - TITLE) / LINE)
            if count < 1:
                yield parts
                parts, used = [], 0
                continue
            parts.append(Part(row, lines[:count], used, is_rest))
            used += TITLE + LINE * len(lines[:count])
            lines, is_rest = lines[count:], True
    if parts:
        yield parts


def draw_part(svg: Svg, at: Pixel, part: Part, listing: Listing) -> None:
    (x, y), (number, one) = at, part.row
    more = (" (continued)" if part.is_rest else "") + ("" if number in listing.shown else OFF_MAP) + (" *" if listing.is_old(one) else "")
    draw_title(svg, (x, y + TITLE), WIDE_COLUMN, part.row, more)
    for place, line in enumerate(part.lines):
        down, style = y + TITLE + 2.5 + LINE * place, Style(11.5, MARKS[line.finding].text)
        inward = 140 if line.paragraph else 40
        svg.words((x + 40, down), line.paragraph, style)
        svg.words((x + inward, down), picture.cut(line.surface, 11.5, WIDE_COLUMN - inward - 8 - picture.width_of(line.excess, 11.5)), style)
        svg.words((x + WIDE_COLUMN, down), line.excess, Style(11.5, style.fill, "end"))


def with_every_finding(first: Svg, listing: Listing) -> list[Svg]:
    """Sheets that list every finding of each structure."""
    out, columns = [], list(columns_of(listing.rows, first.height))
    for start in range(0, len(columns), WIDE_COLUMNS):
        some = columns[start:start + WIDE_COLUMNS]
        rows = [part.row for parts in some for part in parts]
        svg = new_sheet(first, f"Every finding of each structure: {numbers(rows)}")
        for column, parts in enumerate(some):
            x = LEFT + column * (WIDE_COLUMN + GAP)
            draw_head(svg, (x, HEAD), WIDE_COLUMN)
            for part in parts:
                draw_part(svg, (x, HEAD + part.top + ROW - TITLE), part, listing)
        put_remarks(svg, listing, rows)
        out.append(svg)
    return out


def sheets(first: Svg, rest: Sequence[Numbered], listing: Listing, head: str, source: str) -> list[Svg]:
    """A picture and as many further sheets as the rest of its table needs, or every finding. If there are several, each has its number."""
    a_sheet = COLUMNS * rows_of(first.height)
    out = [first] + (with_every_finding(first, listing) if listing.is_all else
                     [further(first, rest[start:start + a_sheet], listing, head) for start in range(0, len(rest), a_sheet)])
    for number, svg in enumerate(out, 1):
        if len(out) > 1:
            svg.words((WIDE - EDGE, 38), f"sheet {number} of {len(out)}", Style(13, SOFT, "end"))
        svg.words((WIDE - EDGE, svg.height - 14), f"oe-draw, from {source}. {DISCLAIMER}", Style(11.5, SOFT, "end"))
    return out
