"""What oe-from-nasr writes of the FAA's files: records, a table for oe-from-points, or a list of obstacles."""
import argparse
import csv
import sys

from office import desk, forms, nasr, tables
from office import obstacles as dof
from office.faults import Fault, FinalFault
from office.grids import Choice, Grid, OffGrid, keep, kept_choice, miles
from office.measures import Axis, degrees
from office.nasr import BASE, MILES, Cells
from office.points import Writer
from office.records import write_text
from office.updates import KeyedWriter, Maker, Office

LEADING_KEY = forms.spelling("[A-Za-z0-9._]{1,7}", "1 to 7 letters, digits, . and _")
TABLE = ("what", "id", "name", "lat", "lon", "elev_ft", "category", "width_ft", "use", "surface", "kind", "published_ft")


class Near:
    """Whether a place is near the one of --near; those without a place are counted."""
    def __init__(self, args: argparse.Namespace):
        lat, _, lon = (args.near or "0,0").partition(",")
        self.at = degrees(lat, Axis.LATITUDE, "--near"), degrees(lon, Axis.LONGITUDE, "--near")
        self.miles, self.without = MILES if args.miles is None else args.miles, 0

    def is_near(self, lat: str, lon: str) -> bool:
        try:
            return miles(self.at, (degrees(lat, Axis.LATITUDE, ""), degrees(lon, Axis.LONGITUDE, ""))) <= self.miles
        except Fault:
            self.without += 1
            return False


def chosen(args: argparse.Namespace, columns: Cells, ids: list[str]) -> tuple[nasr.Files, set[str]]:
    """The files of the airfields that were chosen, and the IDs of all."""
    near, known = Near(args), set()

    def is_chosen(row: Cells) -> bool:
        known.add(row["ARPT_ID"])
        return row["ARPT_ID"] in ids or bool(args.near) and near.is_near(row["LAT_DECIMAL"], row["LONG_DECIMAL"])
    files = nasr.read(args.folder, columns, is_chosen)
    alike = {name: next((f" (is it {one}?)" for one in (name.upper(), name[1:].upper()) if one in known), "") for name in args.id}
    missing = [name + hint for name, hint in alike.items() if name not in known]
    if missing:
        raise Fault(f"{BASE} has no ARPT_ID {', '.join(missing)}")
    if not files.base:
        raise Fault(f"{BASE} has no airfield " + (f"within {near.miles:g} miles of {args.near}" if args.near else f"of {args.over}"))
    if near.without:
        files.notes.append(f"rows of {BASE} without a place, which --near does not find: {near.without}")
    return files, known


def write_table(some: list[nasr.Airfield]) -> list[str]:
    """The rows for oe-from-points, blank cells for what is wanting, and what to say of them."""
    parts = [part for airfield in some for part in (airfield.own, *airfield.runways.values())]
    rows = [row.values for part in parts for row in part.rows]
    writer = csv.DictWriter(sys.stdout, TABLE, restval="", lineterminator="\n")
    writer.writeheader()
    writer.writerows(rows)
    lines = []
    for part in parts:
        lines += [f"look at this: {look}" for look in part.looks]
        lines += [f"{'to fill in' if part.rows else 'left out'}: {part.label}: {'; '.join(part.wanting)}"] if part.wanting else []
    return lines


def airfields(args: argparse.Namespace, columns: Cells, categories: Cells) -> list[str]:
    """Writes the records or the table, and gives what to say."""
    for name, word in categories.items():
        if not forms.CATEGORY.fits(word, {}):
            raise Fault(f"--category {name}={word}: wanted is {forms.CATEGORY.wanted}")
    office = Office(args.over)
    files, known = chosen(args, columns, args.id + ([] if args.id or args.near else office.ids()))
    unknown = sorted(set(categories) - {row["ARPT_ID"] for row in files.base})
    if unknown:
        raise Fault(f"--category {unknown[0]}: no such airfield is chosen")
    some = nasr.airfields(files, categories)
    if args.table:
        return files.notes + write_table(some)
    key = args.key or files.cycle
    if not key:
        raise Fault(f"{BASE} has no one EFF_DATE, so say --key, another one for each 28 days")
    if not LEADING_KEY.fits(key, {}):
        raise Fault(f"--key {key}: wanted is {LEADING_KEY.wanted}, as the airfield and the runway follow it")
    grid = made_grid(args)
    maker = Maker(KeyedWriter(grid, args.caller, key), args.over, office, set(categories))
    for airfield in some:
        maker.take(airfield)
    if not (args.id or args.near):
        maker.look_for_unknown(known)
    keep_grid(args, grid)
    sys.stdout.writelines(record + "\n" for record in maker.writer.records)
    counts = ", ".join(f"{words} {count}" for words, count in maker.counts.items())
    return grid.words() + files.notes + maker.writer.notes + maker.lines + [f"records: {len(maker.writer.records)}" + (f" ({counts})" if counts else "")]


def made_grid(args: argparse.Namespace) -> Grid:
    return Grid(kept_choice(Choice(args.crs, args.origin, args.datum), args.grid))


def keep_grid(args: argparse.Namespace, grid: Grid) -> None:
    if args.grid:
        keep(grid.choice, args.grid)


def write_list(args: argparse.Namespace, some: list[dof.Obstacle], records: list[str]) -> str:
    """Which obstacle exceeds which surface, by the replies of a desk in memory over the office's airfields."""
    before = desk.stored(args.over).airfields()
    content = "".join(record + "\n" for record in records).encode()
    pairs = desk.asked(content, before, args.dof, desk.program(args.oe))[len(before):]
    rows = dof.exceeding(zip(some, pairs))
    csv.writer(sys.stdout, lineterminator="\n").writerows([dof.LIST_HEAD, *rows])
    return f"obstacles that exceed a standard: {len({row[3] for row in rows})}"


def structures(file: dof.Obstacles, some: list[dof.Obstacle], writer: Writer) -> tuple[list[dof.Obstacle], int]:
    """Writes a record for each obstacle, and gives those that have one, and how many lie outside of the grid."""
    out, outside = [], 0
    for one in some:
        try:
            writer.take(one.row())
            out.append(one)
        except FinalFault:
            raise
        except OffGrid:
            outside += 1
        except Fault as fault:
            file.left_out += str(fault).splitlines()
    return out, outside


def obstacles(args: argparse.Namespace, columns: Cells) -> list[str]:
    """Writes the records or the list, and gives what to say."""
    file, near, grid = dof.read(args.dof, columns), Near(args), made_grid(args)
    standing = [one for one in file.some if one.action != dof.DISMANTLED]
    close = [one for one in standing if not args.near or near.is_near(one.lat, one.lon)]
    writer = Writer(grid, args.caller, "")
    some, outside = structures(file, close, writer)
    keep_grid(args, grid)
    if args.names:
        write_text(args.names, tables.csv_text(writer.names))
    counts = {"dismantled": len(file.some) - len(standing), "not near": len(standing) - len(close) - near.without, "without a place": near.without,
              "outside of the zone or the grid": outside, "refused": len(close) - len(some) - outside, "not readable": file.unread}
    lines = grid.words() + file.notes + [f"left out: {line}" for line in file.left_out]
    lines.append(f"obstacles: {len(file.some) + file.unread}" + "".join(f"; {words} {count}" for words, count in counts.items() if count) + f"; asked {len(some)}")
    if args.over:
        lines.append(write_list(args, some, writer.records))
    else:
        sys.stdout.writelines(record + "\n" for record in writer.records)
    return lines
