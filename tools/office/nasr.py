"""The FAA's airports as rows for points.Writer: APT_BASE.csv, APT_RWY.csv and APT_RWY_END.csv of the 28 day subscription.

Columns go by their names, which are from memory: no file of the FAA was at hand. What a file does not say is left blank and named."""
import csv
import os
import re
from collections import defaultdict
from collections.abc import Callable, Iterable, Iterator, Mapping
from dataclasses import dataclass, field
from decimal import ROUND_FLOOR, Decimal, InvalidOperation

from office.faults import Fault
from office.tables import Row

BASE, RUNWAYS, ENDS = "APT_BASE.csv", "APT_RWY.csv", "APT_RWY_END.csv"
WANTED = {
    BASE: ("ARPT_ID", "SITE_TYPE_CODE", "FACILITY_USE_CODE", "OWNERSHIP_TYPE_CODE", "LAT_DECIMAL", "LONG_DECIMAL", "ELEV"),
    RUNWAYS: ("ARPT_ID", "RWY_ID", "SURFACE_TYPE_CODE"),
    ENDS: ("ARPT_ID", "RWY_ID", "RWY_END_ID", "LAT_DECIMAL", "LONG_DECIMAL", "RWY_END_ELEV", "FAR_PART_77_CODE"),
}
USEFUL = {  # columns that may be missing, and what follows
    BASE: {"ARPT_NAME": "airfields have no names here", "ARPT_STATUS": "a closed airfield is not left out", "EFF_DATE": "--key is wanted"},
    RUNWAYS: {"RWY_LEN": "no length is compared", "RWY_WIDTH": "the area of a heliport is not named"},
    ENDS: {},
}
PART_77 = {  # use and approach by FAR_PART_77_CODE
    "A(V)": ("utility", "V"), "A(NP)": ("utility", "NA"), "B(V)": ("other", "V"), "C": ("other", "NA"), "D": ("other", "NL"), "PIR": ("other", "P"),
}
MINIMUMS_UNKNOWN = "A(NP)"  # says nonprecision, and not whether its minimums are above 3/4 mile, which counts if the runway is no utility one
HARD, SOFT, PREPARED = {"CONC", "ASPH", "PEM"}, {"TURF", "DIRT", "GRAVEL", "GRVL", "SNOW", "ICE"}, {"MATS", "TREATED", "TRTD"}
WATER = "WATER"
MILES = 12  # no surface reaches farther than 52,000 ft from a runway's end, and few reference points lie a mile and a half from one
SITES = {"C": "a seaplane base: it is an airport only if visual markers outline its sea lanes (77.3)", "G": "a gliderport", "B": "a balloonport", "U": "an ultralight field"}
AIRPORT, HELIPORT, OPERATIONAL = "A", "H", "O"
CLOSED = {"CI": "closed indefinitely", "CP": "closed permanently"}
PUBLIC_USE, PRIVATE_USE = "PU", "PR"
OWNERS = {"PU": "private", "PR": "private", "MA": "dod", "MN": "dod", "MR": "dod", "CG": "federal"}  # the category of an airfield that is not open to the public
CIVIL_OWNERS = ("PU", "PR")

Cells = Mapping[str, str]


@dataclass
class Part:
    """An airport, a runway or a heliport: its rows, what is wanting so that it is left out, and what to look at."""
    label: str
    rows: list[Row] = field(default_factory=list)
    wanting: list[str] = field(default_factory=list)
    looks: list[str] = field(default_factory=list)


@dataclass
class Airfield:
    id: str
    base: Cells
    own: Part  # of the airport or heliport itself
    runways: dict[str, Part] = field(default_factory=dict)
    published: list[str] = field(default_factory=list)  # the names of all runways in APT_RWY.csv

    @property
    def form(self) -> str:
        return "heliport" if self.base["SITE_TYPE_CODE"] == HELIPORT else "airport"

    @property
    def is_closed(self) -> bool:
        return self.base["ARPT_STATUS"] in CLOSED


@dataclass
class Files:
    """The rows of the airfields that were chosen, each with its place in the file under `where`."""
    base: list[Cells] = field(default_factory=list)
    runways: dict[str, list[Cells]] = field(default_factory=lambda: defaultdict(list))
    ends: dict[tuple[str, str], list[Cells]] = field(default_factory=lambda: defaultdict(list))
    notes: list[str] = field(default_factory=list)

    @property
    def cycle(self) -> str:
        """The day from which they hold, as YYMMDD."""
        days = {one["EFF_DATE"] for one in self.base} - {""}
        return re.sub("[^0-9]", "", days.pop())[2:] if len(days) == 1 else ""


def path_of(folder: str, name: str) -> str:
    """A file by its name, in whichever letters."""
    try:
        there = [one for one in sorted(os.listdir(folder)) if one.lower() == name.lower()]
    except OSError as error:
        raise Fault(f"{folder}: {error.strerror}") from error
    return os.path.join(folder, there[0] if there else name)


@dataclass
class Columns:
    """Which column of a file is which of ours, what it lacks of the useful ones, and a fault if it lacks a wanted one."""
    path: str
    names: dict[str, str | None]
    lacking: list[str]
    fault: str

    def rows(self) -> Iterator[Cells]:
        """The rows by our names, each with its place under `where`."""
        try:
            with open(self.path, newline="", encoding="utf-8-sig", errors="replace") as file:
                reader = csv.DictReader(file)
                for row in reader:
                    cells = {ours: (row.get(theirs) or "").strip() if theirs else "" for ours, theirs in self.names.items()}
                    yield {**cells, "where": f"{os.path.basename(self.path)} line {reader.line_num}"}
        except csv.Error as error:
            raise Fault(f"{self.path}: it is no CSV ({error})") from error


def columns_of(path: str, wanted: Iterable[str], useful: Iterable[str], others: Cells) -> Columns:
    """Columns by their names, or by the other names that `others` has."""
    try:
        with open(path, newline="", encoding="utf-8-sig", errors="replace") as file:
            there = {name.strip(): name for name in csv.DictReader(file).fieldnames or []}
    except OSError as error:
        raise Fault(f"{path}: {error.strerror}") from error
    except csv.Error as error:
        raise Fault(f"{path}: it is no CSV ({error})") from error
    names = {name: there.get(name) or there.get(others.get(name, "")) for name in (*wanted, *useful)}
    missing = [name for name in wanted if names[name] is None]
    fault = f"{path} has no column {', '.join(missing)} (its first line has {', '.join(there) or 'nothing'}); --column NAME=THEIRS says another name" if missing else ""
    return Columns(path, names, [name for name in useful if names[name] is None], fault)


def read(folder: str, others: Cells, is_chosen: Callable[[Cells], bool]) -> Files:
    """The rows of the airfields that are chosen by their row of APT_BASE.csv. All columns that are missing are named."""
    files = {name: columns_of(path_of(folder, name), WANTED[name], USEFUL[name], others) for name in (BASE, RUNWAYS, ENDS)}
    faults = [file.fault for file in files.values() if file.fault]
    if faults:
        raise Fault("\n".join(faults))
    out = Files(notes=[f"{file.path} has no column {column}: {USEFUL[name][column]}" for name, file in files.items() for column in file.lacking])
    out.base = [row for row in files[BASE].rows() if is_chosen(row)]
    ids = {row["ARPT_ID"] for row in out.base}
    for row in files[RUNWAYS].rows():
        if row["ARPT_ID"] in ids:
            out.runways[row["ARPT_ID"]].append(row)
    for row in files[ENDS].rows():
        if row["ARPT_ID"] in ids:
            out.ends[row["ARPT_ID"], row["RWY_ID"]].append(row)
    return out


def rounded_down(text: str) -> str:
    """Feet of an airfield to a tenth, down: against the structure. What is no number stays, to be refused by its column."""
    try:
        return str(Decimal(text).quantize(Decimal("0.1"), ROUND_FLOOR))
    except InvalidOperation:
        return text


def wanting(cells: Cells, *names: str) -> list[str]:
    return [f"{name} is blank" for name in names if not cells[name]]


def category_of(base: Cells, part: Part) -> str:
    """The category by use and owner; it is a proposal, so it is something to look at."""
    use, owner = base["FACILITY_USE_CODE"], base["OWNERSHIP_TYPE_CODE"]
    known = OWNERS.get(owner)
    category = "public" if use == PUBLIC_USE and known else known if use == PRIVATE_USE else None
    if category is None:
        part.wanting.append(f'FACILITY_USE_CODE is "{use}" and OWNERSHIP_TYPE_CODE "{owner}", which make no category; say it with --category')
        return ""
    hint = {"private": "it has no surfaces and asks no notice: `federal` if a Federal agency operates it, `procedure` if an instrument procedure is approved (77.9(d))",
            "dod": "it has no surfaces of 77.19, and those of military airports (77.21) are not asked",
            "public": "" if owner in CIVIL_OWNERS else "its owner is military or Federal: is it `dod` or `federal`?"}.get(category, "")
    part.looks.append(f"{part.label} is written as {category}, by FACILITY_USE_CODE {use} and OWNERSHIP_TYPE_CODE {owner}" + (f"; {hint}" if hint else ""))
    return category


def own_part(base: Cells, category: str) -> Part:
    """The row of an airport, or what is wanting of it."""
    part = Part(f"{base['ARPT_ID']} ({base['ARPT_NAME']})" if base["ARPT_NAME"] else base["ARPT_ID"])
    site, status = base["SITE_TYPE_CODE"], base["ARPT_STATUS"]
    if status not in (OPERATIONAL, ""):
        part.wanting.append(f"ARPT_STATUS is {status}" + (f", {CLOSED[status]}" if status in CLOSED else ""))
    elif site not in (AIRPORT, HELIPORT):
        part.wanting.append(SITES.get(site) or f'SITE_TYPE_CODE is "{site}", which is unknown')
    else:
        part.wanting += wanting(base, "LAT_DECIMAL", "LONG_DECIMAL", "ELEV")
        values = {"id": base["ARPT_ID"], "lat": base["LAT_DECIMAL"], "lon": base["LONG_DECIMAL"], "elev_ft": rounded_down(base["ELEV"]), "category": category or category_of(base, part)}
        part.rows.append(Row(base["where"], {"what": "airport", **values}))
    return part


def make_pad(part: Part, runways: list[Cells]) -> None:
    """What is known of a heliport: the axis of its takeoff and landing area is in no file, so two rows wait for its ends."""
    sizes = [f"{one['RWY_ID']} {one['RWY_LEN'] or '?'} by {one['RWY_WIDTH'] or '?'} ft" for one in runways]
    row = part.rows.pop()
    place = f"latitude {row.get('lat') or '?'}, longitude {row.get('lon') or '?'}, {row.get('elev_ft') or '?'} ft above mean sea level"
    part.wanting.append(f"a heliport at {place}, {'; '.join(sizes) or 'of unknown size'}: latitude and longitude of both ends of the axis of its takeoff and landing area are wanting")
    width = runways[0]["RWY_WIDTH"] if len(runways) == 1 else ""
    part.rows += [Row(row.where, {**row.values, "what": "pad", "lat": "", "lon": "", "width_ft": width})] * 2


def surface_of(code: str, part: Part) -> str:
    """Hard or soft by SURFACE_TYPE_CODE. A word that may mean either is hard, whose primary surface reaches farther (77.19(c))."""
    words = set(re.split("[-/ ]+", code)) - {""}
    if words and words <= HARD:
        return "hard"
    if words and words <= SOFT:
        return "soft"
    if words and words <= HARD | SOFT | PREPARED:
        part.looks.append(f"{part.label} is written as hard, as its surface {code} may count as specially prepared (77.19(c))")
        return "hard"
    part.wanting.append(f'SURFACE_TYPE_CODE is "{code}", which is unknown' if code else "SURFACE_TYPE_CODE is blank")
    return ""


def use_of(codes: Mapping[str, str], part: Part) -> str:
    """The use by the codes of both ends. A runway with an end of another use is no utility runway."""
    uses = {PART_77[code][0] for code in codes.values() if code in PART_77}
    for end, code in codes.items():
        if code not in PART_77:
            part.wanting.append(f"FAR_PART_77_CODE of end {end} is " + (f'"{code}", which is unknown' if code else "blank"))
    if len(uses) > 1 and MINIMUMS_UNKNOWN in codes.values():
        part.wanting.append(f"FAR_PART_77_CODE is {' and '.join(codes.values())}, one of a utility runway and one of another, and {MINIMUMS_UNKNOWN} has no minimums")
    elif len(uses) > 1:
        part.looks.append(f"{part.label} is written as other, as FAR_PART_77_CODE is {' and '.join(codes.values())}, one of a utility runway and one of another")
    known = all(code in PART_77 for code in codes.values())
    return "other" if "other" in uses else "utility" if known and uses else ""


def no_runway(runway: Cells) -> str:
    """Why a row of APT_RWY.csv is no runway of the desk, or nothing."""
    name = runway["RWY_ID"]
    if re.fullmatch("H[0-9]+", name):
        return "a helipad of an airport: register it as a heliport of its own, with the ends of its axis"
    if WATER in runway["SURFACE_TYPE_CODE"]:
        return "a water lane"
    return "" if name.count("/") == 1 else "its name has not two ends"


def runway_part(airfield: str, runway: Cells, ends: list[Cells]) -> Part:
    name = runway["RWY_ID"]
    part = Part(f"{airfield} {name}")
    why = no_runway(runway)
    by_end = {end["RWY_END_ID"]: end for end in ends}
    if not why and (len(ends) != 2 or set(by_end) != set(name.split("/"))):
        why = f"{ENDS} has ends {', '.join(end['RWY_END_ID'] or '?' for end in ends) or 'none'} of it"
    if why:
        part.wanting.append(why)
        return part
    in_order = [by_end[end] for end in name.split("/")]
    codes = {end["RWY_END_ID"]: end["FAR_PART_77_CODE"] for end in in_order}
    for end in in_order:
        part.wanting += [f"{words} at end {end['RWY_END_ID']}" for words in wanting(end, "LAT_DECIMAL", "LONG_DECIMAL", "RWY_END_ELEV")]
    both = {"what": "end", "id": airfield, "name": name, "use": use_of(codes, part), "surface": surface_of(runway["SURFACE_TYPE_CODE"], part),
            "published_ft": runway["RWY_LEN"]}
    for end in in_order:
        kind = PART_77.get(end["FAR_PART_77_CODE"], ("", ""))[1]
        is_open = both["use"] == "other" and end["FAR_PART_77_CODE"] == MINIMUMS_UNKNOWN
        part.rows.append(Row(end["where"], {**both, "lat": end["LAT_DECIMAL"], "lon": end["LONG_DECIMAL"], "elev_ft": rounded_down(end["RWY_END_ELEV"]),
                                            "kind": "" if is_open else kind}))
    return part


def airfield_of(base: Cells, files: Files, category: str) -> Airfield:
    name = base["ARPT_ID"]
    own, runways = own_part(base, category), files.runways[name]
    out = Airfield(name, base, own, published=[one["RWY_ID"] for one in runways])
    if base["SITE_TYPE_CODE"] == HELIPORT and own.rows:
        make_pad(own, runways)
    elif own.rows:
        out.runways = {one["RWY_ID"]: runway_part(name, one, files.ends[name, one["RWY_ID"]]) for one in runways}
        codes = sorted({end["FAR_PART_77_CODE"] for one in runways for end in files.ends[name, one["RWY_ID"]]} & {code for code, (_, kind) in PART_77.items() if kind != "V"})
        if own.rows[0].get("category") == "private" and codes and not category:
            own.looks.append(f"{own.label} has an approach of FAR_PART_77_CODE {', '.join(codes)}: is an instrument procedure approved?")
    return out


def airfields(files: Files, categories: Mapping[str, str]) -> list[Airfield]:
    """The airfields by ID; of an ID that two rows have, none."""
    rows = defaultdict(list)
    for one in files.base:
        rows[one["ARPT_ID"]].append(one)
    out = []
    for name, some in sorted(rows.items()):
        airfield = airfield_of(some[0], files, categories.get(name, ""))
        if len(some) > 1:
            lines = ", ".join(one["where"] for one in some)
            airfield = Airfield(name, some[0], Part(name, wanting=[f"its ID stands in several rows ({lines})"]))
        out.append(airfield)
    return out
