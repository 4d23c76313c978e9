"""Replies in words: heights in feet, the paragraph of 14 CFR Part 77, what was refused and what is wanted."""
from collections.abc import Iterable
from itertools import zip_longest

from office import forms
from office.desk import Pair
from office.records import TENTHS, Record, feet, show
from office.register import end_name
from office.replies import (ENDS, ENTRIES_OF_DETERMINATION, MALFORMED, NONE, NOT_STANDING, Accepted, AirfieldRow, AsOf, CaseState, Ceiling, Entry,
                            Found, Refusal, Report, Review, Stations, Sync, Verdict, read_entries)

STATUSES = {"awaiting": "awaiting its determination", "inforce": "in force", "hazard": "a HAZARD in effect"}  # and others, as they are
NO_NOTICE = "no notice rule that the desk knows is met"
NOT_ASKED = "notice rules were not asked: flag S, D or R takes them away (77.9(e))"
REFUSALS = {  # {0} and {1} are the values of the refusal
    2: "a utility runway cannot have a precision approach, nor be planned for one",
    3: "no airfield of this ID is registered: register it first, or look for a misspelt ID",
    4: "the airport has no runway of this name",
    5: "a runway is 100 to 20,000 ft long: are the coordinates tenths of a foot?",
    6: "an end of a runway is more than 40,000 ft east or north of the reference point, or west or south: are all on one grid?",
    7: "the airport has 16 runways, and no more are taken",
    8: "16,384 airfields are registered, and no more are taken",
    9: "an elevation is below -2,000 ft or above 20,000 ft: is it in tenths of a foot?",
    10: "the area of a heliport is 10 to 1,000 ft long and 10 to 500 ft wide",
    11: "this ID is an airfield of the other sort (airport, heliport)",
    12: "a date that follows from it would be before 1900 or after 2999",
    14: "there is no case of this number",
    15: "the desk has 300,000 cases, and no more are taken",
    16: "the desk's day is {0} and does not go back to {1}",
    17: "the case is {0}, and this act does not come then",
    18: "a standard is exceeded: say none or substantial for its adverse effect",
    19: "no standard is exceeded: say - for the finding",
    20: "this determination has no deadline, so no petition against it is taken",
    21: "petitions were due by {0}, and it is {1}",
    22: "a petition is pending already",
    23: "no petition is pending",
    24: "an extension or a revision was to be asked for by {0}, and it is {1}",
    25: "structural work has started, so nothing is extended or revised",
    26: "it was extended before; without an FCC application that is done once",
    27: "the evidence of the FCC application is wanting (77.35(c))",
    28: "this CALLER and KEY stand for another request, entry {0}: take a new KEY",
    29: "the desk has no day yet: send a `day` record first",
    30: "it could not be stored in the file: look at the disk and its permissions, then send it again",
    31: "memory was wanting: send it again",
    32: "no form is due on this case",
    33: "the case has this ground and this height already",
    34: "it was revised 255 times, and no more are counted",
    35: "a way has at most 64 stations: end it with -, and begin the next one where it ends",
    36: "KIND, MOBILE, FLAGS and ON are those of the way's first station",
    37: "the way that ends here has no station",
    38: "a station is a point of a road, railroad or waterway, and no object or antenna",
    39: "this run can tell lists as of entries {0} to {1} alone: for an older one run the records from the start",
}


def feet_of(tenths: int) -> str:
    return f"{show(tenths / TENTHS)} ft"


def parts_of(entry: Entry) -> tuple[str, int]:
    """The runway of a finding, nothing at a heliport, and the number of the end or 0: its key is `09/27.1`, or `1`."""
    runway, _, number = entry.key.rpartition(".")
    return runway, int(number)


def key_of(entry: Entry) -> str:
    """The key of a finding in words: the runway, or the runway end by its own designator, and beside what a transitional surface lies."""
    name = entry.rule.name
    if name not in ENDS:
        return entry.key
    runway, number = parts_of(entry)
    if name == "19e":
        return f"{end_name(runway, number)}, beside its approach surface" if number else f"{runway}, beside its primary surface"
    if name == "23t":
        return f"beside the approach surface of end {number}" if number else "beside the primary surface"
    return end_name(runway, number) if runway else f"end {number}"


def short_key(entry: Entry) -> str:
    """The key of a finding in a picture, which has the same numbers at the approaches of a heliport."""
    if entry.rule.name not in ENDS:
        return "" if entry.key == NONE else entry.key
    runway, number = parts_of(entry)
    if runway:
        return end_name(runway, number) if number else runway
    return (f"beside approach {number}" if entry.rule.name == "23t" else str(number)) if number else ""


def excess_of(entry: Entry) -> str:
    if entry.rule.name == "9d":
        return ""
    return f"by {feet_of(entry.excess)}" if entry.excess else "by less than 0.1 ft"


def say_entry(entry: Entry) -> tuple[str, str, str]:
    return entry.rule.paragraph, entry.rule.words.format(airfield=entry.airfield, key=key_of(entry)), excess_of(entry)


def say_entries(entries: Iterable[Entry], notes: Iterable[str] = ()) -> list[str]:
    """Standards first, then what requires a notice, with the excesses in a column and a note behind each."""
    rows = [(entry.rule.is_standard, *say_entry(entry), note) for entry, note in zip_longest(entries, notes, fillvalue="")]
    wide, out = max((len(row[2]) for row in rows), default=0), []
    for is_standard, head in ((True, "OBSTRUCTION, it exceeds:"), (False, "NOTICE to the FAA is required (Form 7460-1), it meets:")):
        some = [row for row in rows if row[0] == is_standard]
        out += [head] if some else []
        out += [f"  {paragraph:<15} {text:<{wide}}  {excess}{note}".rstrip() for _, paragraph, text, excess, note in some]
    if rows and all(row[0] for row in rows):
        out.append(NO_NOTICE)
    return out or ["no rule that the desk knows is met"]


def say_ceiling(height: int | None, entries: Iterable[Entry], flags: str) -> list[str]:
    """With a flag that takes the notice rules away the height is that of the standards alone."""
    is_exempt = any(letter in flags for letter in forms.EXEMPT)
    none, some = ("no standard is exceeded", "a standard is exceeded") if is_exempt else ("without a finding", "it has a finding")
    head = f"at every height {some}:" if height is None else f"{none} up to {feet_of(height)} above the ground; 0.1 ft higher:"
    return [head, *(NOT_ASKED if is_exempt and line == NO_NOTICE else line for line in say_entries(entries))]


def say_lateness(text: str) -> str:
    days = text.removeprefix("late ")
    return "in time" if days == text else f"late by {days} {'day' if days == '1' else 'days'}"


def say_effect(effective: str, expiry: str) -> str:
    return f"{'no effective day' if effective == NONE else f'effective {effective}'}; {'no expiry' if expiry == NONE else f'expires {expiry}'}"


def say_dates(deadline: str, effective: str, expiry: str) -> str:
    petitions = "no petition may come" if deadline == NONE else f"petitions until {deadline}"
    return f"{petitions}; {say_effect(effective, expiry)}"


def say_status(status: str) -> str:
    return STATUSES.get(status, status)


def say_decision(decision: str) -> str:
    return {"nohazard": "NO HAZARD", "hazard": "HAZARD"}.get(decision, decision)


def say_notice(case: str, timely: str, fcc: str, presumed: str) -> list[str]:
    due = timely.removeprefix("emergency ")
    out = [f"filed as case {case}; " + (f"an emergency, its form is due by {due}" if due != timely else f"the notice is {say_lateness(timely)}")]
    if fcc != NONE:
        out.append(f"counted from the FCC application the notice is {say_lateness(fcc)}")
    if presumed != NONE:
        out.append(f"more than 2,000 ft, {presumed}: presumed a hazard (77.7(d))")
    return out


def say_determination(values: tuple[str, ...]) -> list[str]:
    case, decision, _, issued, deadline, effective, expiry, _ = values[:ENTRIES_OF_DETERMINATION]
    head = f"case {case}: {say_decision(decision)}, issued {issued}; {say_dates(deadline, effective, expiry)}"
    return [head, *say_entries(read_entries(list(values[ENTRIES_OF_DETERMINATION:])))]


def say_act(form: str, values: tuple[str, ...]) -> list[str]:
    match form, values:
        case "case", (case, timely, fcc, presumed):
            return say_notice(case, timely, fcc, presumed)
        case "determine" | "revise", _:
            return say_determination(values)
        case "form", (case, late):
            return [f"case {case}: the form came, {say_lateness(late)}"]
        case "petition", (case,):
            return [f"case {case}: a petition is pending"]
        case "abandon", (case,):
            return [f"case {case}: given up"]
        case "dispose", (case, "reverse", _, _):
            return [f"case {case}: reversed"]
        case "dispose", (case, _, effective, expiry):
            return [f"case {case}: affirmed; {say_effect(effective, expiry)}"]
        case "extend", (case, expiry, last):
            return [f"case {case}: expires {expiry} now; the last day to ask for another extension is {last}"]
        case "fcc", (case, expiry):
            return [f"case {case}: expires {expiry} now"]
    return [" ".join([form, *values])]


def say_accepted(record: Record, reply: Accepted) -> list[str]:
    name = " ".join(record.values[key] for key in ("ID", "NAME", "DATE") if key in record.values)
    match reply.form:
        case "airport" | "heliport" | "runway":
            out = [f"{reply.form} {name} is registered"]
        case "drop" | "droprunway":
            out = [f"{'airfield' if reply.form == 'drop' else 'runway'} {name} is taken out"]
        case "day":
            out = [f"the desk's day is {name}"]
        case "closed":
            out = [f"{name} is a closed day"]
        case _:
            out = say_act(reply.form, reply.values)
    return [f"entry {reply.number}: {out[0]}", *out[1:]]


def say_foreign(form: str) -> str:
    """Why a form that there is was refused at its own field."""
    if form == forms.AS_OF:
        return "`oe asof` alone answers it, and only where the line begins with just `asof,`, without a quote or a byte order mark"
    return f"`oe ceiling` and `oe stations` read `screen` records, and this is `{form}`"


def say_malformed(record: Record, number: int) -> list[str]:
    head = f"REFUSED ({MALFORMED})"
    if number == 0:
        return [f"{head}: the line is longer than 8,192 bytes, or it is not one record (a quote or a line's end is out of place)"]
    if number == 1 and record.form in forms.FORMS:
        return [f"{head} at field 1: {say_foreign(record.form)}"]
    if record.form not in forms.FORMS:
        why = forms.about_form(record.form)
        return [f"{head} at field 1: no record begins with {forms.quoted(record.form)}" + (f" ({why})" if why else "")]
    form = forms.FORMS[record.form]
    if number > len(form) + 1:
        return [f"{head} at field {number}: {forms.size(record.form)} (a spreadsheet pads lines with commas; oe-clean takes them off)"]
    field = form[number - 2]
    if number > len(record.fields):
        return [f"{head} at field {number}, {field.name}: it is wanting; wanted is {field.wanted}"]
    text = record.fields[number - 1]
    why = forms.cause(text, field)
    return [f"{head} at field {number}, {field.name}: {forms.quoted(text)}" + (f" ({why})" if why else "") + f"; wanted is {field.wanted}"]


def say_refusal(record: Record, reply: Refusal) -> list[str]:
    if reply.number == MALFORMED:
        return say_malformed(record, int(reply.values[0]))
    values = map(say_status, reply.values) if reply.number == NOT_STANDING else reply.values
    return [f"REFUSED ({reply.number}): " + REFUSALS.get(reply.number, reply.name).format(*values)]


def say_case(state: CaseState) -> list[str]:
    out = [f"case {state.case} is {say_status(state.status)}"]
    if state.decision != NONE:
        decision = "" if state.status == "hazard" else f": {say_decision(state.decision)}"
        out = [f"{out[0]}{decision}, issued {state.issued}", say_dates(state.deadline, state.effective, state.expiry)]
    if state.last_day != NONE:
        out.append(f"the last day to ask for an extension is {state.last_day}")
    if state.mark == "marked":
        out.append("MARKED FOR REVIEW, its findings would now be others")
    return ["; ".join(out)]


def say_row(values: tuple[str, ...]) -> list[str]:
    if values[0] == "airport":
        _, category, x, y, elevation = values
        return [f"airport, {category}, reference point {show(feet(x))} ft east {show(feet(y))} ft north, {show(feet(elevation))} ft above mean sea level"]
    _, category, xa, ya, xb, yb, width, elevation = values
    return [f"heliport, {category}, axis from {show(feet(xa))} ft east {show(feet(ya))} ft north to {show(feet(xb))} ft east {show(feet(yb))} ft north, "
            f"{show(feet(width))} ft wide, {show(feet(elevation))} ft above mean sea level"]


def say_last(changes: int) -> str:
    return f"the last accepted change is entry {changes}" if changes else "no change was accepted yet: was --db forgotten, or another file named?"


def yes_or_no(value: bool) -> str:
    return "yes" if value else "no"


def say(pair: Pair) -> list[str]:
    """What a reply says, in lines."""
    match pair.reply:
        case Refusal() as reply:
            return say_refusal(pair.record, reply)
        case Accepted() as reply:
            return say_accepted(pair.record, reply)
        case Found(_, entries):
            return say_entries(entries)
        case Ceiling(_, height, entries):
            return say_ceiling(height, entries, pair.record.values["FLAGS"])
        case AsOf(number, entries):
            return [f"over the airfields after entry {number}:", *say_entries(entries)]
        case Stations(_, _, entries, firsts):
            return say_entries(entries, [f" at station {first}" for first in firsts])
        case Verdict(_, notice, obstruction, count):
            return [f"notice required: {yes_or_no(notice)}; obstruction: {yes_or_no(obstruction)}; findings: {count} (`screen` lists them)"]
        case CaseState() as state:
            return say_case(state)
        case AirfieldRow(values):
            return say_row(values)
        case Review(cases):
            return [f"cases marked for review: {', '.join(cases) or 'none'}"]
        case Sync(changes):
            return [say_last(changes)]
        case Report(name, some):
            return [f"report {name}, lines: {len(some)}", *some]
