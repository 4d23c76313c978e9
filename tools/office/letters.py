"""A letter about a case's determination: what it says, of the desk's replies, and its pictures. How it is printed is in office.paper."""
import math
from collections.abc import Iterator, Mapping, Sequence
from dataclasses import dataclass
from datetime import date
from enum import Enum
from typing import TYPE_CHECKING

from office import plan, profile, words
from office.cases import Case, Determination, Office
from office.faults import Fault
from office.picture import Svg
from office.plan import STRUCTURES_WITHIN
from office.records import show
from office.register import AIRFIELD_FORMS, Airfield, Airport, Heliport, Register, register_after
from office.replies import NONE, Entry
from office.structures import Structure, finding_of
from office.surfaces import Line, has_surfaces

if TYPE_CHECKING:
    from office.grids import Grid

KINDS = {"object": "object", "antenna": "antenna structure", "interstate": "interstate highway", "road": "public road", "private": "private road", "rail": "railroad",
         "water": "waterway or other way"}
FLAGS = {"S": "shielded by others (77.9(e)(1))", "D": "a device with approved siting (77.9(e)(2))", "R": "notice is required by another regulation (77.9(e)(3))",
         "I": "increases another antenna structure (77.9(e)(4))", "G": "an operative ground traffic control service is there (77.17(b))", "T": "temporary"}
DECISIONS = {"nohazard": "no hazard", "hazard": "hazard"}
OVER = ("abandoned", "reversed", "expired")  # what takes no petition
NO_DETERMINATION_OF_FAA = ("This is no determination of the Federal Aviation Administration (FAA). It says what an obstruction evaluation desk replied by the words of 14 CFR Part 77, for the "
                           "numbers that were entered. Only the FAA decides whether a structure is a hazard to air navigation.")
NOT_ASKED = ("Not asked: the heights of terminal and en route obstacle clearance areas (77.17(a)(3) and (4)), the surfaces of military airports (77.21), aids to navigation, marking and lighting, "
             "terrain, and airfields that are not registered at the desk.")
WHO = ("It may come from the sponsor, from whoever gave a substantive aeronautical comment on the proposal in time, and from whoever has such a comment and had no "
       "opportunity to state it (77.37(a)).")
NO_PROFILE = "No profile is shown: the structure stands beyond the side view of every runway and heliport of the plan."
FEET_WIDER = 1_000  # by which a profile is widened until the structure is in it


def day_words(text: str) -> str:
    """A day as it stands in a letter: January 15, 2026."""
    at = date.fromisoformat(text)
    return f"{at:%B} {at.day}, {at.year}"


def angle(value: float, letters: str) -> str:
    """An angle in degrees, minutes and hundredths of a second, as the FAA writes them."""
    hundredths = round(abs(value) * 360_000)
    degrees, rest = divmod(hundredths, 360_000)
    minutes, seconds = divmod(rest, 6_000)
    return f"{degrees:0{2 if letters == 'NS' else 3}d}-{minutes:02d}-{seconds / 100:05.2f}{letters[0 if value >= 0 else 1]}"


def place_words(grid: "Grid | None", at: tuple[int, int]) -> str:
    """Latitude and longitude of a point on the grid, in tenths of a foot, with the datum that they are of; nothing without a grid."""
    if grid is None:
        return ""
    lat, lon = grid.degrees(*at)
    return f"{angle(lat, 'NS')} {angle(lon, 'EW')} ({grid.datum.name})"


class Look(Enum):
    """How a part of a letter is printed."""
    TITLE = "title"
    BOXED = "boxed"
    HEADING = "heading"
    TEXT = "text"
    SMALL = "small"
    FACTS = "facts"
    SIGNATURE = "signature"


@dataclass(frozen=True)
class Part:
    """A part of a letter: words, or rows of a name and a value."""
    look: Look
    words: str = ""
    rows: tuple[tuple[str, str], ...] = ()


@dataclass(frozen=True)
class Subject:
    """A case with its determination, and what is known beside the office's file."""
    office: Office
    case: Case
    determination: Determination
    name: str
    place: str  # latitude and longitude in words, or nothing

    @property
    def title(self) -> str:
        return f"Study {self.case.study}"


def decided(office: Office, asked: str) -> tuple[Case, Determination]:
    """The case that was asked for, if it is there and was decided."""
    if not office.cases:
        raise Fault(f"there is no case {asked}" if asked.isdecimal() else f"no case has the study {asked}")
    (case,) = office.cases
    if case.determination is None:
        raise Fault(f"case {case.number} (study {case.study}) is {case.state.status}: it has no determination to write of")
    return case, case.determination


def notice_words(case: Case) -> str:
    out = f"received {day_words(case.facts['RECEIVED'])}, "
    if case.form_due != NONE:
        came = "has not come" if case.facts["FORM_CAME"] == NONE else f"came {day_words(case.facts['FORM_CAME'])}"
        out += f"as an emergency (77.7(e)), whose completed form was due {day_words(case.form_due)} and {came}"
    else:
        out += f"{words.say_lateness(case.timely)} (77.7(b))"
    if case.fcc != NONE:
        out += f"; counted from the application to the FCC {words.say_lateness(case.fcc)} (77.7(c))"
    return f"{out}; work to start {day_words(case.facts['START'])}"


def structure_facts(one: Subject) -> Iterator[tuple[str, str]]:
    case = one.case
    yield "Case", f"{case.number} of this office's desk"
    yield "Structure", ", ".join(word for word in (one.name, KINDS[case.facts["KIND"]]) if word)
    place = f"{show(case.feet('X'))} ft east, {show(case.feet('Y'))} ft north on the office's grid"
    if one.place:
        place = f"{one.place}; {place}"
    yield "Place", place
    ground, height = case.feet("GROUND"), case.feet("HEIGHT")
    yield "Heights", f"{show(height)} ft above the ground, which is {show(ground)} ft above mean sea level; top {show(ground + height)} ft above mean sea level"
    if case.facts["FLAGS"] != NONE:
        yield "Facts", "; ".join(FLAGS[letter] for letter in case.facts["FLAGS"])
    if case.facts["ON"] != NONE:
        yield "On the airfield", case.facts["ON"]
    yield "Notice", notice_words(case)
    presumed = case.notice.reply.values[3]
    if presumed != NONE:
        yield "Presumption", f"more than 2,000 ft, {presumed}: presumed a hazard (77.7(d))"


def decision_words(one: Subject) -> str:
    how = "as a revision, on the new facts above (77.35(a))" if one.determination.form == "revise" else "on the notice"
    return (f"Issued {day_words(one.determination.issued)} {how}, over the airfields as they were registered after entry "
            f"{one.determination.version} of the desk.")


def list_parts(case: Case, entries: Sequence[Entry], when: str = "") -> Iterator[Part]:
    """What is exceeded and what is met: the paragraph, and the words with the excess."""
    for is_standard, head in ((True, "Obstruction standards that it exceeds"), (False, "Rules by which notice to the FAA is required (Form 7460-1)")):
        some = [words.say_entry(entry) for entry in entries if entry.rule.is_standard == is_standard]
        rows = tuple((paragraph, f"{text} {excess}".strip()) for paragraph, text, excess in some)
        none = ("none", "of those that the desk knows") if is_standard or not case.is_exempt else ("not asked", "the facts above exempt it from notice (77.9(e))")
        yield Part(Look.HEADING, f"{head}{when}")
        yield Part(Look.FACTS, rows=rows or (none,))


def status_words(case: Case) -> str:
    match case.state.status:
        case "pending":
            return "not yet effective: a petition is pending" if case.is_petitioned else "not yet effective"
        case "hazard":
            return "in effect; a determination of hazard does not expire (77.33(c))"
        case "abandoned":
            return "the structure was given up (77.33(b))"
        case "reversed":
            return "reversed on a petition"
    return {"inforce": "in force", "expired": "expired"}[case.state.status]


def date_facts(one: Subject) -> Iterator[tuple[str, str]]:
    state = one.case.state
    yield "Petitions until", day_words(state.deadline) if state.deadline != NONE else "none are taken"
    yield "Effective", day_words(state.effective) if state.effective != NONE else "no day is set"
    if state.expiry != NONE:
        yield "Expires", f"{day_words(state.expiry)} (77.33)"
    if state.last_day != NONE:
        yield "Last day for an extension", f"{day_words(state.last_day)}, to ask for it (77.35)"
    yield f"On {day_words(one.office.day)}", status_words(one.case)


def petition_words(one: Subject) -> str:
    state = one.case.state
    if state.deadline == NONE:
        why = "no obstruction standard is exceeded" if not any(entry.rule.is_standard for entry in one.determination.entries) else "the structure is temporary"
        return f"No petition against it is taken (77.37(b)): it finds no hazard, and {why}."
    until = f"A petition for discretionary review had to be received by {day_words(state.deadline)} (77.39(a), (c))."
    if state.deadline < one.office.day:
        return f"{until} That day has passed." + (" One is pending." if one.case.is_petitioned else "")
    if state.status in OVER:
        return f"{until} The case is {state.status}, so none is taken now."
    return until.replace("had to", "has to") + f" {WHO}" + (" One is pending, so no day is set on which the determination becomes effective." if one.case.is_petitioned else "")


def review_words(one: Subject) -> str:
    return (f"Marked for review: the airfields have changed since, and on {day_words(one.office.day)} the desk's list for this structure is another one than the one above. The determination and its "
            "dates stand until the office decides otherwise.")


def parts(one: Subject, has_profile: bool) -> Iterator[Part]:
    """The letter below its address, without its pictures."""
    yield Part(Look.TITLE, f"{one.title}: evaluation under 14 CFR Part 77")
    yield Part(Look.BOXED, NO_DETERMINATION_OF_FAA)
    yield Part(Look.FACTS, rows=tuple(structure_facts(one)))
    yield Part(Look.HEADING, f"Decision: {DECISIONS[one.determination.decision]}")
    yield Part(Look.TEXT, decision_words(one))
    yield from list_parts(one.case, one.determination.entries)
    yield Part(Look.HEADING, "Dates")
    yield Part(Look.FACTS, rows=tuple(date_facts(one)))
    yield Part(Look.HEADING, "Petitions (77.37, 77.39)")
    yield Part(Look.TEXT, petition_words(one))
    if one.case.is_marked:
        yield Part(Look.HEADING, "Review")
        yield Part(Look.TEXT, review_words(one))
        yield from list_parts(one.case, one.case.now, f", as of {day_words(one.office.day)}")
    yield Part(Look.SMALL, NOT_ASKED if has_profile else f"{NOT_ASKED} {NO_PROFILE}")
    yield Part(Look.SIGNATURE, "for the office")


def airfields_then(one: Subject) -> Register:
    """The airfields that the determination was made over."""
    before = (receipt for receipt in one.office.receipts if receipt.number <= one.determination.version and receipt.form in AIRFIELD_FORMS)
    return register_after(receipt.pair for receipt in before)


def shown_airfields(airfields: Mapping[str, Airfield], structure: Structure) -> list[Airfield]:
    """Those of the findings; where there are none the nearest one that is not far."""
    named = {entry.airfield for entry in structure.entries}
    some = [airfields[name] for name in sorted(airfields) if name in named]
    near = sorted(airfields.values(), key=lambda one: math.dist(one.at, structure.at))[:1]
    return some or [one for one in near if math.dist(one.at, structure.at) < STRUCTURES_WITHIN]


def structure_of(one: Subject) -> Structure:
    case, entries = one.case, one.determination.entries
    at = case.feet("X"), case.feet("Y")
    return Structure(case.number, one.name or case.study, at, case.feet("GROUND"), case.feet("HEIGHT"), finding_of(entries), entries, one.determination.version)


def runway_lines(airport: Airport) -> dict[str, Line]:
    return {name: Line(runway.ends[0].at, runway.ends[1].at) for name, runway in airport.runways.items()}


def side_to_draw(airfields: Sequence[Airfield], structure: Structure) -> str | None:
    """The runway or the heliport whose surface is exceeded most, or whose slope is met most, or else the runway whose centerline is nearest: as ID:RUNWAY or ID."""
    drawn = {one.id: one for one in airfields if has_surfaces(one) and not (isinstance(one, Airport) and not one.runways)}
    for entry in sorted(structure.entries, key=lambda one: (not one.rule.is_standard, -one.excess)):
        airfield, runway = drawn.get(entry.airfield), entry.key.split(".")[0]
        if isinstance(airfield, Heliport):
            return airfield.id
        if airfield and runway in airfield.runways:
            return f"{airfield.id}:{runway}"
    lines = {f"{one.id}:{name}": line for one in drawn.values() if isinstance(one, Airport) for name, line in runway_lines(one).items()}
    pads = {one.id: Line(*one.ends) for one in drawn.values() if isinstance(one, Heliport)}
    return min({**lines, **pads}.items(), key=lambda side: abs(side[1].place(structure.at)[1]), default=(None, None))[0]


def profile_of(airfields: Mapping[str, Airfield], side: str, structure: Structure, source: str) -> list[Svg]:
    """The side view, as far out and as wide as the structure stands; nothing where it stands beyond the longest."""
    for is_whole in (False, True):
        options = profile.Options(None, source, whole=is_whole)
        line = profile.side_of(dict(airfields), side, options)
        along, left = line.line.place(structure.at)
        if line.west <= along <= line.east:
            within = max(line.beside, math.ceil(abs(left) / FEET_WIDER) * FEET_WIDER)
            return profile.draw(dict(airfields), side, [structure], profile.Options(None, source, within, is_whole))
    return []


def pictures(one: Subject, source: str) -> tuple[list[Svg], list[Svg]]:
    """The plan, and the profile if there is one that has the structure, over the airfields that the determination was made over."""
    register, structure = airfields_then(one), structure_of(one)
    shown = shown_airfields(register.airfields, structure)
    title = f"{one.title}: over the airfields after entry {one.determination.version}"
    side = side_to_draw(shown, structure)
    return (plan.draw(shown, [structure], 0, plan.Options(title, source, register.last_change)),
            profile_of(register.airfields, side, structure, source) if side else [])
