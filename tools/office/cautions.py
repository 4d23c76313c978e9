"""Where an answer may look better than it is: an empty desk, a misspelt airfield, numbers in the wrong place, a day that is far off."""
import math
from dataclasses import dataclass
from datetime import date

from office import forms
from office.desk import Pair
from office.records import TENTHS, show
from office.register import AIRFIELD_FORMS, NOT_DESCRIBED, Airfield, Airport, Heliport, Point, Register, heliport, point
from office.replies import NONE, Accepted, AsOf, Ceiling, Found, Stations, Verdict

FAR_AWAY = 200_000  # feet; no surface of an airport reaches as far
FEET_FOR_TENTHS = range(100, 1000)  # tallest structures of a file that may have been written in feet
TALLER_THAN_GROUND = 5000  # tenths of a foot; a taller structure on low ground is looked at twice
SAME_PLACE = {"airport": (Airport, 1_000), "heliport": (Heliport, 50)}  # feet between two IDs of one airfield
FAR_DAYS = 31
BEFORE_IT = "the day before it here"


def today() -> date:
    return date.today()


@dataclass
class Days:
    """The days that a `day` is compared with, by what they are: at first the machine's, and the office's if it is known, then the one before it."""
    known: dict[str, date]

    @classmethod
    def of_office(cls, stored: str | None = None) -> "Days":
        return cls({"this machine's day": today(), **({"the office's day": date.fromisoformat(stored)} if stored else {})})

    def cautions(self, text: str) -> list[str]:
        day, out = date.fromisoformat(text), []
        for what, other in self.known.items():
            apart = (day - other).days
            if abs(apart) > FAR_DAYS:
                out.append(f"this day is {abs(apart):,} days {'after' if apart > 0 else 'before'} {other}, {what}: is it mistyped? The desk's day never goes back")
        self.known = {BEFORE_IT: day}
        return out


def changes_of(pair: Pair) -> int | None:
    """Over how many changes a structure or a place was judged, or nothing where none was."""
    return pair.reply.changes if isinstance(pair.reply, Found | Verdict | Ceiling | Stations) else None


def has_structure(pair: Pair) -> bool:
    """Whether a record has a structure with a height of its own; a place that `oe ceiling` is asked about has none."""
    return isinstance(pair.reply, Found | Verdict | AsOf) or isinstance(pair.reply, Accepted) and pair.record.form == "file"


def of_register(pair: Pair, register: Register) -> list[str]:
    changes = changes_of(pair)
    if changes is None:
        return []
    if changes == 0 or register.is_whole(changes) and not register.airfields:
        return ["no airfield is registered, so this says nothing of airports: was --db forgotten, another file named, or the airfields refused?"]
    out, on = [], pair.record.values["ON"]
    if register.is_whole(changes):
        out += of_place(pair, register)
        if on != NONE and on not in register.airfields:
            out.append(f"it is said to be on {on}, and no airfield {on} is registered, so 77.9(d) is not met by it: is the ID misspelt?")
        elif on != NONE and register.airfields[on].category == NOT_DESCRIBED:
            out.append(f"it is on {on}, which is private: 77.9(d) does not ask a notice there")
    elif on != NONE and isinstance(pair.reply, Found | Ceiling | Stations) and not is_exempt(pair) and not is_met_on(pair.reply, on):
        out.append(f"it is said to be on {on}, and 77.9(d) is not met: is {on} registered, not misspelt, and not private?")
    return out


def of_earlier(pair: Pair) -> list[str]:
    """What an earlier register may not have had."""
    if not isinstance(pair.reply, AsOf):
        return []
    if pair.reply.number == 0:
        return ["entry 0 stands before every change, so no airfield was registered, and this says nothing of airports"]
    on = pair.record.values["ON"]
    if on == NONE or is_exempt(pair) or is_met_on(pair.reply, on):
        return []
    return [f"it is said to be on {on}, and 77.9(d) is not met: was {on} registered by entry {pair.reply.number}, not misspelt, and not private?"]


def of_place(pair: Pair, register: Register) -> list[str]:
    return of_point(point(pair.record.values), register)


def of_point(at: Point, register: Register) -> list[str]:
    """Whether all airfields are so far away that a point may be on another grid."""
    def distance(airfield: Airfield) -> float:
        return math.dist(airfield.at, at)
    if any(distance(airfield) <= FAR_AWAY for airfield in register.airfields.values()):
        return []
    nearest = min(register.airfields.values(), key=distance)
    return [f"the nearest airfield, {nearest.id}, is {show(distance(nearest), 0)} ft away: are both on one grid, in tenths of a foot?"]


def is_met_on(reply: Found | Ceiling | Stations | AsOf, on: str) -> bool:
    return any(entry.rule.name == "9d" and entry.airfield == on for entry in reply.entries)


def is_exempt(pair: Pair) -> bool:
    """Whether a notice rule may be taken away by 77.9(e)."""
    values = pair.record.values
    is_small = values["KIND"] == "antenna" and int(values["HEIGHT"]) <= 200
    return is_small or any(letter in values["FLAGS"] for letter in forms.EXEMPT)


def of_structure(pair: Pair) -> list[str]:
    values, out = pair.record.values, []
    ground, height = int(values["GROUND"]), int(values["HEIGHT"])
    is_way = values["KIND"] in forms.TRAVERSE_WAYS
    if height == 0 and not is_way:
        out.append("its height is 0: are ground and height exchanged?")
    if height > TALLER_THAN_GROUND and 0 < ground * TENTHS < height:
        out.append(f"it is {show(height / TENTHS)} ft tall on ground of {show(ground / TENTHS)} ft: "
                   "are ground and height exchanged, or is the height one above sea level?")
    return out


def of_flags(pair: Pair) -> list[str]:
    is_taken = any(letter in pair.record.values["FLAGS"] for letter in forms.EXEMPT)
    return ["flag S, D or R takes every notice rule away (77.9(e)): does it hold?"] if is_taken else []


def of_airfield(pair: Pair, register: Register) -> list[str]:
    """Whether an airfield stands where another one of its sort does."""
    form, values = pair.record.form, pair.record.values
    if not pair.is_accepted or form not in SAME_PLACE:
        return []
    (sort, near), at = SAME_PLACE[form], point(values) if form == "airport" else heliport(values).at
    same = [one.id for one in register.airfields.values() if isinstance(one, sort) and one.id != values["ID"] and math.dist(one.at, at) <= near]
    return [f"{values['ID']} stands where {same[0]} does: is it one {form} under two IDs? `drop` takes one out"] if same else []


def cautions(pair: Pair, register: Register, days: Days) -> list[str]:
    """The cautions about one record, with what is known of the register and of days before it."""
    out = of_register(pair, register) + of_earlier(pair) + of_airfield(pair, register)
    if has_structure(pair):
        out += of_structure(pair)
    if has_structure(pair) or isinstance(pair.reply, Stations):
        out += of_flags(pair)
    if pair.is_accepted and pair.record.form == "day":
        out += days.cautions(pair.record.values["DATE"])
    return out


def of_file(pairs: list[Pair]) -> list[str]:
    """A caution about a whole file: it has no record, or its heights are small."""
    if not pairs:
        return ["there is no record in this file: is it another one, or was it not saved?"]
    heights = [int(pair.record.values["HEIGHT"]) for pair in pairs if has_structure(pair) and pair.record.values["KIND"] not in forms.TRAVERSE_WAYS]
    if heights and max(heights) in FEET_FOR_TENTHS:
        return [f"no structure of this file is taller than {show(max(heights) / TENTHS)} ft: were feet written for tenths of a foot, or metres for feet?"]
    return []


def of_over(pairs: list[Pair]) -> list[str]:
    """A caution about records that a desk in memory answers otherwise than the office's own."""
    others = sorted({pair.record.form for pair in pairs if pair.record.form in forms.FORMS} - {"screen", "verdict", "airfield", *AIRFIELD_FORMS})
    if not others:
        return []
    return [f"the desk in memory has the office's airfields, and not its day, cases and keys: it answers {', '.join(others)} otherwise"]


