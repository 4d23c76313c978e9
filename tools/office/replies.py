"""Replies of the desk, read from their lines (docs/RECORDS.md)."""
from collections.abc import Iterator
from dataclasses import dataclass

from office.faults import Fault

NONE = "-"
ENTRIES_OF_DETERMINATION = 8  # values of its reply before the first finding
MALFORMED, NOT_STANDING = 13, 17
VALUES_OF_REFUSAL = {MALFORMED: 1, 16: 2, NOT_STANDING: 1, 21: 2, 24: 2, 28: 1, 39: 2}
VALUES_OF_ACCEPTED = {"case": 4, "determine": ENTRIES_OF_DETERMINATION, "revise": ENTRIES_OF_DETERMINATION}  # at least, of forms that have some
VALUES_OF_AIRFIELD = {"airport": 5, "heliport": 8}
ENDS = {"19d": "12", "19e": "012", "23a": "12", "23t": "012"}  # rules whose key names an end, or 0 for what lies between the ends


@dataclass(frozen=True)
class Rule:
    """A rule that a structure exceeds or meets. In `words`, {airfield} and {key} stand for those of the finding."""
    name: str
    paragraph: str
    words: str
    short: str
    is_standard: bool = True


def notice(name: str, paragraph: str, words: str, short: str) -> list[Rule]:
    """A notice rule of 77.9, and the same for a traverse way, 77.9(c)."""
    raised = Rule("9c-" + name.removeprefix("9"), f"77.9(c), {paragraph.removeprefix('77.9')}", f"{words}, raised by its traffic", short, False)
    return [Rule(name, paragraph, words, short, False), raised]


RULES = {rule.name: rule for rule in [
    Rule("17a1", "77.17(a)(1)", "499 ft above the ground", "499 ft above the ground"),
    Rule("17a2", "77.17(a)(2)", "the height near {airfield}", "height near"),
    Rule("19a", "77.19(a)", "horizontal surface of {airfield}", "horizontal"),
    Rule("19b", "77.19(b)", "conical surface of {airfield}", "conical"),
    Rule("19c", "77.19(c)", "primary surface of {airfield} runway {key}", "primary"),
    Rule("19d", "77.19(d)", "approach surface of {airfield} runway {key}", "approach"),
    Rule("19e", "77.19(e)", "transitional surface of {airfield} runway {key}", "transitional"),
    Rule("23p", "77.23(a)", "primary surface of heliport {airfield}", "primary"),
    Rule("23a", "77.23(b)", "approach surface of heliport {airfield}, {key}", "approach"),
    Rule("23t", "77.23(c)", "transitional surface of heliport {airfield}, {key}", "transitional"),
    *notice("9a", "77.9(a)", "200 ft above the ground", "200 ft above the ground"),
    *notice("9b1", "77.9(b)(1)", "100 to 1 slope from {airfield} runway {key}", "slope 100:1"),
    *notice("9b2", "77.9(b)(2)", "50 to 1 slope from {airfield} runway {key}", "slope 50:1"),
    *notice("9b3", "77.9(b)(3)", "25 to 1 slope from heliport {airfield}", "slope 25:1"),
    Rule("9d", "77.9(d)", "it is on the airfield {airfield}", "on", False),
]}


@dataclass(frozen=True)
class Entry:
    """A finding: its rule, the airfield and the key or `-`, and the excess in tenths of a foot."""
    rule: Rule
    airfield: str
    key: str
    excess: int

    @classmethod
    def read(cls, text: str) -> "Entry":
        rule, airfield, key, excess = text.split(" ")
        if rule in ENDS and (not key or key[-1] not in ENDS[rule] or key[:-1] and key[-2] != "."):
            raise ValueError(text)
        return cls(RULES[rule], airfield, key, int(excess))


@dataclass(frozen=True)
class Found:
    changes: int
    entries: tuple[Entry, ...]


@dataclass(frozen=True)
class Ceiling:
    """The greatest height without a finding, in tenths of a foot, where there is one, and the findings above it (`oe ceiling`)."""
    changes: int
    height: int | None
    entries: tuple[Entry, ...]


@dataclass(frozen=True)
class AsOf:
    """The findings over the airfields as they stood after entry `number` (`oe asof`)."""
    number: int
    entries: tuple[Entry, ...]


@dataclass(frozen=True)
class Stations:
    """The findings of a way of `count` stations, and of each the first station that has its excess (`oe stations`)."""
    changes: int
    count: int
    entries: tuple[Entry, ...]
    firsts: tuple[str, ...]


@dataclass(frozen=True)
class Verdict:
    changes: int
    notice: bool
    obstruction: bool
    count: int


@dataclass(frozen=True)
class Accepted:
    """A change is entry `number`; `values` are what stands after its form."""
    number: int
    form: str
    values: tuple[str, ...]


@dataclass(frozen=True)
class Refusal:
    number: int
    name: str
    values: tuple[str, ...]


@dataclass(frozen=True)
class CaseState:
    case: str
    status: str
    decision: str
    issued: str
    deadline: str
    effective: str
    expiry: str
    last_day: str
    mark: str


@dataclass(frozen=True)
class AirfieldRow:
    values: tuple[str, ...]


@dataclass(frozen=True)
class Review:
    cases: tuple[str, ...]


@dataclass(frozen=True)
class Sync:
    """The number of the last accepted change, 0 where there is none."""
    changes: int


@dataclass(frozen=True)
class Report:
    name: str
    lines: tuple[str, ...]


Reply = Found | Ceiling | AsOf | Stations | Verdict | Accepted | Refusal | CaseState | AirfieldRow | Review | Sync | Report


def read_entries(texts: list[str]) -> tuple[Entry, ...]:
    return tuple(Entry.read(text) for text in texts)


def is_number(text: str) -> bool:
    return text.removeprefix("-").isdecimal()


def accepted(number: str, form: str, values: list[str]) -> Accepted:
    if len(values) < VALUES_OF_ACCEPTED.get(form, 0) or form in ("determine", "revise") and not is_number(values[2]):
        raise ValueError(form)
    read_entries(values[ENTRIES_OF_DETERMINATION:])
    return Accepted(int(number), form, tuple(values))


def refusal(number: int, name: str, values: list[str]) -> Refusal:
    if len(values) < VALUES_OF_REFUSAL.get(number, 0) or number == MALFORMED and not values[0].isdecimal():
        raise ValueError(name)
    return Refusal(number, name, tuple(values))


def parse(first: str, rest: Iterator[str]) -> Reply:
    match first.split(","):
        case ["found", changes, _, *entries]:
            return Found(int(changes), read_entries(entries))
        case ["ceiling", changes, height, _, *entries]:
            return Ceiling(int(changes), None if height == NONE else int(height), read_entries(entries))
        case ["asof", number, _, *entries]:
            return AsOf(int(number), read_entries(entries))
        case ["stations", changes, count, _, *entries]:
            parts = [entry.rpartition(" ") for entry in entries]
            return Stations(int(changes), int(count), read_entries([entry for entry, _, _ in parts]), tuple(station for _, _, station in parts))
        case ["verdict", changes, required, obstruction, count]:
            return Verdict(int(changes), required == "yes", obstruction == "yes", int(count))
        case ["ok", number, _, form, *values]:
            return accepted(number, form, values)
        case ["no", number, name, *values]:
            return refusal(int(number), name, values)
        case ["case", *values] if len(values) == 9:
            return CaseState(*values)
        case ["airfield", *values] if len(values) == VALUES_OF_AIRFIELD.get(values[0]) and all(map(is_number, values[2:])):
            return AirfieldRow(tuple(values))
        case ["review", _, *cases]:
            return Review(tuple(cases))
        case ["sync", changes]:
            return Sync(int(changes))
        case ["report", name, count]:
            return Report(name, tuple(next(rest) for _ in range(int(count))))
    raise ValueError(first)


def read(rest: Iterator[str]) -> Reply | None:
    """The next reply, or nothing at the end of the lines."""
    first = next(rest, None)
    if first is None:
        return None
    try:
        return parse(first, rest)
    except (ValueError, KeyError, StopIteration, RuntimeError) as error:
        raise Fault(f'"{first[:60]}" is no whole reply of the desk') from error


def answers(form: str, reply: Reply) -> bool:
    """Whether a reply is of the sort that a record of this form has."""
    match reply:
        case Refusal():
            return True
        case Accepted():
            return reply.form == {"file": "case"}.get(form, form)
        case _:
            kinds = {"screen": (Found, Ceiling, Stations), "asof": AsOf, "verdict": Verdict, "case": CaseState, "airfield": AirfieldRow, "review": Review, "sync": Sync,
                     "report": Report}
            return isinstance(reply, kinds.get(form, ()))
