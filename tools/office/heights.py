"""How high one may build at places: what `oe ceiling` replies of the first rule, be it of notice or a standard, and of the first standard alone."""
import os
import subprocess
import tempfile
from collections.abc import Iterable, Sequence
from dataclasses import dataclass
from functools import cached_property

from office import replies
from office.faults import Fault
from office.records import TENTHS
from office.replies import NONE, Entry

QUICK_FOLDER = "/dev/shm"  # of memory; a desk's file there wants no disk
SHIELDED = "S"  # the flag that takes every notice rule away, 77.9(e)(1)
EXEMPT = "SDR"  # flags that do so
NOTICE_EVERYWHERE = 2_001  # tenths of a foot; so high a structure requires notice at every place, 77.9(a)


@dataclass(frozen=True)
class Place:
    """A point that is asked about, in tenths of a foot: the fields of a `screen` record without its height."""
    x: int
    y: int
    ground: int
    kind: str = "object"
    mobile: str = "0"
    flags: str = NONE
    on: str = NONE

    def asked(self, height: int, flags: str) -> str:
        return f"screen,{self.x},{self.y},{self.ground},{height},{self.kind},{self.mobile},{flags},{self.on}\n"

    @property
    def feet(self) -> tuple[float, float]:
        return self.x / TENTHS, self.y / TENTHS

    @property
    def is_exempt(self) -> bool:
        return self.flags != NONE and any(letter in EXEMPT for letter in self.flags)

    @property
    def shielded(self) -> str:
        """Its flags, and S, which stands before all others."""
        return SHIELDED if self.flags == NONE else self.flags if SHIELDED in self.flags else SHIELDED + self.flags


def noticed(entries: Iterable[Entry]) -> tuple[Entry, ...]:
    return tuple(entry for entry in entries if not entry.rule.is_standard)


@dataclass(frozen=True)
class Limit:
    """The greatest height above the ground without a finding of a sort, in tenths of a foot, and those that come a tenth higher. If there is one at
    every height, `height` is nothing, and the findings are those at the ground. If none ever comes, there are no findings."""
    height: int | None
    entries: tuple[Entry, ...]

    @property
    def is_never(self) -> bool:
        return not self.entries

    @cached_property
    def feet(self) -> float | None:
        return None if self.height is None else self.height / TENTHS

    @cached_property
    def rules(self) -> str:
        """What rules, as replies have it: rule, airfield and key."""
        return "; ".join(" ".join(part for part in (entry.rule.name, entry.airfield, entry.key) if part != NONE) for entry in self.entries) or NONE

    @cached_property
    def of_notice(self) -> "Limit":
        """This as a limit of notice: never, if standards alone are found."""
        return Limit(self.height, noticed(self.entries))


@dataclass(frozen=True)
class Heights:
    """Up to where a structure at a place requires no notice, and exceeds no standard."""
    place: Place
    notice: Limit
    standard: Limit


NEVER = Limit(None, ())


class Asker:
    """A desk over some airfields, in a file of its own that is gone at the end. `told` has its replies to their records."""
    def __init__(self, program: str, airfields: Iterable[str]):
        self.program, self.known = program, dict[str, Limit]()
        self.folder = tempfile.TemporaryDirectory(dir=QUICK_FOLDER if os.access(QUICK_FOLDER, os.W_OK) else None)
        self.file = os.path.join(self.folder.name, "desk.db")
        self.told = self.ask("desk", (text + "\n" for text in airfields))

    def __enter__(self) -> "Asker":
        return self

    def __exit__(self, *_: object) -> None:
        self.folder.cleanup()

    def ask(self, command: str, some: Iterable[str]) -> list[str]:
        content = "".join(some).encode("utf-8", "surrogateescape")
        done = subprocess.run([self.program, command, "--db", self.file], input=content, stdout=subprocess.PIPE)
        if done.returncode:
            raise Fault(f"{self.program} {command} ended with status {done.returncode}")
        return done.stdout.decode().splitlines()

    def limit(self, place: Place, text: str) -> Limit:
        """The limit that a reply says; most are those of a neighbor."""
        word, _, said = text.split(",", 2)
        if word != "ceiling":
            raise Fault(f'the desk answers "{text}" to {place.asked(0, place.flags).strip()}')
        known = self.known.get(said)
        if known is None:
            height, _, *entries = said.split(",")
            known = self.known[said] = Limit(None if height == NONE else int(height), replies.read_entries(entries))
        return known

    def limits(self, places: Sequence[Place], flags: Iterable[str]) -> list[Limit]:
        told = self.ask("ceiling", (place.asked(0, flag) for place, flag in zip(places, flags)))
        return [self.limit(place, text) for place, text in zip(places, told, strict=True)]

    def heights(self, places: Sequence[Place]) -> list[Heights]:
        first = self.limits(places, (place.flags for place in places))
        standard = self.limits(places, (place.shielded for place in places))
        notice = [NEVER if place.is_exempt else one.of_notice for place, one in zip(places, first)]
        later = [i for i, place in enumerate(places) if not place.is_exempt and notice[i].is_never]  # a standard comes first
        for i, limit in zip(later, self.later_notices([places[i] for i in later], [first[i] for i in later])):
            notice[i] = limit
        return [Heights(*one) for one in zip(places, notice, standard)]

    def later_notices(self, places: Sequence[Place], first: Sequence[Limit]) -> list[Limit]:
        """The limits of notice above heights at which a standard alone is exceeded, by halving what lies between."""
        low = [0 if one.height is None else one.height + 1 for one in first]
        high, entries = [NOTICE_EVERYWHERE] * len(places), [()] * len(places)
        tried = high
        while any(entries[i] == () or high[i] - low[i] > 1 for i in range(len(places))):
            told = self.ask("desk", (place.asked(height, place.flags) for place, height in zip(places, tried)))
            for i, text in enumerate(told):
                found = noticed(replies.read_entries(text.split(",")[3:]))
                if found:
                    high[i], entries[i] = tried[i], found
                else:
                    low[i] = tried[i]
            tried = [max(low[i], (low[i] + high[i]) // 2) for i in range(len(places))]
        return [Limit(height - 1, some) for height, some in zip(high, entries)]
