"""What a picture or a map is to show: the airfields and the structures that a command line names."""
import argparse
import os
from dataclasses import dataclass

from office import desk
from office.faults import Fault
from office.records import BEFORE
from office.register import Airfield, register_after
from office.replies import Refusal
from office.structures import Structure, read_names, structures


@dataclass(frozen=True)
class Shown:
    """Airfields by ID, structures with what was found of them, how many records of structures were refused, and the last change of an airfield."""
    airfields: dict[str, Airfield]
    structures: list[Structure]
    refused: int
    last_change: int

    def chosen(self, only: list[str]) -> list[Airfield]:
        return [self.airfields[name] for name in sorted(self.airfields) if not only or name in only]

    def check_names(self, wanted: list[str]) -> None:
        for name in wanted:
            if name not in self.airfields:
                raise Fault(f"no airfield {name} is registered after these records; there are: {', '.join(sorted(self.airfields)) or 'none'}")


def add_arguments(parser: argparse.ArgumentParser) -> None:
    desk.add_arguments(parser, records_wanted=False)
    parser.add_argument("--cases", action="store_true", help="with --over: show the structures of its cases too, screened again now")
    parser.add_argument("--only", metavar="ID", action="append", default=[], help="show this airfield alone (may be given again)")


def check_arguments(args: argparse.Namespace) -> None:
    if not (args.records or args.over):
        raise Fault("name RECORDS, or an office's file with --over (see --help)")
    if args.cases and not args.over:
        raise Fault("--cases wants --over FILE")


def filed(office: desk.Stored, program: str) -> list[Structure]:
    """The structures of the office's cases, judged over its airfields as they are now."""
    cases = office.cases()
    content = "".join(record.text + "\n" for _, record in cases).encode()
    pairs = desk.asked(content, office.airfields(), os.path.basename(office.path), program)
    found, _ = structures(pairs, {})
    for (number, _), one in zip(cases, found):
        one.name = f"case {number}"
    return found


def check_answered(path: str, pairs: list[desk.Pair]) -> None:
    """That a file of records has one that was answered: a picture or a map without any looks like one of no structures."""
    own = [pair for pair in pairs if pair.record.line != BEFORE]
    if not own:
        raise Fault(f"{path}: there is no record in it: is it another one, or was it not saved?")
    if all(isinstance(pair.reply, Refusal) for pair in own):
        raise Fault(f"{path}: the desk refuses each of its records; oe-say says why")


def shown(args: argparse.Namespace) -> Shown:
    office = desk.office_of(args)
    pairs = desk.pairs_of(args, office)
    if args.records:
        check_answered(args.records, pairs)
    register = register_after(pairs)
    found, refused = structures(pairs, read_names(args.names))
    if args.cases:
        found += filed(office, desk.program(args.oe))
    return Shown(register.airfields, found, refused, register.last_change)


def source(args: argparse.Namespace) -> str:
    names = ["standard input" if path == "-" else os.path.basename(path) for path in (args.records, args.over) if path]
    return " and ".join(names)
