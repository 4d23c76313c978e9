"""Records beside their replies: from a file of replies, or asked of a desk in memory. An office's file is only read."""
import argparse
import os
import shutil
import subprocess
from dataclasses import dataclass
from pathlib import Path

from office import copies, forms, replies, stores, ways
from office.faults import Fault
from office.journals import Rows
from office.records import BEFORE, Record, read_bytes, record, records
from office.replies import Accepted, Refusal, Reply

TOP = Path(__file__).resolve().parent.parent.parent
BUILT = TOP / "crates" / "oe_main" / "out" / "oe_main"  # in the repository, where `oe` is a script that may build it first
RELEASED = TOP / "oe"  # in a release that was unpacked
SQLITE = b"SQLite format 3\0"  # how its files begin
STORED_CALLER = "_office_file_"  # of records that are made from the rows of an office's file
AIRFIELD_TABLE, RUNWAY_TABLE, DAY_TABLE, CASE_TABLE = 0, 1, 2, 3
DAY_KEY = "now"
SITE_IN_CASE = slice(5, 13)  # X to ON in the row of a case (docs/TABLES.md)
END_OF_CASE = 15  # abandoned, reversed or -


@dataclass(frozen=True)
class Pair:
    """A record and its reply."""
    record: Record
    reply: Reply

    @property
    def is_accepted(self) -> bool:
        return isinstance(self.reply, Accepted)


def program(chosen: str | None) -> str:
    """The desk to ask: the one that was named, that of OE, `oe` on the path, or the one beside the tools: this repository's where it is built already."""
    named = chosen or os.environ.get("OE")
    found = shutil.which(named or "oe")
    beside = BUILT if (TOP / "crates").exists() else RELEASED
    if found is None and not named and beside.is_file() and os.access(beside, os.X_OK):
        found = str(beside)
    if found is None:
        raise Fault(f"{named or 'oe'}: no such program; name the desk with --oe PROGRAM, or give its replies as a second file")
    return found


def command_for(some: list[Record]) -> str:
    """The command that answers the records of a file."""
    return "asof" if any(one.form == forms.AS_OF for one in some) else "desk"


def ask(desk: str, command: str, content: bytes, *words: str) -> list[str]:
    """The lines of the replies of a desk in memory, or as more words of its command line say."""
    done = subprocess.run([desk, command, *words], input=content, capture_output=True)
    if done.returncode:
        why = done.stderr.decode("utf-8", "replace").strip().replace("\n", "; ")
        raise Fault(f"{desk} {command} ended with status {done.returncode}" + (f": {why}" if why else ""))
    return done.stdout.decode().splitlines()


@dataclass(frozen=True)
class Stored:
    """The rows of an office's file at one moment, and the file's name."""
    path: str
    rows: Rows

    def table(self, number: int) -> list[tuple[str, str]]:
        return stores.table(self.rows, number)

    def airfields(self) -> list[Record]:
        """The airfields and runways as records, the airfields first."""
        airfields = self.table(AIRFIELD_TABLE)
        if not airfields:
            raise Fault(f"{self.path} has no airfields (was {copies.log_of(self.path)} left behind when it was copied?)")
        texts: list[str] = []
        for key, value in airfields:
            form, _, rest = value.partition(",")
            texts.append(f"{form},{STORED_CALLER},{len(texts) + 1},{key},{rest}")
        for key, value in self.table(RUNWAY_TABLE):
            texts.append(f"runway,{STORED_CALLER},{len(texts) + 1},{key.replace(' ', ',')},{value}")
        return [record(BEFORE, text) for text in texts]

    def day(self) -> str | None:
        """The desk's day, if it has one."""
        day = self.rows.get((DAY_TABLE, DAY_KEY), "")
        return day if forms.is_day(day) else None

    def cases(self) -> list[tuple[str, Record]]:
        """The structures of the cases that were neither abandoned nor reversed, to be screened, each with its number."""
        rows = [(key, value.split(",")) for key, value in self.table(CASE_TABLE)]
        return [(key.lstrip("0"), record(BEFORE, ",".join(["screen", *values[SITE_IN_CASE]])))
                for key, values in rows if values[END_OF_CASE:END_OF_CASE + 1] == [replies.NONE]]


def stored(path: str | None) -> Stored | None:
    """An office's file, if one is named."""
    return Stored(path, stores.read(path)) if path else None


def pair_up(some: list[Record], told: list[str], path: str) -> list[Pair]:
    """Each record with its reply, if the replies are of its sort and as many; of `oe stations` each way."""
    rest, pairs = iter(told), []
    for one in ways.with_reply(some) if any(line.startswith("stations,") for line in told) else some:
        reply = replies.read(rest)
        if reply is None:
            raise Fault(f"the replies end before line {one.line} of {path}: the desk stopped there, or they are not its replies")
        is_good = bool(one.fields) and forms.first_bad_field(one.fields) is None
        if not replies.answers(one.form, reply) or not is_good and not isinstance(reply, Refusal):
            raise Fault(f'line {one.line} of {path} is "{one.form}", and its reply is of another sort: these are not its replies')
        pairs.append(Pair(one, reply))
    if next(rest, None) is not None:
        raise Fault(f"there are more replies than records in {path}: they are not its replies")
    return pairs


def asked(content: bytes, before: list[Record], path: str, desk: str) -> list[Pair]:
    """The records of a file answered by a desk in memory that has answered the records before them. Behind those the entries have other numbers than
    the office's, so no record may ask as of one."""
    head, some = "".join(one.text + "\n" for one in before).encode(), records(content)
    command = command_for(some)
    if before and command != "desk":
        raise Fault(f"{path}: the desk in memory does not have the office's entries: ask `oe asof`, and give its replies as a second file")
    pairs = pair_up(before + some, ask(desk, command, head + content), path)
    for pair in pairs[:len(before)]:
        if isinstance(pair.reply, Refusal):
            raise Fault(f"the desk refuses a row of the office's file: {pair.record.text} ({pair.reply.name})")
    return pairs


def add_arguments(parser: argparse.ArgumentParser, records_wanted: bool = True) -> None:
    wanted = parser.add_argument("records", metavar="RECORDS", help="the records that the desk read (-: standard input)")
    if not records_wanted:
        wanted.nargs, wanted.required = "?", False
    parser.add_argument("replies", metavar="REPLIES", nargs="?",
                        help="its replies; where they are left out, a desk in memory is asked now, and nothing is kept")
    parser.add_argument("--oe", metavar="PROGRAM", help="the desk to ask (else the variable OE, else oe)")
    parser.add_argument("--over", metavar="FILE",
                        help="begin with the airfields of an office's file (of `oe desk --db FILE`), which is only read")
    parser.add_argument("--names", metavar="CSV",
                        help="names of structures: X,Y,GROUND,HEIGHT,NAME in each line, as oe-from-points writes them")


def check_records(content: bytes, path: str) -> None:
    """That what a desk would be asked is a file of records, if there is any line in it: no database, no sheet in another encoding, no table of another sort."""
    if content.startswith(SQLITE):
        raise Fault(f"{path} is a database and no file of records: name an office's file with --over")
    if b"\0" in content:
        line = content[:content.index(b"\0")].count(b"\n") + 1
        raise Fault(f"{path} is no file of records: line {line} has a NUL in it (a sheet in UTF-16? Save it as CSV UTF-8)")
    some = records(content)
    if some and all(one.form not in forms.FORMS for one in some):
        why = forms.about_form(some[0].form)
        begin = f"line {some[0].line} begins with {forms.quoted(some[0].form)}" + (f": {why}" if why else "")
        raise Fault(f"{path} is no file of records: no line of it begins with a record's word; {begin}")


def office_of(args: argparse.Namespace) -> Stored | None:
    """The office's file that the arguments of a tool name, if they name one."""
    if args.over and args.replies:
        raise Fault("--over asks a desk now: leave REPLIES out")
    return stored(args.over)


def pairs_of(args: argparse.Namespace, office: Stored | None) -> list[Pair]:
    """The pairs that the arguments of a tool name, over the airfields of an office if it has one."""
    content, path = (read_bytes(args.records), args.records) if args.records else (b"", "no file")
    if args.replies:
        return pair_up(records(content), read_bytes(args.replies).decode("utf-8", "replace").splitlines(), path)
    check_records(content, path)
    return asked(content, office.airfields() if office else [], path, program(args.oe))
