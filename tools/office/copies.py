"""A copy of an office's file that is the rows of one moment, also while a desk has the file (docs/TABLES.md, "While a desk has it").

SQLite keeps every reader out then, but nobody keeps a file from being copied byte by byte. A change of a desk is written behind the end of the log,
FILE-wal, and counts from when one byte before it is written, so a log that is read from its begin to its end is some first changes of it. FILE is
written by a checkpoint alone, which copies pages of the log there and then begins the log anew, with a head that no log before it had. So both belong
together where neither FILE nor the head of the log has changed from before FILE was read until after the log was. A journal only grows."""
import contextlib
import os
import shutil
import sqlite3
import tempfile
import time
from collections.abc import Iterator
from dataclasses import dataclass

from office import journals
from office.faults import Fault

LOG_HEAD = 32  # bytes
TRIES = 100
TICK = 0.02  # seconds; the clock that stamps a file goes by steps of at most 10 ms, so what is written within a step has one stamp


@dataclass(frozen=True)
class Mark:
    """What no checkpoint leaves as it was."""
    file: tuple[int, int]
    written: int  # in nanoseconds
    head: bytes

    @property
    def is_settled(self) -> bool:
        """Whether whatever is written from now on has another stamp."""
        return abs(time.time_ns() - self.written) > TICK * 1e9


def log_of(path: str) -> str:
    return f"{path}-wal"


def read(path: str, most: int = -1) -> bytes:
    with open(path, "rb") as file:
        return file.read(most)


def write(path: str, content: bytes) -> None:
    with open(path, "wb") as file:
        file.write(content)


def read_log(path: str, most: int = -1) -> bytes:
    try:
        return read(log_of(path), most)
    except FileNotFoundError:
        return b""


def sync(path: str) -> None:
    """Has a file or a folder written to the disk."""
    opened = os.open(path, os.O_RDONLY)
    try:
        os.fsync(opened)
    finally:
        os.close(opened)


def put(made: str, to: str) -> None:
    """Gives a file that was made in the same file system its name, once it is on the disk. A file that has the name is replaced."""
    sync(made)
    os.rename(made, to)
    sync(os.path.dirname(os.path.abspath(to)))


def mark(path: str) -> Mark:
    found = os.stat(path)
    return Mark((found.st_ino, found.st_size), found.st_mtime_ns, read_log(path, LOG_HEAD))


def copy_both(path: str, to: str) -> bool:
    """Copies an SQLite file and then its log, and says whether they belong together."""
    before = mark(path)
    if not before.is_settled:
        time.sleep(TICK)
        return False
    shutil.copyfile(path, to)
    write(log_of(to), read_log(path))
    return mark(path) == before


def copy_journal(path: str, to: str) -> bool:
    """Copies the frames of a journal that count. They change only where a desk could not write, and wrote them again."""
    content = read(path)
    end = journals.end_of(content)
    write(to, content[:end] + journals.CLOSED_GATE)
    return read(path)[:end] == content[:end]


def why(path: str, error: str) -> str:
    """What mostly lies behind an error of SQLite."""
    if "no such table" in error and "kept" in error:
        return f"was {log_of(path)} left behind when it was copied? Or it is no file of `oe desk --db`"
    return "is it a file of `oe desk --db`?"


def make_whole(path: str, copy: str) -> None:
    """Puts the log of a copy into it. The entries of a desk are numbered without a gap, or something is wanting."""
    try:
        with contextlib.closing(sqlite3.connect(copy)) as opened:
            opened.execute("PRAGMA wal_checkpoint(TRUNCATE)").fetchone()
            count, last = opened.execute("SELECT count(*), coalesce(max(CAST(v AS INTEGER)), 0) FROM kept WHERE t = ?", (journals.RECEIPT_TABLE,)).fetchone()
    except sqlite3.Error as error:
        raise Fault(f"{path}: {error} ({why(path, str(error))})") from error
    if count != last:
        raise Fault(f"{path}: it has {count} entries, and the last one is entry {last}: file and log do not belong together")


def take(path: str, to: str) -> None:
    """Copies an office's file. The copy is whole alone."""
    real = os.path.realpath(path)
    if not os.path.exists(real):
        raise Fault(f"{path}: no such file")
    is_journal = path.endswith(journals.ENDING)
    copy = copy_journal if is_journal else copy_both
    try:
        if os.path.exists(f"{real}-journal") and os.path.getsize(f"{real}-journal"):
            raise Fault(f"{path}-journal lies beside it: SQLite was stopped in a write, which `sqlite3 {path} \"PRAGMA integrity_check\"` takes back")
        if not any(copy(real, to) for _ in range(TRIES)):
            raise Fault(f"{path} is written all the time, and none of {TRIES} copies was of one moment: try it again")
    except OSError as error:
        raise Fault(f"{error.filename or path}: {error.strerror or error}") from error
    if not is_journal:
        make_whole(path, to)


@contextlib.contextmanager
def of(path: str) -> Iterator[str]:
    """A copy of an office's file under its own name, in a folder of this user alone, while it is wanted."""
    with tempfile.TemporaryDirectory(prefix="oe-") as folder:
        copy = os.path.join(folder, os.path.basename(path))
        take(path, copy)
        yield copy
