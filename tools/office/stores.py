"""The rows of an office's file, of either kind, and a new file with them."""
import os
import sqlite3
import tempfile
from contextlib import closing
from pathlib import Path

from office import copies
from office.faults import Fault
from office.journals import ENDING, Rows, journal_of, rows_of

ACCESS = 0o777
SCHEMA = ("CREATE TABLE IF NOT EXISTS kept (t INTEGER NOT NULL CHECK (t >= 0 AND t <= 4), k TEXT NOT NULL, v TEXT NOT NULL, "
          "PRIMARY KEY (t, k)) STRICT")


def is_journal(path: str) -> bool:
    return path.endswith(ENDING)


def rows_in(copy: str, path: str) -> Rows:
    """The rows of a copy of this file, which nobody else has."""
    try:
        if is_journal(copy):
            return rows_of(copies.read(copy))
        with closing(sqlite3.connect(copy)) as opened:
            kept = opened.execute("SELECT t, k, v FROM kept").fetchall()
    except ValueError as error:
        raise Fault(f"{path} is damaged: `oe desk --db {path}` says where") from error
    except sqlite3.Error as error:
        raise Fault(f"{path}: {error}") from error
    if not all(isinstance(key, str) and isinstance(row, str) for _, key, row in kept):
        raise Fault(f"{path}: a row of it is no text: `oe desk --db {path}` does not open it")
    return {(number, key): row for number, key, row in kept}


def read(path: str) -> Rows:
    """The rows of a file at one moment."""
    with copies.of(path) as copy:
        return rows_in(copy, path)


def table(rows: Rows, number: int) -> list[tuple[str, str]]:
    """Key and row of each row of a table, in order."""
    return sorted((key, row) for (one, key), row in rows.items() if one == number)


def write_database(path: Path, rows: Rows) -> None:
    with closing(sqlite3.connect(path)) as opened, opened:
        opened.execute(SCHEMA)
        opened.executemany("INSERT INTO kept VALUES (?, ?, ?)", [(table, key, row) for (table, key), row in sorted(rows.items())])


def check_new(path: str) -> None:
    for name in (path, copies.log_of(path)):
        if os.path.lexists(name):
            raise Fault(f"{name} is there: name a new file")


def write(path: str, rows: Rows) -> None:
    """Makes a new file with these rows, under its own name only once it is whole and on the disk."""
    check_new(path)
    part = Path(f"{path}.part")
    part.unlink(missing_ok=True)
    if is_journal(path):
        part.write_bytes(journal_of(rows))
    else:
        write_database(part, rows)
    copies.put(str(part), path)


def back_up(path: str, to: str) -> Rows:
    """Copies a file under a new name, with the permissions that it has, and gives back the copy's rows."""
    if is_journal(path) != is_journal(to):
        raise Fault(f"{to}: the copy of a journal has a name that ends in {ENDING}, and that of another file has not")
    check_new(to)
    try:
        with tempfile.TemporaryDirectory(prefix=".oe-", dir=os.path.dirname(os.path.abspath(to))) as folder:
            copy = os.path.join(folder, os.path.basename(to))
            copies.take(path, copy)
            rows = rows_in(copy, path)
            os.chmod(copy, os.stat(path).st_mode & ACCESS)
            copies.put(copy, to)
    except OSError as error:
        raise Fault(f"{error.filename or to}: {error.strerror or error}") from error
    return rows
