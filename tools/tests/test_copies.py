"""Copies of an office's file that are taken while `oe serve` has it and changes are stored: each is the rows after some first changes, with all that were
acknowledged before the copy began. What the rows are then, another desk tells, which takes the same changes alone."""
import hashlib
import itertools
import os
import shutil
import sqlite3
import subprocess
import tempfile
import threading
import time
import unittest
from collections.abc import Iterator
from contextlib import closing, contextmanager
from dataclasses import dataclass
from pathlib import Path
from unittest import mock

from office import copies, journals, stores
from tests import test_serve
from tests.trial import PROGRAM, Trial

CHANGES = 1500  # at least, several checkpoints
COPIES = 60  # at least
MANY = 20  # changes between two looks at the log
MEMORY = "/dev/shm"  # where a sync costs nothing


def changes() -> Iterator[str]:
    """Records that are all accepted, in this order: rows that are put, replaced and removed in each table."""
    keys = itertools.count(1)

    def put(form: str, *fields: object) -> str:
        return ",".join(map(str, (form, "u", f"k{next(keys)}", *fields)))
    yield put("day", "2026-01-15")
    for number in itertools.count(1):
        name = f"A{number % 40}"
        yield put("airport", name, "public", 0, 0, 1000 + number)
        yield put("runway", name, "09/27", "other", "hard", -50_000, 0, 1000, "P", 50_000 + number, 0, 1000, "NA")
        yield put("file", "2026-03-01", "-", "-", "normal", "-", 600_000, number, 1000, 2500, "antenna", 0, "-", "-")
        yield put("determine", number, "-")
        if number % 7 == 0:
            yield put("drop", name)
        if number % 5 == 0:
            yield put("abandon", number)


class Rows:
    """The rows after the first changes, in rising numbers, as a desk leaves them that has taken just these."""
    def __init__(self, folder: os.PathLike[str]) -> None:
        self.file, self.records, self.taken = os.path.join(folder, "alone.db"), changes(), 0

    def after(self, number: int) -> journals.Rows:
        some = "".join(f"{record}\n" for record in itertools.islice(self.records, number - self.taken))
        self.taken = number
        done = subprocess.run([str(PROGRAM), "desk", "--db", self.file], input=some.encode(), stdout=subprocess.PIPE, check=True)
        assert b"no," not in done.stdout
        with closing(sqlite3.connect(self.file)) as opened:
            return {(table, key): row for table, key, row in opened.execute("SELECT t, k, v FROM kept")}


class Poster:
    """Sends the changes over one link. How many were sent is known at each moment, and how many of them were answered."""
    def __init__(self, link: test_serve.Link) -> None:
        self.link, self.records, self.sent, self.answered = link, changes(), 0, 0

    def post(self, many: int) -> None:
        for record in itertools.islice(self.records, many):
            self.sent += 1
            reply = self.link.reply(record)
            assert reply.startswith(f"ok,{self.sent},published,"), reply
            self.answered = self.sent

    def post_until(self, over: threading.Event) -> None:
        while not over.is_set():
            self.post(1)

    def post_past_checkpoint(self, path: str) -> None:
        """Until the log has begun anew."""
        head = copies.read_log(path, copies.LOG_HEAD)
        while copies.read_log(path, copies.LOG_HEAD) == head:
            self.post(MANY)
        self.post(MANY)


def entries(rows: journals.Rows) -> int:
    return len(stores.table(rows, journals.RECEIPT_TABLE))


def digest(rows: journals.Rows) -> str:
    """The same of the same rows alone, and shorter."""
    return hashlib.sha256(repr(sorted(rows.items())).encode()).hexdigest()


@dataclass(frozen=True)
class Taken:
    """A copy: how many changes were answered before it was begun and sent when it was there, how many it has, and its rows and the head of the log as they were."""
    answered: int
    sent: int
    number: int
    digest: str
    head: bytes


class Settled(Trial):
    def test_a_file_that_was_just_written(self) -> None:
        """What is written within one step of the clock has one stamp, so a second look would not see it. A copy waits until the step is over."""
        path, now = self.path("office.db"), time.time_ns()
        stores.write(path, {(2, "format"): "3"})
        for age, is_taken in ((0, False), (10_000_000, False), (-10_000_000, False), (30_000_000, True), (-1_000_000_000, True)):
            os.utime(path, ns=(now - age, now - age))
            with mock.patch.object(copies.time, "time_ns", lambda: now), mock.patch.object(copies.time, "sleep") as sleep:
                self.assertEqual((copies.copy_both(path, self.path("copy.db")), sleep.called), (is_taken, not is_taken), age)

    def test_a_journal_that_changes(self) -> None:
        """One that grew between two looks is copied, and one whose last frame was taken back is copied again."""
        frame, copy = journals.journal_of({(2, "format"): "3"}), self.path("copy.oej")
        for later, is_taken in ((frame, True), (frame[:-1] + frame, True), (b"\0" + frame[1:], False)):
            with mock.patch.object(copies, "read", side_effect=[frame, later]):
                self.assertEqual(copies.copy_journal("office.oej", copy), is_taken, later)
            self.assertEqual(Path(copy).read_bytes(), frame)

    def path(self, name: str) -> str:
        return str(self.folder / name)


@unittest.skipUnless(PROGRAM, "no program is named")
class Copies(Trial):
    serve, link, assert_ended = test_serve.Served.serve, test_serve.Served.link, test_serve.Served.assert_ended

    def setUp(self) -> None:
        super().setUp()
        if os.access(MEMORY, os.W_OK):
            folder = tempfile.TemporaryDirectory(dir=MEMORY)
            self.addCleanup(folder.cleanup)
            self.folder = Path(folder.name)

    @contextmanager
    def posting(self, name: str) -> Iterator[tuple[str, Poster]]:
        served, port = self.serve(1, "--db", name)
        with self.link(served, port) as link:
            yield str(self.folder / name), Poster(link)
        self.assert_ended(served, 1)

    def while_posting(self, name: str) -> list[Taken]:
        """Copies that were taken while changes were stored."""
        out: list[Taken] = []
        with self.posting(name) as (path, poster):
            poster.post(1)  # from now on the file is there
            over = threading.Event()
            thread = threading.Thread(target=poster.post_until, args=[over])
            thread.start()
            try:
                while thread.is_alive() and (len(out) < COPIES or poster.answered < CHANGES):
                    answered, head = poster.answered, copies.read_log(path, copies.LOG_HEAD)
                    rows = stores.read(path)
                    out.append(Taken(answered, poster.sent, entries(rows), digest(rows), head))
            finally:
                over.set()
                thread.join()
            self.assertEqual(poster.answered, poster.sent)
        return out

    def test_while_changes_are_stored(self) -> None:
        for name, most_heads in (("office.db", CHANGES), ("office.oej", 1)):
            with self.subTest(name):
                taken, alone = self.while_posting(name), Rows(self.folder)
                self.assertGreaterEqual(len(taken), COPIES)
                self.assertGreater(len({one.number for one in taken}), COPIES // 2)
                self.assertTrue(min(3, most_heads) <= len({one.head for one in taken}) <= most_heads)  # checkpoints came between
                for one in taken:
                    self.assertTrue(one.answered <= one.number <= one.sent, one)
                    self.assertEqual(one.digest, digest(alone.after(one.number)), f"other rows than those after {one.number} changes")
                os.remove(alone.file)

    def test_a_checkpoint_meanwhile(self) -> None:
        """Between file and log, and within the file: the copy is taken again. The first one, kept all the same, would not be of one moment."""
        for number, half in enumerate((1, 2)):
            with self.subTest(half=half), self.posting(f"{number}.db") as (path, poster):
                first, tries, copyfile = str(self.folder / f"first-{number}.db"), [], shutil.copyfile

                def copy(given: str, to: str) -> None:
                    """Copies a part of the file, has changes stored past a checkpoint, and copies the rest."""
                    tries.append(to)
                    if len(tries) > 1:
                        copyfile(given, to)
                        return
                    with open(given, "rb") as file, open(to, "wb") as made:
                        made.write(file.read(os.path.getsize(given) // half))
                        poster.post_past_checkpoint(path)
                        made.write(file.read())
                    copyfile(to, first)
                    copyfile(f"{given}-wal", f"{first}-wal")

                poster.post_past_checkpoint(path)
                with mock.patch.object(copies.shutil, "copyfile", copy):
                    rows = stores.read(path)
                self.assertEqual(len(tries), 2)
                self.assertEqual(entries(rows), poster.answered)
                alone = Rows(self.folder)
                self.assertTrue(rows == alone.after(poster.answered))
                os.remove(alone.file)
                self.assertFalse(self.is_first_changes(first))

    def is_first_changes(self, path: str) -> bool:
        try:
            with closing(sqlite3.connect(path)) as opened:
                rows = {(table, key): row for table, key, row in opened.execute("SELECT t, k, v FROM kept")}
        except sqlite3.Error:
            return False
        alone = Rows(self.folder)
        is_same = rows == alone.after(entries(rows))
        os.remove(alone.file)
        return is_same
