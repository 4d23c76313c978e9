"""Files that a desk is given: rows that SQLite wrote and that cannot stand, a journal with bytes behind its frames, a folder, a file that another desk has, and files of a desk whose standard stream is closed."""
import itertools
import shutil
import sqlite3
import subprocess
import unittest
from contextlib import closing

from office import journals
from tests.trial import NO_ERROR, NO_INPUT, NO_OUTPUT, PROGRAM, Trial, program

DAY = "day,u,1,2026-01-15\n"
ACCEPTED = "ok,1,published,day\n"
NEXT_DAY = "day,u,2,2026-01-16\n"
NEXT_ACCEPTED, REFUSED = "ok,2,published,day\n", "no,13,Malformed,1\n"
ROWS = [(2, "format", "3"), (2, "now", "2026-01-15"), (4, "u 1", "1\nday,u,1,2026-01-15\nday")]
PUT = "INSERT INTO kept (t, k, v) VALUES (?, ?, ?)"
FAULT = (5, "", "oe: keeper fault\n")
CANNOT_STAND = [(5, "a", "b"), (0, None, "b"), (0, "a", 7), (2, "now", "2026-01-16")]  # no table, no key, no text, a second row under one key
REPLIES = {"desk": NEXT_ACCEPTED, "asof": NEXT_ACCEPTED, "ceiling": REFUSED, "stations": REFUSED}  # to the next day
CLOSED = {NO_INPUT: (3, "oe: read fault\n"), NO_OUTPUT: (4, "oe: write fault\n"), NO_ERROR: (0, "")}


@unittest.skipUnless(PROGRAM, "no program is named")
class Stores(Trial):
    def desk(self, place: str, records: str) -> tuple[int, str, str]:
        ended = subprocess.run([str(PROGRAM), "desk", "--db", place], cwd=self.folder, input=records.encode(), capture_output=True, check=False)
        return ended.returncode, ended.stdout.decode(), ended.stderr.decode()

    def store(self, name: str, rows: list[tuple[int, str | None, str | int]]) -> str:
        """A file of SQLite's with these rows in a table that keeps no limits of its own."""
        with closing(sqlite3.connect(self.folder / name)) as made, made:
            made.execute("CREATE TABLE kept (t, k, v)")
            made.executemany(PUT, rows)
        return name

    def test_rows_that_stand_in_a_table_without_limits(self) -> None:
        self.assertEqual(self.desk(self.store("good.db", ROWS), DAY), (0, ACCEPTED, ""))

    def test_rows_that_cannot_stand(self) -> None:
        for number, row in enumerate(CANNOT_STAND):
            with self.subTest(row):
                self.assertEqual(self.desk(self.store(f"{number}.db", [*ROWS, row]), DAY), FAULT)

    def test_bytes_behind_the_frames_of_a_journal(self) -> None:
        """They are cut off, whatever they are, and the frames stay as they were."""
        self.assertEqual(self.desk("office.oej", DAY), (0, ACCEPTED, ""))
        whole = (self.folder / "office.oej").read_bytes()
        self.assertEqual(journals.rows_of(whole), {(table, key): row for table, key, row in ROWS})
        for gate in (b"\0", b"\1", b"\2"):
            with self.subTest(gate):
                (self.folder / "office.oej").write_bytes(whole[:-1] + gate + bytes(range(255)))
                self.assertEqual(self.desk("office.oej", DAY), (0, ACCEPTED, ""))
                self.assertEqual((self.folder / "office.oej").read_bytes(), whole)

    def test_places_that_are_no_file(self) -> None:
        for place in (".", ":memory:", "no/office.db", "no/office.oej", "./.oej/"):
            with self.subTest(place):
                self.assertEqual(self.desk(place, DAY), FAULT)

    def test_a_file_that_another_desk_has(self) -> None:
        for place in ("office.db", "office.oej"):
            with self.subTest(place):
                first = subprocess.Popen([str(PROGRAM), "desk", "--db", place], cwd=self.folder, stdin=subprocess.PIPE, stdout=subprocess.PIPE, text=True, bufsize=0)
                self.addCleanup(first.wait)
                with first:
                    first.stdin.write(DAY)
                    self.assertEqual(first.stdout.readline(), ACCEPTED)
                    self.assertEqual(self.desk(place, DAY), FAULT)
                self.assertEqual(first.returncode, 0)
                self.assertEqual(self.desk(place, DAY), (0, ACCEPTED, ""))

    def test_a_standard_stream_that_is_closed(self) -> None:
        """The file is as it was, or has the change as a desk makes it that has all three streams."""
        for kind in ("db", "oej"):
            before, after = f"before.{kind}", f"after.{kind}"
            self.assertEqual(self.desk(before, DAY), (0, ACCEPTED, ""))
            shutil.copy(self.folder / before, self.folder / after)
            self.assertEqual(self.desk(after, NEXT_DAY), (0, NEXT_ACCEPTED, ""))
            for command, stream in itertools.product(REPLIES, CLOSED):
                with self.subTest(kind=kind, command=command, closed=stream):
                    place = self.folder / f"{command}{CLOSED[stream][0]}.{kind}"
                    shutil.copy(self.folder / before, place)
                    ended = subprocess.run(program(command, "--db", place.name, closed=stream), cwd=self.folder, input=NEXT_DAY, capture_output=True, text=True, check=False)
                    self.assertEqual((ended.returncode, ended.stderr), CLOSED[stream])
                    self.assertEqual(ended.stdout, REPLIES[command] if stream == NO_ERROR else "")
                    is_made = REPLIES[command] == NEXT_ACCEPTED and stream != NO_INPUT
                    self.assertEqual(place.read_bytes(), (self.folder / (after if is_made else before)).read_bytes())
                    self.assertNotIn(REPLIES[command].encode(), place.read_bytes())
                    self.assertEqual(self.desk(place.name, "sync\n" + DAY), (0, f"sync,{2 if is_made else 1}\n{ACCEPTED}", ""))
