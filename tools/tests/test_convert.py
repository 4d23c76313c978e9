"""oe-convert: a file of one kind to the other, and the bytes of a journal."""
import sqlite3
import subprocess
import unittest
from contextlib import closing
from pathlib import Path

from office import journals, stores
from tests.trial import PROGRAM, Trial

# The example of docs/TABLES.md: the row of the format alone.
EXAMPLE = bytes.fromhex("01 0000000000000019 5002 0000000000000006 666f726d6174 0000000000000001 32 00")
ROWS = {(0, "AAA"): "airport,public,0,0,1000", (2, "format"): "2", (2, "now"): "2026-01-15"}


class Convert(Trial):
    def path(self, name: str) -> str:
        return str(self.folder / name)

    def test_bytes_of_a_journal(self) -> None:
        self.assertEqual(journals.rows_of(EXAMPLE), {(2, "format"): "2"})
        self.assertEqual(journals.journal_of({(2, "format"): "2"}), EXAMPLE)
        self.assertEqual(journals.rows_of(journals.journal_of({})), {})
        removal = b"R\2" + (6).to_bytes(8, "big") + b"format"
        self.assertEqual(journals.rows_of(EXAMPLE[:-1] + b"\1" + len(removal).to_bytes(8, "big") + removal + b"\0"), {})
        for end in range(len(EXAMPLE)):  # the last byte of a frame that counts has one behind it
            self.assertEqual(journals.rows_of(EXAMPLE[:end]), {})

    def test_there_and_back(self) -> None:
        stores.write(self.path("office.db"), dict(ROWS))
        self.assertEqual(self.good("oe-convert", self.path("office.db"), "office.oej").out, "office.oej: 3 rows\n")
        self.assertEqual(stores.read(self.path("office.oej")), ROWS)
        self.good("oe-convert", "office.oej", "back.db")
        self.assertEqual(stores.read(self.path("back.db")), ROWS)
        self.assertEqual([it.name for it in self.folder.glob("*.part")], [])

    def test_what_is_refused(self) -> None:
        stores.write(self.path("office.oej"), dict(ROWS))
        stores.write(self.path("office.db"), dict(ROWS))
        self.fault("must end in .oej", "oe-convert", "office.db", "other.db")
        self.fault("must end in .oej", "oe-convert", "office.oej", "other.oej")
        self.fault("office.db is there", "oe-convert", "office.oej", "office.db")
        self.fault("none.oej: no such file", "oe-convert", "none.oej", "other.db")
        for payload in (b"P\2\0", b"P", b"X\2" + b"\0" * 16, b"P\5" + b"\0" * 16, b"P\2" + (1).to_bytes(8, "big") + b"\xff" + b"\0" * 8):
            self.write("bad.oej", b"\1" + len(payload).to_bytes(8, "big") + payload + b"\0")
            self.fault("bad.oej is damaged", "oe-convert", "bad.oej", "other.db")
        self.write("odd.db", b"no database at all, but some bytes" * 40)
        self.fault("odd.db", "oe-convert", "odd.db", "other.oej")
        with closing(sqlite3.connect(self.folder / "blob.db")) as made, made:
            made.execute("CREATE TABLE kept (t, k, v)")
            made.execute("INSERT INTO kept VALUES (2, 'format', x'33')")
        self.fault("blob.db: a row of it is no text", "oe-convert", "blob.db", "other.oej")

    @unittest.skipUnless(PROGRAM, "no program is named")
    def test_the_desk_answers_the_same(self) -> None:
        case = (Path(__file__).resolve().parents[2] / "docs" / "case.csv").read_bytes()

        def told(name: str) -> bytes:
            return subprocess.run([str(PROGRAM), "desk", "--db", self.path(name)], input=case, capture_output=True, check=True).stdout

        told("office.db")
        self.good("oe-convert", "office.db", "office.oej")
        self.good("oe-convert", "office.oej", "back.db")
        wanted = told("office.db")
        self.assertEqual((told("office.oej"), told("back.db")), (wanted, wanted))

    @unittest.skipUnless(PROGRAM, "no program is named")
    def test_while_a_desk_has_it(self) -> None:
        for given, made in (("office.db", "made.oej"), ("office.oej", "made.db")):
            with subprocess.Popen([str(PROGRAM), "desk", "--db", self.path(given)], stdin=subprocess.PIPE, stdout=subprocess.PIPE) as open_desk:
                open_desk.stdin.write(b"day,a,9,2026-01-16\n")
                open_desk.stdin.flush()
                self.assertEqual(open_desk.stdout.readline(), b"ok,1,published,day\n")
                self.assertEqual(self.good("oe-convert", given, made).out, f"{made}: 3 rows\n")
                open_desk.stdin.close()
            self.assertEqual(stores.read(self.path(made))[2, "now"], "2026-01-16")
