"""Files that earlier desks left: each opens under the desk of today, and answers each request that was accepted as before.

`data/format-N.csv` are records, and `data/format-N.out` the replies of the desk of format N as it was sent them a second time; `format-N.db` and
`format-N.oej` are the files that it left. None of them is made anew."""
import shutil
import sqlite3
import subprocess
import unittest
from contextlib import closing
from pathlib import Path

from tests.trial import PROGRAM, Trial

DATA = Path(__file__).resolve().parent / "data"
FORMAT = "3"


def format_of(file: Path) -> str:
    with closing(sqlite3.connect(file)) as rows:
        return rows.execute("SELECT v FROM kept WHERE k = 'format'").fetchone()[0]


@unittest.skipUnless(PROGRAM, "no program is named")
class Formats(Trial):
    def test_files_of_earlier_formats(self) -> None:
        files = [file for suffix in ("db", "oej") for file in sorted(DATA.glob(f"format-*.{suffix}"))]
        self.assertGreater(len(files), 1)
        for file in files:
            with self.subTest(file.name):
                copy = self.folder / file.name
                shutil.copy(file, copy)
                for _ in range(2):
                    ended = subprocess.run([PROGRAM, "desk", "--db", copy.name], cwd=self.folder, input=file.with_suffix(".csv").read_bytes(), capture_output=True, check=False)
                    self.assertEqual((ended.returncode, ended.stderr), (0, b""))
                    self.assertEqual(ended.stdout.decode(), file.with_suffix(".out").read_text())
                if file.suffix == ".db":
                    self.assertEqual(format_of(copy), FORMAT)
