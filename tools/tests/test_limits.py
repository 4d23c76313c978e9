"""A desk that is full: the greatest number of cases, and of airfields, and the refusal of one more."""
import subprocess
import unittest

from tests.trial import PROGRAM, Trial

CASES = 300_000
AIRFIELDS = 16_384


def notice(key: int) -> str:
    return f"file,o,{key},2026-03-01,-,-,normal,-,0,0,1000,2001,object,0,-,-\n"


def airport(key: int, number: int) -> str:
    return f"airport,o,{key},F{number:05d},public,0,0,1000\n"


@unittest.skipUnless(PROGRAM, "no program is named")
class Limits(Trial):
    def replies(self, records: str) -> list[str]:
        ended = subprocess.run([str(PROGRAM), "desk"], cwd=self.folder, input=records.encode(), capture_output=True, check=False)
        self.assertEqual((ended.returncode, ended.stderr), (0, b""))
        return ended.stdout.decode().splitlines()

    def test_as_many_cases_as_a_desk_takes(self) -> None:
        last = CASES + 1  # the key, and the number of the entry: the first is the day
        records = "day,o,1,2026-01-15\n" + "".join(map(notice, range(2, last + 1)))
        records += notice(last + 1) + notice(2) + f"abandon,o,{last + 1},{CASES}\n" + "sync\n"
        replies = self.replies(records)
        self.assertEqual(replies[CASES], f"ok,{last},published,case,{CASES},timely,-,-")
        self.assertEqual(replies[last:], ["no,15,CasesFull", "ok,2,published,case,1,timely,-,-", f"ok,{last + 1},published,abandon,{CASES}", f"sync,{last + 1}"])

    def test_as_many_airfields_as_a_desk_takes(self) -> None:
        records = "".join(airport(key, key) for key in range(1, AIRFIELDS + 1))
        records += airport(AIRFIELDS + 1, 0) + airport(AIRFIELDS + 1, 1) + f"drop,o,{AIRFIELDS + 2},F00002\n" + airport(AIRFIELDS + 3, 0)
        replies = self.replies(records)
        self.assertEqual(replies[AIRFIELDS - 1], f"ok,{AIRFIELDS},published,airport")
        self.assertEqual(replies[AIRFIELDS:], ["no,8,RegisterFull", *[f"ok,{AIRFIELDS + more},published,{form}" for more, form in enumerate(["airport", "drop", "airport"], 1)]])
