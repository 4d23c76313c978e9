"""The words of the program: those that are a command, and those that are none, which touch nothing. Some of these are answered before it by tools/wrapper."""
import subprocess
import unittest

from tests.trial import PROGRAM, Trial

SERVE = ["serve", "--listen", "192.0.2.1:8077"]  # no address of loopback, so that it never serves
COMMANDS = [  # the words, and the status with an empty input
    (["desk"], 0), (["desk", "--db", "f"], 0), (["ceiling", "--db=f=g"], 0), (["stations", "--db", "a-b"], 0), (["asof", "--db=f"], 0), (["generate", "0", "1"], 0),
    (["generate", "9223372036854775807", "1"], 0), ([*SERVE, "--workers", "16", "--turns", "1000000"], 9), (["serve", "--turns=3", "--db", "f", "--listen=192.0.2.1:1", "--workers", "1"], 9),
    (["serve", "--db=f", "--workers=2", "--turns", "1", *SERVE[1:]], 9)]
NONE = """
des | desk f | --db f desk | desk -- | desk -- --db f | desk - | desk -d f | desk --db f --db f | desk --turns 3
desk --db=-x | desk --db -x | desk --db= | desk --db | serve --listen a --work 3 --turns 3 | serve --listen a --workers 3 --turns 3 --turns=3 | generate 1 1 --db=f
serve --listen a --workers 3 | serve --listen a --workers --turns 3 | serve --listen= --workers 3 --turns 3 | serve --listen=-a --workers 3 --turns 3
serve --listen a --workers 017 --turns 3 | serve --listen a --workers 17 --turns 3 | serve --listen a --workers 0 --turns 3 | serve --listen a --workers +3 --turns 3
serve --listen a --workers 3 --turns 0 | serve --listen a --workers 3 --turns 1000001 | generate 1 | generate 9223372036854775808 1 | generate 1 0 | generate 1 20001 | generate 01 1
serve --listen a --workers 3 --turns 3 f | generate 1 1 1 | generate - 1 | generate 1 --db=1 | desk --db=f desk | desk --workers=3 | desk --=f | desk =f
"""
NONE_OF_THEM = [[], [""], ["desk", "--db", ""], *(line.split() for line in NONE.replace("\n", "|").split("|") if line.strip())]
HELP = [["--help"], ["-h"], ["help"], ["help", "desk"], ["desk", "--help"], ["desk", "-h"], ["desk", "help"], ["serve", "-h"], ["serve", "--listen", "a", "--help"], ["generate", "1", "-h"]]
VERSION = [["--version"], ["desk", "--version"], ["ceiling", "--db", "f", "--version"]]


@unittest.skipUnless(PROGRAM, "no program is named")
class Words(Trial):
    def run_program(self, words: list[str]) -> "subprocess.CompletedProcess[bytes]":
        return subprocess.run([str(PROGRAM), *words], cwd=self.folder, input=b"", capture_output=True, check=False)

    def test_words_that_are_commands(self) -> None:
        for words, status in COMMANDS:
            with self.subTest(words):
                self.assertEqual(self.run_program(words).returncode, status)

    def test_words_that_are_no_command(self) -> None:
        for words in [*NONE_OF_THEM, *HELP, *VERSION]:
            with self.subTest(words):
                ended = self.run_program(words)
                self.assertEqual((ended.returncode, ended.stdout, ended.stderr), (2, b"", b"oe: usage\n"))
        self.assertEqual(list(self.folder.iterdir()), [])
