"""tools/wrapper: what it answers, and that whatever it does not answer goes to the program as if that had been called itself."""
import json
import os
import re
import shutil
import signal
import subprocess
import unittest
from pathlib import Path

from tests import stored
from tests.test_words import COMMANDS, HELP, NONE_OF_THEM, VERSION
from tests.trial import PROGRAM, TOOLS, Trial

# A program that writes down how it was called, and then ends as its last word says.
PROBE = """#!/usr/bin/python3 -IS
import json, os, sys
def is_open(stream):
    try:
        return os.fstat(stream).st_ino
    except OSError:
        return 0
signs = [line for line in open("/proc/self/status") if line.startswith(("SigBlk", "SigIgn", "SigCgt"))]
seen = {"words": [os.fsencode(word).hex() for word in sys.argv[1:]], "streams": [is_open(stream) for stream in range(12)], "signs": signs, "folder": os.getcwd(),
        "parent": os.getppid(), "own": os.getpid()}
with open(os.environ["SEEN"], "w") as file:
    json.dump(seen, file)
last = sys.argv[-1]
if last.startswith("signal"):
    os.kill(os.getpid(), int(last[6:]))
os._exit(int(last) if last.isdigit() else 0)
"""
VERSION_OF_TEST = "1a2b3c4d of 2026-12-01"


class Wrapper(Trial):
    def setUp(self) -> None:
        super().setUp()
        self.seen = self.folder / "seen"
        self.room = self.folder / "a prefix" / "lib" / "oe"
        self.room.mkdir(parents=True)
        for name in ("wrapper", "words.sh"):
            shutil.copy(TOOLS / name, self.room)
        (self.room / "VERSION").write_text(VERSION_OF_TEST + "\n")
        self.put_program(PROBE)
        self.oe = self.folder / "a prefix" / "bin" / "oe"
        self.oe.parent.mkdir()
        self.oe.symlink_to("../lib/oe/wrapper")

    def put_program(self, text: str) -> None:
        (self.room / "oe").write_text(text)
        (self.room / "oe").chmod(0o755)

    def seen_by(self, program: Path | str, words: list[str | bytes], closed: tuple[int, ...] = (), ignored: tuple[int, ...] = ()) -> tuple[int, dict[str, object]]:
        """The status of a program that is called with these streams closed and signals ignored, and what the probe has seen."""
        def prepare() -> None:
            for number in ignored:
                signal.signal(number, signal.SIG_IGN)
            for stream in closed:
                os.close(stream)
        with open(self.folder / "streams", "w+b") as file:
            begun = subprocess.Popen([program, *words], stdin=file, stdout=file, stderr=file, preexec_fn=prepare, cwd=self.folder, env={**os.environ, "SEEN": str(self.seen)})
        status = begun.wait()
        seen = json.loads(self.seen.read_text())
        self.seen.unlink()
        self.assertEqual((seen.pop("own"), seen["parent"]), (begun.pid, os.getpid()))
        return status, seen

    def assert_same(self, words: list[str | bytes], closed: tuple[int, ...] = (), ignored: tuple[int, ...] = ()) -> int:
        status, seen = self.seen_by(self.oe, words, closed, ignored)
        self.assertEqual((status, seen), self.seen_by(self.room / "oe", words, closed, ignored))
        return status

    def test_it_becomes_the_program(self) -> None:
        for words in ([], [""], ["desk"], ["desk", "--db", "a  b\n*"], ["$HOME", "`id`", "\\", "-n", "-e"], ["-"], ["desk", b"\xff\xfe"], ["-c", "exit 3"]):
            self.assertEqual(self.assert_same(words), 0)
        for status in (2, 5, 9, 127, 255):
            self.assertEqual(self.assert_same(["desk", str(status)]), status)
        for number in (signal.SIGTERM, signal.SIGKILL, signal.SIGPIPE):
            self.assertEqual(self.assert_same(["desk", f"signal{int(number)}"]), -number if number != signal.SIGPIPE else 0)  # Python ignores SIGPIPE

    def test_streams_and_signals(self) -> None:
        for closed in ((0,), (1,), (2,), (0, 1), (1, 2), (0, 1, 2)):
            self.assert_same(["desk"], closed=closed)
        self.assert_same(["desk"], ignored=(signal.SIGINT, signal.SIGHUP, signal.SIGTERM, signal.SIGQUIT, signal.SIGUSR1))

    def test_where_it_is_called_from(self) -> None:
        (self.folder / "linked").symlink_to(self.oe)
        for called in ("a prefix/bin/oe", "./linked", "oe"):
            environment = {"PATH": f"{self.oe.parent}:/usr/bin:/bin", "SEEN": str(self.seen)}
            self.assertEqual(subprocess.run([called, "desk", "7"], cwd=self.folder, env=environment).returncode, 7, called)
            self.assertEqual(subprocess.run([called, "--version"], cwd=self.folder, env=environment, capture_output=True, text=True).stdout, f"oe {VERSION_OF_TEST}\n")

    def test_help_and_version(self) -> None:
        for words in HELP + VERSION:
            ended = subprocess.run([self.oe, *words], capture_output=True, text=True)
            self.assertEqual((ended.returncode, ended.stderr, self.seen.exists()), (0, "", False), words)
            lines = ended.stdout.splitlines()
            self.assertTrue(lines[0].startswith(f"oe {VERSION_OF_TEST}"), words)
            self.assertEqual(len(lines) > 1, words in HELP)
        with open("/dev/full", "w") as full:
            for words in (["--help"], ["--version"]):
                self.assertNotEqual(subprocess.run([self.oe, *words], stdout=full, stderr=subprocess.DEVNULL).returncode, 0)

    def test_the_page_names_the_commands_of_the_manual_page(self) -> None:
        synopsis = (stored.TOP / "docs" / "oe.1").read_text().split(".SH DESCRIPTION")[0]
        page = subprocess.run([self.oe, "help"], capture_output=True, text=True).stdout
        self.assertEqual(sorted(re.findall(r"^  oe ([a-z]+)", page, re.M)), sorted(re.findall(r"^\.B oe ([a-z]+)", synopsis, re.M)))
        self.assertTrue(all(len(line) <= 80 for line in page.splitlines()), page)

    def test_words_of_the_program(self) -> None:
        """What is a command, and what is none, goes to the program."""
        for words in [*(words for words, _ in COMMANDS), *NONE_OF_THEM]:
            self.assertEqual(self.seen_by(self.oe, list(words))[1]["words"], [os.fsencode(word).hex() for word in words])

    @unittest.skipUnless(PROGRAM, "no program is named")
    def test_the_program_behind_it(self) -> None:
        (self.room / "oe").unlink()
        shutil.copy(str(PROGRAM), self.room / "oe")
        for words in (["desk"], ["typo"], ["desk", "typo"], ["generate", "7", "20"], ["serve", "--listen", "192.0.2.1:8077", "--workers", "1", "--turns", "1"]):
            given = (stored.TOP / "docs" / "first.csv").read_bytes()
            ended = [subprocess.run([program, *words], input=given, capture_output=True, cwd=self.folder) for program in (self.oe, str(PROGRAM))]
            self.assertEqual(*((one.returncode, one.stdout, one.stderr) for one in ended))
