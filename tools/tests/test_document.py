"""The examples of docs/TOOLS.md and docs/FIVE-MINUTES.md, typed as they stand there, and that each tool says what it is."""
import importlib.util
import os
import re
import shutil
import subprocess
import unittest
from dataclasses import dataclass

from tests import stored
from tests.trial import PROGRAM, STORED_DESK, TOOLS, Trial

NAMES = ("oe-say", "oe-from-nasr", "oe-from-points", "oe-clean", "oe-draw")
INDENT, PROMPT = "    ", "    $ "
PICTURES = ("plan.svg", "profile.svg", "heliport.svg", "heights.svg")
ASKING = ("oe-draw", "oe-high")  # of the desk what has no stored replies


@dataclass
class Typed:
    command: str
    shown: str = ""


def examples() -> list[Typed]:
    """The commands of the document, each with what it shows, but those between fences, which docs/check-examples types."""
    out: list[Typed] = []
    text = (stored.TOP / "docs" / "TOOLS.md").read_text()
    for line in re.sub(r"^```.*?^```$", "", text, flags=re.M | re.S).splitlines():
        if line.startswith(PROMPT):
            out.append(Typed(line.removeprefix(PROMPT)))
        elif out and line.startswith(INDENT):
            out[-1].shown += line.removeprefix(INDENT) + "\n"
        elif out and not line and "head -n" in out[-1].command and out[-1].shown.count("==>") == 1:
            out[-1].shown += "\n"  # between two files that head shows
    return out


class Document(Trial):
    def setUp(self) -> None:
        super().setUp()
        for name in ("docs", "tools"):
            (self.folder / name).symlink_to(stored.TOP / name)
        (self.folder / "out").mkdir()

    def type(self, typed: Typed) -> str:
        environment = {**os.environ, "OE": PROGRAM or str(STORED_DESK), "PYTHONDONTWRITEBYTECODE": "1"}
        done = subprocess.run(["sh", "-c", typed.command], cwd=self.folder, env=environment, stdout=subprocess.PIPE, stderr=subprocess.STDOUT)
        return done.stdout.decode()

    @unittest.skipUnless(importlib.util.find_spec("pyproj"), "pyproj is missing")
    def test_examples(self) -> None:
        typed = examples()
        self.assertEqual({name for name in NAMES if any(f"tools/{name}" in one.command for one in typed)}, set(NAMES))
        for one in typed:
            if PROGRAM or not any(name in one.command for name in ASKING):
                self.assertEqual(self.type(one), one.shown, one.command)
        for picture in PICTURES if PROGRAM else ():
            self.assertEqual((self.folder / "out" / picture).read_text(), (stored.TOP / "docs" / picture).read_text(), f"look at {picture}, then copy it to docs")

    @unittest.skipUnless(PROGRAM and importlib.util.find_spec("pyproj"), "no program is named, or pyproj is missing")
    def test_five_minutes(self) -> None:
        """Its lines are a dozen, run one after another with nothing beside them, and make the picture that the page shows."""
        page = (stored.TOP / "docs" / "FIVE-MINUTES.md").read_text()
        lines = [line[2:] for line in page.splitlines() if line.startswith(("$ ", "> "))]
        room = self.folder / "bin"
        room.mkdir()
        (room / "oe").symlink_to(PROGRAM or "")
        environment = {**os.environ, "PATH": f"{room}:{TOOLS}:{os.environ['PATH']}", "PYTHONDONTWRITEBYTECODE": "1"}
        subprocess.run(["sh", "-e", "-c", "\n".join(lines)], cwd=self.folder, env=environment, check=True, capture_output=True)
        self.assertEqual(len(lines), 12)
        self.assertEqual((self.folder / "five-minutes.svg").read_text(), (stored.TOP / "docs" / "five-minutes.svg").read_text())
        self.assertIn("](five-minutes.svg)", page)

    def test_each_tool_says_what_it_is(self) -> None:
        names = sorted(tool.name for tool in TOOLS.glob("oe-*"))
        self.assertTrue(set(NAMES) < set(names), names)
        for name in names:
            done = subprocess.run([str(TOOLS / name), "--help"], cwd=self.folder, capture_output=True, text=True)
            self.assertEqual((done.returncode, done.stderr), (0, ""), name)
            self.assertIn("is not proved", " ".join(done.stdout.split()), name)
            self.assertIn(f"`tools/{name}`", (stored.TOP / "docs" / "TOOLS.md").read_text())

    def test_a_tool_is_found_through_a_link(self) -> None:
        (self.folder / "bin").mkdir()
        (self.folder / "bin" / "oe-clean").symlink_to(TOOLS / "oe-clean")
        done = subprocess.run(["bin/oe-clean", "-"], input="review,,\n", cwd=self.folder, capture_output=True, text=True)
        self.assertEqual((done.returncode, done.stdout, done.stderr), (0, "review\n", ""))

    def test_an_unpacked_release(self) -> None:
        """There the desk is the file beside the tools; in the repository that file is a script which may build it first."""
        release = self.folder / "release"
        shutil.copytree(TOOLS / "office", release / "tools" / "office")
        shutil.copy(TOOLS / "oe-say", release / "tools")
        (release / "oe").write_text('#!/bin/sh\necho found,0,0\n')
        (release / "oe").chmod(0o755)
        environment = {"PATH": str(self.folder), "PYTHONDONTWRITEBYTECODE": "1"}

        def say() -> subprocess.CompletedProcess[str]:
            return subprocess.run([release / "tools" / "oe-say", "-"], input="screen,0,0,0,0,object,0,-,-\n", env=environment, capture_output=True, text=True)
        self.assertIn("no rule that the desk knows is met", say().stdout)
        (release / "crates").mkdir()
        self.assertIn("no such program", say().stderr)

    def test_a_reader_that_has_enough(self) -> None:
        session = stored.sessions()["structures at airports and heliports of all kinds"]
        files = self.write("in", session.content), self.write("replies", "\n".join(session.replies) + "\n")
        done = subprocess.run(["sh", "-c", f"tools/oe-say {' '.join(files)} | head -n 1"], cwd=self.folder, capture_output=True, text=True)
        self.assertEqual((done.stdout.count("\n"), done.stderr), (1, ""))
