"""Runs a tool in a folder of its own, within this process, which is quicker than a new one."""
import contextlib
import io
import os
import runpy
import subprocess
import sys
import tempfile
import unittest
from dataclasses import dataclass
from datetime import date
from pathlib import Path
from unittest import mock

TOOLS = Path(__file__).resolve().parent.parent
STORED_DESK = TOOLS / "tests" / "stored_desk.py"
PROGRAM = os.environ.get("OE_TESTED")
TODAY = date(2026, 1, 15)  # the machine's day as the tools see it
NO_INPUT, NO_OUTPUT, NO_ERROR = STREAMS = "<&-", ">&-", "2>&-"


def program(*words: str, closed: str = "") -> list[str]:
    """The program with these words, and with a standard stream that is closed before it begins."""
    return ["sh", "-c", f'exec "$0" "$@" {closed}', str(PROGRAM), *words]


@dataclass(frozen=True)
class Ended:
    status: int
    out: str
    err: str


class Trial(unittest.TestCase):
    """A test with a folder; `run_tool` runs a tool in it."""
    maxDiff = None

    def setUp(self) -> None:
        folder = tempfile.TemporaryDirectory()
        self.addCleanup(folder.cleanup)
        self.folder = Path(folder.name)

    def write(self, name: str, content: str | bytes) -> str:
        path = self.folder / name
        path.write_bytes(content.encode() if isinstance(content, str) else content)
        return str(path)

    def run_tool(self, tool: str, *words: str, given: bytes = b"", desk: str | None = None) -> Ended:
        out, err, before = io.StringIO(), io.StringIO(), os.getcwd()
        stdin = io.TextIOWrapper(io.BytesIO(given))
        os.chdir(self.folder)
        try:
            with (mock.patch.object(sys, "argv", [tool, *words]), mock.patch.object(sys, "stdin", stdin), mock.patch.object(sys, "path", list(sys.path)),
                  mock.patch.dict(os.environ, {"OE": desk or str(STORED_DESK)}), mock.patch("office.cautions.today", lambda: TODAY), contextlib.redirect_stdout(out), contextlib.redirect_stderr(err)):
                runpy.run_path(str(TOOLS / tool), run_name="__main__")
            status: object = 0
        except SystemExit as ended:
            status = ended.code
        finally:
            os.chdir(before)
        if isinstance(status, str):  # Python itself writes these words
            return Ended(1, out.getvalue(), err.getvalue() + status + "\n")
        return Ended(int(status or 0), out.getvalue(), err.getvalue())

    def good(self, tool: str, *words: str, given: bytes = b"", desk: str | None = None) -> Ended:
        """Runs a tool that must end with status 0."""
        ended = self.run_tool(tool, *words, given=given, desk=desk)
        self.assertEqual((ended.status, "Traceback" in ended.err), (0, False), ended.err)
        return ended

    def fault(self, wanted: str, tool: str, *words: str, given: bytes = b"", desk: str | None = None) -> None:
        """Runs a tool that must end with status 1 and one line that has the wanted words."""
        ended = self.run_tool(tool, *words, given=given, desk=desk)
        self.assertEqual(ended.status, 1, ended)
        self.assertEqual(ended.err.count("\n"), 1, ended.err)
        self.assertIn(wanted, ended.err)
        self.assertEqual(ended.out, "")

    def assert_wants(self, module: str, package: str, tool: str, *words: str) -> None:
        """Runs a tool where a module of Python is missing: it must end with status 1 and one line that names the package of it."""
        hidden = self.folder / f"without-{module}"
        hidden.mkdir(exist_ok=True)
        (hidden / f"{module}.py").write_text("raise ImportError\n")
        done = subprocess.run([str(TOOLS / tool), *words], cwd=self.folder, env={**os.environ, "PYTHONPATH": str(hidden), "PYTHONDONTWRITEBYTECODE": "1"},
                              stdin=subprocess.DEVNULL, capture_output=True, text=True)
        self.assertEqual((done.returncode, done.stdout, done.stderr.count("\n")), (1, "", 1), done.stderr)
        self.assertIn(f"(on Debian: apt-get install {package})", done.stderr)
