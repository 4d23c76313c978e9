"""The manual pages: one for each tool, without a fault of its form, with each option that the tool names in its --help."""
import re
import shutil
import subprocess
import unittest

from tests import stored
from tests.trial import TOOLS, Trial

DOCS = stored.TOP / "docs"
OPTION = re.compile(r"(?<![\w-])--?[a-z][a-z-]*")


def options(heads: list[str]) -> set[str]:
    return set(OPTION.findall(" ".join(heads)))


class Manual(Trial):
    def test_each_tool_has_a_page_with_its_options(self) -> None:
        for tool in sorted(TOOLS.glob("oe-*")):
            page = (DOCS / f"{tool.name}.1").read_text()
            named = options(re.findall(r"^  (-.*?)(?:  |$)", self.good(tool.name, "--help").out, re.M))
            listed = options(re.findall(r"^\.TP\n(.*)$", page.replace("\\-", "-").replace("\\f", " "), re.M))
            self.assertLessEqual({"-h", "--help"}, named)
            self.assertEqual(listed, named, tool.name)
            self.assertIn(f".BR {tool.name.replace('-', chr(92) + '-')} (1)", (DOCS / "oe.1").read_text())

    @unittest.skipUnless(shutil.which("man"), "man is missing (Debian: man-db)")
    def test_the_form_of_each_page(self) -> None:
        for page in DOCS.glob("*.1"):
            done = subprocess.run(["man", "--warnings", "-l", page], capture_output=True, text=True)
            self.assertEqual((done.returncode, done.stderr), (0, ""), page)
            self.assertIn(f"{page.stem} - ", " ".join(done.stdout.split()))
