"""tools/release and tools/install: what is in the archive and in the package, what is put in place and taken away, and that no document there has a link that leads nowhere."""
import gzip
import os
import re
import shutil
import subprocess
import tempfile
import unittest
from pathlib import Path

from tests import stored
from tests.trial import PROGRAM, TOOLS

STDOUT = stored.TOP / "crates" / "oe_main" / "stdout"  # the replies of docs/first.csv
STANDS_FOR_THE_PROGRAM = f"#!/bin/sh\ncat > /dev/null\ncat <<'END'\n{STDOUT.read_text()}END\n"
DOCS = Path("share", "doc", "oe")
BESIDE_THE_PROGRAM = {"oe-say", "oe-from-nasr", "oe-from-points", "oe-clean", "oe-draw", "oe-convert", "oe-map", "oe-high", "oe-list", "oe-letter"}
WANTED_FOR_A_PACKAGE = ("git", "dpkg-buildpackage", "dh", "dh_python3")


def run_in(folder: Path, *words: str | Path, **variables: str) -> str:
    done = subprocess.run(words, cwd=folder, stdin=subprocess.DEVNULL, stdout=subprocess.PIPE, stderr=subprocess.STDOUT, text=True, env={**os.environ, **variables})
    if done.returncode:
        raise AssertionError(f"{words} ended with status {done.returncode}:\n{done.stdout}")
    return done.stdout


def tools_first(top: Path) -> str:
    """A path on which the tools come first, so that its `install` is tools/install."""
    return f"{top / 'tools'}:{os.environ['PATH']}"


def make_repository(top: Path) -> None:
    """The documents and the tools, with a script in place of the program, and of the one that builds it."""
    built = top / "crates" / "oe_main" / "out"
    built.mkdir(parents=True)
    for name in ("docs", "tools"):
        shutil.copytree(stored.TOP / name, top / name, ignore=shutil.ignore_patterns("__pycache__"))
    shutil.copy(STDOUT, top / "crates" / "oe_main")
    for program in (top / "oe", built / "oe_main"):
        program.write_text(STANDS_FOR_THE_PROGRAM)
        program.chmod(0o755)
    for words in (("init", "-q"), ("add", "-A"), ("-c", "user.name=office", "-c", "user.email=office@example.org", "commit", "-q", "-m", "all")):
        run_in(top, "git", *words)


def manual_pages(folder: Path) -> dict[str, str]:
    return {path.name: path.read_text() for path in folder.glob("*.1")}


def tree(folder: Path) -> dict[str, str]:
    """Each folder, file and link of a folder, with what is in it."""
    return {str(path.relative_to(folder)): os.readlink(path) if path.is_symlink() else "" if path.is_dir() else path.read_bytes().hex() for path in folder.rglob("*")}


@unittest.skipUnless(shutil.which("git"), "git is missing")
class Installed(unittest.TestCase):
    """One release is made and unpacked for all tests, and installed from it and from the repository."""
    @classmethod
    def setUpClass(cls) -> None:
        folder = tempfile.TemporaryDirectory()
        cls.addClassCleanup(folder.cleanup)
        room = Path(folder.name)
        top = room / "repository"
        make_repository(top)
        run_in(room, top / "tools" / "release", room, PATH=tools_first(top))
        (archive,) = room.glob("oe-*.tar.gz")
        run_in(room, "tar", "xzf", archive)
        cls.release = room / archive.name.removesuffix(".tar.gz")
        cls.version = run_in(room, top / "tools" / "version").strip()
        cls.top = top
        cls.prefixes = (room / "from-repository", room / "from-release")
        for source, prefix in zip((top, cls.release), cls.prefixes):
            run_in(room, source / "tools" / "install", prefix, PATH=tools_first(source))

    def test_what_is_installed(self) -> None:
        for prefix in self.prefixes:
            self.assertEqual({path.name for path in (prefix / "bin").iterdir()}, {"oe"} | BESIDE_THE_PROGRAM)
            self.assertEqual((prefix / "lib" / "oe" / "oe").read_text(), STANDS_FOR_THE_PROGRAM)
            self.assertEqual(run_in(prefix, prefix / "bin" / "oe", "desk"), STDOUT.read_text())
            self.assertEqual(run_in(prefix, prefix / "bin" / "oe", "--version"), f"oe {self.version}\n")
            self.assertEqual(manual_pages(prefix / "share" / "man" / "man1"), manual_pages(stored.TOP / "docs"))
            self.assertIn("is not proved", " ".join(run_in(prefix, prefix / "bin" / "oe-say", "--help").split()))
            docs = prefix / DOCS
            self.assertEqual({path.name for path in docs.glob("*.*")}, {path.name for path in (stored.TOP / "docs").glob("*.*") if path.suffix != ".1"})
            for path in docs.rglob("*"):
                self.assertEqual(path.stat().st_mode & 0o777, 0o755 if path.is_dir() else 0o644, path)

    def test_no_link_leads_nowhere(self) -> None:
        for docs in (self.release / "docs", *(prefix / DOCS for prefix in self.prefixes)):
            self.assertEqual(run_in(docs, stored.TOP / "docs" / "check-links", docs), "")

    def test_links_to_the_examples(self) -> None:
        for docs, target in ((self.release / "docs", "../tools/examples/ends.ini"), *((prefix / DOCS, "examples/ends.ini") for prefix in self.prefixes)):
            self.assertIn(f"]({target})", (docs / "TOOLS.md").read_text())
            self.assertEqual((docs / target).read_text(), (TOOLS / "examples" / "ends.ini").read_text())

    def test_the_checksums_of_the_release(self) -> None:
        run_in(self.release, "sha256sum", "-c", "--quiet", "SHA256SUMS")
        listed = {line.split("  ", 1)[1] for line in (self.release / "SHA256SUMS").read_text().splitlines()}
        there = {str(path.relative_to(self.release)) for path in self.release.rglob("*") if path.is_file() and not path.is_symlink() and "__pycache__" not in path.parts}
        self.assertEqual(listed, there - {"SHA256SUMS"})

    def test_the_readme_of_the_release(self) -> None:
        """Each file that its commands name is there."""
        typed = [line for line in (self.release / "README").read_text().splitlines() if line.startswith("    ")]
        for name in re.findall(r"(?:docs|tools)/[\w.-]+|SHA256SUMS|\./oe", " ".join(typed)):
            self.assertTrue((self.release / name).exists(), name)
        self.assertTrue(os.access(self.release / "docs" / "check-examples", os.X_OK))
        self.assertEqual({path.name for path in self.release.iterdir()}, {"README", "SHA256SUMS", "docs", "oe", "tools"})

    def test_what_is_taken_away(self) -> None:
        """Exactly what was put there, with what Python compiled of it: files and folders that were there before stay, and so does what an office put there since."""
        with tempfile.TemporaryDirectory() as folder:
            room = Path(folder)
            (room / "prefix" / "share" / "man").mkdir(parents=True)
            (room / "prefix" / "bin").mkdir()
            (room / "prefix" / "bin" / "own").write_text("own")
            before = tree(room)
            run_in(room, self.top / "tools" / "install", "prefix")
            once = tree(room)
            run_in(room, self.release / "tools" / "install", "prefix")  # a second time, and from a release
            self.assertEqual(tree(room), once)
            run_in(room, room / "prefix" / "bin" / "oe-say", "--help", PYTHONDONTWRITEBYTECODE="")
            self.assertTrue((room / "prefix" / "lib" / "oe" / "office" / "__pycache__").is_dir())
            run_in(room, self.release / "tools" / "install", "--remove", "prefix")
            self.assertEqual(tree(room), before)
            run_in(room, self.top / "tools" / "install", "new")
            (room / "new" / "share" / "office.db").write_text("office")
            run_in(room, self.top / "tools" / "install", "--remove", room / "new")
            self.assertEqual(tree(room), {**before, "new": "", "new/share": "", "new/share/office.db": b"office".hex()})
            with self.assertRaisesRegex(AssertionError, "status 1.*\n.*so nothing is known"):
                run_in(room, self.top / "tools" / "install", "--remove", "prefix")

    def test_a_place_that_cannot_be_written(self) -> None:
        with tempfile.TemporaryDirectory() as folder:
            Path(folder, "file").write_text("")
            with self.assertRaisesRegex(AssertionError, "status 1:\nmkdir: [^\n]*Not a directory\n$"):
                run_in(Path(folder), self.release / "tools" / "install", "file/prefix")

    def test_what_a_newer_one_does_not_have(self) -> None:
        """A tool that is no more is taken away by the next call, and by DESTDIR all stands in a folder."""
        with tempfile.TemporaryDirectory() as folder:
            room = Path(folder)
            older = room / "older"
            shutil.copytree(self.release, older, symlinks=True)
            (older / "tools" / "oe-former").write_text("#!/bin/sh\n")
            run_in(room, older / "tools" / "install", "/usr", DESTDIR=str(room / "made"))
            self.assertTrue((room / "made" / "usr" / "bin" / "oe-former").exists())
            run_in(room, self.release / "tools" / "install", "/usr", DESTDIR=str(room / "made"))
            self.assertEqual(tree(room / "made" / "usr"), tree(self.prefixes[1]))

    def test_the_service_of_the_pages(self) -> None:
        """It is that of the package, which has its program elsewhere."""
        shown = re.search(r"```ini\n(\[Unit\].*?)```", (stored.TOP / "docs" / "HTTP.md").read_text(), re.S)
        self.assertEqual((TOOLS / "debian" / "oe.service").read_text(), shown and shown[1].replace("/usr/local/", "/usr/"))


@unittest.skipUnless(PROGRAM and all(map(shutil.which, WANTED_FOR_A_PACKAGE)), "no program is named, or debhelper or dh-python is missing")
class Package(unittest.TestCase):
    """One package is made for all tests; tools/release itself tries its program, and lintian where that is there."""
    @classmethod
    def setUpClass(cls) -> None:
        folder = tempfile.TemporaryDirectory()
        cls.addClassCleanup(folder.cleanup)
        cls.room = Path(folder.name)
        top = cls.room / "repository"
        make_repository(top)
        shutil.copy(str(PROGRAM), top / "crates" / "oe_main" / "out" / "oe_main")
        run_in(cls.room, top / "tools" / "release", "--deb", cls.room, PATH=tools_first(top))
        (cls.package,) = cls.room.glob("oe_*.deb")
        cls.version = run_in(cls.room, top / "tools" / "version").strip()
        run_in(cls.room, "dpkg-deb", "-R", cls.package, "made")

    def test_what_is_in_it(self) -> None:
        made = self.room / "made" / "usr"
        self.assertEqual({path.name for path in (made / "bin").iterdir()}, {"oe"} | BESIDE_THE_PROGRAM)
        self.assertEqual(run_in(made, made / "bin" / "oe", "--version"), f"oe {self.version}\n")
        self.assertEqual(run_in(made / DOCS, "sh", "-c", "../../../bin/oe desk < first.csv"), STDOUT.read_text())
        self.assertEqual({path.name for path in (made / DOCS).glob("*.*")},
                         {path.name for path in (stored.TOP / "docs").glob("*.*") if path.suffix != ".1"} | {"changelog.gz"})
        self.assertFalse((made / "lib" / "oe" / "installed").exists())
        self.assertIn("no licence has been granted", (made / DOCS / "copyright").read_text())

    def test_its_pages_and_its_program(self) -> None:
        made = self.room / "made" / "usr"
        pages = {path.stem: path.read_bytes() for path in (made / "share" / "man" / "man1").iterdir()}
        self.assertEqual({name: gzip.decompress(page).decode() for name, page in pages.items()}, manual_pages(stored.TOP / "docs"))
        self.assertTrue(all(page[4:8] == bytes(4) for page in pages.values()))  # no time, so that the same pages are the same bytes
        self.assertNotIn(".symtab", run_in(made, "readelf", "-SW", made / "lib" / "oe" / "oe"))

    def test_what_it_wants_and_its_service(self) -> None:
        fields = run_in(self.room, "dpkg-deb", "-f", self.package, "Depends", "Recommends")
        for name in ("libc6 (>= ", "python3:any", "adduser", "python3-pyproj", "python3-openpyxl", "python3-reportlab"):
            self.assertIn(name, fields)
        units = list((self.room / "made").rglob("*.service"))
        self.assertEqual([path.read_text() for path in units], [(TOOLS / "debian" / "oe.service").read_text()])
        scripts = "".join((self.room / "made" / "DEBIAN" / name).read_text() for name in ("postinst", "prerm", "postrm"))
        self.assertIn("adduser --system", scripts)
        self.assertIn("if deb-systemd-helper --quiet was-enabled 'oe.service'; then", scripts)  # so it is enabled for whom it was before
        self.assertIn("deb-systemd-invoke stop 'oe.service'", scripts)
