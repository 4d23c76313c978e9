"""The script `oe` of the repository: what it says and does where the program is not built, with a script in place of the toolchain's command."""
import os
import shutil
import signal
import subprocess
import time
from pathlib import Path

from tests import stored
from tests.test_words import COMMANDS, HELP, NONE_OF_THEM, VERSION
from tests.trial import TOOLS, Ended, Trial

# Counts its calls. It fails where there is a file `fails`, else it makes a program that says its words and what it reads.
TOOLCHAIN = """#!/bin/sh
echo x >> "{room}/calls"
echo "$RT_JOBS" > "{room}/jobs"
while [ -e "{room}/waits" ]; do sleep 0.1; done
[ ! -e "{room}/fails" ] || exit 1
mkdir -p crates/oe_main/out
printf '#!/bin/sh\\necho "$*"; cat\\n' > crates/oe_main/out/oe_main
chmod +x crates/oe_main/out/oe_main
"""
WANTED = ("sh", "awk", "cat", "chmod", "df", "dirname", "find", "flock", "git", "grep", "head", "mkdir", "mv", "python3", "readlink", "rm", "sleep", "tar", "touch",
          "wc", "cp", "printf", "nproc")
SECONDS = 60


def heed_interrupts() -> None:
    """What a shell starts in the background ignores Ctrl-C, and so would what it starts itself."""
    signal.signal(signal.SIGINT, signal.SIG_DFL)


class Build(Trial):
    def setUp(self) -> None:
        super().setUp()
        self.top = self.folder / "repository"
        for name in ("oe_main", "low", "apart"):
            (self.top / "crates" / name / "src").mkdir(parents=True)
            (self.top / "crates" / name / "src" / "lib.rt").write_text("")
        (self.top / "crates.txt").write_text("# crates\nlow:\napart: low\noe_main: low std\n")
        (self.top / "HANDLES").write_text("Handles allowed: none.\n")
        shutil.copy(stored.TOP / "oe", self.top)
        (self.top / "tools").mkdir()
        for name in ("words.sh", "jobs", "version"):
            shutil.copy(TOOLS / name, self.top / "tools")
        self.path = self.folder / "path"
        self.path.mkdir()
        for word in WANTED:
            (self.path / word).symlink_to(shutil.which(word) or "/bin/false")
        self.write("path/rt", TOOLCHAIN.replace("{room}", str(self.folder)))
        (self.path / "rt").chmod(0o755)

    def begin(self, *words: str, program: Path | None = None) -> "subprocess.Popen[str]":
        return subprocess.Popen([program or self.top / "oe", *words], cwd=self.folder, env={"PATH": str(self.path)}, text=True, start_new_session=True,
                                stdin=subprocess.PIPE, stdout=subprocess.PIPE, stderr=subprocess.PIPE, preexec_fn=heed_interrupts)

    def end(self, begun: "subprocess.Popen[str]", given: str = "") -> Ended:
        out, err = begun.communicate(given, timeout=SECONDS)
        return Ended(begun.returncode, out, err)

    def call(self, *words: str, program: Path | None = None) -> Ended:
        return self.end(self.begin(*words, program=program), "records\n")

    def calls(self) -> int:
        counted = self.folder / "calls"
        return counted.read_text().count("x") if counted.exists() else 0

    def wait_for_call(self, number: int) -> None:
        for _ in range(SECONDS * 10):
            if self.calls() == number:
                return
            time.sleep(0.1)
        self.fail(f"the toolchain was called {self.calls()} times, and not {number}")

    def change(self, crate: str) -> None:
        later = time.time() + 10
        os.utime(self.top / "crates" / crate / "src" / "lib.rt", (later, later))

    def assert_answers(self, ended: Ended) -> None:
        self.assertEqual((ended.status, ended.out), (0, "desk --db office.db\nrecords\n"), ended.err)

    def test_it_is_built_once(self) -> None:
        first = self.call("desk", "--db", "office.db")
        self.assert_answers(first)
        self.assertIn("oe: proving and building the 2 crates", first.err)
        again = self.call("desk", "--db", "office.db")
        self.assert_answers(again)
        self.assertEqual((again.err, self.calls()), ("", 1))
        (self.folder / "linked").symlink_to(self.top / "oe")
        self.assert_answers(self.call("desk", "--db", "office.db", program=self.folder / "linked"))
        self.change("apart")
        self.call("desk")
        self.assertEqual(self.calls(), 1)
        self.change("low")
        self.call("desk")
        self.assertEqual(self.calls(), 2)

    def test_words_that_are_no_command(self) -> None:
        """They are those that the program itself refuses, and nothing is built to refuse them."""
        for words in NONE_OF_THEM:
            ended = self.call(*words)
            self.assertEqual((ended.status, ended.out, ended.err.splitlines()[0], self.calls()), (2, "", "oe: usage", 0), words)

    def test_words_that_are_commands(self) -> None:
        """They are those that the program itself takes, and for each the build begins."""
        (self.path / "rt").unlink()
        for words, _ in COMMANDS:
            ended = self.call(*words)
            self.assertEqual((ended.status, "its command rt is not on the path" in ended.err), (1, True), words)

    def test_help_and_version(self) -> None:
        for words in HELP + VERSION:
            ended = self.call(*words)
            self.assertEqual((ended.status, ended.err, self.calls()), (0, "", 0), words)
            self.assertTrue(ended.out.startswith("oe unknown"), ended.out)
            self.assertEqual("oe generate SEED COUNT" in ended.out, words in HELP)
        for words in (("init", "-q"), ("add", "-A"), ("-c", "user.name=office", "-c", "user.email=office@example.org", "commit", "-q", "-m", "all")):
            subprocess.run(("git", *words), cwd=self.top, check=True)
        self.assertRegex(self.call("--version").out, r"^oe [0-9a-f]{7,} of \d{4}-\d\d-\d\d\n$")
        self.change("low")
        self.write("repository/HANDLES", "")
        self.assertRegex(self.call("--version").out, r"^oe [0-9a-f]{7,}-changed of ")

    def test_proofs_side_by_side(self) -> None:
        """As many as in the gate: of processors and memory, or as the variable says."""
        self.call("desk")
        jobs = int((self.folder / "jobs").read_text())
        self.assertTrue(1 <= jobs <= (os.cpu_count() or 1), jobs)
        self.assertIn("RT_JOBS=$(tools/jobs)", (stored.TOP / ".ci" / "run").read_text())

    def test_what_is_wanting(self) -> None:
        for word, said in (("git", "the command git"), ("rt", "its command rt is not on the path. A release needs no toolchain")):
            (self.path / word).unlink()
            ended = self.call("desk")
            self.assertEqual((ended.status, ended.err.count("\n")), (1, 1), ended.err)
            self.assertIn(said, ended.err)

    def test_little_disk(self) -> None:
        """It is said, and the build goes on."""
        (self.path / "df").unlink()
        self.write("path/df", "#!/bin/sh\necho Filesystem blocks Used Available\necho a 9 9 7500000 9%\necho b 9 9 1200000 9%\n")
        (self.path / "df").chmod(0o755)
        ended = self.call("desk", "--db", "office.db")
        self.assert_answers(ended)
        self.assertIn("oe: only 1 GB of disk are free, and from nothing the build wants 6", ended.err)

    def test_a_folder_that_cannot_be_written(self) -> None:
        (self.top / "crates" / "oe_main" / "out").write_text("")  # since root may write into any folder
        ended = self.call("desk")
        self.assertEqual((ended.status, ended.err.count("\n"), self.calls()), (1, 1, 0), ended.err)
        self.assertIn("crates/oe_main/out, and cannot", ended.err)

    def test_a_build_that_fails(self) -> None:
        self.write("fails", "")
        ended = self.call("desk")
        self.assertEqual((ended.status, ended.out), (1, ""))
        self.assertIn("oe: the build failed", ended.err.splitlines()[-1])
        (self.folder / "fails").unlink()
        self.assert_answers(self.call("desk", "--db", "office.db"))

    def test_two_calls_at_once(self) -> None:
        self.write("waits", "")
        one = self.begin("desk", "--db", "office.db")
        self.wait_for_call(1)
        other = self.begin("desk", "--db", "office.db")
        time.sleep(0.5)
        (self.folder / "waits").unlink()
        self.assert_answers(self.end(one, "records\n"))
        second = self.end(other, "records\n")
        self.assert_answers(second)
        self.assertIn("this one waits for it", second.err)
        self.assertEqual(self.calls(), 1)

    def test_an_interrupted_build(self) -> None:
        """As by Ctrl-C, which reaches all that the terminal runs."""
        self.write("waits", "")
        begun = self.begin("desk")
        self.wait_for_call(1)
        os.killpg(begun.pid, signal.SIGINT)
        self.assertEqual((self.end(begun).status, self.calls()), (-signal.SIGINT, 1))
        (self.folder / "waits").unlink()
        self.assert_answers(self.call("desk", "--db", "office.db"))
        self.assertEqual(self.calls(), 2)
