"""How a desk is timed: shared by the scripts beside this file."""
import argparse, os, subprocess, sys, tempfile, time
from pathlib import Path

TOP = Path(__file__).resolve().parent.parent


def arguments(name, text):
    """A parser of a script's words: a wrong one is answered with the usage alone, --help with the whole text."""
    return argparse.ArgumentParser(prog=name, description=text, formatter_class=argparse.RawDescriptionHelpFormatter)


def sources():
    """The sources of the crates that the program stands on, by crates.txt."""
    lines = [line.split(":") for line in (TOP / "crates.txt").read_text().splitlines() if ":" in line and not line.startswith("#")]
    uses = {name.split()[0]: names.split() for name, names in lines}
    found = ["oe_main"]
    for name in found:
        found += [it for it in uses[name] if it in uses and it not in found]
    for name in found:
        for path in (TOP / "crates" / name).rglob("*"):
            if path.suffix in (".rt", ".antt") and "out" not in path.parts:
                yield path


def built():
    """The path of the program of this repository, which must be newer than its sources."""
    ours = TOP / "crates" / "oe_main" / "out" / "oe_main"
    if not ours.exists():
        sys.exit("not built yet: ./oe desk < docs/first.csv")
    made = ours.stat().st_mtime
    newer = next((path for path in sources() if path.stat().st_mtime > made), None)
    if newer:
        sys.exit(f"older than {newer.relative_to(TOP)}: ./oe desk < docs/first.csv builds it anew")
    return str(ours)


def replies(program, path, words, place):
    """Writes what a program replies into a new file of a folder, and gives that file."""
    made = tempfile.NamedTemporaryFile(dir=place, delete=False)
    with open(path, "rb") as given, made:
        status = subprocess.run([program, *words], stdin=given, stdout=made).returncode
    if status != 0:
        sys.exit(f"{program}: status {status}")
    return made.name


def check_same(programs, path, words=("desk",)):
    """Ends the script where a program's replies are not those of the first one, byte for byte."""
    if len(programs) < 2:
        return
    with tempfile.TemporaryDirectory() as place:
        first, *others = [replies(program, path, words, place) for program in programs]
        for program, other in zip(programs[1:], others):
            with open(first, "rb") as ours, open(other, "rb") as theirs:
                for number, (own, its) in enumerate(zip(ours, theirs), 1):
                    if own != its:
                        sys.exit(f"{program} replies otherwise at line {number}: {its!r}, and not {own!r}")
            if os.path.getsize(first) != os.path.getsize(other):
                sys.exit(f"{program} has {os.path.getsize(other)} bytes of replies, and not {os.path.getsize(first)}")
    print(f"the replies of {len(programs)} desks agree byte for byte")


RATIO = "oe/it: the least user time of this repository's program over that of the desk in this line"


def ratio(ours, its):
    """How two times compare, as every table here shows it."""
    return f"{ours / its:.2f}" if its > 0 else "-"


def once(program, path, words=("desk",)):
    """User and system seconds of one run; what it wrote is not looked at."""
    with open(path, "rb") as given:
        child = subprocess.Popen([program, *words], stdin=given, stdout=subprocess.DEVNULL)
        _, status, usage = os.wait4(child.pid, 0)
    child.returncode = os.waitstatus_to_exitcode(status)
    if child.returncode != 0:
        sys.exit(f"{program}: status {child.returncode}")
    return usage.ru_utime, usage.ru_stime


def spent(pid):
    """Ticks of a processor that a program has taken so far."""
    return [int(part) for part in Path(f"/proc/{pid}/stat").read_text().rsplit(")", 1)[1].split()[11:13]]


def wait_at_rest(pid):
    """Waits until a program does nothing for a while: it has read all that it was given, and waits for more."""
    before = None
    while before != (before := spent(pid)):
        time.sleep(0.3)


def peak_memory(program, path, words=("desk",)):
    """Peak resident memory in KiB, asked of the system while the program waits for the end of its input.

    What the kernel counts of an ended child includes the memory of this script before the child became the program."""
    child = subprocess.Popen([program, *words], stdin=subprocess.PIPE, stdout=subprocess.DEVNULL)
    with open(path, "rb") as given:
        while block := given.read(1 << 20):
            child.stdin.write(block)
    child.stdin.flush()
    wait_at_rest(child.pid)
    status = Path(f"/proc/{child.pid}/status").read_text()
    child.stdin.close()
    child.wait()
    return next(int(line.split()[1]) for line in status.splitlines() if line.startswith("VmHWM"))
