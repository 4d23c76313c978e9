"""Sessions with their replies that stand in this repository: those of crates/worked_sessions, whose replies an independent
program gave, and the example of docs/RECORDS.md."""
import re
from dataclasses import dataclass
from functools import cache
from pathlib import Path

from office import desk
from office.records import records

TOP = Path(__file__).resolve().parent.parent.parent
SESSIONS = TOP / "crates" / "worked_sessions"
HEAD = b"== "


@dataclass(frozen=True)
class Session:
    title: str
    content: bytes
    replies: list[str]

    def pairs(self) -> list[desk.Pair]:
        return desk.pair_up(records(self.content), self.replies, self.title)


def sections(path: Path) -> list[tuple[str, list[bytes]]]:
    out: list[tuple[str, list[bytes]]] = []
    for line in path.read_bytes().split(b"\n"):
        if line.startswith(HEAD):
            out.append((line.removeprefix(HEAD).decode(), []))
        elif out:
            out[-1][1].append(line)
    if out and out[-1][1] and out[-1][1][-1] == b"":
        out[-1][1].pop()  # the file's last line ends with a line feed
    return out


@cache
def sessions() -> dict[str, Session]:
    """The plain sessions by title: no keeper, no signs, no links."""
    out = {}
    for (title, lines), (_, replies) in zip(sections(SESSIONS / "stdin"), sections(SESSIONS / "stdout"), strict=True):
        if " | " not in title:
            content = b"".join(line + b"\n" for line in lines)
            out[title] = Session(title, content, [reply.decode("utf-8", "replace") for reply in replies])
    return out


@cache
def example() -> Session:
    """docs/first.csv with the replies that docs/RECORDS.md shows."""
    text = (TOP / "docs" / "RECORDS.md").read_text()
    blocks = re.findall(r"```\n(.*?)```", text[text.index("## An example that runs"):], re.S)
    return Session("docs/first.csv", (TOP / "docs" / "first.csv").read_bytes(), blocks[1].splitlines())


def known() -> list[Session]:
    return [*sessions().values(), example()]
