"""Records as the desk reads them from a file, and the heights in them."""
import sys
from dataclasses import dataclass, field

from office import forms
from office.faults import Fault

TENTHS = 10  # of a foot, in each foot
BEFORE = 0  # the line number of a record that a tool puts before those of the file


@dataclass(frozen=True)
class Record:
    """A line of the input that has a reply. `values` has its fields by name."""
    line: int
    text: str
    fields: list[str] = field(default_factory=list)
    values: dict[str, str] = field(default_factory=dict)

    @property
    def form(self) -> str:
        return self.fields[0] if self.fields else ""


def record(line: int, text: str) -> Record:
    fields = forms.cut(text) or []
    return Record(line, text, fields, forms.by_name(fields) if fields else {})


def read_bytes(path: str) -> bytes:
    """The bytes of a file, or of the standard input where the path is `-`."""
    try:
        if path == "-":
            return sys.stdin.buffer.read()
        with open(path, "rb") as file:
            return file.read()
    except OSError as error:
        raise Fault(f"{path}: {error.strerror}") from error


def write_bytes(path: str, content: bytes) -> None:
    try:
        with open(path, "wb") as file:
            file.write(content)
    except OSError as error:
        raise Fault(f"{path}: {error.strerror}") from error


def write_text(path: str, text: str) -> None:
    write_bytes(path, text.encode())


def lines(content: bytes) -> list[str]:
    """The lines as the desk cuts them: by line feeds, one carriage return before each taken off."""
    parts = content.split(b"\n")
    ended = [part.removesuffix(b"\r") for part in parts[:-1]] + parts[-1:]
    return [line.decode("utf-8", "surrogateescape") for line in ended]


def records(content: bytes) -> list[Record]:
    """The records of a file. An empty line is none."""
    return [record(number, text) for number, text in enumerate(lines(content), 1) if text]


def feet(text: str) -> float:
    """Tenths of a foot, as a record has them, in feet."""
    return int(text) / TENTHS


def printable(text: str) -> str:
    """A text for a terminal: what cannot be printed is a question mark."""
    return "".join(letter if letter.isprintable() else "?" for letter in text)


def show(value: float, places: int = 1) -> str:
    """A number for a reader, with commas between thousands."""
    return f"{value:,.{places}f}"
