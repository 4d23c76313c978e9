"""Angles and feet as tables write them. No unit and no sign is guessed."""
import re
from enum import Enum

from office.faults import Fault
from office.forms import quoted
from office.records import TENTHS


class Axis(Enum):
    """Latitude or longitude: the letters of its directions, its greatest degrees, and how it is written."""
    LATITUDE = ("NS", 90, "40.77925 or 40-46-45.3N")
    LONGITUDE = ("EW", 180, "-73.97292 or 073-58-22.5W")

    @property
    def letters(self) -> str:
        return self.value[0]

    @property
    def most(self) -> int:
        return self.value[1]

    @property
    def written(self) -> str:
        return self.value[2]


def with_hyphens(text: str) -> str:
    """An angle with the signs of degrees, minutes and seconds or with spaces, as 40°46'45.3"N, in the spelling 40-46-45.3N."""
    parted = re.sub(r"\s*[°º'′\"″]\s*|(?<=[0-9])\s+(?=[0-9])", "-", text.upper())
    return re.sub(r"[-\s]+([NSEW])$", r"\1", parted)


def degrees(text: str, axis: Axis, where: str) -> float:
    """An angle as 40.77925, 40.77925N, 40-46.755N or 40-46-45.3N. South and west are negative."""
    plain = with_hyphens(text)
    parts = re.fullmatch(rf"([0-9]{{1,3}})-([0-9]{{1,2}}(?:\.[0-9]+)?)(?:-([0-9]{{1,2}}(?:\.[0-9]+)?))?([{axis.letters}])", plain)
    decimal = re.fullmatch(rf"(-?[0-9]{{1,3}}(?:\.[0-9]+)?)|([0-9]{{1,3}}\.[0-9]+)([{axis.letters}])", plain)
    if decimal:
        value = float(decimal[1] or decimal[2])
        value = -value if (decimal[3] or "-") in "SW" else value
    elif parts and float(parts[2]) < 60 and float(parts[3] or 0) < 60 and not (parts[3] and "." in parts[2]):
        value = int(parts[1]) + float(parts[2]) / 60 + float(parts[3] or 0) / 3600
        value = -value if parts[4] in "SW" else value
    else:
        raise Fault(f"{where}: {quoted(text)} is no {axis.name.lower()}{why_no_angle(plain, axis)}; write {axis.written}")
    if abs(value) > axis.most:
        raise Fault(f"{where}: {text} is more than {axis.most} degrees" + (": are lat and lon exchanged?" if axis == Axis.LATITUDE else ""))
    return value


def why_no_angle(plain: str, axis: Axis) -> str:
    """What a text that is no angle of this axis looks like, where that is plain."""
    if plain[-1:] in {"N", "S", "E", "W"} - set(axis.letters):
        return " (are lat and lon exchanged?)"
    if re.fullmatch(r"-?[0-9]+,[0-9]+", plain):
        return " (a comma: write a point)"
    return f" (without {' or '.join(axis.letters)})" if re.fullmatch(r"-?[0-9]+(-[0-9.]+)+-?", plain) else ""


def why_no_feet(text: str) -> str:
    """What a text that is no number of feet looks like, where that is plain."""
    if re.fullmatch(r"-?[0-9][0-9.,]* ?m\.?", text, re.I):
        return ": are these metres? Convert them (1 m is 3937/1200 ft), and write the number alone"
    if re.fullmatch(r"-?[0-9][0-9.,]* ?(ft|feet|'|′)\.?", text, re.I):
        return ": write the number alone"
    return ": write no comma between thousands, and a point before the decimals" if re.fullmatch(r"-?[0-9.]*,[0-9.,]*", text) else ""


def tenths(text: str, where: str) -> int:
    """Feet with at most one decimal, as tenths of a foot."""
    if not re.fullmatch(r"-?[0-9]{1,9}(\.[0-9]{0,9})?", text):
        raise Fault(f"{where}: {quoted(text)} is no number of feet{why_no_feet(text)}")
    whole, _, part = text.lstrip("-").partition(".")
    if part.rstrip("0")[1:]:
        raise Fault(f"{where}: {text} ft is finer than a tenth; round a structure up and an airfield down yourself, by the office's rule")
    value = int(whole) * TENTHS + int((part or "0")[0])
    return -value if text.startswith("-") else value
