"""The records that `oe stations` replies to: a way when it ends, and a station only if it is refused."""
from dataclasses import replace

from office import forms
from office.records import Record

MOST_STATIONS = 64
SHARED = ("KIND", "MOBILE", "FLAGS", "ON")  # by all stations of a way


def joins(one: Record, way: list[Record]) -> bool:
    """Whether a record is a station and has a place in a way."""
    if one.form != "screen" or forms.first_bad_field(one.fields) is not None or one.values["KIND"] not in forms.TRAVERSE_WAYS:
        return False
    return not way or len(way) < MOST_STATIONS and all(one.values[name] == way[0].values[name] for name in SHARED)


def with_reply(some: list[Record]) -> list[Record]:
    """The records that have a reply, in order; a way as its first station, on the line where the way ends."""
    out: list[Record] = []
    way: list[Record] = []
    for one in some:
        if joins(one, way):
            way.append(one)
            continue
        if one.text == forms.END_OF_WAY and way:
            out.append(replace(way[0], line=one.line))
            way = []
        else:
            out.append(one)
    return out + ([replace(way[0], line=way[-1].line)] if way else [])
