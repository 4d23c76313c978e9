"""A journal of the desk, a file whose name ends in .oej: read and written as docs/TABLES.md has its bytes."""
from typing import Iterator

ENDING = ".oej"
OPEN_GATE, CLOSED_GATE = b"\1", b"\0"
PUT, REMOVE = b"P", b"R"
SIZE = 8  # bytes of a length
RECEIPT_TABLE = LAST_TABLE = 4

Rows = dict[tuple[int, str], str]


def frames(content: bytes) -> Iterator[tuple[int, bytes]]:
    """The place of each frame that counts, and its payload."""
    at = 0
    while content[at:at + 1] == OPEN_GATE:
        begin = at + 1 + SIZE
        end = begin + int.from_bytes(content[at + 1:begin], "big")
        if end >= len(content):
            return
        yield at, content[begin:end]
        at = end


def end_of(content: bytes) -> int:
    """The place of the first gate that does not count."""
    end = 0
    for at, payload in frames(content):
        end = at + 1 + SIZE + len(payload)
    return end


def text_at(payload: bytes, at: int) -> tuple[str, int]:
    """A key or a row with its length before it, and the place behind it."""
    end = at + SIZE + int.from_bytes(payload[at:at + SIZE], "big")
    if end > len(payload):
        raise ValueError("a text goes past the end of its payload")
    return payload[at + SIZE:end].decode(), end


def changes(payload: bytes) -> Iterator[tuple[int, str, str | None]]:
    """The table, the key and the row of each change, or None where the row is removed; ValueError where the payload is no list of changes."""
    at = 0
    while at < len(payload):
        kind, table = payload[at:at + 1], payload[at + 1] if at + 1 < len(payload) else LAST_TABLE + 1
        if kind not in (PUT, REMOVE) or table > LAST_TABLE:
            raise ValueError("no change begins so")
        key, at = text_at(payload, at + 2)
        row = None
        if kind == PUT:
            row, at = text_at(payload, at)
        yield table, key, row


def rows_of(content: bytes) -> Rows:
    """The rows that the frames that count lead to; ValueError where one holds no list of changes."""
    rows: Rows = {}
    for _, payload in frames(content):
        for table, key, row in changes(payload):
            if row is None:
                rows.pop((table, key), None)
            else:
                rows[table, key] = row
    return rows


def sized(text: str) -> bytes:
    return len(text.encode()).to_bytes(SIZE, "big") + text.encode()


def journal_of(rows: Rows) -> bytes:
    """A journal of one frame that puts these rows; of no frame where there are none."""
    payload = b"".join(PUT + bytes([table]) + sized(key) + sized(row) for (table, key), row in sorted(rows.items()))
    return OPEN_GATE + len(payload).to_bytes(SIZE, "big") + payload + CLOSED_GATE if rows else CLOSED_GATE
