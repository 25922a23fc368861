"""A second reader and writer of sheets, written from the text of document 01 alone.

Nothing here was taken from the proved crates, so that the two can be held against each other: `tools/compare-sheets`
does that. The sentences of document 01 stand in quotes beside the lines that follow them.
"""

from dataclasses import dataclass
from typing import List, Optional

# "desks n | 1 | 16" and "cells m | 1 | 64"
MOST_DESKS = 16
MOST_CELLS = 64

# "the turn number is at most 4,294,967,294": the one above it is the last of a desk, and no sheet has it.
MOST_TURN = 4_294_967_294

# "First the entries, 6 bytes each", "Then the trailer of 12 bytes"
ENTRY = 6
TRAILER = 12

# "kind (1: 1 open, 2 day)"
KIND_OPEN = 1
KIND_DAY = 2


@dataclass
class Entry:
    """One cell and what it takes: a day, or open, for which `day` is None."""

    cell: int
    day: Optional[int]


@dataclass
class Sheet:
    sender: int
    desks: int
    cells: int
    turn: int
    entries: List[Entry]


def number(part: bytes) -> int:
    """ "All numbers low byte first." """
    return int.from_bytes(part, "little")


def read_entry(part: bytes) -> Optional[Entry]:
    """The entry in these 6 bytes, or None: "cell (1), kind (1: 1 open, 2 day), day (4, two's complement; zero for open)"."""
    cell, kind, day = part[0], part[1], part[2:6]
    if kind == KIND_OPEN:
        return Entry(cell, None) if day == bytes(4) else None
    if kind == KIND_DAY:
        return Entry(cell, int.from_bytes(day, "little", signed=True))
    return None


def read(data: bytes) -> Optional[Sheet]:
    """The sheet that these bytes are, or None if they are no good sheet."""
    # The trailer stands last, so fewer bytes than a trailer are no sheet: "sheet, bytes | 12 | 396".
    if len(data) < TRAILER:
        return None
    body, trailer = data[:-TRAILER], data[-TRAILER:]

    # "distance back to the first entry (2), number of entries (1), sender (1), desks (1), cells (1), two zero bytes,
    # turn number (4)"
    distance = number(trailer[0:2])
    count = trailer[2]
    sender = trailer[3]
    desks = trailer[4]
    cells = trailer[5]
    zeros = trailer[6:8]
    turn = number(trailer[8:12])

    # "the distance is 6 × entries and also length minus 12"
    if distance != ENTRY * count or distance != len(data) - TRAILER:
        return None
    # "desks and cells are within limits"
    if not 1 <= desks <= MOST_DESKS or not 1 <= cells <= MOST_CELLS:
        return None
    # "sender is below desks"
    if not sender < desks:
        return None
    # "kinds, days and zero bytes are as above"
    if zeros != bytes(2):
        return None
    # "the turn number is at most 4,294,967,294 and leaves the sender when divided by desks"
    if turn > MOST_TURN or turn % desks != sender:
        return None

    entries: List[Entry] = []
    for k in range(count):
        entry = read_entry(body[ENTRY * k : ENTRY * (k + 1)])
        if entry is None:
            return None
        # "entries' cells rise strictly and are below cells"
        if entry.cell >= cells or (entries and entry.cell <= entries[-1].cell):
            return None
        entries.append(entry)
    return Sheet(sender, desks, cells, turn, entries)


def write_entry(entry: Entry) -> bytes:
    """ "cell (1), kind (1: 1 open, 2 day), day (4, two's complement; zero for open)" """
    if entry.day is None:
        return bytes([entry.cell, KIND_OPEN]) + bytes(4)
    return bytes([entry.cell, KIND_DAY]) + entry.day.to_bytes(4, "little", signed=True)


def write(sheet: Sheet) -> bytes:
    """The bytes of a sheet. It does not ask whether they are good: `read` does."""
    body = b"".join(write_entry(entry) for entry in sheet.entries)
    # "distance back to the first entry (2), number of entries (1), sender (1), desks (1), cells (1), two zero bytes,
    # turn number (4)"
    trailer = (
        len(body).to_bytes(2, "little")
        + bytes([len(sheet.entries), sheet.sender, sheet.desks, sheet.cells])
        + bytes(2)
        + sheet.turn.to_bytes(4, "little")
    )
    return body + trailer


def content(entry: Entry) -> str:
    return "open" if entry.day is None else f"day {entry.day}"


def line(record: bytes) -> str:
    """What the program `reread` must print for this record, without the line feed."""
    sheet = read(record)
    # "Reading a sheet: 13."
    if sheet is None:
        return "refused 13"
    head = f"sender {sheet.sender} of {sheet.desks}, {sheet.cells} cells, turn {sheet.turn}:"
    entries = "".join(f" {entry.cell} {content(entry)}" for entry in sheet.entries)
    # A good sheet says each thing in one way only, so what is written again must be the record itself.
    again = " again" if write(sheet) == record else " OTHER"
    return head + entries + again
