"""A second `rounds`, written from the text of document 01 and from Figure 1 of source document 000 alone.

Nothing here was taken from the proved crates, so that the two can be held against each other: `tools/compare-rounds` does
that. The sentences of document 01 stand in quotes beside the lines that follow them, those of Figure 1 with its name.
Refusals that no schedule can reach are tested too, in their places.
"""

import sys
from dataclasses import dataclass
from typing import Dict, List, Optional, Tuple, Union

import sheets
from sheets import MOST_CELLS, MOST_DESKS, Entry, Sheet, number

# "A cell's content is blank, open, or a day with its signed 32-bit number; each is a case of its own." A day is its number.
BLANK = "blank"
OPEN = "open"
Content = Union[str, int]

# "mode (1 sequential, 2 causal, 3 cache)"
SEQUENTIAL = 1
CAUSAL = 2
CACHE = 3

# "Mode 0 means the default: causal."
DEFAULT = CAUSAL

# "turn number | 0 | 4,294,967,295"
LAST_TURN = 4_294_967_295

# "A tray has one place of 398 bytes per desk": the sheet's length in the first two.
LENGTH = 2
PLACE = 398

# "`s` lends 396 bytes."
BUFFER = 396

# "Standard input, 16,384 bytes and 1,000 steps (lines after the first) at most"
MOST_BYTES = 16_384
MOST_STEPS = 1_000

# "a number beyond 32 bits (unsigned, for a day signed)"
MOST_NUMBER = 4_294_967_295
LEAST_DAY = -2_147_483_648
MOST_DAY = 2_147_483_647

# "mode letter (`s`, `c`, `k` for cache, `-` for default)"
MODES = {b"s": SEQUENTIAL, b"c": CAUSAL, b"k": CACHE, b"-": 0}
LETTERS = {SEQUENTIAL: "s", CAUSAL: "c", CACHE: "k"}


class Refused(Exception):
    """ "The answer is then that number alone, and the record and all lent bytes are as before." It is raised before any change."""

    def __init__(self, number: int):
        super().__init__(number)
        self.number = number


class OtherForm(Exception):
    """ "A line of another form, a number beyond 32 bits (unsigned, for a day signed), or a desk that isn't there" """


# A desk.


@dataclass
class Taken:
    """ "the sheet's turn number, its number of entries and how many of them went to the shelf", and what a read waited for."""

    turn: int
    entries: int
    applied: int
    waited: Optional[Content]


class Desk:
    """ "A record holds n, m, the desk's own number, mode […], turn number, shelf, pending entries, and the waiting read if any." """

    def __init__(self, n: int, m: int, own: int, mode: int):
        # "Open: 1, 2, 3, 4.": "desks, cells, own number, mode (above 3) outside its range"
        if not 1 <= n <= MOST_DESKS:
            raise Refused(1)
        if not 1 <= m <= MOST_CELLS:
            raise Refused(2)
        if not 0 <= own < n:
            raise Refused(3)
        if mode > 3:
            raise Refused(4)
        self.n = n
        self.m = m
        self.own = own
        self.mode = DEFAULT if mode == 0 else mode
        # "All cells blank, nothing pending, turn number 0." Figure 1: turn_p ← 0, updates_p ← ∅.
        self.turn = 0
        self.shelf: List[Content] = [BLANK] * m
        self.pending: Dict[int, Content] = {}
        self.waiting: Optional[int] = None

    def turn_desk(self) -> int:
        """ "The turn is at desk (turn number mod n)." """
        return self.turn % self.n

    def sound(self) -> bool:
        """ "A record is **sound** if" every clause of that sentence holds. The pending entries are those of pending cells only."""
        # "n and m are within limits, own number below n, mode 1 to 3"
        if not (1 <= self.n <= MOST_DESKS and 1 <= self.m <= MOST_CELLS and self.own < self.n and 1 <= self.mode <= 3):
            return False
        if not (0 <= self.turn <= LAST_TURN and len(self.shelf) == self.m):
            return False
        for cell, content in self.pending.items():
            # "cells from m up are blank and not pending", "a cell's pending place is blank exactly if it is not pending"
            if not cell < self.m or content == BLANK:
                return False
            # "a pending cell is not blank on the shelf"
            if self.shelf[cell] == BLANK:
                return False
            # "in modes 1 and 3 pending and shelf content agree"
            if self.mode != CAUSAL and self.shelf[cell] != content:
                return False
        return self.waiting is None or self.waits_soundly(self.waiting)

    def waits_soundly(self, cell: int) -> bool:
        """ "a waiting read has mode 1, a cell below m that is not pending, something pending, and the turn elsewhere" """
        return (
            self.mode == SEQUENTIAL
            and cell < self.m
            and cell not in self.pending
            and len(self.pending) > 0
            and self.turn_desk() != self.own
        )

    def write(self, cell: int, content: Content) -> None:
        # "Write: 5, 6, 7, 8."
        if not self.sound():
            raise Refused(5)
        if not cell < self.m:
            raise Refused(6)
        if content == BLANK:
            raise Refused(7)
        if self.waiting is not None:
            raise Refused(8)
        # "The cell takes the content; the content becomes that cell's pending entry, replacing an earlier one."
        # Figure 1: x_p ← v; remove (x,·) from updates_p; include (x, v) in updates_p.
        self.shelf[cell] = content
        self.pending[cell] = content

    def read(self, cell: int) -> Optional[Content]:
        """The cell's content, or None if the read waits."""
        # "Read: 5, 6, 8."
        if not self.sound():
            raise Refused(5)
        if not cell < self.m:
            raise Refused(6)
        if self.waiting is not None:
            raise Refused(8)
        # "It waits exactly if the mode is sequential, something is pending, this cell is not, and the turn is elsewhere."
        # Figure 1: (model = sequential) and (updates_p ≠ ∅) and ((x,·) ∉ updates_p): wait until turn_p = p.
        if self.mode == SEQUENTIAL and self.pending and cell not in self.pending and self.turn_desk() != self.own:
            self.waiting = cell
            return None
        # "Otherwise it answers the cell." Figure 1: return(x_p).
        return self.shelf[cell]

    def send(self, buffer: bytearray) -> Tuple[int, int]:
        """Writes the sheet at the front of the lent buffer; answers "the sheet's turn number and its number of entries"."""
        # "Send: 5, 9, 10, 11."
        if not self.sound():
            raise Refused(5)
        if self.turn_desk() != self.own:
            raise Refused(9)
        if self.turn == LAST_TURN:
            raise Refused(10)
        # "Writes one sheet with every pending entry, an empty sheet if there are none": "cells strictly rising"
        entries = [entry_of(cell, self.pending[cell]) for cell in sorted(self.pending)]
        sheet = sheets.write(Sheet(self.own, self.n, self.m, self.turn, entries))
        if len(buffer) < len(sheet):
            raise Refused(11)
        # "Bytes of the lent buffer past the sheet stay."
        buffer[: len(sheet)] = sheet
        sent = self.turn
        # "empties the pending set, adds 1 to the turn number". Figure 1: updates_p ← ∅; turn_p ← (turn_p + 1) mod n.
        self.pending = {}
        self.turn += 1
        return sent, len(entries)

    def deliver(self, tray: bytearray, data: bytes) -> None:
        """ "Puts a sheet in the sender's place in the lent tray. The record stays." """
        # "Deliver: 5, 12, 13, 14, 15, 16, 17, 18."
        if not self.sound():
            raise Refused(5)
        if len(tray) != PLACE * self.n:
            raise Refused(12)
        sheet = sheets.read(data)
        if sheet is None:
            raise Refused(13)
        if sheet.desks != self.n or sheet.cells != self.m:
            raise Refused(14)
        if sheet.sender == self.own:
            raise Refused(15)
        if sheet.turn < self.turn:
            raise Refused(16)
        if sheet.turn >= self.turn + self.n:
            raise Refused(17)
        # "deliver counts it free if its first two bytes are zero, and overwrites all 398"
        at = PLACE * sheet.sender
        if tray[at : at + LENGTH] != bytes(LENGTH):
            raise Refused(18)
        # "sheet length (2), sheet, zeros to the end"
        place = len(data).to_bytes(LENGTH, "little") + data
        tray[at : at + PLACE] = place + bytes(PLACE - len(place))

    def take(self, tray: bytearray) -> Taken:
        """ "Takes the sheet of the desk whose turn it is." """
        # "Take: 5, 12, 19, 10, 20, 21."
        if not self.sound():
            raise Refused(5)
        if len(tray) != PLACE * self.n:
            raise Refused(12)
        # Figure 1: activated whenever turn_p = q, p ≠ q, and updates_q is in the receiving buffer.
        sender = self.turn_desk()
        if sender == self.own:
            raise Refused(19)
        if self.turn == LAST_TURN:
            raise Refused(10)
        at = PLACE * sender
        if tray[at : at + LENGTH] == bytes(LENGTH):
            raise Refused(20)
        sheet = self.sheet_in(bytes(tray[at : at + PLACE]))
        if sheet is None:
            raise Refused(21)
        applied = self.lay(sheet.entries)
        # "The place becomes zeros, the turn number goes up by 1."
        tray[at : at + PLACE] = bytes(PLACE)
        self.turn += 1
        return Taken(sheet.turn, len(sheet.entries), applied, self.waited_for())

    def sheet_in(self, place: bytes) -> Optional[Sheet]:
        """ "a good sheet of this shelf with that sender and turn number, followed by zeros", or None"""
        length = number(place[:LENGTH])
        rest = place[LENGTH:]
        if length > len(rest) or any(rest[length:]):
            return None
        sheet = sheets.read(rest[:length])
        if sheet is None or sheet.desks != self.n or sheet.cells != self.m:
            return None
        if sheet.sender != self.turn_desk() or sheet.turn != self.turn:
            return None
        return sheet

    def lay(self, entries: List[Entry]) -> int:
        """Puts the entries on the shelf; answers how many went there. "Pending entries never change." """
        applied = 0
        for entry in entries:
            # "Each entry goes to the shelf in causal mode always, in the other modes only if that cell is not pending."
            # Figure 1: if (model = causal) or ((x,·) ∉ updates_p) then x_p ← v.
            if self.mode == CAUSAL or entry.cell not in self.pending:
                self.shelf[entry.cell] = content_of(entry)
                applied += 1
        return applied

    def waited_for(self) -> Optional[Content]:
        """ "If the turn is now the desk's own and a read waits, the answer carries that cell's content and the read is over." """
        if self.waiting is None or self.turn_desk() != self.own:
            return None
        content = self.shelf[self.waiting]
        self.waiting = None
        return content


def entry_of(cell: int, content: Content) -> Entry:
    return Entry(cell, None if content == OPEN else content)


def content_of(entry: Entry) -> Content:
    return OPEN if entry.day is None else entry.day


# The words of a line.


def natural(word: bytes) -> int:
    """A number of the form "decimal without leading zeros", of any size that matters."""
    if word == b"" or any(byte not in b"0123456789" for byte in word):
        raise OtherForm
    if word[:1] == b"0" and word != b"0":
        raise OtherForm
    # Without leading zeros eleven digits are beyond 32 bits, and Python reads no more than some thousands.
    if len(word) > 10:
        raise OtherForm
    return int(word)


def unsigned(word: bytes) -> int:
    value = natural(word)
    if value > MOST_NUMBER:
        raise OtherForm
    return value


def day_or_open(word: bytes) -> Content:
    if word == b"open":
        return OPEN
    # "a minus only before a day below 0"
    if word[:1] == b"-":
        value = -natural(word[1:])
        if value == 0:
            raise OtherForm
    else:
        value = natural(word)
    if not LEAST_DAY <= value <= MOST_DAY:
        raise OtherForm
    return value


def words_of(line: Optional[bytes]) -> List[bytes]:
    """ "Single spaces": one more than needed leaves an empty word, which is no letter and no number."""
    if line is None:
        raise OtherForm
    return line.split(b" ")


def lines_of(data: bytes) -> List[Optional[bytes]]:
    """The lines, "ended by one line feed". "A last line without it counts as a line, of another form": here None."""
    pieces = data.split(b"\n")
    ended, rest = pieces[:-1], pieces[-1]
    return [*ended, None] if rest else [*ended]


def printed(content: Content) -> str:
    """ "a read prints `blank`, `open` or `day` and number" """
    return content if content in (BLANK, OPEN) else f"day {content}"


# A run.


class Run:
    """The desks of one shelf, each with its tray, and the sheet that each sent last."""

    def __init__(self, first: Optional[bytes]):
        words = words_of(first)
        # "Line 1: desks, cells, mode letter"
        if len(words) != 3 or words[2] not in MODES:
            raise OtherForm
        n, m, mode = unsigned(words[0]), unsigned(words[1]), MODES[words[2]]
        # Desk 0 comes first and alone: it is refused for any n or m outside the limits, and for 0 desks too.
        self.desks = [Desk(n, m, 0, mode)]
        # "The desks of one shelf share n and m and have the own numbers 0 to n-1, one each."
        self.desks += [Desk(n, m, own, mode) for own in range(1, n)]
        self.trays = [bytearray(PLACE * n) for _ in range(n)]
        self.latest: List[Optional[bytes]] = [None] * n

    def header(self) -> str:
        """ "Header: desks, cells, letter of the mode in force (never `-`)." """
        desk = self.desks[0]
        return f"desks {desk.n} cells {desk.m} mode {LETTERS[desk.mode]}"

    def desk_number(self, word: bytes) -> int:
        value = unsigned(word)
        # "a desk that isn't there"
        if not value < len(self.desks):
            raise OtherForm
        return value

    def step(self, line: Optional[bytes]) -> str:
        """Plays one step and says its answer."""
        letter, *words = words_of(line)
        # "Steps: `w` desk cell day-or-`open`; `r` desk cell; `s` desk; `d` sender receiver […]; `t` desk."
        kinds = {b"w": (3, self.w), b"r": (2, self.r), b"s": (1, self.s), b"d": (2, self.d), b"t": (1, self.t)}
        if letter not in kinds:
            raise OtherForm
        count, call = kinds[letter]
        if len(words) != count:
            raise OtherForm
        return call(*words)

    def w(self, desk: bytes, cell: bytes, content: bytes) -> str:
        own, place, what = self.desk_number(desk), unsigned(cell), day_or_open(content)
        self.desks[own].write(place, what)
        return "stored"

    def r(self, desk: bytes, cell: bytes) -> str:
        own, place = self.desk_number(desk), unsigned(cell)
        content = self.desks[own].read(place)
        return "waits" if content is None else printed(content)

    def s(self, desk: bytes) -> str:
        own = self.desk_number(desk)
        buffer = bytearray(BUFFER)
        turn, entries = self.desks[own].send(buffer)
        self.latest[own] = bytes(buffer[: sheets.ENTRY * entries + sheets.TRAILER])
        # "`sent` turn number, entries"
        return f"sent {turn} {entries}"

    def d(self, sender: bytes, receiver: bytes) -> str:
        giver, own = self.desk_number(sender), self.desk_number(receiver)
        # "sender's latest sheet, again if wanted"; "`d` before the sender has sent prints `nothing sent`."
        sheet = self.latest[giver]
        if sheet is None:
            return "nothing sent"
        self.desks[own].deliver(self.trays[own], sheet)
        return "held"

    def t(self, desk: bytes) -> str:
        own = self.desk_number(desk)
        taken = self.desks[own].take(self.trays[own])
        # "`taken` turn number, entries, entries applied, waited-for content (as a read prints it) or `-`"
        waited = "-" if taken.waited is None else printed(taken.waited)
        return f"taken {taken.turn} {taken.entries} {taken.applied} {waited}"


def said(lines: List[Optional[bytes]]) -> List[str]:
    """The lines that a schedule of legal length prints."""
    try:
        # Of no bytes there is no first line, which is another form too.
        run = Run(lines[0] if lines else None)
    except (OtherForm, Refused):
        # "if it has another form or a desk can't be opened, `bad start` alone"
        return ["bad start"]
    out = [run.header()]
    for k, line in enumerate(lines[1:], start=1):
        try:
            out.append(f"{k} {run.step(line)}")
        except Refused as refused:
            # "any refused call `refused` and its number"
            out.append(f"{k} refused {refused.number}")
        except OtherForm:
            # "prints its step number and `bad line` and ends the run"
            return [*out, f"{k} bad line"]
    return out


def play(data: bytes) -> bytes:
    """All that `rounds` prints for this standard input."""
    lines = lines_of(data)
    # "else it prints `too long` alone, before any other test"
    if len(data) > MOST_BYTES or len(lines) - 1 > MOST_STEPS:
        return b"too long\n"
    # "each line, read or printed, ended by one line feed"
    return "".join(line + "\n" for line in said(lines)).encode("ascii")


if __name__ == "__main__":
    sys.stdout.buffer.write(play(sys.stdin.buffer.read()))
