"""Calls to try on a program for round books: on good books of any shape, damaged ones and noise.

`calls(seed)` are such calls without end, ten on each book and more on a long one, the same ones for
the same seed. A book is made as pieces that stand end to end: sheets, or what is left of them.
Nothing here knows what must be said of a book.
"""

import itertools
import random

import sheets
from books import Call
from sheets import Entry, Sheet
from somesheets import DAMAGE, LAST_TURN, noise, other_byte, some_day, some_entries, some_sheet

BITS_32, BITS_64 = 2**32, 2**64
BEYOND_16_BITS = 65_536
MOST_IN_ROW = 12  # sheets of a book that is not long
FRONT = 4  # the sheets of a deep book that are unlike those behind them
# Long books are dear: one of tens of sheets, of hundreds and of many bytes in so many rounds.
PER_TENS, PER_HUNDREDS, PER_WIDE = 2, 11, 30


# Good books.


def some_desks(rng):
    return rng.choice([1, 2, 2, 3, 16, rng.randint(1, 16)])


def some_cells(rng):
    return rng.choice([1, 2, 2, 3, 4, 64, rng.randint(1, 64)])


def sheet_at(rng, desks, cells, turn):
    """A sheet of this shelf with this number and with the sender that it leaves."""
    return Sheet(turn % desks, desks, cells, turn, some_entries(rng, cells))


def row(rng, least=0):
    """Up to 12 sheets of one shelf in turn order, from any first number on or up to the last."""
    desks, cells = some_desks(rng), some_cells(rng)
    left = MOST_IN_ROW - least
    count = least + rng.choice([0, 1, 2, rng.randint(0, left), rng.randint(0, left)])
    most = LAST_TURN - count
    first = rng.choice([0, 1, most, rng.randint(0, 40), rng.randint(0, most), 256 - count // 2])
    return [sheet_at(rng, desks, cells, first + k) for k in range(count)]


def written(sent):
    return [sheets.write(sheet) for sheet in sent]


def good(rng):
    return written(row(rng))


def one_of(rng, rows):
    return rng.randrange(len(rows))


# Books that are mostly not good, because of one piece.


def byte_changed(rng):
    pieces = written(row(rng, 1))
    k = one_of(rng, pieces)
    size = len(pieces[k])
    place = rng.choice([size - rng.randint(1, 12), rng.randrange(size)])
    pieces[k] = other_byte(rng, pieces[k], place)
    return pieces


def damaged(rng):
    pieces = written(row(rng, 1))
    pieces[one_of(rng, pieces)] = rng.choice(DAMAGE)(rng)
    return pieces


def cut_behind(rng):
    pieces = written(row(rng, 1))
    k = one_of(rng, pieces)
    return pieces[:k] + [pieces[k][: rng.randrange(len(pieces[k]))]]


def cut_before(rng):
    pieces = written(row(rng, 1))
    k = one_of(rng, pieces)
    return [pieces[k][rng.randrange(len(pieces[k])) :]] + pieces[k + 1 :]


def zeros_behind(rng):
    """The room's zeros, taken for the book's."""
    return good(rng) + [bytes(rng.choice([12, 18, 24, 398, rng.randint(1, 40)]))]


def noisy(rng):
    """Noise alone, or before or behind a good book."""
    some = [noise(rng, rng.randint(0, 60))]
    return rng.choice([some, some + good(rng), good(rng) + some])


# Books of good sheets that mostly do not fit each other.


def swapped(rng):
    pieces = written(row(rng, 2))
    i, k = rng.sample(range(len(pieces)), 2)
    pieces[i], pieces[k] = pieces[k], pieces[i]
    return pieces


def repeated(rng):
    pieces = written(row(rng, 1))
    k = one_of(rng, pieces)
    pieces.insert(rng.choice([k, rng.randint(0, len(pieces))]), pieces[k])
    return pieces


def left_out(rng):
    pieces = written(row(rng, 3))
    del pieces[one_of(rng, pieces)]
    return pieces


def mixed(rng):
    """One sheet, or all from it on or before it, of another shelf: other desks or cells or both."""
    sent = row(rng, 2)
    k, differ = one_of(rng, sent), rng.choice(["desks", "cells", "both"])
    desks = sent[0].desks if differ == "cells" else sent[0].desks % 16 + 1
    cells = sent[0].cells if differ == "desks" else sent[0].cells % 64 + 1
    for at in rng.choice([range(k, k + 1), range(k, len(sent)), range(k)]):
        sent[at] = sheet_at(rng, desks, cells, sent[at].turn)
    return written(sent)


def numbers_off(rng):
    """From one sheet on the numbers skip some, stay or fall."""
    sent = row(rng, 2)
    desks, cells = sent[0].desks, sent[0].cells
    off = rng.choice([-2, -1, -1, 1, 1, 2, desks, -desks, 255, 256, 65_536])
    for at in range(rng.randint(1, len(sent) - 1), len(sent)):
        turn = min(max(0, sent[at].turn + off), LAST_TURN - 1)
        sent[at] = sheet_at(rng, desks, cells, turn)
    return written(sent)


def wrapped(rng):
    """Numbers that go on at 0 behind the greatest, with the one that no sheet has or without."""
    desks, cells = some_desks(rng), some_cells(rng)
    numbers, first = rng.choice([LAST_TURN, LAST_TURN, BITS_32]), LAST_TURN - rng.randint(1, 3)
    turns = [(first + k) % numbers for k in range(rng.randint(2, 6))]
    return written(sheet_at(rng, desks, cells, turn) for turn in turns)


# Books with the bytes of a good sheet inside another sheet, which comes in pieces, cut at its ends.


def day_of(*low_first):
    return int.from_bytes(bytes(low_first), "little", signed=True)


def in_entries(rng):
    """The bytes of a good sheet in the entries of another, from the third byte of an entry on.

    Each outer entry is a cell, the kind 2 and the bytes of a day. So the inner entries have a cell
    and a kind of the day's, the inner desks are a cell, the inner cells a kind: 2.
    """
    before, inner = rng.randint(0, 2), rng.randint(0, 2)
    desks = rng.randint(before + inner + 1, 16)
    low = sorted(rng.sample(range(desks), before + inner + 1))
    last = rng.randint(desks + 1, 40)
    number = bytes([rng.randrange(256), rng.randrange(256), last, 2])
    sender = int.from_bytes(number, "little") % desks
    entries = [Entry(low[k], some_day(rng) or 0) for k in range(before)]
    for k in range(inner):
        cell = k if inner == 2 else rng.randrange(2)
        entries.append(Entry(low[before + k], day_of(cell, 2, rng.randrange(256), 0)))
    entries.append(Entry(low[-1], day_of(6 * inner, 0, inner, sender)))
    entries.append(Entry(desks, day_of(0, 0, *number[:2])))
    entries.append(Entry(last, some_day(rng) or 0))
    sent = row(rng, 1)[:2]
    at = one_of(rng, sent)
    cells = max(64 - rng.randint(0, 20), last + 1)
    sent = [sheet_at(rng, s.desks, cells, s.turn) for s in sent]
    sent[at].entries = entries
    pieces, start = written(sent), 6 * before + 2
    return split(rng, pieces, at, [start, start + 6 * inner + 12])


def across(rng):
    """The bytes of a good sheet that begins in the last two bytes of a sheet and ends in the next.

    Those two are zero, the high bytes of a turn number. The next sheet's cell 0 is then the inner
    number of entries, its kind 2 the inner sender, its day the inner desks, cells and zero bytes.
    """
    desks, cells = some_desks(rng), rng.randint(2, 64)
    first, count = rng.randint(0, 60_000), rng.randint(2, 5)
    sent = [sheet_at(rng, desks, cells, first + k) for k in range(count)]
    inner_desks, number = 1, bytes(4)
    while int.from_bytes(number, "little") % inner_desks != 2:
        inner_desks = rng.randint(3, 16)
        number = bytes([rng.randint(1, cells - 1), 2, rng.randrange(256), rng.randrange(256)])
    held = day_of(inner_desks, rng.choice([cells, rng.randint(1, 64)]), 0, 0)
    at = rng.randint(1, count - 1)
    sent[at].entries = [Entry(0, held), Entry(number[0], day_of(number[2], number[3], 0, 0))]
    return split(rng, written(sent), at, [10])


def split(rng, pieces, at, places):
    """The pieces with one cut at these places, so that they are tried; now and then ended there."""
    ends = [0, *places, len(pieces[at])]
    parts = [pieces[at][a:b] for a, b in zip(ends, ends[1:])]
    whole = parts + pieces[at + 1 :]
    return pieces[:at] + rng.choice([parts[:-1], whole, whole])


# Long books.


def deep_row(rng, count):
    """So many sheets, of which each of the first ones sets a cell that no other one sets."""
    desks, cells = some_desks(rng), rng.randint(2 * FRONT, 63)
    first = rng.choice([1, rng.randint(1, BITS_32 // 2), LAST_TURN - 1 - count])
    *own, other = [[Entry(cell, some_day(rng))] for cell in rng.sample(range(cells), FRONT + 1)]
    entries = own + rng.choices([[], [], other], k=count - FRONT)
    turns = range(first, first + count)
    return [Sheet(turn % desks, desks, cells, turn, some) for turn, some in zip(turns, entries)]


def changed(sheet, desks=0, cells=0, number=0):
    """The sheet with other desks, cells or number, and with the sender that they leave."""
    desks, turn = (sheet.desks - 1 + desks) % 16 + 1, sheet.turn + number
    return Sheet(turn % desks, desks, sheet.cells + cells, turn, sheet.entries)


FRONT_FAULTS = [{}, {"desks": 1}, {"cells": 1}, {"number": -1}, {"number": 1}]


def deep(rng, nth, count):
    """So many sheets; in their turn such whose first ones do not fit, or with a first one cut."""
    sent, wrong = deep_row(rng, count), rng.randint(1, FRONT)
    fault = [*FRONT_FAULTS, None][nth % (len(FRONT_FAULTS) + 1)]
    if fault is None:
        pieces = written(sent)
        return [pieces[0][1:]] + pieces[1:]
    return written([changed(sheet, **fault) for sheet in sent[:wrong]] + sent[wrong:])


def wide(rng, nth):
    """Well more bytes than 16 bits can count, most sheets long; every other one wrong in front."""
    desks, first = some_desks(rng), rng.randint(0, BITS_32 // 2)
    full = [Entry(cell, some_day(rng)) for cell in range(64)]
    pieces, size, most = [], 0, BEYOND_16_BITS + rng.randint(6_000, 14_000)
    while size <= most:
        turn = first + len(pieces)
        entries = rng.choice([full, full, full, full[1::3], []])
        pieces.append(sheets.write(Sheet(turn % desks, desks, 64, turn, entries)))
        size += len(pieces[-1])
    wrong = rng.choice([pieces[:1] + pieces[2:], [pieces[0][1:]] + pieces[1:]])
    return [pieces, wrong][nth % 2]


def long_books(rng, turn):
    """Those of a round."""
    if turn % PER_TENS == 0:
        yield deep(rng, turn // PER_TENS, rng.choice([20, 40, rng.randint(14, 60)]))
    if turn % PER_HUNDREDS == 0:
        yield deep(rng, turn // PER_HUNDREDS, 300)
    if turn % PER_WIDE == 0:
        yield wide(rng, turn // PER_WIDE)


# Calls.

WRONG = ["shelf", "damage", "any", "none", "cut", "byte"]
SPARE = [41, 100, 400]  # bytes of a room behind an added sheet, if there are many


def right_next(rng, last):
    """A sheet that fits behind this piece, or any if the piece is no good sheet."""
    before = sheets.read(last)
    if before:
        return sheet_at(rng, before.desks, before.cells, before.turn + 1)
    return some_sheet(rng)


def some_next(rng, last):
    """A sheet to be added behind this piece: the right one in one half, else a wrong one."""
    sheet = right_next(rng, last)
    wrong = rng.choice([None] * 8 + ["number", "number", *WRONG])
    if wrong == "number":
        turn = (sheet.turn + rng.choice([-2, -1, 1, 2, sheet.desks])) % BITS_32
        sheet = sheet_at(rng, sheet.desks, sheet.cells, turn)
    if wrong == "shelf":
        desks, cells = rng.choice([(some_desks(rng), sheet.cells), (sheet.desks, some_cells(rng))])
        sheet = sheet_at(rng, desks, cells, sheet.turn)
    if wrong == "any":
        sheet = some_sheet(rng)
    data = sheets.write(sheet)
    if wrong == "damage":
        return rng.choice(DAMAGE)(rng)
    if wrong == "cut":
        return rng.choice([data[:-1], data[1:], data + b"\0"])
    if wrong == "byte":
        return other_byte(rng, data, rng.randrange(len(data)))
    return b"" if wrong == "none" else data


def some_left(rng, size):
    """So many bytes of a room, as they may be before anything is added."""
    return rng.choice([b"\xaa" * size, rng.randbytes(size), bytes(size)])


def some_add(rng, pieces):
    """The book, or its first pieces, in a room that is long enough, or not, and a sheet for it."""
    upto = rng.choice([len(pieces), len(pieces), len(pieces), rng.randint(0, len(pieces))])
    sheet = some_next(rng, pieces[upto - 1] if upto else b"")
    length = sum(map(len, pieces[:upto]))
    need = length + len(sheet)
    spare = rng.choice([*SPARE, rng.randint(1, 40), rng.randint(1, 40)])
    sizes = [need, need, need + spare, max(0, need - 1), length, rng.randint(0, need)]
    room = b"".join(pieces) + some_left(rng, len(sheet) + spare)
    room = room[: rng.choice(sizes)]
    if rng.random() < 0.15:
        over = [len(room) + 1, BITS_32 + length, BITS_64 - 1, BITS_64 - rng.randint(1, 400)]
        length = rng.choice([*over, BITS_64 - max(1, len(sheet)), rng.randint(0, len(room))])
    return Call("a", room, length, sheet)


def places(rng, pieces):
    """Where a piece ends, anywhere in the book, and at or beyond an end of it."""
    size, end = sum(map(len, pieces)), rng.choice([0, *itertools.accumulate(map(len, pieces))])
    beyond = [size + 1, size + 6, size + 12, BITS_64 - 1, BITS_64 - 12]
    wrapping = [BEYOND_16_BITS + end, BITS_32 + end]
    return [end, rng.randint(0, size), rng.choice([0, size, *beyond, *wrapping])]


def cells_about(rng, cells):
    """A cell below the cells, one at their ends or just beyond, and one of any shelf or none."""
    at_ends = [0, cells - 1, cells, cells + 1]
    some = [rng.randrange(max(1, cells)), rng.choice(at_ends), rng.choice([63, 64, 255, 128])]
    return [cell % 256 for cell in some]


def far_cells(pieces):
    """The first bytes of a long book's first pieces: cells, where these have entries."""
    return [piece[0] for piece in pieces[:FRONT] if piece] if len(pieces) > MOST_IN_ROW else []


def far_places(rng, pieces):
    """Places that 16 bits cannot count: where pieces end, near by, and anywhere."""
    ends = [end for end in itertools.accumulate(map(len, pieces)) if end >= BEYOND_16_BITS]
    if not ends:
        return []
    some = rng.sample(ends, min(4, len(ends)))
    near = [some[0] - 1, some[0] + 1, some[0] - 6]
    return [*some, *near, BEYOND_16_BITS, rng.randint(BEYOND_16_BITS, ends[-1])]


def right_add(rng, pieces):
    """The sheet that fits behind all pieces, in a room with bytes to spare."""
    book, sheet = b"".join(pieces), sheets.write(right_next(rng, pieces[-1]))
    room = book + some_left(rng, len(sheet) + rng.choice(SPARE))
    return Call("a", room, len(book), sheet)


def calls_on(rng, pieces):
    """Its sheets, how many, some cells, some places, and some sheets to be added."""
    book = b"".join(pieces)
    # The newest sheet's byte for the cells, where there is one.
    cells = book[-7] if len(book) >= 12 else 64
    yield Call("s", book)
    yield Call("c", book)
    looked = cells_about(rng, cells) + far_cells(pieces)
    yield from (Call("l", book, cell) for cell in looked)
    stepped = places(rng, pieces) + far_places(rng, pieces)
    yield from (Call("b", book, place) for place in stepped)
    yield some_add(rng, pieces)
    yield right_add(rng, pieces) if len(pieces) > MOST_IN_ROW else some_add(rng, pieces)


KINDS = [good] * 6 + [byte_changed, damaged, cut_behind, cut_before, zeros_behind, noisy]
KINDS += [swapped, repeated, left_out, mixed, numbers_off, wrapped, across]
KINDS += [byte_changed, mixed, in_entries, in_entries]


def calls(seed):
    """Calls without end, in rounds of a book or more of each kind: the same for the same seed."""
    rng = random.Random(seed)
    for turn in itertools.count():
        short = (made(rng) for made in KINDS)
        for pieces in itertools.chain(short, long_books(rng, turn)):
            yield from calls_on(rng, pieces)
