"""Records to try on a reader of sheets: good sheets of any shape, damaged ones and noise.

`records(seed)` are such records without end, the same ones for the same seed; `simpler(record)` are
records near one that are simpler. Nothing here knows what a reader must say of them.
"""

import itertools
import random

import sheets
from sheets import Entry, Sheet

NOISE = 420  # the longest noise: somewhat more than the longest sheet
LAST_TURN = 4_294_967_295  # a desk's last turn number, which no sheet has
SENDERS = [(sender, desks) for desks in range(1, 17) for sender in range(desks)]
DAY_ENDS = [-2_147_483_648, -2_147_483_647, -1, 0, 1, 2_147_483_646, 2_147_483_647]


# Good sheets.


def some_turn(rng, sender, desks):
    """A number that leaves the sender when divided by desks: the first, the last, near or any."""
    most = (LAST_TURN - 1 - sender) // desks
    near = [0, most, min(1, most), max(0, most - 1)]
    return sender + desks * rng.choice([*near, rng.randint(0, 40), rng.randint(0, most)])


def some_day(rng):
    end, near = rng.choice(DAY_ENDS), rng.randint(-30_000, 90_000)
    return rng.choice([None, end, near, rng.randint(DAY_ENDS[0], DAY_ENDS[-1])])


def some_entries(rng, cells, least=0):
    """Entries of a shelf of so many cells, no fewer than `least`: none, a few, all or any."""
    count = max(least, rng.choice([0, 1, 2, 3, cells, rng.randint(0, cells)]))
    filled = sorted(rng.sample(range(cells), min(count, cells)))
    return [Entry(cell, some_day(rng)) for cell in filled]


def some_sheet(rng, least=0):
    """A good sheet of any shape, with no fewer than `least` entries: 0, 1 or 2."""
    sender, desks = rng.choice([(0, 1), (1, 2), rng.choice(SENDERS), rng.choice(SENDERS)])
    cells = max(least, rng.choice([1, 2, 64, rng.randint(1, 64), rng.randint(1, 64)]))
    entries = some_entries(rng, cells, least)
    return Sheet(sender, desks, cells, some_turn(rng, sender, desks), entries)


# Damage. Each takes bytes or a sheet that is good, and gives a record that is mostly not. (Where a
# byte of a day changes, or the turn number of one desk alone, the sheet stays good: then too the
# two programs must agree.)


def with_byte(data, place, value):
    return data[:place] + bytes([value % 256]) + data[place + 1 :]


def other_byte(rng, data, place):
    old = data[place]
    near = [0, 1, 2, 16, 17, 64, 65, 255, old + 1, old - 1, old ^ 128]
    value = rng.choice([*near, rng.randrange(256)])
    return with_byte(data, place, value if value % 256 != old else old + rng.randint(1, 255))


def entry_start(rng, data):
    """Where one of a sheet's entries begins."""
    return 6 * rng.randrange((len(data) - 12) // 6)


def byte_set(rng, turn):
    """One byte of the trailer, or of an entry, set to another value: the 18 places come in turn."""
    data = sheets.write(some_sheet(rng, least=1))
    place = turn % 18
    if place < 12:
        return other_byte(rng, data, len(data) - 12 + place)
    return other_byte(rng, data, entry_start(rng, data) + place - 12)


def byte_dropped(rng):
    data = sheets.write(some_sheet(rng))
    place = rng.randrange(len(data))
    return data[:place] + data[place + 1 :]


def byte_added(rng):
    data = sheets.write(some_sheet(rng))
    place = rng.randint(0, len(data))
    return data[:place] + bytes([rng.choice([0, rng.randrange(256)])]) + data[place:]


def cut(rng, turn):
    """The sheet's first bytes or its last: the places come in turn."""
    data = sheets.write(some_sheet(rng, least=rng.randint(0, 2)))
    place = turn % len(data)
    return rng.choice([data[:place], data[place:]])


def swapped(rng):
    s = some_sheet(rng, least=2)
    i, k = rng.sample(range(len(s.entries)), 2)
    s.entries[i], s.entries[k] = s.entries[k], s.entries[i]
    return sheets.write(s)


def doubled(rng):
    """A cell that stands twice: in the next entry, or in one that is added."""
    s = some_sheet(rng, least=2)
    k = rng.randrange(len(s.entries) - 1)
    if rng.random() < 0.5:
        s.entries[k + 1].cell = s.entries[k].cell
    else:
        s.entries.insert(k, Entry(s.entries[k].cell, some_day(rng)))
    return sheets.write(s)


def past_cells(rng):
    """The last entry's cell is not below cells."""
    s = some_sheet(rng, least=1)
    s.entries[-1].cell = rng.choice([s.cells, s.cells + 1, 64, 255, rng.randint(s.cells, 255)])
    return sheets.write(s)


def open_with_day(rng):
    data = sheets.write(some_sheet(rng, least=1))
    at = entry_start(rng, data)
    data = data[: at + 1] + bytes([1, 0, 0, 0, 0]) + data[at + 6 :]
    return with_byte(data, at + rng.randint(2, 5), rng.choice([1, 128, 255, rng.randint(1, 255)]))


def kind_set(rng):
    data = sheets.write(some_sheet(rng, least=1))
    at = entry_start(rng, data)
    if rng.random() < 0.5:
        data = data[: at + 2] + bytes(4) + data[at + 6 :]
    return with_byte(data, at + 1, rng.choice([0, 3, 255, rng.randint(3, 255)]))


def outside(rng):
    """Desks or cells outside their limits, all else right for them; or a sender not below desks."""
    s = some_sheet(rng)
    which = rng.randrange(3)
    if which == 0:
        s.desks = rng.choice([0, 17, 255, rng.randint(17, 255)])
        s.sender = s.turn % s.desks if s.desks else rng.randrange(2)
    elif which == 1:
        s.cells = rng.choice([0, 65, 255, rng.randint(65, 255)])
        s.entries = [e for e in s.entries if e.cell < s.cells]
    else:
        s.sender = rng.choice([s.desks, s.desks + s.sender, 255])
    return sheets.write(s)


def turn_off(rng):
    """The turn number off by one or two, or the one that no sheet has with the sender it leaves."""
    s = some_sheet(rng)
    if rng.random() < 0.4:
        s.turn, s.sender = LAST_TURN, LAST_TURN % s.desks
    else:
        s.turn = min(max(0, s.turn + rng.choice([-2, -1, 1, 2])), LAST_TURN)
    return sheets.write(s)


def distance_off(rng):
    """The distance off by an entry, or by all but its low byte; the count with it or not."""
    data = sheets.write(some_sheet(rng))
    at, entries = len(data) - 12, rng.choice([-1, 1, 128, 256])
    distance = (len(data) - 12 + 6 * entries) % 65_536
    data = data[:at] + distance.to_bytes(2, "little") + data[at + 2 :]
    return with_byte(data, at + 2, data[at + 2] + rng.choice([0, entries]))


def too_long(rng):
    """An entry for every cell and more, as far as a byte goes; or another sheet before this one."""
    s = some_sheet(rng)
    if rng.random() < 0.5:
        return sheets.write(some_sheet(rng)) + sheets.write(s)
    s.cells = rng.choice([64, 65, 255])
    entries = rng.choice([64, 65, 66, 100, 255])
    s.entries = [Entry(cell, some_day(rng)) for cell in range(entries)]
    return sheets.write(s)


DAMAGE = [byte_dropped, byte_added, swapped, doubled, past_cells, open_with_day, kind_set]
DAMAGE += [outside, turn_off, distance_off, too_long]


def noise(rng, length):
    """Any bytes; half of it small ones, which are more like a sheet's."""
    most = rng.choice([2, 255])
    return bytes(rng.randint(0, most) for _ in range(length))


def records(seed):
    """Records without end, in rounds of 32: the same ones for the same seed."""
    rng = random.Random(seed)
    for turn in itertools.count():
        for _ in range(10):
            yield sheets.write(some_sheet(rng))
        for k in range(6):
            yield byte_set(rng, 6 * turn + k)
        for k in range(3):
            yield cut(rng, 3 * turn + k)
        for damage in DAMAGE:
            yield damage(rng)
        for k in range(2):
            yield noise(rng, (2 * turn + k) % (NOISE + 1))


# Simpler ones.


def simpler(record):
    """Records that are shorter, or as long with smaller bytes, the boldest first."""
    back = len(record) - 12
    if back >= 0:
        distance, count = record[back] + 256 * record[back + 1], record[back + 2]
        if distance >= 6 and count >= 1:
            trailer = (distance - 6).to_bytes(2, "little") + bytes([count - 1]) + record[back + 3 :]
            for at in range(0, back - 5, 6):
                yield record[:at] + record[at + 6 : back] + trailer
        # Of one desk every turn number leaves the sender, 0: two bytes, simple only together.
        yield record[: back + 3] + bytes([0, 1]) + record[back + 5 :]
    for place in range(len(record)):
        yield record[:place] + record[place + 1 :]
    for place, old in enumerate(record):
        for value in (0, 1, 2, old // 2, old - 1):
            if 0 <= value < old:
                yield with_byte(record, place, value)
