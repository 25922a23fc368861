"""Calls on round books whose answers are known, and bytes that end a run of `roundbook`."""
import sheets
from books import Call
from sheets import Entry, Sheet

INPUT = 524_685  # bytes: the most that the program reads
GREATEST = sheets.MOST_TURN

# Document 01's example 1; and three opens, whose bytes 2 to 14 are a sheet of another shelf.
E1 = bytes.fromhex('010200000000 060001000202000000000000')
OPENS = bytes.fromhex('000100000000 010100000000 020100000000 120003000203000000000000')
AA = 12 * b'\xaa'


def empty(turn):
    """The empty sheet with this number, of desk (number mod 2) of 2, 2 cells."""
    return sheets.write(Sheet(turn % 2, 2, 2, turn, []))


def filling():
    """Calls that fill the input to its last byte: a good book, and books of no bytes behind it."""
    short = Call('c', b'')
    # All lengths of books are multiples of 6, so that some number of short calls makes it even.
    behind = next(k for k in range(1, 7) if (INPUT - (k + 1) * len(short.record())) % 6 == 0)
    room = INPUT - (behind + 1) * len(short.record())
    opens = [Entry(cell, None) for cell in range(64)]
    full = room // 396
    sizes = [64] * full + [(room - 396 * full - 12) // 6]
    row = [Sheet(0, 1, 64, turn, opens[:size]) for turn, size in enumerate(sizes)]
    yield Call('c', b''.join(map(sheets.write, row))), f'sheets {full + 1}'
    yield from [(short, 'sheets 0')] * behind


def added(room, length, sheet, answer, after=None):
    """An adding, with its answer and the room afterwards: as before, if nothing else is said."""
    return Call('a', room, length, sheet), f'{answer} {(room if after is None else after).hex()}'


def looked():
    """Calls that change nothing, each with all that must be printed for it."""
    good, skips, zeros = E1 + empty(1), E1 + empty(2), E1 + bytes(12)
    yield Call('s', b''), 'end'
    yield Call('s', b'\0'), 'refused 23\nend'
    yield Call('s', good), '18 30 1 1 0\n0 18 0 0 1\nend'
    yield from ((Call('l', b'', cell), 'blank') for cell in (0, 63))
    yield Call('l', b'', 64), 'refused 6'
    yield Call('l', b'\0', 64), 'refused 23'
    yield from ((Call('l', book, 1), 'day 0 0') for book in (E1, good))
    yield Call('l', E1, 0), 'blank'
    yield Call('l', E1, 2), 'refused 6'
    yield from ((Call('l', book, 1), 'refused 23') for book in (zeros, skips))
    yield Call('b', good, 30), '18 30'
    yield Call('b', good, 18), '0 18'
    yield from ((Call('b', good, place), 'none') for place in (0, 31, 2**64 - 1))
    yield Call('b', OPENS, 14), '2 14'
    yield Call('l', OPENS, 2), 'open 0'
    yield from ((Call('c', book), 'sheets 1') for book in (E1, OPENS, empty(2), empty(GREATEST)))
    # Turn numbers do not go on at 0.
    wrapped = empty(GREATEST) + empty(0)
    for book in (zeros, skips, OPENS[:14], wrapped, empty(GREATEST + 1)):
        yield Call('c', book), 'refused 23'


def addings():
    """Calls that add a sheet, each with all that must be printed for it."""
    good, cut = E1 + empty(1), empty(1)[:-1]
    yield added(E1 + AA, 18, empty(1), 'added 30', good)
    yield added(E1 + AA + b'\xaa', 18, empty(1), 'added 30', good + b'\xaa')
    yield added(E1 + AA[1:], 18, empty(1), 'refused 11')
    yield added(E1 + AA[1:], 18, empty(2), 'refused 23')
    yield added(E1 + AA, 18, cut, 'refused 13')
    yield from (added(E1, length, empty(1), 'refused 23') for length in (17, 19, 2**64 - 1))
    yield from (added(E1, length, cut, 'refused 13') for length in (17, 19, 2**64 - 1))
    yield added(AA, 0, empty(7), 'added 12', empty(7))
    yield added(b'', 0, empty(7), 'refused 11')
    yield added(b'', 1, empty(7), 'refused 23')
    yield added(b'', 0, b'', 'refused 13')
    yield added(empty(GREATEST) + AA, 12, empty(0), 'refused 23')
    yield added(empty(GREATEST) + AA, 12, empty(GREATEST + 1), 'refused 13')


def known():
    """All of them; the first ones are given together, in an input that they fill."""
    return [*filling(), *looked(), *addings()]


def endings():
    """Bytes that end the run: a record of another letter, or one that is cut short."""
    calls = [Call('s', E1), Call('c', E1), Call('l', E1, 1), Call('b', E1, 18)]
    whole = [call.record() for call in [*calls, Call('a', E1, 0, empty(0))]]
    others = [letter + whole[0] for letter in (b'x', b'S', b'\0', b'\n')]
    cut = [record[:size] for record in whole for size in (1, 3, 5, 12, len(record) - 1)]
    # Lengths that count more bytes than any input has.
    return others + cut + [b'c' + 4 * b'\xff' + E1, b'a' + bytes(8) + 6 * b'\xff' + E1]
