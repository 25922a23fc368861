"""What calls on round books show, by the call's letter: each of it has to be seen now and then.

Each definition below gives all that calls of one letter can show, and whether this one shows it.
"""
import functools

import books
import sheets

GREATEST = sheets.MOST_TURN
REFUSED_23 = ['refused 23']
BITS_16 = 65_535  # the most that 16 bits can count
FAR = 20, 255  # sheets behind the one that counts: more than so many
LEFT = {'0xAA': lambda byte: byte == 0xAA, 'neither 0xAA nor 0': lambda byte: byte not in (0, 0xAA)}


def good_behind(book):
    """How many good sheets stand end to end at the end of any bytes."""
    one, count = books.Part(len(book), len(book), None), -1
    while one:
        start = one.start - sheets.TRAILER
        distance = sheets.number(book[start:start + 2]) if start >= 0 else 0
        one, count = books.part(book, start - distance, one.start), count + 1
    return count


@functools.lru_cache(maxsize=64)  # as one book is asked about more than once
def behind_wrong(book):
    """How many sheets stand behind the last that is not good or does not fit the next."""
    row = [one.sheet for one in books.parts(book) or []]
    fits = [(a.desks, a.cells, a.turn + 1) == (b.desks, b.cells, b.turn)
            for a, b in zip(row, row[1:])]
    return fits[::-1].index(False) + 1 if False in fits else good_behind(book)


def refused_far(refused, book):
    """Refused by 23 for a book that is wrong in its front alone."""
    behind = behind_wrong(book) if refused else 0
    return {f'refused 23, more than {most} sheets behind': behind > most for most in FAR}


def of_sheets(call, said):
    """`s`"""
    return {
        'refused 23': said[0] == 'refused 23',
        'no sheet': said == ['end'],
        'one sheet': len(said) == 2 and said[0] != 'refused 23',
        'more than one sheet': len(said) > 2,
        **refused_far(said == [*REFUSED_23, 'end'], call.book),
    }


def of_wrong_book(book):
    """One alone is not so: "every sheet is, all have the same desks and cells, and turn numbers
    rise by 1"."""
    cut = books.parts(book)
    row = [one.sheet for one in cut or []]
    steps = list(zip(row, row[1:]))
    desks = any(a.desks != b.desks for a, b in steps)
    cells = any(a.cells != b.cells for a, b in steps)
    off = [b.turn - a.turn for a, b in steps if b.turn != a.turn + 1]
    numbers = off if not desks and not cells else []
    anywhere = {
        'a sheet not good': cut is None,
        'only desks differ': desks and not cells and not off,
        'only cells differ': cells and not desks and not off,
        'only numbers skip': numbers != [] and min(numbers) > 1,
        'only numbers stay': numbers != [] and set(numbers) == {0},
    }
    behind = behind_wrong(book) if True in anywhere.values() else 0
    in_front = {f'{name}, more than {most} sheets behind': wrong and behind > most
                for name, wrong in anywhere.items() for most in FAR}
    return {
        **anywhere, **in_front,
        'only numbers fall': numbers != [] and max(numbers) < 0 and min(numbers) > -GREATEST,
        'only numbers go on at 0': numbers == [-GREATEST],
    }


def of_good_book(book):
    row = [one.sheet for one in books.parts(book) or []] if books.is_good(book) else []
    sizes = [len(sheet.entries) for sheet in row]
    first = row[0] if row else sheets.Sheet(0, 0, 0, -1, [])
    return {
        'good, no sheet': book == b'',
        'good, 1 sheet': len(row) == 1,
        'good, 12 sheets': len(row) == 12,
        'good, more than 255 sheets': len(row) > 255,
        'good, more than 65,535 bytes': row != [] and len(book) > BITS_16,
        'good from number 0': first.turn == 0,
        'good from another number': first.turn > 0,
        'good up to the greatest number': row != [] and row[-1].turn == GREATEST,
        'good, 1 desk': first.desks == 1,
        'good, 16 desks': first.desks == 16,
        'good, 1 cell': first.cells == 1,
        'good, 64 cells': first.cells == 64,
        'good, with an empty sheet': 0 in sizes,
        'good, with a sheet of 64 entries': 64 in sizes,
    }


def of_count(call, said):
    """`c`"""
    return {**of_wrong_book(call.book), **of_good_book(call.book)}


def of_lookup(call, said):
    """`l`"""
    word, *numbers = said[0].split()
    found = word in ('open', 'day')
    row = [one.sheet.turn for one in books.sheets_of(call.book)] if found else [None]
    turn, newest = int(numbers[-1]) if found else None, row[-1]
    older, newer = (turn - row[0], newest - turn) if found else (0, 0)
    return {
        'refused 23': said == REFUSED_23,
        'refused 23, and no shelf has the cell': said == REFUSED_23 and call.number >= 64,
        **refused_far(said == REFUSED_23, call.book),
        'refused 6': said == ['refused 6'] and call.book != b'',
        'refused 6, a cell below 64': said == ['refused 6'] and call.number < 64,
        'refused 6, no sheet': said == ['refused 6'] and call.book == b'',
        'blank': word == 'blank' and call.book != b'',
        'blank, no sheet': word == 'blank' and call.book == b'',
        'open': word == 'open',
        'day': word == 'day',
        'day below 0': word == 'day' and numbers[0][0] == '-',
        'day 0': word == 'day' and numbers[0] == '0',
        'of the newest sheet': found and turn == newest,
        'of an older sheet': found and turn != newest,
        'of number 0': turn == 0,
        'of the greatest number': turn == GREATEST,
        **{f'of a sheet with {before} before it and more than {most} behind it':
           older == before and newer > most for before in range(4) for most in FAR},
    }


def of_step(call, said):
    """`b`"""
    none, size = said == ['none'], len(call.book)
    good, cut = books.is_good(call.book), books.parts(call.book) or ()
    ends = [one.end for one in cut]
    start = size if none else int(said[0].split()[0])
    inside = any(one.start < start and call.number < one.end for one in cut)
    other = not none and good and call.number not in ends
    far = BITS_16 < call.number < size
    return {
        'the last sheet of a good book': not none and good and call.number == size,
        'another sheet of a good book': not none and good and call.number in ends[:-1],
        'a sheet inside a sheet of a good book': other and inside,
        'a sheet across two of a good book': other and not inside,
        'a sheet of a book not good': not none and not good,
        'none at the front': none and call.number == 0,
        'none inside': none and 0 < call.number < size,
        'none at the end': none and 0 < call.number == size,
        'none beyond the book': none and call.number > size,
        'none beyond 64 bits less a sheet': none and call.number >= 2**64 - 12,
        'a sheet of a good book, beyond 65,535 and inside': not none and good and far,
        'a sheet of a book not good, beyond 65,535 and inside': not none and not good and far,
        'none beyond 65,535 and inside': none and far,
    }


def of_adding(call, said):
    """`a`"""
    answer = ' '.join(said[0].split(' ')[:-1])
    room, length, size = len(call.book), call.number, len(call.sheet)
    added = answer.startswith('added')
    refused_23, beyond = answer == 'refused 23', length > room
    before = call.book[:length]
    fits = refused_23 and not beyond and books.is_good(before)
    last = books.sheets_of(before)[-1].sheet if fits else sheets.Sheet(0, 0, 0, 0, [])
    sheet = sheets.read(call.sheet) or last
    follows = sheet.turn == last.turn + 1
    left = call.book[length + size:] if added else b''
    return {
        'added to no bytes': added and length == 0,
        'added to some bytes': added and length > 0,
        **{f'added, more than {most} sheets before it': added and length > 12 * most
           and len(books.sheets_of(before)) > most for most in FAR},
        'added, no byte left': added and length + size == room,
        'added, bytes left': added and length + size < room,
        **{f'added, {most} bytes left, the last {what}': len(left) == most and is_so(left[-1])
           for most in (41, 100, 400) for what, is_so in LEFT.items()},
        'refused 13': answer == 'refused 13' and not beyond and size > 0,
        'refused 13, no bytes': answer == 'refused 13' and size == 0,
        'refused 13 before 23': answer == 'refused 13' and beyond,
        'refused 23, length beyond the room': refused_23 and beyond,
        'refused 23, length near 64 bits': refused_23 and length > 2**64 - 400,
        'refused 23, book not good': refused_23 and not beyond and not fits,
        **refused_far(refused_23 and not beyond, before + call.sheet),
        'refused 23, only desks differ': fits and follows and sheet.cells == last.cells,
        'refused 23, only cells differ': fits and follows and sheet.desks == last.desks,
        'refused 23, only the number': fits and not follows
        and (sheet.desks, sheet.cells) == (last.desks, last.cells),
        'refused 23 before 11': refused_23 and not beyond and room - length < size,
        'refused 11': answer == 'refused 11' and room > length,
        'refused 11, one byte short': answer == 'refused 11' and room - length == size - 1,
        'refused 11, no byte of room': answer == 'refused 11' and room == 0,
    }


BY_LETTER = {'s': of_sheets, 'c': of_count, 'l': of_lookup, 'b': of_step, 'a': of_adding}


def seen_in(call, said):
    """All that calls of this letter can show, with 1 for what this one shows and 0 for the rest."""
    shown = BY_LETTER[call.letter](call, said)
    return {f'{call.letter}: {name}': int(seen) for name, seen in shown.items()}


def nothing():
    """All that calls can show, each with 0."""
    calls = [books.Call(letter, b'') for letter in BY_LETTER]
    return {name: 0 for call in calls for name in seen_in(call, books.lines(call))}
