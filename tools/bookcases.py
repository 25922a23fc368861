"""Calls of ./register book for tools/try-register: the files, and calls that look and that add.

The sheets are those of two desks and two cells: document 01's example 1, and empty ones.
"""
from knownbooks import E1, OPENS, empty

ANSWER, REFUSAL, NEITHER = 0, 1, 2
MOST = 524_288  # bytes of a book in a file
FULL = b''.join(empty(turn) for turn in range(MOST // 12))
OWN = {
    'no sheets': b'',
    'one': E1,
    'two sheets': E1 + empty(1),
    'skipped': E1 + empty(2),
    'opens': OPENS,
    'sheet 1': empty(1),
    'sheet 2': empty(2),
    'cut sheet': empty(1)[:-1],
    'two in one': empty(1) + empty(2),
    'full': FULL,
    'too much': FULL + bytes(MOST - len(FULL) + 1),
    'next': empty(MOST // 12),
    'long sheet': bytes(1000),
}
USE = './register book'
ROOM_OF_ONE = str(len(E1) + 12)

# What is called; the exit status; standard output, whole; what stands on standard error, each of
# them, or nothing at all there.
LOOKING = [
    (['sheets', 'no sheets'], ANSWER, b'', []),
    (['sheets', 'one'], ANSWER, b'0 18 0 0 1\n', []),
    (['sheets', 'two sheets'], ANSWER, b'18 30 1 1 0\n0 18 0 0 1\n', []),
    (['sheets', 'opens'], ANSWER, b'0 30 0 0 3\n', []),
    (['sheets', 'skipped'], REFUSAL, b'refused 23\n', ['refused 23: ', 'book back']),
    (['lookup', 'no sheets', '0'], ANSWER, b'blank\n', []),
    (['lookup', 'no sheets', '63'], ANSWER, b'blank\n', []),
    (['lookup', 'no sheets', '64'], REFUSAL, b'refused 6\n', ['refused 6: ']),
    (['lookup', 'two sheets', '1'], ANSWER, b'day 0 0\n', []),
    (['lookup', 'two sheets', '0'], ANSWER, b'blank\n', []),
    (['lookup', 'opens', '2'], ANSWER, b'open 0\n', []),
    (['lookup', 'two sheets', '2'], REFUSAL, b'refused 6\n', ['refused 6: ']),
    # Beyond what one byte can count, and what 32 bits can.
    (['lookup', 'two sheets', '256'], REFUSAL, b'refused 6\n', ['refused 6: ']),
    (['lookup', 'two sheets', '257'], REFUSAL, b'refused 6\n', ['refused 6: ']),
    (['lookup', 'two sheets', '4294967296'], REFUSAL, b'refused 6\n', ['refused 6: ']),
    (['lookup', 'skipped', '99'], REFUSAL, b'refused 23\n', ['refused 23: ', 'book back']),
    (['back', 'two sheets', '30'], ANSWER, b'18 30\n', []),
    (['back', 'two sheets', '18'], ANSWER, b'0 18\n', []),
    (['back', 'two sheets', '0'], ANSWER, b'none\n', []),
    (['back', 'two sheets', '31'], ANSWER, b'none\n', []),
    (['back', 'two sheets', '18446744073709551616'], ANSWER, b'none\n', []),
    (['back', 'opens', '14'], ANSWER, b'2 14\n', []),
    (['back', 'skipped', '30'], ANSWER, b'18 30\n', []),
    (['lookup', 'full', '0'], ANSWER, b'blank\n', []),
    (['lookup', 'too much', '0'], NEITHER, b'', ['524,288 bytes']),
    ([], NEITHER, b'', ['What is wanted', f'{USE} sheets BOOK', f'{USE} add']),
    (['list', 'one'], NEITHER, b'', ["no word 'list'", f'{USE} sheets BOOK']),
    (['sheets'], NEITHER, b'', [f'{USE} sheets BOOK']),
    (['sheets', 'one', 'two sheets'], NEITHER, b'', [f'{USE} sheets BOOK']),
    (['sheets', 'none'], NEITHER, b'', ["no file 'none'"]),
    (['sheets', '.'], NEITHER, b'', ["'.' is a folder"]),
    (['lookup', 'one', '01'], NEITHER, b'', ["'01' is none"]),
    (['lookup', 'one', '-1'], NEITHER, b'', ["'-1' is none"]),
    (['back', 'one', 'end'], NEITHER, b'', ["'end' is none"]),
    (['add', 'one', 'sheet 1'], NEITHER, b'', [f'{USE} add BOOK SHEET ROOM']),
    (['add', 'one', 'sheet 1', 'much'], NEITHER, b'', ["'much' is none"]),
    (['add', 'none', 'sheet 1', '99'], NEITHER, b'', ["no book 'none'", ': > none']),
    (['add', 'one', 'none', '99'], NEITHER, b'', ["no file 'none'"]),
    (['add', '.', 'sheet 1', '99'], NEITHER, b'', ["'.' is a folder"]),
    (['add', '/dev/null', 'sheet 1', '99'], NEITHER, b'', ['no plain file']),
]

# What is added to which book with how much room; the exit status; standard output; the book
# afterwards.
ADDING = [
    ('one', 'sheet 1', ROOM_OF_ONE, ANSWER, b'added 30\n', E1 + empty(1)),
    ('one', 'sheet 1', '30', REFUSAL, b'refused 23\n', E1 + empty(1)),
    ('one', 'sheet 2', '41', REFUSAL, b'refused 11\n', E1 + empty(1)),
    ('one', 'sheet 1', '41', REFUSAL, b'refused 23\n', E1 + empty(1)),
    ('one', 'cut sheet', '1', REFUSAL, b'refused 13\n', E1 + empty(1)),
    ('one', 'sheet 2', '29', REFUSAL, b'refused 23\n', E1 + empty(1)),
    ('one', 'two in one', '99', REFUSAL, b'refused 13\n', E1 + empty(1)),
    ('one', 'long sheet', '99', REFUSAL, b'refused 13\n', E1 + empty(1)),
    ('one', 'sheet 2', '18446744073709551616', ANSWER, b'added 42\n', E1 + empty(1) + empty(2)),
    ('no sheets', 'sheet 2', '12', ANSWER, b'added 12\n', empty(2)),
    ('skipped', 'sheet 1', '99', REFUSAL, b'refused 23\n', OWN['skipped']),
    ('full', 'next', '999999', NEITHER, b'', FULL),
]
