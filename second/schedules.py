"""Random schedules for the program `rounds`, of four kinds: rings that keep turning, chaotic, damaged, and long ones.

`made(seed, k)` is schedule number k of a seed, with its kind: the same one each time. Nothing here knows what `rounds` must
say of a schedule; a ring knows turn numbers only, so that its steps keep the sheets going round.
"""

import itertools
import random
import re

MODES = b"s s c k -".split()
DAY_ENDS = [b"-2147483648", b"-2147483647", b"-1", b"0", b"1", b"2147483646", b"2147483647"]


def text_of(first, steps):
    """A schedule: its first line and its steps, each ended by a line feed."""
    return b"".join(line + b"\n" for line in [first, *steps])


def numbered(letter, *numbers):
    return letter + b"".join(b" %d" % value for value in numbers)


# What a schedule writes, and where.


def some_desks(rng):
    return rng.choice([1, 2, 2, 2, 3, 3, 3, 4, 5, 16, rng.randint(1, 16), rng.randint(1, 16)])


def some_cells(rng):
    return rng.choice([1, 2, 3, 4, 64, rng.randint(1, 64), rng.randint(1, 64)])


def some_content(rng):
    draw = rng.random()
    if draw < 0.2:
        return b"open"
    if draw < 0.35:
        return rng.choice(DAY_ENDS)
    # A few days that come again and again, and days that tell the writes apart.
    return b"%d" % (rng.randint(-3, 3) if draw < 0.5 else rng.randint(-30_000, 90_000))


# a. Rings that keep turning.


class Ring:
    """The steps of desks that write, read, send, are given sheets and take them, without end.

    It keeps every desk's turn number, the sheets that lie at each desk, and those that are still on the line.
    """

    def __init__(self, rng, n, m, use=None, bulk=0.0):
        self.rng, self.n, self.m = rng, n, m
        self.turn = [0] * n
        self.held = [set() for _ in range(n)]
        self.line = []
        # A few cells are used most, so that desks meet in them; now and then all are.
        self.hot = rng.sample(range(m), min(m, rng.choice([1, 2, 2, 3, 4, 64])))
        # How much of the schedule is writes and reads, and how much is steps that may well be refused.
        self.use, self.odd = use or rng.choice([0.15, 0.3, 0.45, 0.6]), rng.choice([0.0, 0.05, 0.2])
        # How often a desk fills its shelf, for long sheets.
        self.bulk = bulk
        self.reads = rng.choice([0.2, 0.5, 0.8])
        # What goes first: with these weights the line is quick in one schedule and holds many sheets in another.
        self.weights = {kind: rng.choice([1, 1, 5, 100]) for kind in "sdt"}
        self.in_order = rng.random() < 0.4

    def steps(self):
        while True:
            draw = self.rng.random()
            if draw < self.bulk:
                yield from self.filled()
            elif draw < self.use:
                yield self.used()
            elif draw < self.use + self.odd:
                yield self.odd_step()
            else:
                yield self.moved()

    def some_cell(self):
        return self.rng.choice(self.hot) if self.rng.random() < 0.9 else self.rng.randrange(self.m)

    def used(self):
        desk = self.rng.randrange(self.n)
        if self.rng.random() < self.reads:
            return numbered(b"r", desk, self.some_cell())
        return numbered(b"w", desk, self.some_cell()) + b" " + some_content(self.rng)

    def filled(self):
        """A desk writes most cells or all, which makes its next sheet a long one."""
        desk = self.rng.randrange(self.n)
        for cell in self.rng.sample(range(self.m), max(1, self.m - self.rng.choice([0, 0, 1, 20]))):
            yield numbered(b"w", desk, cell) + b" " + some_content(self.rng)

    def moved(self):
        """A send, a delivery or a take that is not refused: one of them is always there."""
        ready = {"s": self.senders(), "d": self.line, "t": self.takers()}
        kinds = [kind for kind in "sdt" if ready[kind]]
        kind = self.rng.choices(kinds, [self.weights[kind] for kind in kinds])[0]
        if kind == "d":
            return self.deliver(0 if self.in_order else self.rng.randrange(len(self.line)))
        desk = self.rng.choice(ready[kind])
        return self.send(desk) if kind == "s" else self.take(desk)

    def odd_step(self):
        """A sheet that goes again, or a send or a take at a desk that may not be ready."""
        desk, other = self.rng.randrange(self.n), self.rng.randrange(self.n)
        kind = self.rng.choice("sddt")
        if kind == "s":
            return self.send(desk) if desk in self.senders() else numbered(b"s", desk)
        if kind == "t":
            return self.take(desk) if desk in self.takers() else numbered(b"t", desk)
        if (desk, other) in self.line:
            return self.deliver(self.line.index((desk, other)))
        return numbered(b"d", desk, other)

    def senders(self):
        return [desk for desk in range(self.n) if self.turn[desk] % self.n == desk]

    def takers(self):
        return [desk for desk in range(self.n) if self.turn[desk] % self.n in self.held[desk]]

    def send(self, desk):
        self.turn[desk] += 1
        self.line += [(desk, other) for other in range(self.n) if other != desk]
        return numbered(b"s", desk)

    def deliver(self, place):
        sender, desk = self.line.pop(place)
        self.held[desk].add(sender)
        return numbered(b"d", sender, desk)

    def take(self, desk):
        self.held[desk].remove(self.turn[desk] % self.n)
        self.turn[desk] += 1
        return numbered(b"t", desk)

    def last_reads(self):
        """What every desk has in the cells that were used most."""
        return [numbered(b"r", desk, cell) for desk in range(self.n) for cell in sorted(self.hot)[:4]]


def ring_of(rng, n, m, count, **how):
    """A ring's schedule with so many steps, and the last reads; the text stays within the limits."""
    ring = Ring(rng, n, m, **how)
    last = ring.last_reads()
    steps = list(itertools.islice(ring.steps(), count))
    first = b"%d %d %s" % (n, m, rng.choice(MODES))
    while len(steps) + len(last) > 1_000 or len(text_of(first, steps + last)) > 16_384:
        del steps[-max(1, len(steps) // 10) :]
    return text_of(first, steps + last)


def ring(rng, turn):
    if turn % 10 == 0:
        # Two desks and many steps: turn numbers go past a byte.
        return ring_of(rng, 2, some_cells(rng), 990, use=rng.choice([0.04, 0.08]))
    if turn % 10 == 5:
        # Full shelves: a sheet's distance goes past a byte.
        return ring_of(rng, rng.randint(2, 3), 64, 300, bulk=0.02)
    if turn % 10 == 3:
        # Many desks, and steps enough for a round.
        return ring_of(rng, rng.choice([8, 15, 16, 16]), some_cells(rng), 900, use=rng.choice([0.05, 0.2]))
    n = some_desks(rng)
    count = rng.choice([30, 60, 100, 100, 200]) if n < 5 else rng.choice([100, 200, 400])
    return ring_of(rng, n, some_cells(rng), count)


# b. Chaotic schedules.


def any_cell(rng, m):
    edge = rng.choice([m - 1, m, 63, 64, 4_294_967_295])
    return rng.choice([rng.randrange(min(m, 2)), rng.randrange(min(m, 3)), rng.randrange(m), edge])


def any_step(rng, n, m):
    desk, other = rng.randrange(n), rng.randrange(n)
    letter = rng.choice(b"w w w r r r s s d d d t t".split())
    if letter == b"w":
        return numbered(letter, desk, any_cell(rng, m)) + b" " + some_content(rng)
    if letter == b"r":
        return numbered(letter, desk, any_cell(rng, m))
    return numbered(letter, desk, other) if letter == b"d" else numbered(letter, desk)


def chaotic(rng, turn):
    n, m = rng.choice([1, 2, 2, 2, 2, 3, 3, 4, rng.randint(1, 16)]), some_cells(rng)
    steps = [any_step(rng, n, m) for _ in range(rng.choice([10, 40, 100, 200]))]
    if turn % 8 == 0:
        # A number that no step may have, somewhere: a desk that is not there, or one beyond 32 bits.
        wild = numbered(rng.choice([b"w", b"r", b"s", b"d", b"t"]), rng.choice([n, n + 1, 16, 4_294_967_295, 4_294_967_296]))
        steps.insert(rng.randint(0, len(steps)), wild + rng.choice([b"", b" 0", b" 0 0"]))
    return text_of(b"%d %d %s" % (n, m, rng.choice(MODES)), steps)


# c. Damaged schedules: a short ring's, with something of another form in it.

ODD_WORDS = (
    b"-0 00 01 007 -01 -00 +1 +0 - -- --1 1- 1_0 1e0 0x1 1.0 1, #1 a open Open OPEN opens ope open\t open\r blank \xc2\xb2 \xb2 "
    b"\xd9\xa3 \xef\xbc\x91 1\x00 \x001 -1 -2 255 256 257 65536 4294967294 4294967295 4294967296 4294967297 8589934592 2147483646 "
    b"2147483647 2147483648 -2147483647 -2147483648 -2147483649 -4294967295 -4294967296 -4294967297 9999999999 10000000000 "
    b"18446744073709551615 18446744073709551616 18446744073709551617 36893488147419103232 -18446744073709551616 "
    b"340282366920938463463374607431768211456 99999999999999999999 100000000000000000000000000000000"
).split(b" ")
ODD_BYTES = [b" ", b"\t", b"\r", b"\n", b"\x00", b"\x0b", b"\x0c", b"\x7f", b"\x80", b"\xa0", b"\xff", b"0", b"-", b"+", b"_", b"/", b":", b"#"]
ODD_LETTERS = [b"w", b"r", b"s", b"d", b"t", b"W", b"R", b"S", b"D", b"T", b"x", b"ss", b"wr", b"", b"0", b"-", b"c", b"k"]

# Steps with something odd in them: as what a write writes, as a cell and as a desk, and other odd lines.
CELL_FORMS = [b"w 0 ? 5", b"r 0 ?"]
DESK_FORMS = [b"w ? 0 5", b"r ? 0", b"s ?", b"t ?", b"d ? 0", b"d 0 ?"]
ODD_LINES = [b"w 0 0 " + word for word in ODD_WORDS]
ODD_LINES += [CELL_FORMS[k % 2].replace(b"?", word) for k, word in enumerate(ODD_WORDS)]
ODD_LINES += [DESK_FORMS[k % 6].replace(b"?", word) for k, word in enumerate(ODD_WORDS)]
ODD_LINES += b"W 0 0 5/R 0 0/S 0/D 0 0/T 0/x 0/ss 0/ s 0/s 0 /s  0/s\t0/s 0\t/s 0\r/s 0\x00//s/s /w 0 0/w 0 0 /w 0 0 5 5/r 0".split(b"/")
ODD_LINES += b"r 0 0 0/d 0/d 0 0 0/t/t 0 0/s 0 0/0 s/s0/# s 0/w 0 0 open open/w 0 0 day 5/w 0 0 blank/w 0 0 -\x002/-/- 0/\xff".split(b"/")

# First lines: the limits, those with an odd word, and other odd ones.
LIMITS = b"0 2 c/1 1 s/16 2 k/17 2 c/18 2 s/2 0 c/2 64 s/2 65 c/2 66 k/16 64 -/17 65 c/0 0 s/272 2 c/2 320 c".split(b"/")
FIRST_LINES = [*LIMITS, *[[word + b" 2 c", b"2 " + word + b" c"][k % 2] for k, word in enumerate(ODD_WORDS)], *LIMITS]
FIRST_LINES += [b"2 2 " + word for word in b"-/S/C/K/x/sc/--/ss//0/1/2/s /s x/ s/c\r/c\t/c\x00/\xff/w".split(b"/")]
FIRST_LINES += b"/ /2/2 2/c 2 2/2 c 2/2 2c/22 c/ 2 2 c/2  2 c/2\t2 c/2 2\tc/\xef\xbb\xbf2 2 c/desks 2 cells 2 mode c".split(b"/")


def odd_line(rng, text, turn):
    """An odd step put in somewhere: they come in turn."""
    lines = text.split(b"\n")
    lines.insert(rng.randrange(1, len(lines)), ODD_LINES[turn % len(ODD_LINES)])
    return b"\n".join(lines)


def odd_first(text, turn):
    """Another first line: they come in turn."""
    return FIRST_LINES[turn % len(FIRST_LINES)] + b"\n" + text.partition(b"\n")[2]


def spliced(text, start, end, put):
    return text[:start] + put + text[end:]


def byte_hurt(rng, text):
    """One byte changed, dropped, doubled, or another put before it."""
    place = rng.randrange(len(text))
    here = text[place : place + 1]
    other = rng.choice([rng.choice(ODD_BYTES), bytes([rng.randrange(256)]), bytes([here[0] ^ 1 << rng.randrange(8)])])
    return spliced(text, place, place + 1, rng.choice([other, b"", here + here, other + here]))


def put_for(rng, text, wanted, puts):
    """One of these in place of a word of this pattern, if there is one."""
    found = [place.span() for place in re.finditer(wanted, text)]
    return spliced(text, *rng.choice(found), rng.choice(puts)) if found else text


def word_odd(rng, text):
    return put_for(rng, text, rb"(?<= )[^ \n]+", ODD_WORDS)


def letter_odd(rng, text):
    return put_for(rng, text, rb"(?<=\n)[a-z]", ODD_LETTERS)


def number_odd(rng, text):
    """A number that is right again if only its low bits are looked at; or one with another sign or digit."""
    found = re.findall(rb"(?<= )-?\d{1,10}(?![^ \n])", text)
    if not found:
        return text
    old = rng.choice(found)
    more = int(old) + rng.choice([1 << 32, 2 << 32, 1 << 64, 3 << 64, 1 << 128, -1 << 32, -1 << 64, 256, 65_536])
    return put_for(rng, text, rb"(?<= )" + old + rb"(?![^ \n])", [b"%d" % more, b"%d" % more, b"0" + old, b"-" + old, b"+" + old, old + b"0"])


def space_odd(rng, text):
    return put_for(rng, text, rb" ", [b"  ", b"\t", b" \t", b"\xa0", b"\xc2\xa0", b"\x00", b"", b"\n", b","])


def line_begun_oddly(rng, text):
    return put_for(rng, text, rb"(?<=\n)(?=.)", [b" ", b"\t", b"\n", b"\x00", b"# "])


def line_ended_oddly(rng, text):
    return put_for(rng, text, rb"\n", [b" \n", b"\t\n", b"\r\n", b"\r", b"\n\r", b"\n\n", b"\n \n", b"\x00\n", b";\n", b""])


def word_gone(rng, text):
    return put_for(rng, text, rb" [^ \n]+", [b""])


def word_more(rng, text):
    return put_for(rng, text, rb"\n", [b" 0\n", b" open\n", b" s\n", b" 0 0\n"])


def no_such_desk(rng, text):
    first = re.match(rb"\d{1,2}(?= )", text)
    n = int(first[0]) if first else 2
    return put_for(rng, text, rb"(?<=\n[wrsdt] )\d+|(?<=\nd . )\d+", [b"%d" % n, b"%d" % n, b"%d" % (n + 1), b"16", b"255", b"256"])


def unended(rng, text):
    return text[:-1]


def end_odd(rng, text):
    """More after the last line feed, or hardly anything left."""
    more = rng.choice([b"\n", b" ", b"r", b"r 0 0", b"s 0", b"\x00", b"\x1a", b"\r\n", b"# end\n"])
    return rng.choice([text + more, text + more, text[: rng.randrange(len(text))], b"", b"\n", b"\n" + text, b" "])


INJURIES = [byte_hurt, word_odd, letter_odd, number_odd, space_odd, line_begun_oddly, line_ended_oddly, word_gone, word_more]
INJURIES += [no_such_desk, unended, end_odd, byte_hurt, number_odd, line_ended_oddly]


def damaged(rng, turn):
    """Of six on end, three have an odd step, one an odd first line and two an injury, which come in turn; now and then one more."""
    text = ring_of(rng, rng.randint(1, 3), rng.choice([1, 2, 64]), rng.choice([3, 8, 20]))
    six, which = divmod(turn, 6)
    if which < 3:
        text = odd_line(rng, text, 3 * six + which)
    elif which == 3:
        text = odd_first(text, six)
    else:
        text = INJURIES[(2 * six + which - 4) % len(INJURIES)](rng, text)
    return rng.choice(INJURIES)(rng, text) if text and rng.random() < 0.2 else text


# d. Long schedules, at the limits.


def write_of_length(rng, length):
    """A write with so many bytes, line feed and all: 10 to 20."""
    digits = length - 9
    if digits >= 10:
        day = b"-" * (digits - 10) + b"%d" % rng.randint(1_000_000_000, 2_147_483_647)
    else:
        day = b"%d" % rng.randrange(10 ** (digits - 1), 10**digits)
    return b"w %d %d %s" % (rng.randint(10, 15), rng.randint(10, 64), day)


def of_bytes(rng, size):
    """A schedule of just so many bytes: writes, and here and there another step."""
    first = b"16 64 %s" % rng.choice(MODES)
    steps, left = [], size - len(first) - 1
    while left > 60:
        step = any_step(rng, 16, 64) if rng.random() < 0.05 else write_of_length(rng, rng.randint(17, 20))
        steps.append(step)
        left -= len(step) + 1
    while left:
        length = left if left <= 20 else min(20, left - 10)
        steps.append(write_of_length(rng, length))
        left -= length
    return text_of(first, steps)


def of_steps(rng, count):
    """A schedule of just so many steps, and well below the bytes allowed."""
    n, m = rng.choice([1, 2, 3, 9]), rng.choice([1, 2, 9])
    return text_of(b"%d %d %s" % (n, m, rng.choice(MODES)), itertools.islice(Ring(rng, n, m).steps(), count))


def empty_lines(rng, count):
    """So many steps, all of them empty lines; the first line is good or not."""
    return rng.choice([b"", b"1 1 c", b"2 2 s", b"0 0 c"]) + b"\n" * (count + 1)


def digits(rng, size):
    """A number of so many digits that the schedule has just so many bytes, in the first line or in a step."""
    before, after = rng.choice([(b"", b" 1 c\n"), (b"1 ", b" c\n"), (b"1 1 c\nw 0 0 ", b"\n"), (b"1 1 c\nr 0 ", b"\ns 0\n"), (b"1 1 c\ns ", b"\n")])
    digit = rng.choice([b"0", b"1", b"9"])
    return before + digit * (size - len(before) - len(after)) + after


def far_too_long(rng, size):
    """More than a line carries at once."""
    return of_bytes(rng, size) * rng.choice([2, 5, 20])


WAYS = [(of_steps, 1_000), (of_bytes, 16_384), (empty_lines, 1_000), (of_steps, 1_000), (digits, 16_384), (of_bytes, 16_384), (far_too_long, 16_384)]


def long(rng, turn):
    """One below the limit, the limit and one above it come in turn, and each with four ends and heads."""
    way, limit = WAYS[turn // 12 % len(WAYS)]
    text = way(rng, limit + turn % 3 - 1)
    other = rng.choice([b"x", b"-", b"0"])
    return [text, text[:-1], text + other, other + text[1:]][turn // 3 % 4]


KINDS = [ring] * 5 + [chaotic] * 3 + [damaged] * 11 + [long]


def made(seed, k):
    """Schedule number k of this seed, and the name of its kind: of 20 on end, 5 are rings and 1 is long."""
    kind = KINDS[k % len(KINDS)]
    turn = k // len(KINDS) * KINDS.count(kind) + k % len(KINDS) - KINDS.index(kind)
    return kind.__name__, kind(random.Random(f"{seed} {k}"), turn)
