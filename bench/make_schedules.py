#!/usr/bin/env python3
"""Writes the three schedules that bench/run counts: bench/schedules/sequential.txt, causal.txt and cache.txt.

bench/make_schedules.py
Each has 1,000 steps at 16 desks with 64 cells, the most that document 01 allows, and one mode. They come from a fixed seed, and every
draw from `random()`, which Python keeps the same from version to version: running this again writes the same files. Change them only
on purpose, since figures of other schedules cannot be held against those in docs/SPEED.md.

A schedule is a ring that keeps turning. At most turns two or three desks write a few cells and look some up; now and then a desk
fills a whole run of cells, as after a delivery of licence files. The desk whose turn it is sends; most of the others get the sheet and take
it at once, some are behind and catch up later, out of order. A step in a hundred or so is refused.
"""
import pathlib
import random

FOLDER = pathlib.Path(__file__).resolve().parent / 'schedules'
SEED = 1
DESKS, CELLS, STEPS = 16, 64, 1_000
MOST_BYTES = 16_384  # "Standard input, 16,384 bytes and 1,000 steps (lines after the first) at most"
MODES = [('sequential', 's'), ('causal', 'c'), ('cache', 'k')]


class Ring:
    """The steps so far, and what of the desks has to be known for nearly every step to be carried out."""

    def __init__(self, letter, seed):
        self.rng = random.Random(seed)
        self.strict = letter == 's'
        self.lines = [f'{DESKS} {CELLS} {letter}']
        self.sent = 0  # sheets sent so far: also the number of the next turn
        self.turn = [0] * DESKS
        self.pending = [set() for _ in range(DESKS)]
        self.waits = [False] * DESKS

    # Draws.

    def below(self, limit):
        return int(self.rng.random() * limit)

    def chance(self, part):
        return self.rng.random() < part

    def shuffled(self, row):
        return sorted(row, key=lambda _: self.rng.random())

    # Steps.

    def write(self, desk, cell):
        day = self.below(6_000) + 19_000
        if self.chance(0.1):
            day = -1 - self.below(15_000)
        word = 'open' if self.chance(0.15) else day
        self.lines.append(f'w {desk} {cell} {word}')
        self.pending[desk].add(cell)

    def read(self, desk, cell):
        self.lines.append(f'r {desk} {cell}')
        elsewhere = self.turn[desk] % DESKS != desk
        self.waits[desk] = self.strict and elsewhere and bool(self.pending[desk]) and cell not in self.pending[desk]

    def send(self):
        desk = self.sent % DESKS
        self.lines.append(f's {desk}')
        self.pending[desk] = set()
        self.sent += 1
        self.turn[desk] += 1

    def catch_up(self, desks):
        """Each of these desks gets the sheets that it has not taken, in any order, and takes them. The line may repeat one (18)."""
        for desk in desks:
            for number in self.shuffled(range(self.turn[desk], self.sent)):
                times = 2 if self.chance(0.01) else 1
                self.lines += [f'd {number % DESKS} {desk}'] * times
        for desk in desks:
            for _ in range(self.turn[desk], self.sent):
                self.lines.append(f't {desk}')
            self.turn[desk] = self.sent
            self.waits[desk] = self.waits[desk] and self.sent % DESKS != desk

    # A turn.

    def look_up(self, desk):
        """A read. In sequential mode most are of a pending cell, if there is one: else nearly every desk would soon wait."""
        own = sorted(self.pending[desk])
        if self.strict and own and not self.chance(0.3):
            self.read(desk, own[self.below(len(own))])
        else:
            self.read(desk, self.below(CELLS))

    def work(self):
        """At two or three desks at which no read waits: a few writes, a few reads. At times one desk writes many cells in a row."""
        free = self.shuffled([desk for desk in range(DESKS) if not self.waits[desk]])
        for desk in free[:2 + self.below(2)]:
            for _ in range(1 + self.below(4)):
                self.write(desk, self.below(CELLS))
            for _ in range(1 + self.below(3)):
                if not self.waits[desk]:
                    self.look_up(desk)
        if free and self.sent % 6 == 2:
            first, count = self.below(CELLS // 2), 12 + self.below(20)
            for cell in range(first, first + count):
                self.write(free[-1], cell)

    def slip(self):
        """One step that is refused. The desk whose turn it is has taken every sheet by now, so the last one, repeated, gets 16."""
        desk, last = self.sent % DESKS, (self.sent - 1) % DESKS
        other = (desk + 1 + self.below(DESKS - 1)) % DESKS
        row = [f's {other}', f'r {desk} {CELLS}', f't {desk}', f't {other}', f'd {last} {desk}']  # 9, 6, 19, 20, 16
        self.lines.append(row[self.below(len(row))])

    def play_turn(self):
        self.work()
        self.catch_up([self.sent % DESKS])
        if self.sent and self.chance(0.4):
            self.slip()
        self.send()
        self.catch_up(self.shuffled([desk for desk in range(DESKS) if self.turn[desk] < self.sent and self.chance(0.75)]))


def schedule(letter, seed):
    ring = Ring(letter, seed)
    while len(ring.lines) <= STEPS:
        ring.play_turn()
    return ''.join(f'{line}\n' for line in ring.lines[:1 + STEPS])


def main():
    FOLDER.mkdir(exist_ok=True)
    for k, (name, letter) in enumerate(MODES):
        text = schedule(letter, SEED + k)
        if len(text) > MOST_BYTES:
            raise SystemExit(f'{name}: {len(text)} bytes, and `rounds` reads {MOST_BYTES}: write shorter days.')
        (FOLDER / f'{name}.txt').write_text(text)
        print(f'bench/schedules/{name}.txt: {STEPS} steps, {len(text)} bytes')


main()
