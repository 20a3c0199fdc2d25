"""Holds the calls of libwivakkol_pace.a against a model over lent.py: paced turns, lists and rounds, refused ones included, openings of a pace, turns counted and none refused, on runs and paces as they
are begun and on damaged ones. Answers, rows, who may go on, the least b kept, every byte of the run and of the pace, and the stack that a paced call uses; the header with the source.

The model (pace.py) works on the pace's numbers as specs/Pace has them. Where a pace was begun and not damaged, it is held against the rule itself by brute force: every stretch of the row after a turn of a
worker, up to its next, counted (document 01, "b"): a worker may have a turn exactly where the row with it keeps b, somebody always may, and the least b kept is the row's.

Usage: pace_calls.py [COUNT]; wants target/staticlib/libwivakkol_pace.a and libwivakkol.a (python3 tools/dist.py archive).
"""
import collections
import pathlib
import random
import struct
import subprocess
import sys
import tempfile

import board
import lent
from differential import beginning, order, run_table
from lent import FINISHED, NO_ROW, SPENT
from machine import ENDED, LAST_TURN
from marks_calls import E
from pace import AFTER, B, KEPT, LAST, NUMBERS, P, Pace
from reference import Table

ROOT = pathlib.Path(__file__).resolve().parent.parent
UNTOUCHED = [0xa5a5a5a5a5a5a5a5] * 5
STACK_MOST = {'turn': 225, 'list': 417, 'rounds': 417}  # bytes that a call must stay below


def word(x):
    return x.to_bytes(4, 'little')


class Play:
    """Steps on a run and its pace, taken by the model at once, and the answers expected."""

    def __init__(self, rng):
        self.memory, self.pace = lent.Memory(rng.randbytes(lent.SIZE)), Pace(rng.choice([0, 1, 2, rng.getrandbits(32), LAST]) for _ in range(NUMBERS))
        self.steps, self.answers, self.reached = bytearray(), [], collections.Counter()
        self.add(b'm', word(0), word(lent.SIZE), bytes(self.memory.bytes), b'P', word(0), word(4 * NUMBERS), struct.pack('<%dI' % NUMBERS, *self.pace.numbers))

    def add(self, *parts):
        self.steps += b''.join(parts)

    def answered(self, name, number, row):
        self.reached['%s %d' % (name, number)] += 1
        if self.pace.row is not None and len(self.pace.row) < 80:
            self.pace.by_force()
            self.reached['by brute force'] += 1
        self.answers.append((name, number, row, [self.pace.number(w) for w in range(18)], bytes(self.memory.bytes), list(self.pace.numbers)))
        return number

    def begin(self, data, p, quota):
        self.run = lent.Lent(self.memory, data)
        self.add(b't', word(len(data)), data, b'b', word(p), word(quota))
        number, _ = self.run.begin(p, quota, bytearray(36868))
        self.answered('begin', number, [0] * 5)
        self.add(b't', word(len(self.run.data)), self.run.data)

    def start(self, p, b):
        self.add(b's', word(p), word(b))
        return self.answered('pace', self.pace.begin(p, b), UNTOUCHED)

    def took(self, w):
        self.add(b'o', word(w))
        number = 30 if w >= self.pace.numbers[P] else 0
        if number == 0:
            self.pace.took(w)
        return self.answered('took', number, UNTOUCHED)

    def hindrance(self, w):
        m = self.memory
        return 32 if m.totals[lent.TURNS] == LAST_TURN else 30 if w >= m.settings[lent.P] else 31 if m.status[0] == ENDED else 0

    def one(self, w):
        """A paced turn: held back, else the turn, counted."""
        if self.hindrance(w) == 0 and self.pace.number(w):
            return self.pace.number(w), NO_ROW
        number, row = self.run.turn(w)
        if number == 0:
            self.pace.took(w)
        return number, row

    def turn(self, w):
        self.add(b'w', word(w))
        number, row = self.one(w)
        return self.answered('turn', number, list(row))

    def several(self, name, who, limit):
        """Up to the root's end, a refusal or the last of them."""
        if self.memory.totals[lent.TURNS] == LAST_TURN:
            return self.answered(name, 32, [0, 0, 0] + UNTOUCHED[3:])
        for i in range(limit):
            if self.memory.status[0] == ENDED:
                return self.answered(name, 0, [0, FINISHED, i] + UNTOUCHED[3:])
            number, _ = self.one(who(i))
            if number:
                self.reached['%s stopped after turns' % name if i else '%s stopped at once' % name] += 1
                return self.answered(name, number, [0, 0, i] + UNTOUCHED[3:])
        return self.answered(name, 0, [0, FINISHED if self.memory.status[0] == ENDED else SPENT, limit] + UNTOUCHED[3:])

    def list(self, workers):
        self.add(b'l', word(len(workers)), bytes(workers))
        return self.several('list', lambda i: workers[i], len(workers))

    def rounds(self, limit):
        self.add(b'r', word(limit))
        if self.memory.totals[lent.TURNS] != LAST_TURN and self.memory.settings[lent.P] == 0:
            return self.answered('rounds', 30, [0, 0, 0] + UNTOUCHED[3:])
        return self.several('rounds', lambda _: self.pace.next(), limit)

    def spoil(self, rng):
        """A number of the pace, or one of the run."""
        if rng.random() < 0.7:
            at, x = rng.choice([rng.randrange(256), B, P, KEPT, AFTER]), rng.choice([0, 1, 2, 15, 16, 17, 65535, LAST - 1, LAST, rng.getrandbits(32)])
            self.pace.numbers[at], self.pace.row = x, None
            self.add(b'P', word(4 * at), word(4), word(x))
        else:
            name, i, x = rng.choice([('totals', 2, LAST_TURN), ('totals', 0, 0), ('status', 0, ENDED), ('heads', 1, 7), ('threads', 0, 2000)])
            getattr(self.memory, name)[i] = x
            size = next(bits for field, bits, _ in lent.FIELDS if field == name) // 8
            self.add(b'm', word(lent.OFFSETS[name] + i * size), word(size), x.to_bytes(size, 'little'))


def worked(rng):
    """Three threads, two workers and b 1: worker 0 has no second turn before worker 1 has one; rounds in short calls keep b 1."""
    play = Play(rng)
    play.begin(E, 2, 6)
    assert play.start(0, 1) == 20 and play.start(17, 1) == 20 and play.start(2, 0) == 41 and play.start(2, 65536) == 41 and play.start(2, 1) == 0
    assert [play.turn(0), play.turn(0), play.turn(1), play.turn(0), play.turn(0), play.turn(2), play.turn(1)] == [0, 0, 0, 0, 60, 30, 0]
    assert play.pace.row == [0, 0, 1, 0, 1] and play.pace.numbers[KEPT] == 1
    assert play.rounds(1) == 0 and play.rounds(2) == 0 and play.rounds(1) == 0 and play.pace.row == [0, 0, 1, 0, 1, 0, 1, 0, 1]
    assert play.list([0, 0, 1]) == 60 and play.pace.row[-1] == 0 and play.list([]) == 0
    while play.rounds(3) == 0 and play.memory.status[0] != ENDED:
        pass
    assert play.pace.numbers[KEPT] == 1 and play.turn(0) == 31 and play.rounds(5) == 0
    return play


def another_pace(rng):
    """A run of 4 workers and a pace of 1, then one that was never begun, then a run of none: the turn says what `wivakkol_may` says, and rounds on a run of no worker get 30 with no turn to go, too."""
    play = Play(rng)
    play.begin(E, 4, 6)
    assert play.start(1, 1) == 0 and [play.pace.number(w) for w in range(4)] == [0, 30, 30, 30]
    assert [play.turn(2), play.turn(0), play.turn(1), play.list([0, 0, 3]), play.rounds(2)] == [30, 0, 30, 30, 0]
    play.pace.numbers, play.pace.row = [0] * NUMBERS, None
    play.add(b'P', word(0), word(4 * NUMBERS), bytes(4 * NUMBERS))
    assert [play.turn(0), play.turn(4), play.list([]), play.list([0]), play.rounds(0), play.rounds(1)] == [30, 30, 0, 30, 0, 30]
    play.begin(E, 0, 6)
    play.start(2, 1)
    play.memory.settings[lent.P] = play.memory.totals[lent.TURNS] = play.memory.status[0] = 0
    for name, size in (('settings', 4), ('totals', 8), ('status', 1)):
        at = {'settings': lent.P, 'totals': lent.TURNS, 'status': 0}[name]
        play.add(b'm', word(lent.OFFSETS[name] + at * size), word(size), bytes(size))
    assert [play.rounds(0), play.rounds(1), play.list([]), play.turn(0)] == [30, 30, 0, 30]
    return play


def drawn_play(rng):
    play = Play(rng)
    data, most = run_table(rng)
    p, front = beginning(rng, most)
    play.begin(data, p, int.from_bytes(front[1:], 'little'))
    play.start(p if rng.random() < 0.9 else rng.randrange(18), rng.choice([1, 1, 2, 3, 8, 65535, rng.randrange(65537)]))
    workers = max(1, min(16, p))
    for _ in range(rng.randint(5, 40)):
        what, w = rng.random(), rng.randrange(workers) if rng.random() < 0.9 else rng.choice([workers, 15, 16, 17, 255, LAST])
        if what < 0.55:
            for _ in range(rng.choice([1, 1, 2, 5])):
                play.turn(w)
        elif what < 0.68:
            play.list(order(rng, workers, Table(play.run.data).m if play.memory.settings[0] else 3)[:rng.choice([1, 3, 9, 60])])
        elif what < 0.85:
            play.rounds(rng.choice([0, 1, 2, 3, 7, 30]))
        elif what < 0.92:
            play.took(w)
        elif what < 0.95:
            play.spoil(rng)
        elif what < 0.97:
            play.start(rng.randrange(18), rng.choice([0, 1, 2, 70000]))
        else:
            play.start(workers, rng.choice([1, 4]))
    return play


WANTED = ['pace 0', 'pace 20', 'pace 41', 'took 0', 'took 30', 'turn 0', 'turn 30', 'turn 31', 'turn 32', 'turn 60', 'list 0', 'list 30', 'list 32', 'list 60', 'rounds 0', 'rounds 30', 'rounds 32',
          'rounds 60', 'list stopped after turns', 'rounds stopped after turns', 'by brute force']


def header_is_source():
    """Names, order, types, const and sizes of the exported calls are those of the source, and the inline ones hand over the run and the pace by their names."""
    source, text = board.exported('wivakkol_pace'), board.header('wivakkol.h', 'wivakkol_pace.h')
    others = board.prototypes_of(board.header())
    board.same_prototypes({name: said for name, said in board.prototypes_of(text).items() if name not in others}, source)
    places = {'pace': 'pace->numbers', **{block: 'run->' + block for block in lent.COUNTS}}
    for call in ('pace_begin', 'may', 'kept', 'took', 'paced_turn', 'paced_list', 'paced_rounds'):
        board.structs_hand_over(text, 'wivakkol_' + call, source['wivakkol_%s_on' % call], places)
    assert len(source) == 7


def main():
    header_is_source()
    board.header_for_cpp('wivakkol_pace.h')
    rng = random.Random(39)
    count = int(sys.argv[1]) if len(sys.argv) > 1 else 300
    plays = [worked(rng), another_pace(rng)] + [drawn_play(rng) for _ in range(count)]
    reached = sum((play.reached for play in plays), collections.Counter())
    size = 4 + 40 + 4 * 18 + 4 + lent.SIZE + 4 * NUMBERS
    calls, most = 0, [0, 0, 0]
    with tempfile.TemporaryDirectory() as folder:
        program = folder + '/calls'
        archives = [ROOT / ('target/staticlib/lib%s.a' % name) for name in ('wivakkol_pace', 'wivakkol')]
        subprocess.run(['cc', '-O2', '-I', ROOT / 'include', ROOT / 'tests/pace_calls.c', *archives, '-o', program], check=True)
        for play in plays:
            got = subprocess.run([program], input=bytes(play.steps), stdout=subprocess.PIPE, check=True).stdout
            assert len(got) == size * len(play.answers) + 12, (len(got), size, len(play.answers))
            most = list(map(max, most, struct.unpack('<3I', got[-12:])))
            for k, (name, number, row, may, memory, numbers) in enumerate(play.answers):
                one = got[size * k:size * (k + 1)]
                answer, *values = struct.unpack('<I5Q18II', one[:120])
                assert answer == number, (k, name, answer, number)
                assert values[:5] == row, (k, name, values[:5], row)
                assert values[5:23] == may, (k, name, values[5:23], may)
                assert values[23] == numbers[KEPT], (k, name)
                assert one[120:120 + lent.SIZE] == memory, (k, name, list(lent.differences(memory, one[120:120 + lent.SIZE]))[:5])
                assert list(struct.unpack('<%dI' % NUMBERS, one[120 + lent.SIZE:])) == numbers, (k, name)
                calls += 1
    missing = [name for name in WANTED if not reached[name]]
    assert count < 300 or not missing, missing
    print('most stack: %s' % ', '.join('%s %d' % pair for pair in zip(STACK_MOST, most)))
    assert all(x < limit for x, limit in zip(most, STACK_MOST.values())), 'a call took more stack than it may'
    print('%d paced calls agree; %s' % (calls, ', '.join('%s: %d' % (name, reached[name]) for name in WANTED)))


if __name__ == '__main__':
    main()
