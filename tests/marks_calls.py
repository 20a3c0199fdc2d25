"""Holds the calls of libwivakkol_marks.a against a model over lent.py: on runs and marks that are set, replaced, gone back to and damaged. Answers, every byte of the run and of the marks, cleared
working memory, and the stack that a call uses (under 8 KB); the header with the source.

Usage: marks_calls.py [COUNT]; wants target/staticlib/libwivakkol_marks.a and libwivakkol.a (python3 tools/dist.py archive).
"""
import collections
import pathlib
import random
import struct
import subprocess
import sys
import tempfile

import board
import lent
from differential import beginning, order, run_table
from lent import BLOCKS, COUNTS, FIELDS, OFFSETS
from reference import Table
from tables import BODIES_OF_E, table

ROOT = pathlib.Path(__file__).resolve().parent.parent
MARKS, WIDTHS = 8, {block: bits // 8 for bits, block in BLOCKS.items()}
# where a block begins in a wivakkol_run, and in a wivakkol_marks, where it has eight stretches
RUN_AT = {block: sum(COUNTS[b] * WIDTHS[b] for b in list(COUNTS)[:i]) for i, block in enumerate(COUNTS)}
MARKS_AT = {block: MARKS * at for block, at in RUN_AT.items()}
SET_AT = MARKS * sum(COUNTS[b] * WIDTHS[b] for b in COUNTS)
MARKS_SIZE = SET_AT + MARKS
E = table(*BODIES_OF_E)


def word(x, size=4):
    return x.to_bytes(size, 'little')


def stretches(i):
    """Of each block: where it is in a run, where mark i has it, and its bytes."""
    return [(RUN_AT[b], MARKS_AT[b] + i * COUNTS[b] * WIDTHS[b], COUNTS[b] * WIDTHS[b]) for b in COUNTS]


class Play:
    """Steps on a run and its marks, taken by the model at once, and the answers expected."""

    def __init__(self, rng):
        self.memory, self.marks, self.steps, self.answers, self.reached = lent.Memory(rng.randbytes(lent.SIZE)), bytearray(rng.randbytes(MARKS_SIZE)), bytearray(), [], collections.Counter()
        self.add(b'm', word(0), word(lent.SIZE), bytes(self.memory.bytes), b'k', word(0), word(MARKS_SIZE), bytes(self.marks))

    def add(self, *parts):
        self.steps += b''.join(parts)

    def answered(self, name, number, tests=False):
        self.reached['%s %d' % (name, number)] += 1
        self.answers.append((name, number, tests, bytes(self.memory.bytes), bytes(self.marks)))
        return number

    # ---- the calls

    def begin(self, data, p, quota):
        self.run = lent.Lent(self.memory, data)
        self.add(b't', word(len(data)), data, b'b', word(p), word(quota))
        number, _ = self.run.begin(p, quota, bytearray(36868))
        self.answered('begin', number)
        self.add(b't', word(len(self.run.data)), self.run.data)

    def list(self, workers):
        self.add(b'l', word(len(workers)), bytes(workers))
        return self.answered('list', self.run.run_list(bytes(workers))[0])

    def unmark(self):
        self.add(b'u')
        self.marks[SET_AT:] = bytes(MARKS)
        self.answered('unmark', 0)

    def kept(self, i):
        """The run that mark i keeps, as it is read: a worker holds a thread where the number that says so is not 0."""
        data = bytearray(lent.SIZE)
        for at, there, size in stretches(i):
            data[at:at + size] = self.marks[there:there + size]
        memory = lent.Memory(data)
        for w, x in enumerate(memory.holds):
            memory.holds[w] = 1 if x else 0
        return memory

    def fault(self, i, back):
        """The first check that refuses, or 0: 32 of the run and of every set mark, 45, and on going back 46."""
        runs = [self.memory] + [self.kept(j) for j in range(MARKS) if self.marks[SET_AT + j]]
        if any(lent.Lent(memory, self.run.data).tested()[0] is None for memory in runs):
            return 32
        return 45 if i >= MARKS else 46 if back and not self.marks[SET_AT + i] else 0

    def mark(self, i):
        self.add(b's', word(i))
        number = self.fault(i, False)
        if number == 0:
            self.reached['set anew' if self.marks[SET_AT + i] else 'set'] += 1
            self.reached['set blank' if self.memory.settings[lent.P] == 0 else 'set sound'] += 1
            for at, there, size in stretches(i):
                self.marks[there:there + size] = self.memory.bytes[at:at + size]
            self.marks[SET_AT + i] = 1
        return self.answered('mark', number, True)

    def back(self, i):
        self.add(b'g', word(i))
        number = self.fault(i, True)
        if number == 0:
            kept = self.kept(i)
            self.reached['back blank' if kept.settings[lent.P] == 0 else 'back sound'] += 1
            self.reached['back to the same' if kept.totals[lent.TURNS] == self.memory.totals[lent.TURNS] else 'back over turns'] += 1
            self.memory.bytes[:lent.USED] = kept.bytes[:lent.USED]
            assert self.run.open() == (0, [0])
        return self.answered('back', number, True)

    # ---- damage

    def put(self, name, i, x):
        """A number of the run."""
        getattr(self.memory, name)[i] = x
        size = next(bits for field, bits, _ in FIELDS if field == name) // 8
        self.add(b'm', word(OFFSETS[name] + i * size), word(size), word(x, size))

    def spoil(self, at, x):
        """A byte of the marks."""
        self.marks[at] = x
        self.add(b'k', word(at), word(1), bytes([x]))

    def spoil_mark(self, rng, i):
        """A byte of mark i: mostly of a part in which few bytes do no harm."""
        block, place = rng.choice([('bytes', 0), ('words', 1024), ('words', 6160), ('sums', 1024), ('sums', 1025), ('sums', 1026), ('numbers', 0), ('bytes', 1024 + rng.randrange(16)),
                                   ('words', 2 * 1024 + rng.randrange(3)), ('words', 0), ('words', 4096), ('words', 6161)])
        self.spoil(MARKS_AT[block] + (i * COUNTS[block] + place) * WIDTHS[block], rng.randrange(256))


def worked(rng):
    """E with p 2 and K 6: the turns since the mark are gone, its peak too."""
    play = Play(rng)
    play.begin(E, 2, 6)
    play.unmark()
    totals = lambda: play.memory.totals.tolist()
    assert play.list([0, 1, 0]) == 0 and totals() == [6, 6, 3], totals()
    assert play.back(2) == 46 and play.mark(8) == 45 and play.back(8) == 45 and play.mark(2) == 0
    assert play.list([1, 0]) == 0 and totals() == [12, 12, 5], totals()
    assert play.back(3) == 46 and play.back(2) == 0 and totals() == [6, 6, 3]
    assert play.list([1, 0]) == 0 and totals() == [12, 12, 5]
    assert play.mark(2) == 0 and play.list([0]) == 0 and play.back(2) == 0 and totals() == [12, 12, 5] and play.back(2) == 0
    # an unset mark may hold anything; a set one is tested, also the one to be replaced
    play.spoil_mark(rng, 5)
    assert play.mark(7) == 0
    play.spoil(MARKS_AT['sums'] + (7 * COUNTS['sums'] + 1024) * 8, 13)
    assert [play.mark(7), play.mark(0), play.back(2), play.back(8), play.mark(2**32 - 1), play.back(3)] == [32] * 6
    play.unmark()
    assert play.mark(7) == 0 and play.back(7) == 0 and play.back(2) == 46
    return play


def drawn_play(rng):
    play = Play(rng)
    data, most = run_table(rng)
    p, front = beginning(rng, most)
    play.begin(data, p, int.from_bytes(front[1:], 'little'))
    play.unmark()
    for _ in range(rng.randint(4, 14)):
        what = rng.random()
        i = rng.randrange(MARKS) if rng.random() < 0.9 else rng.choice([8, 9, 255, 256, 2**32 - 1])
        near = rng.randrange(3)
        if what < 0.3:
            play.list(order(rng, p, Table(play.run.data).m if play.memory.settings[0] else 3)[:rng.choice([1, 3, 9, 4096])])
        elif what < 0.6:
            play.mark(i if rng.random() < 0.3 else near)
        elif what < 0.88:
            play.back(i if rng.random() < 0.3 else near)
        elif what < 0.93:
            play.spoil_mark(rng, near if rng.random() < 0.7 else rng.randrange(MARKS))
        elif what < 0.95:
            play.put(*rng.choice([('totals', 0, 5), ('status', 0, 4), ('holds', 0, 2), ('heads', 1, 7), ('parents', 1, 3)]))
        elif what < 0.97:
            play.spoil(SET_AT + rng.randrange(MARKS), rng.choice([0, 1, 2, 255]))
        elif what < 0.98:
            play.unmark()
        else:
            play.begin(play.run.data, rng.choice([0, 1, 2]), 3)
    return play


WANTED = ['mark 0', 'mark 32', 'mark 45', 'back 0', 'back 32', 'back 45', 'back 46', 'set', 'set anew', 'set blank', 'set sound', 'back blank', 'back sound', 'back over turns', 'back to the same']


def header_is_source():
    """Names, order, types, const and sizes of the exported calls are those of the source, and the inline ones hand over the run, the marks and the working memory by their names."""
    source, text = board.exported('wivakkol_marks'), board.header('wivakkol.h', 'wivakkol_marks.h')
    others = board.prototypes_of(board.header())
    board.same_prototypes({name: said for name, said in board.prototypes_of(text).items() if name not in others}, source)
    places = {before + block: '%s->%s' % (struct, block) for before, struct in (('', 'run'), ('mark', 'marks')) for block in COUNTS}
    places.update(set='marks->set', **{'spare' + block: 'work->run.' + block for block in COUNTS})
    places.update((name, 'work->' + name) for name, kind, _ in board.fields(text, 'marks_work') if kind.startswith('uint'))
    places.update((board.WORK_NAMES.get(name, name), 'work->work.' + name) for name, _, _ in board.fields(text, 'work'))
    for call in ('mark', 'back', 'unmark'):
        board.structs_hand_over(text, 'wivakkol_' + call, source['wivakkol_%s_on' % call], places)
    assert len(source) == 3


def main():
    header_is_source()
    board.header_for_cpp('wivakkol_marks.h')
    rng = random.Random(11)
    count = int(sys.argv[1]) if len(sys.argv) > 1 else 150
    plays = [worked(rng)] + [drawn_play(rng) for _ in range(count)]
    reached, deepest, calls = sum((play.reached for play in plays), collections.Counter()), 0, 0
    with tempfile.TemporaryDirectory() as folder:
        program = folder + '/calls'
        archives = [ROOT / ('target/staticlib/lib%s.a' % name) for name in ('wivakkol_marks', 'wivakkol')]
        subprocess.run(['cc', '-O2', '-I', ROOT / 'include', ROOT / 'tests/marks_calls.c', *archives, '-o', program], check=True)
        for play in plays:
            got = subprocess.run([program], input=bytes(play.steps), stdout=subprocess.PIPE, check=True).stdout
            size = 9 + lent.SIZE + MARKS_SIZE
            assert len(got) == size * len(play.answers), (len(got), size, len(play.answers))
            for k, (name, number, tests, memory, marks) in enumerate(play.answers):
                one = got[size * k:size * (k + 1)]
                answer, deep, cleared = struct.unpack('<IIB', one[:9])
                assert answer == number, (k, name, answer, number)
                assert one[9:9 + lent.SIZE] == memory, (k, name, list(lent.differences(memory, one[9:9 + lent.SIZE]))[:5])
                assert one[9 + lent.SIZE:] == marks, (k, name)
                if tests:
                    assert cleared, (k, name)
                    deepest, calls = max(deepest, deep), calls + 1
    assert deepest < 8192, deepest
    missing = [name for name in WANTED if not reached[name]]
    assert count < 150 or not missing, missing
    print('%d calls on marks agree; %s; deepest stack %d bytes' % (calls, ', '.join('%s: %d' % (name, reached[name]) for name in WANTED), deepest))


if __name__ == '__main__':
    main()
