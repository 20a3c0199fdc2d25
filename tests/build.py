"""Builds tests/build.c and examples/build.c, and compares the builder of include/wivakkol_build.h with a model of its own, which keeps bodies as lists: every answer, the bytes of the table after the last step, and
what wivakkol_check says of them, by reference.py.

usage: python3 tests/build.py [COUNT]
    From the repository's top, after `python3 tools/dist.py archive wivakkol`; COUNT random cases, default 1,500; needs a C compiler, `cc`.
"""
import collections
import random
import subprocess
import sys

import board
from reference import ALLOC, END, FORK, FREE, JOIN, WORK, check
from tables import table

ARCHIVES = ['target/staticlib/libwivakkol.a']
STEPS = ['fork', 'join', 'join_all', 'work', 'alloc', 'free']
ROOM, LARGE, THREAD, AMOUNT, NO_JOIN = 1, 2, 3, 4, 5
NONE = 1024
MOST = 16777215
Case = collections.namedtuple('Case', 'room steps')


class Model:
    """Bodies without their ends, and of each thread its open children."""
    def __init__(self, room):
        self.room, self.bodies, self.open, self.fault = room, [[]], [[]], 0
        self.begun = self.told(ROOM if room < 12 else 0)
        if self.begun:
            self.bodies = []

    def told(self, fault):
        self.fault = self.fault or fault
        return fault

    def refused(self, thread, threads, actions):
        n, m = len(self.bodies) + threads, sum(map(len, self.bodies)) + len(self.bodies) + actions
        if self.begun:
            return ROOM
        if thread >= len(self.bodies):
            return THREAD
        if n > 1024 or m > 8192:
            return LARGE
        return ROOM if self.room < 4 + 4 * n + 4 * m else 0

    def put(self, thread, action):
        fault = self.refused(thread, 0, 1)
        if not fault:
            self.bodies[thread].append(action)
        return fault

    def step(self, what, thread, amount):
        """The answers of one step, as they are printed."""
        if what == 'fork':
            fault = self.refused(thread, 1, 2)
            if fault:
                return [self.told(fault), NONE]
            child = len(self.bodies)
            self.bodies[thread].append((FORK, child))
            self.open[thread].append(child)
            self.bodies.append([])
            self.open.append([])
            return [0, child]
        if what in ('join', 'join_all'):
            fault = self.refused(thread, 0, 0)
            if fault:
                return [self.told(fault)]
            if what == 'join' and not self.open[thread]:
                return [self.told(NO_JOIN)]
            for child in reversed(list(self.open[thread][-1:] if what == 'join' else self.open[thread])):
                fault = self.put(thread, (JOIN, child))
                if fault:
                    break
                self.open[thread].pop()
            return [self.told(fault)]
        if what == 'work':
            return [self.told(self.put(thread, (WORK, 0)))]
        if not 1 <= amount <= MOST:
            return [self.told(AMOUNT)]
        return [self.told(self.put(thread, (ALLOC if what == 'alloc' else FREE, amount)))]

    def table(self):
        return b'' if self.begun else table(*(body + [(END, 0)] for body in self.bodies))

    def where(self, place):
        """Thread and step of an action."""
        for t, body in enumerate(self.bodies):
            if place <= len(body):
                return [t, place]
            place -= len(body) + 1
        return [NONE, 0]


def expected(case):
    model = Model(case.room)
    line = [model.begun]
    for what, thread, amount in case.steps:
        line += model.step(what, thread, amount)
    data = model.table()
    answer = check(data)
    number, place = (answer[1], answer[2]) if answer[0] == 'refused' else (0, 0)
    line += [model.fault, 0 if model.fault else len(data), number, place, *model.where(place)]
    return ' '.join(map(str, line)) + ' ' + data.hex(), model, number


def packed(case):
    numbers = [case.room, len(case.steps)] + [x for what, thread, amount in case.steps for x in (STEPS.index(what), thread, amount)]
    return b''.join(x.to_bytes(4, 'little') for x in numbers)


def drawn(rng):
    """Steps that are mostly lawful, on threads that mostly are there, in a room that is often just too small."""
    steps, threads = [], 1
    for _ in range(rng.choice([0, 3, 10, 40, 120])):
        what = rng.choice(['fork', 'fork', 'join', 'join', 'join_all', 'work', 'alloc', 'alloc', 'free'])
        thread = rng.choice([0, rng.randrange(threads), threads - 1, threads if rng.random() < 0.1 else 0, 2**32 - 1 if rng.random() < 0.02 else 0])
        amount = rng.choice([1, 5, 255, 256, 65536, MOST, rng.randint(1, MOST)]) if rng.random() < 0.95 else rng.choice([0, MOST + 1, 2**32 - 1])
        steps.append((what, thread, amount))
        threads += what == 'fork'
    if rng.random() < 0.5:
        steps += [('join_all', t, 0) for t in range(threads)]
    full = len(expected(Case(36868, steps))[1].table())
    return Case(rng.choice([36868, full, max(0, full - rng.randint(1, 16)), rng.randint(0, 40)]), steps)


def named():
    """The limits of a table, and rooms about the smallest."""
    fan = [('fork', 0, 0)] * 1024
    full = [('work', 0, 0)] * 8192
    deep = [('fork', t, 0) for t in range(1024)] + [('join', t, 0) for t in range(1024)]
    return [Case(room, [('work', 0, 0)]) for room in (0, 1, 11, 12, 15, 16)] + [
        Case(36868, fan + [('join_all', 0, 0), ('join', 0, 0)]), Case(36868, full + [('fork', 0, 0)]), Case(36868, deep), Case(40000, [*full[:-3], ('fork', 0, 0), ('join', 0, 0)]),
        Case(36868, [('free', 0, 5)]), Case(36868, [('fork', 0, 0), ('work', 1, 0)]), Case(36868, [('join', 0, 0)]), Case(36868, [('alloc', 0, 0), ('free', 0, MOST + 1)])]


def compare(program, cases, every):
    done = subprocess.run([program], input=b''.join(map(packed, cases)), stdout=subprocess.PIPE, check=True)
    lines, faults, numbers = done.stdout.decode().split('\n')[:-1], collections.Counter(), collections.Counter()
    assert len(lines) == len(cases), '%d answers to %d cases' % (len(lines), len(cases))
    for i, (line, case) in enumerate(zip(lines, cases)):
        wanted, model, number = expected(case)
        assert line == wanted, 'case %d differs, %s\n  given    %s\n  expected %s' % (i, str(case)[:400], line[:600], wanted[:600])
        faults[model.fault] += 1
        numbers[number] += 1
    assert not every or set(faults) == {0, ROOM, LARGE, THREAD, AMOUNT, NO_JOIN}, 'not every answer was reached, %s' % faults
    assert not every or set(numbers) == {0, 1, 9, 10}, 'wivakkol_check says otherwise than the header has it, %s' % numbers
    print('wivakkol_build.h: %d of %d tables agree, of %d steps (first fault: %s; wivakkol_check: %s)'
          % (len(cases), len(cases), sum(len(case.steps) for case in cases), dict(sorted(faults.items())), dict(sorted(numbers.items()))))


def example(program):
    """The repeats of examples/build.c: 1,024 threads are the most, and the serial run holds what one repeat draws."""
    for repeats, wanted in (('6', 'table 7 37 serial 40 depth 17 nested 2'), ('1023', 'table 1024 6139 serial 40 depth 2051 nested 2'), ('1024', 'not built: 2')):
        done = subprocess.run([program, repeats], stdout=subprocess.PIPE)
        lines = done.stdout.decode().splitlines()
        assert lines[0] == wanted and done.returncode == (1 if repeats == '1024' else 0), (repeats, lines)
    print('examples/build.c: 3 of 3 agree')


def main():
    count = int(sys.argv[1]) if len(sys.argv) > 1 else 1500
    board.header_for_cpp('wivakkol_build.h')
    rng = random.Random(51)
    compare(board.build('tests/build.c', 'build_test', ARCHIVES), named() + [drawn(rng) for _ in range(count)], count >= 1000)
    example(board.build('examples/build.c', 'build', ARCHIVES))


if __name__ == '__main__':
    main()
