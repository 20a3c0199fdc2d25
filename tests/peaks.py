"""The peak of p workers, written on its own: for each open child in the order of the forks, what is gained so far by the load that is left.

usage: python3 tests/peaks.py [COUNT]
    Holds it to the figures written down here; on COUNT random tables (default 200) to runs of machine.py in random, round and starving orders, none of which may hold more;
    and on half as many small tables, whose peak of 2 or 3 workers is below the parallel one, to every order of turns there is, of which it says how often one reaches the peak.
"""
import collections
import functools
import pathlib
import random
import sys

import filling
import machine
from quota import bound
from reference import ALLOC, END, FORK, FREE, JOIN, WORK, Table, bodies, check
from tables import drawn, table
from texts import assemble

sys.path.insert(0, str(pathlib.Path(__file__).parent.parent / 'bench'))
import bench

NEVER = -10**18
HIGHEST = 2**24 - 1


class Peaks:
    def __init__(self, data):
        self.body = bodies(Table(data))
        self.final = [0] * len(self.body)
        for t in reversed(range(len(self.body))):
            for kind, x in self.body[t]:
                self.final[t] += {ALLOC: x, FREE: -x}.get(kind, 0) + (self.final[x] if kind == JOIN else 0)
        self.peak = functools.cache(self._peak)
        self.best = functools.cache(self._best)

    def rests(self, t, k):
        """Thread t rests after k actions: at its first, right after a fork, at a join, after its end."""
        body = self.body[t]
        return k in (0, len(body)) or body[k - 1][0] == FORK or body[k][0] == JOIN

    def _peak(self, t, r, resting):
        """The most that thread t and all below it hold where no load is above r, counted from t."""
        balance, highest, stack = 0, 0, [[NEVER] * r + [0]]
        for k, (kind, x) in enumerate(self.body[t], 1):
            extra = NEVER
            if kind in (ALLOC, FREE):
                balance += x if kind == ALLOC else -x
            elif kind == JOIN:
                balance += self.final[x]
                stack.pop()
            elif kind == FORK:
                left = stack[-1]
                used = [left[s] + self.peak(x, s, resting) for s in range(1, r + 1)] + [NEVER]
                extra = left[0] + self.peak(x, 0, resting)
                stack.append([max(ended + self.final[x], unended) for ended, unended in zip(left, used)])
            if not resting or self.rests(t, k):
                highest = max(highest, balance + max(extra, *stack[-1]))
        return highest

    def _best(self, t):
        """The same with every child open at its best."""
        balance, highest, stack = 0, 0, [0]
        for kind, x in self.body[t]:
            if kind in (ALLOC, FREE):
                balance += x if kind == ALLOC else -x
            elif kind == JOIN:
                balance += self.final[x]
                stack.pop()
            elif kind == FORK:
                stack.append(stack[-1] + self.best(x))
            highest = max(highest, balance + stack[-1])
        return highest

    def workers(self, p):
        return self.peak(0, p - 1, False)

    def rise(self):
        """R: the most that a thread's own allocs less frees rise from a resting place on, short of the next."""
        highest = 0
        for t, body in enumerate(self.body):
            risen = 0
            for k, (kind, x) in enumerate(body, 1):
                risen += {ALLOC: x, FREE: -x}.get(kind, 0)
                risen = 0 if self.rests(t, k) else risen
                highest = max(highest, risen)
        return highest

    def stretch(self, quota):
        highest = 0
        for body in self.body:
            drawn_now = 0
            for kind, x in body:
                drawn_now += x if kind == ALLOC and x <= quota else 0
                highest = max(highest, drawn_now)
                drawn_now = 0 if kind == FORK else drawn_now
        return highest

    def resting(self, p):
        return self.peak(0, p - 1, True) + p * self.rise()


def limits(data, p, quota, b):
    """Of the table that runs: the useful limit, S1, S_p, the parallel peak and the largest draw of a stretch."""
    runs = filling.filled(data, quota)
    peaks, answer = Peaks(runs), check(runs)
    serial, most, stretch = answer[3], peaks.workers(p), peaks.stretch(quota)
    useful = [most] + ([bound(answer, p, b, quota)] if b else []) + ([peaks.resting(p)] if stretch <= quota else [])
    return min(useful), serial, most, peaks.best(0), stretch


# Figures

def example(name):
    return assemble((pathlib.Path(__file__).parent.parent / 'examples' / name).read_bytes())[0]


def repeats():
    """The root forks six; each draws 40, works three times, forks two helpers that draw 10, joins them and frees 40."""
    jobs = [[(ALLOC, 40)] + [(WORK, 0)] * 3 + [(FORK, 7 + 2 * i), (FORK, 8 + 2 * i), (JOIN, 8 + 2 * i), (JOIN, 7 + 2 * i), (FREE, 40), (END, 0)] for i in range(6)]
    return table(bench.forked(range(1, 7)), *jobs, *[[(ALLOC, 10), (WORK, 0), (FREE, 10), (END, 0)]] * 12)


def chain(threads):
    """Each draws 8, forks the next and joins it."""
    return table(*[[(ALLOC, 8), (FORK, t + 1), (JOIN, t + 1), (FREE, 8), (END, 0)] for t in range(threads - 1)], [(ALLOC, 8), (FREE, 8), (END, 0)])


def levels(count):
    """A balanced tree: each thread draws 8, forks two and joins them."""
    inner = 2**(count - 1) - 1
    forks = [[(ALLOC, 8), (FORK, 2 * t + 1), (FORK, 2 * t + 2), (JOIN, 2 * t + 2), (JOIN, 2 * t + 1), (FREE, 8), (END, 0)] for t in range(inner)]
    return table(*forks, *[[(ALLOC, 8), (FREE, 8), (END, 0)]] * (inner + 1))


# name, table, K, and for p 2, 4 and 16: the peak in rounds, demand 3's limit with b 1, S_p, and peak and R over resting places where that is least; None: not written down
FIGURES = [
    ('E', example('e.text'), 6, [(None, None, 12, None)] * 3),
    ('tree', example('tree.text'), 12, [(48, 676, 208, 136), (84, 1948, 1160, 440), (248, 9580, 2044, 700)]),
    ('stages', example('stages.text'), 8, [(None, None, 18, None)] * 3),
    ('bench fan', bench.fan(), 64, [(128, 128256, 128, None), (256, 384640, 256, None), (896, 1922944, 1024, None)]),
    ('bench chain', bench.chain(), 8, [(None, None, 7992, None)] * 3),
    ('bench tree', bench.tree(), 218, [(25988, 393120, 26324, None), (25991, 1127344, 26830, None), (26030, 5532688, 27241, None)]),
    ('bench comb', bench.comb(), 128, [(128, 640512, 256, None), (256, 1921280, 512, None), (1216, 9605888, 2048, None)]),
    ('chain of 200', chain(200), 8, [(None, 9576, 1600, None), (None, 25528, 1600, None), (None, 121240, 1600, None)]),
    ('ten levels', levels(10), 8, [(None, 600, 440, 376), (None, 1640, 3080, 2072), (None, 7880, 8184, 4216)]),
    ('repeats', repeats(), 40, [(None, 1090, 110, None), (None, 3170, 230, None), (None, 15650, 360, None)]),
]


def in_rounds(data, p, quota):
    run = machine.Machine(machine.begin(data, p, quota)[1], machine.Row)
    turns = 0
    while not run.ended():
        run.take(turns % p)
        turns += 1
    return run.run.highest


def figures():
    for name, data, quota, rows in FIGURES:
        peaks, answer = Peaks(data), check(data)
        if peaks.stretch(quota) != quota:
            raise SystemExit('%s: the largest stretch draws %d' % (name, peaks.stretch(quota)))
        for p, expected in zip((2, 4, 16), rows):
            least = peaks.resting(p) if peaks.resting(p) < peaks.workers(p) else None
            found = (in_rounds(data, p, quota) if expected[0] else None, bound(answer, p, 1, quota), peaks.workers(p), least)
            if any(x is not None and x != y for x, y in zip(expected, found)) or (expected[3] is None) != (least is None):
                raise SystemExit('%s, %d workers: %r, expected %r' % (name, p, found, expected))
    print('%d tables: the figures as expected' % len(FIGURES))


# Runs

def orders(rng, run, p):
    """Workers one at a time: at random, in rounds, or with the holder of the leftmost thread starved and those that draw preferred."""
    kind = rng.randrange(3)
    turns = 0
    while True:
        w = rng.randrange(p)
        if kind == 1:
            w = turns % p
        elif kind == 2 and rng.random() < 0.95:
            first = next(iter(run.threads), None)
            free = [v for v in range(p) if not (run.run.worker[v].holds and run.run.worker[v].thread == first)]
            draws = [v for v in free if run.run.worker[v].holds and run.table.actions[run.run.next[run.run.worker[v].thread]][0] == ALLOC]
            w = rng.choice(draws or free or [w])
        turns += 1
        yield w


def runs(rng, count):
    resting = 0
    for _ in range(count):
        threads = rng.randint(1, 14)
        data = drawn(rng, threads, rng.randint(threads, 6 * threads + 20), rng.choice([[2, 6], [9], [4, 40]]))
        p, quota = rng.randint(1, 16), rng.choice([3, 20, 60, HIGHEST])
        answer, begun = machine.begin(data, p, quota)
        if answer != 'begun':
            continue
        useful, serial, most, parallel, stretch = limits(data, p, quota, 0)
        if not serial <= most <= parallel or useful > most or (p == 1 and most != serial):
            raise SystemExit('%d workers: serial %d, peak %d, parallel %d, useful %d' % (p, serial, most, parallel, useful))
        resting += useful < most
        run = machine.Machine(begun, machine.Row)
        for w in orders(rng, run, p):
            if run.ended():
                break
            reply = run.take(w)
            if reply[0] == 'quota' and stretch <= quota:
                raise SystemExit('a quota of %d covers %d, and yet %r' % (quota, stretch, reply))
        if run.run.highest > useful:
            raise SystemExit('%d workers hold %d, above %d' % (p, run.run.highest, useful))
    print('%d tables: no run above the useful limit, which is that of resting places on %d' % (count, resting))


# Every order

def successors(peaks, parent, state):
    """A state: each thread's actions done, or None before its fork; the live threads in serial order; the workers' threads, in any order, as workers are alike; the threads that wait."""
    done, live, held, waits = state
    for w in range(len(held)):
        t = held[w]
        if t is None:
            t = next((u for u in live if u not in held and u not in waits), None)
            if t is None:
                continue
        kind, x = peaks.body[t][done[t]]
        now, alive, holds, wait = list(done), list(live), list(held), set(waits)
        holds[w] = t
        if kind == JOIN and now[x] != len(peaks.body[x]):
            holds[w] = None
            wait.add(t)
        else:
            now[t] += 1
            if kind == FORK:
                now[x] = 0
                alive.insert(alive.index(t), x)
                holds[w] = None
            elif kind == END:
                alive.remove(t)
                holds[w] = None
                u = parent.get(t)
                if u in wait and peaks.body[u][now[u]] == (JOIN, t):
                    wait.remove(u)
        yield tuple(now), tuple(alive), tuple(sorted(holds, key=lambda u: -1 if u is None else u)), frozenset(wait)


def worst(peaks, p, most_states):
    """The most held in any state that p workers reach, with a quota that covers everything; None where there are too many states."""
    body = peaks.body
    parent = {x: t for t, actions in enumerate(body) for kind, x in actions if kind == FORK}
    held = lambda done: sum({ALLOC: x, FREE: -x}.get(kind, 0) for t, k in enumerate(done) if k for kind, x in body[t][:k])
    start = (tuple([0] + [None] * (len(body) - 1)), (0,), (None,) * p, frozenset())
    seen, todo, highest = {start}, collections.deque([start]), 0
    while todo:
        state = todo.popleft()
        highest = max(highest, held(state[0]))
        for after in successors(peaks, parent, state):
            if after not in seen:
                seen.add(after)
                todo.append(after)
        if len(seen) > most_states:
            return None
    return highest


def searched(rng, p):
    """A small table whose peak of p workers is below the parallel one, as Peaks, and the most held in any order."""
    while True:
        threads = rng.randint(3, 7)
        data = drawn(rng, threads, rng.randint(2 * threads, 3 * threads + 6), [6])
        peaks = Peaks(data)
        found = worst(peaks, p, 30000) if peaks.workers(p) < peaks.best(0) else None
        if found is not None:
            return peaks, found


def every_order(rng, count):
    """One table in four with 3 workers, the others with 2."""
    tried, equal, above = collections.Counter(), collections.Counter(), 1
    for i in range(count):
        p = 3 if i % 4 == 3 else 2
        peaks, found = searched(rng, p)
        if found > peaks.workers(p):
            raise SystemExit('%d workers hold %d, above their peak %d' % (p, found, peaks.workers(p)))
        tried[p] += 1
        equal[p] += found == peaks.workers(p)
        above = max(above, peaks.workers(p) / found)
    reached = ', '.join('on %d of %d with %d workers' % (equal[p], tried[p], p) for p in sorted(tried))
    print('%d small tables, every order: never above the peak, equal to it %s; the peak is at most %.2f times the worst' % (count, reached, above))


def not_reached():
    """Of the six repeats two workers cannot be inside three helpers, which their peak of 110 counts."""
    found = worst(Peaks(repeats()), 2, 100000)
    if found != 100:
        raise SystemExit('repeats, two workers, every order: %s, expected 100' % found)


def main():
    count = int(sys.argv[1]) if len(sys.argv) > 1 else 200
    figures()
    runs(random.Random(38), count)
    every_order(random.Random(38), count // 2)
    not_reached()


if __name__ == '__main__':
    main()
