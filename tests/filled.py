"""Holds filling.py to change request N6: on tables with answers written by hand, and on random ones against a second model, whose trees are numbered as they are built, and against what the
request says of every filled-out table.

usage: python3 tests/filled.py [COUNT]
    COUNT random tables (default 1,000).
"""
import itertools
import random
import sys

import filling
from reference import ALLOC, END, FORK, FREE, JOIN, WORK, Table, bodies, check, owners, serial_order
from tables import BODIES_OF_E as E, drawn, table

MOST_THREADS, MOST_ACTIONS = 1024, 8192


def is_big(action, quota):
    kind, x = action
    return kind == ALLOC and x > quota


def dummies(x, quota):
    """a / K rounded up."""
    return x // quota + (x % quota > 0)


def tree(d, numbers, made):
    """Puts the bodies of a tree of d dummies into `made`, by their numbers, and gives the number of its root. A thread has its number from its
    fork on, and a child runs to its end before its parent goes on."""
    root = next(numbers)
    made[root] = [(WORK, 0), (END, 0)]
    if d > 1:
        rest = d // 2
        one = tree(d - rest, numbers, made)
        other = tree(rest, numbers, made)
        made[root] = [(FORK, one), (FORK, other), (JOIN, other), (JOIN, one), (END, 0)]
    return root


def tree_counts(d):
    """Threads and actions of a tree of d dummies: d - 1 threads of five actions that fork, and d of two."""
    return 2 * d - 1, 5 * (d - 1) + 2 * d


def too_large(data, quota):
    """The place of 44: the lowest action with which a limit is passed, or None."""
    given = Table(data)
    threads, actions = given.n, given.m
    for a, action in enumerate(given.actions):
        if is_big(action, quota):
            more = tree_counts(dummies(action[1], quota))
            threads, actions = threads + more[0], actions + more[1] + 2
            if threads > MOST_THREADS or actions > MOST_ACTIONS:
                return a
    return None


def filled(data, quota):
    """The filled-out table of one that passes its checks and 44; the bytes as given where nothing is above the quota."""
    given = Table(data)
    if not any(is_big(action, quota) for action in given.actions):
        return data
    numbers, made, root = itertools.count(given.n), {}, {}
    for a in serial_order(given):
        if is_big(given.actions[a], quota):
            root[a] = tree(dummies(given.actions[a][1], quota), numbers, made)
    whole = []
    for first, count in given.contents:
        body = []
        for a in range(first, first + count):
            if a in root:
                body += [(FORK, root[a]), (JOIN, root[a])]
            body.append(given.actions[a])
        whole.append(body)
    return table(*whole, *(made[t] for t in sorted(made)))


# What the request says, on any filled-out table

def expect(what, found, wanted):
    if found != wanted:
        raise SystemExit('%s: expected %r, found %r' % (what, wanted, found))


def holds(data, quota):
    """The filled-out table passes every check, S1 is the same, the new threads are numbered from n on in serial order of their forks, and without what is new it is the table as given."""
    before, after = check(data), check(filled(data, quota))
    expect('refused', after[0], 'table')
    expect('S1', after[3], before[3])
    given, out = Table(data), Table(filled(data, quota))
    big = [x for kind, x in given.actions if kind == ALLOC and x > quota]
    counts = [tree_counts(dummies(x, quota)) for x in big]
    expect('counts', (out.n - given.n, out.m - given.m), (sum(n for n, _ in counts), sum(m + 2 for _, m in counts)))
    forks = [out.actions[a][1] for a in serial_order(out) if out.actions[a][0] == FORK and out.actions[a][1] >= given.n]
    expect('numbers', forks, list(range(given.n, out.n)))
    without = [[(kind, x) for kind, x in body if kind not in (FORK, JOIN) or x < given.n] for body in bodies(out)[:given.n]]
    expect('the rest', without, bodies(given))
    owner = owners(out)
    for a, action in enumerate(out.actions):
        if is_big(action, quota):
            (fork, x), (join, y) = out.actions[a - 2:a]
            expect('in front of %d' % a, (fork, join, x, owner[a - 2]), (FORK, JOIN, y, owner[a]))
            expect('dummies of %d' % x, leaves(out, x), dummies(action[1], quota))


def leaves(out, t):
    """How many threads of the tree at t fork none."""
    children = [x for kind, x in bodies(out)[t] if kind == FORK]
    return sum(leaves(out, x) for x in children) if children else 1


# By hand

LEAF = [(WORK, 0), (END, 0)]


def two(x, y):
    return [(FORK, x), (FORK, y), (JOIN, y), (JOIN, x), (END, 0)]


def of(x):
    return [(FORK, x), (JOIN, x)]


BY_HAND = [
    ('E', E, 5, [E[0], of(3) + E[1], of(6) + E[2], two(4, 5), LEAF, LEAF, two(7, 8), LEAF, LEAF]),
    ('E in place', E, 6, E),
    ('7 / 3 rounded up', [[(ALLOC, 7), (END, 0)]], 3, [of(1) + [(ALLOC, 7), (END, 0)], two(2, 5), two(3, 4), LEAF, LEAF, LEAF]),
    ('6 / 3', [[(ALLOC, 6), (END, 0)]], 3, [of(1) + [(ALLOC, 6), (END, 0)], two(2, 3), LEAF, LEAF]),
    ('five', [[(ALLOC, 5), (END, 0)]], 1, [of(1) + [(ALLOC, 5), (END, 0)], two(2, 7), two(FREE, 6), two(4, 5), LEAF, LEAF, LEAF, two(8, 9), LEAF, LEAF]),
    ('in serial order, not by rising action', [[(FORK, 1), (ALLOC, 9), (JOIN, 1), (END, 0)], [(ALLOC, 9), (FREE, 9), (END, 0)]], 5,
     [[(FORK, 1), *of(5), (ALLOC, 9), (JOIN, 1), (END, 0)], [*of(2), (ALLOC, 9), (FREE, 9), (END, 0)], two(3, 4), LEAF, LEAF, two(6, 7), LEAF, LEAF]),
    ('two in one thread', [[(ALLOC, 2), (ALLOC, 1), (ALLOC, 2), (END, 0)]], 1,
     [[*of(1), (ALLOC, 2), (ALLOC, 1), *of(4), (ALLOC, 2), (END, 0)], two(2, 3), LEAF, LEAF, two(5, 6), LEAF, LEAF]),
]
TWO_400 = table([(FORK, 1), (ALLOC, 400), (JOIN, 1), (END, 0)], [(ALLOC, 400), (FREE, 400), (END, 0)])


def one(x, before=0):
    return table([(WORK, 0)] * before + [(ALLOC, x), (END, 0)])


def by_hand():
    for label, given, quota, wanted in BY_HAND:
        expect(label, filling.filled(table(*given), quota), table(*wanted))
    expect('E, facts', check(filling.filled(table(*E), 5)), ('table', 9, 34, 6, 17, 4))
    expect('44 by rising action', (filling.too_large(TWO_400, 1), filling.too_large(TWO_400, 2)), (4, None))
    expect('512', (filling.too_large(one(512), 1), check(filling.filled(one(512), 1))[1:3]), (None, (1024, 3583)))
    expect('513', filling.too_large(one(513), 1), 0)
    expect('4,609 works', (filling.too_large(one(512, 4609), 1), check(filling.filled(one(512, 4609), 1))[1:3]), (None, (1024, 8192)))
    expect('4,610 works', filling.too_large(one(512, 4610), 1), 4610)
    expect('the largest alloc', filling.too_large(one(2**24 - 1), 1), 0)
    expect('most bytes', len(filling.filled(one(512, 4609), 1)), 36868)


def main():
    count = int(sys.argv[1]) if len(sys.argv) > 1 else 1000
    by_hand()
    rng, fills = random.Random(6), 0
    for _ in range(count):
        threads = rng.randint(1, 20)
        data = drawn(rng, threads, rng.randint(threads, 6 * threads + 20), rng.choice([[2, 6], [9], [4, 100], [1, 300]]))
        quota = rng.randint(1, 40)
        expect('44', filling.too_large(data, quota), too_large(data, quota))
        if too_large(data, quota) is None:
            expect('the second model', filling.filled(data, quota), filled(data, quota))
            holds(data, quota)
            fills += filled(data, quota) != data
    if fills * 4 < count:
        raise SystemExit('only %d of %d tables were filled out' % (fills, count))
    print('%d tables by hand; %d random ones, %d of them filled out, hold' % (len(BY_HAND), count, fills))


if __name__ == '__main__':
    main()
