"""How many turns at most (N8), written on its own: what a tree of dummies counts is added up tree by tree, and no table is built.

usage: python3 tests/most.py [COUNT]
    Holds it on COUNT random tables (default 300) to the counts of the filled-out table of filling.py, and to the machine of machine.py, whose run
    in rounds with that limit must finish.
"""
import functools
import random
import sys

import filling
import machine
from reference import ALLOC, JOIN, Table, check
from tables import drawn

HIGHEST = 2**24 - 1


@functools.cache
def tree(d):
    """Threads, actions and joins of a tree of d dummies."""
    if d == 1:
        return 1, 2, 0
    first, rest = tree((d + 1) // 2), tree(d // 2)
    return tuple(x + y + z for x, y, z in zip((1, 5, 2), first, rest))


def limit(data, p, quota):
    """('limit', L) or ('refused', number, place)."""
    found = check(data)
    if found[0] == 'refused':
        return found
    if not 1 <= p <= 16:
        return 'refused', 20, 0
    if not 1 <= quota <= HIGHEST:
        return 'refused', 21, 0
    given = Table(data)
    threads, actions, again = given.n, given.m, 0
    for a, (kind, x) in enumerate(given.actions):
        again += kind in (ALLOC, JOIN)
        if kind == ALLOC and x > quota:
            more = tree(x // quota + (x % quota > 0))
            threads, actions, again = threads + more[0], actions + more[1] + 2, again + more[2] + 1
            if threads > 1024 or actions > 8192:
                return 'refused', 44, a
    return 'limit', p * (actions + again)


def asked(p, quota, data, turns=0):
    """The input of maxturns, which is that of runrounds."""
    return bytes([p]) + quota.to_bytes(3, 'little') + turns.to_bytes(4, 'little') + data


def maxturns(data):
    """What maxturns prints, without the newline."""
    if len(data) < 8:
        return 'refused 33 0'
    return ' '.join(map(str, limit(data[8:], data[0], int.from_bytes(data[1:4], 'little'))))


def main():
    count = int(sys.argv[1]) if len(sys.argv) > 1 else 300
    rng, fills, exact = random.Random(8), 0, 0
    for _ in range(count):
        threads = rng.randint(1, 12)
        data = drawn(rng, threads, rng.randint(threads, 6 * threads + 20), rng.choice([[2, 6], [9], [4, 40]]))
        p, quota = rng.randint(1, 16), rng.randint(1, 20)
        answer = limit(data, p, quota)
        if answer[0] == 'refused':
            continue
        runs = Table(filling.filled(data, quota))
        counts = runs.m + sum(kind in (ALLOC, JOIN) for kind, _ in runs.actions)
        if answer[1] != p * counts:
            raise SystemExit('%d workers, %d actions and more: %d' % (p, counts, answer[1]))
        report, _ = machine.run_rounds(machine.begin(data, p, quota)[1], answer[1])
        if report[0] != 'finished':
            raise SystemExit('a run in rounds of %d workers with limit %d: %r' % (p, answer[1], report))
        fills += runs.n != Table(data).n
        exact += report[1] == answer[1]
    if fills * 4 < count:
        raise SystemExit('only %d of %d tables were filled out' % (fills, count))
    print('%d tables, %d of them filled out: all finish, %d with the last turn' % (count, fills, exact))


if __name__ == '__main__':
    main()
