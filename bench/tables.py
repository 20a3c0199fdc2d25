"""Measures the calls of include/wivakkol_tables.h against plain C by the same algorithms (bench/baseline.c, as the calls of bench/plain.h): processor time of a canonical form, of a comparison of
two tables and of joining. The first two on the four tables of bench.py, each under two numberings drawn at random, so that all bytes are compared; joining on sixteen parts of 60 threads each:
trees, chains, fans, and the three in turn. All take their turns to be measured one after the other, again and again, and each time is the least.

usage: python3 bench/tables.py [--rounds N] [--compiler 'CC -O..']
    From the repository's top, after `python3 tools/dist.py archive wivakkol_tables`; needs a C compiler, by default that of bench.py with -O3. N rounds (default 10) of 100 calls each.
"""
import pathlib
import random
import subprocess
import sys

import bench  # puts tests/ on the path
from bench import forked
from designs import shuffled
from reference import ALLOC, END, FORK, FREE, JOIN, WORK
from tables import drawn, table

sys.path.insert(0, str(pathlib.Path(__file__).parent.parent / 'tools'))
from parts import packed

ARCHIVE, CALLS = 'target/staticlib/libwivakkol_tables.a', '100'
NAMES = {'forms': ['`wivakkol_canonical`', '`wivakkol_compare`'], 'join': ['`wivakkol_join`']}


def tree(rng):
    return drawn(rng, 60, 400, [8, 64])


def chain(rng):
    link = lambda t: [(ALLOC, 8), (WORK, 0), (FORK, t + 1), (WORK, 0), (JOIN, t + 1), (FREE, 8), (END, 0)]
    return table(*map(link, range(59)), [(WORK, 0), (END, 0)])


def fan(rng):
    return table(forked(range(1, 60)), *[[(ALLOC, 64), (WORK, 0), (WORK, 0), (FREE, 64), (END, 0)]] * 59)


def inputs(rng):
    """Of each kind of calls the inputs with their names."""
    pairs = {make.__name__: [shuffled(rng, make()) for _ in range(2)] for make in bench.TABLES}
    parts = {'trees': [tree] * 16, 'chains': [chain] * 16, 'fans': [fan] * 16, 'mixed': [tree, chain, fan] * 5 + [tree]}
    joined = {name: [make(rng) for make in makes] for name, makes in parts.items()}
    return {kind: {name: packed(tables) for name, tables in of.items()} for kind, of in (('forms', pairs), ('join', joined))}


def report(kind, least):
    names = NAMES[kind]
    print('\nmicroseconds, C\'s, × C:\n\n| | %s |\n|---|%s' % (' | '.join(names), '---|' * len(names)))
    for name, t in least.items():
        print('| %s | %s |' % (name, ' | '.join('%.1f, %.1f, %.2f' % (x / 1000, y / 1000, x / y) for x, y in zip(t[::2], t[1::2]))))


def main():
    rounds, program = bench.from_c('tables', [ARCHIVE])
    given = inputs(random.Random(14))
    least = {kind: {name: [1e18] * 2 * len(NAMES[kind]) for name in of} for kind, of in given.items()}
    for _ in range(rounds):
        for kind, of in given.items():
            for name, data in of.items():
                times = subprocess.run([program, CALLS, kind], input=data, stdout=subprocess.PIPE, check=True).stdout.split()
                least[kind][name] = list(map(min, least[kind][name], map(float, times)))
    for kind, of in least.items():
        report(kind, of)


if __name__ == '__main__':
    main()
