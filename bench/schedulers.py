"""Both schedulers side by side: the tables and the two pictures of docs/SCHEDULERS.md, for the tables of figures.py and trees.py with 1 to 16 workers in rounds and quotas around the largest alloc.
AsyncDF and DFDeques are run by the archives; FIFO, LIFO and work stealing are models of ours, in schedulers.c, of which nothing is proved.

usage: python3 bench/schedulers.py [--write | --check]
    From the repository's top, after `python3 tools/dist.py program memlimit` and `python3 tools/dist.py archive` of wivakkol_turn, wivakkol_deque_turn and wivakkol; needs a C compiler. Prints the page's tables; --write puts them and
    the pictures in their places, --check compares, and prints no table.

A run above one of its limits is an error. The limits are worked out here from the facts of wivakkol_check and the peaks of tests/peaks.py, and `memlimit` must say the same of these. Of random
choices and random victims there are 32 runs each, with fixed seeds, and one where there is but one worker.
"""
import argparse
import collections
import functools
import math
import os
import pathlib
import random
import subprocess
import sys

import bench  # puts tests/ on the path
import deques  # of tests/
import figures  # puts tools/ on the path
import trees
from figures import asked, number
from filling import filled
from machine import ENDED, READY, Worker
from peaks import Peaks
from picture import path, px, words
from reference import ALLOC, Table, check

ARCHIVES, OUT = ['target/staticlib/lib%s.a' % name for name in ('wivakkol_turn', 'wivakkol_deque_turn', 'wivakkol')], 'target/c'
PAGE, OVER_P, OVER_K = pathlib.Path('docs/SCHEDULERS.md'), pathlib.Path('docs/pictures/workers.svg'), pathlib.Path('docs/pictures/quotas.svg')
WORKERS, SHOWN, DRAWN, MOST, SEEDS, FEWER, LARGEST = (1, 2, 4, 8, 16), (2, 4, 16), 8, 16, 32, 8, 2**24 - 1
PARTS = (1 / 16, 1 / 8, 1 / 4, 1 / 2, 1, 2, 4, 16, None)  # quotas, by the largest alloc; None: the largest quota
TABLES = {
    **figures.TABLES,
    'fine tree': trees.fine_tree,
    'loop': trees.loop,
    'nested loops': trees.nested_loops,
    'halving': trees.halving,
    'halving work': trees.halving_work,
}
OURS, MODELS = ('asyncdf', 'zero', 'random'), ('stealing', 'lifo', 'fifo')
Facts = collections.namedtuple('Facts', 'threads actions serial depth nested above')  # of the table that runs; above: whether an alloc is above K
Run = collections.namedtuple('Run', 'peak turns takes quota waits idle far leaps place')


peaks_of = functools.cache(Peaks)  # many quotas have one filled-out table


class Case:
    """A table: the runs of each scheduler, by its name, p and quota, with 0 for the quota of a model; the facts by quota."""

    def __init__(self, name, data):
        self.name, self.data = name, data
        self.largest = max(x for kind, x in Table(data).actions if kind == ALLOC)
        self.quotas = {part: LARGEST if part is None else int(self.largest * part) for part in PARTS if part is None or self.largest * part >= 1}
        self.facts, self.runs = {}, collections.defaultdict(list)
        self.peaks = functools.cache(lambda quota: peaks_of(filled(data, quota)))
        for p in WORKERS:
            self.ask(p)

    def ask(self, p):
        command = [OUT + '/schedulers', str(p), str(SEEDS), *map(str, dict.fromkeys(self.quotas.values()))]
        for line in subprocess.run(command, input=self.data, capture_output=True, check=True).stdout.decode().splitlines():
            name, quota, *rest = line.split()
            if name == 'runs':
                self.facts[int(quota)] = Facts(*map(int, rest))
            elif name == 'refused' and rest != ['44']:
                raise SystemExit('%s, %d workers: %s' % (self.name, p, line))
            elif name != 'refused':
                self.runs[name, p, int(quota)].append(Run(*map(int, rest[1:])))

    def runs_with(self, name, p, quota):
        return self.runs[name, p, 0 if name in MODELS else quota]

    def mean(self, name, p, quota, what='peak'):
        found = [getattr(run, what) for run in self.runs_with(name, p, quota)]
        return sum(found) / len(found)

    def worst(self, name, p, quota):
        return max(run.peak for run in self.runs_with(name, p, quota))


class GivesUp(deques.Machine):
    """A model, not proved: DFDeques with the thesis's rule that a worker which has done a dummy gives its deque up (section 6.2.3). N13 lets a dummy run like any other thread."""

    def __init__(self, record, threads):
        super().__init__(record)
        self.given = threads

    def act(self, w):
        t = self.run.worker[w].thread
        reply = super().act(w)
        if t >= self.given and self.table.contents[t][1] == 2 and self.run.status[t] == ENDED and self.run.worker[w].holds:
            self.give_up(w)
        return reply

    def give_up(self, w):
        own, t = self.own(w), self.run.worker[w].thread
        own.threads.insert(0, t)
        own.owner = None
        self.run.status[t], self.run.worker[w] = READY, Worker()


@functools.cache
def given_up(data, p, quota):
    """The mean of the peaks, with random choices."""
    peaks = []
    for seed in range(1, FEWER + 1):
        rng, taking, turns = random.Random(seed), GivesUp(deques.begin(data, p, quota)[1], Table(data).n), 0
        while not taking.ended():
            w = turns % p
            taking.take(w, 0 if taking.run.worker[w].holds else rng.randrange(p))
            turns += 1
        peaks.append(taking.run.highest)
    return sum(peaks) / len(peaks)


# The limits

def demand_three(facts, p, quota):
    return facts.serial + quota * (p - 1) * (facts.depth - 1)


def limits_of(case, name, p, quota, run):
    """The limits of a run by name; b is 1, as the workers come in rounds."""
    facts, peaks = case.facts[quota], case.peaks(quota)
    if name == 'asyncdf':
        return {'demand 3': demand_three(facts, p, quota), 'S_p': peaks.workers(p)}
    limits = {'S_(c + 1)': peaks.workers(run.place + 2), 'S_(p + 1)': peaks.workers(p + 1)}
    if not facts.above:
        limits['S1 + K(N - 1 + far)'] = facts.serial + quota * (facts.nested - 1 + run.far)
        if p > 1:
            limits['demand 3 and leaps'] = demand_three(facts, p, quota) + quota * run.leaps
    return limits


def check_facts(case):
    """The archive's facts are the model's; `memlimit` says what peaks.py does."""
    for quota, facts in case.facts.items():
        if check(filled(case.data, quota))[1:] != facts[:5] or facts.above != (case.largest > quota):
            raise SystemExit('%s, K %d: %r' % (case.name, quota, facts))
    for p in WORKERS:
        said = asked('memlimit', bytes([p]) + case.largest.to_bytes(3, 'little') + bytes(4) + case.data)
        peaks, facts = case.peaks(case.largest), case.facts[case.largest]
        if [int(said[word]) for word in ('serial', 'peak', 'parallel')] != [facts.serial, peaks.workers(p), peaks.best(0)]:
            raise SystemExit('%s, %d workers: memlimit says %s' % (case.name, p, said['line']))


def check_runs(case):
    """No run of ours is above a limit of its own; how many there are. A model is never above the parallel peak, and one worker that may only rob itself is serial."""
    count = 0
    for (name, p, quota), runs in case.runs.items():
        for run in runs:
            limits = limits_of(case, name, p, quota, run) if name in OURS else {'parallel': case.peaks(LARGEST).best(0)}
            passed = {limit: value for limit, value in limits.items() if run.peak > value}
            if passed or name == 'zero' and (run.far or run.leaps or run.place):
                raise SystemExit('%s, %s, p %d, K %d: %r, above %r' % (case.name, name, p, quota, run, passed))
            if name == 'stealing' and p == 1 and (run.peak, run.turns) != (case.facts[LARGEST].serial, case.facts[LARGEST].actions):
                raise SystemExit('%s: one worker alone by the model of work stealing: %r' % (case.name, run))
            count += name in OURS
    return count


# The page's tables

TITLES = {'asyncdf': 'AsyncDF', 'zero': 'DFDeques, choices 0', 'random': 'DFDeques, random', 'stealing': '*work stealing*', 'lifo': '*LIFO*', 'fifo': '*FIFO*'}


def cells(values):
    return ' / '.join(number(round(value)) for value in values)


def lines_of(heads, rows):
    return '\n'.join(['| %s |' % ' | '.join(heads), '|' + '---|' * len(heads), *('| %s |' % ' | '.join(row) for row in rows)]) + '\n'


def peaks_table(cases):
    heads = ['table', 'threads', 'K', 'S1', *(TITLES[name] for name in OURS), 'worst of these', *(TITLES[name] for name in MODELS)]
    rows = []
    for case in cases:
        quota = case.largest
        of = {name: cells(case.mean(name, p, quota) for p in SHOWN) for name in OURS + MODELS}
        worst = cells(case.worst('random', p, quota) for p in SHOWN)
        facts = case.facts[quota]
        rows.append([case.name, *map(number, (facts.threads, quota, facts.serial)), *(of[name] for name in OURS), worst, *(of[name] for name in MODELS)])
    return lines_of(heads, rows)


def quotas_table(cases):
    """Of the tables in the pictures and one more, with 4 and 16 workers."""
    parts = (1 / 16, 1 / 4, 1, 4, None)
    heads = ['over K', 'p', *(TITLES[name] for name in OURS), 'its steals', '*a dummy gives the deque up*', TITLES['stealing']]
    rows = []
    for case in panels(cases, PANELS + ('halving work',)):
        for p in (4, MOST):
            over = lambda value, parts=parts: ' / '.join(number(round(value(quota))) if quota in case.facts else '–' for quota in map(case.quotas.get, parts))
            each = [over(lambda quota: case.mean(name, p, quota)) for name in OURS]
            steals, model = over(lambda quota: case.mean('random', p, quota, 'takes')), over(lambda quota: given_up(case.data, p, quota), parts[:2])
            rows.append([case.name, str(p), *each, steals, model, number(round(case.mean('stealing', p, 0)))])
    return lines_of(heads, rows)


def limits_table(cases):
    heads = ['limits', 'N', 'D', 'AsyncDF: S_p', 'demand 3\'s', 'DFDeques, choices 0: S_2', 'S1 + K·(N − 1)', 'any choices: S_(p + 1)']
    rows = []
    for case in cases:
        facts, peaks = case.facts[case.largest], case.peaks(case.largest)
        both = [cells(values) for values in ([peaks.workers(p) for p in SHOWN], [demand_three(facts, p, case.largest) for p in SHOWN])]
        zero = number(peaks.workers(2)), number(facts.serial + case.largest * (facts.nested - 1))
        rows.append([case.name, number(facts.nested), number(facts.depth), *both, *zero, cells(peaks.workers(p + 1) for p in SHOWN)])
    return lines_of(heads, rows)


def turns_table(cases):
    heads = ['turns', 'actions', *(TITLES[name] for name in OURS + MODELS)]
    rows = []
    for case in cases:
        each = [cells(case.mean(name, MOST, case.largest, what) for what in ('turns', 'takes', 'quota', 'idle')) for name in OURS + MODELS]
        rows.append([case.name, number(case.facts[case.largest].actions), *each])
    return lines_of(heads, rows)


# The pictures: a panel for each of six tables, peaks as multiples of S1

PANELS = ('tree', 'matrix', 'fine tree', 'loop', 'nested loops', 'halving')
LEFT, TOP, WIDE, HIGH, ACROSS, DOWN, SCALE = 52, 140, 250, 190, 310, 250, (0.9, 60)
COLOURS = {'asyncdf': '#06c', 'zero': '#117733', 'random': '#b00', 'stealing': '#84a', 'lifo': '#c70', 'fifo': '#777', 'given': '#e39'}
KEYS = {
    'asyncdf': 'AsyncDF',
    'zero': 'DFDeques, choices 0',
    'random': 'DFDeques, random choices: mean and worst',
    'stealing': 'work stealing (model)',
    'lifo': 'LIFO (model)',
    'fifo': 'FIFO (model)',
    'given': 'DFDeques, random choices, a dummy gives the deque up (model)',
    'asyncdf-limit': 'least proved limit of AsyncDF',
    'zero-limit': 'least proved limit of DFDeques with choices 0',
}
STYLE = ('text{font:11px sans-serif;fill:#222}text.head{font-weight:bold;font-size:14px}text.tick{fill:#555;font-size:10px}text.name{font-weight:bold}.axis{stroke:#ddd;fill:none}path{fill:none}'
         + ''.join('.%s{stroke:%s;stroke-width:1.6%s}' % (name, colour, '' if name in OURS else ';stroke-dasharray:5 3') for name, colour in COLOURS.items())
         + ''.join('.%s-limit{stroke:%s;stroke-dasharray:1 3}' % (name, COLOURS[name]) for name in ('asyncdf', 'zero')) + '.random-worst{stroke:#b00;stroke-width:1}')


def panels(cases, names=PANELS):
    return [next(case for case in cases if case.name == name) for name in names]


def least_limit(case, name, p, quota):
    """AsyncDF's in rounds; DFDeques' with all choices 0."""
    facts, peaks = case.facts[quota], case.peaks(quota)
    if name == 'asyncdf':
        return min(peaks.workers(p), demand_three(facts, p, quota))
    return peaks.workers(2) if facts.above else min(peaks.workers(2), facts.serial + quota * (facts.nested - 1))


def drawn_of(case, kind, p, quota):
    """What a curve of the kind shows, or None. From the largest alloc on the two DFDeques are one."""
    if quota not in case.facts or kind == 'given' and quota > case.largest:
        return None
    if kind == 'given':
        return given_up(case.data, p, quota) if quota < case.largest else case.mean('random', p, quota)
    return least_limit(case, kind[:-6], p, quota) if kind.endswith('-limit') else case.mean(kind, p, quota)


def height_of(ratio):
    return HIGH * (1 - math.log(min(max(ratio, SCALE[0]), SCALE[1]) / SCALE[0]) / math.log(SCALE[1] / SCALE[0]))


def curves(case, places, columns, kinds, serial):
    out = []
    for kind in reversed(kinds):
        values = [drawn_of(case, kind, p, quota) for _, p, quota in columns]
        points = ['%s %s' % (px(x), px(height_of(value / serial))) for x, value in zip(places, values) if value is not None]
        out += [path(kind, 'M' + 'L'.join(points), KEYS[kind])] if len(points) > 1 else []
    return out


def worst_marks(case, places, columns, serial):
    marks = ''
    for x, (_, p, quota) in zip(places, columns):
        if quota in case.facts:
            ends = [px(height_of(amount / serial)) for amount in (case.mean('random', p, quota), case.worst('random', p, quota))]
            marks += 'M%s %sV%sm-3 0h6' % (px(x), *ends)
    return path('random-worst', marks, 'the worst of random choices')


def panel(case, at, columns, kinds):
    """A column for each label, p and quota; a quota with which the table is refused has none."""
    serial, places = case.facts[case.largest].serial, [WIDE * (i + 0.5) / len(columns) for i in range(len(columns))]
    out = ['<g transform="translate(%d %d)">' % at, words(0, -8, '%s, S1 %s' % (case.name, number(serial)), 'name')]
    for ratio in (1, 2, 5, 10, 20, 50):
        out += [path('axis', 'M0 %sh%d' % (px(height_of(ratio)), WIDE)), words(-5, height_of(ratio) + 4, '%d ×' % ratio, 'tick', 'end')]
    out += [words(x, HIGH + 14, label, 'tick', 'middle') for x, (label, _, _) in zip(places, columns)]
    return out + [*curves(case, places, columns, kinds, serial), worst_marks(case, places, columns, serial), '</g>']


def legend(width, kinds):
    out, x, y = [], LEFT, 66
    for kind in kinds:
        wide = 50 + int(5.6 * len(KEYS[kind]))
        if x + wide > width:
            x, y = LEFT, y + 18
        out += [path(kind, 'M%d %dh22' % (x, y)), words(x + 27, y + 4, KEYS[kind], 'key')]
        x += wide
    return out


def picture(cases, title, caption, columns_of, kinds):
    size = LEFT + 2 * ACROSS + WIDE + 20, TOP + DOWN + HIGH + 30
    out = ['<svg xmlns="http://www.w3.org/2000/svg" width="%d" height="%d" viewBox="0 0 %d %d" role="img">' % (size * 2),
           '<title>%s</title><style>%s</style><rect width="%d" height="%d" fill="#fff"/>' % (title, STYLE, *size), words(LEFT, 24, title, 'head'), words(LEFT, 44, caption, 'caption')]
    out += legend(size[0], kinds)
    for i, case in enumerate(panels(cases)):
        out += panel(case, (LEFT + ACROSS * (i % 3), TOP + DOWN * (i // 3)), columns_of(case), kinds)
    return '\n'.join(out + ['</svg>']) + '\n'


def over_workers(cases):
    return picture(cases, 'The most memory held with 1 to 16 workers, as multiples of S1', 'K is the largest alloc; the workers come in rounds; a scale of powers.',
                   lambda case: [(str(p), p, case.largest) for p in WORKERS], [kind for kind in KEYS if kind != 'given'])


def over_quotas(cases):
    label = {None: 'most', 1 / 16: '1/16', 1 / 8: '1/8', 1 / 4: '1/4', 1 / 2: '1/2'}
    return picture(cases, 'The most memory held by 8 workers over K, as multiples of S1',
                   'K as a multiple of the largest alloc, below 1 with dummies, where the filled-out table is accepted; the models have no K.',
                   lambda case: [(label.get(part, str(part)), DRAWN, case.quotas.get(part)) for part in PARTS], list(KEYS))


# The command

def build():
    os.makedirs(OUT, exist_ok=True)
    warnings = ['-std=c99', '-Wall', '-Wextra', '-Werror', '-pedantic']
    subprocess.run(['cc', *warnings, '-O2', '-Iinclude', '-o', OUT + '/schedulers', 'bench/schedulers.c', *ARCHIVES], check=True)


def with_tables(page, tables, count):
    """The page with other tables in the places of those with the same first head; it says how many runs there are."""
    if 'of %s runs none is' % number(count) not in page:
        sys.exit('%s does not say that there are %s runs' % (PAGE, number(count)))
    for made in tables:
        start = page.index(made[:made.index('|', 2) + 1])
        page = page[:start] + made + page[page.index('\n\n', start) + 1:]
    return page


def main():
    options = argparse.ArgumentParser()
    which = options.add_mutually_exclusive_group()
    which.add_argument('--write', action='store_true')
    which.add_argument('--check', action='store_true')
    given = options.parse_args()
    build()
    cases = [Case(name, make()) for name, make in TABLES.items()]
    for case in cases:
        check_facts(case)
    count = sum(map(check_runs, cases))
    tables = [peaks_table(cases), quotas_table(cases), limits_table(cases), turns_table(cases)]
    if not given.check:
        print('\n'.join(tables))
    if given.write or given.check:
        for file, text in {OVER_P: over_workers(cases), OVER_K: over_quotas(cases), PAGE: with_tables(PAGE.read_text(), tables, count)}.items():
            if given.write:
                file.write_text(text)
            elif file.read_text() != text:
                sys.exit('%s is not what comes out now; --write writes it' % file)
    print('%d tables, %d runs of AsyncDF and DFDeques: none above a limit of its own' % (len(cases), count))


if __name__ == '__main__':
    main()
