"""The peak of p workers against runs: the table and the picture of docs/FIGURES.md, for the tables of bench.py, examples/ and matrix.py with 2, 4 and 16 workers. K is what the largest stretch
draws, b is 1.

usage: python3 bench/figures.py [--write | --check]
    From the repository's top, after `python3 tools/dist.py program tablecheck runrounds fitquota`, `python3 tools/dist.py archive wivakkol_turn wivakkol`; needs a C compiler. Lets adversary.c look for bad orders,
    prints the table and compares it with the page, the picture with docs/pictures/peaks.svg and the search's results with bench/worst.txt; --write puts them there in place of that. --check
    searches nothing and takes the worst from bench/worst.txt; it needs the programs alone.

A run above the peak, or above the useful limit, is an error. The peak S_p is that of tests/peaks.py; the useful limit is from `fitquota`, and the two must agree.
"""
import argparse
import collections
import math
import os
import pathlib
import subprocess
import sys
import zlib

import bench  # puts tests/ on the path
from matrix import matrix
from peaks import HIGHEST, Peaks, example
from quota import board

sys.path.insert(0, str(pathlib.Path(__file__).parent.parent / 'tools'))
from picture import path, px, words

ARCHIVES, OUT, BIN = ['target/staticlib/libwivakkol_turn.a', 'target/staticlib/libwivakkol.a'], 'target/c', 'target/bin/'
PAGE, PICTURE, WORST = pathlib.Path('docs/FIGURES.md'), pathlib.Path('docs/pictures/peaks.svg'), pathlib.Path('bench/worst.txt')
WORKERS, ORDERS, SEED, LARGEST_LIMIT = bench.WORKERS, 1500, 38, 2**32 - 1
TABLES = {
    'E': lambda: example('e.text'),
    'stages': lambda: example('stages.text'),
    'parts': lambda: example('parts.text'),
    'repeats': lambda: example('repeats.text'),
    'tree': lambda: example('tree.text'),
    'matrix': matrix,
    'matrix, leaves draw 8': lambda: matrix(drawn=8),
    'fan': bench.fan,
    'chain': bench.chain,
    'random tree': bench.tree,
    'comb': bench.comb,
}
Row = collections.namedtuple('Row', 'name threads quota serial cases')
Case = collections.namedtuple('Case', 'p rounds worst peak useful papers')


def asked(program, data):
    """The numbers in the line that a program prints, by the word before each."""
    line = subprocess.run([BIN + program], input=data, capture_output=True, check=True).stdout.decode().split()
    return {**dict(zip(line, line[1:])), 'line': ' '.join(line)}


# What the adversary finds

def build():
    os.makedirs(OUT, exist_ok=True)
    warnings = ['-std=c99', '-Wall', '-Wextra', '-Werror', '-pedantic']
    subprocess.run(['cc', *warnings, '-O2', '-Iinclude', '-o', OUT + '/adversary', 'bench/adversary.c', *ARCHIVES], check=True)


def key(name, data, p, quota):
    return '%s | %08x %d %d' % (name, zlib.crc32(data), p, quota)


def search(data, p, quota):
    command = [OUT + '/adversary', *map(str, (p, quota, ORDERS, SEED))]
    return subprocess.run(command, input=data, capture_output=True, check=True).stdout.decode().strip()


def stored():
    """By table, checksum of its bytes, p and K, what the adversary printed."""
    return dict(line.rsplit(': ', 1) for line in WORST.read_text().splitlines() if not line.startswith('#'))


def in_store(found):
    head = '# Written by bench/figures.py: table | crc32 of its bytes, p, K: what bench/adversary.c printed.\n'
    return head + ''.join('%s: %s\n' % pair for pair in found.items())


# The figures

def case(peaks, facts, data, p, quota, said):
    """One table with p workers; said: what the adversary printed."""
    serial, depth, worst = int(facts['serial']), int(facts['depth']), int(said.split()[-1])
    run = asked('runrounds', bytes([p]) + quota.to_bytes(3, 'little') + LARGEST_LIMIT.to_bytes(4, 'little') + data)
    peak, least = peaks.workers(p), int(asked('fitquota', board(p, 0, 0, data))['memory'])
    papers = serial + quota * (p - 1) * (depth - 1)
    if 'finished' not in run or least != min(peak, peaks.resting(p)):
        raise SystemExit('%s, %d workers: %s; fitquota says %d, peaks.py %d and %d' % (facts['line'], p, run['line'], least, peak, peaks.resting(p)))
    if int(run['peak']) > min(least, papers) or worst > least or int(said.split()[1]) < 1000:
        raise SystemExit('%s, %d workers: %s in rounds, %s: above %d, or too few orders' % (facts['line'], p, run['line'], said, least))
    return Case(p, int(run['peak']), worst, peak, min(least, papers), papers)


def figures(worst_of):
    """A row for each table; what worst_of says for each, by key."""
    rows, found = [], {}
    for name, make in TABLES.items():
        data = make()
        peaks, facts = Peaks(data), asked('tablecheck', data)
        quota, cases = peaks.stretch(HIGHEST), []
        for p in WORKERS:
            found[key(name, data, p, quota)] = said = worst_of(name, data, p, quota)
            cases.append(case(peaks, facts, data, p, quota, said))
        rows.append(Row(name, int(facts['table']), quota, int(facts['serial']), cases))
    return rows, found


def number(x):
    return format(x, ',')


def in_page(rows):
    """The page's table; worst cases that meet the least limit are bold."""
    heads = ['table', 'threads', 'K', 'S1', 'in rounds', 'worst found', 'S_p', 'useful limit, if less', 'demand 3\'s limit']
    lines = ['| %s |' % ' | '.join(heads), '|' + '---|' * len(heads)]
    for row in rows:
        worst = [('**%s**' if c.worst == c.useful else '%s') % number(c.worst) for c in row.cases]
        useful = [number(c.useful) for c in row.cases] if any(c.useful < c.peak for c in row.cases) else ['']
        cells = [[number(c.rounds) for c in row.cases], worst, [number(c.peak) for c in row.cases], useful, [number(c.papers) for c in row.cases]]
        lines.append('| %s | %s |' % (row.name, ' | '.join([*map(number, row[1:4]), *map(' / '.join, cells)])))
    return '\n'.join(lines) + '\n'


# The picture: a line for each table and p, on a scale of multiples of S_p

LEFT, TOP, LINE, GAP, ASIDE, SCALE, DECADE = 170, 104, 15, 10, 32, (0.05, 10000), 140
STYLE = ('text{font:11px sans-serif;fill:#222}text.head{font-weight:bold;font-size:14px}text.tick{fill:#555;font-size:10px}.axis{stroke:#ccc;fill:none}.row{stroke:#ddd;fill:none}'
         '.peak{stroke:#06c;fill:none;stroke-width:1.5}.papers{stroke:#b00;fill:none;stroke-width:1.5}.useful{stroke:#117733;fill:none;stroke-width:2}.worst{fill:#000}'
         '.rounds{fill:#fff;stroke:#000}')


def across(ratio):
    assert SCALE[0] <= ratio <= SCALE[1], ratio
    return LEFT + DECADE * math.log10(ratio / SCALE[0])


def mark(kind, x, y, title=None):
    """The mark of one of the five figures."""
    if kind in ('worst', 'rounds'):
        inner = '' if title is None else '<title>%s</title>' % title
        return '<circle class="%s" cx="%s" cy="%s" r="%s">%s</circle>' % (kind, px(x), px(y), '2.5' if kind == 'worst' else '4', inner)
    return path(kind, 'M%s %sv10' % (px(x), px(y - 5)), title)


KEY = (('rounds', 'held in rounds'), ('worst', 'worst found'), ('peak', 'S_p'), ('useful', 'useful limit, if less'), ('papers', 'demand 3\'s limit'))


def legend():
    out, x = [], LEFT
    for kind, content in KEY:
        out += [mark(kind, x, 62), words(x + 9, 66, content, 'key')]
        x += 34 + 6 * len(content)
    return out


def scale(bottom):
    out = []
    for ratio in (0.1, 1, 10, 100, 1000, 10000):
        x = across(ratio)
        out += [path('peak' if ratio == 1 else 'axis', 'M%s %sV%s' % (px(x), TOP - 8, px(bottom))), words(x, TOP - 14, '%s ×' % number(ratio), 'tick', 'middle')]
    return out


def drawn_case(c, y):
    kinds = [('papers', c.papers), ('useful', c.useful), ('rounds', c.rounds), ('worst', c.worst)]
    shown = [(kind, amount) for kind, amount in kinds if kind != 'useful' or c.useful < c.peak]
    ends = [across(amount / c.peak) for _, amount in shown]
    out = [path('row', 'M%s %sH%s' % (px(min(ends)), px(y), px(max(ends)))), words(LEFT - 8, y + 4, 'p %d' % c.p, 'tick', 'end')]
    out += [mark(kind, across(amount / c.peak), y, '%s %s' % (dict(KEY)[kind].replace(', if less', ''), number(amount))) for kind, amount in shown]
    return out + [words(across(SCALE[1]) + ASIDE, y + 4, number(c.peak), 'tick')]


def picture(rows):
    height = TOP + sum(LINE * len(row.cases) + GAP for row in rows) + 6
    right = across(SCALE[1])
    size = int(right) + 85, height
    title = 'Memory held and its limits, as multiples of S_p, the peak of p workers'
    out = ['<svg xmlns="http://www.w3.org/2000/svg" width="%d" height="%d" viewBox="0 0 %d %d" role="img">' % (size * 2),
           '<title>%s</title><style>%s</style><rect width="%d" height="%d" fill="#fff"/>' % (title, STYLE, *size),
           words(LEFT, 24, title, 'head'), words(LEFT, 44, 'A line for each table and number of workers p; K the largest stretch, b 1; a scale of powers of ten.', 'caption')]
    out += legend() + scale(height - 10) + [words(right + ASIDE, TOP - 14, 'S_p', 'tick')]
    y = TOP
    for row in rows:
        out.append(words(8, y + 4, row.name, 'name'))
        for c in row.cases:
            out += drawn_case(c, y)
            y += LINE
        y += GAP
    return '\n'.join(out + ['</svg>']) + '\n'


# The command

def with_table(page, table):
    """The page with another table in the place of its first one."""
    start = page.index('| table |')
    return page[:start] + table + page[page.index('\n\n', start) + 1:]


def main():
    options = argparse.ArgumentParser()
    which = options.add_mutually_exclusive_group()
    which.add_argument('--write', action='store_true')
    which.add_argument('--check', action='store_true')
    given = options.parse_args()
    if given.check:
        known = stored()
        rows, found = figures(lambda *of: known.get(key(*of)) or sys.exit('%s: not in %s, which --write writes' % (key(*of), WORST)))
    else:
        build()
        rows, found = figures(lambda name, *of: search(*of))
        print(in_page(rows), end='')
    made = {WORST: in_store(found), PICTURE: picture(rows), PAGE: with_table(PAGE.read_text(), in_page(rows))}
    for file, text in made.items():
        if given.write:
            file.write_text(text)
        elif file.read_text() != text:
            sys.exit('%s is not what comes out now; --write writes it' % file)
    print('%d tables with 2, 4 and 16 workers: no run above S_p; the page and its picture %s' % (len(rows), 'are written' if given.write else 'say the same'))


if __name__ == '__main__':
    main()
