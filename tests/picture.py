"""Compares the pictures and traces of tools/picture.py with the listings that they are made from: E and random runs, listed by machine.py, and by
deques.py for runs by DFDeques, of which the model says who holds which thread.

usage: python3 tests/picture.py [COUNT]    (from the repository's top; COUNT random runs beside E and the longest listing, default 60)

A picture is read as a reader does: columns by the turns' numbers under them, rows by the workers' names, amounts by the axis; nothing is taken from
the tool's code. Damaged pictures and traces must be found out, and damaged listings refused with their line. A K other than the run's is refused at
the line where the run with that K goes another way, as far as the listing has the amount that decides it.
"""
import collections
import json
import random
import re
import subprocess
import sys
import xml.etree.ElementTree as xml

import deques
import machine
from reference import ALLOC, END, FORK, FREE, JOIN, WORK
from tables import drawn, table

NUMBER = r'-?[0-9.]+'
NEAR = 0.02  # pixels: the picture's numbers have two decimals
Line = collections.namedtuple('Line', 'turn worker thread name held text')
Seen = collections.namedtuple('Seen', 'left top width height classes title')


class Differs(Exception):
    pass


def expect(what, found, wanted):
    if found != wanted:
        raise Differs('%s: expected %s, found %s' % (what, str(wanted)[:200], str(found)[:200]))


def near(what, found, wanted, far=NEAR):
    if abs(found - wanted) > far:
        raise Differs('%s: expected %s, found %s' % (what, wanted, found))


# What a listing says

class Listing:
    """`held`: what workers hold while others have their turns, where the listing alone does not say it."""

    def __init__(self, text, held=None):
        self.held = held
        rows = [row.split() for row in text.splitlines()]
        self.serial, self.depth = int(rows[0][4]), int(rows[0][6])
        self.last = text.splitlines()[-1]
        self.turns = [Line(int(r[0]), int(r[1]), None if r[2] == '-' else int(r[2]), r[4], int(r[5]), ' '.join(r)) for r in rows[1:-1]]
        self.peak = max([t.held for t in self.turns], default=0)

    def holding(self):
        """(worker, turn, thread): the worker holds the thread while another has this turn."""
        if self.held is not None:
            return self.held
        holds, out = {}, set()
        for t in self.turns:
            out.update((w, t.turn, thread) for w, thread in holds.items() if w != t.worker)
            holds.pop(t.worker, None)
            if t.name in ('work', 'alloc', 'free', 'join'):
                holds[t.worker] = t.thread
        return out

    def keeps(self, b):
        """The rule with b, by its words: after a turn of w, up to w's next, each other worker has at most b turns."""
        workers = [t.worker for t in self.turns]
        for i, w in enumerate(workers):
            stretch = workers[i + 1:]
            stretch = stretch[:stretch.index(w)] if w in stretch else stretch
            if any(count > b for count in collections.Counter(stretch).values()):
                return False
        return True


# What a picture shows

def outline(d):
    """The boxes, or dashes, of a path: (left, top, width, height) of each."""
    boxes = re.findall(r'M(%s) (%s)h(%s)v(%s)h-\3z' % ((NUMBER,) * 4), d)
    dashes = re.findall(r'M(%s) (%s)h(%s)$' % ((NUMBER,) * 3), d)
    return [tuple(map(float, box)) for box in boxes] + [tuple(map(float, dash)) + (0.0,) for dash in dashes]


class Shown:
    def __init__(self, svg):
        root = xml.fromstring(svg)
        plain = [(element, element.tag.split('}')[1], element.get('class', '').split()) for element in root.iter()]
        self.style = next(e.text for e, tag, _ in plain if tag == 'style')
        self.patterns = {e.get('id'): e[1].get('stroke') for e, tag, _ in plain if tag == 'pattern'}
        self.texts = [(float(e.get('x')), float(e.get('y')), c, e.text) for e, tag, c in plain if tag == 'text' and 'key' not in c]
        self.lines = [(c, e.get('d')) for e, tag, c in plain if tag == 'path' and c and 'key' not in c]
        self.boxes = [Seen(*box, c, e[0].text if len(e) else None) for e, tag, c in plain if tag == 'path' and c and 'key' not in c
                      for box in outline(e.get('d'))]
        self.peaks = [(float(e.get('cx')), float(e.get('cy'))) for e, tag, _ in plain if tag == 'circle']
        self.rows = self.read_rows()
        self.columns = self.read_columns()

    def of(self, kind):
        return [box for box in self.boxes if kind in box.classes]

    def words(self, kind):
        return [(x, y, content) for x, y, classes, content in self.texts if kind in classes]

    def read_rows(self):
        """(band, worker, top, bottom, left, right) of each row: by the name beside it; a band begins with worker 0."""
        band, rows = -1, []
        names = self.words('worker')
        for box in sorted(self.of('row'), key=lambda box: box.top):
            name, = [content for _, y, content in names if box.top <= y <= box.top + box.height]
            worker = int(name.split()[1])
            band += worker == 0
            rows.append((band, worker, box.top, box.top + box.height, box.left, box.left + box.width))
        return rows

    def read_columns(self):
        """For each band a turn with the middle of its column, and the width of a column."""
        ticks = {}
        for x, y, content in self.words('turn'):
            band = max(b for b, _, _, bottom, _, _ in self.rows if bottom < y)
            ticks.setdefault(band, []).append((int(content), x))
        pairs = [(b - a, y - x) for row in ticks.values() for (a, x), (b, y) in zip(row, row[1:])]
        width = pairs[0][1] / pairs[0][0] if pairs else self.rows[0][5] - self.rows[0][4]
        for turns, apart in pairs:
            near('ticks apart', apart, turns * width)
        return {band: (row[0][0], row[0][1], width) for band, row in ticks.items()}

    def place(self, x, y):
        """The worker and the turn, with a fraction, at a point."""
        band, worker = next((row[0], row[1]) for row in self.rows if row[2] <= y <= row[3])
        turn, middle, width = self.columns[band]
        return worker, turn + (x - middle) / width

    def look(self, classes):
        """Fill and stroke by the style's rules, the more classes in a rule the stronger."""
        look = {}
        for names, body in sorted(re.findall(r'((?:\.[a-z0-9]+)+)\{([^}]*)\}', self.style), key=lambda rule: rule[0].count('.')):
            if set(names[1:].split('.')) <= set(classes):
                look.update(item.split(':') for item in body.split(';'))
        return look.get('fill'), look.get('stroke')


# The comparison

def colour_of(shown, box):
    """A cell's sort, told by how it is drawn, and its colour."""
    fill, stroke = shown.look(box.classes)
    if box.height == 0:
        return 'idle', None
    if fill.startswith('url('):
        return 'quota', shown.patterns[fill[5:-1]]
    return ('wait', stroke) if fill == '#fff' else ('done', fill)


def compare_cells(listing, shown):
    """One cell for each turn, in its row and column, of its sort and colour, with its line; gives each thread's colour."""
    cells, colours = {}, {}
    for box in shown.boxes:
        if box.title is None:
            continue
        worker, turn = shown.place(box.left + box.width / 2, box.top + box.height / 2)
        near('a cell in the middle of its column', turn, round(turn), 0.11)
        expect('turn drawn once', round(turn) in cells, False)
        sort, colour = colour_of(shown, box)
        cells[round(turn)] = worker, sort, box.title
        line = listing.turns[round(turn) - 1]
        if line.thread is not None:
            expect('colour of thread %d' % line.thread, colours.setdefault(line.thread % 8, colour), colour)
    wanted = {t.turn: (t.worker, t.name if t.name in ('quota', 'wait', 'idle') else 'done', t.text) for t in listing.turns}
    expect('cells', cells, wanted)
    expect('colours are different', len(set(colours.values())), len(colours))
    return colours


def compare_bars(listing, shown, colours):
    """The columns in which a worker holds a thread and has no turn."""
    found = set()
    for box in shown.of('hold'):
        for i in range(round(box.width / shown.columns[0][2])):
            worker, turn = shown.place(box.left + (i + 0.5) * shown.columns[0][2], box.top + 1)
            near('a bar in its column', turn, round(turn), 0.01)
            found.add((worker, round(turn), shown.look(box.classes)[0]))
    expect('bars', found, {(worker, turn, colours[thread % 8]) for worker, turn, thread in listing.holding()})


def compare_threads(listing, shown):
    """Each number in a row is that of the thread that its worker has in this column."""
    has = {(worker, turn): thread for worker, turn, thread in listing.holding()}
    has.update({(t.worker, t.turn): t.thread for t in listing.turns})
    for x, y, content in shown.words('thread'):
        worker, turn = shown.place(x, y - 3)
        expect('thread at turn %s' % turn, int(content), has[worker, round(turn)])
    if len(listing.turns) <= 64:
        expect('a number for each turn with a thread', len(shown.words('thread')), sum(t.thread is not None for t in listing.turns))


def axes(shown):
    """For each band the heights of 0 and of the axis's top number, and that number."""
    found = [re.fullmatch(r'M%s (%s)V(%s)H%s' % ((NUMBER,) * 4), d) for classes, d in shown.lines if classes == ['axis']]
    ends = [(float(m[2]), float(m[1])) for m in found if m]
    tops = [int(content) for _, _, content in shown.words('amount')]
    expect('an axis for each band', (len(ends), len(tops), set(tops[::2])), (len(ends), 2 * len(ends), {0}))
    return [(base, top, amount) for (base, top), amount in zip(ends, tops[1::2])]


def steps(d):
    """The points of a path of horizontal and vertical lines."""
    x, y = map(float, re.match(r'M(%s) (%s)' % (NUMBER, NUMBER), d).groups())
    points = [(x, y)]
    for letter, value in re.findall(r'([HV])(%s)' % NUMBER, d):
        x, y = (float(value), y) if letter == 'H' else (x, float(value))
        points.append((x, y))
    return points


def compare_curve(listing, shown):
    """Memory held after each turn, in the turn's column."""
    curves = [steps(d) for classes, d in shown.lines if classes == ['held']]
    expect('curves', len(curves), len(axes(shown)))
    for band, (points, (base, top, amount)) in enumerate(zip(curves, axes(shown))):
        height = lambda held: base - (base - top) * held / amount
        near('where the curve begins', points[0][1], height(listing.turns[256 * band - 1].held if band else 0))
        mine = listing.turns[256 * band:256 * band + 256]
        for t in mine:
            turn, middle, width = shown.columns[band]
            x = middle + (t.turn - turn) * width
            level, = {a[1] for a, b in zip(points, points[1:]) if a[0] < x < b[0]}
            near('held after turn %d' % t.turn, level, height(t.held))
        if mine:
            near('where the curve ends', points[-1][0], x + width / 2)


def compare_line(shown, kind, amount, far=False):
    """A line across each band at an amount, with its number beside it."""
    lines = [steps(d) for classes, d in shown.lines if kind in classes]
    expect('%s lines' % kind, len(lines), len(axes(shown)))
    label = {'serial': 'S1 %d', 'bound': 'bound %d'}[kind] % amount
    expect('labels of %s' % kind, [content for _, _, content in shown.words(kind + '-text')], [label] * len(lines))
    for (left, right), (base, top, highest) in zip(lines, axes(shown)):
        expect('a level line', left[1], right[1])
        if far:
            expect('above the break', left[1] < top, True)
        else:
            near('height of %s' % kind, left[1], base - (base - top) * amount / highest)


def compare_bound(listing, shown, given):
    bounds = [classes for classes, _ in shown.lines if 'bound' in classes]
    if not given:
        return expect('no line for the bound', bounds, [])
    p, quota, b = given
    amount = listing.serial + b * quota * (p - 1) * (listing.depth - 1)
    notes = {content for _, _, content in shown.words('small') if not content.isdigit()} - set(machine.KINDS) - {'quota', 'wait', 'idle'}
    compare_line(shown, 'bound', amount, any('not to scale' in note for note in notes))
    expect('b not kept', any('b not kept' in note for note in notes), not listing.keeps(b))
    expect('class of the bound', any('unkept' in classes for classes in bounds), not listing.keeps(b))
    sentence = shown.words('caption')[0][2]
    expect('the sentence on b', 'The run keeps the rule with b %d.' % b in sentence, listing.keeps(b))
    least = re.search(r'only from b (\d+) on', sentence)
    if least:
        expect('the least b', (listing.keeps(int(least[1]) - 1), listing.keeps(int(least[1]))), (False, True))
    expect('the sum', '= %d.' % amount in sentence, True)


def compare_peak(listing, shown):
    expect('peak', [content for _, _, content in shown.words('peak-text')], ['peak %d' % listing.peak] * (listing.peak > 0))
    for x, y in shown.peaks:
        t = next(t for t in listing.turns if t.held == listing.peak)
        turn, middle, width = shown.columns[(t.turn - 1) // 256]
        near('column of the peak', x, middle + (t.turn - turn - 0.5) * width)
        base, top, amount = axes(shown)[(t.turn - 1) // 256]
        near('height of the peak', y, base - (base - top) * t.held / amount)


def compare_picture(text, svg, rows, given, held=None):
    listing, shown = Listing(text, held), Shown(svg)
    bands = max(1, -(-len(listing.turns) // 256))
    expect('rows', [row[:2] for row in shown.rows], [(band, worker) for band in range(bands) for worker in range(rows)])
    expect('head', listing.last in shown.words('head')[0][2], True)
    colours = compare_cells(listing, shown)
    compare_bars(listing, shown, colours)
    compare_threads(listing, shown)
    compare_curve(listing, shown)
    compare_line(shown, 'serial', listing.serial)
    compare_bound(listing, shown, given)
    compare_peak(listing, shown)


def compare_trace(text, trace, rows, given, held=None):
    """A slice for each turn inside one of its thread, and memory held as a counter."""
    listing, events = Listing(text, held), json.loads(trace)['traceEvents']
    turns = {e['args']['turn']: e for e in events if e.get('cat') == 'turn'}
    found = {i: (e['tid'], e['args'].get('thread'), e['name'], e['args']['held'], e['ts'], e['dur']) for i, e in turns.items()}
    expect('slices', found, {t.turn: (t.worker, t.thread, t.name, t.held, (t.turn - 1) * 1000, 1000) for t in listing.turns})
    inside = set()
    for e in events:
        if e.get('cat') == 'thread':
            inside |= {(e['tid'], i, int(e['name'].split()[1])) for i in range(e['ts'] // 1000 + 1, (e['ts'] + e['dur']) // 1000 + 1)}
    expect('stretches', inside, listing.holding() | {(t.worker, t.turn, t.thread) for t in listing.turns if t.thread is not None})
    counts = [(e['ts'], e['args']['units']) for e in events if e['ph'] == 'C' and e['name'] == 'memory held']
    expect('memory held', counts, [((t.turn - 1) * 1000, t.held) for t in listing.turns])
    bound = listing.serial + given[2] * given[1] * (given[0] - 1) * (listing.depth - 1) if given else None
    for name, amount in (('S1', listing.serial), ('bound', bound)):
        expect(name, {e['args']['units'] for e in events if e['name'] == name}, set() if amount is None else {amount})
    names = [e['args']['name'] for e in events if e['name'] == 'thread_name']
    expect('workers', names, ['worker %d' % w for w in range(rows)])


# Inputs

def run_tool(text, *words):
    done = subprocess.run([sys.executable, 'tools/picture.py', *map(str, words)], input=text.encode(), capture_output=True)
    return done.returncode, done.stdout.decode(), done.stderr.decode()


def made(text, *words):
    status, out, said = run_tool(text, *words)
    expect('the tool with %s' % (words,), (status, said), (0, ''))
    return out


def both(text, given, rows):
    words = ['-p', given[0], '-K', given[1], '-b', given[2]] if given else []
    svg, trace = made(text, *words), made(text, '--trace', *words)
    compare_picture(text, svg, rows, given)
    compare_trace(text, trace, rows, given)
    return svg, trace


def listed(p, quota, order, data):
    return machine.turnlist(bytes([p]) + quota.to_bytes(3, 'little') + len(order).to_bytes(2, 'little') + bytes(order) + data)


def filled_run():
    """E with K 5, filled out: allocs above K, which draw nothing."""
    with open('examples/e.table', 'rb') as f:
        return listed(2, 5, [0, 1] * 30, f.read()), (2, 5, 1), 2


def stopped_run():
    """Two workers in rounds: a thread that is stopped by its quota and then waits."""
    root = [(FORK, 1), (ALLOC, 4), (ALLOC, 4), (JOIN, 1), (FREE, 8), (END, 0)]
    return listed(2, 6, [0, 1] * 14, table(root, [(WORK, 0)] * 8 + [(END, 0)])), (2, 6, 1), 2


def long_run():
    """The longest listing there is, of 16 workers in rounds over 1,000 threads."""
    data = drawn(random.Random(7), 1000, 6000, [8, 64])
    return listed(16, 64, [i % 16 for i in range(4096)], data), (16, 64, 1), 16


def random_run(rng):
    """A listing, its p and K, order and table: few turns or many, in rounds or not."""
    threads = rng.randint(1, rng.choice([3, 12, 60]))
    data = drawn(rng, threads, rng.randint(threads, 8 * threads + 20), rng.choice([[1], [2, 6], [9], [16777215]]))
    p, quota = rng.choice([1, 2, 3, rng.randint(1, 16), 16]), rng.choice([4, 9, 12, 20, 16777215])
    length = rng.choice([0, 1, 14, 24, 25, 64, 65, 128, 129, 256, 257, rng.randint(0, 700)])
    order = bytes(i % p if length % 2 else rng.randrange(p) for i in range(length))
    if order and rng.random() < 0.1:
        order = order[:-1] + b'\xff'
    text = listed(p, quota, order, data)
    return (text, p, quota, order, data) if text.startswith('table') else random_run(rng)


# Runs by DFDeques

def deque_listed(p, quota, order, data):
    """A listing, and by the model (worker, turn, thread) for each worker that holds a thread while another has this turn. A thread forked last and without a
    turn has no number in a listing."""
    text = deques.dequelist(bytes([p]) + quota.to_bytes(3, 'little') + len(order).to_bytes(2, 'little') + bytes(order) + data)
    holds, held = {}, set()

    def seen(count, w, reply, taking):
        held.update((other, count, t) for other, t in holds.items() if other != w)
        holds.clear()
        holds.update((other, worker.thread) for other, worker in enumerate(taking.run.worker) if worker.holds)

    if text.startswith('table'):
        deques.run_pairs(deques.begin(data, p, quota)[1], order, seen)
    named = {t.thread for t in Listing(text).turns} if text.startswith('table') else set()
    return text, {place for place in held if place[2] in named}


def both_of_deques(text, held, p, quota):
    svg, trace = made(text, '--deques', '-p', p, '-K', quota), made(text, '--deques', '--trace', '-p', p)
    compare_picture(text, svg, p, None, held)
    compare_trace(text, trace, p, None, held)
    expect('the kind of run', ['DFDeques' in content for _, _, content in Shown(svg).words('head')], [True])


def pairs(text):
    return [int(x) for x in text.replace(' ', '')]


def random_deques(rng):
    threads = rng.randint(1, rng.choice([3, 12, 60]))
    data = drawn(rng, threads, rng.randint(threads, 8 * threads + 20), rng.choice([[1], [2, 6], [9], [16777215]]))
    p, quota = rng.choice([1, 2, 3, rng.randint(1, 16)]), rng.choice([4, 9, 12, 20, 16777215])
    order = [x for _ in range(rng.choice([0, 1, 24, 65, 129, 257, rng.randint(0, 700)])) for x in (rng.randrange(p), rng.choice([0, rng.randrange(p)]))]
    text, held = deque_listed(p, quota, order, data)
    return (text, held, p, quota) if text.startswith('table') else random_deques(rng)


def deque_runs(e, e_data, count, rng):
    """E's two listings, random ones, and what --deques refuses."""
    stopped = deque_listed(2, 6, pairs('00 11 00 00 00 00 10 00 00 10 10 00 10 10 10 10 10'), e_data)
    both_of_deques(*stopped, 2, 6)
    both_of_deques(*deque_listed(2, 6, pairs('00 10 00 10 00 10 00 10 00 10 10 10'), e_data), 2, 6)
    both_of_deques(*deque_listed(2, 5, pairs('00 10 ' * 16 + '10 10'), e_data), 2, 5)
    for _ in range(count):
        both_of_deques(*random_deques(rng))
    text = stopped[0]
    for words, line, why in ([], 3, e), (['-K', 12], 10, text), (['-K', 5], 4, text), ([], 10, text.replace('9 0 2 9', '9 0 1 9')), \
            ([], 3, text.replace('2 1 - - idle', '2 1 1 5 work')), ([], 5, text.replace('4 0 1 6 work', '4 0 - - idle')), \
            ([], 4, text.replace('3 0 1 5 alloc 6', '3 0 0 5 alloc 6')), ([], 5, text.replace('4 0 1 6 work', '4 0 1 6 join')):
        status, out, said = run_tool(why, '--deques', *words)
        expect('refused at line %d' % line, (status, out, said.count('\n'), said.startswith('picture: line %d of' % line)), (1, '', 1, True))
    for words in ['-b', 1], ['--rule']:
        expect('--deques with %s' % words, run_tool(text, '--deques', *words)[:2], (2, ''))


# Other numbers than the run's

def compare_rule(text, p, quota):
    """The least b as text: the rule is kept with it and with none below."""
    listing = Listing(text)
    least = int(re.fullmatch(r'least b ([0-9]+)\n', made(text, '--rule'))[1])
    expect('the least b', (listing.keeps(least), least == 1 or not listing.keeps(least - 1)), (True, True))
    bound = listing.serial + least * quota * (p - 1) * (listing.depth - 1)
    expect('the rule with p and K', made(text, '--rule', '-p', p, '-K', quota), 'least b %d bound %d peak %d\n' % (least, bound, listing.peak))


def parting(text, p, other, order, data):
    """The line at which the run with another K leaves this listing, 0 where it is the same, None where the listing does not have the amount."""
    again = listed(p, other, order, data)
    if again == text:
        return 0
    mine, rows = text.splitlines(), again.splitlines()
    if mine[0] != rows[0]:  # another table runs with that K, or none
        return next((i for i, row in enumerate(mine) if row.split()[4:5] == ['alloc'] and too_much(mine, i, other)), None)
    number = next(i for i, (a, b) in enumerate(zip(mine, rows)) if a != b)
    _, _, thread, action, name, _ = mine[number].split()
    done = any(row.split()[2:5] == [thread, action, 'alloc'] for row in mine)
    return number + 1 if name == 'alloc' or done else None


def too_much(rows, i, quota):
    """Whether the alloc of row i is above the quota by itself, with no dummy threads forked and joined just before it."""
    before, action = int(rows[i - 1].split()[-1]) if i > 1 else 0, int(rows[i].split()[3])
    done = {tuple(row.split()[3:5]) for row in rows[1:i]}
    return int(rows[i].split()[-1]) - before > quota and not {(str(action - 2), 'fork'), (str(action - 1), 'join')} <= done


def other_quotas(rng, text, p, quota, order, data):
    """How many other K the tool was asked with, and how many of these it refused."""
    asked = refused = 0
    for other in {quota - 1, quota + 1, rng.randint(1, 60)} - {0, quota, 16777216}:
        line = parting(text, p, other, order, data)
        status, out, said = run_tool(text, '-K', other, '--rule')
        if line == 0:
            expect('K %d, which the listing allows' % other, (status, said), (0, ''))
        elif line is not None and listed(p, other, order, data).splitlines()[0] == text.splitlines()[0]:
            wanted = 1, '', 1, True
            expect('K %d' % other, (status, out, said.count('\n'), said.startswith('picture: line %d of the listing contradicts K' % line)), wanted)
        elif line is not None:
            expect('K %d below an alloc' % other, (status, out, 'contradicts K' in said), (1, '', True))
        asked, refused = asked + 1, refused + status
    return asked, refused


# What must be found out

DAMAGES = [
    ('a cell of another sort', r'class="done (t1)"', r'class="wait \1"'), ('a quota turn as done', r'class="quota ', 'class="done '),
    ('a wait as done', r'class="wait ', 'class="done '),
    ('an idle turn with a thread', r'class="idle" d="M[^"]*"', 'class="done t0" d="M96 94h5v5h-5z"'),
    ('another colour', r'class="done t2"', 'class="done t3"'), ('two threads of one colour', r'\.t1\{fill:#e69f00\}', '.t1{fill:#332288}'),
    ('a hatch of another colour', r'(id="q(\d)"[^\n]*?) stroke="#[0-9a-f]*"(?=.*class="quota t\2")', r'\1 stroke="#777"'),
    ('a cell less', r'<path class="done[^\n]*</path>\n', ''), ('another line', r'<title>5 ', '<title>6 '),
    ('a cell a column to the right', r'(class="done t0" d="M)96 ', r'\g<1>144 '),
    ('a cell in another row', r'(class="done t0" d="M96 )93h', r'\g<1>127h'),
    ('a bar less', r'<path class="hold[^\n]*\n', ''), ('a bar too long', r'(class="hold t1" d="M\d+ \d+h)48(v32h-)48', r'\g<1>96\g<2>96'),
    ('another thread in a cell', r'(class="thread[^>]*>)2<', r'\g<1>1<'),
    ('a step of the curve higher', r'(class="held" d="M96 [0-9.]*H[0-9]*V)[0-9.]*', r'\g<1>250'),
    ('a step too late', r'(class="held" d="M96 [0-9.]*H)144', r'\g<1>192'),
    ('S1 higher', r'(class="serial" d="M96 )[0-9.]*', r'\g<1>250'), ('another S1', '>S1 6<', '>S1 7<'),
    ('the bound lower', r'(class="bound" d="M96 )[0-9.]*', r'\g<1>250'), ('another bound', '>bound 48<', '>bound 47<'),
    ('no bound', r'<path class="bound[^\n]*\n', ''), ('the peak elsewhere', r'cx="288"', 'cx="240"'), ('another peak', '>peak 12<', '>peak 13<'),
    ('another axis', r'(class="tick amount"[^>]*>)48<', r'\g<1>24<'), ('workers swapped', '>worker 0<', '>worker 1<'),
    ('another end', r'(class="head".*?)done 14 peak 12', r'\g<1>done 14 peak 11'),
]
TRACE_DAMAGES = [('another worker', r'"tid": 1, "ts": 1000', '"tid": 0, "ts": 1000'), ('a longer turn', '"dur": 1000,', '"dur": 2000,'),
                 ('other memory', r'"units": 12', '"units": 11'), ('another thread', '"name": "thread 2"', '"name": "thread 1"')]


def differs(compare, text, good, bad, *rest):
    """Whether a damage that changes something is found out."""
    if good == bad:
        return False
    try:
        compare(text, bad, *rest)
    except (Differs, ValueError, KeyError, IndexError, StopIteration, TypeError):
        return True
    return False


def damages(*runs):
    """Each damage is found out on one of the runs, each (listing, (p, K, b), rows); those of a trace on the first."""
    drawn = [(text, both(text, given, rows), rows, given) for text, given, rows in runs]
    for what, found, put in DAMAGES:
        if not any(differs(compare_picture, text, svg, re.sub(found, put, svg, count=1, flags=re.S), rows, given)
                   for text, (svg, _), rows, given in drawn):
            raise SystemExit('not found out: %s' % what)
    text, (_, trace), rows, given = drawn[0]
    for what, found, put in TRACE_DAMAGES:
        if not differs(compare_trace, text, trace, re.sub(found, put, trace, count=1), rows, given):
            raise SystemExit('not found out: %s' % what)
    return len(DAMAGES) + len(TRACE_DAMAGES)


def refusals(e):
    """Listings that are none: the tool names the line, in one line, with exit status 1 and nothing on standard output."""
    rows = e.splitlines()
    bad = [
        (1, ''), (1, 'refused 3 0\n'), (1, '\n' + e), (1, 'table 3 12 serial 6 depth 8 nested 2\n'), (1, '\xff\xfe\0' + e), (2, rows[0] + '\n'),
        (16, '\n'.join(rows[:15])), (16, '\n'.join(rows[:15]) + '\n'), (17, e + 'more\n'), (17, e + '\n'), (5, '\n'.join(rows[:4] + rows[5:])),
        (3, e.replace('2 1 1 5 alloc 6', '2 1 1 5 alloc')), (3, e.replace('2 1 1 5 alloc 6', '2 1 1 5 steal 6')),
        (3, e.replace('2 1 1 5', '2 16 1 5')),
        (3, e.replace('2 1 1 5', '2 1 3 5')), (3, e.replace('2 1 1 5', '2 1 1 12')), (3, e.replace('2 1 1 5', '2 1 - -')),
        (5, e.replace('work 6', 'work 7')),
        (16, e.replace('done 14', 'done 13')), (16, e.replace('peak 12', 'peak 11')), (12, e.replace('11 0 - - idle', '11 0 0 2 idle')),
        (3, e.replace('alloc 6', 'alloc ' + '6' * 5000, 1)), (4, e.replace('3 0 0 1 fork', '3  0 0 1 fork')), (1, ' ' * 1000000)]
    for line, text in bad:
        status, out, said = run_tool(text)
        expect('refusal of %r' % text[:40], (status, out, said.count('\n'), said.startswith('picture: line %d of' % line)), (1, '', 1, True))
    status, out, said = run_tool(e, '-p', 1)
    expect('p too small', (status, out, said.count('\n'), 'line 3 ' in said), (1, '', 1, True))
    status, out, said = run_tool(e, 'no/such/listing')
    expect('no such file', (status, out, said.count('\n')), (1, '', 1))
    return len(bad) + 2


def main():
    count = int(sys.argv[1]) if len(sys.argv) > 1 else 60
    e = machine.turnlist(open('examples/e.run', 'rb').read())
    both(e, None, 2)
    both(e.replace('\n', '\r\n'), None, 2)
    both(*long_run())
    both(*filled_run())
    compare_rule(filled_run()[0], 2, 5)
    compare_rule(e, 2, 6)
    expect("E's rule", made(e, '--rule', '-p', 2, '-K', 6), 'least b 1 bound 48 peak 12\n')
    compare_rule(*stopped_run()[:1], 2, 6)
    rng = random.Random(20261115)
    shown, asked, refused = collections.Counter(), 0, 0
    for _ in range(count):
        text, p, quota, order, data = random_run(rng)
        compare_rule(text, p, quota)
        more = other_quotas(rng, text, p, quota, order, data)
        asked, refused = asked + more[0], refused + more[1]
        given = (p, quota, rng.choice([1, 1, 2, 5])) if rng.random() < 0.7 else None
        rows = p if given else max([int(row.split()[1]) + 1 for row in text.splitlines()[1:-1]], default=1)
        both(text, given, rows)
        shown.update(row.split()[-2] for row in text.splitlines()[1:-1])
    print('%d random runs, %d turns: %s' % (count, sum(shown.values()), ', '.join('%s %d' % pair for pair in sorted(shown.items()))))
    if count >= 60:
        expect('other K, refused and not', (refused > 0, asked > refused), (True, True))
    print('%d other quotas asked with, %d contradicted' % (asked, refused))
    print('%d damages found out, %d listings refused' % (damages((e, (2, 6, 1), 2), stopped_run()), refusals(e)))
    with open('examples/e.table', 'rb') as f:
        deque_runs(e, f.read(), count // 2, rng)
    print('%d random runs by DFDeques' % (count // 2))


if __name__ == '__main__':
    main()
