"""A picture of a run: reads what `turnlist` or `dequelist` prints and writes an SVG, with a row for each worker, a column for each turn, and memory
held as a curve below. Or the same run as trace events (Chrome's JSON format), for a trace viewer.

usage: python3 tools/picture.py [LISTING] [-p P] [-K K] [-b B] [--trace | --rule]     (what it makes goes to standard output)
       python3 tools/picture.py --deques [LISTING] [-p P] [-K K] [--trace]
    LISTING: a file; without it, standard input. With all of p, K and b there is a line for the bound S1 + b·K·(p − 1)·(D − 1); with p alone, a
    row for each of the p workers. --rule writes one line of text in place of the picture: `least b 1`, the least b whose rule the turns keep,
    and with p and K `least b 1 bound 48 peak 12`. A listing that is not understood, or that cannot be one of a run with this p and K: one line
    on standard error, naming the listing's line, and exit status 1. --deques: the listing is one of `dequelist`, which does not say so itself. The
    bound is AsyncDF's, so that there is no b. Which thread a worker holds after a fork, a wait or an end is found by keeping the deques along the
    listing, and a listing whose turns do not fit them is not understood.

The picture. A turn is a cell: filled where its action was done, hatched at a quota turn, hollow at a wait, a dash where the worker is idle. A pale
bar from one cell to the next is a worker that holds its thread between two turns. The colour is the thread's number modulo 8; the number itself
stands in the cells or bars that have room for it, and each cell shows its line of the listing to a pointer that rests on it. A run of more than 256
turns is cut into bands of 256, from top to bottom. Where the listing has names behind its turns, as `wivakkol list` writes them of a design, they stand in
a list below all bands, and a label in the place of `work` where there is room. A bound that is far above the curve stands over a break of the scale. Where the run does not keep
the rule with b, the bound does not speak of it, which the picture says, with the least b whose rule it keeps.
"""
import argparse
import collections
import json
import re
import sys

# `called`, `label`: the names of the thread and of its work, where the listing has them, as `wivakkol` writes it of a design
Turn = collections.namedtuple('Turn', 'number worker thread action name held line called label', defaults=(None, None))
# `held`: its stretches; `taken`: the turns in which a worker takes a thread with the whole quota
Run = collections.namedtuple('Run', 'threads actions serial depth turns last deques held taken')
# a worker on one thread that it holds all the while: its turns, and the first and the last turn during which it holds it
Stretch = collections.namedtuple('Stretch', 'worker thread since turns until')
KINDS = ('end', 'work', 'alloc', 'free', 'fork', 'join')
LETS_GO = ('end', 'fork', 'quota', 'wait', 'idle')  # after such a turn its worker holds nothing
WORKERS, LARGEST_QUOTA = 16, 16777215


# The listing

class NotUnderstood(Exception):
    """A line of the listing, counted from 1, and what was expected there."""

    def __init__(self, number, expected, line=None):
        found = 'the listing ends' if line is None else 'found %s' % ascii(line[:60])
        super().__init__('line %d of the listing is not understood: expected %s, %s' % (number, expected, found))


class Contradicts(Exception):
    """A turn that no run with the p or K given has, and why."""

    def __init__(self, turn, name, value, why):
        super().__init__('line %d of the listing contradicts %s %d: %s, found %s' % (turn.number + 1, name, value, why, ascii(turn.line)))


def pattern(text):
    """A line with numbers in the places of N."""
    return re.compile(text.replace('N', '([0-9]{1,20})'))


HEAD = pattern('table N N serial N depth N')
CALLED = r'([A-Za-z_.][A-Za-z0-9_./\[\]-]*)'
TURN = pattern('N N N N (%s) N' % '|'.join(KINDS + ('quota', 'wait')) + '(?: CALLED(?: CALLED)?)?'.replace('CALLED', CALLED))
IDLE = pattern('N N - - idle N')
TOTALS = pattern('(done|open) N peak N')
REFUSED = pattern('refused N N')


def read_head(lines):
    if lines and REFUSED.fullmatch(lines[0]):
        raise NotUnderstood(1, 'a run, not a refusal', lines[0])
    found = HEAD.fullmatch(lines[0]) if lines else None
    if not found:
        raise NotUnderstood(1, 'table N M serial S1 depth D', *lines[:1])
    return map(int, found.groups())


def turn_in(line):
    """The turn that a line tells of, or None."""
    found = TURN.fullmatch(line)
    if found:
        number, worker, thread, action, name, held, called, label = found.groups()
        return Turn(int(number), int(worker), int(thread), int(action), name, int(held), line, called, label)
    found = IDLE.fullmatch(line)
    if found:
        number, worker, held = map(int, found.groups())
        return Turn(number, worker, None, None, 'idle', held, line)
    return None


def held_follows(name, before, held):
    """Memory held after a turn against what was held before it."""
    return held > before if name == 'alloc' else held < before if name == 'free' else held == before


def check_turn(turn, number, line, before, head):
    """That a turn's numbers fit the table and the turns before it."""
    threads, actions = head
    if turn.number != number:
        raise NotUnderstood(number + 1, 'turn %d' % number, line)
    if turn.worker >= WORKERS:
        raise NotUnderstood(number + 1, 'a worker below %d' % WORKERS, line)
    if turn.thread is not None and (turn.thread >= threads or turn.action >= actions):
        raise NotUnderstood(number + 1, 'a thread below %d and an action below %d' % head, line)
    if not held_follows(turn.name, before, turn.held):
        raise NotUnderstood(number + 1, 'memory held to follow from %d' % before, line)


def check_last(found, turns, number, line):
    """That the totals are those of the turns above them."""
    wanted = len(turns), max([turn.held for turn in turns], default=0)
    if (int(found[2]), int(found[3])) != wanted:
        raise NotUnderstood(number, '%d turns and peak %d' % wanted, line)


def read_listing(text, deques=False):
    lines = [line.rstrip('\r') for line in text.split('\n')]
    if lines[-1] == '':
        lines.pop()
    threads, actions, serial, depth = read_head(lines)
    turns, held = [], 0
    for number, line in enumerate(lines[1:], 2):
        totals = TOTALS.fullmatch(line)
        if totals or REFUSED.fullmatch(line):
            if totals:
                check_last(totals, turns, number, line)
            if number < len(lines):
                raise NotUnderstood(number + 1, 'nothing after the last line', lines[number])
            held, taken = Deques().follow(turns) if deques else stretches(turns)
            return Run(threads, actions, serial, depth, turns, line, deques, held, taken)
        turn = turn_in(line)
        if not turn:
            raise NotUnderstood(number, 'a turn, or done, open or refused', line)
        check_turn(turn, number - 1, line, held, (threads, actions))
        turns.append(turn)
        held = turn.held
    raise NotUnderstood(len(lines) + 1, 'a turn, or done, open or refused')


def check_workers(run, p):
    """That no turn is one of a worker from p on."""
    for turn in run.turns:
        if turn.worker >= p:
            raise Contradicts(turn, 'p', p, 'workers are below p')


def alloc_amounts(run):
    """The amount of each alloc that was done, by its action."""
    before, amounts = 0, {}
    for turn in run.turns:
        if turn.name == 'alloc':
            amounts[turn.action] = turn.held - before
        before = turn.held
    return amounts


def check_quota(run, quota):
    """That a worker draws at most K from taking a thread to giving it up, of DFDeques from one steal to the next, and that a quota turn wanted more
    than was left of K, where the amount is known: the alloc is done later in the listing. An alloc above K draws nothing, and comes after the fork and
    the join of its dummy threads."""
    amounts, drawn, names = alloc_amounts(run), {}, {}
    for turn in run.turns:
        if turn.number in run.taken:
            drawn[turn.worker] = 0
        had, amount = drawn.get(turn.worker, 0), amounts.get(turn.action)
        share = 0 if amount is None or amount > quota else amount
        if turn.name == 'alloc':
            had = drawn[turn.worker] = had + share
            if had > quota:
                raise Contradicts(turn, 'K', quota, 'worker %d has drawn %d on its thread' % (turn.worker, had))
            if amount > quota and (names.get(turn.action - 2), names.get(turn.action - 1)) != ('fork', 'join'):
                raise Contradicts(turn, 'K', quota, '%d is above it, and waits for no dummy threads' % amount)
        if turn.name == 'quota' and amount is not None and had + share <= quota:
            raise Contradicts(turn, 'K', quota, '%d after %d is within it' % (share, had))
        if turn.name in KINDS:
            names[turn.action] = turn.name


# What a run shows besides its lines

def least_b(turns):
    """The least b whose rule the run keeps: the most turns of one worker between two turns of another, or since that other's latest."""
    since, most = {}, 1
    for turn in turns:
        for worker, counts in since.items():
            if worker != turn.worker:
                counts[turn.worker] += 1
                most = max(most, counts[turn.worker])
        since[turn.worker] = collections.Counter()
    return most


def rule(run, p, quota):
    """The least b as a line of text; with p and K the bound that it gives, and the peak."""
    least = least_b(run.turns)
    if not (p and quota):
        return 'least b %d\n' % least
    return 'least b %d bound %d peak %d\n' % (least, Bound(run, p, quota, least).amount, max([turn.held for turn in run.turns], default=0))


def stretches(turns):
    """What each worker holds, and the turns in which one takes a thread."""
    mine, done = {}, []
    for turn in turns:
        if turn.name == 'idle':
            continue
        mine.setdefault(turn.worker, []).append(turn)
        if turn.name in LETS_GO:
            done.append((mine.pop(turn.worker), turn.number))
    done += [(row, len(turns)) for row in mine.values()]
    held = [Stretch(row[0].worker, row[0].thread, row[0].number, row, until) for row, until in done]
    return held, {stretch.since for stretch in held}


class Thread:
    """A thread of a run by DFDeques; its number is known once it has a turn."""

    def __init__(self, number, parent):
        self.number, self.parent, self.children, self.awaited = number, parent, [], None


class Deques:
    """The deques of a run by DFDeques, kept along its listing: each is [owner, threads], the top first."""

    def __init__(self):
        self.deques, self.numbers = [[None, [Thread(0, None)]]], {0}
        self.holds, self.done, self.taken = {}, [], set()  # a worker's thread, the first turn during which it holds it, and its turns on it

    def follow(self, turns):
        for turn in turns:
            self.take(turn)
            self.deques = [deque for deque in self.deques if deque[0] is not None or deque[1]]
        for worker in list(self.holds):
            self.give_up(worker, len(turns))
        return [Stretch(worker, thread.number, *rest) for worker, thread, *rest in self.done if thread.number is not None], self.taken

    def own(self, worker):
        return next(deque for deque in self.deques if deque[0] == worker)

    def hold(self, worker, thread, since):
        self.holds[worker] = thread, since, []

    def give_up(self, worker, until):
        thread, since, mine = self.holds.pop(worker)
        if since <= until:
            self.done.append((worker, thread, since, mine, until))
        return thread

    def go_on(self, worker, number):
        """With its deque's top thread; with none there, its deque leaves the list."""
        own = self.own(worker)
        if own[1]:
            self.hold(worker, own[1].pop(0), number + 1)
        else:
            own[0] = None

    def take(self, turn):
        worker, number = turn.worker, turn.number
        if worker not in self.holds:
            if turn.name == 'idle':
                return
            self.steal(turn)
        thread, _, mine = self.holds[worker]
        if thread.number is None and turn.thread not in self.numbers and turn.thread is not None:
            thread.number = turn.thread
            self.numbers.add(turn.thread)
        if turn.thread is None or thread.number != turn.thread:
            wanted = 'a thread that has had no turn' if thread.number is None else 'thread %d' % thread.number
            raise NotUnderstood(number + 1, '%s, which worker %d holds' % (wanted, worker), turn.line)
        mine.append(turn)
        self.act(turn, thread)

    def steal(self, turn):
        """From the bottom of the deque that has the thread there."""
        robbed = next((deque for deque in self.deques if deque[1] and deque[1][-1].number == turn.thread), None)
        if robbed is None:
            raise NotUnderstood(turn.number + 1, 'a thread at the bottom of a deque', turn.line)
        self.hold(turn.worker, robbed[1].pop(), turn.number)
        self.deques.append([turn.worker, []])
        self.taken.add(turn.number)

    def act(self, turn, thread):
        """What the turn does to the deques."""
        worker, number = turn.worker, turn.number
        if turn.name in ('join', 'wait') and not thread.children:
            raise NotUnderstood(number + 1, 'a child to join', turn.line)
        if turn.name == 'join':
            thread.children.pop()
        if turn.name not in LETS_GO:
            return
        self.give_up(worker, number)
        if turn.name == 'fork':
            self.own(worker)[1].insert(0, thread)
            thread.children.append(Thread(None, thread))
            self.hold(worker, thread.children[-1], number + 1)
        elif turn.name == 'quota':
            own = self.own(worker)
            own[0] = None
            own[1].insert(0, thread)
        elif turn.name == 'end' and thread.parent and thread.parent.awaited is thread:
            thread.parent.awaited = None
            self.hold(worker, thread.parent, number + 1)
        else:
            thread.awaited = thread.children[-1] if turn.name == 'wait' else None
            self.go_on(worker, number)


class Bound:
    """S1 + b·K·(p − 1)·(D − 1), and whether the run keeps the rule with b."""

    def __init__(self, run, p, quota, b):
        self.amount = run.serial + b * quota * (p - 1) * (run.depth - 1)
        self.sum = '%d + %d·%d·%d·%d = %d' % (run.serial, b, quota, p - 1, run.depth - 1, self.amount)
        self.b, self.least = b, least_b(run.turns)
        self.kept = self.least <= b

    def sentence(self):
        text = 'Bound S1 + b·K·(p − 1)·(D − 1) = %s.' % self.sum
        if self.kept:
            return text + ' The run keeps the rule with b %d.' % self.b
        return text + ' It does not speak of this run, which keeps the rule only from b %d on.' % self.least


# Layout: all lengths in pixels

# told apart also by readers who do not tell red from green or blue from yellow
COLOURS = ('#332288', '#e69f00', '#117733', '#cc79a7', '#882255', '#56b4e9', '#d55e00', '#cc6677')
ON_COLOURS = ('#fff', '#000', '#fff', '#000', '#fff', '#000', '#000', '#000')
BAND, LEFT, RIGHT, TOP, TICKS, GAP = 256, 96, 150, 92, 18, 26
FAR = 8  # a bound above so many times what else is shown is drawn above a break of the scale


def called_threads(run):
    """The names of the threads, by number, as far as the listing has them."""
    return {turn.thread: turn.called for turn in sorted(run.turns, key=lambda turn: turn.thread or 0) if turn.called}


class Key:
    """The threads' names, in columns below all bands."""

    def __init__(self, names, width):
        self.lines = ['%d %s' % pair for pair in names.items()]
        self.column = 5 * max(map(len, self.lines), default=0) + 18
        columns = max(1, (width - LEFT) // self.column)
        self.rows = -(-len(self.lines) // columns)
        self.height = 13 * self.rows + 8 if self.rows else 0

    def drawn(self, top):
        return [words(LEFT + i // self.rows * self.column, top + 13 * (i % self.rows), line, 'called small') for i, line in enumerate(self.lines)]


class Layout:
    def __init__(self, run, rows, bound):
        turns = len(run.turns)
        self.rows = rows
        self.cell = 48 if turns <= 24 else 22 if turns <= 64 else 10 if turns <= 128 else 5
        self.row = 34 if self.cell == 48 else 15
        self.curve = 130 if turns <= BAND else 70
        self.columns = max(1, min(turns, BAND))
        self.bands = max(1, -(-turns // BAND))
        self.width = LEFT + max(self.columns * self.cell, 640) + RIGHT
        self.band = rows * self.row + TICKS + self.curve + GAP
        self.key = Key(called_threads(run), self.width)
        self.height = TOP + self.bands * self.band + self.key.height
        held = max([run.serial, 1] + [turn.held for turn in run.turns])
        self.bound = bound.amount if bound else None
        self.far = bool(bound) and bound.amount > FAR * held
        self.top = held if self.far or not bound else max(held, bound.amount)

    def x(self, number):
        """The left edge of a turn's column."""
        return LEFT + (number - 1) % BAND * self.cell

    def y(self, number, worker):
        """The upper edge of a worker's row in the band of a turn."""
        return TOP + (number - 1) // BAND * self.band + worker * self.row

    def base(self, band):
        """Where the curve of a band has 0."""
        return TOP + band * self.band + self.rows * self.row + TICKS + self.curve

    def amount(self, band, amount):
        """Where the curve of a band has an amount."""
        room = self.curve - (24 if self.far else 10)
        return self.base(band) - room * amount / self.top

    def bound_at(self, band):
        return self.base(band) - self.curve + 4 if self.far else self.amount(band, self.bound)

    def ends(self, band):
        """The first and the last turn of a band."""
        return band * BAND + 1, band * BAND + self.columns


# The picture's parts

def px(value):
    return '%g' % round(value, 2)


def words(x, y, content, kind, anchor='start'):
    place = '' if anchor == 'start' else ' text-anchor="%s"' % anchor
    return '<text class="%s" x="%s" y="%s"%s>%s</text>' % (kind, px(x), px(y), place, content)


def path(kind, d, title=None):
    if title is None:
        return '<path class="%s" d="%s"/>' % (kind, d)
    return '<path class="%s" d="%s"><title>%s</title></path>' % (kind, d, title)


def box(x, y, width, height):
    return 'M%s %sh%sv%sh-%sz' % tuple(map(px, (x, y, width, height, width)))


def style():
    rules = ['text{font:11px sans-serif;fill:#222}', 'text.head{font-weight:bold;font-size:14px}', 'text.small{font-size:9px}',
             'text.tick{fill:#555;font-size:10px}', '.row{fill:#f3f3f3}', '.idle{stroke:#777;fill:none}', '.axis{stroke:#555;fill:none}',
             '.held{stroke:#000;fill:none;stroke-width:1.5}', '.area{fill:#ddd}', '.serial{stroke:#06c;fill:none;stroke-dasharray:6 3}',
             '.bound{stroke:#b00;fill:none;stroke-dasharray:10 3 2 3;stroke-width:1.5}', '.unkept{opacity:.5}', '.hold{opacity:.3}',
             '.wait{stroke-width:1.5}', '.ground{fill:#fff}']
    for i, (colour, on) in enumerate(zip(COLOURS, ON_COLOURS)):
        rules += ['.t%d{fill:%s}' % (i, colour), '.quota.t%d{fill:url(#q%d)}' % (i, i), '.wait.t%d{fill:#fff;stroke:%s}' % (i, colour),
                  'text.on%d{fill:%s}' % (i, on)]
    return '<style>%s</style>' % ''.join(rules)


def hatches():
    one = '<pattern id="q%d" width="4" height="4" patternUnits="userSpaceOnUse"><rect width="4" height="4" fill="#fff"/>' \
          '<path d="M-1 1L1 -1M0 4L4 0M3 5L5 3" stroke="%s" stroke-width="1.8"/></pattern>'
    return '<defs>%s</defs>' % ''.join(one % pair for pair in enumerate(COLOURS))


def mark(name, thread, x, y, width, height):
    """The class and the outline of a turn's cell."""
    if name == 'idle':
        return 'idle', 'M%s %sh%s' % (px(x + width * 0.2), px(y + height / 2), px(width * 0.6))
    if name == 'wait':
        return 'wait t%d' % (thread % 8), box(x + 0.75, y + 0.75, width - 1.5, height - 1.5)
    return '%s t%d' % ('quota' if name == 'quota' else 'done', thread % 8), box(x, y, width, height)


def label_kind(name, thread, *more):
    """The class of a text in a cell: dark on pale ground."""
    return ' '.join(more) if name in ('wait', 'quota') else ' '.join(more + ('on%d' % (thread % 8),))


def cell(layout, turn):
    """A turn's cell, with the thread's number, and the name of what was done, where there is room."""
    x, y, gap = layout.x(turn.number), layout.y(turn.number, turn.worker), 1 if layout.cell > 5 else 0
    kind, d = mark(turn.name, turn.thread, x, y + 1, layout.cell - gap, layout.row - 2)
    out, middle = [path(kind, d, turn.line)], x + (layout.cell - gap) / 2
    if layout.cell == 48:
        if turn.name == 'idle':
            return out + [words(middle, y + 28, 'idle', 'small', 'middle')]
        ground = [path('ground', box(x + 8, y + 3, 31, layout.row - 6))] if turn.name == 'quota' else []
        return out + ground + [words(middle, y + 15, turn.thread, label_kind(turn.name, turn.thread, 'thread'), 'middle'),
                               words(middle, y + 28, shortened(turn.label or turn.name), label_kind(turn.name, turn.thread, 'small'), 'middle')]
    if layout.cell == 22 and turn.thread is not None:
        kind = label_kind(turn.name, turn.thread, 'thread', 'small')
        ground = [path('ground', box(x + 2, y + 3, 17, layout.row - 6))] if turn.name == 'quota' else []
        return out + ground + [words(middle, y + 11, turn.thread, kind, 'middle')]
    return out


def shortened(label):
    """A label as far as it fits into a wide cell."""
    return label if len(label) <= 9 else label[:8] + '.'


def pieces(first, last):
    """The columns first to last, cut where a band ends: (first, last) of each piece."""
    while first <= last:
        end = min(last, (first - 1) // BAND * BAND + BAND)
        yield first, end
        first = end + 1


def held_between(stretch):
    """The columns in which a stretch's worker holds its thread and has no turn, cut where a band ends."""
    numbers = [stretch.since - 1, *(turn.number for turn in stretch.turns), stretch.until + 1]
    for here, following in zip(numbers, numbers[1:]):
        yield from pieces(here + 1, following - 1)


def bars(layout, run):
    """A bar for each stretch, where its worker holds the thread between its turns."""
    out = []
    for stretch in run.held:
        boxes = [box(layout.x(first), layout.y(first, stretch.worker) + 1, (last - first + 1) * layout.cell, layout.row - 2)
                 for first, last in held_between(stretch)]
        if boxes:
            out.append(path('hold t%d' % (stretch.thread % 8), ''.join(boxes)))
    return out


def filled_rows(row):
    """The columns of a stretch with one filled cell after the other, cut where a band ends."""
    numbers = [turn.number for turn in row if turn.name not in ('quota', 'wait')]
    starts = [i for i in numbers if i - 1 not in numbers]
    ends = [i for i in numbers if i + 1 not in numbers]
    for first, last in zip(starts, ends):
        yield from pieces(first, last)


def names(layout, run):
    """In narrow columns: each stretch's thread, once in a band, in the first bar or row of filled cells that has room for it."""
    out = []
    for stretch in run.held:
        thread, done = stretch.thread, set()
        places = [(place, 'thread small') for place in held_between(stretch)]
        places += [(place, 'thread small on%d' % (thread % 8)) for place in filled_rows(stretch.turns)]
        for (first, last), kind in sorted(places):
            band = (first - 1) // BAND
            if band not in done and (last - first + 1) * layout.cell >= 6 * len(str(thread)) + 3:
                done.add(band)
                out.append(words(layout.x(first) + 2, layout.y(first, stretch.worker) + layout.row - 4, thread, kind))
    return out


def step_of(room):
    """The least round number of turns between two ticks that leaves room for their numbers."""
    return next(step for step in (1, 2, 4, 8, 16, 32, 64) if step >= room)


def frame(layout, run, band):
    """A band's rows, their workers and the turns' numbers."""
    first, last = layout.ends(band)
    out, y = [], layout.y(first, layout.rows)
    for worker in range(layout.rows):
        top = layout.y(first, worker)
        out.append(path('row', box(LEFT, top + 1, layout.columns * layout.cell, layout.row - 2)))
        out.append(words(LEFT - 6, top + layout.row / 2 + 4, 'worker %d' % worker, 'worker', 'end'))
    step = step_of(34 / layout.cell)
    for i in range(first, min(last, len(run.turns)) + 1):
        if step == 1 or i % step == 0 or i == first:
            out.append(words(layout.x(i) + layout.cell / 2, y + 12, i, 'tick turn', 'middle'))
    out.append(words(12, y + 12, 'turn', 'tick'))
    return out


def curve(layout, run, band):
    """Memory held after each turn of a band: a step at the left edge of the turn's column."""
    first, last = layout.ends(band)
    held = run.turns[first - 2].held if first > 1 else 0
    d = 'M%s %s' % (LEFT, px(layout.amount(band, held)))
    for turn in run.turns[first - 1:last]:
        if turn.held != held:
            d += 'H%sV%s' % (px(layout.x(turn.number)), px(layout.amount(band, turn.held)))
            held = turn.held
    end = layout.x(min(last, max(len(run.turns), first))) + layout.cell
    d += 'H%s' % px(end)
    base = px(layout.base(band))
    return [path('area', 'M%s %sL%sV%sz' % (LEFT, base, d[1:], base)), path('held', d)]


def spread(labels, least):
    """Labels from top to bottom, (y, text, class), moved down so far that none covers another."""
    out, free = [], -least
    for y, content, kind in sorted(labels):
        free = max(y, free + least)
        out.append((free, content, kind))
    return out


def amount_lines(layout, run, band, bound):
    """S1, the bound and the axis of a band's curve, with their numbers."""
    right = LEFT + layout.columns * layout.cell
    serial = layout.amount(band, run.serial)
    out = [path('axis', 'M%s %sV%sH%s' % (LEFT, px(layout.amount(band, layout.top)), px(layout.base(band)), right)),
           path('serial', 'M%s %sH%s' % (LEFT, px(serial), right))]
    labels = [(serial, 'S1 %d' % run.serial, 'serial-text')]
    if bound:
        y = layout.bound_at(band)
        out.append(path('bound' if bound.kept else 'bound unkept', 'M%s %sH%s' % (LEFT, px(y), right)))
        labels.append((y, 'bound %d' % bound.amount, 'bound-text'))
        notes = ['not to scale'] * layout.far + ['b not kept'] * (not bound.kept)
        if notes:
            labels.append((y + 1, ', '.join(notes), 'small'))
        if layout.far:
            out.append(path('axis', 'M%s %sl5 -2l-10 -3l10 -3l-5 -2V%s' % (LEFT, px(y + 16), px(y))))
    out += [words(right + 6, y + 4, content, kind) for y, content, kind in spread(labels, 12)]
    out += [words(LEFT - 6, layout.amount(band, amount) + 4, amount, 'tick amount', 'end') for amount in (0, layout.top)]
    return out + [words(12, layout.base(band) - layout.curve / 2, 'held', 'tick')]


def peak(layout, run):
    """The first turn that left the highest amount."""
    highest = max(run.turns, key=lambda turn: turn.held, default=None)
    if highest is None or not highest.held:
        return []
    band = (highest.number - 1) // BAND
    x, y = layout.x(highest.number), layout.amount(band, highest.held)
    late = x > LEFT + layout.columns * layout.cell - 90
    dot = '<circle class="peak" cx="%s" cy="%s" r="3"/>' % (px(x), px(y))
    return [dot, words(x - 6 if late else x + 6, y - 4, 'peak %d' % highest.held, 'peak-text', 'end' if late else 'start')]


LEGEND = (('work', 'done'), ('hold', 'thread held, no turn'), ('quota', 'quota: alloc not done'), ('wait', 'wait: join not done'))


def legend(run):
    out, x = [], LEFT
    for name, content in (*LEGEND, ('idle', 'idle: nothing stolen' if run.deques else 'idle: none ready')):
        kind, d = ('hold t0', box(x, 60, 22, 13)) if name == 'hold' else mark(name, 0, x, 60, 22, 13)
        out += [path('key ' + kind, d), words(x + 27, 71, content, 'key')]
        x += 44 + 6 * len(content)
    return out


def head_line(run):
    kind = 'Run by DFDeques' if run.deques else 'Run'
    return '%s of %d threads and %d actions: S1 %d, D %d; %s' % (kind, run.threads, run.actions, run.serial, run.depth, run.last)


def caption(run, bound):
    more = 'Colour: thread number modulo 8.'
    return [words(LEFT, 24, head_line(run), 'head'), words(LEFT, 44, '%s %s' % (bound.sentence(), more) if bound else more, 'caption')]


def picture(run, rows, bound=None):
    layout = Layout(run, rows, bound)
    size = layout.width, layout.height
    out = ['<svg xmlns="http://www.w3.org/2000/svg" width="%d" height="%d" viewBox="0 0 %d %d" role="img">' % (size + size),
           '<title>%s</title>' % head_line(run), style(), hatches(),
           '<rect width="%d" height="%d" fill="#fff"/>' % size]
    out += caption(run, bound) + legend(run)
    for band in range(layout.bands):
        out += frame(layout, run, band)
    out += bars(layout, run)
    for turn in run.turns:
        out += cell(layout, turn)
    if layout.cell <= 10:
        out += names(layout, run)
    for band in range(layout.bands):
        out += curve(layout, run, band) + amount_lines(layout, run, band, bound)
    return '\n'.join(out + peak(layout, run) + layout.key.drawn(TOP + layout.bands * layout.band) + ['</svg>']) + '\n'


# The trace

TICK = 1000  # a turn's length in the trace, in microseconds


def slices(run):
    """A slice for each stretch of a worker on a thread, and inside it one for each turn, by their names where the listing has them."""
    called = called_threads(run)
    for stretch in run.held:
        yield {'ph': 'X', 'pid': 1, 'tid': stretch.worker, 'ts': (stretch.since - 1) * TICK, 'dur': (stretch.until - stretch.since + 1) * TICK,
               'name': called.get(stretch.thread, 'thread %d' % stretch.thread), 'cat': 'thread'}
    for turn in run.turns:
        told = {} if turn.thread is None else {'thread': turn.thread, 'action': turn.action}
        yield {'ph': 'X', 'pid': 1, 'tid': turn.worker, 'ts': (turn.number - 1) * TICK, 'dur': TICK, 'name': turn.label or turn.name, 'cat': 'turn',
               'args': {'turn': turn.number, **told, 'held': turn.held}}


def counter(name, turn, amount):
    return {'ph': 'C', 'pid': 1, 'ts': turn * TICK, 'name': name, 'args': {'units': amount}}


def trace(run, rows, bound=None):
    events = [{'ph': 'M', 'pid': 1, 'name': 'process_name', 'args': {'name': 'run'}}]
    for worker in range(rows):
        events.append({'ph': 'M', 'pid': 1, 'tid': worker, 'name': 'thread_name', 'args': {'name': 'worker %d' % worker}})
        events.append({'ph': 'M', 'pid': 1, 'tid': worker, 'name': 'thread_sort_index', 'args': {'sort_index': worker}})
    events += slices(run)
    events += [counter('memory held', turn.number - 1, turn.held) for turn in run.turns]
    for turn in (0, len(run.turns)):
        events.append(counter('S1', turn, run.serial))
        if bound:
            events.append(counter('bound', turn, bound.amount))
    events.sort(key=lambda event: event.get('ts', -1))  # of equal times the order above stays: a stretch comes before its first turn
    return '{"displayTimeUnit":"ms","traceEvents":[\n%s\n]}\n' % ',\n'.join(json.dumps(event) for event in events)


# The command

def in_range(low, high):
    def whole_number(word):
        value = int(word)
        if not low <= value <= high:
            raise argparse.ArgumentTypeError('%d is outside %d to %d' % (value, low, high))
        return value
    return whole_number


def arguments():
    parser = argparse.ArgumentParser(description='A picture of a run, from what turnlist or dequelist prints.')
    parser.add_argument('listing', nargs='?', help='a file; without it, standard input')
    parser.add_argument('-p', type=in_range(1, WORKERS), help='workers')
    parser.add_argument('-K', type=in_range(1, LARGEST_QUOTA), help='quota')
    parser.add_argument('-b', type=in_range(1, 65535), help='turns that one worker may have between two of another')
    parser.add_argument('--deques', action='store_true', help='the listing is one of dequelist')
    made = parser.add_mutually_exclusive_group()
    made.add_argument('--trace', action='store_true', help='trace events in place of the picture')
    made.add_argument('--rule', action='store_true', help='one line of text: the least b whose rule the turns keep')
    given = parser.parse_args()
    if given.rule and given.b:
        parser.error('--rule finds b: it takes no -b')
    if given.deques and (given.rule or given.b):
        parser.error("the rule with b and its bound are AsyncDF's: --deques takes neither -b nor --rule")
    return given


def main():
    given = arguments()
    try:
        data = open(given.listing, 'rb').read() if given.listing else sys.stdin.buffer.read()
        run = read_listing(data.decode('ascii', 'replace'), given.deques)
        if given.p:
            check_workers(run, given.p)
        if given.K:
            check_quota(run, given.K)
    except (NotUnderstood, Contradicts, OSError) as fault:
        raise SystemExit('picture: %s' % fault)
    if given.rule:
        sys.stdout.write(rule(run, given.p, given.K))
        return
    rows = max([turn.worker + 1 for turn in run.turns], default=1)
    bound = Bound(run, given.p, given.K, given.b) if given.p and given.K and given.b else None
    made = trace if given.trace else picture
    sys.stdout.buffer.write(made(run, given.p or rows, bound).encode())


if __name__ == '__main__':
    main()
