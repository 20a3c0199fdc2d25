"""What to do about a refusal: the check that refused has decided, with its number and place, and what stands here looks the place up in the table and says
what it found there, where that comes from and what was expected. Also what a table leaves at its end, and where two tables differ.

reason(number, place, source) answers words, or None where there is nothing to put in the place of those of the refusal.
"""
import collections

KINDS = ('end', 'work', 'alloc', 'free', 'fork', 'join')
END, WORK, ALLOC, FREE, FORK, JOIN = range(6)


class Source:
    """A table as it was given, as far as it can be read: its bodies, each a list of (kind, argument), and how it calls threads and places."""

    def __init__(self, data, bodies, names=None, lines=None, heads=None, jobs=None):
        self.data, self.bodies, self.names, self.lines, self.heads, self.jobs = data, bodies, names, lines, heads, jobs
        self.places = [(thread, at) for thread, body in enumerate(bodies) for at in range(len(body))]
        self.firsts = [0]
        for body in bodies:
            self.firsts.append(self.firsts[-1] + len(body))

    def who(self, thread):
        """A thread by its name, with its job where the name does not say it."""
        if not self.names:
            return 'thread %d' % thread
        job = self.jobs[thread]
        return self.names[thread] + ('' if self.short(thread).split('[')[0] == job else ' (job %s)' % job)

    def short(self, thread):
        """A thread as a join names it."""
        return self.names[thread].rsplit('/', 1)[-1] if self.names else str(thread)

    def where(self, thread, at):
        return 'line %d' % self.lines[thread][at] if self.lines else 'action %d' % (self.firsts[thread] + at)

    def shown(self, thread, at):
        """An action in the words of a text."""
        kind, argument = self.bodies[thread][at]
        if kind in (FORK, JOIN):
            return '%s %s' % (KINDS[kind], self.short(argument))
        return KINDS[kind] + (' %d' % argument if kind > WORK else '')


def of_text(data):
    """Of a table's text that is well-formed."""
    bodies, lines, heads = [], [], []
    for number, line in enumerate(data.split(b'\n'), 1):
        words = line.split(b'#')[0].split()
        if words[:1] == [b'thread']:
            bodies.append([])
            lines.append([])
            heads.append(number)
        elif words and bodies:
            bodies[-1].append((KINDS.index(words[0].decode()), int(words[1]) if words[1:] else 0))
            lines[-1].append(number)
    return Source(data, bodies, lines=lines, heads=heads)


def of_bytes(data):
    """Of bytes; without bodies where the head does not fit them."""
    number = lambda at, size: int.from_bytes(data[at:at + size], 'little')
    threads, actions, bodies = number(0, 2), number(2, 2), []
    if len(data) == 4 + 4 * threads + 4 * actions:
        for thread in range(threads):
            first, count = number(4 + 4 * thread, 2), number(6 + 4 * thread, 2)
            start = 4 + 4 * threads + 4 * first
            bodies.append([(data[at], number(at + 1, 3)) for at in range(start, start + 4 * count, 4)] if first + count <= actions else [])
    return Source(data, bodies)


def of_design(data, made):
    return Source(data, made.bodies, made.names, made.lines, made.heads, made.jobs)


def utf_16(data):
    """Whether a text looks as if its letters had two bytes."""
    return data[:2] in (b'\xff\xfe', b'\xfe\xff') or len(data) >= 8 and any(not any(data[i:64:2]) and all(8 < x < 127 for x in data[1 - i:64:2]) for i in (0, 1))


SAVE = 'text in UTF-16, two bytes to a letter; save it as UTF-8'


def commas(number):
    return '{:,}'.format(number)


def many(count, what):
    return '%s %s%s' % (commas(count), what, '' if count == 1 else 's')


# Refusals

def reason(number, place, source):
    """What is to be said of a refusal at a place."""
    why = found_there(number, place, source)
    return 'in job %s, %s' % (job_at(place, source), why) if why and source.jobs else why


def job_at(place, source):
    return source.jobs[source.places[place][0]]


def found_there(number, place, source):
    if number in (1, 2, 3) and source.lines is None and utf_16(source.data):
        return SAVE
    if number in HEAD:
        return HEAD[number](source)
    if number in (4, 11):
        return of_thread(number, place, source)
    if number in ACTIONS and place < len(source.places):
        return ACTIONS[number](source, *source.places[place])
    return None


def cut_off(source):
    if source.data and not source.data.strip():
        return 'the text is empty: it has no thread'
    return 'found %s, and a table has at least 12; is it cut off?' % many(len(source.data), 'byte') if source.data else 'the file is empty'


def outside(source):
    if source.lines is None:
        return 'n is %s and m is %s; n is 1 to 1,024 and m 1 to 8,192. Is it a table at all, with its low bytes first?' % tuple(
            commas(int.from_bytes(source.data[at:at + 2], 'little')) for at in (0, 2))
    if not source.bodies:
        return 'the text is empty: it has no thread'
    return '%s and %s; a table has 1 to 1,024 threads and 1 to 8,192 actions' % (many(len(source.bodies), 'thread'), many(len(source.places), 'action'))


def length(source):
    n, m = (int.from_bytes(source.data[at:at + 2], 'little') for at in (0, 2))
    found = commas(len(source.data)) if len(source.data) <= 36868 else 'more than 36,868'
    return 'found %s bytes; a table with n %s and m %s has %s' % (found, commas(n), commas(m), commas(4 + 4 * n + 4 * m))


HEAD = {1: cut_off, 2: outside, 3: length}


def of_thread(number, place, source):
    if source.lines is None and number == 4:
        return entry(place, source.data)
    if number == 4:
        return 'thread %d has no action; it has at least its end' % place
    return 'thread %d is forked nowhere; fork it or take it out' % place


def entry(place, data):
    """Of the contents of a table as bytes: the entry against the counts before it."""
    pairs = [(int.from_bytes(data[at:at + 2], 'little'), int.from_bytes(data[at + 2:at + 4], 'little')) for at in range(0, 4 + 4 * int.from_bytes(data[:2], 'little'), 4)]
    (n, m), before = pairs[0], sum(count for _, count in pairs[1:place + 1])
    if place == n:
        return 'the counts add up to %s, and m is %s' % (commas(before), commas(m))
    first, count = pairs[place + 1]
    if first == before and not count:
        return 'thread %d has no action; it has at least its end' % place
    return 'it begins at action %s, and the counts before it add up to %s' % (commas(first), commas(before))


def kind_above(source, thread, at):
    return 'kind %d; kinds are 0 to 5. If several are wrong from here on, an action is not 4 bytes long' % source.bodies[thread][at][0]


def argument(source, thread, at):
    kind, x = source.bodies[thread][at]
    last = len(source.bodies) - 1
    if kind in (ALLOC, FREE):
        return '%s 0; give at least 1 unit, or take it out' % KINDS[kind]
    if kind in (END, WORK):
        return '%s has the argument %d; it has none' % (KINDS[kind], x)
    if x > last:
        return 'there is no thread %d; the %s has %s' % (x, 'text' if source.lines else 'table', 'thread 0 alone' if not last else 'threads 0 to %d' % last)
    return 'thread %d %ss thread %d, which is not above it; number the threads so that each is above the one that forks it' % (thread, KINDS[kind], x)


def ends(source, thread, at):
    left = len(source.bodies[thread]) - 1 - at
    if left:
        return 'thread %d ends here and has %s after it; take the end out, or what follows' % (thread, many(left, 'action'))
    return 'thread %d does not end; put end after this' % thread


def forked_twice(source, thread, at):
    x = source.bodies[thread][at][1]
    other, there = next(place for place in source.places if source.bodies[place[0]][place[1]] == (FORK, x))
    return 'thread %d is forked already, in %s; give this fork a thread of its own' % (x, source.where(other, there))


def unjoined(source, thread, before):
    """The children forked and not yet joined before an action, with their forks: the latest last."""
    found = []
    for at, (kind, x) in enumerate(source.bodies[thread][:before]):
        if kind == FORK:
            found.append((x, at))
        elif kind == JOIN and found and found[-1][0] == x:
            found.pop()
    return found


def wrong_join(source, thread, at):
    kind, x = source.bodies[thread][at]
    found = unjoined(source, thread, at)
    if kind == JOIN and not found:
        before = [i for i in range(at) if source.bodies[thread][i] == (JOIN, x)]
        return '%s has no child to join%s' % (source.who(thread), '; %s is joined already, in %s' % (source.who(x), source.where(thread, before[-1])) if before else '')
    child, forked = found[-1]
    expected = 'expected join %s, the latest child not yet joined (forked in %s)' % (source.short(child), source.where(thread, forked))
    if kind == JOIN:
        return expected
    return expected + ', before %s ends' % source.who(thread) + ('' if len(found) == 1 else ', and %s before it' % many(len(found) - 1, 'other'))


# Balances

def finals(source):
    """Each thread's final balance, which may be below 0."""
    out = [0] * len(source.bodies)
    for thread in reversed(range(len(source.bodies))):
        out[thread] = sum(change(action, out) for action in source.bodies[thread])
    return out


def change(action, out):
    kind, x = action
    return x if kind == ALLOC else -x if kind == FREE else out[x] if kind == JOIN else 0


def first_short(source, thread, out):
    """Where a thread that ends below 0 gives back what it does not hold, itself or a thread below it that ends below 0 too: the thread, the action and
    the balance before it."""
    while True:
        balance = 0
        for at, action in enumerate(source.bodies[thread]):
            if balance + change(action, out) < 0:
                break
            balance += change(action, out)
        short = short_children(source, thread, at + 1, out)
        if not short:
            return thread, at, balance
        thread = short[0][1]


def short_children(source, thread, before, out):
    """The joins before an action of a thread whose child ends below 0, and these children."""
    return [(at, x) for at, (kind, x) in enumerate(source.bodies[thread][:before]) if kind == JOIN and out[x] < 0]


def short_of(source, child, out):
    thread, at, balance = first_short(source, child, out)
    return '%s, joined %%s, ends %s below 0: %s %s holds %s and frees %s' % (
        source.who(child), commas(-out[child]), 'in ' + source.where(thread, at), 'it' if thread == child else source.who(thread), commas(balance),
        commas(source.bodies[thread][at][1]))


def balance_below(source, thread, at):
    out = finals(source)
    kind, x = source.bodies[thread][at]
    if kind == JOIN:
        return short_of(source, x, out) % 'here'
    holds = sum(change(action, out) for action in source.bodies[thread][:at])
    text = '%s holds %s here and frees %s' % (source.who(thread), commas(holds), commas(x))
    for joined, child in short_children(source, thread, at, out)[:1]:
        return short_of(source, child, out) % ('in ' + source.where(thread, joined)) + '; so ' + text
    return text + '; free less, or after the join of the child that drew it'


ACTIONS = {5: kind_above, 6: argument, 7: ends, 8: forked_twice, 9: wrong_join, 10: balance_below}


# Orders

def of_order(line, order, out, p):
    """What to say of a listing that is refused for its order, with its length or with the turn that was not taken; None where it is refused for something else."""
    option, _, rest = line.partition(': ')
    number = rest.split(':')[0]
    width = len(order[0]) if order else 1
    if number == 'refused 33':
        return '%s: %s: %s turns; a listing of %s has at most %s' % (option, number, commas(len(order)), 'DFDeques' if width == 2 else 'AsyncDF', commas(4096 // width))
    if number not in ('refused 30', 'refused 49') or not out:
        return None
    turn = taken(out)
    what = 'worker %d' % order[turn][0] if number == 'refused 30' else 'choice %d' % order[turn][1]
    return '%s: %s: turn %s has %s, and p is %d; all turns before it were taken' % (option, number, commas(turn + 1), what, p)


def taken(out):
    """How many turns a listing or a chart has: its lines but for the first, and for the last where that is no turn."""
    rows = out.decode('ascii').splitlines()
    return len([row for row in rows[1:] if row.split()[0] not in ('done', 'open', 'refused')])


# What an accepted table leaves

def remark(source):
    """What is left at the root's end, and by which threads: those that draw more than they free. None where nothing is left."""
    out = finals(source)
    if not out[0]:
        return None
    leaves = collections.OrderedDict()
    for thread, body in enumerate(source.bodies):
        own = sum(x if kind == ALLOC else -x for kind, x in body if kind in (ALLOC, FREE))
        if own > 0 and thread:
            leaves.setdefault((source.jobs[thread] if source.jobs else thread, own), []).append(thread)
    told = []
    for (_, own), threads in leaves.items():
        each = '' if len(threads) == 1 else ' each'
        name = source.who(threads[0]) if len(threads) == 1 else '%s and %d more like it' % (source.who(threads[0]), len(threads) - 1)
        told.append('%s leave%s %s%s' % (name, '' if each else 's', many(own, 'unit'), each))
    shown = told[:3] + ['%d others leave some too' % (len(told) - 3)] * (len(told) > 3)
    return '; '.join(shown + ['the root leaves %s at its end' % commas(out[0])])


# Where two tables differ

def relative(body):
    """A body with its children by the order of their forks."""
    forks = {x: i for i, (kind, x) in enumerate(action for action in body if action[0] == FORK)}
    return [(kind, 0 if kind == FORK else forks[x] if kind == JOIN else x) for kind, x in body]


def difference(first, second):
    """The first thread of the canonical form in which two tables differ, and how; None where they do not."""
    left, number = [(0, 0)], 0
    while left:
        pair = left.pop()
        bodies = [source.bodies[thread] for source, thread in zip((first, second), pair)]
        ours, theirs = map(relative, bodies)
        if ours != theirs:
            at = next(i for i, (a, b) in enumerate(zip(ours, theirs)) if a != b)
            shown = [source.shown(thread, at) for source, thread in zip((first, second), pair)]
            places = [source.where(thread, at) for source, thread in zip((first, second), pair)]
            names = [source.names[thread] for source, thread in zip((first, second), pair) if source.names]
            called = ' (%s)' % ', '.join(dict.fromkeys(names)) if names else ''
            return 'thread %d of the canonical form%s: %s against %s; %s and %s' % (number, called, *shown, *places)
        forks = [[x for kind, x in body if kind == FORK] for body in bodies]
        left += reversed(list(zip(*forks)))
        number += 1
    return None
