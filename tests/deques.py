"""DFDeques (N13), written on its own from the request's sentences: beginning, a turn, a run over pairs, a record's soundness clause by clause, and the text that dequelist prints. The deques are kept
as objects in a list; a record has them as two rows of links, which are read and written whole. Nothing is taken from the Rattle code.

Answers are those of machine.py, without the number passed over.
"""
import copy

import machine
from machine import BYTES, ENDED, HELD, KINDS, LAST_TURN, NO_THREAD, READY, THREADS, UNBORN, WAITING, Links, View, Worker, described, refused, settings_fault
from reference import ALLOC, END, FORK, FREE, JOIN, Table, check, line, owners, word

NOT_OF_DEQUES = ('list_follows', 'links_describe')


class Deque:
    """Its owner, or None; its threads, the top first."""

    def __init__(self, owner, threads):
        self.owner, self.threads = owner, threads


class Record:
    """AsyncDF's record, whose list is the lines, and the list of the bottoms; as it is made here, the blank one.

    The line of a deque: its owner's thread, then its threads from the top to the bottom. The lines stand one after the other from the left; a bottom is the last of a line."""

    def __init__(self):
        self.run = machine.Run()
        self.under, self.over, self.first = [0] * THREADS, [0] * THREADS, 0


def copied(record):
    made = copy.copy(record)
    made.run = machine.copied(record.run)
    made.under, made.over = record.under[:], record.over[:]
    return made


def same(record, other):
    return machine.same(record.run, other.run) and (record.under, record.over, record.first) == (other.under, other.over, other.first)


def is_blank(record):
    return same(record, Record())


# The deques in a record

class Bottoms:
    """The second row of links, as the first is read."""

    def __init__(self, record):
        self.right, self.leftmost = record.over, record.first


def holder_of(run, t):
    return next((w for w, worker in enumerate(run.worker) if worker.holds and worker.thread == t), None)


def deques_in(record):
    """The lines, cut after each bottom; a line whose first thread is held is its holder's."""
    bottoms, lines, cut = set(Links(Bottoms(record))), list(Links(record.run)), []
    while lines:
        at = next((i for i, t in enumerate(lines) if t in bottoms), len(lines) - 1)
        cut.append(lines[:at + 1])
        lines = lines[at + 1:]
    deques = []
    for threads in cut:
        owner = holder_of(record.run, threads[0]) if record.run.status[threads[0]] == HELD else None
        deques.append(Deque(owner, threads if owner is None else threads[1:]))
    return deques


def links_of(run, deques):
    lines = [([] if d.owner is None else [run.worker[d.owner].thread]) + d.threads for d in deques]
    return described([t for threads in lines for t in threads]), described([threads[-1] for threads in lines])


def store(record, deques):
    run = record.run
    run.busy = sum(2**i for i, w in enumerate(run.worker) if w.holds)
    (run.left, run.right, run.leftmost), (record.under, record.over, record.first) = links_of(run, deques)
    return record


# Beginning

def begin(data, p, quota):
    """'begun' or AsyncDF's refusal; the record of the filled-out table, whose root "lies in one deque that nobody owns", or the blank one."""
    answer, run = machine.begin(data, p, quota)
    record = Record()
    if answer == 'begun':
        record.run = run
        store(record, [Deque(None, [0])])
    return answer, record


# A sound record

def each_thread_one(record, deques):
    """Every thread of the table is exactly one of: in one deque, held, waiting, unborn, ended."""
    inside = [t for d in deques for t in d.threads]
    n = Table(record.run.table[:record.run.length]).n
    return all(t < n for t in inside) and all(
        inside.count(t) + sum(record.run.status[t] == x for x in (HELD, WAITING, UNBORN, ENDED)) == 1 for t in range(n))


def owners_right(record, deques):
    """A worker owns one deque while it holds a thread and otherwise none; at most one owner is in how a deque is kept."""
    return all(sum(d.owner == w for d in deques) == worker.holds for w, worker in enumerate(record.run.worker))


def owner_or_thread(record, deques):
    return all(d.owner is not None or d.threads for d in deques)


def links_describe(record, deques):
    run = record.run
    return links_of(run, deques) == ((run.left, run.right, run.leftmost), (record.under, record.over, record.first))


CLAUSES = [each_thread_one, owners_right, owner_or_thread, links_describe]


def broken(record):
    """The names of the clauses that a record breaks: document 01's and N9's without those on the list, then those on the deques."""
    run = record.run
    if run.length > BYTES:
        return ['length']
    if check(run.table[:run.length])[0] == 'refused':
        return ['table']
    if settings_fault(run.p, run.quota):
        return ['settings']
    v = View(run)
    if not machine.next_in_body(v):
        return ['next_in_body']
    names = [clause.__name__ for clause in machine.CLAUSES if clause.__name__ not in NOT_OF_DEQUES and not clause(v)]
    return names or [clause.__name__ for clause in CLAUSES if not clause(record, deques_in(record))]


def sound(record):
    return not broken(record)


# Turns and runs

class Machine:
    """Takes turns on a copy of a record that is sound but for its turns taken; what the checks ask has been asked."""

    def __init__(self, record):
        self.kept = copied(record)
        self.run = self.kept.run
        self.deques = deques_in(record)
        self.table = Table(self.run.table[:self.run.length])
        owner = owners(self.table)
        self.parent = {x: owner[a] for a, (kind, x) in enumerate(self.table.actions) if kind == FORK}

    def ended(self):
        return self.run.status[0] == ENDED

    def record(self):
        return store(self.kept, self.deques)

    def own(self, w):
        return next(d for d in self.deques if d.owner == w)

    def tidy(self):
        """A deque with neither owner nor thread leaves the list."""
        self.deques = [d for d in self.deques if d.owner is not None or d.threads]

    def hold(self, w, t, quota):
        worker = self.run.worker[w]
        worker.holds, worker.thread, worker.quota = True, t, quota
        self.run.status[t] = HELD

    def take(self, w, choice):
        run = self.run
        run.turns += 1
        if not run.worker[w].holds:
            # "the deque at that place from the left, stolen from its bottom; if there is none or it is empty, the turn is idle"
            if choice >= len(self.deques) or not self.deques[choice].threads:
                return 'idle',
            # "the quota K is refilled only by a steal"; "the thief's new deque stands directly right of the one robbed"
            self.hold(w, self.deques[choice].threads.pop(), run.quota)
            self.deques.insert(choice + 1, Deque(w, []))
            self.tidy()
        reply = self.act(w)
        self.tidy()
        return reply

    def act(self, w):
        run, worker = self.run, self.run.worker[w]
        t, left = worker.thread, worker.quota
        a = run.next[t]
        kind, x = self.table.actions[a]
        share = x if x <= run.quota else 0
        if kind == ALLOC and share > left:
            # "isn't done, the thread goes back on top and the deque is given up"
            own = self.own(w)
            run.status[t], run.worker[w] = READY, Worker()
            own.threads.insert(0, t)
            own.owner = None
            return 'quota', t, x
        if kind == JOIN and run.status[x] != ENDED:
            run.status[t] = WAITING
            self.go_on(w, left)
            return 'wait', t, x
        if kind == ALLOC:
            worker.quota -= share
            run.held += x
            run.amounts[t] += x
        elif kind == FREE:
            run.held -= x
            run.amounts[t] -= x
        elif kind == JOIN:
            run.amounts[t] += run.amounts[x]
            run.amounts[x] = 0
        elif kind == FORK:
            # "the parent goes on top and the worker does the child"
            run.status[t] = READY
            self.own(w).threads.insert(0, t)
            self.hold(w, x, left)
        elif kind == END:
            # "it goes on with the parent it woke; otherwise .. with its deque's top thread"
            run.status[t] = ENDED
            u = self.parent.get(t)
            if u is not None and run.status[u] == WAITING and self.table.actions[run.next[u]] == (JOIN, t):
                self.hold(w, u, left)
            else:
                self.go_on(w, left)
        if kind != END:
            run.next[t] = a + 1
        run.highest = max(run.highest, run.held)
        return 'done', t, a

    def go_on(self, w, left):
        """With its deque's top thread; with none there, its deque leaves the list."""
        own = self.own(w)
        if own.threads:
            self.hold(w, own.threads.pop(0), left)
        else:
            self.run.worker[w] = Worker()
            own.owner = None


def turn(record, w, choice):
    """A single turn: the reply or the refusal, and the record."""
    if not is_blank(record) and not sound(record):
        return ('refused', 32, 0), record
    if w >= record.run.p:
        return ('refused', 30, 0), record
    if record.run.status[0] == ENDED:
        return ('refused', 31, 0), record
    if choice >= record.run.p:
        return ('refused', 49, 0), record
    taking = Machine(record)
    return taking.take(w, choice), taking.record()


def run_pairs(record, order, seen=None):
    """A run over two bytes a turn, worker and choice; an odd last byte isn't read. `seen` is told of each turn."""
    pairs = [(order[i], order[i + 1]) for i in range(0, len(order) - 1, 2)]
    if is_blank(record):
        return ('refused', 0, 30, 0) if pairs else ('spent', 0), record
    if not sound(record):
        return ('refused', 0, 32, 0), record
    taking, count = Machine(record), 0
    for w, choice in pairs:
        if taking.ended():
            break
        if taking.run.turns == LAST_TURN:
            return ('refused', count, 32, 0), taking.record()
        if w >= record.run.p:
            return ('refused', count, 30, 0), taking.record()
        if choice >= record.run.p:
            return ('refused', count, 49, 0), taking.record()
        reply = taking.take(w, choice)
        count += 1
        if seen:
            seen(count, w, reply, taking)
    return ('finished' if taking.ended() else 'spent', count), taking.record()


# The program's text

def dequelist(data):
    if len(data) < 6:
        return refused(33, 0)
    length = word(data, 4)
    if length > 4096 or len(data) < 6 + length:
        return refused(33, 0)
    order, table = data[6:6 + length], data[6 + length:]
    answer, record = begin(table, data[0], int.from_bytes(data[1:4], 'little'))
    if answer != 'begun':
        return refused(*answer[1:])
    lines = [line(check(record.run.table[:record.run.length]))]

    def seen(count, w, reply, taking):
        run = taking.run
        if reply[0] == 'idle':
            lines.append('%d %d - - idle %d' % (count, w, run.held))
            return
        t = reply[1]
        a = reply[2] if reply[0] == 'done' else run.next[t]
        name = KINDS[taking.table.actions[a][0]] if reply[0] == 'done' else reply[0]
        lines.append('%d %d %d %d %s %d' % (count, w, t, a, name, run.held))

    report, record = run_pairs(record, order, seen)
    if report[0] == 'refused':
        lines.append('refused %d %d' % report[2:])
    else:
        lines.append('%s %d peak %d' % ('done' if report[0] == 'finished' else 'open', report[1], record.run.highest))
    return '\n'.join(lines) + '\n'
