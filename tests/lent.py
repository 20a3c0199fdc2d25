"""A run in memory that C lends (include/wivakkol.h): beginning, opening, a turn, its preview, runs over turns and the line of the wall chart, written on their own from document 01 and
the change requests, on whatever that memory holds.

The memory is a struct wivakkol_run, byte for byte. What document 01 leaves open, as its machine only ever meets sound records, is here: a read
outside an array or the table gives 0, and a write there does nothing; a search looks at 1,024 threads at most. Where a thread's number is none
of the arrays', or a number that a turn would write does not fit into its place, the turn is refused with 32 and nothing has moved.

Soundness is machine.py's, of the record that stands in the memory beside its table; the blank record is the blank one whatever the table.
"""
import chart
import machine
from filling import filled
from machine import ENDED, HELD, LAST_TURN, NO_THREAD, READY, THREADS, WAITING, WORKERS, begin_fault, described
from reference import ALLOC, END, FORK, FREE, JOIN, WORK, Table, owners

# the struct: its blocks by the bits of their numbers, in its order
BLOCKS = {64: 'sums', 32: 'numbers', 16: 'words', 8: 'bytes'}
# the parts of the blocks: name, number of bits and how many, in their order
FIELDS = [('amounts', 64, THREADS), ('totals', 64, 3), ('settings', 32, 2), ('quotas', 32, WORKERS), ('parents', 16, THREADS), ('next', 16, THREADS),
          ('left', 16, THREADS), ('right', 16, THREADS), ('under', 16, THREADS), ('over', 16, THREADS), ('threads', 16, WORKERS), ('heads', 16, 3),
          ('status', 8, THREADS), ('holds', 8, WORKERS)]
OFFSETS = {name: sum(bits // 8 * count for _, bits, count in FIELDS[:i]) for i, (name, _, _) in enumerate(FIELDS)}
# how many numbers a block has, and at which of them a part begins
COUNTS = {block: sum(count for _, bits, count in FIELDS if BLOCKS[bits] == block) for block in BLOCKS.values()}
PLACES = {name: sum(count for _, other, count in FIELDS[:i] if other == bits) for i, (name, bits, _) in enumerate(FIELDS)}
USED = sum(bits // 8 * count for _, bits, count in FIELDS)
SIZE = (USED + 7) // 8 * 8
# the working memory: its fields, and those that a call leaves all 0; it does not touch the others
WORK_FIELDS = ['rises', 'falls', 'forks', 'parents', 'list']
CLEARED = {'begin': WORK_FIELDS[:2], 'open': WORK_FIELDS, 'chart': WORK_FIELDS}
CODES = {64: 'Q', 32: 'I', 16: 'H', 8: 'B'}

P, K = range(2)
LEFTMOST, FIRST, BUSY = range(3)
HELD_NOW, HIGHEST, TURNS = range(3)
IDLE, DONE, QUOTA, WAIT = range(1, 5)
SAID = {IDLE: 'idle', DONE: 'done', QUOTA: 'quota', WAIT: 'wait'}
FINISHED, SPENT = 6, 7
NO_ROOM = 61  # too little room for the filled-out table: a number of the library's own, above the papers'
RUN_SAID = {FINISHED: 'finished', SPENT: 'spent'}
NO_ROW = [0] * 5
NO_PREVIEW = [0] * 8


class Misfit(Exception):
    """A number is none of the arrays' or does not fit; its text says which."""


MISFITS = ['thread', 'worker', 'set', 'child', 'next', 'held above', 'held below', 'amount above', 'amount below', 'joined amount']


class Memory:
    """The struct; each part of its blocks is a view of its bytes, in which a number that does not fit cannot be put."""

    def __init__(self, data):
        assert len(data) == SIZE
        self.bytes = bytearray(data)
        whole = memoryview(self.bytes)
        for name, bits, count in FIELDS:
            at = OFFSETS[name]
            setattr(self, name, whole[at:at + bits // 8 * count].cast(CODES[bits]))

    def fill(self, **values):
        """Every number of the parts named is this; all others are 0."""
        for name, _, count in FIELDS:
            field, x = getattr(self, name), values.get(name, 0)
            for i in range(count):
                field[i] = x


def read(numbers, i):
    return numbers[i] if i < len(numbers) else 0


def write(numbers, i, x):
    if i < len(numbers):
        numbers[i] = x


def fit(numbers, i, x, what):
    """The number is put, if it fits."""
    try:
        numbers[i] = x
    except ValueError:
        raise Misfit(what)


class Chain:
    """A list of threads in links: the list, or the second list."""

    def __init__(self, memory, before, after, head):
        self.before, self.after, self.heads, self.head = before, after, memory.heads, head

    def seek_ready(self, status):
        """The first ready thread and how many stand before it, or None."""
        t = self.heads[self.head]
        for passed in range(THREADS):
            if t >= THREADS:
                return None
            if status[t] == READY:
                return t, passed
            t = self.after[t]
        return None

    def threads(self):
        t, seen = self.heads[self.head], []
        while t < THREADS and len(seen) < THREADS:
            seen.append(t)
            t = self.after[t]
        return seen

    def enter(self, c, t):
        """c comes directly left of t: between t and what t calls its left neighbour."""
        x = self.before[t]
        for links, i, y in (self.before, t, c), (self.before, c, x), (self.after, x, c), (self.after, c, t):
            write(links, i, y)
        if x >= NO_THREAD:
            self.heads[self.head] = c

    def leave(self, t):
        """What t calls its neighbours become each other's, and t has none."""
        x, y = self.before[t], self.after[t]
        for links, i, z in (self.before, y, x), (self.after, x, y), (self.before, t, NO_THREAD), (self.after, t, NO_THREAD):
            write(links, i, z)
        if x >= NO_THREAD:
            self.heads[self.head] = y


class Lent:
    """A run in lent memory, and the bytes of its table."""

    def __init__(self, memory, data):
        self.memory, self.data, self.misfit, self.broken = memory, data, None, None
        self.list = Chain(memory, memory.left, memory.right, LEFTMOST)
        self.second = Chain(memory, memory.under, memory.over, FIRST)

    # ---- beginning

    def begin(self, p, quota, buffer=bytearray()):
        """The number of the refusal, 0 if there is none, and the row: the place, and the bytes of the filled-out table, 0 where the table as given runs. The memory is written all over; the
        buffer gets the filled-out table, which all that follows is given, and is otherwise as it was. Where it has too little room, the row has the bytes that it would need."""
        memory, fault = self.memory, begin_fault(self.data, p, quota)
        out = self.data if fault else filled(self.data, quota)
        size = len(out) if out != self.data else 0
        if not fault and size > len(buffer):
            fault = NO_ROOM, 0
        if fault:
            memory.fill()
            return fault[0], [fault[1], size]
        buffer[:size] = out[:size]
        self.data = out
        table = Table(self.data)
        memory.fill(left=NO_THREAD, right=NO_THREAD, under=NO_THREAD, over=NO_THREAD)
        memory.settings[P], memory.settings[K] = p, quota
        for t, (first, _) in enumerate(table.contents):
            memory.next[t] = first
        self.put_parents()
        memory.status[0] = READY
        return 0, [0, size]

    def put_parents(self):
        """Of each thread the one that forks it; 0 for the root and from n on."""
        table, parents = Table(self.data), self.memory.parents
        parents[:] = memoryview(bytes(2 * THREADS)).cast('H')
        for t, (kind, x) in zip(owners(table), table.actions):
            if kind == FORK:
                parents[x] = t

    # ---- check 32

    def record(self, data):
        """The record that stands in the memory, with these bytes as its table."""
        memory, run = self.memory, machine.Run()
        run.table, run.length = data + bytes(max(0, machine.BYTES - len(data))), len(data)
        run.p, run.quota = memory.settings
        for name in ('next', 'status', 'amounts', 'left', 'right'):
            setattr(run, name, getattr(memory, name).tolist())
        for worker, *values in zip(run.worker, memory.holds, memory.threads, memory.quotas):
            worker.holds, worker.thread, worker.quota = values[0] != 0, *values[1:]
        run.leftmost, run.busy = memory.heads[LEFTMOST], memory.heads[BUSY]
        run.held, run.highest, run.turns = memory.totals
        return run

    def tested(self):
        """'sound', 'blank' or None, and the record; the clauses that it breaks, where it is neither, are kept."""
        run = self.record(self.data)
        self.broken = ['truth values'] * (max(self.memory.holds) > 1) + machine.broken(run)
        if not self.broken:
            return 'sound', run
        run = self.record(b'')
        return 'blank' if machine.is_blank(run) else None, run

    def open(self):
        """The number of the refusal, 0 if there is none, and the row. What stands beside a record, each thread's parent and the second list, is written; zeros beside the blank one."""
        memory, (found, _) = self.memory, self.tested()
        if found is None:
            return 32, [0]
        links = [[0] * THREADS, [0] * THREADS, 0]
        if found == 'sound':
            self.put_parents()
            links = described([t for t in self.list.threads() if memory.status[t] != WAITING])
        else:
            memory.parents[:] = memoryview(bytes(2 * THREADS)).cast('H')
        under, over, memory.heads[FIRST] = links
        for t in range(THREADS):
            memory.under[t], memory.over[t] = under[t], over[t]
        return 0, [0]

    def chart(self, line):
        """The number of the refusal, 0 if there is none, and the bytes of the lent line, which held `line`."""
        found, run = self.tested()
        if found is None:
            return 32, line
        if run.turns > chart.MOST_TURNS:
            return 43, line
        return 0, (chart.text(run) + '\n').encode()

    # ---- a turn

    def turn(self, w):
        """The number of the refusal, 0 if there is none, and the row: 0, what is said with its thread and value, and how many threads were passed over."""
        memory = self.memory
        if memory.totals[TURNS] == LAST_TURN:
            return 32, NO_ROW
        if w >= memory.settings[P]:
            return 30, NO_ROW
        if memory.status[0] == ENDED:
            return 31, NO_ROW
        before = bytes(memory.bytes)
        try:
            return 0, self.taken(w)
        except Misfit as misfit:
            memory.bytes[:] = before
            self.misfit = str(misfit)
            return 32, NO_ROW

    def preview(self, w):
        """What a turn would say, "taking the turn on a copy"."""
        copy = Lent(Memory(self.memory.bytes), self.data)
        shown = copy.shown(w, *copy.turn(w))
        self.misfit = copy.misfit
        return shown

    def shown(self, w, number, row):
        """A turn's answer, with memory held, its highest and the worker's quota left after it, which are here now."""
        memory = self.memory
        return (number, NO_PREVIEW) if number else (0, [*row, memory.totals[HELD_NOW], memory.totals[HIGHEST], memory.quotas[w]])

    def taken(self, w):
        memory = self.memory
        if w >= WORKERS:
            raise Misfit('worker')
        bit, held_one = 1 << w, memory.holds[w] != 0
        if not held_one and memory.heads[BUSY] + bit > 65535:  # asked of every worker without a thread, whether or not it gets one
            raise Misfit('set')
        passed = 0
        if not held_one:
            found = self.list.seek_ready(memory.status) if self.second.seek_ready(memory.status) else None
            passed = found[1] if found else 0
            self.take_thread(w)
        said = self.act(w) if memory.holds[w] else (IDLE, 0, 0)
        memory.holds[w] = 1 if memory.holds[w] else 0
        holds_one = memory.holds[w] != 0
        if holds_one and not held_one:
            memory.heads[BUSY] += bit
        if held_one and not holds_one:
            memory.heads[BUSY] = max(0, memory.heads[BUSY] - bit)
        memory.totals[TURNS] += 1
        return [0, *said, passed]

    def take_thread(self, w):
        """The worker takes the leftmost ready thread with quota K; the second list has it as well, with fewer threads before it."""
        memory, found = self.memory, self.second.seek_ready(self.memory.status)
        if found:
            memory.status[found[0]] = HELD
            memory.holds[w], memory.threads[w], memory.quotas[w] = 1, found[0], memory.settings[K]

    def release(self, w, status):
        memory = self.memory
        memory.status[memory.threads[w]] = status
        memory.holds[w] = memory.threads[w] = memory.quotas[w] = 0

    def action(self, a):
        """The kind and the argument of an action, from wherever the table's bytes have it."""
        at = 4 + 4 * (read(self.data, 0) + 256 * read(self.data, 1)) + 4 * a
        return read(self.data, at), sum(read(self.data, at + 1 + i) << 8 * i for i in range(3))

    def act(self, w):
        """Worker w holds a thread, whose next action decides."""
        memory, t = self.memory, self.memory.threads[w]
        if t >= THREADS:
            raise Misfit('thread')
        a = memory.next[t]
        kind, x = self.action(a)
        share = x if x <= memory.settings[K] else 0
        if kind == ALLOC and share > memory.quotas[w]:
            self.release(w, READY)
            return QUOTA, t, x
        if kind in (FORK, JOIN) and x >= THREADS:
            raise Misfit('child')
        if kind == JOIN and memory.status[x] != ENDED:
            self.release(w, WAITING)
            self.second.leave(t)
            return WAIT, t, x
        if kind == END:
            self.end(w, t)
            return DONE, t, a
        if kind not in (WORK, ALLOC, FREE, FORK, JOIN):  # no kind at all: the worker has its thread, and nothing else
            return IDLE, 0, 0
        fit(memory.next, t, a + 1, 'next')
        if kind == ALLOC:
            memory.quotas[w] -= share
            self.hold(t, x)
        elif kind == FREE:
            self.hold(t, -x)
        elif kind == FORK:
            self.release(w, READY)
            memory.status[x] = READY
            self.list.enter(x, t)
            self.second.enter(x, t)
        elif kind == JOIN:
            fit(memory.amounts, t, memory.amounts[t] + memory.amounts[x], 'joined amount')
            memory.amounts[x] = 0
        return DONE, t, a

    def hold(self, t, x):
        """Memory held and the amount of thread t change by x."""
        memory, way = self.memory, 'above' if x > 0 else 'below'
        fit(memory.totals, HELD_NOW, memory.totals[HELD_NOW] + x, 'held ' + way)
        fit(memory.amounts, t, memory.amounts[t] + x, 'amount ' + way)
        memory.totals[HIGHEST] = max(memory.totals[HIGHEST], memory.totals[HELD_NOW])

    def end(self, w, t):
        """The thread leaves both lists. If its parent waits for it, that becomes ready, and comes into the second list where the thread was."""
        memory, u = self.memory, self.memory.parents[t]
        self.release(w, ENDED)
        if read(memory.status, u) == WAITING and self.action(memory.next[u]) == (JOIN, t):
            memory.status[u] = READY
            self.second.enter(u, t)
        self.second.leave(t)
        self.list.leave(t)

    # ---- runs

    def run_list(self, order):
        """The number of the refusal, 0 if there is none, and the row: 0, what is said and the turns taken."""
        return self.over(order)

    def run_rounds(self, limit):
        memory = self.memory
        if memory.settings[P] == 0 and memory.totals[TURNS] != LAST_TURN:
            return 30, [0, 0, 0]
        return self.over(i % memory.settings[P] for i in range(limit))

    def over(self, workers):
        """Up to the root's end, a refusal or the end of the workers; asked first is whether any turn can be counted."""
        memory, count = self.memory, 0
        if memory.totals[TURNS] == LAST_TURN:
            return 32, [0, 0, 0]
        for w in workers:
            if memory.status[0] == ENDED:
                break
            number, _ = self.turn(w)
            if number != 0:
                return number, [0, 0, count]
            count += 1
        return 0, [0, FINISHED if memory.status[0] == ENDED else SPENT, count]


def differences(expected, given):
    """The numbers in which two memories differ, as text."""
    one, other = Memory(expected), Memory(given)
    for name, _, count in FIELDS:
        for i in range(count):
            x, y = getattr(one, name)[i], getattr(other, name)[i]
            if x != y:
                yield '%s[%d] expected %d given %d' % (name, i, x, y)
    if expected[USED:] != given[USED:]:
        yield 'the bytes after the last field'
