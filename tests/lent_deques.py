"""A run of DFDeques (N13) in memory that C lends (include/wivakkol_deques.h): opening, a turn and a run over pairs, written on their own from the request's sentences, on whatever that memory
holds. The memory and its beginning are lent.py's; the list has the lines, the second list the bottoms, and a thread is a bottom where it has a left neighbour there or is the leftmost.

What the request leaves open is as in lent.py: a read outside an array gives 0, a write there does nothing, and where a number is none of the arrays' or does not fit, the turn is refused with
32 and nothing has moved. A thread that leaves and is no bottom hands its line to its right neighbour; where it has none it goes as a bottom does.

Soundness is deques.py's.
"""
import deques
import lent
from lent import BUSY, FINISHED, FIRST, IDLE, K, NO_ROW, P, SPENT, TURNS, WAIT, DONE, Misfit, fit, read
from machine import ENDED, HELD, LAST_TURN, READY, THREADS, WAITING, WORKERS
from reference import END, FORK, JOIN

MISFITS = lent.MISFITS + ['choice']


class Lent(lent.Lent):
    """A run in lent memory, and the bytes of its table."""

    # ---- check 32

    def deque_record(self, data):
        record, memory = deques.Record(), self.memory
        record.run = self.record(data)
        record.under, record.over, record.first = memory.under.tolist(), memory.over.tolist(), memory.heads[FIRST]
        return record

    def tested(self):
        """'sound', 'blank' or None, and the record; the clauses that it breaks, where it is neither, are kept."""
        record = self.deque_record(self.data)
        self.broken = ['truth values'] * (max(self.memory.holds) > 1) + deques.broken(record)
        if not self.broken:
            return 'sound', record
        record = self.deque_record(b'')
        return 'blank' if deques.is_blank(record) else None, record

    def open(self):
        """The number of the refusal, 0 if there is none, and the row. Each thread's parent is written; zeros beside the blank record."""
        memory, (found, _) = self.memory, self.tested()
        if found is None:
            return 32, [0]
        if found == 'sound':
            self.put_parents()
        else:
            memory.parents[:] = memoryview(bytes(2 * THREADS)).cast('H')
        return 0, [0]

    # ---- a turn

    def turn(self, w, c):
        """The number of the refusal, 0 if there is none, and the row: 0, what is said with its thread and value, and 0."""
        memory = self.memory
        if memory.totals[TURNS] == LAST_TURN:
            return 32, NO_ROW
        if w >= memory.settings[P]:
            return 30, NO_ROW
        if memory.status[0] == ENDED:
            return 31, NO_ROW
        if c >= memory.settings[P]:
            return 49, NO_ROW
        before = bytes(memory.bytes)
        try:
            return 0, self.taken(w, c)
        except Misfit as misfit:
            memory.bytes[:] = before
            self.misfit = str(misfit)
            return 32, NO_ROW

    def taken(self, w, c):
        memory = self.memory
        if w >= WORKERS:
            raise Misfit('worker')
        bit, held_one = 1 << w, memory.holds[w] != 0
        if not held_one and memory.heads[BUSY] + bit > 65535:  # asked of every worker without a thread, whether or not it gets one
            raise Misfit('set')
        said = self.act(w) if held_one else self.steal(w, c)
        memory.holds[w] = 1 if memory.holds[w] else 0
        holds_one = memory.holds[w] != 0
        if holds_one and not held_one:
            memory.heads[BUSY] += bit
        if held_one and not holds_one:
            memory.heads[BUSY] = max(0, memory.heads[BUSY] - bit)
        memory.totals[TURNS] += 1
        return [0, *said, 0]

    def is_bottom(self, t):
        return self.memory.under[t] < THREADS or self.memory.heads[FIRST] == t

    def steal(self, w, c):
        """The bottom of the deque at place c; the thread above it, if there is one, is its deque's bottom now. The thief has it with quota K, and it acts."""
        memory = self.memory
        if c >= WORKERS:
            raise Misfit('choice')
        b = memory.heads[FIRST]
        for _ in range(c):
            if b < THREADS:
                b = memory.over[b]
        if b >= THREADS or memory.status[b] != READY:
            return IDLE, 0, 0
        above = memory.left[b]
        if above < THREADS and not self.is_bottom(above):
            self.second.enter(above, b)
        self.go_on(w, b)
        memory.quotas[w] = memory.settings[K]
        return self.act(w)

    def go_on(self, w, t):
        """Worker w holds t from now on, with the quota that it has."""
        memory = self.memory
        memory.status[t] = HELD
        memory.holds[w], memory.threads[w] = 1, t

    def act(self, w):
        """Worker w holds a thread, whose next action decides; done work, allocs, frees and joins and a stop at the quota are AsyncDF's."""
        memory, t = self.memory, self.memory.threads[w]
        if t >= THREADS:
            raise Misfit('thread')
        a = memory.next[t]
        kind, x = self.action(a)
        if kind in (FORK, JOIN) and x >= THREADS:
            raise Misfit('child')
        if kind == FORK:
            fit(memory.next, t, a + 1, 'next')
            memory.status[t] = READY
            self.list.enter(x, t)
            self.go_on(w, x)
            return DONE, t, a
        if kind == JOIN and memory.status[x] != ENDED:
            self.leave(w, t, WAITING)
            return WAIT, t, x
        if kind == END:
            self.end(w, t)
            return DONE, t, a
        return super().act(w)

    def leave(self, w, t, status):
        """The thread leaves its line; the worker goes on with the one below it, the deque's top, or has none."""
        memory, below = self.memory, self.memory.right[t]
        last = self.is_bottom(t) or below >= THREADS
        memory.status[t] = status
        self.list.leave(t)
        if not last:
            self.go_on(w, below)
            return
        self.second.leave(t)
        memory.holds[w] = memory.threads[w] = memory.quotas[w] = 0

    def end(self, w, t):
        """If the thread's parent waits for it, the worker goes on with that, in the thread's place."""
        memory, u = self.memory, self.memory.parents[t]
        memory.status[t] = ENDED
        if read(memory.status, u) != WAITING or self.action(memory.next[u]) != (JOIN, t):
            self.leave(w, t, ENDED)
            return
        for chain in [self.list, self.second] if self.is_bottom(t) else [self.list]:
            chain.enter(u, t)
            chain.leave(t)
        self.go_on(w, u)

    # ---- runs

    def run_pairs(self, order):
        """The number of the refusal, 0 if there is none, and the row: 0, what is said and the turns taken."""
        memory, count = self.memory, 0
        if memory.totals[TURNS] == LAST_TURN:
            return 32, [0, 0, 0]
        for w, c in zip(order[::2], order[1::2]):
            if memory.status[0] == ENDED:
                break
            number, _ = self.turn(w, c)
            if number != 0:
                return number, [0, 0, count]
            count += 1
        return 0, [0, FINISHED if memory.status[0] == ENDED else SPENT, count]
