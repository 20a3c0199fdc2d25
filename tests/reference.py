"""Job tables by document 01, written on its own: rules looked up one by one, nothing taken from the Rattle code.

check(bytes) answers ('table', n, m, S1, D, N) or ('refused', number, place).
"""
import functools
import sys

sys.setrecursionlimit(100000)
END, WORK, ALLOC, FREE, FORK, JOIN = range(6)


def word(data, at):
    return data[at] | data[at + 1] << 8


class Table:
    def __init__(self, data):
        self.n, self.m = word(data, 0), word(data, 2)
        self.contents = [(word(data, 4 + 4 * t), word(data, 6 + 4 * t)) for t in range(self.n)]
        start = 4 + 4 * self.n
        self.actions = [
            (data[start + 4 * a], int.from_bytes(data[start + 4 * a + 1:start + 4 * a + 4], 'little'))
            for a in range(self.m)
        ]


def contents_fault(table):
    total = 0
    for t, (first, count) in enumerate(table.contents):
        if first != total or count == 0:
            return 4, t
        total += count
    return None if total == table.m else (4, table.n)


def owners(table):
    return [t for t, (_, count) in enumerate(table.contents) for _ in range(count)]


def form_fault(table, owner):
    for a, (kind, x) in enumerate(table.actions):
        if kind > 5:
            return 5, a
        fits = x == 0 if kind in (END, WORK) else x >= 1 if kind in (ALLOC, FREE) else owner[a] < x < table.n
        if not fits:
            return 6, a
        last = a + 1 == table.m or owner[a + 1] != owner[a]
        if (kind == END) != last:
            return 7, a
    return None


def nesting_fault(table, owner):
    forked_by = {}
    open_children = {t: [] for t in range(table.n)}
    for a, (kind, x) in enumerate(table.actions):
        mine = open_children[owner[a]]
        if kind == FORK:
            if x in forked_by:
                return 8, a
            forked_by[x] = a
            mine.append(x)
        elif kind == JOIN:
            if not mine or mine[-1] != x:
                return 9, a
            mine.pop()
        elif kind == END and mine:
            return 9, a
    for t in range(1, table.n):
        if t not in forked_by:
            return 11, t
    return None


def bodies(table):
    return [table.actions[first:first + count] for first, count in table.contents]


def balance_fault(table, owner):
    """Balances of every thread after every action; final balances of children come from higher threads."""
    body = bodies(table)
    final = [0] * table.n
    below = []
    for t in reversed(range(table.n)):
        balance = 0
        for i, (kind, x) in enumerate(body[t]):
            balance += {ALLOC: x, FREE: -x}.get(kind, 0)
            if kind == JOIN:
                balance += final[x]
            if balance < 0:
                below.append(table.contents[t][0] + i)
        final[t] = balance
    return (10, min(below)) if below else None


def serial_order(table):
    order, stack = [], [table.contents[0][0]]
    while stack:
        a = stack.pop()
        order.append(a)
        kind, x = table.actions[a]
        if kind != END:
            stack.append(a + 1)
        if kind == FORK:
            stack.append(table.contents[x][0])
    return order


def peak(table):
    held = highest = 0
    for a in serial_order(table):
        kind, x = table.actions[a]
        held += {ALLOC: x, FREE: -x}.get(kind, 0)
        highest = max(highest, held)
    return highest


def depth(table, owner):
    """Levels by dependencies, in serial order: whatever an action depends on stands before it there."""
    level = {}
    fork_of = {x: a for a, (kind, x) in enumerate(table.actions) if kind == FORK}
    for a in serial_order(table):
        t = owner[a]
        needs = []
        if a == table.contents[t][0]:
            if t:
                needs.append(fork_of[t])
        else:
            needs.append(a - 1)
        kind, x = table.actions[a]
        if kind == JOIN:
            first, count = table.contents[x]
            needs.append(first + count - 1)
        level[a] = 1 + max([level[d] for d in needs], default=0)
    first, count = table.contents[0]
    return level[first + count - 1]


def nested(table, owner):
    """The number of nested thread levels: from the thread that is the most forks away from the root, the root being one."""
    parent = {x: owner[a] for a, (kind, x) in enumerate(table.actions) if kind == FORK}

    def levels(t):
        count = 1
        while t:
            t, count = parent[t], count + 1
        return count

    return max(levels(t) for t in range(len(table.contents)))


@functools.lru_cache(maxsize=8)  # one table is asked about again and again
def check(data):
    if len(data) < 4:
        return 'refused', 1, 0
    n, m = word(data, 0), word(data, 2)
    if not (1 <= n <= 1024 and 1 <= m <= 8192):
        return 'refused', 2, 0
    if len(data) != 4 + 4 * n + 4 * m:
        return 'refused', 3, 0
    table = Table(data)
    fault = contents_fault(table)
    if not fault:
        owner = owners(table)
        fault = form_fault(table, owner) or nesting_fault(table, owner) or balance_fault(table, owner)
    if fault:
        return ('refused', *fault)
    return 'table', n, m, peak(table), depth(table, owner), nested(table, owner)


def line(answer):
    """The header of a listing, or its only line."""
    if answer[0] == 'refused':
        return 'refused %d %d' % answer[1:]
    return 'table %d %d serial %d depth %d' % answer[1:5]


def facts_line(answer):
    """The line that tells all facts, or the refusal."""
    if answer[0] == 'refused':
        return line(answer)
    return '%s nested %d' % (line(answer), answer[5])


if __name__ == '__main__':
    print(facts_line(check(sys.stdin.buffer.read())))
