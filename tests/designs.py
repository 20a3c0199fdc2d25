"""Canonical forms and joined tables by change requests N14 and N12, written on their own: threads listed by walking the table in serial order, nothing taken from the Rattle code.

form(bytes) answers ('form', bytes) or ('refused', number, place); compare(first, second) answers 'before', 'equal', 'after' or ('refused', number, place, table); joined(bytes, lengths) is below.
"""
from reference import END, FORK, JOIN, Table, check
from tables import table


def bodies_of(data):
    """The bodies of an accepted table, each a list of (kind, argument)."""
    t = Table(data)
    return [t.actions[first:first + count] for first, count in t.contents]


def renamed(bodies, name):
    return [[(k, name[x] if k in (FORK, JOIN) else x) for k, x in body] for body in bodies]


def fork_order(bodies):
    """The threads in the order of their forks where the table runs serially, children first."""
    order, left = [0], [(0, 0)]
    while left:
        t, i = left.pop()
        if i == len(bodies[t]):
            continue
        kind, x = bodies[t][i]
        left.append((t, i + 1))
        if kind == FORK:
            order.append(x)
            left.append((x, 0))
    return order


def form(data):
    answer = check(data)
    if answer[0] == 'refused':
        return answer
    bodies = bodies_of(data)
    order = fork_order(bodies)
    name = {t: i for i, t in enumerate(order)}
    bodies = renamed(bodies, name)
    return 'form', table(*[bodies[t] for t in order])


def shuffled(rng, data):
    """The same design under other numbers, drawn among those that keep each thread above the one that forks it."""
    bodies = bodies_of(data)
    order, ready = [], [0]
    while ready:
        order.append(ready.pop(rng.randrange(len(ready))))
        ready += [x for kind, x in bodies[order[-1]] if kind == FORK]
    bodies = renamed(bodies, {t: i for i, t in enumerate(order)})
    return table(*[bodies[t] for t in order])


def form_answer(data):
    """What canontable writes to standard output and to standard error."""
    answer = form(data)
    return (answer[1], b'') if answer[0] == 'form' else (b'', b'refused %d %d\n' % answer[1:])


def compare(first, second):
    a, b = form(first), form(second)
    for t, answer in enumerate((a, b)):
        if answer[0] == 'refused':
            return answer + (t,)
    return 'equal' if a[1] == b[1] else 'before' if a[1] < b[1] else 'after'


def compare_line(data):
    """What cmptables prints of an input."""
    if len(data) < 4:
        return 'refused 33 0'
    k, rest = int.from_bytes(data[:4], 'little'), data[4:]
    answer = compare(rest[:k], rest[k:])
    return answer if isinstance(answer, str) else 'refused %d %d table %d' % answer[1:]


# ---- several tables as one (change request N12)


def joined(tables, lengths):
    """('table', bytes, facts as check has them), ('refused', number, place) or ('refused', number, place, part)."""
    if not 1 <= len(lengths) <= 16 or sum(lengths) != len(tables):
        return 'refused', 47, 0
    parts, at = [], 0
    for k in lengths:
        parts.append(tables[at:at + k])
        at += k
    for i, part in enumerate(parts):
        answer = check(part)
        if answer[0] == 'refused':
            return answer + (i,)
    bodies, roots, root = [], [], 1
    for part in map(bodies_of, parts):
        roots.append(root)
        bodies += renamed(part, {t: root + t for t in range(len(part))})
        root += len(part)
    bodies.insert(0, [(FORK, r) for r in roots] + [(JOIN, r) for r in reversed(roots)] + [(END, 0)])
    if len(bodies) > 1024 or sum(map(len, bodies)) > 8192:
        return 'refused', 48, 0
    whole = table(*bodies)
    return 'table', whole, check(whole)


def join_answer(data):
    """What jointables writes to standard output and to standard error: of its input a count, so many lengths in 4 bytes each, and the tables."""
    count = data[0] if data else 0
    lengths, rest = data[1:1 + 4 * count], data[1 + 4 * count:]
    if len(lengths) < 4 * count:
        return b'', b'refused 47 0\n'
    answer = joined(rest, [int.from_bytes(lengths[i:i + 4], 'little') for i in range(0, len(lengths), 4)])
    if answer[0] == 'table':
        return answer[1], b''
    return b'', b'refused %d %d\n' % answer[1:] if len(answer) == 3 else b'refused %d %d part %d\n' % answer[1:]
