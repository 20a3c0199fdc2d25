"""The filled-out table (N6), written on its own: trees of dummies are built as objects, put in front of the big allocs, and numbered by walking the whole in serial order.

Nothing here sums or predicts numbers: a new thread gets the next number when the walk comes to its fork.
"""
import functools

from reference import ALLOC, END, FORK, JOIN, WORK, Table, check
from tables import table

HIGHEST = 2**24 - 1


class Dummy:
    """A new thread, of a tree of d dummies: its body, and its number once the walk has come to its fork."""

    def __init__(self, d):
        self.number = None
        if d == 1:
            self.body = [(WORK, 0), (END, 0)]
        else:
            first, rest = Dummy((d + 1) // 2), Dummy(d - (d + 1) // 2)
            self.body = [(FORK, first), (FORK, rest), (JOIN, rest), (JOIN, first), (END, 0)]


def dummies(x, quota):
    return -(-x // quota)


@functools.cache
def tree_size(d):
    """Threads and actions of a tree of d."""
    if d == 1:
        return 1, 2
    (t, a), (u, b) = tree_size((d + 1) // 2), tree_size(d - (d + 1) // 2)
    return 1 + t + u, 5 + a + b


def too_large(data, quota):
    """The place of 44, or None: counted by rising action of the table as given, before anything is built."""
    given = Table(data)
    threads, actions = given.n, given.m
    for a, (kind, x) in enumerate(given.actions):
        if kind == ALLOC and x > quota:
            t, b = tree_size(dummies(x, quota))
            threads, actions = threads + t, actions + b + 2
            if threads > 1024 or actions > 8192:
                return a
    return None


def filled(data, quota):
    """The bytes of the filled-out table; the very bytes where nothing is big."""
    given = Table(data)
    if not any(kind == ALLOC and x > quota for kind, x in given.actions):
        return data
    bodies = []
    for first, count in given.contents:
        body = []
        for kind, x in given.actions[first:first + count]:
            if kind == ALLOC and x > quota:
                tree = Dummy(dummies(x, quota))
                body += [(FORK, tree), (JOIN, tree)]
            body.append((kind, x))
        bodies.append(body)
    stack = [(bodies[0], 0)]  # what is left to walk, the innermost last
    while stack:
        body, i = stack.pop()
        if i == len(body):
            continue
        stack.append((body, i + 1))
        kind, x = body[i]
        if kind == FORK and isinstance(x, Dummy):
            x.number = len(bodies)
            bodies.append(x.body)
            stack.append((x.body, 0))
        elif kind == FORK:
            stack.append((bodies[x], 0))
    return table(*[[(kind, x.number if isinstance(x, Dummy) else x) for kind, x in body] for body in bodies])


def answer(data):
    """What filltable writes on standard output and on standard error."""
    if len(data) < 3:
        return b'', b'refused 33 0\n'
    quota, data = int.from_bytes(data[:3], 'little'), data[3:]
    found = check(data)
    if found[0] == 'refused':
        return b'', b'refused %d %d\n' % (found[1], found[2])
    if not 1 <= quota <= HIGHEST:
        return b'', b'refused 21 0\n'
    place = too_large(data, quota)
    if place is not None:
        return b'', b'refused 44 %d\n' % place
    return filled(data, quota), b''


def quoted(quota, data):
    """The input of filltable."""
    return quota.to_bytes(3, 'little') + data
