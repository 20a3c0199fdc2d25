"""Writes an input of turnlist: a balanced tree of threads, its workers taking turns in rounds.

usage: python3 docs/pictures/tree.py LEVELS P K TURNS > tree.run

A thread above the leaves draws 4 units, forks two threads, joins them and frees its 4; a leaf draws 8, works, draws 4 more and frees the 12.
Threads are numbered as they are forked in serial order, so that each has a higher number than the thread that forks it.
"""
import sys

END, WORK, ALLOC, FREE, FORK, JOIN = range(6)


def little(value, size):
    return value.to_bytes(size, 'little')


def bodies(levels, thread=0):
    """The bodies of a thread and of all below it, in the order of their numbers, each a list of (kind, argument)."""
    if levels == 1:
        return [[(ALLOC, 8), (WORK, 0), (ALLOC, 4), (FREE, 12), (END, 0)]]
    left = bodies(levels - 1, thread + 1)
    right = bodies(levels - 1, thread + 1 + len(left))
    first, second = thread + 1, thread + 1 + len(left)
    return [[(ALLOC, 4), (FORK, first), (FORK, second), (JOIN, second), (JOIN, first), (FREE, 4), (END, 0)]] + left + right


def table(threads):
    """The bytes of a table: head, contents, bodies."""
    head = little(len(threads), 2) + little(sum(map(len, threads)), 2)
    contents, first = b'', 0
    for body in threads:
        contents += little(first, 2) + little(len(body), 2)
        first += len(body)
    return head + contents + b''.join(little(kind, 1) + little(argument, 3) for body in threads for kind, argument in body)


def main():
    levels, p, quota, turns = map(int, sys.argv[1:])
    order = bytes(i % p for i in range(turns))
    sys.stdout.buffer.write(little(p, 1) + little(quota, 3) + little(turns, 2) + order + table(bodies(levels)))


if __name__ == '__main__':
    main()
