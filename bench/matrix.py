"""The matrix multiply of Narlikar's thesis (Figure 1.1) as a table. A call on n by n matrices draws n·n units for what its last four products leave, forks eight calls on halves, joins them and
frees; from the leaf's size down it multiplies serially. The addition at the end draws nothing and is left out.

usage: python3 bench/matrix.py [SIZE LEAF DRAWN] > matrix.table
    By default 32 4 0: 585 threads, since 32 is halved three times. DRAWN: what a leaf draws while it multiplies; in the thesis nothing.
"""
import sys

import bench  # puts tests/ on the path
from reference import ALLOC, END, FORK, FREE, JOIN, WORK
from tables import table


def calls(size, leaf, drawn, first=0):
    """The bodies of a call and of all below it, in serial order of their forks, numbered from `first`."""
    if size <= leaf:
        serial = [(WORK, 0), (WORK, 0)]
        return [([(ALLOC, drawn), *serial, (FREE, drawn)] if drawn else serial) + [(END, 0)]]
    children, below = [], []
    for _ in range(8):
        children.append(first + 1 + len(below))
        below += calls(size // 2, leaf, drawn, children[-1])
    *turns, end = bench.forked(children)
    return [[(ALLOC, size * size), *turns, (FREE, size * size), end], *below]


def matrix(size=32, leaf=4, drawn=0):
    return table(*calls(size, leaf, drawn))


if __name__ == '__main__':
    sys.stdout.buffer.write(matrix(*map(int, sys.argv[1:])))
