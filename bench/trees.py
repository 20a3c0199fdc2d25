"""Trees of threads as tables: four like those that the simulator of Narlikar's thesis runs (section 7.2.1), and a random fine-grained one. A thread draws, works, forks its children, joins them and
frees what it drew. The thesis's trees have 16 levels, 64 workers and leaves that work 50 times; these have 9 levels, so that they fit into a table.
"""
import random

import bench  # puts tests/ on the path
from reference import ALLOC, FREE, WORK
from tables import table

SEED, LEVELS = 41, 9


def body(draws, works, children):
    *turns, end = bench.forked(children)
    return [(ALLOC, draws)] + [(WORK, 0)] * works + turns + [(FREE, draws), end]


def binary(draws, works):
    """A balanced binary tree; how much a thread draws and how often it works, by its depth."""
    bodies = []

    def thread(depth):
        t = len(bodies)
        bodies.append(None)
        of = draws(depth), works(depth)
        bodies[t] = body(*of, [thread(depth + 1) for _ in range(2)] if depth < LEVELS - 1 else [])
        return t

    thread(0)
    return table(*bodies)


def leaves(works):
    return lambda depth: works if depth == LEVELS - 1 else 2


def loop():
    """Section 7.2.3 (a): a parallel loop. All draw alike, 1 to 127; the leaves work."""
    rng = random.Random(SEED)
    return binary(lambda depth: rng.randint(1, 127), leaves(15))


def nested_loops():
    """(b): two nested loops. The sixteen threads of depth 4, one for each time around the outer loop, draw 1,024, all others 1 to 43."""
    rng = random.Random(SEED)
    return binary(lambda depth: 1024 if depth == 4 else rng.randint(1, 43), leaves(10))


def halving():
    """(c): what a thread draws halves with each level, from 1,024 on; all work alike, 1 to 10 times."""
    rng = random.Random(SEED)
    return binary(lambda depth: 1024 >> depth, lambda depth: rng.randint(1, 10))


def halving_work():
    """(d): and the work halves too, from 1 to 128 times on."""
    rng = random.Random(SEED)
    return binary(lambda depth: 1024 >> depth, lambda depth: rng.randint(1, max(1, 128 >> depth)))


def fine_tree(threads=1000):
    """A random tree whose threads have one to three children, draw 1 to 16 and work at most twice."""
    rng, bodies = random.Random(SEED), []

    def thread(below):
        t = len(bodies)
        bodies.append(None)
        cuts = sorted(rng.sample(range(1, below), min(below, rng.choice([1, 2, 2, 3])) - 1)) if below else []
        children = [thread(end - start - 1) for start, end in zip([0, *cuts], [*cuts, below])] if below else []
        bodies[t] = body(rng.randint(1, 16), rng.randint(0, 2), children)
        return t

    thread(threads - 1)
    return table(*bodies)
