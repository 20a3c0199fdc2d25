"""What `dequelimit` says, from the model of peaks.py: what DFDeques' memory stays within on the table that runs, for choices below c and for choices 0, or the check that refuses.

usage: python3 tests/choices.py [COUNT]
    Holds it to the figures written down here and to runs of deques.py with random orders and choices below c, none of which may hold more; and `dequelimit` (target/bin) to it on COUNT random and
    damaged inputs (default 500).
"""
import random
import sys

import deques
import filling
from most import asked
from peaks import HIGHEST, Peaks, example
from reference import ALLOC, Table, check
from tables import cut_or_changed, drawn, held_to


def near(data, quota):
    """Of the table that runs, where every choice is 0."""
    peak, answer = Peaks(data).peak(0, 1, False), check(data)
    if any(kind == ALLOC and x > quota for kind, x in Table(data).actions):
        return peak
    return min(peak, answer[3] + quota * (answer[5] - 1))


def said(data, p, quota, c):
    """The limit for choices below c and for choices 0, or ('refused', number, place)."""
    answer = check(data)
    if answer[0] == 'refused':
        return answer
    if not 1 <= p <= 16:
        return 'refused', 20, 0
    if not 1 <= c <= p:
        return 'refused', 49, 0
    if not 1 <= quota <= HIGHEST:
        return 'refused', 21, 0
    place = filling.too_large(data, quota)
    if place is not None:
        return 'refused', 44, place
    runs = filling.filled(data, quota)
    return near(runs, quota) if c == 1 else Peaks(runs).peak(0, c, False), near(runs, quota)


def dequelimit(data):
    """What dequelimit prints, without the newline."""
    if len(data) < 8:
        return 'refused 33 0'
    numbers = said(data[8:], data[0], int.from_bytes(data[1:4], 'little'), int.from_bytes(data[4:8], 'little'))
    if numbers[0] == 'refused':
        return ' '.join(map(str, numbers))
    return 'memory %d near %d' % numbers


FIGURES = [
    (example('e.text'), 2, 6, 1, 'memory 12 near 12'),
    (example('e.text'), 2, 6, 2, 'memory 12 near 12'),
    (example('e.text'), 2, 5, 1, 'memory 12 near 12'),
    (example('tree.text'), 4, 12, 3, 'memory 1160 near 124'),
    (example('e.text'), 0, 0, 0, 'refused 20 0'),
    (example('e.text'), 2, 0, 0, 'refused 49 0'),
    (example('e.text'), 2, 0, 3, 'refused 49 0'),
    (example('e.text'), 2, 0, 2, 'refused 21 0'),
]


def table_for(rng):
    """A table, its largest alloc, and a quota."""
    threads = rng.randint(1, 14)
    largest = rng.choice([[2, 6], [9], [4, 40], [9000000]])
    data = drawn(rng, threads, rng.randint(threads, 6 * threads + 20), largest)
    return data, rng.choice([0, 1, 3, max(largest), 2 * max(largest), HIGHEST])


def given(rng):
    """An input: mostly a table that is accepted, at times with allocs far above K, damaged or cut."""
    data, quota = table_for(rng)
    p = rng.choice([0, 1, 2, 2, 3, 4, 16, 17])
    return cut_or_changed(rng, asked(p, min(quota, HIGHEST), data, rng.choice([0, 1, 1, 2, p, p + 1, 65536])), 8)


def runs(rng, count):
    """Runs with choices below c: how many reach the limit, and how many stay below it."""
    reached = below = 0
    while reached + below < count:
        data, quota = table_for(rng)
        p = rng.randint(1, 6)
        c = rng.randint(1, p)
        limit = said(data, p, quota, c)
        if limit[0] == 'refused':
            continue
        record = deques.begin(data, p, quota)[1]
        run = deques.Machine(record)
        while not run.ended():
            run.take(rng.randrange(p), rng.randrange(c))
        if run.run.highest > limit[0]:
            raise SystemExit('%d workers, quota %d, choices below %d hold %d, above %d: %s' % (p, quota, c, run.run.highest, limit[0], data.hex()))
        reached += run.run.highest == limit[0]
        below += run.run.highest < limit[0]
    return reached, below


def main():
    count = int(sys.argv[1]) if len(sys.argv) > 1 else 500
    for data, p, quota, c, line in FIGURES:
        found = dequelimit(asked(p, quota, data, c))
        if found != line:
            raise SystemExit('%r, expected %r' % (found, line))
    rng = random.Random(41)
    reached, below = runs(rng, count // 2)
    print('%d figures; %d runs within the limit, %d of which reach it' % (len(FIGURES), reached + below, reached))
    inputs = [asked(p, quota, data, c) for data, p, quota, c, line in FIGURES]
    answers = held_to('dequelimit', dequelimit, inputs + [given(rng) for _ in range(count)])
    print('%d inputs: dequelimit as the model (%s)' % (len(inputs) + count, answers))


if __name__ == '__main__':
    main()
