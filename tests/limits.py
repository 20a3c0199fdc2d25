"""What `memlimit` says, from the model of peaks.py: five numbers of the table that runs, or the check that refuses.

usage: python3 tests/limits.py [COUNT]
    Holds it to the figures written down here, and `memlimit` (target/bin) to it on COUNT random and damaged inputs (default 500).
"""
import random
import sys

import filling
from most import asked
from peaks import HIGHEST, example, limits
from reference import check
from tables import cut_or_changed, drawn, held_to

WORDS = 'memory', 'serial', 'peak', 'parallel', 'stretch'


def said(data, p, quota, b):
    """The five numbers, or ('refused', number, place)."""
    answer = check(data)
    if answer[0] == 'refused':
        return answer
    if not 1 <= p <= 16:
        return 'refused', 20, 0
    if b > 65535:
        return 'refused', 41, 0
    if not 1 <= quota <= HIGHEST:
        return 'refused', 21, 0
    place = filling.too_large(data, quota)
    if place is not None:
        return 'refused', 44, place
    return limits(data, p, quota, b)


def memlimit(data):
    """What memlimit prints, without the newline."""
    if len(data) < 8:
        return 'refused 33 0'
    numbers = said(data[8:], data[0], int.from_bytes(data[1:4], 'little'), int.from_bytes(data[4:8], 'little'))
    if numbers[0] == 'refused':
        return ' '.join(map(str, numbers))
    return ' '.join('%s %d' % x for x in zip(WORDS, numbers))


FIGURES = [
    (example('e.text'), 2, 6, 1, 'memory 12 serial 6 peak 12 parallel 12 stretch 6'),
    (example('e.text'), 2, 5, 1, 'memory 12 serial 6 peak 12 parallel 12 stretch 0'),
    (example('e.text'), 1, 6, 0, 'memory 6 serial 6 peak 6 parallel 12 stretch 6'),
    (example('e.text'), 2, 6, 65536, 'refused 41 0'),
    (example('e.text'), 2, 0, 0, 'refused 21 0'),
]


def given(rng):
    """An input: mostly a table that is accepted, at times with allocs far above K, damaged or cut."""
    threads = rng.randint(1, 14)
    largest = rng.choice([[2, 6], [9], [4, 40], [9000000]])
    data = drawn(rng, threads, rng.randint(threads, 6 * threads + 20), largest)
    p, b = rng.choice([0, 1, 2, 2, 3, 4, 16, 17]), rng.choice([0, 0, 1, 1, 3, 65535, 65536])
    quota = rng.choice([0, 1, 3, max(largest), 2 * max(largest), HIGHEST])
    return cut_or_changed(rng, asked(p, min(quota, HIGHEST), data, b), 8)


def main():
    count = int(sys.argv[1]) if len(sys.argv) > 1 else 500
    for data, p, quota, b, line in FIGURES:
        found = memlimit(asked(p, quota, data, b))
        if found != line:
            raise SystemExit('%r, expected %r' % (found, line))
    inputs = [asked(p, quota, data, b) for data, p, quota, b, line in FIGURES]
    rng = random.Random(38)
    answers = held_to('memlimit', memlimit, inputs + [given(rng) for _ in range(count)])
    print('%d figures, %d inputs: memlimit as the model (%s)' % (len(FIGURES), count, answers))


if __name__ == '__main__':
    main()
