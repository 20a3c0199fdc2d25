"""The quota that fits a board by the useful limit, written on its own: by halving, below the least quota that covers every stretch and from it on, on each of which the limit never falls.

usage: python3 tests/fitting.py [COUNT]
    Holds it to the figures written down here, and `fitquota` (target/bin) to it on COUNT random and damaged inputs (default 500).
"""
import random
import sys

from peaks import HIGHEST, Peaks, example
from quota import board, bound
from reference import ALLOC, Table, check
from tables import cut_or_changed, drawn, held_to


def fitted(data, p, b, memory):
    answer = check(data)
    if answer[0] == 'refused':
        return answer
    if not 1 <= p <= 16:
        return 'refused', 20, 0
    if b > 65535:
        return 'refused', 41, 0
    peaks = Peaks(data)
    most, resting, stretch = peaks.workers(p), peaks.resting(p), peaks.stretch(HIGHEST)

    def limit(quota):
        return min([most] + ([bound(answer, p, b, quota)] if b else []) + ([resting] if stretch <= quota else []))

    low = max([x for kind, x in Table(data).actions if kind == ALLOC], default=1)
    cut = min(max(low, stretch), HIGHEST + 1)
    pieces = [(first, last) for first, last in ((low, cut - 1), (cut, HIGHEST)) if first <= last]
    for first, last in reversed(pieces):
        if limit(first) > memory:
            continue
        above = last + 1  # first fits; above is out of the piece or does not fit
        while above - first > 1:
            middle = (first + above) // 2
            first, above = (middle, above) if limit(middle) <= memory else (first, middle)
        return 'quota', first, 'memory', limit(first)
    need, quota = min((limit(first), first) for first, last in pieces)
    return 'none', 'memory', need, 'quota', quota


def fitquota(data):
    """What fitquota prints, without the newline."""
    if len(data) < 13:
        return 'refused 33 0'
    p, b, memory = data[0], int.from_bytes(data[1:5], 'little'), int.from_bytes(data[5:13], 'little')
    return ' '.join(map(str, fitted(data[13:], p, b, memory)))


FIGURES = [
    (example('e.text'), 2, 1, 55, 'quota 16777215 memory 12'),
    (example('e.text'), 2, 1, 11, 'none memory 12 quota 6'),
    (example('tree.text'), 4, 0, 440, 'quota 16777215 memory 440'),
    (example('tree.text'), 4, 0, 439, 'none memory 440 quota 12'),
]


def given(rng):
    """An input: mostly a table with memory near its limits, at times damaged or cut."""
    threads = rng.randint(1, 14)
    data = drawn(rng, threads, rng.randint(threads, 6 * threads + 20), rng.choice([[2, 6], [9], [4, 40], [9000000]]))
    p, b = rng.choice([0, 1, 2, 2, 4, 16, 17]), rng.choice([0, 0, 1, 1, 3, 65535, 65536])
    peaks, answer = Peaks(data), check(data)
    near = [peaks.workers(max(p, 1)), peaks.resting(max(p, 1)), bound(answer, p, b, rng.randint(1, 60)), answer[3], 0, 2**64 - 1]
    memory = max(0, min(2**64 - 1, rng.choice(near) + rng.randint(-2, 1)))
    return cut_or_changed(rng, board(p, b, memory, data), 13)


def main():
    count = int(sys.argv[1]) if len(sys.argv) > 1 else 500
    for data, p, b, memory, line in FIGURES:
        found = fitquota(board(p, b, memory, data))
        if found != line:
            raise SystemExit('%r, expected %r' % (found, line))
    rng = random.Random(38)
    answers = held_to('fitquota', fitquota, [given(rng) for _ in range(count)])
    print('%d figures, %d inputs: fitquota as the model (%s)' % (len(FIGURES), count, answers))


if __name__ == '__main__':
    main()
