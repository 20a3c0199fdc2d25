"""Builds examples/workers.c on the archives for C and runs it on examples/tree.text and bench's fan with 2, 4 and 16 threads: in every run real memory keeps within the run's highest, and that
within the peak of p workers, which peaks.py works out. A peak that is told too small must be noticed, so that the example's own check is known to check.

usage: python3 tests/workers.py [COUNT]
    From the repository's top, after `python3 tools/dist.py archive wivakkol_turn wivakkol`; COUNT runs of each, default 5; needs a C compiler, `cc`, and says so where there is none. It stops
    after 60 seconds for each 5 runs, also where a run hangs.
"""
import os
import re
import shutil
import subprocess
import sys
import time

from peaks import FIGURES, Peaks
from reference import ALLOC

ARCHIVES, PROGRAM = ['target/staticlib/lib%s.a' % crate for crate in ('wivakkol_turn', 'wivakkol')], 'target/c/workers'
LINE = re.compile(r'p (\d+) K (\d+) turns (\d+) peak (\d+) highest (\d+) S_p (\d+) b (\d+) limit (\d+)( ABOVE)?\n')
TABLES = {name: (data, quota) for name, data, quota, _ in FIGURES if name in ('tree', 'bench fan')}


def build():
    os.makedirs('target/c', exist_ok=True)
    subprocess.run(['cc', '-std=c99', '-Wall', '-Wextra', '-Werror', '-pedantic', '-O2', '-pthread', '-Iinclude', '-o', PROGRAM, 'examples/workers.c', *ARCHIVES], check=True)


def run(data, p, quota, most, until):
    """Exit status, and of its line: turns, peak, highest, b, limit."""
    told = subprocess.run([PROGRAM, str(p), str(quota), str(most)], input=data, capture_output=True, timeout=max(0.1, until - time.monotonic()))
    found = LINE.fullmatch(told.stdout.decode())
    if not found or bool(found[9]) != bool(told.returncode):
        sys.exit('%d workers: exit %d, %r' % (p, told.returncode, told.stdout))
    turns, peak, highest, most_told, b, limit = map(int, found.groups()[2:8])
    assert most_told == most
    return told.returncode, turns, peak, highest, b, limit


def runs(name, p, count, until):
    data, quota = TABLES[name]
    most, got = Peaks(data).workers(p), []
    for _ in range(count):
        status, turns, peak, highest, b, limit = run(data, p, quota, most, until)
        if status or not 0 < peak <= highest <= min(most, limit):
            sys.exit('%s, %d workers: exit %d, peak %d, highest %d, S_p %d, limit %d' % (name, p, status, peak, highest, most, limit))
        got.append((turns, peak, highest, b, limit))
    spread = ['%d to %d' % (min(x), max(x)) for x in zip(*got)]
    print('%s, p %d, K %d, S_p %d, %d runs: turns %s, peak %s, highest %s, b %s, limit %s' % (name, p, quota, most, count, *spread))


def main():
    if not shutil.which('cc'):
        print('examples/workers.c left out: there is no C compiler')
        return
    count = int(sys.argv[1]) if len(sys.argv) > 1 else 5
    build()
    until = time.monotonic() + 12 * max(count, 5)
    for name in TABLES:
        for p in (2, 4, 16):
            runs(name, p, count, until)
    # every run holds at some time what the largest alloc draws
    data, quota = TABLES['tree']
    largest = max(x for body in Peaks(data).body for kind, x in body if kind == ALLOC)
    assert run(data, 2, quota, largest - 1, until)[0] == 1, 'a peak told too small was not noticed'
    print('a peak told too small is noticed')


if __name__ == '__main__':
    main()
