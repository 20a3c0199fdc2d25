"""Measures the least stack, in KiB by `ulimit -s`, with which each program still gives the answer that it gives with plenty, on the widest and the most
deeply nested table there is; and the same of single calls, in bench_runs, which has its input of 64 KiB and a record on the stack besides. Where a stack
begins is drawn anew for each process, so that the least moves by a few KiB: it is one with which several tries in a row go well.

usage: python3 bench/stack.py [NAME..]    (from the repository's top, after `make build`; default: all names of FRONTS)
"""
import pathlib
import subprocess
import sys

sys.path.insert(0, str(pathlib.Path(__file__).parent.parent / 'tests'))
from reference import END, FORK, JOIN, WORK
from tables import table

ACTIONS, WORKERS, PLENTY, TRIES = 8192, 16, 8192, 25
work, end = (WORK, 0), (END, 0)


def nested():
    """1,024 threads, each forking the next, 8 actions in each."""
    link = lambda t: [work] * 5 + [(FORK, t + 1), (JOIN, t + 1), end]
    return table(*map(link, range(1023)), [work] * 7 + [end])


def fan():
    """1,023 children of one thread, 6 actions in each."""
    children = range(1, 1024)
    forks = [(FORK, t) for t in children] + [(JOIN, t) for t in reversed(children)]
    return table([work] * (ACTIONS - 1023 * 6 - len(forks) - 1) + forks + [end], *[[work] * 5 + [end]] * 1023)


BEGIN = bytes([WORKERS]) + (1).to_bytes(3, 'little')
ORDER = bytes(i % WORKERS for i in range(4096))
LISTING = BEGIN + len(ORDER).to_bytes(2, 'little') + ORDER
ONCE = (1).to_bytes(4, 'little') + BEGIN
NO_TURNS, SOME_TURNS = (0).to_bytes(4, 'little'), (500).to_bytes(4, 'little')
# what is measured: the program, and what stands before the table in its input
FRONTS = {
    'tablecheck': ('tablecheck', b''),
    'turnlist': ('turnlist', LISTING),
    'wallchart': ('wallchart', LISTING),
    'runrounds': ('runrounds', BEGIN + b'\xff' * 4),
    'load': ('bench_runs', b'l' + ONCE + NO_TURNS),
    'run_rounds': ('bench_runs', b'r' + ONCE + SOME_TURNS),
    'turn': ('bench_runs', b's' + ONCE + SOME_TURNS),
}


def answer(program, data, kib):
    done = subprocess.run(['bash', '-c', 'ulimit -s %d && exec target/bin/%s' % (kib, program)], input=data, capture_output=True)
    return done.returncode, done.stdout


def least(program, data):
    """By halving: a program that answers with some stack answers with more."""
    wanted = answer(program, data, PLENTY)
    low, high = 0, PLENTY
    while high - low > 1:
        middle = (low + high) // 2
        low, high = (low, middle) if all(answer(program, data, middle) == wanted for _ in range(TRIES)) else (middle, high)
    return high, wanted[1].split(b'\n')[0].decode()


def main():
    for what in sys.argv[1:] or FRONTS:
        program, front = FRONTS[what]
        for name, data in (('nested', nested()), ('fan', fan())):
            print('%-10s %-6s %4d KiB   %s' % (what, name, *least(program, front + data)))


if __name__ == '__main__':
    main()
