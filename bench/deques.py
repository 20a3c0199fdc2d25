"""Measures the calls of DFDeques from C, through include/wivakkol_deques.h, against plain C by the same algorithm (bench/baseline.c, as the calls of bench/plain.h): processor time of a turn in a
run to its end, taken by wivakkol_deque_turn and inside wivakkol_deque_list, and by plain C in the same two ways. On the four tables of bench.py, with 2, 4 and 16 workers in rounds and choices
drawn from the turns' numbers. All take their turns to be measured one after the other, again and again, and each time is the least. The last line says which goals were met.

usage: python3 bench/deques.py [--rounds N] [--compiler 'CC -O..']
    From the repository's top, after `python3 tools/dist.py archive` of wivakkol_deque_turn, wivakkol_deques and wivakkol; needs a C compiler, by default that of bench.py with -O3. N rounds (default 10), of 20 runs each
    for every table and number of workers.
"""
import subprocess

from bench import QUOTA, TABLES, WORKERS, from_c

ARCHIVES, RUNS = ['target/staticlib/lib%s.a' % name for name in ('wivakkol_deque_turn', 'wivakkol_deques', 'wivakkol')], '20'
MOST_RATIO = 1.5
OPEN, TURN, PLAIN_TURN, LIST, PLAIN_LIST = range(5)


class Case:
    """A table and a number of workers: the least times so far."""

    def __init__(self, make, p):
        self.name, self.data, self.p, self.counts, self.least = make.__name__, make(), p, None, [1e9] * 5

    def measure(self, program):
        done = subprocess.run([program, str(self.p), str(QUOTA), RUNS], input=self.data, stdout=subprocess.PIPE, check=True)
        words = done.stdout.decode().split()
        self.counts = tuple(map(int, words[:3]))
        self.least = list(map(min, self.least, map(float, words[3:])))


def report(cases):
    print('\nns of a turn:\n\n| | workers | turns, steals, idle | `wivakkol_deque_turn` / plain C | | in `wivakkol_deque_list` / plain C | | open, µs |\n|---|---|---|---|---|---|---|---|')
    for case in cases:
        t = case.least
        pairs = ' | '.join('%.1f / %.1f | %.2f ×' % (x, y, x / y) for x, y in ((t[TURN], t[PLAIN_TURN]), (t[LIST], t[PLAIN_LIST])))
        print('| %s | %d | %d, %d, %d | %s | %.0f |' % (case.name, case.p, *case.counts, pairs, t[OPEN] / 1000))
    goals = {'a turn of DFDeques from C': (TURN, PLAIN_TURN), 'a turn inside a list of DFDeques from C': (LIST, PLAIN_LIST)}
    print()
    for name, (ours, plain) in goals.items():
        missed = ['%s %d %.2f' % (case.name, case.p, case.least[ours] / case.least[plain]) for case in cases if case.least[ours] > MOST_RATIO * case.least[plain]]
        print('%s at most %.1f × plain C: %s' % (name, MOST_RATIO, 'missed in %s' % ', '.join(missed) if missed else 'met'))


def main():
    rounds, program = from_c('deques', ARCHIVES)
    cases = [Case(make, p) for make in TABLES for p in WORKERS]
    for _ in range(rounds):
        for case in cases:
            case.measure(program)
    report(cases)


if __name__ == '__main__':
    main()
