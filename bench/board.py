"""Measures the calls from C, through include/wivakkol.h, against plain C by the same algorithms (bench/baseline.c, as the calls of bench/plain.h) and against the calls by value: processor
time of a turn in a run in rounds to its end, taken by wivakkol_turn and inside wivakkol_rounds, by plain C in the same two ways, and inside a run of the by-value program, as bench.py has
it. On the four tables of bench.py, with 2, 4 and 16 workers. All take their turns to be measured one after the other, again and again, and each time is the least. A single turn counts the
threads passed over (N7), from C and in plain C alike; a run counts none. A beginning, an opening in the middle of a run and a preview, by what it adds to a single turn, are measured too. The
last line says which goals were met.

usage: python3 bench/board.py [--rounds N] [--compiler 'CC -O..']
    From the repository's top, after `python3 tools/dist.py archive wivakkol_turn wivakkol` and `python3 tools/dist.py program bench_runs`; needs a C compiler, by default that of bench.py with -O3. N rounds (default 10),
    of 20 runs each from C and 3 measurements of the program by value for every table and number of workers.
"""
import subprocess

import bench
from bench import QUOTA, RATTLE, TABLES, WORKERS

ARCHIVES, RUNS = ['target/staticlib/libwivakkol_turn.a', 'target/staticlib/libwivakkol.a'], '20'
BY_VALUE = {RATTLE: ['target/bin/bench_runs']}
MOST_RATIO, MOST_NS = 1.5, {'tree': 60}
BEGIN, OPEN, TURN, PLAIN_TURN, ROUNDS, PLAIN_ROUNDS, PREVIEWED = range(7)


class Case(bench.Case):
    """A table and a number of workers, measured from C as well: the least time of a beginning, an opening and a turn in each of the five ways."""

    def __init__(self, make, p):
        super().__init__(make, p)
        self.calls = {call: self.calls[call] for call in ('test', 'run')}
        self.least = [1e9] * 7

    def measure_all(self, program):
        done = subprocess.run([program, str(self.p), str(QUOTA), RUNS], input=self.data, stdout=subprocess.PIPE, check=True)
        turns, *times = done.stdout.decode().split()
        if int(turns) != self.turns:
            raise SystemExit('%s, %d workers: %s turns from C, %d by the model' % (self.name, self.p, turns, self.turns))
        self.least = list(map(min, self.least, map(float, times)))
        self.measure(BY_VALUE)

    def by_value(self):
        """A turn inside a run of the program by value, in nanoseconds."""
        each = {call: (self.many[call, RATTLE] - self.none[call, RATTLE]) / self.counts[call, RATTLE] for call in self.calls}
        return (each['run'] - each['test']) / self.turns * 1e9


def report(cases):
    """A line for each case; of each goal whether it was met, and where it was not."""
    rows = [(case, case.least, case.by_value()) for case in cases]
    print('\nns of a turn:\n\n| | workers | `wivakkol_turn` / plain C | | in `wivakkol_rounds` / plain C | | by value / plain C | |\n|---|---|---|---|---|---|---|---|')
    for case, t, value in rows:
        pairs = (t[TURN], t[PLAIN_TURN]), (t[ROUNDS], t[PLAIN_ROUNDS]), (value, t[PLAIN_ROUNDS])
        print('| %s | %d | %s |' % (case.name, case.p, ' | '.join('%.1f / %.1f | %.2f ×' % (x, y, x / y) for x, y in pairs)))
    print('\n| | workers | begin, µs | open, µs | preview, ns |\n|---|---|---|---|---|')
    for case, t, _ in rows:
        print('| %s | %d | %.0f | %.0f | %.1f |' % (case.name, case.p, t[BEGIN] / 1000, t[OPEN] / 1000, t[PREVIEWED] - t[TURN]))
    goals = {'a single turn from C at most %.1f × plain C' % MOST_RATIO: [(case, t[TURN] / t[PLAIN_TURN], MOST_RATIO) for case, t, _ in rows],
             'a turn inside rounds from C at most %.1f × plain C' % MOST_RATIO: [(case, t[ROUNDS] / t[PLAIN_ROUNDS], MOST_RATIO) for case, t, _ in rows]}
    for name, most in MOST_NS.items():
        of = [(case, t) for case, t, _ in rows if case.name == name]
        goals['a single turn from C on the %s at most %d ns' % (name, most)] = [(case, t[TURN], most) for case, t in of]
        goals['a turn inside rounds from C on the %s at most %d ns' % (name, most)] = [(case, t[ROUNDS], most) for case, t in of]
    missed = {goal: ['%s %d %.2f' % (case.name, case.p, x) for case, x, most in held if x > most] for goal, held in goals.items()}
    print()
    for goal, where in missed.items():
        if where:
            print('%s: missed in %d of %d: %s' % (goal, len(where), len(goals[goal]), ', '.join(where)))
    by_end = [[goal for goal, where in missed.items() if bool(where) == wanted] for wanted in (False, True)]
    print('goals met: %s; goals missed: %s' % tuple(', '.join(names) or 'none' for names in by_end))


def main():
    rounds, program = bench.from_c('board', ARCHIVES)
    cases = [Case(make, p) for make in TABLES for p in WORKERS]
    for case in cases:
        case.agree(BY_VALUE)
    for _ in range(rounds):
        for case in cases:
            case.measure_all(program)
    report(cases)


if __name__ == '__main__':
    main()
