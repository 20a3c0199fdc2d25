"""Measures the paced turn from C, through include/wivakkol_pace.h, against plain C by the same algorithm (bench/baseline.c, as plain_paced_turn of bench/plain.h) and against the turn without a
pace: processor time of a turn in a run in rounds to its end, with b 1; inside wivakkol_paced_rounds too, and of a call refused with 60. On the four tables of bench.py, with 2, 4 and 16 workers. All
take their turns to be measured one after the other, again and again, and each time is the least. The last line says which goals were met.

usage: python3 bench/pace.py [--rounds N] [--compiler 'CC -O..']
    From the repository's top, after `python3 tools/dist.py archive` of wivakkol_pace, wivakkol_turn and wivakkol; needs a C compiler, by default that of bench.py with -O3. N rounds (default 10), of 20 runs each.
"""
import subprocess

from bench import QUOTA, TABLES, WORKERS, from_c

ARCHIVES, RUNS = ['target/staticlib/lib%s.a' % name for name in ('wivakkol_pace', 'wivakkol_turn', 'wivakkol')], '20'
TURN, PACED, PLAIN, ROUNDS, REFUSED = range(5)
MOST_RATIO, MOST_MORE = 1.5, 25


def main():
    rounds, program = from_c('pace', ARCHIVES)
    cases = [(make.__name__, make(), p) for make in TABLES for p in WORKERS]
    least = {}
    for _ in range(rounds):
        for name, data, p in cases:
            done = subprocess.run([program, str(p), str(QUOTA), RUNS], input=data, stdout=subprocess.PIPE, check=True)
            times = list(map(float, done.stdout.decode().split()[1:]))
            least[name, p] = list(map(min, least.get((name, p), [1e9] * 5), times))
    print('\nns of a turn:\n\n| | workers | `wivakkol_turn` | `wivakkol_paced_turn` / plain C | | above the turn | in `wivakkol_paced_rounds` | refused with 60 |\n|---|---|---|---|---|---|---|---|')
    for (name, p), t in least.items():
        print('| %s | %d | %.1f | %.1f / %.1f | %.2f × | %.1f | %.1f | %.1f |' % (name, p, t[TURN], t[PACED], t[PLAIN], t[PACED] / t[PLAIN], t[PACED] - t[TURN], t[ROUNDS], t[REFUSED]))
    goals = {'a paced turn of 16 workers at most %.1f × plain C' % MOST_RATIO: ['%s %d' % case for case, t in least.items() if case[1] == 16 and t[PACED] > MOST_RATIO * t[PLAIN]],
             'a paced turn at most %d ns above the turn' % MOST_MORE: ['%s %d' % case for case, t in least.items() if t[PACED] > MOST_MORE + t[TURN]]}
    print()
    for goal, where in goals.items():
        print('%s: %s' % (goal, 'missed: %s' % ', '.join(where) if where else 'met'))


if __name__ == '__main__':
    main()
