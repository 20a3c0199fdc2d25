"""Measures the Rattle code against plain C (bench/baseline.c), once with the list of threads as a row, which is what one would write first,
and once by the same algorithms: user time of loading, of the test of soundness (a run in rounds of no turns), of a turn inside a run (a run
to its end, less that, by its turns), of that whole run and of a single turn's call. On four tables, with 2, 4 and 16 workers.

usage: python3 bench/bench.py [--runs N] [--before PROGRAM] [PROGRAM WORDS..]
    From the repository's top, after `python3 tools/dist.py program bench_runs`; PROGRAM by default target/bin/bench_runs. All is measured N times over (default
    5), and each time is the least of these. --before: a bench_runs of an earlier version, to compare the single turn with.
"""
import argparse
import itertools
import os
import pathlib
import random
import resource
import shutil
import subprocess
import sys

sys.path.insert(0, str(pathlib.Path(__file__).parent.parent / 'tests'))
import machine
from reference import ALLOC, END, FORK, FREE, JOIN, WORK, check
from tables import drawn, table

ROW, LINKS, RATTLE, BEFORE = 'row', 'links', 'Rattle', 'before'
MEASURED = ['loading', 'test of soundness', 'a turn inside a run', 'a whole run in rounds', 'a single turn by value']
WORKERS, QUOTA, LARGEST_LIMIT = (2, 4, 16), 100, 2**32 - 1
LEAST_TIME, TRIES = 0.1, 3


def tree():
    return drawn(random.Random(7), 1000, 6000, [8, 64])


def chain():
    link = lambda t: [(ALLOC, 8), (WORK, 0), (FORK, t + 1), (WORK, 0), (JOIN, t + 1), (FREE, 8), (END, 0)]
    return table(*map(link, range(999)), [(WORK, 0), (END, 0)])


def forked(children):
    return [(FORK, t) for t in children] + [(JOIN, t) for t in reversed(children)] + [(END, 0)]


def fan():
    return table(forked(range(1, 1000)), *[[(ALLOC, 64), (WORK, 0), (WORK, 0), (FREE, 64), (END, 0)]] * 999)


def comb():
    """A chain of 500 threads that all wait while its leaf works for long; on its right 498 short threads, each given up once for its quota."""
    links = [[(FORK, t + 1), (JOIN, t + 1), (END, 0)] for t in range(1, 501)]
    leaf, short = [(WORK, 0)] * 3500 + [(END, 0)], [(ALLOC, 64), (ALLOC, 64), (FREE, 128), (END, 0)]
    return table(forked([1, *range(502, 1000)]), *links, leaf, *[short] * 498)


# The tables with their goals, of a turn inside a run: at most so many times C with a row, for each number of workers, and C by the same algorithms.
TABLES = {tree: ((0.9, 0.9, 0.9), 1.5), chain: ((0.2, 0.2, 0.2), 2.2), fan: ((1.6, 1.3, 1.3), 1.5), comb: ((0.2, 0.2, 0.2), 1.5)}
SINGLE_GOAL = 1.1  # a single turn, against that before


def counted(data, p):
    """Of a run in rounds to its end, by the model: its turns, how many of them are idle, and how many waiting threads a take passes over on average."""
    taking = machine.Machine(machine.begin(data, p, QUOTA)[1])
    status, replies, passed = taking.run.status, [], []
    while not taking.ended():
        w = len(replies) % p
        free = not taking.run.worker[w].holds
        over = [status[t] for t in itertools.takewhile(lambda t: status[t] != machine.READY, taking.threads)] if free else []
        replies.append(taking.take(w)[0])
        if free and replies[-1] != 'idle':
            passed.append(over.count(machine.WAITING))
    return len(replies), replies.count('idle'), sum(passed) / len(passed)


class Case:
    """A table and a number of workers: what to call, and the least times so far."""

    def __init__(self, make, p):
        self.name, self.data, self.p = make.__name__, make(), p
        rows, links = TABLES[make]
        self.goals = [(ROW, 2, rows[WORKERS.index(p)]), (LINKS, 2, links), (BEFORE, 4, SINGLE_GOAL)]
        facts = check(self.data)
        self.turns, idle, passed = counted(self.data, p)
        if not (990 <= facts[1] <= 1024 and 6000 <= facts[2] <= 8000) or self.name == 'comb' and passed < 200:
            raise SystemExit('%s: not the table meant: %s, %.1f passed over' % (self.name, facts, passed))
        print('%-5s %2d workers: %d threads, %d actions, %d turns, of them %d idle; a take passes over %.1f waiting threads'
              % (self.name, p, facts[1], facts[2], self.turns, idle, passed), flush=True)
        self.calls = {'loading': ('l', 0), 'test': ('r', 0), 'run': ('r', LARGEST_LIMIT), 'single': ('s', self.turns // 2)}
        self.counts, self.many, self.none = {}, {}, {}

    def repeat(self, command, call, count):
        """The line printed by a process that makes a call so many times, and its user time."""
        mode, limit = self.calls[call]
        head = mode.encode() + count.to_bytes(4, 'little') + bytes([self.p]) + QUOTA.to_bytes(3, 'little') + limit.to_bytes(4, 'little')
        before = resource.getrusage(resource.RUSAGE_CHILDREN).ru_utime
        done = subprocess.run(command, input=head + self.data, capture_output=True, check=True)
        return done.stdout.decode(), resource.getrusage(resource.RUSAGE_CHILDREN).ru_utime - before

    def agree(self, programs):
        """All say the same, and the model's number of turns; how many calls of each take long enough to measure."""
        for call in self.calls:
            said = {name: self.repeat(command, call, 3)[0] for name, command in programs.items()}
            if len(set(said.values())) > 1 or call == 'run' and said[RATTLE] != 'r 3 %d\n' % (3 * self.turns):
                raise SystemExit('%s, %d workers, %s: %s' % (self.name, self.p, call, said))
            for name, command in programs.items():
                count = 1
                while self.repeat(command, call, count)[1] < LEAST_TIME:
                    count *= 2
                self.counts[call, name] = count

    def measure(self, programs):
        """The least time with many calls, and that with none, of what comes before them."""
        for call, _, (name, command) in itertools.product(self.calls, range(TRIES), programs.items()):
            key = call, name
            for least, count in (self.many, self.counts[key]), (self.none, 0):
                least[key] = min(least.get(key, 1e9), self.repeat(command, call, count)[1])

    def times(self, name):
        """What was measured of a program, in nanoseconds."""
        each = {call: (self.many[call, name] - self.none[call, name]) / self.counts[call, name] * 1e9 for call in self.calls}
        return [each['loading'], each['test'], (each['run'] - each['test']) / self.turns, each['run'], each['single']]


def build():
    """With clang where it is there: Rattle's compiler has the same optimiser."""
    compiler = shutil.which('clang') or shutil.which('cc')
    print('C compiled by %s -O3' % pathlib.Path(compiler).name)
    pathlib.Path('target').mkdir(exist_ok=True)
    for words in ['target/baseline'], ['target/baseline_links', '-DLINKS']:
        subprocess.run([compiler, '-O3', '-Wall', '-Wextra', 'bench/baseline.c', '-o', *words], check=True)
    return {ROW: ['target/baseline', 'repeat'], LINKS: ['target/baseline_links', 'repeat']}


def from_c(name, archives):
    """For the measurements from C: how often all is measured, by the command's words, and the program bench/NAME.c, built. Plain C is compiled apart, so that its calls stay calls, as those into
    the archives are."""
    options = argparse.ArgumentParser()
    options.add_argument('--rounds', type=int, default=10)
    options.add_argument('--compiler', default='%s -O3' % pathlib.Path(shutil.which('clang') or shutil.which('cc')).name)
    words = options.parse_args()
    compiler, out, warnings = words.compiler.split(), pathlib.Path('target/c'), ['-Wall', '-Wextra', '-Werror']
    out.mkdir(parents=True, exist_ok=True)
    program, plain = str(out / (name + '_bench')), str(out / ('plain_%s.o' % name))
    subprocess.run([*compiler, *warnings, '-Wno-unused-function', '-DLINKS', '-DCALLS', '-c', '-o', plain, 'bench/baseline.c'], check=True)
    subprocess.run([*compiler, '-std=c99', *warnings, '-Iinclude', '-o', program, 'bench/%s.c' % name, plain, *archives], check=True)
    print('C compiled by %s; load at the start %s' % (words.compiler, ' '.join('%.1f' % x for x in os.getloadavg())))
    return words.rounds, program


def report(cases, programs):
    times = [{name: case.times(name) for name in programs} for case in cases]
    print('\nns of a turn inside a run, and of a single turn by value:')
    for case, of in zip(cases, times):
        print('%-5s %2d  ' % (case.name, case.p) + '   '.join('%s %.1f, %.0f' % (name, t[2], t[4]) for name, t in of.items()))
    print('\nRattle / C with a row, and Rattle / C by the same algorithms:\n')
    print('| | workers | %s |\n|---|---|%s' % (' | '.join(MEASURED), '---|' * len(MEASURED)))
    for case, of in zip(cases, times):
        cells = ['%.2f / %.2f' % (rattle / row, rattle / links) for row, links, rattle in zip(of[ROW], of[LINKS], of[RATTLE])]
        print('| %s | %d | %s |' % (case.name, case.p, ' | '.join(cells)))
    missed = ['%s, %d workers, %s: %.2f x %s' % (case.name, case.p, MEASURED[i], of[RATTLE][i] / of[name][i], name)
              for case, of in zip(cases, times) for name, i, goal in case.goals if name in of and of[RATTLE][i] > goal * of[name][i]]
    met = 'all goals met' if BEFORE in programs else 'all goals met but that of the single turn, which was not looked at: it needs --before'
    print('\n' + '\n'.join(['goals missed:', *missed] if missed else [met]))


def main():
    options = argparse.ArgumentParser()
    options.add_argument('--runs', type=int, default=5)
    options.add_argument('--before')
    options.add_argument('program', nargs='*', default=['target/bin/bench_runs'])
    words = options.parse_args()
    programs = {**build(), RATTLE: words.program, **({BEFORE: [words.before]} if words.before else {})}
    cases = [Case(make, p) for make in TABLES for p in WORKERS]
    for case in cases:
        case.agree(programs)
    for _ in range(words.runs):
        for case in cases:
            case.measure(programs)
    report(cases, programs)


if __name__ == '__main__':
    main()
