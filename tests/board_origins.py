"""wivakkol_origin from C, for tests/board.py: on tables filled out by filling.py with the actions that stand there as given, thread by thread, and on any bytes with a model that reads nothing but them."""
import collections
import subprocess

import filling
from reference import ALLOC, FORK, JOIN, Table, check

NO_ACTION, LARGEST = 65535, 16777215
BEYOND = [2**16 - 1, 2**32, 2**64 - 1]


def own(given, out):
    """Of each action of a filled-out table the one as given: in the bodies of the first n threads all but forks and joins of the others, one after the other."""
    given, out = Table(given), Table(out)
    n, origins, a = given.n, [NO_ACTION] * out.m, 0
    for first, count in out.contents[:n]:
        for i in range(first, first + count):
            kind, x = out.actions[i]
            if kind not in (FORK, JOIN) or x < n:
                origins[i], a = a, a + 1
    assert [out.actions[i] for i, x in enumerate(origins) if x != NO_ACTION] == given.actions
    return origins


def read_off(data, quota, asked):
    """From any bytes: the allocs above the quota say how many threads were brought, and so how many there were; an action in the bodies of the others, or that forks or joins one, was put in, and each such
    alloc has two actions in front of it."""
    n, m = int.from_bytes(data[:2], 'little'), int.from_bytes(data[2:4], 'little')
    if not 1 <= quota <= LARGEST:
        return [NO_ACTION for _ in asked]
    rows = [data[4 + 4 * n + 4 * i:][:4].ljust(4, b'\0') for i in range(m)]
    rows = [(row[0], int.from_bytes(row[1:], 'little')) for row in rows]
    above = [kind == ALLOC and x > quota for kind, x in rows]
    given = max(0, n - sum(2 * -(-x // quota) - 1 for (_, x), big in zip(rows, above) if big))
    end = int.from_bytes(data[4 + 4 * given:][:2], 'little') if given < n else m
    passed, total = [], 0
    for big in above:
        total += big
        passed.append(total)
    return [NO_ACTION if a >= m or a >= end or rows[a][0] in (FORK, JOIN) and rows[a][1] >= given else max(0, a - 2 * passed[a]) for a in asked]


def asked(data):
    """Some 250 of a table's actions, or all of fewer, and three that no table has."""
    m = int.from_bytes(data[2:4], 'little')
    return [*range(0, m, m // 256 + 1), *BEYOND]


def filled_case(case):
    """The table that runs, where one does."""
    if check(case.data)[0] == 'refused' or not 1 <= case.quota <= LARGEST or filling.too_large(case.data, case.quota) is not None:
        return None
    return filling.filled(case.data, case.quota)


def compare(program, drawn, count):
    """The most stack of a call."""
    cases, counter = [], collections.Counter()
    for case in drawn:
        out = filled_case(case)
        cases.append((case.data, case.quota, None))
        if out is not None:
            cases.append((out, case.quota, own(case.data, out)))
    packed = b''.join(len(data).to_bytes(4, 'little') + quota.to_bytes(4, 'little') + data for data, quota, _ in cases)
    *lines, last = subprocess.run([program, 'origins'], input=packed, stdout=subprocess.PIPE, check=True).stdout.decode().splitlines()
    assert len(lines) == len(cases), '%d answers to %d cases' % (len(lines), len(cases))
    for i, (line, (data, quota, owns)) in enumerate(zip(lines, cases)):
        got, these = list(map(int, line.split())), asked(data)
        wanted = read_off(data, quota, these)
        if owns is not None:
            assert wanted == [owns[a] if a < len(owns) else NO_ACTION for a in these], 'the two models differ, case %d' % i
            counter['filled out' if NO_ACTION in owns else 'as given'] += 1
            counter['put in'] += wanted[:-3].count(NO_ACTION)
            counter['of the table'] += len(wanted) - 3
        assert got == wanted, 'case %d differs, K %d\n  given    %s\n  expected %s' % (i, quota, got[:40], wanted[:40])
    assert count < 1000 or counter['filled out'] > 100 and counter['as given'] > 100, counter
    print('wivakkol_origin: %d of %d agree, %d of filled-out tables, %d of tables that run as given; of their actions asked %d, %d put in'
          % (len(cases), len(cases), counter['filled out'], counter['as given'], counter['of the table'], counter['put in']))
    return int(last.split()[1])
