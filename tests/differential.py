"""Draws random and damaged inputs and compares the programs with reference.py, machine.py, deques.py, filling.py, most.py and designs.py, which were written on their own.

usage: python3 tests/differential.py [COUNT] [PROGRAM..] [--baseline]
    COUNT inputs for each program (default 3,000); PROGRAM: tablecheck, maxquota, maxturns, filltable, canontable, cmptables, jointables, turnlist, wallchart, runrounds, dequelist, call_cases (default: all).
    From the repository's top, after `python3 tools/dist.py program` of these programs; with --baseline it is the C
    of bench/ that is compared, in both layouts (tablecheck, turnlist and runrounds), after `cc -O3 -o target/baseline bench/baseline.c`
    and `cc -O3 -DLINKS -o target/baseline_links bench/baseline.c`.
"""
import collections
import os
import pathlib
import random
import subprocess
import sys

import call_cases
import chart
import deques
import designs
import filling
import machine
import most
import quota
from reference import ALLOC, END, FORK, FREE, JOIN, WORK, Table, check, facts_line, serial_order
from tables import damaged, drawn, table

sys.path.insert(0, str(pathlib.Path(__file__).parent.parent / 'tools'))
import parts

LARGEST = 2**24 - 1


def mostly(rng, usual, *others):
    """The usual value, or one time in ten one of the others."""
    return rng.choice(others) if rng.random() < 0.1 else usual


def run_table(rng):
    """A table to run, and its largest alloc."""
    threads = rng.randint(1, rng.choice([3, 12, 40]))
    if rng.random() < 0.01:
        threads = rng.randint(100, 1024)
    sizes = rng.choice([[1], [2, 6], [9], [4, 100, LARGEST]])
    data = drawn(rng, threads, rng.randint(threads, min(8192, 6 * threads + 20)), sizes)
    if rng.random() < 0.1:  # one thread that draws again and again
        x = rng.randint(1, 9)
        data = table([(ALLOC, x)] * rng.randint(1, 30) + [(WORK, 0), (FREE, x), (END, 0)])
    return data, max([x for kind, x in Table(data).actions if kind == ALLOC], default=1)


def beginning(rng, most):
    """p and K: mostly in range, K often such that an alloc does not fit in what is left, or is above K."""
    p = mostly(rng, rng.choice([1, 2, 2, 3, 4, rng.randint(1, 16), 16]), 0, 17, 255)
    quota = rng.choice([most, most, most + 1, most + rng.randint(0, most), LARGEST, max(1, most // 2), max(1, most // rng.randint(1, 40))])
    quota = mostly(rng, min(quota, LARGEST), 0, most - 1, 1, LARGEST)
    return p, bytes([p]) + quota.to_bytes(3, 'little')


def order(rng, p, actions):
    """Workers for a run over a list, in one of several manners."""
    p = max(1, min(p, 16))
    length = rng.choice([0, 1, rng.randint(0, actions), 3 * actions, 3 * actions, 6 * actions])
    length = min(4096, length) if rng.random() < 0.97 else 4096
    manner = rng.randrange(4)
    if manner == 0:
        row = [rng.randrange(p) for _ in range(length)]
    elif manner == 1:
        row = [i % p for i in range(length)]
    elif manner == 2:  # long stretches of one worker
        row = []
        while len(row) < length:
            row += [rng.randrange(p)] * rng.randint(1, 12)
        row = row[:length]
    else:  # a worker that comes only now and then
        row = [rng.randrange(p) if rng.random() < 0.1 else p - 1 for _ in range(length)]
    if row and rng.random() < 0.15:
        row[rng.randrange(len(row))] = rng.choice([p, p, 16, 255])
    return bytes(row)


def pairs(rng, p, actions):
    """Workers and choices for a run over pairs: the choices all 0, of every place or mostly of the first, now and then an odd last byte."""
    row, places, manner = order(rng, p, actions)[:2048], max(1, min(p, 16)), rng.randrange(3)
    choices = [0 if manner == 0 or manner == 2 and rng.random() < 0.7 else rng.randrange(places) for _ in row]
    if choices and rng.random() < 0.1:
        choices[rng.randrange(len(choices))] = rng.choice([places, places, 16, 255])
    whole = bytes(x for pair in zip(row, choices) for x in pair)
    return whole + b'\xff' if len(whole) < 4096 and rng.random() < 0.1 else whole


def mostly_whole(rng, whole, front):
    """Now and then only the front, or a few bytes."""
    return rng.choice([front, whole[:rng.randint(0, 8)]]) if rng.random() < 0.03 else whole


def turnlist_input(rng, draw=order):
    data, most = run_table(rng)
    p, front = beginning(rng, most)
    row = draw(rng, p, Table(data).m)
    if rng.random() < 0.15:
        data = damaged(rng, data)
    length = len(row)
    if rng.random() < 0.05:
        length = rng.choice([length + 1, length + len(data), length + len(data) + 1, 4097, 65535])
        if rng.random() < 0.5 and len(row) < length:  # the bytes of too long an order are there
            row += bytes(length - len(row))
    whole = front + length.to_bytes(2, 'little') + row + data
    return mostly_whole(rng, whole, front + bytes(2))


def dequelist_input(rng):
    return turnlist_input(rng, pairs)


def runrounds_input(rng):
    data, most = run_table(rng)
    p, front = beginning(rng, most)
    whole = machine.runrounds(front + b'\xff' * 4 + data).split()
    end = int(whole[1]) if whole[0] == 'finished' else 9
    limit = rng.choice([0, 1, end - 1, end, end, end + 1, rng.randint(0, end), 2**32 - 1])
    if rng.random() < 0.15:
        data = damaged(rng, data)
    whole = front + limit.to_bytes(4, 'little') + data
    return mostly_whole(rng, whole, whole[:8])


def tablecheck_input(rng):
    large = rng.random() < 0.02
    threads = rng.randint(1, 1024 if large else 12)
    data = drawn(rng, threads, rng.randint(threads, 4 * threads + 40))
    return damaged(rng, data) if rng.random() < 0.7 else data


def maxquota_input(rng):
    """p, b, M and a table: M mostly about the bound of some K, often at the ends of the range."""
    data, most = run_table(rng)
    p = mostly(rng, rng.choice([1, 2, 3, rng.randint(1, 16), 16]), 0, 17, 255)
    b = mostly(rng, rng.choice([1, 1, 2, rng.randint(1, 65535), 65535]), 0, 65536, 2**32 - 1)
    K = rng.choice([most, most + rng.randint(0, 9), rng.randint(most, LARGEST), LARGEST])
    memory = quota.bound(check(data), max(p, 1), b, K) + rng.choice([-1, 0, 0, 1, rng.randint(0, 1000)])
    memory = mostly(rng, max(0, min(memory, 2**64 - 1)), 0, 1, 2**64 - 1)
    if rng.random() < 0.15:
        data = damaged(rng, data)
    return mostly_whole(rng, quota.board(p, b, memory, data), quota.board(p, b, memory, b''))


def filltable_input(rng):
    """K and a table: K mostly such that some allocs are above it, often about where the filled-out table passes a limit."""
    threads = rng.choice([1, 2, rng.randint(1, 12), rng.randint(1, 40), rng.randint(1, 40)])
    if rng.random() < 0.02:
        threads = rng.randint(100, 1024)
    sizes = rng.choice([[9], [2, 6, 40], [4, 100], [600], [4, 100, LARGEST]])
    data = drawn(rng, threads, rng.randint(threads, min(8192, 6 * threads + 20)), sizes)
    given = Table(data)
    most = max([x for kind, x in given.actions if kind == ALLOC], default=1)
    total = sum(x for kind, x in given.actions if kind == ALLOC)
    near = total * 2 // max(1, 1024 - given.n) + rng.choice([-1, 0, 0, 1])  # about 1,024 threads
    K = rng.choice([most - 1, most, (most + 1) // 2, most // 3, rng.randint(1, most), near, near + rng.randint(0, 9), 1])
    K = mostly(rng, max(1, min(K, LARGEST)), 0, most + 1, LARGEST)
    if rng.random() < 0.15:
        data = damaged(rng, data)
    return mostly_whole(rng, filling.quoted(K, data), filling.quoted(K, b''))


def maxturns_input(rng):
    """The K and table of filltable, with p in front and a limit that is not looked at between."""
    data = filltable_input(rng)
    if rng.random() < 0.2:
        data = data[:3] + damaged(rng, data[3:])
    p = mostly(rng, rng.randint(1, 16), 0, 17, 255)
    whole = bytes([p]) + data[:3] + rng.randbytes(4) + data[3:]
    return mostly_whole(rng, whole, whole[:8])


def canontable_input(rng):
    return tablecheck_input(rng) if rng.random() < 0.5 else run_table(rng)[0]


def cmptables_input(rng):
    """The length of the first and two tables: often one design under two numberings, now and then a damaged table, or another length in front."""
    first = run_table(rng)[0]
    second = designs.shuffled(rng, first) if rng.random() < 0.6 else run_table(rng)[0]
    kept = rng.random()
    if kept < 0.2:
        second = damaged(rng, second)
    elif kept < 0.35:
        first = damaged(rng, first)
    length = mostly(rng, len(first), 0, len(first) - 4, len(first) + 1, len(first) + len(second) + 1, 2**32 - 1)
    whole = max(0, length).to_bytes(4, 'little') + first + second
    return mostly_whole(rng, whole, whole[:4])


def jointables_input(rng):
    """Parts packed with their lengths: mostly few threads in each, now and then a damaged part, as many as pass a limit, lengths that do not add up, or only in 32 bits, another count."""
    count = mostly(rng, rng.randint(1, 6), 0, 16, 16, 17)
    tables = [run_table(rng)[0] for _ in range(count)]
    if tables and rng.random() < 0.25:
        i = rng.randrange(count)
        tables[i] = mostly(rng, damaged(rng, tables[i]), b'', CHAIN, MOST)
    whole = bytearray(parts.packed(tables))
    if tables and rng.random() < 0.1:
        at = 1 + 4 * rng.randrange(count)
        length = int.from_bytes(whole[at:at + 4], 'little')
        whole[at:at + 4] = (max(0, length + rng.choice([-4, -1, 1, 4, 2**31]))).to_bytes(4, 'little')
    if count > 1 and rng.random() < 0.05:  # they add up to 2^32 and the bytes
        whole[1:9] = b'\xff\xff\xff\xff' + (len(tables[0] + tables[1]) + 1).to_bytes(4, 'little')
    if rng.random() < 0.05:
        whole[:1] = bytes([rng.choice([0, 17, 255, (count + 1) % 256])])
    return mostly_whole(rng, bytes(whole), bytes(whole[:1 + 4 * count]))


def call_case(rng):
    return call_cases.record('case', *call_cases.random_case(rng))


def listing_traits(data, text):
    """What a listing shows, for the count of what the inputs reached."""
    rows = [row.split() for row in text.splitlines()]
    last = rows[-1]
    yield last[0] if last[0] != 'refused' else 'refused ' + last[1]
    if rows[0][0] == 'refused':
        return
    turns = rows[1:-1]
    for name in ('quota', 'wait', 'idle'):
        if any(row[4] == name for row in turns):
            yield name
    length = data[4] | data[5] << 8
    if last[0] == 'done' and len(turns) < length:
        yield 'order left at the end'
    if length in (0, 4096):
        yield 'order of %d' % length
    done, run = [int(row[3]) for row in turns if row[4] in machine.KINDS], machine.begin(data[6 + length:], data[0], int.from_bytes(data[1:4], 'little'))[1]
    if done != serial_order(Table(run.table))[:len(done)]:
        yield 'premature'
    if run.length != len(data) - 6 - length:
        yield 'filled out'
    if last[0] == 'refused' and data[6 + len(turns)] == 255:
        yield 'worker 255'


def pairs_traits(data, text):
    """What a listing of DFDeques shows."""
    rows = [row.split() for row in text.splitlines()]
    last = rows[-1]
    yield last[0] if last[0] != 'refused' else 'refused ' + last[1]
    if rows[0][0] == 'refused':
        return
    turns, length = rows[1:-1], data[4] | data[5] << 8
    for name in ('quota', 'wait', 'idle'):
        if any(row[4] == name for row in turns):
            yield name
    if last[0] == 'done' and len(turns) < length // 2:
        yield 'order left at the end'
    if last[0] == 'open' and length % 2:
        yield 'an odd last byte'
    if length in (0, 4096):
        yield 'order of %d' % length
    if deques.begin(data[6 + length:], data[0], int.from_bytes(data[1:4], 'little'))[1].run.length != len(data) - 6 - length:
        yield 'filled out'


def chart_traits(data, text):
    """What a chart shows; its inputs are the listing's."""
    rows = text.splitlines()
    if rows[-1].startswith('refused'):
        yield ' '.join(rows[-1].split()[:2])
    if rows[0].startswith('refused'):
        return
    seen = [chart.read(row) for row in rows if not row.startswith('refused')]
    if len(seen) == 4097:
        yield 'all 4,097 lines'
    if any(None not in cells and '.' not in cells for _, cells, _ in seen):
        yield '16 workers all holding'
    if any(cell not in (None, '.') and cell > 999 for _, cells, _ in seen for cell in cells):
        yield 'a thread of four digits'
    yield 'a chart'


def rounds_traits(data, text):
    words = text.split()
    yield words[0] if words[0] != 'refused' else 'refused ' + words[1]
    if words[0] != 'refused':
        limit = int.from_bytes(data[4:8], 'little')
        if limit == 0:
            yield 'L 0'
        if words[0] == 'finished' and int(words[1]) == limit:
            yield 'L at the end'


def call_traits(data, text):
    yield 'refused 32' if ' 32 0,' in text else 'sound'
    if ' 60 0 kept' in text:
        yield 'refused 60'
    for call in call_cases.parts(data)[4]:
        if call[:1] == b'p' and call_cases.FIELDS[call[1]:][:1] in (['left'], ['right'], ['leftmost']):
            yield 'another ' + call_cases.FIELDS[call[1]]


def table_traits(data, text):
    words = text.split()
    yield words[0] if words[0] != 'refused' else 'refused ' + words[1]


def quota_traits(data, text):
    words = text.split()
    if words[0] == 'refused':
        yield 'refused ' + words[1]
    else:
        yield 'quota'
        if int(words[1]) == LARGEST:
            yield 'the upper end'
        if data[0] == 1:
            yield 'one worker'


def turns_traits(data, text):
    words = text.split()
    if words[0] == 'refused':
        yield 'refused ' + words[1]
        return
    given = Table(data[8:])
    quota = int.from_bytes(data[1:4], 'little')
    yield 'filled out' if any(kind == ALLOC and x > quota for kind, x in given.actions) else 'in place'
    if int(words[1]) > 100000:
        yield 'above 100,000'


def filling_traits(data, answer):
    """What was filled out: how many trees, and whether a child's tree comes before its parent's."""
    out, refused = answer
    if refused:
        yield 'refused ' + refused.decode().split()[1]
        return
    if out == data[3:]:
        yield 'as it is'
        return
    n, whole = Table(data[3:]).n, Table(out)
    roots = [x for first, count in whole.contents[:n] for kind, x in whole.actions[first:first + count] if kind == FORK and x >= n]
    yield 'one tree' if len(roots) == 1 else 'trees'
    if roots != sorted(roots):
        yield 'not by rising action'
    if whole.n > 1000:
        yield 'above 1,000 threads'


def form_traits(data, answer):
    out, refused = answer
    if refused:
        yield 'refused ' + refused.decode().split()[1]
        return
    yield 'its own form' if out == data else 'under other numbers'
    if Table(out).n > 300:
        yield 'above 300 threads'


def compared_traits(data, text):
    words = text.split()
    if words[0] == 'refused':
        yield ' '.join(words[:2] + words[3:])
        return
    k = int.from_bytes(data[:4], 'little')
    yield words[0] if words[0] != 'equal' or data[4:4 + k] == data[4 + k:] else 'equal under other numbers'


def joined_traits(data, answer):
    out, refused = answer
    words = refused.decode().split()
    if words:
        yield ' '.join(words[:2])
        if len(words) > 3:
            yield 'in the first part' if words[4] == '0' else 'in a later part'
        return
    yield 'one part' if data[0] == 1 else 'parts'
    if Table(out).n > 300:
        yield 'above 300 threads'
    if data[0] == 16:
        yield 'sixteen'


# Inputs at the ends of what there is: the longest listing, the most memory, the most threads nested and side by side.
MOST = table([(ALLOC, LARGEST)] * 8191 + [(END, 0)])
CHAIN = table(*[[(FORK, t + 1), (JOIN, t + 1), (END, 0)] for t in range(1023)], [(END, 0)])
FAN = table([(FORK, t) for t in range(1, 1024)] + [(JOIN, t) for t in range(1023, 0, -1)] + [(END, 0)], *[[(END, 0)]] * 1023)
FULL = b'\xff' * 3
ORDERS = [bytes(4096), bytes(i % 16 for i in range(4096))]
LISTINGS = [bytes([16]) + FULL + b'\0\x10' + row + data for row in ORDERS for data in (MOST, CHAIN, FAN, MOST + b'\0', bytes(60000))]
WIDE = table([(FORK, t) for t in range(1, 17)] + [(JOIN, t) for t in range(16, 0, -1)] + [(END, 0)], *[[(WORK, 0), (END, 0)]] * 16)
HOLDING = bytes([16]) + FULL + b'\x40\0' + bytes(i // 2 % 16 for i in range(64)) + WIDE  # each forks a child and takes it: after 32 turns all hold one
BOARDS = [quota.board(p, b, M, data) for p in (1, 16) for b in (1, 65535) for M in (0, 2**64 - 1) for data in (MOST, CHAIN, FAN, MOST + b'\0', bytes(60000))]
ROUNDS = [bytes([p]) + FULL + b'\xff' * 4 + data for p in (1, 2, 16) for data in (MOST, CHAIN, FAN, MOST + b'\0', bytes(60000))]

WORKS = [(WORK, 0)] * 4608
FILLINGS = [filling.quoted(K, data) for K in (0, 1, LARGEST) for data in (MOST, CHAIN, FAN, MOST + b'\0', bytes(60000))]
FILLINGS += [filling.quoted(1, table(body + [(ALLOC, x), (END, 0)])) for body in ([], WORKS, WORKS + [(WORK, 0)], WORKS + [(WORK, 0)] * 2) for x in (511, 512, 513, LARGEST)]
TURNS = [bytes([p]) + data[:3] + b'\xff' * 4 + data[3:] for p in (1, 16) for data in FILLINGS]

PAIRS = [len(x).to_bytes(4, 'little') + x + y for x in (MOST, CHAIN, FAN, MOST + b'\0', bytes(60000)) for y in (MOST, CHAIN, FAN, b'', bytes(60000))]
LEAST = table([(END, 0)])
NEARLY = table(*[[(FORK, t + 1), (JOIN, t + 1), (END, 0)] for t in range(1022)], [(END, 0)])  # joined, it has 1,024 threads
ROWS = [table([(WORK, 0)] * k + [(END, 0)]) for k in (8188, 8189)]  # joined, they have 8,192 and 8,193 actions
JOINS = [parts.packed(tables) for tables in ([], [LEAST] * 16, [LEAST] * 17, [NEARLY], [NEARLY, LEAST], *([row] for row in ROWS), [FAN] * 16, [MOST] * 16, [MOST] * 15 + [MOST + b'\0'])]
JOINS += [b'', parts.packed([MOST] * 16) + bytes(9), bytes(600000), b'\xff' * 600000]

TABLE = ['refused %d' % i for i in range(1, 12)]

PROGRAMS = {
    'tablecheck': ([MOST, CHAIN, FAN, bytes(70000)], tablecheck_input, lambda data: facts_line(check(data)) + '\n', table_traits, ['table'] + TABLE),
    'maxquota': (BOARDS, maxquota_input, lambda data: quota.maxquota(data) + '\n', quota_traits,
                 ['quota', 'the upper end', 'one worker', 'refused 20', 'refused 33', 'refused 41', 'refused 42'] + TABLE),
    'maxturns': (TURNS, maxturns_input, lambda data: most.maxturns(data) + '\n', turns_traits,
                 ['in place', 'filled out', 'above 100,000', 'refused 20', 'refused 21', 'refused 33', 'refused 44'] + TABLE),
    'filltable': (FILLINGS, filltable_input, filling.answer, filling_traits,
                  ['as it is', 'one tree', 'trees', 'not by rising action', 'above 1,000 threads', 'refused 3', 'refused 21', 'refused 33', 'refused 44']),
    'canontable': ([MOST, CHAIN, FAN, bytes(70000)], canontable_input, designs.form_answer, form_traits, ['its own form', 'under other numbers', 'above 300 threads'] + TABLE),
    'cmptables': (PAIRS, cmptables_input, lambda data: designs.compare_line(data) + '\n', compared_traits,
                  ['before', 'equal', 'equal under other numbers', 'after', 'refused 33', 'refused 1 table 0', 'refused 1 table 1', 'refused 3 table 0', 'refused 3 table 1']),
    'jointables': (JOINS, jointables_input, designs.join_answer, joined_traits,
                   ['one part', 'parts', 'sixteen', 'above 300 threads', 'in the first part', 'in a later part', 'refused 47', 'refused 48', 'refused 1', 'refused 3', 'refused 6']),
    'turnlist': (LISTINGS, turnlist_input, machine.turnlist, listing_traits,
                 ['done', 'open', 'quota', 'wait', 'idle', 'premature', 'order left at the end', 'order of 0', 'order of 4096', 'worker 255',
                  'filled out', 'refused 20', 'refused 21', 'refused 30', 'refused 33', 'refused 44']),
    'wallchart': (LISTINGS + [HOLDING], turnlist_input, chart.wallchart, chart_traits,
                  ['a chart', 'all 4,097 lines', '16 workers all holding', 'a thread of four digits',
                   'refused 20', 'refused 21', 'refused 30', 'refused 33', 'refused 44']),
    'runrounds': (ROUNDS, runrounds_input, machine.runrounds, rounds_traits,
                  ['finished', 'spent', 'L 0', 'L at the end', 'refused 20', 'refused 21', 'refused 33', 'refused 44']),
    'dequelist': (LISTINGS, dequelist_input, deques.dequelist, pairs_traits,
                  ['done', 'open', 'quota', 'wait', 'idle', 'order left at the end', 'an odd last byte', 'order of 0', 'order of 4096', 'filled out',
                   'refused 20', 'refused 21', 'refused 30', 'refused 33', 'refused 44', 'refused 49']),
    'call_cases': ([], call_case, lambda data: call_cases.answers(data)[1], call_traits,
                   ['sound', 'refused 32', 'refused 60', 'another left', 'another right', 'another leftmost']),
}


def compare(name, count, command):
    if not os.path.exists(command[0]):
        raise SystemExit('%s is not there' % command[0])
    ends, draw, model, traits, wanted = PROGRAMS[name]
    rng = random.Random(20261115)
    reached = collections.Counter()
    for i in range(count):
        data = ends[i] if i < len(ends) else draw(rng)
        expected = model(data)  # a text on standard output, or the bytes on both
        said = subprocess.run(command, input=data, capture_output=True)
        found = (said.stdout, said.stderr) if isinstance(expected, tuple) else said.stdout.decode()
        if found != expected:
            open('target/differs', 'wb').write(data)
            raise SystemExit('%s, input %d (target/differs): expected\n%s\nfound\n%s' % (name, i, expected, found))
        reached.update(traits(data, expected))
    print('%s: %s' % (name, ', '.join('%s %d' % pair for pair in sorted(reached.items()))))
    missing = [trait for trait in wanted if not reached[trait]]
    if missing and count >= 1000:
        raise SystemExit('%s: no input reached %s' % (name, ', '.join(missing)))


def main():
    baseline = '--baseline' in sys.argv
    words = [word for word in sys.argv[1:] if word != '--baseline']
    count = int(words.pop(0)) if words and words[0].isdigit() else 3000
    names = words or [name for name in PROGRAMS if not baseline or name in ('tablecheck', 'turnlist', 'runrounds')]
    for name in names:
        for command in [['target/baseline', name], ['target/baseline_links', name]] if baseline else [['target/bin/' + name]]:
            compare(name, count, command)
    print('%d inputs agree: %d each for %s' % (count * len(names), count, ', '.join(names)))


if __name__ == '__main__':
    main()
