"""Holds the calls of libwivakkol_tables.a against designs.py, which was written on its own, on random and damaged tables: answers, rows, buffers, cleared working memory, and the stack that each
call takes (under 8 KB). Holds the header against the source as well.

usage: python3 tests/tables_calls.py [COUNT]
    From the repository's top, after `python3 tools/dist.py archive wivakkol_tables`; COUNT calls (default 2,000); needs a C compiler, `cc`.
"""
import collections
import os
import random
import struct
import sys

import board
import stack
from designs import compare, form, joined, shuffled
from reference import check
from tables import damaged, drawn

ARCHIVE = 'target/staticlib/libwivakkol_tables.a'
CALLS = {0: 'wivakkol_join', 1: 'wivakkol_canonical', 2: 'wivakkol_compare'}
BYTES, WORKING, PAINT = 36868, 3 * 8192 + 3 * 2048, b'\x77'
SAID = {'before': 1, 'equal': 2, 'after': 3}
TABLE = set(range(12))
NUMBERS = {0: TABLE | {47, 48}, 1: TABLE, 2: TABLE}
Case = collections.namedtuple('Case', 'call input number row a b used')


def number(x):
    return x.to_bytes(4, 'little')


def over(front):
    """A painted buffer with a table at its start."""
    return front + PAINT * (BYTES - len(front))


def join_case(parts, lengths=None):
    data, lengths = b''.join(parts), [len(part) for part in parts] if lengths is None else lengths
    answer = joined(data, lengths)
    if answer[0] == 'table':
        n, row, out = 0, [0, *answer[2][1:], 0], over(answer[1])
    else:
        n, row, out = answer[1], [answer[2], 0, 0, 0, 0, 0, answer[3] if len(answer) > 3 else 0], over(b'')
    return Case(0, number(len(data)) + data + number(len(lengths)) + b''.join(map(number, lengths)), n, row, out, over(b''), 'rfpd')


def form_case(data):
    answer = form(data)
    n, row, out = (0, [0, len(answer[1])], over(answer[1])) if answer[0] == 'form' else (answer[1], [answer[2], 0], over(b''))
    return Case(1, number(len(data)) + data, n, row, out, over(b''), 'rfno')


def compare_case(first, second):
    answer = compare(first, second)
    if isinstance(answer, str):
        n, row, a, b = 0, [0, SAID[answer], 0], over(form(first)[1]), over(form(second)[1])
    else:
        n, row, a, b = answer[1], [answer[2], 0, answer[3]], over(b''), over(b'')
    return Case(2, number(len(first)) + first + number(len(second)) + second, n, row, a, b, 'rfno')


def some_table(rng):
    threads = rng.choice([40, 300, 1024]) if rng.random() < 0.03 else rng.choice([1, 2, 2, 3, 5, 9])
    data = drawn(rng, threads, 8000 if rng.random() < 0.02 else 5 * threads)
    return damaged(rng, data) if rng.random() < 0.4 else data


def drawn_parts(rng):
    """Parts and their lengths, which now and then do not add up, or only in 32 bits."""
    parts = [some_table(rng) if rng.random() < 0.5 else drawn(rng, rng.randint(1, 60), 120) for _ in range(rng.choice([0, 1, 1, 2, 2, 3, 3, 16, 17]))]
    lengths = [len(part) for part in parts]
    if lengths and rng.random() < 0.1:
        i = rng.randrange(len(lengths))
        lengths[i] = max(0, lengths[i] + rng.choice([1, -1, 2**32 - 200000]))
        if len(lengths) > 1 and rng.random() < 0.5:
            lengths = [len(parts[0]) + 1, 2**32 - 1, *map(len, parts[2:])]
    return parts, lengths


def drawn_pair(rng):
    first = some_table(rng)
    if rng.random() < 0.5 and check(first)[0] != 'refused':
        second = shuffled(rng, first)
        return first, damaged(rng, second) if rng.random() < 0.2 else second
    return first, some_table(rng)


def drawn_case(rng):
    call = rng.randrange(3)
    if call == 0:
        return join_case(*drawn_parts(rng))
    return form_case(some_table(rng)) if call == 1 else compare_case(*drawn_pair(rng))


def ends():
    """The most deeply nested and the widest table, no bytes at all and more than any table has."""
    nested, fan = stack.nested(), stack.fan()
    yield from map(form_case, (nested, fan, b'', bytes(60000)))
    yield from (compare_case(x, y) for x in (nested, fan) for y in (nested, fan, b''))
    yield from map(join_case, ([nested], [fan] * 16, [b''], [], [nested, b'\xff' * 60000]))


def cleared(work, used):
    parts = {'r': (0, 8192), 'f': (8192, 8192), 'p': (16384, 8192), 'd': (24576, 2048), 'n': (26624, 2048), 'o': (28672, 2048)}
    return all(work[at:at + k] == (bytes(k) if name in used else b'\x5a' * k) for name, (at, k) in parts.items())


def differs(case, got):
    """What a call left that is not expected of it, if anything; and the stack that it took."""
    answer, deep = struct.unpack('<II', got[:8])
    row = list(struct.unpack('<7Q', got[8:64]))
    found = {'the number': (answer, case.number), 'the row': (row, case.row + [9] * (7 - len(case.row)))}
    places = {'the first buffer': (64, case.a), 'the second buffer': (64 + BYTES, case.b)}
    found.update((what, (got[at:at + BYTES] == wanted, True)) for what, (at, wanted) in places.items())
    found['the working memory'] = cleared(got[64 + 2 * BYTES:], case.used), True
    return [(what, *pair) for what, pair in found.items() if pair[0] != pair[1]], deep


def main():
    count = int(sys.argv[1]) if len(sys.argv) > 1 else 2000
    if not os.path.exists(ARCHIVE):
        sys.exit('%s is not there: run `python3 tools/dist.py archive wivakkol_tables` first' % ARCHIVE)
    board.table_header_is_source('wivakkol_tables', CALLS.values())
    rng = random.Random(12)
    cases = list(ends())
    cases += [drawn_case(rng) for _ in range(count - len(cases))]
    program = board.build('tests/tables_calls.c', 'tables_test', [ARCHIVE])
    board.hold_table_calls(program, CALLS, NUMBERS, cases, lambda case: number(case.call) + case.input, lambda case: 8 + 56 + 2 * BYTES + WORKING, differs, count >= 2000)


if __name__ == '__main__':
    main()
