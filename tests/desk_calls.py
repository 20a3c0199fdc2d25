"""Holds the calls of libwivakkol_desk.a against texts.py, which was written on its own, on random and damaged texts and tables and in buffers that are too short: answers, rows, buffers, cleared
working memory, and the stack that each call takes (under 8 KB). Holds the header against the source as well.

usage: python3 tests/desk_calls.py [COUNT]
    From the repository's top, after `python3 tools/dist.py archive wivakkol_desk`; COUNT calls (default 2,000); needs a C compiler, `cc`.
"""
import collections
import os
import random
import struct
import sys

import board
import stack
import texts
from reference import Table, check
from tables import damaged, drawn, table

ARCHIVE = 'target/staticlib/libwivakkol_desk.a'
CALLS = {0: 'wivakkol_assemble', 1: 'wivakkol_disassemble'}
MOST, TABLE_MOST, WORKING, PAINT, BEYOND = 266240, 36868, 3 * 8192 + 3 * 2048, b'\x77', 64
EXPECTED = {'thread, alloc, free, fork, join, work or end': 1, 'a number up to 16777215': 2, 'the end of the line': 3}
NUMBERS = {0: {0, 2, 4, *range(6, 12), 61, 62, 63}, 1: {*range(12), 61}}
Case = collections.namedtuple('Case', 'call data room number row out')


# What is expected

def fault_row(place, raw, expected):
    unseen = 2 if raw.startswith(b'\xef\xbb\xbf') else 1 if b'\r' in raw.split(b'#')[0] else 0
    thread = 0 if expected in EXPECTED else int(expected.split()[1])
    return [0, 0, place, EXPECTED.get(expected, 4), thread, unseen]


def assembled(text, room):
    """Number, row and what is put at the buffer's start."""
    if len(text) > texts.LONGEST:
        return 62, [0] * 6, b''
    found = texts.read(text)
    if found[0] == 'fault':
        return 63, fault_row(*found[1:]), b''
    bodies, threads, actions = found[1:]
    if texts.sizes_outside(bodies, actions):
        return 2, [0] * 6, b''
    data = table(*bodies)
    if len(data) > room:
        return 61, [0, len(data), 0, 0, 0, 0], b''
    answer = check(data)
    if answer[0] == 'refused':
        return answer[1], [answer[2], 0, (threads if answer[1] in (4, 11) else actions)[answer[2]], 0, 0, 0], data
    return 0, [0, len(data), 0, 0, 0, 0], data


def disassembled(data, room):
    answer = check(data)
    if answer[0] == 'refused':
        return answer[1], [answer[2], 0], b''
    most = 12 * len(Table(data).contents) + 31 * len(Table(data).actions)
    if most > room:
        return 61, [0, most], b''
    text = texts.disassemble(data)[0]
    return 0, [0, len(text)], text


def case(call, data, room):
    number, row, front = (disassembled if call else assembled)(data, room)
    assert len(front) <= room
    return Case(call, data, room, number, row, front + PAINT * (room + BEYOND - len(front)))


# Calls

def some_room(rng, exact, most):
    return rng.choice([0, max(0, exact - 1), exact, exact + 1, exact + 4, rng.randrange(exact + 1), most if rng.random() < 0.05 else exact + 7])


def rearranged(rng, text):
    """A text with one line left out, given twice or put elsewhere: mostly still lines as they should be, of a table that is refused."""
    lines = text.split(b'\n')
    i = rng.randrange(len(lines))
    taken = lines.pop(i) if rng.random() < 0.7 else lines[i]
    if rng.random() < 0.6:
        lines.insert(rng.randrange(len(lines) + 1), taken)
    return b'\n'.join(lines)


def drawn_case(rng):
    threads = rng.choice([1, 2, 3, 5, 9, 40]) if rng.random() < 0.97 else 1024
    data = drawn(rng, threads, 8000 if rng.random() < 0.02 else rng.randint(4, 60) + 3 * threads)
    if rng.random() < 0.5:
        exact = 12 * len(Table(data).contents) + 31 * len(Table(data).actions)
        return case(1, damaged(rng, data) if rng.random() < 0.4 else data, some_room(rng, exact, MOST))
    text = texts.loosened(rng, texts.disassemble(data)[0] or b'')  # a drawn table may pass a limit
    if rng.random() < 0.5:
        text = rearranged(rng, text)
    if rng.random() < 0.15:
        text = text.replace(b'\n', b'\r\n')
    if rng.random() < 0.05:
        text = b'\xef\xbb\xbf' + text
    for _ in range(rng.choice([0, 0, 0, 0, 1])):
        text = texts.damaged(rng, text)
    return case(0, text, some_room(rng, len(data), TABLE_MOST))


def ends():
    """Every number of a text's table, the most deeply nested and the widest table, no bytes at all and more than any text or table has."""
    nested, fan = stack.nested(), stack.fan()
    head = b'thread 0\n'
    for rest in (b' fork 1\n end\nthread 1\nthread 2\n end\n', b' alloc 0\n end\n', b' end\n work\n', b' fork 1\n fork 1\n end\nthread 1\n end\n',
                 b' fork 1\n end\nthread 1\n end\n', b' alloc 6\n\n # more\n free 7\n end\n', b' end\nthread 1\n end\n', b' alloc 16777216\n', b' end 0\n', b' work\r\n end\n'):
        yield from (case(0, head + rest, room) for room in (0, 11, 12, 300))
    for data in nested, fan, b'', bytes(60000), b'\xff' * 60000:
        yield from (case(1, data, room) for room in (0, 1, MOST))
    for data in nested, fan:
        text = texts.disassemble(data)[0]
        yield from (case(0, text, room) for room in (0, len(data) - 1, len(data), TABLE_MOST, MOST))
    many = b''.join(b'thread %d\nend\n' % t for t in range(1025))
    for text in b'', b'#', many, b'thread 0\n' + b'work\n' * 8193, b'#' * 262144, b'#' * 262145, b'\n' * 262144 + b'x', b'\n' * 262143 + b'x':
        yield from (case(0, text, room) for room in (0, TABLE_MOST))


def packed(case):
    return b''.join((case.call.to_bytes(4, 'little'), len(case.data).to_bytes(4, 'little'), case.data, case.room.to_bytes(4, 'little')))


def differs(case, got):
    """What a call left that is not expected of it, if anything; and the stack that it took."""
    answer, deep = struct.unpack('<II', got[:8])
    row, out, work = list(struct.unpack('<6Q', got[8:56])), got[56:56 + case.room + BEYOND], got[56 + case.room + BEYOND:]
    cleared = 3 * 8192 + 2048
    found = {'the number': (answer, case.number), 'the row': (row, case.row + [9] * (6 - len(case.row))), 'the buffer': (out == case.out, True),
             'the working memory': (work == bytes(cleared) + b'\x5a' * (WORKING - cleared), True)}
    return [(what, *pair) for what, pair in found.items() if pair[0] != pair[1]], deep


def main():
    count = int(sys.argv[1]) if len(sys.argv) > 1 else 2000
    if not os.path.exists(ARCHIVE):
        sys.exit('%s is not there: run `python3 tools/dist.py archive wivakkol_desk` first' % ARCHIVE)
    board.table_header_is_source('wivakkol_desk', CALLS.values())
    rng = random.Random(40)
    cases = list(ends())
    cases += [drawn_case(rng) for _ in range(count - len(cases))]
    program = board.build('tests/desk_calls.c', 'desk_test', [ARCHIVE])
    board.hold_table_calls(program, CALLS, NUMBERS, cases, packed, lambda case: 8 + 48 + case.room + BEYOND + WORKING, differs, count >= 2000)


if __name__ == '__main__':
    main()
