"""Writes the stored input and output of crates/call_cases: calls on records, also changed by hand, with the answer expected of each.

A record's form is told in crates/call_cases/src/main.rt. The answers of the named cases are written down here by hand and held against
machine.py; those of the random sample, and what the record then holds, are the model's.
"""
import functools
import pathlib
import random

import chart
import machine
import pace
from cases import LARGEST, alloc, end, free, least, parent, work
from machine import ENDED, HELD, LAST_TURN, NO_THREAD, READY, WAITING, described
from tables import drawn, table

FIELDS = ['length', 'p', 'quota', 'leftmost', 'busy', 'held', 'highest', 'turns', 'table', 'next', 'status', 'amounts', 'left', 'right']
WORKER = ['holds', 'thread', 'quota']
PACED = (b'b', b'T', b'L', b'R')
E = table(parent(1, 2), [alloc(6), work, free(6), end], [alloc(6), free(6), end])


def turn(w):
    return b't' + bytes([w])


def shown(w):
    return b'v' + bytes([w])


def lined():
    return b'w'


def charted(*row):
    return b'c' + bytes([len(row)]) + bytes(row)


def order(*row):
    return b'l' + bytes([len(row)]) + bytes(row)


def rounds(limit):
    return b'r' + limit.to_bytes(4, 'little')


def begun(p, b):
    return b'b' + bytes([p]) + b.to_bytes(4, 'little')


def paced(w):
    return b'T' + bytes([w])


def paced_order(*row):
    return b'L' + bytes([len(row)]) + bytes(row)


def paced_rounds(limit):
    return b'R' + limit.to_bytes(4, 'little')


def put(field, value, place=0, worker=False):
    number = len(FIELDS) + WORKER.index(field) if worker else FIELDS.index(field)
    return b'p' + bytes([number]) + place.to_bytes(2, 'little') + value.to_bytes(8, 'little')


def changed(run, call):
    run, number = machine.copied(run), call[1]
    place, value = int.from_bytes(call[2:4], 'little'), int.from_bytes(call[4:], 'little')
    if number >= len(FIELDS):
        setattr(run.worker[place], WORKER[number - len(FIELDS)], value)
    elif FIELDS[number] == 'table':
        run.table = run.table[:place] + bytes([value]) + run.table[place + 1:]
    elif FIELDS[number] in ('next', 'status', 'amounts', 'left', 'right'):
        getattr(run, FIELDS[number])[place] = value
    else:
        setattr(run, FIELDS[number], value)
    return 'changed', run


def paced_call(run, keeper, call):
    """A call on the record and the pace beside it, with the least b kept."""
    if call[:1] == b'b':
        keeper.numbers = [0] * pace.NUMBERS
        number = keeper.begin(call[1], int.from_bytes(call[2:], 'little'))
        answer = ('refused', number, 0) if number else ('begun',)
    elif call[:1] == b'T':
        answer, run = pace.turn(run, keeper, call[1])
    elif call[:1] == b'L':
        answer, run = pace.run_list(run, keeper, call[2:])
    else:
        answer, run = pace.run_rounds(run, keeper, int.from_bytes(call[1:], 'little'))
    return ' '.join(map(str, (*answer, 'kept', keeper.numbers[pace.KEPT]))), run


def called(run, call, keeper=None):
    """What the model answers, as text, and the record."""
    if call[:1] in PACED:
        return paced_call(run, keeper, call)
    if call[:1] == b'p':
        return changed(run, call)
    if call[:1] == b'c':
        return 'chart\n' + chart.chart(run, call[2:]).rstrip('\n'), run
    if call[:1] == b'w':
        answer = chart.line(run)
        return answer if isinstance(answer, str) else ' '.join(map(str, answer)), run
    if call[:1] == b't':
        answer, run = machine.turn(run, call[1])
    elif call[:1] == b'v':
        answer = machine.preview(run, call[1])
    elif call[:1] == b'l':
        answer, run = machine.run_list(run, call[2:])
    else:
        answer, run = machine.run_rounds(run, int.from_bytes(call[1:], 'little'))
    return ' '.join(map(str, answer)), run


def mix(total, numbers):
    for x in numbers:
        total = (3 * total + x) % 2**64
    return total


@functools.lru_cache
def mixed_table(data):
    return mix(0, data)


def mixed(run):
    """The whole record in one number, as the program has it."""
    threads = [x for row in zip(run.next, run.status, run.amounts, run.left, run.right) for x in row]
    workers = [x for w in run.worker for x in (int(w.holds), w.thread, w.quota)]
    amounts = [run.length, run.p, run.quota, run.leftmost, run.busy, run.held, run.highest, run.turns]
    return mix(mixed_table(run.table), threads + workers + amounts)


def told(answer, run):
    return '%s, held %d highest %d turns %d record %d\n' % (answer, run.held, run.highest, run.turns, mixed(run))


fork, join = lambda t: (machine.FORK, t), lambda t: (machine.JOIN, t)
CHAIN = table(*[[fork(t + 1), join(t + 1), end] for t in range(1023)], [end])
FULL = table(parent(*range(1, 1024)), *[[work] * 5 + [end]] * 1021, [work] * 7 + [end], [work] * 10 + [end])  # 8,192 actions
NESTED = table([fork(1), fork(3), join(3), join(1), end], [fork(2), join(2), end], [work, work, end], [work, end])
FAN = table(parent(*range(1, 16)), *[[work, end]] * 15)
DEEP = table(*[[fork(t + 1), join(t + 1), end] for t in range(1023)], [work, work, end])
LEFT = table([fork(1), work, join(1), free(3), end], [alloc(4), end])  # a child's 4 go to its parent, which ends with 1
FIVE = order(0, 1, 0, 2, 0)  # of E with p 3: thread 0 waits for 2, threads 1 and 2 are held, 12 units too; the list is 1, 2, 0
NEARLY_LAST = [put('turns', LAST_TURN - 1)]
LEFT_ENDED, LEFT_JOINED = order(0, 1, 1), order(0, 1, 1, 0, 0)  # of LEFT with p 2: the child has ended, and is joined
WIDE = table(parent(*range(1, 17)), *[[work, end]] * 16)
LATE = table(parent(1023, *range(1, 1023)), *[[end]] * 1022, [work, end])


def row(turns, cells, held):
    """A line of the chart, its cells written out."""
    return '%6d%-64s%14d' % (turns, cells, held)


def rows(*texts):
    return 'chart\n' + '\n'.join(texts)


def unsound(label, *puts):
    """After some change every call gets 32, with a worker not below p, an empty list and a limit of 0 too."""
    n = len(puts)
    return ('not sound: ' + label, (3, 6, E), [FIVE, *puts, turn(0), turn(9), order(), order(1), rounds(0), rounds(9)],
            ['spent 5'] + ['changed'] * n + ['refused 32 0'] * 2 + ['refused 0 32 0'] * 4)


def as_sound(label, w, said, left, *puts):
    """After some change a turn of worker w says so much, and a run in rounds finishes with so many turns more."""
    return ('sound: ' + label, (3, 6, E), [FIVE, *puts, turn(99), order(), turn(w), rounds(99)],
            ['spent 5'] + ['changed'] * len(puts) + ['refused 30 0', 'spent 0', said, left])


def damaged(label, beginning, to, said, *puts):
    """A call, after which the record is sound, and then some change, after which it is not."""
    return ('not sound: ' + label, beginning, [to, order(), *puts, turn(0), order(), rounds(0)],
            [said, said.split()[0] + ' 0'] + ['changed'] * len(puts) + ['refused 32 0'] + ['refused 0 32 0'] * 2)


def other_amounts(label, to, *puts):
    return damaged(label, (2, 4, LEFT), to, 'spent %d' % to[1], *puts)


def listed(*threads):
    """After FIVE, the links of another list."""
    (lefts, rights, _), (left, right, leftmost) = described([1, 2, 0]), described(list(threads))
    return ([put('left', left[t], t) for t in range(1024) if left[t] != lefts[t]] + [put('right', right[t], t) for t in range(1024) if right[t] != rights[t]]
            + [put('leftmost', leftmost)])


def idle(w):
    """Worker w no longer holds anything; the set is the caller's."""
    return [put('holds', 0, w, True), put('thread', 0, w, True), put('quota', 0, w, True)]


CASES = [
    ('the listing by single turns', (2, 6, E), [turn(w) for w in [0, 1] * 7] + [turn(0), turn(2), order(9), rounds(0), rounds(5)],
     ['done 0 0', 'done 1 5', 'done 0 1 passed 1', 'done 1 6', 'done 2 9 passed 1', 'done 1 7', 'done 2 10', 'done 1 8', 'done 2 11', 'done 0 2', 'idle', 'done 0 3', 'idle',
      'done 0 4', 'refused 31 0', 'refused 30 0', 'finished 0', 'finished 0', 'finished 0']),
    ('the last turn says wait', (2, 6, E), [order(0, 1, 0, 1, 1, 1, 1), turn(0), turn(2)], ['spent 7', 'wait 0 2 passed 1', 'refused 30 0']),
    ('quota', (1, 6, table([alloc(4), alloc(4), end])), [turn(0)] * 4, ['done 0 0', 'quota 0 4', 'done 0 1', 'done 0 2']),
    ('a list stopped by 30 goes on after it', (2, 6, E), [order(0, 1, 9, 0), turn(0), rounds(99)], ['refused 2 30 0', 'done 0 1 passed 1', 'finished 11']),
    ('rounds begin at worker 0 again', (3, 6, E), [rounds(1), rounds(1), turn(1), rounds(99)], ['spent 1', 'spent 1', 'done 0 1 passed 1', 'finished 15']),
    ('a held and a waiting thread passed over, and a fork right after', (3, 1, NESTED), [turn(w) for w in (0, 0, 1, 0, 0, 2, 2, 2)],
     ['done 0 0', 'done 1 5', 'done 2 8', 'wait 1 2 passed 1', 'done 0 1 passed 2', 'done 3 11 passed 2', 'done 3 12', 'done 0 2 passed 2']),
    ('sixteen workers, each past those before it', (16, 1, FAN), [turn(i // 2) for i in range(31)] + [turn(15)],
     [said % w for w in range(15) for said in ('done 0 %d' % w + ' passed %d', 'done %d %d' % (w + 1, 31 + 2 * w) + ' passed %d')] + ['wait 0 15 passed 15', 'idle']),
    ('turns shown before they are taken', (2, 6, E), [call for w in [0, 1] * 4 for call in (shown(w), turn(w))],
     ['would done 0 0 passed 0 held 0 highest 0 quota 0', 'done 0 0', 'would done 1 5 passed 0 held 6 highest 6 quota 0', 'done 1 5',
      'would done 0 1 passed 1 held 6 highest 6 quota 0', 'done 0 1 passed 1', 'would done 1 6 passed 0 held 6 highest 6 quota 0', 'done 1 6',
      'would done 2 9 passed 1 held 12 highest 12 quota 0', 'done 2 9 passed 1', 'would done 1 7 passed 0 held 6 highest 12 quota 0', 'done 1 7',
      'would done 2 10 passed 0 held 0 highest 12 quota 0', 'done 2 10', 'would done 1 8 passed 0 held 0 highest 12 quota 0', 'done 1 8']),
    ('shown: a join, an idle turn, the end, refusals', (2, 6, E), [order(*[0, 1] * 4, 0), shown(1), turn(1), shown(0), order(0, 1, 0), shown(1), turn(1), shown(0), shown(2)],
     ['spent 9', 'would done 0 2 passed 0 held 0 highest 12 quota 6', 'done 0 2', 'would idle passed 0 held 0 highest 12 quota 0', 'spent 3',
      'would done 0 4 passed 0 held 0 highest 12 quota 0', 'done 0 4', 'refused 31 0', 'refused 30 0']),
    ('shown: work and quota left', (1, 9, table([work, alloc(4), alloc(4), alloc(4), end])), [shown(0), turn(0), shown(0), turn(0), turn(0), shown(0), turn(0), shown(0)],
     ['would done 0 0 passed 0 held 0 highest 0 quota 9', 'done 0 0', 'would done 0 1 passed 0 held 4 highest 4 quota 5', 'done 0 1', 'done 0 2',
      'would quota 0 4 passed 0 held 8 highest 8 quota 0', 'quota 0 4', 'would done 0 3 passed 0 held 12 highest 12 quota 5']),
    ('shown: a wait, and a record that is not sound', (2, 6, E), [order(0, 1, 0, 1, 1, 1, 1), shown(0), put('held', 7), shown(0), shown(9)],
     ['spent 7', 'would wait 0 2 passed 1 held 6 highest 6 quota 0', 'changed', 'refused 32 0', 'refused 32 0']),
    ('shown: the blank record', (0, 6, E), [shown(0), shown(255)], ['refused 30 0'] * 2),
    ('lines of E', (2, 6, E), [lined(), turn(0), lined(), turn(1), lined(), order(0, 1, 0), lined(), rounds(99), lined()],
     [row(0, '   .   .', 0), 'done 0 0', row(1, '   .   .', 0), 'done 1 5', row(2, '   .   1', 6), 'spent 3', row(5, '   2   1', 12), 'finished 9', row(14, '   .   .', 0)]),
    ('a line: sixteen workers, all holding', (16, 1, WIDE), [order(*(i // 2 for i in range(32))), lined()],
     ['spent 32', row(32, '   1   2   3   4   5   6   7   8   9  10  11  12  13  14  15  16', 0)]),
    ('a line: thread 1,023 fills its cell', (2, 1, LATE), [order(1, 1), lined(), put('turns', 999999), lined()], ['spent 2', row(2, '   .1023', 0), 'changed', row(999999, '   .1023', 0)]),
    ('a line: 1,023 beside 999,999', (1, 1, LATE), [order(0, 0), put('turns', 999999), lined()], ['spent 2', 'changed', '9999991023' + ' ' * 60 + '             0']),
    ('a line: 1,000,000 turns', (2, 6, E), [put('turns', 1000000), lined(), *NEARLY_LAST, lined(), put('turns', LAST_TURN), lined()],
     ['changed', 'refused 43 0', 'changed', 'refused 43 0', 'changed', 'refused 32 0']),
    ('a line: the blank record', (17, 6, E), [lined(), charted(), charted(0)], [row(0, '', 0), rows(row(0, '', 0)), rows(row(0, '', 0), 'refused 30 0')]),
    ('a line: not sound', (3, 6, E), [FIVE, put('held', 13), lined(), charted(0), put('turns', 1000000), lined(), charted()],
     ['spent 5', 'changed', 'refused 32 0', rows('refused 32 0'), 'changed', 'refused 32 0', rows('refused 32 0')]),
    ('a line: most memory held', (1, LARGEST, table([alloc(LARGEST)] * 8191 + [end])), [rounds(16381), lined()], ['spent 16381', row(16381, '   0', 137422168065)]),
    ('a chart that reaches 1,000,000 turns', (2, 6, E), [put('turns', 999998), charted(0, 1, 0), charted(0, 2), charted(0), put('turns', 999999), charted(2), charted(0), charted(),
     put('turns', 1000000), charted(), charted(2)],
     ['changed', rows(row(999998, '   .   .', 0), row(999999, '   .   .', 0), 'refused 43 0'), rows(row(999998, '   .   .', 0), row(999999, '   .   .', 0), 'refused 30 0'),
      rows(row(999998, '   .   .', 0), row(999999, '   .   .', 0)), 'changed', rows(row(999999, '   .   .', 0), 'refused 30 0'), rows(row(999999, '   .   .', 0), 'refused 43 0'),
      rows(row(999999, '   .   .', 0)), 'changed', rows('refused 43 0'), rows('refused 43 0')]),
    ('a chart where the root ends', (1, 1, least), [put('turns', 999998), charted(0, 0), put('turns', 999999), charted(0), turn(0), charted(0), put('turns', 999999), charted(9)],
     ['changed', rows(row(999998, '   .', 0), row(999999, '   .', 0)), 'changed', rows(row(999999, '   .', 0), 'refused 43 0'), 'done 0 0', rows('refused 43 0'), 'changed',
      rows(row(999999, '   .', 0))]),
    ('allocs above K draw nothing', (1, 4, table([alloc(2), alloc(4), alloc(1), alloc(1), end])), [put('quota', 3)] + [shown(0), turn(0)] * 6,
     ['changed', 'would done 0 0 passed 0 held 2 highest 2 quota 1', 'done 0 0', 'would done 0 1 passed 0 held 6 highest 6 quota 1', 'done 0 1',
      'would done 0 2 passed 0 held 7 highest 7 quota 0', 'done 0 2', 'would quota 0 1 passed 0 held 7 highest 7 quota 0', 'quota 0 1',
      'would done 0 3 passed 0 held 8 highest 8 quota 2', 'done 0 3', 'would done 0 4 passed 0 held 8 highest 8 quota 0', 'done 0 4']),
    ('E filled out, K 5', (2, 5, E), [shown(0), turn(0), order(*[1, 0] * 7), shown(1), turn(1), turn(0), shown(0), turn(0), rounds(99)],
     ['would done 0 0 passed 0 held 0 highest 0 quota 0', 'done 0 0', 'spent 14', 'would done 2 11 passed 1 held 0 highest 0 quota 0', 'done 2 11 passed 1', 'done 1 7',
      'would done 1 8 passed 0 held 6 highest 6 quota 5', 'done 1 8', 'finished 26']),
    ('a record\'s table is not filled out, nor 44 tested', (1, 513, table([alloc(513), end])), [put('quota', 1), order(), shown(0), turn(0), turn(0), order()],
     ['changed', 'spent 0', 'would done 0 0 passed 0 held 513 highest 513 quota 1', 'done 0 0', 'done 0 1', 'finished 0']),
    ('44', (1, 1, table([alloc(513), end])), [turn(0), order(), rounds(0), lined()], ['refused 30 0', 'spent 0', 'refused 0 30 0', row(0, '', 0)]),
    ('1,024 threads filled out', (1, 1, table([alloc(512), free(512), end])), [rounds(2), order(), rounds(9999), order()], ['spent 2', 'spent 0', 'finished 3582', 'finished 0']),
    ('L 0', (2, 6, E), [rounds(0), order(), rounds(99)], ['spent 0', 'spent 0', 'finished 14']),
    ('worker 255', (16, 6, E), [turn(255), order(0, 255, 0), turn(16), order(15)], ['refused 30 0', 'refused 1 30 0', 'refused 30 0', 'spent 1']),
    ('K above its range', (2, LARGEST + 1, E), [turn(0)], ['refused 30 0']),
    ('blank', (17, 6, E), [turn(0), turn(255), rounds(0), rounds(7), order(0), order()],
     ['refused 30 0'] * 2 + ['refused 0 30 0'] * 3 + ['spent 0']),
    ('blank but for one number', (1, 6, b''), [put('held', 1), turn(0), order(), rounds(0), put('held', 0), turn(0)],
     ['changed', 'refused 32 0', 'refused 0 32 0', 'refused 0 32 0', 'changed', 'refused 30 0']),
    ('the last turn but one', (2, 6, E), NEARLY_LAST + [turn(0), turn(0), order(), rounds(0)],
     ['changed', 'done 0 0', 'refused 32 0', 'refused 0 32 0', 'refused 0 32 0']),
    ('a run that reaches the last turn', (2, 6, E), NEARLY_LAST + [order(0, 9)], ['changed', 'refused 1 32 0']),
    ('a run with nothing left there', (2, 6, E), NEARLY_LAST + [rounds(1)], ['changed', 'spent 1']),
    ('the root ends there', (1, 1, least), NEARLY_LAST + [rounds(9), rounds(0)], ['changed', 'finished 1', 'refused 0 32 0']),
    ('not sound and the root ended', (1, 1, least), [turn(0), put('held', 1), turn(0), order(), rounds(0)],
     ['done 0 0', 'changed', 'refused 32 0', 'refused 0 32 0', 'refused 0 32 0']),
    unsound('a table that fails', put('table', 6, 16)),
    unsound('a table too short', put('length', 63)),
    unsound('a table too long', put('length', 65535)),
    unsound('p 0', put('p', 0)),
    unsound('p 17', put('p', 17)),
    unsound('p below a worker that holds', put('p', 2)),
    unsound('K 0', put('quota', 0)),
    unsound('K out of range', put('quota', LARGEST + 1)),
    unsound('a next action in another body', put('next', 9, 1)),
    unsound('a next action before its body', put('next', 8, 2)),
    unsound('a next action past all bodies', put('next', 65535, 0)),
    unsound('a join done before the child', put('next', 4, 0), put('status', READY, 0)),
    unsound('an action undone that others need', put('next', 1, 0), put('status', READY, 0)),
    unsound('a next action past its body, all else right', put('next', 9, 1), put('held', 6), put('amounts', 0, 1)),
    unsound('a status that is none', put('status', 5, 1)),
    unsound('a status that is none, all else right', put('status', 5, 0)),
    unsound('a forked thread unborn', put('status', 0, 1)),
    unsound('a forked thread unborn, all else right', put('status', 0, 2), *listed(1, 0), *idle(2), put('busy', 2)),
    unsound('a thread ended early', put('status', ENDED, 1)),
    unsound('a thread ended early, all else right', put('status', ENDED, 1), *listed(2, 0), *idle(1), put('busy', 4)),
    unsound('a list out of order', *listed(2, 1, 0)),
    unsound('a list from right to left', *listed(0, 2, 1)),
    unsound('the first thread missing', *listed(2, 0)),
    unsound('the last thread missing', *listed(1, 2)),
    unsound('a thread between others missing', *listed(1, 0)),
    unsound('no list', *listed()),
    unsound('a thread not there at the right end', *listed(1, 2, 0, 3)),
    unsound('a thread not there at the left end', *listed(3, 1, 2, 0)),
    unsound('a thread not there in between', *listed(1, 1023, 2, 0)),
    unsound('a cycle: a thread right of itself', put('right', 2, 2)),
    unsound('a cycle: the leftmost right of itself', put('right', 1, 1)),
    unsound('a cycle: a ring', put('right', 1, 0), put('left', 0, 1)),
    unsound('a cycle: a ring, and a thread outside', put('right', 1, 2), put('left', 2, 1)),
    unsound('a cycle: from the last to one in between', put('right', 2, 0)),
    unsound('a cycle: two threads back and forth', put('right', 1, 2)),
    unsound('out of range: right of the last', put('right', 1025, 0)),
    unsound('out of range: far right of the last', put('right', 65535, 0)),
    unsound('out of range: right of another', put('right', 1025, 1)),
    unsound('out of range: left of the first', put('left', 65535, 1)),
    unsound('out of range: left of another', put('left', 1025, 2)),
    unsound('out of range: leftmost', put('leftmost', 65535)),
    unsound('out of range: leftmost, by one', put('leftmost', 1025)),
    unsound('out of range: right of a thread from n on', put('right', 1025, 3)),
    unsound('out of range: left of the last thread from n on', put('left', 65535, 1023)),
    unsound('a right that leads to a thread from n on', put('right', 3, 0)),
    unsound('a right that leads past a thread', put('right', 0, 1)),
    unsound('a right that ends the list too early', put('right', NO_THREAD, 2)),
    unsound('a left that leads past a thread', put('left', 1, 0)),
    unsound('a left that leads to the right', put('left', 0, 2)),
    unsound('a left that leads to itself', put('left', 2, 2)),
    unsound('a left that leads to nobody', put('left', NO_THREAD, 0)),
    unsound('a left that leads to a thread from n on', put('left', 3, 0)),
    unsound('a left of the leftmost', put('left', 0, 1)),
    unsound('no lefts', put('left', NO_THREAD, 2), put('left', NO_THREAD, 0)),
    unsound('a leftmost that is another', put('leftmost', 2)),
    unsound('a leftmost that is nobody', put('leftmost', NO_THREAD)),
    unsound('a leftmost from n on', put('leftmost', 3)),
    unsound('a second chain: the list cut in two', put('right', NO_THREAD, 1), put('left', NO_THREAD, 2)),
    unsound('a second chain: the first thread left out of it', put('leftmost', 2), put('left', NO_THREAD, 2)),
    unsound('a second chain: threads from n on', put('right', 4, 3), put('left', 3, 4)),
    unsound('a second chain: the last threads from n on', put('right', 1023, 1022), put('left', 1022, 1023)),
    unsound('a second chain: a ring from n on', put('right', 3, 3), put('left', 3, 3)),
    unsound('a second chain: it leads into the list', put('right', 1, 3)),
    unsound('a thread from n on, its right 0', put('right', 0, 3)),
    unsound('the last thread from n on, its left 0', put('left', 0, 1023)),
    damaged('a second chain: an ended thread in its old place', (3, 6, E), order(0, 1, 0, 2, 2, 2), 'spent 6', put('left', 1, 2), put('right', 0, 2)),
    damaged('a second chain: an ended thread, its left alone', (3, 6, E), order(0, 1, 0, 2, 2, 2), 'spent 6', put('left', 1, 2)),
    damaged('a second chain: an ended thread, its right alone', (3, 6, E), order(0, 1, 0, 2, 2, 2), 'spent 6', put('right', 0, 2)),
    damaged('a second chain: an unborn thread', (3, 6, E), order(0), 'spent 1', put('left', 1, 2), put('right', 0, 2)),
    damaged('a second chain: an unborn thread in a ring', (3, 6, E), order(0), 'spent 1', put('left', 2, 2), put('right', 2, 2)),
    damaged('a cycle: a ring of all 1,024', (1, 1, CHAIN), rounds(1023), 'spent 1023', put('right', 1023, 0), put('left', 0, 1023)),
    damaged('a cycle: 1,024 read, and the right of the last', (1, 1, CHAIN), rounds(1023), 'spent 1023', put('right', 1023, 0)),
    damaged('a left of the first of 1,024', (1, 1, CHAIN), rounds(1023), 'spent 1023', put('left', 0, 1023)),
    damaged('two of 1,024 read again and again', (1, 1, CHAIN), rounds(1023), 'spent 1023', put('right', 1023, 1022)),
    damaged('the ended root leftmost', (2, 6, E), rounds(99), 'finished 14', put('leftmost', 0)),
    damaged('the ended root\'s run with a leftmost out of range', (2, 6, E), rounds(99), 'finished 14', put('leftmost', 1025)),
    damaged('the ended root with a left', (2, 6, E), rounds(99), 'finished 14', put('left', 0, 0)),
    damaged('the ended root with a right', (2, 6, E), rounds(99), 'finished 14', put('right', 65535, 0)),
    damaged('two ended threads in a chain', (2, 6, E), rounds(99), 'finished 14', put('right', 2, 1), put('left', 1, 2)),
    ('the empty list after the root\'s end', (2, 6, E), [rounds(13), turn(1), order(), turn(0), shown(1), rounds(5), lined()],
     ['spent 13', 'done 0 4', 'finished 0', 'refused 31 0', 'refused 31 0', 'finished 0', row(14, '   .   .', 0)]),
    ('the one thread of a list ends', (1, 1, least), [order(), turn(0), order(), rounds(0), turn(0)], ['spent 0', 'done 0 0', 'finished 0', 'finished 0', 'refused 31 0']),
    ('one in between, the first and the last of the list end', (3, 6, E), [FIVE, *[call for w in (2, 2, 1, 1, 1, 0, 0, 0) for call in (turn(w), order())]],
     ['spent 5', 'done 2 10', 'spent 0', 'done 2 11', 'spent 0', 'done 1 6', 'spent 0', 'done 1 7', 'spent 0', 'done 1 8', 'spent 0', 'done 0 2', 'spent 0', 'done 0 3', 'spent 0',
      'done 0 4', 'finished 0']),
    ('the first of the list ends, then the next', (3, 6, E), [FIVE, *[call for w in (1, 1, 1, 2, 2, 1, 1, 1) for call in (turn(w), order())]],
     ['spent 5', 'done 1 6', 'spent 0', 'done 1 7', 'spent 0', 'done 1 8', 'spent 0', 'done 2 10', 'spent 0', 'done 2 11', 'spent 0', 'done 0 2', 'spent 0', 'done 0 3', 'spent 0',
      'done 0 4', 'finished 0']),
    ('1,024 threads in the list', (1, 1, CHAIN), [rounds(1022), order(), turn(0), order(), shown(0), turn(0), order(), turn(0), order(), rounds(9999), order()],
     ['spent 1022', 'spent 0', 'done 1022 3066', 'spent 0', 'would done 1023 3069 passed 0 held 0 highest 0 quota 0', 'done 1023 3069', 'spent 0', 'done 1022 3067', 'spent 0',
      'finished 2045', 'finished 0']),
    ('1,024 threads in the list, 1,023 of them waiting', (2, 1, DEEP), [rounds(1022), turn(0), turn(0), *[order(*[1] * 255)] * 4, turn(1), turn(1), turn(1), turn(1), order(), turn(0), turn(0), turn(1),
     rounds(9999)],
     ['spent 1022', 'done 1022 3066', 'done 1023 3069', *['spent 255'] * 4, 'wait 2 3 passed 1021', 'wait 1 2 passed 1022', 'wait 0 1 passed 1023', 'idle', 'spent 0', 'done 1023 3070',
      'done 1023 3071', 'done 1022 3067', 'finished 3068']),
    ('not sound: a table longer than its bytes, all else right', (1, 1, FULL), [order(), put('length', 36869), turn(0), order(), rounds(0)],
     ['spent 0', 'changed', 'refused 32 0', 'refused 0 32 0', 'refused 0 32 0']),
    ('not sound: waiting for a child that has ended', (3, 6, E), [order(0, 1, 0, 2, 2, 2), order(), put('status', WAITING, 0), turn(0), order(), rounds(0)],
     ['spent 6', 'spent 0', 'changed', 'refused 32 0', 'refused 0 32 0', 'refused 0 32 0']),
    ('not sound: an unborn thread past its first action, all else right', (3, 6, E),
     [turn(0), order(), put('next', 10, 2), put('held', 6), put('highest', 6), put('amounts', 6, 2), turn(0), turn(9), order(), rounds(0)],
     ['done 0 0', 'spent 0'] + ['changed'] * 4 + ['refused 32 0'] * 2 + ['refused 0 32 0'] * 2),
    unsound('held with no worker', put('status', HELD, 0)),
    unsound('waiting elsewhere', put('status', WAITING, 1), put('holds', 0, 1, True), put('thread', 0, 1, True), put('quota', 0, 1, True), put('busy', 4)),
    unsound('two workers on a thread', put('holds', 1, 0, True), put('thread', 1, 0, True), put('busy', 7)),
    unsound('a worker on a thread from n on', put('holds', 1, 0, True), put('thread', 3, 0, True), put('busy', 7)),
    unsound('a worker on thread 65535', put('holds', 1, 0, True), put('thread', 65535, 0, True), put('busy', 7)),
    unsound('a worker on a ready thread', put('status', READY, 2)),
    unsound('a worker from p on', put('holds', 1, 3, True), put('busy', 14)),
    unsound('a worker from p on, its thread held', put('holds', 1, 3, True), put('busy', 14), put('status', HELD, 0)),
    unsound('a bit too many', put('busy', 14)),
    unsound('a bit too few', put('busy', 2)),
    unsound('a quota above K', put('quota', 7, 1, True)),
    unsound('less memory held', put('held', 11)),
    unsound('more memory held', put('held', 13), put('highest', 13)),
    unsound('a live thread with less', put('amounts', 5, 1)),
    unsound('a live thread with more', put('amounts', 1, 0)),
    unsound('two amounts that add up right', put('amounts', 7, 1), put('amounts', 5, 2)),
    unsound('two threads\' amounts with one of them', put('amounts', 12, 1), put('amounts', 0, 2)),
    unsound('amounts whose sum wraps round', put('amounts', LAST_TURN, 0), put('amounts', 1, 3)),
    unsound('a thread from n on, its amount', put('amounts', 1, 3)),
    unsound('the last thread from n on, its amount', put('amounts', LAST_TURN, 1023)),
    ('not sound: an unborn thread with something', (3, 6, E), [turn(0), order(), put('amounts', 1, 2), turn(0), order(), rounds(0)],
     ['done 0 0', 'spent 0', 'changed', 'refused 32 0', 'refused 0 32 0', 'refused 0 32 0']),
    other_amounts('an ended thread with nothing', LEFT_ENDED, put('amounts', 0, 1)),
    other_amounts('its balance with its parent too early', LEFT_ENDED, put('amounts', 4, 0), put('amounts', 0, 1)),
    other_amounts('its balance with both', LEFT_ENDED, put('amounts', 4, 0)),
    other_amounts('a joined thread with its balance', LEFT_JOINED, put('amounts', 4, 1)),
    other_amounts('a joined thread with its balance, and not its parent', LEFT_JOINED, put('amounts', 0, 0), put('amounts', 4, 1)),
    ('a child ends with a balance and is joined later', (2, 4, LEFT), [turn(w) for w in (0, 1, 1, 0, 0, 0, 0)] + [order()],
     ['done 0 0', 'done 1 5', 'done 1 6', 'done 0 1', 'done 0 2', 'done 0 3', 'done 0 4', 'finished 0']),
    ('not sound: the ended root with nothing', (2, 4, LEFT), [rounds(99), order(), put('amounts', 0, 0), turn(0), order(), rounds(0)],
     ['finished 9', 'finished 0', 'changed', 'refused 32 0', 'refused 0 32 0', 'refused 0 32 0']),
    ('the root\'s balance at its end', (1, 4, table([alloc(4), end])), [turn(0), turn(0), order(), rounds(0)], ['done 0 0', 'done 0 1', 'finished 0', 'finished 0']),
    ('blank but for one amount', (1, 6, b''), [put('amounts', 1, 1023), turn(0), order(), put('amounts', 0, 1023), turn(0)],
     ['changed', 'refused 32 0', 'refused 0 32 0', 'changed', 'refused 30 0']),
    *[('blank but for one link: %s' % field, (1, 6, b''), [put(field, x, t), turn(0), order(), put(field, 0, t), turn(0)],
       ['changed', 'refused 32 0', 'refused 0 32 0', 'changed', 'refused 30 0']) for field, x, t in [('leftmost', NO_THREAD, 0), ('left', NO_THREAD, 0), ('right', 1, 1023)]],
    unsound('a highest below', put('highest', 11)),
    unsound('a byte past the table', put('table', 1, 36867)),
    unsound('the first byte past the table', put('table', 1, len(E))),
    unsound('a thread from n on, its next', put('next', 1, 3)),
    unsound('a thread from n on, its status', put('status', READY, 1023)),
    unsound('a quota with nothing held', put('quota', 1, 0, True)),
    unsound('a thread with nothing held', put('thread', 1, 15, True)),
    unsound('turns at the end', put('turns', LAST_TURN)),
    as_sound('a thread at a join of a child not ended, ready', 0, 'wait 0 2 passed 2', 'finished 13', put('status', READY, 0)),
    as_sound('that thread held', 0, 'wait 0 2', 'finished 13', put('status', HELD, 0), put('holds', 1, 0, True), put('busy', 7)),
    as_sound('a larger highest', 1, 'done 1 6', 'finished 13', put('highest', LAST_TURN)),
    as_sound('another quota left', 1, 'done 1 6', 'finished 13', put('quota', 6, 1, True)),
    as_sound('an alloc above K', 1, 'done 1 6', 'finished 13', put('quota', 5)),
    as_sound('a larger K', 1, 'done 1 6', 'finished 13', put('quota', LARGEST)),
    as_sound('a larger p', 1, 'done 1 6', 'finished 52', put('p', 16)),
    ('sound: turns at 2^64 - 2', (3, 6, E), [FIVE, *NEARLY_LAST, turn(99), order(), turn(1)], ['spent 5', 'changed', 'refused 30 0', 'spent 0', 'done 1 6']),
    ('sound: more quota left than a run leaves', (1, 6, table([alloc(4), alloc(4), end])), [turn(0), put('quota', 4, 0, True), turn(0)], ['done 0 0', 'changed', 'done 0 1']),
    ('sound: less quota left than a run leaves', (1, 9, table([alloc(4), alloc(4), end])), [turn(0), put('quota', 3, 0, True), turn(0)],
     ['done 0 0', 'changed', 'quota 0 4']),
    # a pace beside the run
    ('paced: 0 waits for 1; 30 and 31 come before 60', (2, 6, E), [begun(2, 1), paced(0), paced(1), paced(0), paced(0), paced(2), paced_rounds(99), paced(0), paced_rounds(3)],
     ['begun kept 0', 'done 0 0 passed 0 kept 0', 'done 1 5 passed 0 kept 1', 'done 0 1 passed 1 kept 1', 'refused 60 0 kept 1', 'refused 30 0 kept 1', 'finished 11 kept 1', 'refused 31 0 kept 1',
      'finished 0 kept 1']),
    ('paced: b 2', (2, 6, E), [begun(2, 2), paced(0), paced(1), paced(0), paced(0), paced(0)],
     ['begun kept 0', 'done 0 0 passed 0 kept 0', 'done 1 5 passed 0 kept 1', 'done 0 1 passed 1 kept 1', 'done 2 9 passed 1 kept 2', 'refused 60 0 kept 2']),
    ('a paced list stopped by 60, and rounds after it', (2, 6, E), [begun(2, 1), paced_order(0, 0, 1, 0, 0), paced_order(), paced_rounds(1), paced_rounds(2), paced_order(1, 1)],
     ['begun kept 0', 'refused 4 60 0 kept 1', 'spent 0 kept 1', 'spent 1 kept 1', 'spent 2 kept 1', 'refused 0 60 0 kept 1']),
    ('paces that are not begun', (2, 6, E), [begun(0, 1), begun(17, 1), begun(2, 0), begun(2, 65536), begun(0, 0), paced(0), paced(1), begun(16, 65535), paced(1)],
     ['refused 20 0 kept 0', 'refused 20 0 kept 0', 'refused 41 0 kept 0', 'refused 41 0 kept 0', 'refused 20 0 kept 0', 'refused 30 0 kept 0', 'refused 30 0 kept 0', 'begun kept 0',
      'done 0 0 passed 0 kept 0']),
    ('paced, not sound', (2, 6, E), [begun(2, 1), paced(0), put('held', 5), paced(0), paced(9), paced_order(), paced_order(0), paced_rounds(0), put('held', 0), paced_rounds(2)],
     ['begun kept 0', 'done 0 0 passed 0 kept 0', 'changed', 'refused 32 0 kept 0', 'refused 32 0 kept 0', 'refused 0 32 0 kept 0', 'refused 0 32 0 kept 0', 'refused 0 32 0 kept 0', 'changed',
      'spent 2 kept 1']),
    ('paced, blank', (17, 6, E), [begun(2, 1), paced(0), paced_rounds(0), paced_rounds(7), paced_order(0), paced_order()],
     ['begun kept 0', 'refused 30 0 kept 0', 'refused 0 30 0 kept 0', 'refused 0 30 0 kept 0', 'refused 0 30 0 kept 0', 'spent 0 kept 0']),
    ('paced, the last turn but one', (2, 6, E), [begun(2, 1)] + NEARLY_LAST + [paced_rounds(9), paced(1), paced_order(), paced_rounds(0)],
     ['begun kept 0', 'changed', 'refused 1 32 0 kept 0', 'refused 32 0 kept 0', 'refused 0 32 0 kept 0', 'refused 0 32 0 kept 0']),
    ('a pace for more workers than the run has', (2, 6, E), [begun(3, 1), paced_rounds(99), paced_rounds(1), paced(0)],
     ['begun kept 0', 'refused 2 30 0 kept 1', 'refused 0 30 0 kept 1', 'done 0 1 passed 1 kept 1']),
    ('a pace for fewer workers than the run has', (4, 6, E), [begun(1, 1), paced(2), paced(0), paced(1), paced_order(0, 0, 3), paced_rounds(2), turn(2), paced(2)],
     ['begun kept 0', 'refused 30 0 kept 0', 'done 0 0 passed 0 kept 0', 'refused 30 0 kept 0', 'refused 2 30 0 kept 0', 'spent 2 kept 0', 'done 0 1 passed 0', 'refused 30 0 kept 0']),
]


def random_put(rng, run):
    """A change of something in use, often by little."""
    n = machine.word(run.table, 0)
    field = rng.choice(FIELDS + WORKER)
    near = lambda x, most: max(0, min(most, x + rng.choice([-1, 1, rng.randint(-9, 9)])))
    if field in WORKER and rng.random() < 0.7 or field in ('holds', 'thread'):
        w = rng.randrange(min(16, run.p + 1))
        return put(field, {'holds': rng.randrange(2), 'thread': rng.randrange(n + 1)}.get(field, near(run.worker[w].quota, 99)), w, True)
    if field in ('next', 'amounts', 'left', 'right'):
        t = rng.randrange(n if rng.random() < 0.9 else 1024)
        x = getattr(run, field)[t]
        if field in ('left', 'right') and rng.random() < 0.5:
            return put(field, rng.choice([NO_THREAD, rng.randrange(n + 1)]), t)
        return put(field, near(x, 9999), t)
    if field == 'status':
        return put(field, rng.randrange(6), rng.randrange(n + 1))
    if field == 'table':
        i = rng.randrange(run.length if rng.random() < 0.9 else machine.BYTES)
        return put(field, near(run.table[i], 255), i)
    return put(field, near(getattr(run, field), 255), 0)


def random_paced(rng, p):
    """A pace for the run, seldom for another, and paced calls."""
    sorts = [lambda: paced(rng.randrange(p)), lambda: paced_order(*(rng.randrange(p) for _ in range(rng.randint(0, 6)))), lambda: paced_rounds(rng.randint(0, 5)), lambda: turn(rng.randrange(p))]
    return [begun(rng.choice([p] * 7 + [0, 17, 16]), rng.choice([1, 1, 1, 2, 3, 0, 65536]))] + [rng.choices(sorts, [4, 2, 2, 0.2])[0]() for _ in range(rng.randint(1, 12))]


def random_case(rng):
    """A run, some turns, a change or two, and a call of each sort."""
    threads = rng.randint(1, 6)
    data = drawn(rng, threads, rng.randint(threads, 4 * threads), [3, 9])
    p, quota = rng.randint(1, 4), rng.choice([rng.randint(9, 14), rng.randint(2, 8)])
    run = machine.begin(data, p, quota)[1]
    calls = [order(*(rng.randrange(p) for _ in range(rng.randint(1, 40))))]
    run = called(run, calls[0])[1]
    for _ in range(rng.choice([1, 1, 2])):
        calls.append(random_put(rng, run))
        run = called(run, calls[-1])[1]
    calls += [lined(), charted(*(rng.randrange(p + 1) for _ in range(rng.randint(0, 3)))), shown(rng.randrange(p + 1)), turn(rng.randrange(p)), rounds(rng.randint(0, 9)), order(0, rng.randrange(p), rng.randrange(p + 1))]
    return (p, quota, data), calls + random_paced(rng, p)


def record(label, beginning, calls):
    p, quota, case = beginning
    head = bytes([len(label)]) + label.encode() + bytes([p]) + quota.to_bytes(4, 'little') + len(case).to_bytes(3, 'little')
    return head + case + b''.join(calls) + b'\0'


def parts(data):
    """A record taken apart: label, p, K, table and calls."""
    at = 1 + data[0]
    table_at = at + 8
    calls_at = table_at + int.from_bytes(data[at + 5:table_at], 'little')
    calls, i = [], calls_at
    while data[i]:
        length = {b't': 2, b'v': 2, b'w': 1, b'c': 2 + data[i + 1], b'l': 2 + data[i + 1], b'r': 5, b'p': 12, b'b': 6, b'T': 2, b'L': 2 + data[i + 1], b'R': 5}[data[i:i + 1]]
        calls.append(data[i:i + length])
        i += length
    return data[1:at].decode(), data[at], int.from_bytes(data[at + 1:at + 5], 'little'), data[table_at:calls_at], calls


def answers(data):
    """The model's answers to the calls, and the text that the program is to print."""
    label, p, quota, case, calls = parts(data)
    answer, run = machine.begin(case, p, quota)
    text, found = label + ': ' + told(answer if answer == 'begun' else ' '.join(map(str, answer)), run), []
    keeper = pace.Pace([0] * pace.NUMBERS)
    for call in calls:
        answer, run = called(run, call, keeper)
        found.append(answer)
        text += told(answer + (', pace %d' % mix(0, keeper.numbers) if call[:1] in PACED else ''), run)
    return found, text


def in_full(call, answer):
    """A turn's answer that names no number of threads passed over passed over none."""
    return answer if call[:1] != b't' or 'passed' in answer or 'refused' in answer else answer + ' passed 0'


def main():
    rng = random.Random(2)
    for label, beginning, calls, expected in CASES:
        found = answers(record(label, beginning, calls))[0]
        expected = [in_full(*pair) for pair in zip(calls, expected)]
        if found != expected:
            raise SystemExit('%s: expected\n%s\nthe model says\n%s' % (label, expected, found))
    records = [record(*case[:3]) for case in CASES] + [record('random %d' % i, *random_case(rng)) for i in range(1, 201)]
    folder = pathlib.Path(__file__).parent.parent / 'crates' / 'call_cases'
    (folder / 'stdin').write_bytes(b''.join(records))
    (folder / 'stdout').write_text(''.join(answers(data)[1] for data in records))
    print('%d named cases and %d random ones' % (len(CASES), len(records) - len(CASES)))


if __name__ == '__main__':
    main()
