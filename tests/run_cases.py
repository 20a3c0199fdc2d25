"""Writes the stored input and output of crates/run_cases: inputs of turnlist, runrounds, wallchart and dequelist with a label, and the answer expected of each.

A record is its sort ('t' turnlist, 'r' runrounds, 'w' wallchart, 'd' dequelist), the label's length (1 byte), the label, the input's length (3 bytes), the
input. The answers of the named cases are written down here by hand, and held against machine.py, chart.py and deques.py as well; those of the random
sample are theirs.
"""
import pathlib
import random

import cases
import chart
import deques
import differential
import machine
from cases import LARGEST, alloc, chain, end, fan, fork, free, join, least, parent, work
from tables import table

MODEL = {'t': machine.turnlist, 'r': machine.runrounds, 'w': chart.wallchart, 'd': deques.dequelist}
first = [alloc(6), work, free(6), end]
second = [alloc(6), free(6), end]
e = table(parent(1, 2), first, second)
twice = table([alloc(4), alloc(4), end])
again = table([alloc(4), free(4), alloc(4), end])
two_works = table(parent(1), [work, work, end])
both = bytes([0, 1])


def t(p, quota, order, data, length=None):
    length = len(order) if length is None else length
    return 't', bytes([p]) + quota.to_bytes(3, 'little') + length.to_bytes(2, 'little') + bytes(order) + data


def r(p, quota, limit, data):
    return 'r', bytes([p]) + quota.to_bytes(3, 'little') + limit.to_bytes(4, 'little') + data


def w(*args):
    return 'w', t(*args)[1]


def d(*args):
    return 'd', t(*args)[1]


def row(turns, cells, held):
    """A line of the chart, its cells written out."""
    return '%6d%-64s%14d' % (turns, cells, held)


E = 'table 3 12 serial 6 depth 8'
LISTING = [
    E, '1 0 0 0 fork 0', '2 1 1 5 alloc 6', '3 0 0 1 fork 6', '4 1 1 6 work 6', '5 0 2 9 alloc 12', '6 1 1 7 free 6', '7 0 2 10 free 0',
    '8 1 1 8 end 0', '9 0 2 11 end 0', '10 1 0 2 join 0', '11 0 - - idle 0', '12 1 0 3 join 0', '13 0 - - idle 0', '14 1 0 4 end 0',
    'done 14 peak 12']
SERIAL = [
    E, '1 0 0 0 fork 0', '2 0 1 5 alloc 6', '3 0 1 6 work 6', '4 0 1 7 free 0', '5 0 1 8 end 0', '6 0 0 1 fork 0', '7 0 2 9 alloc 6',
    '8 0 2 10 free 0', '9 0 2 11 end 0', '10 0 0 2 join 0', '11 0 0 3 join 0', '12 0 0 4 end 0', 'done 12 peak 6']
SEVEN = [
    E, '1 0 0 0 fork 0', '2 1 1 5 alloc 6', '3 0 0 1 fork 6', '4 1 1 6 work 6', '5 1 1 7 free 0', '6 1 1 8 end 0', '7 1 2 9 alloc 6']
OTHER_CHILD = [
    E, '1 0 0 0 fork 0', '2 1 1 5 alloc 6', '3 0 0 1 fork 6', '4 2 2 9 alloc 12', '5 0 0 2 wait 12', '6 1 1 6 work 12', '7 1 1 7 free 6',
    '8 1 1 8 end 6']
# E with K 5: trees of two dummies each, forked by threads 1 and 2 in front of their allocs
FILLED = 'table 9 34 serial 6 depth 17'
FILLED_TURNS = (
    '0 0 fork,1 5 fork,3 16 fork,4 21 work,3 17 fork,4 22 end,5 23 work,3 18 wait,5 24 end,3 18 join,1 6 wait,3 19 join,0 1 fork,3 20 end,1 6 join,2 11 fork,1 7 alloc 6,6 25 fork 6,'
    '1 8 work 6,7 30 work 6,1 9 free,7 31 end,1 10 end,6 26 fork,8 32 work,6 27 wait,8 33 end,6 27 join,2 12 wait,6 28 join,0 2 wait,6 29 end,2 12 join,- - idle,2 13 alloc 6,- - idle 6,'
    '2 14 free,- - idle,2 15 end,0 2 join,- - idle,0 3 join,- - idle,0 4 end')
FILLED_LISTING = [FILLED] + ['%d %d %s' % (i + 1, i % 2, turn if turn[-2:] == ' 6' else turn + ' 0') for i, turn in enumerate(FILLED_TURNS.split(','))] + ['done 44 peak 6']
two_400 = table([fork(1), alloc(400), join(1), end], [alloc(400), free(400), end])

CHART = [
    row(0, '   .   .', 0), row(1, '   .   .', 0), row(2, '   .   1', 6), row(3, '   .   1', 6), row(4, '   .   1', 6), row(5, '   2   1', 12), row(6, '   2   1', 6), row(7, '   2   1', 0),
    row(8, '   2   .', 0), row(9, '   .   .', 0), row(10, '   .   0', 0), row(11, '   .   0', 0), row(12, '   .   0', 0), row(13, '   .   0', 0), row(14, '   .   .', 0)]

# DFDeques on E, p 2, K 6: a stop at the quota, a thief that waits, places at which nothing is to be stolen; an owned deque robbed
STOPPING = bytes.fromhex('0000 0101 0000 0000 0000 0000 0100 0000 0000 0100 0100 0000 0100 0100 0100 0100 0100')
STOPS = [
    E, '1 0 0 0 fork 0', '2 1 - - idle 0', '3 0 1 5 alloc 6', '4 0 1 6 work 6', '5 0 1 7 free 0', '6 0 1 8 end 0', '7 1 - - idle 0', '8 0 0 1 fork 0', '9 0 2 9 quota 0',
    '10 1 0 2 wait 0', '11 1 2 9 alloc 6', '12 0 - - idle 6', '13 1 2 10 free 0', '14 1 2 11 end 0', '15 1 0 2 join 0', '16 1 0 3 join 0', '17 1 0 4 end 0', 'done 17 peak 6']
ROBBING = bytes.fromhex('0000 0100 0000 0100 0000 0100 0000 0100 0000 0100 0100 0100')
ROBS = [
    E, '1 0 0 0 fork 0', '2 1 0 1 fork 0', '3 0 1 5 alloc 6', '4 1 2 9 alloc 12', '5 0 1 6 work 12', '6 1 2 10 free 6', '7 0 1 7 free 0', '8 1 2 11 end 0', '9 0 1 8 end 0',
    '10 1 0 2 join 0', '11 1 0 3 join 0', '12 1 0 4 end 0', 'done 12 peak 12']

CASES = [
    ('the listing', t(2, 6, both * 7, e), LISTING),
    ('the listing, an order one shorter', t(2, 6, (both * 7)[:13], e), LISTING[:14] + ['open 13 peak 12']),
    ('the listing, an order that goes on', t(2, 6, both * 9, e), LISTING),
    ('the root ended, then worker 255', t(2, 6, both * 7 + b'\xff', e), LISTING),
    ('the listing in rounds', r(2, 6, 100, e), ['finished 14 peak 12 held 0']),
    ('the root ends at turn L', r(2, 6, 14, e), ['finished 14 peak 12 held 0']),
    ('L one less', r(2, 6, 13, e), ['spent 13 peak 12 held 0']),
    ('L 5', r(2, 6, 5, e), ['spent 5 peak 12 held 12']),
    ('L 2', r(2, 6, 2, e), ['spent 2 peak 6 held 6']),
    ('L 1', r(2, 6, 1, e), ['spent 1 peak 0 held 0']),
    ('L 0', r(2, 6, 0, e), ['spent 0 peak 0 held 0']),
    ('the largest L', r(2, 6, 2**32 - 1, e), ['finished 14 peak 12 held 0']),
    ('E, p 1', t(1, 6, bytes(12), e), SERIAL),
    ('E, p 1, in rounds', r(1, 6, 99, e), ['finished 12 peak 6 held 0']),
    ('E, p 1, L at the end', r(1, 6, 12, e), ['finished 12 peak 6 held 0']),
    ('E, p 1, L one less', r(1, 6, 11, e), ['spent 11 peak 6 held 0']),
    ('E, p 16 and worker 0 alone', t(16, 6, bytes(12), e), SERIAL),
    ('E, the largest K', t(1, LARGEST, bytes(12), e), SERIAL),
    ('E, K 5', t(2, 5, both * 30, e), FILLED_LISTING),
    ('E, K 5, an empty order', t(2, 5, [], e), [FILLED, 'open 0 peak 0']),
    ('E, K 5, in rounds', r(2, 5, 100, e), ['finished 44 peak 6 held 0']),
    ('E, K 5, p 1', r(1, 5, 34, e), ['finished 34 peak 6 held 0']),
    ('E, K 5, p 1, L one less', r(1, 5, 33, e), ['spent 33 peak 6 held 0']),
    ('E, K 5, p 3', r(3, 5, 999, e), ['finished 50 peak 6 held 0']),
    ('E, K 5, p 16', r(16, 5, 999, e), ['finished 145 peak 12 held 0']),
    ('E, K 1', t(1, 1, [0], e), ['table 25 90 serial 6 depth 25', '1 0 0 0 fork 0', 'open 1 peak 0']),
    ('one end', t(1, 1, [0], least), ['table 1 1 serial 0 depth 1', '1 0 0 0 end 0', 'done 1 peak 0']),
    ('one end, worker 15', t(16, 1, [15], least), ['table 1 1 serial 0 depth 1', '1 15 0 0 end 0', 'done 1 peak 0']),
    ('one end in rounds', r(1, 1, 1, least), ['finished 1 peak 0 held 0']),
    ('one end, L 0', r(16, 1, 0, least), ['spent 0 peak 0 held 0']),
    ('a byte more', t(1, 1, [0], least + b'\0'), ['refused 3 0']),
    ('a byte more, in rounds', r(1, 1, 1, least + b'\0'), ['refused 3 0']),
    ('no table', t(1, 1, [0], b''), ['refused 1 0']),
    ('no table, in rounds', r(1, 1, 1, b''), ['refused 1 0']),
    ('six bytes', t(1, 1, [], b''), ['refused 1 0']),
    ('quota', t(1, 6, bytes(4), twice),
     ['table 1 3 serial 8 depth 3', '1 0 0 0 alloc 4', '2 0 0 1 quota 4', '3 0 0 1 alloc 8', '4 0 0 2 end 8', 'done 4 peak 8']),
    ('quota, in rounds', r(1, 6, 9, twice), ['finished 4 peak 8 held 8']),
    ('quota, another worker goes on', t(2, 6, [0, 0, 1, 0, 1], twice),
     ['table 1 3 serial 8 depth 3', '1 0 0 0 alloc 4', '2 0 0 1 quota 4', '3 1 0 1 alloc 8', '4 0 - - idle 8', '5 1 0 2 end 8', 'done 5 peak 8']),
    ('K 8', t(1, 8, bytes(3), twice), ['table 1 3 serial 8 depth 3', '1 0 0 0 alloc 4', '2 0 0 1 alloc 8', '3 0 0 2 end 8', 'done 3 peak 8']),
    ('K 8, in rounds', r(1, 8, 9, twice), ['finished 3 peak 8 held 8']),
    ('free 7', t(1, 9, [0], table([alloc(6), free(7), end])), ['refused 10 1']),
    ('free 7, in rounds', r(1, 9, 9, table([alloc(6), free(7), end])), ['refused 10 1']),
    ('joins swapped', t(2, 6, both, table([fork(1), fork(2), join(1), join(2), end], first, second)), ['refused 9 2']),
    ('joins swapped, in rounds', r(2, 6, 9, table([fork(1), fork(2), join(1), join(2), end], first, second)), ['refused 9 2']),
    ('the last turn says wait', t(2, 6, [0, 1, 0, 1, 1, 1, 1, 0], e), SEVEN + ['8 0 0 2 wait 6', 'open 8 peak 6']),
    ('worker 2 instead', t(2, 6, [0, 1, 0, 1, 1, 1, 1, 2], e), SEVEN + ['refused 30 0']),
    ('worker 2 instead, and more after it', t(2, 6, [0, 1, 0, 1, 1, 1, 1, 2, 0, 0], e), SEVEN + ['refused 30 0']),
    ('a parent that waits for another child', t(3, 6, [0, 1, 0, 2, 0, 1, 1, 1], e), OTHER_CHILD + ['open 8 peak 12']),
    ('it goes on waiting', t(3, 6, [0, 1, 0, 2, 0, 1, 1, 1, 0], e), OTHER_CHILD + ['9 0 - - idle 6', 'open 9 peak 12']),
    ('until its child ends', t(3, 6, [0, 1, 0, 2, 0, 1, 1, 1, 2, 2, 0, 1, 0, 0], e),
     OTHER_CHILD + ['9 2 2 10 free 0', '10 2 2 11 end 0', '11 0 0 2 join 0', '12 1 - - idle 0', '13 0 0 3 join 0', '14 0 0 4 end 0', 'done 14 peak 12']),
    ('a free gives no quota back', t(1, 6, bytes(5), again),
     ['table 1 4 serial 4 depth 4', '1 0 0 0 alloc 4', '2 0 0 1 free 0', '3 0 0 2 quota 0', '4 0 0 2 alloc 4', '5 0 0 3 end 4', 'done 5 peak 4']),
    ('a waiting join frees its worker', t(2, 6, [0, 1, 0, 0, 1, 1, 0, 0], two_works),
     ['table 2 6 serial 0 depth 6', '1 0 0 0 fork 0', '2 1 1 3 work 0', '3 0 0 1 wait 0', '4 0 - - idle 0', '5 1 1 4 work 0', '6 1 1 5 end 0',
      '7 0 0 1 join 0', '8 0 0 2 end 0', 'done 8 peak 0']),
    ('another worker takes the parent', t(2, 6, [0, 1, 0, 1, 1, 1, 1], two_works),
     ['table 2 6 serial 0 depth 6', '1 0 0 0 fork 0', '2 1 1 3 work 0', '3 0 0 1 wait 0', '4 1 1 4 work 0', '5 1 1 5 end 0', '6 1 0 1 join 0',
      '7 1 0 2 end 0', 'done 7 peak 0']),
    ('an empty order', t(2, 6, [], e), [E, 'open 0 peak 0']),
    ('an empty order, one end', t(1, 1, [], least), ['table 1 1 serial 0 depth 1', 'open 0 peak 0']),
    ('worker 255', t(16, 6, [255], e), [E, 'refused 30 0']),
    ('worker 255 later', t(2, 6, [0, 255, 1], e), [E, '1 0 0 0 fork 0', 'refused 30 0']),
    ('worker 16', t(16, 6, [15, 16], e), [E, '1 15 0 0 fork 0', 'refused 30 0']),
    ('worker 1 of one', t(1, 6, [1], e), [E, 'refused 30 0']),
    ('p 0', t(0, 6, both, e), ['refused 20 0']),
    ('p 17', t(17, 6, both, e), ['refused 20 0']),
    ('p 255', t(255, 0, both, e), ['refused 20 0']),
    ('p 0, in rounds', r(0, 6, 0, e), ['refused 20 0']),
    ('p 17, in rounds', r(17, 0, 9, e), ['refused 20 0']),
    ('K 0', t(2, 0, both, e), ['refused 21 0']),
    ('K 0, in rounds', r(16, 0, 9, e), ['refused 21 0']),
    ('K 0 with no alloc', t(1, 0, [0], least), ['refused 21 0']),
    ('two allocs above K', t(1, 3, [0], table([alloc(3), alloc(5), alloc(9), end])), ['table 9 33 serial 17 depth 25', '1 0 0 0 alloc 3', 'open 1 peak 3']),
    ('an alloc above K in a later thread', r(1, 3, 99, table(parent(1), [work, alloc(4), end])), ['finished 17 peak 4 held 4']),
    ('a big alloc draws nothing', t(1, 3, bytes(16), table([alloc(3), alloc(4), free(7), end])),
     ['table 4 15 serial 7 depth 13', '1 0 0 0 alloc 3', '2 0 0 1 fork 3', '3 0 1 6 fork 3', '4 0 2 11 work 3', '5 0 2 12 end 3', '6 0 1 7 fork 3', '7 0 3 13 work 3', '8 0 3 14 end 3', '9 0 1 8 join 3',
      '10 0 1 9 join 3', '11 0 1 10 end 3', '12 0 0 2 join 3', '13 0 0 3 alloc 7', '14 0 0 4 free 0', '15 0 0 5 end 0', 'done 15 peak 7']),
    ('an alloc above the quota left is not big', r(1, 6, 99, twice), ['finished 4 peak 8 held 8']),
    ('alloc 512, K 1', t(1, 1, [], table([alloc(512), end])), ['table 1024 3583 serial 512 depth 51', 'open 0 peak 0']),
    ('alloc 512, K 1, in rounds', r(1, 1, 2**32 - 1, table([alloc(512), end])), ['finished 3583 peak 512 held 512']),
    ('alloc 513, K 1', t(1, 1, [], table([alloc(513), end])), ['refused 44 0']),
    ('alloc 513, K 2', r(1, 2, 2**32 - 1, table([alloc(513), end])), ['finished 1798 peak 513 held 513']),
    ('4,609 works before alloc 512, K 1', t(1, 1, [], table([work] * 4609 + [alloc(512), end])), ['table 1024 8192 serial 512 depth 4660', 'open 0 peak 0']),
    ('4,610 works before alloc 512, K 1', r(1, 1, 9, table([work] * 4610 + [alloc(512), end])), ['refused 44 4610']),
    ('44 by rising action, not in serial order', t(1, 1, [0], two_400), ['refused 44 4']),
    ('44 by rising action, in rounds', r(16, 1, 0, two_400), ['refused 44 4']),
    ('alloc 400 twice, K 2', r(1, 2, 0, two_400), ['spent 0 peak 0 held 0']),
    ('the largest alloc, K 1', t(1, 1, [0], table([work, alloc(LARGEST), end])), ['refused 44 1']),
    ('the largest alloc, K one less', t(1, LARGEST - 1, [0], table([alloc(LARGEST), end])), ['table 4 13 serial 16777215 depth 11', '1 0 0 0 fork 0', 'open 1 peak 0']),
    ('20 before 44', t(17, 1, [0], two_400), ['refused 20 0']),
    ('21 before 44', t(1, 0, [0], two_400), ['refused 21 0']),
    ('a bad table before 44', r(1, 1, 9, table([alloc(513), free(514), end])), ['refused 10 1']),
    ('44 before 30', t(1, 1, [9], two_400), ['refused 44 4']),
    ('a free may be above K', r(1, 3, 99, table([alloc(3), alloc(3), free(6), end])), ['finished 5 peak 6 held 0']),
    ('a bad table before p 0', t(0, 0, [0], least[:-1]), ['refused 3 0']),
    ('a bad table before p 0, in rounds', r(0, 0, 0, b'\1'), ['refused 1 0']),
    ('20 before 30', t(0, 6, [255], e), ['refused 20 0']),
    ('nothing', ('t', b''), ['refused 33 0']),
    ('five bytes', ('t', bytes(5)), ['refused 33 0']),
    ('nothing, in rounds', ('r', b''), ['refused 33 0']),
    ('seven bytes, in rounds', ('r', bytes(7)), ['refused 33 0']),
    ('eight bytes, in rounds', ('r', bytes(8)), ['refused 1 0']),
    ('an order of 4,097', t(2, 6, bytes(4097), e), ['refused 33 0']),
    ('an order of 4,097, its bytes not there', t(2, 6, [], e, 4097), ['refused 33 0']),
    ('an order of 65,535', t(2, 6, both, e, 65535), ['refused 33 0']),
    ('a byte of the order missing', t(2, 6, both, b'', 3), ['refused 33 0']),
    ('33 before a bad table and p 0', t(0, 0, [], b'\1', 2), ['refused 33 0']),
    ('the table all taken by the order', t(2, 6, [], e, len(e)), ['refused 1 0']),
    ('the chart', w(2, 6, both * 7, e), CHART),
    ('the chart, an order one shorter', w(2, 6, (both * 7)[:13], e), CHART[:14]),
    ('the chart, an order that goes on', w(2, 6, both * 9 + b'\xff', e), CHART),
    ('the chart, worker 2 instead', w(2, 6, [0, 1, 0, 2, 0], e), CHART[:4] + ['refused 30 0']),
    ('the chart, worker 2 at once', w(2, 6, [2], e), [CHART[0], 'refused 30 0']),
    ('the chart, an empty order', w(2, 6, [], e), [CHART[0]]),
    ('the chart of one end', w(1, 1, [0, 0], least), [row(0, '   .', 0), row(1, '   .', 0)]),
    ('the chart, quota', w(2, 6, [0, 0, 1], twice), [row(0, '   .   .', 0), row(1, '   0   .', 4), row(2, '   .   .', 4), row(3, '   .   0', 8)]),
    ('the chart, sixteen workers', w(16, 6, [15, 9], e), [row(0, '   .' * 16, 0), row(1, '   .' * 16, 0), row(2, '   .' * 9 + '   1' + '   .' * 6, 6)]),
    ('the chart, K 5', w(2, 5, both * 4, e), [row(0, '   .   .', 0), row(1, '   .   .', 0), row(2, '   .   .', 0), row(3, '   .   .', 0), row(4, '   .   4', 0), row(5, '   .   4', 0),
     row(6, '   .   .', 0), row(7, '   5   .', 0), row(8, '   5   .', 0)]),
    ('the chart, 44', w(2, 1, both, two_400), ['refused 44 4']),
    ('the chart, p 17', w(17, 6, both * 7, e), ['refused 20 0']),
    ('the chart, no table', w(1, 1, [0], b''), ['refused 1 0']),
    ('the chart, an order of 4,097', w(2, 6, bytes(4097), e), ['refused 33 0']),
    ('the chart, five bytes', ('w', bytes(5)), ['refused 33 0']),
    ('the chart, an order of 4,096', w(2, 1, [0] + [1] * 4095, table([work, work, end])), [row(0, '   .   .', 0)] + [row(i, '   0   .', 0) for i in range(1, 4097)]),
    ('an order of 4,096', t(2, 1, [0] + [1] * 4095, table([work, work, end])),
     ['table 1 3 serial 0 depth 3', '1 0 0 0 work 0'] + ['%d 1 - - idle 0' % i for i in range(2, 4097)] + ['open 4096 peak 0']),
    ('deques, a stop at the quota', d(2, 6, STOPPING, e), STOPS),
    ('deques, an owned one robbed', d(2, 6, ROBBING, e), ROBS),
    ('deques, an order that goes on', d(2, 6, ROBBING + b'\xff\xff', e), ROBS),
    ('deques, an order one turn shorter', d(2, 6, ROBBING[:22], e), ROBS[:12] + ['open 11 peak 12']),
    ('deques, an odd last byte', d(2, 6, ROBBING[:23], e), ROBS[:12] + ['open 11 peak 12']),
    ('deques, worker 2', d(2, 6, [0, 0, 2, 0], e), ROBS[:2] + ['refused 30 0']),
    ('deques, choice 2', d(2, 6, [0, 0, 1, 2], e), ROBS[:2] + ['refused 49 0']),
    ('deques, choice 2 of a worker that holds', d(2, 6, [0, 0, 0, 2], e), ROBS[:2] + ['refused 49 0']),
    ('deques, worker 2 and choice 2', d(2, 6, [0, 0, 2, 2], e), ROBS[:2] + ['refused 30 0']),
    ('deques, an empty order', d(2, 6, [], e), [E, 'open 0 peak 0']),
    ('deques, one byte', d(2, 6, [255], e), [E, 'open 0 peak 0']),
    ('deques, 44', d(2, 1, [0, 0], two_400), ['refused 44 4']),
    ('deques, p 17', d(17, 6, [0, 0], e), ['refused 20 0']),
    ('deques, K 0', d(2, 0, [0, 0], e), ['refused 21 0']),
    ('deques, no table', d(1, 1, [0, 0], b''), ['refused 1 0']),
    ('deques, five bytes', ('d', bytes(5)), ['refused 33 0']),
    ('deques, an order of 4,097', d(2, 6, bytes(4097), e), ['refused 33 0']),
    ('deques, an order of 4,096', d(2, 1, [0, 0] + [1, 1] * 2047, table([work, work, end])),
     ['table 1 3 serial 0 depth 3', '1 0 0 0 work 0'] + ['%d 1 - - idle 0' % i for i in range(2, 2049)] + ['open 2048 peak 0']),
    ('most memory', r(1, LARGEST, 2**32 - 1, table([alloc(LARGEST)] * 8191 + [end])), ['finished 16382 peak 137422168065 held 137422168065']),
    ('deepest nesting', r(1, 1, 3070, table(*chain)), ['finished 3070 peak 0 held 0']),
    ('widest fan', r(1, 1, 3069, table(*fan)), ['spent 3069 peak 0 held 0']),
]


def refused_tables():
    """The refused tables of cases.py, by turns in one program and the other."""
    few = [(label, data, answer) for label, data, answer in cases.CASES if answer.startswith('refused') and len(data) < 200]
    for i, (label, data, answer) in enumerate(few):
        yield 'table: ' + label, t(2, 6, both, data) if i % 2 else r(2, 6, 9, data), [answer]


def sample(rng, sort, draw, count):
    """Random inputs that are not too long, with the model's answer."""
    i = 0
    while i < count:
        data = draw(rng)
        text = MODEL[sort](data)
        if len(data) <= 500 and len(text) <= (2500 if sort == 'w' else 900):
            i += 1
            yield 'random %s %d' % (sort, i), (sort, data), text.splitlines()


def main():
    rng = random.Random(1)
    named = CASES + list(refused_tables())
    drawn = list(sample(rng, 't', differential.turnlist_input, 80)) + list(sample(rng, 'r', differential.runrounds_input, 60)) + list(sample(rng, 'w', differential.turnlist_input, 20)) + list(sample(rng, 'd', differential.dequelist_input, 60))
    data, text = b'', ''
    for label, (sort, case), expected in named + drawn:
        expected = '\n'.join(expected) + '\n'
        found = MODEL[sort](case)
        if found != expected:
            raise SystemExit('%s: expected\n%sthe model says\n%s' % (label, expected, found))
        data += sort.encode() + bytes([len(label)]) + label.encode() + len(case).to_bytes(3, 'little') + case
        text += '%s: %s' % (label, expected)
    folder = pathlib.Path(__file__).parent.parent / 'crates' / 'run_cases'
    (folder / 'stdin').write_bytes(data)
    (folder / 'stdout').write_text(text)
    print('%d named cases and %d random ones, %d bytes in, %d out' % (len(named), len(drawn), len(data), len(text)))


if __name__ == '__main__':
    main()
