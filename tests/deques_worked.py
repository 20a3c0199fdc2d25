"""Holds deques.py to N13: worked rows, the order of the refusals, what breaks a sound record, and on random runs that every record reached is sound, each statement of the request among its clauses.

usage: python3 tests/deques_worked.py
"""
import random

import worked as checks
from deques import Bottoms, Deque, begin, broken, copied, dequelist, deques_in, is_blank, run_pairs, same, store, turn
from machine import ENDED, HELD, LAST_TURN, NO_THREAD, READY, THREADS, WAITING, Links
from reference import ALLOC, END
from tables import BODIES_OF_E, drawn, table
from worked import expect

E = table(*BODIES_OF_E)
end = (END, 0)


def begun(data, p, quota):
    answer, record = begin(data, p, quota)
    expect('beginning', answer, 'begun')
    return record


def pairs(text):
    """Two digits a turn."""
    return [int(c) for c in text.replace(' ', '')]


def listed(p, quota, order, data):
    return dequelist(bytes([p]) + quota.to_bytes(3, 'little') + len(order).to_bytes(2, 'little') + bytes(order) + data)


LISTING = """table 3 12 serial 6 depth 8
1 0 0 0 fork 0
2 1 - - idle 0
3 0 1 5 alloc 6
4 0 1 6 work 6
5 0 1 7 free 0
6 0 1 8 end 0
7 1 - - idle 0
8 0 0 1 fork 0
9 0 2 9 quota 0
10 1 0 2 wait 0
11 1 2 9 alloc 6
12 0 - - idle 6
13 1 2 10 free 0
14 1 2 11 end 0
15 1 0 2 join 0
16 1 0 3 join 0
17 1 0 4 end 0
done 17 peak 6
"""
WHOLE = '00 10 00 10 00 10 00 10 00 10 10 10'


def shown(record):
    return [(d.owner, d.threads) for d in deques_in(record)]


def worked():
    expect('the listing', listed(2, 6, pairs('00 11 00 00 00 00 10 00 00 10 10 00 10 10 10 10 10'), E), LISTING)
    expect('robbing an owned deque', listed(2, 6, pairs(WHOLE), E).splitlines()[-1], 'done 12 peak 12')
    expect('E, K 5: the dummies run, and the big allocs draw nothing', listed(2, 5, pairs('00 10 ' * 16 + '10 10'), E).splitlines()[-1], 'done 34 peak 12')
    record = begun(E, 2, 6)
    expect('the root in one deque that nobody owns', shown(record), [(None, [0])])
    _, record = turn(record, 0, 0)
    expect('the parent on top, the worker does the child', (shown(record), record.run.worker[0].thread), ([(0, [0])], 1))
    _, record = turn(record, 1, 0)
    expect('the thief directly right of the one robbed', (shown(record), record.run.worker[1].thread), ([(0, []), (1, [0])], 2))
    expect('the lines', list(Links(record.run)), [1, 2, 0])
    expect('the bottoms', list(Links(Bottoms(record))), [1, 0])


def refusals():
    record = begun(E, 2, 6)
    expect('49 on a steal', turn(record, 0, 2), (('refused', 49, 0), record))
    expect('49 where a thread is held', turn(turn(record, 0, 0)[1], 0, 2)[0], ('refused', 49, 0))
    expect('30 before 49', turn(record, 2, 2)[0], ('refused', 30, 0))
    report, over = run_pairs(record, pairs(WHOLE))
    expect('to the end', (report, over.run.status[0], shown(over)), (('finished', 12), ENDED, []))
    expect('31 before 49', turn(over, 0, 2)[0], ('refused', 31, 0))
    expect('a run after the end', run_pairs(over, [9, 9])[0], ('finished', 0))
    expect('no bytes', run_pairs(record, [])[0], ('spent', 0))
    expect('one byte', run_pairs(record, [9])[0], ('spent', 0))
    expect('an odd last byte', run_pairs(record, [0, 0, 9])[0], ('spent', 1))
    expect('49 in a run', run_pairs(record, [0, 0, 0, 2])[0], ('refused', 1, 49, 0))
    expect('30 in a run', run_pairs(record, [0, 0, 2, 2])[0], ('refused', 1, 30, 0))
    expect('44', begin(table([(ALLOC, 513), end]), 1, 1)[0], ('refused', 44, 0))
    _, blank = begin(b'', 1, 1)
    expect('a refused beginning is blank', (is_blank(blank), blank.under, blank.over, blank.first), (True, [0] * THREADS, [0] * THREADS, 0))
    expect('a turn on it', turn(blank, 0, 0), (('refused', 30, 0), blank))
    expect('a run on it', run_pairs(blank, [0, 0]), (('refused', 0, 30, 0), blank))
    expect('a run over one byte on it', run_pairs(blank, [0]), (('spent', 0), blank))
    record.run.turns = LAST_TURN - 1
    reply, after = turn(record, 0, 0)
    expect('the last turn but one', (reply, broken(after)), (('done', 0, 0), ['turns_right']))
    expect('then 32', turn(after, 0, 0)[0], ('refused', 32, 0))
    expect('in a run before 30', run_pairs(record, [0, 0, 9, 9])[0], ('refused', 1, 32, 0))


def damages():
    """What the clauses on the deques rule out, on E with thread 1 held over 0 in a deque and thread 2 held alone."""
    good = begun(E, 3, 6)
    for w, c in [(0, 0), (1, 0)]:
        _, good = turn(good, w, c)
    expect('the record before', (good.run.status[:3], shown(good)), ([READY, HELD, HELD], [(0, []), (1, [0])]))
    expect('is sound', broken(good), [])

    def damage(what, clauses, change):
        record = copied(good)
        change(record)
        expect(what, broken(record), clauses)
        expect(what + ', a turn', turn(record, 9, 9), (('refused', 32, 0), record))
        expect(what + ', a run', run_pairs(record, []), (('refused', 0, 32, 0), record))

    def put(field, i, x):
        return lambda record: getattr(record, field).__setitem__(i, x)

    def laid(*deques):
        return lambda record: store(record, [Deque(owner, list(threads)) for owner, threads in deques])

    damage('a ready thread in no deque', ['each_thread_one'], laid((0, []), (1, [])))
    damage('a held thread inside a line', ['each_thread_one', 'owners_right'], laid((1, [0, 1])))
    damage('an unborn thread in a deque', ['each_thread_one'], laid((0, []), (1, [0]), (None, [3])))
    damage('a worker that holds and owns none', ['owners_right'], laid((1, [0])))
    one_line = ['each_thread_one', 'owners_right', 'links_describe']
    damage('no bottom', one_line, lambda record: vars(record).update(under=[NO_THREAD] * THREADS, over=[NO_THREAD] * THREADS, first=NO_THREAD))
    damage('another leftmost bottom', one_line, lambda record: setattr(record, 'first', 0))
    for t, u in [(0, 0), (0, NO_THREAD), (1, 1), (2, 0), (1023, 0)]:
        damage('%d under %d' % (u, t), ['links_describe'], put('under', t, u))
    for t, u in [(2, 0), (3, 3), (1023, 65535)]:
        damage('%d over %d' % (u, t), ['links_describe'], put('over', t, u))
    damage('a status that is none', ['statuses_follow'], lambda record: record.run.status.__setitem__(0, 5))
    damage('waiting in a deque', ['each_thread_one'], lambda record: record.run.status.__setitem__(0, WAITING))
    swapped = copied(good)
    laid((1, [0]), (0, []))(swapped)
    expect('no order is asked', broken(swapped), [])


def random_runs(rng, count):
    turns = 0
    for _ in range(count):
        data = drawn(rng, rng.randint(1, 12), rng.randint(5, 60), (3, 8))
        p, quota = rng.randint(1, 5), rng.randint(1, 8)
        answer, record = begin(data, p, quota)
        expect('beginning', answer, 'begun')
        order, start = [], record
        while record.run.status[0] != ENDED:
            w, c = rng.randrange(p), rng.randrange(p)
            order += [w, c]
            reply, record = turn(record, w, c)
            expect('a turn', reply[0] in ('idle', 'done', 'quota', 'wait'), True)
            expect('the record after it', broken(record), [])
            turns += 1
        report, whole = run_pairs(start, order)
        expect('the same turns in a run', (report, same(whole, record)), (('finished', len(order) // 2), True))
    return turns


worked()
refusals()
damages()
turns = random_runs(random.Random(13), 25)
print('%d expectations held, %d random turns' % (checks.held_checks, turns))
