"""Holds machine.py to document 01: its worked cases on replies and records, what breaks a sound record, and on random runs that
every record reached is sound, by both ways to say the list's order. The model takes each turn with the list in links and in a row; that
it notices where the two part is tried here with wrong links.

usage: python3 tests/worked.py
"""
import random

from machine import BYTES, ENDED, HELD, LARGEST, LAST_TURN, NO_THREAD, READY, THREADS, UNBORN, WAITING, Both, Links, View, begin, broken
from machine import copied, described, is_blank, run_list, run_rounds, same, serial_order, sound, turn
from reference import ALLOC, END, FORK, FREE, JOIN, WORK, check
from tables import BODIES_OF_E as E, drawn, table

end, work = (END, 0), (WORK, 0)
held_checks = 0


def expect(what, found, wanted):
    global held_checks
    if found != wanted:
        raise SystemExit('%s: expected %r, found %r' % (what, wanted, found))
    held_checks += 1


def begun(data, p, quota):
    answer, run = begin(data, p, quota)
    expect('beginning', answer, 'begun')
    return run


def turns(run, order):
    """The replies of single turns, without the number passed over, one after the other, and the last record."""
    replies = []
    for w in order:
        reply, run = turn(run, w)
        replies.append(reply if reply[0] == 'refused' else reply[:-2])
    return replies, run


def worked():
    e = table(*E)
    expect('E', check(e), ('table', 3, 12, 6, 8, 2))
    run = begun(e, 2, 5)
    expect('E, K 5', check(run.table[:run.length]), ('table', 9, 34, 6, 17, 4))
    expect('is sound', broken(run), [])
    for p, turned, peak in [(1, 34, 6), (2, 44, 6), (3, 50, 6), (16, 145, 12)]:
        report, run = run_rounds(begun(e, p, 5), 10**6)
        expect('E, K 5, %d workers' % p, (report, run.highest), (('finished', turned), peak))
    listing = [('done', 0, 0), ('done', 1, 5), ('done', 0, 1), ('done', 1, 6), ('done', 2, 9), ('done', 1, 7), ('done', 2, 10),
               ('done', 1, 8), ('done', 2, 11), ('done', 0, 2), ('idle',), ('done', 0, 3), ('idle',), ('done', 0, 4)]
    replies, run = turns(begun(e, 2, 6), [0, 1] * 7)
    expect('the listing', replies, listing)
    expect('its peak, held and turns', (run.highest, run.held, run.turns), (12, 0, 14))
    expect('a turn after done', turn(run, 0)[0], ('refused', 31, 0))
    expect('30 before 31', turn(run, 2)[0], ('refused', 30, 0))
    expect('a run after done', run_list(run, [9])[0], ('finished', 0))
    expect('rounds after done, L 0', run_rounds(run, 0)[0], ('finished', 0))
    report, run = run_rounds(begun(e, 1, 6), 99)
    expect('E, p 1', (report, run.highest), (('finished', 12), 6))
    least = bytes([1, 0, 1, 0, 0, 0, 1, 0, 0, 0, 0, 0])
    expect('one end', check(least), ('table', 1, 1, 0, 1, 1))
    expect('its one turn', turns(begun(least, 1, 1), [0])[0], [('done', 0, 0)])
    expect('a byte more', check(least + b'\0'), ('refused', 3, 0))
    expect('no bytes', check(b''), ('refused', 1, 0))
    twice = table([(ALLOC, 4), (ALLOC, 4), end])
    replies, run = turns(begun(twice, 1, 6), [0] * 4)
    expect('quota at the second turn', replies, [('done', 0, 0), ('quota', 0, 4), ('done', 0, 1), ('done', 0, 2)])
    expect('8 held', (run.held, run.highest), (8, 8))
    expect('S1 8', check(twice)[3], 8)
    expect('K 8', run_rounds(begun(twice, 1, 8), 99)[0], ('finished', 3))
    expect('free 7', check(table([(ALLOC, 6), (FREE, 7), end])), ('refused', 10, 1))
    expect('joins swapped', check(table([E[0][i] for i in (0, 1, 3, 2, 4)], *E[1:])), ('refused', 9, 2))
    replies, run = turns(begun(e, 2, 6), [0, 1, 0, 1, 1, 1, 1, 0])
    expect('the last turn says wait', replies[-1], ('wait', 0, 2))
    expect('worker 2 instead', run_list(begun(e, 2, 6), [0, 1, 0, 1, 1, 1, 1, 2])[0], ('refused', 7, 30, 0))
    replies, run = turns(begun(e, 3, 6), [0, 1, 0, 2, 0, 1, 1, 1])
    expect('thread 1 has ended, thread 0 goes on waiting', (run.status[1], run.status[0], list(Links(run))), (ENDED, WAITING, [2, 0]))
    left = table([(FORK, 1), work, (JOIN, 1), (FREE, 3), end], [(ALLOC, 4), end])
    amounts = lambda order: turns(begun(left, 2, 4), order)[1].amounts[:3]
    expect('an ended child keeps its balance', amounts([0, 1, 1, 0]), [0, 4, 0])
    expect('its join moves it to the parent', amounts([0, 1, 1, 0, 0]), [4, 0, 0])
    expect('the root keeps its own at its end', amounts([0, 1, 1, 0, 0, 0, 0]), [1, 0, 0])
    expect('L 0', run_rounds(begun(e, 2, 6), 0)[0], ('spent', 0))
    expect('L 14', run_rounds(begun(e, 2, 6), 14)[0], ('finished', 14))
    expect('L 13', run_rounds(begun(e, 2, 6), 13)[0], ('spent', 13))
    expect('n 1,025', check(bytes([1, 4, 1, 0])), ('refused', 2, 0))
    for p, number in [(0, 20), (17, 20), (255, 20)]:
        expect('p %d' % p, begin(e, p, 0)[0], ('refused', number, 0))
    for quota in (0, LARGEST + 1):
        expect('K %d' % quota, begin(e, 16, quota)[0], ('refused', 21, 0))
    expect('44 after 20 and 21', [begin(table([(ALLOC, 513), end]), *pair)[0] for pair in [(0, 0), (1, 0), (1, 1)]], [('refused', 20, 0), ('refused', 21, 0), ('refused', 44, 0)])


def blank():
    _, run = begin(b'', 1, 1)
    expect('a refused beginning is blank', is_blank(run), True)
    expect('its links are all 0', (run.left, run.right, run.leftmost), ([0] * THREADS, [0] * THREADS, 0))
    expect('and not sound', sound(run), False)
    for w in (0, 1, 255):
        expect('a turn on it', turn(run, w), (('refused', 30, 0), run))
    for limit in (0, 1, 99):
        expect('rounds on it', run_rounds(run, limit), (('refused', 0, 30, 0), run))
    expect('a list on it', run_list(run, [0]), (('refused', 0, 30, 0), run))
    expect('no list on it', run_list(run, []), (('spent', 0), run))


def damages():
    """What each clause rules out, one damage at a time, on E after five turns: thread 0 waits, 1 and 2 are held."""
    _, good = turns(begun(table(*E), 3, 6), [0, 1, 0, 2, 0])
    expect('the record before', (good.status[:3], good.next[:3], list(Links(good)), good.held), ([WAITING, HELD, HELD], [2, 6, 10], [1, 2, 0], 12))
    expect('is sound', broken(good), [])
    smaller = copied(good)
    smaller.quota = 5
    expect('is sound with an alloc above K', broken(smaller), [])

    def damage(what, clauses, change):
        run = copied(good)
        change(run)
        expect(what, broken(run), clauses)
        expect(what + ', a turn', turn(run, 9), (('refused', 32, 0), run))
        expect(what + ', an empty list', run_list(run, []), (('refused', 0, 32, 0), run))
        expect(what + ', L 0', run_rounds(run, 0), (('refused', 0, 32, 0), run))

    def put(field, i, x):
        return lambda run: getattr(run, field).__setitem__(i, x)

    def let(field, x):
        return lambda run: setattr(run, field, x)

    def table_byte(i, x):
        return lambda run: setattr(run, 'table', run.table[:i] + bytes([x]) + run.table[i + 1:])

    def worker(w, **values):
        return lambda run: vars(run.worker[w]).update(values)

    damage('a table that fails', ['table'], table_byte(16, 6))
    damage('p 0', ['settings'], let('p', 0))
    damage('K out of range', ['settings'], let('quota', LARGEST + 1))
    damage('a next action in another body', ['next_in_body'], put('next', 1, 9))
    damage('a next action before its body', ['next_in_body'], put('next', 2, 8))
    damage('a join done before the child', ['in_order', 'waits_at_joins', 'amounts_right'], put('next', 0, 4))
    other_list, other_links = ['list_follows', 'links_describe'], ['links_describe']
    damage('a status that is none', ['statuses_follow', *other_list, 'holders_right'], put('status', 1, 5))
    damage('a forked thread unborn', ['statuses_follow', *other_list, 'holders_right'], put('status', 1, UNBORN))
    damage('a thread ended early', ['in_order', 'statuses_follow', *other_list, 'holders_right'], put('status', 1, ENDED))
    damage('too long a table', ['length'], let('length', BYTES + 1))
    for what, threads in [('a list out of order', [2, 1, 0]), ('a list read from the right', [0, 2, 1]), ('the first thread missing', [2, 0]),
                          ('the last thread missing', [1, 2]), ('no list', []), ('a thread not there', [1, 2, 0, 3])]:
        damage(what, other_list, lambda run: vars(run).update(zip(('left', 'right', 'leftmost'), described(threads))))
    for t in (0, 2, NO_THREAD, NO_THREAD + 1, 65535):
        damage('leftmost %d' % t, other_list, let('leftmost', t))
    for t, u in [(0, 0), (0, 1), (0, 2), (0, 3), (1, 0), (1, 1), (1, NO_THREAD), (2, 1), (2, 65535)]:
        damage('%d right of %d' % (u, t), other_list, put('right', t, u))
    for t, u in [(0, NO_THREAD + 1), (0, 65535), (3, 0), (3, 1), (3, 3), (1023, 0), (1023, 65535)]:
        damage('%d right of %d, which changes no reading' % (u, t), other_links, put('right', t, u))
    for t, u in [(0, 0), (0, 1), (0, NO_THREAD), (1, 0), (1, 65535), (2, 0), (2, 2), (3, 0), (3, 3), (1023, 0)]:
        damage('%d left of %d' % (u, t), other_links, put('left', t, u))
    damage('a ring', other_list, lambda run: (put('right', 0, 1)(run), put('left', 1, 0)(run)))
    damage('a second chain', other_links, lambda run: (put('right', 3, 4)(run), put('left', 4, 3)(run)))
    damage('held with no worker', ['holders_right'], put('status', 0, HELD))
    damage('waiting elsewhere', ['waits_at_joins', 'holders_right'], put('status', 1, WAITING))
    damage('two workers on a thread', ['holders_right', 'set_agrees'], worker(0, holds=True, thread=1))
    damage('a worker on a ready thread', ['holders_right'], put('status', 2, READY))
    damage('a worker from p on', ['others_hold_nothing', 'set_agrees'], worker(3, holds=True))
    damage('a bit too many', ['set_agrees'], let('busy', 14))
    damage('a bit too few', ['set_agrees'], let('busy', 2))
    damage('a quota above K', ['quotas_right'], worker(1, quota=7))
    damage('other memory held', ['held_right'], let('held', 11))
    damage('a thread with less', ['amounts_right'], put('amounts', 1, 5))
    damage('a thread with another\'s', ['amounts_right'], let('amounts', [0, 0, 12] + [0] * 1021))
    damage('a thread from n on with something', ['amounts_right'], put('amounts', 1023, 1))
    damage('a highest below', ['highest_right'], let('highest', 11))
    damage('a byte past the table', ['unused_right'], table_byte(BYTES - 1, 1))
    damage('a thread from n on, its next', ['unused_right'], put('next', 3, 1))
    damage('a thread from n on, its status', ['unused_right'], put('status', 1023, READY))
    damage('a quota with nothing held', ['unused_right'], worker(0, quota=1))
    damage('a thread with nothing held', ['unused_right'], worker(15, thread=1))
    damage('turns at the end', ['turns_right'], let('turns', LAST_TURN))

    def allowed(what, change):
        run = copied(good)
        change(run)
        expect(what, broken(run), [])
    allowed('a thread at a join may be ready', put('status', 0, READY))
    allowed('any highest above', let('highest', LAST_TURN))
    allowed('any quota up to K', worker(1, quota=6))
    allowed('any turns below the end', let('turns', LAST_TURN - 1))


def last_turns():
    run = begun(table(*E), 2, 6)
    run.turns = LAST_TURN - 1
    reply, after = turn(run, 0)
    expect('the last turn but one', (reply[:3], after.turns, broken(after)), (('done', 0, 0), LAST_TURN, ['turns_right']))
    expect('then 32', turn(after, 0)[0], ('refused', 32, 0))
    expect('in a run, a turn to go', run_list(run, [0, 0])[0], ('refused', 1, 32, 0))
    expect('also before 30', run_list(run, [0, 9])[0], ('refused', 1, 32, 0))
    expect('nothing to go', run_list(run, [0])[0], ('spent', 1))
    least = begun(table([end]), 1, 1)
    least.turns = LAST_TURN - 1
    expect('the root ended there', run_rounds(least, 9)[0], ('finished', 1))


def layouts():
    """The list along a run of E; and links that are written wrongly, which the model must notice by its row."""
    lists = [[0], [1, 0], [1, 0], [1, 2, 0], [1, 2, 0], [1, 2, 0], [1, 2, 0], [1, 2, 0], [2, 0], [0], [0], [0], [0], [0], []]
    run = begun(table(*E), 2, 6)
    for i, threads in enumerate(lists):
        expect('the list after %d turns' % i, list(Links(run)), threads)
        expect('its links', (run.left, run.right, run.leftmost), described(threads))
        run = turn(run, i % 2)[1]

    class Right(Links):
        def insert(self, c, t):
            right = self.run.right[t]
            self.neighbours(t, c)
            self.neighbours(c, right)

    class Stays(Links):
        def remove(self, t):
            self.neighbours(self.run.left[t], self.run.right[t])

    class OneWay(Links):
        def neighbours(self, t, u):
            kept = self.run.left[:]
            super().neighbours(t, u)
            self.run.left = kept

    for wrong in (Links, Right, Stays, OneWay):
        machine = Both(begun(table(*E), 2, 6))
        machine.threads = wrong(machine.run)
        try:
            for i in range(9):
                machine.take(i % 2)
            machine.record()
            noticed = False
        except SystemExit:
            noticed = True
        expect('%s noticed' % wrong.__name__, noticed, wrong is not Links)


def random_runs(rng, count):
    for _ in range(count):
        threads = rng.randint(1, 9)
        data = drawn(rng, threads, rng.randint(threads, 5 * threads), sizes=[3, 9])
        p, quota = rng.randint(1, 16), rng.randint(9, 12)
        run = begun(data, p, quota)
        order = [rng.randrange(p) for _ in range(60)]
        many, last = run_list(run, order)
        singles = 0
        for w in order:
            reply, after = turn(run, w)
            if reply[0] == 'refused':
                expect('refused at the end only', (reply, run.status[0]), (('refused', 31, 0), ENDED))
                break
            run, singles = after, singles + 1
            v = View(run)
            rank = {a: i for i, a in enumerate(serial_order(v.table))}
            ranks = [rank[run.next[t]] for t in Links(run)]
            expect('sound after a turn', (broken(run), ranks), ([], sorted(ranks)))
            expect('the amounts come to what is held', sum(run.amounts), run.held)
        expect('a run is its turns', (many[1], same(run, last)), (singles, True))
        expect('its report', many[0], 'finished' if run.status[0] == ENDED else 'spent')


def main():
    worked()
    blank()
    damages()
    last_turns()
    layouts()
    random_runs(random.Random(20261115), 60)
    print('%d checks hold' % held_checks)


if __name__ == '__main__':
    main()
