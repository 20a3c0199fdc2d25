"""Holds the calls of libwivakkol_deque_turn.a and libwivakkol_deques.a against lent_deques.py, which was written on its own: on runs of DFDeques from a beginning, on records whose deques were laid by hand, and on damaged
and random memory. Number, row and all of the memory after every call, cleared working memory, and the stack that a call uses; the header with the source. Sound runs are held against deques.py
as well, turn by turn. The limit is held against choices.py, on tables of its own.

usage: python3 tests/deques_calls.py [COUNT]
    From the repository's top, after `python3 tools/dist.py archive wivakkol_deque_turn wivakkol_deques wivakkol`; COUNT runs of each kind, or half as many, default 1,000; needs a C compiler, `cc`.
"""
import collections
import concurrent.futures
import functools
import os
import random
import sys

import board
import board_limits
import board_runs
import choices
import deques
import lent
import lent_deques
import machine
from board_runs import FAR, any_number, damage, random_table, restore, some_worker, unstick, word
from differential import LARGEST, beginning, mostly, run_table, tablecheck_input
from lent import FIELDS, SIZE
from machine import ENDED, HELD, LAST_TURN, NO_THREAD, READY, THREADS, WORKERS, described
from peaks import bench, example
from reference import Table
from tables import BODIES_OF_E, damaged, table

import stack  # of bench/, which peaks puts on the path

CRATES = ['wivakkol_deque_turn', 'wivakkol_deques', 'wivakkol']
ARCHIVES = ['target/staticlib/lib%s.a' % crate for crate in CRATES]
STACK_MOST = {'begin': 8192, 'open': 8192, 'turn': 161, 'list': 320, 'limit': 8192}  # bytes that a call must stay below, as the header says
E = table(*BODIES_OF_E)


class Play(board_runs.Play):
    """Steps on a run of DFDeques, and the answers expected."""
    model = lent_deques.Lent

    def turn(self, w, c):
        self.add(b'w', word(w), word(c))
        number, row = self.run.turn(w, c)
        self.answered('turn', number, row)
        if number == 0:
            self.reached[lent.SAID[row[1]]] += 1
        return number, row

    def list(self, order):
        self.add(b'l', word(len(order)), bytes(order))
        return self.run_answered('list', *self.run.run_pairs(bytes(order)))

    def limit(self, p, quota, c, room):
        """Whatever the memory holds, which stays."""
        self.add(b'x', word(p), word(quota), word(c), word(room))
        said, buffer = board_limits.in_room(choices.said(self.data, p, quota, c), self.data, quota, room)
        number, row = (said[1], [said[2], 0, 0]) if said[0] == 'refused' else (0, [0, *said])
        self.reached['limit %d' % number] += 1
        self.reached['limit filled out'] += number == 0 and buffer[:1] != board_limits.PAINT and room > 0
        self.answers.append(word(number) + b''.join(word(x, 8) for x in row) + buffer + bytes(board_limits.CLEARED) + bytes(self.memory.bytes))
        return number, row


# ---- sound runs, held against deques.py as well

def same_as_deques(memory, record):
    board_runs.same_as_machine(memory, record.run)
    assert (memory.under.tolist(), memory.over.tolist(), memory.heads[lent.FIRST]) == (record.under, record.over, record.first)


def sound_turn(play, taking, w, c):
    """A turn of both models: the reply, the lines and their bottoms."""
    run = taking.run
    number, row = play.turn(w, c)
    if w >= run.p or taking.ended() or c >= run.p:
        assert number == (30 if w >= run.p else 31 if taking.ended() else 49), number
        return
    holds, places = run.worker[w].holds, len(taking.deques)
    reply = taking.take(w, c)
    assert number == 0 and [lent.SAID[row[1]], *row[2:]] == [*reply, *[0] * (4 - len(reply))], (number, row, reply)
    lines = [([] if d.owner is None else [run.worker[d.owner].thread]) + d.threads for d in taking.deques]
    assert play.run.list.threads() == [t for threads in lines for t in threads]
    assert play.run.second.threads() == [threads[-1] for threads in lines]
    play.reached['steal' if not holds and reply[0] != 'idle' else 'no deque there' if not holds and c >= places else 'a turn'] += 1
    play.reached['two deques and more'] += len(lines) > 1
    play.reached['a deque of three and more'] += any(len(threads) > 2 for threads in lines)


def look(rng, play):
    """Opening in the middle of a sound run leaves its memory as it was, also where the parents were not."""
    before = bytes(play.memory.bytes)
    for _ in range(rng.randint(0, 3)):
        play.put('parents', rng.randrange(THREADS), any_number(rng, play.memory, THREADS))
    assert play.open() == (0, [0]) and play.memory.bytes == before


def pair(rng, p):
    """A worker and a choice, mostly below p; the low places, where deques are, more often."""
    p = max(1, min(p, WORKERS))
    return rng.randrange(p), rng.choice([0, rng.randrange(p), rng.randrange(min(p, 3))])


def sound_run(rng):
    """From any bytes in memory: a beginning, and turns also of workers and choices that are not there; now and then it is opened."""
    data, most = run_table(rng)
    p, front = beginning(rng, most)
    quota = int.from_bytes(front[1:], 'little')
    p = mostly(rng, p, *FAR, 256 + p)
    if rng.random() < 0.1:
        data = rng.choice([tablecheck_input(rng), damaged(rng, data)])
    play = Play(rng.randbytes(SIZE), data)
    number, _ = play.begin(p, quota)
    answer, record = deques.begin(data, p, quota)
    assert number == (0 if answer == 'begun' else answer[1])
    if number != 0:
        assert not any(play.memory.bytes[:lent.USED])
        look(rng, play)
        for w in (0, 1, *FAR):
            assert play.turn(w, rng.choice(FAR + [0]))[0] == 30
        assert play.list(b'') == play.list(b'\0') == (0, [0, lent.SPENT, 0]) and play.list(bytes(2))[0] == 30
        return play
    same_as_deques(play.memory, record)
    assert not deques.broken(record)
    taking, after_end = deques.Machine(record), 0
    for _ in range(rng.choice([10, 3 * Table(play.data).m, 400])):
        w, c = pair(rng, p)
        if rng.random() < 0.04:
            w, c = rng.choice([(mostly(rng, p, *FAR), c), (w, rng.choice([p, *FAR, 256 + c, 65536 + c])), (p, p)])
        if rng.random() < 0.01:
            look(rng, play)
        sound_turn(play, taking, w, c)
        after_end += taking.ended()
        if after_end > 4:
            break
    record = taking.record()
    same_as_deques(play.memory, record)
    assert not deques.broken(record)
    look(rng, play)
    return play


def drawn_lists(rng):
    """A beginning, and runs over lists, also of an odd length, with refused pairs in them, and when nearly all turns are taken."""
    data, most = run_table(rng)
    p, front = beginning(rng, most)
    quota = int.from_bytes(front[1:], 'little')
    play = Play(rng.randbytes(SIZE), data)
    number, _ = play.begin(p, quota)
    _, record = deques.begin(data, p, quota)
    after_end = 0
    for _ in range(rng.randint(2, 6)):
        after_end += number != 0 or record.run.status[0] == ENDED
        if after_end > 2:
            break
        if number == 0 and rng.random() < 0.1:
            record.run.turns = LAST_TURN - rng.choice([1, 2, rng.randint(1, 50)])
            play.put('totals', lent.TURNS, record.run.turns)
        order = [x for _ in range(rng.choice([0, 1, rng.randint(0, 40), 3 * Table(data).m])) for x in pair(rng, p)]
        if order and rng.random() < 0.3:
            i = rng.randrange(len(order))
            order[i] = rng.choice([p % 256, 16, 255])
        order = bytes(order + [rng.choice([0, 255])] * (rng.random() < 0.3))
        last = record.run.turns == LAST_TURN
        report, record = deques.run_pairs(record, order)
        # in lent memory 32 comes first, also at the root's end
        wanted = (32, [0, 0, 0]) if last else board_runs.reported(report)
        given = play.list(order)
        assert given == wanted, (given, wanted)
        play.reached['list of an odd length'] += len(order) % 2
        if number == 0:
            same_as_deques(play.memory, record)
    return play


def worked(rng):
    """The two listings of E, p 2, K 6, as turns and as a run over the list; the order of the refusals."""
    play = Play(rng.randbytes(SIZE), E)
    for pairs, turns, peak in ('00 11 00 00 00 00 10 00 00 10 10 00 10 10 10 10 10', 17, 6), ('00 10 00 10 00 10 00 10 00 10 10 10', 12, 12):
        order = bytes(map(int, pairs.replace(' ', '')))
        assert play.begin(2, 6)[0] == 0
        taking = deques.Machine(deques.begin(E, 2, 6)[1])
        assert [play.turn(0, 2)[0], play.turn(2, 2)[0], play.turn(0, 2**32 - 1)[0]] == [49, 30, 49]
        for w, c in zip(order[::2], order[1::2]):
            sound_turn(play, taking, w, c)
            if not taking.ended():
                assert play.turn(w, 2)[0] == 49  # also where the worker holds a thread
        assert taking.ended() and play.memory.totals.tolist() == [0, peak, turns]
        assert [play.turn(0, 2)[0], play.turn(2, 0)[0], play.turn(1, 1)[0]] == [31, 30, 31]
        look(rng, play)
        assert play.begin(2, 6)[0] == 0 and play.list(order + b'\xff') == (0, [0, lent.FINISHED, turns])
        assert play.memory.totals.tolist() == [0, peak, turns] and play.list(order) == (0, [0, lent.FINISHED, 0])
    return play


# ---- records that opening tests

def put_links(play, lines, bottoms):
    """Both lists of links, as they stand in the memory."""
    memory = play.memory
    for (before, after, head), (left, right, leftmost) in zip([('left', 'right', lent.LEFTMOST), ('under', 'over', lent.FIRST)], [lines, bottoms]):
        for name, links in (before, left), (after, right):
            for t, x in enumerate(links):
                getattr(memory, name)[t] = x
        memory.heads[head] = leftmost
    play.add(b'm', word(0), word(SIZE), bytes(memory.bytes))


def lines_of(record):
    return [([] if d.owner is None else [record.run.worker[d.owner].thread]) + d.threads for d in deques.deques_in(record)]


def laid(lines):
    """Links that describe lines and their bottoms; a thread may stand twice, and a line be cut off before its bottom."""
    return described([t for threads in lines for t in threads]), described([threads[-1] for threads in lines if threads])


def shapes(rng, memory, lines):
    """Lines laid otherwise, each with its name: first what is sound, any order of whole lines."""
    n = sum(map(len, lines))
    held = [threads[0] for threads in lines if memory.status[threads[0]] == HELD]
    shuffled = rng.sample(lines, len(lines))
    yield 'lines in any order', laid(shuffled)
    both = laid(lines)
    flat = [t for threads in lines for t in threads]
    t, u = rng.choice(flat), rng.choice(flat)
    yield 'a thread less', laid([kept for kept in ([x for x in threads if x != t] for threads in lines) if kept])
    yield 'no thread', laid([])
    unlisted = [x for x in range(THREADS) if memory.status[x] not in (READY, HELD)]
    yield 'a thread too many', laid([[*threads, rng.choice(unlisted)] if threads is lines[0] else threads for threads in lines])
    left, right, leftmost = both[0]
    circle = right[:]
    circle[flat[-1]] = u
    yield 'lines in a circle', ((left, circle, leftmost), both[1])
    if n > 1:
        one = [flat]
        yield 'all in one line', laid(one)
        yield 'the last line without a bottom', (both[0], described([threads[-1] for threads in lines[:-1]]))
        cut = [[x] for x in flat]
        yield 'a line of each thread', laid(cut)
    for t in held[:1]:
        threads = next(threads for threads in lines if threads[0] == t)
        if len(threads) > 1:
            inside = [*threads[1:], t]
            yield 'a held thread inside a line', laid([inside if line is threads else line for line in lines])
    bottoms = [threads[-1] for threads in lines]
    if len(bottoms) > 1:
        yield 'bottoms in another order', (both[0], described(bottoms[::-1]))
        yield 'a bottom less', (both[0], described(bottoms[1:]))
    for name, which in (('lines', 0), ('bottoms', 1)):
        for side in 0, 1:
            links = [both[0], both[1]]
            changed = [links[which][0][:], links[which][1][:], links[which][2]]
            t = rng.choice([rng.choice(flat), rng.randrange(THREADS), THREADS - 1])
            changed[side][t] = rng.choice([x for x in (0, 1, rng.choice(flat), NO_THREAD, NO_THREAD + 1, 65535, rng.randrange(65536)) if x != changed[side][t]])
            links[which] = tuple(changed)
            yield '%s, a link %s' % (name, ('to the left', 'to the right')[side]), tuple(links)
        links = [both[0], both[1]]
        left, right, head = links[which]
        links[which] = left, right, rng.choice([x for x in (0, 1, NO_THREAD, NO_THREAD + 1, 65535, rng.choice(flat)) if x != head])
        yield '%s, another leftmost' % name, tuple(links)


def shaped_run(rng):
    """Somewhere in a run its deques are laid otherwise, and it is opened; where the record is still sound, its turns are those of deques.py."""
    data, most = run_table(rng)
    play, p = Play(rng.randbytes(SIZE), data), rng.choice([1, 2, 3, 4, 16])
    if play.begin(p, most)[0] != 0:
        return play
    taking = deques.Machine(deques.begin(data, p, most)[1])
    for _ in range(rng.randint(0, 60)):
        sound_turn(play, taking, *pair(rng, p))
    if taking.ended():
        return play
    before, record = bytes(play.memory.bytes), taking.record()
    lines = lines_of(record)
    for name, links in shapes(rng, play.memory, lines):
        put_links(play, *links)
        number, _ = play.open()
        play.reached['%s: %s' % (name, 'sound' if number == 0 else 'refused')] += 1
        assert number == 0 or name != 'lines in any order'
        if number == 0:
            other = deques.Machine(play.run.deque_record(play.data))
            for _ in range(4):
                sound_turn(play, other, *pair(rng, p))
        else:
            for _ in range(2):  # on such memory a turn is what it is defined to be
                play.turn(*pair(rng, p))
        restore(play, before)
    assert play.open() == (0, [0]) and play.memory.bytes == before
    return play


def opened_run(rng):
    """Somewhere in a run, one number at a time becomes another, and the run is opened. Then all is as before, is opened with another table too, and goes on."""
    play, p, taking = board_runs.begun_run(rng, Play, deques)
    data = play.data
    for _ in range(rng.randint(1, 4)):
        for _ in range(rng.randint(0, 20)):
            sound_turn(play, taking, *pair(rng, p))
        before = bytes(play.memory.bytes)
        rng.choice([board_runs.quiet, damage, damage])(rng, play, rng.randrange(p + 1) % WORKERS)
        if play.open()[0] == 0:
            other = deques.Machine(play.run.deque_record(data))
            for _ in range(min(3, LAST_TURN - other.run.turns)):
                sound_turn(play, other, *pair(rng, p))
        board_runs.as_before(rng, play, before)
    assert play.open() == (0, [0]) and play.memory.bytes == before
    return play


def blank_run(rng, data):
    """The blank record is opened whatever the table, and is no longer blank if one number of it, the parents apart, is another."""
    play = Play(bytes(SIZE), data)
    for name, _, count in FIELDS:
        look(rng, play)
        assert play.turn(0, 0)[0] == 30
        i = rng.randrange(count)
        if name != 'parents':
            play.put(name, i, 1)
            assert play.open()[0] == 32
            play.put(name, i, 0)
    return play


# ---- damaged memory

def call(rng, play, w):
    """A turn of worker w, or a few over a list that starts with it; or an opening."""
    p = max(1, min(play.memory.settings[lent.P], 256))
    c = mostly(rng, rng.choice([0, 0, 1, rng.randrange(min(p, WORKERS))]), *FAR, rng.randrange(p))
    manner = rng.random()
    if manner < 0.07:
        play.open()
    elif manner < 0.55:
        play.turn(w, c)
    else:
        order = [w, c]
        for _ in range(rng.choice([0, 3, 20])):
            order += [some_worker(rng, play.memory), rng.randrange(p)]
        play.list(bytes(min(x, 255) for x in order[:rng.choice([0, 1, 2, 99, 99, 99])]))


def damaged_run(rng):
    """From somewhere in a run, or a table refused: damage and calls by turns; now and then another table, or a new beginning."""
    data, most = run_table(rng)
    play = Play(rng.randbytes(SIZE), data)
    p = rng.choice([1, 2, 3, 4, 16])
    play.begin(p, min(LARGEST, rng.choice([most, most + 1, LARGEST])))
    for _ in range(rng.randint(0, min(60, 2 * Table(data).m))):
        play.turn(*pair(rng, p))
    for _ in range(rng.randint(1, 12)):
        if rng.random() < 0.06:
            play.change_table(rng.choice([damaged(rng, data), damaged(rng, data), random_table(rng), data, b'', rng.randbytes(rng.randint(0, 300))]))
        if rng.random() < 0.02:
            play.begin(p, LARGEST)
        unstick(rng, play)
        w = some_worker(rng, play.memory)
        for _ in range(rng.choice([1, 1, 1, 2, 4])):
            damage(rng, play, w % WORKERS)
        for w in (w, *(some_worker(rng, play.memory) for _ in range(rng.randint(0, 3)))):
            call(rng, play, w)
    return play


def random_run(rng):
    """Any bytes as memory, or some of the numbers drawn more closely."""
    data = rng.choice([run_table(rng)[0], damaged(rng, run_table(rng)[0]), random_table(rng), random_table(rng), rng.randbytes(rng.choice([0, 3, 50, 2000]))])
    play, manner = Play(rng.randbytes(SIZE), data), rng.random()
    if manner < 0.8:
        (board_runs.likely if manner < 0.7 else board_runs.one_chain)(rng, play)
        play.add(b'm', word(0), word(SIZE), bytes(play.memory.bytes))
    if rng.random() < 0.9:
        play.put('settings', lent.P, rng.choice([1, 16, 16, 200]))
    for _ in range(rng.randint(1, 20)):
        call(rng, play, some_worker(rng, play.memory))
    return play


# ---- the limit

def limit_figures(rng):
    """Each refusal, numbers whose low byte is in range, too little room by one byte, the examples, the most deeply nested and the widest table, and a tree of 1,024 threads."""
    e, tree = example('e.text'), example('tree.text')
    asked = [(data, 17, 0, 0, 0) for data in board_limits.refused()]
    asked += [(e, p, 0, 0, 0) for p in (0, 17, 258, 2**32 - 1)] + [(e, 2, 0, c, 0) for c in (0, 3, 257, 65537, 2**32 - 1)] + [(e, 2, quota, 2, 0) for quota in (0, 2**24, 2**24 + 6, 2**32 - 1)]
    asked += [(e, 2, 6, 1, 0), (e, 2, 6, 2, 0), (e, 2, 5, 1, 175), (e, 2, 5, 1, 176), (tree, 4, 12, 3, 0), (tree, 4, 12, 1, 0)]
    asked += [(data, 16, 218, c, 0) for data in (stack.nested(), stack.fan(), bench.tree()) for c in (1, 16)]
    play = Play(rng.randbytes(SIZE), b'')
    given = []
    for data, *numbers in asked:
        play.change_table(data)
        given.append(play.limit(*numbers))
    assert [(0, [0, 12, 12])] * 2 == given[24:26] and given[26:30] == [(61, [0, 0, 0]), (0, [0, 12, 12]), (0, [0, 1160, 124]), (0, [0, 124, 124])], given[24:30]
    return play


def drawn_limits(rng):
    """Small tables, since the model is slow, at times damaged; p, K and c at times far out of range."""
    play = Play(rng.randbytes(SIZE), b'')
    for _ in range(3):
        data, quota = choices.table_for(rng)
        p = rng.choice([1, 2, 2, 3, 4, 16])
        c = mostly(rng, rng.choice([1, 1, 2, p, rng.randint(1, p)]), 0, p + 1, 256 + p, 65536 + p, *FAR)
        play.change_table(damaged(rng, data) if rng.random() < 0.1 else data)
        play.limit(mostly(rng, p, 0, *FAR, 256 + p), mostly(rng, quota, 2**24, 2**24 + 1, 2**32 - 1), c, rng.choice([0, 40, 300, 1000, 36868, 36868]))
    return play


# ---- what is compared

NUMBERS = {'begin': [*range(12), 20, 21, 44], 'open': [0, 32], 'turn': [0, 30, 31, 32, 49], 'list': [0, 30, 32, 49],
           'limit': [*range(12), 20, 21, 44, 49, lent.NO_ROOM]}
WANTED = ['%s %d' % (name, x) for name, numbers in NUMBERS.items() for x in numbers] + [*lent.SAID.values(), 'turns', *lent_deques.MISFITS]
WANTED += ['list %s' % what for what in (*lent.RUN_SAID.values(), 'with turns', 'without', 'of an odd length', 'turns', *lent_deques.MISFITS)]
COMMON = [clause.__name__ for clause in machine.CLAUSES if clause.__name__ not in deques.NOT_OF_DEQUES]
# a deque with neither owner nor thread has no line: no memory breaks owner_or_thread
CLAUSES = ['length', 'table', 'settings', *COMMON, 'each_thread_one', 'owners_right', 'links_describe', 'truth values', 'truth values alone']
WANTED += ['open %s' % what for what in ('sound', 'blank', 'as it was', 'mended', *CLAUSES)]
WANTED += ['limit filled out', 'steal', 'no deque there', 'two deques and more', 'a deque of three and more', 'lines in any order: sound']
WANTED += [name + ': refused' for name in ('a thread less', 'no thread', 'a thread too many', 'lines in a circle', 'all in one line', 'the last line without a bottom',
                                           'a held thread inside a line', 'bottoms in another order', 'a bottom less', 'lines, a link to the left', 'lines, a link to the right',
                                           'lines, another leftmost', 'bottoms, a link to the left', 'bottoms, a link to the right', 'bottoms, another leftmost')]


def parts(rng, count):
    """Runs of each kind."""
    whole = [E, b'', bytes(100000)]
    return (
        ('sound', (make(rng) for make in [worked])),
        ('sound', (sound_run(rng) for _ in range(count))),
        ('sound', (drawn_lists(rng) for _ in range(count // 2))),
        ('damaged', (blank_run(rng, data) for data in whole)),
        ('damaged', (shaped_run(rng) for _ in range(count // 4))),
        ('damaged', (opened_run(rng) for _ in range(count // 2))),
        ('damaged', (damaged_run(rng) for _ in range(count))),
        ('random', (random_run(rng) for _ in range(count))),
        ('limits', (limit_figures(rng) for _ in range(1))),
        ('limits', (drawn_limits(rng) for _ in range(count // 4))),
    )


def compare_part(path, seed, count, i):
    program, reached = board_runs.Program(path), collections.Counter()
    kind, plays = parts(random.Random(seed + i), count)[i]
    for play in plays:
        program.compare(play)
        reached.update(play.reached)
        reached['runs'] += 1
    return kind, reached, program.close()


def header_is_source():
    single, others = (board.exported(crate, {**board.BYTES, 'order': 'order_length'}) for crate in CRATES[:2])
    assert list(single) == ['wivakkol_deque_turn_on'] and not set(single) & set(others)
    source = {**single, **others}
    text = board.header('wivakkol.h', 'wivakkol_deques.h')
    board.same_prototypes({name: said for name, said in board.prototypes_of(text).items() if name.startswith('wivakkol_deque_')}, source)
    for name in ('turn', 'list', 'open'):
        board.run_call_hands_over(text, 'deque_' + name, source['wivakkol_deque_%s_on' % name], name != 'open')
    board.table_calls_hand_over(text, ['wivakkol_deque_limit'], 'limit_work', source)
    assert len(source) == 4


def main():
    count = int(sys.argv[1]) if len(sys.argv) > 1 else 1000
    for crate, archive in zip(CRATES, ARCHIVES):
        if not os.path.exists(archive):
            sys.exit('%s is not there: run `python3 tools/dist.py archive %s` first' % (archive, crate))
    header_is_source()
    board.header_for_cpp('wivakkol_deques.h')
    path = board.build('tests/deques_calls.c', 'deques_test', ARCHIVES)
    kinds, most = {}, [0] * len(STACK_MOST)
    with concurrent.futures.ProcessPoolExecutor() as pool:
        for kind, reached, stacks in pool.map(functools.partial(compare_part, path, 13, count), range(len(parts(None, count)))):
            kinds.setdefault(kind, collections.Counter()).update(reached)
            most = list(map(max, stacks, most))
    reached = sum(kinds.values(), collections.Counter())
    missing = [name for name in WANTED if not reached[name]]
    assert count < 1000 or not missing, missing
    for name, numbers in NUMBERS.items():
        given = {x: n for x in range(100) if (n := reached['%s %d' % (name, x)])}
        assert set(given) <= set(numbers), (name, given)
        print('%s: %d agree (by number: %s)' % (name, sum(given.values()), ', '.join('%d: %d' % pair for pair in given.items())))
    print('runs: %s; steals %d, turns with a choice that has no deque %d' % (', '.join('%s %d' % (kind, told['runs']) for kind, told in kinds.items()), reached['steal'], reached['no deque there']))
    print('most stack: %s' % ', '.join('%s %d' % pair for pair in zip(STACK_MOST, most)))
    assert all(x < limit for x, limit in zip(most, STACK_MOST.values())), 'a call took more stack than the header says'


if __name__ == '__main__':
    main()
