"""Runs in lent memory, for tests/board.py: steps drawn for tests/board.c, with what lent.py says that each call answers and leaves."""
import collections
import concurrent.futures
import functools
import random
import subprocess
import sys

import chart
import lent
import machine
from differential import LARGEST, beginning, mostly, order, run_table, tablecheck_input
from lent import BLOCKS, COUNTS, FIELDS, MISFITS, OFFSETS, SIZE
from machine import NO_THREAD, THREADS, WAITING, WORKERS
from reference import Table
from tables import damaged

FAR = [WORKERS, WORKERS + 1, 255, 256, 257, 65536, 2**31, 2**32 - 1]  # workers and numbers of workers out of range; the low bytes of some are in it
LIST_FAR = [WORKERS, WORKERS + 1, 128, 255]
BESIDE = ['parents', 'under', 'over']  # what stands beside a record, with the head of the second list
PAINT = b'\xa5'
PAINTED = PAINT * (chart.WIDTH + 1)  # the lent line before a call
BITS = {name: bits for name, bits, _ in FIELDS}


def word(x, size=4):
    return x.to_bytes(size, 'little')


class Play:
    """Steps on a run's memory for the test program, taken by the model at once, and the answers expected."""
    model = lent.Lent

    def __init__(self, memory, data):
        self.steps, self.answers, self.reached = bytearray(), [], collections.Counter()
        self.memory = lent.Memory(memory)
        self.add(b'm', word(0), word(SIZE), memory)
        self.change_table(data)

    def add(self, *parts):
        self.steps += b''.join(parts)

    def change_table(self, data):
        self.data, self.run = data, self.model(self.memory, data)
        self.add(b't', word(len(data)), data)

    def put(self, name, i, x):
        getattr(self.memory, name)[i] = x
        size = BITS[name] // 8
        self.add(b'm', word(OFFSETS[name] + i * size), word(size), word(x, size))

    def begin(self, p, quota, room=None):
        """In the room that the filled-out table needs, if no other is named. Where the table is filled out, what follows is given the filled-out one."""
        buffer = bytearray(PAINT * (machine.BYTES if room is None else room))
        number, row = self.run.begin(p, quota, buffer)
        self.data, room = self.run.data, row[1] if room is None else room
        buffer = buffer[:room]
        self.add(b'b', word(p), word(quota), word(room))
        self.reached['begin ' + ('filled out' if row[1] else 'in place')] += number == 0
        self.reached['begin filled out exactly'] += number == 0 and 0 < row[1] == room
        self.answered('begin', number, row, bytes(buffer))
        return number, row

    def open(self):
        self.add(b'o')
        before, answer = bytes(self.memory.bytes), self.run.open()
        if answer[0] == 0:
            self.reached['open ' + ('blank' if self.memory.settings[lent.P] == 0 else 'sound')] += 1
            self.reached['open ' + ('as it was' if before == self.memory.bytes else 'mended')] += 1
        return self.answered('open', *answer)

    def turn(self, w):
        """A preview, which shows the turn, and the turn."""
        self.add(b'v', word(w), b'w', word(w))
        number, row = self.run.turn(w)
        self.answered('preview', *self.run.shown(w, number, row))
        self.answered('turn', number, row)
        if number == 0:
            self.reached[lent.SAID[row[1]]] += 1
        return number, row

    def preview(self, w):
        self.add(b'v', word(w))
        return self.answered('preview', *self.run.preview(w))

    def chart(self):
        self.add(b'c')
        return self.answered('chart', *self.run.chart(PAINTED))

    def list(self, order):
        self.add(b'l', word(len(order)), order)
        return self.run_answered('list', *self.run.run_list(order))

    def rounds(self, limit):
        self.add(b'r', word(limit))
        return self.run_answered('rounds', *self.run.run_rounds(limit))

    def run_answered(self, call, number, row):
        self.answered(call, number, row)
        if number == 0:
            self.reached['%s %s' % (call, lent.RUN_SAID[row[1]])] += 1
        self.reached['%s %s' % (call, 'with turns' if row[2] else 'without')] += 1
        return number, row

    def answered(self, call, number, given, room=b''):
        """The number, the row or the line, the room for a filled-out table, the working memory, and the run's memory, or that it is as it was."""
        self.reached['%s %d' % (call, number)] += 1
        if number == 32:
            self.reached.update(('' if call == 'turn' else call + ' ') + why for why in self.reasons(call))
        line = given if call == 'chart' else b''.join(word(x, 8) for x in given)
        left = bytes(name not in lent.CLEARED[call] for name in lent.WORK_FIELDS) if call in lent.CLEARED else b''
        self.answers.append(word(number) + line + room + left + (b'\1' if call in ('preview', 'chart') else bytes(self.memory.bytes)))
        return number, given

    def reasons(self, call):
        if call in ('open', 'chart'):
            return self.run.broken + (['truth values alone'] if self.run.broken == ['truth values'] else [])
        return ['turns' if self.memory.totals[lent.TURNS] == machine.LAST_TURN else self.run.misfit]


# ---- sound runs, held against machine.py as well

def same_as_machine(memory, run):
    """All that the two layouts share is the same, and the rest follows from it."""
    for name in ('next', 'status', 'amounts', 'left', 'right'):
        assert getattr(memory, name).tolist() == getattr(run, name), name
    assert memory.totals.tolist() == [run.held, run.highest, run.turns]
    assert memory.settings.tolist() == [run.p, run.quota]
    assert (memory.heads[lent.LEFTMOST], memory.heads[lent.BUSY]) == (run.leftmost, run.busy)
    workers = zip(memory.holds, memory.threads, memory.quotas)
    assert [(holds != 0, thread, quota) for holds, thread, quota in workers] == [(w.holds, w.thread, w.quota) for w in run.worker]
    assert set(memory.holds) <= {0, 1}


def sound_turn(play, taking, w):
    """A turn of both models: reply, number passed over, the list, and the second list, which is the list without the threads that wait."""
    run = taking.run
    number, row = play.turn(w)
    if w >= run.p or taking.ended():
        assert number == (30 if w >= run.p else 31)
        return
    places = [i for i, t in enumerate(taking.threads) if run.status[t] == machine.READY]
    passed = places[0] if places and not run.worker[w].holds else 0
    reply = taking.take(w)
    assert number == 0 and [lent.SAID[row[1]], *row[2:4], row[4]] == [*reply, *[0] * (3 - len(reply)), passed], (number, row, reply, passed)
    threads = list(taking.threads)
    assert play.run.list.threads() == threads
    assert play.run.second.threads() == [t for t in threads if run.status[t] != WAITING]


def spoil(rng, play):
    """Other numbers beside the record: some, or all."""
    memory = play.memory
    if rng.random() < 0.3:
        for name in BESIDE:
            size = getattr(memory, name).nbytes
            noise = rng.randbytes(size)
            play.add(b'm', word(OFFSETS[name]), word(size), noise)
            memory.bytes[OFFSETS[name]:OFFSETS[name] + size] = noise
    for _ in range(rng.randint(0, 4)):
        play.put(rng.choice(BESIDE), rng.randrange(THREADS), any_number(rng, memory, THREADS))
    if rng.random() < 0.5:
        play.put('heads', lent.FIRST, any_number(rng, memory, THREADS))


def look(rng, play, run):
    """Opening in the middle of a sound run leaves its memory as it was, also where what stands beside the record was not; and the run's line."""
    before = bytes(play.memory.bytes)
    spoil(rng, play)
    assert play.open() == (0, [0]) and play.memory.bytes == before
    assert play.chart() == (0, (chart.text(run) + '\n').encode())


def refused_beginning(rng, play):
    """The memory is all 0, and every turn is refused. Opening makes it so again, and it has a line."""
    assert not any(play.memory.bytes[:lent.USED])
    look(rng, play, machine.Run())
    for w in (0, 1, *FAR):
        assert play.turn(w)[0] == 30
    return play


def sound_run(rng, data, p, quota, workers):
    """From any bytes in memory: a beginning, and turns also of workers that are not there; now and then it is opened."""
    play = Play(rng.randbytes(SIZE), data)
    answer, run = machine.begin(data, p, quota)
    size = run.length if answer == 'begun' and run.length != len(data) else 0
    room = max(0, rng.choice([size, size, size + 1, size + rng.randint(0, 99), size - 1, 0, machine.BYTES])) if size else rng.choice([0, 1, rng.randint(0, 99)])
    number, row = play.begin(p, quota, room)
    refusal = answer[1:] if answer != 'begun' else (lent.NO_ROOM, 0) if room < size else (0, 0)
    assert (number, row) == (refusal[0], [refusal[1], size])
    if number != 0:
        return refused_beginning(rng, play)
    assert machine.sound(run)
    taking = machine.Machine(run)
    same_as_machine(play.memory, taking.record())
    after_end = 0
    for w in workers:
        if rng.random() < 0.005:
            look(rng, play, taking.record())
        sound_turn(play, taking, w)
        after_end += taking.ended()
        if after_end > 4:
            break
    same_as_machine(play.memory, taking.record())
    if rng.random() < 0.2:
        look(rng, play, taking.record())
    return play


def tested(play, run):
    """Check 32 and the line are those of the record by value."""
    line = chart.line(run)
    number, text = (line[1], PAINTED) if line[0] == 'refused' else (0, (line + '\n').encode())
    assert play.chart() == (number, text), (number, text)
    before = bytes(play.memory.bytes)
    assert play.open() == (32 if number == 32 else 0, [0]) and play.memory.bytes == before


def reported(report):
    """The report of machine.py's runs as number and row."""
    if report[0] == 'refused':
        _, turns, number, place = report
        return number, [place, 0, turns]
    return 0, [0, {said: code for code, said in lent.RUN_SAID.items()}[report[0]], report[1]]


def drawn_calls(rng):
    """A beginning, and runs over a list and in rounds by turns, now and then when nearly all turns are taken; two of them at most after the root's end."""
    data, most = run_table(rng)
    p, front = beginning(rng, most)
    quota = int.from_bytes(front[1:], 'little')
    if rng.random() < 0.1:
        data = damaged(rng, data)
    play = Play(rng.randbytes(SIZE), data)
    number, _ = play.begin(p, quota)
    _, run = machine.begin(data, p, quota)
    after_end = 0
    for i in range(rng.randint(2, 6)):
        after_end += number != 0 or run.status[0] == machine.ENDED
        if after_end > 2:
            break
        if number == 0 and rng.random() < 0.06:
            run.turns = machine.LAST_TURN - rng.choice([0, 1, 2, rng.randint(0, 50)])
            play.put('totals', lent.TURNS, run.turns)
        if number == 0 and rng.random() < 0.03:
            run.turns = chart.MOST_TURNS - rng.randint(0, 9)
            play.put('totals', lent.TURNS, run.turns)
            tested(play, run)
        if rng.random() < 0.5:
            workers = bytes(mostly(rng, w, *LIST_FAR) if rng.random() < 0.1 else w for w in order(rng, p, Table(data).m if number == 0 else 3))
            report, run = machine.run_list(run, workers)
            given = play.list(workers)
        else:
            limit = rng.choice([0, 1, rng.randint(0, 40), 10000, 2**32 - 1 if i > 1 else 5])
            report, run = machine.run_rounds(run, limit)
            given = play.rounds(limit)
        assert given == reported(report), (given, report)
        if number == 0:
            same_as_machine(play.memory, run)
        if rng.random() < 0.05 or run.turns > chart.MOST_TURNS and rng.random() < 0.5:
            tested(play, run)
    return play


def drawn_run(rng):
    data, most = run_table(rng)
    p, front = beginning(rng, most)
    quota = int.from_bytes(front[1:], 'little')
    workers = [mostly(rng, w, p, *FAR, 256 + w, 65536 + w) if rng.random() < 0.2 else w for w in order(rng, p, Table(data).m)]
    p, quota = mostly(rng, p, *FAR, 256 + p), mostly(rng, quota, LARGEST + 1, 2**24 + quota, 2**32 - 1)
    if rng.random() < 0.15:
        data = rng.choice([tablecheck_input(rng), damaged(rng, data)])
    return sound_run(rng, data, p, quota, workers)


# ---- records that opening tests

def made_up():
    """E with a record that no run of one worker has: it holds 12, and the limit is 6. Opening takes it, and the turns are document 01's."""
    with open('examples/e.table', 'rb') as f:
        data = f.read()
    run = machine.begin(data, 1, 6)[1]
    run.next[:3], run.status[:3] = [2, 6, 10], [machine.READY] * 3
    run.left, run.right, run.leftmost = machine.described([1, 2, 0])
    run.amounts[1] = run.amounts[2] = 6
    run.held = run.highest = 12
    play = Play(bytes(SIZE), data)
    put_record(play, run)
    assert machine.sound(run) and play.open() == (0, [0])
    taking = machine.Machine(run)
    while not taking.ended():
        sound_turn(play, taking, 0)
    assert play.memory.totals.tolist() == [0, 12, taking.run.turns]
    return play


def put_record(play, run):
    """The record stands in the memory, with other numbers beside it."""
    memory = play.memory
    memory.fill(parents=7, under=2, over=NO_THREAD)
    for name in ('next', 'status', 'amounts', 'left', 'right'):
        for t, x in enumerate(getattr(run, name)):
            getattr(memory, name)[t] = x
    memory.settings[lent.P], memory.settings[lent.K] = run.p, run.quota
    memory.heads[lent.LEFTMOST], memory.heads[lent.FIRST], memory.heads[lent.BUSY] = run.leftmost, 5, run.busy
    for i, x in enumerate((run.held, run.highest, run.turns)):
        memory.totals[i] = x
    for w, worker in enumerate(run.worker):
        memory.holds[w], memory.threads[w], memory.quotas[w] = worker.holds, worker.thread, worker.quota
    play.add(b'm', word(0), word(SIZE), bytes(memory.bytes))


def blank_run(rng, data):
    """The blank record is opened whatever the table, and is no longer blank if one number of it is another."""
    play = Play(bytes(SIZE), data)
    for name, _, count in FIELDS:
        spoil(rng, play)
        assert play.open() == (0, [0])
        refused_beginning(rng, play)
        i = lent.BUSY if name == 'heads' else rng.randrange(count)
        if name not in BESIDE:
            play.put(name, i, 1)
            assert play.open()[0] == play.chart()[0] == 32
            play.put(name, i, 0)
    return play


def restore(play, before):
    play.add(b'm', word(0), word(SIZE), before)
    play.memory.bytes[:] = before


def quiet(rng, play, w):
    """One number that no turn tests becomes another: a truth value, an amount, a left neighbour, what an idle worker has left, the most held, a parent."""
    memory = play.memory
    t = rng.choice([some_thread(rng, memory, THREADS), THREADS - 1])
    holders = [w for w in range(WORKERS) if memory.holds[w]] or [w]
    play.put(*rng.choice([('holds', rng.choice(holders), rng.choice([2, 255])), ('amounts', t, memory.amounts[t] + 1), ('left', t, rng.randrange(THREADS)), ('quotas', w, 1),
                          ('totals', lent.HIGHEST, rng.choice([0, 2**64 - 1])), ('parents', t, any_number(rng, memory, THREADS))]))


def begun_run(rng, kind, model):
    """A run that has begun: its steps, p, and the machine of the model."""
    data, most = run_table(rng)
    play, p = kind(rng.randbytes(SIZE), data), rng.choice([1, 2, 3, 4, 16])
    quota = min(LARGEST, rng.choice([most, most + 1, LARGEST, max(1, most // 2)]))
    if play.begin(p, quota)[0] != 0:
        quota = most
        play.begin(p, quota)
    return play, p, model.Machine(model.begin(data, p, quota)[1])


def as_before(rng, play, before):
    """The memory is as before, and at times opened with another table too."""
    restore(play, before)
    if rng.random() < 0.1:
        data = play.data
        play.change_table(rng.choice([damaged(rng, data), data + bytes(machine.BYTES)]))
        play.open()
        restore(play, before)
        play.change_table(data)


def opened_run(rng):
    """Somewhere in a run, one number at a time becomes another, mostly one that turns would not notice, and the run is opened. Where the record is still sound, its turns are machine.py's.
    Then all is as before, is opened with another table too, and goes on."""
    play, p, taking = begun_run(rng, Play, machine)
    data = play.data
    for _ in range(rng.randint(1, 4)):
        for _ in range(rng.randint(0, 20)):
            sound_turn(play, taking, rng.randrange(p))
        before = bytes(play.memory.bytes)
        rng.choice([quiet, damage])(rng, play, rng.randrange(p + 1) % WORKERS)
        if rng.choice([play.open, play.open, play.chart])()[0] == 0 and play.open()[0] == 0:
            other = machine.Machine(play.run.record(data))
            for _ in range(min(3, machine.LAST_TURN - other.run.turns)):
                sound_turn(play, other, rng.randrange(other.run.p))
        as_before(rng, play, before)
    assert play.open() == (0, [0]) and play.memory.bytes == before
    return play


# ---- damaged memory

def near(rng, most):
    """A number at one of the ends of its range, or about the size of what tables allocate."""
    return rng.choice([0, 1, rng.randint(0, 20), rng.randint(0, most), most, most - 1, most - rng.randint(0, 20)])


def some_thread(rng, memory, n):
    """Mostly one that turns come upon: one that is held, or near the front of a list, or its neighbour, or its parent."""
    t = rng.choice([rng.choice(memory.threads), rng.choice(memory.heads[:2]), rng.randrange(n), rng.randrange(THREADS)])
    for _ in range(rng.choice([0, 0, 1, 2])):
        t = lent.read(rng.choice([memory.left, memory.right, memory.under, memory.over, memory.parents]), t)
    return t if t < THREADS else rng.randrange(n)


def any_number(rng, memory, n):
    """What stands in place of a thread's number."""
    return rng.choice([some_thread(rng, memory, n), some_thread(rng, memory, n), rng.randrange(n), 1023, 1024, 1025, 65535, rng.randrange(65536)])


def damage(rng, play, w):
    """One number of the memory becomes another, most often one that a turn of worker w looks at."""
    memory = play.memory
    n = max(1, min(THREADS, len(play.data) // 8))
    t = some_thread(rng, memory, n)
    field = rng.choice([name for name, _, _ in FIELDS])
    if field == 'amounts':
        play.put(field, t, near(rng, 2**64 - 1))
    elif field == 'totals':
        i = rng.randrange(3)
        play.put(field, i, rng.choice([2**64 - 1, 2**64 - 2, 2**64 - 3, 0]) if i == lent.TURNS else near(rng, 2**64 - 1))
    elif field == 'settings':
        i = rng.randrange(2)
        play.put(field, i, near(rng, 2**32 - 1) if i == lent.K else rng.choice([0, 1, 2, 16, 16, 16, 17, 200, 2**32 - 1]))
    elif field == 'quotas':
        play.put(field, w, near(rng, 2**32 - 1))
    elif field == 'next':
        m = min(65535, len(play.data) // 4 + 1)
        play.put(field, t, rng.choice([rng.randrange(m), rng.randrange(m), m, 65534, 65535, rng.randrange(65536)]))
    elif field == 'threads':
        play.put(field, w, any_number(rng, memory, n))
    elif field == 'heads':
        i = rng.randrange(3)
        play.put(field, i, rng.choice([0, 65535, rng.randrange(65536)]) if i == lent.BUSY else any_number(rng, memory, n))
    elif field == 'status':
        play.put(field, t, rng.choice([0, 1, 1, 2, 3, 3, 4, 5, 255]))
    elif field == 'holds':
        play.put(field, w, rng.choice([0, 0, 1, 1, 2, 255]))
    else:  # parents and links
        play.put(field, t, any_number(rng, memory, n))


def unstick(rng, play):
    """Mostly undoes what would have every further turn refused."""
    memory = play.memory
    if memory.totals[lent.TURNS] == machine.LAST_TURN and rng.random() < 0.8:
        play.put('totals', lent.TURNS, rng.randrange(1000))
    if memory.status[0] == machine.ENDED and rng.random() < 0.8:
        play.put('status', 0, machine.READY)
    if memory.settings[lent.P] == 0:
        play.put('settings', lent.P, rng.randint(1, WORKERS))


def some_worker(rng, memory):
    p = memory.settings[lent.P]
    return mostly(rng, rng.randrange(max(1, min(p, WORKERS))), *FAR, p % 2**32, rng.randrange(WORKERS))


def call(rng, play, w):
    """A turn of worker w, or a few over a list that starts with it, or in rounds; or a call that takes none."""
    manner = rng.random()
    if manner < 0.07:
        rng.choice([play.open, play.chart, lambda: play.preview(w)])()
    elif manner < 0.6:
        play.turn(w)
    elif manner < 0.8:
        workers = [w, *(some_worker(rng, play.memory) for _ in range(rng.choice([0, 3, 20])))]
        play.list(bytes(min(w, 255) for w in workers[:rng.choice([0, 1, 99, 99, 99])]))
    else:
        play.rounds(rng.choice([0, 1, 2, w % 256 + 1, w % 256 + 1, 40]))


def sure_end(rng, play):
    """Rounds that end however large the limit: at the turns' end, without workers, or at the seventeenth."""
    name, i, x = rng.choice([('totals', lent.TURNS, machine.LAST_TURN - rng.randint(0, 30)), ('settings', lent.P, 0), ('settings', lent.P, rng.choice(FAR[1:]))])
    play.put(name, i, x)
    play.rounds(rng.choice([2**32 - 1, 2**31, 65536]))


def idle_run():
    """More turns in one call than 16 bits count, all of them idle: no thread is in the lists."""
    play = Play(bytes(SIZE), b'')
    play.put('settings', lent.P, 3)
    for head in (lent.LEFTMOST, lent.FIRST):
        play.put('heads', head, NO_THREAD)
    assert play.list(bytes(i % 3 for i in range(70000))) == (0, [0, lent.SPENT, 70000])
    assert play.list(bytes(66000) + b'\3') == (30, [0, 0, 66000])
    assert play.rounds(70000) == (0, [0, lent.SPENT, 70000])
    return play


def damaged_run(rng):
    """From somewhere in a run, or a table refused: damage and calls by turns; now and then another table, or a new beginning."""
    data, most = run_table(rng)
    play = Play(rng.randbytes(SIZE), data)
    p = rng.choice([1, 2, 3, 4, 16])
    play.begin(p, min(LARGEST, rng.choice([most, most + 1, LARGEST])))
    for _ in range(rng.randint(0, min(60, 2 * Table(data).m))):
        play.turn(rng.randrange(p))
    for _ in range(rng.randint(1, 12)):
        if rng.random() < 0.06:
            play.change_table(rng.choice([damaged(rng, data), damaged(rng, data), random_table(rng), data, b'', rng.randbytes(rng.randint(0, 300))]))
        if rng.random() < 0.02:
            play.begin(p, LARGEST)
        unstick(rng, play)
        w = some_worker(rng, play.memory)
        for _ in range(rng.choice([1, 1, 1, 2, 4])):
            damage(rng, play, w % WORKERS)
        for w in (w, *(some_worker(rng, play.memory) for _ in range(rng.randint(0, 3)))):
            call(rng, play, w)
    if rng.random() < 0.2:
        sure_end(rng, play)
    return play


def random_table(rng):
    """Actions of all kinds and of none. Now and then there is one of any number that has 16 bits, or the threads are more than any table's."""
    number, long = rng.choice([1, 10, 100, 100, 700]), rng.random() < 0.25
    arguments = [0, 1, 2, 1023, 1024, 1025, 65536, 2**24 - 1]
    bodies = b''.join(bytes([rng.randrange(7)]) + mostly(rng, rng.randrange(40), *arguments).to_bytes(3, 'little') for _ in range(number))
    threads = rng.choice([1023, 1024, 1025, 2000, 65535]) if long and rng.random() < 0.5 else rng.randrange(20)
    return word(threads, 2) + rng.randbytes(2) + bodies * ((65536 + 2000) // number if long else 1)


def likely(rng, play):
    """Numbers that are mostly about the size of what belongs there."""
    memory, threads = play.memory, rng.choice([3, 12, 40, THREADS, THREADS + 1])
    for i in range(THREADS):
        for field in (memory.parents, memory.left, memory.right, memory.under, memory.over):
            field[i] = mostly(rng, rng.randrange(threads), NO_THREAD, 65535)
        memory.status[i] = rng.choice([0, 1, 2, 3, 3, 4, 7])
        memory.next[i] = mostly(rng, rng.randrange(min(65536, len(play.data) // 4 + 1)), 65534, 65535, *[65535] * 9)
    for w in range(WORKERS):
        memory.threads[w] = mostly(rng, rng.randrange(min(threads, THREADS)), NO_THREAD, 65535)
        memory.holds[w] = rng.choice([0, 0, 1, 2, 255])
    memory.heads[lent.LEFTMOST], memory.heads[lent.FIRST] = rng.randrange(threads), rng.randrange(threads)
    memory.status[0] = rng.randrange(4)


def one_chain(rng, play):
    """All threads in one row, or round, and those ready far behind, or none: the longest searches."""
    memory = play.memory
    for t in range(THREADS):
        memory.status[t] = rng.choice([machine.UNBORN, machine.HELD, WAITING])
    for after, head in (memory.right, lent.LEFTMOST), (memory.over, lent.FIRST):
        row = rng.sample(range(THREADS), THREADS)
        for t, u in zip(row, row[1:] + [rng.choice([NO_THREAD, row[0], row[5]])]):
            after[t] = u
        memory.heads[head] = row[0]
        for t in rng.sample(row[-5:], rng.choice([0, 1, 1, 2])):
            memory.status[t] = machine.READY
    for w in range(WORKERS):
        memory.holds[w] = rng.choice([0, 0, 0, 1])


def random_run(rng):
    """Any bytes as memory, or some of the numbers drawn more closely."""
    data = rng.choice([run_table(rng)[0], damaged(rng, run_table(rng)[0]), random_table(rng), random_table(rng), rng.randbytes(rng.choice([0, 3, 50, 2000]))])
    play, manner = Play(rng.randbytes(SIZE), data), rng.random()
    if manner < 0.8:
        (likely if manner < 0.7 else one_chain)(rng, play)
        play.add(b'm', word(0), word(SIZE), bytes(play.memory.bytes))
    if rng.random() < 0.9:
        play.put('settings', lent.P, rng.choice([1, 16, 16, 200]))
    for _ in range(rng.randint(1, 20)):
        call(rng, play, some_worker(rng, play.memory))
    return play


# ---- the test program

class Program:
    """tests/board.c in its manner `runs`, or a program with such steps."""

    def __init__(self, *command):
        self.process = subprocess.Popen(command, stdin=subprocess.PIPE, stdout=subprocess.PIPE)
        _, size, *blocks = self.process.stdout.readline().decode().split()
        begins = {bits: min(OFFSETS[name] for name, other, _ in FIELDS if other == bits) for bits in BLOCKS}
        layout = [(block, begins[bits], bits // 8, COUNTS[block]) for bits, block in BLOCKS.items()]
        told = [(name, *map(int, rest)) for name, *rest in zip(*[iter(blocks)] * 4)]
        assert (int(size), told) == (SIZE, layout), 'the struct of the header is not that of lent.py: %s %s' % (size, told)

    def compare(self, play):
        self.process.stdin.write(word(len(play.steps)) + play.steps)
        self.process.stdin.flush()
        for i, expected in enumerate(play.answers):
            given = self.process.stdout.read(len(expected))
            if given != expected:
                self.tell(play, i, expected, given)

    def tell(self, play, i, expected, given):
        front = len(expected) - (SIZE if len(expected) > SIZE else 0)
        with open('target/c/different.run', 'wb') as f:
            f.write(play.steps)
        lines = ['answer %d of the steps in %s differs: number, row or line, and what is left of working memory' % (i, f.name)]
        lines += ['  expected %s' % expected[:front].hex(' ', 4), '  given    %s' % given[:front].hex(' ', 4)]
        if len(given) != len(expected):
            lines.append('the program has stopped')
        elif front < len(expected):
            lines += list(lent.differences(expected[front:], given[front:]))[:40]
        sys.exit('\n'.join(lines))

    def close(self):
        """The last line: the most stack of each of the calls."""
        self.process.stdin.close()
        last = self.process.stdout.read().decode().split()
        assert self.process.wait() == 0 and last[0] == 'stack'
        return list(map(int, last[1:]))


# what each call can return
NUMBERS = {'begin': [*range(12), 20, 21, 44, lent.NO_ROOM], 'open': [0, 32], 'turn': [0, 30, 31, 32], 'list': [0, 30, 32], 'rounds': [0, 30, 32], 'preview': [0, 30, 31, 32],
           'chart': [0, 32, 43]}
WANTED = ['%s %d' % (call, x) for call, numbers in NUMBERS.items() for x in numbers] + [*lent.SAID.values(), 'turns', *MISFITS]
WANTED += ['%s %s' % (call, what) for call in ('list', 'rounds') for what in (*lent.RUN_SAID.values(), 'with turns', 'without', 'turns', *MISFITS)]
WANTED += ['preview %s' % what for what in ('turns', *MISFITS)]
WANTED += ['begin %s' % what for what in ('in place', 'filled out', 'filled out exactly')]
CLAUSES = ['length', 'table', 'settings', *(clause.__name__ for clause in machine.CLAUSES), 'truth values', 'truth values alone']
WANTED += ['open %s' % what for what in ('sound', 'blank', 'as it was', 'mended')] + ['%s %s' % (call, what) for call in ('open', 'chart') for what in CLAUSES]


def parts(rng, whole, count):
    """Runs of each kind: `whole` are tables to run in rounds of 16 workers, besides `count` drawn ones of each kind, or half as many."""
    return (
        ('sound', (sound_run(rng, data, WORKERS, LARGEST, [i % WORKERS for i in range(300)]) for data in whole)),
        ('sound', (drawn_run(rng) for _ in range(count))),
        ('sound', (drawn_calls(rng) for _ in range(count // 2))),
        ('sound', (make() for make in [made_up])),
        ('damaged', (blank_run(rng, data) for data in (*whole, b'', bytes(100000)))),
        ('damaged', (opened_run(rng) for _ in range(count // 4))),
        ('damaged', (make() for make in [idle_run])),
        ('damaged', (damaged_run(rng) for _ in range(count))),
        ('random', (random_run(rng) for _ in range(count // 2))),
    )


def compare_part(path, seed, whole, count, i):
    """The kind of the runs of part i, how often each thing was reached in them, and the most stack."""
    program, reached = Program(path, 'runs'), collections.Counter()
    kind, plays = parts(random.Random(seed + i), whole, count)[i]
    for play in plays:
        program.compare(play)
        reached.update(play.reached)
        reached['runs'] += 1
    return kind, reached, program.close()


def compare(path, seed, whole, count):
    """How often each thing was reached, by the kind of case, and the most stack. The parts run beside each other."""
    kinds, most = {}, []
    with concurrent.futures.ProcessPoolExecutor() as pool:
        told = pool.map(functools.partial(compare_part, path, seed, whole, count), range(len(parts(None, whole, count))))
        for kind, reached, stacks in told:
            kinds.setdefault(kind, collections.Counter()).update(reached)
            most = list(map(max, stacks, most or stacks))
    return kinds, most
