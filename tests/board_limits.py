"""wivakkol_limit and wivakkol_fit against limits.py and fitting.py, for board.py."""
import collections
import random
import subprocess
import sys
import zlib

import filling
import fitting
import limits
from peaks import bench, example
from quota import bound
from reference import END, check
from tables import damaged, drawn, table

import stack  # of bench/, which peaks puts on the path

# what each call can return
NUMBERS = {'wivakkol_limit': set(range(12)) | {20, 21, 41, 44, 61}, 'wivakkol_fit': set(range(12)) | {20, 41}}
PAINT = b'\xa5'
CLEARED = [0] * 6  # every field of the working memory


def drawn_case(rng, given):
    """A case of board.py with a room for the filled-out table; mostly with a small table of its own, since the models are slow, and with memory near its limits."""
    if rng.random() < 0.25 and len(given.data) < 1000:
        data, p, b, memory, quota = given
    else:
        threads, largest = rng.randint(1, 14), rng.choice([[2, 6], [9], [4, 40], [9000000]])
        data = drawn(rng, threads, rng.randint(threads, 6 * threads + 20), largest)
        p, b = rng.choice([1, 2, 2, 3, 4, 16]), rng.choice([0, 0, 1, 1, 3, 65535])
        quota = rng.choice([1, 3, max(largest), 2 * max(largest)])
        memory = max(0, bound(check(data), p, b, rng.randint(1, 60)) + rng.randint(-2, 1))
        data = damaged(rng, data) if rng.random() < 0.1 else data
    return data, p, b, memory, quota, rng.choice([0, 40, 300, 1000, 36868, 36868])


def refused():
    """Tables to which each of the table's own checks applies: none, E with a byte changed, and one with a thread that nothing forks."""
    e = example('e.text')
    return [b'', *(e[:at] + bytes([x]) + e[at + 1:] for at, x in ((0, 0), (0, 4), (8, 6), (16, 6), (17, 3), (40, 0), (21, 1), (25, 1), (45, 7))), table([(END, 0)], [(END, 0)])]


def cases(rng, given, count):
    """Each number, too little room by one byte, the examples, the most deeply nested and the widest table, a tree of 1,024 threads, and drawn ones."""
    e, tree = example('e.text'), example('tree.text')
    fixed = [(data, 17, 65536, 0, 0, 0) for data in refused()]
    fixed += [(e, 17, 65536, 0, 0, 0), (e, 2, 65536, 0, 0, 0), (e, 2, 65535, 0, 0, 0)]
    fixed += [(e, 2, 1, 55, 6, 0), (e, 2, 1, 11, 5, 36868), (e, 2, 1, 11, 5, 175), (e, 2, 1, 11, 5, 176), (tree, 4, 0, 440, 12, 0), (tree, 4, 0, 439, 12, 0)]
    fixed += [(stack.nested(), 16, 1, 10, 5, 0), (stack.fan(), 16, 1, 10, 5, 0), (bench.tree(), 16, 1, 27240, 218, 0)]
    return fixed + [drawn_case(rng, rng.choice(given)) for _ in range(count - len(fixed))]


def in_room(said, data, quota, room):
    """What a limit's call says with so much room for the filled-out table, and what it leaves there, which held the paint."""
    buffer = PAINT * room
    if said[0] != 'refused':
        runs = filling.filled(data, quota)
        if runs != data and len(runs) > room:
            said = 'refused', 61, 0
        elif runs != data:
            buffer = runs + buffer[len(runs):]
    return said, buffer


def limit_row(data, p, b, quota, room):
    """Number, row, what is left of the working memory, and the checksum of the room."""
    said, buffer = in_room(limits.said(data, p, quota, b), data, quota, room)
    return ([said[1], said[2], 0, 0, 0, 0, 0] if said[0] == 'refused' else [0, 0, *said]) + CLEARED + [zlib.crc32(buffer)]


def fit_row(data, p, b, memory):
    said = fitting.fitted(data, p, b, memory)
    if said[0] == 'refused':
        return [said[1], said[2], 0, 0, 0] + CLEARED
    return ([0, 0, 1, said[1], said[3]] if said[0] == 'quota' else [0, 0, 0, said[4], said[2]]) + CLEARED


def packed(case):
    data, *numbers = case
    return b''.join(x.to_bytes(k, 'little') for x, k in zip((len(data), *numbers), (4, 4, 4, 8, 4, 4))) + data


def compare(program, given, count):
    """Prints how often each number was given by each call; the most stack of each."""
    asked = cases(random.Random(38), given, max(count // 2, 6))
    done = subprocess.run([program, 'limits'], input=b''.join(map(packed, asked)), stdout=subprocess.PIPE, check=True)
    *lines, last = done.stdout.decode().splitlines()
    assert len(lines) == len(asked), '%d answers to %d cases' % (len(lines), len(asked))
    counters = [collections.Counter() for _ in NUMBERS]
    for line, (data, p, b, memory, quota, room) in zip(lines, asked):
        wanted = [limit_row(data, p, b, quota, room), fit_row(data, p, b, memory)]
        if list(map(int, line.split())) != sum(wanted, []):
            sys.exit('p %d b %d M %d K %d room %d, table %s\n  given    %s\n  expected %s' % (p, b, memory, quota, room, data.hex(), line, sum(wanted, [])))
        for counter, answer in zip(counters, wanted):
            counter[answer[0]] += 1
    for name, counter in zip(NUMBERS, counters):
        assert set(counter) == NUMBERS[name] or count < 1000, '%s: not every number was reached, %s' % (name, sorted(counter))
        print('%s: %d of %d agree (by number: %s)' % (name, sum(counter.values()), len(asked), ', '.join('%d: %d' % pair for pair in sorted(counter.items()))))
    return list(map(int, last.split()[1:]))
