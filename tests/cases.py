"""Writes the stored input and output of crates/table_cases: inputs of tablecheck, maxquota, maxturns, memlimit, fitquota and dequelimit with a label, and the answer expected of each.

A record of the input is the label's length (1 byte), the label, 't' for tablecheck, 'q' for maxquota, 'l' for maxturns, 'm' for memlimit, 'f' for fitquota or 'd' for dequelimit, the input's
length (3 bytes), the input. Every expected answer is written down here by hand, and held against reference.py, quota.py, most.py, limits.py, fitting.py or choices.py as well.
"""
import pathlib

from choices import dequelimit
from fitting import fitquota
from limits import memlimit
from most import asked, maxturns
from quota import board, maxquota
from reference import END, WORK, ALLOC, FREE, FORK, JOIN, check, facts_line
from tables import table, word

end, work = (END, 0), (WORK, 0)
LARGEST = 16777215
leaf = [end]
least = table(leaf)
head = lambda n, m: word(n) + word(m)
contents = lambda n, m, *entries: head(n, m) + b''.join(word(x) for e in entries for x in e)
fork, join, alloc, free = (lambda k: lambda x: (k, x))(FORK), lambda x: (JOIN, x), lambda x: (ALLOC, x), lambda x: (FREE, x)
parent = lambda *children: [fork(c) for c in children] + [join(c) for c in reversed(children)] + [end]
chain = [[fork(t + 1), join(t + 1), end] for t in range(1023)] + [leaf]
fan = [parent(*range(1, 1024))] + [leaf] * 1023

CASES = [
    ('no bytes', b'', 'refused 1 0'),
    ('three bytes', b'\1\0\1', 'refused 1 0'),
    ('n 0', head(0, 1), 'refused 2 0'),
    ('n 1,025', head(1025, 1), 'refused 2 0'),
    ('n 1,024 passes 2', head(1024, 1), 'refused 3 0'),
    ('m 0', head(1, 0), 'refused 2 0'),
    ('m 8,193', head(1, 8193), 'refused 2 0'),
    ('m 8,192 passes 2', head(1, 8192), 'refused 3 0'),
    ('a byte more', least + b'\0', 'refused 3 0'),
    ('a byte less', least[:-1], 'refused 3 0'),
    ('40,000 bytes more', least + bytes(40000), 'refused 3 0'),
    ('2 before 3', head(0, 1) + bytes(9), 'refused 2 0'),
    ('first entry begins at 1', contents(1, 1, (1, 1)) + bytes(4), 'refused 4 0'),
    ('first entry has no action', contents(2, 1, (0, 0), (0, 1)) + bytes(4), 'refused 4 0'),
    ('third entry begins late', contents(3, 3, (0, 1), (1, 1), (3, 1)) + bytes(12), 'refused 4 2'),
    ('second entry has no action', contents(2, 1, (0, 1), (1, 0)) + bytes(4), 'refused 4 1'),
    ('counts add up to less', contents(1, 2, (0, 1)) + bytes(8), 'refused 4 1'),
    ('counts add up to more', contents(3, 2, (0, 1), (1, 1), (2, 1)) + bytes(8), 'refused 4 3'),
    ('counts add up to m and 65,536', contents(2, 1, (0, 65535), (65535, 2)) + bytes(4), 'refused 4 2'),
    ('4 before 5', contents(1, 2, (0, 1)) + bytes([9] * 8), 'refused 4 1'),
    ('kind 6', table([(6, 0)]), 'refused 5 0'),
    ('kind 255 later', table([work, work, (255, 1), end]), 'refused 5 2'),
    ('end with an argument', table([(END, 1)]), 'refused 6 0'),
    ('work with an argument', table([work, (WORK, LARGEST), end]), 'refused 6 1'),
    ('alloc 0', table([alloc(0), end]), 'refused 6 0'),
    ('free 0', table([alloc(1), free(0), end]), 'refused 6 1'),
    ('fork of itself', table([fork(0), end]), 'refused 6 0'),
    ('fork of thread n', table([work, fork(2), join(2), end], leaf), 'refused 6 1'),
    ('fork of a lower thread', table(parent(1), [fork(1), end]), 'refused 6 3'),
    ('join of thread n', table([fork(1), join(2), end], leaf), 'refused 6 1'),
    ('join of itself', table([join(0), end]), 'refused 6 0'),
    ('end before the last', table([end, end]), 'refused 7 0'),
    ('last not an end', table(parent(1), [work]), 'refused 7 3'),
    ('last of a first body not an end', table([work], leaf), 'refused 7 0'),
    ('5 before 6', table([(7, LARGEST), end]), 'refused 5 0'),
    ('6 before 7', table([(WORK, 1)]), 'refused 6 0'),
    ('7 at a lower action than 5', table([end, (9, 0), end]), 'refused 7 0'),
    ('6 at a lower action than 5', table([alloc(0), (9, 0), end]), 'refused 6 0'),
    ('a thread forked twice', table([fork(1), fork(1), join(1), join(1), end], leaf), 'refused 8 1'),
    ('a thread forked by two', table(parent(1, 2), parent(2), leaf), 'refused 8 5'),
    ('join with none open', table([join(1), end], leaf), 'refused 9 0'),
    ('joins in the order of the forks', table([fork(1), fork(2), join(1), join(2), end], leaf, leaf), 'refused 9 2'),
    ('a child joined twice', table([fork(1), join(1), join(1), end], leaf), 'refused 9 2'),
    ('a child of another thread joined', table(parent(1), [join(2), end], leaf), 'refused 9 3'),
    ('end with a child unjoined', table([fork(1), end], leaf), 'refused 9 1'),
    ('9 at a lower action than 8', table([fork(1), end], [fork(2), fork(2), end], leaf), 'refused 9 1'),
    ('8 at a lower action than 9', table([fork(1), fork(1), end], leaf), 'refused 8 1'),
    ('thread 1 never forked', table(leaf, leaf), 'refused 11 1'),
    ('threads 2 and 4 never forked', table(parent(1), leaf, parent(3), leaf, leaf), 'refused 11 2'),
    ('thread 4 never forked', table(parent(1, 2, 3), leaf, leaf, leaf, leaf), 'refused 11 4'),
    ('11 before 10', table([free(1), end], leaf), 'refused 11 1'),
    ('free with nothing held', table([free(1), end]), 'refused 10 0'),
    ('free of too much', table([alloc(6), free(7), end]), 'refused 10 1'),
    ('a child below 0, its parent at the join', table(parent(1), [free(5), end]), 'refused 10 1'),
    ('a child below 0, its parent above', table([alloc(9)] + parent(1), [free(5), end]), 'refused 10 4'),
    ('a child below 0 and back', table(parent(1), [free(5), alloc(5), end]), 'refused 10 3'),
    ('a parent frees what its child left', table([fork(1), join(1), free(5), end], [alloc(5), end]), 'table 2 6 serial 5 depth 6 nested 2'),
    ('a parent frees it before the join', table([fork(1), free(5), join(1), end], [alloc(5), end]), 'refused 10 1'),
    ('a grandchild left it', table(parent(1), parent(2), [alloc(7), end]), 'table 3 8 serial 7 depth 8 nested 3'),
    ('one end', least, 'table 1 1 serial 0 depth 1 nested 1'),
    ('E', table(parent(1, 2), [alloc(6), work, free(6), end], [alloc(6), free(6), end]), 'table 3 12 serial 6 depth 8 nested 2'),
    ('one child runs at a time', table([fork(1), join(1), fork(2), join(2), end], [alloc(4), free(4), end], [alloc(9), free(9), end]), 'table 3 11 serial 9 depth 11 nested 2'),
    ('a longer child decides the depth', table([fork(1), work, work, work, join(1), end], [work, work, end]), 'table 2 9 serial 0 depth 6 nested 2'),
    ('the highest is inside a child', table([alloc(1), fork(1), join(1), end], [alloc(5), free(5), end]), 'table 2 7 serial 6 depth 7 nested 2'),
    ('the deepest is not the last', table(parent(1, 3), parent(2), leaf, leaf), 'table 4 10 serial 0 depth 7 nested 3'),
    ('largest argument', table([alloc(LARGEST), free(LARGEST), end]), 'table 1 3 serial 16777215 depth 3 nested 1'),
    ('most memory', table([alloc(LARGEST)] * 8191 + [end]), 'table 1 8192 serial 137422168065 depth 8192 nested 1'),
    ('deepest nesting', table(*chain), 'table 1024 3070 serial 0 depth 3070 nested 1024'),
    ('widest fan', table(*fan), 'table 1024 3070 serial 0 depth 2048 nested 2'),
    ('most threads and actions', table(parent(*range(1, 1024))[:-1] + [work] * 1030 + [end], *([[alloc(2), alloc(1), free(3), work, end]] * 1023)), 'table 1024 8192 serial 3 depth 3082 nested 2'),
]

E = table(parent(1, 2), [alloc(6), work, free(6), end], [alloc(6), free(6), end])
flat = table([alloc(5), free(5), end])
most = table([alloc(LARGEST)] * 8191 + [end])

# With p 2 and b 1 the bound of E is 6 + 7 K.
QUOTAS = [
    ('12 bytes', board(2, 1, 48, b'')[:12], 'refused 33 0'),
    ('13 bytes', board(2, 1, 48, b''), 'refused 1 0'),
    ('no bytes at all', b'', 'refused 33 0'),
    ('E, M 47', board(2, 1, 47, E), 'refused 42 0'),
    ('E, M 48', board(2, 1, 48, E), 'quota 6'),
    ('E, M 54', board(2, 1, 54, E), 'quota 6'),
    ('E, M 55', board(2, 1, 55, E), 'quota 7'),
    ('E, one worker, M 6', board(1, 1, 6, E), 'quota 16777215'),
    ('E, one worker, M 5', board(1, 1, 5, E), 'refused 42 0'),
    ('E, M 2^64 - 1', board(2, 1, 2**64 - 1, E), 'quota 16777215'),
    ('E, 16 workers, b 65,535, M 2^64 - 1', board(16, 65535, 2**64 - 1, E), 'quota 16777215'),
    ('E, the upper end exactly', board(2, 1, 6 + 7 * LARGEST, E), 'quota 16777215'),
    ('E, one below the upper end', board(2, 1, 6 + 7 * LARGEST - 1, E), 'quota 16777214'),
    ('E, one above the upper end', board(2, 1, 6 + 7 * LARGEST + 7, E), 'quota 16777215'),
    ('E, M below S1', board(2, 1, 5, E), 'refused 42 0'),
    ('E, M 0', board(2, 1, 0, E), 'refused 42 0'),
    ('E, b 0', board(2, 0, 48, E), 'refused 41 0'),
    ('E, b 65,536', board(2, 65536, 48, E), 'refused 41 0'),
    ('E, b 2^32 - 1', board(2, 2**32 - 1, 48, E), 'refused 41 0'),
    ('E, b 65,535, the least M', board(2, 65535, 6 + 7 * 6 * 65535, E), 'quota 6'),
    ('E, b 65,535, one less', board(2, 65535, 6 + 7 * 6 * 65535 - 1, E), 'refused 42 0'),
    ('E, no worker', board(0, 1, 48, E), 'refused 20 0'),
    ('E, 17 workers', board(17, 1, 48, E), 'refused 20 0'),
    ('E, 16 workers, M 636', board(16, 1, 636, E), 'quota 6'),
    ('20 before 41', board(17, 0, 0, E), 'refused 20 0'),
    ('41 before 42', board(2, 0, 0, E), 'refused 41 0'),
    ('the table before 20', board(0, 0, 0, table([free(1), end])), 'refused 10 0'),
    ('no alloc: the least is 1', board(2, 1, 3, table(parent(1), leaf)), 'quota 1'),
    ('no alloc, M 2', board(2, 1, 2, table(parent(1), leaf)), 'refused 42 0'),
    ('depth 1: only S1 counts', board(16, 65535, 0, least), 'quota 16777215'),
    ('depth 3, one thread', board(2, 1, 15, flat), 'quota 5'),
    ('depth 3, one thread, M 14', board(2, 1, 14, flat), 'refused 42 0'),
    ('most memory', board(16, 65535, 2**64 - 1, most), 'quota 16777215'),
    ('most memory, M below S1', board(16, 65535, 137422168064, most), 'refused 42 0'),
    ('most memory, one worker', board(1, 65535, 137422168065, most), 'quota 16777215'),
]

waiter = table([fork(1), join(1), end], [work, end])
serial = table([alloc(4), alloc(4), end])
one = lambda x, before=0: table([work] * before + [alloc(x), end])
two400 = table([fork(1), alloc(400), join(1), end], [alloc(400), free(400), end])
full = table(parent(*range(1, 1024))[:-1] + [alloc(1)] * 5122 + [end], *[leaf] * 1023)

# E has m 12, A 2 and J 2; with K 5 its filled-out table has m 34, A 2 and J 8. An alloc of x above K adds 9 d - 4, d being x / K rounded up.
TURNS = [
    ('7 bytes', asked(2, 6, b'')[:7], 'refused 33 0'),
    ('8 bytes', asked(2, 6, b''), 'refused 1 0'),
    ('no bytes, turns', b'', 'refused 33 0'),
    ('E, K 6', asked(2, 6, E), 'limit 32'),
    ('E, K 6, another L', asked(2, 6, E, 2**32 - 1), 'limit 32'),
    ('E, one worker', asked(1, 6, E), 'limit 16'),
    ('E, 3 workers', asked(3, 6, E), 'limit 48'),
    ('E, 16 workers', asked(16, LARGEST, E), 'limit 256'),
    ('E, K 5', asked(2, 5, E), 'limit 88'),
    ('E, K 5, one worker', asked(1, 5, E), 'limit 44'),
    ('E, K 1', asked(1, 1, E), 'limit 116'),
    ('two allocs', asked(1, 6, serial), 'limit 5'),
    ('two allocs, K 3', asked(1, 3, serial), 'limit 33'),
    ('a join', asked(2, 6, waiter), 'limit 12'),
    ('one end, turns', asked(16, 1, least), 'limit 16'),
    ('7 / 3 rounded up', asked(1, 3, one(7)), 'limit 26'),
    ('6 / 3', asked(1, 3, one(6)), 'limit 17'),
    ('as much as K', asked(1, 7, one(7)), 'limit 3'),
    ('1,024 threads', asked(1, 1, one(512)), 'limit 4607'),
    ('1,025 threads and more', asked(16, 1, one(513)), 'refused 44 0'),
    ('8,192 actions', asked(16, 1, one(512, 4609)), 'limit 147456'),
    ('8,193 actions', asked(16, 1, one(512, 4610)), 'refused 44 4610'),
    ('16 million dummies', asked(1, 1, one(LARGEST)), 'refused 44 0'),
    ('44 by rising action', asked(2, 1, two400), 'refused 44 4'),
    ('most allocs', asked(16, LARGEST, most), 'limit 262128'),
    ('most allocs and joins', asked(16, 1, full), 'limit 229392'),
    ('no worker, turns', asked(0, 6, E), 'refused 20 0'),
    ('17 workers, turns', asked(17, 6, E), 'refused 20 0'),
    ('255 workers, turns', asked(255, 6, E), 'refused 20 0'),
    ('K 0', asked(2, 0, E), 'refused 21 0'),
    ('the table before 20, turns', asked(0, 0, table([free(1), end])), 'refused 10 0'),
    ('20 before 21', asked(17, 0, E), 'refused 20 0'),
    ('20 before 44', asked(17, 1, one(513)), 'refused 20 0'),
    ('21 before 44', asked(1, 0, one(513)), 'refused 21 0'),
    ('a byte more, turns', asked(2, 6, E + b'\0'), 'refused 3 0'),
]

# five numbers of the table that runs: with K 5 E is filled out, and its allocs of 6 draw nothing
three = table(parent(1, 2, 3), *[[alloc(5), free(5), end]] * 3)
LIMITS = [
    ('7 bytes, limit', asked(2, 6, b'')[:7], 'refused 33 0'),
    ('8 bytes, limit', asked(2, 6, b''), 'refused 1 0'),
    ('E, K 6, b 1', asked(2, 6, E, 1), 'memory 12 serial 6 peak 12 parallel 12 stretch 6'),
    ('E, K 5, b 1', asked(2, 5, E, 1), 'memory 12 serial 6 peak 12 parallel 12 stretch 0'),
    ('E, one worker, b 0', asked(1, 6, E), 'memory 6 serial 6 peak 6 parallel 12 stretch 6'),
    ('E, 16 workers, b 65,535', asked(16, LARGEST, E, 65535), 'memory 12 serial 6 peak 12 parallel 12 stretch 6'),
    ('a fan of three, p 2', asked(2, 5, three), 'memory 10 serial 5 peak 10 parallel 15 stretch 5'),
    ('a fan of three, p 3', asked(3, 5, three), 'memory 15 serial 5 peak 15 parallel 15 stretch 5'),
    ('one end, limit', asked(16, 1, least, 65535), 'memory 0 serial 0 peak 0 parallel 0 stretch 0'),
    ('E, no worker, limit', asked(0, 6, E), 'refused 20 0'),
    ('E, 17 workers, limit', asked(17, 6, E), 'refused 20 0'),
    ('E, b 65,536, limit', asked(2, 6, E, 65536), 'refused 41 0'),
    ('E, K 0, limit', asked(2, 0, E), 'refused 21 0'),
    ('the table before 20, limit', asked(0, 0, table([free(1), end]), 65536), 'refused 10 0'),
    ('20 before 41, limit', asked(17, 0, E, 65536), 'refused 20 0'),
    ('41 before 21', asked(2, 0, E, 65536), 'refused 41 0'),
    ('21 before 44, limit', asked(1, 0, one(513)), 'refused 21 0'),
    ('44, limit', asked(1, 1, one(513, 2)), 'refused 44 2'),
    ('a byte more, limit', asked(2, 6, E + b'\0'), 'refused 3 0'),
]

FITS = [
    ('12 bytes, fit', board(2, 1, 55, b'')[:12], 'refused 33 0'),
    ('E, fit, M 55', board(2, 1, 55, E), 'quota 16777215 memory 12'),
    ('E, fit, M 12', board(2, 1, 12, E), 'quota 16777215 memory 12'),
    ('E, fit, M 11', board(2, 1, 11, E), 'none memory 12 quota 6'),
    ('E, fit, b 0', board(2, 0, 12, E), 'quota 16777215 memory 12'),
    ('E, fit, one worker', board(1, 0, 6, E), 'quota 16777215 memory 6'),
    ('E, fit, one worker, M 5', board(1, 1, 5, E), 'none memory 6 quota 6'),
    ('one end, fit', board(16, 65535, 0, least), 'quota 16777215 memory 0'),
    ('the table before 20, fit', board(0, 65536, 0, table([free(1), end])), 'refused 10 0'),
    ('20 before 41, fit', board(17, 65536, 0, E), 'refused 20 0'),
    ('41, fit', board(2, 65536, 0, E), 'refused 41 0'),
]

# for choices below c and for choices 0: c + 1 threads of the fan can hold their 5 at once
CHOICES = [
    ('7 bytes, choices', asked(2, 6, b'')[:7], 'refused 33 0'),
    ('8 bytes, choices', asked(2, 6, b'', 1), 'refused 1 0'),
    ('E, c 1', asked(2, 6, E, 1), 'memory 12 near 12'),
    ('E, c 2', asked(2, 6, E, 2), 'memory 12 near 12'),
    ('E, K 5, c 1', asked(2, 5, E, 1), 'memory 12 near 12'),
    ('E, one worker, c 1', asked(1, 6, E, 1), 'memory 12 near 12'),
    ('a fan of three, c 1', asked(3, 5, three, 1), 'memory 10 near 10'),
    ('a fan of three, c 2', asked(3, 5, three, 2), 'memory 15 near 10'),
    ('one end, choices', asked(16, 1, least, 16), 'memory 0 near 0'),
    ('the table before 20, choices', asked(0, 0, table([free(1), end])), 'refused 10 0'),
    ('20 before 49', asked(17, 0, E, 18), 'refused 20 0'),
    ('c 0', asked(2, 6, E, 0), 'refused 49 0'),
    ('c above p', asked(2, 6, E, 3), 'refused 49 0'),
    ('c 65,537', asked(2, 6, E, 65537), 'refused 49 0'),
    ('49 before 21', asked(2, 0, E, 3), 'refused 49 0'),
    ('21 before 44, choices', asked(1, 0, one(513), 1), 'refused 21 0'),
    ('44, choices', asked(1, 1, one(513, 2), 1), 'refused 44 2'),
    ('a byte more, choices', asked(2, 6, E + b'\0', 1), 'refused 3 0'),
]


def answers():
    """Label, program, input, expected answer and the model's, of every case."""
    for label, case, expected in CASES:
        yield label, b't', case, expected, facts_line(check(case))
    for label, case, expected in QUOTAS:
        yield label, b'q', case, expected, maxquota(case)
    for label, case, expected in TURNS:
        yield label, b'l', case, expected, maxturns(case)
    for label, case, expected in LIMITS:
        yield label, b'm', case, expected, memlimit(case)
    for label, case, expected in FITS:
        yield label, b'f', case, expected, fitquota(case)
    for label, case, expected in CHOICES:
        yield label, b'd', case, expected, dequelimit(case)


def main():
    data, text = b'', ''
    for label, program, case, expected, found in answers():
        if found != expected:
            raise SystemExit('%s: expected %s, the model says %s' % (label, expected, found))
        name = label.encode()
        data += bytes([len(name)]) + name + program + len(case).to_bytes(3, 'little') + case
        text += '%s: %s\n' % (label, expected)
    folder = pathlib.Path(__file__).parent.parent / 'crates' / 'table_cases'
    (folder / 'stdin').write_bytes(data)
    (folder / 'stdout').write_text(text)
    print('%d cases, %d bytes' % (sum(map(len, (CASES, QUOTAS, TURNS, LIMITS, FITS, CHOICES))), len(data)))


if __name__ == '__main__':
    main()
