"""Writes the stored input and output of crates/fill_cases: inputs of filltable with a label, and the answer expected of each.

A record of the input is the label's length (1 byte), the label, the input's length (3 bytes), the input.
Facts and refusals are written down here by hand, tables too where the case is about their bytes; all is held against filling.py and reference.py as well.
"""
import pathlib

from filling import answer, quoted
from reference import END, WORK, ALLOC, FREE, FORK, JOIN, check, facts_line
from tables import table

end, work = (END, 0), (WORK, 0)
LARGEST = 16777215
fork, join, alloc, free = lambda x: (FORK, x), lambda x: (JOIN, x), lambda x: (ALLOC, x), lambda x: (FREE, x)
leaf = [work, end]
pair = lambda x, y: [fork(x), fork(y), join(y), join(x), end]
E = table([fork(1), fork(2), join(2), join(1), end], [alloc(6), work, free(6), end], [alloc(6), free(6), end])
E5 = table(
    [fork(1), fork(2), join(2), join(1), end],
    [fork(3), join(3), alloc(6), work, free(6), end],
    [fork(6), join(6), alloc(6), free(6), end],
    pair(4, 5), leaf, leaf, pair(7, 8), leaf, leaf)
one = lambda x: table([alloc(x), end])
two = lambda x: table([fork(1), alloc(x), join(1), end], [alloc(x), free(x), end])

# label, K, table, the table that runs where it is written down, its facts or the refusal
CASES = [
    ('E, K 5', 5, E, E5, 'table 9 34 serial 6 depth 17 nested 4'),
    ('E, K 6, in place', 6, E, E, 'table 3 12 serial 6 depth 8 nested 2'),
    ('7 / 3 rounded up', 3, one(7), table([fork(1), join(1), alloc(7), end], pair(2, 5), pair(3, 4), leaf, leaf, leaf), 'table 6 20 serial 7 depth 14 nested 4'),
    ('6 / 3 is two', 3, one(6), table([fork(1), join(1), alloc(6), end], pair(2, 3), leaf, leaf), 'table 4 13 serial 6 depth 11 nested 3'),
    ('roots 5 and 2, in serial order', 5, two(9),
     table([fork(1), fork(5), join(5), alloc(9), join(1), end], [fork(2), join(2), alloc(9), free(9), end], pair(3, 4), leaf, leaf, pair(6, 7), leaf, leaf),
     'table 8 29 serial 9 depth 15 nested 4'),
    ('44 by rising action, not in serial order', 1, two(400), None, 'refused 44 4'),
    ('1,024 threads', 1, one(512), None, 'table 1024 3583 serial 512 depth 51 nested 11'),
    ('1,025 threads and more', 1, one(513), None, 'refused 44 0'),
    ('8,192 actions', 1, table([work] * 4609 + [alloc(512), end]), None, 'table 1024 8192 serial 512 depth 4660 nested 11'),
    ('8,193 actions', 1, table([work] * 4610 + [alloc(512), end]), None, 'refused 44 4610'),
    ('16 million dummies', 1, one(LARGEST), None, 'refused 44 0'),
    ('the largest alloc in two', LARGEST - 1, one(LARGEST), table([fork(1), join(1), alloc(LARGEST), end], pair(2, 3), leaf, leaf), 'table 4 13 serial 16777215 depth 11 nested 3'),
    ('K 16,777,215', LARGEST, one(LARGEST), one(LARGEST), 'table 1 2 serial 16777215 depth 2 nested 1'),
    ('K 0', 0, one(1), None, 'refused 21 0'),
    ('a check of the table before 21', 0, table([alloc(0), end]), None, 'refused 6 0'),
    ('a check of the table before 44', 1, one(513) + b'\0', None, 'refused 3 0'),
    ('no table', 5, b'', None, 'refused 1 0'),
]


def main():
    inputs, outputs = b'', b''
    for label, quota, data, runs, said in CASES + [('two bytes', None, b'\1\0', None, 'refused 33 0')]:
        whole = data if quota is None else quoted(quota, data)
        out, refused = answer(whole)
        assert (refused.decode()[:-1] if refused else facts_line(check(out))) == said, (label, refused, facts_line(check(out)))
        assert runs is None or runs == out, label
        inputs += bytes([len(label)]) + label.encode() + len(whole).to_bytes(3, 'little') + whole
        outputs += label.encode() + b': ' + said.encode() + b'\n' + (out + b'\n' if out and len(out) < 256 else b'')
    folder = pathlib.Path(__file__).parent.parent / 'crates' / 'fill_cases'
    (folder / 'stdin').write_bytes(inputs)
    (folder / 'stdout').write_bytes(outputs)


if __name__ == '__main__':
    main()
