"""Writes the stored input and output of crates/design_cases: inputs of canontable, cmptables and jointables with a label, and the answer expected of each.

A record of the input is the label's length (1 byte), the label, 'f' for canontable, 'c' for cmptables or 'j' for jointables, the input's length (3 bytes), the input.
Every expected answer is written down here by hand, forms and joined tables too where the case is about their bytes; all is held against designs.py and reference.py as well.
"""
import pathlib
import sys

from designs import compare_line, form_answer, join_answer
from reference import END, WORK, ALLOC, FREE, FORK, JOIN, check, facts_line
from tables import table

sys.path.insert(0, str(pathlib.Path(__file__).parent.parent / 'tools'))
from parts import packed

end, work = (END, 0), (WORK, 0)
fork, join, alloc, free = lambda x: (FORK, x), lambda x: (JOIN, x), lambda x: (ALLOC, x), lambda x: (FREE, x)
leaf = [end]
parent = lambda *children: [fork(c) for c in children] + [join(c) for c in reversed(children)] + [end]
long, short = [alloc(6), work, free(6), end], [alloc(6), free(6), end]
E = table(parent(1, 2), long, short)
F = table(parent(2, 1), short, long)  # E with its children numbered the other way round
G = table(parent(1, 2), parent(3), [work, end], [alloc(1), end])
FORM_OF_G = table(parent(1, 3), parent(2), [alloc(1), end], [work, end])
H = table(parent(1, 2), short, long)  # E with its children's bodies exchanged
LEAST, TWO, BAD = table(leaf), table([alloc(4), alloc(4), end]), table([alloc(6), free(7), end])
one = lambda x: table([alloc(x), end])
chain = lambda n: table(*[[fork(t + 1), join(t + 1), end] for t in range(n - 1)], leaf)
fan = lambda n, bodies={}: table(parent(*range(1, n)), *[bodies.get(t, leaf) for t in range(1, n)])
fan_back = lambda n, bodies={}: table(parent(*range(n - 1, 0, -1)), *[bodies.get(t, leaf) for t in range(1, n)])

# label, table, its form where it is written down, the form's facts or the refusal
FORMS = [
    ('E', E, E, 'table 3 12 serial 6 depth 8 nested 2'),
    ('F, which is E', F, E, 'table 3 12 serial 6 depth 8 nested 2'),
    ('G, not by rising fork', G, FORM_OF_G, 'table 4 12 serial 1 depth 8 nested 3'),
    ('the form of G', FORM_OF_G, FORM_OF_G, 'table 4 12 serial 1 depth 8 nested 3'),
    ('H', H, H, 'table 3 12 serial 6 depth 9 nested 2'),
    ('one end', LEAST, LEAST, 'table 1 1 serial 0 depth 1 nested 1'),
    ('two allocs', TWO, TWO, 'table 1 3 serial 8 depth 3 nested 1'),
    ('a chain of 1,023 threads', chain(1023), chain(1023), 'table 1023 3067 serial 0 depth 3067 nested 1023'),
    ('1,024 threads, forked from the last on', fan_back(1024), fan(1024), 'table 1024 3070 serial 0 depth 2048 nested 2'),
    ('no bytes', b'', None, 'refused 1 0'),
    ('free of too much', BAD, None, 'refused 10 1'),
    ('a byte more', E + b'\0', None, 'refused 3 0'),
]

# label, two tables, the answer
PAIRS = [
    ('F and E', F, E, 'equal'),
    ('E and F', E, F, 'equal'),
    ('E and itself', E, E, 'equal'),
    ('G and its form', G, FORM_OF_G, 'equal'),
    ('one end and E', LEAST, E, 'before'),
    ('E and one end', E, LEAST, 'after'),
    ('E and two allocs', E, TWO, 'after'),
    ('alloc 256 and alloc 1, by bytes', one(256), one(1), 'before'),
    ('E and H, which no renaming makes of it', E, H, 'after'),
    ('H and E', H, E, 'before'),
    ('H and F', H, F, 'before'),
    ('256 threads and 1, by bytes', fan(256), LEAST, 'before'),
    ('1 thread and 256', LEAST, fan(256), 'after'),
    ('a chain of 1,023 threads and itself', chain(1023), chain(1023), 'equal'),
    ('a chain of 1,023 and one of 1,024', chain(1023), chain(1024), 'after'),
    ('1,024 threads, forked from the last on and from the first', fan_back(1024), fan(1024), 'equal'),
    ('1,024 threads, the same child longer', fan_back(1024, {1023: [work, end]}), fan(1024, {1: [work, end]}), 'equal'),
    ('1,024 threads, another child longer', fan_back(1024, {1: [work, end]}), fan(1024, {1: [work, end]}), 'before'),
    ('the first refused, and the second', BAD, b'', 'refused 10 1 table 0'),
    ('the second refused', E, BAD, 'refused 10 1 table 1'),
    ('no second', E, b'', 'refused 1 0 table 1'),
    ('no first', b'', BAD, 'refused 1 0 table 0'),
    ('a byte more than two', E, E + b'\0', 'refused 3 0 table 1'),
]

# inputs whose length in front is not the first table's
INPUTS = [
    ('nothing', b'', 'refused 33 0'),
    ('three bytes', b'\0\0\0', 'refused 33 0'),
    ('four bytes', b'\0\0\0\0', 'refused 1 0 table 0'),
    ('a length past the end of E', b'\xff\xff\xff\xff' + E, 'refused 1 0 table 1'),
    ('a length past the end of two', b'\x81\0\0\0' + E + E, 'refused 3 0 table 0'),
    ('a length one less', b'\x3f\0\0\0' + E + E, 'refused 3 0 table 0'),
]

row = lambda m: table([work] * (m - 1) + [end])  # one thread of m actions
number = lambda x: x.to_bytes(4, 'little')

# label, input, the joined table where it is written down, its facts or the refusal
JOINS = [
    ('one part', packed([LEAST]), table(parent(1), leaf), 'table 2 4 serial 0 depth 4 nested 2'),
    ('E and E', packed([E, E]), table(parent(1, 4), parent(2, 3), long, short, parent(5, 6), long, short), 'table 7 29 serial 6 depth 13 nested 3'),
    ('two allocs and E: what is left counts', packed([TWO, E]), table(parent(1, 2), [alloc(4), alloc(4), end], parent(3, 4), long, short), 'table 5 20 serial 14 depth 13 nested 3'),
    ('E and two allocs', packed([E, TWO]), table(parent(1, 4), parent(2, 3), long, short, [alloc(4), alloc(4), end]), 'table 5 20 serial 8 depth 11 nested 3'),
    ('the deepest is not the last', packed([E, LEAST]), table(parent(1, 4), parent(2, 3), long, short, leaf), 'table 5 18 serial 6 depth 11 nested 3'),
    ('sixteen parts', packed([LEAST] * 16), table(parent(*range(1, 17)), *[leaf] * 16), 'table 17 49 serial 0 depth 34 nested 2'),
    ('seventeen parts', packed([LEAST] * 17), None, 'refused 47 0'),
    ('no part', packed([]), None, 'refused 47 0'),
    ('no count', b'', None, 'refused 47 0'),
    ('a length of two', packed([LEAST, LEAST])[:8], None, 'refused 47 0'),
    ('a byte missing', packed([E])[:-1], None, 'refused 47 0'),
    ('a byte more than the parts', packed([E]) + b'\0', None, 'refused 47 0'),
    ('E with length 63', b'\1' + number(63) + E, None, 'refused 47 0'),
    ('lengths that add up in 32 bits', b'\2' + number(2**32 - 1) + number(65) + E, None, 'refused 47 0'),
    ('lengths 0 and 64', packed([b'', E]), None, 'refused 1 0 part 0'),
    ('the second part refused, and the third', packed([E, BAD, b'']), None, 'refused 10 1 part 1'),
    ('the last part refused', packed([LEAST] * 15 + [E + b'\0']), None, 'refused 3 0 part 15'),
    ('47 before a part', packed([BAD])[:-1], None, 'refused 47 0'),
    ('a part before 48', packed([chain(1023), LEAST, BAD]), None, 'refused 10 1 part 2'),
    ('1,024 threads', packed([chain(1023)]), None, 'table 1024 3070 serial 0 depth 3070 nested 1024'),
    ('1,025 threads', packed([chain(1023), LEAST]), None, 'refused 48 0'),
    ('8,192 actions', packed([row(8189)]), None, 'table 2 8192 serial 0 depth 8192 nested 2'),
    ('8,193 actions', packed([row(8190)]), None, 'refused 48 0'),
]


def records():
    """Label, program, input and what is printed, of every case."""
    for label, data, wanted, said in FORMS:
        out, refused = form_answer(data)
        assert (refused.decode()[:-1] if refused else facts_line(check(out))) == said, (label, refused, facts_line(check(out)))
        assert wanted is None or wanted == out, label
        yield label, b'f', data, said.encode() + b'\n' + (out + b'\n' if out and len(out) < 256 else b'')
    for label, data, said in [(label, len(x).to_bytes(4, 'little') + x + y, said) for label, x, y, said in PAIRS] + INPUTS:
        assert compare_line(data) == said, (label, compare_line(data))
        yield label, b'c', data, said.encode() + b'\n'
    for label, data, wanted, said in JOINS:
        out, refused = join_answer(data)
        assert (refused.decode()[:-1] if refused else facts_line(check(out))) == said, (label, refused, facts_line(check(out)))
        assert wanted is None or wanted == out, label
        # the facts of a joined table twice, from its parts and its own
        yield label, b'j', data, said.encode() + b'\n' + (said.encode() + b'\n' + (out + b'\n' if len(out) < 256 else b'') if out else b'')


def main():
    inputs, outputs = b'', b''
    for label, program, data, printed in records():
        inputs += bytes([len(label)]) + label.encode() + program + len(data).to_bytes(3, 'little') + data
        outputs += label.encode() + b': ' + printed
    folder = pathlib.Path(__file__).parent.parent / 'crates' / 'design_cases'
    (folder / 'stdin').write_bytes(inputs)
    (folder / 'stdout').write_bytes(outputs)


if __name__ == '__main__':
    main()
