"""Writes the stored input and output of crates/assembly_cases: texts with a label, and the answer expected of each.

A record of the input is the label's length (1 byte), the label, 0 for a table's text and 1 for an input's (1 byte), the text's length (3 bytes), the text.
Every expected answer is written down here by hand, and held against texts.py as well.
"""
import pathlib

from reference import check, facts_line
from texts import LONGEST, assemble, assemble_input

KEYWORD = 'expected thread, alloc, free, fork, join, work or end'
NUMBER = 'expected a number up to 16777215'
LINE_END = 'expected the end of the line'
RETURN = 'a carriage return; lines end with a newline alone'
MARK = 'a byte order mark; a text begins without one'
LEAST = 'table 1 1 serial 0 depth 1 nested 1'
E = b'''# the root
thread 0
fork 1
fork 2
join 2
join 1
end
thread 1
alloc 6
work
free 6
end
thread 2
alloc 6
free 6
end
'''
many = lambda n: b''.join(b'thread %d\nend\n' % t for t in range(n))

CASES = [
    ('table E', E, 'table 3 12 serial 6 depth 8 nested 2'),
    ('the least', b'thread 0\nend\n', LEAST),
    ('no newline at the end', b'thread 0\nend', LEAST),
    ('blanks, a comment and blank lines', b'\n \t\n\tthread\t0 # 1\n#end\n  end#\n\n', LEAST),
    ('empty text', b'', 'refused 2 0'),
    ('nothing but a comment', b'# thread 0', 'refused 2 0'),
    ('a thread and no action', b'thread 0\n', 'refused 2 0'),
    ('1,025 threads', many(1025), 'refused 2 0'),
    ('8,193 actions', b'thread 0\n' + b'work\n' * 8192 + b'end\n', 'refused 2 0'),
    ('8,192 actions', b'thread 0\n' + b'work\n' * 8191 + b'end\n', 'table 1 8192 serial 0 depth 8192 nested 1'),
    ('unknown word', b'thread 0\nwait\nend\n', 'line 2: ' + KEYWORD),
    ('a word in capitals', b'Thread 0\nend\n', 'line 1: ' + KEYWORD),
    ('a word that goes on', b'thread 0\nends\n', 'line 2: ' + KEYWORD),
    ('a carriage return', b'thread 0\nend\r\n', 'line 2: ' + RETURN),
    ('carriage returns throughout', E.replace(b'\n', b'\r\n'), 'line 2: ' + RETURN),
    ('a carriage return in a number', b'thread 0\nalloc 6\r7\nend\n', 'line 2: ' + RETURN),
    ('a carriage return in a comment', b'thread 0 # the root\r\nend # \r\n', LEAST),
    ('a carriage return behind a fault', b'thread 0\nalloc # 6\r\nend\n', 'line 2: ' + NUMBER),
    ('a carriage return on a later line', b'thread 0\nwait\nend\r\n', 'line 2: ' + KEYWORD),
    ('a byte order mark', b'\xef\xbb\xbfthread 0\nend\n', 'line 1: ' + MARK),
    ('a byte order mark and carriage returns', b'\xef\xbb\xbfthread 0\r\nend\r\n', 'line 1: ' + MARK),
    ('two bytes of a mark', b'\xef\xbb', 'line 1: ' + KEYWORD),
    ('missing number', b'thread 0\nalloc # 6\nend\n', 'line 2: ' + NUMBER),
    ('no number', b'thread 0\nalloc six\nend\n', 'line 2: ' + NUMBER),
    ('a sign', b'thread 0\nalloc +6\nend\n', 'line 2: ' + NUMBER),
    ('a 0 in front', b'thread 0\nalloc 06\nend\n', 'line 2: ' + NUMBER),
    ('number too large', b'thread 0\nalloc 16777216\nend\n', 'line 2: ' + NUMBER),
    ('number far too large', b'thread 0\nalloc 99999999999999999999999999\nend\n', 'line 2: ' + NUMBER),
    ('the largest number', b'thread 0\nalloc 16777215\nend\n', 'table 1 2 serial 16777215 depth 2 nested 1'),
    ('a number too many', b'thread 0\nalloc 6 7\nend\n', 'line 2: ' + LINE_END),
    ('a number after end', b'thread 0\nend 0\n', 'line 2: ' + LINE_END),
    ('an action before any thread', b'\nend\n', 'line 2: expected thread 0'),
    ('first thread 1', b'thread 1\nend\n', 'line 1: expected thread 0'),
    ('a thread left out', b'thread 0\nend\nthread 2\nend\n', 'line 3: expected thread 1'),
    ('a thread twice', b'thread 0\nend\nthread 0\nend\n', 'line 3: expected thread 1'),
    ('missing end', b'thread 0\nalloc 6\n', 'refused 7 0 line 2'),
    ('an end too early', b'thread 0\n\nend\nwork\nend\n', 'refused 7 0 line 3'),
    ('a thread with no action', b'thread 0\nfork 1\njoin 1\nend\n\nthread 1\nthread 2\nend\n', 'refused 4 1 line 6'),
    ('a thread that is never forked', b'thread 0\nend\n# 1\nthread 1\nend\n', 'refused 11 1 line 4'),
    ('an alloc of 0', b'thread 0\nalloc 0\nend\n', 'refused 6 0 line 2'),
    ('joins in the wrong order', E.replace(b'join 2\njoin 1', b'join 1\njoin 2'), 'refused 9 2 line 5'),
    ('more freed than drawn', b'thread 0\nalloc 6\n# 7\nfree 7\nend\n', 'refused 10 1 line 4'),
    ('the first fault counts', b'thread 0\nalloc\nwait\n', 'line 2: ' + NUMBER),
    ('a fault before a refusal', b'thread 0\nalloc 0\nwait\n', 'line 3: ' + KEYWORD),
    ('a byte of 0', b'thread 0\n\0\nend\n', 'line 2: ' + KEYWORD),
    ('the longest text', (b'thread 0\nend\n' + b'#' * LONGEST)[:LONGEST], LEAST),
    ('a byte more', (b'thread 0\nend\n' + b'#' * LONGEST)[:LONGEST + 1], 'text above 262144 bytes'),
    # of which only as much is stored as the program reads
    ('1 MB of zeros', bytes(1048576), 'text above 262144 bytes'),
]

TURNS = b'# two workers in turn\nworkers 2\nquota 6\n\norder 0 1 0 1 0 1 0 # wrapped\norder 1 0 1 0 1 0 1\n'
ROUNDS = b'workers 2\nquota 6\nlimit 100\n'
BOARD = b'workers 2\nbetween 1\nmemory 55\n'
TINY = b'thread 0\nend\n'
tiny = lambda front: bytes.fromhex(front) + bytes.fromhex('01000100' '00000100' '00000000')
example = lambda name: (pathlib.Path(__file__).parent.parent / 'examples' / name).read_bytes()
ORDER = lambda n: b'workers 2\nquota 6\n' + b'order 1 1 1 1 1 1 1 1\n' * (n // 8) + b'order' + b' 1' * (n % 8) + b'\n'

INPUTS = [
    ('input of a run of E', TURNS + E, example('e.run')),
    ('the same from the examples', example('turns.front') + example('e.text'), example('e.run')),
    ('input of a board for E', BOARD + E, example('e.board')),
    ('the same from the examples', example('board.front') + example('e.text'), example('e.board')),
    ('input of 255 threads', example('rounds.front') + example('tree.text'), bytes.fromhex('04 080000 10270000') + assemble(example('tree.text'))[0]),
    ('input in rounds', ROUNDS + TINY, tiny('02 060000 64000000')),
    ('an order of none', b'workers 2\nquota 6\norder\n' + TINY, tiny('02 060000 0000')),
    ('blanks and comments in front', b'\t\nworkers\t2#3\n # quota 7\n quota 6 \n\nlimit 100\n' + TINY, tiny('02 060000 64000000')),
    ('what a program refuses is written', b'workers 17\nquota 0\norder 255\n' + TINY, tiny('11 000000 0100 ff')),
    ('the largest numbers', b'workers 255\nquota 16777215\nlimit 4294967295\n' + TINY, tiny('ff ffffff ffffffff')),
    ('the largest memory', b'workers 255\nbetween 4294967295\nmemory 18446744073709551615\n' + TINY, tiny('ff ffffffff ffffffffffffffff')),
    ('the longest order', ORDER(4096) + TINY, tiny('02 060000 0010' + '01' * 4096)),
    ('an order too long', ORDER(4097) + TINY, 'line 515: expected an order of at most 4096 workers'),
    ('no text at all', b'', 'line 1: expected workers'),
    ('a table without front', E, 'line 2: expected workers'),
    ('unknown word in front', b'workers 2\nlevels 6\n', 'line 2: expected quota or between'),
    ('a carriage return in front', b'workers 2\r\nquota 6\r\nlimit 100\r\n' + TINY, 'line 1: ' + RETURN),
    ('a byte order mark in front', b'\xef\xbb\xbf' + ROUNDS + TINY, 'line 1: ' + MARK),
    ('a carriage return behind the front', ROUNDS + b'thread 0\nend\r\n', 'line 5: ' + RETURN),
    ('order before quota', b'workers 2\norder 0\n', 'line 2: expected quota or between'),
    ('neither order nor limit', b'workers 2\nquota 6\n' + TINY, 'line 3: expected order or limit'),
    ('no memory', b'workers 2\nbetween 1', 'line 3: expected memory'),
    ('missing number in front', b'workers # 2\n', 'line 1: expected a number up to 255'),
    ('workers too many', b'workers 256\n', 'line 1: expected a number up to 255'),
    ('a 0 in front of a number', b'workers 02\n', 'line 1: expected a number up to 255'),
    ('quota too large', b'workers 2\nquota 16777216\n', 'line 2: expected a number up to 16777215'),
    ('limit too large', b'workers 2\nquota 6\nlimit 4294967296\n', 'line 3: expected a number up to 4294967295'),
    ('memory too large', b'workers 2\nbetween 1\nmemory 18446744073709551616\n', 'line 3: expected a number up to 18446744073709551615'),
    ('memory far too large', b'workers 2\nbetween 1\nmemory 99999999999999999999999\n', 'line 3: expected a number up to 18446744073709551615'),
    ('a worker too large', b'workers 2\nquota 6\norder 0 1\norder 256\n', 'line 4: expected a number up to 255'),
    ('two limits on a line', b'workers 2\nquota 6\nlimit 1 2\n', 'line 3: expected the end of the line'),
    ('two limits', ROUNDS + b'limit 7\n' + TINY, 'line 4: ' + KEYWORD),
    ('a front and no table', ROUNDS, 'refused 2 0'),
    ('a table with a fault', ROUNDS + b'\nthread 0\nwait\n', 'line 6: ' + KEYWORD),
    ('a table without end', TURNS + b'thread 0\nalloc 6\n', 'refused 7 0 line 8'),
    ('the longest text with a front', (ROUNDS + TINY + b'#' * LONGEST)[:LONGEST], tiny('02 060000 64000000')),
    ('1 MB of zeros for an input', bytes(1048576), 'text above 262144 bytes'),
]


def main():
    data, text = b'', b''
    for sort, cases in enumerate([CASES, INPUTS]):
        for label, case, expected in cases:
            if sort == 0:
                table, message = assemble(case)
                found = message or facts_line(check(table))
            else:
                made, message = assemble_input(case)
                found = message or made
            if found != expected:
                raise SystemExit('%s: expected %s, the reference says %s' % (label, expected, found))
            data += bytes([len(label)]) + label.encode() + bytes([sort]) + len(case).to_bytes(3, 'little') + case[:LONGEST + 1]
            text += label.encode() + b': ' + (expected if isinstance(expected, bytes) else expected.encode()) + b'\n'
    folder = pathlib.Path(__file__).parent.parent / 'crates' / 'assembly_cases'
    (folder / 'stdin').write_bytes(data)
    (folder / 'stdout').write_bytes(text)
    print('%d cases, %d bytes' % (len(CASES) + len(INPUTS), len(data)))


if __name__ == '__main__':
    main()
