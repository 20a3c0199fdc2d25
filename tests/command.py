"""Runs tools/wivakkol on the examples and on what it must refuse: answers with the programs of dist/ against those in target/bin with inputs that inputasm makes, listings by the table as given against filling.py, messages and exit statuses against what is written
here, the words of refusals against docs/REFERENCE.md, and every command of docs/COMMAND.md and docs/DESIGNS.md against the output that stands there.

usage: python3 tests/command.py            (from the repository's top, after `make build`)
       python3 tests/command.py --write    (puts the output seen into docs/COMMAND.md, docs/DESIGNS.md and docs/pictures/repeats.svg: to be read before it is kept)
"""
import base64
import functools
import hashlib
import json
import os
import pathlib
import pty
import re
import runpy
import shutil
import subprocess
import sys
import tempfile
import time

import filling
from reference import FORK, JOIN, Table

TOP = pathlib.Path.cwd()
sys.path.insert(0, str(TOP / 'tools'))
import proving

VERSION = re.search(r'^version = "(.*)"', (TOP / 'rust/wivakkol/Cargo.toml').read_text(), re.M)[1]
COMMAND, PAGE, PICTURE, BIN = TOP / 'tools/wivakkol', TOP / 'docs/COMMAND.md', TOP / 'docs/pictures/repeats.svg', TOP / 'target/bin'
DESIGNS = TOP / 'docs/DESIGNS.md'
TEXTS = ['e', 'parts', 'stages', 'tree', 'repeats']
E = (TOP / 'examples/e.table').read_bytes()
count = 0


def expect(what, found, wanted):
    global count
    count += 1
    if found != wanted:
        sys.exit('%s: expected\n%s\nfound\n%s' % (what, wanted, found))


def call(*given, data=b'', command=None, **more):
    """Standard output, standard error and exit status of a call."""
    done = subprocess.run([str(command or COMMAND), *map(str, given)], input=data, stdout=subprocess.PIPE, stderr=subprocess.PIPE, **more)
    return done.stdout, done.stderr.decode(), done.returncode


def program(name, data):
    """What a program writes by itself, to either output."""
    done = subprocess.run([str(BIN / name)], input=data, stdout=subprocess.PIPE, stderr=subprocess.PIPE)
    return done.stdout + done.stderr


def answers(given, wanted, data=b''):
    expect(' '.join(map(str, given)), call(*given, data=data), (wanted, '', 0))


def refuses(given, line, data=b'', status=1, out=b''):
    expect(' '.join(map(str, given)), call(*given, data=data), (out, line + '\n', status))


# The page

def blocks(text):
    """The commands of a page, each with the lines of output below it: (start, end, [(command, output)]) for each block of lines."""
    lines, found = text.split('\n'), []
    starts = [i for i, line in enumerate(lines) if line.startswith('    $ ') and not lines[i - 1].startswith('    ')]
    for start in starts:
        end = next(i for i in range(start, len(lines)) if not lines[i].startswith('    '))
        found.append((start, end, [line[6:] for line in lines[start:end] if line.startswith('    $ ')]))
    return lines, found


def seen(commands, folder, path):
    """What each command prints, one after the other in one shell, in which $? is that of the command before."""
    mark = '---- next ----'
    script = ''.join('%s\ns=$?; echo "%s"; (exit $s)\n' % (command, mark) for command in commands)
    done = subprocess.run(['bash'], input=script, cwd=folder, env={**os.environ, 'PATH': path}, stdout=subprocess.PIPE, stderr=subprocess.STDOUT, text=True)
    return done.stdout.split(mark + '\n')[:-1]


def as_seen(text, folder):
    """A page as it would be with the output seen, in a folder that has `wivakkol` in bin/."""
    lines, found = blocks(text)
    told = seen([command for block in found for command in block[2]], folder, '%s/bin:%s' % (folder, os.environ['PATH']))
    for start, end, commands in reversed(found):
        here, told = told[-len(commands):], told[:-len(commands)]
        lines[start:end] = [line for command, out in zip(commands, here) for line in ['    $ ' + command] + ['    ' + row for row in out.splitlines()]]
    return '\n'.join(lines)


def page(write):
    """The two pages with the output seen. `wivakkol` is found through a link, as its section on installing says."""
    text, designs = PAGE.read_text(), DESIGNS.read_text()
    with tempfile.TemporaryDirectory() as folder:
        os.symlink(TOP / 'examples', folder + '/examples')
        for name in 'carpet.design', 'repeats.text':
            shutil.copy(TOP / 'examples' / name, folder)
        os.mkdir(folder + '/bin')
        link = re.search(r'^    (ln -s .*)$', text, re.M)[1]
        subprocess.run(link.replace('~/.local/bin/', folder + '/bin/'), shell=True, check=True)
        found = as_seen(text, folder), as_seen(designs, folder)
        drawn = pathlib.Path(folder, 'repeats.svg').read_bytes()
    if write:
        PAGE.write_text(found[0])
        DESIGNS.write_text(found[1])
        PICTURE.write_bytes(drawn)
        return
    expect('docs/COMMAND.md', text, found[0])
    expect('docs/DESIGNS.md', designs, found[1])
    expect('docs/pictures/repeats.svg', PICTURE.read_bytes(), drawn)
    for name in 'carpet', 'stages':
        rows = (TOP / 'examples' / (name + '.design')).read_text().splitlines()
        shown = '\n'.join('    ' + row if row else '' for row in rows[name == 'stages':])
        expect('%s.design in the page' % name, shown in designs, True)


def rows_of_page():
    """The page's table of commands names each command with its program, and its table of options each option."""
    text = PAGE.read_text()
    rows = dict(re.findall(r'^\| `(\w+)[^|]*` \| `([\w/.]+)`', text, re.M))
    commands = re.findall(r'^  (\w+) ', call('help')[0].decode(), re.M)
    expect('commands of the page', list(rows), commands)
    for name in commands:
        for option in re.findall(r'^  (-\S+)', call('help', name)[0].decode(), re.M):
            expect('%s in the page' % option, option == '--help' or bool(re.search(r'`%s[ `]' % option, text)), True)
    return rows


def help_examples(rows):
    """The example in each command's help prints the line below it, and is answered with the program that the page names."""
    with tempfile.TemporaryDirectory() as folder:
        os.symlink(TOP / 'examples', folder + '/examples')
        os.symlink(COMMAND, folder + '/wivakkol')
        for name in rows:
            example = re.findall(r'^    (.*)$', call('help', name)[0].decode(), re.M)
            told, = seen(example[:1], folder, '%s:%s' % (folder, os.environ['PATH']))
            expect('help %s' % name, told.split('\n')[0], ''.join(example[1:]))
            expect('%s --help' % name, call(name, '--help'), call('help', name))
        expect('files of the examples', sorted(p.name for p in pathlib.Path(folder).glob('*.table')), ['both.table', 'e.table', 'e5.table', 'stages.table'])
        expect('asm', pathlib.Path(folder, 'e.table').read_bytes(), E)


# Answers

def input_of(front, text):
    return program('inputasm', front.encode() + text)


def on_the_examples(folder):
    """Each command on each example, as text and as bytes, against the program with the input that inputasm makes."""
    for name in TEXTS:
        text = (TOP / 'examples' / (name + '.text')).read_bytes()
        table = program('tableasm', text)
        path = folder / (name + '.table')
        path.write_bytes(table)
        for given in ('examples/%s.text' % name, path):
            answers(['check', given], program('tablecheck', table))
            answers(['asm', given], table)
            answers(['dis', given], program('tabledis', table))
            answers(['canon', given], program('canontable', table))
            answers(['cmp', given, path], b'equal\n')
            quotas_of(given, text)
            runs_of(given, text, table, *((3, 5) if given == path else (2, 12)))


def quotas_of(given, text):
    """By the useful limit with b 0 and by the papers' limit with b 1, where b is left out; none that fits is an answer too."""
    for options, asked, p, b, memory in [((), 'fitquota', 2, 0, 3000), ((), 'fitquota', 16, 0, 1), (('-b', 2), 'fitquota', 3, 2, 200),
                                         (('--papers',), 'maxquota', 2, 1, 3000), (('--papers', '-b', 2), 'maxquota', 3, 2, 2 ** 64 - 1)]:
        wanted = program(asked, input_of('workers %d\nbetween %d\nmemory %d\n' % (p, b, memory), text))
        answers(['quota', '-p', p, '-M', memory, *options, given], wanted)


def runs_of(given, text, table, p, quota):
    front = 'workers %d\nquota %d\n' % (p, quota)
    limit = program('maxturns', input_of(front + 'limit 0\n', text))
    order = [turn % p for turn in range(min(int(limit.split()[1]), 4096))]
    whole = input_of(front + 'order %s\n' % ' '.join(map(str, order)), text)
    some = input_of(front + 'order 1 0 1 1\norder 0 0\n', text)
    options = ['-p', p, '-K', quota, given]
    answers(['turns', *options], limit)
    for b, between in (0, ()), (2, ('-b', 2)):
        answers(['limit', *options, *between], program('memlimit', input_of(front + 'limit %d\n' % b, text)))
    for c in 1, p:
        answers(['limit', '-c', c, *options], program('dequelimit', input_of(front + 'limit %d\n' % c, text)))
    answers(['fill', '-K', quota, given], program('filltable', quota.to_bytes(3, 'little') + table))
    answers(['run', *options], program('runrounds', input_of(front + 'limit %d\n' % int(limit.split()[1]), text)))
    answers(['run', '--rounds', 7, *options], program('runrounds', input_of(front + 'limit 7\n', text)))
    for name, shown in ('list', 'turnlist'), ('chart', 'wallchart'):
        answers([name, *options], program(shown, whole))
        answers([name, '--order', '1 0 1', '1', '0', '0', *options], program(shown, some))
    drawn = subprocess.run([sys.executable, 'tools/picture.py', '-p', str(p), '-K', str(quota), '-b', '2'], input=program('turnlist', some), stdout=subprocess.PIPE)
    answers(['picture', '-b', 2, '--order=1 0 1 1 0 0', *options], drawn.stdout)
    runs_of_deques(given, table, p, quota)


def runs_of_deques(given, table, p, quota):
    """Pairs in words, W alone as W:0, in a file; the picture of the listing."""
    pairs = [(0, 0), (0, 0), (1, 0), (1, 1), (0, 1), (1, 0)]
    order = ' '.join('%d:%d' % pair if pair[1] else str(pair[0]) for pair in pairs)
    data = bytes([p]) + quota.to_bytes(3, 'little') + (2 * len(pairs)).to_bytes(2, 'little') + bytes(sum(pairs, ())) + table
    listing = program('dequelist', data)
    options = ['-p', p, '-K', quota, given]
    answers(['deques', '--order', order, *options], listing)
    answers(['deques', '--order', '@-', *options], listing, order.encode())
    answers(['deques', *options, '--order', *('%d:%d' % pair for pair in pairs)], listing)
    drawn = subprocess.run([sys.executable, 'tools/picture.py', '--deques', '-p', str(p), '-K', str(quota)], input=listing, stdout=subprocess.PIPE, check=True)
    answers(['picture', '--deques', '--order', order, *options], drawn.stdout)


def ways_to_give(folder):
    """Standard input, orders in files, values in the option's word, names that look like options; -o, also over a file that is read."""
    order = folder / 'order'
    order.write_text('0 1\r\n0\t1\n')
    wanted = call('list', '-p', 2, '-K', 6, '--order', '0 1 0 1', 'examples/e.text')[0]
    answers(['list', '-p2', '-K6', '--order', '@%s' % order, '-'], wanted, E)
    answers(['list', '-p2', '-K6', '--order', '@-', 'examples/e.text'], wanted, b'0 1 0 1')
    answers(['list', '-p2', '-K6', '--rounds=4', '-'], wanted, (TOP / 'examples/e.text').read_bytes())
    answers(['list', '-p2', '-K6', '--rounds', 'examples/e.text'], call('list', '-p2', '-K6', 'examples/e.text')[0])
    answers(['list', '-p2', '-K6', '--order', '', '--', 'examples/e.text'], b'table 3 12 serial 6 depth 8\nopen 0 peak 0\n')
    expect('a name that looks like an option', call('check', '--', '-p', cwd=made(folder, '-p', E)), (b'table 3 12 serial 6 depth 8 nested 2\n', '', 0))
    path = made(folder, 'over', (TOP / 'examples/e.text').read_bytes()) / 'over'
    answers(['asm', path, '-o', path], b'')
    expect('written over', path.read_bytes(), E)
    answers(['dis', path, '-o', '-'], program('tabledis', E))
    joined = program('jointables', bytes([2]) + 2 * len(E).to_bytes(4, 'little') + E + E)
    answers(['join', 'examples/e.text', 'examples/e.table'], joined)
    order = folder / 'order'
    order.write_text('0:0 1')
    answers(['deques', '-p2', '-K6', '--order', '@%s' % order, 'examples/e.text'], call('deques', '-p2', '-K6', '--order', '0:0 1:0', 'examples/e.text')[0])


def made(folder, name, data):
    (folder / name).write_bytes(data)
    return folder


# Refusals

@functools.lru_cache(maxsize=None)
def words(number, which=0):
    """What `help` says of a number; the second line is of a program that means another thing by it."""
    return call('help', number)[0].decode().split('\n')[which]


def bytes_refused(folder):
    """Damaged tables as bytes: file and place, and the bare line with --numbers. All numbers of the table's checks are met."""
    met = set()
    for data, why in DAMAGED:
        line = program('tablecheck', data).decode().strip()
        number, place = map(int, line.split()[1:])
        path = made(folder, 'damaged.table', data) / 'damaged.table'
        counted = {4: 'entry', 11: 'thread'}.get(number, 'action') if number > 3 else None
        refuses(['check', path], '%s: refused %d: %s' % ('%s: %s %d' % (path, counted, place) if counted else path, number, why))
        refuses(['dis', '--numbers', path], line)
        met.add(number)
    expect('numbers met', met, set(range(1, 12)))


def changed(at, value):
    return E[:at] + bytes([value]) + E[at + 1:]


DAMAGED = [
    (changed(4, 1), 'it begins at action 1, and the counts before it add up to 0'),
    (changed(8, 6), 'it begins at action 6, and the counts before it add up to 5'),
    (changed(14, 4), 'the counts add up to 13, and m is 12'),
    (E[:14] + b'\0' + E[15:], 'thread 2 has no action; it has at least its end'),
    (changed(16, 6), 'kind 6; kinds are 0 to 5. If several are wrong from here on, an action is not 4 bytes long'),
    (changed(17, 0), 'thread 0 forks thread 0, which is not above it; number the threads so that each is above the one that forks it'),
    (changed(17, 9), 'there is no thread 9; the table has threads 0 to 2'),
    (changed(41, 9), 'work has the argument 9; it has none'),
    (changed(21, 1), 'thread 1 is forked already, in action 0; give this fork a thread of its own'),
    (changed(25, 1), 'expected join 2, the latest child not yet joined (forked in action 1)'),
    (changed(45, 7), 'thread 1, joined here, ends 1 below 0: in action 7 it holds 6 and frees 7'),
    (changed(48, 1), 'thread 1 does not end; put end after this'),
    (bytes([2, 0, 2, 0, 0, 0, 1, 0, 1, 0, 1, 0]) + bytes(8), 'thread 1 is forked nowhere; fork it or take it out'),
    (b'', 'the file is empty'), (b'\n', 'the text is empty: it has no thread'), (b'\1', 'found 1 byte, and a table has at least 12; is it cut off?'),
    (bytes(12), 'n is 0 and m is 0; n is 1 to 1,024 and m 1 to 8,192. Is it a table at all, with its low bytes first?'),
    (E + b'\0', 'found 65 bytes; a table with n 3 and m 12 has 64'),
    (E + E * 4000, 'found more than 36,868 bytes; a table with n 3 and m 12 has 64'),
    ('thread 0\n  end\n'.encode('utf-16-le'), 'text in UTF-16, two bytes to a letter; save it as UTF-8')]


# behind a head of three lines: the line, the number and what is said
TEXTS_REFUSED = [
    (b' fork 1\n end\nthread 1\nthread 2\n end\n', 6, 4, 'thread 1 has no action; it has at least its end'),
    (b' work\n alloc 0\n end\n', 5, 6, 'alloc 0; give at least 1 unit, or take it out'),
    (b' fork 7\n end\n' + b''.join(b'thread %d\n end\n' % t for t in range(1, 7)), 4, 6, 'there is no thread 7; the text has threads 0 to 6'),
    (b' fork 7\n end\n', 4, 6, 'there is no thread 7; the text has thread 0 alone'),
    (b' fork 1\n join 1\n end\nthread 1\n join 0\n end\n', 8, 6, 'thread 1 joins thread 0, which is not above it; number the threads so that each is above the one that forks it'),
    (b' end\n work\n', 4, 7, 'thread 0 ends here and has 1 action after it; take the end out, or what follows'),
    (b' fork 1\n fork 1\n end\nthread 1\n end\n', 5, 8, 'thread 1 is forked already, in line 4; give this fork a thread of its own'),
    (b' fork 1\n end\nthread 1\n end\n', 5, 9, 'expected join 1, the latest child not yet joined (forked in line 4), before thread 0 ends'),
    (b' fork 1\n fork 2\n end\nthread 1\n end\nthread 2\n end\n', 6, 9,
     'expected join 2, the latest child not yet joined (forked in line 5), before thread 0 ends, and 1 other before it'),
    (b' fork 1\n # more\n fork 2\n join 1\n join 2\n end\nthread 1\n end\nthread 2\n end\n', 7, 9,
     'expected join 2, the latest child not yet joined (forked in line 6)'),
    (b' join 1\n fork 1\n end\nthread 1\n end\n', 4, 9, 'thread 0 has no child to join'),
    (b' fork 1\n join 1\n join 1\n end\nthread 1\n end\n', 6, 9, 'thread 0 has no child to join; thread 1 is joined already, in line 5'),
    (b' alloc 6\n\n # more\n free 7\n end\n', 7, 10, 'thread 0 holds 6 here and frees 7; free less, or after the join of the child that drew it'),
    (b' fork 1\n join 1\n end\nthread 1\n fork 2\n join 2\n end\nthread 2\n alloc 3\n free 8\n end\n', 5, 10,
     'thread 1, joined here, ends 5 below 0: in line 13 thread 2 holds 3 and frees 8'),
    (b' alloc 5\n fork 1\n join 1\n free 5\n end\nthread 1\n free 5\n end\n', 7, 10,
     'thread 1, joined in line 6, ends 5 below 0: in line 10 it holds 0 and frees 5; so thread 0 holds 0 here and frees 5'),
    (b' end\nthread 1\n end\n', 5, 11, 'thread 1 is forked nowhere; fork it or take it out')]


def texts_refused(folder):
    """What tableasm says of a text, with file and line, and what there is to do."""
    head = b'# first\n\nthread 0\n'
    for rest, line, number, why in TEXTS_REFUSED:
        refuses(['check', '-'], '<stdin>:%d: refused %d: %s' % (line, number, why), head + rest)
        refuses(['asm', '--numbers', '-'], program('tableasm', head + rest).decode().strip(), head + rest)
    for text in b'   \n', b'# nothing\n':
        refuses(['check', '-'], '<stdin>: refused 2: the text is empty: it has no thread', text)
    refuses(['check', '-'], '<stdin>: refused 2: 1,025 threads and 1,025 actions; a table has 1 to 1,024 threads and 1 to 8,192 actions',
            b'thread 0\n end\n' + b''.join(b'thread %d\n end\n' % t for t in range(1, 1025)))
    refuses(['check', '-'], '<stdin>: refused 2: 1 thread and 8,193 actions; a table has 1 to 1,024 threads and 1 to 8,192 actions', b'thread 0\n' + b'work\n' * 8192 + b'end\n')
    for text in head.decode() + ' end\n', 'a { work }\n':
        refuses(['check', '-'], '<stdin>: text in UTF-16, two bytes to a letter; save it as UTF-8', text.encode('utf-16'))
        refuses(['fmt', '-'], '<stdin>: text in UTF-16, two bytes to a letter; save it as UTF-8', text.encode('utf-16'))
    refuses(['check', '-'], '<stdin>:4: expected a number up to 16777215', head + b' alloc many\n')
    refuses(['check', '--numbers', '-'], 'line 4: expected a number up to 16777215', head + b' alloc many\n')
    refuses(['run', '-p', 2, '-K', 1, '-'], '<stdin>:2: a carriage return; lines end with a newline alone', head.replace(b'\n', b'\r\n') + b' end\r\n')
    refuses(['check', '-'], '<stdin>:1: a byte order mark; a text begins without one', b'\xef\xbb\xbfthread 0\n end\n')
    refuses(['check', '-'], '<stdin>: text above 262144 bytes', head + b'#' * 262144)


def lines_of_actions(folder):
    """44 at each alloc in turn, in a text with comments, blank lines and tabs: its line; and the action of the same table as bytes."""
    lines = (TOP / 'examples/repeats.text').read_text().split('\n')
    allocs = [i for i, line in enumerate(lines) if 'alloc' in line]
    for i in allocs:
        text = '\n'.join(lines[:i] + ['# thread 9', '', '\talloc\t1000 # alloc 1'] + lines[i + 1:]).replace('alloc 40', 'alloc 1').replace('alloc 10\n', 'alloc 1\n')
        text = re.sub('free .*', 'work', text)
        refuses(['fill', '-K', 1, '-'], '<stdin>:%d: %s' % (i + 3, words(44)), text.encode())
    table = program('tableasm', text.encode())
    action = program('filltable', b'\1\0\0' + table).decode().split()[2]
    for given in [['turns', '-p', 2], ['limit', '-p', 2], ['run', '-p', 2], ['list', '-p', 2], ['chart', '-p', 2, '--order', 0], ['picture', '-p', 2, '--rounds', 3], ['fill'],
                  ['deques', '-p', 2, '--order', '0:0']]:
        refuses([*given, '-K', 1, '-'], '<stdin>: action %s: %s' % (action, words(44)), table)


def options_refused():
    e, many = 'examples/e.text', 'examples/tree.text'
    for name in ['limit'], ['turns'], ['run'], ['list'], ['chart', '--rounds', 3], ['picture'], ['deques', '--order', '0:0'], ['picture', '--deques', '--order', '0:0']:
        for p in (17, 0, 300) if name != ['run'] else (17, 0, 255, 256, 300, 10 ** 19):
            refuses([*name, '-p', p, '-K', 6, e], '-p %d: %s' % (p, words(20)))
        for quota in 0, 16777216:
            refuses([*name, '-p', 2, '-K', quota, e], '-K %d: %s' % (quota, words(21)))
    refuses(['fill', '-K', 0, e], '-K 0: ' + words(21))
    for b in 65536, 2 ** 32, 2 ** 40:
        refuses(['limit', '-p', 2, '-K', 6, '-b', b, e], '-b %d: %s' % (b, words(41)))
    for c in 3, 2 ** 32:
        refuses(['limit', '-p', 2, '-K', 6, '-c', c, e], '-c %d: %s' % (c, words(49, 1)))
    refuses(['limit', '-p', 2, '-K', 6, '-c', 0, e], '-c 0: refused 49: c is not 1 to p; the limit is that of runs whose choices are all below c')
    for papers in (), ('--papers',):
        refuses(['quota', '-p', 17, '-M', 9, *papers, e], '-p 17: ' + words(20))
        refuses(['quota', '-p', 2, '-b', 65536, '-M', 9, *papers, e], '-b 65536: ' + words(41))
    refuses(['quota', '-p', 2, '-b', 0, '-M', 9, '--papers', e], '-b 0: ' + words(41))
    refuses(['quota', '-p', 2, '-M', 47, '--papers', e], '%s: %s' % (e, words(42)))
    refuses(['quota', '-p', 2, '-M', 47, '--papers', '--numbers', e], 'refused 42 0')
    refuses(['list', '-p', 2, '-K', 6, '--rounds', 4097, e], '--rounds: refused 33: 4,097 turns; a listing of AsyncDF has at most 4,096')
    refuses(['deques', '-p', 2, '-K', 6, '--rounds', 2049, e], '--rounds: refused 33: 2,049 turns; a listing of DFDeques has at most 2,048')
    turns = b'table 3 12 serial 6 depth 8\n1 0 0 0 fork 0\nrefused 30 0\n'
    second = '--order: refused 30: turn 2 has worker 2, and p is 2; all turns before it were taken'
    refuses(['list', '-p', 2, '-K', 6, '--order', 0, 2, e], second, out=turns)
    refuses(['list', '-p', 2, '-K', 6, '--order', 0, 2, '--numbers', e], 'refused 30 0', out=turns)
    refuses(['chart', '-p', 2, '-K', 6, '--order', 0, 2, e], second, out=call('chart', '-p', 2, '-K', 6, '--order', 0, e)[0] + b'refused 30 0\n')
    refuses(['picture', '-p', 2, '-K', 6, '--order', 0, 2, e], second)
    for number, pair, why in (30, '2:0', 'worker 2'), (49, '1:2', 'choice 2'):
        third = '--order: refused %d: turn 3 has %s, and p is 2; all turns before it were taken' % (number, why)
        begun = call('deques', '-p', 2, '-K', 6, '--order', '0:0', '1:0', e)[0].rsplit(b'open', 1)[0]
        refuses(['deques', '-p', 2, '-K', 6, '--order', '0:0', '1:0', pair, e], third, out=begun + b'refused %d 0\n' % number)
        refuses(['picture', '--deques', '-p', 2, '-K', 6, '--order', '0:0', '1:0', pair, e], third)
    refuses(['deques', '-p', 2, '-K', 6, '--order', '0:0 ' * 2049, e], '--order: refused 33: 2,049 turns; a listing of DFDeques has at most 2,048')
    refuses(['join'] + [e] * 17, '17 tables: ' + words(47))
    refuses(['join'] + [many] * 5, '5 tables: ' + words(48))
    head = 'n is 1,538 and m is 0; n is 1 to 1,024 and m 1 to 8,192. Is it a table at all, with its low bytes first?'
    refuses(['join', e, 'examples/e.run'], 'examples/e.run: refused 2: ' + head)
    refuses(['cmp', e, 'examples/e.run'], 'examples/e.run: refused 2: ' + head, status=2)
    refuses(['cmp', '--numbers', e, 'examples/e.run'], 'refused 2 0 table 1', status=2)


def words_of_the_reference():
    """Each number in the tables of refusals has words, its meaning is that of its row, and `help` says them."""
    refusals = runpy.run_path(str(COMMAND))['REFUSALS']
    rows = re.findall(r'^\| ([0-9]+) \| (?:0|n|entry|action|thread) \| ((?:[^|]*\|){2,3})$', (TOP / 'docs/REFERENCE.md').read_text(), re.M)
    expect('numbers without words', {int(number) for number, _ in rows} - set(refusals), set())
    for number, refusal in refusals.items():
        texts = [text for n, text in rows if int(n) == number]
        for part in refusal.meaning.split('; at entry n, ') if texts else []:
            expect('%d: %s' % (number, part), any(part in text for text in texts), True)
        expect('help %d' % number, words(number), 'refused %d: %s; %s' % (number, refusal.meaning, refusal.advice))
    for (program, number), refusal in runpy.run_path(str(COMMAND))['OF_PROGRAM'].items():
        expect('%d of %s' % (number, program), any(refusal.meaning in text for n, text in rows if int(n) == number), True)


def listed_as_given():
    """With --given the action of each line is that of the table as given, by tests/filling.py's bodies: old threads without forks and joins of new ones; the rest of the line stays."""
    for text, quota in ('examples/e.text', 5), ('examples/e.text', 6), ('examples/repeats.text', 30), ('examples/stages.text', 40):
        given = call('asm', text)[0]
        owns = own_actions(given, filling.filled(given, quota))
        expect('%s: actions as given' % text, list(owns.values()), [str(a) for a in range(Table(given).m)])
        for command in ['list', '-p', 3, '-K', quota], ['deques', '-p', 2, '-K', quota, '--order', '0:0 1:0 0:1 1:1 ' * 60]:
            plain, shown = call(*command, text)[0].decode(), call(*command, '--given', text)[0].decode()
            rows = [line.split(' ') for line in plain.split('\n')]
            wanted = '\n'.join(' '.join(row[:3] + [owns.get(int(row[3]), '-')] + row[4:] if len(row) == 6 and row[3] != '-' else row) for row in rows)
            expect('%s --given with %d' % (command[0], quota), shown, wanted)
    refuses(['list', '-p', 2, '-K', 5, '--given', '--order', 0, 0, 2, 'examples/e.text'], '--order: refused 30: turn 3 has worker 2, and p is 2; all turns before it were taken', out=b'table 9 34 serial 6 depth 17\n1 0 0 0 fork 0\n2 0 1 - fork 0\nrefused 30 0\n')


def own_actions(given, out):
    """Of the actions of a filled-out table those of the table as given, by their numbers there as texts."""
    n, actions, owns, a = Table(given).n, Table(out).actions, {}, 0
    for first, count in Table(out).contents[:n]:
        for i in range(first, first + count):
            kind, x = actions[i]
            if kind not in (FORK, JOIN) or x < n:
                owns[i], a = str(a), a + 1
    return owns


# Designs, orders that are drawn, differences

CARPET = TOP / 'examples/carpet.design'


def designs(folder):
    """Each command on a design says what it says of the table that the design stands for, with names behind the turns unless --numbers is given."""
    text = CARPET.read_bytes()
    path = made(folder, 'carpet.table', call('asm', CARPET)[0]) / 'carpet.table'
    for given in (['check'], ['asm'], ['canon'], ['design'], ['quota', '-p', 2, '-M', 200], ['limit', '-p', 2, '-K', 40], ['turns', '-p', 2, '-K', 40], ['fill', '-K', 30], ['run', '-p', 2, '-K', 40],
                  ['chart', '-p', 2, '-K', 30, '--rounds', 20], ['list', '-p', 2, '-K', 30, '--numbers'], ['deques', '-p', 2, '-K', 30, '--numbers'], ['dis', '--numbers'],
                  ['picture', '-p', 2, '-K', 40, '--numbers', '--trace'], ['picture', '-p', 2, '-K', 40, '--rule'], ['join', CARPET]):
        answers([*given, CARPET], call(*given, path)[0])
    answers(['cmp', '-', path], b'equal\n', text)
    named_turns(path)
    answers(['check', '-'], b'table 20 127 serial 52 depth 29 nested 3\n', call('dis', CARPET)[0])
    shown = call('dis', CARPET)[0].decode()
    expect('dis', [row in shown for row in ('thread 0 # carpet\n', 'thread 2 # row[0]/helper[0]\n', 'work # action 18 weave\n', 'alloc 40 # action 17\n')], [True] * 4)


def named_turns(path):
    """Names behind the turns: the six columns before them are the program's; the picture and the trace have them too."""
    for given in ['list', '--rounds', 60, '-K', 40], ['list', '-K', 30], ['deques', '-K', 30, '--random', 4]:
        bare, named = (call(*given, '-p', 2, table)[0].decode().splitlines() for table in (path, CARPET))
        expect('columns', [' '.join(row.split()[:6]) if row[:1].isdigit() else row for row in named], bare)
        turns = [row.split() for row in named if row[:1].isdigit()]
        expect('names', [len(turn) > 6 for turn in turns], [turn[4] != 'idle' for turn in turns])
        found = {turn[2]: turn[6] for turn in turns if turn[4] != 'idle'}
        expect('threads', (found['0'], found['1'], found['2']), ('carpet', 'row[0]', 'row[0]/helper[0]'))
        expect('labels', {(turn[4], *turn[7:]) for turn in turns if len(turn) > 7}, {('work', 'weave')})
    expect('dummies', any(' row[1]/dummy[1]' in row for row in named), True)
    listing = call('list', '-p', 2, '-K', 40, '--rounds', 20, CARPET)[0]
    for more in (), ('--trace',):
        drawn = subprocess.run([sys.executable, 'tools/picture.py', '-p', '2', '-K', '40', *more], input=listing, stdout=subprocess.PIPE, check=True).stdout
        answers(['picture', '-p', 2, '-K', 40, '--rounds', 20, *more, CARPET], drawn)
        expect('names in it', [name in drawn.decode() for name in ('row[0]', 'weave')], [True, True])
    bare, named = (json.loads(call('picture', '-p', 2, '-K', 40, '--rounds', 60, '--trace', table)[0])['traceEvents'] for table in (path, CARPET))
    threads = {'thread %d' % t: name for t, name in enumerate(re.findall('^thread [0-9]+ # (.*)$', call('dis', CARPET)[0].decode(), re.M))}
    expect('trace', [{**event, 'name': event['name'].replace('weave', 'work')} for event in named], [{**event, 'name': threads.get(event['name'], event['name'])} for event in bare])


DESIGNS_REFUSED = [
    (('row * 6', 'row * 600'), 4, 'refused 2: job carpet has 1,802 threads, and a table has at most 1,024; row * 600 passes it'),
    (('weave * 3', 'weave * 9000'), 10, 'refused 2: job row has 9,015 actions, and a table has at most 8,192; work weave * 9000 passes it'),
    (('alloc 10', 'alloc 0'), 15, 'refused 6: in job helper, alloc 0; give at least 1 unit, or take it out'),
    (('free 40', 'free 400'), 4, 'refused 10: in job carpet, row[5], joined here, ends 360 below 0: in line 12 it holds 40 and frees 400'),
    (('free 10', 'free 11'), 4, 'refused 10: in job carpet, row[4], joined here, ends 2 below 0: in line 15 row[4]/helper[1] holds 10 and frees 11'),
    (('free 2', 'free 3'), 5, 'refused 10: in job carpet, carpet holds 2 here and frees 3; free less, or after the join of the child that drew it'),
    (('together { helper * 2 }', 'fork helper as a; fork border as b; join a; join b'), 11,
     'refused 9: in job row, expected join b, the latest child not yet joined (forked in line 11)'),
    (('together { helper * 2 }', 'fork helper as a; fork helper as b; join b'), 13,
     'refused 9: in job row, expected join a, the latest child not yet joined (forked in line 11), before row[0] ends'),
    (('border { work }', 'border { free 1 }'), 5,
     'refused 10: in job carpet, border, joined in line 4, ends 1 below 0: in line 16 it holds 0 and frees 1; so carpet holds 1 here and frees 2'),
    (('helper * 2', 'helpr * 2'), 11, 'there is no job helpr; is it helper?'),
    (('; border', ''), 16, 'job border is named nowhere below the first job, carpet, which is the root; name it in a together or a fork, or take it out'),
    (('border { work }', 'border { together { carpet } }'), 16, 'jobs in a circle: carpet > border > carpet; no job may lead back to itself'),
    (('border { work }', 'helper { work }'), 16, 'a second job helper; the first is in line 15'),
    (('work weave', 'wrok weave'), 10, "expected alloc, free, work, together, fork or join, found 'wrok'; a job is named in together { .. }, or in fork wrok as NAME"),
]


def designs_refused(folder):
    """Faults with the line of the design, and refusals of the assembler with its line and job; --numbers as of a text."""
    text = CARPET.read_text()
    for (old, new), line, why in DESIGNS_REFUSED:
        data = text.replace(old, new).encode()
        refuses(['check', '-'], '<stdin>:%d: %s' % (line, why), data)
        found = re.match('refused ([0-9]+)', why)
        out, told, status = call('check', '--numbers', '-', data=data)
        expect('--numbers', (out, status, bool(re.fullmatch('refused %s [0-9]+ line [0-9]+\n' % found[1] if found else 'line %d: .*\n' % line, told))), (b'', 1, True))
    allocs = text.replace('alloc 40', 'alloc 4000').encode()
    refuses(['list', '-p', 2, '-K', 1, '-'], '<stdin>:9: refused 44: in job row, ' + words(44).split(': ', 1)[1], allocs)
    refuses(['join', CARPET, '-'], '<stdin>:4: ' + DESIGNS_REFUSED[0][2], text.replace('row * 6', 'row * 600').encode())
    kept = made(folder, 'kept.map', b'as it was') / 'kept.map'
    refuses(['asm', '-', '--map', kept], '<stdin>:4: ' + DESIGNS_REFUSED[0][2], text.replace('row * 6', 'row * 600').encode())
    expect('--map of a refusal', kept.read_bytes(), b'as it was')


def maps(folder):
    """Maps by their ending; they are compiled by tests/named_designs.py."""
    for ending, first in ('map', '# carpet.design: thread NUMBER'), ('h', '/* Names and lines of carpet.design,'), ('rs', '//! Names and lines of carpet.design,'):
        path = folder / ('carpet.' + ending)
        answers(['asm', CARPET, '--map', path], call('asm', CARPET)[0])
        expect(ending, path.read_text().startswith(first), True)
    rows = (folder / 'carpet.map').read_text().splitlines()
    expect('map', [row in rows for row in ('thread 2 15 row[0]/helper[0]', 'action 18 10 weave', 'action 17 9 alloc', 'action 1 4 fork', 'action 16 6 end')], [True] * 5)
    answers(['fill', '-K', 30, CARPET, '--map', folder / 'filled.map'], call('fill', '-K', 30, CARPET)[0])
    rows = (folder / 'filled.map').read_text().splitlines()
    expect('filled out', [row in rows for row in ('thread 20 9 row[0]/dummy[0]', 'action 17 9 fork', 'action 19 9 alloc', 'action 20 10 weave')], [True] * 4)


def orders_drawn():
    """What a seed draws is told so that --order takes it; DFDeques in rounds has the choice that is given."""
    for given in ['list', 'examples/e.text'], ['deques', 'examples/e.text'], ['deques', '--rounds', 9, 'examples/e.text'], ['list', CARPET], ['chart', 'examples/e.text']:
        name, *rest = given
        out, told, status = call(name, '-p', 3, '-K', 6, '--random', 7, *rest)
        order = re.fullmatch('--order "([0-9: ]*)"\n', told)[1]
        expect('%s drawn' % given, (out, status), (call(name, '-p', 3, '-K', 6, '--order', order, rest[-1])[0], 0))
        if '--rounds' in given:
            expect('workers in rounds', [word.split(':')[0] for word in order.split()], list('012012012'))
        expect('again', call(name, '-p', 3, '-K', 6, '--random', 7, *rest), (out, told, 0))
        expect('another seed', call(name, '-p', 3, '-K', 6, '--random', 8, *rest)[1] == told, False)
    for more, choice in ((), 0), (('--choices', 1), 1):
        rounds = ' '.join('%d:%d' % (turn % 2, choice) for turn in range(2048))
        answers(['deques', '-p', 2, '-K', 6, *more, 'examples/tree.text'], call('deques', '-p', 2, '-K', 6, '--order', rounds, 'examples/tree.text')[0])
        answers(['deques', '-p', 2, '-K', 6, '--rounds', 5, *more, 'examples/e.text'], call('deques', '-p', 2, '-K', 6, '--order', rounds[:19], 'examples/e.text')[0])
    drawn = call('picture', '-p', 2, '-K', 6, '--deques', '--random', 2, 'examples/e.text')
    order = re.fullmatch('--order "(.*)"\n', drawn[1])[1]
    expect('picture', drawn[0], call('picture', '-p', 2, '-K', 6, '--deques', '--order', order, 'examples/e.text')[0])
    refuses(['deques', '-p', 2, '-K', 6, '--choices', 2, 'examples/e.text'], '--choices 2: refused 49: turn 1 has choice 2, and p is 2; all turns before it were taken',
            out=b'table 3 12 serial 6 depth 8\nrefused 49 0\n')


def differences(folder):
    """Where two tables differ, by the thread of the canonical form; exit status 1, as of cmp."""
    stages = (TOP / 'examples/stages.text').read_text()
    other = made(folder, 'other.text', ('# one\n# two\n' + stages.replace('alloc 8\n  work\n  work', 'alloc 9\n  work\n  work').replace('free 8\n  end\n\nthread 3', 'free 9\n  end\n\nthread 3')).encode())
    expect('cmp', call('cmp', 'examples/stages.text', other / 'other.text'), (b'before\nthread 2 of the canonical form: alloc 8 against alloc 9; line 22 and line 24\n', '', 1))
    expect('cmp', call('cmp', other / 'other.text', 'examples/stages.text'), (b'after\nthread 2 of the canonical form: alloc 9 against alloc 8; line 24 and line 22\n', '', 1))
    expect('cmp --numbers', call('cmp', '--numbers', 'examples/stages.text', other / 'other.text'), (b'before\n', '', 1))
    longer = made(folder, 'longer.text', stages.replace('fork 5    #', 'work\n  fork 5    #').encode()) / 'longer.text'
    expect('cmp', call('cmp', 'examples/stages.text', longer)[0].decode().split('\n')[1], 'thread 3 of the canonical form: fork 5 against work; line 29 and line 29')
    expect('cmp', call('cmp', 'examples/e.table', CARPET), (b'before\nthread 0 of the canonical form (carpet): fork 1 against alloc 2; action 0 and line 3\n', '', 1))
    shifted = made(folder, 'shifted.design', CARPET.read_bytes().replace(b'helper * 2', b'helper')) / 'shifted.design'
    expect('cmp', call('cmp', CARPET, shifted)[0].decode().split('\n')[1], 'thread 1 of the canonical form (row[0]): fork helper[1] against join helper; line 11 and line 11')


def remarks():
    """What is left at the root's end is a remark, and no refusal; what a parent frees is none."""
    leaves = b'thread 0\n fork 1\n fork 2\n join 2\n join 1\n free %d\n end\nthread 1\n alloc 18\n end\nthread 2\n alloc 1\n end\n'
    facts = program('tablecheck', program('tableasm', leaves % 1))
    expect('remark', call('check', '-', data=leaves % 1), (facts, '<stdin>: remark: thread 1 leaves 18 units; thread 2 leaves 1 unit; the root leaves 18 at its end\n', 0))
    expect('what is held at the end', call('run', '-p', 1, '-K', 99, '-', data=leaves % 1)[0].split()[-1], b'18')
    answers(['check', '--numbers', '-'], facts, leaves % 1)
    answers(['check', '-'], facts, leaves % 19)
    answers(['check', 'examples/parts.text'], program('tablecheck', program('tableasm', (TOP / 'examples/parts.text').read_bytes())))
    design = b'a { together { b * 3; c }; free 2 }\nb { alloc 6 }\nc { alloc 1 }\n'
    expect('remark', call('check', '-', data=design)[1], '<stdin>: remark: b[0] and 2 more like it leave 6 units each; c leaves 1 unit; the root leaves 17 at its end\n')
    expect('remark', call('check', '-', data=b'a { alloc 3 }\n')[1], '<stdin>: remark: the root leaves 3 at its end\n')


def laid_out(folder):
    """fmt keeps comments and words; what is laid out stays so."""
    text = b'#top\nthread\t0   # the root\nfork 1 #x\n\n\n\n    # inside\n join 1\n end\n  thread 1\nend\n\n'
    wanted = b'#top\nthread 0  # the root\n  fork 1  #x\n\n  # inside\n  join 1\n  end\nthread 1\n  end\n'
    answers(['fmt', '-'], wanted, text)
    answers(['fmt', '-'], wanted, wanted)
    expect('one table', call('asm', '-', data=text)[0], call('asm', '-', data=wanted)[0])
    jobs = b'a{work;;together{b*2\n b};# behind\n\n\n # alone\n alloc 1;free 1}b   {work weave*3;}# end'
    wanted = b'a {\n  work\n  together {\n    b * 2\n    b\n  }  # behind\n\n  # alone\n  alloc 1\n  free 1\n}\nb { work weave * 3 }  # end\n'
    answers(['fmt', '-'], wanted, jobs)
    answers(['fmt', '-'], wanted, wanted)
    for path in sorted((TOP / 'examples').glob('*.design')):
        answers(['fmt', path], path.read_bytes())
    answers(['fmt', '-'], b'thread 0\n  fork 7\n  free 5\n', b' thread 0\nfork 7\n free  5')
    refuses(['fmt', 'examples/e.table'], 'examples/e.table: no text; `wivakkol dis` writes one of bytes')
    refuses(['fmt', '-'], '<stdin>:1: expected a } at the end of job a, which begins in line 1', b'a { work')


# Usage, reading, writing

def wrong_usage():
    e = 'examples/e.text'
    for given, line in [
            ([], 'which command? check, asm, dis, design, fmt, quota, limit, turns, fill, run, list, chart, deques, picture, join, canon, cmp, screen (wivakkol help)'),
            (['chekc', e], "no command is called 'chekc'; did you mean check? (wivakkol help)"),
            (['List', e], "no command is called 'List'; did you mean list? (wivakkol help)"),
            (['zzz', e], "no command is called 'zzz' (wivakkol help)"),
            (['help', 'pictrue'], "no command and no refusal is called 'pictrue'; did you mean picture? (wivakkol help)"),
            (['run', '-k', '6', e], 'run takes no -k; did you mean -K? (wivakkol help run)'),
            (['run', '--round=6', e], 'run takes no --round; did you mean --rounds? (wivakkol help run)'),
            (['check', '--nmubers', e], 'check takes no --nmubers; did you mean --numbers? (wivakkol help check)'),
            (['check', '--papers', e], 'check takes no --papers (wivakkol help check)'),
            (['help', 'nothing'], "no command and no refusal is called 'nothing' (wivakkol help)"),
            (['help', '22'], "no command and no refusal is called '22' (wivakkol help)"),
            (['check'], 'check takes one table, found 0 (wivakkol help check)'),
            (['check', e, e], 'check takes one table, found 2 (wivakkol help check)'),
            (['cmp', e], 'cmp takes two tables, found 1 (wivakkol help cmp)'),
            (['join', '-', '-'], 'standard input is read once (wivakkol help join)'),
            (['list', '-p2', '-K2', '--order', '@-', '-'], 'standard input is read once (wivakkol help list)'),
            (['check', '-p', '2', e], 'check takes no -p (wivakkol help check)'),
            (['run', '-p', '2', e], 'run needs -K K (wivakkol help run)'),
            (['quota', e], 'quota needs -p P and -M M (wivakkol help quota)'),
            (['run', '-p', '2', '-p', '2', '-K', '6', e], '-p is given twice (wivakkol help run)'),
            (['run', '-p', 'two', '-K', '6', e], "-p takes a number from 1 to 16, not 'two' (wivakkol help run)"),
            (['run', '-p', '2', '-K', '-1', e], "-K takes a number from 1 to 16777215, not '-1' (wivakkol help run)"),
            (['quota', '-p', '2', '-M', str(2 ** 64), e], "-M takes a number from 0 to %d, not '%d' (wivakkol help quota)" % (2 ** 64 - 1, 2 ** 64)),
            (['run', e, '-p'], '-p needs a value, P (wivakkol help run)'),
            (['check', '--numbers=1', e], '--numbers takes no value (wivakkol help check)'),
            (['list', '-p', '2', '-K', '6', '--order', '0', '--rounds', '4', e], '--order or --rounds, not both (wivakkol help list)'),
            (['list', '-p', '2', '-K', '6', '--order', '0 256', e], "--order takes a number from 0 to 255, not '256' (wivakkol help list)"),
            (['list', '-p', '2', '-K', '6', '--rounds', '65536', e], 'an order of 65536 turns: it has at most 4096 (wivakkol help list)'),
            (['list', '-p', '2', '-K', '6', '--order', '0:1', e], "--order takes a number from 0 to 255, not '0:1' (wivakkol help list)"),
            (['deques', '-p', '2', '-K', '6', '--rounds', '65536', e], 'an order of 65536 turns: it has at most 2048 (wivakkol help deques)'),
            (['deques', '-p', '2', '-K', '6', '--order', '0', '--random', '1', e], '--order or --random, not both (wivakkol help deques)'),
            (['list', '-p', '2', '-K', '6', '--rounds', '--random', '1', e], '--rounds or --random, not both: in rounds there is nothing to draw (wivakkol help list)'),
            (['deques', '-p', '2', '-K', '6', '--choices', '0', '--random', '1', e], '--choices is for DFDeques in rounds: it takes no --order and no --random (wivakkol help deques)'),
            (['picture', '-p', '2', '-K', '6', '--choices', '0', e],
             '--choices is for DFDeques in rounds: it takes no --order and no --random, and picture takes it with --deques (wivakkol help picture)'),
            (['list', '-p', '2', '-K', '6', '--random', 'x', e], "--random takes a number from 0 to %d, not 'x' (wivakkol help list)" % (2 ** 64 - 1)),
            (['asm', e, '--map', 'x.map'], '--map: examples/e.text is no design, and has no names (wivakkol help asm)'),
            (['deques', '-p', '2', '-K', '6', '--order', '0:', e], "--order takes a number from 0 to 255, not '' (wivakkol help deques)"),
            (['deques', '-p', '2', '-K', '6', '--order', '0:1:2', e], "--order takes a number from 0 to 255, not '1:2' (wivakkol help deques)"),
            (['deques', '-p', '2', '-K', '6', '--order', '0 ' * 32768, e], 'an order of 32768 turns: it has at most 2048 (wivakkol help deques)'),
            (['picture', '-p', '2', '-K', '6', '--deques', '--order', '0', '-b', '1', e],
             '--deques: DFDeques has no b, and takes no -b and no --rule (wivakkol help picture)'),
            (['picture', '-p', '2', '-K', '6', '-b', '1', '--rule', e], '--rule finds b: it takes no -b (wivakkol help picture)'),
            (['limit', '-p', '2', '-K', '6', '-b', '1', '-c', '1', e], '-c: DFDeques has no b, and takes no -b (wivakkol help limit)'),
            (['check', 'nosuch.text'], 'nosuch.text: No such file or directory'), (['check', 'examples'], 'examples: Is a directory'),
            (['list', '-p', '2', '-K', '6', '--order', '@nosuch', e], 'nosuch: No such file or directory'),
            (['check', e, '-o', 'nosuch/file'], 'nosuch/file: No such file or directory')]:
        refuses(given, 'wivakkol: ' + line, status=2)
    expect('picture -b 0', call('picture', '-p', 2, '-K', 6, '-b', 0, e)[2], 2)
    for given in ['--version'], ['-V']:
        out, told, status = call(*given)
        expect(given, (out.split(b'\n')[0].decode(), len(out.split(b'\n')), told, status), ('wivakkol %s' % VERSION, 4, '', 0))
    for given in ['help'], ['-h'], ['--help']:
        expect(given, call(*given), call('help'))
    expect('check -h', call('check', '-h'), call('help', 'check'))


def writing_fails(folder):
    device, reason = os.path.join(os.path.dirname(os.devnull), 'full'), 'No space left on device'
    for given in ['check', 'examples/e.text'], ['list', '-p', '2', '-K', '6', 'examples/tree.text'], ['help'], ['--version']:
        with open(device, 'wb') as out:
            done = subprocess.run([str(COMMAND), *given], stdout=out, stderr=subprocess.PIPE)
        expect('%s > %s' % (given, device), (done.stderr.decode(), done.returncode), ('wivakkol: <stdout>: %s\n' % reason, 2))
    refuses(['asm', 'examples/e.text', '-o', device], 'wivakkol: %s: %s' % (device, reason), status=2)
    with open(device, 'wb') as out:
        done = subprocess.run([str(COMMAND), 'check', 'nosuch'], stderr=out)
    expect('standard error full', done.returncode, 2)
    closed = subprocess.run(['bash', '-c', '"$0" check examples/e.text >&-', str(COMMAND)], stderr=subprocess.PIPE)
    expect('standard output closed', (closed.stderr.decode(), closed.returncode), ('wivakkol: <stdout>: Bad file descriptor\n', 2))
    closed = subprocess.run(['bash', '-c', '"$0" check - <&-', str(COMMAND)], stdout=subprocess.PIPE, stderr=subprocess.PIPE)
    expect('standard input closed', (closed.stdout, closed.stderr.decode(), closed.returncode), (b'', 'wivakkol: <stdin>: closed\n', 2))
    kept = made(folder, 'kept', b'as it was') / 'kept'
    expect('refused', call('asm', 'examples/e.run', '-o', kept)[2], 1)
    expect('-o of a refusal', kept.read_bytes(), b'as it was')


def reader_leaves():
    """A pipe that is closed before anything is written: no words, status 2; nobody is told twice."""
    for given in ['dis', '-'], ['list', '-p', '2', '-K', '6', '-'], ['picture', '-p', '2', '-K', '6', '-']:
        started = subprocess.Popen([str(COMMAND), *given], stdin=subprocess.PIPE, stdout=subprocess.PIPE, stderr=subprocess.PIPE)
        started.stdout.close()
        started.stdin.write(E)
        started.stdin.close()
        expect('%s, closed' % given, (started.stderr.read(), started.wait()), (b'', 2))
        started.stderr.close()


# The screen

def screens(folder):
    """The page with a table in it, as given; the page alone; what is refused; how it is opened."""
    page, path, text = (TOP / 'dist/screen.html').read_bytes(), folder / 'screen.html', (TOP / 'examples/e.text').read_bytes()
    place = re.compile(rb'(<script type="application/json" id="data-start">)(.*?)(</script>)')
    for given, data, wanted in [(['-p', 2, '-K', 6, 'examples/e.text'], b'', {'name': 'e.text', 'table': text, 'p': 2, 'K': 6}),
                                (['-p', 17, '-K', 0, '-M', 12, '-'], E, {'name': '<stdin>', 'table': E, 'p': 17, 'K': 0, 'M': 12}), ([], b'', None),
                                (['-p', 2, '-K', 40, CARPET], b'', {'name': 'carpet.design', 'table': call('dis', CARPET)[0], 'p': 2, 'K': 40})]:
        answers(['screen', *given, '-o', path], b'', data)
        found = place.search(path.read_bytes())
        start = json.loads(found[2])
        if start:
            start['table'] = base64.b64decode(start['table'])
        expect('screen %s' % given, (start, place.sub(rb'\1null\3', path.read_bytes()) == page), (wanted, True))
        expect('nothing that ends the script', b'<' in found[2], False)
    refuses(['screen', '-p', 2, '-K', 6, '-o', path, '-'], '<stdin>:2: refused 7: thread 0 does not end; put end after this', b'thread 0\n  work\n')
    refuses(['screen', '-p', 2, 'examples/e.text'], 'wivakkol: screen needs -p P and -K K for a table (wivakkol help screen)', status=2)
    refuses(['screen', '-b', 2], 'wivakkol: screen takes no -b (wivakkol help screen)', status=2)
    tools = folder / 'opens'
    tools.mkdir()
    (tools / 'xdg-open').write_text('#!/bin/sh\ncp "$1" "%s/seen.new" && mv "%s/seen.new" "%s/seen"\n' % (folder, folder, folder))
    (tools / 'xdg-open').chmod(0o755)
    for more, line in ('%s:' % tools, r'wivakkol: the screen is (\S+)\n'), ('', r'wivakkol: the screen is (\S+): open it in a browser\n'):
        only = folder / 'only'
        only.mkdir(exist_ok=True)
        for name in 'env', 'python3', 'cp', 'mv', 'sh':
            if not (only / name).exists():
                os.symlink(shutil.which(name), only / name)
        out, told, status = call('screen', env={'PATH': more + str(only)})
        found = re.fullmatch(line, told)
        expect('opened', (out, bool(found), status), (b'', True, 0))
        expect('the page', pathlib.Path(found[1]).read_bytes() == page, True)
        for _ in range(200 if more else 0):
            if not (folder / 'seen').exists():
                time.sleep(0.05)
        expect('what was opened', (folder / 'seen').read_bytes() == page, True)
        pathlib.Path(found[1]).unlink()


# Programs that are not built


def terminal(folder):
    """Bytes are not written to a terminal, texts are."""
    for given, status in (['asm', 'examples/e.text'], 2), (['check', 'examples/e.text'], 0):
        here, there = pty.openpty()
        done = subprocess.run([str(COMMAND), *given], stdout=there, stderr=subprocess.PIPE)
        os.close(there)
        os.close(here)
        expect('%s on a terminal' % given, done.returncode, status)


# Where the programs are from

OLD_KIT = 'an older kit\n'


def cloned(top):
    """A repository of the tools and dist/, in which nothing is built."""
    shutil.rmtree(top, ignore_errors=True)
    for name in 'tools', 'dist':
        shutil.copytree(TOP / name, top / name, ignore=shutil.ignore_patterns('__pycache__'))
    shutil.copy(TOP / 'crates.txt', top)
    return top


def tree(folder):
    """The same with the crates."""
    top = cloned(folder / 'top')
    for name in proving.crates():
        shutil.copytree(TOP / 'crates' / name, top / 'crates' / name, ignore=shutil.ignore_patterns('out'))
    for name in 'bin', 'stamp', 'log':
        (top / 'target' / name).mkdir(parents=True)
    return top


def built(top, name, script, kit=None):
    """A script as a program in target/bin, with the stamp that is written where it was proved."""
    path = top / 'target/bin' / name
    path.write_text(script)
    path.chmod(0o755)
    (top / 'target/stamp' / name).write_text(proving.stamp(name, kit or (TOP / 'dist/KIT').read_text()) + '\n')


def where_from(folder):
    """target/bin where it is up to date with the sources of the program and of all below it, else dist/."""
    top = tree(folder)
    here, kit = top / 'tools/wivakkol', (TOP / 'dist/KIT').read_text()
    ready, fresh = b'table 3 12 serial 6 depth 8 nested 2\n', b'from target\n'
    source, stamp = top / 'crates/table/src/lib.rt', top / 'target/stamp/tablecheck'

    def check(what, wanted):
        expect(what, call('check', 'examples/e.text', command=here), (wanted, '', 0))

    def version(folders):
        expect('--version', call('--version', command=here), (('wivakkol %s\nprograms from %s\nkit %s' % (VERSION, folders, kit)).encode(), '', 0))

    check('nothing built', ready)
    version(top / 'dist/x86_64-linux')
    built(top, 'tablecheck', '#!/bin/sh\necho from target\n')
    check('up to date', fresh)
    version('%s (tablecheck), else %s' % (top / 'target/bin', top / 'dist/x86_64-linux'))
    text = source.read_text()
    source.write_text(text + '\n')
    check('a crate below has changed', ready)
    source.write_text(text)
    check('as it was', fresh)
    (top / 'crates/tablecheck/src/more.rt').touch()
    check('a file more', ready)
    (top / 'crates/tablecheck/src/more.rt').unlink()
    built(top, 'tablecheck', '#!/bin/sh\necho from target\n', OLD_KIT)
    check('proved with a kit that is not here', ready)
    for bad in '', 'nothing\n':
        stamp.write_text(bad)
        check('a stamp of something else', ready)
    stamp.unlink()
    check('no stamp', ready)
    built(top, 'tablecheck', '#!/bin/sh\necho from target\n')
    (top / 'target/bin/tablecheck').unlink()
    check('a stamp and no program', ready)
    for name in proving.programs():
        built(top, name, '#!/bin/sh\nexit 3\n')
    version('%s (all)' % (top / 'target/bin'))
    expect('a program fails', call('check', 'examples/e.table', command=here), (b'', 'wivakkol: tablecheck ended with status 3 and no answer\n', 2))


def harmed(folder):
    """dist/ that is damaged or lacks something: one line, which says what brings it back."""
    top = tree(folder)
    here, program, again = top / 'tools/wivakkol', top / 'dist/x86_64-linux/tablecheck', '`git checkout dist` brings it back, and --build proves and builds it'

    def says(line):
        expect(line, call('check', 'examples/e.text', command=here), (b'', 'wivakkol: %s\n' % line, 2))

    data = program.read_bytes()
    for bad in data[:-1], b'', data[:64] + b'\1' + data[65:]:
        program.write_bytes(bad)
        says('%s is damaged, its bytes are not those that SUMS names; %s' % (program, again))
    sums = (top / 'dist/SUMS').read_text()
    program.write_bytes(b'of another machine')
    (top / 'dist/SUMS').write_text(sums.replace(hashlib.sha256(data).hexdigest(), hashlib.sha256(b'of another machine').hexdigest()))
    says('tablecheck cannot be started: Exec format error (it is for x86-64 Linux with glibc)')
    (top / 'dist/SUMS').write_text(sums)
    program.write_bytes(data)
    program.chmod(0o644)
    says('%s is not executable: `chmod +x` makes it so' % program)
    program.unlink()
    says('%s: No such file or directory; %s' % (program, again))
    expect('asm needs tableasm alone', call('asm', 'examples/e.text', command=here), (E, '', 0))
    program.mkdir()
    says('%s: Is a directory; %s' % (program, again))
    (top / 'dist/SUMS').unlink()
    expect('no sums', call('asm', 'examples/e.text', command=here), (b'', 'wivakkol: %s: No such file or directory; %s\n' % (top / 'dist/SUMS', again), 2))
    (top / 'dist/KIT').unlink()
    expect('no kit', call('-V', command=here)[0].split(b'\n')[2], b'kit not known')


RT = """#!/bin/sh
# rt as far as it is looked at from outside: in a crate's folder, its program in out/, which it runs
name=$(basename "$PWD")
[ $name != table ] || sleep 1
[ ! -e ../../broken ] || { echo 'src/lib.rt:1:1: error: it is not so'; echo 'fn table::larger: not proved'; echo 'logic=not-proved'; exit 1; }
[ "$1" != run ] || { mkdir -p out; ln -sf "%s/$name" out/; exec out/$name; }
"""


def builds(folder):
    """--build runs rt, which is here a script, says how far it is, and goes on with what was built."""
    top, tools = tree(folder), folder / 'kit/bin'
    tools.mkdir(parents=True)
    (tools / 'rt').write_text(RT % BIN)
    (tools / 'rt').chmod(0o755)
    shutil.copy(TOP / 'dist/KIT', folder / 'kit/KIT-ID')
    environment = {**os.environ, 'PATH': '%s:%s' % (tools, os.environ['PATH'])}
    here, count, crates = top / 'tools/wivakkol', len(proving.programs()), len(proving.closure(proving.programs()))
    first = 'wivakkol: proving and building %d programs, from nothing half an hour or more' % count
    (top / 'broken').touch()
    out, told, status = call('check', '--build', 'examples/e.text', command=here, env=environment)
    expect('rt fails', (out, told.split('\n')[0], told.split('\n')[-2], status),
           (b'', first, 'wivakkol: table NOT PROVED: src/lib.rt:1:1: error: it is not so; fn table::larger: not proved (rt ended with status 1; target/log/table.out has all that it said)', 2))
    (top / 'broken').unlink()
    out, told, status = call('check', '--build', 'examples/e.text', command=here, env=environment)
    expect('rt builds', (out, status), (b'table 3 12 serial 6 depth 8 nested 2\n', 0))
    lines = told.split('\n')[:-1]
    expect('how far it is', all(re.fullmatch(r'\d+ of %d crates proved, 0:\d\d(; at work on \w+)?' % crates, line) for line in lines[1:]), True)
    expect('at work', (lines[0], any(line.endswith('at work on table') for line in lines), lines[-1].split(',')[0]), (first, True, '%d of %d crates proved' % (crates, crates)))
    expect('built', call('check', '--build', 'examples/e.text', command=here, env=environment), (b'table 3 12 serial 6 depth 8 nested 2\n', '', 0))
    without = {**os.environ, 'PATH': '/nowhere'}
    (top / 'target/stamp/tabledis').unlink()
    end, terminal = pty.openpty()
    done = subprocess.run([str(here), 'check', '--build', 'examples/e.text'], env=environment, stdout=subprocess.PIPE, stderr=terminal)
    os.close(terminal)
    told = os.read(end, 65536).decode()
    os.close(end)
    expect('on a terminal', (done.returncode, told.count('\n'), '\r%d of %d crates proved' % (crates, crates) in told), (0, 2, True))
    (top / 'target/stamp/tabledis').unlink()
    out, line, status = call(here, 'dis', '--build', 'examples/e.text', command=sys.executable, env=without)
    expect('no rt', (out, line.split('\n')[-2], status), (b'', 'wivakkol: rt, which proves and builds, cannot be started: No such file or directory', 2))


def without_rt(folder):
    """The README's first command with Python 3 alone on the path, from the repository as it is cloned."""
    top, alone = tree(folder), folder / 'alone'
    alone.mkdir()
    (alone / 'python3').symlink_to(sys.executable)
    command = re.search(r'^    tools/wivakkol (list .*)$', (TOP / 'README.md').read_text(), re.M)[1].split()
    shutil.copytree(TOP / 'examples', top / 'examples')
    listing = re.search(r'(    table 3 12 serial.*?)\n\n', (TOP / 'README.md').read_text(), re.S)[1]
    wanted = ''.join(line[4:] + '\n' for line in listing.split('\n')).encode()
    expect('README', call(*command, command=top / 'tools/wivakkol', cwd=top, env={'PATH': str(alone)}), (wanted, '', 0))


def main():
    if sys.argv[1:] == ['--write']:
        return page(True)
    global COMMAND
    page(False)
    help_examples(rows_of_page())
    with tempfile.TemporaryDirectory() as name:
        folder = pathlib.Path(name)
        COMMAND = cloned(folder / 'clone') / 'tools/wivakkol'  # from here on with the programs of dist/, held to those of target/bin
        on_the_examples(folder)
        ways_to_give(folder)
        bytes_refused(folder)
        texts_refused(folder)
        lines_of_actions(folder)
        options_refused()
        designs(folder)
        designs_refused(folder)
        maps(folder)
        orders_drawn()
        differences(folder)
        remarks()
        laid_out(folder)
        words_of_the_reference()
        listed_as_given()
        wrong_usage()
        writing_fails(folder)
        reader_leaves()
        terminal(folder)
        screens(folder)
        where_from(folder)
        harmed(folder)
        builds(folder)
        without_rt(folder)
    print('%d answers, refusals and statuses as they should be' % count)


if __name__ == '__main__':
    main()
