"""Runs the screen's calls and runs under node against the programs: listings, wall charts, limits, turns and traces of every example and of random tables, both schedulers, all orders, allocs
above K, marks, jumps and links; what it must refuse; and whether dist/screen.html is what tools/screen.py makes. Left out, and said so, where there is no node.

usage: python3 tests/screen.py [SEED]    (from the repository's top, after `make build`)
"""
import base64
import json
import pathlib
import random
import re
import shutil
import subprocess
import sys
import tempfile

from tables import drawn

sys.path.insert(0, 'tools')
import picture
import screen

EXAMPLES = [pathlib.Path('examples/%s.text' % name) for name in screen.EXAMPLES]
RUNS = 240
count = 0


def expect(what, found, wanted):
    global count
    count += 1
    if found != wanted:
        sys.exit('%s: expected\n%s\nfound\n%s' % (what, str(wanted)[:2000], str(found)[:2000]))


def program(name, data):
    done = subprocess.run(['target/bin/' + name], input=data, stdout=subprocess.PIPE, stderr=subprocess.PIPE)
    return (done.stdout + done.stderr).decode()


def coded(data):
    return base64.b64encode(data).decode()


# What is run

def rule(rng, p):
    return {'order': rng.choice(['rounds', 'random', 'worst']), 'seed': rng.randrange(1000), 'choice': rng.choice(['zero', 'random', 'chosen']), 'choiceSeed': rng.randrange(1000),
            'chosen': rng.randrange(p)}


def steps(rng, p, to_the_end):
    """Turns by rules, with jumps, marks, ways back and other tries between them."""
    found = [['advance', rule(rng, p), rng.choice([1, 7, 60, 300])]]
    for _ in range(rng.randint(0, 6)):
        name = rng.choice(['advance', 'previewed', 'jump', 'mark', 'back', 'swap'])
        what = {'advance': rng.randint(1, 120), 'previewed': rng.randint(1, 40), 'jump': rng.random(), 'mark': rng.randrange(3), 'back': rng.randrange(3), 'swap': 0}[name]
        found.append([name, rule(rng, p), what])
    if to_the_end:
        found.append(['advance', rule(rng, p), 1200])
    return found


def specs(rng):
    tables = [(path.stem, program_bytes('tableasm', path.read_bytes())) for path in EXAMPLES]
    found = []
    for i in range(RUNS):
        if i < 60:
            name, table = tables[i % len(tables)]
        else:
            threads = rng.choice([1, 2, 3, 5, 12, 40, 120])
            name, table = 'random %d' % i, drawn(rng, threads, rng.randint(threads, 6 * threads + 20), rng.choice([[1], [2, 6], [9], [4, 20, 33]]))
        largest = max([int.from_bytes(table[a + 1:a + 4], 'little') for a in range(4 + 4 * int.from_bytes(table[:2], 'little'), len(table), 4) if table[a] == 2], default=1)
        p, kind = rng.choice([1, 2, 3, 4, 8, 16]), rng.choice(['asyncdf', 'asyncdf', 'dfdeques'])
        K = rng.choice([largest, largest, largest + rng.randint(0, largest), 16777215, max(1, largest // 2), max(1, largest // 5)])
        b = rng.choice([None, None, 1, 2, 5]) if kind == 'asyncdf' else None
        found.append({'name': '%s, %s, p %d, K %d, b %s' % (name, kind, p, K, b), 'kind': kind, 'table': coded(table), 'p': p, 'K': K, 'b': b, 'steps': steps(rng, p, rng.random() < 0.6)})
    return found


def program_bytes(name, data):
    return subprocess.run(['target/bin/' + name], input=data, stdout=subprocess.PIPE, check=True).stdout


# Against the programs

def front(spec):
    return bytes([spec['p']]) + spec['K'].to_bytes(3, 'little')


def given_order(words):
    return bytes(int(number) for word in words.split() for number in word.split(':'))


def check_try(spec, table, found):
    """The listing and the wall chart are those of the programs over the same order."""
    order = given_order(found['order'])
    data = front(spec) + len(order).to_bytes(2, 'little') + order + table
    expect('%s: listing' % spec['name'], found['listing'], program('turnlist' if spec['kind'] == 'asyncdf' else 'dequelist', data))
    if spec['kind'] == 'asyncdf':
        expect('%s: wall chart' % spec['name'], ''.join(line + '\n' for line in found['chart']), program('wallchart', data))
    return picture.read_listing(found['listing'], spec['kind'] == 'dfdeques')


def check_numbers(spec, table, found, run):
    """Facts, limits and the least b."""
    p, filled = spec['p'], program_bytes('filltable', spec['K'].to_bytes(3, 'little') + table)
    expect('%s: facts' % spec['name'], 'table %d %d serial %d depth %d nested %d\n' % tuple(found['facts']), program('tablecheck', filled))
    expect('%s: turns' % spec['name'], 'limit %d\n' % found['most'], program('maxturns', front(spec) + bytes(4) + table))
    every = dict(zip(*[iter(program('memlimit', front(spec) + bytes(4) + table).split())] * 2))
    expect('%s: any p' % spec['name'], str(found['limits']['parallel']), every['parallel'])
    if spec['kind'] == 'asyncdf':
        expect('%s: every order' % spec['name'], str(found['limits']['every']), every['memory'])
        if spec['b']:
            expect('%s: with b' % spec['name'], 'memory %d' % found['limits']['paced'], ' '.join(program('memlimit', front(spec) + spec['b'].to_bytes(4, 'little') + table).split()[:2]))
        least, seen = picture.least_b(run.turns[:found['turn']]), found['kept']
        expect('%s: least b' % spec['name'], max(1, seen), least)
        expect('%s: b is kept' % spec['name'], spec['b'] is None or seen <= spec['b'], True)
    else:
        wanted = program('dequelimit', front(spec) + p.to_bytes(4, 'little') + table).split()
        expect('%s: limits' % spec['name'], [str(found['limits']['every']), str(found['limits']['near'])], [wanted[1], wanted[3]])
    fits, quota, memory = found['fits']
    line = 'quota %d memory %d\n' % (quota, memory) if fits else 'none memory %d quota %d\n' % (memory, quota)
    expect('%s: fit' % spec['name'], line, program('fitquota', bytes([p]) + (spec['b'] or 0).to_bytes(4, 'little') + (100).to_bytes(8, 'little') + table))


def actions_of(table):
    threads = int.from_bytes(table[:2], 'little')
    return [table[a:a + 4] for a in range(4 + 4 * threads, len(table), 4)]


def check_run(spec, found):
    table = base64.b64decode(spec['table'])
    if 'refused' in found:
        answer = program('turnlist', front(spec) + bytes(2) + table)
        return expect('%s: refusal' % spec['name'], 'refused %d %d\n' % (found['refused'], found['place']), answer)
    runs = [check_try(spec, table, one) for one in found['tries']]
    check_numbers(spec, table, found, runs[0])
    if found['trace'] is not None:
        expect('%s: trace' % spec['name'], found['trace'], picture.trace(runs[0], spec['p']))
    if len(runs) == 2:
        orders = [re.findall(r'\S+', one['order']) for one in found['tries']]
        same = next((i for i, (a, b) in enumerate(zip(*orders)) if a != b), min(map(len, orders)))
        expect('%s: where the tries part' % spec['name'], found['same'], same)
    filled = actions_of(program_bytes('filltable', spec['K'].to_bytes(3, 'little') + table))
    expect('%s: actions of the table as given' % spec['name'], [filled[i] for i, action in enumerate(found['given']) if action >= 0], actions_of(table))


# What is refused

WRONG = ['thread 0\n  fork 1\n  end\nthread 1\n  end\n', 'thread 0\n  free 1\n  end\n', 'thread 0\n  weave\n  end\n', 'thread 0\n  alloc\n  end\n', 'thread 0\n  work 1\n  end\n', 'thread 1\n  end\n',
         'thread 0\r\n  end\r\n', '\ufeffthread 0\n  end\n', 'thread 0\n  end\nthread 1\n  end\n', 'thread 0\n  alloc 0\n  end\n', '', '\n', 'thread 0\n  alloc 16777216\n  end\n',
         'thread 0\n  join 1\n  fork 1\n  end\nthread 1\n  end\n', 'thread 0\n', 'thread 0\n  end\n  work\n']
LONG = b'#' * 262143 + b'\n'
PICTURE = b'\x89PNG\r\n\x1a\n' + bytes(64)


def files():
    e = pathlib.Path('examples/e.table').read_bytes()
    found = [text.encode() for text in WRONG]
    found += [LONG + b'thread 0\n end\n', LONG[9:] + b'\nthread 0\n  end\n'[:9], PICTURE, 'thread 0\n  end\n'.encode('utf-16'), 'thread 0\n  end\n'.encode('utf-16-le'), e, e[:-1], e + b'\0',
              bytes(3), b'\xff' * 40, e + bytes(40000), b'{"wivakkol": 1', b'{"wivakkol": 1}']
    return found


def check_files(found):
    for data, seen in zip(files(), found):
        is_text = len(data) > 1 and data[1] >= 9
        what = 'file %s' % ascii(data[:30])
        if data.startswith((b'\x89PNG', b'\xff\xfe', b't\0')):
            expect(what, list(seen), ['message'])
        elif data.startswith(b'{'):
            expect(what, list(seen), ['state'] if data.endswith(b'}') else ['message'])
        elif not is_text:
            line = program('tabledis', data)
            expect(what, ('refused %d %d\n' % (seen['refused'], seen['place'])) if 'refused' in seen else seen['text'], line)
        else:
            check_text(what, data, seen)


def check_text(what, data, seen):
    """What the assembler says: with its line, in its words, as the program has them."""
    answer = subprocess.run(['target/bin/tableasm'], input=data, stdout=subprocess.PIPE, stderr=subprocess.PIPE)
    told = answer.stderr.decode()
    if not told:
        return expect(what, seen['text'], data.decode())
    if told.startswith('text above'):
        return expect(what, seen['refused'], 62)
    line = re.match(r'line (\d+): (.*)', told)
    if line:
        return expect(what, (seen['refused'], seen['line'], seen['sentence']), (63, int(line[1]), 'refused 63: ' + line[2]))
    number, place, line = re.match(r'refused (\d+) (\d+)(?: line (\d+))?', told).groups()
    expect(what, (seen['refused'], seen['place'], seen['line']), (int(number), int(place), int(line) if line else None))


def refused_specs():
    e = coded(pathlib.Path('examples/e.table').read_bytes())
    large = coded(program_bytes('tableasm', b'thread 0\n  alloc 1000\n  free 1000\n  end\n'))
    return [{'name': 'p %d, K %d' % (p, K), 'kind': kind, 'table': table, 'p': p, 'K': K, 'b': None, 'steps': []}
            for kind in ('asyncdf', 'dfdeques') for table, p, K in ((e, 17, 6), (e, 0, 6), (e, 2, 0), (large, 2, 1), (coded(b''), 2, 6), (coded(b'\1\0\1\0'), 2, 6))]


ORDERS = [('asyncdf', '0 1 0', [0, 0, 1, 0, 0, 0]), ('asyncdf', '0 99', {'turn': 2, 'word': '99', 'number': 30}), ('asyncdf', '0 1:0', {'turn': 2, 'word': '1:0', 'number': 0}),
          ('asyncdf', '', []), ('asyncdf', 'zero', {'turn': 1, 'word': 'zero', 'number': 0}), ('dfdeques', '0:1 1', [0, 1, 1, 0]), ('dfdeques', '0:0 1:2', {'turn': 2, 'word': '1:2', 'number': 49}),
          ('dfdeques', '2:0', {'turn': 1, 'word': '2:0', 'number': 30})]


def check_links(found):
    """None that is damaged is taken, each is told of in words, and the whole one is taken."""
    expect('a whole link', found[-1], 'taken')
    for i, one in enumerate(found[:-1]):
        expect('damaged link %d: %s' % (i, one), bool(re.match('it is (cut off or was changed on the way|of version )', one)), True)


def asked(specs):
    with tempfile.TemporaryDirectory() as folder:
        facts = pathlib.Path(folder, 'facts.json')
        facts.write_text(json.dumps(screen.facts()))
        e = coded(pathlib.Path('examples/e.table').read_bytes())
        data = {'runs': specs, 'files': [coded(data) for data in files()], 'kinds': e,
                'orders': [[{'kind': kind, 'table': e, 'p': 2, 'K': 6}, text] for kind, text, _ in ORDERS], 'speed': coded(program_bytes('tableasm', EXAMPLES[-1].read_bytes()))}
        done = subprocess.run(['node', 'tests/screen.mjs', str(facts), str(screen.WASM)], input=json.dumps(data).encode(), stdout=subprocess.PIPE)
    if done.returncode:
        sys.exit('node ended with status %d' % done.returncode)
    return json.loads(done.stdout)


def main(given):
    if not shutil.which('node'):
        return print('the screen under node was left out: no node')
    rng = random.Random(int(given[0]) if given else 53)
    chosen = specs(rng) + refused_specs()
    found = asked(chosen)
    for spec, one in zip(chosen, found['runs']):
        check_run(spec, one)
    check_files(found['files'])
    for (kind, text, wanted), one in zip(ORDERS, found['orders']):
        expect('order %s' % text, one, wanted)
    check_links(found['damaged'])
    expect('calls on a record of DFDeques', found['kinds'], {'has': [], 'thrown': 'TypeError'})
    print('%d runs and what is refused: %d comparisons with the programs; %s turns a second' % (len(chosen), count, format(found['speed'], ',')))


if __name__ == '__main__':
    main(sys.argv[1:])
