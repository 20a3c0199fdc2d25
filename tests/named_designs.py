"""Holds tools/design.py to a reading of docs/DESIGNS.md written on its own: designs are cut into words by splitting, jobs become trees of threads by recursion, and the trees are numbered by a
walk in serial order.

usage: python3 tests/named_designs.py [COUNT]    (from the repository's top, after `python3 tools/dist.py program tableasm canontable cmptables filltable`; COUNT random designs, default 400)

On random designs, with comments and blanks anywhere: the same bodies, lines, labels and names as the model's; the bytes that tableasm makes of the expanded text, or its refusal at the action that
tests/reference.py names; a table that is its own canonical form; the design that is written of it, which gives the same bytes again; the layout, which changes neither; the names of the table filled
out with a random quota. Random tables under random numbers as designs and back: cmptables says equal. Faults with their lines, and limits met and passed by one, on designs written here; counts
whose product no machine could build. The eleven tables of docs/FIGURES.md with examples/*.design. The maps for C and Rust, compiled.
"""
import pathlib
import random
import re
import shutil
import subprocess
import sys
import tempfile
import time

sys.dont_write_bytecode = True
sys.setrecursionlimit(20000)
sys.path[:0] = ['bench', 'tools', 'tests']
import design
import figures
from designs import bodies_of, fork_order, shuffled
from reference import ALLOC, END, FORK, FREE, JOIN, WORK, check
from tables import drawn, table

KINDS = {'end': END, 'work': WORK, 'alloc': ALLOC, 'free': FREE}
EXAMPLES = {'E': 'e', 'stages': 'stages', 'parts': 'parts', 'repeats': 'repeats', 'tree': 'tree', 'matrix': 'matrix', 'matrix, leaves draw 8': 'matrix8', 'fan': 'fan', 'chain': 'chain',
            'random tree': 'random', 'comb': 'comb'}
count = 0


def expect(what, found, wanted):
    global count
    count += 1
    if found != wanted:
        sys.exit('%s: expected\n%s\nfound\n%s' % (what, str(wanted)[:2000], str(found)[:2000]))


def program(name, data):
    done = subprocess.run(['target/bin/' + name], input=data, stdout=subprocess.PIPE, stderr=subprocess.PIPE)
    return done.stdout, done.stderr.decode().strip()


# The model

def words_of(text):
    """(word, line) for each word, brace, star and separator; a newline is a separator."""
    out = []
    for number, line in enumerate(text.split('\n'), 1):
        for sign in '{};*':
            line = line.split('#')[0].replace(sign, ' %s ' % sign)
        out += [(word, number) for word in line.split()] + [(';', number)]
    return out


def read(text):
    """The jobs by name, the first one's name first: (line, parts, line of the brace), parts being (words, line, jobs inside or None)."""
    jobs, words, at = {}, words_of(text), 0
    while at < len(words):
        if words[at][0] == ';':
            at += 1
            continue
        name, line = words[at]
        parts, inside, here = [], None, []
        at += 2
        while True:
            word, number = words[at]
            at += 1
            if word in ';}' and here:
                (parts if inside is None else inside).append(here)
                here = []
            if word == '}' and inside is None:
                jobs[name] = line, parts, number
                break
            if word == '}':
                parts.append([('together', inside[0][0][1] if inside else number), inside])
                inside = None
            elif word == '{':
                here, inside = [], []
            elif word != ';':
                here.append((word, number))
    return jobs


def repeated(words):
    """The count behind a star, or 1."""
    return int(words[-1]) if '*' in words else 1


class Thread:
    def __init__(self, job, name, line):
        self.job, self.name, self.line, self.body = job, name, line, []  # body: (kind, amount or thread, line, label)


def thread(jobs, job, name):
    """The tree of threads below a job, each with its whole path as a name."""
    line, parts, last = jobs[job]
    me, given = Thread(job, name, line), {}
    inside = [words[0][0] for part in parts if part[0][0] == 'together' for words in part[1] for _ in range(repeated([word for word, _ in words]))]
    used = dict.fromkeys(inside, 0)
    path = lambda last: name + [last]
    for part in parts:
        if part[0][0] == 'together':
            mine = []
            for words in part[1]:
                for _ in range(repeated([word for word, _ in words])):
                    child = words[0][0]
                    called = child if inside.count(child) == 1 else '%s[%d]' % (child, used[child])
                    used[child] += 1
                    mine.append((thread(jobs, child, path(called)), words[0][1]))
            me.body += [(FORK, child, line, None) for child, line in mine] + [(JOIN, child, line, None) for child, line in mine[::-1]]
            continue
        words, line = [word for word, _ in part], part[0][1]
        if words[0] == 'fork':
            given[words[3]] = thread(jobs, words[1], path(words[3]))
            me.body.append((FORK, given[words[3]], line, None))
        elif words[0] == 'join':
            me.body.append((JOIN, given[words[1]], line, None))
        else:
            amount = int(words[1]) if words[0] != 'work' else 0
            label = words[1] if words[0] == 'work' and len(words) > 1 and words[1] != '*' else None
            me.body += [(KINDS[words[0]], amount, line, label)] * repeated(words)
    me.body.append((END, 0, last, None))
    return me


def cut(path):
    """A path of at most 64 characters: of a longer one the last names that fit behind `..`."""
    if len(path) < 33 and len('/'.join(path)) <= 64:
        return '/'.join(path)
    return max(('/'.join(['..'] + path[i:]) for i in range(max(1, len(path) - 32), len(path)) if len('/'.join(['..'] + path[i:])) <= 64), key=len)


def model(text):
    """The threads in serial order of their forks, and what tools/design.py should say of them."""
    jobs = read(text)
    order, left = [], [thread(jobs, next(iter(jobs)), [])]
    while left:
        order.append(left.pop())
        left += [x for kind, x, _, _ in reversed(order[-1].body) if kind == FORK]
    number = {id(t): i for i, t in enumerate(order)}
    bodies = [[(kind, number[id(x)] if kind in (FORK, JOIN) else x) for kind, x, _, _ in t.body] for t in order]
    names = [cut(t.name) if t.name else t.job for t in order]
    return bodies, [[line for _, _, line, _ in t.body] for t in order], [[label for _, _, _, label in t.body] for t in order], names, [t.line for t in order]


# Random designs

class Draw:
    """A random design: jobs that name later ones alone, so that there is no circle, with balances that are never below 0; or, where `wrong`, with some joins and frees that are refused."""

    def __init__(self, rng, wrong):
        self.rng, self.wrong = rng, wrong
        self.jobs = ['%s%d' % (rng.choice(['row', 'helper', 'weft_', 'a-', 'X', 'worked', 'end_']), i) for i in range(rng.randint(1, 7))]
        self.final, self.threads, self.actions, texts = {}, {}, {}, []
        for i in reversed(range(len(self.jobs))):
            texts.insert(0, self.job(i))
        self.text = self.separator().join([''] + texts + [''])

    def job(self, i):
        """A job that names later ones, the next one always; its final balance, threads and actions are kept."""
        rng = self.rng
        self.body, self.balance, self.n, self.m, self.opened, self.given = [], 0, 1, 1, [], 0
        self.below, self.must = self.jobs[i + 1:], self.jobs[i + 1:i + 2]
        for _ in range(rng.randint(0, 7)):
            kind = rng.choice(['alloc', 'free', 'work', 'work', 'together', 'fork', 'join'])
            if kind in ('together', 'fork'):
                self.forks(kind)
            elif kind == 'join':
                self.join()
            else:
                self.do(kind)
        while self.must:
            self.forks('together', 1000)
        while self.opened:
            self.join(leave_out=self.wrong and rng.random() < 0.2)
        self.final[self.jobs[i]], self.threads[self.jobs[i]], self.actions[self.jobs[i]] = max(0, self.balance), self.n, self.m
        return '%s%s{%s}' % (self.jobs[i], self.blank(), self.inner(self.body))

    def do(self, kind):
        rng = self.rng
        room = max(0, self.balance if not self.wrong or rng.random() < 0.6 else self.balance + 2)
        amount, times, what = 0, self.times(3), 'work' + rng.choice(['', ' weave', ' x', ' job1'])
        if kind == 'alloc':
            amount = rng.choice([1, 7, 40, 16777215] + [0] * self.wrong)
            what = 'alloc %d' % amount
        elif kind == 'free' and room:
            amount = -rng.randint(1, min(room, 16777215))
            times, what = rng.randint(1, max(1, min(3, room // -amount))), 'free %d' % -amount
        self.body.append(what + self.star(times))
        self.balance, self.m = self.balance + amount * times, self.m + times

    def forks(self, kind, most=150):
        """Forks one job, or several together; nothing where there would be too many threads."""
        rng = self.rng
        if not self.below:
            return
        inside = (self.must or [rng.choice(self.below)]) + [rng.choice(self.below) for _ in range(rng.randint(0, 2))] * (kind == 'together' and most == 150)
        counts = [self.times(3) if kind == 'together' and most == 150 else 1 for _ in inside]
        added = sum(times * self.threads[job] for times, job in zip(counts, inside))
        if self.n + added > most:
            return
        self.must, self.n = [], self.n + added
        self.m += sum(times * (self.actions[job] + 2) for times, job in zip(counts, inside))
        if kind == 'together':
            self.balance += sum(times * self.final[job] for times, job in zip(counts, inside))
            self.body.append('together {%s}' % self.inner([job + self.star(times) for times, job in zip(counts, inside)]))
        else:
            self.opened.append(('t%d' % self.given, self.final[inside[0]]))
            self.given += 1
            self.body.append('fork %s as %s' % (inside[0], self.opened[-1][0]))

    def join(self, leave_out=False):
        if self.opened:
            given, final = self.opened.pop(0 if self.wrong and self.rng.random() < 0.3 else -1)
            self.balance += final
            self.body += [] if leave_out else ['join ' + given]

    def times(self, most):
        return self.rng.choice([1, 1, self.rng.randint(1, most)])

    def star(self, times):
        return '' if times == 1 else '%s*%s%d' % (self.blank(), self.blank(), times)

    def blank(self):
        return self.rng.choice(['', ' ', '\t', '  '])

    def separator(self):
        return self.rng.choice(['\n', '\n', '\n\n\n', ' # row { alloc 1 }; * \u00e9\n', '\n  # thread 0\n', ';\n'])

    def inner(self, parts):
        """Parts between braces: on one line, or each on its own, with comments."""
        if self.rng.random() < 0.4:
            return self.blank() + ';'.join(self.blank() + part + self.blank() for part in parts) + self.rng.choice(['', ';', ' '])
        return ''.join(self.separator() + part for part in [*parts, ''])


def damaged_balance(made):
    """What tests/reference.py says of a table that a design stands for."""
    answer = check(table(*made.bodies))
    return answer if answer[0] == 'refused' else None


def one_design(rng, wrong):
    text = Draw(rng, wrong).text
    data = text.encode()
    expect('told from a text', design.is_design(data), True)
    made = design.expanded(data)
    expect(text, (made.bodies, made.lines, made.labels, made.names, made.heads), model(text))
    out, told = program('tableasm', made.text())
    refused = damaged_balance(made)
    if refused:
        expect('refusal of ' + text, (out, told.split(' line ')[0]), (b'', 'refused %d %d' % refused[1:]))
        return 'refused'
    expect('bytes of ' + text, out, table(*made.bodies))
    expect('canonical form of ' + text, program('canontable', out)[0], out)
    again = design.written(bodies_of(out))
    back = design.expanded(again.encode())
    expect('written design of ' + text, program('tableasm', back.text())[0], out)
    expect('written design laid out', design.laid_out(again.encode()), again.encode())
    layouts(text, made)
    filled_names(made, out, rng.choice([1, 5, 30, 16777215]))
    return 'accepted'


def spoiled(rng, text):
    """A design with some characters changed: a fault in a line that it has, or another design, which the model reads alike; and no layout where it is no design."""
    for _ in range(rng.randint(1, 3)):
        at = rng.randrange(len(text) + 1)
        text = text[:at] + rng.choice(['', '{', '}', ';', '*', '\n', '#', ' ', '0', '9', 'a', 'as', 'fork ', 'work', '\r', '\x00', 'together{']) + text[at + rng.randint(0, 3):]
    if not design.is_design(text.encode()):
        return
    try:
        made = design.expanded(text.encode())
    except design.Fault as fault:
        expect('line of a fault', fault.line is not None and 1 <= fault.line <= text.count('\n') + 1 and bool(fault.message), True)
        return
    expect(text, (made.bodies, made.lines, made.labels, made.names, made.heads), model(text))
    layouts(text, made)


def layouts(text, made):
    """The layout has the same jobs and comments, and is its own layout."""
    laid = design.laid_out(text.encode())
    again = design.expanded(laid)
    expect('layout of ' + text, (again.bodies, again.labels, again.names), (made.bodies, made.labels, made.names))
    expect('layout of the layout', design.laid_out(laid), laid)
    expect('comments', re.findall('#.*', laid.decode()), [comment.rstrip() for comment in re.findall('#.*', text)])


def filled_names(made, given, quota):
    """Names and lines of the table that runs with a quota: those of the design, with a fork and a join in front of each alloc above it at its line, and the dummy threads behind."""
    out, _ = program('filltable', quota.to_bytes(3, 'little') + given)
    if not out:
        return
    named, bodies = design.Named(made, out), bodies_of(out)
    lines, labels, dummies = [], [], {}
    for t, body in enumerate(made.bodies):
        for (kind, x), line, label in zip(body, made.lines[t], made.labels[t]):
            above = kind == ALLOC and x > quota
            lines += [line] * (3 if above else 1)
            labels += [None, None, label] if above else [label]
            if above:
                dummies.setdefault(t, []).extend([line] * (2 * -(-x // quota) - 1))
    expect('lines filled out', [line for _, line in named.actions[:len(lines)]], lines)
    expect('labels filled out', named.labels[:len(labels)], labels)
    expect('threads as given', [name for name, _ in named.threads[:len(made.names)]], made.names)
    rest = [named.threads[t] for t in fork_order(bodies) if t >= len(made.bodies)]
    for t, mine in dummies.items():
        names = [cut(([] if not t else made.names[t].split('/')) + ['dummy' if len(mine) == 1 else 'dummy[%d]' % i]) for i in range(len(mine))]
        seen = [pair for pair in rest if pair[0] in names]
        if '..' not in made.names[t]:
            expect('dummies of %s' % made.names[t], seen, list(zip(names, mine)))
    expect('dummies', len(rest), sum(map(len, dummies.values())))


def one_table(rng):
    data = shuffled(rng, drawn(rng, rng.choice([1, 2, 5, 20, 60]), rng.choice([4, 40, 300]), [2, 3]))
    form, _ = program('canontable', data)
    back, told = program('tableasm', design.expanded(design.written(bodies_of(form)).encode()).text())
    expect('a table as a design and back', back, form)
    expect('cmptables', program('cmptables', len(data).to_bytes(4, 'little') + data + back)[0], b'equal\n')


# Faults, with their lines

FAULTS = [
    ('a { work }\nb { work }', 2, 'job b is named nowhere below the first job, a, which is the root; name it in a together or a fork, or take it out', None),
    ('a { together { b } }\nb { work }\n\na { work }', 4, 'a second job a; the first is in line 1', None),
    ('a {\n together { row\n  rwo }\n}\nrow { }', 3, 'there is no job rwo; is it row?', None),
    ('a { together { xyz } }', 1, 'there is no job xyz', None),
    ('a { together { b } }\nb {\n together { c } }\nc { together { b } }', 4, 'jobs in a circle: b > c > b; no job may lead back to itself', None),
    ('a { together { a } }', 1, 'jobs in a circle: a > a; no job may lead back to itself', None),
    ('a {\n fork b as x\n fork b as x\n}\nb { }', 3, 'job a has a fork as x already, in line 2; give each a name of its own', None),
    ('a { fork b as b; join b }\nb { }', 1, 'fork b as b: b is a job; give it another name', None),
    ('a {\n join x\n fork b as x\n}\nb { }', 2, 'join x: nothing is forked as x before it in job a', None),
    ('a {\n fork b as x\n join x\n join x\n}\nb { }', 4, 'join x: it is joined already, in line 3', None),
    ('a {\n together { b * 1024 }\n}\nb { }', 2, 'job a has 1,025 threads, and a table has at most 1,024; b * 1024 passes it', 2),
    ('a {\n work * 8000\n alloc 1 * 191\n free 191\n}', 4, 'job a has 8,193 actions, and a table has at most 8,192; free 191 passes it', 2),
    ('a {\n together { b\n b * 1000000 } }\nb { together { c * 1000000 } }\nc { together { d * 1000000 } }\nd { }', 5, 'job c has 1,000,001 threads, and a table has at most 1,024; d * 1000000 passes it', 2),
    ('a { together { b * 32 } }\nb { together { c * 33 } }\nc { }', 1, 'job a has 1,089 threads, and a table has at most 1,024; b * 32 passes it', 2),
    ('a { together { b * 2 } }\nb {\n work weave * 5000 }', 1, 'job a has 10,007 actions, and a table has at most 8,192; b * 2 passes it', 2),
    ('a {\n alloc 16777216\n}', 2, 'expected a number up to 16777215, found 16777216', None),
    ('a { alloc 07 }', 1, 'expected a number up to 16777215, found 07', None),
    ('a { alloc }', 1, "expected a number up to 16777215, found '}'", None),
    ('a {\n work * 0\n}', 2, 'a count of 0; take it out, or count from 1 on', None),
    ('a {\n work\n end\n}', 3, 'a job ends with its }, without end', None),
    ('a {\n b * 6\n}\nb { }', 2, "expected alloc, free, work, together, fork or join, found 'b'; a job is named in together { .. }, or in fork b as NAME", None),
    ('a {\n fork b\n}\nb { }', 2, 'expected as NAME behind fork b, by which it is joined', None),
    ('a {\n work weave 3\n}', 2, "expected ; or the end of the line, found 3; a count is written * 3", None),
    ('a {\n alloc 2 free 2 }', 2, "expected ; or the end of the line, found 'free'", None),
    ('a {\n work\n\n', 4, 'expected a } at the end of job a, which begins in line 1', None),
    ('a {\n together {\n b\nb { }', 4, "expected ; or the end of the line, found '{'", None),
    ('a { }\n}', 2, 'a } without its {', None),
    ('a { }\nwork { }', 2, 'expected a job, NAME {, found work, which is a word of its own', None),
    ('a\n{ }', 1, "expected { after the job's name a (a table's text begins with thread 0), found the end of the line", None),
    ('thraed 0\nfork 1', 1, "expected { after the job's name thraed (a table's text begins with thread 0), found '0'", None),
    ('a { together b }', 1, "expected { after together, found 'b'", None),
    ('a {\n work \u00e9\n}', 2, "expected a name, a number, {, }, ; or *, found '\\xe9'", None),
    ('a {\r\n}', 1, 'a carriage return; lines end with a newline alone', None),
    ('\ufeffa { }', 1, 'a byte order mark; a text begins without one', None),
    ('a { work %s }' % ('x' * 33), 1, 'a name of 33 characters; it has at most 32', None),
    ('a { } #' + 'x' * 262144, None, 'text above 262144 bytes', None),
]


def faults():
    for text, line, message, number in FAULTS:
        expect('told from a text', design.is_design(text.encode()), True)
        try:
            design.expanded(text.encode())
            found = None
        except design.Fault as fault:
            found = fault.line, fault.message, fault.number
        expect(text[:200], found, (line, message, number))
    for text in '', ' \n', '# a {}\n', 'thread 0\n', ' # x\n\tthread', 'fork 1', 'end\n', 'work# {':
        expect('no design: %r' % text, design.is_design(text.encode()), False)


def limits():
    """1,024 threads and 8,192 actions are built; counts that no machine could build are refused at once, and deep nests are neither too deep nor too slow."""
    whole = design.expanded(b'a { together { b * 1023 }; work * 3072 }\nb { work * 2 }')
    expect('largest', (len(whole.bodies), sum(map(len, whole.bodies)), len(program('tableasm', whole.text())[0])), (1024, 8188, 4 + 4 * 1024 + 4 * 8188))
    nest = ''.join('j%d { together { j%d } }\n' % (i, i + 1) for i in range(1023)) + 'j1023 { work }\n'
    deep = design.expanded(nest.encode())
    expect('1,024 nested', (len(deep.bodies), len(deep.names[-1]) <= 64, deep.names[-1].endswith('/j1022/j1023')), (1024, True, True))
    began = time.monotonic()
    bomb = ''.join('j%d { together { j%d * 16777215; j%d * 16777215 } }\n' % (i, i + 1, i + 1) for i in range(3000)) + 'j3000 { work }\n'
    far = ''.join('j%d { together { j%d } }\n' % (i, i + 1) for i in range(8000)) + 'j8000 { work }\n'
    for text, line, found in (bomb, 3000, '33,554,431'), (far, 8001 - 1024, '1,025'):
        try:
            design.expanded(text.encode())
            sys.exit('built: ' + text[:60])
        except design.Fault as fault:
            expect('count', (fault.line, fault.message.split(' has ')[1].split(' threads')[0]), (line, found))
    expect('within seconds', time.monotonic() - began < 5, True)


# The tables of docs/FIGURES.md, and maps

def tables_of_figures():
    expect('tables', list(EXAMPLES), list(figures.TABLES))
    for name, make in figures.TABLES.items():
        data = (pathlib.Path('examples') / (EXAMPLES[name] + '.design')).read_bytes()
        made = design.expanded(data)
        out, told = program('tableasm', made.text())
        expect(name, (out, told), (program('canontable', make())[0], ''))
        expect(name + ' by the model', made.bodies, model(data.decode())[0])
        expect(name + ' laid out', design.laid_out(data), data)
        expect(name + ' written anew', program('tableasm', design.expanded(design.written(bodies_of(out)).encode()).text())[0], out)


SHOW = {'map.c': '#include <stdio.h>\n#include "my_map.h"\n#include "my_map.h"\nint main(void) {\n unsigned i;\n for (i = 0; i < sizeof my_map_threads / sizeof *my_map_threads; i++)\n'
                 '  printf("thread %u %u %s\\n", i, my_map_threads[i].line, my_map_threads[i].name);\n for (i = 0; i < sizeof my_map_actions / sizeof *my_map_actions; i++)\n'
                 '  printf("action %u %u %s\\n", i, my_map_actions[i].line, my_map_actions[i].name);\n return 0;\n}\n',
        'map.rs': '#[path = "my-map.rs"]\nmod names;\nfn main() {\n    for (i, (name, line)) in names::THREADS.iter().enumerate() { println!("thread {} {} {}", i, line, name); }\n'
                  '    for (i, (name, line)) in names::ACTIONS.iter().enumerate() { println!("action {} {} {}", i, line, name); }\n}\n'}


def maps():
    """The map of the carpet filled out, as text, in C and in Rust."""
    made = design.expanded(pathlib.Path('examples/carpet.design').read_bytes())
    named = design.Named(made, program('filltable', bytes([30, 0, 0]) + program('tableasm', made.text())[0])[0])
    rows = design.mapped(named, 'carpet.map', 'a/carpet.design').decode().split('\n', 1)
    expect('head', rows[0], '# carpet.design: thread NUMBER LINE NAME, action NUMBER LINE NAME')
    compilers = [('cc', 'my-map.h', 'map.c', ['-std=c99', '-Wall', '-Wextra', '-pedantic', '-Werror']), ('rustc', 'my-map.rs', 'map.rs', ['-D', 'warnings'])]
    with tempfile.TemporaryDirectory() as folder:
        for compiler, file, main, options in compilers:
            if not shutil.which(compiler):
                print('the map for %s was not compiled: no %s' % (file, compiler))
                continue
            name = file.replace('-', '_') if compiler == 'cc' else file
            pathlib.Path(folder, name).write_bytes(design.mapped(named, file, 'carpet.design'))
            pathlib.Path(folder, main).write_text(SHOW[main])
            subprocess.run([compiler, *options, '-o', 'shown', main], cwd=folder, check=True)
            expect(file, subprocess.run([folder + '/shown'], stdout=subprocess.PIPE, check=True).stdout.decode(), rows[1])


def main():
    rng, wanted = random.Random(54), int(sys.argv[1]) if len(sys.argv) > 1 else 400
    faults()
    limits()
    tables_of_figures()
    maps()
    said = [one_design(rng, i % 3 == 0) for i in range(wanted)]
    for _ in range(wanted // 4):
        one_table(rng)
    for _ in range(wanted):
        spoiled(rng, Draw(rng, False).text)
    if min(said.count('accepted'), said.count('refused')) < wanted // 20:
        sys.exit('too few of one kind: %d accepted, %d refused' % (said.count('accepted'), said.count('refused')))
    print('%d designs, of which %d are refused, and %d tables there and back; eleven tables of docs/FIGURES.md: %d comparisons' % (wanted, said.count('refused'), wanted // 4, count))


if __name__ == '__main__':
    main()
