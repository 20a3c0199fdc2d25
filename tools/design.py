"""Designs: texts of named jobs, the tables that they stand for, and the names of a table's threads. docs/DESIGNS.md has the form.

expanded(bytes) answers an Expanded, whose text() is for the assembler, or raises a Fault; written(bodies) is a design of a table; laid_out(bytes) the
same design with its comments in the usual layout; Named has the names of a table that was made of a design, also where it is filled out. Nothing is
decided here that a check of the assembler decides: joins that are not of the latest child, balances and amounts of 0 are passed on.
"""
import collections
import difflib
import re

MOST_THREADS, MOST_ACTIONS, MOST_NUMBER, LONGEST = 1024, 8192, 16777215, 262144
MANY = 10 ** 12  # a count is not followed above this
KINDS = ('end', 'work', 'alloc', 'free', 'fork', 'join')
END, WORK, ALLOC, FREE, FORK, JOIN = range(6)
OF_TEXTS = ('thread',) + KINDS  # what a line of a table's text begins with
RESERVED = set(OF_TEXTS) | {'together', 'as', 'dummy'}
LONGEST_NAME, LONGEST_PATH, WIDE = 32, 64, 100


class Fault(Exception):
    """A line of a design and what is wrong there; with a number where a check of the table is meant."""

    def __init__(self, line, message, number=None):
        super().__init__(message)
        self.line, self.message, self.number = line, message, number


# Reading

Token = collections.namedtuple('Token', 'kind word line')  # kind: name, number, one of { } ; * or '' at the end of a line; # for a comment
Job = collections.namedtuple('Job', 'name line statements last')  # `last`: the line of its closing brace
Do = collections.namedtuple('Do', 'kind amount label count line')
Together = collections.namedtuple('Together', 'items line')
Item = collections.namedtuple('Item', 'job count line')
Fork = collections.namedtuple('Fork', 'job name line')
Join = collections.namedtuple('Join', 'name line')
TOKEN = re.compile(r'[ \t]*(?:(#.*)|([A-Za-z_][A-Za-z0-9_-]*)|([0-9]+)|([{};*])|(.))', re.S)


def first_word(data):
    """The first word of a text that is no comment."""
    found = re.match(rb'(?:[ \t\r\n;]|#[^\n]*(?:\n|$))*([^\s#{};*]*)', data)
    return found[1].decode('utf-8', 'replace')


def is_design(data):
    """Of a text: whether it is a design. Its first word is then none that a table's text has."""
    word = first_word(data).removeprefix('\ufeff')
    return bool(word) and word not in OF_TEXTS


def tokens(data, comments=False):
    out = []
    if len(data) > LONGEST:
        raise Fault(None, 'text above %d bytes' % LONGEST)
    for number, line in enumerate(data.decode('utf-8', 'surrogateescape').split('\n'), 1):
        if line.startswith('\ufeff'):
            raise Fault(number, 'a byte order mark; a text begins without one')
        for comment, name, digits, sign, other in TOKEN.findall(line.rstrip(' \t')):
            if other:
                raise Fault(number, 'a carriage return; lines end with a newline alone' if other == '\r' else
                            'expected a name, a number, {, }, ; or *, found %s' % ascii(other))
            if comment:
                out += [Token('#', comment.rstrip(), number)] * comments
            else:
                out.append(Token('name' if name else 'number' if digits else sign, name or digits or sign, number))
        out.append(Token('', '', number))
    return out


class Reader:
    """Reads the tokens of a design, one job after the other."""

    def __init__(self, data):
        self.tokens, self.at = tokens(data), 0

    def peek(self):
        return self.tokens[min(self.at, len(self.tokens) - 1)]

    def next(self):
        self.at += 1
        return self.tokens[self.at - 1]

    def expected(self, what):
        token = self.peek()
        raise Fault(token.line, 'expected %s, found %s' % (what, ascii(token.word) if token.kind else 'the end of the line'))

    def take(self, kind, what):
        if self.peek().kind != kind:
            self.expected(what)
        return self.next()

    def name(self, what):
        """A name of the planner's own."""
        token = self.take('name', what)
        if token.word in RESERVED:
            raise Fault(token.line, 'expected %s, found %s, which is a word of its own' % (what, token.word))
        if len(token.word) > LONGEST_NAME:
            raise Fault(token.line, 'a name of %d characters; it has at most %d' % (len(token.word), LONGEST_NAME))
        return token.word

    def number(self):
        token = self.take('number', 'a number up to %d' % MOST_NUMBER)
        if len(token.word) > 8 or int(token.word) > MOST_NUMBER or token.word != str(int(token.word)):
            raise Fault(token.line, 'expected a number up to %d, found %s' % (MOST_NUMBER, token.word[:40]))
        return int(token.word)

    def count(self):
        """A count behind a star, or 1."""
        if self.peek().kind != '*':
            return 1
        line = self.next().line
        count = self.number()
        if not count:
            raise Fault(line, 'a count of 0; take it out, or count from 1 on')
        return count

    def pass_over(self):
        while self.at < len(self.tokens) and self.peek().kind in ('', ';'):
            self.at += 1
        return self.at < len(self.tokens)

    def jobs(self):
        found = []
        while self.pass_over():
            token = self.peek()
            if token.kind == '}':
                raise Fault(token.line, 'a } without its {')
            name = self.name('a job, NAME {')
            if self.peek().kind != '{':
                self.expected('{ after the job\'s name %s%s' % (name, '' if found else ' (a table\'s text begins with thread 0)'))
            self.next()
            statements, last = self.group(self.statement, 'job %s, which begins in line %d' % (name, token.line))
            found.append(Job(name, token.line, statements, last))
        return found

    def group(self, part, of):
        """The parts up to a closing brace, each on a line of its own or behind a semicolon; and the brace's line."""
        found = []
        while True:
            if not self.pass_over():
                raise Fault(self.peek().line, 'expected a } at the end of %s' % of)
            if self.peek().kind == '}':
                return found, self.next().line
            found.append(part())
            if self.peek().kind == 'number':
                raise Fault(self.peek().line, 'expected ; or the end of the line, found %s; a count is written * %s' % ((self.peek().word[:40],) * 2))
            if self.peek().kind not in ('', ';', '}'):
                self.expected('; or the end of the line')

    def statement(self):
        token = self.next()
        word, line = token.word, token.line
        if word in ('alloc', 'free'):
            return Do(KINDS.index(word), self.number(), None, self.count(), line)
        if word == 'work':
            label = self.name('a label, * or the end of the line') if self.peek().kind == 'name' else None
            return Do(WORK, 0, label, self.count(), line)
        if word == 'together':
            self.take('{', '{ after together')
            return Together(self.group(self.item, 'together, which begins in line %d' % line)[0], line)
        if word == 'fork':
            job = self.name('the name of a job')
            if self.next().word != 'as':
                raise Fault(line, 'expected as NAME behind fork %s, by which it is joined' % job)
            return Fork(job, self.name('the name by which %s is joined' % job), line)
        if word == 'join':
            return Join(self.name('the name that a fork gave'), line)
        if word == 'end':
            raise Fault(line, 'a job ends with its }, without end')
        if token.kind == 'name' and word not in RESERVED:
            raise Fault(line, 'expected alloc, free, work, together, fork or join, found %s; a job is named in together { .. }, or in fork %s as NAME' % (ascii(word), word))
        self.at -= 1
        self.expected('alloc, free, work, together, fork or join')

    def item(self):
        line = self.peek().line
        return Item(self.name('the name of a job, or }'), self.count(), line)


# What names what

def uses(job):
    """The jobs that a job names, with their lines."""
    for statement in job.statements:
        if isinstance(statement, Together):
            yield from statement.items
        elif isinstance(statement, Fork):
            yield statement


def by_name(jobs):
    found = {}
    for job in jobs:
        if job.name in found:
            raise Fault(job.line, 'a second job %s; the first is in line %d' % (job.name, found[job.name].line))
        found[job.name] = job
    return found


def check_names(job, jobs):
    """That what a job names is there, and that each name it gives is its own and joined at most once."""
    for used in uses(job):
        if used.job not in jobs:
            near = difflib.get_close_matches(used.job, jobs, 1)
            raise Fault(used.line, 'there is no job %s%s' % (used.job, '; is it %s?' % near[0] if near else ''))
    forked, joined = {}, {}
    for statement in job.statements:
        name, line = getattr(statement, 'name', None), statement.line
        if isinstance(statement, Fork):
            if name in forked:
                raise Fault(line, 'job %s has a fork as %s already, in line %d; give each a name of its own' % (job.name, name, forked[name]))
            if name in jobs:
                raise Fault(line, 'fork %s as %s: %s is a job; give it another name' % (statement.job, name, name))
            forked[name] = line
        elif isinstance(statement, Join):
            if name not in forked:
                raise Fault(line, 'join %s: nothing is forked as %s before it in job %s' % (name, name, job.name))
            if name in joined:
                raise Fault(line, 'join %s: it is joined already, in line %d' % (name, joined[name]))
            joined[name] = line


def bottom_up(jobs, root):
    """The jobs that the root needs, each after those that it names."""
    out, done, path = [], set(), [(root, uses(root))]
    on_path = {root.name}
    while path:
        job, rest = path[-1]
        used = next(rest, None)
        if used is None:
            path.pop()
            on_path.remove(job.name)
            done.add(job.name)
            out.append(job)
        elif used.job in on_path:
            names = [job.name for job, _ in path]
            circle = names[names.index(used.job):] + [used.job]
            shown = circle if len(circle) < 10 else circle[:4] + ['..'] + circle[-4:]
            raise Fault(used.line, 'jobs in a circle: %s; no job may lead back to itself' % ' > '.join(shown))
        elif used.job not in done:
            on_path.add(used.job)
            path.append((jobs[used.job], uses(jobs[used.job])))
    for job in jobs.values():
        if job.name not in done:
            raise Fault(job.line, 'job %s is named nowhere below the first job, %s, which is the root; name it in a together or a fork, or take it out' % (job.name, root.name))
    return out


# How much there will be, before anything is built

def parts(statement):
    """What a statement stands for, in the words of the design, with its line: (words, line, own actions, job or None, count)."""
    if isinstance(statement, Together):
        for item in statement.items:
            yield times(item.job, item.count), item.line, 2, item.job, item.count
    elif isinstance(statement, Do):
        amount = ' %d' % statement.amount if statement.kind != WORK else ' ' + statement.label if statement.label else ''
        yield times(KINDS[statement.kind] + amount, statement.count), statement.line, 1, None, statement.count
    else:
        job = getattr(statement, 'job', None)
        yield ('fork %s as %s' % (job, statement.name) if job else 'join %s' % statement.name), statement.line, 1, job, 1


def times(words, count):
    return words if count == 1 else '%s * %d' % (words, count)


def check_sizes(jobs):
    """That no job passes the limits on threads and actions: the first that does, those that it names coming before it, is refused at the line that
    passes them."""
    threads, actions = {}, {}
    for job in jobs:
        n, m, passed = 1, 1, None
        for words, line, own, below, count in (part for statement in job.statements for part in parts(statement)):
            n = min(MANY, n + count * (threads[below] if below else 0))
            m = min(MANY, m + count * (own + (actions[below] if below else 0)))
            passed = passed or ((words, line) if n > MOST_THREADS or m > MOST_ACTIONS else None)
        threads[job.name], actions[job.name] = n, m
        if passed:
            counted, most, what = (n, MOST_THREADS, 'threads') if n > MOST_THREADS else (m, MOST_ACTIONS, 'actions')
            found = '{:,}'.format(counted) if counted < MANY else 'more than {:,}'.format(MANY - 1)
            raise Fault(passed[1], 'job {} has {} {}, and a table has at most {:,}; {} passes it'.format(job.name, found, what, most, passed[0]), 2)


# Building

class Expanded:
    """The table that a design stands for, its threads numbered by the serial order of their forks: bodies of (kind, argument), and beside each action its
    line and its label, beside each thread its name, its job and that job's line."""

    def __init__(self):
        self.bodies, self.lines, self.labels, self.names, self.jobs, self.heads = [], [], [], [], [], []

    def begin(self, job, name):
        for part, what in (self.bodies, []), (self.lines, []), (self.labels, []), (self.names, name), (self.jobs, job.name), (self.heads, job.line):
            part.append(what)
        return len(self.bodies) - 1

    def add(self, thread, kind, argument, line, label=None):
        self.bodies[thread].append((kind, argument))
        self.lines[thread].append(line)
        self.labels[thread].append(label)

    def text(self):
        """The table as a text for the assembler: thread after thread, an action to a line."""
        rows = []
        for thread, body in enumerate(self.bodies):
            rows.append('thread %d' % thread)
            rows += [KINDS[kind] + (' %d' % argument if kind > WORK else '') for kind, argument in body]
        return ('\n'.join(rows) + '\n').encode()


Step = collections.namedtuple('Step', 'kind what label line')  # `what`: an amount; of a fork the job and its name; of a join which fork of the body


def steps(job):
    """A job's body, step by step."""
    named = collections.Counter()
    for statement in job.statements:
        for item in statement.items if isinstance(statement, Together) else ():
            named[item.job] += item.count
    out, forks, seen, open_forks = [], 0, collections.Counter(), {}
    for statement in job.statements:
        if isinstance(statement, Do):
            out += [Step(statement.kind, statement.amount, statement.label, statement.line)] * statement.count
        elif isinstance(statement, Join):
            out.append(Step(JOIN, open_forks[statement.name], None, statement.line))
        elif isinstance(statement, Fork):
            open_forks[statement.name] = forks
            out.append(Step(FORK, (statement.job, statement.name), None, statement.line))
            forks += 1
        else:
            joins = []
            for item in (item for item in statement.items for _ in range(item.count)):
                name = item.job if named[item.job] == 1 else '%s[%d]' % (item.job, seen[item.job])
                seen[item.job] += 1
                out.append(Step(FORK, (item.job, name), None, item.line))
                joins.append(Step(JOIN, forks, None, item.line))
                forks += 1
            out += reversed(joins)
    return out + [Step(END, 0, None, job.last)]


def below(path, name):
    """The name of a thread below another: its path, of which the beginning is left out where it is too long."""
    whole = path + '/' + name if path else name
    if len(whole) <= LONGEST_PATH:
        return whole
    kept = whole.split('/')
    while len('/'.join(kept)) > LONGEST_PATH - 3:
        kept.pop(0)
    return '/'.join(['..'] + kept)


def built(jobs, root):
    flat = {job.name: steps(job) for job in jobs.values()}
    out = Expanded()
    open_threads = [(out.begin(root, root.name), iter(flat[root.name]), [])]
    while open_threads:
        thread, rest, children = open_threads[-1]
        step = next(rest, None)
        if step is None:
            open_threads.pop()
        elif step.kind == FORK:
            job, name = step.what
            children.append(len(out.bodies))
            out.add(thread, FORK, children[-1], step.line)
            open_threads.append((out.begin(jobs[job], below(out.names[thread] if thread else '', name)), iter(flat[job]), []))
        else:
            out.add(thread, step.kind, children[step.what] if step.kind == JOIN else step.what, step.line, step.label)
    return out


def expanded(data):
    found = Reader(data).jobs()
    jobs = by_name(found)
    for job in found:
        check_names(job, jobs)
    check_sizes(bottom_up(jobs, found[0]))
    return built(jobs, found[0])


# Names of a table that runs

def bodies_of(table):
    """The bodies of an accepted table's bytes."""
    number = lambda at, size: int.from_bytes(table[at:at + size], 'little')
    threads, out = number(0, 2), []
    for thread in range(threads):
        first, count = number(4 + 4 * thread, 2), number(6 + 4 * thread, 2)
        start = 4 + 4 * threads + 4 * first
        out.append([(table[at], number(at + 1, 3)) for at in range(start, start + 4 * count, 4)])
    return out


def dummies(made, bodies):
    """The names and lines of the dummy threads in a table that is filled out from a design's."""
    given, waits = len(made.bodies), {}  # by dummy thread: the thread that has the alloc, and its line
    for thread, body in enumerate(bodies):
        own = 0
        for kind, argument in body:
            put_in = kind in (FORK, JOIN) and argument >= given
            if put_in and kind == FORK:
                waits[argument] = waits.get(thread) or (thread, made.lines[thread][own])
            own += not put_in
    many, seen, out = collections.Counter(thread for thread, _ in waits.values()), collections.Counter(), []
    for dummy in range(given, len(bodies)):
        thread, line = waits[dummy]
        name = 'dummy[%d]' % seen[thread] if many[thread] > 1 else 'dummy'
        seen[thread] += 1
        out.append((below(made.names[thread] if thread else '', name), line))
    return out


class Named:
    """The names of a table that was made of a design, or filled out from it: of each thread, and of each action its label or its kind, and both with the
    line in the design. Threads from the design's count on are dummy threads, named below the thread whose alloc waits for them, at its line."""

    def __init__(self, made, table):
        given, bodies = len(made.bodies), bodies_of(table)
        self.threads, self.actions, self.labels = list(zip(made.names, made.heads)) + dummies(made, bodies), [], []
        for thread, body in enumerate(bodies):
            own = 0
            for kind, argument in body:
                put_in = thread >= given or kind in (FORK, JOIN) and argument >= given
                line = self.threads[thread][1] if thread >= given else made.lines[thread][own]  # of what is put in that of the alloc behind it
                self.labels.append(None if put_in else made.labels[thread][own])
                self.actions.append((self.labels[-1] or KINDS[kind], line))
                own += not put_in

    def listing(self, data):
        """A listing with names: behind each turn the thread's, and the label of its work."""
        out = []
        for line in data.decode('ascii').split('\n'):
            found = re.fullmatch(r'[0-9]+ [0-9]+ ([0-9]+) ([0-9]+) [a-z]+ [0-9]+', line)
            if found:
                label = self.labels[int(found[2])]
                line += ' ' + self.threads[int(found[1])][0] + (' ' + label if label else '')
            out.append(line)
        return '\n'.join(out).encode()

    def text(self, data):
        """A table's text with names: behind each thread its own, behind each action its label."""
        out = []
        for line in data.decode('ascii').split('\n'):
            thread, action = re.fullmatch(r'thread ([0-9]+)', line), re.search(r'# action ([0-9]+)$', line)
            label = self.labels[int(action[1])] if action else None
            out.append(line + ' # %s' % self.threads[int(thread[1])][0] if thread else line + ' ' + label if label else line)
        return '\n'.join(out).encode()


# Maps: names and lines as a file

def mapped(named, file, of):
    """The map of a table for a file: a header for C, a module for Rust, else lines of text. `of`: the design's file name."""
    kind = {'h': c_map, 'rs': rust_map}.get(file.rsplit('.', 1)[-1] if '.' in file else '', text_map)
    return kind(named, file, re.sub(r'[^ -~]|[\\*/]', '_', of.rsplit('/', 1)[-1])).encode()


def text_map(named, file, of):
    rows = ['# %s: thread NUMBER LINE NAME, action NUMBER LINE NAME' % of]
    for word, pairs in ('thread', named.threads), ('action', named.actions):
        rows += ['%s %d %d %s' % (word, number, line, name) for number, (name, line) in enumerate(pairs)]
    return '\n'.join(rows) + '\n'


def c_map(named, file, of):
    """Two arrays of names and lines, by thread and by action; their names begin with that of the file."""
    stem = re.sub('[^a-z0-9]', '_', file.rsplit('/', 1)[-1].rsplit('.', 1)[0].lower())
    stem = stem if re.match('[a-z]', stem) else 'map_' + stem
    rows = ['/* Names and lines of %s, by thread and by action. Written by wivakkol --map. */' % of, '#ifndef %s_NAMES_H' % stem.upper(), '#define %s_NAMES_H' % stem.upper(),
            '#ifndef WIVAKKOL_NAME', '#define WIVAKKOL_NAME', 'struct wivakkol_name { const char *name; unsigned line; };', '#endif']
    for word, pairs in ('threads', named.threads), ('actions', named.actions):
        rows.append('static const struct wivakkol_name %s_%s[%d] = {' % (stem, word, len(pairs)))
        rows += ['    {"%s", %d}, /* %d */' % (name, line, number) for number, (name, line) in enumerate(pairs)] + ['};']
    return '\n'.join(rows + ['#endif']) + '\n'


def rust_map(named, file, of):
    rows = ['//! Names and lines of %s, by thread and by action. Written by wivakkol --map.' % of]
    for word, pairs in ('THREADS', named.threads), ('ACTIONS', named.actions):
        rows.append('pub static %s: [(&str, u32); %d] = [' % (word, len(pairs)))
        rows += ['    ("%s", %d), // %d' % (name, line, number) for number, (name, line) in enumerate(pairs)] + ['];']
    return '\n'.join(rows) + '\n'


# A design of a table

def alike(bodies):
    """For each thread the first one whose body, with all that it forks, is the same."""
    known, of = {}, [0] * len(bodies)
    for thread in reversed(range(len(bodies))):
        forks = {argument: i for i, (kind, argument) in enumerate(action for action in bodies[thread] if action[0] == FORK)}
        of[thread] = tuple((kind, of[argument] if kind == FORK else forks[argument] if kind == JOIN else argument) for kind, argument in bodies[thread])
        of[thread] = known.setdefault(of[thread], len(known))
    first = {}
    for thread, sort in enumerate(of):
        first.setdefault(sort, thread)
    return [first[sort] for sort in of]


def counted(words):
    """Words with those that follow each other alike put together as a count."""
    out = []
    for word in words:
        if out and out[-1][0] == word:
            out[-1][1] += 1
        else:
            out.append([word, 1])
    return [times(word, count) for word, count in out]


def job_of(body, name):
    """The statements of a body; name: that of the job of a thread that it forks. Forks that are joined at once are put together."""
    out, given, at = [], {}, 0
    while body[at][0] != END:
        kind, argument = body[at]
        if kind == FORK:
            joins = next(i for i in range(at, len(body)) if body[i][0] != FORK)
            after = next(i for i in range(joins, len(body)) if body[i][0] != JOIN)
            both = min(joins - at, after - joins)
            for _, child in body[at:joins - both]:
                given[child] = 't%d' % child
                out.append('fork %s as %s' % (name(child), given[child]))
            if both:
                out.append('together { %s }' % '; '.join(counted(name(child) for _, child in body[joins - both:joins])))
            at = joins + both
        elif kind == JOIN:
            out.append('join ' + given[argument])
            at += 1
        else:
            run = next(i for i in range(at, len(body)) if body[i] != body[at])
            out.append(times(KINDS[kind] + (' %d' % argument if kind != WORK else ''), run - at))
            at = run
    return out


def written(bodies):
    """A design of a table in its canonical form: subtrees that are alike are one job, named after the first thread that has it."""
    first = alike(bodies)
    name = lambda thread: 'job%d' % first[thread] if thread else 'root'
    out = []
    for thread, body in enumerate(bodies):
        if first[thread] == thread:
            statements = job_of(body, name)
            line = '%s { %s }' % (name(thread), '; '.join(statements)) if statements else '%s { }' % name(thread)
            out += [line] if len(line) <= 80 else ['%s {' % name(thread), *broken(statements), '}']
    return '\n'.join(out) + '\n'


def broken(statements):
    """Statements on lines of their own; a long together too has a line for each job in it."""
    for statement in statements:
        if len(statement) + 2 <= WIDE:
            yield '  ' + statement
        else:
            yield '  together {'
            yield from ('    ' + item for item in statement[len('together { '):-2].split('; '))
            yield '  }'


# Layout

class Layout:
    """A design laid out: a statement to a line, but what its author has on one line in braces stays there where it is short. Comments stay."""

    def __init__(self, data):
        Reader(data).jobs()
        self.tokens, self.rows, self.depth, self.words = tokens(data, comments=True), [], 0, []
        at = 0
        while at < len(self.tokens):
            at = self.lay(at)
        self.end_line()
        while self.rows and not self.rows[-1]:
            self.rows.pop()

    def end_line(self):
        if self.words:
            self.rows.append('  ' * self.depth + ' '.join(self.words))
            self.words = []

    def lay(self, at):
        """Lays a token out, and all of a group that stays on its line; answers where to go on."""
        token = self.tokens[at]
        if token.kind == '{':
            end = self.closing(at)
            flat = self.flat(self.tokens[at:end + 1])
            if self.tokens[end].line == token.line and len('  ' * self.depth + ' '.join(self.words + [flat])) <= WIDE:
                self.words.append(flat)
                if not self.depth:
                    self.end_line()
                return end + 1
            self.words.append('{')
            self.end_line()
            self.depth += 1
        elif token.kind == '}':
            self.end_line()
            self.depth -= 1
            self.words.append('}')
            self.end_line()
        elif token.kind in ('', ';'):
            self.end_line()
            if at and not token.kind and self.tokens[at - 1].kind == '' and self.rows and self.rows[-1]:
                self.rows.append('')
        elif token.kind == '#':
            self.comment(token, at)
        else:
            self.words.append(token.word)
        return at + 1

    def comment(self, token, at):
        behind = at > 0 and self.tokens[at - 1].line == token.line and self.tokens[at - 1].kind != ''
        self.end_line()
        if behind and self.rows and self.rows[-1]:
            self.rows[-1] += '  ' + token.word
        else:
            self.rows.append('  ' * self.depth + token.word)

    def closing(self, at):
        depth = 0
        for i in range(at, len(self.tokens)):
            depth += {'{': 1, '}': -1}.get(self.tokens[i].kind, 0)
            if not depth:
                return i

    @staticmethod
    def flat(group):
        """A group on one line."""
        out = ''
        for token in group:
            if token.kind == ';':
                out += ';' * (out[-1] not in '{;')
            elif token.kind not in ('', '#'):
                out = (out.rstrip(';') if token.kind == '}' else out) + (' ' if out else '') + token.word
        return out


def laid_out(data):
    return ('\n'.join(Layout(data).rows) + '\n').encode('utf-8', 'surrogateescape')


def text_laid_out(data):
    """A table's text with its comments: threads at the margin, actions below them, a blank line at most between."""
    out = []
    for line in data.split(b'\n'):
        words, sign, comment = line.partition(b'#')
        words, comment = b' '.join(words.split()), (sign + comment).rstrip()
        indent = b'' if words.split(b' ')[0] == b'thread' or not words and line[:1] == b'#' else b'  '
        row = (indent + words + (b'  ' if words and comment else b'') + comment).rstrip()
        if row or out and out[-1]:
            out.append(row)
    while out and not out[-1]:
        out.pop()
    return b'\n'.join(out) + b'\n'
