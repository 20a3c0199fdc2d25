"""Holds the pages against the tree: every file that they name is there, every link leads to a page and a heading of it, and every name in
backticks stands somewhere in the code, the definitions, the proofs or the scripts; a name of several words that no code has is a law's or a definition's,
and is stated somewhere; what is named with its file is in that file. DEMAND3.md has every definition that the statement rests on, but for what it lets a reader skip. The lists of
public functions and of the calls from C are complete, and refusals stand in the order of the checks as the definitions have it. What is made
from the lists in data/ is as they have it. The notes are left out: they are as of their landing.

usage: python3 tests/pages.py                 (from the repository's top)
       python3 tests/pages.py --functions     (prints the rows of PROOFS.md's table of public functions, as the sources have them)
"""
import functools
import itertools
import pathlib
import re
import subprocess
import sys

sys.path.insert(0, str(pathlib.Path(__file__).parent.parent / 'tools'))
import lists

PAGES = ['README.md', 'CONTRIBUTING.md', 'CHANGELOG.md', *map(str, sorted(pathlib.Path('docs').glob('*.md'))), 'docs/pictures/README.md']
FOLDERS = 'crates|data|dist|docs|tests|tools|examples|bench|include|rust|screen'
ELSEWHERE = {'memmove', 'do_action', 'docs/guides/DESIGN.md', 'pkg-config', 'probe-stack', 'qemu-aarch64'}  # of C, of its caller, of the toolchain, of other tools
LAW = r"[a-z][A-Za-z0-9']*(?:[_-][A-Za-z0-9']+)+"  # a law's name, and a definition's of several words


def read(path):
    return pathlib.Path(path).read_text()


def tree():
    """All words in the files that git has and that are no pages and no built files."""
    files = subprocess.run(['git', 'ls-files', '-co', '--exclude-standard'], capture_output=True, text=True, check=True).stdout.split('\n')
    words = set()
    for name in files:
        if not name or name.startswith('dist/') or name.endswith(('.md', '.svg', '.png', '.table', '.run', '.board')) or pathlib.Path(name).name in ('stdin', 'stdout'):
            continue
        if pathlib.Path(name).is_file():
            words.update(re.findall(r"[A-Za-z_][A-Za-z0-9_'-]*", read(name)))
    return words


@functools.cache
def in_code():
    """The words of the code and of the scripts, comments left out: not those of definitions and proofs."""
    comments = {'.rt': r'//.*', '.mjs': r'//.*', '.c': r'/\*.*?\*/|//.*', '.h': r'/\*.*?\*/|//.*', '.py': r'#.*', '.rs': r'//.*'}
    files = subprocess.run(['git', 'ls-files', '-co', '--exclude-standard'], capture_output=True, text=True, check=True).stdout.split('\n')
    words = set()
    for path in map(pathlib.Path, files):
        if path.suffix in comments and path.is_file() and path.parts[0] != 'dist':
            flags = re.S if path.suffix in ('.c', '.h') else 0
            words.update(re.findall(r"[A-Za-z_][A-Za-z0-9_'-]*", re.sub(comments[path.suffix].replace('//.*', r'//[^\n]*'), '', path.read_text(), flags=flags)))
    return words


def headings(page):
    """The anchors of a page's headings, as they are made of them."""
    found = re.findall(r'^#+ (.*)$', read(page), re.M)
    return {re.sub(r'[^a-z0-9 _-]', '', heading.lower().strip()).replace(' ', '-') for heading in found}


def missing_files(text):
    for name in sorted(set(re.findall(r'(?<![\w/.-])(?:%s)/[A-Za-z0-9_./+*-]+' % FOLDERS, text))):
        name = name.rstrip('.')
        if '*' not in name and 'NAME' not in name and name not in ELSEWHERE and not any(pathlib.Path(name + end).exists() for end in ('', '.antt')):
            yield name


def missing_links(page, text):
    for link in sorted(set(re.findall(r'\]\(([^)\s]+)\)', text))):
        path, _, anchor = link.partition('#')
        target = pathlib.Path(page).parent / path if path else pathlib.Path(page)
        if not target.exists() or anchor and anchor not in headings(target):
            yield link


def missing_names(text, words):
    for name in sorted(set(re.findall(r'`([^`\n]+)`', text))):
        parts = re.findall(r'[A-Za-z_]\w*', name.split('(')[0]) if '::' in name else [name] if re.fullmatch(r"[A-Za-z][A-Za-z0-9_'-]*", name) else []
        if not set(parts) <= words | ELSEWHERE:
            yield name


# ---- what is defined where

@functools.cache
def defined(path):
    """The names that a file defines: of definitions and proofs those with a type, of code types, functions and constants."""
    if path.endswith('.rt'):
        return set(re.findall(r'\b(?:fn|struct|enum|const|mod) (\w+)', read(path)))
    stated = re.findall(r"^ *(?:abbrev |unfoldable )?(?:pub )?(?:record |data )?([A-Za-z][A-Za-z0-9_'-]*(?: +[A-Za-z][A-Za-z0-9_'-]*)*)(?: [({].*?)? :", read(path), re.M)
    return {name for names in stated for name in names.split()}


@functools.cache
def laws():
    return {name for path in pathlib.Path('crates').glob('*/*/**/*.antt') for name in defined(str(path))}


def unstated(text):
    """Laws and definitions that a page names and no file states."""
    for name in sorted(set(re.findall(r'`(%s)`' % LAW, text))):
        if name not in laws() | ELSEWHERE | in_code() and not pathlib.Path('crates', name).is_dir() and not any(pathlib.Path(folder, name + '.md').exists() for folder in ('docs', '.')):
            yield name


def elsewhere_defined(text):
    """Names before a file, `a`, `b` and `c`, crates/x/proofs/Y.antt or `a` (Y.antt there), that the file does not define."""
    folder = None
    pattern = r"((?:`[A-Za-z][A-Za-z0-9_'-]*`(?:, | and |, and ))*`[A-Za-z][A-Za-z0-9_'-]*`)(?:,? \(?|, )((?:crates/[\w/]+/)?[A-Z]\w*\.antt)|(crates/[\w/]+/)(?=[A-Z]\w*\.antt)"
    for line in text.split('\n\n'):
        for row in line.split('\n|') if line.lstrip().startswith('|') else [line]:
            folder = None
            for names, path, seen in re.findall(pattern, re.sub(r'\s+', ' ', row)):
                folder = seen or (path.rpartition('/')[0] + '/' if '/' in path else folder)
                path = path if '/' in path or not folder else folder + path
                for name in re.findall(r'`([^`]+)`', names) if '/' in path and pathlib.Path(path).exists() else []:
                    if name not in defined(path):
                        yield '%s in %s' % (name, path)


def misplaced(text):
    """Definitions of a table with the columns Definition and File that the file does not define."""
    for table in re.findall(r'^\| In our words \| Definition \| File \|\n\|[-|]+\|\n((?:\|.*\|\n)+)', text, re.M):
        for _, names, path in re.findall(r'^\| (.*) \| (.*) \| (\S+) \|$', table, re.M):
            for name in re.findall(r'`([^`]+)`', names):
                if not pathlib.Path(path).exists() or name not in defined(path):
                    yield '%s in %s' % (name, path)


# ---- what demand 3 rests on

# what a reader of demand 3 may skip, as its page says: whole files, and definitions
SKIPPED = {'schedule/specs/Sound', 'schedule/specs/Links', 'filling/specs/Filled', 'table/specs/Pass', 'passes', 'setting_passes', 'begin_passes', 'is_blank', 'links_in', 'list_in', 'passed_in', 'passed_by'}
NAME = r"[A-Za-z][\w']*(?:-[\w']+)*"


def stated(text):
    """The definitions of a file, each with its text, and what it takes from other files' definitions."""
    text = re.sub(r'--.*', '', re.sub(r'^ *--.*\n', '', text, flags=re.M))
    found = [(re.search(r'^(?:abbrev |unfoldable )?(?:pub )?(?:record |data )?(%s).* :' % NAME, part, re.M), part) for part in re.split(r'\n\s*\n', text)]
    taken = {}
    for crate, path, names in re.findall(r'use Rattle\.(\w+)\.(specs[\w.]*)\.\{([^}]*)\}', text):
        for name, _, known in (part.strip().partition(' as ') for part in names.split(',')):
            taken[known or name] = ('%s/%s' % (crate, path.replace('.', '/')), name)
    return {match.group(1): part for match, part in found if match}, taken


def unread(text):
    """Definitions that demand 3's statement rests on and that its page neither lists nor skips."""
    files = {'/'.join(path.parts[1:])[:-5]: stated(read(path)) for path in pathlib.Path('crates').glob('*/specs/**/*.antt')}
    own, taken = stated(read('crates/bounds/proofs/Limit.antt'))
    statement = own['MemoryLimit'] + own['memory_limit'].partition('\nmemory_limit ')[0]
    todo, seen, listed = [taken[word] for word in re.findall(NAME, statement) if word in taken], set(), set(re.findall(r'`([^`]+)`', text))
    assert len(todo) > 10
    while todo:
        module, name = todo.pop()
        if (module, name) in seen or module in SKIPPED or name in SKIPPED or name not in files.get(module, [{}])[0]:
            continue
        seen.add((module, name))
        own, taken = files[module]
        todo += [(module, word) if word in own else taken[word] for word in re.findall(NAME, own[name]) if word in own or word in taken]
        if name not in listed:
            yield '%s of crates/%s.antt' % (name, module)


# ---- lists that are complete

def handed_on(text):
    """What a crate's first file hands on, each with its module."""
    for module, names in re.findall(r'^pub use (\w+)::(\w+|\{[^}]*\});', text, re.M):
        yield from ((module, name) for name in re.findall(r'\w+', names))


@functools.cache
def archives():
    """The crates that export to C, each with the one whose functions it exports; none can be called from another crate."""
    return {name: name[:-2] for name in re.findall(r'^(\w+) staticlib:', read('crates.txt'), re.M)}


def public_functions(exporting=False):
    """Of each crate what another can call: public functions of its lib.rt and of public modules, and those that it hands on; each with the text of its contract and of its file.
    Or of each crate that exports to C what it exports."""
    found = {}
    for path in sorted(pathlib.Path('crates').glob('*/src/lib.rt')):
        if (path.parts[1] in archives()) != exporting:
            continue
        text = read(path)
        whole = [(text, None)] + [(read(path.parent / (name + '.rt')), None) for name in re.findall(r'^pub mod (\w+);', text, re.M)]
        whole += [(read(path.parent / (module + '.rt')), name) for module, name in handed_on(text)]
        for text, alone in whole:
            for name, contract in re.findall(r'^pub (?:extern "C" )?fn (\w+)\([^)]*\)(.*?)^\{', text, re.M | re.S):
                if alone in (None, name):
                    found.setdefault(path.parts[1], {})[name] = (contract, text)
    return found


def function_rows():
    crates = re.findall(r'^(\w+)(?: staticlib)?:', read('crates.txt'), re.M)
    for crate, functions in sorted(public_functions().items(), key=lambda pair: crates.index(pair[0])):
        print('| `%s` | %s |' % (crate, ', '.join('`%s`' % name for name in functions)))


def functions_missing(text):
    """The table of every public function on the page, and what it says of them."""
    functions = public_functions()
    rows = re.findall(r'^\| `(\w+)` \| (.*) \|$', text.partition('\n## Every public function\n')[2].partition('\n## ')[0], re.M)
    listed = {crate: re.findall(r'`(\w+)`', names) for crate, names in rows}
    for crate in sorted({*functions, *listed}):
        for name in sorted({*functions.get(crate, {})} ^ {*listed.get(crate, [])}):
            yield '%s::%s is %s' % (crate, name, 'not listed' if name in functions.get(crate, {}) else 'listed and not there')
    count = int(re.search(r'^What one crate can call of another, (\d+) functions', text, re.M).group(1))
    if count != sum(map(len, functions.values())):
        yield '%d in all, not %d' % (sum(map(len, functions.values())), count)
    inner = set(re.findall(r'`(\w+::\w+)`', re.search(r'`specs/Code/`[^.]*;([^.]*)\.', text).group(1)))
    for crate, name in [(crate, name) for crate in functions for name in functions[crate]]:
        contract, file = functions[crate][name]
        of_code = {part.split(' as ')[-1].strip() for names in re.findall(r'^ghost use Rattle\.\S*?specs\.Code\.\w+\.\{(.*?)\}', file, re.M | re.S) for part in names.split(',')}
        cites = any(re.search(r"(?<![\w'-])%s(?![\w'-])" % re.escape(word), contract) for word in of_code)
        if 'requires' in contract or 'ensures' not in contract:
            yield '%s::%s has a condition, or no promise' % (crate, name)
        if cites != ('%s::%s' % (crate, name) in inner):
            yield '%s::%s: whether its promise rests on specs/Code' % (crate, name)


def exports_wrong():
    """What a crate exports to C promises word for word what the function does that it exports, and every function that is called from C is exported."""
    plain = lambda text: re.sub(r'\s+', ' ', text).strip()
    functions, exported = public_functions(), public_functions(exporting=True)
    for crate, of in archives().items():
        called = {name: contract for name, (contract, _) in functions[of].items() if name.startswith('wivakkol_')}
        for name in sorted({*called} ^ {*exported.get(crate, {})}):
            yield '%s::%s is %s' % (crate, name, 'not exported' if name in called else 'no function of %s' % of)
        for name in sorted({*called} & {*exported.get(crate, {})}):
            if plain(exported[crate][name][0]) != plain(called[name]):
                yield '%s::%s promises something else than %s has it' % (crate, name, of)


def calls_missing(text):
    """The headers, and the calls from C in the tables of calls; what ends in _ is for the header itself."""
    for header in sorted(pathlib.Path('include').glob('*.h')):
        if '`%s`' % header not in text:
            yield str(header)
        declared = re.sub(r'/\*.*?\*/', '', read(header), flags=re.S)
        for name in re.findall(r'^(?:static inline )?\w+ \*?(wivakkol_\w+)\(', declared, re.M):
            if not name.endswith(('_on', '_')) and not re.search(r'^\| (?:`\w+\(.*?\)`, )*`%s\(' % name, text, re.M) and name != 'wivakkol_refusal_words':
                yield name


# ---- the order of the checks

CHECKS = {  # where the definitions with checks in their order stand
    'head_pass': 'table/specs/Checks', 'entries_pass': 'table/specs/Checks', 'total_pass': 'table/specs/Checks', 'first_pass': 'table/specs/Checks', 'second_pass': 'table/specs/Checks',
    'forked_pass': 'table/specs/Checks', 'balance_pass': 'table/specs/Checks', 'shape_passes': 'table/specs/Checks', 'passes': 'table/specs/Checks', 'fill_pass': 'filling/specs/Filled',
    'quota_pass': 'filling/specs/Filling', 'setting_passes': 'schedule/specs/Begin', 'begin_passes': 'schedule/specs/Begin', 'turn_checks': 'schedule/specs/Turn', 'run_checks': 'schedule/specs/Values',
    'deque_checks': 'deques/specs/DequeTurn', 'workers_check': 'useful_limit/specs/Limits', 'gap_check': 'useful_limit/specs/Limits', 'quota_check': 'useful_limit/specs/Limits',
    'limit_passes': 'useful_limit/specs/Limits', 'fit_passes': 'useful_limit/specs/Fit', 'choices_check': 'deque_limit/specs/ChoiceLimit', 'choice_passes': 'deque_limit/specs/ChoiceLimit',
    'limits_in': 'useful_limit/specs/Limits', 'choice_limits_in': 'deque_limit/specs/ChoiceLimit', 'join_values': 'joining/specs/Answers', 'first_values': 'joining/specs/Answers',
    'chart_checks': 'chart/specs/Chart', 'set_checks': 'marks/specs/Marks', 'back_checks': 'marks/specs/Marks', 'lets_checks': 'pacing/specs/PacedValues', 'pace_checks': 'pacing/specs/PacedValues',
}


@functools.cache
def order_of(name, where=None):
    """The numbers of the checks in a definition, in their order, those of the definitions that it is made of among them."""
    text = re.sub(r'--.*', '', read('crates/%s.antt' % (where or CHECKS[name])))
    body = ' '.join(re.findall(r'^%s [^\n]*?=(.*?)(?=^\S|\Z)' % name, text, re.M | re.S))
    found = []
    for number, other in re.findall(r'(?:number =|refusal) (\d+)|(\w+)', body):
        found += [int(number)] if number else order_of(other) if other in CHECKS and other != name else []
    assert found, '%s has no checks' % name
    return [x for x, _ in itertools.groupby(found)]


def numbers(text):
    """Numbers as a page lists them, 1 to 11 in the order of the table's own checks."""
    found = []
    for low, high in re.findall(r'(?<![\d^])(\d+)(?: to (\d+))?', text):
        found += order_of('passes') if (low, high) == ('1', '11') else range(int(low), int(high or low) + 1)
    return found


def wanted_orders():
    """Of each program and call that refuses what it tries, from the definitions, but for what its input or its lent memory adds."""
    table, begin = order_of('passes'), order_of('passes') + order_of('begin_passes')
    limit, choice, fit, join = order_of('limit_passes'), order_of('choice_passes'), order_of('fit_passes'), order_of('join_values')
    fill, quota = table + order_of('quota_pass') + order_of('fill_pass'), table + order_of('quota_pass', 'quota/specs/Quota')
    turn, deque = order_of('turn_checks'), order_of('deque_checks')
    programs = {'tablecheck': table, 'tabledis': table, 'canontable': table, 'cmptables': [33] + table, 'jointables': join, 'turnlist': [33] + begin, 'wallchart': [33] + begin,
                'runrounds': [33] + begin, 'maxturns': [33] + begin, 'filltable': [33] + fill, 'maxquota': [33] + quota, 'fitquota': [33] + fit, 'memlimit': [33] + limit, 'dequelimit': [33] + choice}
    calls = {'check': table, 'quota': quota, 'most': begin, 'limit': order_of('limits_in'), 'fit': fit, 'begin': begin + [61], 'open': turn[:1], 'turn': turn + turn[:1], 'list': turn[:2] + turn[:1],
             'mark': order_of('set_checks'), 'back': order_of('back_checks'), 'deque_open': turn[:1], 'deque_turn': deque + turn[:1], 'deque_list': [x for x in deque if x != 31] + turn[:1],
             'deque_limit': order_of('choice_limits_in'), 'chart': order_of('chart_checks'), 'pace_begin': order_of('pace_checks'), 'paced_turn': turn + order_of('lets_checks') + turn[:1],
             'paced_list': turn[:2] + order_of('lets_checks') + turn[:1], 'join': join, 'canonical': table, 'compare': table, 'disassemble': table + [61]}
    return programs, {'wivakkol_' + name: order for name, order in calls.items()}


def orders_wrong():
    """The orders of checks that REFERENCE.md and C-AND-RUST.md give."""
    reference, calls_page = read('docs/REFERENCE.md'), read('docs/C-AND-RUST.md')
    programs, calls = wanted_orders()
    table = [int(x) for x in re.findall(r'^\| (\d+) \| (?:0|n|entry|action|thread) \| [^|]+ \| [^|]+ \| [^|]+ \|$', reference, re.M)]
    first = [x for x, _ in itertools.groupby(table[:table.index(44) + 1])]
    if first != [33] + order_of('passes') + order_of('begin_passes'):
        yield 'docs/REFERENCE.md: the table of refusals has %s' % first
    said = {}
    for names, text in re.findall(r'^\| ((?:`\w+`(?:, )?)+) \| ([^|]+) \|$', reference.partition('\n### Who gives what\n')[2].partition('\n### ')[0], re.M):
        said.update((name, text) for name in re.findall(r'`(\w+)`', names))
    for name, order in programs.items():
        got = numbers(re.split(r', each|; 30', said.get(name, ''))[0].replace('with the table, 0 or 1', '').replace('1 to 11 with the part', '1 to 11'))
        if got != order:
            yield 'docs/REFERENCE.md: %s tries %s, not %s' % (name, order, got)
    for name, order in calls.items():
        row = re.search(r'^\| `%s\(.*?\)` \| ([^|]*) \|' % name, calls_page, re.M)
        if not row or numbers(row.group(1))[1:] != order:
            yield 'docs/C-AND-RUST.md: %s tries %s, not %s' % (name, order, row and numbers(row.group(1))[1:])


def main():
    words, faults = tree(), []
    for page in PAGES:
        text = read(page)
        for sort, found in (('file', missing_files(text)), ('link', missing_links(page, text)), ('name', missing_names(text, words)), ('law', unstated(text)),
                            ('definition there', elsewhere_defined(text)), ('definition there', misplaced(text))):
            faults += ['%s: no such %s: %s' % (page, sort, what) for what in found]
    faults += ['docs/DEMAND3.md does not have %s' % what for what in unread(read('docs/DEMAND3.md'))]
    faults += ['docs/PROOFS.md, public functions: %s' % what for what in functions_missing(read('docs/PROOFS.md'))]
    faults += ['docs/C-AND-RUST.md does not have %s' % what for what in calls_missing(read('docs/C-AND-RUST.md'))]
    faults += exports_wrong()
    faults += orders_wrong()
    faults += lists.different(write=False)
    for fault in faults:
        print(fault)
    if faults:
        sys.exit('%d not as they should be' % len(faults))
    print('%d pages: every file, link, name and law is there, lists of functions and calls are complete, refusals in their order, and what is made from data/ as it has it' % len(PAGES))


if __name__ == '__main__':
    function_rows() if '--functions' in sys.argv else main()
