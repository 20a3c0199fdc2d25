#!/usr/bin/env python3
"""Places of src/ that could be written in newer forms, by the points of docs/DESIGN-PASS.md.

usage: tools/places.py [--at COMMIT] [POINT ..]

Prints each place, FILE:LINE: WHAT, and a count for each point; with --at, of the files of that commit. Programs for tests and
benchmarks are counted too. It reads text and understands no code: what it prints is a list to look at.
"""
import collections
import io
import re
import subprocess
import sys
import tarfile
from pathlib import Path

TOP = Path(__file__).resolve().parent.parent


def sources(commit):
    """The .rt files below crates/*/src by path, as they stand or at a commit."""
    if commit is None:
        files = subprocess.run(['git', 'ls-files', 'crates'], cwd=TOP, capture_output=True, text=True, check=True).stdout.split()
        return {f: (TOP / f).read_text() for f in files if f.endswith('.rt') and (TOP / f).exists()}
    data = subprocess.run(['git', 'archive', commit, 'crates'], cwd=TOP, capture_output=True, check=True).stdout
    with tarfile.open(fileobj=io.BytesIO(data)) as archive:
        return {m.name: archive.extractfile(m).read().decode() for m in archive if m.name.endswith('.rt')}


def lines(text):
    """Line numbers and lines that are code: no comments, clauses or imports."""
    for i, line in enumerate(text.split('\n'), 1):
        bare = line.strip()
        if bare and not bare.startswith(('//', 'ensures', 'requires', 'ghost ', 'use ', 'pub use ', '#!')):
            yield i, line


def functions(text):
    """Name, line, head, clauses and body of each function."""
    rows = text.split('\n')
    i = 0
    while i < len(rows):
        found = re.match(r'^(\s*)(?:pub(?:\(crate\))? )?(?:unsafe )?(?:extern "C" )?fn (\w+)', rows[i])
        if not found:
            i += 1
            continue
        indent, name, start = found.group(1), found.group(2), i
        end = i
        while end < len(rows) and rows[end] != indent + '}' and not (end == start and rows[end].rstrip().endswith('}')):
            end += 1
        opening = next((j for j in range(start, min(end, len(rows))) if rows[j] == indent + '{'), start)
        head, clauses = [], []
        for row in rows[start:opening]:
            (clauses if clauses or row.strip().startswith(('ensures', 'requires')) else head).append(row.strip())
        yield name, start + 1, ' '.join(head), clauses, rows[opening:end]
        i = end + 1


def enums(text):
    """Name, line and variants of each enum."""
    for found in re.finditer(r'^(?:pub(?:\(crate\))? )?enum (\w+) \{\n((?:.*\n)*?)^\}', text, re.M):
        names = re.findall(r'^    (\w+)', found.group(2), re.M)
        yield found.group(1), text[:found.start()].count('\n') + 1, names, found.group(2)


REFUSALS = {'Refused', 'Nothing', 'NoNumber', 'Stopped', 'Fault', 'Broken', 'Malformed', 'Short', 'NoTable', 'InPart'}


def point1(files):
    """Own enums with a case that is a refusal or nothing; structs with a flag beside values; numbers for kinds and states."""
    for path, text in files.items():
        for name, line, variants, _ in enums(text):
            if REFUSALS & set(variants):
                yield path, line, f'enum {name} {{{", ".join(variants)}}}'
        for found in re.finditer(r'^(?:pub(?:\(crate\))? )?struct (\w+) \{\n((?:.*\n)*?)^\}', text, re.M):
            flags = re.findall(r'^    (?:pub(?:\(crate\))? )?(number|found|passed|fits|holds|free|done): (bool|u8|u32|Found|Result<\(\), Refusal>)', found.group(2), re.M)
            if flags and found.group(2).count(':') > 1:
                yield path, text[:found.start()].count('\n') + 1, f'struct {found.group(1)}, flag {flags[0][0]}'
        for line, row in lines(text):
            if re.match(r'^\s*(pub(\(crate\))? )?const \w+: (u8|u16|u32|u64|usize) = [\d_]+;', row):
                yield path, line, row.strip()
            if re.search(r'\b(k|code|kind): u8\b', row) and 'fn ' in row or re.match(r'^\s+(k|code|kind): u8,', row):
                yield path, line, 'a kind by its code: ' + row.strip()[:80]
        for name, line, head, clauses, body in functions(text):
            for i, row in enumerate(body):
                if re.search(r'if let (Found::At|Err|\w+::Refused)\(\w+\) = ', row) and i + 1 < len(body) and 'return' in body[i + 1]:
                    yield path, line + len(clauses) + i, f'{name}: a refusal handed on by hand'


def normal(body):
    """A body with its names, numbers and types replaced by their order."""
    seen = {}
    words = re.findall(r'[A-Za-z_]\w*|\d[\d_]*|[^\s\w]', '\n'.join(re.sub(r'//.*', '', row) for row in body))
    kept = {'if', 'else', 'while', 'for', 'in', 'let', 'mut', 'match', 'return', 'as', 'fn', 'true', 'false', 'loop', 'break'}
    out = []
    for word in words:
        if re.match(r'[A-Za-z_\d]', word) and word not in kept:
            word = seen.setdefault(word, f'#{len(seen)}')
        out.append(word)
    return ' '.join(out)


def point2(files):
    """Functions whose bodies are the same up to a consistent renaming of names, numbers and types, of five lines or more."""
    groups = collections.defaultdict(list)
    for path, text in files.items():
        for name, line, head, clauses, body in functions(text):
            rows = [row for row in body if row.strip() and not row.strip().startswith('//')]
            if len(rows) >= 5:
                groups[normal(rows)].append((path, line, name))
    for group in groups.values():
        if len(group) > 1:
            for path, line, name in group[1:]:
                first = group[0]
                yield path, line, f'{name}: as {first[2]} of {first[0]}'


def point3(files):
    """`while` and `loop`; a `for` over the indices of a slice."""
    for path, text in files.items():
        for line, row in lines(text):
            if re.match(r"^\s*('\w+: )?(while|loop)\b", row):
                yield path, line, row.strip()
            elif re.match(r'^\s*for \w+ in \w+\.\.[\w.]+\.len\(\)', row):
                yield path, line, row.strip()


def point4(files):
    """Equality, order, copying, conversion and printing by hand."""
    names = re.compile(r'^(larger|lesser|same\w*|equal\w*|is_equal|copy\w*|compare\w*|wide|narrow|byte|word|double_word|low|high)$')
    for path, text in files.items():
        for found in re.finditer(r'^impl (\w*(PartialEq|Eq|Ord|PartialOrd|Clone|Copy|Debug))\b.* for ', text, re.M):
            yield path, text[:found.start()].count('\n') + 1, found.group(0)
        for name, line, head, clauses, body in functions(text):
            if names.match(name):
                yield path, line, 'fn ' + name
        for line, row in lines(text):
            if re.search(r'(/|%|\*) (256|65536|16777216)\b', row):
                yield path, line, 'bytes by hand: ' + row.strip()[:80]


def point5(files):
    """A clause in the contracts of three functions of a crate or more; three parameters that travel together through three functions or more."""
    facts, groups = collections.defaultdict(list), collections.defaultdict(list)
    for path, text in files.items():
        crate = path.split('/')[1]
        for name, line, head, clauses, body in functions(text):
            for clause in clauses:
                found = re.match(r'requires(?: \w+)? \{ (.*) \}$', clause)
                if found:
                    facts[crate, re.sub(r'\.(old|now|new)\b', '', found.group(1))].append((path, line, name))
            params = re.findall(r'(\w+): (&?(?:mut )?[^,()]+)', head.split('->')[0].partition('(')[2])
            names = [f'{a}: {b.strip(" )")}' for a, b in params if a not in ('out', 'at')]
            for i in range(len(names) - 2):
                groups[crate, tuple(names[i:i + 3])].append((path, line, name))
    for (crate, fact), where in facts.items():
        if len(where) > 2:
            yield where[0][0], where[0][1], f'{len(where)} functions: requires {fact[:90]}'
    for (crate, names), where in groups.items():
        if len(where) > 2:
            yield where[0][0], where[0][1], f'{len(where)} functions: {", ".join(names)}'


def point6(files):
    """Arrays of one length side by side in a struct or a function's parameters; a buffer with its length beside it."""
    for path, text in files.items():
        for found in re.finditer(r'^(?:pub(?:\(crate\))? )?struct (\w+) \{\n((?:.*\n)*?)^\}', text, re.M):
            sizes = re.findall(r'\[\w+; (\w+)\]', found.group(2))
            if len(sizes) != len(set(sizes)) or ('length' in found.group(2) and sizes):
                yield path, text[:found.start()].count('\n') + 1, 'struct ' + found.group(1)
        for name, line, head, clauses, body in functions(text):
            sizes = re.findall(r'&(?:mut )?\[\w+; (\w+)\]', head)
            if len(sizes) != len(set(sizes)):
                yield path, line, 'fn ' + name + ': arrays of ' + ', '.join(sorted({s for s in sizes if sizes.count(s) > 1}))


def point7(files):
    """A bool or a number that says which step is run: a parameter of a function with a loop or a call for each."""
    for path, text in files.items():
        for name, line, head, clauses, body in functions(text):
            for flag in re.findall(r'(\w+): bool\b', head):
                if any(re.search(rf'\bif !?{flag}\b', row) for row in body):
                    yield path, line, f'fn {name}: {flag}'
        for found in re.finditer(r'\bfn\(', text):
            yield path, text[:found.start()].count('\n') + 1, 'a function as a value'


POINTS = {1: point1, 2: point2, 3: point3, 4: point4, 5: point5, 6: point6, 7: point7}


def main(words):
    commit = None
    if words[:1] == ['--at']:
        commit, words = words[1], words[2:]
    files = {f: t for f, t in sorted(sources(commit).items()) if '/src/' in f}
    for number in [int(w) for w in words] or POINTS:
        places = list(POINTS[number](files))
        print(f'{number}. {POINTS[number].__doc__}')
        for path, line, what in places:
            print(f'   {path}:{line}: {what}')
        print(f'   {len(places)} places')


if __name__ == '__main__':
    main(sys.argv[1:])
