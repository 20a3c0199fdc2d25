"""Makes the screen: one HTML file of screen/, the calls as WebAssembly, the examples, and what the headers say of the calls. A browser opens it from the
disk; docs/SCREEN.md is its page.

usage: python3 tools/screen.py            (writes dist/screen.html)
       python3 tools/screen.py --check    (is dist/screen.html what would be written? One line and exit status 1 where it is not)
       python3 tools/screen.py --facts    (what is read out of the headers, as JSON, for tests)
"""
import base64
import gzip
import hashlib
import json
import pathlib
import re
import runpy
import sys

ROOT = pathlib.Path(__file__).resolve().parent.parent
PAGE, WASM, SUMS = ROOT / 'dist/screen.html', ROOT / 'dist/wasm32/wivakkol.wasm', ROOT / 'dist/SUMS'
HEADERS = ('wivakkol', 'wivakkol_desk', 'wivakkol_marks', 'wivakkol_pace', 'wivakkol_deques')
MODULES = ('calls', 'run', 'files', 'drawings', 'panels', 'main')
EXAMPLES = ('repeats', 'e', 'parts', 'stages', 'tree')
WIDTHS = {'uint8_t': 1, 'uint16_t': 2, 'uint32_t': 4, 'uint64_t': 8}


# The headers

def texts():
    return {name: (ROOT / 'include' / (name + '.h')).read_text() for name in HEADERS}


def constants(text):
    """The numbers that a header defines."""
    return {name: int(value) for name, value in re.findall(r'^#define WIVAKKOL_(\w+) ([0-9]+)\b', text, re.M)}


def product(text, known):
    """A size as the headers write them: a number, a constant, or a product of these."""
    found = 1
    for word in text.split('*'):
        word = word.strip()
        found *= int(word) if word.isdecimal() else known[word.replace('WIVAKKOL_', '')]
    return found


def parameter(text, known):
    """A parameter of an exported call: its name, what it is (p a pointer, n a number of 32 bits, N one of 64), the width of a number that it points to and how many there are, 0 where
    the call is told."""
    found = re.fullmatch(r'(?:const )?(\w+) (\*?)(\w+)(?:\[([^\]]*)\])?', ' '.join(text.split()))
    kind, star, name, size = found.groups()
    if star or size:
        return [name, 'p', WIDTHS[kind], product(size, known) if size else 0]
    return [name, 'N' if kind in ('size_t', 'uint64_t') else 'n', 0, 0]


def layout(text, known):
    """Where the blocks of a run begin, as C lays out the struct, and its size."""
    fields = re.search(r'typedef struct wivakkol_run \{(.*?)\}', text, re.S)[1]
    at, blocks = 0, {}
    for kind, name, size in re.findall(r'(\w+) (\w+)\[(\w+)\];', fields):
        at = -(-at // WIDTHS[kind]) * WIDTHS[kind]
        blocks[name] = at, WIDTHS[kind]
        at += WIDTHS[kind] * product(size, known)
    return blocks, -(-at // 8) * 8


def places(text, known, blocks):
    """Of each exported call that is handed parts of a run: the part's place in the run for each such parameter, None for the others, as the call for a wivakkol_run hands them on."""
    found = {}
    for name, handed in re.findall(r'(?:return )?(wivakkol_\w+_on)\(([^;{]*?)\);\n\}', text):
        found[name] = []
        for word in re.split(r',\s*', handed):
            part = re.fullmatch(r'run->(\w+)(?: \+ WIVAKKOL_(\w+))?', word.strip())
            at, width = blocks[part[1]] if part else (0, 0)
            found[name].append(at + width * (known[part[2]] if part[2] else 0) if part else None)
    return found


def calls(text, known, blocks):
    handed, found = places(text, known, blocks), {}
    for kind, name, takes in re.findall(r'^(void|uint32_t) (wivakkol_\w+)\(([^;{]*?)\);', text, re.M):
        parameters = [parameter(word, known) for word in re.split(r',\s*', takes)]
        parts = handed.get(name, [None] * len(parameters))
        found[name] = [row + [part] for row, part in zip(parameters, parts)]
    return found


def facts():
    """What the modules are told: constants, a run's blocks and size, the calls' parameters, refusals in words with what their place counts, and the version."""
    headers = texts()
    known = {}
    for text in headers.values():
        known.update(constants(text))
    blocks, size = layout(headers['wivakkol'], known)
    refusals = runpy.run_path(str(ROOT / 'tools/wivakkol'))['REFUSALS']
    return {'constants': known, 'blocks': blocks, 'run': size, 'refusals': {number: list(refusal) for number, refusal in refusals.items()},
            'calls': {name: row for text in headers.values() for name, row in calls(text, known, blocks).items()},
            'version': re.search(r'#define WIVAKKOL_VERSION "(.*?)"', headers['wivakkol'])[1]}


# The page

def module(name):
    """A module as a function, called once, that answers what the module exports: modules in files of their own do not load from a disk."""
    text = (ROOT / 'screen' / (name + '.mjs')).read_text()
    text = re.sub(r"^import (\{[^}]*\}) from '\./(\w+)\.mjs';$", r'const \1 = \2;', text, flags=re.M)
    exported = re.findall(r'^export (?:async )?(?:function|class|const|let) ([\w$]+)', text, re.M)
    body = re.sub(r'^export ', '', text, flags=re.M).strip()
    return 'const %s = (() => {\n%s\nreturn {%s};\n})();\n' % (name, body, ', '.join(exported))


def embedded(name, value):
    """A JSON value in the page, in a script that is none."""
    return '<script type="application/json" id="data-%s">%s</script>' % (name, json.dumps(value, ensure_ascii=True, separators=(',', ':')).replace('<', '\\u003c'))


def page():
    """The page without the calls, which stand where PACKED stands. Where data-start is null, `wivakkol screen` puts a table in base64, its name, p, K and M."""
    parts = {'STYLE': (ROOT / 'screen/style.css').read_text().strip(), 'SCRIPT': ''.join(module(name) for name in MODULES).strip(),
             'DATA': '\n'.join([embedded('facts', facts()), embedded('examples', {name: (ROOT / 'examples' / (name + '.text')).read_text() for name in EXAMPLES}),
                                embedded('start', None)])}
    return re.sub(r'<!-- (STYLE|SCRIPT|DATA) -->', lambda found: parts[found[1]], (ROOT / 'screen/page.html').read_text())


def with_calls(text, wasm):
    return text.replace('<!-- PACKED -->', base64.b64encode(gzip.compress(wasm, 9, mtime=0)).decode())


def current(wasm):
    """Is dist/screen.html what would be made of these calls? They are compared unpacked, since programs that pack differ."""
    found = re.fullmatch(r'(.*<script type="text/plain" id="packed">)([A-Za-z0-9+/=]*)(</script>.*)', PAGE.read_text() if PAGE.exists() else '', re.S)
    return bool(found) and found[1] + '<!-- PACKED -->' + found[3] == page() and gzip.decompress(base64.b64decode(found[2])) == wasm


def for_dist(wasm):
    """The page's bytes with these calls; those that stand there where they are what would be made."""
    return PAGE.read_bytes() if current(wasm) else with_calls(page(), wasm).encode()


def write():
    """Writes dist/screen.html, and its sum."""
    data = for_dist(WASM.read_bytes())
    PAGE.write_bytes(data)
    lines = [line for line in SUMS.read_text().splitlines() if not line.endswith('  ' + PAGE.name)] + ['%s  %s' % (hashlib.sha256(data).hexdigest(), PAGE.name)]
    SUMS.write_text(''.join(line + '\n' for line in sorted(lines, key=lambda line: line.split('  ')[1])))


def faults():
    """What is wrong with dist/screen.html, in one line, or nothing."""
    if not current(WASM.read_bytes()):
        return 'dist/screen.html is not what screen/, include/, examples/ and dist/wasm32 make: `python3 tools/screen.py` writes it anew'
    if '%s  %s\n' % (hashlib.sha256(PAGE.read_bytes()).hexdigest(), PAGE.name) not in SUMS.read_text():
        return 'dist/SUMS has another sum for screen.html: `python3 tools/screen.py` writes it anew'
    return None


def main(given):
    if given == ['--facts']:
        print(json.dumps(facts()))
    elif given == ['--check']:
        if faults():
            sys.exit(faults())
        print('dist/screen.html is as made, %d bytes' % PAGE.stat().st_size)
    elif not given:
        write()
    else:
        sys.exit(__doc__)


if __name__ == '__main__':
    main(sys.argv[1:])
