"""Makes what headers, Rust, the command and the pages say of refusals and of a run's memory from two lists, data/refusals.txt and data/memory.txt. What is made stands between two marks, `made from ..` and
`made to here`, and is not to be edited.

usage: python3 tools/lists.py --check | --write    (from the repository's top)
    --check names each part that differs and ends with status 1; --write writes them.
"""
import collections
import pathlib
import re
import sys

REFUSALS, MEMORY = 'data/refusals.txt', 'data/memory.txt'
HEADERS = ['wivakkol.h', 'wivakkol_marks.h', 'wivakkol_tables.h', 'wivakkol_deques.h', 'wivakkol_desk.h', 'wivakkol_pace.h']
PLACES = ('entry', 'action', 'thread')
Block = collections.namedtuple('Block', 'name bits parts rows')  # parts: name, count, place and named numbers (name, comment)


def lines_of(path):
    """The lines of a list with their numbers, without comments and empty ones."""
    for number, line in enumerate(pathlib.Path(path).read_text().split('\n'), 1):
        if line.strip() and not line.startswith('#'):
            yield '%s:%d' % (path, number), line


def fault(where, what):
    sys.exit('%s: %s' % (where, what))


def refusals():
    """By number, in the list's order: fields, of which `row` and `of` are lists."""
    found = {}
    for where, line in lines_of(REFUSALS):
        head = re.fullmatch(r'\[([0-9]+)\]', line)
        field = re.fullmatch(r'([a-z]+): (.+)', line)
        if head:
            number = int(head[1])
            if number in found:
                fault(where, 'a second [%d]' % number)
            found[number] = {'row': [], 'of': []}
        elif not field or not found:
            fault(where, 'expected [number] or field: text')
        elif field[1] in ('row', 'of'):
            parts = field[2].split(' | ')
            if len(parts) != 4:
                fault(where, 'a %s has four parts, found %d' % (field[1], len(parts)))
            found[number][field[1]].append(parts)
        elif field[1] in found[number] or field[1] not in ('name', 'header', 'comment', 'words', 'meaning', 'rust', 'about', 'advice'):
            fault(where, 'a field that is not known, or a second one: %s' % field[1])
        else:
            found[number][field[1]] = field[2]
    for number, refusal in found.items():
        missing = {'meaning', 'about', 'advice'} - set(refusal)
        if missing or ('name' in refusal) != ('words' in refusal) or ('name' in refusal) != ('header' in refusal):
            fault(REFUSALS, '[%d] lacks a field' % number)
    return found


def memory():
    """The blocks, each part with its place."""
    blocks = []
    for where, line in lines_of(MEMORY):
        block = re.fullmatch(r'\[([a-z]+)\] (8|16|32|64)', line)
        part = re.fullmatch(r'part ([a-z]+) ([0-9]+)', line)
        name = re.fullmatch(r'at ([A-Z_]+)(?:: (.+))?', line)
        row = re.fullmatch(r'row ([A-Z_ ]+): (.+)', line)
        if block:
            blocks.append(Block(block[1], int(block[2]), [], []))
        elif part and blocks:
            blocks[-1].parts.append((part[1], int(part[2]), size(blocks[-1]), []))
        elif name and blocks and blocks[-1].parts:
            blocks[-1].parts[-1][3].append((name[1], name[2]))
        elif row and blocks:
            blocks[-1].rows.append((row[1].split(), row[2]))
        else:
            fault(where, 'expected a block, a part, a name or a row')
    return blocks


def size(block):
    return sum(count for _, count, _, _ in block.parts)


def named(block):
    """Name, place and comment of each number that has a name."""
    return [(name, place + i, comment) for _, _, place, names in block.parts for i, (name, comment) in enumerate(names)]


# C

def defined(pairs):
    """Constants with their comments in one column; the comment of the last may be none."""
    wide = max(len('%s %d' % (name, x)) for name, x, comment in pairs if comment)
    return ['#define WIVAKKOL_%s%s' % (('%s %d' % (name, x)).ljust(wide) if comment else '%s %d' % (name, x), ' /* %s */' % comment if comment else '') for name, x, comment in pairs]


def header_names(found, header):
    return defined([('REFUSED_' + refusal['name'], number, refusal['comment']) for number, refusal in sorted(found.items()) if refusal.get('header') == header])


def header_words(found):
    said = [(0, 'nothing is refused')] + [(number, refusal['words']) for number, refusal in sorted(found.items()) if 'words' in refusal]
    return ['    case %d: return "%s";' % pair for pair in said] + ['    default: return "no call refuses with this number";']


def header_places(blocks):
    made = []
    for block in blocks:
        made += ['', '/* Places in `%s`. */' % block.name, *defined([('AT_' + name, place, comment) for name, place, comment in named(block)]),
                 '#define WIVAKKOL_%s %d' % (block.name.upper(), size(block))]
    return made[1:]


# Rust

def rust_places(found):
    made = ['        match self.number {']
    for about in PLACES:
        numbers = sorted(number for number, refusal in found.items() if refusal['about'] == about)
        made.append('            %s => Place::%s,' % (' | '.join(ranges(numbers)), about.capitalize()))
    return made + ['            _ => Place::Nothing,', '        }']


def ranges(numbers):
    """Numbers as Rust's patterns, three or more in a row as a range."""
    rows = []
    for x in numbers:
        if rows and x == rows[-1][1] + 1:
            rows[-1][1] = x
        else:
            rows.append([x, x])
    return [text for low, high in rows for text in (['%d..=%d' % (low, high)] if high - low > 1 else map(str, range(low, high + 1)))]


def rust_meanings(found):
    said = [(number, refusal.get('rust', refusal['meaning'])) for number, refusal in sorted(found.items())]
    return ['        match self.number {', *('            %d => "%s",' % pair for pair in said if pair[1] != '-'), '            _ => "no number of these calls",', '        }']


def rust_parts(blocks):
    made = ['parts! {']
    for block in blocks:
        made += ['    %s {' % block.name, *('        %s: [u%d; %d] at %d,' % (name, block.bits, count, place) for name, count, place, _ in block.parts), '    }']
    return made + ['}']


def rust_struct(blocks):
    return ['    pub(crate) %s: [u%d; %d],' % (block.name, block.bits, size(block)) for block in blocks]


# The command

def quoted(text):
    return "'%s'" % text if "'" not in text else '"%s"' % text


def command_refusals(found):
    made = ['REFUSALS = {']
    for number, refusal in sorted(found.items()):
        made += entry('    %d: ' % number, [refusal['about'], refusal['meaning'], refusal['advice']])
    made += ['}', '# what a program means by a number, where that is another thing', 'OF_PROGRAM = {']
    for number, refusal in sorted(found.items()):
        for program, *rest in refusal['of']:
            made += entry("    ('%s', %d): " % (program, number), rest)
    return made + ['}']


def entry(front, texts):
    """A Refusal on a line, or, where that is long, on two."""
    one = '%sRefusal(%s),' % (front, ', '.join(map(quoted, texts)))
    if len(one) <= 160:
        return [one]
    return ['%sRefusal(%s,' % (front, ', '.join(map(quoted, texts[:2]))), '%s%s),' % (' ' * (len(front) + len('Refusal(')), quoted(texts[2]))]


# The pages

def reference_rows(found):
    made = ['| No. | Place | Pass | Meaning | What to do |', '|---|---|---|---|---|']
    for number, refusal in found.items():
        for place, when, meaning, advice in refusal['row']:
            made.append('| %d | %s | %s | %s | %s |' % (number, place, when, refusal['meaning'] if meaning == '=' else meaning, refusal['advice'] if advice == '=' else advice))
    return made


def page_rows(blocks):
    made = ['| Block | Place | What |', '|---|---|---|']
    for block in blocks:
        places = {name: place for name, place, _ in named(block)}
        for i, (names, what) in enumerate(block.rows):
            front = '`%s`, %s of %d bits' % (block.name, format(size(block), ','), block.bits) if i == 0 else ''
            made.append('| %s| %s | %s |' % (front + ' ' if front else '', ', '.join(str(places[name]) for name in names), what))
    return made


# All of it

def parts():
    """Each part that is made: the file, a word for it, its lines."""
    found, blocks = refusals(), memory()
    for header in HEADERS:
        yield 'include/' + header, 'names', header_names(found, header)
    yield 'include/wivakkol.h', 'words', header_words(found)
    yield 'include/wivakkol.h', 'places', header_places(blocks)
    yield 'rust/wivakkol/src/refusal.rs', 'places', rust_places(found)
    yield 'rust/wivakkol/src/refusal.rs', 'meanings', rust_meanings(found)
    yield 'rust/wivakkol/src/memory.rs', 'struct', rust_struct(blocks)
    yield 'rust/wivakkol/src/memory.rs', 'parts', rust_parts(blocks)
    yield 'tools/wivakkol', 'refusals', command_refusals(found)
    yield 'docs/REFERENCE.md', 'refusals', reference_rows(found)
    yield 'docs/C-AND-RUST.md', 'memory', page_rows(blocks)


def marked(text, word):
    """Before, inside and behind the marks of a part; None where they are not there."""
    found = re.findall(r'\A(.*?^[^\n]*made from data/\w+\.txt: %s\b[^\n]*\n)(.*?)(^[^\n]*made to here[^\n]*\n.*)\Z' % word, text, re.S | re.M)
    return found[0] if found else None


def others_in_reference(found):
    """Numbers that have no row in the table have one elsewhere on the page, with their meaning."""
    page = pathlib.Path('docs/REFERENCE.md').read_text()
    for number, refusal in found.items():
        if not refusal['row'] and not any(line.startswith('| %d |' % number) and refusal['meaning'] in line for line in page.split('\n')):
            yield 'docs/REFERENCE.md: no row says of %d: %s' % (number, refusal['meaning'])


def different(write):
    """The faults that are left: parts that differ, and are written if that is asked, and marks that are missing."""
    for path, word, lines in parts():
        text = pathlib.Path(path).read_text()
        cut = marked(text, word)
        if cut is None:
            yield '%s: no marks for %s' % (path, word)
            continue
        before, inside, behind = cut
        made = '\n'.join(lines) + '\n'
        if path.endswith('.md'):
            made = '\n%s\n' % made
        if inside != made and write:
            pathlib.Path(path).write_text(before + made + behind)
        elif inside != made:
            yield '%s: %s is not as the list has it: python3 tools/lists.py --write' % (path, word)
    yield from others_in_reference(refusals())


def main():
    if sys.argv[1:] not in (['--check'], ['--write']):
        sys.exit(__doc__.split('\n\n')[1])
    faults = list(different(sys.argv[1] == '--write'))
    for line in faults:
        print(line)
    if faults:
        sys.exit(1)
    print('%d parts of headers, Rust, the command and the pages are as data/ has them' % len(list(parts())))


if __name__ == '__main__':
    main()
