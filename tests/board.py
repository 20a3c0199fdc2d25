"""Builds tests/board.c and examples/board.c on the archives for C, calls them on random and damaged tables and runs, and compares with reference.py, quota.py, most.py, limits.py, fitting.py, machine.py and lent.py, which
were written on their own. Holds the header against the source, since nothing else would say where they differ.

usage: python3 tests/board.py [COUNT]
    From the repository's top, after `python3 tools/dist.py archive wivakkol_turn wivakkol`; COUNT tables and half as many runs of each kind, default 3,000; needs a C compiler, `cc`.
"""
import collections
import math
import os
import pathlib
import random
import re
import shutil
import subprocess
import sys

import board_limits
import board_origins
import board_runs
import fitting
import lent
import machine
import most
import quota
import reference
from differential import LARGEST, mostly, run_table, tablecheck_input
from reference import check, facts_line
from tables import damaged

sys.path.insert(0, str(pathlib.Path(__file__).parent.parent / 'bench'))
import stack

CRATES, OUT = ['wivakkol_turn', 'wivakkol'], 'target/c'
ARCHIVES = ['target/staticlib/lib%s.a' % crate for crate in CRATES]
# what each call on a table can return
NUMBERS = {'wivakkol_check': set(range(12)), 'wivakkol_quota': set(range(12)) | {20, 41, 42}, 'wivakkol_most': set(range(12)) | {20, 21, 44}}
# what it leaves of its working memory, field by field: 0, all 0; 1, as it was
LEFT = {'wivakkol_check': [0, 0, 0, 0, 1, 1], 'wivakkol_quota': [0, 0, 0, 0, 1, 1], 'wivakkol_most': [0, 0, 1, 1, 1, 1]}
STACK_MOST = 8192  # bytes that a call on a table may take of the stack
# the names of their numbers of bytes, of lengths that of their count
BYTES = {'table': 'length', 'text': 'length', 'out': 'room', 'order': 'turns', 'filled': 'room', 'first': 'first_length', 'second': 'second_length', 'tables': 'length', 'lengths': 'parts'}
RUN_CALLS = list(board_runs.NUMBERS)  # the calls for a wivakkol_run
ACTION_CALLS = ['wivakkol_kind', 'wivakkol_argument', 'wivakkol_origin']
WORK_NAMES = {'parents': 'seen'}  # fields of a wivakkol_work that the exported calls name otherwise, since they have parents of their own
# the places that the header names: of each the part of a block that it is in, and which number of that
NAMED = {'HELD': ('totals', lent.HELD_NOW), 'HIGHEST': ('totals', lent.HIGHEST), 'TURNS': ('totals', lent.TURNS), 'P': ('settings', lent.P), 'K': ('settings', lent.K),
         'WORKER_THREADS': ('threads', 0), 'LEFTMOST': ('heads', lent.LEFTMOST), 'FIRST': ('heads', lent.FIRST), 'BUSY': ('heads', lent.BUSY)}
NAMED.update({name.upper(): (name, 0) for name in lent.PLACES if name not in ('totals', 'settings', 'threads', 'heads')})
Case = collections.namedtuple('Case', 'data p b memory quota')


def build(source, name, archives=ARCHIVES):
    """The program, bound as it starts: else a call that is the first to use C's memcpy has the linker's own stack on its own."""
    os.makedirs(OUT, exist_ok=True)
    command = ['cc', '-std=c99', '-Wall', '-Wextra', '-Werror', '-pedantic', '-O2', '-Wl,-z,now', '-Iinclude', '-o', '%s/%s' % (OUT, name), source, *archives]
    subprocess.run(command, check=True)
    return '%s/%s' % (OUT, name)


def header_for_cpp(name='wivakkol.h'):
    """The header is C++ as well, where there is a compiler to ask."""
    if shutil.which('c++'):
        subprocess.run(['c++', '-x', 'c++', '-Wall', '-Wextra', '-Werror', '-pedantic', '-fsyntax-only', 'include/' + name], check=True)


def exported(crate, numbers=BYTES):
    """The functions that C links of a crate, by the source of its exports: of each its parameters as (name, C type, array size), where a slice is a pointer and its number of bytes, whose
    name is in `numbers`."""
    calls = {}
    for path in sorted(pathlib.Path('crates/%s_c/src' % crate).glob('*.rt')):
        for name, text, result in re.findall(r'pub extern "C" fn (\w+)\(([^)]*)\)(?: -> (\w+))?', path.read_text()):
            calls[name] = [('', c_type(result), None)]
            for parameter in filter(None, map(str.strip, text.split(','))):
                variable, kind = parameter.split(': ')
                lent, inner, size = re.fullmatch(r'(&mut |&)?\[?(\w+)(?:; (\d+))?\]?', kind).groups()
                const = 'const ' if lent == '&' else ''
                if lent and size is None:
                    assert kind in ('&[u8]', '&mut [u8]', '&[u32]'), kind
                    calls[name] += [(variable, const + c_type(inner), '*'), (numbers[variable], 'size_t', None)]
                else:
                    calls[name].append((variable, const + c_type(inner), int(size) if lent else None))
    return calls


def c_type(rattle):
    return 'uint%s_t' % re.fullmatch(r'u(8|16|32|64)', rattle).group(1) if rattle else 'void'


def header(*names):
    """The header without its comments, or several, names for numbers put in."""
    text = re.sub(r'/\*.*?\*/', '', ''.join(open('include/' + name).read() for name in names or ['wivakkol.h']), flags=re.S)
    for name, value in re.findall(r'#define (\w+) (\d+) *\n', text):
        text = re.sub(r'\b%s\b' % name, value, text)
    return text


def declared(text):
    """A parameter or field of the header as (name, type, array size)."""
    kind, star, name, size = re.fullmatch(r'((?:const )?\w+) (\*?)(\w+)(?:\[(\d+(?: \* \d+)*)\])?', ' '.join(text.split())).groups()
    return name, kind, '*' if star else math.prod(map(int, size.split(' * '))) if size else None


def prototypes_of(text):
    return {name: [('', result, None)] + list(map(declared, parameters.split(',')))
            for result, name, parameters in re.findall(r'^(\w+) (\w+)\(([^)]*)\);', text, flags=re.M)}


def header_is_source():
    """Names, order, types, const and sizes of the exported calls are those of the source, and a turn is in a crate of its own, with what asks for its action; blocks and parts are lent as lent.py has them."""
    (single, board), text = map(exported, CRATES), header()
    assert set(single) == {'wivakkol_turn_on', *ACTION_CALLS} and not set(single) & set(board)
    source = {**single, **board}
    same_prototypes(prototypes_of(text), source)
    for call in RUN_CALLS:
        run_call_hands_over(text, call, source['wivakkol_%s_on' % call], call in ('turn', 'list', 'rounds', 'preview'))
    table_calls_hand_over(text, NUMBERS, 'tables_work', source)
    table_calls_hand_over(text, board_limits.NUMBERS, 'limit_work', source)
    assert set(source) == {*ACTION_CALLS, *(call + '_on' for call in [*NUMBERS, *board_limits.NUMBERS]), *('wivakkol_%s_on' % call for call in RUN_CALLS)}


def table_calls_hand_over(text, calls, struct, source):
    """Calls on tables: the exported ones take fields of the working memory as the struct has them, and the inline ones hand them over by name."""
    work = fields(text, struct)
    for call in calls:
        result, *parameters = source[call + '_on']
        taken = {name: (kind, size) for name, kind, size in parameters}
        assert all(taken.get(name, (kind, size)) == (kind, size) for name, kind, size in work), '%s_on: the working memory' % call
        inline_on_table(text, call, struct, result, parameters, {name: 'work->' + name for name, _, _ in work})


def table_header_is_source(crate, calls):
    """The header of an archive whose calls are all on tables: names, order, types, const and sizes of the exported ones are those of the source."""
    header_for_cpp(crate + '.h')
    source, text, others = exported(crate), header('wivakkol.h', crate + '.h'), prototypes_of(header())
    same_prototypes({name: declared for name, declared in prototypes_of(text).items() if name not in others}, source)
    assert set(source) == {call + '_on' for call in calls}
    table_calls_hand_over(text, calls, 'tables_work', source)


def hold_table_calls(program, calls, wanted, cases, packed, size, differs, every):
    """Makes calls on tables one by one, `calls` by their number: each answers and leaves what is expected of it, no call takes more stack than it may, and every number wanted is reached if that
    is asked."""
    deepest, numbers = collections.Counter(), {call: collections.Counter() for call in calls}
    with subprocess.Popen([program], stdin=subprocess.PIPE, stdout=subprocess.PIPE) as running:
        for i, case in enumerate(cases):
            running.stdin.write(packed(case))
            running.stdin.flush()
            got = running.stdout.read(size(case))
            assert len(got) == size(case), 'call %d: no answer' % i
            different, deep = differs(case, got)
            assert not different, ('call %d' % i, calls[case.call], str(case)[:400], different)
            deepest[case.call] = max(deepest[case.call], deep)
            numbers[case.call][case.number] += 1
        running.stdin.close()
    assert running.returncode == 0
    for call, name in calls.items():
        missing = wanted[call] - set(numbers[call])
        assert not missing or not every, '%s: not every number was reached, %s' % (name, sorted(missing))
        print('%s: %d calls agree (by number: %s), most stack %d bytes' % (name, sum(numbers[call].values()), dict(sorted(numbers[call].items())), deepest[call]))
        assert deepest[call] < STACK_MOST, '%s takes more stack than it may' % name


def same_prototypes(prototypes, source):
    differ = [(name, prototypes.get(name), source.get(name)) for name in {*prototypes, *source} if prototypes.get(name) != source.get(name)]
    assert not differ, 'the header and the source differ: %s' % differ


def run_call_hands_over(text, call, exported_as, on_blocks):
    """A call for a wivakkol_run: it is lent all of a run, in blocks or in parts as lent.py has them, with fields of a wivakkol_work, and hands them over by their names."""
    blocks, work = fields(text, 'run'), fields(text, 'work')
    assert blocks == [(block, 'uint%d_t' % bits, lent.COUNTS[block]) for bits, block in lent.BLOCKS.items()], 'the struct is not that of lent.py'
    parts = [(name, 'uint%d_t' % bits, count) for name, bits, count in lent.FIELDS]
    places = {name: 'run->' + name for name, _, _ in blocks}
    places.update((name, 'run->%s + %d' % (lent.BLOCKS[bits], lent.PLACES[name])) for name, bits, _ in lent.FIELDS)
    work_places = {WORK_NAMES.get(name, name): 'work->' + name for name, _, _ in work}
    assert not set(places) & set(work_places)
    result, *parameters = exported_as
    taken = {name: (kind.replace('const ', ''), size) for name, kind, size in parameters}
    whole = blocks if on_blocks else parts
    assert {name for name, _, _ in whole} <= set(taken) or call == 'chart', 'wivakkol_%s_on is not lent all of a run' % call
    for name, kind, size in [*whole, *((WORK_NAMES.get(name, name), kind, size) for name, kind, size in work)]:
        assert taken.get(name, (kind, size)) == (kind, size), 'wivakkol_%s_on: %s' % (call, name)
    inline_hands_over(text, call, result, parameters, {**places, **work_places})


def places_are_named():
    """Every part of a block stands where the header says, and so does each number of those that have no name of their own there."""
    defined = dict(re.findall(r'#define WIVAKKOL_(\w+) (\d+)', open('include/wivakkol.h').read()))
    for name, (part, i) in NAMED.items():
        assert int(defined['AT_' + name]) == lent.PLACES[part] + i, 'WIVAKKOL_AT_%s is another place than in lent.py' % name


def numbers_are_named():
    """The header's kinds and statuses are those of the models, and every refusal of the headers has words of its own."""
    text = ''.join(open('include/' + name).read() for name in ('wivakkol.h', 'wivakkol_tables.h', 'wivakkol_marks.h', 'wivakkol_deques.h', 'wivakkol_desk.h', 'wivakkol_pace.h'))
    named = {name: int(x) for name, x in re.findall(r'#define WIVAKKOL_(\w+) (\d+)', text)}
    for prefix, model, names in (('KIND_', reference, 'END WORK ALLOC FREE FORK JOIN'), ('STATUS_', machine, 'UNBORN READY HELD WAITING ENDED')):
        assert {name: x for name, x in named.items() if name.startswith(prefix)} == {prefix + name: getattr(model, name) for name in names.split()}, prefix
    words = re.findall(r'case (\d+): return "([^"]+)";', text)
    assert sorted(int(number) for number, _ in words) == sorted([0, *(x for name, x in named.items() if name.startswith('REFUSED_'))]), 'refusals without words'
    assert len({told for _, told in words}) == len(words), 'two refusals with the same words'


def fields(text, struct):
    return [declared(field) for field in re.search(r'struct wivakkol_%s \{(.*?)\}' % struct, text, flags=re.S).group(1).split(';')[:-1]]


def inline_hands_over(text, call, result, parameters, places):
    """The call for a wivakkol_run has the exported one's parameters but for what stands in the run and the working memory, and hands both over in its order; the run is const where nothing of
    it is written."""
    kind, const, work, taken, given = re.search(
        r'static inline (\w+) wivakkol_%s\((const )?wivakkol_run \*run, (wivakkol_work \*work, )?([^)]*)\)\s*\{\s*return wivakkol_%s_on\(([^)]*)\);\s*\}' % (call, call), text).groups()
    hands_over('wivakkol_' + call, (kind, taken, given), result, parameters, places)
    written = {places[name].split('->')[0] for name, kind, _ in parameters if name in places and not kind.startswith('const ')}
    assert (const is None, work is not None) == ('run' in written, 'work' in written), 'wivakkol_%s: what is written of the run and the working memory' % call


def inline_on_table(text, call, struct, result, parameters, places):
    """Likewise the call for working memory alone."""
    inline = re.search(r'static inline (\w+) %s\(wivakkol_%s \*work, ([^)]*)\)\s*\{\s*return %s_on\(([^)]*)\);\s*\}' % (call, struct, call), text).groups()
    hands_over(call, inline, result, parameters, places)


def structs_hand_over(text, call, exported_as, places):
    """A call for several structs: it has the exported one's parameters but for what stands in them, by `places`, and hands these over in its order, each with the type and size of its field; a
    struct is const where nothing of it is written."""
    kind, taken, given = re.search(r'static inline (\w+) %s\(([^)]*)\)\s*\{\s*(?:return )?%s_on\(([^)]*)\);\s*\}' % (call, call), text).groups()
    structs = {name: (const, struct) for const, struct, name in re.findall(r'(const )?wivakkol_(\w+) \*(\w+)', taken)}
    (result, *parameters), own = exported_as, ', '.join(x for x in taken.split(',') if 'wivakkol_' not in x)
    hands_over(call, (kind, own, given), result, parameters, places)
    written = set()
    for name, kind, size in parameters:
        if name in places:
            struct, _, path = places[name].partition('->')
            assert field_at(text, structs[struct][1], path) == (kind.replace('const ', ''), size), '%s: %s is no %s' % (call, name, places[name])
            written.update([] if kind.startswith('const ') else [struct])
    assert {name for name, (const, _) in structs.items() if not const} == written, '%s: what is written of its structs' % call
    assert set(structs) == {places[name].partition('->')[0] for name, _, _ in parameters if name in places}, '%s: a struct of which nothing is handed over' % call


def field_at(text, struct, path):
    """Type and size of a field, of a struct inside the struct as well."""
    name, _, rest = path.partition('.')
    kind, size = {name: (kind, size) for name, kind, size in fields(text, struct)}[name]
    return field_at(text, kind.removeprefix('wivakkol_'), rest) if rest else (kind, size)


def hands_over(call, inline, result, parameters, places):
    """An inline call's result, parameters, the row last, and what it gives the exported one, which has `result` and `parameters`."""
    kind, taken, given = inline
    wanted = sorted((x for x in parameters if x[0] not in places), key=lambda x: x[0] == 'row')
    assert [('', kind, None), *map(declared, filter(None, taken.split(',')))] == [result] + wanted, '%s has other parameters' % call
    wanted = [places.get(name, name) for name, _, _ in parameters]
    assert [' '.join(x.split()) for x in given.split(',')] == wanted, '%s hands its parameters, blocks and parts over in another order' % call


def drawn_case(rng):
    """A table, and p, b, M and K: M mostly about the bound of some quota, K often such that some allocs are above it; p, b and K now and then far out of range, also such that their low bytes
    are in it."""
    data, largest = run_table(rng)
    p = mostly(rng, rng.choice([1, 2, 3, rng.randint(1, 16), 16]), 0, 17, 255, 256, 258, 65537, 2**24 + 2, 2**32 - 1)
    b = mostly(rng, rng.choice([1, 1, 2, rng.randint(1, 65535), 65535]), 0, 65536, 65537, 2**32 - 1)
    K = rng.choice([largest, largest + rng.randint(0, 9), rng.randint(largest, LARGEST), LARGEST])
    memory = quota.bound(check(data), max(p, 1), b, K) + rng.choice([-1, 0, 0, 1, rng.randint(0, 1000)])
    memory = mostly(rng, max(0, min(memory, 2**64 - 1)), 0, 1, 2**64 - 1)
    K = mostly(rng, rng.choice([largest, largest + 1, max(1, largest - 1), rng.randint(1, largest), max(1, largest // rng.randint(2, 40)), 1]), 0, LARGEST, 2**24, 2**24 + 6, 2**32 - 1)
    if rng.random() < 0.3:
        data = tablecheck_input(rng)
    if rng.random() < 0.2:
        data = damaged(rng, data)
    return Case(data, p, b, memory, K)


def cases(rng, count):
    """The most deeply nested and the widest table, the example, no bytes at all and more than any table has, and drawn ones."""
    with open('examples/e.table', 'rb') as f:
        whole = [stack.nested(), stack.fan(), f.read(), b'', bytes(100000), b'\xff' * 100000]
    return [Case(data, 16, 65535, 2**64 - 1, 5) for data in whole] + [drawn_case(rng) for _ in range(count - len(whole))]


def number_and_row(answer, values):
    """Number, place and values, as C is given them."""
    return [answer[1], answer[2]] + [0] * values if answer[0] == 'refused' else [0, 0, *answer[1:]]


def action(data, a):
    """Kind and argument of action a, by the bytes that stand there, 0 behind their end; 255 and 0 where a is not below the head's m."""
    n, m = int.from_bytes(data[:2], 'little'), int.from_bytes(data[2:4], 'little')
    word = int.from_bytes(data[4 + 4 * (n + a):][:4], 'little')
    return [word % 256, word // 256] if a < m else [255, 0]


def actions(case):
    return [action(case.data, a) for a in (case.p, case.b, case.memory, case.quota, 0, case.b % 64, case.b % 512)]


def expected(case):
    """Number, row and what is left of the working memory, of each call on a table."""
    answers = [(check(case.data), 5), (quota.largest(*case[:4]), 1), (most.limit(case.data, case.p, case.quota), 1)]
    return [number_and_row(*answer) + left for answer, left in zip(answers, LEFT.values())]


def packed(case):
    numbers = ((len(case.data), 4), (case.p, 4), (case.b, 4), (case.memory, 8), (case.quota, 4))
    return b''.join(x.to_bytes(k, 'little') for x, k in numbers) + case.data


def compare(program, drawn):
    """How often each number was given by each call on a table, and each kind of an action; and the most stack of the first."""
    done = subprocess.run([program], input=b''.join(map(packed, drawn)), stdout=subprocess.PIPE, check=True)
    *lines, last = done.stdout.decode().splitlines()
    assert len(lines) == len(drawn), '%d answers to %d cases' % (len(lines), len(drawn))
    numbers, kinds = [collections.Counter() for _ in NUMBERS], collections.Counter()
    for i, (line, case) in enumerate(zip(lines, drawn)):
        got = list(map(int, line.split()))
        wanted, asked = expected(case), actions(case)
        kinds.update(kind for kind, _ in asked)
        if got != sum(wanted + asked, []):
            path = '%s/different.table' % OUT
            pathlib.Path(path).write_bytes(case.data)
            sys.exit('case %d differs, p %d b %d M %d K %d and the table in %s\n  given    %s\n  expected %s' % (i, *case[1:], path, got, sum(wanted + asked, [])))
        for counter, answer in zip(numbers, wanted):
            counter[answer[0]] += 1
    return numbers, kinds, last


def end_of_run(data, p, K):
    """The turns of a run in rounds to its end, and the most memory held."""
    taking = machine.Machine(machine.begin(data, p, K)[1])
    while not taking.ended():
        taking.take(taking.run.turns % p)
    return 'done %d peak %d' % (taking.run.turns, taking.run.highest)


def compare_example(program, drawn):
    """The example program on some of the cases; its arguments are p, b and M."""
    for case in drawn:
        answer, fits = check(case.data), fitting.fitted(*case[:4])
        wanted = [facts_line(answer)] + ([] if answer[0] == 'refused' else [' '.join(map(str, fits))])
        if fits[0] == 'quota':
            wanted.append(end_of_run(case.data, case.p, fits[1]))
        done = subprocess.run([program, *map(str, case[1:4])], input=case.data, stdout=subprocess.PIPE)
        assert done.stdout.decode().splitlines() == wanted, (done.stdout, wanted, case[1:4])
        assert done.returncode == (0 if fits[0] == 'quota' else 1)


def main():
    count = int(sys.argv[1]) if len(sys.argv) > 1 else 3000
    for crate, archive in zip(CRATES, ARCHIVES):
        if not os.path.exists(archive):
            sys.exit('%s is not there: run `python3 tools/dist.py archive %s` first' % (archive, crate))
    header_is_source()
    places_are_named()
    numbers_are_named()
    header_for_cpp()
    drawn = cases(random.Random(20), max(count, 6))
    program = build('tests/board.c', 'board_test')
    numbers, kinds, last = compare(program, drawn)
    assert max(map(int, last.split()[1:])) < STACK_MOST, 'a call on a table took more stack than it may: %s' % last
    some = [drawn[0]._replace(p=2), *drawn[1:200]]  # with more workers the model's run of the nested table takes long
    compare_example(build('examples/board.c', 'board'), some)
    for name, counter in zip(NUMBERS, numbers):
        assert set(counter) == NUMBERS[name] or count < 1000, '%s: not every number was reached, %s' % (name, sorted(counter))
        given = ', '.join('%d: %d' % pair for pair in sorted(counter.items()))
        print('%s: %d of %d agree (by number: %s)' % (name, sum(counter.values()), len(drawn), given))
    assert {*range(6), 255} <= set(kinds) or count < 1000, 'not every kind was reached, %s' % sorted(kinds)
    print('wivakkol_kind and wivakkol_argument: %d of %d agree, %d of them of no action' % (sum(kinds.values()), sum(kinds.values()), kinds[255]))
    print('examples/board.c: %d of %d agree' % (len(some), len(some)))
    origin_stack = board_origins.compare(program, drawn, count)
    limit_stacks = board_limits.compare(program, drawn[3:], count)
    assert max(limit_stacks) < STACK_MOST, 'a call on limits took more stack than it may: %s' % limit_stacks
    kinds, stacks = board_runs.compare(program, 21, [case.data for case in drawn[:3]], count // 2)
    for kind, counter in kinds.items():
        calls = [sum(counter['%s %d' % (call, x)] for x in numbers) for call, numbers in board_runs.NUMBERS.items()]
        told = ', '.join('%s: %d' % pair for pair in sorted(counter.items()) if pair[0] != 'runs')
        print('%s memory: %d runs agree, of %d beginnings, %d openings, %d turns, %d lists, %d rounds, %d previews and %d lines (%s)' % (kind, counter['runs'], *calls, told))
    missing = [what for what in board_runs.WANTED if not any(counter[what] for counter in kinds.values())]
    assert not missing or count < 1000, 'no run reached %s' % ', '.join(missing)
    print('most stack of %s, in bytes: %s' % (', '.join(['check', 'quota', 'most', 'origin', 'limit', 'fit', *RUN_CALLS]), ' '.join([*last.split()[1:], *map(str, [origin_stack] + limit_stacks + stacks)])))


if __name__ == '__main__':
    main()
