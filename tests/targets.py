"""Holds the archive for aarch64 and the wasm32 module of dist/ against its archive for x86-64: all calls of all headers, on E, tree, stages and random tables, on runs of both schedulers and on
damaged memory, with what each call returned and a digest of all that it was lent to write after each. The calls are drawn here and written as a script; tests/targets.c and
tests/targets.js carry it out.

usage: python3 tests/targets.py [SEED]    (from the repository's top; the kit's compiler builds the drivers; qemu-aarch64 and node run them, and what they would is left out where they are not
                                           there)
"""
import collections
import json
import pathlib
import random
import re
import shutil
import struct
import subprocess
import sys

import filling
import reference
import texts
from designs import shuffled
from differential import run_table
from tables import damaged

sys.path.insert(0, str(pathlib.Path(__file__).parent.parent / 'tools'))
import dist

OUT, DIST = pathlib.Path('target/targets'), pathlib.Path('dist')
HEADERS = sorted(path for path in pathlib.Path('include').glob('*.h') if path.stem != 'wivakkol_build')  # which is C alone, with nothing of it in an archive
SIZES = {'uint8_t': 1, 'uint16_t': 2, 'uint32_t': 4, 'uint64_t': 8}
LEAST_TURNS, TURNS = 100000, ('wivakkol_turn', 'wivakkol_paced_turn', 'wivakkol_deque_turn')
ROOM, TEXT = 36868, 266240
Call = collections.namedtuple('Call', 'name parameters exported arguments')
Parameter = collections.namedtuple('Parameter', 'name type pointer const count')

# The headers: numbers, structs, prototypes, and the calls over them


def source():
    return '\n'.join(re.sub(r'/\*.*?\*/', '', path.read_text(), flags=re.S) for path in HEADERS)


SOURCE = source()
DEFINED = dict(re.findall(r'^#define (\w+) ([^\n(]+?)\s*$', SOURCE, re.M))


def value(text):
    """A number as the headers write it: digits, names, and products of them."""
    found = 1
    for word in text.split('*'):
        found *= int(word) if word.strip().isdecimal() else value(DEFINED[word.strip()])
    return found


def structs():
    """Of each struct its size and where its fields begin, with their types; numbers of 64 bits come first, so that only the end is padded."""
    found = {}
    for name, text in re.findall(r'typedef struct (\w+) \{(.*?)\} \1;', SOURCE, re.S):
        at, fields, wide = 0, {}, 1
        for kind, field, _, count in re.findall(r'(\w+) (\w+)(\[(.*?)\])?;', text):
            size, align = (SIZES[kind], SIZES[kind]) if kind in SIZES else found[kind][:2]
            at += -at % align
            fields[field] = (at, kind)
            at += size * (value(count) if count else 1)
            wide = max(wide, align)
        found[name] = (at + -at % wide, wide, fields)
    return found


def parameters(text):
    for part in filter(None, (part.strip() for part in text.split(','))):
        const, kind, star, name, _, count = re.fullmatch(r'(const )?(\w+) (\*?)(\w+)(\[(.*?)\])?', part).groups()
        yield Parameter(name, kind, bool(star or count), bool(const), value(count) if count else None)


def prototypes():
    """The exported functions: of each its parameters."""
    plain = re.sub(r'static inline[^{]*\{.*?^\}', '', SOURCE, flags=re.S | re.M)
    return {name: list(parameters(' '.join(text.split()))) for name, text in re.findall(r'^(?:uint32_t|void) (wivakkol_\w+)\(([^;{]*)\);', plain, re.M)}


def calls():
    """The calls of the headers by name: those that hand parts of a struct to an exported function, and the exported ones that are called as they are."""
    found, wrapped = {}, set()
    for name, text, exported, given in re.findall(r'static inline (?:uint32_t|void) (\w+)\(([^{}]*?)\)\s*\{\s*(?:return )?(wivakkol_\w+)\(([^{}]*?)\);\s*\}', SOURCE):
        if exported in PROTOTYPES:
            found[name] = Call(name, list(parameters(' '.join(text.split()))), exported, [' '.join(part.split()) for part in given.split(',')])
            wrapped.add(exported)
    for name, given in PROTOTYPES.items():
        if name not in wrapped:
            found[name] = Call(name, given, name, [parameter.name for parameter in given])
    return found


STRUCTS, PROTOTYPES = structs(), prototypes()
NUMBERED, CALLS = list(PROTOTYPES), calls()


def field_at(kind, path):
    at = 0
    for name in path.split('.'):
        offset, kind = STRUCTS[kind][2][name]
        at += offset
    return at, kind


# A script

class Script:
    """Calls on one stretch of memory, in which each thing that is lent has a place."""

    def __init__(self, rng):
        self.rng, self.out, self.told, self.places, self.end = rng, bytearray(), [], {}, 0
        for name, size in [('table', ROOM + 64), ('other', ROOM + 64), ('order', 8192), ('text', TEXT), ('tables', 4 * ROOM), ('lengths', 64), ('filled', ROOM), ('out', TEXT),
                           ('a', ROOM), ('b', ROOM), ('row', 128), ('line', 88)] + [(name, size) for name, (size, _, _) in STRUCTS.items()]:
            self.places[name] = (self.end, size)
            self.end += size + 64 + -size % 64

    def put(self, name, data, at=0):
        place, size = self.places[name]
        assert at + len(data) <= size, name
        self.out += struct.pack('<BII', 2, place + at, len(data)) + data

    def lend(self, parameter, given):
        """The place that a pointer gets, and its size: what was given, a struct of its type, what is called so; else bytes to read or to write."""
        name = given.get(parameter.name, parameter.type if parameter.type in STRUCTS else parameter.name)
        return self.places[name] if name in self.places else self.places['table' if parameter.const else 'out']

    def call(self, name, **given):
        call = CALLS[name]
        values, stretches = {}, []
        for parameter in call.parameters:
            if parameter.pointer:
                place, size = self.lend(parameter, given)
                values[parameter.name] = (place, parameter.type)
                if not parameter.const:
                    size = parameter.count * SIZES[parameter.type] if parameter.count else size
                    stretches.append((place, size - size % 4))
            else:
                values[parameter.name] = (given[parameter.name], parameter.type)
        words = [argument(text, values) for text in call.arguments]
        self.out += struct.pack('<BBBB%dQ' % len(words), 1, NUMBERED.index(call.exported), len(words), len(stretches), *words)
        self.out += b''.join(struct.pack('<II', *stretch) for stretch in stretches)
        self.told.append(name)


def argument(text, values):
    """An argument as the header hands it on: a parameter, a field of one, or a place in a field."""
    path, _, place = text.partition(' + ')
    name, _, field = path.partition('->')
    number, kind = values[name]
    if field:
        at, kind = field_at(kind, field)
        number += at
    return number + (SIZES[kind] * value(place) if place else 0)


# What is called

class Play:
    """Calls on one table."""

    def __init__(self, script, data):
        self.script, self.rng, self.data = script, script.rng, data
        self.refused = reference.check(data)[0] == 'refused'
        self.most = 5 if self.refused else max([x for kind, x in reference.Table(data).actions if kind == reference.ALLOC], default=1)
        script.put('table', data)
        self.running, self.p = dict(table='table', length=len(data)), 1

    def call(self, name, **given):
        self.script.call(name, **{**self.running, **given})

    def odd(self, usual, *others):
        return self.rng.choice(others) if self.rng.random() < 0.05 else usual

    def tables(self, other):
        """The calls on tables, texts and limits."""
        rng, quota = self.rng, self.odd(self.rng.choice([self.most, self.most // 2 + 1, 16777215]), 0, 2 ** 24)
        p, b = self.odd(rng.randint(1, 16), 0, 17, 2 ** 32 - 1), self.odd(rng.randint(1, 9), 0, 65535, 65536)
        memory, room = self.odd(rng.randint(1, 40 * self.most), 0, 2 ** 64 - 1), self.odd(ROOM, 0, 100, len(self.data))
        self.call('wivakkol_check')
        self.call('wivakkol_quota', p=p, b=b, memory=memory)
        self.call('wivakkol_most', p=p, quota=quota)
        self.call('wivakkol_limit', p=p, quota=quota, b=b, room=room)
        self.call('wivakkol_fit', p=p, b=b, memory=memory)
        self.call('wivakkol_deque_limit', p=p, quota=quota, c=self.odd(rng.randint(1, max(1, min(p, 16))), 0, 17), room=room)
        self.call('wivakkol_canonical')
        self.call('wivakkol_disassemble', room=self.odd(TEXT, 0, 50, ROOM))
        self.texts()
        self.script.put('other', other)
        self.call('wivakkol_compare', first='table', first_length=len(self.data), second='other', second_length=len(other))
        self.joined([self.data, other, self.data][:rng.randint(1, 3)])

    def texts(self):
        text = texts.disassemble(self.data)
        text = text if isinstance(text, bytes) and len(text) > 60 else b'thread 0\n work\n end\n'
        text = self.odd(text, texts.damaged(self.rng, text), b'')
        self.script.put('text', text)
        self.call('wivakkol_assemble', length=len(text), room=self.odd(ROOM, 0, 30))

    def joined(self, parts):
        whole, lengths = b''.join(parts), [len(part) for part in parts]
        self.script.put('tables', whole)
        self.script.put('lengths', struct.pack('<%dI' % len(lengths), *lengths))
        self.call('wivakkol_join', length=self.odd(len(whole), max(0, len(whole) - 1)), parts=self.odd(len(parts), 0, 16))

    def begin(self, quota):
        """Begins a run and has the table that then runs."""
        self.running, self.p = dict(table='table', length=len(self.data)), self.odd(self.rng.choice([1, 2, 2, 3, 4, 8, 16]), 0, 17)
        self.call('wivakkol_begin', p=self.p, quota=quota, room=self.odd(ROOM, 0, len(self.data)))
        if not self.refused and self.most > quota > 0 and filling.too_large(self.data, quota) is None:
            self.running = dict(table='filled', length=len(filling.filled(self.data, quota)))
        self.script.put('wivakkol_pace', bytes(self.script.places['wivakkol_pace'][1]))
        self.call('wivakkol_pace_begin', p=self.p, b=self.odd(self.rng.choice([1, 3, 9, 40]), 0, 65536))
        self.call('wivakkol_unmark')

    def worker(self):
        return self.odd(self.rng.randrange(self.p) if self.p else 0, self.p, 2 ** 32 - 1) if self.rng.random() < 0.1 else self.rng.randrange(max(1, self.p))

    def order(self, width=1):
        order = bytes(min(255, self.worker()) for _ in range(width * self.rng.randint(0, 30)))
        self.script.put('order', order)
        return len(order)

    def turns(self, count, kinds):
        """Single turns, of the kinds given, and now and then one of the other calls on a run."""
        for _ in range(count):
            getattr(self, self.rng.choice(kinds))()
            if self.rng.random() < 0.06:
                self.rng.choice(self.beside(kinds))()

    def turn(self):
        self.call('wivakkol_turn', w=self.worker())

    def paced_turn(self):
        self.call('wivakkol_paced_turn', w=self.worker())

    def deque_turn(self):
        self.call('wivakkol_deque_turn', w=self.worker(), c=self.worker())

    def beside(self, kinds):
        a, i = self.odd(self.rng.randrange(1 + self.running['length'] // 4), 2 ** 64 - 1), self.odd(self.rng.randrange(8), 8, 2 ** 32 - 1)
        both = [lambda: self.call('wivakkol_kind', a=a), lambda: self.call('wivakkol_argument', a=a)]
        if 'deque_turn' in kinds:
            return both + [lambda: self.call('wivakkol_deque_list', order_length=self.order(2)), lambda: self.call('wivakkol_deque_open')]
        return both + [
            lambda: self.call('wivakkol_preview', w=self.worker()), lambda: self.call('wivakkol_preview', w=self.worker()), lambda: self.call('wivakkol_chart'),
            lambda: self.call('wivakkol_open'), lambda: self.call('wivakkol_list', turns=self.order()), lambda: self.call('wivakkol_rounds', limit=self.rng.randrange(40)),
            lambda: self.call('wivakkol_mark', i=i), lambda: self.call('wivakkol_back', i=i), lambda: self.call('wivakkol_may', w=self.worker()),
            lambda: self.call('wivakkol_took', w=self.worker()), lambda: self.call('wivakkol_kept'), lambda: self.call('wivakkol_paced_list', turns=self.order()),
            lambda: self.call('wivakkol_paced_rounds', limit=self.rng.randrange(40))]

    def damage(self):
        """Numbers in the run, the marks or the pace that nobody put there."""
        name = self.rng.choice(['wivakkol_run'] * 6 + ['wivakkol_marks', 'wivakkol_pace'])
        size = self.script.places[name][1]
        if self.rng.random() < 0.1:
            self.script.put(name, self.rng.randbytes(size))
        for _ in range(self.rng.randint(1, 6)):
            data = self.rng.choice([self.rng.randbytes(self.rng.randint(1, 8)), bytes(2), b'\0\4', b'\xff\xff', struct.pack('<H', self.rng.randrange(32)), b'\xff' * 8])
            at = self.rng.randrange(size - 8)
            self.script.put(name, data, at - at % len(data) if len(data) in (2, 8) else at)


def also(script, play):
    """Calls of the headers that nothing above makes: with numbers at hand, so that none is left out. Which they are."""
    left = set(CALLS) - set(script.told)
    for call in CALLS.values():
        if call.name in left:
            for _ in range(40):
                play.call(call.name, **{parameter.name: script.rng.choice([0, 1, 5, 40, len(play.data)]) for parameter in call.parameters
                                        if not parameter.pointer and parameter.name not in play.running})
    return left


def noise(script):
    """Working memory, the run and the marks as somebody has left them."""
    for name in STRUCTS:
        script.put(name, script.rng.randbytes(script.places[name][1]))


def drawn(seed):
    """The script, and the calls for which it has numbers at hand alone."""
    script = Script(random.Random(seed))
    rng = script.rng
    noise(script)
    named = [dist.run([DIST / 'x86_64-linux/tableasm'], input=pathlib.Path('examples/%s.text' % name).read_bytes()) for name in ('e', 'stages', 'tree')]
    some = [run_table(rng)[0] for _ in range(150)]
    for data, times in [(data, 5) for data in named for _ in range(3)] + [(data if rng.random() < 0.9 else damaged(rng, data), 1) for data in some]:
        play = Play(script, data)
        play.tables(rng.choice([shuffled(rng, named[1]) if play.refused else shuffled(rng, data), named[0], damaged(rng, data)]))
        for kinds in (['turn'], ['turn', 'paced_turn'], ['deque_turn']):
            for _ in range(times):
                play.begin(rng.choice([play.most, play.most, max(1, play.most // 2), 16777215]))
                play.turns(min(1900, len(data) // 2), kinds)
        for kinds in (['turn', 'paced_turn'], ['deque_turn']):
            play.begin(play.most)
            play.turns(20, kinds)
            for _ in range(4):
                play.damage()
                play.turns(8, kinds)
    left = also(script, play)
    script.out += b'\0'
    return script, left


# The drivers

def dispatch():
    """The C of a call by number."""
    rows = []
    for i, (name, given) in enumerate(PROTOTYPES.items()):
        words = ['(%s%s%s)%s' % ('const ' if p.const else '', p.type, ' *' if p.pointer else '', '(memory + v[%d])' % k if p.pointer else 'v[%d]' % k) for k, p in enumerate(given)]
        call = '%s(%s)' % (name, ', '.join(words))
        rows.append('    case %d: %s' % (i, 'return %s;' % call if re.search(r'^uint32_t %s\(' % name, SOURCE, re.M) else '%s; return 0;' % call))
    return 'static uint32_t dispatch(uint32_t which, const uint64_t *v)\n{\n    switch (which) {\n%s\n    default: leave(2); return 0;\n    }\n}\n' % '\n'.join(rows)


STDINT = ''.join('typedef __UINT%d_TYPE__ uint%d_t;\n' % (n, n) for n in (8, 16, 32, 64)) + 'typedef __UINTPTR_TYPE__ uintptr_t;\n'


def driver(target):
    """A driver for x86-64 or aarch64, by the kit's compiler and linker alone."""
    (OUT / 'dispatch.h').write_text(dispatch())
    (OUT / 'stdint.h').write_text(STDINT)
    (OUT / 'stddef.h').write_text('typedef __SIZE_TYPE__ size_t;\n')
    here, triple = OUT / target, target.split('-')[0] + '-unknown-linux-gnu'
    dist.run([dist.compiler() / 'clang', '--target=' + triple, '-std=c99', '-Wall', '-Wextra', '-Werror', '-O2', '-ffreestanding', '-fno-builtin', '-fno-stack-protector', '-nostdinc',
              '-isystem', OUT, '-Iinclude', '-c', 'tests/targets.c', '-o', '%s.o' % here])
    dist.run([dist.compiler() / 'ld.lld', '--gc-sections', '-o', here, '%s.o' % here, DIST / target / 'libwivakkol.a'])
    return here


def signatures():
    letters = lambda p: 'p' if p.pointer else 'l' if p.type in ('size_t', 'uint64_t') else 'w'
    (OUT / 'signatures').write_text(json.dumps([[name, ''.join(map(letters, given))] for name, given in PROTOTYPES.items()]))
    return OUT / 'signatures'


def answers(command, script):
    done = subprocess.run([str(word) for word in command], input=script, stdout=subprocess.PIPE)
    if done.returncode:
        sys.exit('%s ended with status %d' % (command[0], done.returncode))
    return done.stdout


def differs(name, found, wanted, told):
    for i, called in enumerate(told):
        here, there = found[12 * i:12 * i + 12], wanted[12 * i:12 * i + 12]
        if here != there:
            sys.exit('%s: call %d, %s: returned %s with digest %s, on x86-64 %s with %s'
                     % (name, i, called, int.from_bytes(here[:4], 'little'), here[4:].hex(), int.from_bytes(there[:4], 'little'), there[4:].hex()))
    if len(found) != len(wanted):
        sys.exit('%s: %d bytes of answers, on x86-64 %d' % (name, len(found), len(wanted)))


TOOLS = {'aarch64': 'qemu-aarch64', 'wasm32': 'node'}


def compare(name, script, wanted):
    """A target's answers with those of x86-64."""
    tool = shutil.which(TOOLS[name])
    command = [tool, driver('aarch64-linux')] if name == 'aarch64' else [tool, 'tests/targets.js', DIST / 'wasm32/wivakkol.wasm', signatures()]
    differs(name, answers(command, bytes(script.out)), wanted, script.told)


def main():
    seed = int(sys.argv[1]) if len(sys.argv) > 1 else 1
    there = [name for name in TOOLS if shutil.which(TOOLS[name])]
    for name in TOOLS:
        if name not in there:
            print('%s was left out: no %s' % (name, TOOLS[name]))
    if not there:
        return
    OUT.mkdir(parents=True, exist_ok=True)
    script, anyhow = drawn(seed)
    wanted = answers([driver('x86_64-linux')], bytes(script.out))
    if len(wanted) != 12 * len(script.told):
        sys.exit('%d bytes of answers to %d calls' % (len(wanted), len(script.told)))
    answered = collections.Counter(name for i, name in enumerate(script.told) if wanted[12 * i:12 * i + 4] == bytes(4))
    taken = sum(answered[name] for name in TURNS)
    never = [name for name in CALLS if not answered[name] and name not in anyhow]
    if never or taken < LEAST_TURNS:
        sys.exit('%d turns taken, and %s never answered 0' % (taken, ', '.join(never) or 'nothing'))
    for name in there:
        compare(name, script, wanted)
    print('%s: as x86-64 in %d calls of %d kinds, %d turns taken among them' % (' and '.join(there), len(script.told), len(CALLS), taken))


if __name__ == '__main__':
    main()
