"""Tables and inputs as text, written on its own from the format: nothing taken from the Rattle code.

assemble(bytes) answers (table, None) or (None, message); disassemble(bytes) answers (text, None) or (None, message); assemble_input(bytes) answers (input, None) or (None, message).
After `python3 tools/dist.py program tableasm tabledis inputasm`, `python3 tests/texts.py 1000` draws random and damaged texts and compares the three programs with it.
"""
import pathlib
import random
import re
import subprocess
import sys

from reference import Table, check, line
from tables import drawn, table

KINDS = [b'end', b'work', b'alloc', b'free', b'fork', b'join']
LONGEST = 262144


def number(word, most=16777215):
    """Decimal as one writes it; None where it is no number up to the most."""
    if not re.fullmatch(rb'0|[1-9][0-9]*', word) or len(word) > 20 or int(word) > most:
        return None
    return int(word)


def words_of(line):
    return [w for w in re.split(rb'[ \t]', line.split(b'#')[0]) if w]


def said(words):
    """('thread', t), (kind, argument), None for no words, or what was expected as a string."""
    if not words:
        return None
    word, rest = words[0], words[1:]
    if word not in KINDS and word != b'thread':
        return 'thread, alloc, free, fork, join, work or end'
    if word in KINDS[:2]:
        return 'the end of the line' if rest else (KINDS.index(word), 0)
    if not rest or number(rest[0]) is None:
        return 'a number up to 16777215'
    if rest[1:]:
        return 'the end of the line'
    return ('thread' if word == b'thread' else KINDS.index(word), number(rest[0]))


def fault(place, raw, expected):
    """What is said of a line: a byte that an editor may not show, or what was expected there."""
    if raw.startswith(b'\xef\xbb\xbf'):
        return 'line %d: a byte order mark; a text begins without one' % place
    if b'\r' in raw.split(b'#')[0]:
        return 'line %d: a carriage return; lines end with a newline alone' % place
    return 'line %d: expected %s' % (place, expected)


def read(text):
    """('bodies', the threads' bodies, the lines of threads, those of actions), or ('fault', line by number, the line, what was expected)."""
    bodies, threads, actions = [], [], []
    for place, raw in enumerate(text.split(b'\n'), 1):
        what = said(words_of(raw))
        if what is None:
            continue
        if isinstance(what, str):
            return 'fault', place, raw, what
        if what[0] == 'thread':
            if what[1] != len(bodies):
                return 'fault', place, raw, 'thread %d' % len(bodies)
            bodies.append([])
            threads.append(place)
        elif not bodies:
            return 'fault', place, raw, 'thread 0'
        else:
            bodies[-1].append(what)
            actions.append(place)
    return 'bodies', bodies, threads, actions


def sizes_outside(bodies, actions):
    return not (1 <= len(bodies) <= 1024 and 1 <= len(actions) <= 8192)


def assemble(text):
    if len(text) > LONGEST:
        return None, 'text above 262144 bytes'
    found = read(text)
    if found[0] == 'fault':
        return None, fault(*found[1:])
    bodies, threads, actions = found[1:]
    if sizes_outside(bodies, actions):
        return None, 'refused 2 0'
    data = table(*bodies)
    answer = check(data)
    if answer[0] == 'refused':
        places = threads if answer[1] in (4, 11) else actions
        return None, '%s line %d' % (line(answer), places[answer[2]])
    return data, None


def disassemble(data):
    answer = check(data)
    if answer[0] == 'refused':
        return None, line(answer)
    t, out = Table(data), []
    for i, (first, count) in enumerate(t.contents):
        out.append(b'thread %d' % i)
        out += [KINDS[k] + (b' %d' % x if k > 1 else b'') + b' # action %d' % (first + j) for j, (k, x) in enumerate(t.actions[first:first + count])]
    return b'\n'.join(out) + b'\n', None


# ---- inputs

# the bytes of each number, and which lines may come next
WIDTHS = {b'workers': 1, b'quota': 3, b'between': 4, b'limit': 4, b'memory': 8}
NEXT = {None: [b'workers'], b'workers': [b'quota', b'between'], b'quota': [b'order', b'limit'], b'between': [b'memory'], b'order': [b'order'], b'limit': [], b'memory': []}
LONGEST_ORDER = 4096


def front(lines):
    """(bytes, lines passed), or the line and what was expected there."""
    last, out, order = None, b'', []
    for place, raw in enumerate(lines + [None], 1):
        words = words_of(raw) if raw is not None else [b'']
        if not words:
            continue
        word, rest = words[0], words[1:]
        if word not in NEXT[last]:
            if last in (b'limit', b'memory'):
                return out, place - 1
            if last == b'order':
                return out + len(order).to_bytes(2, 'little') + bytes(order), place - 1
            return place, b' or '.join(NEXT[last]).decode()
        if word == b'order':
            for worker in rest:
                if len(order) == LONGEST_ORDER:
                    return place, 'an order of at most 4096 workers'
                if number(worker, 255) is None:
                    return place, 'a number up to 255'
                order.append(number(worker, 255))
        else:
            most = 256 ** WIDTHS[word] - 1
            if not rest or number(rest[0], most) is None:
                return place, 'a number up to %d' % most
            if rest[1:]:
                return place, 'the end of the line'
            out += number(rest[0], most).to_bytes(WIDTHS[word], 'little')
        last = word


def assemble_input(text):
    if len(text) > LONGEST:
        return None, 'text above 262144 bytes'
    lines = text.split(b'\n')
    if lines[-1] == b'':
        lines.pop()
    found = front(lines)
    if isinstance(found[1], str):
        place, expected = found
        return None, fault(place, (lines + [b''])[place - 1], expected)
    # the front's lines are made blank, so that the table's keep their numbers
    out, passed = found
    table, message = assemble(b'\n' * passed + b'\n'.join(lines[passed:]))
    return (out + table, None) if table is not None else (None, message)


# ---- the programs against it

def loosened(rng, text):
    """The same words with other blanks, blank lines and comments."""
    out = []
    for words in text.split(b'\n'):
        words = words.split()
        gap = lambda least: bytes(rng.choice(b' \t') for _ in range(rng.randint(least, 3)))
        out.append(gap(0) + b''.join(w + gap(1) for w in words) + (b'# end 7 #' if rng.random() < 0.2 else b''))
        if rng.random() < 0.1:
            out.append(gap(0))
    return b'\n'.join(out)


def drawn_front(rng):
    """Random lines in front, most of them as they should be."""
    at_most = lambda k: rng.choice([rng.randint(0, 20), rng.randint(0, 256 ** k), 256 ** k - 1, 256 ** k])
    order = lambda: b'order' + b''.join(b' %d' % rng.randint(0, 16) for _ in range(rng.randint(0, 30)))
    lines = [b'workers %d' % at_most(1)]
    form = rng.random()
    if form < 0.3:
        lines += [b'between %d' % at_most(4), b'memory %d' % at_most(8)]
    else:
        lines.append(b'quota %d' % at_most(3))
        lines += [b'limit %d' % at_most(4)] if form < 0.6 else [order() for _ in range(rng.randint(1, 4))]
    if rng.random() < 0.1:
        rng.shuffle(lines)
    return b'\n'.join(lines) + b'\n'


def damaged(rng, text):
    text = bytearray(text)
    for _ in range(rng.randint(1, 3)):
        at = rng.randrange(len(text) + 1)
        choice = rng.random()
        if choice < 0.4 and at < len(text):
            text[at] = rng.choice(b' \t\n#0123456789adefhijklnorstw\0\xff')
        elif choice < 0.7:
            text[at:at] = rng.choice([b'0', b'9', b'\n', b' ', b'#', b'end', b'\nend\n', b'\nthread 3\n', b'\nfree 9\n', b'\norder 3\n', b'\nlimit 9\n'])
        else:
            del text[at:at + rng.randint(1, 9)]
    return bytes(text)


def compare(name, data, expected):
    program = pathlib.Path(__file__).parent.parent / 'target' / 'bin' / name
    ran = subprocess.run([program], input=data, capture_output=True)
    out, message = expected
    if ran.stdout != (out or b'') or ran.stderr.decode() != (message + '\n' if message else ''):
        pathlib.Path('failed.input').write_bytes(data)
        raise SystemExit('%s: expected %r, got %r %r; its input is in failed.input' % (name, expected, ran.stdout, ran.stderr))


def main(count):
    rng, written, inputs = random.Random(19), 0, 0
    for _ in range(count):
        data = drawn(rng, rng.randint(1, 12), rng.randint(4, 60))
        compare('tabledis', data, disassemble(data))
        text = loosened(rng, disassemble(data)[0])
        assert assemble(text) == (data, None)
        compare('tableasm', text, (data, None))
        text = damaged(rng, text)
        compare('tableasm', text, assemble(text))
        written += assemble(text)[0] is not None
        text = loosened(rng, drawn_front(rng) + disassemble(data)[0])
        compare('inputasm', text, assemble_input(text))
        inputs += assemble_input(text)[0] is not None
        text = damaged(rng, text)
        compare('inputasm', text, assemble_input(text))
        data = bytearray(data)
        data[rng.randrange(len(data))] = rng.randrange(256)
        compare('tabledis', bytes(data), disassemble(bytes(data)))
    print('%d tables, texts and damaged ones, %d of the damaged texts still assembled; as many inputs, %d of them written' % (count, written, inputs))


if __name__ == '__main__':
    main(int(sys.argv[1]) if len(sys.argv) > 1 else 1000)
