"""Follows what tools/explain.py says of a refused text, word by word, until the text is accepted: advice that names a wrong line, thread or amount does not get there. The refusals are those of
tests/texts.py, which is held to `tableasm`.

usage: python3 tests/advice.py [COUNT]    (from the repository's top; COUNT random damaged texts, default 400, as many damaged tables as bytes, and as many pairs of texts that differ in one amount)
"""
import collections
import random
import re
import sys

sys.dont_write_bytecode = True
sys.path[:0] = ['tools', 'tests']
import explain
from designs import shuffled
from reference import check
from tables import damaged, drawn
from texts import assemble, disassemble

MANY = 400


def lines_of(data):
    return [line.split(b'#')[0].decode().strip() for line in disassemble(data)[0].split(b'\n')][:-1]


def spoil(rng, lines):
    """One mistake of a planner."""
    at = rng.choice([i for i, line in enumerate(lines) if not line.startswith('thread')])
    kind = rng.randrange(8)
    joins = [i for i, line in enumerate(lines) if line.startswith('join')]
    if kind == 0 and joins:
        del lines[rng.choice(joins)]
    elif kind == 1 and len(joins) > 1:
        i, j = rng.sample(joins, 2)
        lines[i], lines[j] = lines[j], lines[i]
    elif kind == 2:
        lines.insert(at, 'free %d' % rng.randint(1, 50))
    elif kind == 3:
        lines[at] = re.sub('^(free|alloc) .*', lambda found: '%s %d' % (found[1], rng.choice([0, 7, 9999])), lines[at])
    elif kind == 4:
        lines.insert(at, 'end')
    elif kind == 5:
        lines.insert(at, '%s %d' % (rng.choice(['fork', 'join']), rng.randint(0, 8)))
    elif kind == 6:
        lines.insert(at, lines[at])
    elif lines[at] == 'end':
        del lines[at]


def cited(lines, number, wanted):
    if lines[int(number) - 1] != wanted:
        raise SystemExit('line %s is %r and not %r in\n%s' % (number, lines[int(number) - 1], wanted, '\n'.join(lines)))


def follow(lines, line, why):
    """Does what is said of a line."""
    here = line - 1
    threads = [i for i, words in enumerate(lines) if words.startswith('thread')]
    ours = max(t for t, i in enumerate(threads) if i <= here)

    def is_ours(thread):
        if int(thread) != ours:
            raise SystemExit('thread %s: line %d is of thread %d' % (thread, line, ours))

    rules = [
        (r'(alloc|free) 0; give at least 1 unit, or take it out', lambda kind: (cited(lines, line, kind + ' 0'), lines.__setitem__(here, kind + ' 1'))),
        (r'there is no thread ([0-9]+); the text has thread(?:s 0 to ([0-9]+)| 0 alone)', lambda x, last: (last or '0') == str(len(threads) - 1) and int(x) >= len(threads) and lines.pop(here)),
        (r'thread ([0-9]+) (fork|join)s thread ([0-9]+), which is not above it; number .*', lambda t, kind, x: (is_ours(t), cited(lines, line, '%s %s' % (kind, x)), lines.pop(here))),
        (r'thread ([0-9]+) ends here and has ([0-9]+) actions? after it; take the end out, or what follows',
         lambda t, left: (is_ours(t), cited(lines, line, 'end'), (threads + [len(lines)])[ours + 1] - line == int(left) and lines.pop(here))),
        (r'thread ([0-9]+) does not end; put end after this', lambda t: (is_ours(t), lines.insert(line, 'end'))),
        (r'thread ([0-9]+) is forked already, in line ([0-9]+); give .*', lambda x, there: (cited(lines, there, 'fork ' + x), cited(lines, line, 'fork ' + x), lines.pop(here))),
        (r'expected join ([0-9]+), the latest child not yet joined \(forked in line ([0-9]+)\)',
         lambda x, there: (cited(lines, there, 'fork ' + x), lines.__setitem__(here, 'join ' + x))),
        (r'expected join ([0-9]+), the latest child not yet joined \(forked in line ([0-9]+)\), before thread ([0-9]+) ends(?:, and [0-9]+ others? before it)?',
         lambda x, there, t: (is_ours(t), cited(lines, there, 'fork ' + x), lines.insert(here, 'join ' + x))),
        (r'thread ([0-9]+) has no child to join(?:; thread ([0-9]+) is joined already, in line ([0-9]+))?',
         lambda t, x, there: (is_ours(t), x and cited(lines, there, 'join ' + x), lines.pop(here))),
        (r'thread ([0-9]+) is forked nowhere; fork it or take it out', lambda t: (is_ours(t), lines.insert(threads[1] - 1, 'join ' + t), lines.insert(threads[1] - 1, 'fork ' + t))),
        (r'thread ([0-9]+) has no action; it has at least its end', lambda t: (is_ours(t), lines.insert(line, 'end'))),
        (r'thread ([0-9]+) holds ([0-9,]+) here and frees ([0-9,]+); free less, .*', lambda t, holds, frees: (is_ours(t), free_less(lines, line, holds, frees))),
        (r'thread ([0-9]+), joined (?:here|in line ([0-9]+)), ends ([0-9,]+) below 0: in line ([0-9]+) (?:it|thread [0-9]+) holds ([0-9,]+) and frees ([0-9,]+)(?:; so thread .*)?',
         lambda x, there, below, short, holds, frees: (cited(lines, there or line, 'join ' + x), free_less(lines, int(short), holds, frees))),
    ]
    found = [(re.fullmatch(pattern, why), rule) for pattern, rule in rules if re.fullmatch(pattern, why)]
    if len(found) != 1:
        raise SystemExit('not understood: %s' % why)
    before = list(lines)
    found[0][1](*found[0][0].groups())
    if lines == before:
        raise SystemExit('not to be followed in line %d: %s\n%s' % (line, why, '\n'.join(lines)))


def free_less(lines, line, holds, frees):
    cited(lines, line, 'free ' + frees.replace(',', ''))
    lines[line - 1] = 'free ' + holds.replace(',', '') if holds != '0' else 'work'


def accepted(lines, met):
    """How many pieces of advice lead to an accepted text."""
    for steps in range(MANY):
        text = ('\n'.join(lines) + '\n').encode()
        data, message = assemble(text)
        if data is not None:
            return steps
        number, place, line = map(int, re.fullmatch('refused ([0-9]+) ([0-9]+) line ([0-9]+)', message).groups())
        met[number] += 1
        follow(lines, line, explain.reason(number, place, explain.of_text(text)))
    raise SystemExit('%d pieces of advice do not help:\n%s' % (MANY, '\n'.join(lines)))


def differ(rng):
    """Of two texts that differ in one amount, the second under other thread numbers, both lines are named; of one text under two numbers nothing is."""
    first = lines_of(drawn(rng, rng.choice([1, 3, 8, 20]), rng.choice([10, 60]), [3, 40]))
    allocs = [i for i, line in enumerate(first) if line.startswith('alloc')]
    if not allocs:
        return 0
    at = rng.choice(allocs)
    before, after = first[at], 'alloc %d' % (int(first[at].split()[1]) + 1)
    second = lines_of(shuffled(rng, assembled(first[:at] + [after] + first[at + 1:])))
    same = lines_of(shuffled(rng, assembled(first)))
    sources = [explain.of_text('\n'.join(lines).encode()) for lines in (first, second, same)]
    told = explain.difference(*sources[:2])
    found = re.fullmatch('thread [0-9]+ of the canonical form: %s against %s; line ([0-9]+) and line ([0-9]+)' % (before, after), told)
    if not found or int(found[1]) != at + 1:
        raise SystemExit('line %d, %s for %s: %s' % (at + 1, after, before, told))
    cited(second, found[2], after)
    if explain.difference(sources[0], sources[2]) is not None:
        raise SystemExit('one table: %s' % explain.difference(sources[0], sources[2]))
    return 1


def assembled(lines):
    return assemble(('\n'.join(lines) + '\n').encode())[0]


def main():
    rng, wanted = random.Random(9), int(sys.argv[1]) if len(sys.argv) > 1 else 400
    met, steps, told = collections.Counter(), 0, 0
    for _ in range(wanted):
        lines = lines_of(drawn(rng, rng.choice([2, 3, 6, 15]), rng.choice([10, 40, 120]), [3, 40]))
        for _ in range(rng.randint(1, 4)):
            spoil(rng, lines)
        steps += accepted(lines, met)
    for _ in range(wanted):
        data = damaged(rng, drawn(rng, rng.choice([1, 3, 9]), 40, [3, 40]))
        answer = check(data)
        if answer[0] == 'refused':
            told += bool(explain.reason(answer[1], answer[2], explain.of_bytes(data)))
            if not explain.reason(answer[1], answer[2], explain.of_bytes(data)):
                raise SystemExit('nothing to say of %s' % (answer,))
    differences = sum(differ(rng) for _ in range(wanted))
    if not {6, 7, 8, 9, 10} <= set(met) or min(told, differences) < wanted // 3:
        raise SystemExit('too few kinds: %s, %d tables' % (met, told))
    print('%d texts, accepted after %d pieces of advice: %s; %d damaged tables with words; %d differences found'
          % (wanted, steps, ', '.join('refusal %d %d times' % pair for pair in sorted(met.items())), told, differences))


if __name__ == '__main__':
    main()
