"""Tables as bytes: written out, drawn at random, and damaged; and a program held to its model on such inputs."""
import collections
import subprocess

from reference import END, WORK, ALLOC, FREE, FORK, JOIN

# Document 01's example.
BODIES_OF_E = [[(FORK, 1), (FORK, 2), (JOIN, 2), (JOIN, 1), (END, 0)], [(ALLOC, 6), (WORK, 0), (FREE, 6), (END, 0)], [(ALLOC, 6), (FREE, 6), (END, 0)]]


def word(x):
    return bytes([x % 256, x // 256])


def action(kind, x=0):
    return bytes([kind]) + x.to_bytes(3, 'little')


def table(*bodies):
    """The bytes of a table from its threads' bodies, each a list of (kind, argument)."""
    out, first = word(len(bodies)) + word(sum(map(len, bodies))), 0
    for body in bodies:
        out += word(first) + word(len(body))
        first += len(body)
    return out + b''.join(action(k, x) for body in bodies for k, x in body)


def drawn(rng, threads, most, sizes=(4, 100, 16777215)):
    """A random accepted table of the given count of threads and about `most` actions; each alloc is at most one of the sizes."""
    parent = [None] + [rng.randrange(t) for t in range(1, threads)]
    if rng.random() < 0.5:  # a few children are born late and in any order
        parent = [None] + [rng.randrange(max(0, t - rng.randint(1, 6)), t) for t in range(1, threads)]
    children = {t: [c for c in range(1, threads) if parent[c] == t] for t in range(threads)}
    final, bodies = [0] * threads, [None] * threads
    for t in reversed(range(threads)):
        todo, waiting, body, balance = children[t][:], [], [], 0
        rng.shuffle(todo)
        room = max(0, most // threads - 2 * len(todo))
        while todo or waiting or room > 0:
            choice = rng.random()
            if choice < 0.35 and todo:
                waiting.append(todo.pop())
                body.append((FORK, waiting[-1]))
            elif choice < 0.6 and waiting:
                c = waiting.pop()
                balance += final[c]
                body.append((JOIN, c))
            elif room > 0:
                room -= 1
                kind = rng.choice([WORK, ALLOC, ALLOC, FREE])
                if kind == FREE and balance:
                    x = rng.randint(1, min(balance, 16777215))
                    balance -= x
                    body.append((FREE, x))
                elif kind == ALLOC:
                    x = rng.randint(1, rng.choice(sizes))
                    balance += x
                    body.append((ALLOC, x))
                else:
                    body.append((WORK, 0))
            elif not todo and not waiting:
                break
        body.append((END, 0))
        bodies[t], final[t] = body, balance
    return table(*bodies)


def cut_or_changed(rng, data, front):
    """The same bytes, at times cut, often within the `front` bytes before the table, at times with another byte."""
    kind = rng.randrange(12)
    if kind == 0:
        return data[:rng.randrange(rng.choice([front, len(data)]))]
    if kind == 1:
        at = rng.randrange(len(data))
        return data[:at] + bytes([rng.randrange(256)]) + data[at + 1:]
    return data


def damaged(rng, data):
    """The same bytes with something wrong, most of the time."""
    data = bytearray(data)
    for _ in range(rng.choice([1, 1, 1, 2, 3])):
        how = rng.randrange(8)
        if not data or how == 0:
            data += bytes(rng.randrange(256) for _ in range(rng.randint(1, 5)))
        elif how == 1:
            del data[rng.randrange(len(data)):]
        elif how == 2:
            data[rng.randrange(len(data))] = rng.randrange(256)
        elif how == 3:
            data[rng.randrange(len(data))] ^= 1 << rng.randrange(8)
        elif len(data) > 8:
            start = 4 + 4 * (data[0] | data[1] << 8)
            slots = (len(data) - start) // 4
            if slots > 0:
                at = start + 4 * rng.randrange(slots)
                if how == 4:
                    data[at] = rng.randrange(7)
                elif how == 5:
                    data[at + 1] = rng.randrange(8)
                elif how == 6:  # a child is never forked nor joined, or another in its place
                    child = data[at + 1:at + 4]
                    put = rng.choice([None, rng.randint(1, max(1, data[0] - 1))])
                    for i in range(start, start + 4 * slots, 4):
                        if data[i] in (FORK, JOIN) and data[i + 1:i + 4] == child:
                            data[i:i + 4] = action(data[i], put) if put else action(WORK)
                else:
                    other = start + 4 * rng.randrange(slots)
                    data[at:at + 4], data[other:other + 4] = data[other:other + 4], data[at:at + 4]
    return bytes(data)


def held_to(name, model, inputs):
    """Holds a program that prints one line to its model; how often each answer was given, by its first word, a refusal's by its number too."""
    given = collections.Counter()
    for data in inputs:
        expected = model(data)
        found = subprocess.run(['target/bin/' + name], input=data, capture_output=True, check=True).stdout.decode()
        if found != expected + '\n':
            raise SystemExit('%s: %r, expected %r' % (data.hex(), found, expected))
        given[' '.join(expected.split()[:2 if expected.startswith('refused') else 1])] += 1
    return ', '.join('%s %d' % x for x in sorted(given.items()))
