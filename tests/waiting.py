"""The waiting of idle workers, rule 5 of docs/WORKERS.md, in every interleaving: runs spin on tests/waiting.pml, a model of `step` of examples/workers.c and of the Rust example, with 2 and 3
workers on each of TABLES.

Asked of the model as the examples are: no worker is left waiting, no step finds memory that is not drawn, real memory stays within the highest, nobody sleeps over a ready thread, and no
interleaving goes on for ever: there is no cycle at all, so that no fairness is needed but that some worker that can go on does. The same where workers stop for good once a turn has left them
without a thread, as long as one goes on, but for the sleeping. Each fault of FAULTS must be found, so that the model is known to see it; without the signals at an end and a quota stop nothing
goes wrong as long as no worker stops. The model's turns are those of machine.py, in random runs.

usage: python3 tests/waiting.py
    From the repository's top; needs spin and a C compiler, `cc`, and says so where one is not at hand.
"""
import os
import re
import shutil
import subprocess
import sys
from concurrent.futures import ThreadPoolExecutor

from machine import Machine, begin
from reference import END, ALLOC, FREE, FORK, JOIN, Table, owners, serial_order
from tables import table

FOLDER, WORKERS, SEEDS = 'target/waiting', (2, 3), 3
SPIN = ['spin', '-Pcc -E -x c']
KIND = ['end_', 'work_', 'alloc_', 'free_', 'fork_', 'join_']
end = (END, 0)
alloc, free, fork, join = (lambda x, kind=kind: (kind, x) for kind in (ALLOC, FREE, FORK, JOIN))

# with its quota
TABLES = [
    # draws before a fork and on either side of it, and what the child leaves is its parent's
    (table([alloc(1), fork(1), alloc(1), join(1), free(3), end], [alloc(1), end]), 1),
    # a child that is stopped by its quota
    (table([fork(1), join(1), end], [alloc(1), alloc(1), free(2), end]), 1),
    # a chain of three
    (table([fork(1), join(1), end], [fork(2), join(2), end], [alloc(1), free(1), end]), 1),
    # two children, of which one is stopped
    (table([fork(1), fork(2), join(2), join(1), end], [alloc(1), alloc(1), end], [end]), 1),
]
# the name of what is asked, the model's macros, and whether it is asked of cycles
MODELS = [
    ('every-end', ['WOKEN=1'], False),
    ('no-cycle', ['WOKEN=1'], True),
    ('every-end-some-away', ['WOKEN=0', 'STAYS_AWAY'], False),
    ('no-cycle-some-away', ['WOKEN=0', 'STAYS_AWAY'], True),
    ('fork-signals-alone', ['WOKEN=0', 'NO_END_SIGNAL', 'NO_QUOTA_SIGNAL'], False),
]
# a fault, with what it needs to show, and what spin says of it
FAULTS = [
    ('NO_BROADCAST', [], 'invalid end state'),
    ('NO_FORK_SIGNAL', [], 'assertion violated'),
    ('NO_FORK_SIGNAL', ['STAYS_AWAY'], 'invalid end state'),
    ('NO_END_SIGNAL', ['STAYS_AWAY'], 'invalid end state'),
    ('NO_QUOTA_SIGNAL', ['STAYS_AWAY'], 'invalid end state'),
    ('WAIT_OUTSIDE', [], 'invalid end state'),
]


def option(data, quota):
    """A table as the model's, one line for each of its numbers."""
    t = Table(data)
    owner = owners(t)
    parent = {x: owner[a] for a, (kind, x) in enumerate(t.actions) if kind == FORK}
    order = [owner[a] for a in serial_order(t) if t.actions[a][0] == END]
    lines = ['threads = %d; given = %d' % (t.n, quota)]
    for i, (first, _) in enumerate(t.contents):
        lines.append('first[%d] = %d; parent[%d] = %d; order[%d] = %d' % (i, first, i, parent.get(i, 0), i, order[i]))
    for a, (kind, x) in enumerate(t.actions):
        lines.append('kind[%d] = %s; argument[%d] = %d' % (a, KIND[kind], a, x))
    return ';\n        '.join(lines)


def written():
    """The model and its tables: any of them, or the one of -DTABLE, with any number of WORKERS, or -DTAKING."""
    most = [max(sizes) for sizes in zip(*((Table(data).n, Table(data).m) for data, _ in TABLES))]
    text = '#define THREADS %d\n#define ACTIONS %d\n#define WORKERS %d\ninline a_table() {\n    if\n' % (*most, max(WORKERS))
    for i, (data, quota) in enumerate(TABLES):
        text += '#if !defined(TABLE) || TABLE == %d\n    ::  %s\n#endif\n' % (i, option(data, quota))
    text += '    fi;\n    if\n' + ''.join('#if !defined(TAKING) || TAKING == %d\n    :: workers = %d\n#endif\n' % (p, p) for p in WORKERS) + '    fi\n}\n'
    os.makedirs(FOLDER, exist_ok=True)
    with open(FOLDER + '/tables.pml', 'w') as file:
        file.write(text)
    shutil.copy('tests/waiting.pml', FOLDER)


def verified(name, defines, cycles):
    """What the verifier says of the model with the macros given: on end states and assertions, or on cycles."""
    folder = '%s/%s' % (FOLDER, name)
    os.makedirs(folder, exist_ok=True)
    subprocess.run([*SPIN, '-a', *('-D' + x for x in defines), '../waiting.pml'], cwd=folder, check=True, capture_output=True)
    subprocess.run(['cc', '-O0', '-w', '-DNOFAIR', '-DMEMLIM=2048', '-DNP' if cycles else '-DSAFETY', '-o', 'pan', 'pan.c'], cwd=folder, check=True)
    told = subprocess.run(['./pan', '-m100000', *(['-l'] if cycles else [])], cwd=folder, check=True, capture_output=True, text=True).stdout
    if 'errors:' not in told or 'max search depth too small' in told or 'Search not completed' in told and 'pan:1:' not in told:
        sys.exit('%s: the search was not completed:\n%s' % (name, told))
    return told


def found(told):
    """The error's line, or None, with the number of states."""
    errors, states = re.search(r'errors: (\d+)', told)[1], re.search(r'(\d+) states, stored', told)[1]
    line = re.search(r'^pan:1: (.*?) \(at depth', told, re.M)
    assert (errors != '0') == bool(line), told
    return line and line[1], int(states)


def good(name, defines, cycles):
    error, states = found(verified(name, defines, cycles))
    if error:
        sys.exit('%s: %s' % (name, error))
    return '%s: %d states, no error' % (name, states)


def faulty(fault, defines, expected):
    name = ' '.join([fault] + defines)
    error, _ = found(verified(name.replace(' ', '-'), [fault, 'WOKEN=0'] + defines, False))
    if not error or expected not in error:
        sys.exit('%s: not found, but %s' % (name, error))
    return '%s: %s' % (name, error)


def reply_of(said, t, a, x):
    return {'idle': ('idle',), 'quota': ('quota', t, x), 'wait': ('wait', t, x)}.get(said, ('done', t, a))


def compared(i, p, seed):
    """A random run of the model: each of its turns is the machine's. How many they were."""
    data, quota = TABLES[i]
    told = subprocess.run([*SPIN, '-T', '-n%d' % seed, '-DTABLE=%d' % i, '-DTAKING=%d' % p, '-DWOKEN=1', 'waiting.pml'], cwd=FOLDER, check=True, capture_output=True, text=True).stdout
    machine, turns = Machine(begin(data, p, quota)[1]), re.findall(r'turn (\d+) (\w+) (\d+) (\d+)', told)
    for w, said, t, a in turns:
        t, a = int(t), int(a)
        if said == 'refused':
            assert machine.ended(), told
            continue
        assert not machine.ended(), told
        kind, x = machine.table.actions[a]
        reply = machine.take(int(w))
        assert reply == reply_of(said, t, a, x) and (reply[0] != 'done' or KIND[kind] == said), (reply, told)
    assert machine.ended() and 'timeout' not in told, told
    return len(turns)


def main():
    missing = [name for name in ('spin', 'cc') if not shutil.which(name)]
    if missing:
        print('the waiting of idle workers was left out: no %s' % ' and no '.join(missing))
        return
    written()
    turns = sum(compared(i, p, seed) for i in range(len(TABLES)) for p in WORKERS for seed in range(1, SEEDS + 1))
    print('%d turns in random runs of the model are the machine\'s' % turns)
    with ThreadPoolExecutor(os.cpu_count()) as pool:
        told = [pool.submit(good, *model) for model in MODELS] + [pool.submit(faulty, *fault) for fault in FAULTS]
        for line in told:
            print(line.result())


if __name__ == '__main__':
    main()
