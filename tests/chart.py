"""The wall chart, written on its own from the sentences of change request N5: a record's line, the chart of turns over an order, and the text
that wallchart prints. Turns, runs and soundness are machine.py's. Nothing is taken from the Rattle code.

A refusal is ('refused', number, place).
"""
import machine

WIDTH, MOST_TURNS = 84, 999_999


def cell(run, w):
    """A worker's cell of 4: its thread, right-aligned, or a full stop in the last column; blank from worker p on."""
    if w >= run.p:
        return ' ' * 4
    return '%4d' % run.worker[w].thread if run.worker[w].holds else '   .'


def text(run):
    """The line of a record that has one."""
    row = '%6d' % run.turns + ''.join(cell(run, w) for w in range(machine.WORKERS)) + '%14d' % run.held
    if len(row) != WIDTH or read(row) != shown(run):
        raise SystemExit('a line that is not read back: %r' % row)
    return row


def shown(run):
    """What a line shows: turns taken, for each of 16 workers its thread, '.' or nothing, and memory held."""
    workers = [run.worker[w].thread if run.worker[w].holds else '.' for w in range(run.p)]
    return run.turns, workers + [None] * (machine.WORKERS - run.p), run.held


def read(row):
    """The numbers of a line, by column."""
    cells = [row[6 + 4 * w:10 + 4 * w].strip() for w in range(machine.WORKERS)]
    return int(row[:6]), [int(x) if x.isdigit() else x or None for x in cells], int(row[70:])


def line(run):
    """A record's line, or its refusal."""
    if not machine.is_blank(run) and not machine.sound(run):
        return 'refused', 32, 0
    if run.turns > MOST_TURNS:
        return 'refused', 43, 0
    return text(run)


def chart(run, order):
    """The lines of a record and of those after each turn of an order's workers."""
    rows = []
    first = line(run)
    if first[0] == 'refused':
        return machine.refused(*first[1:])
    rows.append(first)
    for w in order:
        if run.status[0] == machine.ENDED:
            break
        answer, run = machine.turn(run, w)
        if answer[0] != 'refused':
            answer = line(run)
        if answer[0] == 'refused':
            return '\n'.join(rows) + '\n' + machine.refused(*answer[1:])
        rows.append(answer)
    return '\n'.join(rows) + '\n'


def wallchart(data):
    """The program. A beginning's record is sound and turns keep it so, with 4,096 turns taken at most: a line needs no test."""
    if len(data) < 6:
        return machine.refused(33, 0)
    length = machine.word(data, 4)
    if length > 4096 or len(data) < 6 + length:
        return machine.refused(33, 0)
    answer, run = machine.begin(data[6 + length:], data[0], int.from_bytes(data[1:4], 'little'))
    if answer != 'begun':
        return machine.refused(*answer[1:])
    rows = [text(run)]
    report, run = machine.run_list(run, data[6:6 + length], lambda count, w, reply, taking: rows.append(text(taking.run)))
    if report[0] == 'refused':
        rows.append('refused %d %d' % report[2:])
    return '\n'.join(rows) + '\n'
