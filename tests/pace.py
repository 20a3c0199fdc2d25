"""A pace as its 260 numbers (crates/pace/specs/Pace), and paced calls by value on a record (machine.py): a turn that the pace does not let through is refused, and a run is such turns one after the other."""
import collections

import machine

NUMBERS, LAST = 260, 2**32 - 1
B, P, KEPT, AFTER = 256, 257, 258, 259
BREAKS = 60


def least(row):
    """The least b that a row keeps: of all stretches after a turn without a turn of its worker, the most turns of one worker."""
    most = 0
    for i, u in enumerate(row):
        counts = collections.Counter()
        for v in row[i + 1:]:
            if v == u:
                break
            counts[v] += 1
        most = max([most, *counts.values()])
    return most


class Pace:
    def __init__(self, numbers):
        self.numbers, self.row = list(numbers), None

    def begin(self, p, b):
        if not 1 <= p <= 16:
            return 20
        if not 1 <= b <= 65535:
            return 41
        self.numbers, self.row = [0] * NUMBERS, []
        self.numbers[B], self.numbers[P] = b, p
        return 0

    def asked(self, w):
        return max(self.numbers[16 * w:16 * w + 16]) if w < 16 else 0

    def may(self, w):
        return self.asked(w) <= self.numbers[B]

    def number(self, w):
        return 30 if w >= self.numbers[P] else 0 if self.may(w) else BREAKS

    def took(self, w):
        if self.row is not None:
            self.row = self.row + [w] if w < self.numbers[P] else None
        if w >= 16:
            return
        n = self.numbers
        n[KEPT] = max(n[KEPT], self.asked(w))
        n[AFTER] = w + 1
        for x in range(16):
            if 0 < n[16 * w + x] < LAST:
                n[16 * w + x] += 1
        for v in range(16):
            n[16 * v + w] = 1
        n[17 * w] = 0

    def next(self):
        return self.numbers[AFTER] if self.numbers[AFTER] < self.numbers[P] else 0

    def by_force(self):
        """The rule itself, where the pace stands for a row."""
        row, p, b = self.row, self.numbers[P], self.numbers[B]
        keeps = least(row)
        assert self.numbers[KEPT] == keeps, (row, self.numbers[KEPT], keeps)
        if keeps <= b:
            fine = [least(row + [w]) <= b for w in range(p)]
            assert [self.number(w) == 0 for w in range(p)] == fine, (row, b)
            assert any(fine), (row, b)
        assert self.next() == (row[-1] + 1 if row and row[-1] + 1 < p else 0)


def turn(run, pace, w):
    """A paced turn, counted; what refuses it without a pace comes first."""
    answer, after = machine.turn(run, w)
    if answer[0] == 'refused':
        return answer, run
    number = pace.number(w)
    if number:
        return ('refused', number, 0), run
    pace.took(w)
    return answer, after


def run_over(run, pace, who, limit):
    """Up to the root's end, a refusal or the last of them."""
    if not machine.is_blank(run) and not machine.sound(run):
        return ('refused', 0, 32, 0), run
    for i in range(limit):
        if run.status[0] == machine.ENDED:
            return ('finished', i), run
        answer, run = turn(run, pace, who(i))
        if answer[0] == 'refused':
            return ('refused', i, *answer[1:]), run
    return ('finished' if run.status[0] == machine.ENDED else 'spent', limit), run


def run_list(run, pace, order):
    return run_over(run, pace, lambda i: order[i], len(order))


def run_rounds(run, pace, limit):
    if machine.is_blank(run):
        return ('refused', 0, 30, 0), run
    return run_over(run, pace, lambda _: pace.next(), limit)
