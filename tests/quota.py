"""The largest quota for a board (N1), written on its own: every K in range is tried, from the highest down, by halving.

The bound S1 + b·K·(p − 1)·(D − 1) never falls as K grows, so the ones that serve are the lower part of the range.
"""
from reference import ALLOC, Table, check

HIGHEST = 2**24 - 1


def bound(answer, p, b, quota):
    _, _, _, peak, depth, _ = answer
    return peak + b * quota * (p - 1) * (depth - 1)


def largest(data, p, b, memory):
    """('quota', K) or ('refused', number, place)."""
    answer = check(data)
    if answer[0] == 'refused':
        return answer
    if not 1 <= p <= 16:
        return 'refused', 20, 0
    if not 1 <= b <= 65535:
        return 'refused', 41, 0
    low = max([x for kind, x in Table(data).actions if kind == ALLOC], default=1)
    if bound(answer, p, b, low) > memory:
        return 'refused', 42, 0
    high = HIGHEST + 1  # low serves; high is out of range or does not serve
    while high - low > 1:
        middle = (low + high) // 2
        if bound(answer, p, b, middle) <= memory:
            low = middle
        else:
            high = middle
    return 'quota', low


def board(p, b, memory, data):
    """The input of maxquota."""
    return bytes([p]) + b.to_bytes(4, 'little') + memory.to_bytes(8, 'little') + data


def maxquota(data):
    """What maxquota prints, without the newline."""
    if len(data) < 13:
        return 'refused 33 0'
    p, b, memory = data[0], int.from_bytes(data[1:5], 'little'), int.from_bytes(data[5:13], 'little')
    return ' '.join(map(str, largest(data[13:], p, b, memory)))
