"""The rules of docs/RULES.md in Python, for the scripts that write cases with their answers.

They are written from the rules alone, slowly and in whole numbers; nothing here is shared with the Rattle code. A cost is a
function of slots, channel, readings, count and slot; a table is a dictionary of readings by channel number.
"""

from heapq import heappop, heappush
from itertools import permutations

TOP = 2**40 - 1
LARGEST = 16_777_216
LIMIT = 4096


def root(s):
    """The largest whole v with v * v <= 1000 * s."""
    v = 0
    while (v + 1) * (v + 1) <= 1000 * s:
        v += 1
    return v


def in_domain(S, c, d, x, k):
    """Whether a question is in the domain."""
    return 1 <= S <= LIMIT and 0 <= c <= 63 and 1 <= d <= LIMIT and 0 <= x <= d and 0 <= k <= S


def bottom_cost(two_sided, S, c, d, x, k):
    """The cost of the absolute deviation or of the two-sided bottom."""
    if not in_domain(S, c, d, x, k):
        return TOP
    q = S * x - k * d
    if not two_sided:
        return abs(q)
    s = min(255, 8 * abs(q) // S)
    return 40 * s if q < 0 else root(s)


def own_cost(rows, S, c, d, x, k):
    """The cost of the bottom over an owner's rows, ahead and behind."""
    if not in_domain(S, c, d, x, k):
        return TOP
    eighths = 8 * (S * x - k * d)
    ahead, behind = rows
    return behind[min(255, -eighths // S)] if eighths < 0 else ahead[min(255, eighths // S)]


def rows_refused(rows):
    """Why an owner's rows are refused: number, row (0 ahead, 1 behind) and step of the first fault, or None where there is none."""
    faults = []
    for at, row in enumerate(rows):
        faults += [(21, at, 0)] * (len(row) != 256)
        faults += [(22, at, 0)] * (row[:1] not in ([], [0]))
        faults += [(23, at, step) for step in range(1, len(row)) if row[step] < row[step - 1]]
    return min(faults, default=None)


def centred_cost(centres, x, k):
    """The distance of a count from the centre of its slot, which is 0 past the slots that have one."""
    return abs(x - (centres[k] if k < len(centres) else 0))


def weigh(weight, cost):
    """The layer weights."""
    return TOP if cost == TOP else min(weight * cost, TOP - 1)


def relax(tolerance, cost):
    """The layer band."""
    return TOP if cost == TOP else max(cost - tolerance, 0)


def stop(limit, S, d, x, k, cost):
    """The layer stop."""
    return TOP if S * x - k * d > limit else cost


def windows(cost, bound, table, like=lambda c: c):
    """The first blocked moment, or the windows of all readings, as channel, reading, earliest and latest.

    `like(c)` may name a channel with the same costs and readings as c, so that these are looked at once.
    """
    slots = sum(table.values())
    lo, hi = {}, {}
    for k in range(slots + 1):
        for c in sorted(table):
            if like(c) == c:
                allowed = [x for x in range(table[c] + 1) if cost(slots, c, table[c], x, k) <= bound]
                if not allowed:
                    return ("MOMENT", k, c)
                lo[c, k], hi[c, k] = min(allowed), max(allowed)
    ends = {}
    for c in table:
        for j in range(1, table[c] + 1):
            if like(c) == c:
                forbidden = [k for k in range(slots + 1) if hi[c, k] < j]
                needed = [k for k in range(slots + 1) if lo[c, k] >= j]
                ends[c, j] = (1 + max(forbidden) if forbidden else 1, min(needed) if needed else slots)
    return [(c, j, *ends[like(c), j]) for c in sorted(table) for j in range(1, table[c] + 1)]


def placed(found):
    """The slots of the windows by Glover's rule, as far as readings can be placed, and the slot where none can."""
    opens = {}
    for i, (_, _, e, _) in enumerate(found):
        opens.setdefault(e, []).append(i)
    slots, ready = {}, []
    for slot in range(1, len(found) + 1):
        for i in opens.get(slot, []):
            c, j, _, l = found[i]
            heappush(ready, (l, c, j, i))
        if not ready or ready[0][0] < slot:
            return slots, slot
        slots[heappop(ready)[3]] = slot
    return slots, None


def placement(found):
    """The slots of the windows by Glover's rule, or None where a reading cannot be placed."""
    slots, failed = placed(found)
    return None if failed else [slots[i] for i in range(len(found))]


def crowd(found):
    """Crowded slots of windows that have no placement, with their number.

    Where no reading is ready for slot t, all that are left lie after it. Else the first that is ready is late: with those
    that stand after the last slot of a later reading, it has to stand in the slots from there to t - 1.
    """
    slots, t = placed(found)
    left = [i for i in range(len(found)) if i not in slots]
    if not any(found[i][2] <= t for i in left):
        a, b = t + 1, len(found)
    else:
        a, b = 1 + max((s for i, s in slots.items() if found[i][3] > t - 1), default=0), t - 1
    number = sum(a <= e and l <= b for _, _, e, l in found)
    assert number > b - a + 1
    return a, b, number


def list_at(cost, bound, table, like=lambda c: c):
    """The list at a bound: its kind, and the block, or the channels by slot and the windows with their slots."""
    found = windows(cost, bound, table, like)
    if isinstance(found, tuple):
        return found
    for c, j, e, l in found:
        if e > l:
            return ("SHUT", c, j, e, l)
    slots = placement(found)
    if slots is None:
        return ("CROWD", *crowd(found))
    channels = [c for _, c in sorted((s, c) for s, (c, _, _, _) in zip(slots, found))]
    return ("WITHIN", channels, [(*w, s) for w, s in zip(found, slots)])


def largest_cost(cost, table, channels):
    """The largest cost of a list."""
    slots, counts = sum(table.values()), dict.fromkeys(table, 0)
    largest = max(cost(slots, c, table[c], 0, 0) for c in table)
    for k, channel in enumerate(channels, 1):
        counts[channel] += 1
        largest = max(largest, *(cost(slots, c, table[c], counts[c], k) for c in table))
    return largest


def best(cost, table):
    """The least with its list and the block below it; or nothing with the block below TOP."""
    slots = sum(table.values())
    costs = {cost(slots, c, table[c], x, k) for k in range(slots + 1) for c in table for x in range(table[c] + 1)}
    for bound in sorted({0} | costs):
        if bound < TOP:
            made = list_at(cost, bound, table)
            if made[0] == "WITHIN":
                return bound, made, list_at(cost, bound - 1, table) if bound else None
    return None, None, list_at(cost, TOP - 1, table)


def figure(least, slots):
    """The figure of a least: a hundred times the least, divided by the slots, rounded up."""
    return -(-100 * least // slots)


def least_of_all(cost, table):
    """The smallest largest cost of any complete list, by trying them all."""
    readings = [c for c in table for _ in range(table[c])]
    return min(largest_cost(cost, table, list(order)) for order in set(permutations(readings)))
