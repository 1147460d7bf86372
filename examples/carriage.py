#!/usr/bin/env python3
"""Writes the two carriages of this folder as house files: python3 carriage.py late, python3 carriage.py repaired.

A carriage takes a sensor round a ring of 160 bricks, numbered from 0. Bits 0 to 7 are its position, 8 and 9 the phase, 10 says that the next move
is a fast one, and 11 changes with every lap. A rule says what bits are one step later, as a function of the bits now that it looks at; None leaves
the bit free. Each rule becomes clauses: where the bits now are as in a line of its table, the later bit has that line's value. Lines are joined
as far as they go.
"""
import itertools
import sys

BRICKS = 160
FAST = 53  # bricks: a third of a lap
POSITION, PHASE, IS_FAST, LAP = range(8), (8, 9), 10, 11
MOVE, SETTLE, MEASURE, IDLE = range(4)


def number(values, bits):
    return sum(values[b] << k for k, b in enumerate(bits))


def moved(v, late):
    """The position after a move, and whether that begins a lap."""
    now, by = number(v, POSITION), FAST if v[IS_FAST] else 1
    if late:
        # only the last brick is tested for, so a fast move may run past it
        return (0, True) if now == BRICKS - 1 else ((now + by) % 256, False)
    if now >= BRICKS:
        return 0, False
    return (now + by - BRICKS, True) if now + by >= BRICKS else (now + by, False)


def position(v, late):
    return moved(v, late)[0] if number(v, PHASE) == MOVE else number(v, POSITION)


def phase(v, late):
    return {MOVE: SETTLE, SETTLE: MEASURE, MEASURE: MOVE, IDLE: MOVE}[number(v, PHASE)]


def fast(v, late):
    """The speed of a move is chosen while measuring, and kept until the move."""
    now = number(v, PHASE)
    return None if now == MEASURE else v[IS_FAST] if now == SETTLE else 0


def lap(v, late):
    return v[LAP] ^ 1 if number(v, PHASE) == MOVE and moved(v, late)[1] else v[LAP]


RULES = [
    (position, POSITION, [*POSITION, *PHASE, IS_FAST]),
    (phase, PHASE, PHASE),
    (fast, [IS_FAST], [*PHASE, IS_FAST]),
    (lap, [LAP], [*POSITION, *PHASE, IS_FAST, LAP]),
]


def joined(rows, width):
    """Few lines that cover the rows and no others; a line is the positions it looks at and their values."""
    level, whole = {((1 << width) - 1, r) for r in rows}, set()
    while level:
        wider, used = set(), set()
        for seen, values in level:
            for k in range(width):
                if seen >> k & 1 and (seen, values ^ 1 << k) in level:
                    wider.add((seen & ~(1 << k), values & ~(1 << k)))
                    used.add((seen, values))
        whole |= level - used
        level = wider
    whole, left, chosen = sorted(whole), set(rows), []
    while left:
        best = max(whole, key=lambda c: sum(r & c[0] == c[1] for r in left))
        chosen.append(best)
        left = {r for r in left if r & best[0] != best[1]}
    return chosen


def steps(late):
    clauses = []
    for rule, later, bits in RULES:
        table = {}
        for values in itertools.product((0, 1), repeat=len(bits)):
            v = dict.fromkeys(range(12), 0) | dict(zip(bits, values))
            table[sum(x << k for k, x in enumerate(values))] = rule(v, late)
        for (k, bit), value in itertools.product(enumerate(later), (0, 1)):
            rows = [r for r, x in table.items() if x is not None and x >> k & 1 == value]
            for seen, values in joined(rows, len(bits)):
                # bits wanted 1 and bits wanted 0: some bit now is not as in the line, or the later bit has the value
                masks = [0, 0]
                for j, b in enumerate(bits):
                    masks[values >> j & 1] |= (seen >> j & 1) << b
                masks[1 - value] |= 1 << 32 + bit
                clauses.append(masks)
    return clauses


def line(*data):
    return (bytes(data) + bytes([-sum(data) % 256])).hex().upper()


def exactly(bits, value):
    return [[1 << b, 0] if value >> k & 1 else [0, 1 << b] for k, b in enumerate(bits)]


def main():
    late = {"late": True, "repaired": False}[sys.argv[1]]
    start = exactly(range(12), IDLE << 8)
    bad = exactly(range(11), BRICKS | MEASURE << 8)
    clauses = [(1, 4, c) for c in start] + [(2, 8, c) for c in steps(late)] + [(3, 4, c) for c in bad]
    print(line(0, 12))
    for kind, width, masks in clauses:
        print(line(kind, *masks[0].to_bytes(width, "big"), *masks[1].to_bytes(width, "big")))
    print(line(15, *len(clauses).to_bytes(2, "big")))


if __name__ == "__main__":
    main()
