#!/usr/bin/env python3
"""What the program must write: the same systems and given states, listed from the scope alone, with sets of steps."""

import os
import sys

sys.dont_write_bytecode = True
sys.path.insert(0, os.path.join(os.path.dirname(os.path.abspath(__file__)), "../small_systems"))
from lists import CLAUSES, COUNTER, EVERYTHING, NOTHING, explicit, literal, next_number

SYSTEMS, FILLED = 2048, 0x0123456789ABCDEF


def numbers(x):
    while True:
        x = next_number(x)
        yield x


def before(kind, density, n, x):
    """The states that step to a given one, in order, as a function of it."""
    states = range(2**n)
    if kind == NOTHING:
        return lambda t: []
    if kind == COUNTER:
        return lambda t: [s for s in states if (s + 1) % 2**n == t and (s < 2**n - 1 or density % 2 == 0)]
    if kind == CLAUSES:
        made = [[literal(n, True, r >> 8 * k & 255) for k in range(2 + (r >> 24 & 1))] for _, r in zip(range(density), numbers(x))]
        return lambda t: [s for s in states if all(any((t >> p - 32 if p >= 32 else s >> p) & 1 == v for p, v in c) for c in made)]
    steps = [explicit(kind, density, n, j, r) for j, r in zip(range(4**n), numbers(x))]
    return lambda t: [s for s, later, true in steps if later == t and true]


def main():
    numbers_told = (0, 1, 2, 3, 29, 30)
    counts, written, digest = dict.fromkeys(numbers_told, 0), 0, 0

    def enter(number, count, questions, store):
        nonlocal written, digest
        counts[number] += 1
        written += count
        digest = next_number(digest ^ (number | count << 8 | questions << 32))
        for x in store:
            digest = next_number(digest ^ x)

    def stays(number, r):
        """Refused before a question, with a store of a few numbers."""
        enter(number, 0, 0, [FILLED] * ((r >> 48) % 17))

    shape = 0x9E3779B97F4A7C15
    for i in range(SYSTEMS):
        shape = next_number(shape)
        n = i // 32 % 4 + 7 if i % 32 == 31 else i % 6 + 1
        kind = (shape >> 24) % 8
        if n > 4 and kind not in (NOTHING, EVERYTHING, COUNTER):
            kind = CLAUSES
        density = (shape >> 32) % (2 * n + 1 if kind == CLAUSES else 2 ** (n + 1) + 1)
        into = before(kind, density, n, shape ^ 0x165667B19E3779F9)
        for _, r in zip(range(4), numbers(shape)):
            found = into((r >> 8) % 2**n)
            right = len(found)
            for room in [0] + [max(0, right + k) for k in range(-2, 3)]:
                if right <= room:
                    enter(0, right, right + 1, found + [0] * (room - right))
                else:
                    enter(30, 0, room + 1, [0] * room)
            # a number that is no state
            stays(29, r)
        # wrong systems: in the number of bits, in the count of masks, in a bit
        for number, r in zip((1, 1, 2, 2, 2, 3, 3, 3, 3, 3, 3), numbers(shape)):
            stays(number, r)
    print(f"{'systems':19}{SYSTEMS}")
    print(f"{'calls':19}{sum(counts.values())}")
    for number in numbers_told:
        print(f"{f'refused with {number}' if number else 'listed':19}{counts[number]}")
    for name, number in {"refused otherwise": 0, "states written": written, "digest": digest, "differ": 0}.items():
        print(f"{name:19}{number}")


main()
