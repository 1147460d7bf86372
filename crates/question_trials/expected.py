#!/usr/bin/env python3
"""What the program must write: the same random questions, answered from the definition in the scope alone."""

import os
import sys

sys.dont_write_bytecode = True
sys.path.insert(0, os.path.join(os.path.dirname(os.path.abspath(__file__)), "../small_systems"))
from lists import next_number

LOW, LATER, WILD = range(3)


def position(byte, n, kind):
    if byte >= 192:
        if kind == LATER:
            return byte % n + 32
        if kind == WILD:
            return byte % 64
    return byte % n


def clause(r, n, kind, width):
    """A clause as its literals: pairs of a position and the value wanted there."""
    bits = r >> 40
    count = 0 if bits % 1024 == 0 else 1 if bits // 1024 % 16 == 0 else 2 + width % 3
    return [(position(r >> 8 * k & 255, n, kind), 1 - (r >> 32 + k & 1)) for k in range(count)]


def clauses(count, n, kind, width, r):
    """So many clauses, of 61 that are made; one to three masks behind them say nothing."""
    made = []
    for _ in range(61):
        r = next_number(r)
        made.append(clause(r, n, kind, width))
    return made[:count], r


def stored(r, n):
    bits, kind = r >> 8, r % 64
    if kind == 0:
        return bits
    if kind == 1:
        return bits % 2**32
    return bits % 2**n if kind < 32 else bits % 2**n % 16


def holds(made, word):
    return all(any(word >> p & 1 == v for p, v in c) for c in made)


def main():
    questions, x = 20000, 0x9E3779B97F4A7C15
    found = none = total = 0
    for _ in range(questions):
        shape = next_number(x)
        sizes = next_number(shape)
        n = sizes % 12 + 1
        steps = shape >> 4 & 1 == 1
        width = shape >> 20
        kind = WILD if (shape >> 12) % 4 == 0 else LATER if steps else LOW
        start, x = clauses((sizes >> 16) % 5, n, WILD if (shape >> 14) % 2 == 0 else LOW, width, sizes)
        asked, x = clauses((sizes >> 24) % 61, n, kind, width, x)
        states, levels = [], []
        for _ in range(40):
            x = next_number(x)
            states.append(stored(x, n))
        for _ in range(40):
            x = next_number(x)
            levels.append((x >> 20) % 6)
        x = next_number(x)
        states = states[: (sizes >> 32) % 41]
        levels = levels[: (sizes >> (40 if (shape >> 16) % 4 == 0 else 32)) % 41]
        i = shape % 5
        target = 0 if not steps else x if (shape >> 8) % 8 == 0 else x % 2**n
        out = {s for j, s in enumerate(states) if j >= len(levels) or levels[j] >= i}
        inside = (lambda s: holds(start, s)) if i == 0 else (lambda s: s not in out)
        begin = 0 if shape >> 28 & 1 == 0 else x if (shape >> 29) % 8 == 0 else (x >> 16) % 2**n
        answer = next((s for s in range(begin, 2**n) if holds(asked, s + (target << 32)) and inside(s)), None)
        if answer is None:
            none += 1
        else:
            found += 1
            total += answer
    print("questions", questions)
    print("with an answer", found)
    print("with none", none)
    print("sum of the answers modulo 2^32", total % 2**32)
    print("answered otherwise by the engine", 0)


main()
