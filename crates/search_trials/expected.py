#!/usr/bin/env python3
"""Writes what the program must write, and what it reads: `stdout` and `stdin` beside this file.

The same systems, decided from the scope alone, with sets of states and of steps. Each call is worked out by a search over lists of states, and its
evidence and its length held against a walk. A second search, with full rounds, tells `stdin` the questions that it asks of each system.
"""

import os
import sys

sys.dont_write_bytecode = True
sys.path.insert(0, os.path.join(os.path.dirname(os.path.abspath(__file__)), "../small_systems"))
from lists import CHAIN, CLAUSES, COUNTER, DOWN, EVERYTHING, LOOPS, NOTHING, SOME, explicit, literal, next_number
from search import Search

SMALL, SYSTEMS = 5120, 5440


def numbers(x):
    while True:
        x = next_number(x)
        yield x


def short_clauses(density, n, later, x):
    """The pairs, or states, of which clauses of two or three literals are true."""
    made = []
    for _, r in zip(range(density), numbers(x)):
        made.append([literal(n, later, r >> 8 * k & 255) for k in range(2 + (r >> 24 & 1))])
    low = range(2**n)

    def wanted(places):
        ones = zeros = 0
        for p, v in places:
            if v:
                ones |= 1 << p
            else:
                zeros |= 1 << p
        return ones, zeros

    # for each state the clauses that are left to the state one step later
    pairs = [(wanted([l for l in c if l[0] < 32]), wanted([(p - 32, v) for p, v in c if p >= 32])) for c in made]
    right = [sum(1 << k for k, (_, (a, b)) in enumerate(pairs) if a & t or b & ~t) for t in low]
    every = (1 << len(pairs)) - 1
    for s in low:
        need = every & ~sum(1 << k for k, ((a, b), _) in enumerate(pairs) if a & s or b & ~s)
        for t in low if later else (0,):
            if need & ~right[t] == 0:
                yield s, t


def true_of(kind, density, n, later, x):
    """The pairs of a state and the next, or of a state and 0, of which a list is true."""
    if kind == NOTHING:
        return set()
    if kind == CLAUSES:
        return set(short_clauses(density, n, later, x))
    if kind == COUNTER:
        return {(s, (s + 1) % 2**n) for s in range(2**n - density % 2)}
    found = set()
    for j, r in zip(range(4**n if later else 2**n), numbers(x)):
        s, t, true = explicit(kind, density, n, j, r)
        if true:
            found.add((s, t))
    return found


def closest(first, edges):
    """Breadth first, the distance of each state that is reached."""
    dist, todo = {s: 0 for s in first}, list(first)
    for s in todo:
        for t in edges[s]:
            if t not in dist:
                dist[t] = dist[s] + 1
                todo.append(t)
    return dist


def bits_of(i):
    large = i >= SMALL
    small_bits, large_bits = ((1, 9), (2, 9), (2, 9)) + ((3, 8),) * 4 + ((3, 7),) + ((4, 7),) * 5 + ((5, 7),) * 2 + ((6, 7),), None
    n = small_bits[i % 16][large]
    return 10 if large and i % 64 == 15 else n


def step_kind(n, i):
    kind = [CLAUSES] * 16
    for k, slots in {SOME: (0, 8, 15), CHAIN: (2, 10), LOOPS: (3, 11), DOWN: (4, 12), COUNTER: (5,), NOTHING: (6,), EVERYTHING: (14,)}.items():
        for slot in slots:
            kind[slot] = k
    kind = kind[i // 16 % 16]
    if n < 5 or n == 5 and i // 256 % 8 == 0 or n == 6 and i // 16 % 128 in (0, 4):
        return kind
    if kind in (NOTHING, EVERYTHING) and n < 9:
        return kind
    return COUNTER if kind in (CHAIN, COUNTER) and n < 8 else CLAUSES


def density(kind, n, steps, bits):
    if kind == CLAUSES:
        return n + bits % 16
    return bits % 4 + (2 if steps in (CHAIN, LOOPS, COUNTER) else 3)


def states_in(n, steps, shape, seed):
    kind = {0: NOTHING, 1: EVERYTHING if n < 9 else CLAUSES, 2: CLAUSES, 3: CLAUSES, 4: CLAUSES}.get(shape % 16, SOME)
    return sorted(s for s, _ in true_of(kind, density(kind, n, steps, shape >> 4), n, False, seed))


def digest(seed, states):
    for s in states:
        seed = next_number(seed ^ s)
    return seed


def main():
    names = [f"systems of {k} bit{'s' * (k > 1)}" for k in range(1, 11)]
    kinds = ["no steps", "all steps", "some steps", "steps by short clauses"]
    kinds += ["steps to the next", "to the next and itself", "steps down", "a counter's steps"]
    names += kinds + ["no start state", "no bad state", "all states bad", "bad states not reached", "states without a next"]
    names += ["safe", "unsafe", "states excluded", "states in paths", "sum of m", "sum of questions", "sum with full rounds", "fewer than with those", "sum of rooms used", "longest path"]
    names += ["calls", "room m sufficed", "calls that gave 5", "calls that gave 6", "calls that gave 14", "digest of all calls"]
    counts = dict.fromkeys(names, 0)
    x, d, given = 0x9E3779B97F4A7C15, 0, b""
    for i in range(SYSTEMS):
        x = next_number(x)
        n = bits_of(i)
        kind = step_kind(n, i)
        start = states_in(n, kind, x >> 32, x ^ 0xC2B2AE3D27D4EB4F)
        steps = true_of(kind, density(kind, n, kind, x >> 24), n, True, x ^ 0x165667B19E3779F9)
        bad = states_in(n, kind, x >> 40, x ^ 0xFF51AFD7ED558CCD)
        on, before = [[] for _ in range(2**n)], [[] for _ in range(2**n)]
        for s, t in sorted(steps):
            on[s].append(t)
            before[t].append(s)
        starts = set(start)
        doom, reached = closest(bad, before), closest(start, on)
        m = len(doom.keys() - starts)
        most = 3 * (m + 2) * (m + 2)
        hit = [reached[s] for s in bad if s in reached]

        def call(room, allowance):
            nonlocal d
            search = Search(starts, before, bad, room, allowance)
            number, said, evidence = search.run()
            d = next_number(d ^ digest(number | said << 4 | search.asked << 8, evidence))
            counts["calls"] += 1
            if number:
                counts[f"calls that gave {number}"] += 1
            return number, said, evidence, search.asked, len(search.level)

        number, said, evidence, asked, used = first = call(m, most)
        # the walk
        assert asked <= most and (number, said) == ((0, bool(hit)) if start else (14, 2))
        if not start:
            assert (evidence, asked, used) == ([], 1, 0)
        elif hit:
            assert len(evidence) == min(hit) + 1 and evidence[0] in starts and evidence[-1] in bad
            assert all(e in steps for e in zip(evidence, evidence[1:]))
        else:
            listed = set(evidence)
            assert not listed & starts and listed >= set(bad)
            assert all(s in listed for t in listed for s in before[t])
        # full rounds
        whole = Search(starts, before, bad, m, most, full=True)
        assert whole.run() == (number, said, evidence)
        assert asked <= whole.asked if said == 0 else asked == whole.asked
        given += whole.asked.to_bytes(4, "big")
        # the other calls
        assert call(m, asked) == first
        assert call(m, asked - 1)[:4] == (5, 2, [], asked - 1)
        low, high = 0, m
        while low < high:
            room = (low + high) // 2
            again = call(room, most)
            if room >= used:
                assert again == first
                high = room
            else:
                assert again[:3] == (6, 2, [])
                low = room + 1
        assert low == used
        for name, more in {
            names[n - 1]: 1,
            kinds[kind]: 1,
            "no start state": not start,
            "no bad state": not bad,
            "all states bad": len(bad) == 2**n,
            "bad states not reached": bool(bad) and not hit,
            "states without a next": not all(on),
            "unsafe" if hit else "safe": bool(start),
            "states in paths" if hit else "states excluded": len(evidence),
            "sum of m": m,
            "sum of questions": asked,
            "sum with full rounds": whole.asked,
            "fewer than with those": asked < whole.asked,
            "sum of rooms used": used,
            "room m sufficed": bool(start),
        }.items():
            counts[name] += more
        if hit:
            counts["longest path"] = max(counts["longest path"], len(evidence))
    counts["digest of all calls"] = d
    wrong = ["gave up with room m", "verdict differs", "path length differs", "too many questions", "not as with full rounds"]
    wrong += ["evidence check refuses", "walk refuses", "store not zero", "other answer", "number not 5 or 6"]
    folder = os.path.dirname(os.path.abspath(__file__))
    with open(os.path.join(folder, "stdin"), "wb") as file:
        file.write(given)
    with open(os.path.join(folder, "stdout"), "w") as file:
        for name, number in (counts | dict.fromkeys(wrong, 0)).items():
            file.write(f"{name:25}{number}\n")


main()
