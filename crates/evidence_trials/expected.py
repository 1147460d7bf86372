#!/usr/bin/env python3
"""What the program must write: the same systems and damages, decided from the scope alone, with sets of states and of steps."""

import os
import sys

sys.dont_write_bytecode = True
sys.path.insert(0, os.path.join(os.path.dirname(os.path.abspath(__file__)), "../small_systems"))
from lists import CHAIN, CLAUSES, DOWN, EVERYTHING, LOOPS, NOTHING, SOME, explicit, literal, next_number

WAYS = "kept removed replaced added swapped reversed twice empty".split()
YES, NO, REFUSED = range(3)


def make(kind, density, n, later, r):
    """A list as clauses of literals."""
    if kind == NOTHING:
        return [[]]
    made = []
    for j in range(density if kind == CLAUSES else 4**n if later else 2**n):
        r = next_number(r)
        if kind == CLAUSES:
            made.append([literal(n, later, r >> 8 * k & 255) for k in range(2 + (r >> 24 & 1))])
            continue
        s, t, true = explicit(kind, density, n, j, r)
        if not true:
            word = s + (t << 32)
            made.append([(p, 1 - (word >> p & 1)) for b in range(n) for p in ((b, b + 32) if later else (b,))])
    return made


def holds(made, word):
    return all(any(word >> p & 1 == v for p, v in c) for c in made)


def closest(first, edges):
    """Breadth first, the distance of each state that is reached."""
    dist, todo = {s: 0 for s in first}, sorted(first)
    for s in todo:
        for t in edges.get(s, ()):
            if t not in dist:
                dist[t] = dist[s] + 1
                todo.append(t)
    return dist


def walk(doom, start, on, detours):
    """A path to a bad state that keeps away from it for so many steps and then is the shortest; the least state of several. None if there is none."""
    path, after = [], sorted(start)
    while after := [t for t in after if t in doom]:
        away = len(path) <= detours and detours > 0
        path.append(max(after, key=doom.get) if away else min(after, key=doom.get))
        if doom[path[-1]] == 0 and len(path) > detours:
            break
        after = on.get(path[-1], [])
    return path


def damages(xs, n):
    """Each damaged list, with its way."""
    numbers, places = range(2**n + 1), range(len(xs))
    yield 0, xs
    for j in places:
        yield 1, xs[:j] + xs[j + 1 :]
    for j in places:
        for x in numbers:
            if x != xs[j]:
                yield 2, xs[:j] + [x] + xs[j + 1 :]
    for j in range(len(xs) + 1):
        for x in numbers:
            yield 3, xs[:j] + [x] + xs[j:]
    for j in places[:-1]:
        yield 4, xs[:j] + [xs[j + 1], xs[j]] + xs[j + 2 :]
    yield 5, xs[::-1]
    for j in places:
        yield 6, xs[: j + 1] + xs[j:]
    yield 7, []


def excluding(start, steps, bad, xs):
    listed = set(xs)
    return not start & listed and bad <= listed and all(s in listed for s, t in steps if t in listed)


def leading(start, steps, bad, xs):
    return bool(xs) and xs[0] in start and all(e in steps for e in zip(xs, xs[1:])) and xs[-1] in bad


def refusals():
    """Calls with one list that is not empty: n, w, which list, its masks, the masks they are the first of, and the number of the first thing that is wrong."""
    later, top = 2**32, 2**63
    calls = [(n, w, 0, 0, (0, 0, 0, 0), number) for n, w, number in ((0, 0, 1), (33, 0, 1), (2, 64, 7), (2, 65, 1))]
    calls += [(2, 0, wrong, masks, (1, 0, 0, 0), 2) for wrong in range(3) for masks in (1, 2, 3)]
    for wrong, clause in (
        (0, (4, 0, 0, 0)),
        (1, (4, 0, 0, 0)),
        (1, (0, 4 * later, 0, 0)),
        (2, (0, 4, 0, 0)),
        (0, (later, 0, 0, 0)),
        (2, (later, 0, 0, 0)),
    ):
        calls.append((2, 0, wrong, 4, clause, 3))
    for wrong in range(3):
        for w, on, off in ((3, 4, 0), (3, 0, 4), (3, 8, 0), (3, 0, 8), (0, 0, 1), (64, top, 0), (63, top, 0)):
            declared = wrong > 0 and (on | off) < 2**w
            calls.append((2, w, wrong, 4, (0, 0, on, off), 7 if declared else 3))
    calls += [
        (0, 0, 1, 1, (1, 0, 0, 0), 1),
        (2, 65, 1, 3, (0, 0, 8, 0), 1),
        (2, 0, 0, 1, (4, 0, 0, 0), 2),
        (2, 3, 2, 3, (0, 0, 8, 0), 2),
        (2, 3, 1, 4, (2 * later, 0, 0, 0), 7),
    ]
    for n, w, wrong, masks, clause, number in calls:
        name = ("start", "step", "bad")[wrong]
        print(f"n {n}, w {w}, {name:5} with masks {masks} of {' '.join(map(str, clause))}: refused with {number} and {number}")


def main():
    x, digest, questions = 0x9E3779B97F4A7C15, 0, 0
    kinds = [0, 0]
    counts = [[[0] * 3 for _ in WAYS] for _ in range(3)]
    for i in range(128):
        x = next_number(x)
        n = i % 4 + 1
        few, many = (x >> 24) % 3 + 2, (x >> 28) % 4 + 2
        kind = lambda bits: {0: NOTHING, 1: EVERYTHING, 2: CLAUSES}.get(bits % 16, SOME)
        step_kind = (SOME, CLAUSES, CHAIN, LOOPS, DOWN, SOME, i // 32 % 2, SOME)[i // 4 % 8]
        lists = (
            make(kind(x >> 32), few, n, False, x ^ 0xC2B2AE3D27D4EB4F),
            make(step_kind, many * 4 if step_kind == CLAUSES else many, n, True, x ^ 0x165667B19E3779F9),
            make(kind(x >> 40), few, n, False, x ^ 0xFF51AFD7ED558CCD),
        )
        all_states = range(2**n)
        start = {s for s in all_states if holds(lists[0], s)}
        steps = {(s, t) for s in all_states for t in all_states if holds(lists[1], s + (t << 32))}
        bad = {s for s in all_states if holds(lists[2], s)}
        on, back = {}, {}
        for s, t in sorted(steps):
            on.setdefault(s, []).append(t)
            back.setdefault(t, []).append(s)
        dist, doom = closest(start, on), closest(bad, back)
        hit = any(s in dist for s in bad)
        if hit:
            evidence = [walk(doom, start, on, 0), walk(doom, start, on, 3)]
        else:
            evidence = [sorted(doom), [s for s in all_states if s not in dist]]
        for xs in evidence:
            kinds[hit] += 1
            for way, ys in damages(xs, n):
                for path, judge in enumerate((excluding, leading)):
                    if any(y >= 2**n for y in ys):
                        answer = REFUSED
                    else:
                        answer = YES if judge(start, steps, bad, ys) else NO
                    if answer == YES and not path:
                        questions += len(ys) + 1
                    counts[path if path == hit else 2][way][answer] += 1
                    digest = next_number(digest ^ answer)
    print(" " * 25 + "yes, no, refused with 7, refused otherwise")
    for name, lines in zip(("excluded states", "path", "the other check"), counts):
        for way, answers in zip(WAYS, lines):
            print(f"{name:16}{way:8}", *answers, 0)
    totals = {
        "safe evidence": kinds[0],
        "unsafe evidence": kinds[1],
        "questions of all yes": questions,
        "digest of all answers": digest,
        "answered otherwise": 0,
        "wrong question counts": 0,
    }
    for name, number in totals.items():
        print(f"{name:21}", number)
    refusals()


main()
