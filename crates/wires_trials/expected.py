#!/usr/bin/env python3
"""Writes what the program must write: `stdout` beside this file.

The same systems, decided from the scope alone. What a list is true of is a set of words, each a state, the next and a setting of the wires, as one long
number with a bit for each; what some setting makes true is what is left when the wires are taken away, one after the other.
"""

import os
import sys

sys.dont_write_bytecode = True
HERE = os.path.dirname(os.path.abspath(__file__))
sys.path.insert(0, os.path.join(HERE, "../small_systems"))
from lists import CLAUSES, COUNTER, GATES, SOME, explicit, literal, next_number
from search import Search

SYSTEMS, DAMAGES, TURNS, NONE = 4000, 6, 4, 2**64 - 1


def numbers(x):
    while True:
        x = next_number(x)
        yield x


def digest(seed, xs):
    for x in xs:
        seed = next_number(seed ^ x)
    return seed


def patterns(n, w):
    """For each position the words of 2n bits and w wires that have a 1 there: of the pair, or, from 64 on, of the wires."""
    made = {}
    for k in range(2 * n + w):
        half = 1 << k
        block = ((1 << half) - 1) << half
        words = 0
        for j in range(0, 2 ** (2 * n + w), 2 * half):
            words |= block << j
        made[k if k < n else 32 + k - n if k < 2 * n else 64 + k - 2 * n] = words
    return made


PATTERNS = {(n, w): patterns(n, w) for n in range(1, 6) for w in range(7)}


def gates(n, w, later, x):
    """A circuit as clauses of literals: a wire is free or the AND of two literals; then what each bit becomes, or what must be true."""
    made, random = [], numbers(x)
    for k in range(w):
        r = next(random)
        a, b = (literal(n, False, r >> s & 255, k) for s in (32, 40))
        if (r >> 48) % 4:
            made += [[(64 + k, 0), a], [(64 + k, 0), b], [(64 + k, 1), (a[0], 1 - a[1]), (b[0], 1 - b[1])]]
    for k in range(n if later else 1):
        p, v = literal(n, False, next(random) >> 32 & 255, w)
        made += [[(32 + k, 0), (p, v)], [(32 + k, 1), (p, 1 - v)]] if later else [[(p, v)]]
    return made


def true_of(kind, density, n, w, later, x):
    """The words, of a state, the next and the wires, of which a list is true."""
    all_words = (1 << 2 ** (2 * n + w)) - 1
    if kind in (CLAUSES, GATES):
        if kind == GATES:
            clauses = gates(n, w, later, x)
        else:
            clauses = [[literal(n, later, r >> 8 * k & 255, w) for k in range(2 + (r >> 24 & 1))] for _, r in zip(range(density), numbers(x))]
        words = all_words
        for clause in clauses:
            some = 0
            for p, v in clause:
                ones = PATTERNS[n, w][p]
                some |= ones if v else all_words ^ ones
            words &= some
        return words
    size = 2**n
    if kind == COUNTER:
        found = {(s, (s + 1) % size) for s in range(size - density % 2)}
    elif later:
        found = {(s, t) for s, t, true in (explicit(kind, density, n, j, r) for j, r in zip(range(4**n), numbers(x))) if true}
    else:
        start = [explicit(kind, density, n, j, r) for j, r in zip(range(size), numbers(x))]
        found = {(s, t) for s, _, true in start if true for t in range(size)}
    pairs = sum(1 << s + t * size for s, t in found)
    return sum(pairs << 4**n * x for x in range(2**w))


def by_some(n, w, words):
    """The pairs of a state and the next that some setting makes true."""
    for k in reversed(range(w)):
        half = 4**n << k
        words = words >> half | words & (1 << half) - 1
    return words


def pairs_of(n, words):
    return {(j % 2**n, j >> n) for j in range(4**n) if words >> j & 1}


def states_of(n, words):
    """The states of which a list is true with a later half of 0."""
    return [s for s in range(2**n) if words >> s & 1]


def density(kind, n, w, bits):
    return n + w + bits % 12 if kind == CLAUSES else bits % 4 + 2


def list_of(n, w, later, shape, seed):
    """The words, and the words with all wires 0."""
    kind = {0: CLAUSES if later and n > 3 else SOME, 1: COUNTER if later else SOME, 2: CLAUSES, 3: CLAUSES, 4: CLAUSES}.get(shape % 8, GATES)
    words = true_of(kind, density(kind, n, w, shape >> 3), n, w, later, seed)
    return by_some(n, w, words), words & (1 << 4**n) - 1


class System:
    """A system as sets: start states, steps and bad states, in order."""

    def __init__(self, n, start, steps, bad):
        self.n, self.start, self.steps, self.bad = n, start, steps, bad
        self.before = [[s for s in range(2**n) if (s, t) in steps] for t in range(2**n)]

    def excludes(self, xs):
        """Yes or no, and the questions that are asked."""
        listed = set(xs)
        if listed & set(self.start):
            return 1, 0
        if set(self.bad) - listed:
            return 1, 1
        for j, t in enumerate(xs):
            if not listed.issuperset(self.before[t]):
                return 1, j + 2
        return 0, len(xs) + 1

    def leads(self, xs):
        right = bool(xs) and xs[0] in self.start and all(e in self.steps for e in zip(xs, xs[1:])) and xs[-1] in self.bad
        return (0 if right else 1), 0

    def check(self, judge, xs):
        return (2, 7) if any(x >= 2**self.n for x in xs) else judge(xs)


NAMES = """systems
wires in step alone
wires in bad alone
wires in both
wires in neither
more wires declared
steps
steps that need a wire
bad states
bad that need a wire
searches safe
searches unsafe
searches that gave 5
searches that gave 6
searches that gave 14
states in evidence
sum of questions
digest of searches
searched otherwise
checks that said yes
checks that said no
checks refused with 7
digest of checks
checked otherwise
states listed into
lists refused with 30
states written
digest of lists
listed otherwise
questions with an answer
pairs true by a setting
digest of answers
answered otherwise""".split("\n")


class Trials:
    def __init__(self):
        self.counts = dict.fromkeys(NAMES, 0)

    def add(self, name, more=1):
        self.counts[name] += more

    def stir(self, name, number):
        self.counts[name] = next_number(self.counts[name] ^ number)

    def system(self, i, shape):
        n, turn = i % 5 + 1, i // 5 % 8
        in_step = (shape >> 8) % 6 + 1 if turn not in (0, 2) else 0
        in_bad = (shape >> 12) % 6 + 1 if turn > 1 else 0
        used = max(in_step, in_bad)
        shift = (shape >> 17) % 64 % (65 - used) if shape >> 16 & 1 else 0
        more = (shape >> 24) % 64 % (65 - used - shift) if shape >> 23 & 1 else 0
        self.add("systems")
        self.add("wires in both" if in_step and in_bad else "wires in step alone" if in_step else "wires in bad alone" if in_bad else "wires in neither")
        self.add("more wires declared", shift + more > 0)
        kind = CLAUSES if (shape >> 40) % 8 == 0 else SOME
        start = states_of(n, true_of(kind, density(kind, n, 0, shape >> 43), n, 0, False, shape ^ 0xC2B2AE3D27D4EB4F))
        steps, without = list_of(n, in_step, True, shape >> 32, shape ^ 0x165667B19E3779F9)
        bad, bad_without = list_of(n, in_bad, False, shape >> 36, shape ^ 0xFF51AFD7ED558CCD)
        system = System(n, start, pairs_of(n, steps), states_of(n, bad))
        self.add("steps", len(system.steps))
        self.add("steps that need a wire", len(system.steps) - len(pairs_of(n, without)))
        self.add("bad states", len(system.bad))
        self.add("bad that need a wire", len(system.bad) - len(states_of(n, bad_without)))
        self.search(system, 32, 100000, shape)
        self.search(system, (shape >> 44) % 4, 100000, shape >> 1)
        self.search(system, 32, (shape >> 46) % 16, shape >> 2)
        self.lists(system)
        for steps in (True, False):
            for _, r in zip(range(TURNS), numbers(shape if steps else shape >> 1)):
                self.question(system, steps, r)

    def search(self, system, room, allowance, seed):
        search = Search(set(system.start), system.before, system.bad, room, allowance)
        number, said, evidence = search.run()
        if number:
            self.add(f"searches that gave {number}")
        else:
            self.add(("searches safe", "searches unsafe")[said])
            assert system.check((system.excludes, system.leads)[said], evidence)[0] == 0
        self.add("states in evidence", len(evidence))
        self.add("sum of questions", search.asked)
        states, path = evidence if said == 0 else [], evidence if said == 1 else []
        stores = states + [0] * (room - len(states)) + path + [0] * (room + 2 - len(path))
        self.stir("digest of searches", digest(number | said << 8 | search.asked << 16, stores))
        if number:
            return
        self.checks(system, evidence)
        k = len(evidence)
        for _, r in zip(range(DAMAGES), numbers(seed)):
            made = evidence + [0]
            made[(r >> 8) % 64 % (k + 1)] = (r >> 16) % 64 % (2**system.n + 1)
            self.checks(system, made[: k + 1 - (r >> 24) % 3] if k else made)

    def checks(self, system, xs):
        for judge in (system.excludes, system.leads):
            answer, number = system.check(judge, xs)
            self.add(("checks that said yes", "checks that said no", "checks refused with 7")[answer])
            self.stir("digest of checks", answer | number << 2)

    def lists(self, system):
        for t, found in enumerate(system.before):
            room = 2 if t % 4 == 3 else 33
            if len(found) <= room:
                self.add("states listed into")
                self.add("states written", len(found))
                head, store = len(found) << 8 | len(found) + 1 << 16, found + [0] * (room - len(found))
            else:
                self.add("lists refused with 30")
                head, store = 30 | room + 1 << 16, [0] * room
            self.stir("digest of lists", digest(head, store))

    def question(self, system, steps, r):
        size = 2**system.n
        stored = [((x >> 8) % size, (x >> 20) % 5) for _, x in zip(range(16), numbers(r))]
        states = [s for s, _ in stored[: (r >> 48) % 17]]
        levels = [k for _, k in stored[: (r >> 52) % 17]]
        i, target = (r >> 4) % 4, (r >> 16) % size
        begin = (r >> 24) % size if r >> 8 & 1 else 0
        out = {s for j, s in enumerate(states) if j >= len(levels) or levels[j] >= i}
        fits = system.before[target] if steps else system.bad
        inside = (lambda s: s in system.start) if i == 0 else (lambda s: s not in out)
        answer = next((s for s in fits if s >= begin and inside(s)), NONE)
        true = (r >> 32) % size in fits
        for _ in range(4):
            self.add("questions with an answer", answer != NONE)
            self.stir("digest of answers", answer)
            self.add("pairs true by a setting", true)
            self.stir("digest of answers", int(true))


def refusals():
    top = 2**63
    for wrong in range(3):
        for w, masks, on, off in (
            (3, 1, 8, 0),
            (3, 2, 8, 0),
            (3, 3, 8, 0),
            (3, 4, 4, 0),
            (3, 4, 0, 4),
            (3, 4, 8, 0),
            (3, 4, 0, 8),
            (0, 4, 1, 0),
            (63, 4, 0, top),
            (64, 4, 0, top),
            (65, 4, 0, 0),
            (65, 3, 0, 0),
        ):
            declared = (on | off) < 2**w if wrong else on | off == 0
            number = 1 if w > 64 else 2 if masks % 4 else 3 if not declared else 0
            yield f"w {w}, list {wrong} with masks {masks} of 0 0 {on} {off}: {number} and {number or 29}\n"


def main():
    trials = Trials()
    for i, shape in zip(range(SYSTEMS), numbers(0x9E3779B97F4A7C15)):
        trials.system(i, shape)
    with open(os.path.join(HERE, "stdout"), "w") as file:
        file.writelines(f"{name:25}{number}\n" for name, number in trials.counts.items())
        file.writelines(refusals())


main()
