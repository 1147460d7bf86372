"""AIGER, ASCII, both editions, read and answered by itself; it shares nothing with the crates.

A text is read line by line. The answer, which is that of the newer edition, comes from the values of all gates under all states and inputs at once,
and the search as the scope tells it: no clause plays a part in it. The clauses are those that an import has to write.
"""
import collections
import functools
import graphlib
import re

from frames import refused, searched

LIMIT = 1 << 32
# The most latches and inputs under all of whose values a circuit is looked at.
BITS = 12
# The header and a latch, in the first edition and in the newer one, where up to four counts and a start value may follow.
HEADERS = rb"aag (\d+) (\d+) (\d+) (\d+) (\d+)\n", rb"aag (\d+) (\d+) (\d+) (\d+) (\d+)(?: (\d+)(?: (\d+)(?: (\d+)(?: (\d+))?)?)?)?\n"
LATCHES = rb"(\d+) (\d+)\n", rb"(\d+) (\d+)(?: (\d+))?\n"
ONE, THREE = rb"(\d+)\n", rb"(\d+) (\d+) (\d+)\n"
# The most clauses of a list.
CLAUSES = 4096
# The whole stores of a trial, of which the front is lent, and what stands in them before. They are large if more is lent than the small ones have.
STORE, LARGE = 1100, 17000
FILL = 0xA5C3000000000000
PRIMES = 2147483629, 2147483587


class Refused(Exception):
    """A refusal, its number and its line."""


# Inputs are variables, a latch is a variable, a literal and the start value, outputs, bad-state lines and constraints are literals, a gate is a
# variable and two literals.
Circuit = collections.namedtuple("Circuit", "m inputs latches outputs bads constraints gates")


# ---- what a text says


def value(digits):
    """The number, or the limit if it is longer."""
    digits = digits.lstrip(b"0")
    return int(digits or b"0") if len(digits) <= 10 else LIMIT


def read(text, newer):
    """The circuit of a text whose lines are of the right form."""
    lines, at = re.findall(rb"[^\n]*\n|[^\n]+", text), 0

    def take(form):
        nonlocal at
        at += 1
        found = re.fullmatch(form, lines[at - 1]) if at <= len(lines) else None
        numbers = [value(x) for x in found.groups(b"0")] if found else [LIMIT]
        if max(numbers) >= LIMIT:
            raise Refused(20, at)
        return numbers

    def part(count, form, defines):
        rows = []
        while len(rows) < count:
            row = take(form)
            # where a latch starts is no literal: it may be above 2M + 1
            if max(row[:2] if form in LATCHES else row) > 2 * m + 1 or defines and (row[0] == 0 or row[0] % 2):
                raise Refused(20, at)
            rows.append([row[0] // 2 if defines else row[0], *row[1:]])
        return rows

    def literals(count, defines=False):
        return [row[0] for row in part(count, ONE, defines)]

    m, i, l, o, a, *more = take(HEADERS[newer])
    b, c, j, f = more or [0] * 4
    if j or f:
        raise Refused(27, 1)
    inputs, latches = literals(i, True), part(l, LATCHES[newer], True)
    latches = [(row + [0])[:3] for row in latches]
    return Circuit(m, inputs, latches, literals(o), literals(b), literals(c), part(a, THREE, True))


def in_order(c):
    """The gates, each behind those that it depends on; None if one depends on itself."""
    gates = {out: (left, right) for out, left, right in c.gates}
    needs = {out: {l // 2 for l in pair if l // 2 in gates} for out, pair in gates.items()}
    try:
        return [(out, *gates[out]) for out in graphlib.TopologicalSorter(needs).static_order()]
    except graphlib.CycleError:
        return None


def test(c):
    """The refusals behind the form, in their order."""
    variables = c.inputs + [v for v, _, _ in c.latches] + [out for out, _, _ in c.gates]
    defined = {0, *variables}
    used = [l for _, l, _ in c.latches] + [l for _, *pair in c.gates for l in pair] + c.outputs + c.bads + c.constraints
    if c.m < len(variables):
        raise Refused(21, 1)
    for k, (v, _, start) in enumerate(c.latches):
        if start not in (0, 1, 2 * v):
            raise Refused(28, 2 + len(c.inputs) + k)
    if not 1 <= len(c.latches) <= 32:
        raise Refused(22, 1)
    if len(c.inputs) + len(c.gates) > 64:
        raise Refused(23, 1)
    if len(defined) <= len(variables) or any(l // 2 not in defined for l in used):
        raise Refused(24, 0)
    if in_order(c) is None:
        raise Refused(25, 0)
    if not c.outputs and not c.bads:
        raise Refused(26, 1)


# ---- what it means


def vectors(c, sources):
    """Each variable's values, a bit for each choice of the sources' values, the first one's changing fastest, other latches as they start; and all
    ones."""
    ones = (1 << (1 << len(sources))) - 1
    values = {0: 0} | {v: ones if start == 1 else 0 for v, _, start in c.latches}
    for k, v in enumerate(sources):
        values[v] = ones // ((1 << (1 << k)) + 1) << (1 << k)
    for out, left, right in in_order(c):
        values[out] = literal(values, ones, left) & literal(values, ones, right)
    return values, ones


def literal(values, ones, l):
    return values[l // 2] ^ (ones if l % 2 else 0)


def held_and_bad(c, values, ones):
    """Where all constraints hold, and where besides a bad-state line, or without such lines an output, is 1."""
    held, bad = ones, 0
    for l in c.constraints:
        held &= literal(values, ones, l)
    for l in c.bads or c.outputs:
        bad |= literal(values, ones, l)
    return held, held & bad


def walk(c):
    """The start states; by state, the states that step to it; and the bad states, in order."""
    values, ones = vectors(c, [v for v, _, _ in c.latches] + c.inputs)
    n, points = len(c.latches), ones.bit_length()
    # each vector as digits, the first point first
    columns = [*held_and_bad(c, values, ones), *(literal(values, ones, l) for _, l, _ in c.latches[::-1])]
    columns = [f"{column:0{points}b}"[::-1] for column in columns]
    after = [set() for _ in range(1 << n)]
    bads = set()
    for point, (is_held, is_bad, *digits) in enumerate(zip(*columns)):
        state = point % (1 << n)
        if is_held == "1":
            after[state].add("".join(digits))
        if is_bad == "1":
            bads.add(state)
    before = collections.defaultdict(list)
    for state, nexts in enumerate(after):
        for t in nexts:
            before[int(t, 2)].append(state)
    fixed = [(k, start) for k, (v, _, start) in enumerate(c.latches) if start != 2 * v]
    return {s for s in range(1 << n) if all(s >> k & 1 == start for k, start in fixed)}, before, sorted(bads)


def walked(c):
    """The same, as far as a search looks at it: of a large circuit only if no state is bad, or a start state is. Else None."""
    if len(c.latches) + len(c.inputs) <= BITS:
        return walk(c)
    least = sum(1 << k for k, (_, _, start) in enumerate(c.latches) if start == 1)
    if not any(c.bads or c.outputs) or 0 in c.constraints:
        return {least}, {}, []
    either = [(k, v) for k, (v, _, start) in enumerate(c.latches) if start == 2 * v]
    if len(either) + len(c.inputs) <= BITS:
        bad = held_and_bad(c, *vectors(c, [v for _, v in either] + c.inputs))[1]
        points = [point for point in range(bad.bit_length()) if bad >> point & 1]
        if points:
            state = min(least + sum((point >> j & 1) << k for j, (k, _) in enumerate(either)) for point in points)
            return {state}, {}, [state]
    return None


def answer(text):
    """The answer of scan_circuit to a text that it reads whole; None if the circuit is too large."""
    try:
        c = read(text, True)
        test(c)
        if 2 * len(c.latches) + 3 * len(c.gates) + len(c.constraints) > CLAUSES:
            raise Refused(32, 0)
    except Refused as r:
        return refused(*r.args)
    found = walked(c)
    return found and searched(*found)


# ---- what an import writes


def masks(c):
    """The three lists. A clause is four masks: wanted 1 and wanted 0 of the state and the later state, then of the wires."""
    wires = c.inputs + [out for out, _, _ in c.gates]
    place = {v: (2, k) for k, v in enumerate(wires)} | {v: (0, k) for k, (v, _, _) in enumerate(c.latches)}

    def clause(*literals, later=None):
        four = [0] * 4
        if later:
            latch, wanted = later
            four[1 - wanted] |= 1 << (32 + latch)
        for l in literals:
            if l == 1:
                # always true: a bit that is 1 or 0
                four[0] |= 1
                four[1] |= 1
            elif l:
                which, bit = place[l // 2]
                four[which + l % 2] |= 1 << bit
        return four

    start = [clause(2 * v + 1 - start) for v, _, start in c.latches if start != 2 * v]
    step = [clause(l ^ wanted, later=(k, wanted)) for k, (_, l, _) in enumerate(c.latches) for wanted in (1, 0)]
    gates = [x for out, l, r in c.gates for x in (clause(2 * out + 1, l), clause(2 * out + 1, r), clause(2 * out, l ^ 1, r ^ 1))]
    both = gates + [clause(l) for l in c.constraints]
    lists = start, step + both, [clause(*(c.bads or c.outputs))] + both
    return [[mask for four in clauses for mask in four] for clauses in lists]


@functools.lru_cache(maxsize=8)
def sums(store):
    """Two numbers that tell a content."""
    totals = []
    for prime in PRIMES:
        total = 0
        for x in store:
            total = (total * 65599 + x) % prime
        totals.append(total)
    return totals


def imported(text, lengths, newer):
    """The line of an import into stores of these lengths: number, line, n, w, the counts of masks, and what tells the contents of the stores."""
    whole = range(FILL, FILL + (STORE if max(lengths) <= STORE else LARGE))
    stores = [tuple(whole)] * 3
    try:
        c = read(text, newer)
        test(c)
        lists = masks(c)
        if any(length < len(x) for length, x in zip(lengths, lists)):
            raise Refused(32, 0)
        if len(lists[1]) > 4 * CLAUSES:
            raise Refused(2, 0)
        said = [0, 0, len(c.latches), len(c.inputs) + len(c.gates), *map(len, lists)]
        stores = [(*x, *[0] * (length - len(x)), *whole[length:]) for x, length in zip(lists, lengths)]
    except Refused as r:
        said = [*r.args, 0, 0, 0, 0, 0]
    return " ".join(map(str, said + [x for store in stores for x in sums(store)])).encode() + b"\n"
