"""The circuits of the newer edition, well-formed and damaged: each text as pieces, how often and what, the number of what it is given to, and the
lengths of the stores that it is imported into."""
import itertools
import random

from circuit_texts import (
    MOST,
    Builder,
    broken,
    circuit,
    exact_lengths,
    lengths,
    lent,
    relined,
    renumbered,
    shaken,
    some_gates,
    spoiled,
    text_of,
    well_formed,
)
from circuits import CLAUSES, LARGE, STORE, answer

ANSWERED, FIRST, NEWER = 1, 2, 3
LIMIT = 1 << 32
# every kind of line and start value, an output that does not count, and a variable that is not defined; the second has two lines of each part
SMALL = b"aag 5 1 2 1 1 1 1 0 0\n2\n4 9 4\n6 4 1\n6\n8\n3\n8 2 5\n"
PAIRS = b"aag 8 2 2 2 2 2 2\n2\n4\n6 11 6\n8 6 1\n10\n13\n12\n7\n3\n11\n10 2 9\n12 10 7\n"


def header(counts):
    return b" ".join([b"aag", *(b"%d" % x for x in counts)]) + b"\n"


def newer_text(m, inputs, latches, outputs, gates, bads=(), constraints=(), more=(0, 0), tail=None):
    """All literals, a latch with its start value if it has one. So many counts follow the first five: `tail`, or any number that tells the lines."""
    counts = [len(bads), len(constraints), *more]
    if tail is None:
        least = max([k + 1 for k, count in enumerate(counts) if count], default=0)
        tail = random.choice((least, random.randint(least, 4)))
    _, lines = text_of(m, inputs, latches, [*outputs, *bads, *constraints], gates).split(b"\n", 1)
    return header([m, len(inputs), len(latches), len(outputs), len(gates), *counts[:tail]]) + lines


# ---- well-formed circuits


class Newer(Builder):
    """Latches start anywhere, bad-state lines stand beside outputs that then do not count, and constraints exclude something."""

    def text(self, nexts, outputs):
        random.shuffle(self.gates)
        latches = [[l, x, *random.choice(([], [0], [1], [1], [l]))] for l, x in zip(self.latches, nexts)]
        bads = []
        if random.random() < 0.6:
            bads, outputs = outputs, [self.any() for _ in range(random.choice((0, 0, 1, 3)))]
        return newer_text(self.m, self.inputs, latches, outputs, self.gates, bads, self.constraints())

    def constraints(self):
        """None, or over inputs, latches or anything; some exclude all or nothing."""
        outs = [g[0] for g in self.gates] or self.latches
        l = self.any(outs)
        one, other = self.any(self.inputs or outs), self.any(self.latches)
        return random.choice(([], [one], [other], [l], [l], [l | 1, other], [l, one, other]) * 4 + ([0], [1], [1, l], [l, l ^ 1]))


def tiny():
    """A latch, an input and a gate of both: every next literal, start value, bad literal and constraint."""
    for k, (x, bad, constraint, start) in enumerate(itertools.product(range(8), range(8), [*range(8), None], ([], [1], [4]))):
        start = start or random.choice(([], [0]))
        gate = [6, 2 ^ random.randrange(2), 4 ^ random.randrange(2)]
        constraints = [] if constraint is None else [constraint]
        outputs, bads = ([bad], []) if k % 2 else (random.choice(([], [1], [0, 7])), [bad])
        yield newer_text(3, [2], [[4, x, *start]], outputs, [gate], bads, constraints)


def rings():
    """Two latches that count 0, 1, 2, 3, 0, with a gate for each state: every set of states excluded, from every start, to every bad state."""
    low, high = 2, 4
    at = [[6, 3, 5], [8, 2, 5], [10, 3, 4], [12, 2, 4]]
    for excluded, a, b, bad in itertools.product(range(16), range(3), range(3), range(4)):
        starts = [([], [1], [low])[a], ([], [1], [high])[b]]
        constraints = [gate[0] + 1 for k, gate in enumerate(at) if excluded >> k & 1]
        latches = [[low, 3, *starts[0]], [high, 15, *starts[1]]]
        gates = random.sample([*at, [14, 9, 11]], 5)
        outputs, bads = random.choice((([at[bad][0]], []), ([], [at[bad][0]]), ([1], [at[bad][0]]), ([at[bad ^ 1][0]], [0, at[bad][0]])))
        yield newer_text(7, [], latches, outputs, gates, bads, random.sample(constraints, len(constraints)))


def sensors():
    """The same with two inputs: it goes on while the first is 1. Constraints over the inputs alone, and over inputs and state."""
    # 2 and 4 are inputs, 6 and 8 latches; 10 to 16 the states, 18 the carry, 22 and 28 the next values
    gates = [[10, 7, 9], [12, 6, 9], [14, 7, 8], [16, 6, 8], [18, 6, 2], [20, 7, 3], [22, 19, 21], [24, 8, 18], [26, 9, 19], [28, 25, 27], [30, 2, 4]]
    inputs = [[3], [2], [31], [2, 4], [3, 2], [30, 5], [0], [1]]
    both = [[31, 17], [19], [25], [21], [17, 2], [18], [33], [33, 2], [32]]
    for constraints in inputs + both:
        for bad, start in itertools.product((10, 12, 14, 16, 30, 31, 4), ([], [1], [6])):
            # the last gate excludes the second input at state 2
            rows = random.sample([*gates, [32, 4, 14]], 12)
            yield newer_text(16, [2, 4], [[6, 22, *start], [8, 28]], [9], rows, [bad], constraints)


def tails():
    """Every number of further counts, with and without lines of each kind; justice and fairness counts, also where the text is broken behind."""
    for b, c, first in itertools.product(range(3), range(3), ([], [0], [1], [4])):
        parts = 3, [2], [[4, 6, *first]], [4], [[6, 2, 5]], [6, 3][:b], [3, 5][:c]
        least = 2 if c else 1 if b else 0
        for tail in range(least, 5):
            yield newer_text(*parts, tail=tail)
            yield newer_text(*parts[:3], [], *parts[4:], tail=tail)
    values = 0, 1, LIMIT - 1, LIMIT, 1 << 64
    for b, c, j, f in itertools.product((0, 1, LIMIT - 1, LIMIT), (0, 1, LIMIT), values, values):
        if j or f or b > 1 or c > 1:
            yield b"aag 3 1 1 1 1 %d %d %d %d\n" % (b, c, j, f) + b"2\n4 6\n4\n6\n3\n6 2 5\n"[: random.choice((0, 1, 9, 12, 99, 99))]
    for j in 1, 2, LIMIT - 1, LIMIT:
        yield b"aag 3 1 1 1 1 0 0 %d\n" % j + b"2\n4 6\n4\n6 2 5\n"
        yield b"aag 3 1 1 1 1 0 0 %d 0 0\n" % j + b"2\n4 6\n4\n6 2 5\n"
    # a justice property and a fairness constraint, as they are written
    yield b"aag 3 1 1 1 1 1 0 1 1\n2\n4 6\n4\n6\n2\n4\n6\n3\n6 2 5\n"


def headers():
    """None to ten counts, each of them changed, and parts that promise more lines than there are."""
    rest = SMALL[SMALL.index(b"\n") + 1 :]
    counts = [5, 1, 2, 1, 1, 1, 1, 0, 0]
    for k in range(11):
        for line in [5, 1, 2, 1, 1, 1, 1, 0, 0, 0, 0][:k], [3, 1, 1, 1, 1, 0, 0, 0, 0, 0, 0][:k], [1, 0, 1, 0, 0, 1, 0, 0, 0, 0, 0][:k]:
            head = header(line)
            for end in b"\n", b" \n", b"\r\n", b" -\n", b"":
                yield head[:-1] + end + rest
            yield head + b"2\n4 7\n4\n6 2 5\n"
            yield head + b"2 3\n3\n"
    for k, many in itertools.product(range(9), (0, 1, 2, 3, 65535, 65536, 4000000000, LIMIT - 1, LIMIT)):
        line = counts[:k] + [many] + counts[k + 1 :]
        for tail in 9, 8, 7:
            yield header(line[:tail]) + rest
        yield header(line)
    # the parts behind a count that was left out or moved are other lines then
    for order in itertools.permutations([1, 1, 0]):
        yield b"aag 5 1 2 1 1 %d %d %d\n" % order + rest
        yield b"aag 5 1 2 %d %d %d\n" % order + rest


# ---- damaged texts


def start_values():
    """28 and what is just allowed: start values of both latches, also those that are no literal, with an M that is exact, larger and largest."""
    most = LIMIT - 1
    values = ["", *map(str, range(15)), str(most), str(LIMIT), "00", "01", "06", "-1", "4 ", "x"]
    for a, b in itertools.product(values, ["", "0", "1", "4", "6", "7", "12", "13", "14", str(most), str(LIMIT)]):
        # input 2, latches 4 and 6, gate 8
        yield f"aag 6 1 2 1 1\n2\n4 7 {a}\n6 8 {b}\n6\n8 2 5\n".replace(" \n", "\n").encode()
    for m, latch in (LIMIT - 1, LIMIT - 2), ((1 << 31) - 1, LIMIT - 2), (1 << 31, LIMIT - 2), (1 << 31, 2), ((1 << 31) - 2, LIMIT - 4):
        for value in sorted({0, 1, 2, 3, *range(latch - 2, latch + 3), *range(LIMIT - 2, LIMIT + 3), latch + LIMIT, 1 << 64}):
            yield b"aag %d 0 1 1 0\n%d %d %d\n%d\n" % (m, latch, latch + 1, value, latch)
    # of several lines the first is named; only the last latch of many is wrong
    for wrong in range(1, 8):
        rows = [[x, x, 1 if wrong >> k & 1 == 0 else (3, 2, 99)[k]] for k, x in enumerate((6, 8, 10))]
        for inputs in [2, 4], [2], []:
            yield newer_text(9, inputs, rows, [6], [])
    m, inputs, latches, outputs, gates = circuit(32, 3, 1)
    for k, value in itertools.product((0, 30, 31), (2, 77, 1000)):
        yield newer_text(m, inputs, [row + [value] * (j == k) for j, row in enumerate(latches)], outputs, gates)


def sizes():
    """21, 22, 23 and 26 with lines that do not count for them, and what is just allowed."""
    for counts in (0, 0, 0), (1, 0, 0), (32, 1, 1), (33, 1, 1), (1, 64, 0), (1, 65, 0), (1, 1, 63), (1, 1, 64), (32, 32, 32), (2, 1, 2):
        m, inputs, latches, outputs, gates = circuit(*counts)
        latches = [row + random.choice(([], [0], [1], row[:1])) for row in latches]
        last = outputs[0]
        for outs, bads, constraints in itertools.product(([], [last]), ([], [0], [1, last]), ([], [1], [0, last, 3])):
            yield newer_text(m, inputs, latches, outs, gates, bads, constraints)
        yield newer_text(max(m - 1, 0), inputs, latches, [], gates, [last], [1] * 9)
        # the largest literal of each further part
        for x in range(2 * m, 2 * m + 4):
            yield newer_text(m, inputs, latches, outputs, gates, [x], [1])
            yield newer_text(m, inputs, latches, outputs, gates, [1], [1, x])
            yield newer_text(m, inputs, latches, [x], gates, [1], [1])


def uses():
    """24: each place that uses a variable which is not defined, idle outputs too; start values are no uses."""

    def plain():
        # 14, 16 and 18 are not defined
        return [9, [2, 4], [[6, 10, 6], [8, 13, 1]], [12, 7], [[10, 2, 9], [12, 10, 4]], [10, 3], [7, 13]]

    for part, k, j in itertools.chain(itertools.product((3, 5, 6), (0, 1), [None]), itertools.product((2, 4), (0, 1), (1, 2))):
        for x in 0, 1, 2, 3, 6, 8, 14, 15, 18, 19, 20:
            parts = plain()
            if j is None:
                parts[part][k] = x
            else:
                parts[part][k][j] = x
            yield newer_text(*parts)
    # two lines that define the same variable, where start values differ or are those of the other
    for first, second in itertools.product(([], [1], [6], [8]), repeat=2):
        yield newer_text(9, [2, 4], [[6, 6, *first], [6, 6, *second]], [6], [], [2])
        yield newer_text(9, [2, 4], [[6, 8, *first], [8, 6, *second]], [6], [[8, 2, 4]], [2])


def circles():
    """25 wherever the circle is used, and if it is not."""
    for x, y in itertools.product((6, 7, 8, 9, 2, 4), (6, 8, 9, 5)):
        for parts in ([y], [], []), ([2], [y], [3]), ([2], [3], [y]), ([2], [3], [2]):
            yield newer_text(5, [2], [[4, 2, 4]], parts[0], [[6, x, 3], [8, 6, 5]], *parts[1:])


RULES = 20, 27, 21, 28, 22, 23, 24, 25, 26, 32, 2


def breaks(rules, many):
    """The pieces of a text that breaks all these rules; of 27 by either count, of 28 by a literal or a number above 2M + 1."""
    m, inputs, latches, outputs, gates = broken(rules, many)
    if 28 in rules and latches:
        latches[-1].append(2 * m + 2 if many else 3)
    outputs, bads = ([], outputs) if many else (outputs, [])
    more = ((0, 1) if many else (1, 0)) if 27 in rules else (0, 0)
    text = newer_text(m, inputs, latches, outputs, gates, bads, [1, 1], more)
    if 20 in rules:
        text = text[:-1]
    if 2 not in rules:
        return [(1, text)]
    # the two constraints become many
    lines = text.split(b"\n")
    at = 1 + len(inputs) + len(latches) + len(outputs) + len(bads)
    head = lines[0].split()
    head[7] = b"%d" % CLAUSES
    return [(1, b"\n".join([b" ".join(head), *lines[1:at], b""])), (CLAUSES, b"1\n"), (1, b"\n".join(lines[at + 2 :]))]


def orders():
    """Each two rules broken in one text, and many at once: the earlier is given."""
    for pair in itertools.combinations(RULES, 2):
        for many in False, True:
            # without a latch there is no start value
            if {22, 28} <= {*pair} and not many:
                continue
            whole = LARGE if 2 in pair else STORE
            for short in range(3) if 32 in pair else [None]:
                yield breaks(pair, many), [0 if k == short else whole for k in range(3)]
    for k in range(len(RULES)):
        for many in False, True:
            yield breaks(RULES[k:], many), [0, 0, 0]
            yield breaks([x for x in RULES[k:] if x != 32], many), [LARGE] * 3
            yield breaks(RULES[k : k + 1], many), [3, 3, 3] if RULES[k] == 32 else [LARGE if RULES[k] == 2 else STORE] * 3


def many_clauses():
    """2 and 32 at their edges: lists of 4,096 clauses, one more, and many more."""
    for counts in (1, 0, 0), (2, 1, 1), (32, 30, 34):
        m, inputs, latches, outputs, gates = circuit(*counts)
        latches = [row + random.choice(([], [0], [1], row[:1])) for row in latches]
        either = sum(row[2:] == row[:1] for row in latches)
        last = outputs[0]
        fewest = 2 * counts[0] + 3 * counts[2]
        for count, piece in itertools.product([CLAUSES - fewest + x for x in (0, 1, 2, 100)], (b"1\n", b"%d\n" % last)):
            _, *lines = newer_text(m, inputs, latches, outputs, gates, [last], [1], tail=2).split(b"\n")
            at = len(inputs) + len(latches) + 2
            head = header([m, len(inputs), len(latches), 1, len(gates), 1, count])
            pieces = [(1, head + b"\n".join([*lines[:at], b""])), (count, piece), (1, b"\n".join(lines[at + 1 :]))]
            exact = [4 * (counts[0] - either), 4 * (fewest + count), 4 * (1 + 3 * counts[2] + count)]
            # of the largest the answer is not known, if there is one
            if counts[0] < 32 or count + fewest > CLAUSES:
                yield pieces, ANSWERED, ()
            for change in (0, 0, 0), (0, -1, 0), (0, 0, -1), (-1, 0, 0), (1, 2, 3):
                yield pieces, NEWER, [max(0, x + y) for x, y in zip(exact, change)]
            yield pieces, NEWER, [LARGE] * 3
            yield pieces, NEWER, [exact[0], 4 * CLAUSES, 4 * CLAUSES]


def long_texts():
    """Many bad-state lines and constraints, of which each matters, and one too few or wrong: 10 is not defined, and 12 above 2M + 1."""
    head, latches, gate = b"aag 5 1 2 %d 1 %d %d\n2\n", b"4 8 4\n6 4\n", b"8 2 5\n"
    for count in 3000, 30000:
        for piece, other in (b"0\n", b"8\n"), (b"6\n", b"0\n"), (b"0\n", b"10\n"), (b"0\n", b"12\n"):
            yield [(1, head % (1, count, 0) + latches + b"3\n"), (count - 1, piece), (1, other + gate)]
            yield [(1, head % (count, 1, 0) + latches), (count - 1, piece), (1, other + b"6\n" + gate)]
            yield [(1, head % (1, count + 1, 0) + latches + b"3\n"), (count - 1, piece), (1, other + gate)]
    for count in 3000, 4089:
        for piece, other in (b"1\n", b"8\n"), (b"3\n", b"9\n"), (b"1\n", b"0\n"), (b"1\n", b"10\n"), (b"9\n", b"12\n"):
            yield [(1, head % (1, 1, count) + latches + b"3\n6\n"), (count - 1, piece), (1, other + gate)]
            yield [(1, head % (0, 1, count) + latches + b"6\n"), (1, other), (count - 1, piece), (1, gate)]
            yield [(1, head % (0, 1, count + 1) + latches + b"6\n"), (1, other), (count - 1, piece), (1, gate)]


def texts():
    random.seed(7)
    for k, text in enumerate(well_formed(1800, Newer)):
        yield [(1, text)], *((NEWER, lent()) if k % 3 == 0 else (ANSWERED, ()))
        if k % 12 == 0:
            yield [(1, text)], FIRST, MOST
    for text in itertools.chain(tiny(), rings(), sensors()):
        yield [(1, text)], ANSWERED, ()
    # the largest circuits, with a start state that is bad or no bad state
    for inputs in 0, 0, 1, 1, 2, 2, 3, 4, 5:
        text = some_gates(32, inputs, 64 - inputs, Newer)
        while not answer(text):
            text = some_gates(32, inputs, 64 - inputs, Newer)
        yield [(1, text)], ANSWERED, ()
    shakes = (shaken(text) for text in well_formed(500, Newer))
    several = spoiled(SMALL), renumbered(SMALL, PAIRS), relined(SMALL, PAIRS), tails(), headers(), start_values(), sizes(), uses(), circles(), shakes
    for k, text in enumerate(dict.fromkeys(itertools.chain(*several))):
        yield [(1, text)], *((NEWER, lent()) if k % 3 == 0 or not answer(text) else (ANSWERED, ()))
        if k % 9 == 0:
            yield [(1, text)], FIRST, MOST
    for pieces, stores in orders():
        yield pieces, NEWER, stores
        yield pieces, ANSWERED, ()
    plain = newer_text(3, [], [[2, 2, 2], [4, 4, 1], [6, 6]], [6], [])
    held = newer_text(*circuit(5, 2, 7), [2, 4], [3, 1, 0, 6])
    either = newer_text(4, [2], [[4, 4, 4], [6, 6, 6], [8, 8, 8]], [], [], [4], [5])
    for text, stores in lengths([SMALL, PAIRS, plain, held, either], Newer):
        yield [(1, text)], NEWER, stores
    yield from many_clauses()
    for pieces in long_texts():
        yield pieces, ANSWERED, ()
        yield pieces, NEWER, [MOST[0], LARGE, LARGE]
