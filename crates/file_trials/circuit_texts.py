"""The circuits of the first edition, well-formed and damaged: each text as pieces, how often and what, and the lengths of the stores that it is
imported into, or None if it is answered. `newer_texts.py` makes those of the newer edition of what is here."""
import itertools
import random
import re

from circuits import STORE, answer, masks, read

MOST = 128, 1024, 772
SMALL = b"aag 3 1 1 1 1\n2\n4 7\n4\n6 2 5\n"
# two lines of each part, and two variables that are not defined
PAIRS = b"aag 8 2 2 2 2\n2\n4\n6 11\n8 6\n10\n13\n10 2 9\n12 10 7\n"
FEW = b"0 19/:a\n\r\t\xff"


def text_of(m, inputs, latches, outputs, gates):
    """All literals."""
    rows = [["aag", m, len(inputs), len(latches), len(outputs), len(gates)], *([x] for x in inputs), *latches, *([x] for x in outputs), *gates]
    return "".join(" ".join(map(str, row)) + "\n" for row in rows).encode()


def lines_of(text):
    return re.findall(rb"[^\n]*\n", text)


# ---- well-formed circuits


class Builder:
    """A circuit with random numbers for its variables, to which gates are added."""

    def __init__(self, latches, inputs, gates):
        count = latches + inputs + gates
        self.m = random.choice([count] * 20 + [count + random.randint(1, 9)] * 6 + [random.choice((1000, (1 << 31) - 1, (1 << 32) - 1))])
        # a literal is below 2^32
        self.literals = [2 * v for v in random.sample(range(1, min(self.m, (1 << 31) - 1) + 1), count)]
        self.latches, self.inputs = ([self.literals.pop() for _ in range(k)] for k in (latches, inputs))
        self.gates = []

    def any(self, *more):
        """A literal: a constant, a source or a gate, or one of these."""
        if random.random() < 0.06:
            return random.randrange(2)
        return random.choice(random.choice(more) if more else self.latches + self.inputs + [g[0] for g in self.gates]) ^ random.randrange(2)

    def gate(self, left, right):
        self.gates.append([self.literals.pop(), left, right])
        return self.gates[-1][0]

    def all(self, literals):
        """The "and" of these."""
        last = literals[0]
        for l in literals[1:]:
            last = self.gate(*random.sample((last, l), 2))
        return last

    def differ(self, a, b):
        return self.gate(self.gate(a, b) ^ 1, self.gate(a ^ 1, b ^ 1) ^ 1)

    def text(self, nexts, outputs):
        random.shuffle(self.gates)
        return text_of(self.m, self.inputs, [list(x) for x in zip(self.latches, nexts)], outputs, self.gates)


def some_gates(latches, inputs, gates, make=Builder):
    """Gates of anything."""
    b = make(latches, inputs, gates)
    for _ in range(gates):
        b.gate(b.any(), b.any())
    outs = [g[0] for g in b.gates] or b.latches
    return b.text([b.any(outs, b.latches, b.inputs or b.latches) for _ in b.latches], [b.any(outs) for _ in range(random.choice((1, 1, 1, 2, 3, 6)))])


def free_gates(make):
    gates = random.choice((0, 1, 2, 2, 2, 3, 3, 3, 3, 4, 4, 5, 6, 7, 12))
    return some_gates(random.choice((1, 2, 2, 2, 3, 3, 4, 6)), random.choice((0, 0, 1, 1, 1, 2, 3, 6)), gates, make)


def register(make):
    """Latches that take each other's values, one of them a gate's, and outputs that are 1 in few states."""
    n = random.choice((2, 2, 3, 3, 4, 5, 6))
    b = make(n, random.choice((0, 0, 1, 2)), n + 2)
    order = random.sample(b.latches, n) if random.random() < 0.3 else b.latches[1:] + b.latches[:1]
    nexts = [l ^ random.choice((0, 0, 0, 1)) for l in order]
    if b.inputs:
        k = random.randrange(n)
        nexts[k] = b.gate(nexts[k] ^ 1, b.any(b.inputs)) ^ 1
    output = b.all([l ^ random.randrange(2) for l in random.sample(b.latches, random.randint(2, n))])
    return b.text(nexts, [output, b.gate(b.any(), b.any())][: random.choice((1, 1, 2))])


def counter(make):
    """A counter of two or three bits that an input enables, with a literal or two changed; the output is one of its values."""
    n = random.choice((2, 2, 2, 2, 3))
    b = make(n, random.choice((1, 1, 2)), 5 * n - 1)
    carry, nexts = b.any(b.inputs) if random.random() < 0.8 else 1, []
    for l in b.latches:
        nexts.append(b.differ(l, carry))
        carry = b.gate(l, carry)
    output = b.all([l ^ random.randrange(2) for l in b.latches])
    for g in random.sample(b.gates, random.choice((0, 0, 1, 2))):
        g[random.choice((1, 2))] ^= 1
    return b.text(nexts, [output])


def behind():
    """What may stand behind the gates."""
    symbols = b"i0 enable\nl0 position\no0 past the last\n"
    ends = symbols + b"c\nno line feed", symbols, b"c\n", b"c", b"\n", b"\r\n", b" ", b"\0\xff", b"2 3 4\n", b"l0", b"aag 1 0 1 0 0\n2 2\n", b"9" * 11
    return random.choice(ends) if random.random() < 0.2 else b""


def padded(text):
    """The text with leading zeros here and there."""
    return re.sub(rb"\d+", lambda number: b"0" * random.choice((0, 0, 0, 0, 1, 2, 11)) + number[0], text)


def dull(said):
    """Whether a bad state is found at once, or no state has to be excluded for long."""
    return said[:2] == b"90" and said.count(b"\n") == 2 or said[:2] == b"80" and int(said[2:10], 16) < 5


def well_formed(count, make=Builder):
    while count:
        text = random.choice((free_gates,) * 5 + (register,) * 3 + (counter,))(make)
        if dull(answer(text)) and random.random() < 0.8:
            continue
        count -= 1
        if random.random() < 0.04:
            text = padded(text)
        yield text + behind()


# ---- damaged texts


def cut():
    """Texts cut off at every byte, also where parts are missing."""
    for text in b"aag 1 0 1 1 0\n2 3\n3\n", b"aag 1 0 1 0 0\n2 3\n", b"aag 1 1 0 0 0\n2\n", b"aag 0 0 0 1 0\n1\n", b"aag 0 0 0 0 0\n":
        for i in range(len(text)):
            yield text[: len(text) - i]


def spoiled(text=SMALL):
    """The text cut off at every byte, and each byte changed or left out, or another before it."""
    for i in range(len(text)):
        for b in FEW:
            yield text[:i] + bytes([b]) + text[i + 1 :]
        yield text[:i] + text[i + 1 :]
        yield text[:i]
        for b in b" \n\r0":
            yield text[:i] + bytes([b]) + text[i:]


def renumbered(small=SMALL, pairs=PAIRS):
    """Each number changed to others."""
    large = [(1 << 32) - 1, 1 << 32, (1 << 32) + 2, 1 << 33, 1 << 64, (1 << 64) + 2, 10**40, 4000000000]
    odd = ["00", "02", "0" * 20 + "4", "04294967296", "-2", "+2", "2.0", "0x2", "", "2 ", " 2"]
    for text, others in (small, [*range(10), *large, *odd]), (pairs, [*range(20), 4294967296, "08"]):
        for number in re.finditer(rb"\d+", text):
            for other in others:
                yield text[: number.start()] + str(other).encode() + text[number.end() :]


def relined(*texts):
    """Lines left out, doubled, swapped, shortened and lengthened, with other signs between their numbers, and other lines between them."""
    for text in texts:
        lines = lines_of(text)
        for k, line in enumerate(lines):
            front, back = b"".join(lines[:k]), b"".join(lines[k + 1 :])
            yield front + back
            yield front + line + line + back
            yield front + b"".join(lines[k : k + 2][::-1]) + b"".join(lines[k + 2 :])
            for other in b"\n", b" \n", b"c\n", b"i0 a\n", b"2\n", b"2 2\n", b"2 2 2\n", b"\r\n":
                yield front + other + line + back
            for ending in b" \n", b"\t\n", b"\r\n", b" 2\n", b" 2 2\n", b"", b"\r", b"\0\n", b" ", b";\n":
                yield front + line[:-1] + ending + back
            for begin in b" ", b"\t", b"0", b"0 ", b"+":
                yield front + begin + line + back
            for blank in b"  ", b"\t", b",", b"", b"\n", b"\r", b" 1 ", b"\xa0":
                yield front + line.replace(b" ", blank) + back
                yield front + line.replace(b" ", blank, 1) + back
            yield front + line.rsplit(b" ", 1)[0] + b"\n" + back


def headers():
    """Other first lines, and parts that promise more lines than there are."""
    rest = SMALL[SMALL.index(b"\n") + 1 :]
    words = "aag ", "aig ", "AAG ", "Aag ", "aag  ", "aag\t", "aag", " aag ", "\ufeffaag ", "aagg ", "ag ", "", "aag -", "aag +"
    counts = "3", "3 1 1 1", "3 1 1 1 1 0", "3 1 1 1 1 0 0 0 0", "3 1 1 1 1 ", "03 1 1 1 0001", "3 1 1 1 1.", "a b c d e", "1 1 1 1 1", "0 0 0 0 0"
    for head in [word + "3 1 1 1 1" for word in words] + ["aag " + count for count in counts] + ["", "a", "aag"]:
        yield head.encode() + b"\n" + rest
        yield head.encode() + b"\r\n" + rest
        yield head.encode()
        yield head.encode() + b"\n"
    for k, many in itertools.product(range(5), (2, 65535, 65536, 4000000000, (1 << 32) - 1, 1 << 32)):
        counts = [3, 1, 1, 1, 1]
        counts[k] = many
        yield b"aag %d %d %d %d %d\n" % tuple(counts) + rest
        yield b"aag %d %d %d %d %d\n" % tuple(counts)
    yield b"aag 4294967295 4294967295 4294967295 4294967295 4294967295\n" + rest


def circuit(latches, inputs, gates):
    """M and the literals of a plain circuit, as lists that can be changed."""
    i, l, g = 2 * inputs, 2 * latches, 2 * gates
    rows = [[x, 2, 3] for x in range(i + l + 2, i + l + g + 1, 2)]
    return (i + l + g) // 2, list(range(2, i + 1, 2)), [[x, x] for x in range(i + 2, i + l + 1, 2)], [i + l + g], rows


def squeezed(m, inputs, latches, outputs, gates):
    """The parts with no literal above 2M, so that variables may stand twice."""
    inputs, outputs, *rows = ([min(x, 2 * m) for x in row] for row in (inputs, outputs, *latches, *gates))
    return inputs, rows[: len(latches)], outputs, rows[len(latches) :]


def sizes():
    """21, 22, 23, 26 and what is just allowed; the largest literals."""
    for counts in (0, 0, 0), (0, 1, 1), (1, 0, 0), (32, 1, 1), (33, 1, 1), (34, 0, 0), (1, 64, 0), (1, 65, 0), (1, 1, 63), (1, 1, 64), (32, 32, 32):
        m, inputs, latches, outputs, gates = circuit(*counts)
        yield text_of(m, inputs, latches, outputs, gates)
        yield text_of(200, inputs, latches, outputs, gates)
        yield text_of(m, inputs, latches, [], gates)
    for counts in (1, 0, 0), (1, 1, 0), (2, 2, 2), (0, 2, 0), (33, 1, 0), (1, 65, 0):
        for m in range(max(1, sum(counts) - 2), sum(counts) + 2):
            yield text_of(m, *squeezed(m, *circuit(*counts)[1:]))
    top = 4294967295
    for m in top, 2147483648, 2147483647, 2147483646:
        yield text_of(m, [top - 1], [[2, top]], [2], [])
        yield text_of(m, [4], [[top - 1, 5]], [top, 2], [])
        yield text_of(m, [4], [[2, 5]], [top], [])
        yield text_of(m, [4], [[2, top]], [top - 1], [[top - 1, 4, 3]])


def twice_or_not():
    """24: each two lines that define the same variable, and each place that uses one that is not defined."""
    places = [(1, 0), (1, 1), (2, 0), (2, 1), (4, 0), (4, 1)]

    def plain():
        return [9, [2, 4], [[6, 10], [8, 13]], [12, 7], [[10, 2, 9], [12, 10, 4]]]

    def change(parts, part, k, number, x):
        if part in (1, 3):
            parts[part][k] = x
        else:
            parts[part][k][number] = x

    for (part, k), (other, j) in itertools.permutations(places, 2):
        parts = plain()
        x = parts[other][j]
        change(parts, part, k, 0, x if other == 1 else x[0])
        yield text_of(*parts)
    for part, k, number in [(2, 0, 1), (2, 1, 1), (3, 0, 0), (3, 1, 0), (4, 0, 1), (4, 0, 2), (4, 1, 1), (4, 1, 2)]:
        for x in 0, 1, 2, 3, 14, 15, 18, 19, 20:
            parts = plain()
            change(parts, part, k, number, x)
            yield text_of(*parts)


def circles():
    """25: gates that depend on themselves, and gates that nearly do."""
    for size, at in itertools.product((1, 2, 3, 5), (1, 2)):
        for inverted in 0, 1:
            # each gate uses the next, the last the first, or an input instead
            outs = [2 * k + 6 for k in range(size)]
            for last in outs[0], outs[-1], 2, 4:
                nexts = [x ^ inverted for x in outs[1:] + [last]]
                gates = [[x, y, 3] if at == 1 else [x, 3, y] for x, y in zip(outs, nexts)]
                for rows in gates, gates[::-1], random.sample(gates, size):
                    yield text_of(5 + size, [2], [[4, outs[-1]]], [4], rows)
    # a circle through a latch is none; a circle that nothing uses, and one that a gate uses that comes first
    yield text_of(3, [2], [[4, 6]], [6], [[6, 4, 2]])
    yield text_of(5, [2], [[4, 2]], [4], [[6, 2, 2], [8, 10, 3], [10, 9, 2]])
    yield text_of(5, [2], [[4, 6]], [6], [[6, 8, 2], [8, 10, 3], [10, 9, 2]])
    yield text_of(5, [2], [[4, 6]], [6], [[6, 8, 10], [8, 10, 10], [10, 4, 2]])
    outs = [2 * k + 4 for k in range(64)]
    for last in 2, 1, outs[0], outs[31], outs[-1]:
        gates = [[x, y, y ^ 1] if y % 4 else [x, 0, y] for x, y in zip(outs, outs[1:] + [last])]
        for rows in gates, gates[::-1], random.sample(gates, 64):
            yield text_of(65, [], [[2, outs[0]]], [outs[0]], rows)


def broken(rules, many):
    """M and the literals of a circuit that breaks all these rules: of 22 by no latch or by 33; of 24 by a variable that stands twice, or by one that
    is not defined."""
    m, inputs, latches, outputs, gates = circuit(33 if 22 in rules and many else 0 if 22 in rules else 2, 66 if 23 in rules else 2, 2)
    if 25 in rules:
        gates[1][2] = gates[1][0]
    if 26 in rules:
        outputs = []
    if 24 in rules and many:
        m += 1
        gates[0][1] = 2 * m
    elif 24 in rules:
        inputs[1] = inputs[0]
    if 21 in rules:
        m = len(inputs) + len(latches) + len(gates) - 1
        inputs, latches, outputs, gates = squeezed(m, inputs, latches, outputs, gates)
    return m, inputs, latches, outputs, gates


def breaks(rules, many):
    text = text_of(*broken(rules, many))
    return text[:-1] if 20 in rules else text


def orders():
    """Each two rules broken in one text, and many at once: the earlier is given."""
    rules = 20, 21, 22, 23, 24, 25, 26, 32
    for pair in itertools.combinations(rules, 2):
        for many in False, True:
            if many and not {22, 24} & set(pair):
                continue
            for short in range(3) if 32 in pair else [None]:
                yield breaks(pair, many), [0 if k == short else STORE for k in range(3)]
    for k in range(len(rules)):
        for many in False, True:
            yield breaks(rules[k:], many), [0, 0, 0]
            yield breaks(rules[k : k + 1], many), [STORE] * 3 if rules[k] < 32 else [3, 3, 3]


def exact_lengths(text, newer):
    return [len(x) for x in masks(read(text, newer))]


def lengths(texts, make=Builder):
    """32: each store a mask short, exact and longer."""
    newer = make is not Builder
    for text in texts:
        exact = exact_lengths(text, newer)
        for change in itertools.product((-1, 0, 1), repeat=3):
            yield text, [max(0, a + b) for a, b in zip(exact, change)]
        for k in range(3):
            for other in 0, max(0, exact[k] - 4), exact[k] + 4, STORE:
                yield text, [other if j == k else a for j, a in enumerate(exact)]
        yield text, [0, 0, 0]
    # the largest circuits, another each time
    for k, change in enumerate(((0, 0, 0), (-1, 0, 0), (0, -1, 0), (0, 0, -1), (9, 9, 9)) * 3):
        inputs = (0, 64, 1, 63, 30)[k % 5]
        text = some_gates(32, inputs, 64 - inputs, make)
        yield text, [max(0, a + b) for a, b in zip(exact_lengths(text, newer), change)]


def shaken(text):
    """One to three random changes: a byte, a piece, a line or a number."""
    for _ in range(random.randint(1, 3)):
        i = random.randrange(len(text) + 1)
        j = min(len(text), i + random.randint(1, 9))
        k = random.randrange(len(text) + 1)
        kind = random.randrange(8)
        if kind == 0:
            text = text[:i] + bytes([random.choice(FEW)]) + text[i + 1 :]
        elif kind == 1:
            text = text[:i] + text[j:]
        elif kind == 2:
            text = text[:k] + text[i:j] + text[k:]
        elif kind == 3:
            lines = text.split(b"\n")
            a, b = (random.randrange(len(lines)) for _ in range(2))
            lines[a], lines[b] = lines[b], lines[a]
            text = b"\n".join(lines)
        else:
            numbers = list(re.finditer(rb"\d+", text))
            if numbers:
                a, b = random.choice(numbers), random.choice(numbers)
                other = random.choice((b[0], b[0], b"%d" % (int(a[0][:12]) ^ 1), b"%d" % (int(a[0][:12]) + 2), b"0", b"1", b"4294967296"))
                text = text[: a.start()] + other + text[a.end() :]
    return text


def long_texts():
    """Many outputs, and texts that the program would cut off. Each is answered and imported."""
    head, latch, gate = b"aag 4 1 1 %d 2\n2\n", b"4 7\n", b"6 2 5\n8 6 6\n"
    for count in 3000, 32000, 40000:
        for piece in b"0\n", b"8\n", b"6\n":
            yield [(1, head % count + latch), (count, piece), (1, gate)]
            yield [(1, head % count + latch), (count - 1, piece), (1, b"9\n" + gate)]
            yield [(1, head % (count + 1) + latch), (count, piece), (1, gate)]
            yield [(1, head % count + latch), (count, piece), (1, gate[:-1])]
            yield [(1, head % (count - 1) + latch), (count, piece), (1, gate)]
        for last in b"10\n", b"7 \n", b"3\n", b"5\n":
            yield [(1, head % count + latch), (count - 1, b"0\n"), (1, last + gate)]
    # other outputs, of which each matters
    yield [(1, head % 3000 + latch), (1500, b"0\n00\n"), (1, gate)]
    yield [(1, head % 3001 + latch), (1500, b"0\n00\n"), (1, b"4\n" + gate)]
    for length in 65000, 65505, 65534, 65535:
        yield [(1, SMALL), (length, b"x")]
        yield [(1, SMALL[:-1]), (length, b"0")]
        yield [(1, b"aag "), (length, b"0"), (1, SMALL[4:])]
        yield [(1, SMALL[:-2]), (length, b"0"), (1, b"5\n")]
        yield [(1, SMALL[:-2]), (length, b"0"), (1, b"5")]


def lent():
    return random.choice((MOST, MOST, (STORE,) * 3, [random.randint(0, 200) for _ in range(3)]))


def texts():
    random.seed(6)
    for k, text in enumerate(well_formed(2200)):
        yield [(1, text)], lent() if k % 3 == 0 else None
    # many gates, and the largest circuits with a start that is bad or no bad state
    for gates in range(50, 61):
        yield [(1, some_gates(3, 3, gates))], None
    for inputs in 0, 0, 1, 2, 12:
        text = some_gates(32, inputs, 64 - inputs)
        while not answer(text):
            text = some_gates(32, inputs, 64 - inputs)
        yield [(1, text)], None
    m, inputs, latches, _, gates = circuit(32, 64, 0)
    yield [(1, text_of(m, inputs, latches, [0, 0], gates))], None
    shakes = (shaken(text) for text in well_formed(400))
    # some are the same
    several = cut(), spoiled(), renumbered(), relined(SMALL, PAIRS), headers(), sizes(), twice_or_not(), circles(), shakes
    damaged = dict.fromkeys(itertools.chain(*several))
    for k, text in enumerate(damaged):
        yield [(1, text)], lent() if k % 3 == 0 or not answer(text) else None
    for text, stores in itertools.chain(orders(), lengths([SMALL, PAIRS, text_of(*circuit(3, 0, 0)), text_of(*circuit(5, 2, 7))])):
        yield [(1, text)], stores
    for text in dict.fromkeys(text for text, _ in orders()):
        yield [(1, text)], None
    for pieces in long_texts():
        yield pieces, None
        yield pieces, MOST
