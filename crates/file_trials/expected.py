#!/usr/bin/env python3
"""Writes the texts of the trials and the answers that the scope gives them: `stdin` and `stdout` beside this file.

Here are the house files: their answers come from a reader of lines, the states of which a list is true, and the search as the scope tells it. Behind
them come the circuits of `circuit_texts.py` and of `newer_texts.py`, answered by `circuits.py`.
"""
import os
import random
import sys

sys.dont_write_bytecode = True
import circuit_texts
import circuits
import newer_texts
from frames import frame, refused, searched

LENGTHS = {0x00: 3, 0x01: 10, 0x02: 18, 0x03: 10, 0x0F: 4}
AFTER = {None: [0], 0: [1, 2, 3, 15], 1: [1, 2, 3, 15], 2: [2, 3, 15], 3: [3, 15], 15: []}


# ---- answers


def read(text):
    """(0, n, lists), or (number, line) of the first refusal."""
    lists, n, last, clauses, at, line = {1: [], 2: [], 3: []}, 0, None, 0, 0, 0
    while at < len(text):
        line += 1
        end = text.find(b"\n", at)
        body = text[at:] if end < 0 else text[at:end]
        at = len(text) if end < 0 else end + 1
        if end < 0 or not 2 <= len(body) <= 36 or len(body) % 2 or any(c not in b"0123456789ABCDEF" for c in body):
            return 8, line
        data = bytes.fromhex(body.decode())
        kind = data[0]
        if sum(data) % 256:
            return 9, line
        if kind not in AFTER[last]:
            return 10, line
        if len(data) != LENGTHS[kind]:
            return 11, line
        if kind in lists:
            if clauses == 1024:
                return 12, line
            clauses += 1
            half = (len(data) - 2) // 2
            lists[kind].append((int.from_bytes(data[1 : 1 + half], "big"), int.from_bytes(data[1 + half : -1], "big")))
        elif kind == 0:
            n = data[1]
        elif int.from_bytes(data[1:3], "big") != clauses:
            return 13, line
        last = kind
    return (0, n, lists) if last == 15 else (10, line + 1)


def true(clauses, word):
    return all(ones & word or zeros & ~word for ones, zeros in clauses)


class Before(dict):
    """The states that step to a state, looked for among all when they are asked for."""

    def __init__(self, n, step):
        self.states, self.step = range(1 << n), step

    def __missing__(self, t):
        self[t] = [s for s in self.states if true(self.step, s | t << 32)]
        return self[t]


def answer(text):
    r = read(text)
    if r[0]:
        return refused(*r)
    n, lists = r[1:]
    if not 1 <= n <= 32:
        return refused(1, 0)
    low = (1 << n) - 1
    for kind, clauses in lists.items():
        later = low if kind == 2 else 0
        if any(mask & 0xFFFFFFFF & ~low or mask >> 32 & ~later for clause in clauses for mask in clause):
            return refused(3, 0)
    start, bad = ([s for s in range(1 << n) if true(lists[kind], s)] for kind in (1, 3))
    return searched(set(start), Before(n, lists[2]), bad)


# ---- texts


def clause(kind, ones, zeros):
    width = 8 if kind == 2 else 4
    return frame(kind, *ones.to_bytes(width, "big"), *zeros.to_bytes(width, "big"))


def file(n, start, step, bad, count=None):
    lines = [clause(k, *c) for k, clauses in ((1, start), (2, step), (3, bad)) for c in clauses]
    count = len(lines) if count is None else count
    return b"".join([frame(0, n), *lines, frame(15, *count.to_bytes(2, "big"))])


def lines_of(text):
    return text.splitlines(keepends=True)


def mended(line):
    """The line with a sum byte that fits."""
    return frame(*bytes.fromhex(line[:-3].decode()))


RING = [(0x200000000, 1), (1, 0x200000000), (0x100000003, 0), (0x100000000, 3), (1, 0x100000002), (2, 0x100000001)]
ring = file(2, [(0, 1), (0, 2)], RING, [(1, 0), (2, 0)])
small = file(1, [(0, 1)], [(0x100000000, 1)], [(1, 0)])
FEW = b"0F9a\n\r\xff"


def texts():
    """Each text as pieces: how often, and what."""
    yield [(1, ring)]
    # each byte changed, each digit changed with the sum mended, cut off at every byte
    for i in range(len(small)):
        for b in FEW:
            yield [(1, small[:i] + bytes([b]) + small[i + 1 :])]
        yield [(1, small[:i])]
    for text in small, ring:
        lines = lines_of(text)
        for k, line in enumerate(lines):
            for i in range(0, len(line) - 3, 1 if text is small else 3):
                for digit in b"05F" if text is small else b"2":
                    changed = mended(line[:i] + bytes([digit]) + line[i + 1 :])
                    yield [(1, b"".join(lines[:k] + [changed] + lines[k + 1 :]))]
    # lines left out, doubled, swapped, shortened, lengthened, and lines between them; at first, in the middle and at last
    lines = lines_of(small)
    for k, line in enumerate(lines):
        front, back = b"".join(lines[:k]), b"".join(lines[k + 1 :])
        data = bytes.fromhex(line[:-1].decode())[:-1]
        yield [(1, front + back)]
        yield [(1, front + line + line + back)]
        yield [(1, front + b"".join(lines[k : k + 2][::-1]) + b"".join(lines[k + 2 :]))]
        yield [(1, front + frame(*data[:-1]) + back)]
        yield [(1, front + frame(*data, 0) + back)]
        yield [(1, front + line[:-3] + b"%02X\n" % (int(line[-3:-1], 16) ^ 1) + back)]
        yield [(1, front + line.lower() + back)]
        yield [(1, front + line[:-1] + b"\r\n" + back)]
        yield [(1, front + line[:-1] + back)]
        for other in b"\n", b"00\n", b"0F\n", b"04FC\n", frame(*range(17)), frame(*range(18)), b"0 \n":
            yield [(1, front + other + line + back)]
        for count in range(6):
            yield [(1, front + back[:-9] + frame(15, 0, count))]
    for end in b"\n", b"0", small, frame(4), frame(1, 0), b"\0", b"0F0003EE\n":
        yield [(1, small + end)]
    yield [(1, small[:-1])]
    yield []
    # sizes, and bits that a system does not have
    for n in 0, 1, 2, 33, 255:
        yield [(1, file(n, [], [(0, 0)], []))]
        yield [(1, file(n, [(1, 1)], [], [(0, 0)]))]
    for bit in range(64):
        yield [(1, file(2, [], [(1 << bit, 0)], [(0, 0)]))]
        if bit < 32:
            yield [(1, file(2, [(1 << bit, 0)], [], [(0, 0)]))]
            yield [(1, file(2, [], [], [(0, 1 << bit)]))]
    # many lines: 1,024 are read, 1,025 are not; a fault in the last of them; longer than any program needs to read, whole and cut off
    true_1, true_2 = clause(1, 1, 1), clause(2, 1, 1)
    for k in 1023, 1024, 1025, 1026:
        end = [(1, frame(15, *k.to_bytes(2, "big")))]
        yield [(1, frame(0, 1)), (k, true_1), *end]
        yield [(1, frame(0, 1)), (k - 1, true_2), (1, clause(3, 1, 0)), *end]
        yield [(1, frame(0, 1)), (k - 1, true_2), (1, true_2[:-3] + b"00\n"), *end]
        yield [(1, frame(0, 1)), (k - 1, true_2), (1, true_1), *end]
        yield [(1, frame(0, 1)), (k - 1, true_2), (1, true_2[:-1] + b"00\n"), *end]
        yield [(1, frame(0, 1)), (k, true_2)]
    whole = [(1, frame(0, 1)), (1024, true_2), (1, frame(15, 4, 0))]
    for length in 36, 37, 38, 1000:
        yield [*whole, (length, b"0")]
    yield [*whole, (1, b"0" * 36 + b"\n")]
    yield [*whole, (1, b"0" * 36 + b"\n"), (500, b"0")]
    # small systems: clauses of up to three literals, or the steps one by one
    random.seed(1)
    for k in range(260):
        n = random.randint(1, 4)

        def literals(bits):
            places = [random.choice(bits) for _ in range(random.randint(1, 3))]
            ones = sum(1 << p for p in set(places) if random.random() < 0.5)
            return ones, sum(1 << p for p in set(places)) & ~ones

        def but(words, width):
            return [(~w & width, w) for w in words]

        if k % 2:
            now = list(range(n))
            both = now + [32 + p for p in now]
            step = [literals(both) for _ in range(random.randint(0, 3 * n))]
            start = [literals(now) for _ in range(random.randint(1, 3))]
            bad = [literals(now) for _ in range(random.randint(1, 3))]
        else:
            n = 3 if k % 16 == 0 else min(n, 2)
            states, low = range(1 << n), (1 << n) - 1
            chance = random.choice((0.1, 0.2, 0.4))
            no_step = [s | t << 32 for s in states for t in states if random.random() > chance]
            start = but([s for s in states if random.random() < 0.8], low)
            step = but(no_step, low | low << 32)
            bad = but([s for s in states if random.random() < 0.8], low)
        yield [(1, file(n, start, step, bad))]
    # no start state: a clause of two zero masks, and a bit that is to be 0 and 1
    for n in 1, 2, 9:
        yield [(1, file(n, [(0, 0)], [], []))]
        yield [(1, file(n, [(0, 1), (1, 0)], [], [(1, 0)]))]
    yield [(1, file(2, [(0, 1), (0, 2), (2, 0)], RING, [(1, 0), (2, 0)]))]
    # no room for a new state: 2,047 bad states, and no step
    yield [(1, file(11, [(0, 1 << p) for p in range(11)], [(0, 0)], [(0x7FF, 0)]))]


def all_circuits():
    """The first edition's, answered and imported; those that are imported once more by the newer reader; the newer edition's."""
    again = []
    for pieces, stores in circuit_texts.texts():
        yield pieces, 2 if stores else 1, stores or ()
        if stores:
            again.append((pieces, 3, stores))
    yield from again
    yield from newer_texts.texts()


def all_texts():
    """Each text with the number of what it is given to, the lengths of stores, and what is to be written."""
    for pieces in texts():
        yield pieces, 0, (), answer
    for pieces, to, stores in all_circuits():
        yield pieces, to, stores, circuits.answer if to == 1 else lambda text: circuits.imported(text, stores, to == 3)


def kind(to, said):
    """What is counted: a verdict, or a number behind what was given up or refused."""
    if to > 1:
        return ("import ", "newer import ")[to - 2] + said.split()[0].decode()
    return ("house ", "circuit ")[to] + said[: 4 if said[:2] in (b"A0", b"F0") else 2].decode()


def main():
    folder = os.path.dirname(os.path.abspath(__file__))
    with open(os.path.join(folder, "stdin"), "wb") as given, open(os.path.join(folder, "stdout"), "wb") as wanted:
        seen = {}
        for pieces, to, stores, says in all_texts():
            for times, piece in pieces:
                if piece:
                    given.write(times.to_bytes(2, "big") + len(piece).to_bytes(2, "big") + piece)
            given.write(b"".join(x.to_bytes(2, "big") for x in (0, to, *stores)))
            said = says(b"".join(times * piece for times, piece in pieces))
            wanted.write(said)
            seen[kind(to, said)] = seen.get(kind(to, said), 0) + 1
        print(sum(seen.values()), "texts:", ", ".join(f"{k} {n}" for k, n in sorted(seen.items())))


if __name__ == "__main__":
    main()
