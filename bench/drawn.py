"""Writes a circuit, AIGER, ASCII, first edition: python3 drawn.py FAMILY SIZE [KIND].

counter K safe, unsafe: the position in a ring of K bricks, in binary, and an input that enables it; after the last brick it becomes 0. Safe: bad is
the position one past the last brick, which never comes up. Unsafe: bad is the last brick, so that the path goes round the ring.

full K: 32 latches and 64 gates, each of which uses the next one in the file, and K outputs.
"""
import sys


class Drawn:
    def __init__(self, inputs, latches):
        self.inputs = [2 * k + 2 for k in range(inputs)]
        self.latches = [2 * (inputs + k) + 2 for k in range(latches)]
        self.gates, self.last = [], 2 * (inputs + latches)

    def both(self, a, b):
        self.last += 2
        self.gates.append((self.last, a, b))
        return self.last

    def all(self, literals):
        last = literals[0]
        for l in literals[1:]:
            last = self.both(last, l)
        return last

    def text(self, nexts, outputs):
        counts = len(self.inputs), len(self.latches), len(outputs), len(self.gates)
        rows = [("aag", self.last // 2, *counts), *((x,) for x in self.inputs), *zip(self.latches, nexts), *((x,) for x in outputs), *self.gates]
        return "".join(" ".join(map(str, row)) + "\n" for row in rows)


def counter(bricks, kind):
    d = Drawn(1, bricks.bit_length())
    carry = d.inputs[0]

    def is_at(position):
        return d.all([l if position >> k & 1 else l ^ 1 for k, l in enumerate(d.latches)])

    last = is_at(bricks - 1)
    wrap = d.both(last, carry)
    nexts = []
    for l in d.latches:
        both, neither = d.both(l, carry), d.both(l ^ 1, carry ^ 1)
        nexts.append(d.all([both ^ 1, neither ^ 1, wrap ^ 1]))
        carry = both
    return d.text(nexts, [last if kind == "unsafe" else is_at(bricks)])


def full(outputs):
    d = Drawn(0, 32)
    for k in range(63):
        d.both(d.last + 4, d.latches[k % 32] ^ k // 32)
    last = d.both(d.latches[0], d.latches[1] ^ 1)
    return d.text([g[0] for g in d.gates[:32]], [last] * outputs)


if __name__ == "__main__":
    print({"counter": counter, "full": full}[sys.argv[1]](int(sys.argv[2]), *sys.argv[3:]), end="")
