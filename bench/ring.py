"""Writes a sequencer as a house file: python3 ring.py BITS safe, python3 ring.py BITS unsafe.

A register of BITS bits is shifted up, and the sum of two of its bits comes in at the low end, so that all its states but 0 stand in one ring; one bit
more is kept. Bad is the state 1 with that bit 0. Safe: it is 1 in every start state, and 2^BITS - 1 states lead to the bad one. Unsafe: the start is 2,
which 1 steps to, so that the path goes through the whole ring.
"""
import sys

TAPS = {2: 1, 3: 2, 4: 3, 5: 3, 6: 5, 7: 6, 9: 5, 10: 7}


def line(*data):
    return (bytes(data) + bytes([-sum(data) % 256])).hex().upper()


def clause(kind, ones, zeros):
    width = 8 if kind == 2 else 4
    return line(kind, *ones.to_bytes(width, "big"), *zeros.to_bytes(width, "big"))


def main():
    bits, kind = int(sys.argv[1]), sys.argv[2]
    high, tap, later = bits - 1, TAPS[bits] - 1, 1 << 32
    same = [(1 << p, later << p + 1) for p in range(bits - 1)] + [(1 << bits, later << bits)]
    step = [(a, b) for x, y in same for a, b in ((x, y), (y, x))]
    a, b, c = later, 1 << high, 1 << tap
    step += [(b | c, a), (a | c, b), (a | b, c), (0, a | b | c)]
    first = 1 << bits
    start = [(first, 0)]
    if kind == "unsafe":
        start = [(2, 0)] + [(0, 1 << p) for p in range(bits + 1) if p != 1]
    bad = [(1, 0)] + [(0, 1 << p) for p in range(1, bits + 1)]
    lines = [clause(k, *x) for k, xs in ((1, start), (2, step), (3, bad)) for x in xs]
    print("\n".join([line(0, bits + 1), *lines, line(15, *len(lines).to_bytes(2, "big"))]))


if __name__ == "__main__":
    main()
