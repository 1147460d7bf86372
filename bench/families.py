"""Writes a system with wires for bench/wires, as numbers of eight bytes: python3 families.py FAMILY SIZE [KIND].

pairs K forwards, backwards or a number: K state bits in a ring, a wire for each two neighbours that are both 1, and a chain of wires for any such two so
far. Bad is that the chain ends in 1, and that no two neighbours are both 1: no state. The wires are numbered forwards, backwards, or shuffled by the number.

idle K: a ring of eight state bits that a step turns; bit 0 alone is 1 at the start. Bad is that the same chain ends in 1, and K more wires are in no clause.

gates K and, or, xor: the 32 clauses without a solution that bench/question has, as the bad list; K lines, and a gate of each line and a state bit. Nothing
reads the gates.

ring K: a counter of K positions, with one line that enables it, in gates as circuits have them, all AND: the test for its last position, the wrap, the
carries and the sums. Bad is the last position, and the start the first.

open K W: K state bits and W wires in no clause, so that the first question, for a start state, tries each of them.
"""
import random
import struct
import sys


# A literal is a place and a value. Places 0 to 31 are the state's bits, 32 to 63 the same bits one step later, and the wires' begin at 64.
def now(k):
    return k, 1


def later(k):
    return 32 + k, 1


def wire(k):
    return 64 + k, 1


def no(literal):
    place, value = literal
    return place, 1 - value


def same(x, y):
    return [[x, no(y)], [no(x), y]]


def and_gate(x, a, b):
    return [[no(x), a], [no(x), b], [x, no(a), no(b)]]


def or_gate(x, a, b):
    return and_gate(no(x), no(a), no(b))


def xor_gate(x, a, b):
    return [[no(x), a, b], [no(x), no(a), no(b)], [x, no(a), b], [x, a, no(b)]]


def chain(bits, number):
    """The clauses of any two neighbours that are both 1, and the chain's end. Of its wires number[k] is the k-th."""
    clauses, last = [], wire(number[0])
    for k in range(bits):
        clauses += and_gate(wire(number[k]), now(k), now((k + 1) % bits))
    for k in range(1, bits):
        joined = wire(number[bits + k - 1])
        clauses += or_gate(joined, last, wire(number[k]))
        last = joined
    return clauses, last


def pairs(bits, kind):
    wires = 2 * bits - 1
    number = list(range(wires))
    if kind == "backwards":
        number.reverse()
    elif kind != "forwards":
        random.Random(int(kind)).shuffle(number)
    clauses, last = chain(bits, number)
    apart = [[no(now(k)), no(now((k + 1) % bits))] for k in range(bits)]
    return bits, wires, [], [], clauses + [[last]] + apart


def idle(wires):
    bits = 8
    clauses, last = chain(bits, range(2 * bits - 1))
    start = [[now(k) if k == 0 else no(now(k))] for k in range(bits)]
    step = [c for k in range(bits) for c in same(later((k + 1) % bits), now(k))]
    return bits, 2 * bits - 1 + wires, start, step, clauses + [[last]]


def gates(lines, kind):
    gate = {"and": and_gate, "or": or_gate, "xor": xor_gate}[kind]
    bad = []
    # any two neighbours of four pairs in a ring have an even sum, but the last two an odd one
    for side in range(4):
        four = [now((2 * side + k) % 8) for k in range(4)]
        for low in range(8):
            wrong = low + (bin(low).count("1") + 1 + side // 3) % 2 * 8
            bad.append([no(x) if wrong >> k & 1 else x for k, x in enumerate(four)])
    for k in range(lines):
        bad += gate(wire(lines + k), wire(k), now(k % 8))
    return 8, 2 * lines, [], [], bad


def ring(positions):
    bits, wires, step = (positions - 1).bit_length(), 1, []

    def both(a, b):
        nonlocal step, wires
        step += and_gate(wire(wires), a, b)
        wires += 1
        return wire(wires - 1)

    def is_at(position):
        return [now(k) if position >> k & 1 else no(now(k)) for k in range(bits)]

    enable = wire(0)
    wrap = enable
    for x in is_at(positions - 1):
        wrap = both(wrap, x)
    carry = enable
    for k in range(bits):
        differ = no(both(no(both(now(k), no(carry))), no(both(no(now(k)), carry))))
        carry = both(now(k), carry)
        step += same(later(k), both(differ, no(wrap)))
    return bits, wires, [[x] for x in is_at(0)], step, [[x] for x in is_at(positions - 1)]


def open_bits(bits, wires):
    return bits, int(wires), [], [], []


def masks(clauses):
    for clause in clauses:
        four = [0] * 4
        for place, value in clause:
            four[place // 64 * 2 + 1 - value] |= 1 << place % 64
        yield from four


FAMILIES = {"pairs": pairs, "idle": idle, "gates": gates, "ring": ring, "open": open_bits}


def main():
    bits, wires, *lists = FAMILIES[sys.argv[1]](int(sys.argv[2]), *sys.argv[3:])
    lists = [list(masks(clauses)) for clauses in lists]
    numbers = [bits, wires] + [len(x) for x in lists] + sum(lists, [])
    sys.stdout.buffer.write(struct.pack("<%dQ" % len(numbers), *numbers))


if __name__ == "__main__":
    main()
