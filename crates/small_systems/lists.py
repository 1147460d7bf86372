"""The random numbers, literals and kinds of lists of `small_systems`, for the programs that work out what the trials must write."""

M64 = 2**64 - 1
NOTHING, EVERYTHING, SOME, CLAUSES, CHAIN, LOOPS, DOWN, COUNTER, GATES = range(9)


def next_number(x):
    x ^= x << 13 & M64
    x ^= x >> 7
    return x ^ (x << 17 & M64)


def literal(n, later, bits, w=0):
    """A position and the value wanted there: of the pair, or, from 64 on, of the wires."""
    place = (bits >> 1) % 64 % (n + w)
    if place >= n:
        return 64 + place - n, bits & 1
    return place + (32 if later and bits >> 7 & 1 else 0), bits & 1


def explicit(kind, density, n, j, r):
    """Entry j of a list that gives what is true explicitly: a state, the next, and whether the list is true of them."""
    s, t = j % 2**n, j >> n
    lucky = (r >> 20) % 2 ** (n + 1) < density
    return s, t, {EVERYTHING: True, SOME: lucky, CHAIN: t == s + 1, LOOPS: t in (s, s + 1), DOWN: t <= s and lucky}[kind]
