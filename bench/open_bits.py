"""Writes a house file: python3 open_bits.py BITS tried, python3 open_bits.py BITS forced.

The first question that scan asks of it, for a start state, has all bits open. Tried: there is no clause, so nothing is forced. Forced: each bit has
a clause of its own that wants it to be 0. Every state is bad, so the path has one state.
"""
import sys

from ring import clause, line

bits, kind = int(sys.argv[1]), sys.argv[2]
lines = [clause(1, 0, 1 << p) for p in range(bits) if kind == "forced"]
print("\n".join([line(0, bits), *lines, line(15, *len(lines).to_bytes(2, "big"))]))
