"""Answers as frames: lines of hexadecimal, whose bytes have a sum that is a multiple of 256."""
import os
import sys

sys.path.insert(0, os.path.join(os.path.dirname(os.path.abspath(__file__)), "../small_systems"))
from search import Search

ROOM, ALLOWANCE = 1024, 1000000


def frame(*data):
    return (bytes(data) + bytes([-sum(data) % 256])).hex().upper().encode() + b"\n"


def refused(number, line):
    return frame(0xF0, number, *line.to_bytes(2, "big"))


def searched(start, before, bad):
    """The answer of a search: `before[t]` has the states that step to t, in order, and `bad` the bad ones."""
    search = Search(start, before, bad, ROOM, ALLOWANCE)
    number, said, evidence = search.run()
    asked = search.asked.to_bytes(4, "big")
    if number:
        return frame(0xA0, number, *asked)
    kind = (0x80, 0x90)[said]
    return frame(kind, *asked, *len(evidence).to_bytes(4, "big")) + b"".join(frame(kind + 1, *s.to_bytes(4, "big")) for s in evidence)
