"""Run by gdb on a program that has been started: follows it from its main to its end, and prints the bytes of stack that it used, those that stood above its
deepest question, those of that question, how many calls of `settle` stood below each other at a time, and how many bytes apart.

Used is what was written. Before the first question the stack below it is filled with a byte. What was not mapped then is zero until it is written, so that
zeros at the very end are not seen; an emulator has all of it mapped.
"""
import sys

import gdb

sys.path.insert(0, "bench")
from engine import named, number

FILL = 0xA5
BELOW = 1 << 18
PAGE = 1 << 12


class Calls(gdb.Breakpoint):
    """The calls of a function: where the frames of those that have not returned begin, the most of them at a time, and the deepest."""

    def __init__(self, function):
        super().__init__("*%d" % number("&'%s'" % function), internal=True)
        self.frames, self.most, self.deepest = [], [], 1 << 64
        for line in gdb.execute("disassemble '%s'" % function, to_string=True).splitlines():
            words = line.split()
            if words[-1] in ("ret", "retq"):
                Return(int(words[0], 16), self.frames)

    def stop(self):
        self.frames.append(number("$rsp") + 8)
        if len(self.most) < len(self.frames):
            self.most = self.frames[:]
        self.deepest = min(self.deepest, self.frames[-1])
        return False


class Return(gdb.Breakpoint):
    def __init__(self, place, frames):
        super().__init__("*%d" % place, internal=True)
        self.frames = frames

    def stop(self):
        self.frames.pop()
        return False


def lowest(start):
    """The lowest page below that is mapped with all those between, but none further than is looked at."""
    page = start // PAGE * PAGE
    try:
        while start - page < BELOW:
            gdb.selected_inferior().read_memory(page - PAGE, 1)
            page -= PAGE
    except gdb.MemoryError:
        pass
    return page


def go():
    gdb.execute("continue", to_string=True)


def main():
    gdb.execute("set confirm off")
    gdb.Breakpoint("*%d" % number("&main"), temporary=True, internal=True)
    go()
    top = number("$rsp") + 8
    gdb.Breakpoint("*%d" % number("*(long *) $rsp"), internal=True)
    # at -O3 `ask` may stand within `step_in`
    try:
        ask = named("ask")
    except gdb.GdbError:
        ask = named("step_in")
    first = gdb.Breakpoint("*%d" % number("&'%s'" % ask), internal=True)
    go()
    start = number("$rsp")
    filled = lowest(start)
    memory = gdb.selected_inferior()
    memory.write_memory(filled, bytes([FILL]) * (start - filled))
    first.delete()
    questions, settles = Calls(ask), Calls(named("settle"))
    questions.stop()
    go()
    low = lowest(start)
    below = bytes(memory.read_memory(low, start - low))
    used = low + next(k for k, byte in enumerate(below) if byte != (FILL if filled <= low + k else 0))
    question = questions.deepest
    apart = sorted({a - b for a, b in zip(settles.most, settles.most[1:])})
    print("stack: %7d %7d %8d %5d %s" % (top - used, top - question, question - used, len(settles.most), " or ".join(map(str, apart)) or "-"))
    gdb.execute("kill")


main()
