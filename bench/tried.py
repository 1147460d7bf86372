"""Run by gdb on a program built at -O0, where every function stands for itself, that counts the calls of each: follows the first $asked questions of it, and
prints how many clauses they looked at, and the most values that one of them tried for a bit, a 0 and a 1 each.

A call of `attempt` tries a 0. It is given the place of its answer, which says in its first byte of which kind it is, and a 1 is tried where that is the
third: the bit is forced, since 0 is refuted.
"""
import sys

import gdb

sys.path.insert(0, "bench")
from engine import named, number

KINDS = 3
FORCED = 2
PLACE = {"aarch64": "$x0", "i386:x86-64": "$rdi"}
asked, tried, most, answers = 0, 0, 0, []


def value_tried():
    global tried, most
    tried += 1
    most = max(most, tried)


class Question(gdb.Breakpoint):
    def stop(self):
        global asked, tried
        asked, tried = asked + 1, 0
        return wanted < asked


class Zero(gdb.Breakpoint):
    def stop(self):
        answers.append(number(place))
        value_tried()
        return False


class Answer(gdb.Breakpoint):
    def stop(self):
        kind = number("*(unsigned char *) %d" % answers.pop())
        if KINDS <= kind:
            raise gdb.GdbError("an answer of another kind")
        if kind == FORCED:
            value_tried()
        return False


def looks():
    for k in range(number("functions")):
        if gdb.execute("info symbol places[%d]" % k, to_string=True).startswith("look::clause +"):
            return number("calls[%d]" % k)
    raise gdb.GdbError("no function look::clause")


gdb.execute("set confirm off")
gdb.execute("starti", to_string=True)
wanted = number("$asked")
place = PLACE[gdb.selected_frame().architecture().name()]
attempt = named("attempt")
Question("*&'%s'" % named("ask"), internal=True)
Zero("*&'%s'" % attempt, internal=True)
for line in gdb.execute("disassemble '%s'" % attempt, to_string=True).splitlines():
    words = line.split()
    if words[-1] in ("ret", "retq"):
        Answer("*" + words[0], internal=True)
gdb.Breakpoint("exit", internal=True)
gdb.execute("continue", to_string=True)
if asked < wanted:
    raise gdb.GdbError("%d questions asked" % asked)
print("counted: %d %d" % (looks(), most))
gdb.execute("kill")
