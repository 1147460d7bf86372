"""What stack.py and tried.py ask of a program that gdb runs: the value of an expression, and where a function of questions stands."""
import gdb


def number(expression):
    return int(gdb.parse_and_eval("(long) (%s)" % expression))


def named(function):
    """The whole name of a function of questions: a method of what is asked, or in an older commit a function of the crate or of its engine."""
    for place in "question::engine::Asked::", "question::engine::", "question::":
        try:
            number("&'%s%s'" % (place, function))
            return place + function
        except gdb.error:
            pass
    raise gdb.GdbError("no function " + function)
