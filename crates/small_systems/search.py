"""The search as the scope tells it, for the programs that work out what the trials must write. It shares nothing with the crates."""


class Over(Exception):
    """The number with which a search gives up."""


class Search:
    """The search of the scope, over sets of states: `before[t]` has the states that step to t, in order, and `bad` the bad ones.
    With full rounds step 4 goes through all levels, as it did before it was shortened."""

    def __init__(self, start, before, bad, room, allowance, full=False):
        self.start, self.before, self.bad = start, before, bad
        self.room, self.allowance, self.full = room, allowance, full
        self.level, self.asked = {}, 0

    def ask(self, states, i):
        """The least of the states, which are in order, that is in R(i)."""
        if self.asked == self.allowance:
            raise Over(5)
        self.asked += 1
        if i == 0:
            return next((s for s in states if s in self.start), None)
        level = self.level
        for s in states:
            if level.get(s, 0) < i:
                return s
        return None

    def put(self, s, k):
        if s not in self.level and len(self.level) == self.room:
            raise Over(6)
        self.level[s] = k

    def settle(self, s, top):
        """A path, if there is one."""
        duties = [s]
        while duties:
            k = top - len(duties) + 1
            t = self.ask(self.before[duties[-1]], k - 1)
            if t is None:
                self.put(duties.pop(), k)
            elif k == 1:
                return [t] + duties[::-1]
            else:
                duties.append(t)
        return None

    def run(self):
        """The number, what is said (0 safe, 1 unsafe, 2 neither), and the evidence."""
        try:
            return 0, *self.answer()
        except Over as over:
            return over.args[0], 2, []

    def answer(self):
        if self.ask(self.start, 0) is None:
            raise Over(14)
        s = self.ask(self.bad, 0)
        if s is not None:
            return 1, [s]
        top = 1
        while True:
            while (s := self.ask(self.bad, top)) is not None:
                path = self.settle(s, top)
                if path:
                    return 1, path
            top += 1
            for i in range(1, top):
                for s in list(self.level):
                    if self.level[s] == i and self.ask(self.before[s], i) is None:
                        self.level[s] = i + 1
                if not self.full and i not in self.level.values():
                    break
            sits = set(self.level.values())
            for i in range(1, top):
                if i not in sits:
                    return 0, [s for s in self.level if self.level[s] >= i]
