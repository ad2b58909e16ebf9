"""Which values may come to each port: at most these, found by playing each handler over all that may come until nothing new comes.

What comes to a port is kept as the numbers that may stand first in a value, a set while it is small and else a range, and as the most that each place of
a value may be. So what is found is more than what comes: it says what can't come, and what may.
"""
from reference import handlers

WORD = 1 << 64
SMALL = 256
# After so many rounds what still grows by the same step in each is taken to grow so as often as tasks may post, and what grows faster without a bound.
WINDOW = 100


class First:
    """Numbers: a set of them, or all from the least to the most."""

    def __init__(self, numbers=(), span=None):
        self.numbers, self.span = frozenset(numbers), span
        if span is None and len(self.numbers) > SMALL:
            self.span = min(self.numbers), max(self.numbers)

    def is_empty(self):
        return self.span is None and not self.numbers

    def ends(self):
        return self.span or (min(self.numbers), max(self.numbers))

    def union(self, other):
        if self.is_empty() or other.is_empty():
            return other if self.is_empty() else self
        if self.span or other.span:
            return First(span=(min(self.ends()[0], other.ends()[0]), max(self.ends()[1], other.ends()[1])))
        return First(self.numbers | other.numbers)

    def plus(self, other):
        if not (self.span or other.span) and len(self.numbers) * len(other.numbers) <= SMALL:
            return First((one + more) % WORD for one in self.numbers for more in other.numbers)
        least, most = self.ends()[0] + other.ends()[0], self.ends()[1] + other.ends()[1]
        return First(span=(least, most)) if most < WORD else First(span=(0, WORD - 1))

    def that_fit(self, predicate):
        if self.span is None:
            return First(it for it in self.numbers if handlers.holds(predicate, (it,)))
        least, most = self.span
        kind = predicate[0]
        if kind != "any":
            low, high = {"eq": (predicate[1], predicate[1]), "lt": (0, predicate[1] - 1), "ge": (predicate[1], WORD - 1)}[kind]
            least, most = max(least, low), min(most, high)
        return First(span=(least, most)) if least <= most else First()

    def same(self, other):
        return self.numbers == other.numbers and self.span == other.span


class Values:
    """What may come: the first numbers, and the most of each place. Empty where nothing comes."""

    def __init__(self, first=None, most=()):
        self.first, self.most = first or First(), tuple(most)

    @staticmethod
    def of(value):
        return Values(First([value[0]]), value)

    def is_empty(self):
        return self.first.is_empty()

    def union(self, other):
        length = max(len(self.most), len(other.most))
        most = [max(part[place] if place < len(part) else 0 for part in (self.most, other.most)) for place in range(length)]
        return Values(self.first.union(other.first), most)

    def that_fit(self, predicate):
        first = self.first.that_fit(predicate)
        return Values() if first.is_empty() else Values(first, [min(self.most[0], first.ends()[1]), *self.most[1:]])

    def part(self, place):
        if place == 0:
            return Values(self.first, self.most[:1])
        most = self.most[place] if place < len(self.most) else 0
        return Values(First(span=(0, most)), [most])

    def same(self, other):
        return self.first.same(other.first) and self.most == other.most


def exact_sum(values):
    """The most of each place of a sum, unreduced."""
    length = max(len(it.most) for it in values)
    return [sum(it.most[place] for it in values if place < len(it.most)) for place in range(length)]


def total(values):
    first = values[0].first
    for it in values[1:]:
        first = first.plus(it.first)
    most = exact_sum(values)
    if most[0] >= WORD:
        first = First(span=(0, WORD - 1))
    return Values(first, [min(it, WORD - 1) for it in most])


def evaluate(expression, values):
    kind = expression[0]
    if kind == "value":
        return Values.of(expression[1])
    if kind == "count":
        return Values.of((len(values),))
    if kind == "sum":
        return total(values)
    found = values[expression[1]] if expression[1] < len(values) else Values.of((0,))
    return found if kind == "arg" else found.part(expression[2])


class Flow:
    """What may come to each port, and which branches may fire."""

    def __init__(self, found):
        self.wiring = found
        self.at = [Values() for _ in found.ports]
        for part in found.posters:
            for port, value, _ in part.posts:
                self.add(port, Values.of(value))
        self.carried = {cause for part in found.posters for post in part.posts for cause in post[2]} | {
            action[1] for part in found.handlers for action in part.actions if action[0] == "add"}
        self.play()

    def play(self):
        marks = []
        for _ in range(3):
            marks.append([it.most for it in self.at])
            if not any([self.round() for _ in range(WINDOW)][-1:]):
                return
        marks.append([it.most for it in self.at])
        for port, mosts in enumerate(zip(*marks)):
            self.at[port] = self.extended(self.at[port], *mosts[1:])
        self.round()

    def extended(self, values, first, second, third):
        """The values, with the most that they come to where they grow on as they grew."""
        most = []
        for place, last in enumerate(third):
            ends = [part[place] if place < len(part) else 0 for part in (first, second)]
            step, before = last - ends[1], ends[1] - ends[0]
            most.append(last if not step else min(WORD - 1, last + step * self.wiring.budget) if step <= before else WORD - 1)
        if tuple(most) == values.most:
            return values
        return Values(First(span=(values.first.ends()[0], most[0])), most)

    def add(self, port, values):
        old = self.at[port]
        self.at[port] = old.union(values)
        return not old.same(self.at[port])

    def taken(self, branch):
        """The values of the messages that a firing takes, or None where one of them never comes."""
        if branch.pattern[0] == "gather":
            _, count, *ports = branch.pattern
            both = self.at[ports[0]].union(self.at[ports[1]])
            return None if both.is_empty() else [both] * count
        found = [self.at[port].that_fit(predicate) for port, count, predicate in branch.pattern[1] for _ in range(count)]
        return None if any(it.is_empty() for it in found) else found

    def segments(self, branch):
        """For each segment that may be played its actions with their places, and the values that it has."""
        values, place = self.taken(branch), 0
        for actions, is_left in handlers.segments(self.wiring.handlers[branch.handler]):
            if values is None:
                return
            yield list(enumerate(actions, place)), values
            place += len(actions) + 1
            if any(action[0] == "fail" for action in actions):
                return
            if is_left:
                awaited = self.at[self.wiring.handlers[branch.handler].actions[place - 1][1]]
                values = None if awaited.is_empty() else [*values, awaited]

    def round(self):
        """Whether something new came."""
        is_new = False
        for branch in self.wiring.branches:
            for actions, values in self.segments(branch):
                for _, action in actions:
                    is_new |= self.act(action, values)
                    if action[0] == "fail":
                        break
        return is_new

    def act(self, action, values):
        if action[0] == "post":
            return self.add(action[1], evaluate(action[2], values))
        if action[0] == "fail":
            value = evaluate(action[1], values)
            return any([self.add(self.wiring.causes[cause].port, value) for cause in sorted(self.carried)])
        return False
