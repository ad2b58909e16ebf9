"""What a segment of a handler posts, and how it ends."""


def holds(predicate, value):
    """A predicate looks at the first number of a value."""
    kind = predicate[0]
    if kind == "any":
        return True
    return {"eq": value[0] == predicate[1], "lt": value[0] < predicate[1], "ge": value[0] >= predicate[1]}[kind]


def union(causes, others):
    return list(dict.fromkeys([*causes, *others]))


def causes_of(messages):
    found = []
    for message in messages:
        found = union(found, message.causes)
    return found


def total(values):
    """Place by place, modulo 2^64, as long as the longest."""
    length = max(map(len, values), default=0)
    return tuple(sum(value[place] for value in values if place < len(value)) % (1 << 64) for place in range(length)) or (0,)


def evaluate(expression, values):
    kind = expression[0]
    if kind == "value":
        return expression[1]
    if kind == "sum":
        return total(values)
    if kind == "count":
        return (len(values),)
    found = values[expression[1]] if expression[1] < len(values) else (0,)
    if kind == "arg":
        return found
    return (found[expression[2]] if expression[2] < len(found) else 0,)


def segments(handler):
    """The actions of each segment, and whether an await ends it."""
    found, actions = [], []
    for action in handler.actions:
        if action[0] == "await":
            found.append((actions, True))
            actions = []
        else:
            actions.append(action)
    return [*found, (actions, False)]


class Play:
    """The posts of a segment, how it ends, and its causes at the end."""

    def __init__(self, wiring, task):
        actions, is_left = segments(wiring.handlers[task.handler])[task.segment]
        self.posts, self.causes, self.end = [], list(task.causes), ("yield",) if is_left else ("done",)
        for action in actions:
            if action[0] == "fail":
                value = evaluate(action[1], task.values)
                self.posts += [(wiring.causes[cause].port, value, ()) for cause in self.causes]
                self.end = "failed", value
                break
            self.act(action, task.values)

    def act(self, action, values):
        kind, number = action[:2]
        if kind == "post":
            self.posts.append((number, evaluate(action[2], values), tuple(self.causes)))
        elif kind == "add":
            self.causes = union(self.causes, [number])
        else:
            self.causes = [cause for cause in self.causes if cause != number]
