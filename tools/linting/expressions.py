"""`arg` and `part` of messages that aren't there, and sums that may wrap."""
from .values import WORD, exact_sum


def messages_of(branch):
    """How many messages a firing takes."""
    return branch.pattern[1] if branch.pattern[0] == "gather" else sum(slot[1] for slot in branch.pattern[1])


def expressions(found, branch):
    """Each expression of the branch's handler: its place, the expression, and how many messages the task has then."""
    count, place = messages_of(branch), 0
    for action in found.handlers[branch.handler].actions:
        if action[0] == "await":
            count += 1
        elif action[0] in ("post", "fail"):
            yield place, action[-1], count
        place += 1


def of_missing(found, places):
    for branch in found.branches:
        handler = found.handlers[branch.handler].name
        for place, expression, count in expressions(found, branch):
            if expression[0] in ("arg", "part") and expression[1] >= count:
                said = " ".join(map(str, expression))
                has = f"{count} message" + ("" if count == 1 else "s")
                yield (places.action(handler, place), f"`{said}` in '{handler}' is 0 for a task of '{branch.name}', which has {has} by then, counted from 0",
                       f"take a number below {count}" if count > 1 else f"write `{expression[0]} 0" + (f" {expression[2]}`" if expression[0] == "part" else "`"))


def is_linear(found, carried):
    """Whether each handler passes each message on once at most."""
    for branch in found.branches:
        uses = {}
        for _, expression, count in expressions(found, branch):
            named = range(count) if expression[0] == "sum" else [expression[1]] if expression[0] in ("arg", "part") else []
            for message in named:
                uses[message] = uses.get(message, 0) + 1
        fails = any(action[0] == "fail" for action in found.handlers[branch.handler].actions)
        if any(it > 1 for it in uses.values()) or fails and len(carried) > 1:
            return False
    return True


def mass(found, carried):
    """What all numbers of all messages come to at most, where each handler passes each message on once at most; else no bound."""
    if not is_linear(found, carried):
        return None
    scripts = sum(sum(post[1]) for part in found.posters for post in part.posts)
    constants = [sum(expression[1]) if expression[0] == "value" else count for branch in found.branches
                 for _, expression, count in expressions(found, branch) if expression[0] in ("value", "count")]
    return scripts + found.budget * max(constants, default=0)


def of_values(flow, places):
    """What only values tell: numbers of a value that no message has, and sums that may wrap."""
    bound = mass(flow.wiring, flow.carried)
    for branch in flow.wiring.branches:
        handler = flow.wiring.handlers[branch.handler].name
        for actions, values in flow.segments(branch):
            for place, action in actions:
                if action[0] not in ("post", "fail"):
                    continue
                found = of_expression(action[-1], values, branch.name, handler, bound)
                if found:
                    yield (places.action(handler, place), *found)


def of_expression(expression, values, branch, handler, bound):
    if expression[0] == "part" and expression[1] < len(values):
        length = len(values[expression[1]].most)
        if expression[2] >= length:
            return (f"`part {expression[1]} {expression[2]}` in '{handler}' is 0 for each task of '{branch}': message {expression[1]} has {length} "
                    f"number{'' if length == 1 else 's'} at most, counted from 0", f"take a number below {length}, or post longer values")
    if expression[0] == "sum" and max(exact_sum(values)) >= WORD and (bound is None or bound >= WORD):
        return (f"`sum` in '{handler}' may wrap for a task of '{branch}': it is taken modulo 2^64, and what comes may add to more",
                "post smaller values, or pass on one of them by `arg`")
    return None


def warnings(found, flow, places):
    yield from of_missing(found, places)
    if flow:
        yield from of_values(flow, places)
