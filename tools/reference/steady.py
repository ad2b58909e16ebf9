"""Whether the counts of a wiring depend on who runs first, and the counts where they don't."""
from collections import Counter


def ports_of(branch):
    return set(branch.ports())


def is_plain(pattern):
    return pattern[0] == "take" and all(predicate == ("any",) for _, _, predicate in pattern[1])


def first_rule(wiring):
    """The first rule by which the wiring is unsteady, or None."""
    named = Counter(port for branch in wiring.branches for port in ports_of(branch))
    kinds = [{action[0] for action in wiring.handlers[branch.handler].actions} for branch in wiring.branches]
    rules = (
        any(count > 1 for count in named.values()),
        not all(is_plain(branch.pattern) for branch in wiring.branches),
        any(branch.group in ("once", "choice", "teardown") for branch in wiring.branches),
        any(queue.policy == "discard" for queue in wiring.queues),
        any(found & {"fail", "await"} for found in kinds),
    )
    return next((number for number, holds in enumerate(rules, 1) if holds), None)


def flow(wiring):
    """How often each branch fires and the posts of tasks, or None where these are more than the budget: branch after branch fires as long as one can."""
    posts = [[action[1] for action in wiring.handlers[branch.handler].actions if action[0] == "post"] for branch in wiring.branches]
    held = Counter(post[0] for part in wiring.posters for post in part.posts)
    fired, posted, goes_on = [0] * len(wiring.branches), 0, True
    while goes_on:
        goes_on = False
        for number, branch in enumerate(wiring.branches):
            if all(held[port] >= count for port, count, _ in branch.pattern[1]):
                held.subtract({port: count for port, count, _ in branch.pattern[1]})
                held.update(posts[number])
                fired[number] += 1
                posted += len(posts[number])
                goes_on = True
        if posted > wiring.budget:
            return None
    return fired, posted


def totals(wiring, fired, posted):
    posted += sum(len(part.posts) for part in wiring.posters)
    taken = sum(times * count for times, branch in zip(fired, wiring.branches) for _, count, _ in branch.pattern[1])
    found = {"posted": posted, "taken": taken, "held": posted - taken, "fired": sum(fired), "done": sum(fired)}
    return {**found, "failed": 0, "shed": 0, "yield": 0, "cut": 0, "dropped": 0, "left": 0}
