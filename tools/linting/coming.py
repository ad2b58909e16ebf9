"""Branches and sites whose messages never come."""


def posts_to(found):
    """The ports to which a script, a handler or a failure posts."""
    handlers = {action[1] for part in found.handlers for action in part.actions if action[0] == "post"}
    return handlers | {post[0] for part in found.posters for post in part.posts} | {part.port for part in found.causes}


def from_handlers(flow):
    """The ports to which tasks post, as often as they like."""
    found = {action[1] for branch in flow.wiring.branches for actions, _ in flow.segments(branch) for _, action in actions if action[0] == "post"}
    return found | {part.port for part in flow.wiring.causes}


def nobody(flow, port, who, posted):
    name = flow.wiring.ports[port]
    if port not in posted:
        return f"{who} a message at '{name}', to which nobody posts", f"post to '{name}', or take it out of what is waited for"
    return f"{who} a message at '{name}', to which only branches post that never fire", f"look at the warnings of these branches, or post to '{name}'"


def spelled(predicate):
    return " ".join(map(str, predicate))


def of_slot(flow, branch, slot, posted, tasks):
    port, count, predicate = slot
    name = flow.wiring.ports[port]
    if flow.at[port].is_empty():
        return nobody(flow, port, f"'{branch.name}' waits for", posted)
    if flow.at[port].that_fit(predicate).is_empty():
        return (f"'{branch.name}' takes what is `{spelled(predicate)}` at '{name}', and no message that comes there fits",
                f"change `{spelled(predicate)}`, or post a value that fits")
    values = [value for part in flow.wiring.posters for at, value, _ in part.posts if at == port]
    fit = sum(predicate[0] == "any" or holds(predicate, value) for value in values)
    if port not in tasks and fit < count:
        return (f"'{branch.name}' takes {count} messages of '{name}' together, and only {fit} that fit {'is' if fit == 1 else 'are'} ever posted",
                f"take fewer, or post more to '{name}'")
    return None


def holds(predicate, value):
    return {"eq": value[0] == predicate[1], "lt": value[0] < predicate[1], "ge": value[0] >= predicate[1]}[predicate[0]]


def of_pattern(flow, branch, posted, tasks):
    if branch.pattern[0] == "gather":
        if all(flow.at[port].is_empty() for port in branch.pattern[2:]):
            yield nobody(flow, branch.pattern[2], f"'{branch.name}' gathers", posted)
        return
    for slot in branch.pattern[1]:
        found = of_slot(flow, branch, slot, posted, tasks)
        if found:
            yield found


def of_sites(flow, branch, posted):
    """The sites of a branch that fires, up to the first that nobody leaves."""
    played = list(flow.segments(branch))
    awaited = flow.wiring.awaited(branch.handler)
    if played and len(played) <= len(awaited) and not any(action[0] == "fail" for _, action in played[-1][0]):
        port, handler = awaited[len(played) - 1], flow.wiring.handlers[branch.handler].name
        yield handler, played[-1][0][-1][0] + 1 if played[-1][0] else first_place(flow, branch, len(played) - 1), nobody(
            flow, port, f"a task of '{branch.name}' awaits", posted)


def first_place(flow, branch, site):
    """The place of that await among the actions of the handler."""
    actions = flow.wiring.handlers[branch.handler].actions
    return [place for place, action in enumerate(actions) if action[0] == "await"][site]


def warnings(flow, places):
    posted, tasks = posts_to(flow.wiring), from_handlers(flow)
    for branch in flow.wiring.branches:
        for what, way_out in of_pattern(flow, branch, posted, tasks):
            yield places.of(branch.name), what, way_out
        for handler, place, (what, way_out) in of_sites(flow, branch, posted):
            yield places.action(handler, place), what, way_out
