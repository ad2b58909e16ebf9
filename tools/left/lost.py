"""Work that nobody does any more: messages at ports whose branches can't fire again, and tasks that were cut or dropped."""
from reference.histories import message_text, task_text

MOST_NAMES = 5


def some(names, spell):
    """The names, but no more than a few."""
    return ", ".join(map(spell, names[:MOST_NAMES])) + (f" and {len(names) - MOST_NAMES} more" if len(names) > MOST_NAMES else "")


def ended_by(machine, spot):
    """The task whose firing was the last of this branch's arbiter, or of its Interleave, or None where the branch may still fire."""
    if machine.is_live((spot[0], None)):
        return None
    branch = machine.branch(spot)
    holds = {"once": lambda it: it.spot == (spot[0], None),
             "choice": lambda it: it.spot[1] is None and machine.branch(it.spot).arbiter == branch.arbiter}
    down = lambda it: it.spot[1] is None and it.group == "teardown" and machine.domain(it.spot) == machine.domain(spot)  # noqa: E731
    return next(it for it in machine.tasks.values() if holds.get(branch.group, down)(it))


def goes_on(machine, number):
    """Whether a task of this branch may come to an await site yet."""
    suspended = any(names for spot, names in machine.suspended.items() if spot[0] == number)
    return suspended or any(not (it.end or it.is_cut or it.is_dropped) for it in machine.tasks.values() if it.spot[0] == number)


def why_dead(story, number):
    """Why the branch fires no more, and since which line."""
    task = ended_by(story.machine, (number, None))
    line = story.at(story.since["fire", task.name])
    branch = story.wiring.branches[task.spot[0]].name
    return f"since {line}, where " + ("it fired" if task.spot[0] == number else f"'{branch}' fired")


def dead_spots(story, port):
    """The branches that take from the port, where none of them ever takes again; else none."""
    found = [spot for spot in story.wiring.spots() if port in story.wiring.ports_of(spot)]
    for number, site in found:
        if not ended_by(story.machine, (number, None)) or site is not None and goes_on(story.machine, number):
            return []
    return list(dict.fromkeys(number for number, _ in found))


def ports_left(story):
    """Each port with messages that nobody takes any more, and the branches that would."""
    for port, names in enumerate(story.machine.held):
        dead = dead_spots(story, port) if names else []
        if dead:
            yield port, dead


def say_held(story):
    for port, dead in ports_left(story):
        names = story.machine.held[port]
        stay, them = ("1 message stays", "it") if len(names) == 1 else (f"{len(names)} messages stay", "them")
        why = "; ".join(f"'{story.wiring.branches[it].name}' can't fire any more {why_dead(story, it)}" for it in dead)
        yield f"{stay} at {story.port(port)}, and nobody takes {them}: {some(names, message_text)}: {why}"


def unrun(story):
    """The tasks that took messages and never ran, by what became of them, the line of their cut, and their branch."""
    found = {}
    for task in story.machine.tasks.values():
        kind = "cut" if task.is_cut else "dropped" if task.is_dropped else None
        if kind:
            line = story.since["cut", task.name] if kind == "cut" else None
            found.setdefault((kind, line, story.wiring.branches[task.spot[0]].name), []).append(task.name)
    return found


def say_cut(story):
    for (kind, line, branch), names in unrun(story).items():
        last = story.at(line or max(story.since[kind, it] for it in names))
        when = f"on {last}" if line or len(names) == 1 else f"up to {last}"
        taken = [it for name in names for it in story.took[name]]
        were, they = ("was", "it") if len(names) == 1 else ("were", "they")
        yield f"{some(names, task_text)} of '{branch}' {were} {kind} {when}, and never ran: what {they} took isn't done: {some(taken, message_text)}"
