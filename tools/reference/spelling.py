"""A wiring's canonical text and its JSON."""
import json


def value(numbers):
    return ",".join(map(str, numbers))


def expression(found):
    return value(found[1]) if found[0] == "value" else " ".join(map(str, found))


def action(wiring, found):
    kind = found[0]
    if kind == "post":
        return f"post {wiring.ports[found[1]]} {expression(found[2])}"
    if kind == "fail":
        return f"fail {expression(found[1])}"
    return f"{kind} {wiring.ports[found[1]] if kind == 'await' else wiring.causes[found[1]].name}"


def pattern(wiring, found):
    if found[0] == "gather":
        return f"gather {found[1]} {wiring.ports[found[2]]} {wiring.ports[found[3]]}"
    slots = [" ".join([wiring.ports[port], str(count), *map(str, predicate)]) for port, count, predicate in found[1]]
    return " ".join(["take", *slots])


def post(wiring, found):
    port, numbers, causes = found
    return " ".join(["post", wiring.ports[port], value(numbers), *[wiring.causes[cause].name for cause in causes]])


def queue(part):
    return f"queue {part.name} {part.policy}" + (f" {part.limit}" if part.limit else "")


def branch(wiring, found):
    first = {"choice": "branch", "once": "receive", "always": "receive"}.get(found.group, found.group)
    group = [found.group] if first == "receive" else []
    return " ".join([first, found.name, *group, wiring.queues[found.queue].name, wiring.handlers[found.handler].name, pattern(wiring, found.pattern)])


def arbiter(wiring, part):
    found = [branch(wiring, it) for it in part.branches]
    return found if part.kind == "receive" else [f"{part.kind} {part.name}", *found, "end"]


def canonical(wiring):
    out = [f"ccr {wiring.version}", f"budget {wiring.budget}", *map(queue, wiring.queues)]
    out += [f"port {name}" for name in wiring.ports]
    out += [" ".join(["portset", part.name, *[wiring.ports[port] for port in part.ports]]) for part in wiring.sets]
    out += [f"cause {part.name} {wiring.ports[part.port]}" for part in wiring.causes]
    for part in wiring.handlers:
        out += [f"handler {part.name}", *[action(wiring, it) for it in part.actions], "end"]
    for part in wiring.arbiters:
        out += arbiter(wiring, part)
    out += [" ".join(["combine", *[wiring.arbiters[it].name for it in members]]) for members in wiring.combined]
    for part in wiring.posters:
        out += [f"poster {part.name}", *[post(wiring, it) for it in part.posts], "end"]
    return "".join(line + "\n" for line in out)


def json_line(found):
    """One line, the keys of each object in the order of their bytes."""
    return json.dumps(found, sort_keys=True, separators=(",", ":")) + "\n"


def json_branch(wiring, found):
    return {
        "group": found.group, "handler": wiring.handlers[found.handler].name, "name": found.name, "pattern": pattern(wiring, found.pattern),
        "queue": wiring.queues[found.queue].name,
    }


def wiring_json(wiring):
    return json_line({
        "arbiters": [{"branches": [json_branch(wiring, it) for it in part.branches], "kind": part.kind, "name": part.name} for part in wiring.arbiters],
        "budget": wiring.budget,
        "causes": [{"name": part.name, "port": wiring.ports[part.port]} for part in wiring.causes],
        "domains": [[wiring.arbiters[it].name for it in members] for members in wiring.combined],
        "handlers": [{"actions": [action(wiring, it) for it in part.actions], "name": part.name} for part in wiring.handlers],
        "ports": wiring.ports,
        "posters": [{"name": part.name, "posts": [post(wiring, it) for it in part.posts]} for part in wiring.posters],
        "queues": [{"limit": part.limit, "name": part.name, "policy": part.policy} for part in wiring.queues],
        "sets": [{"name": part.name, "ports": [wiring.ports[port] for port in part.ports]} for part in wiring.sets],
        "version": wiring.version,
    })
