"""Parts that nobody uses."""


def used_ports(found):
    spots = {port for spot in found.spots() for port in found.ports_of(spot)}
    handlers = {action[1] for part in found.handlers for action in part.actions if action[0] in ("post", "await")}
    scripts = {post[0] for part in found.posters for post in part.posts}
    return spots | handlers | scripts | {part.port for part in found.causes}


def used_causes(found):
    scripts = {cause for part in found.posters for post in part.posts for cause in post[2]}
    return scripts | {action[1] for part in found.handlers for action in part.actions if action[0] == "add"}


def warnings(found, places):
    """Each as (line, what, what to do)."""
    queues, handlers = ({getattr(it, field) for it in found.branches} for field in ("queue", "handler"))
    kinds = (("port", found.ports, used_ports(found), "nobody posts there or takes from it"),
             ("queue", [it.name for it in found.queues], queues, "no branch puts its tasks there"),
             ("handler", [it.name for it in found.handlers], handlers, "no branch has it"),
             ("cause", [it.name for it in found.causes], used_causes(found), "no post carries it and no handler adds it"))
    for kind, names, used, why in kinds:
        for number, name in enumerate(names):
            if number not in used:
                yield places.of(name), f"the {kind} '{name}' is used by nobody: {why}", f"use it, or take out the {kind}"
