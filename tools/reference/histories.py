"""The text of a history, the report behind it, and both read back."""
from . import lines, spelling


class Form(Exception):
    """The line has none of the forms."""


class Unknown(Exception):
    """The line names what the wiring doesn't have."""


def message_text(name):
    return name[0] + ".".join(map(str, name[1:]))


def task_text(name):
    return "t" + ".".join(map(str, name))


def event_text(wiring, event):
    kind, name, *rest = event
    if kind == "post":
        port, value, causes = rest
        return " ".join(["post", message_text(name), wiring.ports[port], spelling.value(value), *[wiring.causes[it].name for it in causes]])
    words = [kind, task_text(name)]
    if kind == "fire":
        spot, messages, cuts = rest
        words += [wiring.spot_name(spot), *map(message_text, messages), *["cut"] * bool(cuts), *map(task_text, cuts)]
    elif kind == "put" and rest[0] is not None:
        words += ["drop", task_text(rest[0])]
    elif kind == "start":
        words.append(str(rest[0]))
    elif kind == "end":
        words += [rest[0][0], *map(spelling.value, rest[0][1:])]
    return " ".join(words)


def history(wiring, events):
    return f"history {wiring.version}\n" + "".join(event_text(wiring, event) + "\n" for event in events)


# the report

def totals(machine):
    tasks = list(machine.tasks.values())
    ends = [it.end[0] for it in tasks if it.end]
    posted, held = len(machine.messages), sum(map(len, machine.held))
    found = {
        "posted": posted, "taken": posted - held, "held": held, "fired": len(tasks), "done": ends.count("done"), "failed": ends.count("failed"),
        "shed": ends.count("shed"), "yield": ends.count("yield"), "cut": sum(it.is_cut for it in tasks), "dropped": sum(it.is_dropped for it in tasks),
    }
    return {**found, "left": found["fired"] - len(ends) - found["cut"] - found["dropped"]}


def port_counts(machine):
    for number, name in enumerate(machine.wiring.ports):
        posted, held = sum(it.port == number for it in machine.messages.values()), len(machine.held[number])
        yield {"held": held, "name": name, "posted": posted, "taken": posted - held}


def spot_counts(machine):
    for spot in machine.wiring.spots():
        yield {"fired": machine.fired.get(spot, 0), "name": machine.wiring.spot_name(spot)}


def queue_counts(machine):
    for number, part in enumerate(machine.wiring.queues):
        tasks = [it for it in machine.tasks.values() if it.queue == number]
        yield {"dropped": sum(it.is_dropped for it in tasks), "name": part.name, "put": sum(it.is_put for it in tasks)}


def total_line(found):
    return "total " + " ".join(f"{name} {count}" for name, count in found.items()) + "\n"


def report(machine):
    ports = "".join("port {name} posted {posted} taken {taken} held {held}\n".format(**it) for it in port_counts(machine))
    spots = "".join("branch {name} fired {fired}\n".format(**it) for it in spot_counts(machine))
    queues = "".join("queue {name} put {put} dropped {dropped}\n".format(**it) for it in queue_counts(machine))
    return "report 1\n" + ports + spots + queues + total_line(totals(machine))


def report_json(machine):
    return spelling.json_line({
        "branches": list(spot_counts(machine)), "ports": list(port_counts(machine)), "queues": list(queue_counts(machine)), "total": totals(machine),
    })


def done_line(machine):
    return f"done {6 if machine.has_shed() else 0}\n"


# the lines of events, read

def number(word, limit=1 << 32):
    found = lines.number(word)
    if found is None or found >= limit or str(found).encode() != word:
        raise Form
    return found


def numbers(word, count):
    pieces = word.split(b".")
    if len(pieces) != count:
        raise Form
    return tuple(map(number, pieces))


def task(word):
    if word[:1] != b"t":
        raise Form
    return numbers(word[1:], 2)


def message(word):
    count = {b"s": 2, b"t": 3}.get(word[:1])
    if not count:
        raise Form
    return (word[:1].decode(), *numbers(word[1:], count))


class Names:
    """Numbers of the names of a line. A name that the wiring doesn't have is told once the line's form is known."""

    def __init__(self, wiring):
        self.wiring, self.is_unknown = wiring, False
        self.ports = {name.encode(): number for number, name in enumerate(wiring.ports)}
        self.causes = {part.name.encode(): number for number, part in enumerate(wiring.causes)}
        self.branches = {part.name.encode(): number for number, part in enumerate(wiring.branches)}

    def find(self, table, word):
        if not lines.is_name(word):
            raise Form
        self.is_unknown |= word not in table
        return table.get(word)

    def value(self, word):
        pieces = word.split(b",") if self.wiring.version == 2 else [word]
        if len(pieces) > 8:
            raise Form
        return tuple(number(piece, 1 << 64) for piece in pieces)

    def spot(self, word):
        name, at, place = word.partition(b"@")
        branch, site = self.find(self.branches, name), number(place) if at else None
        if site is not None and branch is not None:
            self.is_unknown |= site >= len(self.wiring.awaited(self.wiring.branches[branch].handler))
        return branch, site

    def post(self, name, port, value, *causes):
        return "post", message(name), self.find(self.ports, port), self.value(value), tuple(self.find(self.causes, it) for it in causes)

    def fire(self, name, spot, *words):
        taken = words[:words.index(b"cut")] if b"cut" in words else words
        cuts = words[len(taken) + 1:]
        if not taken or b"cut" in words and not cuts:
            raise Form
        return "fire", task(name), self.spot(spot), list(map(message, taken)), list(map(task, cuts))

    def admit(self, name):
        return "admit", task(name)

    def put(self, name, *words):
        if words and (len(words) != 2 or words[0] != b"drop"):
            raise Form
        return "put", task(name), task(words[1]) if words else None

    def start(self, name, actor):
        return "start", task(name), number(actor)

    def end(self, name, how, *words):
        if how == b"failed" and len(words) == 1:
            return "end", task(name), ("failed", self.value(words[0]))
        if how not in (b"done", b"yield", b"shed") or words:
            raise Form
        return "end", task(name), (how.decode(),)

    def event(self, line):
        kind, *words = line.split(b" ")
        self.is_unknown = False
        if kind not in (b"post", b"fire", b"admit", b"put", b"start", b"end"):
            raise Form
        try:
            found = getattr(self, kind.decode())(*words)
        except TypeError:
            raise Form from None
        if self.is_unknown:
            raise Unknown
        return found
