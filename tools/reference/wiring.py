"""A wiring, and its text read line by line."""
from . import lines


class Refused(Exception):
    """At which line a text is refused, and by which code."""

    def __init__(self, line, code):
        super().__init__(line, code)
        self.line, self.code = line, code


class Off(Exception):
    """A line isn't as it has to be, by this code."""

    def __init__(self, code):
        super().__init__(code)
        self.code = code


class Branch:
    def __init__(self, name, group, queue, handler, pattern):
        self.name, self.group, self.queue, self.handler, self.pattern = name, group, queue, handler, pattern
        self.arbiter = None

    def ports(self):
        """The ports of the pattern, in its order."""
        return [slot[0] for slot in self.pattern[1]] if self.pattern[0] == "take" else list(self.pattern[2:])


class Part:
    """A queue, set, cause, handler, arbiter or poster: a name and its list, if any."""

    def __init__(self, name, **fields):
        self.name = name
        self.__dict__.update(fields)


class Wiring:
    """Names stand as text and are numbered from 0. A slot is (port, count, predicate), a pattern ("take", slots) or ("gather", total, first, second).
    A spot is (branch, None), or (branch, K) at the branch's await site K."""

    def __init__(self):
        self.version, self.budget = 1, None
        self.queues, self.ports, self.sets, self.causes, self.handlers = [], [], [], [], []
        self.arbiters, self.combined, self.posters, self.branches = [], [], [], []

    def awaited(self, handler):
        return [action[1] for action in self.handlers[handler].actions if action[0] == "await"]

    def spots(self):
        for number, branch in enumerate(self.branches):
            yield number, None
            for site in range(len(self.awaited(branch.handler))):
                yield number, site

    def ports_of(self, spot):
        branch = self.branches[spot[0]]
        return branch.ports() if spot[1] is None else [self.awaited(branch.handler)[spot[1]]]

    def domain(self, arbiter):
        return next((min(members) for members in self.combined if arbiter in members), arbiter)

    def is_interleave(self, arbiter):
        return self.arbiters[arbiter].kind == "interleave"

    def spot_name(self, spot):
        name = self.branches[spot[0]].name
        return name if spot[1] is None else f"{name}@{spot[1]}"


OUTSIDE = ("budget", "queue", "port", "portset", "cause", "handler", "receive", "choice", "interleave", "combine", "poster")
INSIDE = {
    None: OUTSIDE,
    "handler": ("post", "fail", "add", "remove", "await", "end"),
    "choice": ("branch", "end"),
    "interleave": ("teardown", "exclusive", "concurrent", "end"),
    "poster": ("post", "end"),
}


class Reader:
    """What the lines so far have declared, and the line at hand."""

    def __init__(self):
        self.wiring, self.names = Wiring(), {}
        self.block = self.part = None
        self.words, self.at = [], 0

    # the words of a line, from left to right

    def take(self):
        if self.at == len(self.words):
            raise Off(4)
        self.at += 1
        return self.words[self.at - 1]

    def has_more(self):
        return self.at < len(self.words)

    def end_line(self):
        if self.has_more():
            raise Off(4)

    def any_number(self):
        found = lines.number(self.take())
        if found is None:
            raise Off(5)
        return found

    def number(self, least, most):
        found = self.any_number()
        if not least <= found <= most:
            raise Off(10)
        return found

    def keyword(self, *choices):
        word = self.take().decode()
        if word not in choices:
            raise Off(3)
        return word

    def declared(self):
        word = self.take()
        if not lines.is_name(word):
            raise Off(14)
        if word in self.names:
            raise Off(6)
        return word.decode()

    def declare(self, name, kind, number):
        self.names[name.encode()] = kind, number

    def number_of(self, word, kind):
        found = self.names.get(word)
        if not found or found[0] != kind:
            raise Off(7)
        return found[1]

    def reference(self, kind, found=()):
        number = self.number_of(self.take(), kind)
        if number in found:
            raise Off(8)
        return number

    def port(self, found=()):
        word = self.take()
        name, slash, member = word.partition(b"/")
        if slash:
            ports = self.wiring.sets[self.number_of(name, "set")].ports
            number = self.number_of(member, "port")
            if number not in ports:
                raise Off(7)
        else:
            number = self.number_of(word, "port")
        if number in found:
            raise Off(8)
        return number

    def value_in(self, word):
        pieces = word.split(b",") if self.wiring.version == 2 else [word]
        numbers = [lines.number(piece) for piece in pieces]
        if None in numbers:
            raise Off(5)
        if len(numbers) > 8:
            raise Off(10)
        return tuple(numbers)

    def expression(self):
        word = self.take()
        if word in (b"sum", b"count"):
            return (word.decode(),)
        if word == b"arg":
            return "arg", self.number(0, 65535)
        if word == b"part" and self.wiring.version == 2:
            return "part", self.number(0, 65535), self.number(0, 7)
        return "value", self.value_in(word)

    def slot(self, found):
        port, count = self.port(found), self.number(1, 1000)
        kind = self.keyword("any", "eq", "lt", "ge")
        return port, count, (kind,) if kind == "any" else (kind, self.any_number())

    def pattern(self):
        if self.keyword("take", "gather") == "gather":
            total, first = self.number(1, 1000), self.port()
            found = "gather", total, first, self.port([first])
            self.end_line()
            return found
        slots = [self.slot([])]
        while self.has_more():
            if len(slots) == 8:
                raise Off(10)
            slots.append(self.slot([slot[0] for slot in slots]))
        return "take", slots

    def branch(self, name, group):
        made = Branch(name, group, self.reference("queue"), self.reference("handler"), self.pattern())
        made.arbiter = len(self.wiring.arbiters) - (group not in ("once", "always"))
        self.wiring.branches.append(made)
        if any(self.spots_at(port) > 16 for port in made.ports() + self.wiring.awaited(made.handler)):
            raise Off(12)
        return made

    def spots_at(self, port):
        return sum(port in self.wiring.ports_of(spot) for spot in self.wiring.spots())

    # lines

    def is_full(self, first):
        """Whether the line is one more than its limit."""
        wiring = self.wiring
        if first == "end":
            return False
        if self.block:
            return {
                "handler": lambda: len(self.part.actions) >= 16,
                "poster": lambda: sum(len(part.posts) for part in wiring.posters) >= 10000,
            }.get(self.block, lambda: len(wiring.branches) >= 256)()
        arbiters = len(wiring.arbiters) >= 256
        return {
            "budget": False, "queue": len(wiring.queues) >= 16, "port": len(wiring.ports) >= 256, "portset": len(wiring.sets) >= 64,
            "cause": len(wiring.causes) >= 32, "handler": len(wiring.handlers) >= 256, "receive": arbiters or len(wiring.branches) >= 256,
            "choice": arbiters, "interleave": arbiters, "combine": len(wiring.combined) >= 128, "poster": len(wiring.posters) >= 16,
        }[first]

    def line(self, found):
        self.words, self.at = found, 1
        first = found[0].decode()
        if first not in INSIDE[self.block]:
            raise Off(3)
        if first == "budget" and self.wiring.budget is not None:
            raise Off(13)
        if first == "end" and self.block in ("choice", "interleave") and not self.part.branches:
            raise Off(11)
        if self.is_full(first):
            raise Off(10)
        if first == "end":
            self.end_line()
            self.block = self.part = None
        elif self.block:
            getattr(self, "in_" + self.block)(first)
        else:
            getattr(self, "line_" + first)()

    def line_budget(self):
        budget = self.number(0, 10000)
        self.end_line()
        self.wiring.budget = budget

    def line_queue(self):
        name = self.declared()
        policy = self.keyword("unbounded", "discard", "throttle")
        limit = 0 if policy == "unbounded" else self.number(1, 1000)
        self.end_line()
        self.declare(name, "queue", len(self.wiring.queues))
        self.wiring.queues.append(Part(name, policy=policy, limit=limit))

    def line_port(self):
        name = self.declared()
        self.end_line()
        self.declare(name, "port", len(self.wiring.ports))
        self.wiring.ports.append(name)

    def line_portset(self):
        name, ports = self.declared(), [self.port()]
        while self.has_more():
            if len(ports) == 8:
                raise Off(10)
            ports.append(self.port(ports))
        self.declare(name, "set", len(self.wiring.sets))
        self.wiring.sets.append(Part(name, ports=ports))

    def line_cause(self):
        name, port = self.declared(), self.port()
        self.end_line()
        self.declare(name, "cause", len(self.wiring.causes))
        self.wiring.causes.append(Part(name, port=port))

    def begin(self, block, parts, **fields):
        name = self.declared()
        self.end_line()
        self.declare(name, block, len(parts))
        self.block, self.part = block, Part(name, **fields)
        parts.append(self.part)

    def line_handler(self):
        self.begin("handler", self.wiring.handlers, actions=[])

    def line_choice(self):
        self.begin("choice", self.wiring.arbiters, kind="choice", branches=[])

    def line_interleave(self):
        self.begin("interleave", self.wiring.arbiters, kind="interleave", branches=[])

    def line_poster(self):
        self.begin("poster", self.wiring.posters, posts=[])

    def line_receive(self):
        name = self.declared()
        branch = self.branch(name, self.keyword("once", "always"))
        self.declare(name, "receive", len(self.wiring.arbiters))
        self.wiring.arbiters.append(Part(name, kind="receive", branches=[branch]))

    def line_combine(self):
        taken = [member for members in self.wiring.combined for member in members]
        members = []
        while self.has_more() or len(members) < 2:
            if len(members) == 8:
                raise Off(10)
            members.append(self.reference("interleave", taken + members))
        self.wiring.combined.append(members)

    def in_handler(self, first):
        if first == "post":
            action = first, self.port(), self.expression()
        elif first == "fail":
            action = first, self.expression()
        else:
            action = first, self.port() if first == "await" else self.reference("cause")
        self.end_line()
        self.part.actions.append(action)

    def in_choice(self, first):
        name = self.declared()
        self.part.branches.append(self.branch(name, "choice" if first == "branch" else first))
        self.declare(name, "branch", len(self.wiring.branches))

    in_interleave = in_choice

    def in_poster(self, first):
        port, value, causes = self.port(), self.value_in(self.take()), []
        while self.has_more():
            causes.append(self.reference("cause", causes))
        self.part.posts.append((port, value, tuple(causes)))


VERSIONS = {(b"ccr", b"1"): 1, (b"ccr", b"2"): 2}


def checked(line):
    """The line's words; none where it is skipped."""
    if not lines.is_clean(line):
        raise Off(1)
    found = lines.words(line)
    return [] if lines.is_skipped(found) else found


def read_lines(text, reader, heads):
    """Hands the reader the lines behind the first that isn't skipped, which has to be one of the heads, and answers the last line's number. Raises
    Refused at the first line that offends."""
    has_begun, all_lines = False, lines.cut(text)
    for place, line in enumerate(all_lines):
        try:
            found = checked(line)
            if found and has_begun:
                reader.line(found)
            elif found and tuple(found) in heads:
                reader.wiring.version, has_begun = heads[tuple(found)], True
            elif found:
                raise Off(2)
        except Off as off:
            raise Refused(place + 1, off.code) from None
    last = max(1, len(all_lines))
    if not has_begun:
        raise Refused(last, 2)
    if reader.block:
        raise Refused(last, 9)
    return last


def read(text):
    """The wiring that the text says."""
    reader = Reader()
    read_lines(text, reader, VERSIONS)
    if reader.wiring.budget is None:
        reader.wiring.budget = 10000
    return reader.wiring


def read_turns(text, lines_before, actors):
    """The actors of the turn lines, each below `actors`."""
    turns = []
    for place, line in enumerate(lines.cut(text)):
        reader = Reader()
        try:
            reader.words = checked(line)
            if reader.words:
                reader.keyword("turn")
                turns.append(reader.number(0, actors - 1))
                reader.end_line()
        except Off as off:
            raise Refused(lines_before + place + 1, off.code) from None
    return turns
