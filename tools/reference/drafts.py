"""Random wirings, turns, histories, records, services and words: most are well formed, many are spoilt in one place or two."""
import itertools

from . import histories
from .actors import Run
from .machine import Machine

NAMES = "a b c d x1 y-2 Z_ take end arg sum any port q h gather cut A23456789012345b once part turn report done ccr".split()
NUMBERS = (0, 1, 2, 3, 4, 5, 7, 10, 9223372036854775808, 18446744073709551614, 18446744073709551615)
WORDS = """a b q h end take gather any eq lt ge once always branch teardown exclusive concurrent post fail add remove await arg part sum count 0 1 00 01 8 1000
1001 10000 10001 65535 65536 18446744073709551615 18446744073709551616 99999999999999999999999 -1 +1 1.0 x/y / a/ /a unbounded discard throttle budget
queue port portset cause handler receive choice interleave combine poster # 1,2 1, ,1 , 1,2,3,4,5,6,7,8 1,2,3,4,5,6,7,8,9 1,x,3 1,2,3,4,5,6,7,8,x
1,2,3,4,5,6,7,8,9,x 1,18446744073709551616 7 9 ccr 2 3 abcdefghijklmnop abcdefghijklmnopq 9a a.b a_b _a A- Any history turn report 1_0 0x1""".split()
WORDS += ["", "\x7f", "\xe9", "\x00", "a\x0b"]
HISTORY_WORDS = """s0.0 s0.1 s1.0 t1.0 t1.1 t0.0 t1.0.0 t1.0.1 t33.0 t32.0 t2.0 cut drop done failed yield shed 0 1 2 7 07 4294967295 4294967296 18446744073709551615
18446744073709551616 s0.4294967296 t4294967296.0 t0.4294967295 s01.0 x@0 a b a@0 a@1 a@01 a@ @0 post fire admit put start end report history 1,2 1,02
1,2,3,4,5,6,7,8,9 s0 t0 s0.0.0 t0.0.0.0 S0.0 a-b 9a abcdefghijklmnopq""".split()
HISTORY_WORDS += ["", "\t", "\r", "\xe9"]
RECORD_WORDS = """record turn done 0 1 2 3 15 16 17 00 01 016 x -1 99 4294967296 18446744073709551616 # #x end ccr history port 1,2""".split()
RECORD_WORDS += ["", "\x7f", "\xe9", "\x00", "a\x0b"]
SERVICE_NAMES = "a b get upd drop X1 9 A2345678901b svc rq x h arg end below op ask client exclusive 0a a_b a-b abcdefghijklm service".split()
SERVICE_WORDS = SERVICE_NAMES + """policy unbounded discard throttle teardown concurrent sum count part 0 1 00 1000 1001 65535 65536 18446744073709551615
18446744073709551616 -1 1,2 # #x ccr handler 1_0 0x1 any lt a-rq""".split() + ["", "\x7f", "\xe9", "\x00", "a\x0b"]
CALL_WORDS = """run check verify load record replay steps steady service expand --workers --size --json --schedule -- - 0 1 2 16 17 00 010 -1 +1 10000 10001
99999999999999999999999999 --workers=0 --workers=3 --workers= --size=5 --size=0 --json=1 --json= --schedule= --help -h --version -V help Run --work
--workers=1=2 --jso -j --- = --= 1_0 0x1 records Steps serve --worKers""".split()
CALL_WORDS = [word.encode() for word in CALL_WORDS] + [b"", b" 1", b"--size=1 ", b"\xff", b"--workers\xff", "é".encode()]


class Draft:
    """A wiring as lines of words. It is valid unless too many spots name a port."""

    MOST_PORTS = 5

    def __init__(self, rng):
        self.rng, self.version = rng, 2 if rng.random() < 0.35 else 1
        self.names = NAMES + [f"n{number}" for number in range(60)]
        self.queues = [self.name() for _ in range(rng.randint(1, 3))]
        self.ports = [self.name() for _ in range(rng.randint(1, self.MOST_PORTS))]
        self.sets = {self.name(): rng.sample(self.ports, rng.randint(1, min(3, len(self.ports)))) for _ in range(rng.randint(0, 2))}
        self.causes = [self.name() for _ in range(rng.randint(0, 3))]
        self.handlers = [self.name() for _ in range(rng.randint(1, 4))]
        self.interleaves = []
        parts = self.declarations(), self.bodies(), *[self.arbiter() for _ in range(rng.randint(1, 5))], self.combinations(), self.posters()
        self.lines = [["ccr", str(self.version)], *itertools.chain(*parts)]

    def name(self):
        return self.names.pop(0 if self.rng.random() < 0.1 else self.rng.randrange(len(self.names)))

    def number(self, *choices):
        zeros = "0" * self.rng.choice((1, 2, 25)) if self.rng.random() < 0.05 else ""
        return zeros + str(self.rng.choice(choices))

    def value(self):
        count = 1 if self.version == 1 else self.rng.choice((1, 1, 2, 2, 3, 8))
        return ",".join(self.number(*NUMBERS) for _ in range(count))

    def port(self, port=None):
        port = port or self.rng.choice(self.ports)
        members = [name for name, ports in self.sets.items() if port in ports and self.rng.random() < 0.2]
        return f"{members[0]}/{port}" if members else port

    def declarations(self):
        found = [["queue", name, *self.policy()] for name in self.queues] + [["port", name] for name in self.ports]
        self.rng.shuffle(found)
        budget = self.number(0, 1, 2, 3, 5, 8, 20, 40)
        found.insert(self.rng.randint(0, len(found)), ["budget", budget])
        return found + [["portset", name, *ports] for name, ports in self.sets.items()] + [["cause", name, self.port()] for name in self.causes]

    def policy(self):
        policy = self.rng.choice(("unbounded", "unbounded", "discard", "throttle"))
        return [policy] if policy == "unbounded" else [policy, self.number(1, 1, 2, 3)]

    def bodies(self):
        for name in self.handlers:
            yield ["handler", name]
            yield from (self.action() for _ in range(self.rng.choice((0, 0, 1, 1, 2, 3, 4))))
            yield ["end"]

    def action(self):
        kind = self.rng.choice(["post", "post", "post", "await", "fail"] + ["add", "remove"] * bool(self.causes))
        if kind in ("add", "remove"):
            return [kind, self.rng.choice(self.causes)]
        return [kind, *[self.port()] * (kind != "fail"), *(self.expression() if kind != "await" else [])]

    def expression(self):
        kind = self.rng.choice(["value", "arg", "arg", "sum", "count"] + ["part"] * (self.version == 2))
        if kind == "value":
            return [self.value()]
        numbers = {"arg": [self.number(0, 0, 1, 2, 9, 65535)], "part": [self.number(0, 0, 1, 5), self.number(*range(8))]}
        return [kind, *numbers.get(kind, [])]

    def pattern(self):
        if len(self.ports) >= 2 and self.rng.random() < 0.2:
            return ["gather", self.number(1, 2, 3, 4), *map(self.port, self.rng.sample(self.ports, 2))]
        slots = self.rng.sample(self.ports, min(len(self.ports), self.rng.choice((1, 1, 1, 2, 2, 3))))
        return ["take", *itertools.chain(*map(self.slot, slots))]

    def slot(self, port):
        predicate = self.rng.choice(("any", "any", "any", "eq", "lt", "ge"))
        bound = [] if predicate == "any" else [self.number(0, 1, 2, 3, 5, 18446744073709551615)]
        return [self.port(port), self.number(1, 1, 1, 2, 3), predicate, *bound]

    def branch(self, *first):
        return [*first, self.rng.choice(self.queues), self.rng.choice(self.handlers), *self.pattern()]

    def arbiter(self):
        kind, name = self.rng.choice(("receive", "receive", "choice", "interleave", "interleave")), self.name()
        if kind == "receive":
            return [self.branch(kind, name, self.rng.choice(("once", "always", "always")))]
        groups = ("branch",)
        if kind == "interleave":
            groups = "concurrent", "concurrent", "exclusive", "exclusive", "teardown"
            self.interleaves.append(name)
        return [[kind, name], *[self.branch(self.rng.choice(groups), self.name()) for _ in range(self.rng.randint(1, 3))], ["end"]]

    def combinations(self):
        left = self.rng.sample(self.interleaves, len(self.interleaves))
        while len(left) >= 2 and self.rng.random() < 0.7:
            count = self.rng.randint(2, min(3, len(left)))
            yield ["combine", *left[:count]]
            left = left[count:]

    def posters(self):
        for _ in range(self.rng.randint(0, 3)):
            yield ["poster", self.name()]
            for _ in range(self.rng.randint(0, 6)):
                causes = self.rng.sample(self.causes, self.rng.randint(0, len(self.causes))) if self.rng.random() < 0.5 else []
                yield ["post", self.port(), self.value(), *causes]
            yield ["end"]

    def text(self):
        return spelt(self.rng, self.lines)


def spelt(rng, lines):
    """The lines, some with blanks, comments and CR in places where these may stand."""
    choice, out = rng.choice, []
    for words in lines:
        if rng.random() < 0.06:
            out.append(choice(("", "# x", "  \t", "#", " #a b", "\r")))
        blanks = ["" if not place else choice((" ",) * 12 + ("\t", "  ", " \r", "\t ")) for place in range(len(words))]
        out.append(choice(("",) * 10 + (" ", "\t")) + "".join(map("".join, zip(blanks, words))) + choice(("",) * 10 + (" ", "\r", "\t")))
    return ("\n".join(out) + "\n").encode("utf-8")


class Even(Draft):
    """A draft whose counts depend on nobody, unless one of the five rules or more are broken."""

    MOST_PORTS = 8

    def __init__(self, rng):
        self.broken = set(rng.sample(range(1, 6), rng.choice((0, 0, 0, 0, 0, 1, 1, 1, 2, 3))))
        self.left = None
        super().__init__(rng)

    def breaks(self, rule):
        return rule in self.broken and self.rng.random() < 0.5

    def policy(self):
        if self.breaks(4):
            return ["discard", self.number(1, 2, 3)]
        return ["throttle", self.number(1, 2, 3)] if self.rng.random() < 0.4 else ["unbounded"]

    def bodies(self):
        """The last handler is no branch's, so that it may fail and await."""
        yield from super().bodies()
        yield from (["handler", self.name()], ["await", self.port()], ["fail", *self.expression()], ["end"])

    def action(self):
        while True:
            found = super().action()
            if found[0] not in ("await", "fail") or self.breaks(5):
                return found

    def pattern(self):
        """Slots on ports that no other branch names."""
        if self.breaks(2) and len(self.ports) >= 2:
            return ["gather", self.number(1, 2, 3), *map(self.port, self.rng.sample(self.ports, 2))]
        if not self.left or self.breaks(1):
            ports = self.rng.sample(self.ports, 1)
        else:
            ports = [self.left.pop() for _ in range(self.rng.randint(1, min(3, len(self.left))))]
        return ["take", *itertools.chain(*map(self.slot, ports))]

    def slot(self, port):
        predicate = [self.rng.choice(("eq", "lt", "ge")), self.number(0, 1, 7)] if self.breaks(2) else ["any"]
        return [self.port(port), self.number(1, 1, 1, 2, 3), *predicate]

    def arbiter(self):
        if self.left is None:
            self.left = self.rng.sample(self.ports, len(self.ports))
        if not self.left:
            return []
        kind, name = self.rng.choice(("receive", "receive", "interleave") + ("choice",) * self.breaks(3)), self.name()
        if kind == "receive":
            return [self.branch(kind, name, "once" if self.breaks(3) else "always")]
        if kind == "interleave":
            self.interleaves.append(name)
        groups = {"choice": ("branch",), "interleave": ("concurrent", "exclusive") + ("teardown",) * self.breaks(3)}[kind]
        branches = [self.branch(self.rng.choice(groups), self.name()) for _ in range(self.rng.randint(1, 3)) if self.left]
        return [[kind, name], *branches, ["end"]]


def spoilt_words(rng, lines, others=tuple(WORDS)):
    """Lines of words with a word or a line lost, doubled, swapped or another."""
    lines = [list(words) for words in lines]
    own = [word for words in lines for word in words[1:]] or ["a"]
    for _ in range(rng.choice((1, 1, 1, 1, 2, 2, 3))):
        if not lines:
            break
        line, other = rng.randrange(len(lines)), rng.randrange(len(lines))
        words = lines[line]
        place, word = rng.randrange(len(words) + 1), rng.choice(others if rng.random() < 0.6 else own)
        kind = rng.choice(("put", "put", "put", "lose", "add", "last", "lose line", "double line", "swap lines", "stretch", "stop"))
        if kind == "put":
            words[place:place + 1] = [word]
        elif kind == "lose":
            del words[place:place + 1]
        elif kind in ("add", "last"):
            words.insert(place if kind == "add" else len(words), word)
        elif kind == "lose line":
            del lines[line]
        elif kind == "double line":
            lines.insert(other, list(words))
        elif kind == "swap lines":
            lines[line], lines[other] = lines[other], lines[line]
        elif kind == "stretch":
            words[place:place + 1] = ["".join(words[place:place + 1]) + rng.choice(("x", "0", "/", ",", "\t", "\x01", "\xe9"))]
        else:
            del lines[line:]
    return lines


def spoilt_bytes(rng, text):
    changed = bytearray(text)
    for _ in range(rng.randint(1, 3) if changed else 0):
        changed[rng.randrange(len(changed))] = rng.randrange(256)
    return bytes(changed)


HEAD = ["queue q unbounded", "port a", "port b", "handler h", "end"]


def many(form, count):
    return [form.format(number) for number in range(count)]


def at_a_limit(rng):
    """A wiring with as many lines or words as there may be, or one or two more or fewer."""
    more = rng.choice((-1, 0, 0, 1, 1, 1, 2))
    wide = many("port p{}", 20)
    spread = [f"take p{number % 20} 1 any" for number in range(260)]
    lines = rng.choice((
        lambda: many("queue k{} unbounded", 15 + more), lambda: many("port k{}", 254 + more), lambda: many("portset k{} a", 64 + more),
        lambda: many("cause k{} a", 32 + more), lambda: many("handler k{}\nend", 255 + more), lambda: many("poster k{}\nend", 16 + more),
        lambda: ["handler k", *[rng.choice(("post a 1", "await b", "fail 2")) for _ in range(16 + more)], "end"],
        lambda: wide + [f"receive k{number} always q h {spread[number]}" for number in range(256 + more)],
        lambda: wide + [f"choice k{number}\nbranch b{number} q h {spread[number]}\nend" for number in range(256 + more)],
        lambda: wide + ["interleave k", *[f"exclusive k{number} q h {spread[number]}" for number in range(256 + more)], "end"],
        lambda: ["poster k", *["post a 1"] * 5000, "end", "poster l", *["post a 1"] * (5000 + more), "end"],
        lambda: wide + ["receive r once q h take " + " ".join(many("p{} 1 any", 8 + more))],
        lambda: wide + ["portset s " + " ".join(many("p{}", 8 + more))],
        lambda: many("interleave i{0}\nexclusive e{0} q h take a 1 any\nend", 12) + ["combine " + " ".join(many("i{}", 8 + more))],
        lambda: many("receive k{} once q h take a 1 any", 16 + more),
        lambda: ["handler w", *["await a"] * rng.randint(1, 8), "end", *many("receive k{} once q w take b 1 any", rng.randint(1, 9))],
        lambda: [f"queue z {rng.choice(('discard', 'throttle'))} {rng.choice((0, 1, 1000, 1001))}"], lambda: [f"budget {10000 + more}"],
        lambda: [f"receive r once q h {rng.choice(('take a {} any', 'gather {} a b')).format(rng.choice((0, 1, 1000, 1001)))}"],
        lambda: ["handler k", f"post a arg {65535 + more}", f"post a part {rng.choice((0, 65535, 65536))} {rng.choice((0, 7, 8))}", "end"],
    ))()
    tail = rng.choice(([], ["x y"], ["end"], ["port"], ["poster zz", "end"]))
    return "".join(line + "\n" for line in [f"ccr {rng.choice('12')}", *HEAD, *lines, *tail]).encode()


# turns

def turns(rng, actors):
    """Now one actor for a while, now at random."""
    longest, found = rng.choice((1, 1, 20)), []
    while actors and len(found) < rng.choice((0, 20, 400)):
        found += [rng.randrange(actors)] * rng.randint(1, longest)
    return [["turn", str(actor)] for actor in found]


def turns_to_rest(rng, wiring, workers):
    """Turns of actors that have a next step, until none has one; there is none at all without workers and posters."""
    run, longest, found = Run(wiring, workers, []), rng.choice((1, 3, 40)), []
    while not run.is_at_rest():
        left = [it for it in run.actors if it.ask is not None]
        actor = left[0] if rng.random() < 0.3 else rng.choice(left)
        for _ in range(rng.randint(1, longest)):
            if actor.ask is not None:
                actor.step(run.places)
                found.append(["turn", str(actor.number)])
    return found


# records

def record(rng, turns, workers):
    """The lines behind a wiring; many are spoilt."""
    zeros = "0" * rng.choice((1, 2, 25)) if rng.random() < 0.05 else ""
    lines, kind = [["record", "1", zeros + str(workers)], *turns, ["done", "0"]], rng.random()
    if kind < 0.1:
        lines += rng.choice(([["done", "0"]], [["turn", "0"]], [["record", "1", "0"]], [["#x"], ["x"]], [["\xe9"]], [["#", "\x01"]], [["#", "x"]]))
    elif kind < 0.13:
        return rng.choice(([], [["#", "record"]], lines[1:], lines[:-1], lines[:1]))
    elif kind < 0.18:
        lines[0][2] = rng.choice(("16", "17", "18446744073709551616", str(workers + 1), str(max(0, workers - 1))))
    elif kind < 0.45:
        few = rng.randrange(len(lines)) if rng.random() < 0.5 else 0
        lines[few:few + 4] = spoilt_words(rng, lines[few:few + 4], RECORD_WORDS)
    return lines


# histories

def allowed(rng, machine):
    """Some of the events that may follow; a firing lacks its name."""
    for poster, part in enumerate(machine.wiring.posters):
        place = machine.scripts[poster]
        if place < len(part.posts):
            yield ("post", ("s", poster, place), *part.posts[place])
    for spot in machine.wiring.spots():
        choices = [found for found in machine.choices(spot) if found]
        if choices and machine.is_live(spot) and not machine.is_full(spot):
            yield "fire", None, spot, rng.choice(choices), machine.cuts(spot)
    for waiting in machine.waiting.values():
        if waiting and machine.lets_in(waiting[0]):
            yield "admit", waiting[0]
    yield from (("put", name, machine.drop(name)) for name in machine.tasks if machine.may_be_put(name))
    for queued in machine.queued:
        start = "start", queued[0] if queued else None, rng.randint(len(machine.scripts), 32)
        if queued and machine.refused_by(start) is None:
            yield start
    for name in machine.running:
        task = machine.tasks[name]
        steps = ["end", name, task.play.end], ["end", name, ("shed",)], own_post(machine, name)
        yield from (tuple(step) for step in steps if step and machine.refused_by(tuple(step)) is None)


def own_post(machine, name):
    task = machine.tasks[name]
    return ("post", ("t", *name, task.posted), *task.play.posts[task.posted]) if task.has_post_left() else None


def new_name(rng, machine):
    actor = rng.choice((0, 1, 2, 3, 5, 16, 31, 32))
    after = max((name[1] + 1 for name in machine.tasks if name[0] == actor and name[1] < 5000), default=0)
    name = actor, after if rng.random() < 0.9 else rng.choice((after + 3, 4294967295))
    return (actor, after) if name in machine.tasks else name


def walk(rng, wiring, steps):
    """A machine after so many allowed events, by any actors and in any order, one kind of event seldom among them: so tasks wait, queue up or run on."""
    machine, seldom = Machine(wiring), rng.choice(("admit", "put", "start", "end", "end", None))
    for _ in range(steps):
        choices = list(allowed(rng, machine))
        if not choices:
            break
        often = [event for event in choices if event[0] != seldom]
        kind, name, *rest = rng.choice(often if often and rng.random() < 0.9 else choices)
        machine.add((kind, name or new_name(rng, machine), *rest))
    return machine


class Doubtful:
    """Events whose fields are plausible, so that most of them are refused, each rule by some."""

    def __init__(self, rng, machine):
        self.rng, self.machine = rng, machine
        self.tasks, self.messages = list(machine.tasks) or [(1, 0)], list(machine.messages) or [("s", 0, 0)]

    def event(self):
        near = {self.machine.refused_by(event): event for event in self.shuffled(self.near())}
        if near and self.rng.random() < 0.4:
            return near[self.rng.choice(list(near))]
        return getattr(self, self.rng.choice(("post", "post", "fire", "fire", "fire", "admit", "put", "put", "start", "end", "end")))()

    def shuffled(self, events):
        found = list(events)
        self.rng.shuffle(found)
        return found

    def near(self):
        """Events that miss by little: all is right but what one rule asks last."""
        machine, name = self.machine, new_name(self.rng, self.machine)
        for running in machine.running:
            yield from ([own_post(machine, running)] if machine.tasks[running].has_post_left() else [])
            yield from (("end", running, (how,)) for how in ("done", "yield", "shed"))
        for spot in machine.wiring.spots():
            messages, cuts = machine.choice(spot), machine.cuts(spot)
            if messages and machine.is_live(spot):
                yield "fire", name, spot, messages, cuts if machine.is_full(spot) else cuts[:-1] or [self.rng.choice(self.tasks)]
        yield from (("admit", waiting[0]) for waiting in machine.waiting.values() if waiting and not machine.lets_in(waiting[0]))
        for ready in machine.tasks:
            if machine.may_be_put(ready):
                yield "put", ready, None if machine.drop(ready) else self.rng.choice(self.tasks)
        busy = [machine.tasks[running].actor for running in machine.running]
        yield from (("start", queued[0], self.rng.choice((0, 33, *busy))) for queued in machine.queued if queued)

    def likely(self, found):
        if found and self.rng.random() < 0.8:
            return self.rng.choice(found)
        return self.rng.choice(self.tasks) if self.rng.random() < 0.85 else (self.rng.choice((0, 1, 2, 32, 33)), self.rng.randint(0, 3))

    def script_post(self):
        poster = self.rng.randrange(len(self.machine.scripts))
        posts, place = self.machine.wiring.posters[poster].posts, self.machine.scripts[poster] + self.rng.choice((0, 0, 0, 1))
        return ["s", poster, place], posts[place] if place < len(posts) else (0, (1,), ())

    def task_post(self):
        name = self.likely(self.machine.running)
        task = self.machine.tasks.get(name)
        posts, place = (task.play.posts, task.posted) if task else ([], 0)
        place += self.rng.choice((0, 0, 0, 0, 1))
        return ["t", *name, place], posts[place] if place < len(posts) else (0, (1,), ())

    def post(self):
        name, (port, value, causes) = self.script_post() if self.machine.scripts and self.rng.random() < 0.4 else self.task_post()
        wiring, spoilt = self.machine.wiring, self.rng.random()
        if spoilt < 0.1:
            port = self.rng.randrange(len(wiring.ports))
        elif spoilt < 0.2:
            value = (self.rng.choice((0, 1, 2, 5)),)
        elif spoilt < 0.3:
            causes = tuple(self.rng.sample(range(len(wiring.causes)), self.rng.randint(0, len(wiring.causes))))
        return "post", tuple(name), port, value, causes

    def fire(self):
        spot = self.rng.choice(list(self.machine.wiring.spots()))
        messages, cuts = list(self.rng.choice(self.machine.choices(spot)) or []), self.machine.cuts(spot)
        spoilt = self.rng.random()
        if spoilt < 0.1:
            self.rng.shuffle(messages)
        if 0.1 <= spoilt < 0.2 or not messages:
            messages[:spoilt < 0.15] = [self.rng.choice(self.messages)]
        if self.rng.random() < 0.1:
            cuts = self.rng.choice(([], [self.rng.choice(self.tasks)], cuts[::-1], cuts[:-1]))
        name = new_name(self.rng, self.machine) if self.rng.random() < 0.9 else self.rng.choice((self.likely([]), (33, 0), (4294967295, 1)))
        return "fire", name, spot, messages, cuts

    def admit(self):
        return "admit", self.likely([waiting[0] for waiting in self.machine.waiting.values() if waiting])

    def put(self):
        name = self.likely([it for it in self.machine.tasks if self.machine.may_be_put(it)])
        dropped = self.machine.drop(name) if name in self.machine.tasks and self.rng.random() < 0.7 else self.rng.choice((None, self.likely([])))
        return "put", name, dropped

    def start(self):
        name = self.likely([queued[0] for queued in self.machine.queued if queued])
        return "start", name, self.rng.choice((0, 1, 2, 3, 4, 31, 32, 33, 4294967295))

    def end(self):
        name = self.likely(self.machine.running)
        task, hows = self.machine.tasks.get(name), (("done",), ("yield",), ("shed",), ("shed",), ("failed", (self.rng.randint(0, 2),)))
        return "end", name, task.play.end if task and self.rng.random() < 0.5 else self.rng.choice(hows)


def spoilt_history(rng, lines):
    """Lines of events with a word or a line lost, doubled, swapped or another."""
    lines = list(lines) or ["admit t1.0"]
    for _ in range(rng.choice((1, 1, 1, 2, 3))):
        line, other = rng.randrange(len(lines)), rng.randrange(len(lines))
        words = lines[line].split(" ")
        own = [word for it in lines for word in it.split(" ")]
        place, word = rng.randrange(len(words)), rng.choice(HISTORY_WORDS if rng.random() < 0.5 else own)
        kind = rng.choice(("put", "put", "put", "add", "lose", "lose line", "double line", "swap lines", "next line", "stretch"))
        if kind == "lose line" and len(lines) > 1:
            del lines[line]
        elif kind == "double line":
            lines.insert(other, lines[line])
        elif kind in ("swap lines", "next line"):
            other = other if kind == "swap lines" else min(line + 1, len(lines) - 1)
            lines[line], lines[other] = lines[other], lines[line]
        elif kind == "stretch":
            lines[line] += rng.choice((" ", "x", "\r", "0", " cut t1.0", " drop t1.0", " u"))
        else:
            words[place:place + (kind != "add")] = [] if kind == "lose" else [word]
            lines[line] = " ".join(words)
    return lines


def spoilt_report(rng, text):
    """The report with a line lost, doubled or another, or cut short, or with more behind it."""
    lines = text.splitlines(keepends=True)
    place = rng.randrange(len(lines))
    line, rest = lines[place], lines[place + 1:]
    return "".join(rng.choice((
        lines[:place] + rest, lines[:place] + [line, line] + rest, lines[:place],
        lines[:place] + [line.replace(rng.choice("0123"), rng.choice("0123456"), 1)] + rest,
        lines[:place] + [line.rstrip("\n") + rng.choice((" \n", "\r\n", ""))] + rest,
        lines + [rng.choice(("\n", "x", "done 0\n", " "))], lines[:-1] + [rng.choice(("done 6\n", "done 0\n", "done 0", "done 7\n"))],
        [text[:rng.randint(0, len(text))]],
    )))


def event_lines(machine):
    return [histories.event_text(machine.wiring, event) for event in machine.events]


# services

def asks(rng, operations, most):
    for _ in range(rng.randint(0, most)):
        yield ["ask", rng.choice(operations), str(rng.choice(NUMBERS))]


def service(rng):
    """The lines of a service; the policy may stand anywhere outside the clients, and an operation behind clients that don't ask for it."""
    names = [name for name in SERVICE_NAMES if name.isalnum() and name[0].isalpha() and len(name) <= 12] + [f"n{number}" for number in range(20)]
    rng.shuffle(names)
    operations, blocks = [], []
    for _ in range(rng.randint(1, 5)):
        group = rng.choice(("concurrent", "concurrent", "exclusive", "exclusive", "teardown"))
        expression = rng.choice((["arg", rng.choice(("0", "0", "00", "1", "65535"))], ["sum"], ["count"], [str(rng.choice(NUMBERS))]))
        below = ["below", str(rng.choice((0, 1, 3, 4, 5, 18446744073709551615)))] if rng.random() < 0.5 else []
        operations.append(names.pop())
        blocks.append([["op", operations[-1], group, *expression, *below]])
        if rng.random() < 0.4:
            blocks.append([["client", names.pop()], *asks(rng, operations, 8), ["end"]])
    blocks.append([["client", names.pop()], *asks(rng, operations, 20), ["end"]])
    if rng.random() < 0.6:
        policy = rng.choice((["unbounded"], ["discard", rng.choice("1123")], ["throttle", rng.choice("1123")]))
        blocks.insert(rng.randint(0, len(blocks)), [["policy", *policy]])
    return [["service", "1"], *itertools.chain(*blocks)]


def service_at_a_limit(rng):
    """A service with as many lines, or as great numbers, as there may be, or one or two more or fewer."""
    more = rng.choice((-1, 0, 0, 1, 1, 1, 2))
    lines = rng.choice((
        lambda: many("op k{} exclusive sum", 31 + more), lambda: many("op k{} exclusive sum below 3", 31 + more),
        lambda: many("client k{}\nend", 16 + more), lambda: ["client k", *["ask a 1"] * 6000, "end", "client l", *["ask a 2"] * (4000 + more), "end"],
        lambda: [f"policy {rng.choice(('discard', 'throttle'))} {rng.choice((0, 1, 1000, 1001))}", *["policy unbounded"] * (more == 2)],
        lambda: [f"op k concurrent arg {65535 + more}"], lambda: ["op " + "k" * (12 + more) + " concurrent sum", "client k", "end"], lambda: [],
        lambda: ["policy discard 2", rng.choice(("", "client k", "#")), "policy throttle x"], lambda: [f"op k {rng.choice(('exclusive', 'shared'))} sum 3"],
        lambda: ["op k teardown sum", rng.choice(("op", "client")) + " k", "exclusive sum"], lambda: ["client k", f"ask {rng.choice('ak')} 1", "end"],
        lambda: ["op k exclusive " + rng.choice(("1,2", "part 0 0", "arg", "sum below", "sum above 3", "1 below 3", "1 below x 4", "below 3", "1 below 0"))],
    ))()
    tail = rng.choice(([], ["x y"], ["end"], ["op"], ["client"], ["ask"], ["client zz", "end"], ["client zz"]))
    head = ["service 1"] + ["op a concurrent arg 0"] * (rng.random() < 0.95)
    if rng.random() < 0.1:
        head, lines, tail = head[:1], [], rng.choice(([], ["#"], ["policy unbounded"], ["client k", "end"], ["client k"]))
    return "".join(line + "\n" for line in [*head, *lines, *tail]).encode()


# words

def call_words(rng):
    if rng.random() < 0.5:
        return [rng.choice(CALL_WORDS) for _ in range(rng.randint(0, 5))]
    options = [b"--workers", rng.choice((b"0", b"3", b"016"))], [b"--workers=2"], [b"--size", b"3"], [b"--size=0007"], [b"--json"], [b"--schedule"], [b"--"]
    words = [rng.choice(CALL_WORDS[:10])]
    for option in rng.sample(options, rng.randint(0, 3)):
        words = rng.choice((option + words, words + option))
    if rng.random() < 0.3:
        words.insert(rng.randint(0, len(words)), rng.choice(CALL_WORDS))
    return words
