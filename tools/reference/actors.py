"""The places, each with what it keeps, and the actors, step by step: one command to one place a step."""
from . import spelling
from .handlers import Play, causes_of, holds, union
from .histories import message_text, task_text
from .machine import Message, Task

ANY = ("any",)


class Places:
    """Ports, arbiters, sites, queues and the meter. Each step is kept as an entry (stamp, actor, place, note), what can be seen of them as events."""

    def __init__(self, wiring):
        self.wiring, self.events, self.entries, self.stamps = wiring, [], [], {}
        self.messages = [[] for _ in wiring.ports]
        self.claims, self.fired, self.waiting, self.admitted, self.suspended = {}, {}, {}, {}, {}
        self.booked = [{} for _ in wiring.queues]
        self.queued = [[] for _ in wiring.queues]
        self.drawn = self.gone = 0

    def act(self, actor, ask):
        return getattr(self, "do_" + ask[0])(actor, *ask[1:])

    def note(self, actor, place, *words):
        """The stamp is one more than the greater of the place's last and the actor's last."""
        stamp = 1 + max(self.stamps.get(place, 0), self.stamps.get(actor, 0))
        self.stamps[place] = self.stamps[actor] = stamp
        self.entries.append((stamp, actor, place, " ".join(map(str, words))))

    def port(self, number):
        return f"port {self.wiring.ports[number]}"

    def queue(self, number):
        return f"queue {self.wiring.queues[number].name}"

    def arbiter(self, number):
        return f"arbiter {self.wiring.arbiters[number].name}"

    def site(self, spot):
        return f"site {self.wiring.spot_name(spot)}"

    def do_post(self, actor, name, port, value, causes):
        self.messages[port].append(Message(name, port, value, causes))
        self.events.append(("post", name, port, value, tuple(causes)))
        self.note(actor, self.port(port), "post", message_text(name))

    def do_claim(self, actor, name, port, least, most, predicate):
        """The messages that are marked, or None where another claim stands or there are too few."""
        place, words = self.port(port), ("claim", task_text(name))
        if port in self.claims:
            self.note(actor, place, *words, "busy", task_text(self.claims[port][0]))
            return None
        found = [it for it in self.messages[port] if holds(predicate, it.value)][:most]
        self.note(actor, place, *words, "short" if len(found) < least else "got", len(found))
        if len(found) < least:
            return None
        self.claims[port] = name, found
        return found

    def do_consume(self, actor, name, port):
        owner, found = self.claims.pop(port)
        assert owner == name
        self.messages[port] = [it for it in self.messages[port] if it not in found]
        self.note(actor, self.port(port), "consume", task_text(name))

    def do_free(self, actor, name, port):
        assert self.claims.pop(port)[0] == name
        self.note(actor, self.port(port), "free", task_text(name))

    def do_commit(self, actor, task, messages):
        """The task, unless it waits now, and the cut tasks; or None where the spot fires no more."""
        is_site, name = task.spot[1] is not None, task_text(task.name)
        place = self.site(task.spot) if is_site else self.arbiter(task.domain)
        if is_site:
            if not self.suspended.get(task.spot):
                self.note(actor, place, "dead", name, "none")
                return None
            self.resume(task, self.suspended[task.spot].pop(0))
        elif task.domain in self.fired:
            self.note(actor, place, "dead", name, "by", task_text(self.fired[task.domain]))
            return None
        elif task.group in ("once", "choice", "teardown"):
            self.fired[task.domain] = task.name
        cuts = self.waiting.pop(task.domain, []) if task.group == "teardown" and not is_site else []
        self.events.append(("fire", task.name, task.spot, messages, [it.name for it in cuts]))
        self.note(actor, place, "fired", name)
        if not is_site and task.group in ("teardown", "exclusive", "concurrent"):
            self.waiting.setdefault(task.domain, []).append(task)
            return None, cuts
        return task, cuts

    def resume(self, task, left):
        task.segment, task.root = left.segment + 1, left.root
        task.values, task.causes = left.values + task.values, union(left.causes, task.causes)

    def do_admit(self, actor, domain):
        task = self.admissible(domain)
        self.note(actor, self.arbiter(domain), "admit", task_text(task.name) if task else "none")
        if task:
            self.waiting[domain].pop(0)
            self.admitted[domain][task.name] = task.group
            self.events.append(("admit", task.name))
        return task

    def admissible(self, domain):
        """The task that waits longest, where those that are admitted let it in."""
        waiting, admitted = self.waiting.get(domain, []), self.admitted.setdefault(domain, {})
        if not waiting:
            return None
        task = waiting[0]
        if any(group != "concurrent" for group in admitted.values()) if task.group == "concurrent" else admitted:
            return None
        return task

    def do_over(self, actor, task, how):
        if self.wiring.is_interleave(task.domain):
            del self.admitted[task.domain][task.root]
        if how != ("dropped",):
            self.events.append(("end", task.name, how))
        self.note(actor, self.arbiter(task.domain), "over", task_text(task.name), how[0], *map(spelling.value, how[1:]))

    def do_suspend(self, actor, task):
        spot = task.spot[0], task.segment
        self.suspended.setdefault(spot, []).append(task)
        self.events.append(("end", task.name, ("yield",)))
        self.note(actor, self.site(spot), "suspend", task_text(task.name))

    def do_book(self, actor, queue, name, resumes):
        part = self.wiring.queues[queue]
        there = sum(not it for it in self.booked[queue].values()) + sum(it.spot[1] is None for it in self.queued[queue])
        is_full = part.policy == "throttle" and not resumes and there >= part.limit
        self.note(actor, self.queue(queue), "book", task_text(name), *(("full", there) if is_full else ()))
        if not is_full:
            self.booked[queue][name] = resumes
        return not is_full

    def do_unbook(self, actor, queue, name):
        del self.booked[queue][name]
        self.note(actor, self.queue(queue), "unbook", task_text(name))

    def do_put(self, actor, task):
        """The task that is dropped for it, or None."""
        part, queued = self.wiring.queues[task.queue], self.queued[task.queue]
        del self.booked[task.queue][task.name]
        dropped = queued.pop(0) if part.policy == "discard" and len(queued) >= part.limit else None
        queued.append(task)
        self.events.append(("put", task.name, dropped and dropped.name))
        self.note(actor, self.queue(task.queue), "put", task_text(task.name), *(("drop", task_text(dropped.name)) if dropped else ()))
        return dropped

    def do_take(self, actor, queue):
        task = self.queued[queue].pop(0) if self.queued[queue] else None
        self.note(actor, self.queue(queue), "take", task_text(task.name) if task else "none")
        if task:
            self.events.append(("start", task.name, actor))
        return task

    def do_draw(self, actor):
        is_drawn = self.drawn < self.wiring.budget
        self.note(actor, "meter", "draw", self.drawn if is_drawn else "none")
        self.drawn += is_drawn
        return is_drawn

    def do_leave(self, actor):
        self.gone += 1
        self.note(actor, "meter", "leave")

    def do_left(self, actor):
        self.note(actor, "meter", "left", self.gone)
        return self.gone


class Actor:
    """A poster or a worker, as a generator of asks that is sent the replies."""

    def __init__(self, wiring, number):
        self.wiring, self.number, self.attempts = wiring, number, 0
        self.steps = self.poster() if number < len(wiring.posters) else self.worker()
        self.ask = next(self.steps)

    def step(self, places):
        """The next step, where there is one."""
        if self.ask is not None:
            try:
                self.ask = self.steps.send(places.act(self.number, self.ask))
            except StopIteration:
                self.ask = None

    def spots_at(self, port):
        return [spot for spot in self.wiring.spots() if port in self.wiring.ports_of(spot)]

    # an attempt to fire

    def claim(self, name, spot, found):
        """Claims port by port, the lowest first, and answers whether all were got."""
        branch = self.wiring.branches[spot[0]]
        if spot[1] is not None:
            slots = [(self.wiring.ports_of(spot)[0], 1, ANY)]
        elif branch.pattern[0] == "take":
            slots = sorted(branch.pattern[1])
        else:
            return (yield from self.claim_gather(name, branch.pattern, found))
        for port, count, predicate in slots:
            got = yield "claim", name, port, count, count, predicate
            if got is None:
                return False
            found[port] = got
        return True

    def claim_gather(self, name, pattern, found):
        _, total, *ports = pattern
        low, high = sorted(ports)
        for port, least in (low, 0), (high, None):
            most = total if port == low else total - len(found[low])
            got = yield "claim", name, port, most if least is None else least, most, ANY
            if got is None:
                return False
            found[port] = got
        return True

    def task(self, name, spot, found):
        branch = self.wiring.branches[spot[0]]
        messages = [it for port in self.wiring.ports_of(spot) for it in found[port]]
        made = Task(name, spot, branch, self.wiring.domain(branch.arbiter))
        made.values, made.causes = [it.value for it in messages], causes_of(messages)
        return made, [it.name for it in messages]

    def attempt(self, spot):
        """Where it fired: the domain where the task waits or None, and the task that its put dropped or None. Else None."""
        name, queue, found = (self.number, self.attempts), self.wiring.branches[spot[0]].queue, {}
        self.attempts += 1
        if not (yield "book", queue, name, spot[1] is not None):
            return None
        if (yield from self.claim(name, spot, found)):
            made, messages = self.task(name, spot, found)
            fired = yield "commit", made, messages
            if fired:
                return (yield from self.settle(made, found, *fired))
        for port in sorted(found, reverse=True):
            yield "free", name, port
        yield "unbook", queue, name
        return None

    def settle(self, made, found, task, cuts):
        for port in sorted(found):
            yield "consume", made.name, port
        for cut in cuts:
            yield "unbook", cut.queue, cut.name
        if task is None:
            return made.domain, None
        return None, (yield "put", task)

    def drive(self, spots):
        """Tries each spot as long as it fires."""
        for spot in spots:
            while fired := (yield from self.attempt(spot)):
                domain, dropped = fired
                if domain is not None:
                    yield from self.admissions(domain)
                if dropped:
                    yield from self.over(dropped, ("dropped",))

    def over(self, task, how):
        yield "over", task, how
        if self.wiring.is_interleave(task.domain):
            yield from self.admissions(task.domain)

    def admissions(self, domain):
        domains = [domain]
        while domains:
            task = yield "admit", domains[0]
            if not task:
                domains.pop(0)
                continue
            dropped = yield "put", task
            if dropped:
                yield "over", dropped, ("dropped",)
                if self.wiring.is_interleave(dropped.domain) and dropped.domain not in domains:
                    domains.append(dropped.domain)

    # the two kinds of actors

    def poster(self):
        for place, (port, value, causes) in enumerate(self.wiring.posters[self.number].posts):
            yield "post", ("s", self.number, place), port, value, causes
            yield from self.drive(self.spots_at(port))
        yield ("leave",)

    def worker(self):
        empty = 0
        while True:
            gone = yield ("left",)
            task = yield from self.taken()
            if task:
                yield from self.work(task)
                continue
            empty += 1
            if gone == len(self.wiring.posters) or empty == 10000:
                return

    def taken(self):
        for queue in range(len(self.wiring.queues)):
            task = yield "take", queue
            if task:
                return task
        return None

    def work(self, task):
        if self.wiring.queues[task.queue].policy == "throttle":
            yield from self.drive([(number, None) for number, it in enumerate(self.wiring.branches) if it.queue == task.queue])
        play = Play(self.wiring, task)
        for place, (port, value, causes) in enumerate(play.posts):
            if not (yield ("draw",)):
                yield from self.over(task, ("shed",))
                return
            yield "post", ("t", *task.name, place), port, value, causes
            yield from self.drive(self.spots_at(port))
        if play.end == ("yield",):
            task.causes = play.causes
            yield "suspend", task
            yield from self.drive([(task.spot[0], task.segment)])
        else:
            yield from self.over(task, play.end)


class Run:
    """The actors of a wiring at its places, moved turn by turn; a turn of an actor at rest does nothing."""

    def __init__(self, wiring, workers, turns):
        self.places = Places(wiring)
        self.actors = [Actor(wiring, number) for number in range(len(wiring.posters) + workers)]
        for turn in turns:
            self.actors[turn].step(self.places)

    def is_at_rest(self):
        return all(actor.ask is None for actor in self.actors)


def visible(wiring, workers, turns):
    """The events that can be seen of these turns."""
    return Run(wiring, workers, turns).places.events
