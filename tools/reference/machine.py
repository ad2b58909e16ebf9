"""The machine's rules over a history, event by event, and the order of one thread.

A message is named ("s", actor, place) or ("t", actor, attempt, place), a task (actor, attempt). The events are ("post", message, port, value, causes),
("fire", task, spot, messages, cuts), ("admit", task), ("put", task, dropped or None), ("start", task, actor) and ("end", task, how).
"""
from .handlers import Play, causes_of, holds


class Message:
    def __init__(self, name, port, value, causes):
        self.name, self.port, self.value, self.causes = name, port, value, tuple(causes)


class Task:
    """A task, and what became of it so far."""

    def __init__(self, name, spot, branch, domain):
        self.name, self.root, self.spot, self.segment = name, name, spot, 0
        self.queue, self.handler, self.group, self.domain = branch.queue, branch.handler, branch.group, domain
        self.values, self.causes, self.play, self.posted = [], [], None, 0
        self.is_cut = self.is_put = self.is_dropped = self.was_admitted = False
        self.actor = self.end = None

    def is_running(self):
        return self.actor is not None and self.end is None

    def has_post_left(self):
        return self.posted < len(self.play.posts)


class Machine:
    def __init__(self, wiring):
        self.wiring, self.events = wiring, []
        self.messages, self.tasks = {}, {}
        self.held = [[] for _ in wiring.ports]
        self.queued = [[] for _ in wiring.queues]
        self.waiting, self.admitted, self.suspended = {}, {}, {}
        self.fired, self.scripts, self.running, self.spent = {}, [0] * len(wiring.posters), [], 0

    # what may fire

    def branch(self, spot):
        return self.wiring.branches[spot[0]]

    def domain(self, spot):
        return self.wiring.domain(self.branch(spot).arbiter)

    def is_interleaved(self, spot):
        return spot[1] is None and self.wiring.is_interleave(self.branch(spot).arbiter)

    def is_live(self, spot):
        group = self.branch(spot).group
        if spot[1] is not None:
            return bool(self.suspended.get(spot))
        if group == "always":
            return True
        if group == "once":
            return not self.fired.get(spot)
        fired = [it for it, count in self.fired.items() if count and it[1] is None]
        if group == "choice":
            return not any(self.branch(it).arbiter == self.branch(spot).arbiter for it in fired)
        return not any(self.branch(it).group == "teardown" and self.domain(it) == self.domain(spot) for it in fired)

    def chosen(self, slot):
        port, count, predicate = slot
        found = [name for name in self.held[port] if holds(predicate, self.messages[name].value)]
        return found[:count] if len(found) >= count else None

    def split(self, first, second, count, total):
        """So many of the first port, and what is left of the total from the second."""
        ports = self.held[first], self.held[second]
        if count > len(ports[0]) or total - count > len(ports[1]):
            return None
        return ports[0][:count] + ports[1][:total - count]

    def choices(self, spot):
        """The lists of messages that the spot may take; first the one that the engine takes."""
        if spot[1] is not None:
            return [self.held[self.wiring.ports_of(spot)[0]][:1]]
        pattern = self.branch(spot).pattern
        if pattern[0] == "gather":
            _, total, first, second = pattern
            counts = range(total, -1, -1) if first < second else range(total + 1)
            return [self.split(first, second, count, total) for count in counts]
        found = [self.chosen(slot) for slot in pattern[1]]
        return [None if None in found else [name for names in found for name in names]]

    def choice(self, spot):
        return next((found for found in self.choices(spot) if found), None)

    def is_full(self, spot):
        """Whether the branch's queue is a throttle and has all the tasks that it may have."""
        number = self.branch(spot).queue
        queue = self.wiring.queues[number]
        if spot[1] is not None or queue.policy != "throttle":
            return False
        on_it = [it for it in self.tasks.values() if it.queue == number and it.spot[1] is None]
        return sum(it.actor is None and not it.is_dropped and not it.is_cut for it in on_it) >= queue.limit

    def cuts(self, spot):
        return list(self.waiting.get(self.domain(spot), [])) if spot[1] is None and self.branch(spot).group == "teardown" else []

    # what may follow

    def lets_in(self, name):
        task = self.tasks[name]
        groups = [self.tasks[it].group for it in self.admitted.get(task.domain, [])]
        return all(group == "concurrent" for group in groups) if task.group == "concurrent" else not groups

    def may_be_put(self, name):
        task = self.tasks.get(name)
        return bool(task) and not task.is_put and not task.is_cut and (task.was_admitted or not self.is_interleaved(task.spot))

    def drop(self, name):
        number = self.tasks[name].queue
        queue, queued = self.wiring.queues[number], self.queued[number]
        return queued[0] if queue.policy == "discard" and len(queued) >= queue.limit else None

    def is_covered(self, name):
        """Whether the task may end as shed, by what the other running tasks have left."""
        others = sum(self.tasks[it].has_post_left() for it in self.running if it != name)
        return self.spent + others >= self.wiring.budget

    # the rules

    def refused_by(self, event):
        """The first rule that refuses the event, or None."""
        return getattr(self, "refused_" + event[0])(*event[1:])

    def refused_post(self, name, port, value, causes):
        said = port, value, tuple(causes)
        if name[0] == "s":
            _, poster, place = name
            posts = self.wiring.posters[poster].posts if poster < len(self.scripts) else []
            return None if place < len(posts) and place == self.scripts[poster] and posts[place] == said else 1
        task, place = self.tasks.get(name[1:3]), name[3]
        if not task or not task.is_running() or place != task.posted or not task.has_post_left() or task.play.posts[place] != said:
            return 2
        return 3 if self.spent >= self.wiring.budget else None

    def refused_fire(self, name, spot, messages, cuts):
        if name in self.tasks or name[0] > 32:
            return 4
        if not self.is_live(spot):
            return 5
        if messages not in self.choices(spot):
            return 6
        if self.is_full(spot):
            return 7
        return 8 if cuts != self.cuts(spot) else None

    def refused_admit(self, name):
        if all(waiting[:1] != [name] for waiting in self.waiting.values()):
            return 9
        return None if self.lets_in(name) else 10

    def refused_put(self, name, dropped):
        if not self.may_be_put(name):
            return 11
        return 12 if dropped != self.drop(name) else None

    def refused_start(self, name, actor):
        if all(queued[:1] != [name] for queued in self.queued):
            return 13
        is_busy = any(self.tasks[it].actor == actor for it in self.running)
        return 14 if actor < len(self.scripts) or actor > 32 or is_busy else None

    def refused_end(self, name, how):
        task = self.tasks.get(name)
        if not task or not task.is_running():
            return 15
        if how == ("shed",):
            return None if task.has_post_left() and self.is_covered(name) else 16
        return 16 if task.has_post_left() or task.play.end != how else None

    # what an event changes

    def add(self, event):
        self.events.append(event)
        getattr(self, "add_" + event[0])(*event[1:])

    def add_post(self, name, port, value, causes):
        self.messages[name] = Message(name, port, value, causes)
        self.held[port].append(name)
        if name[0] == "s":
            self.scripts[name[1]] += 1
        else:
            self.tasks[name[1:3]].posted += 1
            self.spent += 1

    def add_fire(self, name, spot, messages, cuts):
        found = [self.messages[it] for it in messages]
        task = self.tasks[name] = Task(name, spot, self.branch(spot), self.domain(spot))
        task.values, task.causes = [it.value for it in found], causes_of(found)
        if spot[1] is not None:
            self.resume(task, self.tasks[self.suspended[spot].pop(0)])
        task.play = Play(self.wiring, task)
        for it in found:
            self.held[it.port].remove(it.name)
        for it in cuts:
            self.tasks[it].is_cut = True
            self.waiting[task.domain].remove(it)
        self.fired[spot] = self.fired.get(spot, 0) + 1
        if self.is_interleaved(spot):
            self.waiting.setdefault(task.domain, []).append(name)

    def resume(self, task, left):
        task.segment, task.root = left.segment + 1, left.root
        task.values = left.values + task.values
        task.causes = list(dict.fromkeys([*left.play.causes, *task.causes]))

    def add_admit(self, name):
        task = self.tasks[name]
        task.was_admitted = True
        self.waiting[task.domain].remove(name)
        self.admitted.setdefault(task.domain, []).append(name)

    def add_put(self, name, dropped):
        task = self.tasks[name]
        task.is_put = True
        if dropped is not None:
            self.queued[task.queue].remove(dropped)
            self.tasks[dropped].is_dropped = True
            self.leave(dropped)
        self.queued[task.queue].append(name)

    def add_start(self, name, actor):
        task = self.tasks[name]
        task.actor = actor
        self.queued[task.queue].remove(name)
        self.running.append(name)

    def add_end(self, name, how):
        task = self.tasks[name]
        task.end = how
        self.running.remove(name)
        if how == ("yield",):
            self.suspended.setdefault((task.spot[0], task.segment), []).append(name)
        else:
            self.leave(name)

    def leave(self, name):
        """The task's root is over."""
        task = self.tasks[name]
        admitted = self.admitted.get(task.domain, [])
        if task.root in admitted:
            admitted.remove(task.root)

    # the order of one thread

    def first(self, closer):
        """The event that comes first where one thread does all, or None where nothing is allowed."""
        finders = self.next_post, lambda: self.next_fire(closer), self.next_admit, self.next_put, self.next_step, lambda: self.next_start(closer)
        return next((event for event in (find() for find in finders) if event), None)

    def next_post(self):
        for poster, part in enumerate(self.wiring.posters):
            place = self.scripts[poster]
            if place < len(part.posts):
                return ("post", ("s", poster, place), *part.posts[place])
        return None

    def next_fire(self, closer):
        for spot in self.wiring.spots():
            messages = self.choice(spot) if self.is_live(spot) and not self.is_full(spot) else None
            if messages:
                attempt = max((name[1] + 1 for name in self.tasks if name[0] == closer), default=0)
                return "fire", (closer, attempt), spot, messages, self.cuts(spot)
        return None

    def next_admit(self):
        names = [self.waiting[domain][0] for domain in sorted(self.waiting) if self.waiting[domain]]
        return next((("admit", name) for name in names if self.lets_in(name)), None)

    def next_put(self):
        return next((("put", name, self.drop(name)) for name in self.tasks if self.may_be_put(name)), None)

    def next_step(self):
        if not self.running:
            return None
        name = self.running[0]
        task = self.tasks[name]
        if not task.has_post_left():
            return "end", name, task.play.end
        if self.spent >= self.wiring.budget:
            return "end", name, ("shed",)
        return ("post", ("t", *name, task.posted), *task.play.posts[task.posted])

    def next_start(self, closer):
        return next((("start", queued[0], closer) for queued in self.queued if queued), None)

    def finish(self, closer):
        while True:
            event = self.first(closer)
            if not event:
                return self
            self.add(event)

    def has_shed(self):
        return any(task.end == ("shed",) for task in self.tasks.values())

    def is_complete(self):
        scripts = [len(part.posts) for part in self.wiring.posters]
        return self.scripts == scripts and (not self.has_shed() or self.spent == self.wiring.budget)

    def is_quiet(self):
        """Whether no event is allowed: one is, by whom ever, exactly where the order of one thread has one."""
        return self.first(len(self.scripts)) is None
