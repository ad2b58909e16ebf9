"""The events of a history, each actor and queue with a lane."""
import re

from .drawing import Page, Refused

TASK = re.compile(r"t(\d+)\.(\d+)$")


def task(word):
    if not TASK.match(word):
        raise Refused(f"'{word}' is no task")
    return word


class Events(Page):
    """Filled event by event. `queues` has the queue of each branch, `posters` the posters' names, `interleaved` the branches of Interleaves."""

    def __init__(self, queues, posters, interleaved):
        super().__init__()
        self.interleaved = interleaved
        self.began, self.waits, self.ran_by, self.queue_of, self.puts = {}, {}, {}, {}, {}
        self.queues, self.posters = queues, posters
        self.spots, self.suspended, self.since = {}, {}, {}

    def add(self, place, line):
        words = line.split(" ")
        method = getattr(self, "on_" + words[0], None)
        if method is None or len(words) < 2:
            raise Refused(f"no event: '{line}'")
        method(place, words, line)

    def on_post(self, place, words, line):
        maker = words[1].rsplit(".", 1)[0]
        lane = poster(maker[1:], self.posters) if maker[0] == "s" else self.ran_by.get(maker, "posts")
        self.bar(lane, place, place + 1, "post", "", line)

    def on_fire(self, place, words, line):
        name = task(words[1])
        self.bar("firings", place, place + 1, "fire", words[2], line)
        self.waits[name] = place
        queue = self.queues.get(words[2].split("@")[0])
        self.queue_of[name] = f"queue {queue}" if queue else "queued"
        self.spots[name] = words[2]
        if "@" in words[2] and self.suspended.get(words[2]):
            self.went_on(self.suspended[words[2]].pop(0), place, "yield", line)
        if "cut" in words:
            for other in words[words.index("cut") + 1:]:
                self.waited(task(other), place, "cut", line)

    def posters_first(self):
        """The posters' lanes, in the order of the wiring, before all others."""
        names = {poster(str(number), self.posters): number for number in range(64)}
        self.lanes = dict(sorted(self.lanes.items(), key=lambda it: (0, names[it[0]]) if it[0] in names else (1, it[1])))

    def went_on(self, name, place, kind, line):
        """The bar of a task that was suspended."""
        first, line_of_end = self.since.pop(name)
        self.bar("suspended", first, place + 1, kind, name, f"{line_of_end}\n{line}")

    def ends(self, columns):
        """What is suspended or waits at the end goes on to the last column, in a colour of its own."""
        for name in list(self.since):
            self.went_on(name, columns, "stuck", "suspended to the end")
        for name, first in self.waits.items():
            if self.waits_for_long(name):
                self.bar("waiting", first, columns + 1, "stuck", name, "waits to the end")
        self.posters_first()

    def waits_for_long(self, name):
        """Whether the task waits for its Interleave, where the wiring tells which branches stand in one."""
        return self.spots.get(name) in self.interleaved

    def waited(self, name, place, kind, line):
        self.bar("cut" if kind == "cut" else "waiting", self.waits.pop(name, place), place + 1, kind, name, line)

    def on_admit(self, place, words, line):
        self.waited(task(words[1]), place, "wait", line)
        self.waits[words[1]] = place

    def on_put(self, place, words, line):
        self.waits.pop(task(words[1]), None)
        self.began[words[1]] = place
        self.puts[words[1]] = line
        if len(words) == 4:
            self.bar("dropped", self.began.pop(task(words[3]), place), place + 1, "drop", words[3], self.since_put(words[3], line))

    def since_put(self, name, line):
        """The line of the task's put, and this one below it."""
        return "\n".join(filter(None, (self.puts.pop(name, None), line)))

    def on_start(self, place, words, line):
        name = task(words[1])
        self.bar(self.queue_of.get(name, "queued"), self.began.pop(name, place), place + 1, "queue", name, self.since_put(name, line))
        self.ran_by[name] = "actor " + words[2]
        self.began[name] = place

    def on_end(self, place, words, line):
        name = task(words[1])
        self.bar(self.ran_by.get(name, "ends"), self.began.pop(name, place), place + 1, words[2], name, line)
        if words[2] == "yield":
            branch, _, site = self.spots.get(name, "").partition("@")
            self.suspended.setdefault(f"{branch}@{int(site) + 1 if site else 0}", []).append(name)
            self.since[name] = place + 1, line


def poster(number, posters):
    """The lane of a poster, by its name where the wiring tells it."""
    return "poster " + (posters[int(number)] if number.isdigit() and int(number) < len(posters) else number)


def queues_of(lines):
    """The queue of each branch of a wiring."""
    found = {}
    for words in map(str.split, lines):
        if len(words) > 3 and words[0] == "receive":
            found[words[1]] = words[3]
        elif len(words) > 2 and words[0] in ("branch", "teardown", "exclusive", "concurrent"):
            found[words[1]] = words[2]
    return found


def interleaved_of(lines):
    return {words[1] for words in map(str.split, lines) if len(words) > 2 and words[0] in ("teardown", "exclusive", "concurrent")}


def posters_of(lines):
    return [words[1] for words in map(str.split, lines) if len(words) == 2 and words[0] == "poster"]


def read(lines):
    """The page, and how many columns it has."""
    first = next((place for place, line in enumerate(lines) if line.startswith("history ")), 0)
    if not lines or lines[first] not in ("history 1", "history 2"):
        is_wiring = any(line.split() in (["ccr", "1"], ["ccr", "2"]) for line in lines)
        more = ": this is a wiring, and what `ccr run` writes of it is due behind it" if is_wiring else ""
        raise Refused("line 1: the first line is neither 'history 1' nor 'history 2'" + more)
    page = Events(queues_of(lines[:first]), posters_of(lines[:first]), interleaved_of(lines[:first]))
    for number, line in enumerate(lines[first + 1:], first + 2):
        place = number - first - 2
        if line == "report 1" or line.startswith(("{", "client ")):
            page.ends(place)
            return page, place
        try:
            page.add(place, line)
        except Refused as refused:
            raise Refused(f"line {number}: {refused}") from None
        except IndexError:
            raise Refused(f"line {number}: a word is missing") from None
    raise Refused(f"line {len(lines)}: the text ends before its report")
