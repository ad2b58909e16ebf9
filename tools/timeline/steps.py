"""The steps of a run, as `ccr steps` writes them: each place with a lane, and each actor with one for its attempts.

A bar at a port is a claim, from `got` to `consume` or `free`; a claim that was lost, or found too few, is a mark in the same lane. A bar at a queue is a
booking up to its put or its end, then the task up to its start. An actor's lane has its attempts, from their first step to the firing or to their last.
A column is a stamp; stamps at which actors only asked and nothing was there share one, up to the next stamp at which something was.
"""
import re

from .drawing import Page, Refused
from .events import posters_of, poster

TASK = re.compile(r"t(\d+)\.\d+$")
PLACES = ("port", "arbiter", "site", "queue")
MARKS = {"busy": "lost", "short": "short", "full": "lost"}


class Steps(Page):
    def __init__(self, posters):
        super().__init__()
        self.posters, self.claims, self.booked, self.queued, self.attempts = posters, {}, {}, {}, {}
        self.columns, self.asked = {}, {}

    def actor(self, number):
        return poster(str(number), self.posters) if number < len(self.posters) else f"actor {number}"

    def number(self, lines):
        """The columns of the stamps."""
        busy = {}
        for words in (line.split(" ") for line in lines):
            if len(words) > 4 and words[0] == "step" and words[1].isdigit():
                busy[int(words[1])] = busy.get(int(words[1]), False) or not is_idle(words)
        column, was_busy = -1, True
        for stamp in sorted(busy):
            column += busy[stamp] or was_busy
            self.columns[stamp], was_busy = column, busy[stamp]
        return column + 1

    def add(self, line):
        words = line.split(" ")
        if words[0] != "step" or not all(word.isdigit() for word in words[1:3]):
            raise Refused(f"no step: '{line}'")
        at, actor = self.columns[int(words[1])], int(words[2])
        width = 1 if words[3] == "meter" else 2
        if words[3] not in (*PLACES, "meter"):
            raise Refused(f"'{words[3]}' is no place")
        lane, note = " ".join(words[3:3 + width]), words[3 + width:]
        method = getattr(self, f"on_{note[0]}", None)
        if method is None:
            raise Refused(f"'{note[0]}' is no note of a step")
        method(at, self.actor(actor), lane, note, line)

    def in_order(self):
        """Actors first, by their numbers, then ports, arbiters, sites, queues and the meter."""
        places = [*PLACES, "meter"]
        order = {name: (places.index(name.split(" ")[0]) + 1 if name.split(" ")[0] in places else 0) for name in self.lanes}
        actors = {self.actor(number): number for number in range(64)}
        self.lanes = dict(sorted(self.lanes.items(), key=lambda it: (order[it[0]], actors.get(it[0], it[1]))))

    def mark(self, lane, at, kind, label, line):
        self.bar(lane, at, at + 1, kind, label, line)

    def nothing(self, lane, at, line):
        """One mark for all that was asked there in vain."""
        self.lane(lane)
        self.asked.setdefault((lane, at), []).append(line)

    # attempts

    def attempt(self, at, name, line, actor):
        """One more step of the attempt, which its actor makes."""
        first, _, lines, fate, _ = self.attempts.get(name, (at, at, [], "given", actor))
        self.attempts[name] = first, at, [*lines, line], fate, actor

    def ends(self):
        """The bars of the attempts, once all steps are known: what fired, and what gave up."""
        self.in_order()
        for name, (first, last, lines, fate, actor) in self.attempts.items():
            self.bar(actor, first, last + 1, fate, name, "\n".join(lines))
        for (lane, at), lines in self.asked.items():
            self.bar(lane, at, at + 1, "none", str(len(lines)), "\n".join(lines))
        for lane, (name, at, lines) in self.claims.items():
            self.bar(lane, at, at + 1, "held", name, "\n".join(lines))
        for (lane, name), (at, lines) in [*self.booked.items(), *self.queued.items()]:
            self.bar(lane, at, at + 1, "queue", name, "\n".join(lines))

    # notes, each (column, actor's lane, place's lane, words, line)

    def on_post(self, at, actor, lane, note, line):
        self.bar(lane, at, at + 1, "post", "", line)
        self.bar(actor, at, at + 1, "post", "", line)

    def on_claim(self, at, actor, lane, note, line):
        name = note[1]
        self.attempt(at, name, line, actor)
        if note[2] == "got":
            self.claims[lane] = name, at, [line]
        else:
            rival = f" < {note[3]}" if note[2] == "busy" else ""
            self.mark(lane, at, MARKS[note[2]], name + rival, line)

    def on_consume(self, at, actor, lane, note, line):
        self.unclaim(at, actor, lane, note, line, "taken")

    def on_free(self, at, actor, lane, note, line):
        self.unclaim(at, actor, lane, note, line, "freed")

    def unclaim(self, at, actor, lane, note, line, kind):
        _, first, lines = self.claims.pop(lane, (note[1], at, []))
        self.attempt(at, note[1], line, actor)
        self.bar(lane, first, at + 1, kind, note[1], "\n".join([*lines, line]))

    def on_fired(self, at, actor, lane, note, line):
        self.attempt(at, note[1], line, actor)
        first, last, lines, _, actor = self.attempts[note[1]]
        self.attempts[note[1]] = first, last, lines, "fire", actor
        self.mark(lane, at, "fire", note[1], line)

    def on_dead(self, at, actor, lane, note, line):
        self.attempt(at, note[1], line, actor)
        self.mark(lane, at, "lost", " < ".join([note[1], *note[3:]]), line)

    def on_book(self, at, actor, lane, note, line):
        self.attempt(at, note[1], line, actor)
        if "full" in note:
            self.mark(lane, at, "lost", note[1], line)
        else:
            self.booked[lane, note[1]] = at, [line]

    def on_unbook(self, at, actor, lane, note, line):
        first, lines = self.booked.pop((lane, note[1]), (at, []))
        if TASK.match(note[1]) and note[1] in self.attempts:
            self.attempt(at, note[1], line, self.attempts[note[1]][4])
        self.bar(lane, first, at + 1, "given", note[1], "\n".join([*lines, line]))

    def on_put(self, at, actor, lane, note, line):
        first, lines = self.booked.pop((lane, note[1]), (at, []))
        self.bar(lane, first, at + 1, "book", note[1], "\n".join([*lines, line]))
        self.queued[lane, note[1]] = at + 1, [line]
        if "drop" in note:
            self.leave(at, lane, note[3], line, "drop")

    def leave(self, at, lane, name, line, kind):
        first, lines = self.queued.pop((lane, name), (at, []))
        self.bar(lane, min(first, at), at + 1, kind, name, "\n".join([*lines, line]))

    def on_take(self, at, actor, lane, note, line):
        if note[1] == "none":
            self.nothing(actor, at, line)
        else:
            self.leave(at, lane, note[1], line, "queue")
            self.mark(actor, at, "note", "start " + note[1], line)

    def on_admit(self, at, actor, lane, note, line):
        if note[1] == "none":
            self.nothing(lane, at, line)
        else:
            self.mark(lane, at, "note", "admit " + note[1], line)

    def on_over(self, at, actor, lane, note, line):
        kind = note[2] if note[2] in ("done", "failed", "shed") else "drop"
        self.mark(lane, at, kind, note[1], line)
        self.mark(actor, at, kind, "end " + note[1], line)

    def on_suspend(self, at, actor, lane, note, line):
        self.mark(lane, at, "yield", note[1], line)

    def on_draw(self, at, actor, lane, note, line):
        self.mark(lane, at, "lost" if note[1] == "none" else "note", note[1], line)

    def on_leave(self, at, actor, lane, note, line):
        self.mark(lane, at, "note", "leave", line)

    def on_left(self, at, actor, lane, note, line):
        self.nothing(lane, at, line)


def is_idle(words):
    """Whether the step's actor asked, and nothing was there."""
    return words[-2:] in (["take", "none"], ["admit", "none"]) or words[3:5] == ["meter", "left"]


def is_steps(lines):
    """Whether it is a text of steps, with or without a wiring before it."""
    return any(line.startswith("step ") for line in lines) and not any(line.startswith("history ") for line in lines)


def read(lines):
    """The page, and how many columns it has."""
    first = next(place for place, line in enumerate(lines) if line.startswith("step "))
    page = Steps(posters_of(lines[:first]))
    columns = page.number(lines[first:])
    for number, line in enumerate(lines[first:], first + 1):
        if line == "done 0":
            page.ends()
            return page, columns
        try:
            page.add(line)
        except Refused as refused:
            raise Refused(f"line {number}: {refused}") from None
        except (IndexError, KeyError):
            raise Refused(f"line {number}: a word is missing, or is another") from None
    raise Refused(f"line {len(lines)}: the text ends before 'done 0'")
