"""What is wrong with a line of a judged output, and what is due there."""
from reference import histories, lines, wiring
from reference.histories import event_text, message_text, task_text
from reference.machine import Machine

from . import shown

FORMS = {"post": "post MSG PORT VALUE CAUSE ..", "fire": "fire TASK SPOT MSG ..   or   .. cut TASK ..", "admit": "admit TASK",
         "put": "put TASK   or   put TASK drop TASK", "start": "start TASK ACTOR", "end": "end TASK done|yield|shed   or   end TASK failed VALUE"}


class Output:
    """The wiring, the lines of the output, and the machine after the events before the line at hand."""

    def __init__(self, found, all_lines, first):
        self.wiring, self.lines, self.first = found, all_lines, first
        self.names, self.machine, self.since = histories.Names(found), Machine(found), {}

    def events_before(self, line):
        """Reads the events before that line, which the program allowed. False where one of them is no event."""
        for number in range(self.first + 1, line):
            try:
                event = self.names.event(self.lines[number - 1])
            except (histories.Form, histories.Unknown):
                return False
            self.machine.add(event)
            self.note(event, number)
        return True

    def note(self, event, number):
        kind, name = event[:2]
        self.since[kind, name] = number
        if kind == "fire":
            self.since.update({("cut", it): number for it in event[3 + 1]})
        elif kind == "put" and event[2] is not None:
            self.since["drop", event[2]] = number

    def on(self, kind, name):
        return f"on line {self.since[kind, name]}"

    def state(self, name):
        """Where the task is, in words."""
        task, text = self.machine.tasks.get(name), task_text(name)
        if not task:
            return f"{text} never fired"
        if task.is_cut or task.is_dropped:
            return f"{text} was cut {self.on('cut', name)}" if task.is_cut else f"{text} was dropped {self.on('drop', name)}"
        if task.end or task.actor is not None:
            return f"{text} ended {self.on('end', name)}" if task.end else f"{text} runs since line {self.since['start', name]}"
        if task.is_put:
            return f"{text} is queued in '{self.wiring.queues[task.queue].name}' since line {self.since['put', name]}"
        if task.was_admitted:
            return f"{text} was admitted {self.on('admit', name)} and isn't put"
        waits = " and waits for its Interleave" if self.machine.is_interleaved(task.spot) else " and isn't put"
        return f"{text} fired {self.on('fire', name)}{waits}"

    def due_post(self, name):
        """The next post of a running task, or how its segment ends."""
        task = self.machine.tasks[name]
        if task.has_post_left():
            return "due: " + event_text(self.wiring, ("post", ("t", *name, task.posted), *task.play.posts[task.posted]))
        return "due: " + event_text(self.wiring, ("end", name, task.play.end))

    # the rules

    def rule_1(self, name, *_):
        _, poster, _ = name
        posters = self.wiring.posters
        if poster >= len(posters):
            return f"'{message_text(name)}': there are {len(posters)} posters, with the numbers from 0"
        place, posts = self.machine.scripts[poster], posters[poster].posts
        if place >= len(posts):
            return f"the script of '{posters[poster].name}' is through: it has {len(posts)} posts"
        return "due: " + event_text(self.wiring, ("post", ("s", poster, place), *posts[place]))

    def rule_2(self, name, *_):
        task = self.machine.tasks.get(name[1:3])
        return self.due_post(name[1:3]) if task and task.is_running() else self.state(name[1:3])

    def rule_3(self, name, *_):
        return f"'budget' is {self.wiring.budget}, and tasks have posted that many: due: end {task_text(name[1:3])} shed"

    def rule_4(self, name, *_):
        return f"'{task_text(name)}': " + (f"a task of this name fired {self.on('fire', name)}" if name in self.machine.tasks else "an actor is 0 to 32")

    def rule_5(self, name, spot, *_):
        if spot[1] is not None:
            return f"nobody is suspended at '{self.wiring.spot_name(spot)}'"
        branch = self.machine.branch(spot)
        ends = {"once": ("it fires once", lambda it: it.spot == spot),
                "choice": ("one branch of a choice fires, once", lambda it: it.spot[1] is None and self.machine.branch(it.spot).arbiter == branch.arbiter)}
        down = "a teardown fired", lambda it: it.spot[1] is None and it.group == "teardown" and self.machine.domain(it.spot) == self.machine.domain(spot)
        why, holds = ends.get(branch.group, down)
        task = next(it for it in self.machine.tasks.values() if holds(it))
        return f"'{self.wiring.spot_name(spot)}' can't fire: {why}: {task_text(task.name)} of '{self.wiring.spot_name(task.spot)}' {self.on('fire', task.name)}"

    def rule_6(self, name, spot, *_):
        found = [it for it in self.machine.choices(spot) if it]
        if not found:
            held = {self.wiring.ports[port]: len(self.machine.held[port]) for port in self.wiring.ports_of(spot)}
            return f"'{self.wiring.spot_name(spot)}' has nothing to take: " + ", ".join(f"'{port}' holds {count}" for port, count in held.items())
        return "due: " + " ".join(map(message_text, found[0])) + (f", or another of {len(found)} splits" if len(found) > 1 else "")

    def rule_7(self, name, spot, *_):
        part = self.wiring.queues[self.machine.branch(spot).queue]
        return f"'{part.name}' is 'throttle {part.limit}', and {part.limit} tasks that it is for haven't started"

    def rule_8(self, name, spot, *_):
        cuts = self.machine.cuts(spot)
        return "due behind the messages: cut " + " ".join(map(task_text, cuts)) if cuts else "no 'cut' is due: " + (
            "no task waits" if self.machine.branch(spot).group == "teardown" else "only a teardown cuts tasks")

    def rule_9(self, name):
        task = self.machine.tasks.get(name)
        waiting = self.machine.waiting.get(task.domain, []) if task else []
        return f"{task_text(waiting[0])} waits longer: due: admit {task_text(waiting[0])}" if name in waiting else self.state(name)

    def rule_10(self, name):
        admitted = self.machine.admitted.get(self.machine.tasks[name].domain, [])
        group = self.machine.tasks[name].group
        return f"{task_text(name)} is {group}; admitted and not over: " + ", ".join(
            f"{task_text(it)} ({self.machine.tasks[it].group}, since line {self.since['admit', it]})" for it in admitted)

    def rule_11(self, name, *_):
        return self.state(name)

    def rule_12(self, name, *_):
        return "due: " + event_text(self.wiring, ("put", name, self.machine.drop(name)))

    def rule_13(self, name, *_):
        task = self.machine.tasks.get(name)
        queued = self.machine.queued[task.queue] if task else []
        return f"{task_text(queued[0])} is the oldest in '{self.wiring.queues[task.queue].name}'" if name in queued else self.state(name)

    def rule_14(self, name, actor):
        posters = len(self.wiring.posters)
        if actor < posters:
            return f"'{actor}' is a poster, '{self.wiring.posters[actor].name}': workers begin with {posters}"
        busy = next((it for it in self.machine.running if self.machine.tasks[it].actor == actor), None)
        return f"actor '{actor}' runs {task_text(busy)} since line {self.since['start', busy]}" if busy else f"'{actor}': an actor is 0 to 32"

    def rule_15(self, name, *_):
        return self.state(name)

    def rule_16(self, name, how):
        if how == ("shed",) and self.machine.tasks[name].has_post_left():
            return f"'shed' is for a spent budget: {self.machine.spent} of {self.wiring.budget} posts are made; {self.due_post(name)}"
        return self.due_post(name)

    def says_illegal(self, line, rule):
        event = self.names.event(self.lines[line - 1])
        if self.machine.refused_by(event) != rule:
            return None
        return [getattr(self, f"rule_{rule}")(*event[1:])]

    # lines that are no events

    def says_malformed(self, line, code):
        text = self.lines[line - 1]
        if code == 3:
            return ["the text ends here, without the line 'report 1'", "the output was cut off, or it is a log: tools/report WIRING LOG judges one without a report"]
        if line == self.first:
            more = ", and no carriage return at its end" if text.endswith(b"\r") else ""
            return [f"due: history {self.wiring.version}{more}"]
        try:
            self.names.event(text)
        except histories.Unknown:
            return [self.unknown(text)] if code == 2 else None
        except histories.Form:
            return self.off_form(text) if code == 1 else None
        return ["the line lacks its line feed"] if code == 1 and line == len(self.lines) else None

    def unknown(self, text):
        kind, *words = text.decode().split(" ")
        ports, causes = list(self.wiring.ports), [part.name for part in self.wiring.causes]
        branches = [part.name for part in self.wiring.branches]
        asked = [("port", ports, words[1]), *[("cause", causes, it) for it in words[3:]]] if kind == "post" else [("branch", branches, words[1].split("@")[0])]
        what, known, word = next((it for it in asked if it[2] not in it[1]), ("await site", [], words[1]))
        return f"the wiring has no {what} '{word}'" + shown.near(word, known)

    def off_form(self, text):
        words = shown.plain(text).split(" ")
        form = FORMS.get(words[0])
        if text.endswith(b"\r"):
            return ["the line ends with a carriage return, which no line of a history has"]
        if "" in words:
            return ["one blank stands between two words, and none at an end"]
        if words[0].startswith("{"):
            return ["this is what 'run --json' writes; 'verify' reads what 'run' writes without it"]
        if words[0] == "report":
            return ["due: report 1"]
        if not form:
            return [f"'{words[0]}' begins no line of a history" + shown.near(words[0], FORMS)]
        odd = next((word for place, word in enumerate(words[1:]) if not self.fits(words[0], place, word.encode(), words)), None)
        return [f"'{odd}' isn't what is due" if odd else "a word is missing or too many", "a line of this kind: " + form]

    def fits(self, kind, place, word, words):
        """Whether the word behind the first one has the form of its place; false for one that has none there."""
        if kind == "post":
            tests = [histories.message, self.a_name, self.names.value]
            test = tests[place] if place < 3 else self.a_name
        elif place == 0:
            test = histories.task
        elif kind == "fire":
            cut = words.index("cut") - 1 if "cut" in words else len(words)
            test = self.a_spot if place == 1 else histories.message if place < cut else histories.task if place > cut else None
        else:
            test = {("put", 1): self.a_word(b"drop"), ("put", 2): histories.task, ("start", 1): histories.number,
                    ("end", 1): self.a_word(b"done", b"yield", b"shed", b"failed"), ("end", 2): self.names.value}.get((kind, place), self.a_word())
        try:
            return test is None or test(word) is not False
        except histories.Form:
            return False

    @staticmethod
    def a_name(word):
        return lines.is_name(word)

    def a_spot(self, word):
        self.names.spot(word)

    @staticmethod
    def a_word(*words):
        return lambda word: word in words

    # the report

    def says_misreported(self, line):
        report = next(number for number, text in enumerate(self.lines, 1) if number > self.first and text == b"report 1")
        if not self.events_before(report):
            return None
        due = (histories.report(self.machine) + histories.done_line(self.machine)).splitlines()
        place = line - report
        if not 0 <= place <= len(due):
            return None
        written = self.lines[line - 1].decode("latin-1") if line <= len(self.lines) else ""
        if place == len(due):
            return ["nothing stands behind the last line"]
        return [f"due: {due[place]}"] if written != due[place] else ["the line lacks its line feed"]


def found_by(output, said, line, number):
    if said == "misreported":
        return output.says_misreported(line)
    if line > len(output.lines) or not output.events_before(line if line > output.first else output.first):
        return None
    return (output.says_illegal if said == "illegal" else output.says_malformed)(line, number)


def hint(text, said, line, number=0):
    """The lines to be shown of `malformed LINE CODE`, `illegal LINE RULE` or `misreported LINE`."""
    part, count, is_there = lines.before(text, b"history")
    all_lines = lines.cut(text)
    try:
        found = wiring.read(part)
    except wiring.Refused:
        return []
    if not is_there:
        return ["  behind the wiring there is no line 'history 1': what 'run' wrote is due there"] if said == "malformed" and number == 3 else []
    output = Output(found, all_lines, count + 1)
    try:
        told = found_by(output, said, line, number)
    except (histories.Form, histories.Unknown, StopIteration, LookupError):
        return []
    if told is None:
        return []
    event = f"event {line - count - 1}, " if said == "illegal" else ""
    return [shown.line(all_lines, line), f"  {event}line {line - count} of the output", *("  " + it for it in told)]
