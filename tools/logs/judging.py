"""A log, judged event by event."""
from hints import shown
from hints.histories import Output
from reference import histories, lines, wiring

from .rules import FORMS, RULES


class Fault(Exception):
    """What is wrong at a line of the log: the line, what it breaks, and what is due there."""

    def __init__(self, line, breaks, due, status=7):
        super().__init__(line, breaks)
        self.line, self.breaks, self.due, self.status = line, breaks, due, status


def wiring_of(text, path):
    """The wiring that the text says. Raises Fault at its first line that offends."""
    head, _, _ = lines.before(text, b"history")
    try:
        return wiring.read(head.removesuffix(b"done 0\n"))
    except wiring.Refused as refused:
        raise Fault(refused.line, f"the wiring is refused (code {refused.code}): `ccr check {path}` says more", [], 2) from None


class Log:
    """The lines of a log, and what the machine makes of their events."""

    def __init__(self, found, text):
        self.lines = text.split(b"\n")
        self.is_ended = not self.lines[-1]
        if self.is_ended:
            self.lines.pop()
        self.output = Output(found, self.lines, 1)
        self.machine, self.events, self.report = self.output.machine, 0, None

    def judge(self):
        """Adds each event. Raises Fault at the first line that is no event or isn't allowed."""
        due = b"history %d" % self.machine.wiring.version
        if not self.lines:
            raise Fault(1, "the log is empty: its lines weren't written out, perhaps, as the system was stopped", [f"due: {due.decode()}"])
        if self.lines[:1] != [due]:
            raise Fault(1, "the first line isn't that of a history of this wiring", [f"due: {due.decode()}"])
        for number, line in enumerate(self.lines[1:], 2):
            if line == b"report 1":
                self.report = number
                break
            self.add(number, line)
        if not self.is_ended:
            raise Fault(len(self.lines), FORMS[1], ["the line lacks its line feed"])
        if self.report:
            self.compare()

    def add(self, number, line):
        try:
            event = self.output.names.event(line)
        except histories.Form:
            raise Fault(number, f"{FORMS[1]} (code 1)", self.output.off_form(line)) from None
        except histories.Unknown:
            raise Fault(number, f"{FORMS[2]} (code 2)", [self.output.unknown(line)]) from None
        rule = self.machine.refused_by(event)
        if rule:
            raise Fault(number, f"{RULES[rule]} (rule {rule})", self.output.says_illegal(number, rule) or [])
        self.machine.add(event)
        self.output.note(event, number)
        self.events += 1

    def compare(self):
        """Looks at the report that the log has already."""
        due = self.written().splitlines()
        found = [line.decode("latin-1") for line in self.lines[self.report - 1:]]
        for place in range(max(len(due), len(found))):
            if due[place:place + 1] != found[place:place + 1]:
                what = f"due: {due[place]}" if place < len(due) else "nothing stands behind the last line"
                raise Fault(self.report + place, "the report or the last line isn't what the history gives", [what])

    def written(self):
        """The report and the last line."""
        return histories.report(self.machine) + histories.done_line(self.machine)

    def shown(self, number):
        return shown.line(self.lines, number) if 0 < number <= len(self.lines) else ""
