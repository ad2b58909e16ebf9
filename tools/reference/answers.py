"""What the program answers: the text that it writes, and its status."""
from . import histories, lines, records, services, spelling, steady, wiring
from .actors import Run, visible
from .machine import Machine

MOST, MOST_JUDGED = 1048576, 33554432
LEGAL = "legal complete yes quiet yes\ndone 0\n"
TOO_LONG = "too long\ndone 8\n", 8
USAGE = """usage: ccr check|run|verify|load|record|replay|steps|steady|service|expand [--workers N] [--schedule] [--json] [--size N]
done 1
""", 1


def refused(line, code):
    return f"refused {line} {code}\ndone 2\n", 2


def answers_refusals(call):
    def answer(*given, **named):
        try:
            return call(*given, **named)
        except wiring.Refused as why:
            return refused(why.line, why.code)
    return answer


def output(machine, is_json):
    report = histories.report_json if is_json else histories.report
    return histories.history(machine.wiring, machine.events) + report(machine) + histories.done_line(machine), 6 if machine.has_shed() else 0


@answers_refusals
def check(text, is_json=False):
    if len(text) > MOST:
        return TOO_LONG
    found = wiring.read(text)
    return (spelling.wiring_json(found) if is_json else spelling.canonical(found)) + "done 0\n", 0


@answers_refusals
def run(text, is_json=False):
    """On one thread."""
    if len(text) > MOST:
        return TOO_LONG
    found = wiring.read(text)
    return output(Machine(found).finish(len(found.posters)), is_json)


@answers_refusals
def run_schedule(text, workers, is_json=False):
    if len(text) > MOST:
        return TOO_LONG
    part, count, _ = lines.before(text, b"turn")
    found = wiring.read(part)
    actors = len(found.posters) + workers
    return output(scheduled(found, workers, wiring.read_turns(text[len(part):], count, actors)), is_json)


def scheduled(found, workers, turns):
    """The machine after these turns, finished on one thread."""
    machine = Machine(found)
    for event in visible(found, workers, turns):
        assert machine.refused_by(event) is None, event
        machine.add(event)
    return machine.finish(len(found.posters) + workers)


def allowed(text, wrote):
    """What may be written for the wiring where threads choose the order: the output itself, where it is legal, complete and quiet."""
    said, status = verify(text + wrote.encode())
    if said != LEGAL:
        return said, status
    return wrote, int(wrote.rsplit(" ", 1)[1])


def malformed(line, code):
    return f"malformed {line} {code}\ndone 7\n", 7


def misreported(machine, found, first):
    """The first line that differs from the report that is due, if any."""
    due = (histories.report(machine) + histories.done_line(machine)).encode().splitlines(keepends=True)
    for place in range(max(len(due), len(found))):
        if due[place:place + 1] != found[place:place + 1]:
            return f"misreported {first + place}\ndone 7\n", 7
    return None


def judged(machine, events, first):
    for place, event in enumerate(events):
        rule = machine.refused_by(event)
        if rule:
            return f"illegal {first + place} {rule}\ndone 7\n", 7
        machine.add(event)
    return None


def yes(holds):
    return "yes" if holds else "no"


@answers_refusals
def verify(text):
    if len(text) > MOST_JUDGED:
        return TOO_LONG
    part, count, is_there = lines.before(text, b"history")
    if len(part) > MOST:
        return refused(part[:MOST].count(b"\n") + 1, 10)
    found = wiring.read(part)
    if not is_there:
        return malformed(max(1, count), 3)
    return judge(found, text[len(part):].split(b"\n"), count + 1)


def judge(found, rest, first):
    """The judgement on the lines from the line `history` on, which has that number; the last of them lacks its LF."""
    names, events, tail = histories.Names(found), [], rest.pop()
    for place, line in enumerate(rest):
        if place == 0 and line != f"history {found.version}".encode():
            return malformed(first, 1)
        if line == b"report 1":
            behind = [it + b"\n" for it in rest[place:]] + [tail] * bool(tail)
            return judge_events(Machine(found), events, behind, first)
        try:
            events += [names.event(line)] if place else []
        except histories.Form:
            return malformed(first + place, 1)
        except histories.Unknown:
            return malformed(first + place, 2)
    return malformed(first + len(rest), 1) if tail else malformed(first + len(rest) - 1, 3)


def judge_events(machine, events, behind, first):
    wrong = judged(machine, events, first + 1) or misreported(machine, behind, first + 1 + len(events))
    if wrong:
        return wrong
    return f"legal complete {yes(machine.is_complete())} quiet {yes(machine.is_quiet())}\ndone 0\n", 0


# records

@answers_refusals
def record(text, workers, wrote=None):
    """With workers what was written has to be a record of this wiring whose turns are all steps and leave nobody a next one, and whose replay is legal,
    complete and quiet."""
    if len(text) > MOST:
        return TOO_LONG
    found = wiring.read(text)
    if workers == 0:
        return records.written(text, 0, []).decode("latin-1"), 0
    turns = records.turns_of(text, workers, wrote.encode("latin-1"))
    if turns is None or max(turns, default=0) >= len(found.posters) + workers:
        return "no record of this wiring\n", 0
    ran = Run(found, workers, turns)
    if not ran.is_at_rest() or len(ran.places.entries) != len(turns):
        return "turns that stop before rest, or go on behind it\n", 0
    said, status = judge(found, output(scheduled(found, workers, turns), False)[0].encode().split(b"\n"), 1)
    return (wrote, 0) if said == LEGAL else (said, status)


@answers_refusals
def replay(text):
    if len(text) > MOST_JUDGED:
        return TOO_LONG
    found = records.read_record(text)
    return output(scheduled(found.wiring, found.workers, found.turns), False)[0], 0


@answers_refusals
def steps(text):
    if len(text) > MOST_JUDGED:
        return TOO_LONG
    found = records.read_record(text)
    return records.steps(Run(found.wiring, found.workers, found.turns).places.entries) + "done 0\n", 0


# counts that depend on nobody

@answers_refusals
def agreed(text):
    if len(text) > MOST:
        return TOO_LONG
    found = wiring.read(text)
    rule = steady.first_rule(found)
    if rule:
        return f"unsteady {rule}\ndone 0\n", 0
    counts = steady.flow(found)
    if not counts:
        return "spent\ndone 0\n", 0
    return "steady\n" + histories.total_line(steady.totals(found, *counts)) + "done 0\n", 0


# services

@answers_refusals
def expand(text):
    if len(text) > MOST:
        return TOO_LONG
    return spelling.canonical(services.expand(services.read(text))) + "done 0\n", 0


def served(found, machine):
    return histories.history(machine.wiring, machine.events) + "".join(services.answers(found, machine)) + "done 0\n", 0


@answers_refusals
def service(text, workers, wrote=None):
    """With workers the history that was written has to be legal, complete and quiet, and the answers those that follow from it."""
    if len(text) > MOST:
        return TOO_LONG
    found = services.read(text)
    machine = Machine(services.expand(found))
    if workers == 0:
        return served(found, machine.finish(len(machine.wiring.posters)))
    names = histories.Names(machine.wiring)
    for line in lines.cut(wrote.encode("latin-1"))[1:]:
        if line.startswith((b"client ", b"done ")):
            break
        try:
            event = names.event(line)
        except (histories.Form, histories.Unknown):
            return f"a line that is no event: {line}\n", 0
        rule = machine.refused_by(event)
        if rule:
            return f"an event that rule {rule} refuses: {line}\n", 0
        machine.add(event)
    if not machine.is_complete() or not machine.is_quiet():
        return "a history that isn't complete and quiet\n", 0
    return served(found, machine)
