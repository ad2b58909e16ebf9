"""Random inputs for the program: each kind gives the words, the text, and how to ask the reference what is due where so much was written."""
from reference import answers, drafts, histories, steady, wiring, words

ROW = b"ccr 1\nqueue q unbounded\nport a\nhandler h\nend\nreceive r always q h take a 1 any\nposter p\npost a 7\nend\n"


def encoded(found):
    return "".join(line + "\n" for line in found).encode("latin-1")


def valid(rng):
    """A random wiring that reads, and its text."""
    while True:
        text = drafts.Draft(rng).text()
        try:
            return wiring.read(text), text
        except wiring.Refused:
            continue


def options(rng):
    return ["--json"] if rng.random() < 0.2 else []


def check(rng):
    draft, kind = drafts.Draft(rng), rng.random()
    if kind < 0.8:
        draft.lines = drafts.spoilt_words(rng, draft.lines)
    text = drafts.at_a_limit(rng) if kind > 0.96 else draft.text()
    if kind < 0.06:
        text = drafts.spoilt_bytes(rng, text)
    json = options(rng)
    return ["check", *json], text, lambda _: answers.check(text, bool(json))


def run(rng):
    text, json = drafts.Draft(rng).text(), options(rng)
    return ["run", "--workers", "0", *json], text, lambda _: answers.run(text, bool(json))


def schedule(rng):
    found, text = valid(rng)
    workers = rng.choice((0, 0, 1, 1, 2, 3, 4, 16))
    turns = drafts.turns(rng, len(found.posters) + workers)
    if rng.random() < 0.15:
        turns = drafts.spoilt_words(rng, turns or [["turn", "0"]])
    text += encoded(map(" ".join, turns))
    return ["run", "--schedule", "--workers", str(workers)], text, lambda _: answers.run_schedule(text, workers)


def threads(rng):
    _, text = valid(rng)
    return ["run", "--workers", str(rng.randint(1, 16))], text, lambda wrote: answers.allowed(text, wrote)


def output(found, text, events, report):
    return text + f"history {found.version}\n".encode() + encoded(events) + report.encode()


def report(machine):
    return histories.report(machine) + histories.done_line(machine)


def judge(rng):
    found, text = valid(rng)
    machine = drafts.walk(rng, found, rng.choice((5, 20, 60, 150, 300)))
    events = drafts.event_lines(machine)
    for _ in range(rng.choice((1, 3, 10, 40))):
        event = drafts.Doubtful(rng, machine).event()
        events.append(histories.event_text(found, event))
        if machine.refused_by(event):
            break
        machine.add(event)
    text = output(found, text, events, report(machine))
    return ["verify"], text, lambda _: answers.verify(text)


def verify(rng):
    found, text = valid(rng)
    machine = drafts.walk(rng, found, rng.choice((0, 10, 40, 120)))
    if rng.random() < 0.6:
        machine.finish(rng.randint(len(found.posters), 32))
    events, said, kind = drafts.event_lines(machine), report(machine), rng.random()
    if kind < 0.55:
        events = drafts.spoilt_history(rng, events)
    elif kind < 0.7:
        said = drafts.spoilt_report(rng, said)
    text = output(found, text, events, said)
    if kind > 0.95:
        text = text[:rng.randint(0, len(text))]
    elif kind > 0.93:
        text = drafts.spoilt_bytes(rng, text)
    return ["verify"], text, lambda _: answers.verify(text)


def spoilt_text(rng, text):
    return text[:rng.randint(0, len(text))] if rng.random() < 0.5 else drafts.spoilt_bytes(rng, text)


def long(rng, text):
    """The text with so many lines behind it that it has as many bytes as a wiring may have, or one or two more or fewer."""
    return text + b"\n" * (answers.MOST + rng.choice((-1, 0, 0, 1, 1, 2)) - len(text))


def record(rng):
    text, kind = drafts.Draft(rng).text(), rng.random()
    if kind < 0.05:
        text = spoilt_text(rng, text)
    elif kind < 0.08:
        text = long(rng, text)
    workers = rng.choice((0, 1, 1, 2, 3, 4, 16))
    return ["record", "--workers", str(workers)], text, lambda wrote: answers.record(text, workers, wrote)


def recorded(rng):
    """A record, or nearly one."""
    found, text = valid(rng)
    workers, kind = rng.choice((0, 0, 1, 1, 2, 3, 4, 16)), rng.random()
    turns = drafts.turns_to_rest(rng, found, workers) if rng.random() < 0.5 else drafts.turns(rng, len(found.posters) + workers)
    if kind < 0.03:
        text = long(rng, text)
    elif kind < 0.06:
        text = spoilt_text(rng, text)
    elif kind < 0.1:
        text = drafts.spelt(rng, drafts.spoilt_words(rng, drafts.Draft(rng).lines))
    text += rng.choice((b"", b"\n", b"\n", b"# x\n")) + drafts.spelt(rng, drafts.record(rng, turns, workers))
    if rng.random() < 0.05:
        text = spoilt_text(rng, text)
    return text


def replay(rng):
    text = recorded(rng)
    return ["replay"], text, lambda _: answers.replay(text)


def steps(rng):
    text = recorded(rng)
    return ["steps"], text, lambda _: answers.steps(text)


def even(rng):
    """A wiring, mostly one whose counts depend on nobody, with a budget of as many posts as its tasks make, or of one more or less."""
    draft = drafts.Even(rng)
    try:
        found = wiring.read(draft.text())
    except wiring.Refused:
        return draft.text()
    found.budget = 10000
    counts = None if steady.first_rule(found) else steady.flow(found)
    for words in draft.lines:
        if words[0] == "budget" and counts and rng.random() < 0.7:
            words[1] = str(max(0, counts[1] + rng.choice((-1, 0, 0, 1))))
    return draft.text()


def counts(rng):
    kind = rng.random()
    text = even(rng) if kind < 0.9 else drafts.Draft(rng).text()
    if kind < 0.06:
        text = spoilt_text(rng, text)
    elif kind < 0.08:
        text = long(rng, text)
    return ["steady"], text, lambda _: answers.agreed(text)


def expand(rng):
    lines, kind = drafts.service(rng), rng.random()
    if kind < 0.6:
        lines = drafts.spoilt_words(rng, lines, drafts.SERVICE_WORDS)
    text = drafts.service_at_a_limit(rng) if kind > 0.75 else drafts.spelt(rng, lines)
    if kind < 0.05:
        text = spoilt_text(rng, text)
    elif kind < 0.07:
        text = long(rng, text)
    return ["expand"], text, lambda _: answers.expand(text)


def service(rng):
    lines, workers = drafts.service(rng), rng.choice((0, 0, 1, 2, 4, 16))
    if rng.random() < 0.1:
        lines = drafts.spoilt_words(rng, lines, drafts.SERVICE_WORDS)
    text = drafts.spelt(rng, lines)
    return ["service", "--workers", str(workers)], text, lambda wrote: answers.service(text, workers, wrote)


def call(rng):
    """Words of the command line over one input; what runs on threads or makes its own input is told by its status alone, but for a record."""
    given = drafts.call_words(rng)
    found = words.said(given)
    if not found:
        return given, ROW, lambda _: answers.USAGE
    word, chosen = found
    json, workers = b"--json" in chosen, chosen.get(b"--workers", 4)
    alone = {
        "verify": answers.verify, "replay": answers.replay, "steps": answers.steps, "steady": answers.agreed, "expand": answers.expand,
        "check": lambda text: answers.check(text, json), "service": lambda text: answers.service(text, workers),
    }
    if word in alone:
        due = lambda _: alone[word](ROW)
    elif word == "record":
        due = lambda wrote: answers.record(ROW, workers, wrote)
    elif word == "run" and b"--schedule" in chosen:
        due = lambda _: answers.run_schedule(ROW, workers, json)
    else:
        due = (lambda _: answers.run(ROW, json)) if word == "run" and workers == 0 else (lambda wrote: (wrote, 0))
    return given, ROW, due


KINDS = {
    "check": check, "run": run, "schedule": schedule, "threads": threads, "judge": judge, "verify": verify, "record": record, "replay": replay, "steps": steps,
    "steady": counts, "expand": expand, "service": service, "words": call,
}
