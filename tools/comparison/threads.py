"""Runs on threads, which differ from one to the next: what one program writes is judged and replayed by the other."""
from comparison import inputs

WHOLE = b"legal complete yes quiet yes\ndone 0\n"
SHED = 6                                     # the status where a task was shed
WORKERS = ("4", "16")


def other(name):
    return "cargo" if name == "proved" else "proved"


def fault_of_history(pair, name, wiring, wrote):
    """What the other program finds wrong with an output of `run`, if anything."""
    judged = pair.one(other(name), ["verify"], wiring + wrote)
    return None if judged.wrote == WHOLE else f"`verify` of the other says {judged.wrote[:120]!r}"


def fault_of_run(pair, name, wiring, workers):
    answer = pair.one(name, ["run", "--workers", workers], wiring)
    if answer.status not in (0, SHED):
        return f"status {answer.status}"
    return fault_of_history(pair, name, wiring, answer.wrote)


def fault_of_record(pair, name, wiring, workers):
    """What is wrong with a record: both have to replay it alike, and the other has to find that run whole."""
    record = pair.one(name, ["record", "--workers", workers], wiring)
    if record.status != 0:
        return f"status {record.status}"
    for word in ("replay", "steps"):
        proved, cargo = pair.both([word], record.wrote)
        if proved != cargo:
            return f"`{word}` differs"
        if word == "replay" and proved.status not in (0, SHED):
            return f"its replay has status {proved.status}"
        fault = fault_of_history(pair, name, wiring, proved.wrote) if word == "replay" else None
        if fault:
            return fault
    return None


WAYS = {"run": fault_of_run, "record": fault_of_record}


def fault_of(pair, name, rng):
    """The words, the wiring and what is wrong with a run of one program on a random wiring, judged by the other."""
    _, wiring = inputs.valid(rng)
    way, workers = rng.choice(list(WAYS)), rng.choice(WORKERS)
    return [way, "--workers", workers], wiring, WAYS[way](pair, name, wiring, workers)
