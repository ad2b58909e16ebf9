"""Inputs whose answer the words and the text alone decide, so that two programs have to give the same bytes."""
from comparison import inputs
from reference import drafts, words

READS_ALONE = {"check", "verify", "replay", "steps", "steady", "expand"}


def is_settled(given):
    """Whether no thread has a say in what these words bring about."""
    found = words.said([word.encode() if isinstance(word, str) else word for word in given])
    if not found:
        return True
    word, chosen = found
    if word in READS_ALONE or word == "run" and b"--schedule" in chosen:
        return True
    return chosen.get(b"--workers", 0 if word == "load" else 4) == 0


def on_one_thread(kind):
    """Inputs of a kind that chooses how many workers there are: here none."""
    def made(rng):
        given, text, _ = kind(rng)
        return [given[0], "--workers", "0"], text
    return made


def of(kind):
    return lambda rng: kind(rng)[:2]


def load(rng):
    """A run of the generated wiring; each power of two as often as the others."""
    size = min(10000, int(2 ** rng.uniform(0, 13.4)))
    given = ["load", "--size", str(size)]
    given += rng.choice(([], ["--workers", "0"], ["--workers=0"]))
    return given + rng.choice(([], [], ["--json"])), b""


def at_a_limit(rng):
    """A wiring or a service with as many lines, words or numbers as there may be, or with one or two more or fewer."""
    if rng.random() < 0.7:
        return ["check"], drafts.at_a_limit(rng)
    return ["expand"], drafts.service_at_a_limit(rng)


SETTLED = {
    "check": of(inputs.check), "run": of(inputs.run), "schedule": of(inputs.schedule), "judge": of(inputs.judge), "verify": of(inputs.verify),
    "load": load, "record": on_one_thread(inputs.record), "replay": of(inputs.replay), "steps": of(inputs.steps), "steady": of(inputs.counts),
    "expand": of(inputs.expand), "limits": at_a_limit, "service": on_one_thread(inputs.service), "words": of(inputs.call),
}


def in_little_room(rng):
    """An input of any kind, and how many bytes of the answer can be written."""
    given, text = rng.choice(list(SETTLED.values()))(rng)
    return given, text, rng.choice((0, 1, 7, 64, 300, 4095, 4096, 8192, rng.randint(0, 3000)))
