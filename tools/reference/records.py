"""Records of runs: a wiring, and whose turn it was, step by step."""
from . import lines
from .wiring import Off, Reader, Refused, checked, read

MOST_OF_WIRING = 1048576


class Record:
    def __init__(self, wiring, workers, turns):
        self.wiring, self.workers, self.turns = wiring, workers, turns


def written(text, workers, turns):
    """The record of a wiring's text and the turns."""
    return text + f"\nrecord 1 {workers}\n".encode() + b"".join(b"turn %d\n" % turn for turn in turns) + b"done 0\n"


class Lines(Reader):
    """The lines from the `record` line on."""

    def __init__(self, wiring):
        super().__init__()
        self.wiring, self.workers, self.turns, self.is_done = wiring, None, [], False

    def line(self, found):
        if self.is_done:
            raise Off(17)
        self.words, self.at = found, 0
        first = self.keyword("record") if self.workers is None else self.keyword("turn", "done")
        if first == "turn":
            self.turns.append(self.number(0, len(self.wiring.posters) + self.workers - 1))
        elif first == "done":
            self.keyword("0")
        else:
            self.keyword("1")
            self.workers = self.number(0, 16)
        self.end_line()
        self.is_done = first == "done"


def read_record(text):
    """The record that the text says. Raises Refused at what offends first: in the wiring, or behind it."""
    part, count, is_there = lines.before(text, b"record")
    wiring_text = part[:-1] if is_there else part
    if len(wiring_text) > MOST_OF_WIRING:
        raise Refused(wiring_text[:MOST_OF_WIRING].count(b"\n") + 1, 10)
    found = read(wiring_text)
    if not is_there:
        raise Refused(max(1, count), 16)
    reader, rest = Lines(found), lines.cut(text[len(part):])
    for place, line in enumerate(rest):
        try:
            words = checked(line)
            if words:
                reader.line(words)
        except Off as off:
            raise Refused(count + place + 1, off.code) from None
    if not reader.is_done:
        raise Refused(count + len(rest), 17)
    return Record(found, reader.workers, reader.turns)


def steps(entries):
    return "".join(f"step {stamp} {actor} {place} {note}\n" for stamp, actor, place, note in entries)


def turns_of(text, workers, wrote):
    """The turns of a record that is spelt as one is written, of this wiring's text and so many workers; else None."""
    front = written(text, workers, [])[:-len(b"done 0\n")]
    if not wrote.startswith(front):
        return None
    turns = [lines.number(line[5:]) for line in lines.cut(wrote[len(front):]) if line.startswith(b"turn ")]
    return turns if None not in turns and written(text, workers, turns) == wrote else None
