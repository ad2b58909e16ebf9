"""A wiring and an output of a run, in one text or in two files."""
import inputs
from reference import lines, wiring

DUE = "`tools/stuck WIRING OUTPUT`, or `(cat WIRING; ccr run < WIRING) | tools/stuck`"


class Halves:
    """The wiring's text, the lines of the output from its history on, the number of the first of them, and how a line is named."""

    def __init__(self, head, body, before=0, file="", head_file=""):
        self.head, self.lines, self.before, self.file, self.head_file = head, lines.cut(body), before, file, head_file

    def at(self, line):
        """A line of the output, as it is named within a sentence."""
        return f"line {line} of {self.file}" if self.file else f"line {line}"

    def wrong(self, line, words):
        return inputs.Wrong(f"{self.file}: line {line}: {words}" if self.file else f"line {line}: {words}")


def one_text(text, file=""):
    """A wiring with an output behind it."""
    where = f"{file}: " if file else ""
    head, count, is_there = lines.before(text, b"history")
    if not is_there:
        raise inputs.Wrong(f"{where}line {max(1, count)}: there is no history behind the wiring: the output of `ccr run` is missing. Due: {DUE}")
    if is_empty(head):
        raise inputs.Wrong(f"{where}line {count + 1}: there is no wiring before the history: it is missing. Due: {DUE}")
    return Halves(head, text[len(head):], count, file, file)


def two_files(path, other):
    """A wiring in one file and an output in the other."""
    text, output = inputs.file(path), inputs.file(other)
    head, count, is_there = lines.before(text, b"history")
    body, before, is_output = lines.before(output, b"history")
    if is_there:
        what = "an output" if is_empty(head) else "a wiring with its output"
        raise inputs.Wrong(f"{path}: line {count + 1}: this file is {what}: the wiring alone comes first. Due: {DUE}")
    if not is_output:
        raise inputs.Wrong(f"{other}: line 1: there is no line 'history 1': the output of `ccr run` is missing. Due: {DUE}")
    if not is_empty(body):
        raise inputs.Wrong(f"{other}: line 1: a second wiring stands before the history. Due: {DUE}")
    return Halves(text, output[len(body):], before, other, path)


def is_empty(text):
    return all(lines.is_skipped(lines.words(line)) for line in lines.cut(text))


def wiring_of(halves):
    """The wiring of the first half, also as `ccr check` writes it."""
    try:
        return wiring.read(halves.head.removesuffix(b"done 0\n"))
    except wiring.Refused as why:
        where = f"{halves.head_file}: " if halves.head_file else ""
        offending = b"".join(lines.cut(halves.head)[why.line - 1:why.line])
        if lines.words(offending)[:1] == [b"service"]:
            raise inputs.Wrong(f"{where}line {why.line}: this is a service: `ccr expand` writes its wiring, which is due here") from None
        raise inputs.Wrong(f"{where}line {why.line}: the wiring is refused with code {why.code}") from None
