"""What is wrong with the word at which a wiring, a record or a service is refused."""
from reference import lines, wiring

from . import shown

PATTERN = "take PORT N any|eq N|lt N|ge N ..   or   gather N PORT PORT"
# The lines that may stand outside blocks (None) and in each block.
FORMS = {
    None: {"budget": "budget N", "queue": "queue NAME unbounded|discard N|throttle N", "port": "port NAME", "portset": "portset NAME PORT ..",
           "cause": "cause NAME PORT", "handler": "handler NAME", "receive": "receive NAME once|always QUEUE HANDLER " + PATTERN,
           "choice": "choice NAME", "interleave": "interleave NAME", "combine": "combine INTERLEAVE INTERLEAVE ..", "poster": "poster NAME"},
    "handler": {"post": "post PORT VALUE|arg N|sum|count", "fail": "fail VALUE|arg N|sum|count", "add": "add CAUSE", "remove": "remove CAUSE",
                "await": "await PORT", "end": "end"},
    "choice": {"branch": "branch NAME QUEUE HANDLER " + PATTERN, "end": "end"},
    "interleave": {word: f"{word} NAME QUEUE HANDLER " + PATTERN for word in ("teardown", "exclusive", "concurrent")} | {"end": "end"},
    "poster": {"post": "post PORT VALUE CAUSE ..", "end": "end"},
}
SERVICE_FORMS = {
    None: {"policy": "policy unbounded|discard N|throttle N", "op": "op NAME teardown|exclusive|concurrent EXPR   or   .. EXPR below N",
           "client": "client NAME"},
    "client": {"ask": "ask OP N", "end": "end"},
}
LAST_FORMS = {"turn": "turn ACTOR", "record": "record 1 WORKERS", "done": "done 0"}
MOST = {"queue": "16 queues", "port": "256 ports", "portset": "64 port sets", "cause": "32 causes", "handler": "256 handlers", "poster": "16 posters",
        "choice": "256 arbiters", "interleave": "256 arbiters", "receive": "256 arbiters and 256 branches", "combine": "128 'combine' lines",
        "branch": "256 branches", "teardown": "256 branches", "exclusive": "256 branches", "concurrent": "256 branches",
        "op": "32 operations", "client": "16 clients", "ask": "10000 asks"}
# The words that declare a name of a kind.
DECLARE = {"set": ("portset",), "branch": ("branch", "teardown", "exclusive", "concurrent"), "op": ("op",)}


def watching(reader):
    """A reader of that kind that keeps what was due, and at which word."""

    class Watching(reader):
        last = None

        def __init__(self):
            super().__init__()
            Watching.last = self
            self.due = self.choices = self.asked = None
            self.due_at = -1

        def await_word(self, due, at, choices=()):
            self.due, self.due_at, self.choices = due, at, choices

        def keyword(self, *choices):
            self.await_word("one of: " + ", ".join(choices), self.at, choices)
            return super().keyword(*choices)

        def any_number(self):
            self.await_word("a whole number, of digits alone and below 2^64", self.at)
            return super().any_number()

        def number(self, least, most):
            found = super().number
            self.await_word(f"a number from {least} to {most}", self.at)
            at, due = self.at, self.due
            try:
                return found(least, most)
            finally:
                self.await_word(due, at)

        def number_of(self, word, kind):
            self.asked = word.decode(), kind
            self.await_word(f"the name of a {'port set' if kind == 'set' else kind}", self.at - 1)
            return super().number_of(word, kind)

        def value_in(self, word):
            more = " (1 to 8 of them with commas)" if self.wiring.version == 2 else ""
            self.await_word("a whole number, of digits alone and below 2^64" + more, self.at - 1)
            return super().value_in(word)

    return Watching


class Hint:
    """What to say of a refusal: the text's lines, the reader as it stood, the forms of the lines."""

    def __init__(self, all_lines, reader, forms):
        self.lines, self.reader, self.forms = all_lines, reader, forms
        self.words = [word.decode("ascii", "backslashreplace") for word in reader.words]
        at = reader.at - 1
        self.word = self.words[at] if 0 <= at < len(self.words) else ""
        self.first = self.words[0] if self.words else ""

    def says(self, code):
        yield from getattr(self, f"code_{code}", lambda: ())()
        form = self.forms[self.reader.block].get(self.first)
        if form and code in (3, 4, 5, 7, 10) and (code != 3 or self.reader.at > 1):
            yield "a line of this kind: " + form

    def is_due_here(self):
        return self.reader.due_at == self.reader.at - 1

    def where(self):
        return f"in the {self.reader.block} '{self.reader.part.name}'" if self.reader.block else "outside all blocks"

    def declared_on(self, name, kind):
        found = [shown.first_line(self.lines, first, name) for first in DECLARE.get(kind, (kind,))]
        return next((number for number in found if number), None)

    def code_3(self):
        if self.reader.at > 1:
            yield f"'{self.word}' isn't what is due: {self.reader.due}" + shown.near(self.word, self.reader.choices)
            return
        homes = [block for block, those in self.forms.items() if self.first in those and block != self.reader.block]
        if homes and None in homes and self.reader.block:
            yield f"'{self.first}' can't stand {self.where()}: is an 'end' missing before it?"
        elif homes:
            yield f"'{self.first}' stands in a {' or '.join(filter(None, homes))}, and this line is {self.where()}"
        else:
            here = list(self.forms[self.reader.block])
            yield f"'{self.first}' begins no line {self.where() if self.reader.block else 'here'}" + (shown.near(self.first, here) or f"; there stand: {', '.join(here)}")

    def code_4(self):
        if self.reader.at < len(self.words):
            extra = self.words[self.reader.at]
            yield f"'{extra}' is too much" + (": a comment has a line of its own" if extra.startswith("#") else "")
        else:
            yield f"the line ends too early, behind '{self.words[-1]}'"

    def code_5(self):
        word, more = self.word, ""
        if word in ("arg", "sum", "count", "part") and self.reader.block == "poster":
            more = f": what is posted by a script is a number, and '{word}' is for handlers"
        elif word == "part" or "," in word and self.reader.wiring.version == 1:
            more = ": this needs 'ccr 2' in the first line"
        elif self.reader.block == "handler" and not word[:1].isdigit():
            more = shown.near(word, ("arg", "sum", "count"))
        yield f"'{word}' isn't {self.reader.due if self.is_due_here() else 'a number'}" + more

    def code_6(self):
        kind = self.reader.names[self.word.encode()][0]
        line = self.declared_on(self.word, kind)
        yield f"'{self.word}' is declared already, as {shown.a(kind)}" + (f", on line {line}" if line else "") + ": all names share one space"

    def code_7(self):
        word, kind = self.reader.asked
        known = self.reader.names.get(word.encode())
        line = self.declared_on(word, kind)
        if known and known[0] == kind:
            yield f"'{word}' is no member of the set '{self.word.partition('/')[0]}'"
        elif known:
            yield f"'{word}' is {shown.a(known[0])}, and {shown.a(kind)} is due"
        elif line:
            yield f"'{word}' is declared on line {line}: put that line further up"
        else:
            names = [name.decode() for name, (of, _) in self.reader.names.items() if of == kind]
            others = f"; there are: {', '.join(names[:12])}" if names else ""
            yield f"no {kind} '{word}' is declared above" + (shown.near(word, names) or others)

    def code_8(self):
        what = {"combine": "is combined already", "portset": "stands twice in this set", "post": "stands twice in this post"}
        yield f"'{self.word}' {what.get(self.first, 'stands twice in this pattern: take more of it in one slot')}"

    def code_10(self):
        if self.is_due_here():
            many = self.word.count(",") + 1
            yield f"'{self.word}' has {many} numbers, and a value has at most 8" if many > 8 else f"'{self.word}' isn't {self.reader.due}"
        elif self.reader.at == 1:
            most = MOST.get(self.first, "so many lines of this kind")
            most = {"handler": "16 actions in a handler", "poster": "10000 posts in all scripts"}.get(self.reader.block, most)
            yield f"'{self.first}': there may be {most}, and this is one more"
        else:
            yield f"'{self.words[min(self.reader.at, len(self.words) - 1)]}' is one too many: there may be 8"

    def code_11(self):
        if self.reader.block:
            yield f"'{self.first}' of the {self.reader.block} '{self.reader.part.name}': it has no branch"
        else:
            yield "a line 'op NAME ..' is due"

    def code_12(self):
        found = self.reader.wiring
        crowded = next(port for number, port in enumerate(found.ports) if self.reader.spots_at(number) > 16)
        yield f"'{crowded}' is the port that 17 spots name: branches that take from it, and await sites"

    def code_13(self):
        yield f"'{self.first}': there is one already, on line {shown.first_line(self.lines, self.first)}"

    def code_14(self):
        word, more, most = (self.word, "_-", 16) if self.forms is FORMS else (self.word, "", 12)
        odd = next((byte for byte in word if not (byte.isalnum() or byte in more)), None)
        yield f"'{word}' " + ("begins with no letter" if not word[:1].isalpha() else f"has '{odd}' in it" if odd else f"has {len(word)} bytes, more than {most}")


def of_byte(line, number):
    odd = next(place for place, byte in enumerate(line) if not (33 <= byte <= 126 or byte in b" \t\r"))
    word = next((it for it in line.replace(b"\t", b" ").split(b" ") if line[odd:odd + 1] in it), b"")
    yield f"the byte {line[odd]:#04x} at place {odd + 1}, in '{shown.plain(word)}'"
    if number == 1 and line.startswith(b"\xef\xbb\xbf"):
        yield "the file begins with a byte-order mark: save it without"
    elif line[odd] in (0xC2, 0xE2):
        yield "such bytes come with text from a page or a letter: long dashes, curly quotes, wide blanks"


def of_head(all_lines, service):
    due = "service 1" if service else "ccr 1"
    found = next((lines.words(line) for line in all_lines if not lines.is_skipped(lines.words(line))), [])
    word = b" ".join(found).decode("ascii", "backslashreplace")
    other = {b"service": "expand' or 'service", b"ccr": "check' or 'run"}.get(found[0]) if found else None
    yield f"'{word}' isn't '{due}', the first line that is due" if word else f"there is no line '{due}'"
    if other and found[0] != due.split()[0].encode():
        yield f"such a text is read by '{other}'"


def refused(text, module, name, forms):
    """The reader as it stood, the line and the code, where that module's reader refuses the text."""
    reader = getattr(module, name)
    watched = watching(reader)
    setattr(module, name, watched)
    try:
        module.read(text)
    except wiring.Refused as refusal:
        return Hint(lines.cut(text), watched.last, forms), refusal
    finally:
        setattr(module, name, reader)
    return None, None


def said(text, line, code, module=wiring, name="Reader", forms=FORMS):
    """The hint where this reader finds that line and code, else none."""
    hint, refusal = refused(text, module, name, forms)
    if not refusal or (refusal.line, refusal.code) != (line, code):
        return []
    all_lines = lines.cut(text)
    if code == 1:
        found = of_byte(all_lines[line - 1], line)
    elif code == 2:
        found = of_head(all_lines, forms is SERVICE_FORMS)
    elif code == 9:
        part, block = hint.reader.part, hint.reader.block
        found = [f"the {block} '{part.name}', which begins on line {hint.declared_on(part.name, block)}, has no 'end'"]
    else:
        found = hint.says(code)
    return [shown.line(all_lines, line), *("  " + it for it in found)]


def of_last_lines(text, part, count, line, code):
    """Turn lines and the lines of a record, where the wiring above them reads."""
    try:
        wiring.read(part)
    except wiring.Refused:
        return []
    all_lines = lines.cut(text)
    if not count < line <= len(all_lines):
        return []
    words = [word.decode("ascii", "backslashreplace") for word in lines.words(all_lines[line - 1])]
    has_ended = any(lines.words(it)[:1] == [b"done"] for it in all_lines[count:line - 1])
    return [shown.line(all_lines, line), *("  " + it for it in of_last_line(words, code, has_ended))] if words else []


def of_last_line(words, code, has_ended):
    first, form = words[0], LAST_FORMS.get(words[0])
    odd = next((word for word in words[1:] if lines.number(word.encode()) is None), words[-1])
    if code == 3:
        yield f"'{words[1]}' isn't what is due" if form and len(words) > 1 else f"'{first}' begins no line here" + shown.near(first, ("turn", "done"))
    elif code == 5:
        yield f"'{odd}' isn't a whole number, of digits alone and below 2^64"
    elif code == 10:
        yield f"'{words[2]}': there may be 16 workers" if first == "record" else f"'{words[1]}': posters and workers are fewer, with numbers from 0"
    elif code == 17:
        yield f"'{first}' stands behind 'done 0'" if has_ended else "the text ends here, without 'done 0'"
    if code in (3, 4, 5, 10):
        yield "a line of this kind: " + (form or "turn ACTOR")


def of_service(text, line, code):
    try:
        from reference import services
    except ImportError:
        return []
    return said(text, line, code, services, "Service", SERVICE_FORMS)


def hint(asked, text, line, code):
    """The lines to be shown of `refused LINE CODE`."""
    if asked in ("service", "expand"):
        return of_service(text, line, code)
    first = {"verify": b"history", "replay": b"record", "steps": b"record", "run": b"turn"}.get(asked)
    part, count, is_there = lines.before(text, first) if first else (text, 0, False)
    if is_there and code == 2 and all(lines.is_skipped(lines.words(it)) for it in lines.cut(part)):
        return [shown.line(lines.cut(text), count + 1), "  the wiring is due before this line"]
    if asked in ("replay", "steps") and is_there:
        part = part[:-1]
    found = said(text if asked == "run" else part, line, code) or said(part, line, code) or (of_last_lines(text, part, count, line, code) if is_there else [])
    return found + [*missing_head(asked, is_there, found)]


def missing_head(asked, is_there, found):
    """What makes of a wiring another text, where its lines are refused as lines of a wiring."""
    word = found[0].split("| ")[-1].split(" ")[0] if found else ""
    if asked == "run" and word == "turn" and len(found) > 1 and "begins no line" in found[1]:
        yield "  'turn' lines are read by 'run --schedule'"
    elif asked == "run" and len(found) > 1 and "there stand:" in found[1] and shown.near(word, ["turn"]):
        yield "  do you mean 'turn'? Such lines are read by 'run --schedule'"
    elif asked == "verify" and not is_there and word.endswith("history"):
        yield "  the wiring ends without a line feed: 'history' has a line of its own"
    elif asked in ("replay", "steps") and word in ("turn", "done") and not is_there:
        yield "  there is no line 'record 1 WORKERS' above: what 'record' writes is due here"
