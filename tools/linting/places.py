"""On which line each part of a wiring stands."""
from reference import lines

DECLARES = (b"queue", b"port", b"portset", b"cause", b"handler", b"receive", b"choice", b"interleave", b"poster",
            b"branch", b"teardown", b"exclusive", b"concurrent")


class Places:
    """The lines of declared names, and of the actions of each handler, of a wiring's text that reads."""

    def __init__(self, text):
        self.names, self.actions = {}, {}
        block = None
        for number, line in enumerate(lines.cut(text), 1):
            words = lines.words(line)
            if lines.is_skipped(words):
                continue
            if block and words[0] != b"end":
                if block[0] == b"handler":
                    self.actions[block[1]].append(number)
                elif block[0] in (b"choice", b"interleave"):
                    self.declare(words, number)
            elif block:
                block = None
            elif words[0] in DECLARES:
                self.declare(words, number)
                if words[0] in (b"handler", b"choice", b"interleave", b"poster"):
                    block = words[0], words[1].decode()
                    self.actions.setdefault(block[1], [])

    def declare(self, words, number):
        self.names[words[1].decode()] = number

    def of(self, name):
        return self.names[name]

    def action(self, handler, place):
        return self.actions[handler][place]
