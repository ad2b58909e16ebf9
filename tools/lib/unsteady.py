"""Says which branch, port, queue or line makes a wiring unsteady.   usage: unsteady.py RULE, with the wiring that `steady` read on standard input

The rules are those of docs/FORMATS.md, Steady. The wiring was accepted: its lines have their forms.
"""
import sys

BLOCKS = ("handler", "choice", "interleave", "poster")


class Branch:
    """A branch with its line, kind, handler and the words of its pattern."""

    def __init__(self, line, kind, words):
        self.line, self.kind = line, kind
        self.name, _, self.handler, self.way, *self.rest = words

    def slots(self):
        """The port, and the words of the predicate, of each slot."""
        rest, found = list(self.rest), []
        while rest:
            length = 3 if rest[2] == "any" else 4
            found.append((rest[0].split("/")[-1], rest[2:length]))
            rest = rest[length:]
        return found

    def ports(self):
        if self.way == "gather":
            return [word.split("/")[-1] for word in self.rest[1:]]
        return [port for port, _ in self.slots()]


def read(text):
    """The branches, the lines of `discard` queues, and the first `fail` or `await` of each handler that has one."""
    branches, discards, uncalm, block = [], [], {}, None
    for number, line in enumerate(text.split("\n"), 1):
        words = line.split()
        if not words or words[0].startswith("#"):
            continue
        first = words[0]
        if first == "receive":
            branches.append(Branch(number, words[2], [words[1], *words[3:]]))
        elif first in ("branch", "teardown", "exclusive", "concurrent"):
            branches.append(Branch(number, first, words[1:]))
        elif first == "queue" and words[2] == "discard":
            discards.append((number, words[1], words[3]))
        elif first in ("fail", "await"):
            uncalm.setdefault(block, (number, " ".join(words)))
        if first in BLOCKS:
            block = words[1]
    return branches, discards, uncalm


def shared(branches):
    for place, branch in enumerate(branches):
        for other in branches[place + 1:]:
            for port in branch.ports():
                if port in other.ports():
                    return other.line, (f"branch '{other.name}' takes from port '{port}', and so does branch '{branch.name}' on line {branch.line}: "
                                        "which of them gets a message may depend on who comes first")
    return None


def choosy(branches):
    for branch in branches:
        if branch.way == "gather":
            first, second = branch.ports()
            return branch.line, (f"branch '{branch.name}' gathers from ports '{first}' and '{second}': "
                                 "how many come from each may depend on who comes first")
        for port, asked in branch.slots():
            if asked != ["any"]:
                return branch.line, (f"branch '{branch.name}' asks '{' '.join(asked)}' of a message of port '{port}': "
                                     "which messages fit may depend on who comes first")
    return None


def passing(branches):
    whose = {"once": "of a 'once' receiver", "branch": "of a choice", "teardown": "a teardown"}
    for branch in branches:
        if branch.kind in whose:
            return branch.line, f"branch '{branch.name}' is {whose[branch.kind]}: what it ends or leaves may depend on who comes first"
    return None


def dropping(discards):
    for line, name, limit in discards:
        return line, f"queue '{name}' is 'discard {limit}': which tasks are dropped may depend on who comes first"
    return None


def failing(branches, uncalm):
    for branch in branches:
        if branch.handler in uncalm:
            line, action = uncalm[branch.handler]
            return line, f"handler '{branch.handler}' of branch '{branch.name}' (line {branch.line}) has '{action}': 'steady' answers for handlers without 'fail' and 'await' alone"
    return None


def main():
    rule = sys.argv[1]
    branches, discards, uncalm = read(sys.stdin.buffer.read().decode("ascii", "replace"))
    found = {"1": lambda: shared(branches), "2": lambda: choosy(branches), "3": lambda: passing(branches), "4": lambda: dropping(discards),
             "5": lambda: failing(branches, uncalm)}[rule]()
    if found:
        print(f"ccr: line {found[0]}: {found[1]} (rule {rule})")


main()
