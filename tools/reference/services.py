"""Services: their text, the wiring that they stand for, and what became of each request."""
from . import lines
from .wiring import Branch, Off, Part, Reader, Refused, Wiring, read_lines

HEADS = {(b"service", b"1"): 1}
ANY = ("any",)


class Operation:
    def __init__(self, name, group, expression, below):
        self.name, self.group, self.expression, self.below = name, group, expression, below


class Service(Reader):
    """The lines so far: policy, operations, and clients with their asks, each (operation, value)."""

    INSIDE = {None: ("policy", "op", "client"), "client": ("ask", "end")}

    def __init__(self):
        super().__init__()
        self.policy, self.operations, self.clients = None, [], []

    def declared(self):
        word = self.take()
        if not 1 <= len(word) <= 12 or word[0] not in lines.LETTERS or any(byte not in lines.LETTERS + lines.DIGITS for byte in word):
            raise Off(14)
        if word in self.names:
            raise Off(6)
        return word.decode()

    def is_full(self, first):
        if first == "op":
            return len(self.operations) >= 32
        if first == "client":
            return len(self.clients) >= 16
        return first == "ask" and sum(len(client.asks) for client in self.clients) >= 10000

    def line(self, found):
        self.words, self.at = found, 1
        first = found[0].decode()
        if first not in self.INSIDE[self.block]:
            raise Off(3)
        if first == "policy" and self.policy:
            raise Off(13)
        if self.is_full(first):
            raise Off(10)
        getattr(self, "line_" + first)()

    def line_policy(self):
        policy = self.keyword("unbounded", "discard", "throttle")
        limit = 0 if policy == "unbounded" else self.number(1, 1000)
        self.end_line()
        self.policy = policy, limit

    def line_op(self):
        name, group = self.declared(), self.keyword("teardown", "exclusive", "concurrent")
        expression, below = self.expression(), None
        if self.has_more():
            self.keyword("below")
            below = self.any_number()
        self.end_line()
        self.declare(name, "op", len(self.operations))
        self.operations.append(Operation(name, group, expression, below))

    def line_client(self):
        self.begin("client", self.clients, asks=[])

    def line_ask(self):
        ask = self.reference("op"), self.any_number()
        self.end_line()
        self.part.asks.append(ask)

    def line_end(self):
        self.end_line()
        self.block = self.part = None


def read(text):
    """The service that the text says. Raises Refused at the first line that offends."""
    service = Service()
    last = read_lines(text, service, HEADS)
    if not service.operations:
        raise Refused(last, 11)
    return service


def branches(operation, number, failing):
    """The operation's branches: what isn't below its bound goes to the handler that fails."""
    port, below = 2 * number, operation.below
    yield Branch(operation.name, operation.group, 0, number, ("take", [(port, 1, ANY if below is None else ("lt", below))]))
    if below is not None:
        yield Branch(operation.name + "-x", operation.group, 0, failing, ("take", [(port, 1, ("ge", below))]))


def expand(service):
    """The wiring: the ports of operation O are 2 * O and 2 * O + 1, behind them comes one a client."""
    wiring, operations, clients = Wiring(), service.operations, service.clients
    policy, limit = service.policy or ("unbounded", 0)
    wiring.budget, wiring.queues = 10000, [Part("svc-q", policy=policy, limit=limit)]
    wiring.ports = [it.name + end for it in operations for end in ("-rq", "-rs")] + [it.name + "-f" for it in clients]
    wiring.causes = [Part(it.name + "-c", port=2 * len(operations) + number) for number, it in enumerate(clients)]
    wiring.handlers = [Part(it.name + "-h", actions=[("post", 2 * number + 1, it.expression)]) for number, it in enumerate(operations)]
    if any(it.below is not None for it in operations):
        wiring.handlers.append(Part("svc-e", actions=[("fail", ("arg", 0))]))
    wiring.branches = [branch for number, it in enumerate(operations) for branch in branches(it, number, len(operations))]
    for branch in wiring.branches:
        branch.arbiter = 0
    wiring.arbiters = [Part("svc-i", kind="interleave", branches=wiring.branches)]
    wiring.posters = [Part(it.name, posts=[(2 * op, (value,), (number,)) for op, value in it.asks]) for number, it in enumerate(clients)]
    return wiring


def answer(service, machine, client, place, owners):
    """What became of the client's request at that place; `owners` has the task that took each message."""
    name = "s", client, place
    if name not in owners:
        return "held"
    task = machine.tasks[owners[name]]
    if task.is_cut or task.is_dropped:
        return "cut" if task.is_cut else "dropped"
    operation, response = service.clients[client].asks[place][0], machine.messages["t", *task.name, 0]
    kinds = {2 * operation + 1: "success", 2 * len(service.operations) + client: "fault"}
    return f"{kinds[response.port]} {response.value[0]}"


def answers(service, machine):
    owners = {message: event[1] for event in machine.events if event[0] == "fire" for message in event[3]}
    for number, client in enumerate(service.clients):
        yield f"client {client.name}\n"
        yield from (f"ask {place} {answer(service, machine, number, place, owners)}\n" for place in range(len(client.asks)))
