"""Blocks in layers: who posts stands left of what it posts to, as far as there are no cycles."""


def forward(blocks, edges):
    """The edges without those that lead back to a block from which one came."""
    after = {block: [] for block in blocks}
    for first, last in edges:
        if first != last and last not in after[first]:
            after[first].append(last)
    state, kept = {}, []
    for start in blocks:
        stack = [(start, iter(after[start]))] if start not in state else []
        state.setdefault(start, "open")
        while stack:
            block, rest = stack[-1]
            other = next(rest, None)
            if other is None:
                state[block] = "done"
                stack.pop()
            elif state.get(other) != "open":
                kept.append((block, other))
                if other not in state:
                    state[other] = "open"
                    stack.append((other, iter(after[other])))
    return kept


def ranks(blocks, edges):
    """The layer of each block: one more than the greatest of those before it."""
    kept, rank = forward(blocks, edges), {block: 0 for block in blocks}
    for _ in blocks:
        changed = False
        for first, last in kept:
            if rank[last] <= rank[first]:
                rank[last], changed = rank[first] + 1, True
        if not changed:
            break
    return rank


def ordered(blocks, edges):
    """The layers, each with its blocks and points in an order in which edges cross little; the way of each edge; and the layer of each block."""
    rank = ranks(blocks, edges)
    ways, points = chains(edges, rank)
    rank.update(points)
    blocks = [*blocks, *points]
    layers = [[block for block in blocks if rank[block] == number] for number in range(max(rank.values(), default=0) + 1)]
    near = {block: [] for block in blocks}
    for way in ways.values():
        for first, last in zip(way, way[1:]):
            near[first].append(last)
            near[last].append(first)
    for turn in range(8):
        place = {block: (number + 1) / (len(layer) + 1) for layer in layers for number, block in enumerate(layer)}
        for number in range(len(layers)) if turn % 2 == 0 else reversed(range(len(layers))):
            sides = {block: [place[it] for it in near[block] if (rank[it] < number if turn % 2 == 0 else rank[it] > number)] for block in layers[number]}
            layers[number].sort(key=lambda it: sum(sides[it]) / len(sides[it]) if sides[it] else place[it])
            place.update({block: (at + 1) / (len(layers[number]) + 1) for at, block in enumerate(layers[number])})
    return layers, ways, rank


def chains(edges, rank):
    """The edges with a point of their own in each layer between, which lead on to the next layer; and the points, with their layers."""
    found, points = {}, {}
    for number, (first, last) in enumerate(edges):
        steps = [(number, layer) for layer in range(rank[first] + 1, rank[last])]
        points.update({step: step[1] for step in steps})
        found[number] = [first, *steps, last]
    return found, points
