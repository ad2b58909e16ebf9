"""The SVG of a wiring: its nodes, and blocks of them, at their places, and the arrows between them."""
import html

from .layers import ordered

LETTER, LINE, PAD, GAP, BETWEEN = 7, 15, 8, 22, 130
STYLE = ("text{font:12px sans-serif;fill:#111;text-anchor:middle}.node,.block,.ground{fill:#fff}.node{stroke:#444}.block{stroke:#999;stroke-dasharray:6 3}"
         ".left{stroke:#d03030;stroke-width:2}.edge{fill:none;stroke:#666}.label{font-size:10px;stroke:#fff;stroke-width:3px;paint-order:stroke}.tip{fill:#666}"
         "@media(prefers-color-scheme:dark){text{fill:#ddd}.node,.block,.ground{fill:#1b1b1b}.node{stroke:#aaa}.block{stroke:#777}.edge{stroke:#999}"
         ".label{stroke:#1b1b1b}.tip{fill:#999}}.node.left{stroke:#d03030}")
DASHES = {"take": "", "post": ' stroke-dasharray="5 3"', "await": ' stroke-dasharray="1 3"'}


class Node:
    """What is drawn of a poster, a port or a branch: its shape, its lines of text, and whether something is left there."""

    def __init__(self, name, shape, words, is_left=False):
        self.name, self.shape, self.words, self.is_left = name, shape, words, is_left
        self.wide = max(LETTER * len(it) for it in words) + 2 * PAD + (16 if shape != "box" else 0)
        self.high = LINE * len(words) + 2 * PAD
        self.x = self.y = 0

    def grow(self, arrows):
        """Makes room for so many arrows on one side."""
        self.high = max(self.high, 13 * arrows + 4)

    def lines(self):
        x, y, wide, high = self.x, self.y, self.wide, self.high
        kind = "node left" if self.is_left else "node"
        if self.shape == "port":
            yield f'<ellipse cx="{x + wide / 2}" cy="{y + high / 2}" rx="{wide / 2}" ry="{high / 2}" class="{kind}"/>'
        elif self.shape == "poster":
            yield f'<polygon points="{x + 10},{y} {x + wide},{y} {x + wide - 10},{y + high} {x},{y + high}" class="{kind}"/>'
        else:
            yield f'<rect x="{x}" y="{y}" width="{wide}" height="{high}" rx="3" class="{kind}"/>'
        for place, words in enumerate(self.words):
            yield f'<text x="{x + wide / 2}" y="{y + (high - LINE * len(self.words)) / 2 + 11 + LINE * place:.0f}">{html.escape(words)}</text>'


class Block:
    """Nodes one below the other, with a name and a frame where they are of one choice, Interleave or combine."""

    def __init__(self, nodes, name=""):
        self.nodes, self.name = nodes, name
        self.margin, self.head = (10, 20) if name else (0, 0)
        self.measure()

    def measure(self):
        nodes, name = self.nodes, self.name
        self.wide = max([LETTER * len(name), *(it.wide for it in nodes)]) + 2 * self.margin
        self.high = sum(it.high for it in nodes) + 8 * (len(nodes) - 1) + self.head + self.margin

    def place(self, x, y):
        self.x, self.y, at = x, y, y + self.head
        for node in self.nodes:
            node.x, node.y = x + (self.wide - node.wide) / 2, at
            at += node.high + 8

    def lines(self):
        if self.name:
            yield f'<rect x="{self.x}" y="{self.y}" width="{self.wide}" height="{self.high}" rx="8" class="block"/>'
            yield f'<text x="{self.x + self.wide / 2}" y="{self.y + 14}">{html.escape(self.name)}</text>'


class Point(Block):
    """Where an edge passes through a layer."""

    def __init__(self):
        super().__init__([Node("", "box", [""])])
        self.wide, self.high = 0, 12


class Drawing:
    """Blocks at their places, and the ways of the edges."""

    def __init__(self, blocks, edges):
        self.blocks, self.edges = dict(enumerate(blocks)), edges
        self.of = {node.name: number for number, block in enumerate(blocks) for node in block.nodes}
        self.nodes = {node.name: node for block in blocks for node in block.nodes}
        for name, node in self.nodes.items():
            node.grow(max(sum(edge[side] == name for edge in edges) for side in (0, 1)))
        for block in blocks:
            block.measure()
        pairs = [(self.of[first], self.of[last]) for first, last, _, _ in edges]
        layers, self.ways, self.rank = ordered(list(self.blocks), pairs)
        self.blocks.update({it: Point() for layer in layers for it in layer if it not in self.blocks})
        self.place(layers)
        self.outs, self.ins = self.ends(0), self.ends(1)

    def place(self, layers):
        highs = [sum(self.blocks[it].high for it in layer) + GAP * (len(layer) - 1) for layer in layers]
        self.height, x = max(highs, default=0) + 40, 20
        for layer, high in zip(layers, highs):
            wide, y = max(self.blocks[it].wide for it in layer), (self.height - high) / 2
            for it in layer:
                self.blocks[it].place(x + (wide - self.blocks[it].wide) / 2, y)
                y += self.blocks[it].high + GAP
            x += wide + BETWEEN
        self.width = x - BETWEEN + 60

    def is_back(self, number):
        first, last = self.edges[number][:2]
        return self.rank[self.of[first]] >= self.rank[self.of[last]]

    def ends(self, side):
        """Where each edge leaves its node, or comes to it: one below the other, in the order of where they lead."""
        found = {}
        for name, node in self.nodes.items():
            mine = [it for it, edge in enumerate(self.edges) if edge[side] == name]
            mine.sort(key=lambda it: self.next_height(it, side))
            step = min(13, (node.high - 4) / len(mine)) if mine else 0
            for place, it in enumerate(mine):
                found[it] = node.y + node.high / 2 + (place - (len(mine) - 1) / 2) * step
        return found

    def next_height(self, number, side):
        """How far down the edge's next block is, seen from this end; edges that lead back leave below all others."""
        if self.is_back(number):
            return self.height + number
        way = self.ways[number]
        other = way[1] if side == 0 else way[-2]
        if other in (way[0], way[-1]):
            node = self.nodes[self.edges[number][1 - side]]
            return node.y + node.high / 2
        return self.blocks[other].y

    def way(self, number):
        """The points of an edge, each (x left, x right, y) of what it passes."""
        first, last = (self.nodes[name] for name in self.edges[number][:2])
        between = [(self.blocks[it].x, self.blocks[it].x, self.blocks[it].y + 6) for it in self.ways[number][1:-1]]
        return [(None, first.x + first.wide, self.outs[number]), *between, (last.x, None, self.ins[number])]


def curves(points):
    """A path through the points, level at each of them, and where a label has room: behind the first and before the last."""
    path = f"M{points[0][1]:.0f},{points[0][2]:.0f}"
    for (_, x, y), (to_x, _, to_y) in zip(points, points[1:]):
        path += f" C{(x + to_x) / 2:.0f},{y:.0f} {(x + to_x) / 2:.0f},{to_y:.0f} {to_x:.0f},{to_y:.0f}"
    return path


def below(points, lane, depth):
    """A path that leads back, below all blocks."""
    (_, x, y), (to_x, _, to_y) = points
    out, back = x + 14 + 5 * (lane % 8), to_x - 22 - 5 * (lane % 8)
    return (f"M{x:.0f},{y:.0f} L{out - 6:.0f},{y:.0f} Q{out:.0f},{y:.0f} {out:.0f},{y + 6:.0f} L{out:.0f},{depth - 6:.0f} Q{out:.0f},{depth:.0f} {out - 6:.0f},{depth:.0f} "
            f"L{back + 6:.0f},{depth:.0f} Q{back:.0f},{depth:.0f} {back:.0f},{depth - 6:.0f} L{back:.0f},{to_y + 6:.0f} Q{back:.0f},{to_y:.0f} {back + 6:.0f},{to_y:.0f} "
            f"L{to_x:.0f},{to_y:.0f}")


def edge_lines(drawing, number, lane):
    _, _, kind, label = drawing.edges[number]
    points = drawing.way(number)
    (_, x, y), (to_x, _, to_y) = points[0], points[-1]
    is_back = drawing.is_back(number)
    path = below([points[0], points[-1]], lane, drawing.height + 16 * lane) if is_back else curves(points)
    yield f'<path d="{path}" class="edge"{DASHES[kind]}/><polygon points="{to_x:.0f},{to_y:.0f} {to_x - 8:.0f},{to_y - 4:.0f} {to_x - 8:.0f},{to_y + 4:.0f}" class="tip"/>'
    if label:
        at_start = kind == "post" and not is_back
        place = f'x="{x + 4:.0f}" y="{y - 3:.0f}" style="text-anchor:start"' if at_start else f'x="{to_x - 11:.0f}" y="{to_y - 3:.0f}" style="text-anchor:end"'
        if is_back:
            place = f'x="{(x + to_x) / 2:.0f}" y="{drawing.height + 16 * lane - 3:.0f}"'
        yield f'<text {place} class="label">{html.escape(label)}</text>'


def svg(blocks, edges, notes):
    """The lines of the SVG. An edge is (name, name, kind, label); notes stand below the drawing."""
    drawing = Drawing(blocks, edges)
    back = [number for number in range(len(edges)) if drawing.is_back(number)]
    back.sort(key=lambda it: drawing.nodes[edges[it][0]].x - drawing.nodes[edges[it][1]].x)
    width = max([drawing.width, *(LETTER * len(it) + 40 for it in notes)])
    deep = drawing.height + 16 * len(back) + 10
    total = deep + 18 * len(notes) + 10
    yield (f'<svg xmlns="http://www.w3.org/2000/svg" width="{width:.0f}" height="{total:.0f}"><title>wiring</title><style>{STYLE}</style>'
           '<rect width="100%" height="100%" class="ground"/>')
    for block in blocks:
        yield from block.lines()
    for number in range(len(edges)):
        yield from edge_lines(drawing, number, back.index(number) if number in back else 0)
    for node in drawing.nodes.values():
        yield from node.lines()
    for place, note in enumerate(notes):
        yield f'<text x="20" y="{deep + 18 * place + 4:.0f}" style="text-anchor:start">{html.escape(note)}</text>'
    yield "</svg>"
