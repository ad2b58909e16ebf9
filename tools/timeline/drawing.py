"""Shapes on lanes, from left to right, as SVG and as a page of HTML."""
import html

HEIGHT, LEFT, ROWS = 22, 80, 12
# How wide a letter is taken to be, in a lane's name and in a label.
LETTER = 7
COLORS = {"post": "#7aa6d8", "fire": "#e0a030", "wait": "#d8d0b0", "queue": "#c8d8c8", "cut": "#d06060", "drop": "#b04040", "done": "#60a870",
          "yield": "#a890c8", "failed": "#c86048", "shed": "#808080", "stuck": "#d03030", "taken": "#60a870", "freed": "#e0a8a0", "held": "#d8d0b0",
          "lost": "#d03030", "short": "#b8b8b8", "book": "#d8d0b0", "given": "#e0a8a0", "note": "#98b0c8", "none": "#e0e0e0"}
MEANINGS = {"post": "a post", "fire": "a firing", "wait": "waits", "queue": "is queued", "cut": "cut", "drop": "dropped", "done": "ran",
            "yield": "ran, and is suspended", "failed": "failed", "shed": "shed", "stuck": "goes on no more", "taken": "claimed, then taken",
            "freed": "claimed, then handed back", "held": "claimed to the end", "lost": "lost to another, or no room", "short": "too few messages",
            "book": "booked, then put", "given": "gave up", "note": "another step", "none": "asked, and nothing was there"}
STYLE = ("text{font:11px sans-serif;fill:#111}.rule{stroke:#ccc}.dot{stroke:#fff}.ground{fill:#fff}"
         "@media(prefers-color-scheme:dark){text{fill:#ddd}.rule{stroke:#444}.dot{stroke:#1b1b1b}.ground{fill:#1b1b1b}}text.in{fill:#111}")
# Makes the drawing larger and smaller, by its own measures.
SCRIPT = ("const s=document.querySelector('svg'),w=+s.getAttribute('width'),h=+s.getAttribute('height');s.setAttribute('viewBox',`0 0 ${w} ${h}`);"
          "document.querySelector('input').oninput=e=>{s.setAttribute('width',w*e.target.value);s.setAttribute('height',h*e.target.value)}")


class Refused(Exception):
    """What is wrong with a line."""


class Page:
    """The lanes by their names, and the shapes on them: (lane, first column, the one behind the last, kind, label, title)."""

    def __init__(self):
        self.lanes, self.shapes = {}, []

    def lane(self, name):
        return self.lanes.setdefault(name, len(self.lanes))

    def bar(self, lane, first, last, kind, label, title):
        self.shapes.append((self.lane(lane), first, last, kind, label, title))


def width_of(columns, zoom):
    """How wide a column is: names fit where there are few."""
    return max(2, round((46 if columns <= 60 else 18 if columns <= 400 else 8) * zoom))


def label_width(label):
    return LETTER * len(label) + 6


def is_inside(shape, column):
    """Whether the label has room in its bar; else it stands behind it."""
    return label_width(shape[4]) <= column * (shape[2] - shape[1])


def end_of(shape, column):
    """The column behind the bar and its whole label."""
    _, first, last, kind, label, _ = shape
    if kind == "post" or not label or is_inside(shape, column):
        return last
    return last + -(-label_width(label) // column)


def rows_of(shapes, column):
    """For each lane how many rows it has, and each shape with its row, the first that is free where it begins, and whether its label has room there."""
    ends, placed = {}, []
    for shape in sorted(shapes, key=lambda it: (it[0], it[1], it[2])):
        lane, first, last = shape[:3]
        rows = ends.setdefault(lane, [])
        row, has_room = 0, True
        if shape[3] == "post":
            rows[:] = rows or [0]
        else:
            row = next((place for place, end in enumerate(rows) if end <= first), len(rows))
            has_room = row < ROWS
            if row == len(rows) and has_room:
                rows.append(0)
            row = min(row, ROWS - 1)
            rows[row] = end_of(shape, column) if has_room else max(rows[row], last)
        placed.append((row, shape, has_room))
    return {lane: len(rows) for lane, rows in ends.items()}, placed


def shape_lines(shape, x, y, column, has_room):
    lane, first, last, kind, label, title = shape
    wide, color = column * (last - first) - 2, COLORS.get(kind, "#999")
    yield f"<g><title>{html.escape(title)}</title>"
    if kind == "post":
        yield f'<circle cx="{x + column // 2 - 1}" cy="{y + 10}" r="{min(6, column // 2)}" fill="{color}" class="dot"/></g>'
        return
    yield f'<rect x="{x}" y="{y + 2}" width="{wide}" height="{HEIGHT - 6}" rx="2" fill="{color}"/>'
    if label and has_room:
        place = f'x="{x + 3}" class="in"' if is_inside(shape, column) else f'x="{x + wide + 3}"'
        yield f'<text {place} y="{y + 14}">{html.escape(label)}</text>'
    yield "</g>"


def svg(page, columns, zoom=1):
    column, left = width_of(columns, zoom), max([LEFT, *(LETTER * len(name) for name in page.lanes)])
    counts, placed = rows_of(page.shapes, column)
    tops, below = {}, 0
    for name, lane in page.lanes.items():
        tops[lane] = below
        below += HEIGHT * counts.get(lane, 1)
    last = max([columns + 1, *(end_of(shape, column) for _, shape, has_room in placed if has_room)])
    width, height = left + column * last, below + 4
    yield f'<svg xmlns="http://www.w3.org/2000/svg" width="{width}" height="{height}"><style>{STYLE}</style><rect width="{width}" height="{height}" class="ground"/>'
    for name, lane in page.lanes.items():
        y = tops[lane]
        line = y + HEIGHT * counts.get(lane, 1) - 1
        yield f'<line x1="0" y1="{line}" x2="{width}" y2="{line}" class="rule"/><text x="4" y="{y + 15}">{html.escape(name)}</text>'
    for row, shape, has_room in sorted(placed, key=lambda it: it[1][3] == "post"):
        yield from shape_lines(shape, left + column * shape[1], tops[shape[0]] + HEIGHT * row, column, has_room)
    yield "</svg>"


def whole(page, columns, what, zoom=1):
    """A page of HTML that needs nothing else."""
    used = {shape[3] for shape in page.shapes}
    keys = " ".join(f'<b style="background:{color}">&nbsp;{MEANINGS[kind]}&nbsp;</b>' for kind, color in COLORS.items() if kind in used)
    yield (f"<!doctype html><meta charset=utf-8><title>{what}</title><style>:root{{color-scheme:light dark}}body{{font:12px sans-serif}}"
           f"div{{overflow-x:auto}}b{{font-weight:normal;color:#111}}</style><p>{what}, from left to right. {keys}</p>"
           '<p>zoom <input type=range min=0.25 max=4 step=0.25 value=1></p><div>')
    yield from svg(page, columns, zoom)
    yield f"</div><script>{SCRIPT}</script>"
