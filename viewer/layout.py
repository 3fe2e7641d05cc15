"""An automatic layout: each pool a band, its nodes in layers, outsiders in a row above or below, and a queue's sign between those who send and receive."""
from collections import defaultdict
from dataclasses import dataclass, field

import layers
from measure import width, wrapped
from routes import MARGIN, Box, Port, Router, elbow, lines_of

HEADER, EVENT, GATEWAY, TASK = 34, 36, 50, (120, 72)
LABEL, LINE = 112, 15
SIGN = (52, 26)
CHANNEL, OUTSIDER = 100, 50


@dataclass
class Plan:
    """Where everything stands."""
    nodes: dict = field(default_factory=dict)
    labels: dict = field(default_factory=dict)
    lines: dict = field(default_factory=dict)
    subs: dict = field(default_factory=dict)
    bands: dict = field(default_factory=dict)
    outside: list = field(default_factory=list)
    stations: dict = field(default_factory=dict)
    sending: dict = field(default_factory=dict)
    receiving: dict = field(default_factory=dict)
    colours: dict = field(default_factory=dict)
    beside: list = field(default_factory=list)


@dataclass
class Label:
    lines: list
    x: float
    y: float
    anchor: str = "middle"


def size_of(node):
    if node.form == "diamond":
        return GATEWAY, GATEWAY
    if node.form == "round":
        return EVENT, EVENT
    lines = label_lines(node)
    wide = max([TASK[0], *(width(line) + 16 for line in lines)])
    return round(wide / 20 + 0.4) * 20, max(TASK[1], len(lines) * LINE + 36)


def label_lines(node):
    if len(node.label) == 1:
        # what a text says has no blanks to be broken at, and is at most this wide
        room = LABEL + 40 if " " not in node.label[0] else {"box": LABEL - 4, "diamond": LABEL - 36, "round": LABEL}[node.form]
        return wrapped(node.label[0], room)
    return [line for part in node.label for line in wrapped(part, LABEL + 30, 2)]


class Placing:
    """One pool: its nodes in their layers, and its lines round them. The middles are on the grid of tens."""

    def __init__(self, sketch, pool, downward):
        self.sketch, self.downward = sketch, downward
        self.nodes = {key: node for key, node in sketch.nodes.items() if node.pool == pool}
        self.lines = {("line", key): line for key, line in sketch.lines.items() if line.source in self.nodes}
        self.lines.update({("sub", key): line for key, line in sketch.subs.items() if line.source in self.nodes})
        edges = [(key, line.source, line.target) for key, line in sorted(self.lines.items(), key=self.drawn_order)]
        self.backward = layers.backward_edges(list(self.nodes), edges)
        forward = [edge for edge in edges if edge[0] not in self.backward]
        self.layer = layers.layers_of(list(self.nodes), forward)
        rows, pieces = layers.with_bends(list(self.nodes), forward, self.layer)
        self.rows = layers.ordered(rows, pieces)
        self.level = layers.levels(self.rows, pieces, self.reach)
        self.columns()
        self.labels = {key: label_at(node, self.boxes[key], key in downward) for key, node in self.nodes.items()}
        self.routed()

    def drawn_order(self, item):
        (sort, key), line = item
        return [int(part) for part in key.split(".")], sort

    def reach(self, node):
        if node[0] == "bend":
            return 15, 15
        sign, (_, high) = self.nodes[node], size_of(self.nodes[node])
        text = len(label_lines(sign)) * LINE + 6 if sign.form != "box" else 0
        above, below = (text, 0) if node in self.downward or sign.form == "diamond" else (0, text)
        return high / 2 + 18 + above, high / 2 + 18 + below

    def columns(self):
        self.boxes, x = {}, 0
        between = self.between()
        for at, row in enumerate(self.rows):
            nodes = [node for node in row if node in self.nodes]
            wide = max([max(size_of(self.nodes[node])[0], self.label_width(node)) for node in nodes] or [20])
            middle = round((x + wide / 2) / 10) * 10
            for node in nodes:
                w, h = size_of(self.nodes[node])
                self.boxes[node] = Box(middle - w / 2, self.level[node] - h / 2, w, h, self.nodes[node].form)
            x = middle + wide / 2 + between[at]

    def label_width(self, node):
        sign = self.nodes[node]
        lines = label_lines(sign) if sign.form != "box" else []
        return max([width(line) - 20 for line in lines] or [0])

    def between(self):
        """The room behind each layer: for a token, for what is said of a choice, and for the lines that bend there."""
        found = defaultdict(lambda: 64)
        for key, line in self.lines.items():
            at = self.layer[line.source]
            if line.label:
                found[at] = max(found[at], 34 + width(line.label, 11.5))
            if key in self.backward:
                found[at] += 6
        return found

    def routed(self):
        boxes = list(self.boxes.values())
        low, high = min(box.y for box in boxes) - 150, max(box.y + box.h for box in boxes) + 150
        left, right = min(box.x for box in boxes) - 60, max(box.x + box.w for box in boxes) + 60
        grid = [round(value / 10) * 10 for value in (left, right, low, high)]
        router = Router(lines_of(grid[0], grid[1], []), lines_of(grid[2], grid[3], []))
        for key, box in self.boxes.items():
            router.block(box)
            router.soften(box, 0.6, 24)
            for part in label_boxes(self.labels.get(key)):
                router.soften(part, 10, 3)
        self.points = {}
        for key in sorted(self.lines, key=self.routing_order):
            self.points[key] = self.route(router, key)
            router.claim(self.points[key])

    def routing_order(self, key):
        line = self.lines[key]
        (sx, sy), (tx, ty) = self.boxes[line.source].middle, self.boxes[line.target].middle
        return key in self.backward, abs(sy - ty), abs(sx - tx), self.drawn_order((key, line))

    def route(self, router, key):
        line, back = self.lines[key], key in self.backward
        source, target = self.boxes[line.source], self.boxes[line.target]
        points = router.route(leaving(router, source, back, self.taken(line.source)), entering(router, target, back, self.taken(line.target)))
        return points or elbow(source.middle, target.middle)

    def taken(self, key):
        """The side of an event where its message flow ends; a task is wide enough for both."""
        node = self.nodes[key]
        return "" if node.form != "round" or not self.talks(key) else "foot" if key in self.downward else "top"

    def talks(self, key):
        return any(key in flow.senders or key in flow.receivers for flow in self.sketch.flows.values())

    def extent(self):
        """What the pool takes, labels and lines with it."""
        parts = [*self.boxes.values(), *(part for label in self.labels.values() for part in label_boxes(label))]
        parts += [Box(x, y, 0, 0) for points in self.points.values() for x, y in points]
        left, top = min(part.x for part in parts), min(part.y for part in parts)
        return Box(left, top, max(part.x + part.w for part in parts) - left, max(part.y + part.h for part in parts) - top)


def ports(router, box, ahead, back, straight, taken=""):
    """Where a line may leave or enter: ahead, and at a gateway just as well at its top or foot; a line that leads back below; not where a message flow has its end."""
    gateway = box.form == "diamond"
    found = [router.port(box, ahead, 0, 6 if back and gateway else 0, straight)]
    for side in ("foot", "top"):
        cost = (0 if gateway else 4) + (5 if back and side == "top" else 0) + (12 if side == taken else 0)
        found.append(router.port(box, side, 0, cost, min(straight, 19)))
        if gateway:
            found += [router.port(box, side, off, cost + 4, min(straight, 19)) for off in (-10, 10)]
    return found


def leaving(router, box, back, taken):
    return ports(router, box, "right", back, MARGIN, taken) + [router.port(box, "left", 0, 14)]


def entering(router, box, back, taken):
    """The last piece is straight for as long as a token needs before the arrow, where there is room."""
    near = [Port(port.point, port.cell, port.way, port.cost + 3) for port in ports(router, box, "left", back, MARGIN, taken)]
    return ports(router, box, "left", back, 29, taken) + near + [router.port(box, "right", 0, 14)]


def label_at(node, box, above):
    """A task's words stand in it, an event's below it, or above where a message flow leaves below; a gateway's above, to the left of a line that leaves there."""
    lines = label_lines(node)
    if not lines:
        return None
    (x, y), taken = box.middle, (len(lines) - 1) * LINE
    if node.form == "box":
        return Label(lines, x, y - taken / 2 + (8 if node.sign != "task" else 4))
    if node.form == "diamond":
        return Label(lines, x - 8, box.y - 4 - taken, "end")
    return Label(lines, x, box.y - 13 - taken if above else box.y + box.h + 16)


def label_boxes(label):
    if label is None:
        return []
    found = []
    for at, line in enumerate(label.lines):
        wide = width(line)
        left = label.x - {"middle": wide / 2, "end": wide, "start": 0}[label.anchor]
        found.append(Box(left, label.y + at * LINE - 11, wide, LINE))
    return found
