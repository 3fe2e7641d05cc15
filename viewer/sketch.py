"""What is to be drawn, before it has a place: nodes, lines, message flows and bands, each with the numbers of the notation, from the text and, where there is one, the drawing."""
from dataclasses import dataclass, field

import text

WORDS = {
    "start": "start", "startRcv": "start", "end": "end", "terminate": "terminate", "interRcv": "receive", "interSnd": "send", "eventBased": "event gateway",
    "andSplit": "parallel split", "andJoin": "parallel join", "xorJoin": "merge", "xorSplit": "choice", "task": "task", "taskRcv": "receive", "taskSnd": "send",
}


@dataclass
class Node:
    key: str
    pool: int
    sign: str
    label: list
    number: str
    keys: list
    tag: object = None

    @property
    def form(self):
        return "box" if self.sign in text.TASKS else "diamond" if self.sign in text.SPLITS | text.JOINS else "round"


@dataclass
class Line:
    key: str
    source: str
    target: str
    label: str = ""
    number: str = ""
    tag: object = None


@dataclass
class Flow:
    """A message and its queue: who sends it and who receives it, nodes by their keys, an outsider by its place in the list, None where nothing is drawn."""
    name: str
    senders: list
    receivers: list
    tag: object = None


@dataclass
class Band:
    name: str
    many: bool = False
    tag: object = None
    drawn: bool = True


@dataclass
class Sketch:
    pools: list
    names: dict = field(default_factory=dict)
    nodes: dict = field(default_factory=dict)
    lines: dict = field(default_factory=dict)
    subs: dict = field(default_factory=dict)
    branches: dict = field(default_factory=dict)
    within: dict = field(default_factory=dict)
    flows: dict = field(default_factory=dict)
    bands: dict = field(default_factory=dict)
    outside: list = field(default_factory=list)


def said_by_text(element, branch=None):
    """The label of an element in a text, which has no names: what it receives or sends, assigns and asks."""
    if branch is not None:
        return [f"{element.messages[branch]}:{element.templates[branch]}"]
    label = [] if element.conditions[:1] in ([], ["true"]) or element.kind not in text.TASKS else [f"[{element.conditions[0]}]"]
    label += element.assigns
    if element.kind != "eventBased":
        label += [f"{message}:{template}" for message, template in zip(element.messages, element.templates)]
    return label


class Sketcher:
    def __init__(self, pools, chart=None, drawing=None):
        self.chart, self.drawing = chart, drawing
        self.sketch = Sketch(pools)
        for pool in pools:
            self.band(pool)
            for place, element in enumerate(pool.elements):
                self.element(pool, place, element)
            self.edges(pool)
        self.messages()

    def band(self, pool):
        tag = self.chart.pools.get((pool.number,)) if self.chart else None
        drawn = tag is None or tag.name == "participant"
        name = tag.label if tag else ""
        self.sketch.bands[pool.number] = Band(name or f"pool {pool.number}", pool.limit > 0, tag, drawn)

    def element(self, pool, place, element):
        key = f"{pool.number}.{place}"
        tag = self.chart.elements.get((pool.number, place)) if self.chart else None
        name = tag.label if tag else ""
        self.sketch.names[key] = name or f"{WORDS[element.kind]} {place}"
        shared = next((node for node in self.sketch.nodes.values() if tag and node.tag is tag), None)
        if shared:
            shared.keys.append(key)
            shared.sign = "endSnd"
            return
        label = ([name] if name else []) if tag else said_by_text(element)
        self.sketch.nodes[key] = Node(key, pool.number, element.kind, label, str(place), [key], tag)
        if element.kind == "eventBased":
            for branch in range(len(element.exits)):
                self.branch(pool, place, element, branch)

    def branch(self, pool, place, element, branch):
        key = f"{pool.number}.{place}.{branch}"
        flow, tag = self.chart.branches[pool.number, place, branch] if self.chart else (None, None)
        name = tag.label if tag else ""
        self.sketch.branches[key] = name
        label = ([name] if name else []) if tag else said_by_text(element, branch)
        self.sketch.nodes[key] = Node(key, pool.number, "interRcv", label, f"{place}\u00b7{branch}", [key], tag)
        self.sketch.subs[key] = Line(key, f"{pool.number}.{place}", key, tag=flow)

    def node_of(self, key):
        """The node that an element is drawn as."""
        return next(node.key for node in self.sketch.nodes.values() if key in node.keys)

    def edges(self, pool):
        source, target = {}, {}
        for place, element in enumerate(pool.elements):
            key = f"{pool.number}.{place}"
            for at, edge in enumerate(element.exits):
                condition = element.conditions[at] if element.kind == "xorSplit" else ""
                source[edge] = (f"{key}.{at}" if element.kind == "eventBased" else key, condition)
            for edge in element.entries:
                target[edge] = key
        for edge in sorted(target):
            key = f"{pool.number}.{edge}"
            tag = self.chart.edges.get((pool.number, edge)) if self.chart else None
            if edge not in source or self.chart and (pool.number, edge) in self.chart.within:
                self.sketch.within[key] = target[edge]
                continue
            start, condition = source[edge]
            label = tag.label or condition if tag else condition
            label = "" if label == "true" and not (tag and tag.label) else label
            self.sketch.lines[key] = Line(key, self.node_of(start), self.node_of(target[edge]), label, str(edge), tag)

    def messages(self):
        senders, receivers = {}, {}
        for pool in self.sketch.pools:
            for place, element in enumerate(pool.elements):
                key = f"{pool.number}.{place}"
                for at, message in enumerate(element.messages):
                    kept = receivers if element.kind in text.RECEIVERS else senders
                    kept.setdefault(message, []).append(f"{key}.{at}" if element.kind == "eventBased" else self.node_of(key))
        tags = {number: tag for (number,), tag in self.chart.messages.items()} if self.chart else {}
        self.sketch.outside = [Band(tag.label, False, tag) for tag in self.chart.outside] if self.chart else []
        for message in sorted({*senders, *receivers, *tags}):
            tag = tags.get(message)
            name = tag.label if tag and tag.label else f"message {message}"
            self.sketch.flows[message] = Flow(name, senders.get(message) or [self.outsider(tag, "sourceRef")], receivers.get(message) or [self.outsider(tag, "targetRef")], tag)

    def outsider(self, tag, attribute):
        if tag is None:
            return None
        other = self.drawing.referred(tag, attribute)
        return next((at for at, band in enumerate(self.sketch.outside) if band.tag is other), None)


def sketch_of(pools, chart=None, drawing=None):
    return Sketcher(pools, chart, drawing).sketch
