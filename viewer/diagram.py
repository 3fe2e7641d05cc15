"""The layout that a drawing brings, its BPMNDI part; and why it cannot serve, where it cannot."""
import math

from bands import Stacking, station_box
from layout import Label, Plan, entering, label_at, label_lines, leaving
from measure import wrapped
from places import clean, local
from routes import Box, Router, lines_of, straightened

GREY = {"lane", "textAnnotation", "dataObjectReference", "dataStoreReference", "dataObject", "dataInput", "dataOutput", "group"}
FARTHEST = 100000.0


class Unusable(Exception):
    """The diagram cannot serve; says why."""


def bounds_of(tag):
    box = tag and tag.child("Bounds")
    if not box:
        return None
    try:
        values = [float(box.attributes.get(name, "")) for name in ("x", "y", "width", "height")]
    except ValueError:
        return None
    return Box(*values) if all(math.isfinite(value) and abs(value) < FARTHEST for value in values) and min(values[2:]) > 0 else None


def waypoints_of(tag):
    try:
        points = [(float(point.attributes["x"]), float(point.attributes["y"])) for point in tag.children if point.name == "waypoint"]
    except (KeyError, ValueError):
        return []
    return points if all(math.isfinite(value) and abs(value) < FARTHEST for point in points for value in point) else []


class Diagram:
    def __init__(self, sketch, drawing):
        self.sketch, self.drawing, self.plan = sketch, drawing, Plan()
        self.shapes, self.edges = {}, {}
        for tag in drawing.tags:
            if tag.name in ("BPMNShape", "BPMNEdge"):
                kept = self.shapes if tag.name == "BPMNShape" else self.edges
                kept.setdefault(local(tag.attributes.get("bpmnElement", "")), tag)
        self.bands()
        self.nodes()
        self.lines()
        self.messages()
        self.beside()

    def shape(self, tag):
        return self.shapes.get(tag.id) if tag is not None and tag.id else None

    def bands(self):
        for number, band in self.sketch.bands.items():
            if band.drawn:
                self.plan.bands[number] = self.participant(band)
        self.plan.outside = [self.participant(band) for band in self.sketch.outside]
        boxes = [*self.plan.bands.values(), *self.plan.outside]
        for at, one in enumerate(boxes):
            if any(overlap(one, other) for other in boxes[:at]):
                raise Unusable("participants overlap")

    def participant(self, band):
        box = bounds_of(self.shape(band.tag))
        if box is None:
            raise Unusable("a participant has no place")
        return box

    def nodes(self):
        for key, node in self.sketch.nodes.items():
            shape = self.shape(node.tag)
            box = bounds_of(shape)
            if box is None:
                raise Unusable("a node has no place")
            band = self.plan.bands.get(node.pool)
            if band and not all(band.holds(corner, 1) for corner in ((box.x, box.y), (box.x + box.w, box.y + box.h))):
                raise Unusable("a node stands outside its participant")
            self.plan.nodes[key] = Box(box.x, box.y, box.w, box.h, node.form)
            self.plan.colours[key] = tuple(first(shape.attributes, *names) for names in (("background-color", "fill"), ("border-color", "stroke")))
            label = self.label(node, shape, self.plan.nodes[key])
            if label:
                self.plan.labels[key] = label

    def label(self, node, shape, box):
        own = bounds_of(shape.child("BPMNLabel"))
        if node.form == "box" and node.label:
            lines = wrapped(node.label[0], box.w - 12, max(1, int((box.h - (22 if node.sign != "task" else 6)) / 15)))
            return Label(lines, box.middle[0], box.middle[1] - (len(lines) - 1) * 7.5 + (8 if node.sign != "task" else 4))
        if own and node.label:
            return Label(wrapped(node.label[0], max(own.w + 8, 80)), own.middle[0], own.y + 11)
        return label_at(node, box, False) if label_lines(node) else None

    def lines(self):
        for lines, kept in ((self.sketch.lines, self.plan.lines), (self.sketch.subs, self.plan.subs)):
            for key, line in lines.items():
                edge = self.edges.get(line.tag.id)
                kept[key] = self.drawn(waypoints_of(edge) if edge and line.tag.id else [], self.plan.nodes[line.source], self.plan.nodes[line.target], True)

    def drawn(self, points, source, target, sequence=False):
        """As drawn, cut at the outlines; a line from middle to middle, or none, is bent round what stands between."""
        inner = len(points) == 2 and (source.holds(points[0], -2) or target.holds(points[-1], -2))
        if len(points) < 2 or inner and not (straight(points) and self.free(points, source, target)):
            return self.bent(source, target, sequence)
        points = cut_at(cut_at(points, source)[::-1], target)[::-1]
        return points if len(points) > 1 else self.bent(source, target, sequence)

    def free(self, points, *ends):
        return not any(inside(points, box) for box in self.plan.nodes.values() if box not in ends)

    def router(self):
        boxes = [*self.plan.nodes.values(), *self.plan.outside]
        middles = [box.middle for box in boxes]
        low = [min(box.x for box in boxes) - 80, min(box.y for box in boxes) - 80]
        high = [max(box.x + box.w for box in boxes) + 80, max(box.y + box.h for box in boxes) + 80]
        router = Router(*(lines_of(low[k], high[k], [middle[k] for middle in middles]) for k in (0, 1)))
        for box in boxes:
            router.block(box)
        for lines in (self.plan.lines, self.plan.subs):
            for points in lines.values():
                router.claim(points)
        return router

    def bent(self, source, target, sequence):
        """A sequence flow leaves to the right and enters from the left where it can."""
        router = self.router()
        sides = [[router.port(box, side) for side in ("foot", "top", "right", "left")] for box in (source, target)]
        if sequence:
            sides = [[port for port in find(router, box, False, "") if port.point in middles(box)] for find, box in ((leaving, source), (entering, target))]
        return router.route(*sides) or cut_at(cut_at([source.middle, target.middle], source)[::-1], target)[::-1]

    def messages(self):
        for message, flow in self.sketch.flows.items():
            edge = self.edges.get(flow.tag.id) if flow.tag.id else None
            if edge is None:
                raise Unusable("a message flow has no place")
            ends = [self.box_of(flow.senders[0]), self.box_of(flow.receivers[0])]
            if None in ends:
                raise Unusable("a message flow has no end")
            points = self.drawn(waypoints_of(edge), *ends)
            at, piece = self.station(points)
            self.plan.stations[message] = at
            self.plan.sending[message] = {flow.senders[0]: straightened(points[:piece + 1] + [at])}
            self.plan.receiving[message] = {flow.receivers[0]: straightened([at] + points[piece + 1:])}

    def box_of(self, end):
        return None if end is None else self.plan.nodes[end] if isinstance(end, str) else self.plan.outside[end]

    def station(self, points):
        """The middle of the longest part that is outside all participants, or another place on it where the sign covers nothing."""
        parts = [(piece, part) for piece, ends in enumerate(zip(points, points[1:])) for part in self.outside_parts(ends)]
        parts = parts or [(piece, ends) for piece, ends in enumerate(zip(points, points[1:]))]
        parts.sort(key=lambda found: -length(found[1]))
        taken = [*self.plan.bands.values(), *self.plan.outside, *(station_box(*other) for other in self.plan.stations.values())]
        for share in (0.5, 0.3, 0.7, 0.15, 0.85):
            for piece, ((x1, y1), (x2, y2)) in parts:
                at = (x1 + (x2 - x1) * share, y1 + (y2 - y1) * share)
                if not any(overlap(station_box(*at), other) for other in taken):
                    return at, piece
        piece, ((x1, y1), (x2, y2)) = parts[0]
        return ((x1 + x2) / 2, (y1 + y2) / 2), piece

    def outside_parts(self, ends):
        """The parts of a piece that no participant covers."""
        covered = sorted(filter(None, (inside(ends, box) for box in [*self.plan.bands.values(), *self.plan.outside])))
        (x1, y1), (x2, y2) = ends
        at, parts = 0.0, []
        for begin, end in covered + [(1.0, 1.0)]:
            if begin - at > 1e-6:
                parts.append(tuple((x1 + (x2 - x1) * share, y1 + (y2 - y1) * share) for share in (at, begin)))
            at = max(at, end)
        return parts

    def beside(self):
        numbered = {id(node.tag) for node in self.sketch.nodes.values()}
        for name, shape in self.shapes.items():
            tag, box = self.drawing.known.get(name), bounds_of(shape)
            if tag is not None and box and tag.name in GREY and id(tag) not in numbered:
                said = tag.child("text")
                self.plan.beside.append((box, None, tag.label or (clean(said.text) if said else "")))
        for name, edge in self.edges.items():
            tag, points = self.drawing.known.get(name), waypoints_of(edge)
            if tag is not None and tag.name in ("association", "dataInputAssociation", "dataOutputAssociation") and len(points) > 1:
                self.plan.beside.append((None, points, ""))


def first(attributes, *names):
    return next((attributes[name] for name in names if name in attributes), "")


def middles(box):
    """The middles of the four sides."""
    x, y = box.middle
    return {(x, box.y), (x, box.y + box.h), (box.x, y), (box.x + box.w, y)}


def straight(points):
    return any(abs(points[0][k] - points[-1][k]) < 1 for k in (0, 1))


def length(ends):
    return math.hypot(ends[0][0] - ends[1][0], ends[0][1] - ends[1][1])


def overlap(one, other):
    return one.x < other.x + other.w and other.x < one.x + one.w and one.y < other.y + other.h and other.y < one.y + one.h


def inside(ends, box):
    """The share of a piece, from and to, that lies in a box."""
    begin, end = 0.0, 1.0
    for k, low, high in ((0, box.x, box.x + box.w), (1, box.y, box.y + box.h)):
        start, step = ends[0][k], ends[1][k] - ends[0][k]
        if step == 0:
            if not low < start < high:
                return None
            continue
        one, other = sorted(((low - start) / step, (high - start) / step))
        begin, end = max(begin, one), min(end, other)
    return (begin, end) if end - begin > 1e-9 else None


def cut_at(points, box):
    """A line that begins inside a shape, from its outline on."""
    at = next((k for k, point in enumerate(points) if not within(box, point)), None)
    if at is None or at == 0:
        return points
    inner, outer = points[at - 1], points[at]
    for _ in range(30):
        middle = ((inner[0] + outer[0]) / 2, (inner[1] + outer[1]) / 2)
        inner, outer = (middle, outer) if within(box, middle) else (inner, middle)
    return [tuple(round(value, 1) for value in outer), *points[at:]]


def within(box, point):
    """Strictly inside the outline."""
    dx, dy = point[0] - box.middle[0], point[1] - box.middle[1]
    return abs(dx) < box.w / 2 - 0.01 and abs(dy) < box.depth(dx, True) - 0.01


def planned(sketch, drawing, automatic):
    """Where everything stands, and the note on why it was laid out automatically, where it was."""
    if drawing is None:
        return Stacking(sketch).plan, ""
    if automatic:
        return Stacking(sketch).plan, "laid out automatically"
    try:
        return Diagram(sketch, drawing).plan, ""
    except Unusable as reason:
        return Stacking(sketch).plan, f"laid out automatically: in the diagram {reason}"
