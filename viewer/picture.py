"""The drawing as SVG, in BPMN's own signs, with the numbers of the notation."""
import re
from html import escape
from pathlib import Path

from bands import station_box
from given import Given, arguments
from layout import HEADER, LINE
from measure import cut, width

ROUNDING, EDGE_OF_VIEW = 7, 16
COLOUR = re.compile(r"#[0-9a-fA-F]{6}\Z")


def number(value):
    return f"{round(float(value), 1):g}"


def element(name, attributes=None, *inside):
    """One element; every value and every text is escaped here, and nowhere else."""
    words = "".join(f' {key.replace("_", "-")}="{escape(number(value) if isinstance(value, float) else str(value))}"' for key, value in (attributes or {}).items())
    return f"<{name}{words}>{''.join(inside)}</{name}>" if inside else f"<{name}{words}/>"


def words_at(lines, x, y, kind, anchor="middle", **more):
    if len(lines) == 1:
        return element("text", {"class": kind, "x": number(x), "y": number(y), "text_anchor": anchor, **more}, escape(lines[0]))
    spans = [element("tspan", {"x": number(x), "y": number(y + at * LINE)}, escape(line)) for at, line in enumerate(lines)]
    return element("text", {"class": kind, "text_anchor": anchor, **more}, *spans)


def path_of(points):
    """A line with rounded corners."""
    parts = [f"M{number(points[0][0])} {number(points[0][1])}"]
    for before, at, behind in zip(points, points[1:], points[2:]):
        (x1, y1), (x2, y2) = toward(at, before, before == points[0]), toward(at, behind, behind == points[-1])
        parts.append(f"L{number(x1)} {number(y1)}Q{number(at[0])} {number(at[1])} {number(x2)} {number(y2)}")
    return "".join(parts) + f"L{number(points[-1][0])} {number(points[-1][1])}"


def toward(corner, other, whole):
    length = max(abs(other[0] - corner[0]), abs(other[1] - corner[1]))
    part = min(ROUNDING, length if whole else length / 2) / length if length else 0
    return corner[0] + (other[0] - corner[0]) * part, corner[1] + (other[1] - corner[1]) * part


def envelope(x, y, filled, half=8.0):
    box = {"class": "envelope filled" if filled else "envelope", "x": number(x - half), "y": number(y - half * 0.68), "width": number(2 * half), "height": number(half * 1.36), "rx": 1}
    flap = {"class": "flap filled" if filled else "flap", "d": f"M{number(x - half)} {number(y - half * 0.6)}L{number(x)} {number(y + half * 0.12)}L{number(x + half)} {number(y - half * 0.6)}"}
    return element("rect", box) + element("path", flap)


def longest_piece(points, across_first=True):
    """The ends of the longest straight piece; one that lies across is better for words."""
    pieces = list(zip(points, points[1:])) or [(points[0], points[0])]
    return max(pieces, key=lambda piece: (abs(piece[0][0] - piece[1][0]) > 24 if across_first else False, abs(piece[0][0] - piece[1][0]) + abs(piece[0][1] - piece[1][1])))


class Picture:
    def __init__(self, sketch, plan):
        self.sketch, self.plan = sketch, plan

    def box_of_view(self):
        boxes = [*self.plan.nodes.values(), *self.plan.outside, *(box for number_, box in self.plan.bands.items() if self.sketch.bands[number_].drawn)]
        boxes += [box for box, _, _ in self.plan.beside if box]
        corners = [(box.x, box.y) for box in boxes] + [(box.x + box.w, box.y + box.h) for box in boxes]
        for lines in (self.plan.lines, self.plan.subs):
            corners += [point for points in lines.values() for point in points]
        for sides in (self.plan.sending, self.plan.receiving):
            corners += [point for ends in sides.values() for points in ends.values() for point in points]
        for message, (x, y) in self.plan.stations.items():
            corners += [(x - 34, y - 26), (x + 40 + width(self.sign_name(message)), y + 20)]
        for label in self.plan.labels.values():
            half = max(width(line) for line in label.lines) / 2
            corners += [(label.x - half, label.y - 12), (label.x + half, label.y + LINE * len(label.lines))]
        left, top = min(x for x, _ in corners) - EDGE_OF_VIEW, min(y for _, y in corners) - EDGE_OF_VIEW
        return [round(left), round(top), round(max(x for x, _ in corners) + EDGE_OF_VIEW - left), round(max(y for _, y in corners) + EDGE_OF_VIEW - top)]

    def sign_name(self, message):
        flow = self.sketch.flows[message]
        return cut(flow.name, 150) if flow.tag else ""

    def bands(self):
        for number_, box in self.plan.bands.items():
            band = self.sketch.bands[number_]
            if band.drawn:
                yield self.band(box, band)
        for box, band in zip(self.plan.outside, self.sketch.outside):
            x, y = box.middle
            inside = [element("title", None, escape(band.name))] if band.name else []
            yield element("g", {"class": "band outside"}, *inside, self.rectangle(box, "pool header"), words_at([cut(band.name, box.w - 20, 14)], x, y + 5, "pool-name"))

    def rectangle(self, box, kind, **more):
        return element("rect", {"class": kind, "x": number(box.x), "y": number(box.y), "width": number(box.w), "height": number(box.h), "rx": 5, **more})

    def band(self, box, band):
        x, y = box.x + HEADER / 2 + 4, box.y + box.h / 2
        inside = [element("title", None, escape(band.name)), self.rectangle(box, "pool")]
        left = f"M{number(box.x + 5)} {number(box.y)}a5 5 0 0 0 -5 5v{number(box.h - 10)}a5 5 0 0 0 5 5h{HEADER - 5}v{number(-box.h)}z"
        inside.append(element("path", {"class": "pool header", "d": left}))
        inside.append(words_at([cut(band.name, box.h - 16, 14)], x, y, "pool-name", transform=f"rotate(-90 {number(x)} {number(y)})"))
        if band.many:
            x, y = box.x + box.w / 2, box.y + box.h - 14
            inside.append(element("path", {"class": "many", "d": "".join(f"M{number(x + at)} {number(y)}v10" for at in (-5, 0, 5))}))
        return element("g", {"class": "band"}, *inside)

    def lines(self):
        for lines, points, name in ((self.sketch.subs, self.plan.subs, "data-sub"), (self.sketch.lines, self.plan.lines, "data-line")):
            for key, line in lines.items():
                yield element("path", {"class": "line", name: key, "d": path_of(points[key]), "marker_end": "url(#arrow)"})

    def flows(self):
        for message in self.sketch.flows:
            for sides, kind in ((self.plan.sending, "sends"), (self.plan.receiving, "receives")):
                for end, points in sides[message].items():
                    if points:
                        marks = {"marker_start": "url(#sender)"} if kind == "sends" else {"marker_end": "url(#receiver)"}
                        yield element("path", {"class": "flow", f"data-{kind}": message, "data-end": end if isinstance(end, str) else "", "d": path_of(points), **marks})

    def nodes(self):
        for key, node in self.sketch.nodes.items():
            box = self.plan.nodes[key]
            name = self.sketch.names.get(key) or self.sketch.branches.get(key) or ""
            yield element("g", {"class": f"node {node.sign}", "data-node": key}, *([element("title", None, escape(name))] if name else []), *self.sign(node, box))

    def colours(self, key):
        fill, stroke = self.plan.colours.get(key, ("", ""))
        found = {name: value for name, value in (("fill", fill), ("stroke", stroke)) if COLOUR.match(value)}
        return found, "".join(f" own-{name}" for name in found)

    def sign(self, node, box):
        (x, y), (own, kind) = box.middle, self.colours(node.key)
        if node.form == "box":
            yield self.rectangle(box, "sign" + kind, **{**own, "rx": 9})
            if node.sign != "task":
                yield envelope(box.x + 18, box.y + 15, node.sign == "taskSnd", 9.0)
        elif node.form == "diamond":
            yield element("path", {"class": "sign" + kind, "d": f"M{number(x)} {number(box.y)}L{number(box.x + box.w)} {number(y)}L{number(x)} {number(box.y + box.h)}L{number(box.x)} {number(y)}z", **own})
            yield from gateway_mark(node.sign, x, y)
        else:
            yield from self.event(node, x, y, box.w / 2, own, kind)

    def event(self, node, x, y, radius, own, kind):
        thick = " thick" if node.sign in ("end", "terminate", "endSnd") else ""
        yield element("circle", {"class": "sign" + thick + kind, "cx": number(x), "cy": number(y), "r": number(radius - (1 if thick else 0)), **own})
        if node.sign in ("interRcv", "interSnd"):
            yield element("circle", {"class": "inner", "cx": number(x), "cy": number(y), "r": number(radius - 3.5)})
        if node.sign == "terminate":
            yield element("circle", {"class": "dot", "cx": number(x), "cy": number(y), "r": number(radius * 0.55)})
        if node.sign in ("startRcv", "interRcv", "interSnd", "endSnd"):
            yield envelope(x, y, node.sign in ("interSnd", "endSnd"), radius * 0.5)

    def stations(self):
        for message, (x, y) in self.plan.stations.items():
            box, name = station_box(x, y), self.sign_name(message)
            inside = [element("title", None, escape(self.sketch.flows[message].name)), self.rectangle(box, "queue", rx=13), envelope(box.x + 15, y, False, 7.0)]
            if name:
                inside.append(words_at([name], box.x + box.w + 6, y + 4, "flow-name", "start"))
            inside.append(tagged(str(message), box.x + 2, box.y - 2))
            yield element("g", {"class": "station", "data-queue": message}, *inside)

    def words(self):
        for key, label in self.plan.labels.items():
            node = self.sketch.nodes[key]
            inside = "name inside" if node.form == "box" else "name"
            own, kind = self.colours(key)
            dark = kind and "own-fill" in kind
            yield words_at(label.lines, label.x, label.y, inside + (" on-own" if dark and node.form == "box" else ""), label.anchor)

    def numbers(self):
        for key, node in self.sketch.nodes.items():
            box = self.plan.nodes[key]
            shift = 12 if node.form == "diamond" else 2
            yield tagged(node.number, box.x + (6 if node.form == "box" else 3), box.y + (shift if node.form != "box" else 0))
        for key, line in self.sketch.lines.items():
            yield from self.said_on(line, self.plan.lines[key])

    def said_on(self, line, points):
        """An edge's number over the middle of its longest piece, and before it, where it leaves, what a choice asks."""
        (x1, y1), (x2, y2) = longest_piece(points)
        across = y1 == y2
        x, y = (x1 + x2) / 2, (y1 + y2) / 2
        if line.label:
            yield self.condition(line, points)
        below = across and line.label
        yield words_at([line.number], x if across else x + 5, y + 12 if below else y - 5 if across else y + 4, "number edge-number", "middle" if across else "start")

    def condition(self, line, points):
        pieces = [piece for piece in zip(points, points[1:]) if piece[0][1] == piece[1][1] and abs(piece[0][0] - piece[1][0]) > 30]
        (x1, y1), (x2, _) = pieces[0] if pieces else longest_piece(points)
        words = cut(line.label, max(abs(x2 - x1) + 20, 60), 11.5)
        return words_at([words], x1 + 6 if x2 > x1 else x1 - 6, y1 - 5, "condition", "start" if x2 > x1 else "end")

    def beside(self):
        """Lanes, annotations and data objects, grey; they say nothing about the run."""
        for box, points, words in self.plan.beside:
            if box:
                yield self.rectangle(box, "beside", rx=2)
                if words:
                    yield words_at([cut(words, max(box.w, 80), 11.5)], box.x + 6, box.y + 16, "beside-name", "start")
            else:
                yield element("path", {"class": "beside", "d": path_of(points)})

    def svg(self, inside_defs="", **attributes):
        left, top, wide, high = self.box_of_view()
        groups = [("bands", self.bands()), ("aside", self.beside()), ("rings", ()), ("glow", ()), ("flows", self.flows()), ("lines", self.lines()), ("nodes", self.nodes()),
                  ("queues", self.stations()), ("words", self.words()), ("numbers", self.numbers()), ("counts", ()), ("tokens", ()), ("movers", ())]
        parts = [element("g", {"id": name}, "", *parts) for name, parts in groups]
        frame = {"xmlns": "http://www.w3.org/2000/svg", "viewBox": f"{left} {top} {wide} {high}", **attributes}
        return element("svg", frame, inside_defs, MARKS, *parts)


def tagged(words, x, y):
    """A number on a grey tag, its right foot at a place."""
    wide = 7 + 6.6 * len(words)
    return element("g", {"class": "number tag"}, element("rect", {"x": number(x - wide + 4), "y": number(y - 9), "width": number(wide), "height": 14, "rx": 3}),
                   element("text", {"x": number(x - wide / 2 + 4), "y": number(y + 2), "text_anchor": "middle"}, escape(words)))


def gateway_mark(kind, x, y):
    if kind in ("andSplit", "andJoin"):
        yield element("path", {"class": "mark", "d": f"M{number(x)} {number(y - 10)}v20M{number(x - 10)} {number(y)}h20"})
    elif kind in ("xorSplit", "xorJoin"):
        yield element("path", {"class": "mark", "d": f"M{number(x - 7)} {number(y - 7)}l14 14M{number(x - 7)} {number(y + 7)}l14 -14"})
    else:
        yield element("circle", {"class": "inner", "cx": number(x), "cy": number(y), "r": 12})
        yield element("circle", {"class": "inner", "cx": number(x), "cy": number(y), "r": 9.5})
        yield element("path", {"class": "inner", "d": f"M{number(x)} {number(y - 6)}l5.7 4.1l-2.2 6.8h-7l-2.2 -6.8z"})


MARKS = element(
    "defs", None,
    element("marker", {"id": "arrow", "markerWidth": 10, "markerHeight": 8, "refX": 9, "refY": 4, "orient": "auto", "markerUnits": "userSpaceOnUse"}, element("path", {"class": "arrow", "d": "M0 0L10 4L0 8z"})),
    element("marker", {"id": "receiver", "markerWidth": 10, "markerHeight": 10, "refX": 9, "refY": 5, "orient": "auto", "markerUnits": "userSpaceOnUse"}, element("path", {"class": "open-arrow", "d": "M1 1L9 5L1 9z"})),
    element("marker", {"id": "sender", "markerWidth": 8, "markerHeight": 8, "refX": 4, "refY": 4, "markerUnits": "userSpaceOnUse"}, element("circle", {"class": "open-arrow", "cx": 4, "cy": 4, "r": 3})),
)


def plain_style():
    """The style for a picture alone: each colour written out in its light form, for programs that know no variables."""
    style = (Path(__file__).parent / "picture.css").read_text()
    colours = dict(re.findall(r"(--[a-z0-9-]+): light-dark\((#[0-9a-f]{6}),", style))
    style = re.sub(r":root \{[^}]*\}\n", "", style)
    return re.sub(r"var\((--[a-z0-9-]+)\)", lambda found: colours[found.group(1)], style)


def main():
    given = Given(arguments("picture").parse_args())
    picture = Picture(given.sketch, given.plan)
    wide, high = picture.box_of_view()[2:]
    style = element("style", None, plain_style())
    print(picture.svg(style, role="img", width=wide, height=high))


if __name__ == "__main__":
    main()
