"""One page with the drawing, the run as the console told it, and the player."""
import base64
import hashlib
import json
import re
import sys
from html import escape, unescape
from pathlib import Path

import talk
from given import Given, arguments
from picture import Picture
from places import clean

LARGEST = 16 * 1024 * 1024
HERE = Path(__file__).parent


def rounded(points):
    return [[round(x, 1), round(y, 1)] for x, y in points]


def end_name(end):
    return end if isinstance(end, str) else ""


class Page:
    def __init__(self, given, record, title, note, judged, words, further):
        self.sketch, self.plan = given.sketch, given.plan
        self.picture = Picture(given.sketch, given.plan)
        self.data = {
            "title": title, "note": note, "view": self.picture.box_of_view(), "words": words, "further": further,
            **self.model(), **self.geometry(), **self.run(record), "judged": judged,
        }

    def model(self):
        pools = []
        for pool in self.sketch.pools:
            elements = [{"k": element.kind, "name": self.sketch.names[f"{pool.number}.{place}"], "i": element.entries, "o": element.exits, "m": element.messages,
                         "c": element.conditions, "t": element.task} for place, element in enumerate(pool.elements)]
            pools.append({"n": pool.number, "name": self.sketch.bands[pool.number].name, "many": pool.limit, "els": elements})
        return {"pools": pools, "messages": {str(message): flow.name for message, flow in self.sketch.flows.items()}}

    def geometry(self):
        nodes = {}
        for node in self.sketch.nodes.values():
            box = self.plan.nodes[node.key]
            nodes.update({key: [round(value, 1) for value in (box.x, box.y, box.w, box.h)] for key in node.keys})
        stations = {}
        for message, at in self.plan.stations.items():
            sides = [{end_name(end): rounded(points) for end, points in side[message].items() if points} for side in (self.plan.sending, self.plan.receiving)]
            stations[str(message)] = {"at": rounded([at])[0], "s": sides[0], "r": sides[1]}
        return {"nodes": nodes, "edges": {key: rounded(points) for key, points in self.plan.lines.items()}, "subs": {key: rounded(points) for key, points in self.plan.subs.items()},
                "branches": self.sketch.branches, "within": self.sketch.within, "stations": stations}

    @staticmethod
    def run(record):
        events = []
        for event in record.events:
            told = {"l": event.line, "c": event.changes}
            if event.refused:
                told["r"] = event.refused
            if event.untrue:
                told["w"] = event.untrue
            events.append(told)
        return {"fresh": record.fresh, "events": events, "nexts": record.nexts, "why": record.why, "left": record.left}

    def html(self):
        style, script = ((HERE / "picture.css").read_text() + (HERE / "page.css").read_text()), (HERE / "player.js").read_text()
        policy = f"default-src 'none'; script-src '{digest(script)}'; style-src '{digest(style)}'; base-uri 'none'; form-action 'none'"
        drawing = self.picture.svg(id="drawing", role="img", aria_label=f"The drawing: {self.data['title']}", preserveAspectRatio="xMidYMid meet")
        parts = {"TITLE": escape(self.data["title"]), "POLICY": escape(policy), "STYLE": style, "SCRIPT": script, "DRAWING": drawing, "DATA": self.packed(), "NOTE": escape(self.data["note"])}
        # in one pass, so that a name such as @DATA@ stays a name
        return re.sub(r"@([A-Z]+)@", lambda found: parts[found.group(1)], (HERE / "page.html").read_text())

    def packed(self):
        packed = json.dumps(self.data, sort_keys=True, separators=(",", ":"))
        return packed.replace("<", "\\u003c").replace(">", "\\u003e").replace("&", "\\u0026")


def digest(words):
    return "sha256-" + base64.b64encode(hashlib.sha256(words.encode()).digest()).decode()


def from_outside(sketch):
    """The messages that a pool receives and none sends."""
    return [flow.name for flow in sketch.flows.values() if not any(isinstance(end, str) for end in flow.senders)]


def notes_of(given, words, record, other):
    found = [given.note] if given.note else []
    outside = from_outside(given.sketch)
    if not words.session and not words.log and not record.left and outside:
        found.append(f"nothing is posted; give a session or a log (from outside: {', '.join(outside)})")
    if other:
        found.append(f"line {other} of the session goes over to another model or state; what is shown ends before it")
    return found


def recorded(words, console):
    """The run: a session's, a log's, or that of `run N`; beside it the line of a session where another model begins."""
    if words.log:
        lines = [unescape(line) for line in Path(words.log).read_text().splitlines()]
        fault, own = (None, 0) if words.judged == "lawful" else map(int, words.judged.split(" ")[1:])
        record = talk.log_of(console, lines, fault, own)
        return record, 0, 0 if fault is None else len(lines) - fault - 1
    commands, other = talk.session_of(Path(words.session).read_text(errors="replace").splitlines()) if words.session else ([f"run {words.limit}"], 0)
    return talk.run_of(console, commands), other, 0


def parsed():
    parser = arguments("page")
    for name in ("--title", "--session", "--log", "--judged", "--words", "--program"):
        parser.add_argument(name, default="")
    parser.add_argument("--limit", type=int, default=100)
    return parser.parse_args()


def written(page, events):
    html = page.html()
    size = len(html.encode())
    if size > LARGEST:
        each = (size - len(json.dumps({**page.data, "events": []}))) / max(1, events)
        fit = int((LARGEST - (size - each * events)) / each) if each else 0
        sys.exit(f"the page would have {size} bytes, and at most {LARGEST} are written: about {fit} of its {events} events fit")
    return html


def main():
    words = parsed()
    given = Given(words)
    console = talk.Console([words.program], given.text)
    try:
        record, other, further = recorded(words, console)
        if not record.left and not (record.events and (record.events[-1].refused or record.events[-1].untrue) and words.log):
            talk.reasons(console, record, given.sketch.pools)
    except talk.Differs as reason:
        sys.exit(f"what is shown would not be what the engine did: {reason}")
    notes = notes_of(given, words, record, other)
    for note in notes[1 if given.note else 0:]:
        print(note, file=sys.stderr)
    meanings = dict(line.split(" ", 1) for line in Path(words.words).read_text().splitlines())
    judged = words.judged if words.judged in ("", "lawful") else [int(part) for part in words.judged.split(" ")]
    page = Page(given, record, clean(words.title) or "A run", "; ".join(notes), judged, meanings, further)
    sys.stdout.write(written(page, len(record.events)))


if __name__ == "__main__":
    main()
