"""A drawing's tags by their places, for names and for the diagram, and which number each has, as the engine's `map` prints it."""
import re
import xml.parsers.expat
from dataclasses import dataclass, field

LONGEST = 200
UNSEEN = re.compile("[\u0000-\u001f\u007f-\u009f\u200e\u200f\u061c\u202a-\u202e\u2066-\u2069\ud800-\udfff\ufffe\uffff]")


def clean(name):
    """A name as it may be shown: one line, no control and no turning of the writing direction, not endless."""
    name = UNSEEN.sub("\ufffd", " ".join(re.split(r"[ \t\r\n]+", name))).strip()
    return name if len(name) <= LONGEST else name[:LONGEST - 1] + "\u2026"


def local(name):
    return name.rsplit(":", 1)[-1]


@dataclass
class Tag:
    place: int
    name: str
    attributes: dict
    parent: object
    children: list = field(default_factory=list)
    text: str = ""

    @property
    def id(self):
        return self.attributes.get("id", "")

    @property
    def label(self):
        return clean(self.attributes.get("name", ""))

    def child(self, name):
        return next((tag for tag in self.children if tag.name == name), None)


class Drawing:
    """All tags in the order of the file; the file was accepted by the engine, so that it is XML, but perhaps not of the encoding that it declares."""

    def __init__(self, data):
        try:
            self.read(data, None)
        except (xml.parsers.expat.ExpatError, LookupError, ValueError):
            self.read(data, "iso-8859-1")
        self.at = {tag.place: tag for tag in self.tags}
        self.known = {}
        for tag in self.tags:
            self.known.setdefault(tag.id, tag)

    def read(self, data, encoding):
        self.tags, self.open = [], None
        parser = xml.parsers.expat.ParserCreate(encoding)
        parser.buffer_text = True
        parser.StartElementHandler = lambda name, attributes: self.opened(parser.CurrentByteIndex, name, attributes)
        parser.EndElementHandler = self.closed
        parser.CharacterDataHandler = self.said
        parser.Parse(data, True)

    def opened(self, place, name, attributes):
        own = {local(key): value for key, value in reversed(list(attributes.items()))}
        own.update({key: value for key, value in attributes.items() if ":" not in key})
        tag = Tag(place, local(name), own, self.open)
        if self.open:
            self.open.children.append(tag)
        self.tags.append(tag)
        self.open = tag

    def closed(self, _name):
        self.open = self.open.parent

    def said(self, text):
        self.open.text += text

    def referred(self, tag, attribute):
        return self.known.get(local(tag.attributes.get(attribute, "")))


class Chart:
    """The lines of `map`: each number's tag."""

    def __init__(self, drawing, lines):
        self.pools, self.elements, self.within, self.branches, self.edges, self.messages, self.outside = {}, {}, {}, {}, {}, {}, []
        for line in lines:
            word, *rest = line.split(" ")
            numbers = [int(part) for part in rest]
            if word == "branch":
                self.branches[tuple(numbers[:3])] = tuple(drawing.at[place] for place in numbers[3:])
            elif word == "outside":
                self.outside.append(drawing.at[numbers[0]])
            elif word != "end":
                kept = {"pool": self.pools, "element": self.elements, "within": self.within, "edge": self.edges, "message": self.messages}[word]
                kept[tuple(numbers[:-1])] = drawing.at[numbers[-1]]
