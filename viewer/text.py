"""The notation's text as the engine writes it, taken apart: pools, their elements, and what each element takes, puts and says."""
import re
from dataclasses import dataclass, field

TOKEN = re.compile(r"[A-Za-z0-9_]+|:=|[|(){},<>?+\-=:]")
RECEIVERS = {"startRcv", "interRcv", "taskRcv", "eventBased"}
SENDERS = {"interSnd", "taskSnd"}
TASKS = {"task", "taskRcv", "taskSnd"}
JOINS = {"andJoin", "xorJoin"}
SPLITS = {"andSplit", "xorSplit", "eventBased"}


@dataclass
class Element:
    kind: str
    entries: list = field(default_factory=list)
    exits: list = field(default_factory=list)
    messages: list = field(default_factory=list)
    templates: list = field(default_factory=list)
    conditions: list = field(default_factory=list)
    assigns: list = field(default_factory=list)
    task: int = 0
    mode: str = ""


@dataclass
class Pool:
    number: int
    limit: int
    elements: list


class Reader:
    """Goes through the tokens; the text was written by the engine, so that what comes next is known."""

    def __init__(self, text):
        self.tokens = TOKEN.findall(text)
        self.at = 0

    def sees(self, token):
        return self.at < len(self.tokens) and self.tokens[self.at] == token

    def take(self, expected=None):
        if self.at >= len(self.tokens) or expected not in (None, self.tokens[self.at]):
            raise ValueError("the text is not one that the engine writes")
        self.at += 1
        return self.tokens[self.at - 1]

    def number(self):
        return int(self.take())

    def until(self, *closing):
        """The tokens up to a comma or a closing sign at this depth, joined."""
        words = []
        while self.tokens[self.at] not in (",", *closing):
            words.append(self.take())
        return "".join(words)

    def listed(self, opening, closing, item):
        found = []
        self.take(opening)
        while not self.sees(closing):
            found.append(item())
            if not self.sees(closing):
                self.take(",")
        self.take(closing)
        return found

    def message(self, element):
        element.messages.append(self.number())
        self.take(":")
        element.templates.append("<" + ",".join(self.listed("<", ">", lambda: self.until(">"))) + ">")

    def branch(self, element):
        self.take("(")
        self.message(element)
        self.take(",")
        element.exits.append(self.number())
        self.take(")")

    def choice(self, element):
        self.take("(")
        element.exits.append(self.number())
        self.take(",")
        element.conditions.append(self.until(")"))
        self.take(")")

    def work(self, element):
        element.task = self.number()
        self.take(",")
        element.mode = self.take()
        self.take(",")
        element.conditions.append(self.until())
        self.take(",")
        element.assigns = self.listed("{", "}", lambda: self.until("}"))

    def edges(self, found):
        found += self.listed("{", "}", self.number)

    def part(self, element, letter):
        """One argument of an element: e, E entries, f, F exits, m a message, b a branch, c the choices, w a task's work."""
        if letter in "ef":
            (element.entries if letter == "e" else element.exits).append(self.number())
        elif letter in "EF":
            self.edges(element.entries if letter == "E" else element.exits)
        elif letter == "c":
            self.listed("{", "}", lambda: self.choice(element))
        else:
            {"m": self.message, "b": self.branch, "w": self.work}[letter](element)

    def element(self):
        element = Element(self.take())
        self.take("(")
        for place, letter in enumerate(FORMS[element.kind]):
            if place:
                self.take(",")
            self.part(element, letter)
        while element.kind == "eventBased" and self.sees(","):
            self.take(",")
            self.branch(element)
        self.take(")")
        return element

    def pool(self):
        many = self.take() == "miPool"
        self.take("(")
        number = self.number()
        self.take(",")
        elements = [self.element()]
        while self.sees("|"):
            self.take("|")
            elements.append(self.element())
        limit = 0
        if many:
            self.take(",")
            limit = self.number()
        self.take(")")
        return Pool(number, limit, elements)


FORMS = {
    "start": "ef", "startRcv": "mf", "end": "e", "terminate": "e", "interRcv": "emf", "interSnd": "emf", "eventBased": "eb", "andSplit": "eF",
    "andJoin": "Ef", "xorJoin": "Ef", "xorSplit": "ec", "task": "ewf", "taskRcv": "ewmf", "taskSnd": "ewmf",
}


def pools_of(text):
    reader = Reader(text)
    pools = [reader.pool()]
    while reader.sees("|"):
        reader.take("|")
        pools.append(reader.pool())
    return pools
