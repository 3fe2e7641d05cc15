"""What the programs here are given: a text as the engine wrote it and, for a drawing, the drawing and the engine's map of it."""
import argparse
import sys
from pathlib import Path
from xml.parsers.expat import ExpatError

from diagram import planned
from places import Chart, Drawing
from sketch import sketch_of
from text import pools_of


def arguments(name):
    parser = argparse.ArgumentParser(prog=name)
    parser.add_argument("--drawing")
    parser.add_argument("--map")
    parser.add_argument("--layout")
    parser.add_argument("text")
    return parser


def drawing_in(path):
    """The drawing's tags; where Python's reader refuses what the engine reads, it is shown as its text is, without names."""
    if not path:
        return None, ""
    try:
        return Drawing(Path(path).read_bytes()), ""
    except ExpatError:
        return None, "the names of the drawing cannot be read; it is shown as its text"


class Given:
    def __init__(self, words):
        self.text = Path(words.text).read_text().strip()
        drawing, unread = drawing_in(words.drawing)
        chart = Chart(drawing, Path(words.map).read_text().splitlines()) if drawing else None
        self.sketch = sketch_of(pools_of(self.text), chart, drawing)
        self.plan, self.note = planned(self.sketch, drawing, bool(words.layout))
        self.note = self.note or unread
        if self.note:
            print(self.note, file=sys.stderr)
