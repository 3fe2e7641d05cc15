"""How wide words are, near enough for a layout, and how they are broken into lines."""

NARROW, WIDE = set("iljtfrI.,:;'|!()[]{} -1"), set("mwMWQOG@%&+<>=\u2026")


def width(words, size=12.5):
    units = 0.0
    for letter in words:
        units += 0.36 if letter in NARROW else 0.86 if letter in WIDE else 1.0 if ord(letter) > 0x2e80 else 0.7 if letter.isupper() else 0.58
    return units * size


def cut(words, room, size=12.5):
    if width(words, size) <= room:
        return words
    while words and width(words + "\u2026", size) > room:
        words = words[:-1]
    return words.rstrip() + "\u2026"


def wrapped(words, room, lines=3, size=12.5):
    """Lines of whole words that fit; the last one is cut where there are more."""
    found, line = [], ""
    for word in words.split():
        longer = f"{line} {word}" if line else word
        if line and width(longer, size) > room:
            found.append(line)
            line = word
        else:
            line = longer
    found += [line] if line else []
    if len(found) > lines:
        found = found[:lines - 1] + [" ".join(found[lines - 1:])]
    return [cut(line, room, size) for line in found]
