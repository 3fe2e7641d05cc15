#!/usr/bin/env python3
"""Respells this repository's own definitions and lemmas: words in snake case, a dash only where it joins two names that the file imports, or stands beside a type.

usage: python3 tools/respell.py [--check]     at the top, once, after port.py

It turns whole words of specs/ and proofs/, of the clauses and ghost lines of src/, of the must-fail edits' lines, and of the code spans of README.md and docs/.
What a file imports from a library that is not this repository's keeps its spelling there. Names of the rules of the paper (P-Task-A, C-Create) keep theirs.
--check prints what falls together and writes nothing.
"""

import collections
import glob
import re
import sys

WORD = re.compile(r"[^\s(){}.;,@\"«»\[\]\\]+")
DECLARED = re.compile(r"^\s*((?:(?:pub|abbrev|unfoldable|opaque|private|record|data|ruleset)\s+)*)([^\s:(){}.;,@\"=λ\[\]]+)\s*(:|=|\(|\{|where)(.*)")
USE = re.compile(r"(?m)^\s*(?:pub )?(?:ghost )?use ([^\s{;]+?)\.\{([^}]*)\}")
CLAUSE = re.compile(r"(?:requires|ensures)\s*\*?\s*(?:\w+\s*)?\{|ghost\s*(?:\w+\s*(?::\s*(?:(?:owns|lends)\s*)?|=\s*))?\{")
GHOST_USE = re.compile(r"ghost\s+use\b[^;]*;")
SPAN = re.compile(r"`[^`\n]+`")


# Words of the notation and of BPMN files, which comments and pages spell as those do.
OUTSIDE = set(
    "andJoin andSplit conditionExpression endEvent endSnd eventBased eventBasedGateway exclusiveGateway interRcv interSnd intermediateCatchEvent"
    " intermediateThrowEvent messageEventDefinition messageFlow miPool parallelGateway participantMultiplicity receiveTask sendTask sequenceFlow"
    " startEvent startRcv taskRcv taskSnd terminateEventDefinition xorJoin xorSplit".split()
)


def read(path):
    with open(path, encoding="utf-8", newline="") as it:
        return it.read()


def antt_files():
    return sorted(glob.glob("crates/*/specs/**/*.antt", recursive=True) + glob.glob("crates/*/proofs/**/*.antt", recursive=True))


def imports(text):
    own, foreign = set(), set()
    for path, names in USE.findall(text):
        is_own = path.startswith("Rattle.") and path.split(".")[1] in CRATES
        for it in names.split(","):
            it = it.strip()
            if not it:
                continue
            old, _, new = it.partition(" as ")
            (own if is_own else foreign).add(old.strip())
            if new:
                own.add(new.strip())
    return own, foreign


CRATES = {p.split("/")[1] for p in glob.glob("crates/*/src")}


def snake(part):
    return part if part[:1].isupper() else re.sub(r"(?<=[a-z0-9])([A-Z])", lambda m: "_" + m[1].lower(), part)


def spelled(name, known):
    parts = name.split("-")
    if parts[0] in ("P", "C") or any(not p for p in parts):
        return name
    out = snake(parts[0])
    for a, b in zip(parts, parts[1:]):
        both = (a in known and b in known) or a[:1].isupper() or b[:1].isupper() or not re.search(r"\w", a) or not re.search(r"\w", b)
        out += ("-" if both else "_") + snake(b)
    return out


def table():
    """The new spelling of each declared name that changes."""
    seen, defined, goals = collections.defaultdict(set), collections.defaultdict(set), set()
    for path in antt_files():
        text = read(path)
        own, foreign = imports(text)
        known = own | foreign
        declared = set()
        for line in text.split("\n"):
            m = DECLARED.match(line)
            if not m or not (m[3] == ":" or re.search("record|data|ruleset", m[1])):
                continue
            if path.endswith("/Proof.antt") and (re.match(r"\s*tie\.", m[4]) or m[2].endswith(("-spec", "_spec"))):
                goals.add(m[2])
                continue
            declared.add(m[2])
            defined[m[2]].add(path.split("/")[2])
        for name in declared:
            if name not in foreign and ("-" in name or re.search(r"[a-z0-9][A-Z]", name)):
                seen[name].add(spelled(name, known | (declared if "/specs/" in path else set())))
    out = {}
    for name, news in seen.items():
        new = min(news, key=lambda it: (it.count("-"), it))
        if new != name and name not in goals:
            out[name] = new
    return apart(out, defined)


def apart(of, defined):
    """A lemma that would have a definition's name, in a file that has both, gets _lem."""
    groups = collections.defaultdict(set)
    for name in defined:
        groups[of.get(name, name)].add(name)
    used = [set(WORD.findall(CHAIN.sub("", re.sub(r"--[^\n]*", "", read(p))))) for p in antt_files()]
    out = dict(of)
    for new, olds in groups.items():
        if len(olds) > 1 and any(len(olds & it) > 1 for it in used):
            kept = min(olds, key=lambda it: ("-" in it, "specs" not in defined[it], not re.search("[A-Z]", it), it))
            for it in olds - {kept}:
                out[it] = new + "_lem"
    return out


# A chain that begins at a goal's facts: its steps are named by Rattle, after the source.
CHAIN = re.compile(r"(?<![\w.'-])(?:c|w|l|tie)(?:\.[^\s(){}.;,@\"«»\[\]\\]+)+")


# The path of an import, whose parts are modules, folders and functions.
PATH = re.compile(r"(?:ghost )?use [^\s{;]+")
STILL = re.compile(r'((?:ghost )?use [^\s{;]+|"(?:[^"\\\n]|\\.)*"|(?<![^\s(){};,])--[^\n]*|//[^\n]*)')


def words(text, of, keep, chains=False):
    """Turns each word that stands in 'of', but for those in 'keep' and, with 'chains', the steps of a goal's facts."""
    turn = lambda it: WORD.sub(lambda m: m[0] if m[0] in keep else of.get(m[0], m[0]), it)
    camel = lambda it: WORD.sub(lambda m: of.get(m[0], m[0]) if re.search("[A-Z]", m[0]) and "-" not in m[0] and m[0] not in keep | OUTSIDE else m[0], it)
    kept = lambda it: it if PATH.fullmatch(it) or it[:1] == '"' else camel(it) if it[:2] in ("--", "//") else turn(it)
    one = lambda it: "".join(map(kept, (part for part in STILL.split(it) if part)))
    if not chains:
        return one(text)
    out, at = [], 0
    for m in CHAIN.finditer(text):
        out += [one(text[at : m.start()]), m[0]]
        at = m.end()
    return "".join(out) + one(text[at:])


def braces(text, at):
    depth = 0
    for i in range(at, len(text)):
        depth += (text[i] == "{") - (text[i] == "}")
        if depth == 0:
            return i + 1
    return len(text)


def rattle(text, of):
    """Turns the clauses and the ghost lines of a source file."""
    _, foreign = imports(text)
    out, at = [], 0
    while True:
        found = [m for m in (CLAUSE.search(text, at), GHOST_USE.search(text, at)) if m]
        if not found:
            return "".join(out) + text[at:]
        m = min(found, key=lambda it: it.start())
        end = m.end() if m.re is GHOST_USE else braces(text, m.end() - 1)
        out += [text[at : m.start()], words(text[m.start() : end], of, foreign)]
        at = end


def collisions(path, text, of, foreign):
    had = set(WORD.findall(CHAIN.sub("", re.sub(r"--[^\n]*", "", text))))
    by = collections.defaultdict(set)
    for w in had:
        by[w if w in foreign else of.get(w, w)].add(w)
    for new, olds in by.items():
        if len(olds) > 1:
            print(f"falls together: {path}: {' and '.join(sorted(olds))} are {new}")


def main():
    check = "--check" in sys.argv
    of = table()
    changed = {}
    for path in antt_files():
        text = read(path)
        _, foreign = imports(text)
        collisions(path, text, of, foreign)
        changed[path] = (text, words(text, of, foreign, path.endswith("/Proof.antt")))
    for path in sorted(glob.glob("crates/*/src/**/*.rt", recursive=True)):
        text = read(path)
        changed[path] = (text, rattle(text, of))
    for path in sorted(glob.glob("crates/*/must-fail/*.edit")):
        text = read(path)
        changed[path] = (text, "\n".join(words(l, of, set()) if re.match("old: |new: |old:$|new:$", l) else l for l in text.split("\n")))
    pages = {old: new for old, new in of.items() if old not in OUTSIDE and re.search("[A-Z-]", old)}
    for path in ["README.md", "CONTRIBUTING.md", *sorted(glob.glob("docs/**/*.md", recursive=True))]:
        text = read(path)
        changed[path] = (text, SPAN.sub(lambda m: "`" + words(m[0][1:-1], pages, set()) + "`", text))
    for path, (old, new) in changed.items():
        if new != old and not check:
            with open(path, "w", encoding="utf-8", newline="") as it:
                it.write(new)
    print(f"{len(of)} names")
    return of


if __name__ == "__main__":
    of = main()
    if "--table" in sys.argv:
        for old in sorted(of):
            print(f"{old}\t{of[old]}")
