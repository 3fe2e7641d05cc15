"""The viewer held to the engine: what its pages show against what `state` prints, asked for by another way than the pages' own; and hands, traps and times."""
import hashlib
import json
import re
import subprocess
import sys
import tempfile
import xml.dom.minidom
from pathlib import Path

import text
from places import Chart, Drawing

ROOT = Path(__file__).resolve().parent.parent.parent
HERE = ROOT / "tests" / "viewer"
ROOM = Path(tempfile.mkdtemp(prefix="viewer"))

failures = []


def held(good, words):
    if not good:
        failures.append(words)
        print(f"not so: {words}", flush=True)
    return good


def told(*words, data=None):
    done = subprocess.run([str(word) for word in words], input=data, capture_output=True, cwd=ROOT, timeout=500)
    return done.returncode, done.stdout, done.stderr.decode(errors="replace")


def examples():
    """Every example: a name, its model, and its session where it has one."""
    for folder in sorted(ROOT.glob("examples/*/model.txt")):
        yield folder.parent.name, folder, folder.parent / "session.txt"
    for drawing in sorted(ROOT.glob("examples/drawings/*.bpmn")):
        session = drawing.with_name(drawing.stem + "-session.txt")
        yield "drawing-" + drawing.stem, drawing, session if session.exists() else None
    yield "counts", HERE / "counts.txt", HERE / "counts-session.txt"


def watched(name, model, session=None, *words):
    page = ROOM / f"{name}.html"
    status, _, said = told("bin/watch", "-o", page, *(["--session", session] if session else []), *words, model)
    held(status == 0, f"bin/watch gives {status} for {name}: {said}")
    return page


# 1. which node has which number

MAPS = """. bin/words.sh; . bin/proving.sh; build tool; for drawing in "$1"/map-*.bpmn; do start tool map <"$drawing" >"${drawing%.bpmn}.map"; done"""


def numbers():
    drawings = list(accepted_drawings())
    for at, (_, data, _) in enumerate(drawings):
        (ROOM / f"map-{at}.bpmn").write_bytes(data)
    status, _, said = told("bash", "-uc", MAPS, "bin/map", ROOM)
    if held(status == 0 and not said, f"map: {said[-200:]}"):
        for at, (name, data, notation) in enumerate(drawings):
            numbered(name, data, notation, (ROOM / f"map-{at}.map").read_text())


def numbered(name, data, notation, lines):
    """The map of a drawing has the elements, edges and messages of its text."""
    chart = Chart(Drawing(data), lines.splitlines())
    pools = text.pools_of(notation)
    elements = {(pool.number, place) for pool in pools for place in range(len(pool.elements))}
    edges = {(pool.number, edge) for pool in pools for element in pool.elements for edge in element.entries}
    messages = {message for pool in pools for element in pool.elements for message in element.messages}
    held(set(chart.elements) == elements, f"{name}: the elements of the map are those of the text")
    held({*chart.edges, *chart.within} == edges and not {*chart.edges} & {*chart.within}, f"{name}: the edges of the map are those of the text")
    held(messages <= {number for (number,) in chart.messages}, f"{name}: the messages of the map are those of the text")
    by_hand(name, chart)


def accepted_drawings():
    for drawing in sorted(ROOT.glob("examples/drawings/*.bpmn")):
        yield drawing.stem, drawing.read_bytes(), drawing.with_suffix(".txt").read_text()
    answers = iter((ROOT / "examples/drawings/boundary-answers.txt").read_text().splitlines())
    for line in (ROOT / "examples/drawings/boundary.txt").read_bytes().split(b"\n"):
        if line.startswith(b"draw ") and next(answers) == "ok":
            notation = next(answers)
            if b"@" not in line:
                yield f"boundary drawing '{notation[:40]}'", line[5:], notation


def by_hand(name, chart):
    """Set down from the drawings: the branches stand as the gateway's own flows do, not as the catch events do."""
    for line in (HERE / "numbers.txt").read_text().splitlines():
        drawing, key, label = line.split(" ", 2)
        if drawing == name:
            numbers_ = tuple(int(part) for part in key.split("."))
            tag = chart.branches[numbers_][1] if len(numbers_) == 3 else chart.elements[numbers_]
            held(tag.label == label, f"{name}: {key} is '{tag.label}', and by hand '{label}'")


# 2. pages and pictures, byte for byte

def bytes_of_all(store):
    found = {}
    for name, model, session in examples():
        found[name + ".html"] = watched(name, model, session).read_bytes()
        found[name + ".svg"] = told("bin/picture", model)[1]
    again = watched("again", ROOT / "examples/coupled/model.txt", ROOT / "examples/coupled/session.txt", "--title", "Coupled").read_bytes()
    held(again == found["coupled.html"], "the same input gives the same bytes")
    for name, made in found.items():
        well_made(name, made.decode())
    digests = "".join(f"{hashlib.sha256(made).hexdigest()[:16]} {name}\n" for name, made in sorted(found.items()))
    kept_true(HERE / "digests.txt", digests.encode(), store)
    page = watched("docs", ROOT / "examples/coupled/model.txt", ROOT / "examples/coupled/session.txt", "--title", "Coupled trams").read_bytes()
    kept_true(ROOT / "docs/coupled-trams.html", page, store)


def kept_true(path, made, store):
    if store:
        path.write_bytes(made)
    held(path.exists() and path.read_bytes() == made, f"{path.relative_to(ROOT)} is what is made today; tests/viewer/run --store puts it there")


def well_made(name, made):
    drawing = re.search(r"<svg xmlns.*</svg>", made.split("</main>")[0], re.S).group(0)
    xml.dom.minidom.parseString(drawing.encode())
    outside = re.sub(r"<script.*?</script>|<style.*?</style>", "", made, flags=re.S)
    held("http:" not in made.replace("http://www.w3.org/2000/svg", "") and "https:" not in made, f"{name} names nothing on the network")
    held(not re.search(r"<[^>]*\s(style|on[a-z]+)\s*=", outside), f"{name} has no style= and no on..=")


# 3. refusals and wrong uses

def refusals():
    log, model = "examples/logs/", "examples/junction/model.txt"
    (ROOM / "bad.txt").write_text("pool(1,start(1,2)|end(3))")
    cases = [
        (["bin/watch"], 2, "it takes a file"), (["bin/watch", "none.txt"], 2, "there is no file"), (["bin/watch", "--limit", "x", model], 2, "--limit wants"),
        (["bin/watch", "--limit", "65536", model], 2, "--limit wants"), (["bin/watch", "--layout", "by-hand", model], 2, "--layout wants auto"), (["bin/watch", "--bad", model], 2, "no option"),
        (["bin/watch", "--session", model, "--log", model, model], 2, "not both"), (["bin/watch", "--session", "none", model], 2, "there is no file"), (["bin/watch", "-o"], 2, "-o wants"),
        (["bin/picture"], 2, "it takes a file"), (["bin/picture", "-o", ROOM, model], 2, "is a folder"), (["bin/watch", ROOM / "bad.txt"], 1, "check 4 wants"),
        (["bin/picture", ROOM / "bad.txt"], 1, "check 4 wants"), (["bin/watch", "--log", log + "two-traces.xes", model], 1, "not such a log"),
        (["bin/watch", "-o", ROOM / "fault.html", "--log", log + "other-route.xes", model], 1, "is not true (24 with 0)"),
        (["bin/watch", "-o", ROOM / "twice.html", "--log", log + "told-twice.xes", "examples/coupled/model.txt"], 1, "(24 with 12)"),
        (["bin/watch", "-o", ROOM / "lawful.html", "--log", log + "pm4py.xes", model], 0, ""),
        (["bin/watch", "-o", ROOM / "waits.html", "examples/drawings/cancel.bpmn"], 0, "nothing is posted; give a session or a log"),
    ]
    for words, status, said in cases:
        found = told(*words)
        held(found[0] == status and said in found[2], f"{' '.join(map(str, words))}: status {found[0]} and '{found[2].strip()[-90:]}', due are {status} and '{said}'")
    fault = data_of(ROOM / "fault.html")
    held(fault["judged"] == [24, 11, 0] and len(fault["events"]) == 12 and fault["events"][11]["w"] == "!2:12,1", "the event at fault is the last, with what the engine answers")
    held(data_of(ROOM / "twice.html")["events"][-1]["r"] == 12 and data_of(ROOM / "lawful.html")["judged"] == "lawful", "a refused event has its number, a lawful log its word")


def data_of(page):
    return json.loads(re.search(r'id="data">(.*?)</script>', page.read_text(), re.S).group(1))


# what `state` says, by `run 1` and `state`

def states(model, session):
    notation = told("bin/drawing", model)[1].decode().strip() if str(model).endswith(".bpmn") else " ".join(model.read_text().split("\n"))
    commands = [f"read {notation}", "state"]
    for line in session.read_text().splitlines() if session else ["run 100"]:
        if re.match(r"read |draw ", line):
            break
        if line.startswith("run "):
            commands += ["run 1", "state"] * int(line[4:])
        elif re.match(r"post |step |fresh", line):
            commands += [line, "state"]
    lines = iter(told("bin/program", "console", data="".join(f"{command}\n" for command in commands).encode())[1].decode().splitlines()[1:])
    found = [whole_state(lines)]
    for command in commands[2:]:
        if command == "run 1":
            answer = next(lines)
            took = not answer.startswith("steps 0")
            if took:
                next(lines)
            state = whole_state(lines)
            found += [state] if took else []
        elif command != "state":
            next(lines)
            found.append(whole_state(lines))
    return found


def whole_state(lines):
    state = {"tokens": [], "counts": [], "queues": [], "fields": []}
    for line in lines:
        words = line.split(" ")
        if words[0] == "instance":
            own = [int(word) for word in words[1:3]]
            state["tokens"] += [own + pair for pair in pairs(words[4])]
            state["counts"] += [own + [pair[0], what, pair[1]] for what, at in (("active", 6), ("ready", 8)) for pair in pairs(words[at])]
            state["fields"].append(own + [words[10]])
        elif words[0] == "queue":
            state["queues"].append([int(words[1]), len(words) - 2])
        elif line == "end":
            return {sort: sorted(entries) for sort, entries in state.items()}
    raise SystemExit("the console stopped in the middle of a state")


def pairs(words):
    return [] if words == "-" else [[int(number) for number in part.split(":")] for part in words.split(",")]


if __name__ == "__main__":
    sys.modules["check"] = sys.modules["__main__"]
    store, browser = "--store" in sys.argv, "--no-browser" not in sys.argv
    for part in (numbers, lambda: bytes_of_all(store), refusals):
        part()
    if browser:
        import browser_checks
        browser_checks.all_of(store)
    subprocess.run(["rm", "-rf", str(ROOM)], check=False)
    print("the viewer shows what the engine did" if not failures else f"{len(failures)} things are not so")
    sys.exit(bool(failures))
