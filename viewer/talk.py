"""Talks with the engine's console: the run once for the names of its steps, once more step by step for the states, and a third time for why nothing is accepted any more.
Nothing is decided here: every line of a state, every refusal and every permitted step is one that the console printed."""
import re
import subprocess
import tempfile
from dataclasses import dataclass, field

import text

PRINTED = re.compile(r"[0-9a-z :,!?-]*\Z")
VALUES = r"(?:-|\d+(?:,\d+)*)"
STEP, POST = rf"step(?: \d+){{5}} {VALUES}", rf"post \d+ {VALUES}"
TAKEN = re.compile(rf"(?:{STEP}|{POST}|run \d+|fresh(?: \d+)?|batch(?: (?:{STEP}|{POST})(?:;(?:{STEP}|{POST}))*)?)\Z")
ANOTHER = re.compile(r"(?:read|draw|clear|table|record|records|state \d+)\b")
LISTED, LISTED_UP_TO = 8, 1000


class Differs(Exception):
    """The console answered otherwise than before, or something that it never prints."""


@dataclass
class Event:
    """One post, step or fresh state: the command that does it, the line that tells it, its refusal, and the lines of the state that it changed."""
    command: str
    line: str
    refused: int = 0
    untrue: str = ""
    changes: list = field(default_factory=list)


@dataclass
class Record:
    """A run as the console told it."""
    fresh: list = field(default_factory=list)
    events: list = field(default_factory=list)
    nexts: list = None
    last: dict = field(default_factory=dict)
    left: int = 0
    why: list = field(default_factory=list)


class Console:
    def __init__(self, program, model):
        self.program, self.model = program, model

    def talk(self, commands):
        """The lines that the console prints, without the answer to the model; it may answer at once or at the end of its input, so that the input is a file."""
        with tempfile.TemporaryFile("w+") as told:
            told.write(f"read {self.model}\n")
            told.writelines(f"{command}\n" for command in commands)
            told.flush()
            told.seek(0)
            with subprocess.Popen([*self.program, "console"], stdin=told, stdout=subprocess.PIPE, text=True) as started:
                lines = (checked(line.rstrip("\n")) for line in started.stdout)
                if next(lines, "") != "ok":
                    raise Differs("the console does not read the model that it wrote")
                yield from lines
                if started.wait():
                    raise Differs("the console ended with a status of its own")


def checked(line):
    if not PRINTED.match(line):
        raise Differs("the console printed what it never prints")
    return line


def number_of(answer):
    return int(answer.split(" ")[1]) if answer.startswith("refused ") else 0


def step_of(line):
    """The command that takes a step, from its line: the values are those behind `?M:`."""
    *name, traffic = line.split(" ")
    values = traffic.split(":", 1)[1] if traffic.startswith("?") else ""
    return f"step {' '.join(name)} {values or '-'}"


def session_of(lines):
    """The commands of a session that make a run, and where it goes over to another model or state, which ends what can be shown."""
    commands = []
    for place, line in enumerate(lines):
        line = line.strip()
        if ANOTHER.match(line):
            return commands, place + 1
        if TAKEN.match(line):
            commands.append(line)
    return commands, 0


def told_of(command, answer):
    """The event of a single command and its answer."""
    refused = number_of(answer)
    if command.startswith("step ") and not refused:
        return Event(command, f"{command[5:].rsplit(' ', 1)[0]} {answer[3:]}")
    return Event(command, command, refused)


def events_of(commands, answers):
    """The events of the first talk, each with its answer: a run's lines one by one, a batch up to its refusal."""
    for command in commands:
        if command.startswith("run "):
            for answer in answers:
                if answer.startswith("refused "):
                    yield Event(command, command, number_of(answer))
                if not answer[0].isdigit():
                    break
                yield Event(step_of(answer), answer)
        elif command.startswith("batch"):
            yield from items_of(command, next(answers))
        else:
            yield told_of(command, next(answers))


def items_of(command, answer):
    _, accepted, _, refused = answer.split(" ")
    items = command[6:].split(";") if len(command) > 6 else []
    for item in items[:int(accepted)]:
        yield Event(item, "")
    if int(refused):
        whole = int(refused) in (10, 22, 25, 26)
        yield Event("batch" if whole else items[int(accepted)], "batch" if whole else items[int(accepted)], int(refused))


def key_of(line):
    words = line.split(" ")
    return " ".join(words[:{"instance": 3, "queue": 2}.get(words[0], 1)])


def state_in(lines):
    state = {}
    for line in lines:
        if line == "end":
            return state
        state[key_of(line)] = line
    raise Differs("the console stopped in the middle of a state")


def changes_of(before, after):
    return [line for key, line in after.items() if before.get(key) != line] + [key for key in before if key not in after]


def asked_of(events, lists):
    """The commands of the second talk."""
    questions = ["state", *(f"list {place}" for place in range(LISTED if lists else 0))]
    yield from questions
    for event in events:
        if event.command != "batch" and not event.command.startswith("run"):
            yield event.command
        yield from questions
    yield "list 0"


def permitted_in(lines):
    found = [next(lines) for _ in range(LISTED)]
    return [line for line in found if not line.startswith("refused")]


def agrees(event, answer):
    """Whether the second talk answered as the first; a batch did not say what its items sent or consumed, which is filled in here."""
    if event.untrue:
        event.untrue = answer[3:]
        return answer.startswith("ok")
    told = told_of(event.command, answer)
    event.line = event.line or told.line
    return (told.line, told.refused) == (event.line, event.refused)


def replayed(console, events):
    """The record of the second talk."""
    record, lists = Record(events=events), len(events) <= LISTED_UP_TO
    lines = iter(console.talk(asked_of(events, lists)))
    state = state_in(lines)
    record.fresh = list(state.values())
    record.nexts = [permitted_in(lines)] if lists else None
    for event in events:
        if event.command != "batch" and not event.command.startswith("run") and not agrees(event, next(lines, "")):
            raise Differs(f"the console answered otherwise the second time, at '{event.command}'")
        after = state_in(lines)
        if event.untrue:
            after = state
        event.changes, state = changes_of(state, after), after
        if lists:
            record.nexts.append(permitted_in(lines))
    record.left = int(not next(lines).startswith("refused"))
    record.last = state
    return record


def run_of(console, commands):
    answers = iter(console.talk(commands))
    return replayed(console, list(events_of(commands, answers)))


def log_of(console, lines, fault, own):
    """A log's run up to its event at fault; each line must be what the console answers, so that the reading of the log is checked too."""
    events = []
    for line in lines if fault is None else lines[:fault + 1]:
        if line.startswith("post "):
            message, values = line[5:].split(":", 1)
            events.append(Event(f"post {message} {values or '-'}", f"post {message} {values or '-'}"))
        else:
            events.append(Event(step_of(line), line))
    if fault is not None:
        events[-1].refused, events[-1].untrue = own, "" if own else "-"
        events[-1].line = events[-1].command if own else events[-1].line
    return replayed(console, events)


def tries_of(pools, state):
    """The steps to be tried where nothing is accepted: for each token those of the element that its edge enters, for each task under way the next phase, for each full pool its start."""
    queued = {int(key.split(" ")[1]): list(dict.fromkeys(line.split(" ")[2:])) for key, line in state.items() if key.startswith("queue")}
    by_number = {pool.number: pool for pool in pools}
    made = dict.fromkeys(by_number, 0)
    for key, line in state.items():
        if key.startswith("instance"):
            words = line.split(" ")
            pool, instance = by_number[int(words[1])], int(words[2])
            made[pool.number] += 1
            yield from tokens_tried(pool, instance, numbers_in(words[4]), queued)
            yield from tasks_tried(pool, instance, numbers_in(words[6]), numbers_in(words[8]), queued)
    for pool in pools:
        for place, element in enumerate(pool.elements):
            if element.kind == "startRcv" and queued.get(element.messages[0]):
                yield from received(pool, made[pool.number], place, 0, 0, element.messages[0], queued)


def numbers_in(words):
    return [] if words == "-" else [int(part.split(":")[0]) for part in words.split(",")]


def tokens_tried(pool, instance, edges, queued):
    for edge in edges:
        for place, element in enumerate(pool.elements):
            if edge not in element.entries:
                continue
            phase = 1 if element.mode.startswith("na") else 0
            branches = [element.entries.index(edge)] if element.kind == "xorJoin" else range(len(element.exits)) if element.kind in ("xorSplit", "eventBased") else [0]
            for branch in branches:
                message = element.messages[branch] if element.kind in text.RECEIVERS and phase == 0 else None
                yield from received(pool, instance, place, phase, branch, message, queued)


def tasks_tried(pool, instance, active, ready, queued):
    for place, element in enumerate(pool.elements):
        if element.task in active and element.kind in text.TASKS:
            phase = 3 if element.kind == "task" else 2
            yield from received(pool, instance, place, phase, 0, element.messages[0] if element.kind == "taskRcv" else None, queued)
        if element.task in ready and element.kind in text.TASKS:
            yield from received(pool, instance, place, 3, 0, None, queued)


def received(pool, instance, place, phase, branch, message, queued):
    """For a receiver a try for each different message that is queued; one that has none is not tried."""
    entry = {"p": pool.number, "i": instance, "e": place, "f": phase, "b": branch}
    if message is None:
        yield {**entry, "v": "-"}
        return
    for values in queued.get(message, []):
        yield {**entry, "m": message, "v": values}
    if not queued.get(message):
        yield {**entry, "m": message, "r": 0}


def reasons(console, record, pools):
    """The third talk: all tries are refused, and so change nothing; their numbers are the reasons."""
    why = list(tries_of(pools, record.last))
    tried = [entry for entry in why if "r" not in entry]
    again = [event.command for event in record.events if not event.refused and not event.untrue]
    names = [f"step {entry['p']} {entry['i']} {entry['e']} {entry['f']} {entry['b']} {entry['v']}" for entry in tried]
    answers = iter(console.talk([*again, *names, "state"]))
    for _ in again:
        next(answers)
    for entry, answer in zip(tried, answers):
        entry["r"] = number_of(answer)
    if state_in(answers) != record.last or not all(entry["r"] for entry in tried):
        raise Differs("a step was accepted that was not listed")
    record.why = why
