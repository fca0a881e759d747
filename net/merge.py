#!/usr/bin/env python3
"""Makes one script of the journals of a group's members, so that `play` can run again what happened.

    net/merge.py JOURNAL.. > SCRIPT            the script
    net/merge.py --lines JOURNAL.. > LINES     for each event of it the line of the text that the members' answers make

Each member's lines stay in their order. A letter is heard after the line that sent it, a name is given up after its stop, and a place
returns after the stop of its life before. Otherwise the times in the journals decide. A life stopped after its last line if its journal has no
end, if its place came back, or if it was given up. A line without an answer is left out, and so is a last line that is cut off. A life that
was killed before its journal had a line did nothing: give its empty journal, or /dev/null. If there is no such order, an error says what is
missing or in the way: a journal, a letter, a stop or an end.
"""

import heapq
import json
import re
import sys
from dataclasses import dataclass, field
from typing import Any

KINDS = (
    "Request Spread Bcast Order Accept Ack Nack Hold JoinAsk Welcome LeaveAsk Gone Invite Vote Fetch Piece Result HandOver"
).split()
# a name: PLACE, or PLACE/LIFE for a place that came back
NAME = re.compile(r"(?:[0-9]|1[0-5])(?:/(?:[2-9]|1[0-6]))?")
CALLS = {"take", "join", "leave", "state", "tick"}
COUNTS = 6
# the first line of a journal: its name, the founders, and the founding's three numbers; of a list that follows another one also how many came
# before, the group's id, the id of the one before, and the entry that ended that
FOLLOWS = r"\t[1-9][0-9]*\t[0-9a-f]{16}\t[0-9a-f]{16}\t[0-9]+"
HEAD = re.compile(rf"node\t{NAME.pattern}\t[0-9]{{1,2}}(,[0-9]{{1,2}})*(\t[0-9]{{1,4}}){{3}}({FOLLOWS})?")
# how many fields of it are the founding's
FOUNDING = 4


class Unmerged(Exception):
    """Why there is no script of the journals."""


def parts_of(name: str) -> tuple[int, int]:
    """The place and the life of a name."""
    if not NAME.fullmatch(name):
        raise Unmerged(f"{name!r} is no name")
    place, _, life = name.partition("/")
    return int(place), int(life or 1)


def name_of(place: int, life: int) -> str:
    """The name of a place's life."""
    return f"{place}/{life}" if life > 1 else str(place)


@dataclass
class Step:
    """What a life was given, or its stop or return, with its answer and its letters: to whom, and the kind."""

    time: int
    line: str
    heard: tuple[str, int] | None = None
    answer: str = ""
    letters: list[tuple[str, str]] = field(default_factory=list)


@dataclass
class Life:
    """A name's journal."""

    name: str
    founding: list[str]
    steps: list[Step]
    has_ended: bool
    counts: list[int]
    at: int = 0
    sent: int = 0
    time: int = 0  # where it has no steps, when it stopped
    follows: list[str] = field(default_factory=list)  # the fields of a list that follows another one
    next: list[str] = field(default_factory=list)  # what it says of the list that follows: the entry that ended its own, the id, the founding


def letter_of(text: str) -> tuple[str, str]:
    """For whom a letter is, as the text of a play says it but for `all`, and its kind."""
    to, data = text.split(" ")
    return to, dict(enumerate(KINDS, 1))[int(data[6:8], 16)]


def step_of(place: int, fields: list[str]) -> Step:
    """A line of a journal but for `counts` and `end`; what isn't one is a ValueError or a LookupError."""
    time, line, heard, said = fields
    answer, *letters = said.split(" | ")
    if not answer or event_of(place, line, 0)["do"] in ("stop", "return") or line.startswith("hear ") != bool(heard):
        raise ValueError
    letter = None
    if heard:
        name, number = heard.split(" ")
        letter = (name, int(number))
        parts_of(name)
    return Step(int(time), line, letter, answer, [letter_of(text) for text in letters])


def read(path: str) -> Life | None:
    """A journal; a last line without its end isn't there. None where there is no line."""
    with open(path, encoding="utf-8", errors="replace") as file:
        lines = [line.split("\t") for line in file.read().split("\n")[:-1]]
    if not lines:
        return None
    if not HEAD.fullmatch("\t".join(lines[0])):
        raise Unmerged(f"{path} is no journal")
    _, name, *founding = lines[0]
    life = Life(name, founding[:FOUNDING], [], False, [0] * COUNTS, follows=founding[FOUNDING:])
    for number, fields in enumerate(lines[1:], 2):
        try:
            if fields == ["end"]:
                life.has_ended = True
            elif fields[0] == "next" and len(fields) == 3 + FOUNDING:
                life.next = fields[1:]
            elif fields[0] == "counts" and len(fields) == 1 + COUNTS:
                life.counts = [int(count) for count in fields[1:]]
            elif not fields[-1].startswith("bad line "):  # which changed nothing
                life.steps.append(step_of(parts_of(name)[0], fields))
        except (ValueError, LookupError, Unmerged) as error:
            line = "\t".join(fields)
            raise Unmerged(f"{path}, line {number} is no line of a journal: {line[:60]!r}") from error
    return life


def given_up(life: Life) -> dict[str, int]:
    """Whom a life gave up, each with the last time when it did."""
    return {step.line.removeprefix("giveup "): step.time for step in life.steps if step.line.startswith("giveup ")}


def with_idle(lives: list[Life], count: int) -> list[Life]:
    """The lives, and those that did nothing and stopped: whose place came back, or who were given up, without a journal. There are as many
    as empty journals at most; but in a list that follows another one a founder may never have begun, and a place may begin with any life."""
    known = {parts_of(life.name) for life in lives}
    stopped: dict[tuple[int, int], int] = {}
    for life in lives:
        place, number = parts_of(life.name)
        begun = life.steps[0].time if life.steps else life.time
        for (there, last), time in [((place, number - 1), begun), *((parts_of(name), time) for name, time in given_up(life).items())]:
            for name in ((there, each) for each in range(1, last + 1)):
                stopped[name] = min(time, stopped.get(name, time))
    idle = sorted(stopped.keys() - known)
    if len(idle) > count and not lives[0].follows:
        wanted = f"{name_of(*idle[count])} stopped, and its journal isn't there"
        raise Unmerged(f"{wanted}; where it was killed before that had a line, name an empty file in its place")
    lives += [Life(name_of(*each), lives[0].founding, [], False, [0] * COUNTS, follows=lives[0].follows) for each in idle]
    ends = max((life.steps[-1].time for life in lives if life.steps), default=0)
    for life in lives:
        life.time = stopped.get(parts_of(life.name), ends)
    return lives


def with_ends(lives: list[Life]) -> list[Life]:
    """The lives, with a return before each but a place's first, and a stop behind each that stopped."""
    names = {parts_of(life.name) for life in lives}
    gone = {name for life in lives for name in given_up(life)}
    if len(names) != len(lives):
        raise Unmerged("a name has two journals")
    for life in lives:
        place, number = parts_of(life.name)
        if life.follows != lives[0].follows:
            raise Unmerged(f"{life.name} is of another list than {lives[0].name}: each list is merged alone")
        if life.founding != lives[0].founding:
            raise Unmerged(f"{life.name} has another founding than {lives[0].name}")
        first, last = (life.steps[0].time, life.steps[-1].time) if life.steps else (life.time, life.time)
        if not life.has_ended or (place, number + 1) in names or life.name in gone:
            life.steps.append(Step(last, "stop", answer="stopped"))
        if number > 1:
            life.steps.insert(0, Step(first, "return", answer=f"returned {number}"))
    return lives


def look_for_letters(lives: list[Life]) -> None:
    """Refuses journals in which a letter was heard that its sender's journal hasn't."""
    sent = {parts_of(life.name): sum(len(step.letters) for step in life.steps) for life in lives}
    heard = [(step.heard[1], step.heard[0], life.name) for life in lives for step in life.steps if step.heard]
    for number, name, hearer in sorted(heard):
        if parts_of(name) not in sent:
            raise Unmerged(f"{hearer} heard letter {number} of {name}, whose journal isn't there")
        if not 1 <= number <= sent[parts_of(name)]:
            count = sent[parts_of(name)]
            raise Unmerged(f"{hearer} wants letter {number} of {name}, whose journal has {count}: it was cut, or a line is missing")


def wants(life: Life, lives: dict[tuple[int, int], Life]) -> tuple[str, str, int] | None:
    """What must have been before a life's next step; None where nothing."""
    step = life.steps[life.at]
    word, _, rest = step.line.partition(" ")
    place, number = parts_of(life.name)
    if step.heard:
        return "letter", step.heard[0], step.heard[1]
    if word == "giveup":
        return "stop", rest, 0
    if word == "return":
        return "end", lives[place, number - 1].name, 0
    return None


def in_order(lives: list[Life]) -> list[tuple[Life, Step]]:
    """All steps, each behind what it wants."""
    named = {parts_of(life.name): life for life in lives}
    done: set[tuple[str, str, int]] = set()
    waiting: dict[tuple[str, str, int], list[Life]] = {}
    ready: list[tuple[int, str, Life]] = []
    order: list[tuple[Life, Step]] = []

    def ask(life: Life) -> None:
        if life.at < len(life.steps):
            want = wants(life, named)
            if want is None or want in done:
                heapq.heappush(ready, (life.steps[life.at].time, life.name, life))
            else:
                waiting.setdefault(want, []).append(life)

    def tell(what: tuple[str, str, int]) -> None:
        done.add(what)
        for life in waiting.pop(what, []):
            ask(life)

    for life in lives:
        ask(life)
    while ready:
        _, _, life = heapq.heappop(ready)
        step = life.steps[life.at]
        order.append((life, step))
        life.at += 1
        for _ in step.letters:
            life.sent += 1
            tell(("letter", life.name, life.sent))
        if step.line == "stop":
            tell(("stop", life.name, 0))
        if life.at == len(life.steps):
            tell(("end", life.name, 0))
        ask(life)
    for (what, name, number), lives_there in sorted(waiting.items(), key=lambda item: item[0][0] == "end"):
        thing = {"letter": f"letter {number} of {name}", "stop": f"the stop of {name} (given up)", "end": f"the end of {name}"}[what]
        raise Unmerged(f"{lives_there[0].name} wants {thing}, which is in no journal before it")
    return order


def event_of(place: int, line: str, packet: int) -> dict[str, Any]:
    """The event of a script that a line is."""
    word, *rest = line.split(" ")
    event: dict[str, Any] = {"do": word, "node": place}
    if word == "send":
        event["body"] = rest[0].replace("-", "")
    elif word == "done":
        event["req"] = int(rest[0])
    elif word == "ask":
        event["round"] = int(rest[0])
    elif word == "giveup":
        event["name"], life = parts_of(rest[0])
        if life > 1:
            event["life"] = life
    elif word == "reset":
        event["least"] = int(rest[0])
        if len(rest) > 1:
            event["resilience"] = int(rest[1].removeprefix("r"))
    elif word == "hear":
        event["packet"] = packet
    elif word not in CALLS | {"stop", "return"}:
        raise Unmerged(f"{line!r} is no line of a node")
    return event


def to_text(place: int, to: str) -> str:
    """For whom a letter is, as the text of a play says it."""
    others = ",".join(str(other) for other in range(16) if other != place)
    return "all" if to.startswith("*") or to == others else to


class Merged:
    """The events of the journals, and of each the line that `play` must print."""

    def __init__(self, paths: list[str]) -> None:
        read_all = [read(path) for path in paths]
        lives = [life for life in read_all if life]
        if not lives:
            raise Unmerged("no journal has a whole line: no process did anything")
        self.lives = with_ends(with_idle(lives, len(read_all) - len(lives)))
        look_for_letters(self.lives)
        founders, resilience, window, pb_up_to = self.lives[0].founding
        self.founding = {
            "founders": [int(place) for place in founders.split(",")],
            "resilience": int(resilience),
            "window": int(window),
            "pb_up_to": int(pb_up_to),
        }
        self.steps = in_order(self.lives)
        self.events: list[dict[str, Any]] = []
        self.lines: list[str] = []
        numbers: dict[tuple[str, int], int] = {}
        sent = {life.name: 0 for life in self.lives}
        for life, step in self.steps:
            place = parts_of(life.name)[0]
            packet = numbers[step.heard] if step.heard else 0
            word, _, rest = step.line.partition(" ")
            line = " ".join([word, str(place), *([str(packet)] if word == "hear" else [rest] if rest else [])])
            line = f"{len(self.events) + 1} {line} : {step.answer}"
            for to, kind in step.letters:
                sent[life.name] += 1
                numbers[life.name, sent[life.name]] = len(numbers) + 1
                line += f" | {len(numbers)} {kind} to {to_text(place, to)}"
            self.events.append(event_of(place, step.line, packet))
            self.lines.append(line)

    def script(self, most: int | None = None) -> str:
        """The script of the first events."""
        return json.dumps({"play": {**self.founding, "events": self.events[:most]}}, separators=(",", ":"))


def write_out(text: str) -> None:
    """Writes to standard output at once; what it doesn't take is an OSError here, and isn't tried again at the exit."""
    with open(sys.stdout.fileno(), "w", encoding="utf-8", closefd=False) as out:
        out.write(text)


def main() -> int:
    """Merges the journals that are named."""
    words = sys.argv[1:]
    if words[:1] in (["-h"], ["--help"]):
        print(__doc__.strip())
        return 0
    if not [word for word in words if word != "--lines"]:
        print(__doc__, file=sys.stderr)
        return 2
    try:
        merged = Merged([word for word in words if word != "--lines"])
        write_out(("\n".join(merged.lines) if "--lines" in words else merged.script()) + "\n")
    except Unmerged as error:
        print(f"merge.py: {error}", file=sys.stderr)
        return 1
    except OSError as error:
        print(f"merge.py: {error.filename or 'standard output'}: {error.strerror}", file=sys.stderr)
        return 1
    return 0


if __name__ == "__main__":
    sys.exit(main())
