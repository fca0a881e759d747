"""Reads the text of a play: its events, and what each name has after them.

The text leaves some things out, and this adds them by docs/PROTOCOL.md: the stamps of letters, and so of views, from the promises; and the
number of an entry that the sequencer sent by itself, as the one above the last that it has. A send of the only member counts as numbered when
it was sent, or, if a tick says that there was no room, at the next one that doesn't.
"""

import re
from dataclasses import dataclass, field
from typing import Any

import audit
from explain import of_text
from grammar import MEMBERS, NAME, PLACE

# an event's line, with the fields of what is read of it
NUMBER = "[0-9]{1,10}"
ACT = (
    f"(?:take|join|state|leave|stop|tick|return) {PLACE}|send {PLACE} [0-9a-f-]+|(?:done|ask|hear) {PLACE} {NUMBER}"
    f"|reset {PLACE} {NUMBER}(?: r{NUMBER})?|giveup {PLACE} {NAME}|cut {PLACE} {NUMBER} {NUMBER}"
)
FIELDS = {
    **dict.fromkeys(("queued", "numbered", "stored", "returned", "welcomed"), NUMBER),
    "took": f"{NUMBER} [a-z]+ [0-9a-fr/., -]+",
    "put-off": f"{NUMBER} {NUMBER} {NUMBER}",
    "waiting": f"(?:-|{MEMBERS})",
    "overtaken": f"{NUMBER}[.]{NAME}",
    "decided": f"{NUMBER} {MEMBERS}",
}
OUTCOME = "|".join([*(f"{word} {fields}" for word, fields in FIELDS.items()), f"(?!(?:{'|'.join(FIELDS)})(?: |$))[a-z-]+(?: [^ |]+)*"])
EVENT = re.compile(f"{NUMBER} (?:{ACT}) : (?:{OUTCOME})(?: [|] {NUMBER} [A-Z][A-Za-z]* to (?:all|{MEMBERS}))*")

# what a ballot answers as long as it goes on or where it ends
BALLOT = {"waiting", "fetching", "not-in", "too-few", "crowded", "decided"}
# the answers of calls that go without saying
PLAIN = {"took", "ticked", "stopped", "queued", "asked"}
# what a hearing answers where nothing reached the node
UNHEARD = {"no-packet", "not-addressed", "is-stopped"}
# what a Result answers where its stamp was promised
PROMISED = {"known", "unfit", "behind", "catching", "stored"}


# a round and a name; and an entry: its kind, and the stamp of a View or the name that comes or goes
Stamp = tuple[int, str]
Item = tuple[str, Any]


class NoText(Exception):
    """The input is no text of a play."""


@dataclass
class Letter:
    """A letter of a run, and who heard it."""

    number: int
    kind: str
    to: list[str] | None    # names, or None for all
    row: int            # the row of the event that sent it
    sender: str
    stamp: Stamp
    heard: list[tuple[int, str, "Event"]] = field(default_factory=list)   # row, name, event


@dataclass
class Event:
    """An event of a run, with what is drawn of it."""

    number: int
    name: str
    act: str
    arguments: list[str]
    outcome: list[str]  # its words
    letters: list[tuple[int, str, list[str] | None]]    # number, kind, addressees
    text: str           # as in the margin
    line: str
    mark: str = "dot"   # or numbered, stored, taken, stop, end, begin
    entry: int = 0      # its number
    view: Stamp | None = None   # the stamp of a view that its name has from here on
    label: str = ""
    row: int = 0
    left_out: int = 0       # so many idle ticks before it aren't drawn
    last: int = 0           # the number of the last tick, where several in a row are drawn as this one


@dataclass
class Node:
    """What the text says of a name so far."""
    has: dict[int, Item] = field(default_factory=dict)      # an entry's number -> the entry
    promise: Stamp = (0, "0")
    view: Stamp | None = None
    bands: list[tuple[int, Stamp]] = field(default_factory=list)    # row, stamp
    queued: int = 0                             # the last request that it sent
    member_from: int | None = None
    ends: int | None = None
    begins: int | None = None

    def top(self) -> int:
        """The greatest number of its entries."""
        return max(self.has, default=0)


def key_of(name: str) -> tuple[int, int]:
    """The order of names: by place, then by life."""
    place, _, life = name.partition("/")
    return int(place), int(life or 1)


def short(word: str) -> str:
    """A long body's beginning."""
    return word if len(word) <= 14 else word[:8] + "\u2026"


def stamp_of(word: str) -> Stamp:
    """A stamp from its text, as 2.1 or 2.1/2."""
    number, _, name = word.partition(".")
    return int(number), name


def read(data: bytes) -> tuple[list[Event], list[list[str]], str]:
    """The events, the group list and the last line of a text, or NoText."""
    try:
        audit.read(data)
    except audit.BadText as bad:
        raise NoText(of_text(data, bad.line)) from None
    events: list[Event] = []
    group: list[list[str]] = []
    mark = ""
    lives: dict[str, int] = {}
    for number, line in enumerate(data.decode(errors="replace").split("\n")[:-1], 1):
        words = line.split(" ")
        if number == 1 and line.startswith("{"):
            continue    # a race's text begins with what was done, as a script
        if words[0] == "group":
            group.append(words[1:])
        elif words[0] in ("lawful", "void"):
            mark = line
        elif words[0] != "log":
            if not EVENT.fullmatch(line):
                raise NoText(f"line {number} is no event of a play: {shortened(line)}")
            events.append(event_of(line, lives))
    if group[0][1] != "view" or group[0][3] == "-":
        raise NoText("the group list doesn't begin with a view of founders")
    return events, group, mark


def shortened(line: str) -> str:
    """A line, or its beginning."""
    return line if len(line) <= 60 else line[:57] + "..."


def event_of(line: str, lives: dict[str, int]) -> Event:
    """An event from its line; `lives` has each place's current life."""
    parts = line.split(" | ")
    said, answered = (words.split() for words in parts[0].split(" : ", 1))
    place = said[2]
    life = lives.get(place, 1)
    letters = []
    for part in parts[1:]:
        number, kind, _, to = part.split()
        letters.append((int(number), kind, None if to == "all" else to.split(",")))
    if answered[0] == "returned":
        lives[place] = int(answered[1])
    text = " ".join([short(w) for w in said] + [":"] + [short(w) for w in answered])
    name = place if life == 1 else f"{place}/{life}"
    return Event(int(said[0]), name, said[1], said[3:], answered, letters, text, line)


def are_alike(last: Event, event: Event, heard: set[int]) -> bool:
    """Whether two events are ticks of one name with the same answer, whose letters nobody hears."""
    return (last.act, last.name, last.outcome) == (event.act, event.name, event.outcome) == ("tick", last.name, ["ticked"]) and not heard & {
        number for number, _, _ in last.letters + event.letters
    }


class Run:
    """The events of a text, with what they come to at each name."""

    def __init__(self, events: list[Event], group: list[list[str]]) -> None:
        """Follows all events of a text with this group list."""
        self.group = group
        self.letters: dict[int, Letter] = {}
        self.nodes: dict[str, Node] = {}
        self.members: dict[Stamp, list[str]] = {}
        self.events = self.drawn(events)
        self.found(group)
        for event in self.events:
            try:
                self.follow(event)
            except (IndexError, KeyError, ValueError):
                raise NoText(f"event {event.number} doesn't fit what stands before it: {shortened(event.line)}") from None

    def drawn(self, events: list[Event]) -> list[Event]:
        """The events of names that take part, each with its row. Ticks of a name one behind the other, of which nobody hears
        anything, are one."""
        partners = {e.name for e in events if e.outcome != ["idle"]}
        heard = {int(e.arguments[0]) for e in events if e.act in ("hear", "cut")}
        kept: list[Event] = []
        left_out = 0
        for event in events:
            last = kept[-1] if kept else None
            if event.outcome == ["idle"] and event.name not in partners:
                left_out += 1
            elif last and not left_out and are_alike(last, event, heard):
                last.last = event.number
                last.text = f"ticks {last.number} to {event.number} of {event.name} : {' '.join(event.outcome)}"
                last.line = last.line.split("\n")[0] + f"\n{event.line}"
                last.letters = []
            else:
                event.row, event.left_out, left_out = len(kept), left_out, 0
                kept.append(event)
        return kept

    def node(self, name: str) -> Node:
        """What is known of a name."""
        return self.nodes.setdefault(name, Node())

    def found(self, group: list[list[str]]) -> None:
        """The founders, by the first entry of the group list."""
        stamp = stamp_of(group[0][2])
        self.members[stamp] = group[0][3].split(",")
        for name in self.members[stamp]:
            node = self.node(name)
            node.has, node.promise, node.member_from = {1: ("view", stamp)}, stamp, -1
            self.turn(node, -1, stamp)

    def turn(self, node: Node, row: int, stamp: Stamp) -> None:
        """A node comes into a view."""
        node.view = stamp
        node.bands.append((row, stamp))

    def store(self, event: Event, mark: str, number: int, entry: Item = ("data", None)) -> None:
        """The event's name has an entry from here on."""
        node = self.node(event.name)
        node.has[number] = entry
        event.mark, event.entry = mark, number
        if entry[0] == "view":
            event.view = entry[1]
            self.turn(node, event.row, entry[1])

    def is_alone(self, name: str) -> bool:
        """Whether a name is the sequencer, and the only member that it knows of."""
        node = self.node(name)
        if node.view is None or node.view[1] != name or node.promise != node.view:
            return False
        now: set[str] = set()
        for _, (kind, what) in sorted(node.has.items()):
            now = {"view": lambda: set(self.members[what]), "join": lambda: now | {what}, "leave": lambda: now - {what}}.get(
                kind, lambda: now)()
        return now == {name}

    def sent_alone(self, event: Event, node: Node) -> None:
        """The only member numbers what it sends, unless its next tick says that there was no room."""
        number = node.top() + 1
        entry: list[str] = next((rest for at, *rest in self.group if int(at) == number), [])
        if entry[:2] != ["data", event.name] or node.queued < int(entry[2]):
            return
        later = (e for e in self.events[event.row + 1:] if e.name == event.name and e.act == "tick")
        if next((e.outcome[:2] for e in later), []) != ["put-off", entry[2]]:
            self.store(event, "numbered", number)

    def follow(self, event: Event) -> None:
        """Takes in an event, and its letters."""
        node = self.node(event.name)
        event.label = " ".join(event.outcome)
        if event.act in ("hear", "cut"):
            self.hear(event, node)
        else:
            self.call(event, node)
        if event.outcome[0] == "departed" and event.act != "state" and node.ends is None:
            node.ends = event.row
            event.mark = "end" if event.mark == "dot" else event.mark
        for number, kind, to in event.letters:
            for name in to or []:
                self.node(name)
            self.letters[number] = Letter(number, kind, to, event.row, event.name, node.promise)

    def call(self, event: Event, node: Node) -> None:
        """Takes in a call or a tick."""
        word = event.outcome[0]
        kinds = [kind for _, kind, _ in event.letters]
        event.label = event.act if word in PLAIN else f"{event.act}: {' '.join(event.outcome[:2])}"
        if event.last:
            event.label = f"{event.last - event.number + 1} ticks"
        if word == "queued":
            node.queued = int(event.outcome[1])
        if word == "took":
            event.mark, event.entry, event.label = "taken", int(event.outcome[1]), ""
        elif word == "stopped":
            event.mark, node.ends = "stop", event.row if node.ends is None else node.ends
        elif word == "returned":
            self.come_back(event, node)
        elif event.act == "reset" and word in BALLOT:
            node.promise = (node.promise[0] + 1, event.name)
            self.ballot(event, "reset")
        elif event.act == "giveup" and word in BALLOT:
            self.ballot(event, f"give up {event.arguments[0]}")
        elif "Bcast" in kinds:
            self.store(event, "numbered", node.top() + 1)
        elif word in ("queued", "ticked") and node.ends is None and self.is_alone(event.name):
            self.sent_alone(event, node)
        elif word == "departed" and event.act in ("leave", "tick") and node.ends is None:
            for number, kind, *rest in self.group:
                if [kind, *rest] == ["leave", event.name]:
                    self.store(event, "numbered", int(number), ("leave", event.name))

    def come_back(self, event: Event, node: Node) -> None:
        """A place goes on with its next life."""
        node.ends = event.row if node.ends is None else node.ends
        name = f"{event.name.partition('/')[0]}/{event.outcome[1]}"
        self.node(name).begins = event.row
        event.mark, event.label = "begin", "return"

    def ballot(self, event: Event, before: str) -> None:
        """Takes in the result of a ballot."""
        event.label = f"{before}: {event.outcome[0]}" if before else event.outcome[0]
        if event.outcome[0] == "waiting" and len(event.outcome[1]) <= 7:
            event.label += " " + event.outcome[1]
        if event.outcome[0] == "decided":
            stamp = self.node(event.name).promise
            self.members[stamp] = event.outcome[2].split(",")
            self.store(event, "numbered", int(event.outcome[1]), ("view", stamp))

    def hear(self, event: Event, node: Node) -> None:
        """Takes in a hearing."""
        word = event.outcome[0]
        letter = self.letters.get(int(event.arguments[0]))
        kind = letter.kind if letter else "packet " + event.arguments[0]
        told = word if word in BALLOT | {"served"} else " ".join(event.outcome[:2])
        event.label = f"{kind}: {told}"
        if letter is None or word in ("no-packet", "not-addressed"):
            return
        letter.heard.append((event.row, event.name, event))
        if word in UNHEARD or word == "refused":
            return
        if word == "numbered":
            comes = {"JoinAsk": "join", "LeaveAsk": "leave"}.get(kind, "data")
            self.store(event, "numbered", int(event.outcome[1]), (comes, letter.sender))
            event.label = kind
        elif kind == "Piece" and (word in BALLOT or word == "stored"):
            self.piece(event, node, letter)
        elif word == "stored":
            number = int(event.outcome[1])
            entry = self.node(letter.sender).has.get(number, ("data", None))
            self.store(event, "stored", number, ("view", letter.stamp) if kind == "Result" else entry)
            event.label = kind
        elif kind in ("Vote", "HandOver") and word in BALLOT:
            if kind == "HandOver":
                node.promise = (node.promise[0] + 1, event.name)
            self.ballot(event, kind)
        elif word == "welcomed" and kind == "Welcome":
            self.welcome(event, node, letter)
        if kind == "Invite" and word == "voted" or kind == "Result" and word in PROMISED:
            node.promise = max(node.promise, letter.stamp, key=lambda s: (s[0], key_of(s[1])))
        elif word == "overtaken":
            node.promise = stamp_of(event.outcome[1])

    def piece(self, event: Event, node: Node, letter: Letter) -> None:
        """An entry of another's list, brought to one that catches up."""
        number = int(event.outcome[1]) if event.outcome[0] == "stored" else node.top() + 1
        self.store(event, "stored", number, self.node(letter.sender).has.get(number, ("data", None)))
        event.label = "Piece"
        if event.outcome[0] != "stored":
            self.ballot(event, "Piece")

    def welcome(self, event: Event, node: Node, letter: Letter) -> None:
        """A joiner's list begins."""
        node.member_from, node.promise = event.row, letter.stamp
        event.label = f"Welcome: entry {event.outcome[1]}"
        if any(kind == "Nack" for _, kind, _ in event.letters):
            self.turn(node, event.row, letter.stamp)
            event.view = letter.stamp
