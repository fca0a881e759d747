#!/usr/bin/env python3
"""Audits a printed text: do its logs agree with each other, with the group list, and with the events? docs/AUDIT.md has the verdicts.

    tools/audit.py < TEXT

It is written from that page alone, and does what `./muoswyld audit` does. It writes the verdict. It ends with 0 if that is `agrees` or
`lists-agree`, with 9 for another verdict, with 8 if the input is no text, and with 3 if it is too long; then the cause is on standard error.
"""

import re
import sys
from collections.abc import Iterator
from dataclasses import dataclass, field
from itertools import islice

import grammar
from words import end, taken, words

MOST_BYTES = 16_777_216
MOST_NUMBER = 2_000_000_000

NUMBER, PLACE, NAME, NAMES, BODY = (part.encode() for part in (f"({grammar.NUMBER})", grammar.PLACE, grammar.NAME, grammar.NAMES, grammar.BODY))

EVENT = re.compile(rb"%s (.*?) : (.*)" % NUMBER, re.DOTALL)
GROUP = re.compile(rb"group %s (.*)" % NUMBER, re.DOTALL)
LOG = re.compile(rb"log (%s) (?:empty|%s (.*))" % (NAME, NUMBER), re.DOTALL)
END = re.compile(rb"lawful|void from %s" % NUMBER)
DATA = re.compile(rb"data (%s) %s (%s)" % (NAME, NUMBER, BODY))
MOVE = re.compile(rb"(join|leave) (%s)" % NAME)
VIEW = re.compile(rb"view %s\.(%s) (%s)(?: r([1-9]|1[0-5]))?" % (NUMBER, NAME, NAMES))
SEND = re.compile(rb"send (%s) (%s)" % (PLACE, BODY))
DONE = re.compile(rb"done (%s) %s" % (PLACE, NUMBER))
TAKE = re.compile(rb"take (%s)" % PLACE)
RETURN = re.compile(rb"return (%s)" % PLACE)
QUEUED = re.compile(rb"queued %s" % NUMBER)
SENT = re.compile(rb"sent %s %s" % (NUMBER, NUMBER))
TOOK = re.compile(rb"took %s (.*)" % NUMBER, re.DOTALL)
RETURNED = re.compile(rb"returned ([1-9]|1[0-6])")


class BadText(Exception):
    """The input is no text."""

    def __init__(self, line: int) -> None:
        """The first bad line."""
        super().__init__(f"bad text at {line}")
        self.line = line


@dataclass(frozen=True, order=True)
class Name:
    """One life of one place; names are ordered by place, then by life."""

    place: int
    life: int

    def __str__(self) -> str:
        """As texts spell it."""
        return str(self.place) if self.life == 1 else f"{self.place}/{self.life}"


@dataclass(frozen=True)
class Data:
    """A send with its number."""

    sender: Name
    request: int
    body: bytes


@dataclass(frozen=True)
class Named:
    """What is said of a name."""

    name: Name


class Join(Named):
    """A name that joins."""


class Leave(Named):
    """A name that leaves."""


@dataclass(frozen=True)
class View:
    """A view."""

    round: int
    by: Name
    members: tuple[Name, ...]
    resilience: int


Entry = Data | Join | Leave | View


@dataclass(frozen=True)
class Numbered(Named):
    """An entry with its number at a name: a log line, or a take."""

    number: int
    entry: Entry


@dataclass(frozen=True)
class Answer(Named):
    """A send of a name that was answered as sent."""

    request: int
    number: int


@dataclass
class Text:
    """What a text says."""

    events: int = 0
    sends: list[Data] = field(default_factory=list)
    answers: list[Answer] = field(default_factory=list)
    takes: list[Numbered] = field(default_factory=list)
    group: list[Entry] = field(default_factory=list)
    logs: list[Numbered] = field(default_factory=list)
    void_from: int | None = None


# ---- reading


def number_of(digits: bytes) -> int | None:
    """A number within its limit."""
    number = int(digits)
    return number if number <= MOST_NUMBER else None


def name_of(word: bytes) -> Name:
    """The name that a word spells."""
    place, _, life = word.partition(b"/")
    return Name(int(place), int(life or b"1"))


def names_of(word: bytes) -> tuple[Name, ...] | None:
    """A set of names, with ascending places."""
    names = () if word == b"-" else tuple(map(name_of, word.split(b",")))
    ascends = all(a.place < b.place for a, b in zip(names, names[1:]))
    return names if ascends else None


def entry_of(words: bytes) -> Entry | None:
    """The entry that words spell; None if they spell none."""
    if said := DATA.fullmatch(words):
        request = number_of(said[2])
        return None if request is None else Data(name_of(said[1]), request, said[3])
    if said := MOVE.fullmatch(words):
        name = name_of(said[2])
        return Join(name) if said[1] == b"join" else Leave(name)
    if said := VIEW.fullmatch(words):
        turn, members = number_of(said[1]), names_of(said[3])
        return None if turn is None or members is None else View(turn, name_of(said[2]), members, int(said[4] or b"0"))
    return None


class Reader:
    """Goes through a text line by line."""

    def __init__(self) -> None:
        """Nothing was read yet."""
        self.text = Text()
        self.lives: dict[int, int] = {}
        self.ended = False

    def name_at(self, place: bytes) -> Name:
        """The name of a place, with its current life."""
        return Name(int(place), self.lives.get(int(place), 1))

    def count(self, act: bytes, outcome: bytes) -> None:
        """Keeps an event of the kinds that count."""
        text = self.text
        if (asked := SEND.fullmatch(act)) and (said := QUEUED.fullmatch(outcome)):
            request = number_of(said[1])
            if request is not None:
                text.sends.append(Data(self.name_at(asked[1]), request, asked[2]))
        elif (asked := DONE.fullmatch(act)) and (said := SENT.fullmatch(outcome)):
            request, number = number_of(said[1]), number_of(said[2])
            if request is not None and number is not None and asked[2] == said[1]:
                text.answers.append(Answer(self.name_at(asked[1]), request, number))
        elif (asked := TAKE.fullmatch(act)) and (said := TOOK.fullmatch(outcome)):
            number, entry = number_of(said[1]), entry_of(said[2])
            if number is not None and entry is not None:
                text.takes.append(Numbered(self.name_at(asked[1]), number, entry))
        elif (asked := RETURN.fullmatch(act)) and (said := RETURNED.fullmatch(outcome)):
            self.lives[int(asked[1])] = int(said[1])

    def event(self, line: bytes) -> bool:
        """Whether a line is the next event, which is kept."""
        said = EVENT.fullmatch(line)
        if self.text.group or not said or number_of(said[1]) != self.text.events + 1:
            return False
        self.text.events += 1
        self.count(said[2], said[3].partition(b" | ")[0])
        return True

    def group(self, line: bytes) -> bool:
        """Whether a line is the next entry of the group list, which is kept."""
        said = GROUP.fullmatch(line)
        if self.logs_began or not said or number_of(said[1]) != len(self.text.group) + 1:
            return False
        entry = entry_of(said[2])
        if entry is None:
            return False
        self.text.group.append(entry)
        return True

    logs_began = False

    def log(self, line: bytes) -> bool:
        """Whether a line is one of a log, which is kept."""
        said = LOG.fullmatch(line)
        if not self.text.group or not said:
            return False
        if said[2] is not None:
            number, entry = number_of(said[2]), entry_of(said[3])
            if number is None or entry is None:
                return False
            self.text.logs.append(Numbered(name_of(said[1]), number, entry))
        self.logs_began = True
        return True

    def end(self, line: bytes) -> bool:
        """Whether a line is the last one, which is kept."""
        said = END.fullmatch(line)
        if not self.text.group or not said:
            return False
        if said[1] is not None:
            self.text.void_from = number_of(said[1])
            if self.text.void_from is None:
                return False
        self.ended = True
        return True

    def line(self, line: bytes) -> bool:
        """Whether a text may go on with this line; what it says is kept."""
        return not self.ended and (self.event(line) or self.group(line) or self.log(line) or self.end(line))


def read(data: bytes) -> Text:
    """What a text says, or BadText."""
    reader = Reader()
    *lines, rest = data.split(b"\n")
    for number, line in enumerate(lines, 1):
        passed_over = number == 1 and line.startswith(b"{")
        if not passed_over and not reader.line(line):
            raise BadText(number)
    if rest or not reader.ended:
        raise BadText(len(lines) + 1)
    return reader.text


# ---- verdicts


def logs_of(lines: list[Numbered]) -> dict[Name, list[Numbered]]:
    """The lines of each name in their order."""
    found: dict[Name, list[Numbered]] = {}
    for line in lines:
        found.setdefault(line.name, []).append(line)
    return found


def at(group: list[Entry], number: int) -> Entry | None:
    """The entry with a number of a list; None if there is none."""
    return group[number - 1] if 1 <= number <= len(group) else None


def faults(text: Text) -> Iterator[str]:
    """The log lines that fault, by what is found before them."""
    last: dict[Name, int] = {}
    first: dict[int, Numbered] = {}
    stands: dict[tuple[Name, int], int] = {}
    for line in text.logs:
        known = first.setdefault(line.number, line)
        if line.name in last and last[line.name] + 1 != line.number:
            yield f"gap {line.name} {line.number}"
        if known.entry != line.entry:
            yield f"differs {known.name} {line.name} {line.number}"
        if isinstance(line.entry, Data):
            send = (line.entry.sender, line.entry.request)
            if stands.setdefault(send, line.number) != line.number:
                yield f"twice {send[0]} {send[1]}"
        last[line.name] = line.number


def astray(text: Text) -> Iterator[str]:
    """The log lines that the group list doesn't have."""
    for line in text.logs:
        if at(text.group, line.number) != line.entry:
            yield f"astray {line.name} {line.number}"


def lost(text: Text) -> Iterator[str]:
    """The answers whose send doesn't stand at their number."""
    stands: dict[tuple[Name, int], list[int]] = {}
    for number, entry in enumerate(text.group, 1):
        if isinstance(entry, Data):
            stands.setdefault((entry.sender, entry.request), []).append(number)
    for answer in text.answers:
        if stands.get((answer.name, answer.request)) != [answer.number]:
            yield f"lost {answer.name} {answer.request}"


def early(text: Text) -> Iterator[str]:
    """The logs that don't begin at a founders' view or at their Join."""
    for name, lines in logs_of(text.logs).items():
        number, entry = lines[0].number, lines[0].entry
        founds = number == 1 and isinstance(entry, View) and name in entry.members
        if not founds and entry != Join(name):
            yield f"early {name} {number}"


@dataclass
class Seat:
    """What the list tells of a place: its last life, whether that is a member, and its last request."""

    life: int = 0
    member: bool = False
    last: int = 0


class Fold:
    """What the list tells, entry by entry."""

    def __init__(self) -> None:
        """A blank image."""
        self.seats = [Seat() for _ in range(16)]
        self.stamp = (0, Name(0, 1))
        self.resilience = 0

    def is_member(self, name: Name) -> bool:
        """Whether a name is a member now."""
        seat = self.seats[name.place]
        return seat.member and seat.life == name.life

    def found(self, entry: Entry) -> bool:
        """Whether it founds a group; its names are let in."""
        if not isinstance(entry, View) or not entry.members:
            return False
        if entry.round != 1 or entry.by != min(entry.members) or entry.resilience or any(name.life != 1 for name in entry.members):
            return False
        for name in entry.members:
            self.seats[name.place] = Seat(1, True, 0)
        self.stamp = (entry.round, entry.by)
        return True

    def add(self, entry: Entry) -> bool:
        """Whether it fits; then it is added."""
        if isinstance(entry, Data):
            seat = self.seats[entry.sender.place]
            fits = self.is_member(entry.sender) and entry.request == seat.last + 1
            seat.last += fits
        elif isinstance(entry, Join):
            seat = self.seats[entry.name.place]
            fits = not seat.member and seat.life < entry.name.life
            if fits:
                self.seats[entry.name.place] = Seat(entry.name.life, True, 0)
        elif isinstance(entry, Leave):
            fits = self.is_member(entry.name)
            self.seats[entry.name.place].member &= not fits
        else:
            fits = self.view(entry)
        return fits

    def view(self, entry: View) -> bool:
        """Whether a view fits; its members are those from here on."""
        fits = (
            (entry.round, entry.by) > self.stamp
            and all(map(self.is_member, entry.members))
            and entry.by in entry.members
            and entry.resilience >= self.resilience
        )
        if fits:
            self.stamp, self.resilience = (entry.round, entry.by), entry.resilience
            for place, seat in enumerate(self.seats):
                seat.member &= Name(place, seat.life) in entry.members
        return fits


def misfit(text: Text) -> Iterator[str]:
    """The entries that don't fit those before them."""
    fold = Fold()
    for number, entry in enumerate(text.group, 1):
        if not (fold.found(entry) if number == 1 else fold.add(entry)):
            yield f"misfit {number}"


def no_events(text: Text) -> Iterator[str]:
    """The verdict if there are no events."""
    if text.events == 0:
        yield "lists-agree"


def skipped(text: Text) -> Iterator[str]:
    """The sends whose request isn't the next of their name."""
    last: dict[Name, int] = {}
    for send in text.sends:
        if send.request != last.get(send.sender, 0) + 1:
            yield f"skipped {send.sender} {send.request}"
        last[send.sender] = send.request


def unsent(text: Text) -> Iterator[str]:
    """The entries that no send asked for."""
    sends = set(text.sends)
    for entry in text.group:
        if isinstance(entry, Data) and entry not in sends:
            yield f"unsent {entry.sender} {entry.request}"


def unlogged(text: Text) -> Iterator[str]:
    """The takes that the log of their name doesn't have."""
    logs = logs_of(text.logs)
    taken: dict[Name, int] = {}
    for take in text.takes:
        k = taken.get(take.name, 0)
        if logs.get(take.name, [])[k:k + 1] != [take]:
            yield f"unlogged {take.name} {take.number}"
        taken[take.name] = k + 1


def untaken(text: Text) -> Iterator[str]:
    """The log lines that no take gave."""
    left = {name: len(lines) for name, lines in logs_of(text.takes).items()}
    for line in text.logs:
        left[line.name] = left.get(line.name, 0) - 1
        if left[line.name] < 0:
            yield f"untaken {line.name} {line.number}"


CHECKS = (faults, astray, lost, early, misfit, no_events, skipped, unsent, unlogged, untaken)


def verdict(text: Text) -> str:
    """The first verdict that holds."""
    return next((found for check in CHECKS for found in islice(check(text), 1)), "agrees")


def audit(data: bytes) -> tuple[str, int]:
    """The line of the verdict and its status, or BadText."""
    text = read(data)
    found = verdict(text)
    mark = "" if text.void_from is None else f" void from {text.void_from}"
    return found + mark, 0 if found in ("agrees", "lists-agree") else 9


def main() -> int:
    """Audits the text that is read."""
    words(__doc__, most=0)
    data = taken(MOST_BYTES + 1)
    if len(data) > MOST_BYTES:
        print("too long", file=sys.stderr)
        return 3
    try:
        line, status = audit(data)
    except BadText as bad:
        print(bad, file=sys.stderr)
        return 8
    print(line)
    return status


if __name__ == "__main__":
    end(main)
