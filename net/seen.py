"""What the applications of a cluster's members sent and saw, compared with each other and with the members' journals.

- All lives printed pieces of one list: at a position all have the same delivery, and nobody misses one between its first and its last.
- A founder's piece begins with the founders' view, a joiner's with its own join.
- Each message stands in the list once at most, and only where its sender sent it; those that were given by one way stand in their order.
- A message whose send was answered stands at the position of the answer. Of a life that ended by its input all messages stand there.
- What a life printed is what its journals say that its node gave it: all of it, or, where it was killed, the beginning. Of a list that ended that
  is all up to its end, and what was printed of that end is what the journal says. Of contents beside the list a journal has the length and the
  CRC-32: both are those of the messages that were printed, as the sender's stream has them.

Where more stopped than the resilience, all but the last of these is looked at in what each life was given before that.
"""

import json
import pathlib
import zlib
from collections.abc import Iterator
from dataclasses import dataclass, replace
from typing import Any

from member import Position
from merge import Life

# of a run of which not all is claimed the last number that is, by list and name
Claims = dict[tuple[int, str], int]
# how a body of control begins, which nobody is given
CONTROL = b"C"
# how a body begins that names contents beside the list, and how long it is
REFERENCE = b"R"
REFERENCE_SIZE = 17


class Log:
    """What a member prints, an object of JSON a line, read as it comes; a last line that is cut isn't there."""

    def __init__(self, path: pathlib.Path) -> None:
        self.path, self.offset = path, 0
        self.deliveries: list[dict[str, Any]] = []

    def read(self) -> None:
        """Reads what came since the last time."""
        with open(self.path, "rb") as file:
            file.seek(self.offset)
            whole, _, _ = file.read().rpartition(b"\n")
        if whole:
            self.offset += len(whole) + 1
            self.deliveries += [json.loads(line) for line in whole.split(b"\n")]

    def last(self) -> Position | None:
        """The last position that was read."""
        return at_of(self.deliveries[-1]) if self.deliveries else None


@dataclass
class Seen:
    """What a life's application sent, by each way in order, what was answered, and what it was given."""

    name: str
    names: dict[int, str]  # its name in each list that it began
    channels: list[list[str]]
    answers: dict[str, Position | None]  # none where it was refused
    log: list[dict[str, Any]]
    has_ended: bool  # by the end of its input

    def is_own(self, delivery: dict[str, Any]) -> bool:
        """Whether a message is its own, by its name in that list."""
        return delivery["kind"] == "message" and bool(delivery["from"] == self.names.get(delivery["generation"]))

    def missing(self) -> set[str]:
        """The messages that it was to send, that it wasn't refused, and that it wasn't given itself."""
        refused = {message for message, answer in self.answers.items() if answer is None}
        own = {delivery["text"] for delivery in self.log if self.is_own(delivery)}
        return {message for channel in self.channels for message in channel} - refused - own


def at_of(delivery: dict[str, Any]) -> Position:
    """Where a delivery stands."""
    return Position(delivery["generation"], delivery["number"], delivery["index"])


def shown(delivery: dict[str, Any]) -> str:
    """A delivery in a line, cut where it is long."""
    text = json.dumps(delivery)
    return text if len(text) <= 100 else f"{text[:97]}.."


def one_list(lives: list[Seen]) -> tuple[dict[Position, dict[str, Any]], list[str]]:
    """The list of which each life was given a piece, in order, and what speaks against that."""
    found: dict[Position, dict[str, Any]] = {}
    wrong = []
    for life in lives:
        last = None
        for delivery in life.log:
            at = at_of(delivery)
            if last is not None and at <= last:
                wrong.append(f"{life.name} was given {shown(delivery)} behind what stands later")
            if found.setdefault(at, delivery) != delivery:
                wrong.append(f"{life.name} was given {shown(delivery)}, and another one {shown(found[at])}")
            last = at
    return dict(sorted(found.items())), wrong


def begins(life: Seen) -> bool:
    """Whether a life's piece begins with the founders' view, or with its own join."""
    first = life.log[0]
    if "/" in life.name:
        return bool(first["kind"] == "joined" and first["name"] == life.name)
    return bool(first["kind"] == "view" and first["number"] == 1 and life.name in first["members"])


def gaps(life: Seen, whole: dict[Position, dict[str, Any]]) -> Iterator[str]:
    """What stands between two deliveries of a life, and wasn't given to it."""
    had = {at_of(delivery) for delivery in life.log}
    first, last = min(had), max(had)
    for at, delivery in whole.items():
        if first <= at <= last and at not in had:
            yield f"{life.name} wasn't given {shown(delivery)}"


def is_claimed_at(life: Seen, at: Position, claimed: "Claims | None") -> bool:
    """Whether something is claimed of a position in what a life was given."""
    return claimed is None or at.number <= claimed.get((at.generation, life.names.get(at.generation, "")), 0)


def of_sender(life: Seen, whole: dict[Position, dict[str, Any]], claimed: "Claims | None") -> Iterator[str]:
    """What of the list isn't what a life sent, in the order in which it sent it; and what is missing of it, where that is claimed."""
    places: dict[str, Position] = {}
    given = {message for channel in life.channels for message in channel}
    for at, delivery in whole.items():
        if life.is_own(delivery):
            if delivery.get("text") not in given or delivery["text"] in places:
                yield f"{shown(delivery)} isn't what {life.name} sent, or stands there twice"
            places[delivery.get("text", "")] = at
    for channel in life.channels:
        order = [places[message] for message in channel if message in places]
        if order != sorted(order):
            yield f"messages of {life.name} don't stand in the order in which it was given them"
    for message, answer in life.answers.items():
        if answer is not None and is_claimed_at(life, answer, claimed) and places.get(message) != answer:
            yield f"{message[:20]!r} of {life.name} was answered {answer}, and stands at {places.get(message)}"
    if life.has_ended and claimed is None:
        refused = {message for message, answer in life.answers.items() if answer is None}
        for message in given - refused - places.keys():
            yield f"{message[:20]!r} of {life.name} stands nowhere, and it ended with all sent"


def packed(body: bytes) -> list[bytes] | None:
    """The messages of a packed body; None where it is none."""
    messages, rest = [], body[1:]
    while rest and body[:1] == b"P":
        length = int.from_bytes(rest[:2], "big")
        if len(rest) < 2 + length:
            return None
        messages.append(rest[2 : 2 + length])
        rest = rest[2 + length :]
    return messages or None


def named(body: bytes) -> tuple[int, int] | None:
    """The length and the CRC-32 of the contents that a body names beside the list; None where it names none."""
    length, crc = int.from_bytes(body[9:13], "big"), int.from_bytes(body[13:17], "big")
    is_one = body[:1] == REFERENCE and len(body) == REFERENCE_SIZE and length and int.from_bytes(body[1:9], "big") + length <= 1 << 62
    return (length, crc) if is_one else None


class Parts:
    """Puts messages together of the parts that a life's node gave it (docs/MESSAGES.md)."""

    def __init__(self) -> None:
        self.begun: dict[str, tuple[str, list[bytes]]] = {}

    def messages(self, sender: str, body: bytes) -> list[bytes]:
        """The messages that end with a body."""
        place = sender.split("/")[0]
        who, shares = self.begun.pop(place, (sender, []))
        index, count = int.from_bytes(body[1:3], "big"), int.from_bytes(body[3:5], "big")
        if body[:1] != b"S" or len(body) < 5:
            return packed(body) or [body]
        if index == 0:
            who, shares = sender, []
        if who != sender or index != len(shares):
            return []
        shares = [*shares, body[5:]]
        if len(shares) == count:
            return [b"".join(shares)]
        self.begun[place] = who, shares
        return []


def taken(life: Life, generation: int) -> Iterator[tuple[Position, str, str]]:
    """What a life's journal of a list says that its node gave it, up to the end of that: where, of what kind, and what."""
    parts = Parts()
    for step in life.steps:
        if not step.answer.startswith("took "):
            continue
        number, kind, *rest = step.answer.split(" ")[1:]
        at = Position(generation, int(number), 0)
        if life.next and number == life.next[0]:
            yield at, "succeeded", " ".join(life.next[2:])
            return
        if kind == "data":
            body = b"" if rest[2] == "-" else bytes.fromhex(rest[2])
            if body[:1] == CONTROL:
                continue
            if contents := named(body):
                yield at, "contents", f"{rest[0]} {contents[0]} {contents[1]}"
                continue
            for index, message in enumerate(parts.messages(rest[0], body)):
                yield Position(generation, int(number), index), "message", f"{rest[0]} {message.decode(errors='replace')}"
        elif kind == "view":
            yield at, "view", rest[1]
        else:
            yield at, {"join": "joined", "leave": "left"}[kind], rest[0]


def printed(delivery: dict[str, Any]) -> tuple[Position, str, str]:
    """A delivery, as a journal has it."""
    match delivery["kind"]:
        case "message":
            what = f"{delivery['from']} {delivery['text']}"
        case "view":
            what = ",".join(delivery["members"])
        case "succeeded":
            what = f"{','.join(delivery['founders'])} {delivery['resilience']} {delivery['window']} {delivery['pb-up-to']}"
        case _:
            what = delivery["name"]
    return at_of(delivery), delivery["kind"], what


def in_stream(delivery: dict[str, Any]) -> bytes:
    """A message as its sender's stream has it."""
    message = bytes.fromhex(delivery["hex"]) if "hex" in delivery else delivery["text"].encode()
    return len(message).to_bytes(2, "big") + message


def is_of_contents(log: list[dict[str, Any]], wanted: str, is_cut: bool) -> bool:
    """Whether messages are what an entry names beside the list; of what is cut that is its beginning."""
    sender, length, crc = wanted.split(" ")
    if any(delivery["kind"] != "message" or delivery["from"] != sender or delivery["index"] != index for index, delivery in enumerate(log)):
        return False
    contents = b"".join(in_stream(delivery) for delivery in log)
    if is_cut and len(contents) < int(length):
        return True
    return len(contents) == int(length) and zlib.crc32(contents) == int(crc)


def against_journals(seen: Seen, lives: dict[tuple[int, str], Life]) -> Iterator[str]:
    """Where what a life printed isn't what its journals say."""
    own = [(generation, lives.get((generation, name))) for generation, name in sorted(seen.names.items())]
    wanted = [given for generation, life in own if life for given in taken(life, generation)]
    number = 0  # of the next delivery
    for at, kind, what in wanted:
        if number == len(seen.log):
            break
        many = 1
        if kind == "contents":
            entry = (at.generation, at.number)
            many = sum((it["generation"], it["number"]) == entry for it in seen.log[number:])
            is_cut = number + many == len(seen.log) and not seen.has_ended
            is_right = many > 0 and is_of_contents(seen.log[number : number + many], what, is_cut)
        else:
            is_right = printed(seen.log[number]) == (at, kind, what)
        if not is_right:
            yield f"{seen.name} was given {shown(seen.log[number])}, and its journal has {str([(at, kind, what)])[:100]}"
            return
        number += many
    else:
        if number < len(seen.log):
            yield f"{seen.name} was given {shown(seen.log[number])}, and its journal has []"
        return
    if seen.has_ended:
        yield f"{seen.name} printed {len(seen.log)} deliveries, and its journals have more"


def differences(lives: list[Seen], journals: dict[tuple[int, str], Life], claimed: Claims | None = None) -> list[str]:
    """What is wrong with what the applications saw. Where not all of the run is claimed, each name has a last number of its list that is: the
    lives are compared with each other up to there, and each with its own journals."""
    cut = lives
    if claimed is not None:
        cut = [replace(life, log=[it for it in life.log if is_claimed_at(life, at_of(it), claimed)]) for life in lives]
    whole, wrong = one_list(cut)
    for life in cut:
        if life.log and not begins(life):
            wrong.append(f"{life.name} was given {shown(life.log[0])} first")
        if life.log:
            wrong += gaps(life, whole)
        wrong += of_sender(life, whole, claimed)
    for life in lives:
        wrong += against_journals(life, journals)
    return wrong
