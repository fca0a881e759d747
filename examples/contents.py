"""The contents of examples/dictionary.py at one member, without any network, and how who joins gets them.

A founder begins with an empty dictionary. Whoever joins, also a place that comes back, has to get the contents: it sends a `want` that names a member.
All take that at the same number, with the same contents, so the named one sends what it has then: parts of as many keys as a body has room for, one
after the other, and an `end`. The joiner holds the commands that it takes after its `want`, and does them once it has the `end`. If no part comes for a
while, or the named one is gone, it asks the next. If all that had the contents have stopped, they are lost, and who joins waits for good.

A message that is no command of these is passed over, by all alike, so other applications may send in the group.
"""

import contextlib
import json
from collections.abc import Callable, Iterator
from typing import Any

import muoswyld

# how many bytes a message has at most, so that it goes in one body, and a key and its value as JSON, so that they fit into a part
MOST_MESSAGE, MOST_PAIR = 1021, 960
# after how many ticks without a part of the member that was asked another is asked
PATIENCE = 20


def message_of(*command: object) -> bytes:
    """The message of a command."""
    return json.dumps(command).encode()


def size_of(key: str, value: str) -> int:
    """How many bytes a key and its value have as JSON."""
    return len(json.dumps({key: value}))


def is_pair(key: object, value: object) -> bool:
    """Whether they can be a key and its value: two short texts of whole characters."""
    if not isinstance(key, str) or not isinstance(value, str):
        return False
    is_whole = (key + value).encode(errors="ignore").decode() == key + value
    return is_whole and size_of(key, value) <= MOST_PAIR


def command_of(message: bytes) -> list[Any] | None:
    """The command that a message is; None if it is none. All members must read it alike."""
    with contextlib.suppress(ValueError, RecursionError):
        match json.loads(message):
            case ["put", key, value] as command if is_pair(key, value):
                return command
            case ["have", int(), dict(pairs)] as command if all(is_pair(*pair) for pair in pairs.items()):
                return command
            case ["delete" | "want", str()] | ["end", int()] as command:
                return command
    return None


def parts_of(number: int, contents: dict[str, str]) -> Iterator[bytes]:
    """The messages that contents are sent in, for the `want` of a number."""
    pairs: dict[str, str] = {}
    for key, value in contents.items():
        if len(message_of("have", number, pairs | {key: value})) > MOST_MESSAGE:
            yield message_of("have", number, pairs)
            pairs = {}
        pairs[key] = value
    yield message_of("have", number, pairs)
    yield message_of("end", number)


class Dictionary:
    """A member's copy of the contents, without any network. `send` sends a message; `others` tells the members that aren't known to have stopped."""

    def __init__(self, name: str, send: Callable[[bytes], object], others: Callable[[], list[str]]) -> None:
        self.name, self.send, self.others = name, send, others
        self.contents: dict[str, str] = {}
        self.is_ready = self.is_asking = self.is_sending = False
        # of a joiner: whom it asked, how often, at which number, ticks since it heard of it, and what it holds
        self.asked, self.times, self.want, self.silence, self.held = "", 0, 0, 0, list[Any]()
        self.transfers: dict[str, Iterator[bytes]] = {}  # what joiners are still to be sent

    def take(self, delivery: muoswyld.Delivery) -> None:
        """Takes what the group gives. A founder's first is the first view."""
        if isinstance(delivery, muoswyld.View):
            self.is_ready |= delivery.at == muoswyld.Position(0, 1)
        elif isinstance(delivery, muoswyld.Message) and (command := command_of(delivery.message)):
            self.do(delivery.at.generation << 32 | delivery.at.number, str(delivery.sender), *command)

    def do(self, number: int, sender: str, word: str, *given: Any) -> None:
        """Does a command, or holds it."""
        match word:
            case "have" | "end":
                self.take_part(sender, *given)
            case "want" if sender == self.name and not self.is_ready:
                self.want, self.contents, self.held, self.silence, self.is_asking = number, {}, [], 0, False
            case _ if not self.is_ready:
                self.held.append((number, sender, word, *given))
            case "put":
                self.contents[given[0]] = given[1]
            case "delete":
                self.contents.pop(given[0], None)
            case "want":
                self.transfers.pop(sender, None)
                if given[0] == self.name:
                    self.transfers[sender] = parts_of(number, dict(self.contents))
                    self.go_on()

    def take_part(self, sender: str, number: int, pairs: dict[str, str] | None = None) -> None:
        """Takes a part of contents, or their end; after an own one the next goes out."""
        if sender == self.name:
            self.is_sending = False
            self.go_on()
        if sender == self.asked:
            self.silence = 0
        if self.is_ready or number != self.want:
            return
        self.contents |= pairs or {}
        if pairs is None:
            self.is_ready, held, self.held = True, self.held, []
            for command in held:
                self.do(*command)

    def go_on(self) -> None:
        """Lets the next part go out, if none is under way."""
        while self.transfers and not self.is_sending:
            joiner, parts = next(iter(self.transfers.items()))
            part = next(parts, None) if joiner in self.others() else None
            if part is None:
                del self.transfers[joiner]
            else:
                self.is_sending = True
                self.send(part)

    def tick(self) -> None:
        """Asks for the contents if it has none: a member, and the next one if that one is gone or nothing comes of it."""
        self.silence += 1
        others = self.others()
        if self.is_ready or self.is_asking or not others:
            return
        if self.asked not in others or self.silence >= PATIENCE:
            self.asked = others[self.times % len(others)]
            self.times, self.is_asking = self.times + 1, True
            self.send(message_of("want", self.asked))

    def get(self, key: str) -> str:
        """What stands at a key now, or `waiting` if there are no contents yet."""
        return self.contents.get(key, "-") if self.is_ready else "waiting"

    def keys(self) -> str:
        """All keys, or `waiting`."""
        return " ".join(sorted(self.contents)) if self.is_ready else "waiting"
