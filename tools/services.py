#!/usr/bin/env python3
"""Writes what the services over a group's list write, by their pages alone and without the program's code.

    tools/services.py parts < BYTES             the parts of a message, a line each, in digits
    ./muoswyld play < SCRIPT | tools/services.py messages
    ./muoswyld play < SCRIPT | tools/services.py directory
    ./muoswyld play < SCRIPT | tools/services.py snapshots

The last three read the text of a play, while the program's words of these names read its script. If they are given anything else they end
with 1. `messages` writes a line for each message that ends in the log of a name (docs/MESSAGES.md). `directory` writes the contents of each
name's replica (docs/DIRECTORY.md). `snapshots` writes the snapshot that a ready replica would send at each Join that its name was given. Then
each writes the text's last line.
"""

import sys
from collections import defaultdict
from collections.abc import Iterator
from dataclasses import dataclass, field

from audit import BadText, View, read
from words import end, words

MOST_MESSAGE = 65_535
SHARE = 1_019
MOST_KEY = 32
MOST_VALUE = 64
MOST_KEYS = 256
MOST_NUMBER = 2_000_000_000


def parts(message: bytes) -> list[bytes]:
    """The bodies that a message goes in: each but the last has 1,019 bytes of it, and the empty one has one part."""
    shares = [message[at:at + SHARE] for at in range(0, len(message), SHARE)] or [b""]
    return [b"S" + index.to_bytes(2, "big") + len(shares).to_bytes(2, "big") + share for index, share in enumerate(shares)]


def ending(sent: list[tuple[str, bytes]]) -> bytes | None:
    """The message whose parts are the last of what was sent from a place, where there is one. Each was sent by a name."""
    name, last = sent[-1]
    count = int.from_bytes(last[3:5], "big")
    if not 1 <= count <= len(sent):
        return None
    tail = sent[-count:]
    message = b"".join(body[5:] for _, body in tail)
    if len(message) <= MOST_MESSAGE and tail == [(name, part) for part in parts(message)]:
        return message
    return None


def digits(data: bytes) -> str:
    """Bytes as a text prints them."""
    return data.hex() or "-"


def log_lines(text: list[str]) -> Iterator[tuple[str, int, list[str]]]:
    """Each entry that a name was given: the name, the entry's number, and the entry's words."""
    for line in text:
        words = line.split(" ")
        if words[0] == "log" and words[2] != "empty":
            yield words[1], int(words[2]), words[3:]


def messages(text: list[str]) -> Iterator[str]:
    """The lines of the messages that end in what names were given, and the text's last line."""
    sent: dict[tuple[str, str], list[tuple[str, bytes]]] = defaultdict(list)
    for node, number, entry in log_lines(text):
        if entry[0] != "data":
            continue
        name, body = entry[1], b"" if entry[3] == "-" else bytes.fromhex(entry[3])
        from_place = sent[node, name.split("/")[0]]
        from_place.append((name, body))
        message = ending(from_place)
        if message is not None:
            yield f"message {node} {number} {name} {digits(message)}"
    yield text[-1]


class Unreadable(Exception):
    """The bytes are not what they were read as."""


@dataclass
class Cursor:
    """Bytes, read from the front on."""

    data: bytes

    def cut(self, count: int) -> bytes:
        """So many bytes."""
        if len(self.data) < count:
            raise Unreadable
        first, self.data = self.data[:count], self.data[count:]
        return first

    def number(self, count: int) -> int:
        """A number of so many bytes."""
        return int.from_bytes(self.cut(count), "big")

    def field(self, least: int, most: int) -> bytes:
        """A byte with a length within these, and so many bytes."""
        count = self.number(1)
        if not least <= count <= most:
            raise Unreadable
        return self.cut(count)

    def end(self) -> None:
        """Nothing is left."""
        if self.data:
            raise Unreadable


def command(body: bytes) -> tuple[int, bytes, bytes] | None:
    """The kind of a command, its key and its value; None where the body is no command."""
    cursor = Cursor(body)
    try:
        kind = cursor.number(1)
        if kind not in (1, 2, 3):
            return None
        key = cursor.field(1, MOST_KEY)
        value = b"" if kind == 2 else cursor.field(0, MOST_VALUE)
        cursor.end()
    except Unreadable:
        return None
    return kind, key, value


Keys = dict[bytes, tuple[int, bytes]]


def applied(keys: Keys, number: int, body: bytes) -> None:
    """Does to the keys what the body of the entry of a number asks."""
    asked = command(body)
    if asked is None:
        return
    kind, key, value = asked
    if kind == 2:
        keys.pop(key, None)
    elif key in keys:
        if kind == 1:
            keys[key] = number, value
    elif len(keys) < MOST_KEYS:
        keys[key] = number, value


def snapshot(keys: Keys, join: int) -> bytes:
    """The keys as bytes, for the name whose Join has this number."""
    text = b"\4" + join.to_bytes(4, "big") + len(keys).to_bytes(2, "big")
    for key in sorted(keys):
        number, value = keys[key]
        text += bytes([len(key)]) + key + number.to_bytes(4, "big") + bytes([len(value)]) + value
    return text


def restored(message: bytes) -> tuple[int, Keys] | None:
    """The Join that a message is a snapshot for, and its keys; None where it is no snapshot."""
    cursor, keys = Cursor(message), Keys()
    try:
        if cursor.number(1) != 4:
            return None
        join, count, last = cursor.number(4), cursor.number(2), b""
        if join > MOST_NUMBER or count > MOST_KEYS:
            return None
        for _ in range(count):
            key, number = cursor.field(1, MOST_KEY), cursor.number(4)
            if key <= last or number > MOST_NUMBER:
                return None
            keys[key], last = (number, cursor.field(0, MOST_VALUE)), key
        cursor.end()
    except Unreadable:
        return None
    return join, keys


@dataclass
class Replica:
    """What a name makes of what it was given. Its start is the number of its first entry: 1 for a founder, for others their Join's."""

    start: int | None
    keys: Keys | None = None
    front: int = 0
    given: list[tuple[int, bytes]] = field(default_factory=list)
    sent: dict[str, list[tuple[str, bytes]]] = field(default_factory=lambda: defaultdict(list))

    def __post_init__(self) -> None:
        if self.start == 1:
            self.keys = {}

    def take(self, number: int, entry: list[str]) -> None:
        """Takes the next entry."""
        self.start = number if self.start is None else self.start
        self.front = number
        if entry[0] != "data":
            return
        body = b"" if entry[3] == "-" else bytes.fromhex(entry[3])
        self.given.append((number, body))
        if self.keys is not None:
            applied(self.keys, number, body)
            return
        from_place = self.sent[entry[1].split("/")[0]]
        from_place.append((entry[1], body))
        message = ending(from_place)
        found = None if message is None else restored(message)
        if found is not None and found[0] == self.start:
            self.keys = found[1]
            for earlier, body in self.given:
                applied(self.keys, earlier, body)


def names(text: list[str]) -> dict[str, Replica]:
    """A replica for each name that has or had a list: a founder's begins with entry 1."""
    founders = next(line.split(" ")[4].split(",") for line in text if line.startswith("group 1 view "))
    logs = [line.split(" ")[1] for line in text if line.startswith("log ")]
    return {name: Replica(1 if name in founders else None) for name in logs}


def directory(text: list[str]) -> Iterator[str]:
    """What each replica has, and the text's last line."""
    replicas = names(text)
    for node, number, entry in log_lines(text):
        replicas[node].take(number, entry)
    for node, replica in replicas.items():
        if replica.keys is None:
            yield f"directory {node} {replica.front} waiting"
            continue
        yield f"directory {node} {replica.front} {len(replica.keys)}"
        for key in sorted(replica.keys):
            number, value = replica.keys[key]
            yield f"name {node} {digits(key)} {digits(value)} {number}"
    yield text[-1]


def snapshots(text: list[str]) -> Iterator[str]:
    """The parts of each ready replica's snapshot for each Join but its own that it was given, and the text's last line."""
    replicas = names(text)
    for node, number, entry in log_lines(text):
        replica = replicas[node]
        replica.take(number, entry)
        if entry[0] == "join" and entry[1] != node and replica.keys is not None:
            for part in parts(snapshot(replica.keys, number)):
                yield f"snapshot {node} {number} {part.hex()}"
    yield text[-1]


def lines_of(data: bytes) -> list[str]:
    """The lines of a play's text; BadText where it is none."""
    text, lines = read(data), data.decode().splitlines()
    if not isinstance(text.group[0], View):
        raise BadText(1 + next(number for number, line in enumerate(lines) if line.startswith("group 1 ")))
    return lines


def main() -> int | str:
    """Writes what is asked for; ends in 2 where that is nothing it knows, in 1 where the input is no text."""
    match words(__doc__):
        case ["parts"]:
            message = sys.stdin.buffer.read()
            if len(message) > MOST_MESSAGE:
                print("too long", file=sys.stderr)
                return 3
            for part in parts(message):
                print(part.hex())
        case [("messages" | "directory" | "snapshots") as word]:
            made = {"messages": messages, "directory": directory, "snapshots": snapshots}[word]
            try:
                text = lines_of(sys.stdin.buffer.read())
            except BadText as bad:
                return f"standard input is no text of a play: {bad}; a script goes through `./muoswyld play` first"
            for line in made(text):
                print(line)
        case _:
            print(__doc__.strip(), file=sys.stderr)
            return 2
    return 0


if __name__ == "__main__":
    end(main)
