"""A member that runs, spoken to by its Unix socket (docs/MEMBER.md): a command is a line, and its answer an object of JSON on a line.

    caller = Caller("member.socket")
    caller.send(b"hello")                       # returns once it is delivered at that member
    for delivery in Caller("member.socket").deliveries():
        print(delivery.at.number, delivery.kind)    # wants a member with `--output socket`

A caller gives one command at a time. Who wants more under way opens more of them.
"""

import json
import os
import socket
from collections.abc import Iterator
from dataclasses import dataclass
from typing import Any, NamedTuple


class Refused(Exception):
    """Why the member didn't do a command."""


class Ended(Exception):
    """How the member ended, as far as that is known."""


@dataclass(frozen=True, order=True)
class Position:
    """Where something stands: how many lists of the group came before, the number of the entry, and its index among the messages of that entry."""

    generation: int
    number: int
    index: int


class Delivery(NamedTuple):
    """What the application is given: a message of a name, a name that joined or left, a view with its members, or the end of a list with its
    members."""

    at: Position
    kind: str
    name: str
    message: bytes
    members: list[str]


def delivery_of(said: dict[str, Any]) -> Delivery:
    """The delivery that an object of JSON is."""
    message = said["text"].encode() if "text" in said else bytes.fromhex(said.get("hex", ""))
    name = said.get("from", said.get("name", ""))
    return Delivery(Position(said["generation"], said["number"], said["index"]), said["kind"], name, message, said.get("members", []))


class Caller:
    """A connection to a member. It is an OSError if no member listens at the path."""

    def __init__(self, path: str | os.PathLike[str]) -> None:
        self.socket = socket.socket(socket.AF_UNIX, socket.SOCK_STREAM)
        try:
            self.socket.connect(os.fspath(path))
        except OSError as error:
            self.socket.close()
            raise OSError(error.errno, f"no member listens here: {error.strerror}", os.fspath(path)) from error
        self.answers = self.socket.makefile("rb")

    def answer(self) -> dict[str, Any]:
        """The next line that the member says."""
        try:
            line = self.answers.readline()
        except (OSError, ValueError):
            line = b""
        if not line.endswith(b"\n"):
            raise Ended("the member has ended, or the connection is closed")
        said: dict[str, Any] = json.loads(line)
        return said

    def ask(self, command: bytes | str) -> dict[str, Any]:
        """Gives the member a command, and waits for its answer."""
        line = command if isinstance(command, bytes) else command.encode(errors="surrogateescape")
        try:
            self.socket.sendall(line + b"\n")
        except OSError as error:
            raise Ended("the member has ended, or the connection is closed") from error
        answer = self.answer()
        if "error" in answer:
            raise Refused(answer["error"])
        return answer

    def send(self, message: bytes) -> Position:
        """Sends a message, and waits until it is delivered at this member: where it stands."""
        answer = self.ask(b"send-hex " + message.hex().encode())
        return Position(answer["generation"], answer["sent"], answer["index"])

    def deliveries(self) -> Iterator[Delivery]:
        """All deliveries from here on, as they come. At the member's end it raises how that ended."""
        said = self.ask("deliveries")
        while "ended" not in said:
            yield delivery_of(said)
            said = self.answer()
        raise Ended(said["ended"])

    def close(self) -> None:
        """Ends the connection, also while another thread waits for an answer."""
        try:
            self.socket.shutdown(socket.SHUT_RDWR)
        except OSError:
            pass  # the member has ended
        self.socket.close()
