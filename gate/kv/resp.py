"""A client of the Redis protocol, version 2, small enough to be looked through."""

import socket
from typing import TypeAlias

# a number, a string, a status or an error, nothing, or several replies
Reply: TypeAlias = "int | bytes | list[Reply] | None"


class Status(bytes):
    """A status."""


class Wrong(bytes):
    """An error that the server told."""


class Cut(Exception):
    """The connection ended, or nothing came in time: what became of the last request isn't known."""


class Client:
    """A connection."""

    def __init__(self, port: int, timeout: float = 10):
        try:
            self.socket = socket.create_connection(("127.0.0.1", port), timeout=timeout)
        except OSError as error:
            raise Cut(str(error)) from error
        self.socket.setsockopt(socket.IPPROTO_TCP, socket.TCP_NODELAY, 1)
        self.bytes = b""

    def close(self) -> None:
        """Ends the connection."""
        self.socket.close()

    def send(self, *words: bytes | str | int) -> None:
        """Sends a request."""
        parts = [word if isinstance(word, bytes) else str(word).encode() for word in words]
        text = b"*%d\r\n" % len(parts) + b"".join(b"$%d\r\n%b\r\n" % (len(part), part) for part in parts)
        self.push(text)

    def push(self, text: bytes) -> None:
        """Sends bytes as they are."""
        try:
            self.socket.sendall(text)
        except OSError as error:
            raise Cut(str(error)) from error

    def more(self) -> None:
        """Waits for bytes."""
        try:
            piece = self.socket.recv(1 << 16)
        except OSError as error:
            raise Cut(str(error)) from error
        if not piece:
            raise Cut("the connection ended")
        self.bytes += piece

    def line(self) -> bytes:
        """The next line."""
        while b"\r\n" not in self.bytes:
            self.more()
        line, _, self.bytes = self.bytes.partition(b"\r\n")
        return line

    def reply(self) -> Reply:
        """The next reply."""
        line = self.line()
        kind, rest = line[:1], line[1:]
        if kind == b"+":
            return Status(rest)
        if kind == b"-":
            return Wrong(rest)
        if kind == b":":
            return int(rest)
        if kind == b"*":
            return [self.reply() for _ in range(int(rest))] if int(rest) >= 0 else None
        if kind != b"$":
            raise Cut(f"no reply begins so: {line!r}")
        length = int(rest)
        if length < 0:
            return None
        while len(self.bytes) < length + 2:
            self.more()
        value, self.bytes = self.bytes[:length], self.bytes[length + 2 :]
        return value

    def ask(self, *words: bytes | str | int) -> Reply:
        """The reply to a request."""
        self.send(*words)
        return self.reply()
