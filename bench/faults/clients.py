"""Clients of members: at each member one is given its deliveries, and some send numbered messages, one after the other each."""

import heapq
import json
import selectors
import socket
import threading
import time
from dataclasses import dataclass, field
from typing import NamedTuple


class Delivered(NamedTuple):
    """What a member was given: where it stands, what it is, and when it came here."""

    number: int
    index: int
    what: str
    at: float


@dataclass
class Sent:
    """A message: what it says, when it was asked for, and where it stands and when that was answered, if it was."""

    text: str
    asked: float
    answered: float | None = None
    number: int = 0
    index: int = 0


@dataclass
class Record:
    """What the clients of one life saw."""

    name: str
    log: list[Delivered] = field(default_factory=list)
    # of each sender, in its order
    sent: list[list[Sent]] = field(default_factory=list)
    ended: str | None = None


def what_of(said: dict) -> str:
    """A delivery's content as a line."""
    kind = said["kind"]
    if kind == "message":
        return f"message {said['from']} {said['text'].rstrip('.')}"
    if kind == "view":
        return f"view {','.join(said['members'])} r{said['resilience']}"
    return f"{kind} {said['name']}"


class Stream:
    """A connection to a member. `sender` is a number, or None for the one that is given deliveries."""

    def __init__(self, record: Record, path: str, sender: int | None) -> None:
        self.record, self.sender, self.left = record, sender, b""
        self.socket = socket.socket(socket.AF_UNIX, socket.SOCK_STREAM)
        self.socket.settimeout(5)
        try:
            self.socket.connect(path)
            if sender is None:
                self.socket.sendall(b"deliveries\n")
        except OSError:
            self.socket.close()
            raise
        self.socket.setblocking(False)
        self.is_waiting = False

    def lines(self) -> list[bytes] | None:
        """The lines that have come; None if it is closed."""
        try:
            more = self.socket.recv(1 << 16)
        except BlockingIOError:
            return []
        except OSError:
            return None
        if not more:
            return None
        *whole, self.left = (self.left + more).split(b"\n")
        return whole

    def take(self, line: bytes, now: float) -> None:
        """Notes what a line says."""
        said = json.loads(line)
        if self.sender is not None:
            self.is_waiting = False
            one = self.record.sent[self.sender][-1]
            if "sent" in said:
                one.answered, one.number, one.index = now, said["sent"], said["index"]
        elif "ended" in said:
            self.record.ended = said["ended"]
        elif "error" in said:
            raise OSError(f"no deliveries of {self.record.name}: {said['error']}")
        else:
            self.record.log.append(Delivered(said["number"], said["index"], what_of(said), now))


class Clients(threading.Thread):
    """All clients of a run, in one thread. Each sender sends its next message so long after the answer to the one before."""

    def __init__(self, senders: int, pause: float, size: int) -> None:
        super().__init__(daemon=True)
        self.senders, self.pause, self.size = senders, pause, size
        self.selector = selectors.DefaultSelector()
        self.lock = threading.Lock()
        self.due: list[tuple[float, int, Stream]] = []
        self.streams: list[Stream] = []
        self.records: list[Record] = []
        self.is_quiet = self.is_over = False
        self.wrong: list[str] = []

    def add(self, name: str, path: str) -> Record:
        """Connects the clients of a life that listens at a path. It is an OSError if it doesn't."""
        record = Record(name, sent=[[] for _ in range(self.senders)])
        streams = [Stream(record, path, sender) for sender in [None, *range(self.senders)]]
        with self.lock:
            self.records.append(record)
            for stream in streams:
                self.selector.register(stream.socket, selectors.EVENT_READ, stream)
                self.streams.append(stream)
                if stream.sender is not None:
                    heapq.heappush(self.due, (time.monotonic(), id(stream), stream))
        return record

    def run(self) -> None:
        """Until all is over."""
        try:
            while not self.is_over:
                self.turn()
        except (OSError, ValueError, KeyError) as error:
            self.wrong.append(f"clients: {error!r}")

    def turn(self) -> None:
        """Sends what is due, and takes what comes."""
        with self.lock:
            now = time.monotonic()
            while self.due and self.due[0][0] <= now:
                self.send(heapq.heappop(self.due)[2], now)
            wait = min(0.02, max(0.0, self.due[0][0] - now)) if self.due else 0.02
        ready = self.selector.select(wait)
        with self.lock:
            now = time.monotonic()
            for key, _ in ready:
                self.read(key.data, now)

    def send(self, stream: Stream, now: float) -> None:
        """Sends a sender's next message, if more is to be sent."""
        if self.is_quiet:
            return
        sent = stream.record.sent[stream.sender]
        text = f"{stream.record.name} {stream.sender} {len(sent)}"
        sent.append(Sent(text, now))
        stream.is_waiting = True
        try:
            stream.socket.sendall(f"send {text.ljust(self.size, '.')}\n".encode())
        except OSError:
            self.drop(stream)

    def read(self, stream: Stream, now: float) -> None:
        """Takes what a stream says, and sets when its sender sends again."""
        lines = stream.lines()
        if lines is None:
            self.drop(stream)
            return
        for line in lines:
            was_waiting = stream.is_waiting
            stream.take(line, now)
            if was_waiting and not stream.is_waiting:
                heapq.heappush(self.due, (now + self.pause, id(stream), stream))

    def drop(self, stream: Stream) -> None:
        """A stream is closed."""
        if stream in self.streams:
            self.streams.remove(stream)
            self.selector.unregister(stream.socket)
            stream.socket.close()

    def waiting(self) -> int:
        """How many messages have no answer, of senders that are connected."""
        with self.lock:
            return sum(stream.is_waiting for stream in self.streams)

    def close(self) -> None:
        """Ends it."""
        self.is_over = True
        self.join()
        for stream in list(self.streams):
            self.drop(stream)
        self.selector.close()
