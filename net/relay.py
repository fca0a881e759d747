"""A bad network between members on this machine: each reaches each other one by a port of this relay.

    relay = Relay(homes, Faults(loss=5, repeat=2, reorder=3, delay=5), seed=1)
    relay.port(0, 1)                # where place 0 reaches place 1
    relay.start()

A datagram is carried as it is, since nobody but its reader can look into it. It comes from the port at which its reader reaches its
sender, as a member drops what comes from elsewhere.
"""

import heapq
import itertools
import random
import selectors
import socket
import threading
import time
from typing import NamedTuple

HOST = "127.0.0.1"
# the address of a host and a port
Address = tuple[str, int]
# how many bytes the system keeps for each pair of members, and how many datagrams of a pair are carried in a turn
KEPT = 1 << 22
MOST_IN_TURN = 64
# how long a turn waits at most, so that the end is seen
TURN_SECONDS = 0.05
# how long a datagram is held at most until another one overtakes it
HELD_SECONDS = 0.1


class Faults(NamedTuple):
    """What the network does: of a hundred datagrams so many are lost, come twice, and are overtaken by the next one; each is delayed by up to
    so many milliseconds."""

    loss: float = 0
    repeat: float = 0
    reorder: float = 0
    delay: float = 0


class Counts(NamedTuple):
    """What became of datagrams."""

    carried: int = 0
    lost: int = 0
    repeated: int = 0
    reordered: int = 0


class Pair:
    """The way from one place to another: the socket where the first reaches the second, and what becomes of its datagrams."""

    def __init__(self, faults: Faults, draw: random.Random) -> None:
        self.faults, self.draw = faults, draw
        self.carried = self.lost = self.repeated = self.reordered = 0
        self.numbers = itertools.count()
        self.waiting: list[tuple[float, int, bytes]] = []
        self.held: tuple[float, bytes] | None = None
        self.socket = socket.socket(socket.AF_INET, socket.SOCK_DGRAM)
        self.socket.setsockopt(socket.SOL_SOCKET, socket.SO_RCVBUF, KEPT)
        self.socket.setblocking(False)
        self.socket.bind((HOST, 0))

    def counts(self) -> Counts:
        """What became of its datagrams so far."""
        return Counts(self.carried, self.lost, self.repeated, self.reordered)

    def is_one_of(self, share: float) -> bool:
        """Whether this is one of so many in a hundred. Where there are none, nothing is drawn."""
        return share > 0 and self.draw.random() * 100 < share

    def take(self, data: bytes, now: float) -> None:
        """Takes a datagram: it goes out once, twice or never, now or later."""
        self.carried += 1
        if self.is_one_of(self.faults.loss):
            self.lost += 1
            return
        if self.held is None and self.is_one_of(self.faults.reorder):
            self.reordered += 1
            self.held = now + HELD_SECONDS, data
            return
        copies = 1
        if self.is_one_of(self.faults.repeat):
            self.repeated += 1
            copies = 2
        for _ in range(copies):
            delay = self.draw.random() * self.faults.delay / 1000 if self.faults.delay else 0
            heapq.heappush(self.waiting, (now + delay, next(self.numbers), data))

    def due(self) -> float:
        """When the next one is due."""
        waiting = self.waiting[0][0] if self.waiting else float("inf")
        return min(waiting, self.held[0]) if self.held else waiting

    def ready(self, now: float) -> list[bytes]:
        """What goes out now: what is due, and behind its first one the datagram that is held."""
        out = []
        while self.waiting and self.waiting[0][0] <= now:
            out.append(heapq.heappop(self.waiting)[2])
        if self.held and (out or self.held[0] <= now):
            out.insert(1, self.held[1])
            self.held = None
        return out


class Relay(threading.Thread):
    """Carries datagrams between the places 0 and on, whose members listen at these addresses. For each pair of places the seed says what becomes
    of the first datagram, of the second, and so on."""

    def __init__(self, homes: list[Address], faults: Faults, seed: int = 0) -> None:
        super().__init__(name="relay", daemon=True)
        self.homes, self.is_over = homes, threading.Event()
        places = range(len(homes))
        self.pairs = {
            (sender, reader): Pair(faults, random.Random(f"{seed} {sender} {reader}"))
            for sender in places
            for reader in places
            if sender != reader
        }

    def port(self, sender: int, reader: int) -> int:
        """Where the first place reaches the second."""
        return int(self.pairs[sender, reader].socket.getsockname()[1])

    def counts(self) -> Counts:
        """What became of all datagrams."""
        return Counts(*map(sum, zip(*(pair.counts() for pair in self.pairs.values()))))

    def carries(self, sender: int, reader: int, data: bytes) -> bool:
        """Whether it carries a datagram at all: for tests that cut a way."""
        return True

    def carry(self, sender: int, reader: int) -> None:
        """Takes what came on a pair's way."""
        pair = self.pairs[sender, reader]
        for _ in range(MOST_IN_TURN):
            try:
                data, address = pair.socket.recvfrom(65536)
            except BlockingIOError:
                return
            except OSError:
                continue  # an earlier datagram found nobody
            if data and address == self.homes[sender] and self.carries(sender, reader, data):
                pair.take(data, time.monotonic())

    def let_out(self, sender: int, reader: int) -> None:
        """Sends what is due on a pair's way; what the system doesn't take is lost."""
        for data in self.pairs[sender, reader].ready(time.monotonic()):
            try:
                self.pairs[reader, sender].socket.sendto(data, self.homes[reader])
            except OSError:
                pass

    def run(self) -> None:
        """Carries until it is closed."""
        with selectors.DefaultSelector() as selector:
            for names, pair in self.pairs.items():
                selector.register(pair.socket, selectors.EVENT_READ, names)
            while not self.is_over.is_set():
                due = min((pair.due() for pair in self.pairs.values()), default=float("inf"))
                for key, _ in selector.select(max(0, min(TURN_SECONDS, due - time.monotonic()))):
                    self.carry(*key.data)
                for names in self.pairs:
                    self.let_out(*names)

    def close(self) -> None:
        """Carries nothing any more."""
        self.is_over.set()
        if self.is_alive():
            self.join()
        for pair in self.pairs.values():
            pair.socket.close()
