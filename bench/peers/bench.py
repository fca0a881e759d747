"""Measures groups of all systems beside each other, and prints tables."""

import argparse
import sys
import time
from collections.abc import Callable, Iterator
from dataclasses import replace

from groups import Fault, Group, Kind, Place
from measure import Flood, Single, flood, kill, single
from peers import started
from table import Results, printed

MEASUREMENTS = ["throughput", "latency", "kill", "loss", "delay"]
PEERS = ["Corosync", "etcd"]
SHOWN = {"open": False, "sealed": True}
BARE = "bare datagrams"
LOSSES = [0.1, 1, 5]
DELAY = 1_000  # microseconds
TUNED = {"Corosync": "token of 200 ms", "etcd": "election of 100 ms"}


def column(kind: Kind) -> str:
    """What a kind of group is called in a table."""
    if kind.system == "bare":
        return BARE
    if kind.system != "Muoswyld":
        return f"{kind.system}, {TUNED[kind.system]}" if kind.is_tuned else kind.system
    spin = f", spin {kind.spin}" if kind.spin else ""
    return f"r = {kind.resilience}{spin}"


class Bench:
    """Measures as the options say."""

    def __init__(self, given: argparse.Namespace, place: Place, peers: list[str]) -> None:
        self.given, self.place, self.peers = given, place, peers
        self.until = time.monotonic() + given.minutes * 60
        self.results = Results()
        self.others: list[float] = []
        self.group: Group | None = None

    def is_over(self) -> bool:
        """Whether the time is over."""
        return time.monotonic() >= self.until

    def own(self, members: int, is_sealed: bool) -> Iterator[Kind]:
        """The groups of members in native code."""
        for spin in self.given.spin:
            for resilience in (0, 1):
                yield Kind("Muoswyld", members, is_sealed, resilience, spin=spin)

    def columns(self) -> list[str]:
        """What the groups of members in native code are called."""
        return [column(kind) for kind in self.own(3, False)]

    def kinds(self, members: int, is_sealed: bool) -> Iterator[Kind]:
        """The groups that are measured beside each other."""
        yield from self.own(members, is_sealed)
        for peer in self.peers:
            yield Kind(peer, members, is_sealed)

    def measure(self, kind: Kind, cell: tuple, call: Callable[[Group], object]) -> None:
        """Measures a cell in a group of a kind, which is started if none runs. What goes wrong is told, and ends the group."""
        if self.is_over():
            return
        cell = (*cell, column(kind))
        self.results.begin(cell)
        try:
            if self.group is None:
                self.group = started(kind, self.place)
            value = call(self.group)
        except Fault as fault:
            self.tell(cell, str(fault))
            self.end_group()
            return
        self.results.add(cell, value)
        if isinstance(value, Flood):
            self.others.append(value.others)
            if not value.is_settled:
                self.tell(cell, "not all that was sent was soon delivered to all")
                self.end_group()

    def tell(self, cell: tuple, what: str) -> None:
        """Tells what went wrong, and what the group's processes said last."""
        errors = (self.place.folder / "errors").read_text(encoding="utf-8", errors="replace").strip().splitlines()
        print(f"{', '.join(map(str, cell))}: {what}{f'; said: {errors[-1][:300]}' if errors else ''}", file=sys.stderr)

    def end_group(self) -> None:
        """Ends the group that runs."""
        if self.group is not None:
            self.group.close()
            self.group = None

    def single(self, group: Group) -> Single:
        """One message of 64 bytes at a time."""
        return single(group, 64, 1, self.given.messages)

    def quiet_groups(self) -> None:
        """Throughput and latency without losses."""
        for members in self.given.members:
            for shown, is_sealed in SHOWN.items():
                for kind in self.kinds(members, is_sealed):
                    if "latency" in self.given.only:
                        self.measure(kind, ("latency", members, shown), self.single)
                    if "throughput" in self.given.only:
                        self.floods(kind, shown)
                    self.end_group()
            if "latency" in self.given.only:
                self.measure(Kind("bare", members, False), ("latency", members, "open"), self.single)
                self.end_group()

    def floods(self, kind: Kind, shown: str) -> None:
        """Throughput of each size, one sending and all."""
        for size in self.given.sizes:
            for who, senders in ("one", {1}), ("all", set(range(kind.members))):
                cell = ("throughput", kind.members, size, who, shown)
                self.measure(kind, cell, lambda group, size=size, senders=senders: flood(group, size, senders, self.given.seconds))

    def killed(self) -> list[Kind]:
        """The groups of which a member is killed."""
        peers = [Kind(peer, 3, False) for peer in self.peers]
        return [Kind("Muoswyld", 3, False, 1), *peers, *(replace(peer, is_tuned=True) for peer in peers)]

    def kills(self) -> None:
        """From a kill to the next delivery, in new groups."""
        for kind in self.killed():
            self.measure(kind, ("kill", kind.members), lambda group: kill(group, 20))
            self.end_group()

    def all_send(self, size: int) -> Callable[[Group], object]:
        """All of three send messages of a size, twice as long as elsewhere."""
        return lambda group: flood(group, size, {0, 1, 2}, 2 * self.given.seconds)

    def losses(self) -> None:
        """Throughput and latency where packets are lost, in groups that come together without losses."""
        network = self.place.network
        if not network.lose(1):
            print("losses are left out: they want network namespaces and nft", file=sys.stderr)
            return
        network.lose(0)
        for percent in LOSSES:

            def lossy(call: Callable[[Group], object], percent: float = percent) -> Callable[[Group], object]:
                def measured(group: Group) -> object:
                    network.lose(percent)
                    try:
                        return call(group)
                    finally:
                        network.lose(0)

                return measured

            for kind in self.kinds(3, False):
                self.measure(kind, ("lossy latency", 3, f"{percent} %"), lossy(self.single))
                for size in (64, 1024):
                    self.measure(kind, ("lossy throughput", 3, size, f"{percent} %"), lossy(self.all_send(size)))
                self.end_group()

    def delays(self) -> None:
        """Throughput and latency where each packet takes a millisecond."""
        network = self.place.network
        if not network.delay(self.place.folder / "wire", DELAY):
            print("delays are left out: they want network namespaces and ethtool", file=sys.stderr)
            return
        try:
            for kind in [*self.kinds(3, False), Kind("bare", 3, False)]:
                self.measure(kind, ("slow latency", 3), self.single)
                for size in (64, 1024) if kind.system != "bare" else ():
                    self.measure(kind, ("slow throughput", 3, size), self.all_send(size))
                self.end_group()
        finally:
            network.delay(self.place.folder / "wire", 0)

    def run(self) -> None:
        """Measures all of it, each so many times."""
        parts = {"kill": self.kills, "loss": self.losses, "delay": self.delays}
        try:
            for at in range(self.given.times):
                print(f"{time.strftime('%H:%M:%S')} time {at + 1} of {self.given.times}", file=sys.stderr)
                if {"throughput", "latency"} & set(self.given.only):
                    self.quiet_groups()
                for name, part in parts.items():
                    if name in self.given.only:
                        part()
        finally:
            self.end_group()
        if self.is_over():
            print(f"ended after {self.given.minutes:g} minutes, as it is told to", file=sys.stderr)


FLOODS: dict[str, Callable[[Flood], float]] = {"": lambda value: value.rate, "; s": lambda value: value.cost}
SINGLES: dict[str, Callable[[Single], float]] = {
    "messages": lambda value: value.many,
    "own p50": lambda value: value.own,
    "own p99": lambda value: value.own_99,
    "last p50": lambda value: value.last,
    "last p99": lambda value: value.last_99,
}


def flood_table(results: Results, measurement: str, title: str, heads: list[str], groups: list[str]) -> None:
    """A table with a column for each kind of group and value."""
    rows = [
        [*map(str, row), *(results.shown((measurement, *row, group), of) for of in FLOODS.values() for group in groups)]
        for row in results.rows(measurement)
    ]
    if rows:
        printed(title, [*heads, *(f"{group}{what}" for what in FLOODS for group in groups)], rows)


def single_table(results: Results, measurement: str, title: str, heads: list[str], groups: list[str]) -> None:
    """A table with a row for each kind of group, and a column for each value."""
    rows = [
        [*map(str, row), group, *(results.shown((measurement, *row, group), of) for of in SINGLES.values())]
        for row in results.rows(measurement)
        for group in groups
        if (measurement, *row, group) in results.tried
    ]
    if rows:
        printed(title, [*heads, "group", *SINGLES], rows)


def tables(bench: Bench) -> None:
    """Prints what was measured."""
    results, groups = bench.results, [*bench.columns(), *bench.peers]
    said = "Messages a second, given to all members; s: processor seconds of all members a million deliveries"
    flood_table(results, "throughput", said, ["members", "bytes", "sending", "datagrams"], groups)
    flood_table(results, "lossy throughput", f"{said}; all send, packets are lost", ["members", "bytes", "lost"], groups)
    flood_table(results, "slow throughput", f"{said}; all send, a packet takes {DELAY} us", ["members", "bytes"], groups)
    said = "One message of 64 bytes at a time: microseconds to the sender's own delivery and to the last member's"
    single_table(results, "latency", said, ["members", "datagrams"], [*groups, BARE])
    single_table(results, "lossy latency", f"{said}; packets are lost", ["members", "lost"], groups)
    single_table(results, "slow latency", f"{said}; a packet takes {DELAY} us", ["members"], [*groups, BARE])
    kills = [(column(kind), results.shown(("kill", kind.members, column(kind)), float)) for kind in bench.killed()]
    if results.rows("kill"):
        title = "From a SIGKILL (in native code of the sequencer, which is told; of etcd's leader) to the next delivery at the last survivor of 3"
        printed(title, ["group", "milliseconds"], kills)
