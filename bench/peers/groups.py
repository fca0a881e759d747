"""Groups under load, and those of members in native code. A member is a process that does what lines on its standard input say, and answers
each by a line of JSON."""

import json
import os
import pathlib
import select
import shutil
import signal
import subprocess
import time
from dataclasses import dataclass
from typing import IO, Callable

from network import Network

TOP = pathlib.Path(__file__).resolve().parents[2]
LOAD = TOP / "runtime" / "target" / "release" / "examples" / "load"


class Fault(Exception):
    """A group that doesn't do what it was told."""


@dataclass(frozen=True)
class Kind:
    """What a group is: of which system, of how many members, and how it is set."""

    system: str
    members: int
    is_sealed: bool
    resilience: int = 0
    is_tuned: bool = False
    spin: int = 0


@dataclass(frozen=True)
class Place:
    """Where groups run and how: the network, a folder that has the programs built for the bench, and whether with realtime priority."""

    network: Network
    folder: pathlib.Path
    is_realtime: bool

    def command(self, place: int, *words: str) -> list[str]:
        """A command at a place, which ends with this process."""
        dies = ["setpriv", "--pdeathsig", "KILL"] if shutil.which("setpriv") else []
        return [*dies, *(["chrt", "-r", "1"] if self.is_realtime else []), *self.network.within(place), *words]


def clock() -> int:
    """The time of the system's monotonic clock, in nanoseconds."""
    return time.clock_gettime_ns(time.CLOCK_MONOTONIC)


def sleep_until(moment: int) -> None:
    """Sleeps until a time of that clock."""
    time.sleep(max(0, moment - clock()) / 1e9)


class Process:
    """A member as a process. Its lines, with times of the monotonic clock:

    cell NUMBER                             counts messages of this cell from now on
    flood BYTES FROM UNTIL SENDS            sends between two times as fast as it can, if SENDS is 1
    settle MANY UNTIL                       waits until so many messages of the cell are delivered; a digest of their order, and when the
                                            last was
    single BYTES MANY PAUSE UNTIL SENDS     sends one at a time; how long each took until its delivery here
    pace BYTES EVERY                        begins to send one each so many nanoseconds
    resumed UNTIL                           when the first message in a view with fewer members was delivered
    sequencer; stopped NAME                 the sequencer's place; tells who has stopped (not to Corosync)
    """

    def __init__(self, command: list[str], errors: IO[str]) -> None:
        self.child = subprocess.Popen(command, stdin=subprocess.PIPE, stdout=subprocess.PIPE, stderr=errors, bufsize=0)
        self.left = b""

    def tell(self, line: str) -> None:
        """Gives it a line."""
        try:
            self.child.stdin.write(line.encode() + b"\n")
        except BrokenPipeError as error:
            raise Fault("a member has ended") from error

    def hear(self, seconds: float) -> dict:
        """Its next answer."""
        until = time.monotonic() + seconds
        while b"\n" not in self.left:
            ready, _, _ = select.select([self.child.stdout], [], [], max(0, until - time.monotonic()))
            if not ready:
                raise Fault(f"a member gave no answer in {seconds:.0f} seconds")
            more = os.read(self.child.stdout.fileno(), 1 << 16)
            if not more:
                raise Fault("a member has ended")
            self.left += more
        line, self.left = self.left.split(b"\n", 1)
        return json.loads(line)

    def close(self) -> None:
        """Ends it."""
        self.child.kill()
        self.child.wait()
        self.child.stdin.close()
        self.child.stdout.close()


class Group:
    """A group that runs."""

    def __init__(self, kind: Kind, place: Place) -> None:
        self.kind, self.place = kind, place
        self.members: dict[int, Process] = {}
        self.daemons: dict[int, subprocess.Popen] = {}
        self.cells = 0
        self.errors = open(place.folder / "errors", "w+", encoding="utf-8")  # noqa: SIM115
        try:
            self.start()
            for member in self.members.values():
                member.hear(25)
        except BaseException:
            self.close()
            raise

    def start(self) -> None:
        """Starts its processes."""
        raise NotImplementedError

    def kill(self) -> tuple[int, int]:
        """Kills one that the others wait for, and has them told where they want that; its place, and when."""
        raise NotImplementedError

    def ask(self, line: str | Callable[[int], str], seconds: float = 5) -> dict[int, dict]:
        """Gives all members a line; their answers."""
        for place, member in self.members.items():
            member.tell(line if isinstance(line, str) else line(place))
        return {place: member.hear(seconds) for place, member in self.members.items()}

    def sequencer(self) -> int:
        """The place of the sequencer, or of the leader."""
        first = self.members[0]
        first.tell("sequencer")
        return int(first.hear(5)["sequencer"])

    def new_cell(self) -> None:
        """What was sent before isn't counted any more."""
        self.cells += 1
        self.ask(f"cell {self.cells}")

    def processes(self) -> list[int]:
        """The ids of all its processes."""
        return [*(member.child.pid for member in self.members.values()), *(daemon.pid for daemon in self.daemons.values())]

    def close(self) -> None:
        """Ends it."""
        for member in self.members.values():
            member.close()
        for daemon in self.daemons.values():
            daemon.kill()
            daemon.wait()
        self.errors.close()

    def __enter__(self) -> "Group":
        return self

    def __exit__(self, *_: object) -> None:
        self.close()


class Native(Group):
    """A group of members in native code."""

    def start(self) -> None:
        """Starts a process for each member."""
        places = range(self.kind.members)
        addresses = [self.place.network.address(place) for place in places]
        seal = "sealed" if self.kind.is_sealed else "open"
        for place in places:
            words = ["env", f"SPIN={self.kind.spin}", str(LOAD), str(place), str(self.kind.resilience), seal, *addresses]
            self.members[place] = Process(self.place.command(place, *words), self.errors)

    def kill(self) -> tuple[int, int]:
        """Kills the sequencer, and tells the others."""
        sequencer = self.sequencer()
        victim = self.members.pop(sequencer)
        at = clock()
        victim.child.send_signal(signal.SIGKILL)
        victim.child.wait()
        self.ask(f"stopped {sequencer}")
        victim.close()
        return sequencer, at
