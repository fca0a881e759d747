"""Kinds of faults: whom they hit, what they do, and what is to become of whom they hit (docs/FAILURES.md, "What happens in each fault")."""

import contextlib
import random
import signal
import subprocess
import time
from dataclasses import dataclass, field

from group import Group, Kind, Wrong

# the places that hear nothing of some others
Deaf = dict[int, set[int]]
GONE, KEPT, EITHER = "given up", "kept", "either"
NONE = 0.0


@dataclass
class Fault:
    """A fault of some seconds. `hit` are the places that the others may go on without."""

    what: str
    hit: set[int]
    seconds: float
    deaf: Deaf = field(default_factory=dict)
    # places that are stopped or killed, a place whose folder can't be written, and how often links change
    paused: set[int] = field(default_factory=set)
    killed: set[int] = field(default_factory=set)
    folder: tuple[int, str] | None = None
    flaps: float = NONE
    # when it began, when it was there in full, and when it ended
    at: float = 0.0
    full: float = 0.0
    over: float = 0.0


def between(some: set[int], others: set[int]) -> Deaf:
    """Neither side hears the other."""
    return {place: others if place in some else some for place in some | others}


def cut(what: str, kind: Kind, alone: set[int], seconds: float) -> Fault:
    """The network splits: these on one side, all others on the other."""
    others = {*range(kind.members)} - alone
    return Fault(what, alone, seconds, between(alone, others))


def of_one(what: str, kind: Kind, place: int, seconds: float) -> Fault:
    """A fault of one place."""
    others = {*range(kind.members)} - {place}
    silence = kind.silence()
    match what:
        case "kill of the sequencer" | "kill of another":
            return Fault(what, {place}, seconds, killed={place})
        case "pause":
            return Fault(what, {place}, seconds, paused={place})
        case "short pause":
            return Fault(what, {place}, silence / 4, paused={place})
        case "hears nobody":
            return Fault(what, {place}, seconds, {place: others})
        case "heard by nobody":
            return Fault(what, {place}, seconds, {other: {place} for other in others})
        case "links come and go":
            return Fault(what, {place}, seconds, between({place}, others), flaps=silence / 3)
        case "one link":
            return Fault(what, set(), seconds, between({place}, {min(others)}))
        case "sequencer alone" | "another alone":
            return cut(what, kind, {place}, seconds)
    raise Wrong(f"no fault {what}")


OF_ONE = ["pause", "short pause", "hears nobody", "heard by nobody", "links come and go", "one link"]
OF_SEQUENCER = ["kill of the sequencer", "sequencer alone"]
OF_ANOTHER = ["kill of another", "another alone"]
OF_MANY = ["2|2", "2|3", "whole network", "too few voters"]
OF_FOLDER = ["full disk", "read-only disk"]
ALL = [*OF_SEQUENCER, *OF_ANOTHER, *OF_ONE, *OF_MANY, *OF_FOLDER]


def seconds_of(kind: Kind) -> float:
    """How long a fault takes, so that a silence is over and the group has gone on."""
    return 2 * kind.silence() + 0.5


def directed(what: str, kind: Kind, group: Group, draw: random.Random) -> Fault:
    """A fault of a kind now: of the sequencer, or of another one that is drawn."""
    sequencer = group.sequencer() or 0
    others = [place for place in range(kind.members) if place != sequencer]
    seconds = seconds_of(kind)
    if what in OF_SEQUENCER:
        return of_one(what, kind, sequencer, seconds)
    if what in OF_ANOTHER:
        return of_one(what, kind, draw.choice(others), seconds)
    if what in OF_ONE:
        return of_one(what, kind, draw.randrange(kind.members), seconds)
    if what == "whole network":
        places = {*range(kind.members)}
        return Fault(what, set(), seconds, {place: places - {place} for place in places})
    if what in ("2|2", "2|3"):
        # the side with fewer voters is cut off
        alone = set(draw.sample(range(kind.members), 2))
        voters = sum(place < kind.voters for place in alone)
        return cut(what, kind, alone if 2 * voters < kind.voters else {*range(kind.members)} - alone, seconds)
    if what == "too few voters":
        gone = draw.sample(range(kind.voters), kind.voters // 2 + 1)
        return Fault(what, set(gone), seconds, killed=set(gone))
    victim, dies = draw.sample(range(kind.voters), 2)
    return Fault(what, {dies}, seconds, killed={dies}, folder=(victim, what))


def expected(fault: Fault, kind: Kind) -> str:
    """What is to become of whom it hits."""
    least = kind.least or kind.members // 2 + 1
    if fault.what in ("short pause", "one link", "whole network"):
        return KEPT
    if fault.killed and fault.what != "too few voters":
        return GONE
    if fault.what in ("links come and go", "too few voters"):
        return EITHER
    if kind.policy == "told":
        return KEPT
    if kind.policy == "command":
        return KEPT if fault.what == "hears nobody" else GONE
    return GONE if kind.members - len(fault.hit) >= least else KEPT


def is_measured_from_end(fault: Fault, kind: Kind) -> bool:
    """Whether nobody goes on meanwhile, so that it is measured how soon all go on after it."""
    if fault.what in ("short pause", "links come and go"):
        return False
    return expected(fault, kind) != GONE or fault.what == "too few voters" or bool(fault.folder) and kind.voters < 5


class Faults:
    """The faults that are under way."""

    def __init__(self, group: Group, draw: random.Random) -> None:
        self.group, self.draw = group, draw
        self.active: list[Fault] = []
        self.next_flap = 0.0

    def begin(self, fault: Fault) -> None:
        """Begins one."""
        self.active.append(fault)
        if fault.folder:
            spoil(self.group, *fault.folder)
        fault.at = time.monotonic()
        for place in fault.killed | fault.paused:
            self.group.signal(place, signal.SIGKILL if place in fault.killed else signal.SIGSTOP)
        self.tell(fault.killed)
        if fault.deaf:
            self.connect()
        fault.full = time.monotonic()

    def tell(self, killed: set[int]) -> None:
        """Says who was killed, where nobody finds it out."""
        group = self.group
        names = [group.lives[place].name for place in killed]
        group.reap()
        if group.kind.policy != "told":
            return
        for life in group.lives.values():
            for name in names:
                words = [group.muoswyldd, "stopped", "--socket", life.socket, name]
                subprocess.run(words, check=False, capture_output=True, timeout=10)

    def connect(self) -> None:
        """Has packets get lost as the faults that are under way want it."""
        deaf: Deaf = {}
        for fault in self.active:
            if fault.flaps and self.draw.random() < 0.5:
                continue
            for place, others in fault.deaf.items():
                deaf.setdefault(place, set()).update(others)
        self.group.network.deafen(deaf)

    def go_on(self) -> None:
        """Has links come and go where they do."""
        flaps = [fault.flaps for fault in self.active if fault.flaps]
        if flaps and time.monotonic() >= self.next_flap:
            self.connect()
            self.next_flap = time.monotonic() + 2 * min(flaps) * self.draw.random()

    def end(self, fault: Fault) -> None:
        """Ends one."""
        self.active.remove(fault)
        if fault.folder:
            mend(self.group, *fault.folder)
        if fault.deaf:
            self.connect()
        for place in fault.paused:
            if place in self.group.lives:
                self.group.signal(place, signal.SIGCONT)
        fault.over = time.monotonic()


def spoil(group: Group, place: int, what: str) -> None:
    """From now on nothing is written to a place's folder of state."""
    folder = group.state(place)
    if what == "full disk":
        with contextlib.suppress(OSError), (folder / "filler").open("wb", buffering=0) as filler:
            while True:
                filler.write(bytes(4096))
        return
    # one that is mounted over it, where the process sees it: it has a file open for writing there, so the folder itself stays writable
    over = f"mount --bind '{folder}' '{folder}' && mount -o remount,bind,ro '{folder}'"
    process = str(group.lives[place].process.pid)
    subprocess.run(["nsenter", "--target", process, "--mount", "sh", "-c", over], check=True)


def mend(group: Group, place: int, what: str) -> None:
    """A place's folder can be written again by its next life."""
    if what == "full disk":
        (group.state(place) / "filler").unlink(missing_ok=True)
