"""A group of members of muoswyldd, each in a network namespace, with clients at each of them."""

import contextlib
import json
import os
import pathlib
import shutil
import signal
import socket
import subprocess
import time
from collections.abc import Callable
from dataclasses import asdict, dataclass

from clients import Clients, Record
from network import Network

TOP = pathlib.Path(__file__).resolve().parents[2]
BUILT = TOP / "runtime" / "target" / "release"
# how many seconds something may take that takes less than a tenth of that on an idle machine
PATIENCE = 40.0
# the status of a member that was given up
GIVEN_UP = 69
# how many lives a place has in a list
LIVES = 16
FENCE = """\
#!/bin/sh
# ends the process of the name which is the one argument, and waits until it is gone
pid=$(cat '{folder}/pid-'$(echo "$1" | tr / -)) || exit 1
kill -9 "$pid" 2>/dev/null
while grep -qs '^State:[[:space:]]*[^ZX[:space:]]' "/proc/$pid/status"; do sleep 0.01; done
"""


class Wrong(Exception):
    """What isn't as it should be."""


@dataclass(frozen=True)
class Kind:
    """A group, and how it is set. Times are in milliseconds."""

    policy: str
    members: int
    voters: int
    resilience: int
    least: int = 0
    heartbeat: int = 100
    delay: int = 50
    lease: int = 1000

    def silence(self) -> float:
        """After how many seconds a silent name is suspected (docs/FAILURES.md, "Choosing times")."""
        margin = 2 * self.heartbeat + self.delay
        if self.policy == "lease":
            return max(self.lease + margin, self.lease * 1.1 / 0.9 + self.heartbeat) / 1000
        return 4 * margin / 1000

    def thaw(self) -> float:
        """For how many seconds a member goes on at most that isn't echoed any more."""
        return (self.lease if self.policy == "lease" else 2 * self.silence() * 250) / 1000

    def told(self) -> str:
        """It in a line."""
        least = f", least {self.least}" if self.least else ""
        return f"{self.policy}, {self.members} members, {self.voters} voters, r {self.resilience}{least}"

    def plain(self) -> dict:
        """It as JSON."""
        return asdict(self)


@dataclass
class Life:
    """A life of a place that was begun."""

    name: str
    process: subprocess.Popen
    socket: pathlib.Path
    record: Record | None = None
    is_paused: bool = False

    @property
    def place(self) -> int:
        """Its place."""
        return int(self.name.split("/")[0])


class Group:
    """The places, by number: each has a life that runs, or none."""

    def __init__(self, kind: Kind, network: Network, folder: pathlib.Path, clients: Clients) -> None:
        self.kind, self.network, self.folder, self.clients = kind, network, folder, clients
        self.lives: dict[int, Life] = {}
        self.begun = [0] * kind.members
        self.ended: list[tuple[str, int]] = []
        self.muoswyldd, self.judge = BUILT / "muoswyldd", BUILT / "judge"
        for program in (self.muoswyldd, self.judge):
            if not program.exists():
                raise Wrong(f"{program} isn't built: tools/runtime.py builds it")
        (folder / "journals").mkdir()
        subprocess.run([self.muoswyldd, "keygen", folder / "key"], check=True)
        fence = folder / "fence"
        fence.write_text(FENCE.format(folder=folder), encoding="utf-8")
        fence.chmod(0o700)

    def words(self, place: int) -> list[str]:
        """The settings of a place."""
        kind, places = self.kind, range(self.kind.members)
        words = ["--founders", ",".join(map(str, places)), "--resilience", str(kind.resilience), "--key", str(self.folder / "key")]
        for other in places:
            words += ["--address", f"{other}={self.network.address(other)}"]
        words += ["--failures", kind.policy, "--state", str(self.state(place))]
        words += ["--voters", ",".join(map(str, range(kind.voters)))] if kind.policy != "told" else []
        words += ["--lease", str(kind.lease)] if kind.policy == "lease" else []
        words += ["--fence", str(self.folder / "fence")] if kind.policy == "command" else []
        words += ["--least", str(kind.least)] if kind.least else []
        return [*words, "--heartbeat", str(kind.heartbeat), "--delay", str(kind.delay)]

    def state(self, place: int) -> pathlib.Path:
        """The folder of state of a place."""
        return self.folder / f"state-{place}"

    def has_lives(self) -> bool:
        """Whether each place has lives left for one more fault: one for whom it hits, and one for whoever is started anew after it."""
        return max(self.begun) < LIVES - 1

    def found(self) -> None:
        """Makes the folders of state, and starts all founders."""
        for place in range(self.kind.members):
            words = [self.muoswyldd, "found", "--name", str(place), *self.words(place)]
            subprocess.run(words, check=True, stdout=subprocess.DEVNULL)
        for place in range(self.kind.members):
            self.start(place)

    def start(self, place: int) -> Life:
        """Starts the first life of a place, or its next one."""
        life = self.begun[place] = self.begun[place] + 1
        if life > LIVES:
            raise Wrong(f"place {place} has no life left")
        name = str(place) if life == 1 else f"{place}/{life}"
        file = name.replace("/", "-")
        path = self.folder / f"socket-{file}"
        words = ["--name", str(place), *(["--next-life"] if life > 1 else []), *self.words(place)]
        words += ["--journal", str(self.folder / "journals" / f"journal-{file}"), "--socket", str(path)]
        words += ["--input", "nothing", "--output", "socket", "--log", str(self.folder / f"log-{file}")]
        dies = ["setpriv", "--pdeathsig", "KILL"] if shutil.which("setpriv") else []
        command = [*dies, *self.network.within(place), str(self.muoswyldd), "run", *words]
        with (self.folder / f"errors-{file}").open("wb") as errors:
            process = subprocess.Popen(command, stdin=subprocess.DEVNULL, stdout=subprocess.DEVNULL, stderr=errors)
        (self.folder / f"pid-{file}").write_text(str(process.pid), encoding="utf-8")
        self.lives[place] = Life(name, process, path)
        return self.lives[place]

    def connect(self) -> None:
        """Connects the clients of each life that listens and has none yet."""
        for life in self.lives.values():
            if life.record is None and not life.is_paused:
                with contextlib.suppress(OSError):
                    life.record = self.clients.add(life.name, str(life.socket))

    def said(self, life: Life) -> str:
        """What a life said on standard error, or its log's last line."""
        for kind in ("errors", "log"):
            file = self.folder / f"{kind}-{life.name.replace('/', '-')}"
            if file.exists() and (lines := file.read_text(errors="replace").splitlines()):
                return lines[-1]
        return "nothing"

    def signal(self, place: int, number: int) -> None:
        """Sends a place's process a signal."""
        life = self.lives[place]
        life.process.send_signal(number)
        life.is_paused = number == signal.SIGSTOP or life.is_paused and number != signal.SIGCONT
        if number == signal.SIGKILL:
            life.process.wait()

    def reap(self) -> list[int]:
        """The places whose processes have ended since this was asked last."""
        gone = [place for place, life in self.lives.items() if life.process.poll() is not None]
        for place in gone:
            life = self.lives.pop(place)
            self.ended.append((life.name, life.process.returncode))
        return gone

    def status(self, place: int) -> dict | None:
        """What a place's member says of itself; None if it says nothing."""
        life = self.lives.get(place)
        if life is None or life.is_paused:
            return None
        try:
            with socket.socket(socket.AF_UNIX, socket.SOCK_STREAM) as stream:
                stream.settimeout(2)
                stream.connect(str(life.socket))
                stream.sendall(b"status\n")
                with stream.makefile("rb") as lines:
                    said = json.loads(lines.readline() or b"{}")
        except (OSError, ValueError):
            return None
        return said if "members" in said else None

    def statuses(self) -> dict[int, dict | None]:
        """What all places say of themselves."""
        return {place: self.status(place) for place in range(self.kind.members)}

    def names(self) -> list[str]:
        """The names of all lives that run, by place."""
        return [self.lives[place].name for place in sorted(self.lives)]

    def is_whole(self) -> bool:
        """Whether all places run and are members of one view, and none of them is frozen or suspected."""
        if len(self.lives) < self.kind.members or any(life.record is None for life in self.lives.values()):
            return False
        for status in self.statuses().values():
            if status is None or status["members"] != self.names() or status["failures"]["suspected"]:
                return False
            if status["failures"]["frozen-for-milliseconds"] is not None:
                return False
        return True

    def sequencer(self) -> int | None:
        """The place of the sequencer, as the lowest place says that tells it."""
        for status in self.statuses().values():
            if status is not None:
                return int(status["view"].split(".")[1].split("/")[0])
        return None

    def close(self) -> None:
        """Kills all of it."""
        for life in self.lives.values():
            life.process.kill()
            life.process.wait()


def wait_for(what: Callable[[], bool], seconds: float, every: float = 0.05) -> bool:
    """Whether something is so within so many seconds."""
    until = time.monotonic() + seconds
    while not what():
        if time.monotonic() > until:
            return False
        time.sleep(every)
    return True


def is_root() -> bool:
    """Whether root runs this."""
    return os.geteuid() == 0
