"""Stores that find out by themselves who has stopped, each in a network namespace of its own; the network between them fails."""

import contextlib
import ctypes
import os
import pathlib
import random
import shutil
import subprocess
import time
from collections.abc import Iterator

from kv.resp import Client
from kv.stores import PLACES, Failed, Stores
from network import Network

NEWNET = 0x40000000
# times of the members in milliseconds, and after how many seconds of silence a name is suspected (docs/FAILURES.md, "Choosing times")
HEARTBEAT, DELAY, LEASE, SILENCE = 50, 50, 500, 0.7
# a store that isn't echoed answers nothing after so many seconds
THAW = 0.7
# how long a client waits for an answer, before it takes it that there is none
ANSWER = 1.0
# the status of a store that was given up
GIVEN_UP = 69


@contextlib.contextmanager
def entered(namespace: str) -> Iterator[None]:
    """The calling thread is in a network namespace meanwhile: sockets that it makes stay there."""
    libc = ctypes.CDLL(None, use_errno=True)
    with open("/proc/thread-self/ns/net", encoding="ascii") as own, open(f"/run/netns/{namespace}", encoding="ascii") as other:
        if libc.setns(other.fileno(), NEWNET):
            raise OSError(ctypes.get_errno(), f"no namespace {namespace}")
        try:
            yield
        finally:
            if libc.setns(own.fileno(), NEWNET):
                os._exit(70)  # a thread that is lost in a namespace mustn't go on


class Apart(Stores):
    """Three stores in namespaces, with a policy that finds out who has stopped. Clients are at their stores."""

    def __init__(self, folder: pathlib.Path, program: pathlib.Path, patience: float, policy: str, reads: str = "ordered"):
        super().__init__(folder, program, patience)
        self.network = Network(len(PLACES))
        self.policy, self.reads = policy, reads
        self.ports = [6379 for _ in PLACES]
        if not self.network.has_namespaces:
            raise Failed("network namespaces can't be made here; root makes them")

    def __enter__(self) -> "Apart":
        for place in PLACES:
            self.lives[place] = 1
            subprocess.run([self.program, "found", *map(str, self.words(place))], check=True, capture_output=True, timeout=self.patience)
            self.lives[place] = 0
        super().__enter__()
        return self

    def __exit__(self, *_: object) -> None:
        super().__exit__()
        self.network.close()

    def words(self, place: int) -> list[object]:
        """The settings of a place's member."""
        # a place that comes back begins in the list that its folder of state or the others know, and as the life that is next there
        named = [str(place), "--next-life"] if self.lives[place] > 1 else [str(place)]
        words: list[object] = ["--name", *named, "--founders", "0,1,2", "--resilience", "1", "--key", self.folder / "key"]
        for other in PLACES:
            words += ["--address", f"{other}={self.network.address(other)}"]
        words += ["--failures", self.policy, "--voters", "0,1,2", "--state", self.folder / f"state-{place}"]
        words += ["--lease", LEASE] if self.policy == "lease" else []
        return [*words, "--heartbeat", HEARTBEAT, "--delay", DELAY, *(["--reads", self.reads] if self.lives[place] and self.reads != "ordered" else [])]

    def within(self, place: int) -> list[str]:
        """The words by which a place's process is begun."""
        dies = ["setpriv", "--pdeathsig", "KILL"] if shutil.which("setpriv") else []
        return [*dies, *self.network.within(place)]

    def connect(self, place: int) -> Client:
        """A client of a place's store, at that store."""
        with entered(f"{self.network.prefix}{place}"):
            return Client(self.ports[place], ANSWER)

    def kill(self, place: int) -> None:
        """Kills a place's process; nobody is told."""
        process = self.running.pop(place)
        process.kill()
        process.wait()

    def end_list(self, place: int) -> None:
        """Ends the group's list by a place's store, as soon as that may be. A place that comes back is told its name."""
        lives = self.lives
        super().end_list(place)
        self.lives = lives

    def revive(self) -> int:
        """Starts the next lives of stores that were given up, and waits until all are ready; how many were."""
        ended = 0
        until = time.monotonic() + self.patience
        while True:
            for place, process in list(self.running.items()):
                if process.poll() is not None:
                    if process.returncode != GIVEN_UP:
                        raise Failed(f"store {self.name(place)} ended with {process.returncode}")
                    ended += 1
                    self.start(place)
            try:
                self.wait()
                self.generation = int(self.info(0)["muoswyld_generation"])
                return ended
            except Failed:
                if time.monotonic() > until:
                    raise


class Splits:
    """The network of stores fails, in one way after the other, and comes back."""

    def __init__(self, stores: Apart, seconds: float, seed: int) -> None:
        self.stores, self.seconds = stores, seconds
        self.draw = random.Random(f"{seed} splits")
        # which places were cut off from a majority of the voters, from when to when
        self.apart: list[tuple[set[int], float, float]] = []
        self.ended = 0

    def __call__(self) -> None:
        """Fails and comes back for so many seconds, and each way once at least. The list ends as one store is cut off, and once all hear each
        other again."""
        ways, until = list(WAYS), time.monotonic() + self.seconds
        self.draw.shuffle(ways)
        while ways or time.monotonic() < until:
            time.sleep(0.5)
            self.once(ways.pop() if ways else self.draw.choice(list(WAYS)))
        self.stores.end_list(self.draw.choice(PLACES))

    def once(self, way: str) -> None:
        """The network fails in a way, and comes back."""
        place = self.draw.choice(PLACES)
        others = {*PLACES} - {place}
        deaf = {
            "alone": {place: others, **{other: {place} for other in others}},
            "hears nobody": {place: others},
            "heard by nobody": {other: {place} for other in others},
            "all": {one: {*PLACES} - {one} for one in PLACES},
        }[way]
        ending = self.end_about_now({*others}.pop()) if way == "alone" and not self.stores.generation else None
        self.stores.network.deafen(deaf)
        begun = time.monotonic()
        time.sleep(SILENCE * (3 if way == "hears nobody" else 2) + 0.5)
        self.apart.append(({*PLACES} if way == "all" else {place}, begun, time.monotonic()))
        self.stores.network.deafen({})
        if ending:
            # it may be refused, as one store isn't heard
            ending.communicate(timeout=self.stores.patience)
        self.ended += self.stores.revive()

    def end_about_now(self, place: int) -> subprocess.Popen[bytes]:
        """Has a place's store asked to end the list, and doesn't wait for that."""
        words = [self.stores.program, "succeed", "--socket", self.stores.folder / f"socket-{place}"]
        ending = subprocess.Popen(words, stdout=subprocess.DEVNULL, stderr=subprocess.DEVNULL)
        time.sleep(self.draw.random() * 0.1)
        return ending

    def late(self, answers: list[tuple[int, float, float]]) -> list[str]:
        """Which stores answered while they were cut off."""
        wrong = []
        for places, begun, over in self.apart:
            late = [place for place, _, answered in answers if place in places and begun + THAW + 0.3 < answered < over]
            if late:
                wrong.append(f"{len(late)} answers of stores {sorted({*late})} that were cut off")
        return wrong


WAYS = ("alone", "hears nobody", "heard by nobody", "all")
