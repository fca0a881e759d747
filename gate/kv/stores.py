"""Stores on this machine, as processes: three members of a group, which are killed and come back."""

import json
import pathlib
import socket
import subprocess
import time

from kv.resp import Client, Cut

PLACES = (0, 1, 2)


class Failed(Exception):
    """What isn't as it should be."""


def free_port(kind: socket.SocketKind) -> int:
    """A port that nobody has now."""
    with socket.socket(socket.AF_INET, kind) as one:
        one.bind(("127.0.0.1", 0))
        return one.getsockname()[1]


class Stores:
    """Three stores in a folder."""

    def __init__(self, folder: pathlib.Path, program: pathlib.Path, patience: float):
        self.folder, self.program, self.patience = folder, program, patience
        self.control = program.with_name("muoswyldd")
        for needed in (self.program, self.control):
            if not needed.exists():
                raise Failed(f"{needed} isn't built: tools/runtime.py builds it")
        self.udp = [free_port(socket.SOCK_DGRAM) for _ in PLACES]
        self.ports = [free_port(socket.SOCK_STREAM) for _ in PLACES]
        # how many lists came before the latest one, and the last life of each place in that
        self.generation = 0
        self.lives = [0 for _ in PLACES]
        self.running: dict[int, subprocess.Popen[bytes]] = {}
        # where each place's last process tells why it ended
        self.told: dict[int, pathlib.Path] = {}
        subprocess.run([program, "keygen", folder / "key"], check=True, timeout=patience)

    def __enter__(self) -> "Stores":
        for place in PLACES:
            self.start(place)
        self.wait()
        return self

    def __exit__(self, *_: object) -> None:
        for process in self.running.values():
            process.kill()
            process.wait()

    def name(self, place: int) -> str:
        """The name of a place's life."""
        life = self.lives[place]
        return str(place) if life == 1 else f"{place}/{life}"

    def words(self, place: int) -> list[object]:
        """The settings of a place's member. In a later list it is told by the others how that was founded."""
        words: list[object] = ["--name", self.name(place), "--key", self.folder / "key"]
        if self.generation:
            words += [word for other in self.running for word in ("--seed", f"127.0.0.1:{self.udp[other]}")]
        else:
            words += ["--founders", "0,1,2", "--resilience", "1"]
        for other, port in zip(PLACES, self.udp, strict=True):
            words += ["--address", f"{other}=127.0.0.1:{port}"]
        return words

    def within(self, place: int) -> list[str]:
        """The words by which a place's process is begun."""
        return []

    def start(self, place: int, *more: str) -> None:
        """Starts the next life of a place."""
        self.lives[place] += 1
        words = [*self.within(place), self.program, "run", *self.words(place), "--listen", f"127.0.0.1:{self.ports[place]}"]
        life = f"{place}-{self.generation}-{self.lives[place]}"
        words += ["--socket", self.folder / f"socket-{place}", "--log", self.folder / f"log-{life}"]
        self.told[place] = self.folder / f"told-{life}"
        with self.told[place].open("wb") as told:
            self.running[place] = subprocess.Popen([*map(str, words), *more], stdin=subprocess.DEVNULL, stdout=told, stderr=told)

    def connect(self, place: int) -> Client:
        """A client of a place's store."""
        return Client(self.ports[place], self.patience)

    def kill(self, place: int) -> None:
        """Kills a place's process, and tells the others."""
        process = self.running.pop(place)
        process.kill()
        process.wait()
        for other in self.running:
            words = [self.control, "stopped", "--socket", self.folder / f"socket-{other}", self.name(place)]
            subprocess.run(words, check=True, capture_output=True, timeout=self.patience)

    def end_list(self, place: int) -> None:
        """Ends the group's list by a place's store, as soon as that may be. In the next list each store that runs is its place's first life."""
        words = [self.program, "succeed", "--socket", self.folder / f"socket-{place}"]
        until = time.monotonic() + self.patience
        while True:
            done = subprocess.run(words, capture_output=True, text=True, timeout=self.patience, check=False)
            if done.returncode == 0:
                break
            if time.monotonic() > until:
                raise Failed(f"the list doesn't end: {done.stderr}")
            time.sleep(0.05)
        self.generation += 1
        self.lives = [int(place in self.running) for place in PLACES]

    def info(self, place: int) -> dict[str, str]:
        """What a store tells of itself."""
        client = self.connect(place)
        text = client.ask("info")
        client.close()
        if not isinstance(text, bytes):
            raise Failed(f"INFO of {place} is {text!r}")
        lines = [line for line in text.decode().splitlines() if ":" in line]
        return dict(line.split(":", 1) for line in lines)

    def wait(self) -> None:
        """Waits until all that run have the state and are members of one view of one list."""
        until = time.monotonic() + self.patience
        while time.monotonic() < until:
            for place, process in self.running.items():
                if process.poll() is not None:
                    told = self.told[place].read_text()
                    raise Failed(f"store {self.name(place)} ended with {process.returncode}: {told}")
            try:
                told = [self.info(place) for place in sorted(self.running)]
            except Cut:
                told = []
            names = ",".join(one["muoswyld_name"] for one in told)
            lists = {one["muoswyld_generation"] for one in told}
            if len(lists) == 1 and all(one["muoswyld_ready"] == "1" and one["muoswyld_members"] == names for one in told):
                return
            time.sleep(0.1)
        raise Failed(f"the stores aren't ready within {self.patience} seconds: {json.dumps(told)}")


def differences(stores: Stores) -> list[str]:
    """In what stores differ."""
    wrong = []
    client = stores.connect(0)
    client.ask("set", "last", "x")
    client.close()
    stores.wait()
    contents = [contents_of(stores, place) for place in PLACES]
    if contents[0] != contents[1] or contents[1] != contents[2]:
        wrong.append(f"stores differ: {[len(one) for one in contents]} keys")
    digests: dict[str, set[str]] = {}
    for one in map(stores.info, PLACES):
        entry = f"{one['muoswyld_checked_generation']}.{one['muoswyld_checked']}"
        digests.setdefault(entry, set()).add(one["muoswyld_digest"])
        if one["muoswyld_generation"] != str(stores.generation):
            wrong.append(f"a store is in the list of generation {one['muoswyld_generation']}, and {stores.generation} lists have ended")
    if any(len(told) > 1 for told in digests.values()):
        wrong.append(f"digests differ: {digests}")
    return wrong


def contents_of(stores: Stores, place: int) -> list[tuple[bytes, bytes]]:
    """All keys of a store with their values."""
    client = stores.connect(place)
    keys = client.ask("keys", "*")
    if not isinstance(keys, list):
        raise Failed(f"KEYS: {keys!r}")
    keys.sort()
    values = [client.ask("get", key) for key in keys]
    client.close()
    return list(zip(keys, values, strict=True))
