"""Histories of keys, by clients that ask while members are killed and come back, and lists end."""

import random
import threading
import time
from collections.abc import Callable

from kv.linear import Asked, Value, is_linearizable, stale_reads
from kv.resp import Client, Cut, Reply, Wrong
from kv.stores import Failed, Stores

CLIENTS = 8
REGISTERS = [f"register {k}" for k in range(4)]
COUNTERS = [f"counter {k}" for k in range(2)]
# a client waits so long at most between two questions, so that histories aren't too long to be searched
PAUSE = 0.02


class Histories:
    """What was asked of each key."""

    def __init__(self, stores: Stores, seed: int):
        self.stores, self.seed = stores, seed
        self.lock = threading.Lock()
        self.values = 0
        self.asked: dict[str, list[Asked]] = {key: [] for key in REGISTERS + COUNTERS}
        # of each question that was answered, the store's place, when it was asked and when it was answered
        self.answers: list[tuple[int, float, float]] = []
        self.wrong: list[str] = []
        self.is_over = threading.Event()

    def value(self) -> int:
        """A value that no other set has."""
        with self.lock:
            self.values += 1
            return self.values

    def note(self, key: str, one: Asked, place: int) -> None:
        """Adds to a history what was asked of a place's store."""
        with self.lock:
            self.asked[key].append(one)
            if one.is_known():
                self.answers.append((place, one.called, one.answered))

    def client(self, k: int) -> None:
        """A client asks until all is over, and goes to another store where its own is gone."""
        draw = random.Random(f"{self.seed} {k}")
        while not self.is_over.is_set():
            place = draw.choice(list(self.stores.running) or [0])
            try:
                client = self.stores.connect(place)
                while not self.is_over.is_set():
                    self.ask(client, place, draw)
                    time.sleep(draw.random() * PAUSE)
                client.close()
            except Cut:
                time.sleep(0.05)
            except Failed as failed:
                self.wrong.append(str(failed))
                return

    def ask(self, client: Client, place: int, draw: random.Random) -> None:
        """Asks something of a key, by a client of a place's store."""
        key = draw.choice(REGISTERS + COUNTERS)
        what = draw.choice(["get", "incr" if key in COUNTERS else "set"])
        value = self.value() if what == "set" else None
        called = time.monotonic()
        try:
            reply = client.ask(what, key, *([] if value is None else [value]))
        except Cut:
            self.note(key, Asked(what, value, called), place)
            raise
        answered = time.monotonic()
        if isinstance(reply, Wrong):
            # a store that hasn't the state yet says so, and does nothing
            if reply.startswith(b"LOADING"):
                raise Cut(str(reply))
            raise Failed(f"{what} {key}: {reply!r}")
        self.note(key, Asked(what, value, called, answered, answer_of(what, reply)), place)


def answer_of(what: str, reply: Reply) -> Value:
    """What a reply tells."""
    if what == "set" and reply == b"OK":
        return None
    if what == "incr" and isinstance(reply, int):
        return reply
    if what == "get" and (reply is None or isinstance(reply, bytes)):
        return None if reply is None else int(reply)
    raise Failed(f"{what} was answered {reply!r}")


def kept(stores: Stores, seed: int, disturb: Callable[[], None]) -> Histories:
    """Histories up to the end of what disturbs the stores."""
    histories = Histories(stores, seed)
    threads = [threading.Thread(target=histories.client, args=(k,)) for k in range(CLIENTS)]
    for thread in threads:
        thread.start()
    try:
        disturb()
    finally:
        histories.is_over.set()
        for thread in threads:
            thread.join()
    return histories


def kills(stores: Stores, seconds: float) -> None:
    """In some seconds each store is killed and comes back. The list ends before that, and while the store is away."""
    for place in (0, 1, 2):
        time.sleep(seconds / 12)
        stores.end_list(place)
        time.sleep(seconds / 12)
        stores.kill(place)
        time.sleep(seconds / 12)
        stores.end_list((place + 1) % 3)
        time.sleep(seconds / 12)
        stores.start(place)
        stores.wait()


def faults(histories: Histories) -> list[str]:
    """What is wrong with histories; also where a read that is made stale isn't found."""
    wrong = list(histories.wrong)
    stale = found = 0
    for key, history in histories.asked.items():
        if not is_linearizable(history):
            wrong.append(f"the history of {key} isn't linearizable")
        changed = stale_reads(history)[:40]
        stale += len(changed)
        found += sum(not is_linearizable(one) for one in changed)
    if stale < 20 or found < stale:
        wrong.append(f"of {stale} histories with a stale read {found} are found")
    unknown = sum(not one.is_known() for history in histories.asked.values() for one in history)
    count = sum(map(len, histories.asked.values()))
    if count < 300:
        wrong.append(f"there are {count} questions alone")
    print(f"{count} questions, {unknown} without an answer; {found} stale reads found")
    return wrong
