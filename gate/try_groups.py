"""Tries examples/: a dictionary whose contents stay the same whoever joins, stops and comes back, and a chat; and applications at members' sockets.

    python3 gate/try_groups.py PROGRAM [MEMBER]

PROGRAM is the command whose word `play` is run, MEMBER the one whose word `run` is a member, if it isn't the one that is built here. Each
part ends by itself, within some seconds. It prints what fails, and how many parts passed.
"""

import random
import subprocess
import sys
import threading
import time

from contents import MOST_MESSAGE, MOST_PAIR, Dictionary, command_of, message_of, parts_of, size_of
from member import Caller, Delivery, Ended, Refused
from muoswyld import Joined, Message, Name, Position, View
from processes import SOON, TOP, Process, Tried, try_parts
from relay import Faults
from words import end

# so many pairs are put by each of two members: what a joiner is sent takes some seconds
PAIRS = 100


class Listed:
    """A member whose group is a list that it is given entry by entry."""

    def __init__(self, group: "Group", name: str, front: int) -> None:
        self.group, self.name, self.front = group, name, front
        self.messages: list[bytes] = []
        self.dictionary = Dictionary(name, self.messages.append, self.others)
        if front == 0:
            self.dictionary.take(View(Position(0, 1), (Name(0), Name(1), Name(2)), 1))

    def others(self) -> list[str]:
        """The other members that run."""
        return [name for name in self.group.running if name != self.name]

    def send_one(self) -> None:
        """Lets the first of what it sends into the list."""
        if self.messages:
            self.group.entries.append((self.name, self.messages.pop(0)))

    def take_one(self) -> None:
        """Is given the next entry."""
        if self.front < len(self.group.entries):
            self.front += 1
            name, message = self.group.entries[self.front - 1]
            at, sender = Position(0, self.front + 1), Name.of(name)
            self.dictionary.take(Message(at, sender, message) if message else Joined(at, sender))


class Group:
    """A list, who is a member now, and what a random run does with them."""

    def __init__(self, seed: int) -> None:
        self.draw = random.Random(seed)
        self.entries: list[tuple[str, bytes]] = []
        self.lives = dict.fromkeys(range(5), 1)
        self.running: dict[str, Listed] = {}
        for name in ("0", "1", "2"):
            self.running[name] = Listed(self, name, 0)

    def join(self) -> None:
        """A place without a member joins, in its next life."""
        places = {int(name.split("/")[0]) for name in self.running}
        for place in set(self.lives) - places:
            self.lives[place] += place < 3 or self.lives[place] > 1
            name = f"{place}/{self.lives[place]}" if self.lives[place] > 1 else str(place)
            self.lives[place] = max(2, self.lives[place])
            self.entries.append((name, b""))
            self.running[name] = Listed(self, name, len(self.entries))
            return

    def stop(self) -> None:
        """A member stops, as long as another one is ready."""
        name = self.draw.choice(sorted(self.running))
        if any(one.dictionary.is_ready for other, one in self.running.items() if other != name):
            del self.running[name]

    def step(self) -> None:
        """Something happens."""
        member = self.draw.choice(list(self.running.values()))
        key = self.draw.choice("abcdefgh") * self.draw.choice((1, 300))
        what = self.draw.random()
        if what < 0.01:
            self.draw.choice((self.join, self.stop))()
        elif what < 0.07:
            member.messages.append(message_of("put", key, "v" * self.draw.randrange(500)))
        elif what < 0.1:
            member.messages.append(message_of("delete", key))
        elif what < 0.11:
            nonsense = b"hello", b"[" * 1000, b'["put", "a"]', b'["put", "\\ud800", "b"]', b'["have", 1, 2]', b"\xff"
            member.messages.append(self.draw.choice(nonsense))
        else:
            self.draw.choice((member.send_one, member.take_one, member.take_one, member.dictionary.tick))()

    def end(self) -> bool:
        """Whether all get ready where nothing more is put, with the contents that the list's commands make."""
        for _ in range(3000):
            for member in self.running.values():
                member.send_one()
                while member.front < len(self.entries):
                    member.take_one()
                member.dictionary.tick()
        contents: dict[str, str] = {}
        for _, message in self.entries:
            match command_of(message):
                case ["put", key, value]:
                    contents[key] = value
                case ["delete", key]:
                    contents.pop(key, None)
        return all(one.dictionary.is_ready and one.dictionary.contents == contents for one in self.running.values())


def sameness(_: Tried) -> list[str]:
    """In random runs of the dictionary alone all members come to the contents that the list makes."""
    wrong = []
    for seed in range(30):
        group = Group(seed)
        for _ in range(1500):
            group.step()
        if not group.end():
            found = [(name, one.dictionary.is_ready, len(one.dictionary.contents)) for name, one in group.running.items()]
            wrong.append(f"contents differ, seed {seed}: {found}")
    return wrong


def bounds(_: Tried) -> list[str]:
    """Each key that can be put fits into a part, and a part has as many as it can."""
    key = "k" * 400
    most = "v" * (MOST_PAIR - size_of(key, ""))
    parts = list(parts_of(2_000_000_000, {key: most, **{f"key {number}": "value" for number in range(300)}}))
    wrong = [f"a part has {len(part)} bytes" for part in parts if len(part) > MOST_MESSAGE or command_of(part) is None]
    if command_of(message_of("put", key, most)) is None or command_of(message_of("put", key, most + "v")) is not None:
        wrong.append("the bound of a key and its value isn't as it is said")
    return wrong + ([] if len(parts) < 12 else [f"{len(parts)} parts"])


def options(tried: Tried, name: str) -> list[str]:
    """The options of a member that is an application: those of muoswyldd, without its input."""
    words = tried.words(name, "--journal", str(tried.journal(name)), "--least", "1")
    words = words[words.index("run") + 1 :]
    at = words.index("--input")
    return [*words[:at], *words[at + 2 :]]


class Application:
    """An application, which is a member of its group."""

    def __init__(self, tried: Tried, script: str, name: str) -> None:
        self.name = name
        self.own = Process([sys.executable, str(TOP / "examples" / script), *options(tried, name)])
        tried.started.append(self.own)

    def begins(self) -> None:
        """Waits until it is in the group."""
        if not self.wants(f"* {self.name} is in the group"):
            raise Ended(f"{self.name} isn't in the group")

    def tell(self, line: str) -> None:
        """Gives it a line."""
        self.own.tell(line)

    def wants(self, wanted: str, seconds: float = SOON) -> bool:
        """Whether a line comes that is this one, in so much time."""
        return self.own.wants(wanted, seconds)

    def gets(self, line: str, wanted: str, seconds: float = 2 * SOON) -> bool:
        """Whether it answers a line as wanted, at once or later."""
        ends = time.monotonic() + seconds
        while time.monotonic() < ends:
            self.tell(line)
            if self.wants(wanted, 0.2):
                return True
        return False

    def kill(self) -> None:
        """Kills it."""
        self.own.kill()

    def end(self) -> int:
        """Ends the application's input, and gives its status."""
        return self.own.end()


def judged(tried: Tried) -> list[str]:
    """What isn't right by the journals of all members that ran."""
    done = subprocess.run([TOP / "runtime" / "target" / "release" / "judge", tried.folder], capture_output=True, text=True, check=False)
    is_lawful = done.returncode == 0 and done.stdout.rstrip().endswith(": lawful")
    return [] if is_lawful else [f"the journals are judged: {(done.stdout + done.stderr)[-500:]}"]


def dictionary(tried: Tried) -> list[str]:
    """A member is killed, the group goes on without it, and its place comes back to the same contents."""
    members = started(tried, "dictionary.py", "0", "1", "2")
    wrong = []

    def gets(name: str, key: str, value: str) -> None:
        """Notes that a member hasn't a value."""
        if not members[name].gets(f"get {key}", value):
            wrong.append(f"{name} hasn't {value} at {key}")

    members["1"].tell("put colour blue")
    members["2"].tell("put size 7")
    for name in members:
        gets(name, "colour", "blue")
        gets(name, "size", "7")
    members.pop("0").kill()
    for member in members.values():
        member.tell("stopped 0")
    members["2"].tell("put colour red")
    gets("1", "colour", "red")
    members |= started(tried, "dictionary.py", "0/2")
    members["0/2"].tell("stopped 0")
    members["1"].tell("delete size")
    gets("0/2", "colour", "red")
    gets("0/2", "size", "-")
    members["0/2"].tell("put more yes")
    gets("2", "more", "yes")
    for line, said in ((f"put a {'v' * 960}", "not sent: a key and its value are UTF-8"), ("put a", "a line is put KEY VALUE")):
        members["2"].tell(line)
        lines = members["2"].own.until("no line is this", 0.5)
        wrong += [] if any(said in each for each in lines) else [f"{line[:9]!r} is answered {lines}"]
    statuses = [member.end() for member in members.values()]
    return wrong + ([] if statuses == [0, 0, 0] else [f"they ended with {statuses}"]) + judged(tried)


def started(tried: Tried, script: str, *names: str) -> dict[str, Application]:
    """Applications, all of whom are in the group."""
    return all_in({name: Application(tried, script, name) for name in names})


def all_in(members: dict[str, Application]) -> dict[str, Application]:
    """Waits until all are in the group."""
    for member in members.values():
        member.begins()
    return members


class Five(Tried):
    """Five places, and a network that takes its time."""

    places = 5
    faults = Faults(delay=12)


def transfer(tried: Tried) -> list[str]:
    """A chat in the group says what is no command; who joins is sent the contents, whom it asked is killed amid that and comes back, and
    another one joins meanwhile."""
    scripts = {"0": "dictionary.py", "1": "dictionary.py", "2": "chat.py"}
    members = all_in({name: Application(tried, script, name) for name, script in scripts.items()})
    for name in ("0", "1"):
        for number in range(PAIRS):
            members[name].tell(f"put {name}-{number} {'v' * 900}")
    members["2"].tell("hello\n[[[[\nleave")
    wrong = [] if all(members["0"].gets(f"get {name}-{PAIRS - 1}", "v" * 900) for name in ("0", "1")) else ["0 hasn't what was put"]
    wrong += [] if members["2"].wants("* it left the group") else ["the chat hasn't left"]
    statuses = [members.pop("2").end()]
    members |= started(tried, "dictionary.py", "3")
    began = time.monotonic()
    members["0"].tell("put now 1")
    if not members["1"].gets("get now", "1") or time.monotonic() - began > 2:
        wrong.append("a put isn't there soon, amid a transfer")
    members.pop("0").kill()
    if not members["3"].gets("keys", "waiting", 10):
        wrong.append("the transfer was over before the member that was asked was killed")
    for member in members.values():
        member.tell("stopped 0")
    members |= started(tried, "dictionary.py", "4", "0/2")
    for name in ("4", "0/2"):
        members[name].tell("stopped 0")
    members["1"].tell("put now 2\nput last 1")
    keys = " ".join(sorted([*(f"{name}-{number}" for name in "01" for number in range(PAIRS)), "now", "last"]))
    for name, member in members.items():
        if not member.gets("keys", keys) or not member.gets("get now", "2") or not member.gets("get 1-7", "v" * 900):
            wrong.append(f"{name} hasn't the contents")
    statuses += [member.end() for member in members.values()]
    return wrong + ([] if set(statuses) == {0} else [f"they ended with {statuses}"]) + judged(tried)


def chat(tried: Tried) -> list[str]:
    """Two say something, one leaves; a second member of an address is refused, and where there is no key, that is said."""
    members = started(tried, "chat.py", "0", "1", "2")
    members["0"].tell("hello")
    wrong = [f"{name} didn't see it" for name, member in members.items() if not member.wants("<0> hello")]
    members["1"].tell("a\x1b[2J\u202eb")
    wrong += [] if members["0"].wants("<1> a\ufffd[2J\ufffdb") else ["what can't be shown isn't replaced"]
    address = f"{tried.address(0)[0]}:{tried.address(0)[1]}"
    taken = "chat.py: the member can't start: Address already in use (os error 98)"
    none = f"chat.py: [Errno 2] No such file or directory: '{tried.folder}/none'"
    for more, said in ((["--key", str(tried.folder / "key")], taken), (["--key", str(tried.folder / "none")], none)):
        words = ["--name", "0", "--founders", "0", "--address", f"0={address}", *more]
        other = Process([sys.executable, str(TOP / "examples" / "chat.py"), *words])
        wrong += [] if other.wants(said) and other.status() == 1 else [f"a second chat isn't refused: {said}"]
    members["2"].tell("bye\nleave")  # it is said before, so it is sent before
    if not members["0"].wants("<2> bye") or not members["0"].wants("* 2 leaves") or not members["2"].wants("* it left the group"):
        wrong.append("nobody said bye and left")
    statuses = [member.end() for member in members.values()]
    return wrong + ([] if statuses == [0, 0, 0] else [f"they ended with {statuses}"]) + judged(tried)


class Taker(threading.Thread):
    """An application in another process than its member: it is given the deliveries at the socket."""

    def __init__(self, tried: Tried, name: str) -> None:
        super().__init__(daemon=True)
        self.caller, self.given, self.end = tried.caller(name), list[Delivery](), ""
        self.start()

    def run(self) -> None:
        """Takes what comes, and last how the member ended."""
        try:
            for delivery in self.caller.deliveries():
                self.given.append(delivery)
        except (Refused, Ended) as why:
            self.end = str(why)

    def has(self, kind: str, many: int) -> bool:
        """Whether so many of a kind come."""
        ends = time.monotonic() + SOON
        while sum(delivery.kind == kind for delivery in self.given) < many and time.monotonic() < ends:
            time.sleep(0.01)
        return sum(delivery.kind == kind for delivery in self.given) == many


def sockets(tried: Tried) -> list[str]:
    """Applications send and are given the same at their members' sockets; who listens second is refused, and if no member listens, that is said."""
    names = list("012")
    for name in names:
        tried.start(name, "--input", "nothing", "--output", "socket", "--least", "1")
    takers = {name: Taker(tried, name) for name in names}
    messages = [f"{name} \u00e9\n\0".encode() for name in names]
    sent = [tried.caller(name).send(message) for name, message in zip(names, messages, strict=True)]
    wrong = [f"{name} isn't given all" for name, taker in takers.items() if not taker.has("message", 3)]
    wanted = [(sent[0], "0", messages[0]), (sent[1], "1", messages[1]), (sent[2], "2", messages[2])]
    for name, taker in takers.items():
        given = [(delivery.at, delivery.name, delivery.message) for delivery in taker.given if delivery.kind == "message"]
        wrong += [] if given == wanted and taker.given[0].members == names else [f"{name} is given {taker.given}"]
    second = Taker(tried, "0")
    second.join(SOON)
    wrong += [] if second.end == "--output socket gives deliveries to one caller at the socket" else [f"a second one isn't refused: {second.end}"]
    try:
        Caller(tried.folder / "none")
        wrong.append("somebody listens where no member is")
    except OSError as error:
        wrong += [] if error.strerror == "no member listens here: No such file or directory" else [f"no member listens: {error}"]
    tried.caller("2").ask("leave")
    takers["2"].join(SOON)
    wrong += [] if takers["2"].end == "it left the group" and takers["0"].has("left", 1) else [f"2 hasn't left: {takers['2'].end}"]
    return wrong


if __name__ == "__main__":
    end(lambda: try_parts(__doc__, [*((Tried, part) for part in (sameness, bounds, dictionary, chat, sockets)), (Five, transfer)]))
