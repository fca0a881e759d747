"""The members of a cluster (net/cluster.py): how their processes are started, told, killed, frozen and ended."""

import argparse
import os
import pathlib
import secrets
import signal
import subprocess
import time
from collections.abc import Iterator

from callers import STATUSES, Running
from member import Caller, Ended, Refused
from merge import Life
from programs import member_of
from relay import HOST, Faults, Relay
from seen import Claims, differences

# where place 0 listens, and the others behind it
FIRST_PORT = 7000
# how long a member may take to begin
START_SECONDS = 20
# how a joiner ends as it should without having been in the group: its status, and what it says
UNWELCOMED = ((69, b"nobody welcomed it"), (69, b"its list has ended"), (75, b"no member of the group answers"))
# after the end of their inputs or the word to leave, how long members may take at least
LAST_SECONDS = 10
# each of so many messages is long: it goes in parts
LONG_EVERY, LONG = 16, 2500


class Failed(Exception):
    """Why a run has no result."""


def own_host(number: int = 1) -> str:
    """A host of this machine that other processes have no sockets on, as its number is that of this process: the first one, or another."""
    return f"127.{1 + os.getpid() // 256 % 254}.{os.getpid() % 256}.{number}"


class Members:
    """The members, by place, and the relay between them. Journals are in one folder, what else they need in another."""

    def __init__(self, wanted: argparse.Namespace, journals: pathlib.Path, folder: pathlib.Path) -> None:
        self.wanted, self.journals, self.folder = wanted, journals, folder
        self.program = member_of(wanted.member)
        self.lives = [1] * wanted.nodes
        self.running: dict[int, Running] = {}
        self.all: list[Running] = []
        self.stopped: list[tuple[str, int]] = []
        self.late: list[str] = []
        self.refusals: list[str] = []
        self.sent = self.unwelcomed = self.freezes = self.ends = 0
        self.homes = [(own_host(), FIRST_PORT + place) for place in range(wanted.nodes)]
        self.founders = ",".join(map(str, range(wanted.nodes)))
        key = folder / "key"
        key.write_text(f"{secrets.token_hex(32)}\n")
        os.chmod(key, 0o600)
        faults = Faults(wanted.loss, wanted.repeat, wanted.reorder, wanted.delay)
        self.relay = Relay(self.homes, faults, wanted.seed)
        self.relay.start()

    def name(self, place: int) -> str:
        """A place's name now."""
        return f"{place}/{self.lives[place]}" if self.lives[place] > 1 else str(place)

    def file(self, folder: pathlib.Path, kind: str, place: int) -> pathlib.Path:
        """A file of a kind for a place's life now."""
        return folder / f"{kind}-{self.name(place).replace('/', '-')}"

    def command(self, place: int) -> list[str]:
        """The command of the place's process. Where lists end, a place that comes back asks the others which one is the latest."""
        wanted = self.wanted
        words = [*self.program, "run", "--name", self.name(place), "--key", str(self.folder / "key")]
        asks = wanted.succeed > 0 and self.lives[place] > 1 and bool(self.running)
        words += [] if asks else ["--founders", self.founders, "--resilience", str(wanted.resilience)]
        for other, home in enumerate(self.homes):
            host, port = home if other == place else (HOST, self.relay.port(place, other))
            words += ["--address", f"{other}={host}:{port}"]
            words += ["--seed", f"{host}:{port}"] if asks and other in self.running else []
        words += ["--tick", f"{wanted.tick:.0f}", "--input", "commands", "--output", "json"]
        words += ["--least", str(wanted.least)] if wanted.least else []
        words += ["--journal", str(self.file(self.journals, "journal", place)), "--socket", str(self.file(self.folder, "socket", place))]
        return words

    def start(self, place: int) -> None:
        """Starts the place's process."""
        printed = self.file(self.folder, "out", place)
        with open(self.file(self.folder, "errors", place), "wb") as errors, open(printed, "wb") as out:
            child = subprocess.Popen(self.command(place), bufsize=0, stdin=subprocess.PIPE, stdout=out, stderr=errors)
        socket, journal = self.file(self.folder, "socket", place), self.file(self.journals, "journal", place)
        self.running[place] = Running(self.name(place), child, socket, printed, journal)
        self.all.append(self.running[place])

    def is_in(self, place: int) -> bool:
        """Whether a founder is in the group, and listens; whether another one has begun its journal."""
        has_begun = place in self.running and bool(self.running[place].names())
        return has_begun and (self.lives[place] > 1 or self.file(self.folder, "socket", place).exists())

    def has_begun(self, place: int) -> bool:
        """Waits until a place's process has begun; False where it takes too long."""
        ends = time.monotonic() + START_SECONDS
        while not self.is_in(place):
            self.look()
            if time.monotonic() > ends:
                return False
            time.sleep(0.01)
        return True

    def look(self) -> None:
        """Looks whether each member still runs. A joiner that nobody welcomed has ended as it should, and its place comes back."""
        for place in [place for place, member in self.running.items() if member.child.poll() not in (None, *STATUSES)]:
            status, said = self.running[place].child.poll(), self.file(self.folder, "errors", place).read_bytes()
            if self.lives[place] > 1 and any(status == wanted and text in said for wanted, text in UNWELCOMED):
                self.unwelcomed += 1
                self.remove(place)
                self.back(place)
        for place, member in self.running.items():
            if member.child.poll() is not None:
                raise self.failed(place)

    def failed(self, place: int) -> Failed:
        """What to say of a member that ended by itself, with its last line."""
        errors = self.file(self.folder, "errors", place).read_text(errors="replace").split("\n")
        last = next((line for line in reversed(errors) if line.strip()), "it said nothing")
        status = self.running[place].child.returncode
        return Failed(f"member {self.name(place)} ended by itself with status {status}: {last.strip()}")

    def kill(self, place: int) -> None:
        """Kills a member that has begun, or takes too long to."""
        self.has_begun(place)
        self.remove(place)

    def remove(self, place: int) -> None:
        """Ends a process, and tells the others once it has ended: it can't act any more. Where it has no journal, an empty one says so."""
        member = self.running.pop(place)
        member.is_killed = True
        member.child.send_signal(signal.SIGKILL)
        member.child.wait()
        names = member.names()
        if not names:
            member.journal.touch()
        # a life that began nothing is none in any list
        last = max(names, default=0)
        self.stopped.append((names.get(last, member.name), last))
        for other in self.running.values():
            self.tell(other, *self.stopped[-1])

    @staticmethod
    def tell(member: Running, name: str, generation: int) -> None:
        """Tells a member that a name of a list has stopped."""
        member.input.give(f"stopped {name} {generation}")

    def back(self, place: int) -> None:
        """Lets a killed member's place come back; it is told who stopped before."""
        self.lives[place] += 1
        self.start(place)
        for name, generation in self.stopped:
            self.tell(self.running[place], name, generation)

    def freeze(self, place: int) -> None:
        """Has a member do nothing until it is thawed."""
        self.freezes += 1
        self.running[place].is_frozen = True
        self.running[place].child.send_signal(signal.SIGSTOP)

    def thaw(self, place: int) -> None:
        """Has a frozen member go on."""
        self.running[place].is_frozen = False
        self.running[place].child.send_signal(signal.SIGCONT)

    def end_list(self, window: int) -> bool:
        """Has a running member end the list, with another window; whether it did."""
        for place, member in sorted(self.running.items()):
            if not self.is_in(place) or member.is_frozen:
                continue
            try:
                caller = Caller(member.socket_path)
            except OSError:
                continue  # it doesn't listen yet
            try:
                caller.ask(f"succeed window {window}")
                return True
            except Refused as refused:
                self.refusals.append(str(refused))
            except Ended:
                pass  # it was killed meanwhile, and the list may have ended by it
            finally:
                caller.close()
        return False

    def send(self) -> None:
        """Has the members send one message more, in turn; some are long."""
        places = sorted(self.running)
        if places:
            self.sent += 1
            padding = "." * LONG if self.sent % LONG_EVERY == 0 else ""
            self.running[places[self.sent % len(places)]].send(self.sent // len(places), f"message {self.sent} {padding}".rstrip())

    def is_settled(self) -> bool:
        """Whether each member has printed all that it was given, and all have printed the list up to the same position."""
        if any(member.waits() for member in self.running.values()):
            return False
        return len({member.log.last() for member in self.running.values()}) <= 1

    def end(self) -> None:
        """Waits until all is sent and printed, and ends the members' inputs, or has them leave. Who isn't done in time is killed."""
        ends = time.monotonic() + self.wanted.patience
        while not self.is_settled() and time.monotonic() < ends:
            self.look()
            time.sleep(0.02)
        self.look()
        for place, member in list(self.running.items()):
            if member.waits():
                self.late.append(member.name)
                self.remove(place)
            elif self.wanted.leave:
                member.child.send_signal(signal.SIGTERM)
            else:
                member.close()
        self.wait_for_all(max(ends, time.monotonic() + LAST_SECONDS))

    def wait_for_all(self, ends: float) -> None:
        """Waits until all have ended; who hasn't by then is killed."""
        for place, member in self.running.items():
            try:
                member.child.wait(timeout=max(0, ends - time.monotonic()))
            except subprocess.TimeoutExpired:
                member.child.kill()
                member.child.wait()
                self.late.append(member.name)
                continue
            if member.child.returncode not in STATUSES:
                raise self.failed(place)

    def stop(self) -> None:
        """Kills who still runs, and ends the relay."""
        for member in self.running.values():
            member.child.kill()
            member.child.wait()
        for member in self.all:
            member.close()
        self.relay.close()

    def told(self) -> Iterator[str]:
        """What became of the datagrams, as the relay counted them, and of the messages."""
        counts = self.relay.counts()
        yield f"datagrams {counts.carried}: {counts.lost} lost, {counts.repeated} repeated, {counts.reordered} reordered"
        answers = sum(answer is not None for member in self.all for answer in member.seen().answers.values())
        frozen = f"; members frozen: {self.freezes}" if self.freezes else ""
        unwelcomed = f"; joiners that nobody welcomed: {self.unwelcomed}" if self.unwelcomed else ""
        yield f"messages {self.sent}: {answers} answered at a socket{frozen}{unwelcomed}"

    def compared(self, lives: dict[tuple[int, str], Life], claimed: Claims | None) -> tuple[list[str], int]:
        """Compares what the applications saw, up to the last entry of each name that is claimed where that isn't all: what to say of it, and 1
        where something is wrong."""
        seen = [member.seen() for member in self.all]
        wrong = differences(seen, lives, claimed)
        if wrong:
            return [f"printed: {line}" for line in wrong[:10]], 1
        until = "" if claimed is None else ", as far as that is claimed"
        return [f"the {sum(len(each.log) for each in seen)} deliveries that were printed are pieces of one list{until}"], 0
