"""Members of muoswyldd as processes, for the tools that try them: try_net.py, try_members.py and try_groups.py."""

import contextlib
import json
import os
import pathlib
import queue
import re
import shlex
import signal
import subprocess
import sys
import tempfile
import threading
import time
from collections.abc import Callable, Iterable
from typing import Any

from member import Caller, Ended, Refused
from members import FIRST_PORT, own_host
from programs import member_of
from relay import HOST, Faults, Relay
from words import words

TOP = pathlib.Path(__file__).resolve().parent.parent

# a line of the log, and what it tells
LOGGED = re.compile(r"\d{4}-\d\d-\d\dT\S+Z +(?:INFO|WARN|ERROR) (.*)")
# how many seconds something may take at most, also where the machine has much else to do
SOON = 30


class Process:
    """A process whose lines are read as they come, also those of its log, of which only what they tell is kept."""

    def __init__(self, command: list[str]) -> None:
        pipe = subprocess.PIPE
        self.child = subprocess.Popen(command, text=True, bufsize=1, errors="replace", stdin=pipe, stdout=pipe, stderr=subprocess.STDOUT)
        self.lines: queue.Queue[str] = queue.Queue()
        threading.Thread(target=self.read, daemon=True).start()

    def read(self) -> None:
        """Reads its lines until it ends."""
        for line in self.child.stdout:
            found = LOGGED.fullmatch(line.rstrip("\n"))
            self.lines.put(found[1] if found else line.rstrip("\n"))

    def tell(self, line: str) -> None:
        """Gives it a line."""
        self.child.stdin.write(line + "\n")
        self.child.stdin.flush()

    def until(self, wanted: str, seconds: float = SOON) -> list[str]:
        """The lines that come in so much time, up to the first that is this one."""
        ends = time.monotonic() + seconds
        lines: list[str] = []
        with contextlib.suppress(queue.Empty):
            while lines[-1:] != [wanted]:
                lines.append(self.lines.get(timeout=max(0, ends - time.monotonic())))
        return lines

    def wants(self, wanted: str, seconds: float = SOON) -> bool:
        """Whether a line comes that is this one, in so much time."""
        return self.until(wanted, seconds)[-1:] == [wanted]

    def end(self) -> int:
        """Ends its input, and gives its status."""
        self.child.stdin.close()
        return self.status()

    def status(self) -> int:
        """Its status, once it has ended; -1 where that takes too long."""
        try:
            return self.child.wait(timeout=SOON)
        except subprocess.TimeoutExpired:
            self.child.kill()
            return -1

    def signal(self, number: int) -> None:
        """Sends it a signal."""
        self.child.send_signal(number)

    def kill(self) -> None:
        """Kills it, and waits until it has ended."""
        self.signal(signal.SIGKILL)
        self.child.wait()


class Tried:
    """A folder with a key and the addresses of some places, and the processes that run there. Place 2 has an address of its own, as if it
    were another machine."""

    places = 3
    # what the network does, where it isn't left alone
    faults: Faults | None = None

    def __init__(self, folder: pathlib.Path, program: str, member: str) -> None:
        self.folder, self.program, self.member = folder, program, member
        self.relay = Relay(self.homes(), self.faults) if self.faults else None
        if self.relay:
            self.relay.start()
        self.started: list[Process] = []
        subprocess.run([*shlex.split(member), "keygen", folder / "key"], check=True)

    def close(self) -> None:
        """Ends what still runs."""
        for process in self.started:
            process.kill()
        if self.relay:
            self.relay.close()

    def address(self, place: int) -> tuple[str, int]:
        """The address of a place."""
        return own_host(2 if place == 2 else 1), FIRST_PORT + place

    def homes(self) -> list[tuple[str, int]]:
        """The addresses of all places."""
        return [self.address(place) for place in range(self.places)]

    def words(self, name: str, *more: str) -> list[str]:
        """The command of a member. A word that is said twice has its last value."""
        own, options = int(name.split("/")[0]), {"--name": name, "--founders": "0,1,2", "--resilience": "1"}
        options |= {"--key": str(self.folder / "key"), "--input": "commands"}
        options |= dict(zip(more[::2], more[1::2]))
        words = [*shlex.split(self.member), "run"]
        for place in range(self.places):
            host, port = self.address(place)
            if self.relay and place != own:
                host, port = HOST, self.relay.port(own, place)
            words += ["--address", f"{place}={host}:{port}"]
        if options["--key"] == "":
            del options["--key"]
            words.append("--insecure")
        return [*words, *(word for option in options.items() for word in option)]

    def start(self, name: str, *more: str) -> Process:
        """Starts a member, with its journal and its socket."""
        files = "--journal", str(self.journal(name)), "--socket", str(self.socket(name))
        process, ends = Process(self.words(name, *files, *more)), time.monotonic() + SOON
        self.started.append(process)
        while not self.text(name) and process.child.poll() is None and time.monotonic() < ends:
            time.sleep(0.01)
        return process

    def group(self, *names: str, more: Iterable[str] = ()) -> dict[str, Process]:
        """Starts members, and waits until each listens."""
        members = {name: self.start(name, *more) for name in names}
        for name in names:
            self.caller(name).close()
        return members

    def caller(self, name: str) -> Caller:
        """A connection to a member, once it listens."""
        ends = time.monotonic() + SOON
        while True:
            try:
                return Caller(self.socket(name))
            except OSError:
                if time.monotonic() > ends:
                    raise
                time.sleep(0.01)

    def ask(self, name: str, command: str) -> dict[str, Any]:
        """What a member answers to a command, also where it refuses it."""
        caller = self.caller(name)
        try:
            return caller.ask(command)
        except Refused as error:
            return {"error": str(error)}
        finally:
            caller.close()

    def file(self, kind: str, name: str) -> pathlib.Path:
        """A file of a kind for a member."""
        return self.folder / f"{kind}-{name.replace('/', '-')}"

    def journal(self, name: str) -> pathlib.Path:
        """Where a member's journal is."""
        return self.file("journal", name)

    def socket(self, name: str) -> pathlib.Path:
        """Where a member listens."""
        return self.file("socket", name)

    def text(self, name: str) -> str:
        """A member's journal so far."""
        return self.journal(name).read_text() if self.journal(name).exists() else ""

    def lacks(self, name: str, wanted: str) -> list[str]:
        """Waits until a member's journal has a text; what is wrong, where it hasn't."""
        ends = time.monotonic() + SOON
        while wanted not in self.text(name):
            if time.monotonic() > ends:
                return [f"the journal of {name} hasn't {wanted!r}"]
            time.sleep(0.02)
        return []

    def judged(self, *names: str) -> str:
        """The last line of what `play` says of the members' journals, or why there is none."""
        merged = subprocess.run([TOP / "net" / "merge.py", *map(self.journal, names)], capture_output=True, check=False)
        played = subprocess.run([*shlex.split(self.program), "play"], input=merged.stdout, capture_output=True, check=False)
        said = played.stdout.decode().splitlines()
        return said[-1] if said else (merged.stderr + played.stderr).decode()

    def alone(self, cases: list[tuple[list[str], bytes | pathlib.Path]]) -> list[tuple[int, str, str]]:
        """What comes of members of groups of one, all at the same time, each on an address of its own: with these words more, and this input."""
        children = []
        for number, (more, given) in enumerate(cases, 10):
            words = self.words("0", "--founders", "0", "--resilience", "0", "--input", "messages", *more)
            words = [re.sub(rf"^(\d+=)({own_host(1)}|{own_host(2)}):", rf"\g<1>{own_host(number)}:", word) for word in words]
            read = given.open("rb") if isinstance(given, pathlib.Path) else subprocess.PIPE
            child = subprocess.Popen(words, stdin=read, stdout=subprocess.PIPE, stderr=subprocess.PIPE)
            if isinstance(given, bytes):
                child.stdin.write(given)
                child.stdin.close()
                child.stdin = None
            children.append(child)
        said = [child.communicate(timeout=2 * SOON) for child in children]
        return [(child.returncode, out.decode(), err.decode()) for child, (out, err) in zip(children, said)]


def letters_of(datagram: bytes) -> list[bytes]:
    """The packets of a datagram that isn't sealed (docs/MEMBER.md, "Datagrams"), or none."""
    packets, at = [], 19
    while datagram[:2] == b"\xa0\x01" and at < len(datagram):
        at += 7 + (8 if datagram[at + 4] & 2 else 0)
        size = int.from_bytes(datagram[at : at + 2], "big")
        packets.append(datagram[at + 2 : at + 2 + size])
        at += 2 + size
    return packets


def absolute(command: str) -> str:
    """A command whose words that are files are named from the root."""
    return shlex.join([os.path.abspath(word) if os.path.exists(word) else word for word in shlex.split(command)])


def try_parts(page: str | None, parts: Iterable[tuple[type[Tried], Callable[[Any], list[str]]]]) -> int:
    """Tries each part in a folder of its own, with the programs that the words of the call name; 1 where one fails."""
    given = words(page or "", 1, 2)
    program, member = absolute(given[0]), shlex.join(member_of(absolute(given[1]) if given[1:] else None))
    passed = failed = 0
    for kind, part in parts:
        with tempfile.TemporaryDirectory() as folder:
            tried = kind(pathlib.Path(folder), program, member)
            try:
                wrong = part(tried)
            except (OSError, Ended, subprocess.SubprocessError, json.JSONDecodeError) as error:
                wrong = [repr(error)]
            finally:
                tried.close()
        passed, failed = passed + (not wrong), failed + bool(wrong)
        for line in wrong:
            print(f"refused: {part.__name__}: {line}")
    print(f"gate/{pathlib.Path(sys.argv[0]).name}: {passed} passed, {failed} failed")
    return 1 if failed else 0
