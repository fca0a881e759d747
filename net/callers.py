"""Who gives a cluster's member its messages (net/members.py): its input, where nothing is answered, and some callers at its socket, each of whom
waits for an answer before it says the next one."""

import pathlib
import queue
import subprocess
import threading
import time
from typing import IO

from member import Caller, Ended, Position, Refused
from seen import Log, Seen

# how many callers are at a member's socket, and after how long one tries again to reach it
CALLERS = 3
AGAIN_SECONDS = 0.01
# the statuses with which a member ends as it should: 76 says that more have stopped than the resilience
STATUSES = (0, 76)


class Input(threading.Thread):
    """Writes lines to a member's input, so that nobody waits for one that doesn't read yet. `messages` are those that it was given."""

    def __init__(self, pipe: IO[bytes]) -> None:
        super().__init__(daemon=True)
        self.pipe = pipe
        self.lines: queue.Queue[str | None] = queue.Queue()
        self.messages: list[str] = []
        self.start()

    def give(self, line: str) -> None:
        """Has a line written."""
        self.lines.put(line)

    def send(self, message: str) -> None:
        """Has a message sent."""
        self.messages.append(message)
        self.give(f"send {message}")

    def close(self) -> None:
        """Ends the input behind what it was given."""
        self.lines.put(None)

    def run(self) -> None:
        """Writes until it is closed, or nobody reads any more."""
        try:
            while (line := self.lines.get()) is not None:
                self.pipe.write(line.encode() + b"\n")
            self.pipe.close()
        except OSError:
            pass  # the member has ended


class Asker(threading.Thread):
    """Sends messages by a member's socket, one after the other. `answers` has what became of each that was answered."""

    def __init__(self, path: pathlib.Path, child: subprocess.Popen[bytes]) -> None:
        super().__init__(daemon=True)
        self.path, self.child = path, child
        self.wanted: queue.Queue[str | None] = queue.Queue()
        self.messages: list[str] = []
        self.answers: dict[str, Position | None] = {}
        self.start()

    def send(self, message: str) -> None:
        """Has a message sent."""
        self.messages.append(message)
        self.wanted.put(message)

    def close(self) -> None:
        """Ends behind what it was given."""
        self.wanted.put(None)

    def reached(self) -> Caller | None:
        """A connection to the member, once it listens; None where it has ended."""
        while self.child.poll() is None:
            try:
                return Caller(self.path)
            except OSError:
                time.sleep(AGAIN_SECONDS)
        return None

    def run(self) -> None:
        """Sends until it is closed, or the member has ended."""
        caller = self.reached()
        while caller and (message := self.wanted.get()) is not None:
            try:
                self.answers[message] = caller.send(message.encode())
            except Refused:
                self.answers[message] = None
            except Ended:
                return


class Running:
    """A life whose process was started: who gives it messages, and what it printed."""

    def __init__(self, name: str, child: subprocess.Popen[bytes], socket_path: pathlib.Path, printed: pathlib.Path, journal: pathlib.Path) -> None:
        assert child.stdin
        self.name, self.child, self.log = name, child, Log(printed)
        self.socket_path, self.journal = socket_path, journal
        self.known: dict[int, str] = {}
        self.input = Input(child.stdin)
        self.askers = [Asker(socket_path, child) for _ in range(CALLERS)]
        self.is_killed = self.is_frozen = False

    def send(self, number: int, message: str) -> None:
        """Has it send a message: each second one by its input."""
        if number % 2:
            self.input.send(message)
        else:
            self.askers[number // 2 % CALLERS].send(message)

    def close(self) -> None:
        """Ends its input, and its callers."""
        self.input.close()
        for asker in self.askers:
            asker.close()

    def names(self) -> dict[int, str]:
        """Its name in each list that it began, by the first lines of its journals."""
        for path in self.journal.parent.glob(f"{self.journal.name}*"):
            suffix = path.name.removeprefix(self.journal.name).removeprefix(".")
            if (not suffix or suffix.isdigit()) and int(suffix or 0) not in self.known:
                with open(path, encoding="utf-8", errors="replace") as file:
                    line = file.readline()
                if line.endswith("\n"):
                    self.known[int(suffix or 0)] = line.split("\t")[1]
        return dict(self.known)

    def seen(self) -> Seen:
        """What its application sent and saw."""
        self.log.read()
        channels = [list(self.input.messages), *(list(asker.messages) for asker in self.askers)]
        answers = {message: answer for asker in self.askers for message, answer in list(asker.answers.items())}
        return Seen(self.name, self.names(), channels, answers, self.log.deliveries, self.child.poll() in STATUSES and not self.is_killed)

    def waits(self) -> bool:
        """Whether it was given messages that it hasn't printed, and that weren't refused."""
        return bool(self.seen().missing())
