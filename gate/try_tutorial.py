#!/usr/bin/env python3
"""Does what docs/TUTORIAL.md says, command by command, and compares what it prints with what the page says.

    gate/try_tutorial.py [PAGE]

It begins in the checkout with an empty home, and where the system allows it, without any network but this machine's own. A block whose first line is ``` with the word `console` is a transcript:

    $ COMMAND          is run by a shell, which goes on from command to command; it must end with 0
    LINE               without one of these signs is what that prints on standard output; if none follows, what it prints isn't compared
    1$ COMMAND         is run in terminal 1, a shell of its own, which begins where the first shell is then
    1> LINE            is typed there
    1: LINE            is printed there, on standard output or standard error, as the next line
    1^C                is Ctrl-C there

A block that begins with ``` and the words `LANGUAGE PATH` is a file, which is written where the first shell is. At the end no terminal may have printed
anything else. It prints what fails, and how many lines of the page were done.
"""

import contextlib
import ctypes
import fcntl
import os
import pathlib
import queue
import re
import signal
import socket
import struct
import subprocess
import sys
import tempfile
import threading
import time

from words import end, words

TOP = pathlib.Path(__file__).resolve().parent.parent
# how many seconds a line or the end of a program may take, and a command of the first shell
SOON, LATE = 60.0, 1200.0
# after everything is done, terminals are listened to for so many seconds more
REST = 0.5
SIGN = re.compile(r"(\d?)(\$|>|:|\^C)(?: (.*))?")


def go_alone() -> None:
    """Gives this process and its children a network of their own, with nothing but this machine, if the system allows it."""
    new_network, get_flags, set_flags, is_up = 0x40000000, 0x8913, 0x8914, 1
    if ctypes.CDLL(None).unshare(new_network) == 0:
        with socket.socket(socket.AF_INET, socket.SOCK_DGRAM) as any_one:
            known = fcntl.ioctl(any_one, get_flags, struct.pack("16sh22x", b"lo", 0))
            flags = struct.unpack("16sh22x", known)[1]
            fcntl.ioctl(any_one, set_flags, struct.pack("16sh22x", b"lo", flags | is_up))


class Wrong(Exception):
    """Where the page isn't right."""


def children(number: int) -> list[int]:
    """The processes that a process began and that run."""
    with contextlib.suppress(OSError):
        return [int(word) for word in pathlib.Path(f"/proc/{number}/task/{number}/children").read_text().split()]
    return []


class Terminal:
    """A shell that reads commands, and the programs that it runs, which read what is typed."""

    def __init__(self, where: str, known: dict[str, str]) -> None:
        pipe = subprocess.PIPE
        self.shell = subprocess.Popen(["bash"], cwd=where, env=known, stdin=pipe, stdout=pipe, stderr=subprocess.STDOUT, text=True, bufsize=1)
        self.lines: queue.Queue[str] = queue.Queue()
        threading.Thread(target=self.read, daemon=True).start()

    def read(self) -> None:
        """Reads what is printed."""
        assert self.shell.stdout is not None
        for line in self.shell.stdout:
            self.lines.put(line.rstrip("\n"))

    def type(self, line: str) -> None:
        """Types a line, for the shell or for its program."""
        assert self.shell.stdin is not None
        self.shell.stdin.write(line + "\n")
        self.shell.stdin.flush()

    def wants(self, line: str) -> None:
        """Reads the next line, which must be this one."""
        try:
            said = self.lines.get(timeout=SOON)
        except queue.Empty:
            raise Wrong(f"{line!r} isn't printed within {SOON:.0f} seconds") from None
        if said != line:
            raise Wrong(f"{said!r} is printed, and not {line!r}")

    def ctrl_c(self) -> None:
        """Interrupts the program that runs, and waits until it has ended."""
        programs = children(self.shell.pid)
        if len(programs) != 1:
            raise Wrong(f"Ctrl-C is for one program, and {len(programs)} run")
        os.kill(programs[0], signal.SIGINT)
        ends = time.monotonic() + SOON
        while programs[0] in children(self.shell.pid):
            if time.monotonic() > ends:
                raise Wrong("Ctrl-C ends nothing")
            time.sleep(0.01)

    def close(self) -> list[str]:
        """Ends it with its programs; what else it had printed."""
        for number in children(self.shell.pid):
            with contextlib.suppress(ProcessLookupError):
                os.kill(number, signal.SIGKILL)
        self.shell.kill()
        self.shell.wait()
        return list(self.lines.queue)


class Reader:
    """Who does what the page says."""

    def __init__(self, home: pathlib.Path) -> None:
        without = ("PYTHON", "MUOSWYLD_LIBRARY", "CARGO_TARGET_DIR", "VIRTUAL_ENV")
        self.known = {name: value for name, value in os.environ.items() if not name.startswith(without)}
        # what cargo and rustup have of this machine's user stays theirs
        before = pathlib.Path.home()
        self.known |= {"CARGO_HOME": os.environ.get("CARGO_HOME", str(before / ".cargo")), "RUSTUP_HOME": os.environ.get("RUSTUP_HOME", str(before / ".rustup"))}
        self.known["HOME"] = str(home)
        self.where, self.state = str(TOP), home / ".shell"
        self.terminals: dict[str, Terminal] = {}
        self.said: list[str] | None = None
        self.done = 0

    def run(self, command: str) -> None:
        """Runs a command in the first shell, whose folder and variables the next one has."""
        save = f'\n__status=$?; (pwd; env -0) > "{self.state}"; exit $__status\n'
        ran = subprocess.run(["bash", "-c", command + save], cwd=self.where, env=self.known, stdin=subprocess.DEVNULL, capture_output=True, text=True, timeout=LATE, check=False)
        if ran.returncode:
            raise Wrong(f"it ends with {ran.returncode}: {(ran.stdout + ran.stderr)[-2000:]}")
        self.where, _, variables = self.state.read_text().partition("\n")
        self.known = dict(each.split("=", 1) for each in variables.split("\0") if "=" in each)
        self.said = ran.stdout.splitlines()

    def compare(self, lines: list[str]) -> None:
        """Compares what the last command printed."""
        if lines and self.said != lines:
            raise Wrong(f"it prints {self.said}")

    def line(self, terminal: str, sign: str, rest: str) -> None:
        """Does a line of a transcript."""
        if not terminal:
            self.run(rest)
            return
        if terminal not in self.terminals:
            self.terminals[terminal] = Terminal(self.where, self.known)
        here = self.terminals[terminal]
        if sign == "^C":
            here.ctrl_c()
        elif sign == ":":
            here.wants(rest)
        else:
            here.type(rest)

    def transcript(self, first: int, lines: list[str]) -> None:
        """Does a transcript; `first` is its place on the page."""
        number, printed = first, list[str]()
        for number, line in enumerate([*lines, "$"], first):
            found = SIGN.fullmatch(line)
            is_one = found and (found[1] or found[2] == "$")
            try:
                if is_one and printed:
                    self.compare(printed)
                    printed = []
                if line == "$":
                    return
                if found and is_one:
                    self.line(found[1], found[2], found[3] or "")
                else:
                    printed.append(line)
            except (Wrong, subprocess.TimeoutExpired, OSError) as wrong:
                raise Wrong(f"line {number}: {line}\n    {wrong}") from wrong
            self.done += 1

    def page(self, text: str) -> None:
        """Does a page."""
        for block in re.finditer(r"^```(\w+)(?: (\S+))?\n(.*?)^```$", text, re.MULTILINE | re.DOTALL):
            language, path, body = block[1], block[2], block[3]
            if language == "console":
                self.transcript(text.count("\n", 0, block.start()) + 2, body.splitlines())
            elif path:
                file = pathlib.Path(self.where, path)
                file.parent.mkdir(parents=True, exist_ok=True)
                file.write_text(body)

    def end(self) -> list[str]:
        """Ends all terminals; what they printed that the page doesn't have."""
        time.sleep(REST)
        return [f"terminal {name} prints more: {line}" for name, terminal in self.terminals.items() for line in terminal.close()]


def main() -> int:
    """Does the page."""
    given = words(__doc__, 0, 1)
    page = pathlib.Path(given[0]) if given else TOP / "docs" / "TUTORIAL.md"
    with tempfile.TemporaryDirectory(prefix="muoswyld-tutorial-") as home:
        go_alone()
        reader, wrong = Reader(pathlib.Path(home)), list[str]()
        try:
            reader.page(page.read_text())
        except Wrong as one:
            wrong.append(f"{page.name}, {one}")
        finally:
            more = reader.end()
        wrong += [] if wrong else more
    print(*(f"refused: {line}" for line in wrong), f"gate/try_tutorial.py: {reader.done} lines done", sep="\n")
    return 1 if wrong or reader.done < 10 else 0


if __name__ == "__main__":
    end(main)
