#!/usr/bin/env python3
"""Gives lines to nodes, and checks the answers.

    try_lines.py PROGRAM [COUNT [SEED]]

PROGRAM is the command whose word `node` is run. The lines of cases/lines must have the answers that stand there. COUNT lines (20,000), random and
mutated, go to each of nine nodes, each in another state. Each line that isn't empty must have one answer, of a form that an answer can have. Each process
must end with status 0 at the end of its input. It prints what fails, and how many lines were answered.

A file cases/lines/NAME.lines has nodes. First comes a line with the options of a node, then each line that it is given, followed by the line that it
answers, which is indented by four blanks. Lines that begin with # and empty ones are comments.
"""

import pathlib
import random
import re
import shlex
import sys
from typing import NamedTuple

from running import run
from words import words

CASES = pathlib.Path(__file__).resolve().parent.parent / "cases" / "lines"
OTHER = "41470312010000000101000c"  # a HandOver of place 1
ACCEPT = "414703050000000001000019" + "00000000" * 2 + "0000000101"
# how a node of place 1 of the founders 0, 1, 2 comes to a state, and the name that it runs under
STATES: dict[str, tuple[str, list[str]]] = {
    "member": ("1", []),
    "sequencer": ("0", ["send 61", "take"]),
    "sends under way": ("1", ["send 61", "send 62", "send 63", "send 64"]),
    "coordinator": ("1", ["reset 1"]),
    "promised": ("1", ["hear 1 4147030d020000000202000c"]),
    "leaving": ("1", ["leave"]),
    "stranger": ("3", []),
    "asking": ("3", ["join"]),
    "second life": ("1/2", ["join", "tick"]),
}
LINES = ["send 61", "send -", "done 1", "take", "join", "state", "leave", "tick", "info", "reset 2", "reset 1 r3", "ask 2", "giveup 2", "giveup 2/3"]
LINES += [f"hear {to} {data}" for to in ("1", "*1,2", "0,3", "1/2", "-") for data in (OTHER, ACCEPT, "41", "-")]
ANSWER = re.compile(
    r"bad line [1-4]|no numbers left|not-addressed|[a-z]+ [0-9]+\.[0-9/]+( [0-9,/-]+){8}|[a-z-]+( [^|]+)?( \| \*?[0-9][0-9,/]* [0-9a-f]{24,2304})*"
)


def mutated(draw: random.Random) -> bytes:
    """A line: as it should be, changed somewhere, or of any bytes."""
    line = bytearray(draw.choice(LINES).encode())
    for _ in range(draw.choice([0, 0, 0, 1, 1, 2, 5])):
        at = draw.randrange(len(line) + 1)
        way = draw.randrange(5)
        if way == 0 and line:
            del line[at - 1]
        elif way == 1:
            line.insert(at, draw.randrange(256))
        elif way == 2 and line:
            line[at - 1] = draw.choice(b"0123456789abcdef -/,*r")
        elif way == 3:
            line[at:at] = line[: draw.randrange(40)]
        else:
            line[at:at] = draw.choice([b" ", b"0", b"2000000001", b"4294967296", b"16", b"/17", b"ff"])
    if draw.random() < 0.001:
        line += b"00" * draw.randrange(3000)
    return bytes(line).replace(b"\n", b" ")


class Told(NamedTuple):
    """A node of a case: where it stands, its options, what it is given and what it answers."""

    where: str
    options: list[str]
    given: list[str]
    answers: list[str]

    def wrong(self, said: bytes) -> list[str]:
        """Where what was said differs from the answers."""
        found = said.decode(errors="replace").split("\n")[:-1]
        if len(found) != len(self.given):
            return [f"{self.where}: {len(found)} answers to {len(self.given)} lines"]
        lines = zip(self.given, self.answers, found)
        return [f"{self.where}: {given[:80]!r} was answered {one!r}, and not {answer!r}" for given, answer, one in lines if one != answer]


def told_nodes() -> list[Told]:
    """The nodes of cases/lines."""
    nodes: list[Told] = []
    for path in sorted(CASES.glob("*.lines")):
        for number, line in enumerate(path.read_text().splitlines(), 1):
            if line.startswith("--name "):
                nodes.append(Told(f"{path.name}:{number}", line.split(" "), [], []))
            elif line.startswith("    "):
                nodes[-1].answers.append(line[4:])
            elif line and not line.startswith("#"):
                nodes[-1].given.append(line)
    return nodes


def try_told(command: list[str]) -> list[str]:
    """What is wrong with the answers of a command to the lines of cases/lines."""
    wrong = [] if (nodes := told_nodes()) else ["cases/lines has no nodes"]
    for node in nodes:
        if len(node.given) != len(node.answers):
            wrong.append(f"{node.where}: {len(node.given)} lines with {len(node.answers)} answers")
        lines = "".join(f"{line}\n" for line in node.given).encode()
        ran = run([*command, *node.options], lines)
        wrong += node.wrong(ran.stdout) + ([] if ran.returncode == 0 else [f"{node.where}: status {ran.returncode}, {ran.stderr!r}"])
    return wrong


def main() -> int:
    """Tries the cases and all states."""
    program, *more = words(__doc__, 1, 3)
    count, seed = int(more[0]) if more else 20000, int(more[1]) if more[1:] else 1
    wrong_cases = try_told([*shlex.split(program), "node"])
    for line in wrong_cases:
        print(f"refused: {line}")
    answered = failed = 0
    for state, (name, begins) in STATES.items():
        draw = random.Random(f"{seed} {state}")
        lines = [line.encode() for line in begins] + [mutated(draw) for _ in range(count)]
        lines = [line for line in lines if line]
        command = [*shlex.split(program), "node", "--name", name, "--founders", "0,1,2"]
        ran = run(command, b"\n".join(lines) + b"\n", 600)
        answers = ran.stdout.split(b"\n")[:-1]
        wrong = next((k for k, answer in enumerate(answers) if not ANSWER.fullmatch(answer.decode(errors="replace"))), None)
        if (ran.returncode, ran.stderr, len(answers)) != (0, b"", len(lines)) or wrong is not None:
            print(f"refused: {state}: status {ran.returncode}, {ran.stderr!r}, {len(answers)} answers to {len(lines)} lines")
            if wrong is not None:
                print(f"    {lines[wrong]!r} was answered {answers[wrong]!r}")
            failed += 1
        answered += len(answers)
    print(f"gate/try_lines.py: {answered} lines answered; {len(STATES) - failed} passed, {failed} failed; of cases/lines {len(told_nodes())} nodes, {len(wrong_cases)} wrong")
    return 1 if failed or wrong_cases else 0


if __name__ == "__main__":
    sys.exit(main())
