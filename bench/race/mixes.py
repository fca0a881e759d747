#!/usr/bin/env python3
"""Counts how calls of races end.

`PROGRAM race` runs each race of FOLDER TIMES times. The table has for each race its calls, and the means of a run: how many calls were answered; how
many were late; after how many late ones another place still did something; how many were never made, as their threads had ended; the events, and
the ticks among them; and the longest row of ticks of one place.
"""

import argparse
import json
import pathlib
import subprocess
import sys
from dataclasses import dataclass, fields

# the acts that end a call where they have an answer, and those that end it with or without one
OWN = {"send", "join", "leave", "reset", "stop"}
ENDS = {"done", "state", "ask", "take"}

# the outcomes that are answers (docs/PROTOCOL.md, "Races")
ANSWERS = {"sent", "took", "joined", "decided", "busy", "not-member", "too-few", "crowded", "overtaken", "not-in", "departed", "stopped"}

# so many seconds may a race take
MOST_SECONDS = 110


@dataclass
class Counts:
    """What was counted of races."""

    answered: int = 0
    late: int = 0
    beside: int = 0
    unmade: int = 0
    events: int = 0
    ticks: int = 0
    row: int = 0

    def add(self, other: "Counts") -> None:
        """Counts another race too; of the rows of ticks the longest counts."""
        for field in fields(self):
            mine, its = getattr(self, field.name), getattr(other, field.name)
            setattr(self, field.name, max(mine, its) if field.name == "row" else mine + its)


def events_of(text: str) -> list[tuple[str, str, str]]:
    """Of each event of a text its act, its place and the word of its outcome."""
    events = []
    for line in text.splitlines():
        did, colon, came = line.partition(" : ")
        parts = did.split(" ")
        if colon and parts[0].isdigit():
            events.append((parts[1], parts[2], came.split(" ")[0]))
    return events


def is_answer(act: str, outcome: str) -> bool:
    """Whether an event ends a call with an answer; that a leave goes on is none at its check."""
    return act in OWN | ENDS and (outcome in ANSWERS or (outcome == "leaving" and act != "state" and act != "leave"))


def longest_row(events: list[tuple[str, str, str]]) -> int:
    """The longest row of ticks of one place."""
    longest, row, before = 0, 0, ""
    for act, place, _ in events:
        row = (row + 1 if place == before else 1) if act == "tick" else 0
        before = place
        longest = max(longest, row)
    return longest


def counts_of(text: str, calls: int) -> Counts:
    """What is counted of the text of a race of so many calls."""
    events = events_of(text)
    answered = sum(is_answer(act, outcome) for act, _, outcome in events)
    late = [(at, place) for at, (act, place, outcome) in enumerate(events) if act in ENDS and not is_answer(act, outcome)]
    last = {place: at for at, (_, place, _) in enumerate(events)}
    beside = sum(any(at < end for other, end in last.items() if other != place) for at, place in late)
    ticks = sum(act == "tick" for act, _, _ in events)
    return Counts(answered, len(late), beside, calls - answered - len(late), len(events), ticks, longest_row(events))


def run(program: str, race: bytes) -> str:
    """The text of a race's run."""
    ran = subprocess.run([program, "race"], input=race, capture_output=True, timeout=MOST_SECONDS, check=True)
    return ran.stdout.decode().partition("\n")[2]


def line(name: str, calls: int, counts: Counts, times: int) -> str:
    """A line of the table, the means of so many runs."""
    means = [f"{getattr(counts, field.name) / times:9.1f}" for field in fields(counts) if field.name != "row"]
    return f"{name:20}{calls:6}" + "".join(means) + f"{counts.row:9}"


def main() -> int:
    """Prints the table of a folder's races, and a last line of them all together."""
    words = argparse.ArgumentParser(description=__doc__, formatter_class=argparse.RawDescriptionHelpFormatter)
    words.add_argument("program", help="the command whose word race is run")
    words.add_argument("folder", type=pathlib.Path, help="its files NAME.json are races")
    words.add_argument("times", type=int, nargs="?", default=100, help="how often each is run")
    given = words.parse_args()
    many = given.times
    print(f"{'race':20}{'calls':>6}" + "".join(f"{field.name:>9}" for field in fields(Counts)))
    whole, all_calls = Counts(), 0
    for file in sorted(given.folder.glob("*.json")):
        race = file.read_bytes()
        calls = sum(len(thread["calls"]) for thread in json.loads(race)["race"]["threads"])
        counts = Counts()
        for _ in range(many):
            counts.add(counts_of(run(given.program, race), calls))
        print(line(file.stem, calls, counts, many), flush=True)
        whole.add(counts)
        all_calls += calls
    print(line("all", all_calls, whole, many))
    return 0


if __name__ == "__main__":
    sys.exit(main())
