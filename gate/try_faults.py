#!/usr/bin/env python3
"""Tries groups of muoswyldd in network namespaces under faults, by bench/faults: a kill of the sequencer, a split of the network, and several
faults at once. It tries first that the checks of these runs find what is wrong: logs and answers are changed in each of several ways. And it
tries how runs are planned, and when they end.

    python3 gate/try_faults.py

Where network namespaces can't be made it says so, and tries all but the runs.
"""

import dataclasses
import importlib.machinery
import importlib.util
import pathlib
import random
import subprocess
import sys
import tempfile
from collections.abc import Callable, Iterator
from contextlib import chdir
from types import SimpleNamespace
from typing import Any

from checks import faults_of
from clients import Delivered, Record, Sent
from group import LIVES, Group, Kind
from kinds import ALL, GONE, Fault, directed, expected
from trial import NOT_WRITTEN, Plan, Result, Trial
from words import end, words

RUN = pathlib.Path(__file__).resolve().parent.parent / "bench" / "faults" / "run"
# network namespaces can't be made
NOT_HERE = 3
TIMES = ["--heartbeat", "50", "--delay", "50", "--lease", "500", "--jobs", "1"]
RUNS = [
    ["--kinds", "kill of the sequencer", "--policies", "echo", "--members", "3", "--seconds", "1"],
    ["--kinds", "another alone", "--policies", "lease", "--members", "4", "--seconds", "1"],
    ["--runs", "1", "--seed", "4", "--policies", "echo", "--members", "5", "--seconds", "6"],
]
LIST = [
    (2, 0, "message 0 0 0 0"),
    (2, 1, "message 0 0 0 1"),
    (3, 0, "message 1 1 0 0"),
    (4, 0, "view 1 r1"),
    (5, 0, "joined 0/2"),
    (6, 0, "message 0/2 0/2 0 0"),
    (6, 1, "message 1 1 0 1"),
]


def log_of(first: int, last: int) -> list[Delivered]:
    """A log of a piece of the list."""
    return [Delivered(number, index, what, float(number)) for number, index, what in LIST[first:last]]


def sent(text: str, number: int, index: int) -> Sent:
    """A message that was answered."""
    return Sent(text, 0.0, 1.0, number, index)


def right() -> list[Record]:
    """What three lives saw in which all is right: the first one of place 0 was killed, with a message that wasn't answered."""
    first = Record("0", log_of(0, 3), [[sent("0 0 0", 2, 0), sent("0 0 1", 2, 1), Sent("0 0 2", 1.0)]])
    other = Record("1", log_of(0, 7), [[sent("1 0 0", 3, 0), sent("1 0 1", 6, 1)]])
    return [first, other, Record("0/2", log_of(4, 7), [[sent("0/2 0 0", 6, 0)]])]


def without(place: int, at: int) -> Callable[[list[Record]], None]:
    """A change: a delivery is missing."""
    return lambda records: records[place].log.pop(at) and None


def other(place: int, at: int, what: str) -> Callable[[list[Record]], None]:
    """A change: a delivery is another one, at all who were given it."""

    def change(records: list[Record]) -> None:
        here = records[place].log[at]
        for record in records:
            record.log = [one._replace(what=what) if one[:2] == here[:2] else one for one in record.log]

    return change


def alone(place: int, at: int, what: str) -> Callable[[list[Record]], None]:
    """A change: a delivery is another one, at one life alone."""

    def change(records: list[Record]) -> None:
        records[place].log[at] = records[place].log[at]._replace(what=what)

    return change


def answer(place: int, at: int, number: int, index: int) -> Callable[[list[Record]], None]:
    """A change: an answer says another position."""

    def change(records: list[Record]) -> None:
        one = records[place].sent[0][at]
        records[place].sent[0][at] = dataclasses.replace(one, answered=1.0, number=number, index=index)

    return change


CHANGES: dict[str, Callable[[list[Record]], None]] = {
    "a message is missing within an entry": without(1, 0),
    "an entry is missing": without(1, 2),
    "the last entry is missing": without(2, 2),
    "a join is missing": without(2, 0),
    "a founder's first entry is missing": without(0, 0),
    "one was given another message": alone(0, 2, "message 1 1 0 1"),
    "a message stands twice": other(1, 6, "message 1 1 0 0"),
    "a message of nobody": other(1, 6, "message 1 1 0 7"),
    "an answered message is lost": answer(0, 2, 7, 0),
    "an answer with another position": answer(1, 0, 2, 1),
    "messages in another order": lambda records: (other(1, 0, "message 0 0 0 1")(records), other(1, 1, "message 0 0 0 0")(records)) and None,
    "a message is given twice": lambda records: records[1].log.insert(3, records[1].log[2]),
}


def try_checks() -> list[str]:
    """The checks pass what is right, and find each change."""
    found = faults_of(right(), ["1", "0/2"])
    wrong = [f"what is right is refused: {found}"] if found else []
    for what, change in CHANGES.items():
        records = right()
        change(records)
        if not faults_of(records, ["1", "0/2"]):
            wrong.append(f"the checks don't find that {what}")
    return wrong


def program() -> Any:
    """The functions of bench/faults/run."""
    spec = importlib.util.spec_from_loader("run", importlib.machinery.SourceFileLoader("run", str(RUN)))
    module = importlib.util.module_from_spec(spec)
    spec.loader.exec_module(module)
    return module


def try_folders() -> list[str]:
    """The folder of kept runs is named from the root: what begins members may be elsewhere."""
    with tempfile.TemporaryDirectory() as folder, chdir(folder):
        wanted = str(pathlib.Path.cwd() / "kept")
        said = [program().options(["--keep", name]).keep for name in ("kept", wanted)]
    return [f"kept runs are in {one}, and not in {wanted}" for one in said if one != wanted]


def try_seeds() -> list[str]:
    """A seed's run is the same whichever runs are before it."""
    run = program()
    alone, all_of_them = (list(run.plans(run.options(["--runs", runs, "--seed", seed]))) for runs, seed in (("1", "7"), ("9", "1")))
    return [] if alone == [plan for plan in all_of_them if plan.seed == 7] else [f"the run of seed 7 is {alone}, or one of {all_of_them}"]


def planned() -> Iterator[tuple[Kind, Fault]]:
    """Faults of each kind, in each group in which it is tried."""
    run, draw = program(), random.Random(1)
    for what in ALL:
        for policy in run.POLICIES:
            for members in (3, 4, 5):
                for kind in run.kinds_for(what, policy, members):
                    for turn in range(200):
                        group: Any = SimpleNamespace(sequencer=lambda members=members, turn=turn: turn % members)
                        yield kind, directed(what, kind, group, draw)


def try_sides() -> list[str]:
    """No more members are hit by a fault that ends them than the group's resilience."""
    beyond = {f"{kind.told()}: {fault.what}" for kind, fault in planned() if expected(fault, kind) == GONE and len(fault.hit) > kind.resilience}
    return [f"more are given up than the resilience: {one}" for one in sorted(beyond)]


class GoesOn(Exception):
    """A run goes on with a fault."""


class Stub(Trial):
    """A run of a group that does nothing. A place that is asked says these failures, and its next life that it votes."""

    def __init__(self, kind: Kind, begun: list[int], failures: dict[str, object]) -> None:
        self.plan, self.draw, self.killed = Plan(kind, "pause", 1, 60.0), random.Random(1), set()
        self.result = Result(self.plan)
        said = iter([failures, {"votes": True}])
        self.group = group = Group.__new__(Group)
        group.kind, group.begun = kind, begun
        group.lives = {place: SimpleNamespace(name=str(place)) for place in range(kind.members)}
        group.status = lambda _: {"failures": next(said)}
        group.signal = lambda *_: None
        group.sequencer = lambda: 0
        self.faults = SimpleNamespace(active=[], tell=lambda _: None, go_on=self.begin)

    def begin(self, *_: object) -> None:
        """A fault comes, or links change."""
        raise GoesOn

    def recover(self, what: str) -> None:
        """It is whole already."""


def is_over(run: Callable[[Trial], None], begun: list[int]) -> bool:
    """Whether a run ends without any fault, where places have begun so many lives."""
    try:
        run(Stub(Kind("echo", 3, 3, 1), begun, {}))
    except GoesOn:
        return False
    return True


def try_lives() -> list[str]:
    """A run ends before a place's lives do: a fault may take two."""
    wrong = []
    for what, run in (("one kind of fault", Trial.directed), ("faults at random", Trial.at_random)):
        if not is_over(run, [1, LIVES - 1, 1]):
            wrong.append(f"a run with {what} goes on with one life left")
        if is_over(run, [1, LIVES - 2, 1]):
            wrong.append(f"a run with {what} ends with two lives left")
    return wrong


def try_votes() -> list[str]:
    """A place whose folder couldn't be written says so, or had nothing to write: others are a majority, and it has refused nobody that is hit."""
    cases = [
        (5, NOT_WRITTEN, [], True),
        (5, None, [], True),
        (5, None, ["3/2"], True),
        (5, None, ["3"], False),
        (5, "its file isn't whole", [], False),
        (3, NOT_WRITTEN, [], True),
        (3, None, [], False),
    ]
    wrong = []
    for voters, why, refused, is_right in cases:
        trial = Stub(Kind("lease", 5, voters, 2), [1] * 5, {"why-no-vote": why, "refused": refused})
        fault = Fault("full disk", {3}, 1.0, folder=(0, "full disk"))
        trial.vote_again(fault, {3: trial.group.lives[3]})
        if is_right == bool(trial.result.wrong):
            wrong.append(f"one of {voters} voters, with {why} and refused {refused}: {trial.result.wrong}")
    return wrong


def try_runs() -> list[str]:
    """The runs, all at the same time."""
    pipes = {"stdout": subprocess.PIPE, "stderr": subprocess.STDOUT, "text": True}
    begun = [subprocess.Popen([sys.executable, str(RUN), *given, *TIMES], **pipes) for given in RUNS]
    said = [(child.communicate(timeout=300)[0], child.returncode) for child in begun]
    if all(status == NOT_HERE for _, status in said):
        print("gate/try_faults.py: skipped: network namespaces can't be made here, so no faults of networks are tried")
        return []
    for text, _ in said:
        print(text.splitlines()[0] if text else "")
    return [f"{' '.join(given)}: {text}" for given, (text, status) in zip(RUNS, said, strict=True) if status]


def main() -> int:
    """Tries all of it."""
    words(__doc__, 0, 0)
    parts = (try_checks, try_folders, try_seeds, try_sides, try_lives, try_votes, try_runs)
    wrong = [line for part in parts for line in part()]
    for line in wrong:
        print(f"refused: {line}")
    print(f"gate/try_faults.py: {len(CHANGES)} changes, {len(parts) - 2} rules of runs, {len(RUNS)} runs, {len(wrong)} failed")
    return 1 if wrong else 0


if __name__ == "__main__":
    end(main)
