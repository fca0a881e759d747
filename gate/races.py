#!/usr/bin/env python3
"""Tries random races.

    races.py PROGRAM [--other OTHER] [--seed N] [--races N]

Each race must end with status 0. Its first line must be a script, and `PROGRAM play` of that line must write the other lines, as must
`OTHER play` if there is one. Its last line must be `lawful`, or `void from` an event after at least one stop. The races are made from the
seed (1); there are a hundred by default. It prints each race that fails, and last how many events were done, with which outcomes. The races
are the same on each machine, but their runs differ.
"""

import argparse
import collections
import json
import random
import re
import sys
from typing import Any

from try_races import Wrong, raced

# a race has at most so many records, so that many races take little time
MOST_RECORDS = 20000

CALLS = ["send"] * 5 + ["take"] * 4 + ["join", "leave", "reset", "stop"]


def call_of(drawn: random.Random, calm: bool) -> dict[str, Any]:
    """A call; in a calm race nobody leaves, resets or stops."""
    do = drawn.choice(CALLS[:-3] if calm else CALLS)
    if do == "send":
        size = drawn.choice([0, 1, 2, drawn.randint(0, 300), 1024])
        return {"do": do, "body": drawn.randbytes(size).hex()}
    if do == "reset":
        raised = {"resilience": drawn.randint(0, 3)} if drawn.random() < 0.3 else {}
        return {"do": do, "least": drawn.randint(1, 3), **raised}
    return {"do": do}


def race_of(drawn: random.Random) -> dict[str, Any]:
    """A race: mostly few places, and more than one thread at some of them."""
    founders = drawn.sample(range(16), drawn.choice([1, 2, 2, 3, 3, 4, 6, 16]))
    places = founders + drawn.sample(range(16), drawn.randint(0, 2))
    calm = drawn.random() < 0.4
    threads: list[dict[str, Any]] = [
        {"node": drawn.choice(places), "calls": [call_of(drawn, calm) for _ in range(drawn.randint(0, 12))]}
        for _ in range(drawn.randint(1, drawn.choice([2, 4, 8, 16])))
    ]
    count = sum(len(thread["calls"]) for thread in threads)
    turns = drawn.choice([1, 5, 50, 200, 1000])
    race: dict[str, Any] = {"founders": founders, "seed": drawn.getrandbits(64), "turns": max(1, min(turns, MOST_RECORDS // max(count, 1) - 2))}
    for key, some in [
        ("resilience", drawn.randint(0, 3)), ("window", drawn.choice([1, 2, 8, 64, 1008])), ("pb_up_to", drawn.choice([0, 16, 1024])),
        ("loss", drawn.randint(0, 50)), ("repeat", drawn.randint(0, 40)),
    ]:
        if drawn.random() < 0.6:
            race[key] = some
    return {"race": {**race, "threads": threads}}


def told(text: str) -> list[str]:
    """The outcomes of a text's events; its mark must be a true one."""
    *lines, mark = text.splitlines()
    events = [line for line in lines if re.match(r"[0-9]+ [a-z]+ ", line)]
    broken = re.fullmatch(r"void from ([0-9]+)", mark)
    if broken and not any(line.split()[1] == "stop" for line in events[:int(broken[1])]):
        raise Wrong(f"{mark}, and nobody had stopped")
    if not broken and mark != "lawful":
        raise Wrong(f"it has no mark, but {mark}")
    return [line.split(" : ")[1].split()[0] for line in events] + ["(lawful)" if not broken else "(void)"]


def main() -> int:
    """Runs the races."""
    words = argparse.ArgumentParser(description=__doc__, formatter_class=argparse.RawDescriptionHelpFormatter)
    words.add_argument("program", help="the command whose words race and play are run")
    words.add_argument("--other", help="a further command whose word play is run")
    words.add_argument("--seed", type=int, default=1, help="of the races")
    words.add_argument("--races", type=int, default=100, help="how many")
    asked = words.parse_args()
    drawn, failed = random.Random(asked.seed), 0
    outcomes: collections.Counter[str] = collections.Counter()
    players = [asked.program, *([asked.other] if asked.other else [])]
    for number in range(1, asked.races + 1):
        race = json.dumps(race_of(drawn))
        try:
            _, text = raced(asked.program, race.encode(), players)
            outcomes.update(told(text))
        except Wrong as wrong:
            print(f"race {number}: {wrong}\n  {race}")
            failed += 1
    events = sum(count for word, count in outcomes.items() if not word.startswith("("))
    print(f"{asked.races} races, {failed} failed, {events} events:", ", ".join(f"{word} {count}" for word, count in outcomes.most_common()))
    return 1 if failed else 0


if __name__ == "__main__":
    sys.exit(main())
