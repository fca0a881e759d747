#!/usr/bin/env python3
"""Runs many clusters on this machine (net/cluster.py): 3 to 7 members, losses up to 20 of a hundred, kills one after the other and at
once, up to what the resilience allows and beyond, and members that are frozen for a while.

    gate/clusters.py PROGRAM [FIRST LAST]

PROGRAM is the command whose word `play` judges. Each seed from FIRST to LAST, 1 to 100, is a cluster of some seconds. It prints a line for
each, and last how many passed.
"""

import pathlib
import subprocess
import sys

from words import end, words

CLUSTER = pathlib.Path(__file__).resolve().parent.parent / "net" / "cluster.py"


def options_of(seed: int) -> list[str]:
    """The words of a seed's cluster."""
    nodes = 3 + seed % 5
    resilience = seed % 3
    kills = seed // 3 % (nodes + 1)
    more = ["--at-once"] if seed % 4 == 0 else []
    given = {"nodes": nodes, "seconds": 5, "rate": 40, "loss": seed * 7 % 21, "repeat": seed % 5, "delay": seed % 12}
    given |= {"kill": kills, "resilience": resilience, "seed": seed, "reorder": seed % 7, "freeze": seed // 2 % 3}
    return [word for name, value in given.items() for word in (f"--{name}", str(value))] + more


def main() -> int:
    """Runs the clusters."""
    program, *ends = words(__doc__, 1, 3)
    if len(ends) == 1 or not all(end.isdecimal() for end in ends):
        print(__doc__.strip(), file=sys.stderr)
        return 2
    first, last = map(int, ends or (1, 100))
    passed = 0
    for seed in range(first, last + 1):
        command = [sys.executable, str(CLUSTER), *options_of(seed), "--program", program]
        ran = subprocess.run(["timeout", "120", *command], capture_output=True, text=True, check=False)
        told = ran.stdout.splitlines()
        passed += ran.returncode == 0
        print(seed, " ".join(options_of(seed)), "|", " | ".join(told[-2:]) if ran.returncode == 0 else ran.stdout + ran.stderr, flush=True)
    print(f"{passed} clusters passed, {last + 1 - first - passed} failed")
    return 0 if passed == last + 1 - first else 1


if __name__ == "__main__":
    end(main)
