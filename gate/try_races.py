"""Tries races: a race writes the text of what was done in it.

    try_races.py PROGRAM FOLDER [TIMES]

Each race of FOLDER is run TIMES times (3). `PROGRAM race < NAME.json` must end with status 0 and write nothing on standard error. Its first
line must be a script, and `PROGRAM play` of that line must write exactly the other lines. If there is a NAME.txt, which only a race of one
thread can have, the whole text must be that. As often it runs a race in which one thread takes what another one sends at the same place. That
thread must be given everything, and rest in between, so that its node hardly ever ticks, at least in one of the runs. (No clause says when a
caller does what it does, and if the processors are busy, it may tick.) It prints what fails, and how many runs passed.
"""

import functools
import json
import pathlib
import re
import sys

from running import run
from words import words

# so many seconds may a race or a play take
MOST_SECONDS = 110

# so many sends has the race of a thread that waits for another, and so many ticks at most: it made none to 4, with eight tasks for each
# processor, and where it didn't rest 23 to 817
SENDS, MOST_TICKS = 300, 10


class Wrong(Exception):
    """What a race or a play shouldn't have done."""


def written(program: str, word: str, data: bytes) -> bytes:
    """What a program writes for a script, where all was done and nothing said."""
    ran = run([program, word], data, MOST_SECONDS)
    if (ran.returncode, ran.stderr) != (0, b""):
        raise Wrong(f"{program} {word} ends with status {ran.returncode}, {ran.stderr!r}")
    return ran.stdout


def raced(program: str, data: bytes, players: list[str]) -> tuple[bytes, str]:
    """What is written of a race, and the text of its run, which all players must write of its first line."""
    whole = written(program, "race", data)
    line, _, text = whole.partition(b"\n")
    for player in players:
        if written(player, "play", line) != text:
            raise Wrong(f"{player} play of its first line doesn't write the other lines: {line.decode()}")
    return whole, text.decode()


def try_file(program: str, race: pathlib.Path) -> None:
    """Tries a race of a file."""
    wanted = race.with_suffix(".txt")
    whole, _ = raced(program, race.read_bytes(), [program])
    if wanted.exists() and wanted.read_bytes() != whole:
        raise Wrong(f"its text isn't {wanted}")


def ticks_waiting(program: str) -> int:
    """How often the node ticks in a race in which one thread waits for what another one sends."""
    calls = [{"do": "take"}] * (SENDS + 1), [{"do": "send", "body": "61"}] * SENDS
    race = {"founders": [0], "seed": 1, "turns": 100, "threads": [{"node": 0, "calls": some} for some in calls]}
    _, text = raced(program, json.dumps({"race": race}).encode(), [program])
    took, ticks = (len(re.findall(f"^[0-9]+ {word}", text, re.M)) for word in ("take 0 : took ", "tick 0 : "))
    if took != SENDS + 1:
        raise Wrong(f"{took} of {SENDS + 1} entries were taken")
    return ticks


def try_waiting(program: str, times: int) -> None:
    """Tries that race so many times."""
    least = min(ticks_waiting(program) for _ in range(times))
    if least > MOST_TICKS:
        raise Wrong(f"its node ticks {least} times or more, where {MOST_TICKS} are the most: it doesn't rest")


def main(program: str, folder: str, times: str = "3") -> int:
    """Tries all races of the folder, and one of a thread that waits."""
    passed, failed = 0, 0
    races = sorted(pathlib.Path(folder).glob("*.json"))
    tries = [(str(race), functools.partial(try_file, program, race)) for race in races for _ in range(int(times))]
    for what, attempt in [*tries, ("a thread that waits for another", functools.partial(try_waiting, program, int(times)))]:
        try:
            attempt()
            passed += 1
        except Wrong as wrong:
            print(f"{what}: {wrong}")
            failed += 1
    print(f"{len(races)} races and one of a thread that waits, {passed} passed, {failed} failed")
    return 1 if failed or not races else 0


if __name__ == "__main__":
    sys.exit(main(*words(__doc__, 2, 3)))
