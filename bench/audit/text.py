"""Writes a text of 16 MiB to audit, of one kind.

    python3 bench/audit/text.py KIND

KIND is `events`, the shortest event lines, of which none counts; `logs`, the shortest log lines, the second of which faults; `list`, a
list of sends with the log of the one member, which agree; `takes`, the same with the sends, their answers and the takes.
"""

import sys
from collections.abc import Iterator

MOST = 16_777_216
VIEW = "view 1.0 0"


def events() -> Iterator[str]:
    number = 0
    while True:
        number += 1
        yield f"{number}  : \n"


def logs() -> Iterator[str]:
    while True:
        yield "log 0 1 join 0\n"


def cut(lines: Iterator[str], size: int) -> str:
    """As many lines as are within a size."""
    taken = []
    for line in lines:
        size -= len(line)
        if size < 0:
            break
        taken.append(line)
    return "".join(taken)


def whole(count: int, with_events: bool) -> str:
    """So many sends of the one member, all given to it."""
    entries = [VIEW] + [f"data 0 {req} -" for req in range(1, count + 1)]
    text, number = [], 0
    if with_events:
        for req in range(1, count + 1):
            text += [f"{number + 1} send 0 - : queued {req}\n", f"{number + 2} done 0 {req} : sent {req} {req + 1}\n"]
            number += 2
        for k, entry in enumerate(entries, 1):
            number += 1
            text.append(f"{number} take 0 : took {k} {entry}\n")
    text += [f"group {k} {entry}\n" for k, entry in enumerate(entries, 1)]
    text += [f"log 0 {k} {entry}\n" for k, entry in enumerate(entries, 1)]
    return "".join(text) + "lawful\n"


def largest(with_events: bool) -> str:
    """The same of about 16 MiB."""
    low, high = 1, 1_000_000
    while low < high:
        middle = (low + high + 1) // 2
        size = len(whole(1000, with_events)) // 1000 * middle
        low, high = (middle, high) if size * 1.25 < MOST else (low, middle - 1)
    while len(whole(low, with_events)) > MOST:
        low = low * 99 // 100
    return whole(low, with_events)


def main(kind: str) -> None:
    tail = f"group 1 {VIEW}\nlawful\n"
    if kind == "events":
        sys.stdout.write(cut(events(), MOST - len(tail)) + tail)
    elif kind == "logs":
        sys.stdout.write(f"group 1 {VIEW}\n" + cut(logs(), MOST - len(tail)) + "lawful\n")
    else:
        sys.stdout.write(largest(kind == "takes"))


if __name__ == "__main__":
    main(sys.argv[1])
