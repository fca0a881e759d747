"""Writes a busy script: a group in which all but the sequencer send in turn, and everybody hears and takes each entry.

Usage: script.py EVENTS [MEMBERS [BYTES]]
"""

import json
import sys

Event = dict[str, object]


def turn_of(turn: int, members: int, size: int) -> list[Event]:
    """The events of one turn: a send, the sequencer hears it and tells all, each hears and takes it, the sender asks for it."""
    sender = 1 + turn % (members - 1)
    letter = 2 * turn
    return [
        {"do": "send", "node": sender, "body": f"{turn:08x}".rjust(2 * size, "5")},
        {"do": "hear", "node": 0, "packet": letter + 1},
        *({"do": "hear", "node": node, "packet": letter + 2} for node in range(1, members)),
        *({"do": "take", "node": node} for node in range(members)),
        {"do": "done", "node": sender, "req": 1 + turn // (members - 1)},
    ]


def script(count: int, members: int = 4, size: int = 4) -> str:
    """A busy script of so many events, of so many members, with bodies of so many bytes."""
    events: list[Event] = []
    while len(events) < count:
        events += turn_of(len(events) // (2 * members + 2), members, size)
    play = {"founders": list(range(members)), "pb_up_to": 1024, "events": events[:count]}
    return json.dumps({"play": play}, separators=(",", ":"))


if __name__ == "__main__":
    sys.stdout.write(script(*map(int, sys.argv[1:4])))
