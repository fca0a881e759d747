#!/usr/bin/env python3
"""Writes the script in which place 1 sends a file as a message, part by part, and both members take all of it.

    tools/message.py FILE > SCRIPT
    ./muoswyld messages < SCRIPT

FILE has at most 65,535 bytes. Parts are cut as docs/MESSAGES.md says, and each is sent after the one before was answered.
"""

import json
import sys

from words import end, words

MOST_MESSAGE = 65_535
PAYLOAD = 1_019


def parts(message: bytes) -> list[bytes]:
    """The parts of a message: 83, the index and the count in two bytes each, and the part's share."""
    count = max(1, -(-len(message) // PAYLOAD))
    return [bytes([83, *index.to_bytes(2), *count.to_bytes(2)]) + message[PAYLOAD * index :][:PAYLOAD] for index in range(count)]


def script(message: bytes) -> dict:
    """The run of two founders: place 1 sends the parts, and both take them, after the founders' View."""
    events: list[dict] = []
    bodies = parts(message)
    for index, body in enumerate(bodies):
        events.append({"do": "send", "node": 1, "body": body.hex()})
        events.append({"do": "hear", "node": 0, "packet": 2 * index + 1})
        events.append({"do": "hear", "node": 1, "packet": 2 * index + 2})
        events.append({"do": "done", "node": 1, "req": index + 1})
    events.append({"do": "tick", "node": 1})
    events.append({"do": "hear", "node": 0, "packet": 2 * len(bodies) + 1})
    events += [{"do": "take", "node": node} for node in (0, 1) for _ in range(len(bodies) + 1)]
    return {"play": {"founders": [0, 1], "window": 1008, "pb_up_to": 1024, "events": events}}


def main() -> int:
    """Writes the script of the file that is named."""
    (file,) = words(__doc__, 1, 1)
    with open(file, "rb") as source:
        message = source.read(MOST_MESSAGE + 1)
    if len(message) > MOST_MESSAGE:
        sys.exit(f"{file} has more than {MOST_MESSAGE} bytes, which are the most that a message has")
    print(json.dumps(script(message)))
    return 0


if __name__ == "__main__":
    end(main)
