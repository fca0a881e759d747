#!/usr/bin/env python3
"""Writes a script that is large in each direction, or the checksum that its text must have.

    large.py [sum]

It has sixteen founders, bodies of 1,024 bytes, over 19,000 events and 2,000 packets, a window of 1,008 that fills, and a thousand entries
that are taken. A program that gives up at some number or size doesn't write its text.
"""

import json
import sys
from collections.abc import Iterator
from typing import Any

from words import words

# of the text that an unproved program of the same rules wrote
SUM = "89f67fb194b1012f9c53e9ae20781a932b073c6d32d4cc362eca46fa8f75f572"

SENDS = 1009


def body(request: int) -> str:
    """The digits of a full body, of its request's own."""
    return (f"{request:04x}" * 512)[:2048]


def events() -> Iterator[dict[str, Any]]:
    """The events: all is sent, heard and numbered, and the last node takes."""
    for request in range(1, SENDS + 1):
        yield {"do": "send", "node": 1, "body": body(request)}
        yield {"do": "hear", "node": 0, "packet": 2 * request - 1}
        yield {"do": "hear", "node": 1, "packet": 2 * request}
        yield {"do": "done", "node": 1, "req": request}
    for node in range(2, 16):
        for request in range(1, SENDS + 1):
            yield {"do": "hear", "node": node, "packet": 2 * request}
    for _ in range(1000):
        yield {"do": "take", "node": 15}


def script() -> dict[str, Any]:
    """The whole script."""
    return {"play": {"founders": list(range(16)), "window": 1008, "pb_up_to": 1024, "events": list(events())}}


if __name__ == "__main__":
    if words(__doc__, 0, 1) == ["sum"]:
        print(SUM)
    elif sys.argv[1:]:
        sys.exit((__doc__ or "").strip())
    else:
        json.dump(script(), sys.stdout, separators=(",", ":"))
