#!/usr/bin/env python3
"""A dictionary that each member of a group keeps: all do the same commands in the same order, so all have the same contents.

    examples/dictionary.py --name 0 --founders 0,1 --address 0=127.0.0.1:7000 --address 1=127.0.0.1:7001 --insecure

The lines of standard input are `put KEY VALUE`, `delete KEY`, `get KEY` (of the contents that this member has so far), `keys`, `leave` and
`stopped NAME`. At the end of the input, and at Ctrl-C, the member leaves. A member that joins is sent the contents (examples/contents.py). The dictionary
needs the package muoswyld (docs/PYTHON.md).
"""

import asyncio
import contextlib
import logging
import sys

from chat import application, shown, told, typed
from contents import MOST_PAIR, Dictionary, is_pair, message_of

import muoswyld

# seconds between two ticks
TICK_SECONDS = 0.1


def do(line: str, dictionary: Dictionary, group: muoswyld.Group, tasks: asyncio.TaskGroup) -> None:
    """Does a line of standard input."""
    match line.split(" ", 2):
        case ["put", key, value] if is_pair(key, value):
            dictionary.send(message_of("put", key, value))
        case ["delete", key] if is_pair(key, ""):
            dictionary.send(message_of("delete", key))
        case ["put", _, _] | ["delete", _]:
            logging.error(f"not sent: a key and its value are UTF-8, and at most {MOST_PAIR} bytes as JSON")
        case ["get", key]:
            print(shown(dictionary.get(key).encode(errors="surrogateescape")), flush=True)
        case ["keys"]:
            print(shown(dictionary.keys().encode()), flush=True)
        case ["leave"]:
            tasks.create_task(told(group.leave_async()))
        case ["stopped", name]:
            tasks.create_task(told(asyncio.to_thread(group.stopped, name)))
        case _:
            logging.error("a line is put KEY VALUE, delete KEY, get KEY, keys, leave or stopped NAME")


async def keep(group: muoswyld.Group) -> None:
    """Keeps the dictionary of a member, until that has ended."""

    def others() -> list[str]:
        """The other members that aren't known to have stopped."""
        with contextlib.suppress(muoswyld.Ended):
            info = group.info()
            return [str(name) for name in info.members if name not in (info.name, *info.stopped)]
        return []

    async def lines() -> None:
        """Does what is typed."""
        async for line in typed():
            do(line.decode(errors="surrogateescape"), dictionary, group, tasks)

    async def ticks() -> None:
        """Tells the dictionary that time passes."""
        while True:
            dictionary.tick()
            await asyncio.sleep(TICK_SECONDS)

    async with asyncio.TaskGroup() as tasks:
        dictionary = Dictionary(str(group.name), lambda message: tasks.create_task(told(group.send_async(message))), others)
        beside = [tasks.create_task(lines()), tasks.create_task(ticks())]
        async for delivery in group:
            dictionary.take(delivery)
        for task in beside:
            task.cancel()


if __name__ == "__main__":
    sys.exit(asyncio.run(application(__doc__, keep)))
