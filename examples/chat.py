#!/usr/bin/env python3
"""A chat: everybody in it sees the same lines in the same order, and who comes and goes.

    examples/chat.py --name 0 --founders 0,1 --address 0=127.0.0.1:7000 --address 1=127.0.0.1:7001 --insecure

Each line of standard input is said to all. `leave`, Ctrl-C and the end of the input leave the chat. `stopped NAME` says that a process has certainly
ended. A member that joins sees what is said from then on. The chat needs the package muoswyld (docs/PYTHON.md).
"""

import argparse
import asyncio
import itertools
import logging
import signal
import sys
import threading
from collections.abc import AsyncIterator, Callable, Coroutine
from typing import Any

import muoswyld


def shown(message: bytes) -> str:
    """A message in one line: what can't be shown is replaced."""
    return "".join(letter if letter.isprintable() else "\ufffd" for letter in message.decode(errors="replace"))


def line_of(delivery: muoswyld.Delivery) -> str:
    """What is to be seen of a delivery."""
    match delivery:
        case muoswyld.Message(_, sender, message):
            return f"<{sender}> {shown(message)}"
        case muoswyld.View(_, members):
            return f"* here are {','.join(map(str, members))}"
        case muoswyld.Joined(_, name) | muoswyld.Left(_, name):
            return f"* {name} {'joins' if isinstance(delivery, muoswyld.Joined) else 'leaves'}"
        case muoswyld.Succeeded():
            return "* the list ended, and another one follows it"


async def typed() -> AsyncIterator[bytes]:
    """The lines of standard input as they come, and `leave` at its end and at Ctrl-C."""
    loop, came = asyncio.get_running_loop(), asyncio.Queue[bytes]()

    def read() -> None:
        for line in itertools.chain(open(0, "rb", closefd=False), (b"leave",)):
            loop.call_soon_threadsafe(came.put_nowait, line.removesuffix(b"\n"))

    loop.add_signal_handler(signal.SIGINT, came.put_nowait, b"leave")
    threading.Thread(target=read, daemon=True).start()
    while True:
        yield await came.get()


async def told(call: Coroutine[Any, Any, object]) -> None:
    """Waits for a call, and says if it comes to nothing."""
    try:
        await call
    except muoswyld.MuoswyldError as error:
        logging.error(error)


async def chat(group: muoswyld.Group) -> None:
    """Says what is typed, and doesn't wait for it, so that `stopped` comes through; and prints what is said, until the member has ended."""

    async def say() -> None:
        async for line in typed():
            match line.split(b" "):
                case [b"leave"]:
                    tasks.create_task(told(group.leave_async()))
                case [b"stopped", name]:
                    tasks.create_task(told(asyncio.to_thread(group.stopped, name.decode(errors="replace"))))
                case _:
                    tasks.create_task(told(group.send_async(line)))

    async with asyncio.TaskGroup() as tasks:
        saying = tasks.create_task(say())
        async for delivery in group:
            print(line_of(delivery), flush=True)
        saying.cancel()


async def application(page: str | None, run: Callable[[muoswyld.Group], Coroutine[Any, Any, None]]) -> int:
    """Runs an application of the member that the words of the command name; its status."""
    parser, status = argparse.ArgumentParser(description=page, formatter_class=argparse.RawDescriptionHelpFormatter), 0
    muoswyld.add_options(parser)
    logging.basicConfig(format=f"{parser.prog}: %(message)s")  # what the member has for an operator, too
    try:
        async with await muoswyld.Group.start_async(muoswyld.config_of(parser.parse_args())) as group:
            print(f"* {group.name} is in the group", flush=True)
            await run(group)
        print(f"* {group.end_text}", flush=True)
    except* (muoswyld.MuoswyldError, OSError) as errors:
        logging.error(errors.exceptions[0])
        status = 1
    return status


if __name__ == "__main__":
    sys.exit(asyncio.run(application(__doc__, chat)))
