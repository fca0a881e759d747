"""How coroutines wait for a group: by its descriptor, in their event loop."""

import asyncio
import contextlib
from typing import TYPE_CHECKING

from ._errors import Full
from ._types import Delivery, Position

if TYPE_CHECKING:
    from ._group import Group, Ticket

# seconds after which a message is looked at again, also if nothing was delivered; and if too much is held or waits
_AGAIN, _CROWDED = 0.05, 0.005


class Waiting:
    """Those who wait for a group in one event loop."""

    def __init__(self, group: "Group", loop: asyncio.AbstractEventLoop) -> None:
        self.loop = loop
        self._group = group
        self._waiters: set[asyncio.Future[None]] = set()
        self._read: int | None = None
        self._order = asyncio.Lock()

    def tell(self) -> None:
        """Wakes all who wait. It may be called in any thread."""
        with contextlib.suppress(RuntimeError):  # a loop that is closed has nobody who waits
            if asyncio._get_running_loop() is self.loop:
                self._wake()
            else:
                self.loop.call_soon_threadsafe(self._wake)

    def _wake(self) -> None:
        if self._read is not None:
            self.loop.remove_reader(self._read)
            self._read = None
        for waiter in self._waiters:
            if not waiter.done():
                waiter.set_result(None)
        self._waiters.clear()

    async def _rung(self, seconds: float | None = None) -> None:
        """Waits until the descriptor can be read, or so many seconds."""
        waiter = self.loop.create_future()
        self._waiters.add(waiter)
        if self._read is None:
            self._read = self._group.fileno()
            self.loop.add_reader(self._read, self._wake)
        try:
            await asyncio.wait([waiter], timeout=seconds)
        finally:
            self._waiters.discard(waiter)
            waiter.cancel()

    async def receive(self) -> Delivery:
        """The next delivery, once there is one; it raises Ended."""
        while True:
            delivery = self._group._take()
            if delivery is not None:
                return delivery
            await self._rung()

    async def submit(self, message: bytes) -> "Ticket":
        """Gives a message to the group, once there is room for it: first who came first."""
        async with self._order:
            while True:
                try:
                    return self._group.submit(message, 0)
                except Full:
                    await asyncio.sleep(_CROWDED)

    async def settled(self, ticket: "Ticket") -> Position:
        """Where a message stands, once it is delivered. It holds the deliveries that come meanwhile, as the descriptor would stay loud else."""
        while True:
            is_quiet = self._group._hold()
            at = ticket.look()
            if at is not None:
                return at
            await (self._rung(_AGAIN) if is_quiet else asyncio.sleep(_CROWDED))
