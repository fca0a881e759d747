"""Calls that wait in the library, made in threads of their own, so that who waits for them can be interrupted or cancelled."""

import asyncio
import contextlib
import select
import threading
from collections.abc import Callable
from typing import Generic, TypeVar

# who waits in a thread looks so often, in seconds, whether it is interrupted
SLICE = 0.2

_T = TypeVar("_T")


def wait_readable(seconds: float, *descriptors: int) -> None:
    """Waits until one of some descriptors can be read, at most so long."""
    poll = select.poll()  # takes descriptors above 1,023, too
    for descriptor in descriptors:
        poll.register(descriptor, select.POLLIN)
    poll.poll(seconds * 1000)


class _Away(Generic[_T]):
    """A call in a thread of its own. What it gives after nobody wants it any more is dropped."""

    def __init__(self, call: Callable[[], _T], drop: Callable[[_T], object], tell: Callable[[], object]) -> None:
        self._call, self._drop, self._tell = call, drop, tell
        self._lock, self._is_done, self._is_wanted = threading.Lock(), False, True
        self._given: list[_T] = []
        self._raised: Exception | None = None
        threading.Thread(target=self._run, name="muoswyld", daemon=True).start()

    def _run(self) -> None:
        try:
            self._given.append(self._call())
        except Exception as error:  # noqa: BLE001, it is raised by who waits
            self._raised = error
        with self._lock:
            self._is_done = True
            if not self._is_wanted:
                self._drop_all()
        self._tell()

    def _drop_all(self) -> None:
        while self._given:
            self._drop(self._given.pop())

    def abandon(self) -> None:
        """Says that nobody waits any more."""
        with self._lock:
            self._is_wanted = False
            if self._is_done:
                self._drop_all()

    def result(self) -> _T:
        """What it gave or raised, once it has told."""
        if self._raised is not None:
            raise self._raised
        return self._given[0]


def wait_for(call: Callable[[], _T], drop: Callable[[_T], object] = lambda _: None) -> _T:
    """What a call gives. Ctrl-C comes through: then what it gives later is dropped."""
    done = threading.Event()
    away = _Away(call, drop, done.set)
    try:
        while not done.wait(SLICE):
            pass
    except BaseException:
        away.abandon()
        raise
    return away.result()


async def wait_in_loop(call: Callable[[], _T], drop: Callable[[_T], object] = lambda _: None) -> _T:
    """The same in an event loop, for a coroutine that may be cancelled."""
    loop = asyncio.get_running_loop()
    done: asyncio.Future[None] = loop.create_future()

    def wake() -> None:
        """Wakes who waits."""
        if not done.done():
            done.set_result(None)

    def tell() -> None:
        """Wakes who waits, from another thread."""
        with contextlib.suppress(RuntimeError):  # in a loop that is closed nobody waits
            loop.call_soon_threadsafe(wake)

    away = _Away(call, drop, tell)
    try:
        await done
    except BaseException:
        away.abandon()
        raise
    return away.result()
