"""A replicated state machine at a member of a group."""

import asyncio
import atexit
import concurrent.futures
import contextlib
import ctypes
import os
import threading
from collections.abc import Callable, Iterable, Iterator
from dataclasses import dataclass
from types import TracebackType
from typing import Any, Generic, Protocol, Self, TypeVar

from ._away import wait_readable
from ._errors import EMPTY, OK, Ended, MuoswyldError, Timeout, check, error_of
from ._group import LOG, Group
from ._library import APPLY, LIBRARY, RESTORE, SNAPSHOT, CAnswer, CMachine, CServiceInfo
from ._types import Name, Position, names_of, position_of

# how many seconds the thread of a service sleeps at most; and while the member has no room for its messages
_SLEEP, _SHORT_SLEEP = 0.2, 0.005
# MUOSWYLD_ANSWERED_READY of the header
_READY = 1

_T = TypeVar("_T")


class Machine(Protocol):
    """What is replicated: a class of yours with these three. What they do depends on the state and on what they are given alone: they read no clock, draw
    no random numbers, and don't depend on the order of a set. They make no call on their service. If one raises something, the service ends."""

    def apply(self, at: Position, command: bytes, /) -> bytes:
        """Applies a command, and gives its answer. A command that it can't read changes nothing, and has an answer too."""

    def snapshot(self) -> Iterable[bytes]:
        """The state now, as records of at most 1 MiB, the same for equal states. Who joins is sent these, and members compare digests of them."""

    def restore(self, record: bytes, /) -> None:
        """Takes the next record of a snapshot. The machine is a new one before the first."""


_M = TypeVar("_M", bound=Machine)


@dataclass(frozen=True)
class ServiceInfo:
    """How a service stands."""

    is_ready: bool
    """Whether its machine has the state."""
    applied: Position | None
    """The position of the last delivery that it has applied."""
    holders: tuple[Name, ...]
    """The members that have the state, if this one has."""


class Service(Generic[_M]):
    """A replicated state machine at a member of a group: all machines of the group apply the same commands in the same order. A founder's begins as it is;
    who joins is sent the state of the others (docs/REPLICAS.md).

        with muoswyld.Group.start(config) as group, muoswyld.Service(group, Counter()) as counter:
            print(counter.call(b"5"))

    The service receives what the group delivers, in a thread of its own, so nothing else receives there. Calls may be made from any thread.
    """

    def __init__(self, group: Group, machine: _M) -> None:
        """A service at a member of which nothing was received yet. It raises Ended."""
        self._group, self._machine = group, machine
        self._lock = threading.RLock()
        self._is_inside = self._is_closing = False
        self._raised: BaseException | None = None
        self._error: MuoswyldError | None = None
        self._token = 0
        self._waits: dict[int, tuple[concurrent.futures.Future[Any], Callable[[bytes], Any]]] = {}
        self._ready: concurrent.futures.Future[None] = concurrent.futures.Future()
        self._calls = CMachine(None, APPLY(self._apply), SNAPSHOT(self._snapshot), RESTORE(self._restore))
        self._handle = ctypes.c_void_p()
        with group._used() as handle:
            check(LIBRARY.muoswyld_service_new(handle, ctypes.byref(self._calls), ctypes.byref(self._handle)))
        self._bell = os.eventfd(0, os.EFD_NONBLOCK | os.EFD_CLOEXEC)
        self._thread = threading.Thread(target=self._run, name="muoswyld service", daemon=True)
        self._thread.start()
        atexit.register(self.close)

    # ---- the machine's calls

    def _inside(self, call: Callable[[], None]) -> bool:
        """Makes a call of the machine, and keeps what it raises."""
        self._is_inside = True
        try:
            call()
            return True
        except BaseException as error:  # it must not go through the library
            self._raised = error
            return False
        finally:
            self._is_inside = False

    def _add(self, records: int, record: bytes) -> None:
        data = bytes(record)
        check(LIBRARY.muoswyld_records_add(records, data, len(data)))

    def _apply(self, _: int, at: Any, command: int, length: int, answer: int) -> bool:
        return self._inside(lambda: self._add(answer, self._machine.apply(position_of(at.contents), ctypes.string_at(command, length))))

    def _snapshot(self, _: int, records: int) -> bool:
        def call() -> None:
            """Adds them all."""
            for record in self._machine.snapshot():
                self._add(records, record)

        return self._inside(call)

    def _restore(self, _: int, record: int, length: int) -> bool:
        return self._inside(lambda: self._machine.restore(ctypes.string_at(record, length)))

    # ---- the thread

    def _run(self) -> None:
        """Applies what comes, until the member or the service ends."""
        try:
            with self._group._used() as group:
                descriptor = LIBRARY.muoswyld_group_descriptor(group)
                while (sleep := self._turn(group)) is not None:
                    wait_readable(sleep, descriptor, self._bell)
                    with contextlib.suppress(BlockingIOError):
                        os.eventfd_read(self._bell)
        except Ended:
            pass  # the group was closed before
        finally:
            with self._lock:
                self._end(Ended("the service is closed"))

    def _turn(self, group: ctypes.c_void_p) -> float | None:
        """Does what can be done now; for how many seconds there is nothing more, or None if it is over."""
        with self._lock:
            if self._is_closing or not self._step():
                return None
            self._group._log_notices(group)
            return _SHORT_SLEEP if self._status().unsent else _SLEEP

    def _step(self) -> bool:
        """Takes all answers that are there; whether the service goes on."""
        answer = CAnswer()
        while (status := LIBRARY.muoswyld_service_next(self._handle, 0, ctypes.byref(answer))) == OK:
            what, token = answer.what, answer.token
            given = ctypes.string_at(answer.bytes, answer.length) if answer.length else b""
            LIBRARY.muoswyld_answer_clear(ctypes.byref(answer))
            if what == _READY:
                self._ready.set_result(None)
                continue
            future, finish = self._waits.pop(token)
            if future.set_running_or_notify_cancel():
                try:
                    future.set_result(finish(given))
                except Exception as error:  # noqa: BLE001, it goes to who asked
                    future.set_exception(error)
        if status != EMPTY:
            self._end(self._error_of(status))
        return status == EMPTY

    def _error_of(self, status: int) -> MuoswyldError:
        """The exception of the status with which the service ended."""
        text = LIBRARY.muoswyld_service_end_text(self._handle)
        error = error_of(status, text.decode() if text else "")
        error.__cause__ = self._raised
        if self._raised is not None:
            LOG.error("%s: a call of the machine failed", self._group.name, exc_info=self._raised)
            self._raised = None
        return error

    def _end(self, error: MuoswyldError) -> None:
        """Tells all who wait that the service has ended."""
        if self._error is None:
            self._error = error
        waits, self._waits = self._waits, {}
        for future, _ in waits.values():
            if future.set_running_or_notify_cancel():
                future.set_exception(self._error)
        if not self._ready.done():
            self._ready.set_exception(self._error)

    def _status(self) -> CServiceInfo:
        info = CServiceInfo()
        check(LIBRARY.muoswyld_service_status(self._handle, ctypes.byref(info)))
        return info

    def _ask(self, ask: Callable[[int], int], finish: Callable[[bytes], _T]) -> concurrent.futures.Future[_T]:
        """Asks for something, by a call of the library that is given its token; what becomes of it, finished."""
        future: concurrent.futures.Future[_T] = concurrent.futures.Future()
        with self._open():
            self._token += 1
            self._waits[self._token] = (future, finish)
            status = ask(self._token)
            if status != OK:
                del self._waits[self._token]
                self._step()
                raise self._error or error_of(status)
            if self._step() and self._status().unsent:
                os.eventfd_write(self._bell, 1)
        return future

    @contextlib.contextmanager
    def _open(self) -> Iterator[None]:
        """The service, for one thread at a time, as long as it hasn't ended."""
        with self._lock:
            if self._is_inside:
                raise RuntimeError("a machine makes no call on its service")
            if self._error is not None:
                raise self._error
            yield

    # ---- commands and reads

    def submit(self, command: bytes) -> concurrent.futures.Future[bytes]:
        """Asks for a command of at most 1 MiB: the future has what this member's machine answers. If the member or the service ends before, it has Ended,
        ServiceEnded or MachineFailed, and nobody knows whether the command is applied. It raises TooLong, and those three."""
        data = bytes(command)
        return self._ask(lambda token: LIBRARY.muoswyld_service_submit(self._handle, token, data, len(data)), lambda given: given)

    def call(self, command: bytes, timeout: float | None = None) -> bytes:
        """As `submit`, and waits for the answer. It raises Timeout if it doesn't come in so many seconds: the command may be applied later."""
        return _result(self.submit(command), timeout)

    async def call_async(self, command: bytes) -> bytes:
        """As `call`, in an event loop."""
        return await asyncio.wrap_future(self.submit(command))

    def _read(self, function: Callable[[_M], _T]) -> concurrent.futures.Future[_T]:
        return self._ask(lambda token: LIBRARY.muoswyld_service_barrier(self._handle, token), lambda _: function(self._machine))

    def read(self, function: Callable[[_M], _T], timeout: float | None = None) -> _T:
        """What a function makes of the machine, which has applied all that anybody was answered before this call. The function must be short, and make no
        call on the service. It raises what `call` raises, and what the function raises."""
        return _result(self._read(function), timeout)

    async def read_async(self, function: Callable[[_M], _T]) -> _T:
        """As `read`, in an event loop."""
        return await asyncio.wrap_future(self._read(function))

    def read_local(self, function: Callable[[_M], _T]) -> _T:
        """What a function makes of this member's machine as it is now, which may be an earlier state. It waits until the machine has a state."""
        self.wait_ready()
        with self._open():
            return function(self._machine)

    def wait_ready(self, timeout: float | None = None) -> None:
        """Waits until the machine has the state. It raises Timeout, Ended, ServiceEnded or MachineFailed."""
        _result(self._ready, timeout)

    def info(self) -> ServiceInfo:
        """How the service stands."""
        with self._open():
            info = self._status()
            applied = position_of(info.applied) if info.applied.number else None
            return ServiceInfo(info.is_ready, applied, names_of(info.holders))

    # ---- the end

    def close(self) -> None:
        """Ends the service, and not its member: leave or close that, as nobody receives its deliveries now. Closing twice does nothing."""
        atexit.unregister(self.close)
        with self._lock:
            if self._is_inside:
                raise RuntimeError("a machine makes no call on its service")
            if self._is_closing:
                return
            self._is_closing = True
            os.eventfd_write(self._bell, 1)
        self._thread.join()
        LIBRARY.muoswyld_service_free(self._handle)
        os.close(self._bell)

    def __enter__(self) -> Self:
        return self

    def __exit__(self, kind: type[BaseException] | None, error: BaseException | None, trace: TracebackType | None) -> None:
        self.close()


def _result(future: concurrent.futures.Future[_T], timeout: float | None) -> _T:
    """What a future has, once it has it."""
    try:
        return future.result(timeout)
    except concurrent.futures.TimeoutError:
        if future.done():
            raise
        raise Timeout("it isn't answered in time") from None
