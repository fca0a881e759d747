"""The seven calls of a group."""

import asyncio
import contextlib
import ctypes
import logging
import threading
import time
import warnings
from collections import deque
from collections.abc import AsyncIterator, Callable, Iterable, Iterator
from types import TracebackType
from typing import Self, TypeVar

from ._away import SLICE, wait_for, wait_in_loop, wait_readable
from ._config import Config, milliseconds, opened, said_of
from ._errors import EMPTY, ENDED, FULL, OK, TIMEOUT, Ended, Timeout, check, error_of
from ._library import LIBRARY, CDelivery, CInfo, CName, CNext, CPosition
from ._types import Delivery, End, Info, Name, Position, delivery_of, info_of, position_of
from ._waiting import Waiting

# how many deliveries are held for those who wait, before the group is held back
_MOST_HELD = 4096

LOG = logging.getLogger("muoswyld")
LOG.addHandler(logging.NullHandler())
_T = TypeVar("_T")


class Ticket:
    """A message on its way. Dropping it takes nothing back."""

    def __init__(self, handle: ctypes.c_void_p) -> None:
        self._handle = handle

    def look(self) -> Position | None:
        """Where the message stands, once it is delivered at its own member; None until then. It raises NotSent, MaybeSent or Leaving if it
        won't be, or may not be."""
        return self._wait(0)

    def wait(self, timeout: float | None = None) -> Position:
        """Waits until the message is delivered at its own member, at most so many seconds, and gives where it stands. It raises Timeout, NotSent,
        MaybeSent or Leaving."""
        return _until(timeout, self._wait)

    def _wait(self, seconds: float) -> Position | None:
        at = CPosition()
        status = LIBRARY.muoswyld_ticket_wait(self._handle, milliseconds(seconds), ctypes.byref(at))
        if status == TIMEOUT:
            return None
        check(status)
        return position_of(at)

    def __del__(self) -> None:
        LIBRARY.muoswyld_ticket_free(self._handle)


def _next_of(resilience: int | None, window: int | None, pb_up_to: int | None, voters: Iterable[Name | str | int]) -> CNext:
    """What the next list has otherwise, as the library has it. A number below 0, or above all that may be, is out of its range there."""
    numbers = [-1 if number is None else 65_536 if number < 0 else min(number, 65_536) for number in (resilience, window, pb_up_to)]
    asked = CNext(*numbers)
    for name in map(Name.of, voters):
        asked.voters.lives[name.place] = name.life
    return asked


def _until(timeout: float | None, attempt: Callable[[float], _T | None]) -> _T:
    """What an attempt of some seconds gives, once it gives something; Timeout if the time passes."""
    ends = None if timeout is None else time.monotonic() + timeout
    while True:
        left = SLICE if ends is None else ends - time.monotonic()
        found = attempt(max(0.0, min(left, SLICE)))
        if found is not None:
            return found
        if left <= 0:
            raise Timeout("the time passed")


# the handle of a member, and its name
_Started = tuple[ctypes.c_void_p, Name]


def _started(config: Config, call: Callable[..., int]) -> _Started:
    """A member, once it is in its group."""
    group = ctypes.c_void_p()
    with opened(config) as handle:
        status = call(handle, ctypes.byref(group))
        check(status, said_of(handle) if status else "")
    if not config.next_life:
        return group, Name.of(config.name)
    info = CInfo()
    if status := LIBRARY.muoswyld_group_info(group, ctypes.byref(info)):
        LIBRARY.muoswyld_group_free(group)
        check(status)
    return group, info_of(info).name


def _free(started: _Started) -> None:
    """Stops a member that nobody wants."""
    LIBRARY.muoswyld_group_free(started[0])


class Group:
    """A member of a group. All members are given the same deliveries in the same order.

    `with Group.create(config) as group:` leaves the group at the end of the block, or stops without leaving if the block raised something.
    Calls may be made from any thread.
    """

    def __init__(self, handle: ctypes.c_void_p, name: Name) -> None:
        """`create` and `join` make groups."""
        self._handle: ctypes.c_void_p | None = handle
        self._name = name
        self._calls = threading.Condition()
        self._in_use = 0
        self._end: End | None = None
        self._end_text: str | None = None
        self._held: deque[Delivery] = deque()
        self._waiting: Waiting | None = None

    @classmethod
    def create(cls, config: Config) -> Self:
        """Creates a group, or takes part in creating it: the member's name is one of the founders. It returns once the member is in the group.
        It raises NoFounder, NoAddress, NoKey, BadName, BadAddress, BadValue, SystemRefused, Timeout or Ended."""
        return cls(*wait_for(lambda: _started(config, LIBRARY.muoswyld_group_create), _free))

    @classmethod
    def join(cls, config: Config) -> Self:
        """Joins a group: the member's name is none of the founders, or a later life of a founder's place. It is given what comes from its own
        join on. It raises IsFounder, and what `create` raises."""
        return cls(*wait_for(lambda: _started(config, LIBRARY.muoswyld_group_join), _free))

    @classmethod
    def start(cls, config: Config) -> Self:
        """Creates a group or joins one, as the name says: a founder's first life creates, any other name joins. With `next_life` it is the place's next life,
        which `name` says. It raises BadState, and what `create` and `join` raise."""
        return cls(*wait_for(lambda: _started(config, LIBRARY.muoswyld_group_start), _free))

    @staticmethod
    def found(config: Config) -> None:
        """Makes the folder of state of a name that runs for the first time: once for each place, when the group is founded, with the config with which it will
        run. It raises BadState if the folder has a state already or can't be made, BadValue, and what else `create` raises for a config."""
        with opened(config) as handle:
            status = LIBRARY.muoswyld_group_found(handle)
            check(status, said_of(handle) if status else "")

    @contextlib.contextmanager
    def _used(self) -> Iterator[ctypes.c_void_p]:
        """The handle, which isn't freed as long as the block lasts."""
        with self._calls:
            if self._handle is None:
                raise Ended("the group is closed")
            self._in_use += 1
            handle = self._handle
        try:
            yield handle
        finally:
            with self._calls:
                self._in_use -= 1
                self._calls.notify_all()

    def _check(self, handle: ctypes.c_void_p, status: int) -> None:
        """Raises what a status says, with how the member ended if it has."""
        if status == OK:
            return
        text = LIBRARY.muoswyld_status_text(status).decode()
        end = LIBRARY.muoswyld_group_end_text(handle)
        raise error_of(status, f"{text}: {end.decode()}" if end else text)

    @property
    def name(self) -> Name:
        """The member's name in the list in which it began. `info` has its name in the latest one."""
        return self._name

    def fileno(self) -> int:
        """A descriptor for select, poll and the loops over them, which can be read while something is to be received. Then call `receive(0)` until it
        raises Timeout."""
        with self._used() as handle:
            return LIBRARY.muoswyld_group_descriptor(handle)

    # ---- messages

    def send(self, message: bytes, timeout: float | None = None) -> Position:
        """Sends a message of at most 65,535 bytes, and returns once it is delivered at this member too: where it stands in the one order. From then on
        it survives as many stops as the resilience says. It raises Full if there was no room for it in so many seconds, Timeout if it was taken and
        isn't delivered in time, and TooLong, Leaving, NotSent or MaybeSent."""
        ends = None if timeout is None else time.monotonic() + timeout
        ticket = self.submit(message, timeout)
        return ticket.wait(None if ends is None else max(0.0, ends - time.monotonic()))

    def submit(self, message: bytes, timeout: float | None = None) -> Ticket:
        """Gives a message to the group, and doesn't wait for its delivery: the ticket tells of it. It waits, at most so many seconds, while too many
        messages wait. It raises Full, TooLong, Leaving or NotSent."""
        data = bytes(message)

        def attempt(seconds: float) -> Ticket | None:
            """Gives it, if there is room in so many seconds."""
            with self._used() as handle:
                ticket = ctypes.c_void_p()
                status = LIBRARY.muoswyld_group_submit(handle, data, len(data), milliseconds(seconds), ctypes.byref(ticket))
                if status != FULL:
                    self._check(handle, status)
                    return Ticket(ticket)
                return None

        try:
            return _until(timeout, attempt)
        except Timeout:
            raise error_of(FULL) from None

    # ---- deliveries

    def _next(self) -> Delivery | None:
        """The next delivery that the library has, if there is one now; it raises Ended."""
        with self._used() as handle:
            delivery = CDelivery()
            status = LIBRARY.muoswyld_group_receive(handle, 0, ctypes.byref(delivery))
            if status in (EMPTY, ENDED):
                self._log_notices(handle)
            if status == EMPTY:
                return None
            self._check(handle, status)
            try:
                return delivery_of(delivery, ctypes.string_at(delivery.message, delivery.length) if delivery.length else b"")
            finally:
                LIBRARY.muoswyld_delivery_clear(ctypes.byref(delivery))

    def _log_notices(self, handle: ctypes.c_void_p) -> None:
        """Logs what the member has for an operator."""
        text = ctypes.create_string_buffer(1024)
        while LIBRARY.muoswyld_group_notice(handle, text, len(text)) == OK:
            LOG.warning("%s: %s", self._name, text.value.decode())

    def _hold(self) -> bool:
        """Takes what the library has, and tells those who wait for deliveries; whether it has nothing more, so that the descriptor is quiet."""
        is_new = False
        try:
            while len(self._held) < _MOST_HELD:
                delivery = self._next()
                if delivery is None:
                    return True
                self._held.append(delivery)
                is_new = True
            return False
        except Ended:
            return False
        finally:
            if is_new and self._waiting is not None:
                self._waiting.tell()

    def _take(self) -> Delivery | None:
        """The next delivery, if there is one now; it raises Ended."""
        try:
            return self._held.popleft()
        except IndexError:
            return self._next()

    def receive(self, timeout: float | None = None) -> Delivery:
        """The next delivery, once there is one. It raises Timeout if nothing comes in so many seconds, and Ended once the member has ended and all that
        it delivered was received. Receive at once what is delivered: a member that doesn't holds the whole group back."""

        def attempt(seconds: float) -> Delivery | None:
            """Receives it, if it comes in so many seconds."""
            delivery = self._take()
            if delivery is None and seconds > 0:
                with self._used() as handle:
                    wait_readable(seconds, LIBRARY.muoswyld_group_descriptor(handle))
                delivery = self._take()
            return delivery

        return _until(timeout, attempt)

    def __iter__(self) -> Iterator[Delivery]:
        """Deliveries one after the other, until the member ends."""
        while True:
            try:
                yield self.receive()
            except Ended:
                return

    # ---- the group

    def reset(self, least: int | None = None, timeout: float | None = None) -> int:
        """Resets the group: a new view without the names of which this member was told that they have stopped. `least` is the fewest members that it
        goes on with, 1 to 16, or that of the config. It gives the number of the new view, which is a delivery too. It raises BadValue, TooFew, Crowded,
        Overtaken, NotIn, NotMember, Timeout if it isn't decided in time and goes on, or Ended."""
        return wait_for(lambda: self._reset(least, timeout))

    def _reset(self, least: int | None, timeout: float | None) -> int:
        fewest = 0 if least is None else least if 0 < least < 256 else 255
        with self._used() as handle:
            number = ctypes.c_uint32()
            self._check(handle, LIBRARY.muoswyld_group_reset(handle, fewest, milliseconds(timeout), ctypes.byref(number)))
            return number.value

    def succeed(
        self,
        resilience: int | None = None,
        window: int | None = None,
        pb_up_to: int | None = None,
        voters: Iterable[Name | str | int] = (),
        timeout: float | None = None,
    ) -> Position:
        """Ends the group's list, and has another one follow it: before a place's lives run out, or to change these numbers, or who votes. What isn't
        said stays as it is; `voters` are places of members, odd in number, or those that vote now. It returns once the list has ended at this member,
        with the position of its end, which is a delivery, too. All calls go on over it. It raises NotNow, NotSucceeded, Otherwise, BadValue,
        NotMember, Timeout if the list hasn't ended in time, and may later, or Ended."""
        asked = _next_of(resilience, window, pb_up_to, voters)
        return wait_for(lambda: self._succeed(asked, timeout))

    def _succeed(self, asked: CNext, timeout: float | None) -> Position:
        with self._used() as handle:
            at = CPosition()
            self._check(handle, LIBRARY.muoswyld_group_succeed(handle, ctypes.byref(asked), milliseconds(timeout), ctypes.byref(at)))
            return position_of(at)

    def stopped(self, name: Name | str) -> None:
        """Tells that a name has stopped for certain: its process has ended, or can't act any more. Tell each running member: the group is then reset
        without it. A name that still runs must never be given here, and silence is no proof of a stop. It raises BadName, Itself or Ended."""
        told = Name.of(name)
        with self._used() as handle:
            self._check(handle, LIBRARY.muoswyld_group_stopped(handle, CName(told.place, told.life)))

    def leave(self, timeout: float | None = None) -> None:
        """Leaves the group once all that was sent before is delivered. After it only what is delivered and not received yet can be received. It raises
        Timeout if it hasn't left in time, and goes on leaving, or Ended."""

        def attempt(seconds: float) -> bool | None:
            """Leaves, if it is done in so many seconds."""
            with self._used() as handle:
                status = LIBRARY.muoswyld_group_leave(handle, milliseconds(seconds))
                if status == TIMEOUT:
                    return None
                self._check(handle, status)
                return True

        _until(timeout, attempt)

    def info(self) -> Info:
        """What the member knows of itself and of its group. It raises Ended."""
        with self._used() as handle:
            info = CInfo()
            self._check(handle, LIBRARY.muoswyld_group_info(handle, ctypes.byref(info)))
            return info_of(info)

    # ---- the end

    @property
    def ended(self) -> End | None:
        """How the member has ended; None while it runs."""
        return self._ended(0)

    @property
    def end_text(self) -> str | None:
        """How the member has ended, in a sentence such as "it left the group"; None while it runs."""
        if self._end_text is None:
            with contextlib.suppress(Ended), self._used() as handle:
                text = LIBRARY.muoswyld_group_end_text(handle)
                self._end_text = text.decode() if text else None
        return self._end_text

    def _ended(self, seconds: float) -> End | None:
        if self._end is None:
            with contextlib.suppress(Ended), self._used() as handle:
                end = LIBRARY.muoswyld_group_ended(handle, milliseconds(seconds))
                self._end = End(end) if end else None
        return self._end

    def wait(self, timeout: float | None = None) -> End:
        """Waits until the member has ended, at most so many seconds, and gives how. It raises Timeout."""
        return _until(timeout, self._ended)

    def stop(self) -> None:
        """Ends the member without leaving, as if its process had stopped. The others go on without it once they are told so."""
        with self._used() as handle:
            LIBRARY.muoswyld_group_stop(handle)

    def close(self) -> None:
        """Stops the member, if it runs, and frees all that it has. Calls that wait in other threads raise Ended. Closing twice does nothing."""
        with self._calls:
            handle, self._handle = self._handle, None
            if handle is None:
                return
            LIBRARY.muoswyld_group_stop(handle)
            self._calls.wait_for(lambda: self._in_use == 0)
        self._log_notices(handle)
        self._end = self._end or End(LIBRARY.muoswyld_group_ended(handle, -1))
        self._end_text = LIBRARY.muoswyld_group_end_text(handle).decode()
        if self._waiting is not None:
            self._waiting.tell()
        LIBRARY.muoswyld_group_free(handle)

    def __enter__(self) -> Self:
        return self

    def __exit__(self, kind: type[BaseException] | None, error: BaseException | None, trace: TracebackType | None) -> None:
        try:
            if kind is None:
                with contextlib.suppress(Ended):
                    self.leave(10.0)
        finally:
            self.close()

    # ---- in an event loop of asyncio

    def _in_loop(self) -> Waiting:
        """Those who wait in the event loop that runs now."""
        loop = asyncio.get_running_loop()
        if self._waiting is None or self._waiting.loop is not loop:
            self._waiting = Waiting(self, loop)
        return self._waiting

    @classmethod
    async def create_async(cls, config: Config) -> Self:
        """As `create`. If it is cancelled, the member is stopped."""
        return cls(*await wait_in_loop(lambda: _started(config, LIBRARY.muoswyld_group_create), _free))

    @classmethod
    async def join_async(cls, config: Config) -> Self:
        """As `join`. If it is cancelled, the member is stopped."""
        return cls(*await wait_in_loop(lambda: _started(config, LIBRARY.muoswyld_group_join), _free))

    @classmethod
    async def start_async(cls, config: Config) -> Self:
        """As `start`. If it is cancelled, the member is stopped."""
        return cls(*await wait_in_loop(lambda: _started(config, LIBRARY.muoswyld_group_start), _free))

    async def send_async(self, message: bytes) -> Position:
        """As `send`. For a limit in time use `asyncio.timeout`: the message may still be sent after it. Several may be under way; they are sent in the
        order in which their coroutines began."""
        waiting = self._in_loop()
        return await waiting.settled(await waiting.submit(message))

    async def receive_async(self) -> Delivery:
        """As `receive`. For a limit in time use `asyncio.timeout`: no delivery is lost by it."""
        return await self._in_loop().receive()

    async def reset_async(self, least: int | None = None, timeout: float | None = None) -> int:
        """As `reset`."""
        return await wait_in_loop(lambda: self._reset(least, timeout))

    async def succeed_async(
        self,
        resilience: int | None = None,
        window: int | None = None,
        pb_up_to: int | None = None,
        voters: Iterable[Name | str | int] = (),
        timeout: float | None = None,
    ) -> Position:
        """As `succeed`."""
        asked = _next_of(resilience, window, pb_up_to, voters)
        return await wait_in_loop(lambda: self._succeed(asked, timeout))

    async def leave_async(self, timeout: float | None = None) -> None:
        """As `leave`."""
        await wait_in_loop(lambda: self.leave(timeout))

    async def __aiter__(self) -> AsyncIterator[Delivery]:
        """Deliveries one after the other, until the member ends."""
        while True:
            try:
                yield await self.receive_async()
            except Ended:
                return

    async def __aenter__(self) -> Self:
        return self

    async def __aexit__(self, kind: type[BaseException] | None, error: BaseException | None, trace: TracebackType | None) -> None:
        await wait_in_loop(lambda: self.__exit__(kind, error, trace))

    def __del__(self) -> None:
        if getattr(self, "_handle", None) is not None:
            warnings.warn(f"member {self._name} was never closed", ResourceWarning, stacklevel=2)
            self.close()

    def __repr__(self) -> str:
        return f"<muoswyld.{type(self).__name__} {self._name}, {self.ended or 'runs'}>"
