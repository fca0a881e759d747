"""Why a call has no result: an exception for each status of muoswyld_group.h."""

from typing import ClassVar

from ._library import LIBRARY


class MuoswyldError(Exception):
    """Any of these."""

    status: ClassVar[int] = -1
    """The number of the status in muoswyld_group.h; -1 for this class."""


class BadName(MuoswyldError, ValueError):
    """A text is no name, or no set of names."""

    status = 2


class BadAddress(MuoswyldError, ValueError):
    """A text is no address, or the address can't be that of the place."""

    status = 3


class BadValue(MuoswyldError, ValueError):
    """A value is out of its range."""

    status = 4


class NoAddress(MuoswyldError, ValueError):
    """A place of the group has no address."""

    status = 5


class NoKey(MuoswyldError, ValueError):
    """There is no key, and the config isn't insecure."""

    status = 6


class IsFounder(MuoswyldError, ValueError):
    """A founder's first life creates the group; it can't join."""

    status = 7


class NoFounder(MuoswyldError, ValueError):
    """The name is none of the founders: it joins, and doesn't create."""

    status = 8


class SystemRefused(MuoswyldError, OSError):
    """The system refused a socket, a thread, memory, a file or random bytes."""

    status = 9


class Timeout(MuoswyldError, TimeoutError):
    """The time passed."""

    status = 10


class Full(MuoswyldError):
    """Too many messages wait to be sent. This one wasn't sent."""

    status = 12


class TooLong(MuoswyldError, ValueError):
    """A message has at most 65,535 bytes. It wasn't sent."""

    status = 13


class NotSent(MuoswyldError):
    """The member ended before the message went out whole: nobody is given it."""

    status = 14


class MaybeSent(MuoswyldError):
    """The member ended while the message was under way: the others may be given it, or not."""

    status = 15


class Leaving(MuoswyldError):
    """The member leaves, and sends no more. The message wasn't sent."""

    status = 16


class Ended(MuoswyldError):
    """The member has ended. `Group.ended` says how."""

    status = 17


class TooFew(MuoswyldError):
    """A reset came to no view: fewer members are left than the least size."""

    status = 18


class Crowded(MuoswyldError):
    """A reset came to no view: the window has no room for it."""

    status = 19


class Overtaken(MuoswyldError):
    """A reset came to no view: another one overtook it."""

    status = 20


class NotIn(MuoswyldError):
    """A reset came to no view: the group goes on without this member."""

    status = 21


class NotMember(MuoswyldError):
    """The member is none of its group's members, or not yet, or leaves, and can't reset it."""

    status = 22


class Itself(MuoswyldError, ValueError):
    """The name is the member's own: it hasn't stopped."""

    status = 23


class Panicked(MuoswyldError):
    """The library panicked, by a mistake of its own."""

    status = 25


class ServiceEnded(MuoswyldError):
    """The replica of a service has ended, for example as all that had the state are gone."""

    status = 27


class MachineFailed(MuoswyldError):
    """A call of a service's machine raised something, which is the cause of this."""

    status = 28


class Busy(MuoswyldError):
    """Another call uses the service, or its machine calls it. Nothing was done."""

    status = 29


class NotNow(MuoswyldError):
    """A list can't end now: a member has stopped, is silent, suspected or refused, leaves or joins, or another list just ended. Try again later."""

    status = 30


class NotSucceeded(MuoswyldError):
    """A list was to end, and goes on: somebody joined, left or stopped meanwhile, or a view began. Try again."""

    status = 31


class Otherwise(MuoswyldError):
    """Another member ended the list, and the next one has other numbers or voters than were asked for."""

    status = 32


class BadState(MuoswyldError):
    """The place's folder of state isn't made, isn't the place's, is used by another process, or says that the life was begun before."""

    status = 33


# numbers of statuses that are no errors of Python callers
OK, NULL_POINTER, TIMEOUT, EMPTY, FULL, ENDED = 0, 1, 10, 11, 12, 17

_KINDS = {kind.status: kind for kind in MuoswyldError.__subclasses__()}


def error_of(status: int, more: str = "") -> MuoswyldError:
    """The exception of a status, with a sentence that says more than the status's own."""
    text = more or LIBRARY.muoswyld_status_text(status).decode()
    return _KINDS.get(status, MuoswyldError)(text)


def check(status: int, more: str = "") -> None:
    """Raises the exception of a status, if it isn't the one of what is done."""
    if status != OK:
        raise error_of(status, more)
