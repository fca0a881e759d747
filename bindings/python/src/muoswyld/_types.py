"""Names, positions, deliveries and what a member knows of its group."""

import enum
from dataclasses import dataclass, field

from ._errors import BadName
from ._library import COUNTS, CDelivery, CInfo, CName, CNames, CPosition


@dataclass(frozen=True, order=True)
class Name:
    """One life, 1 to 16, of a place, 0 to 15. It is written as `3`, or as `3/2` for a place that came back."""

    place: int
    life: int = 1

    def __post_init__(self) -> None:
        if not (0 <= self.place <= 15 and 1 <= self.life <= 16):
            raise BadName(f"there is no life {self.life} of place {self.place}: places are 0 to 15, and lives 1 to 16")

    @classmethod
    def of(cls, said: "Name | str | int") -> "Name":
        """The name that a text is, or the first life of a place. It raises BadName if it is none."""
        if isinstance(said, Name):
            return said
        place, slash, life = str(said).partition("/")
        is_plain = all(part.isascii() and part.isdigit() and str(int(part)) == part for part in (place, life or "0"))
        if not is_plain or bool(slash) != (life not in ("", "1")):
            raise BadName(f"{said!r} is no name: one is PLACE, 0 to 15, or PLACE/LIFE with a life of 2 to 16")
        return cls(int(place), int(life or 1))

    def next_life(self) -> "Name":
        """The next life of its place. It raises BadName after life 16."""
        return Name(self.place, self.life + 1)

    def __str__(self) -> str:
        return str(self.place) if self.life == 1 else f"{self.place}/{self.life}"


@dataclass(frozen=True, order=True)
class Position:
    """Where something stands in the one order of its group."""

    generation: int
    """How many lists of the group came before this one, from 0."""
    number: int
    """The number of the entry, from 1."""
    index: int = 0
    """The index among the messages of one entry, from 0."""


@dataclass(frozen=True)
class Message:
    """A message of a member."""

    at: Position
    sender: Name
    message: bytes


@dataclass(frozen=True)
class Joined:
    """A name became a member. A joiner's first delivery is its own."""

    at: Position
    name: Name


@dataclass(frozen=True)
class Left:
    """A member left."""

    at: Position
    name: Name


@dataclass(frozen=True)
class View:
    """A view begins: these are the members now, and so many of them may stop until the next one. A founder's first delivery is one."""

    at: Position
    members: tuple[Name, ...]
    resilience: int


@dataclass(frozen=True)
class Succeeded:
    """The list ended, and another one follows it, whose positions are of the next generation. Its founders' view comes next."""

    at: Position
    """The entry that ended the list."""
    members: tuple[Name, ...]
    """The members there, by their names in the list that ended."""
    founders: tuple[Name, ...]
    """The founders of the next list: a member's name in it is the first life of its place."""
    resilience: int
    """How many of them may stop between two resets."""
    window: int
    """How many entries may wait for the slowest member."""
    pb_up_to: int
    """Up to how many bytes a body goes by the sequencer."""
    voters: tuple[Name, ...]
    """The places that vote who has stopped in it; none if the policy has no voters."""


Delivery = Message | Joined | Left | View | Succeeded
"""What a member is given. All members are given the same deliveries in the same order."""


class End(enum.Enum):
    """How a member has ended."""

    LEFT = 1
    """It left."""
    CLOSED = 2
    """It was the last member, and left: the group is over."""
    LEFT_OUT = 3
    """The group goes on without it. Its place comes back as its next life."""
    UNWELCOMED = 4
    """It asked to join, and nobody welcomed it. Its place comes back as its next life."""
    STOPPED = 5
    """Its caller stopped it, and it hasn't left."""
    NO_NUMBERS_LEFT = 6
    """Its numbers are used up."""
    FAILED = 7
    """It could not go on."""
    SUPERSEDED = 8
    """It joined after the end of its list, which another one follows. Its place can come back in that one."""
    OTHER_VERSION = 9
    """The list has something that only a later version of this library understands."""
    NOT_BEGUN = 10
    """Its list ended, and the next one couldn't be begun here. Its place comes back in that as its next life."""


class Role(enum.Enum):
    """What a member is to its group."""

    STRANGER = 0
    ASKING = 1
    MEMBER = 2
    SEQUENCER = 3
    COORDINATOR = 4
    DEPARTED = 5


@dataclass(frozen=True)
class Info:
    """What a member knows of itself and of its group."""

    name: Name
    """Its name in the latest list of its group."""
    generation: int
    """How many lists of the group came before that one."""
    window: int
    """How many entries of that list may wait for the slowest member."""
    pb_up_to: int
    """Up to how many bytes a body goes by the sequencer in it."""
    role: Role
    """What it is to its group: the sequencer numbers the group's entries."""
    group: int | None
    """Its group's id, a random number, once it knows it."""
    members: tuple[Name, ...]
    """The members after its last entry."""
    sequencer: Name
    """The name that began its last view."""
    round: int
    """The round of its last view."""
    view_number: int
    """The number of its last view."""
    resilience: int
    """How many members of its last view may stop."""
    base: int
    """The number up to which its list is trimmed."""
    taken: int
    """The number up to which its application has taken entries."""
    accepted: int
    """The number up to which it knows the list to be accepted."""
    top: int
    """The number of its last entry."""
    waits_for: tuple[Name, ...]
    """The names that a reset of its own waits for."""
    silent: tuple[Name, ...]
    """Members that nothing was heard of for a while."""
    slow: tuple[Name, ...]
    """At the sequencer, with half of the window used: the members that have taken least."""
    stopped: tuple[Name, ...]
    """The names that were told as stopped."""
    unsettled: int
    """How many messages wait to be sent, or are under way."""
    waiting: int
    """How many bytes of messages wait to be sent, each with its head."""
    round_trip: float | None
    """The measured round trip, in seconds."""
    leaves: bool
    """Whether it is to leave."""
    counts: dict[str, int] = field(repr=False)
    """How often something happened, by what muoswyld_counts of muoswyld_group.h names."""


def name_of(name: CName) -> Name:
    """The name that the library gave."""
    return Name(name.place, name.life)


def names_of(names: CNames) -> tuple[Name, ...]:
    """The set of names that the library gave, in the order of their places."""
    return tuple(Name(place, life) for place, life in enumerate(names.lives) if life)


def position_of(at: CPosition) -> Position:
    """The position that the library gave."""
    return Position(at.generation, at.number, at.index)


def delivery_of(delivery: CDelivery, message: bytes) -> Delivery:
    """The delivery that the library gave, with the bytes of its message."""
    at = position_of(delivery.at)
    match delivery.kind:
        case 1:
            return Message(at, name_of(delivery.name), message)
        case 2:
            return Joined(at, name_of(delivery.name))
        case 3:
            return Left(at, name_of(delivery.name))
        case 4:
            return View(at, names_of(delivery.members), delivery.resilience)
        case _:
            following = delivery.next
            return Succeeded(
                at,
                members=names_of(delivery.members),
                founders=names_of(following.founders),
                resilience=following.resilience,
                window=following.window,
                pb_up_to=following.pb_up_to,
                voters=names_of(following.voters),
            )


def info_of(info: CInfo) -> Info:
    """What the library told of a member."""
    return Info(
        name=name_of(info.name),
        generation=info.generation,
        window=info.window,
        pb_up_to=info.pb_up_to,
        role=Role(info.role),
        group=info.group if info.knows_group else None,
        members=names_of(info.members),
        sequencer=name_of(info.sequencer),
        round=info.round,
        view_number=info.view_number,
        resilience=info.resilience,
        base=info.base,
        taken=info.taken,
        accepted=info.accepted,
        top=info.top,
        waits_for=names_of(info.waits_for),
        silent=names_of(info.silent),
        slow=names_of(info.slow),
        stopped=names_of(info.stopped),
        unsettled=info.unsettled,
        waiting=info.waiting,
        round_trip=info.round_trip / 1e6 if info.round_trip else None,
        leaves=info.leaves,
        counts={name: getattr(info.counts, name) for name in COUNTS},
    )
