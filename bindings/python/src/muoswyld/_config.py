"""What a member is started with."""

import argparse
import contextlib
import ctypes
import os
import pathlib
import secrets
import stat
from collections.abc import Iterator, Mapping
from dataclasses import dataclass, field

from ._errors import BadAddress, BadValue, check
from ._library import LIBRARY
from ._types import Name


def node_version() -> str:
    """The node that is linked: "proved SOURCES TOOLCHAIN", or "unproved SOURCES TOOLCHAIN" if nothing is proved of it."""
    said: bytes = LIBRARY.muoswyld_group_version()
    return said.decode()


def new_key() -> bytes:
    """A new random key of 32 bytes. All members of a group are given the same one."""
    return secrets.token_bytes(32)


def read_key(path: str | os.PathLike[str]) -> bytes:
    """The key of a file with 64 hexadecimal digits, as `muoswyldd keygen` writes it. It raises PermissionError if others can read the file, and
    BadValue if it has no key."""
    file = pathlib.Path(path)
    if file.stat().st_mode & (stat.S_IRWXG | stat.S_IRWXO):
        raise PermissionError(f"{file} can be read by others: chmod 600 {file}")
    with contextlib.suppress(ValueError):
        key = bytes.fromhex(file.read_text())
        if len(key) == 32:
            return key
    raise BadValue(f"{file} is no key: a key is 64 hexadecimal digits, as `muoswyldd keygen` writes it")


def write_key(path: str | os.PathLike[str], key: bytes) -> None:
    """Writes a key to a new file, which only its owner can read."""
    with open(os.open(path, os.O_WRONLY | os.O_CREAT | os.O_EXCL, 0o600), "w") as file:
        file.write(f"{key.hex()}\n")


def milliseconds(seconds: float | None) -> int:
    """A time as the library takes it: whole milliseconds, rounded up, and -1 for one without end."""
    if seconds is None:
        return -1
    return max(0, min(-int(-seconds * 1000 // 1), 2**31 - 1))


@dataclass(frozen=True)
class Config:
    """The settings of a member. All members of a group are given the same founders, resilience, window, pb_up_to and key."""

    name: Name | str
    """The member's name: "0", or "0/2" for a place that came back."""
    founders: str
    """The names from which the group begins, as "0,1,2"."""
    addresses: Mapping[int, str]
    """The address of each place, as "10.0.0.1:7000" or "[::1]:7000"."""
    key: bytes | None = field(default=None, repr=False)
    """The group's key, of 32 bytes: datagrams are sealed by it, and others are dropped."""
    insecure: bool = False
    """Allows a group without a key. Whoever reaches a member's address can then read all, and end the group."""
    resilience: int = 0
    """How many members may stop between two resets, 0 to 15, so that nothing which was given out is lost."""
    window: int = 256
    """How many entries may wait for the slowest member, 1 to 1,008."""
    pb_up_to: int = 1024
    """The longest body that goes by the sequencer, 0 to 1,024 bytes."""
    bind: str | None = None
    """The address to bind, if it isn't the one at which the others reach this member."""
    least: int | None = None
    """The fewest members that a reset goes on with, 1 to 16; a majority of the last view if it is None."""
    most_waiting: int = 4 << 20
    """How many bytes of messages may wait to be sent."""
    most_unreceived: int = 4096
    """How many deliveries may wait to be received before the group is held back."""
    datagram: int = 1400
    """The longest payload of a datagram, 1,232 to 65,000 bytes."""
    tick: float = 0.05
    """How often an idle member ticks, in seconds."""
    spin: float = 0.0
    """For how many seconds the member's thread looks for more before it sleeps, 0 to 0.001."""
    journal: str | os.PathLike[str] | None = None
    """A new file for the member's journal (docs/NETWORK.md)."""
    start_within: float | None = None
    """How many seconds `create` and `join` wait at most; without end if it is None."""
    state: str | os.PathLike[str] | None = None
    """The place's folder of state, on a local disk, as `Group.found` makes it. With it no life runs twice, and no two processes of the place run at a time."""
    next_life: bool = False
    """Starts the place's next life that was never begun, in the latest list of the group: as its folder says, and the members at the other addresses. Its
    place is that of the name. Start it by `Group.start` or `start_async`."""
    policy: str | None = None
    """What makes it certain that a name has stopped: "told", "echo", "lease" or "command" (docs/FAILURES.md). If it is None it is "echo" if voters and a folder
    of state are given, and else "told"."""
    voters: str | None = None
    """The places that vote who has stopped, as "0,1,2": some of the founders, odd in number; all founders if it is None."""
    lease: float = 1.0
    """How many seconds a lease lasts, for "lease"."""
    drift: int = 100
    """By how many thousandths the rate of a clock may differ from real time, for "lease"."""
    fence: str | os.PathLike[str] | None = None
    """The program that ends a name, for "command"."""
    fence_within: float = 30.0
    """How many seconds that program may take."""
    succeed_at_lives: int | None = None
    """The list ends by itself once a member's place has at most so many lives left, 0 to 15. If only the other one of these two is given it is 1."""
    succeed_at_numbers: int | None = None
    """The list ends by itself once at most so many numbers of entries are left. If only the other one is given it is 1,000,000. Without either the list ends
    only by `Group.succeed`."""


def _number(what: str, value: int, bits: int) -> int:
    """A number that has so many bits, for a call that takes no more."""
    if not 0 <= value < 1 << bits:
        raise BadValue(f"{what} is out of its range: {value}")
    return value


# for how many milliseconds a place that comes back asks the others which list is the latest
PEERS_WITHIN = 2_000
# how many lives and numbers are left when a list ends by itself, where one of them isn't said
LIVES_LEFT, NUMBERS_LEFT = 1, 1_000_000

# settings that are numbers: the call's name, and how many bits it takes
_NUMBERS = {"resilience": 8, "window": 16, "pb_up_to": 16, "most_waiting": 63, "most_unreceived": 63, "datagram": 63}


def _set_all(handle: ctypes.c_void_p, config: Config) -> Iterator[int]:
    """Sets all settings, and gives what each call answers."""
    for place, address in config.addresses.items():
        yield LIBRARY.muoswyld_config_address(handle, _number("a place", place, 8), address.encode())
    for what, bits in _NUMBERS.items():
        yield getattr(LIBRARY, f"muoswyld_config_{what}")(handle, _number(what, getattr(config, what), bits))
    if config.bind is not None:
        yield LIBRARY.muoswyld_config_bind(handle, config.bind.encode())
    if config.key is not None:
        yield LIBRARY.muoswyld_config_key(handle, bytes(config.key), len(config.key))
    if config.insecure:
        yield LIBRARY.muoswyld_config_insecure(handle)
    if config.least is not None:
        yield LIBRARY.muoswyld_config_least(handle, _number("least", config.least, 8))
    if config.journal is not None:
        yield LIBRARY.muoswyld_config_journal(handle, os.fsencode(config.journal))
    yield from _set_failures(handle, config)
    yield LIBRARY.muoswyld_config_tick(handle, _number("tick", milliseconds(config.tick), 32))
    yield LIBRARY.muoswyld_config_spin(handle, _number("spin", int(config.spin * 1e6), 32))
    yield LIBRARY.muoswyld_config_start_within(handle, milliseconds(config.start_within))
    if config.next_life:
        yield LIBRARY.muoswyld_config_next_life(handle, PEERS_WITHIN)


def _set_failures(handle: ctypes.c_void_p, config: Config) -> Iterator[int]:
    """Sets what says who has stopped and when lists end, and gives what each call answers."""
    if config.state is not None:
        yield LIBRARY.muoswyld_config_state(handle, os.fsencode(config.state))
    if config.voters is not None:
        yield LIBRARY.muoswyld_config_voters(handle, config.voters.encode())
    if config.policy in ("told", "echo"):
        yield getattr(LIBRARY, f"muoswyld_config_{config.policy}")(handle)
    elif config.policy == "lease":
        yield LIBRARY.muoswyld_config_lease(handle, _number("lease", milliseconds(config.lease), 32), _number("drift", config.drift, 32))
    elif config.policy == "command" and config.fence is not None:
        yield LIBRARY.muoswyld_config_command(handle, os.fsencode(config.fence), _number("fence_within", milliseconds(config.fence_within), 32))
    elif config.policy is not None:
        raise BadValue(f"{config.policy!r} is no policy, or has no program: told, echo, lease, or command with a fence")
    limits = (config.succeed_at_lives, config.succeed_at_numbers)
    if limits != (None, None):
        lives, numbers = (default if said is None else said for said, default in zip(limits, (LIVES_LEFT, NUMBERS_LEFT), strict=True))
        yield LIBRARY.muoswyld_config_succeed_at(handle, _number("succeed_at_lives", lives, 8), _number("succeed_at_numbers", numbers, 32))


@contextlib.contextmanager
def opened(config: Config) -> Iterator[ctypes.c_void_p]:
    """A config of the library, as long as the block lasts."""
    handle = ctypes.c_void_p()
    name, founders = str(config.name), config.founders
    check(LIBRARY.muoswyld_config_new(name.encode(), founders.encode(), ctypes.byref(handle)), f"the name {name!r} or the founders {founders!r}: names are as 0, or as 0/2")
    try:
        for status in _set_all(handle, config):
            check(status, said_of(handle))
        yield handle
    finally:
        LIBRARY.muoswyld_config_free(handle)


def said_of(handle: ctypes.c_void_p) -> str:
    """What the library says of the last failure of a config."""
    text: bytes = LIBRARY.muoswyld_config_error(handle)
    return text.decode()


def add_options(parser: argparse.ArgumentParser) -> None:
    """Adds the options of a member to a program's, by the names that `muoswyldd run` has for them."""
    group = parser.add_argument_group("the member")
    group.add_argument("--name", required=True, help="its name: a place, 0 to 15, or PLACE/LIFE for a place that came back")
    group.add_argument("--founders", required=True, help="the names from which the group begins, as 0,1,2")
    group.add_argument("--address", required=True, action="append", metavar="PLACE=ADDRESS", help="the address of a place, as 0=127.0.0.1:7000; once for each place")
    group.add_argument("--key", metavar="FILE", help="the group's key, as `muoswyldd keygen FILE` writes it")
    group.add_argument("--insecure", action="store_true", help="goes without a key: whoever reaches a member's address can end the group")
    group.add_argument("--bind", metavar="ADDRESS", help="the address to bind, if it isn't the own one")
    group.add_argument("--journal", metavar="FILE", help="a new file for the member's journal")
    for what, default in (("resilience", 0), ("window", 256), ("pb-up-to", 1024), ("least", None)):
        group.add_argument(f"--{what}", type=int, default=default, metavar="N")


def config_of(options: argparse.Namespace) -> Config:
    """The config of a program's options, to which `add_options` added those of a member."""
    addresses = {}
    for said in options.address:
        place, _, address = said.partition("=")
        if not place.isdigit() or int(place) in addresses:
            raise BadAddress(f"{said!r} isn't PLACE=ADDRESS, or the place has two addresses")
        addresses[int(place)] = address
    same = ("name", "founders", "insecure", "bind", "journal", "resilience", "window", "pb_up_to", "least")
    key = read_key(options.key) if options.key else None
    return Config(addresses=addresses, key=key, **{what: getattr(options, what) for what in same})
