"""What is measured of a group."""

import math
import os
from collections.abc import Iterable
from dataclasses import dataclass

from groups import Fault, Group, clock, sleep_until

TICKS = os.sysconf("SC_CLK_TCK")
SECOND = 1_000_000_000
SOON = 20_000_000  # nanoseconds from when members are told of a flood to its begin
SETTLE = 10.0  # seconds in which all that was sent must be delivered
LEAST = 10  # messages of one at a time, so that they count
PAUSE = 3_000_000  # nanoseconds between two messages of one at a time, half of it to three halves


@dataclass
class Flood:
    """Messages a second, from the begin to the last delivery at the last member; processor seconds of all members a million deliveries;
    processors that others used; whether all was delivered to all in the end."""

    rate: float
    cost: float
    others: float
    is_settled: bool


@dataclass
class Single:
    """Of so many messages, microseconds from the call to the sender's own delivery and to the last member's: the median, and what one of a
    hundred takes longer than."""

    many: int
    own: float
    own_99: float
    last: float
    last_99: float


def used_by(processes: Iterable[int]) -> float:
    """Seconds of a processor that processes have used."""
    total = 0
    for process in processes:
        try:
            with open(f"/proc/{process}/stat", encoding="ascii") as file:
                total += sum(map(int, file.read().rsplit(")", 1)[1].split()[11:13]))
        except OSError as error:
            raise Fault("a process has ended") from error
    return total / TICKS


def used_by_all() -> float:
    """Seconds of processors that the machine was busy."""
    with open("/proc/stat", encoding="ascii") as file:
        spent = list(map(int, file.readline().split()[1:9]))
    return (sum(spent) - spent[3] - spent[4]) / TICKS


def share(values: list[int], percent: int) -> float:
    """So many of a hundred values are at most this one; in microseconds, of nanoseconds."""
    return sorted(values)[min(len(values) - 1, len(values) * percent // 100)] / 1e3


def flood(group: Group, size: int, senders: set[int], seconds: float) -> Flood:
    """Senders send as fast as the group takes it. In the end all is delivered to all, in one order."""
    group.new_cell()
    own, every, since = used_by(group.processes()), used_by_all(), clock() + SOON
    until = since + int(seconds * SECOND)
    ends = group.ask(lambda place: f"flood {size} {since} {until} {int(place in senders)}", seconds + SETTLE)
    sent = sum(end["sent"] for end in ends.values())
    ends = group.ask(f"settle {sent} {clock() + int(SETTLE * SECOND)}", SETTLE + 5)
    own, every, took = used_by(group.processes()) - own, used_by_all() - every, (clock() - since) / SECOND
    delivered = [end["delivered"] for end in ends.values()]
    is_settled = set(delivered) == {sent}
    if max(delivered) > sent:
        raise Fault(f"{max(delivered)} messages were delivered of {sent}")
    if is_settled and len({end["order"] for end in ends.values()}) > 1:
        raise Fault("members were given different orders")
    spent = (max(end["last"] for end in ends.values()) - since) / SECOND if is_settled else took
    cost = own / sum(delivered) * 1e6 if any(delivered) else math.nan
    return Flood(min(delivered) / spent, cost, max(0.0, every - own) / took, is_settled)


def single(group: Group, size: int, sender: int, many: int) -> Single:
    """One member sends, one message at a time, as many as said or as come in a while."""
    group.new_cell()
    most = max(5.0, many * 0.05)
    until = clock() + int(most * SECOND)
    ends = group.ask(lambda place: f"single {size} {many} {PAUSE} {until} {int(place == sender)}", most + 5)
    took = [end["took"] for end in ends.values()]
    whole = min(map(len, took))
    if whole < LEAST:
        raise Fault(f"{whole} of {many} messages were delivered to all in {most:.0f} seconds")
    own, last = ends[sender]["took"][:whole], [max(each) for each in zip(*took)]
    return Single(whole, share(own, 50), share(own, 99), share(last, 50), share(last, 99))


def kill(group: Group, seconds: float) -> float:
    """All send one a millisecond, and one that they wait for is killed. Milliseconds until the last of the others is given a message in a
    view without it."""
    group.new_cell()
    group.ask("pace 64 1000000")
    sleep_until(clock() + 3 * SECOND // 10)
    _, at = group.kill()
    ends = group.ask(f"resumed {clock() + int(seconds * SECOND)}", seconds + 5)
    resumed = [end["resumed"] for end in ends.values()]
    if min(resumed) < at:
        raise Fault(f"no message was delivered in {seconds:.0f} seconds behind the kill")
    return (max(resumed) - at) / 1e6
