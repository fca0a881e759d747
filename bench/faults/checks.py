"""Whether what the clients of all lives saw is one list: nothing lost, nothing given twice, and senders in their order."""

from collections.abc import Iterable

from clients import Delivered, Record

Position = tuple[int, int]


def follows(one: Delivered, other: Delivered) -> bool:
    """Whether a position may be the next one: of the same entry, or the first one of the next entry."""
    same = (other.number, other.index) == (one.number, one.index + 1)
    return same or (other.number, other.index) == (one.number + 1, 0)


class List:
    """The one list, as far as somebody was given it."""

    def __init__(self) -> None:
        self.at: dict[Position, str] = {}
        self.after: dict[Position, Position] = {}
        self.wrong: list[str] = []

    def add(self, record: Record) -> None:
        """Adds a life's log."""
        before: Delivered | None = None
        for one in record.log:
            here = one.number, one.index
            if self.at.setdefault(here, one.what) != one.what:
                self.wrong.append(f"{record.name} was given {one.what!r} at {here}, another {self.at[here]!r}")
            if before is not None and not follows(before, one):
                self.wrong.append(f"{record.name} was given {here} after {before.number, before.index}")
            elif before is not None and self.after.setdefault((before.number, before.index), here) != here:
                self.wrong.append(f"{record.name} was given {here} after {before.number, before.index}, another didn't")
            before = one
            if len(self.wrong) > 20:
                return


def once(whole: List) -> Iterable[str]:
    """What stands in the list more than once."""
    seen: dict[str, Position] = {}
    for here, what in whole.at.items():
        if not what.startswith("view "):
            if what in seen:
                yield f"{what!r} stands at {seen[what]} and at {here}"
            seen[what] = here


def answered(records: list[Record], whole: List) -> Iterable[str]:
    """What was answered and isn't where the answer says."""
    for record in records:
        for sent in (one for sender in record.sent for one in sender if one.answered is not None):
            what = whole.at.get((sent.number, sent.index))
            if what != f"message {record.name} {sent.text}":
                yield f"{record.name} was answered that {sent.text!r} is at {sent.number, sent.index}, where {what!r} is"


def in_order(records: list[Record], whole: List) -> Iterable[str]:
    """Senders whose messages aren't in their order, and messages that nobody sent."""
    known = {f"message {record.name} {one.text}" for record in records for sender in record.sent for one in sender}
    last: dict[tuple[str, str], int] = {}
    for here in sorted(whole.at):
        kind, *rest = whole.at[here].split(" ")
        if kind != "message":
            continue
        if whole.at[here] not in known:
            yield f"nobody sent {whole.at[here]!r} at {here}"
            continue
        sender, count = (rest[0], rest[2]), int(rest[3])
        if count <= last.get(sender, -1):
            yield f"{sender} sent {count} before {last[sender]}, which stands before it"
        last[sender] = count


def begins(records: list[Record]) -> Iterable[str]:
    """Logs that don't begin where they should: at the life's own Join, and of founders at the same entry."""
    founders = {(log[0].number, log[0].index) for log in (one.log for one in records if "/" not in one.name) if log}
    if len(founders) > 1:
        yield f"founders' logs begin at {sorted(founders)}"
    for record in records:
        if "/" in record.name and record.log and record.log[0].what != f"joined {record.name}":
            yield f"the log of {record.name} begins with {record.log[0].what!r}"


def faults_of(records: list[Record], running: list[str]) -> list[str]:
    """What is wrong with what clients saw. `running` are the lives that run in the end: these have been given all of it."""
    whole = List()
    for record in records:
        whole.add(record)
    wrong = [*whole.wrong, *once(whole), *answered(records, whole), *in_order(records, whole), *begins(records)]
    last = max(whole.at, default=(0, 0))
    for record in records:
        here = (record.log[-1].number, record.log[-1].index) if record.log else None
        if record.name in running and here != last:
            wrong.append(f"the log of {record.name} ends at {here}, and the list at {last}")
    return wrong[:20]
