"""Whether a history of one key is linearizable: Wing and Gong's search, with a memory of what was tried.

A history is what clients asked of a key, each with when it was asked, when it was answered, and what. One that wasn't answered may
have been done at any time from then on, or never.
"""

import dataclasses
import math
from collections.abc import Iterable

Value = int | None


@dataclasses.dataclass(frozen=True)
class Asked:
    """Something that was asked of a key: `set` with its value, `incr` or `get`; an answer of a `set` is None."""

    what: str
    value: Value
    called: float
    answered: float = math.inf
    answer: Value = None

    def is_known(self) -> bool:
        """Whether it was answered."""
        return self.answered != math.inf


class Wrong:
    """The mark of an answer that a value doesn't give."""


WRONG = Wrong()


def after(asked: Asked, value: Value) -> Value | Wrong:
    """The key's value after something is done; WRONG if its answer isn't what the value gives."""
    if asked.what == "set":
        return asked.value
    if asked.what == "get":
        return value if not asked.is_known() or asked.answer == value else WRONG
    more = (value or 0) + 1
    return more if not asked.is_known() or asked.answer == more else WRONG


def is_linearizable(history: Iterable[Asked], value: Value = None) -> bool:
    """Whether there is an order of all that was answered, and some of what wasn't, in which each answer is right and nothing is done
    before it was asked or after it was answered. `value` is what the key had first."""
    all_asked = sorted(telling(list(history)), key=lambda one: one.called)
    known = sum(1 << k for k, one in enumerate(all_asked) if one.is_known())
    tried: set[tuple[int, Value]] = set()
    waiting: list[tuple[int, int, Value]] = [(0, 0, value)]
    while waiting:
        done, low, value = waiting.pop()
        if done & known == known:
            return True
        while done >> low & 1:
            low += 1
        next_ones = candidates(all_asked, done, low)
        # a read that is right now may as well be done now, as it changes nothing
        reads = [k for k in next_ones if all_asked[k].what == "get" and all_asked[k].answer == value]
        for k in reads[:1] or next_ones:
            then = after(all_asked[k], value)
            if isinstance(then, Wrong):
                continue
            state = (done | 1 << k, then)
            if state not in tried:
                tried.add(state)
                waiting.append((state[0], low, then))
    return False


def telling(history: list[Asked]) -> list[Asked]:
    """What of a history can tell anything: no read without an answer, and no set without one whose value nobody read. Values of sets are
    all different, so such a set may as well never have been done, where no count begins with it."""
    counts = any(one.what == "incr" for one in history)
    read = {one.answer for one in history if one.what == "get"}
    return [one for one in history if one.is_known() or (one.what != "get" and (counts or one.value in read))]


def candidates(all_asked: list[Asked], done: int, low: int) -> list[int]:
    """What may be done next: what was asked before any other that isn't done was answered."""
    found: list[int] = []
    first_answer = math.inf
    for k in range(low, len(all_asked)):
        one = all_asked[k]
        if one.called > first_answer:
            break
        if not done >> k & 1:
            found.append(k)
            first_answer = min(first_answer, one.answered)
    return [k for k in found if all_asked[k].called <= first_answer]


def stale_reads(history: list[Asked]) -> list[list[Asked]]:
    """Histories in which one read gives a value that was overwritten before it was asked: each is to be found. Values are all different."""
    changed: list[list[Asked]] = []
    for k, read in enumerate(history):
        if read.what != "get" or read.answer is None:
            continue
        sets = {one.value: one for one in history if one.what == "set" and one.is_known()}
        newest = sets.get(read.answer)
        older = [one for one in sets.values() if newest and one.answered < newest.called and newest.answered < read.called]
        if older:
            value = max(older, key=lambda one: one.answered).value
            changed.append([*history[:k], dataclasses.replace(read, answer=value), *history[k + 1 :]])
    return changed


def self_test() -> list[str]:
    """What is wrong with the search itself, on small histories whose answer is known."""
    first, second = Asked("set", 1, 0, 1), Asked("set", 2, 2, 3)
    cases: list[tuple[str, list[Asked], bool]] = [
        ("nothing", [], True),
        ("a read of what was set", [first, Asked("get", None, 2, 3, 1)], True),
        ("a read of nothing after a set", [first, Asked("get", None, 2, 3, None)], False),
        ("a read of nothing beside a set", [first, Asked("get", None, 0.5, 3, None)], True),
        ("a stale read", [first, second, Asked("get", None, 4, 5, 1)], False),
        ("a read of what was never set", [first, Asked("get", None, 2, 3, 9)], False),
        ("a set without an answer that is seen late", [Asked("set", 1, 0), second, Asked("get", None, 4, 5, 1)], True),
        ("one that is seen, and then not", [first, Asked("set", 2, 2), Asked("get", None, 4, 5, 2), Asked("get", None, 6, 7, 1)], False),
        ("counts", [Asked("incr", None, 0, 1, 1), Asked("incr", None, 2, 3, 2)], True),
        ("a count twice", [Asked("incr", None, 0, 1, 1), Asked("incr", None, 0, 1, 1)], False),
        ("a count that skips", [Asked("incr", None, 0, 1, 1), Asked("incr", None, 2, 3, 3)], False),
        ("one that was done without an answer", [Asked("incr", None, 0), Asked("incr", None, 2, 3, 2)], True),
        ("reads beside a set that go back", [first, Asked("set", 2, 2, 9), Asked("get", None, 3, 4, 2), Asked("get", None, 5, 6, 1)], False),
    ]
    return [f"{name}: is_linearizable isn't {right}" for name, history, right in cases if is_linearizable(history) != right]
