#!/usr/bin/env python3
"""Says in words why the program refuses a script, or a text.

    tools/explain.py [PROGRAM [COMMAND]] < SCRIPT

PROGRAM is crates/am_sim/out/am_sim by default. COMMAND is `play`, `race` or `audit`; by default it is the script's own key, or `play` if there
is none. For `audit` it shows the bad line of the text, and says what may stand there. It ends with 0 if the program takes the input, with 1 if it
doesn't, and with 2 if its arguments are wrong. Only the program says whether a script is refused, for which cause and at which place.
To find the key, this asks the program again about small scripts. They have the event's keys up to one of them, in the order in which they are
read, and lawful values after it. The first that the program refuses names the key.
"""

import json
import os
import pathlib
import re
import subprocess
import sys
from collections.abc import Callable, Iterable
from typing import Any, NoReturn

from words import end, printable, taken, words

PROGRAM = pathlib.Path(__file__).resolve().parent.parent / "crates" / "am_sim" / "out" / "am_sim"

NOT_JSON, MISSING, UNKNOWN, BAD_VALUE, OUT_OF_RANGE = 1, 2, 3, 4, 5

MOST_BYTES = 16_777_216

# keys in their order, each with what it may be and a lawful value; and what asks the program for the cause that it refuses an object for
Keys = dict[str, tuple[str, Any]]
Ask = Callable[[Any], int | None]
# a kind of object, the acts that it may have, and the keys that it has beside those of its act
Form = tuple[str, list[str], Keys]

COUNT = "a whole number, 1 to 2,000,000,000"
PLACE = "a place, 0 to 15"

# of each key: what it may be, and a value that is lawful; of keys that needn't be there the value is None
FOUNDING: Keys = {
    "founders": ("an array of 1 to 16 different places, each 0 to 15", [0]),
    "resilience": ("a whole number, 0 to 15", None),
    "window": ("a whole number, 1 to 1,008", None),
    "pb_up_to": ("a whole number, 0 to 1,024", None),
}
PLAY: Keys = {
    **FOUNDING,
    "settle": ("true or false", None),
    "events": ("an array of events", []),
}
THREAD: Keys = {
    "node": (PLACE, 0),
    "calls": ("an array of calls", []),
}
RACE: Keys = {
    **FOUNDING,
    "seed": ("a whole number, 0 to 18,446,744,073,709,551,615", 0),
    "loss": ("a whole number, 0 to 50", None),
    "repeat": ("a whole number, 0 to 40", None),
    "turns": ("a whole number, 1 to 10,000", None),
    "threads": ("an array of 1 to 16 threads", [{"node": 0, "calls": []}]),
}
SCRIPTS = {"play": PLAY, "race": RACE}
ACTS: dict[str, Keys] = {
    "send": {"body": ("a text of pairs of the digits 0 to 9 and a to f, 1,024 pairs at most", "")},
    "done": {"req": (COUNT, 1)},
    "take": {},
    "join": {},
    "state": {},
    "leave": {},
    "reset": {"least": ("a whole number, 1 to 16", 1), "resilience": ("a whole number, 0 to 15", None)},
    "ask": {"round": (COUNT, 1)},
    "giveup": {"name": (PLACE, 0), "life": ("a whole number, 1 to 16", None)},
    "stop": {},
    "tick": {},
    "hear": {"packet": (COUNT, 1)},
    "cut": {"packet": (COUNT, 1), "keep": ("a whole number, 0 to 1,152", 0)},
    "return": {},
}
CALLS = ["send", "take", "join", "leave", "reset", "stop"]

# of an event and of a call: its acts, and the keys that it has beside those of its act
EVENT: Form = "an event", list(ACTS), {"node": (PLACE, 0)}
CALL: Form = "a call", CALLS, {}

# how many calls a race has at most, and how many records; and its turns where none are said
MOST_CALLS, MOST_RECORDS, TURNS = 1000, 100000, 200

NESTED = "arrays and objects are nested more than 127 deep"
INFINITE = float("inf"), float("-inf")


class Number(str):
    """A number as it is written."""


def keys_of(event: dict[str, Any], form: Form = EVENT) -> Keys:
    """The keys of an event or a call, in the order in which they are read."""
    _, acts, beside = form
    act = event.get("do")
    more = ACTS[act] if type(act) is str and act in acts else {}
    return {"do": ("one of " + ", ".join(acts), "take"), **beside, **more}


def read(text: bytes) -> Any:
    """A document, with its numbers as they are written."""
    return json.loads(text, parse_int=Number, parse_float=Number)


def written(value: Any) -> str:
    """A value as JSON."""
    if isinstance(value, Number):
        return str(value)
    if isinstance(value, dict):
        return "{" + ", ".join(f"{json.dumps(key)}: {written(item)}" for key, item in value.items()) + "}"
    if isinstance(value, list):
        return "[" + ", ".join(map(written, value)) + "]"
    return json.dumps(value)


class Asked:
    """The program, asked about the scripts of a word."""

    def __init__(self, program: str, word: str = "play") -> None:
        """The program and its word."""
        self.program = program
        self.word = word

    def say(self, data: bytes) -> tuple[int, str]:
        """The status that it gives for a script, and what it says on standard error."""
        ran = subprocess.run([self.program, self.word], input=data, stdout=subprocess.DEVNULL, stderr=subprocess.PIPE)
        return ran.returncode, ran.stderr.decode(errors="replace").strip()

    def cause(self, made: dict[str, Any]) -> int | None:
        """The cause that a script with these keys is refused for; None where it isn't."""
        told = refusal(*self.say(written({self.word: made}).encode()))
        return told and told[0]

    def cause_with(self, **made: Any) -> int | None:
        """The same of a script with these keys, and lawful values at the others that it needs."""
        lawful = {key: value for key, (_, value) in SCRIPTS[self.word].items() if value is not None}
        return self.cause({**lawful, **made})

    def cause_of_event(self, event: Any) -> int | None:
        """The same of a play with one event."""
        return self.cause_with(events=[event])

    def cause_of_thread(self, thread: Any) -> int | None:
        """The same of a race with one thread."""
        return self.cause_with(threads=[thread])

    def cause_of_call(self, call: Any) -> int | None:
        """The same of a race with one call, of one turn at most."""
        return self.cause_with(turns=1, threads=[{"node": 0, "calls": [call]}])


def refusal(status: int, said: str) -> tuple[int, int] | None:
    """The cause and the place of a refusal; None where it is none."""
    found = re.fullmatch(r"bad script ([1-5]) at ([0-9]+)", said)
    return (int(found[1]), int(found[2])) if status == 2 and found else None


def filled(keys: Keys, found: dict[str, Any], upto: str) -> dict[str, Any]:
    """An object with the found values at its keys up to one, and lawful ones at those that it needs behind that."""
    made, is_found = {}, True
    for key, (_, lawful) in keys.items():
        if is_found and key in found:
            made[key] = found[key]
        elif not is_found and lawful is not None:
            made[key] = lawful
        is_found = is_found and key != upto
    return made


def first_refused(keys: Keys, found: dict[str, Any], cause: int, ask: Ask) -> str | None:
    """The first key at which an object is refused for a cause."""
    return next((key for key in keys if ask(filled(keys, found, key)) == cause), None)


def strangers(keys: Keys, found: dict[str, Any], ask: Ask) -> list[str]:
    """The keys that don't belong in an object."""
    lawful = {key: value for key, (_, value) in keys.items() if value is not None}
    if "do" in lawful:
        lawful["do"] = found["do"]
    return [key for key in found if key not in lawful and ask({**lawful, key: found[key]}) == UNKNOWN]


def shown(value: Any) -> str:
    """A value, and what it is, in a few words."""
    text = written(value)
    text = text if len(text) <= 40 else text[:36] + " ..."
    if isinstance(value, Number):
        great = "a number above 2^64 - 1" if 2 ** 64 <= float(value) else "a number"
        kind = great if value.isdigit() else "which isn't written by digits alone"
    elif value is None or isinstance(value, bool):
        return text
    else:
        kind = "an object" if isinstance(value, dict) else "an array" if isinstance(value, list) else "a text"
    return f"{text}, {kind}"


def listed(keys: Iterable[str]) -> str:
    """Keys, one after the other."""
    words = [f"`{key}`" for key in keys]
    return words[0] if len(words) == 1 else ", ".join(words[:-1]) + " and " + words[-1]


def why_not_json(data: bytes) -> str:
    """Where bytes stop being JSON."""
    start = "the bytes aren't JSON: "
    if not data.strip():
        return start + "there are none"
    if data[:2] in (b"\xff\xfe", b"\xfe\xff") or b"\0" in data[:2]:
        return start + "they are UTF-16; a script is UTF-8"
    try:
        text = data.decode()
    except UnicodeDecodeError as error:
        return start + f"byte {error.start + 1} isn't part of UTF-8"
    if text.startswith("\ufeff"):
        return start + "they begin with a byte order mark, which a script has none of"
    try:
        value = json.loads(text, parse_constant=no_number, parse_float=finite, parse_int=finite)
    except json.JSONDecodeError as error:
        before, bracket = text[: error.pos].rstrip(), text[error.pos : error.pos + 1]
        if before.endswith(",") and bracket and bracket in "]}":
            return start + f"line {error.lineno}, column {error.colno}, a comma stands before {bracket}, with nothing behind it"
        ahead = text[error.pos:error.pos + 20].split("\n")[0] or "the end of the line"
        at = "the end" if len(text.rstrip()) <= error.pos else ahead
        return start + f"line {error.lineno}, column {error.colno}, before {at}"
    except (RecursionError, ValueError) as error:
        return start + (NESTED if isinstance(error, RecursionError) else str(error))
    if depth(value) > 127:
        return start + NESTED
    if re.search("[\ud800-\udfff]", json.dumps(value, ensure_ascii=False)):
        return start + "there is half of a pair of surrogates in a text"
    return start + "why isn't known"


def no_number(word: str) -> NoReturn:
    """Refuses a word that JSON doesn't have, such as NaN."""
    raise ValueError(f"{word} is no number")


def finite(word: str) -> int:
    """Refuses a number that no float holds; its value doesn't matter."""
    if float(word) in INFINITE:
        raise ValueError(f"the number {word if len(word) <= 40 else word[:36] + ' ...'} is too great")
    return 0


def depth(value: Any) -> int:
    """How deep arrays and objects are nested."""
    deep, layer = 0, [value]
    while layer := [v for v in layer if isinstance(v, (dict, list))]:
        deep += 1
        layer = [item for v in layer for item in (v.values() if isinstance(v, dict) else v)]
    return deep


def of_founders(ask: Asked, founders: Any, cause: int) -> str:
    """Which of the founders is refused; the count comes first."""
    if not isinstance(founders, list):
        return f"`founders` is {shown(founders)}"
    if ask.cause_with(founders=[0] * len(founders) if len(founders) > 16 else list(range(len(founders)))) == OUT_OF_RANGE:
        return f"`founders` has {len(founders)} places"
    for count in range(1, len(founders) + 1):
        if ask.cause_with(founders=founders[:count]) == cause:
            last = founders[count - 1]
            again = "which stands there twice" if cause == BAD_VALUE and last in founders[:count - 1] else ""
            return f"in `founders` stands {again and f'{last}, {again}' or (last if cause == OUT_OF_RANGE else shown(last))}"
    return "`founders` is refused"


def of_body(text: str) -> str:
    """What there is to see of a text that is no body."""
    other = re.search("[^0-9a-f]", text)
    if other:
        return f"has {other[0]!r} in it"
    return f"has {len(text)} digits, which aren't pairs" if len(text) % 2 else f"has {len(text) // 2} pairs of digits"


def of_object(ask: Ask, cause: int, found: dict[str, Any], keys: Keys, where: str, kind: str) -> str | None:
    """A key of an object that is refused, in words; None where the program names none. `ask` asks about such an object."""
    if cause == UNKNOWN:
        others = strangers(keys, found, ask)
        belong = "doesn't belong there" if len(others) == 1 else "don't belong there"
        return f"{where}: {listed(others)} {belong}; {kind} has {listed(keys)}" if others else None
    key = first_refused(keys, found, cause, ask)
    if key is None:
        return None
    may = keys[key][0]
    if cause == MISSING and key not in found:
        return f"{where}: `{key}` isn't there; {kind} wants it, {may}"
    if key == "body" and type(found[key]) is str:
        return f"{where}: `body` {of_body(found[key])}; it must be {may}"
    value = found[key] if cause == OUT_OF_RANGE else shown(found[key])
    return f"{where}: `{key}` is {value}; it must be {may}"


def of_count(race: dict[str, Any]) -> str:
    """What there is to say of how many calls a race has."""
    calls = sum(len(thread["calls"]) for thread in race["threads"])
    turns = int(race.get("turns", TURNS))
    if calls > MOST_CALLS:
        return f"race: the threads have {calls} calls; {MOST_CALLS:,} at most"
    return f"race: {calls} calls times ({turns} turns + 2) are {calls * (turns + 2)}; {MOST_RECORDS:,} at most"


def of_threads(ask: Asked, race: dict[str, Any], cause: int) -> str | None:
    """Which of a race's threads is refused, and why; the count comes first, and how many calls there are last."""
    may, (lawful,) = RACE["threads"]
    threads = race["threads"]
    if not isinstance(threads, list):
        return f"race: `threads` is {shown(threads)}; it must be {may}"
    if ask.cause_with(threads=[lawful] * len(threads)) == OUT_OF_RANGE:
        return f"race: `threads` has {len(threads)} threads; it must be {may}"
    for number, thread in enumerate(threads, 1):
        where = f"thread {number}"
        if not isinstance(thread, dict):
            return f"{where} is {shown(thread)}; it must be an object"
        # what stands in its calls has a place of its own
        bare = {**thread, "calls": []} if isinstance(thread.get("calls"), list) else thread
        if ask.cause_of_thread(bare) == cause:
            return of_object(ask.cause_of_thread, cause, bare, THREAD, where, "a thread")
    return of_count(race)


def of_script(ask: Asked, cause: int, script: dict[str, Any]) -> str | None:
    """A refusal of a play or a race that isn't one of an event or a call, in words."""
    word, keys = ask.word, SCRIPTS[ask.word]
    if cause != UNKNOWN:
        key = first_refused(keys, script, cause, ask.cause)
        if key == "founders" and key in script:
            return f"{word}: {of_founders(ask, script[key], cause)}; it must be {keys[key][0]}"
        if key == "threads" and key in script:
            return of_threads(ask, script, cause)
    said = of_object(ask.cause, cause, script, keys, word, f"a {word}")
    if not said and "threads" in script:
        return of_threads(ask, script, cause)
    return said


def explain(ask: Asked, data: bytes, cause: int, place: int) -> str:
    """A refusal in words."""
    if cause == NOT_JSON:
        return why_not_json(data)
    document, word = read(data), ask.word
    if place and word == "play":
        return of_event(ask.cause_of_event, cause, document["play"]["events"][place - 1], f"event {place}", EVENT)
    if place:
        return of_call(ask, cause, document["race"]["threads"], place)
    if not isinstance(document, dict):
        return f"the document is {shown(document)}; it must be an object with the one key `{word}`"
    if word not in document:
        other = next((other for other in SCRIPTS if other in document), None)
        if other:
            return f"the document: `{word}` isn't there; this is a {other}, for ./muoswyld {other}"
        return f"the document: `{word}` isn't there; it is the one key that a script has"
    script = document[word]
    if cause == UNKNOWN and len(document) > 1:
        others = listed([key for key in document if key != word])
        return f"the document: {others} stands beside `{word}`, which is the one key that a script has"
    if not isinstance(script, dict):
        return f"the document: `{word}` is {shown(script)}; it must be an object"
    return of_script(ask, cause, script) or f"{word}: which key it is, isn't known"


def of_call(ask: Asked, cause: int, threads: list[dict[str, Any]], place: int) -> str:
    """A refusal of a call in words, by its number over all threads."""
    number, before = 1, 0
    while before + len(threads[number - 1]["calls"]) < place:
        before += len(threads[number - 1]["calls"])
        number += 1
    call = threads[number - 1]["calls"][place - before - 1]
    return of_event(ask.cause_of_call, cause, call, f"call {place} (thread {number}, its call {place - before})", CALL)


def of_event(ask: Ask, cause: int, event: Any, where: str, form: Form) -> str:
    """A refusal of an event or a call in words."""
    kind, acts, _ = form
    if not isinstance(event, dict):
        return f"{where} is {shown(event)}; it must be an object"
    act = event.get("do")
    kind = f"a {act}" if type(act) is str and act in acts else kind
    kind = "an ask" if kind == "a ask" else kind
    return of_object(ask, cause, event, keys_of(event, form), where, kind) or f"{where}: which key it is, isn't known"


def quoted(line: bytes) -> str:
    """A line, or its beginning where it is long."""
    text = line.decode(errors="replace")
    return json.dumps(text if len(text) <= 80 else text[:76] + " ...")


def of_text(data: bytes, number: int) -> str:
    """What a text has at its bad line, and what may stand there."""
    *lines, rest = data.split(b"\n")
    before = lines[:number - 1]
    entries = sum(line.startswith(b"group ") for line in before)
    if before and re.match(b"lawful|void", before[-1]):
        may = "nothing: the last line stands before it"
    elif any(line.startswith(b"log ") for line in before):
        may = "a line of a log, or the last line, `lawful` or `void from K`"
    elif entries:
        may = f"`group {entries + 1} ENTRY`, a line of a log, or the last line, `lawful` or `void from K`"
    else:
        event = number - sum(line.startswith(b"{") for line in before[:1])
        may = f"`{event} ACT : OUTCOME` or `group 1 ENTRY`"
    if number <= len(lines):
        found = quoted(lines[number - 1])
    else:
        found = quoted(rest) + " without its end" if rest else "not there"
    return f"line {number} is {found}; there may stand {may}"


def word_of(data: bytes) -> str:
    """The word that a script is for, by its own key; `play` where it isn't told."""
    try:
        document = json.loads(data)
    except (ValueError, RecursionError):
        return "play"
    return "race" if isinstance(document, dict) and "race" in document and "play" not in document else "play"


def sentence(ask: Asked, data: bytes, status: int, said: str) -> str:
    """What there is to say of a script, or a text, that the program ended with a status for."""
    kind = "text" if ask.word == "audit" else "script"
    bad = re.fullmatch("bad text at ([0-9]+)", said)
    if bad:
        return of_text(data, int(bad[1]))
    told = refusal(status, said)
    if told:
        return explain(ask, data, *told)
    if is_taken(ask, status):
        return f"the program takes this {kind}, by the word {ask.word}"
    return {
        3: f"too long: a {kind} has at most {MOST_BYTES:,} bytes",
        7: "spent: the run would have more than 100,000 events, those that settle it among them",
    }.get(status, said or f"the program ended with {status}")


def is_taken(ask: Asked, status: int) -> bool:
    """Whether the program took what it read; of a text it may say that its logs disagree."""
    return status == 0 or (ask.word, status) == ("audit", 9)


def answer(ask: Asked, data: bytes) -> tuple[str, bool]:
    """What there is to say of a script, or a text, and whether the program takes it."""
    status, said = ask.say(data)
    return printable(sentence(ask, data, status, said)), is_taken(ask, status)


def wrong_words(program: str, word: str | None) -> str | None:
    """What is wrong with the words of a call; None where nothing is."""
    if word not in (None, *SCRIPTS, "audit"):
        return f"{word} isn't play, race or audit"
    if program == str(PROGRAM) and not PROGRAM.is_file():
        return f"there is no program {program}: ./muoswyld build builds it"
    if not os.path.isfile(program) or not os.access(program, os.X_OK):
        return f"{program} is no program; a script is read from standard input: tools/explain.py < SCRIPT"
    return None


def main() -> int:
    """Says what there is to say of what is read."""
    program, word, *_ = [*words(__doc__, 0, 2), None, None]
    program = program or str(PROGRAM)
    if wrong := wrong_words(program, word):
        print(f"explain.py: {wrong}", file=sys.stderr)
        return 2
    data = taken(MOST_BYTES + 1)
    said, takes = answer(Asked(os.path.abspath(program), word or word_of(data)), data)
    print(said)
    return 0 if takes else 1


if __name__ == "__main__":
    end(main)
