#!/usr/bin/env python3
"""Validates scripts against docs/script.schema.json, and tries that the schema agrees with the reader.

    tools/schema.py SCRIPT..                  says what is wrong with each script
    tools/schema.py --cases PROGRAM FOLDER..  tries the schema

With --cases, each script in the folders that has a text must be valid, and so must the schema's own examples. Each script with a NAME.cause
must not be, except for those of UNSAID: a schema can't say their causes, or their word isn't their key's. The least and the greatest value of
each number of a play's keys and of a race's must be valid, and `PROGRAM play` or `PROGRAM race` must take them. Values beyond these must not
be valid, and the program must refuse them.

It reads the keywords of JSON Schema that the schema has, and refuses others.
"""

import copy
import json
import pathlib
import re
import subprocess
import sys
from collections.abc import Callable, Iterator
from typing import Any, NoReturn

from words import end, printable, words

SCHEMA = pathlib.Path(__file__).resolve().parent.parent / "docs" / "script.schema.json"

# a schema sees the value of a number and not how it is written, nor how many calls all threads have, nor which word is asked for
UNSAID = {"node_exponent", "window_fraction", "race_calls_1001", "race_records_100002", "race_records_by_default", "race_document_play"}

# an object of JSON
Said = dict[str, Any]

TYPES: dict[str, Callable[[Any], bool]] = {
    "object": lambda v: isinstance(v, dict),
    "array": lambda v: isinstance(v, list),
    "string": lambda v: isinstance(v, str),
    "boolean": lambda v: isinstance(v, bool),
    "integer": lambda v: not isinstance(v, bool) and (isinstance(v, int) or isinstance(v, float) and v.is_integer()),
}
SAID_ELSEWHERE = {"$schema", "title", "description", "default", "examples", "$defs"}


def no_number(word: str) -> NoReturn:
    """Refuses a word that JSON doesn't have, such as NaN."""
    raise ValueError(f"{word} is no number")


def read(data: bytes) -> Any:
    """A document from bytes; a ValueError where they aren't JSON."""
    return json.loads(data.decode(), parse_constant=no_number)


class Schema:
    """A JSON Schema, and the values that it takes."""

    def __init__(self, text: bytes) -> None:
        """The schema of these bytes."""
        self.whole = read(text)

    def resolved(self, schema: Said) -> Said:
        """A schema itself, or the one that it refers to."""
        if "$ref" not in schema:
            return schema
        return self.whole["$defs"][schema["$ref"].removeprefix("#/$defs/")]

    def faults(self, value: Any, schema: Said | None = None, where: str = "") -> Iterator[str]:
        """What is wrong with a value, and where."""
        schema = self.resolved(self.whole if schema is None else schema)
        for word, said in schema.items():
            if word not in SAID_ELSEWHERE:
                yield from getattr(self, "of_" + word)(value, said, schema, where)

    def of_type(self, value: Any, said: str, schema: Said, where: str) -> Iterator[str]:
        """The value is of another type."""
        if not TYPES[said](value):
            yield f"{where or '/'}: {json.dumps(value)[:40]} is of another type than {said}"

    def of_properties(self, value: Any, said: Said, schema: Said, where: str) -> Iterator[str]:
        """The faults of an object's values."""
        for key in value if isinstance(value, dict) else ():
            if key in said:
                yield from self.faults(value[key], said[key], f"{where}/{key}")

    def of_required(self, value: Any, said: list[str], schema: Said, where: str) -> Iterator[str]:
        """An object lacks a key."""
        for key in said if isinstance(value, dict) else ():
            if key not in value:
                yield f"{where or '/'}: {key} isn't there"

    def of_additionalProperties(self, value: Any, said: bool, schema: Said, where: str) -> Iterator[str]:
        """An object has a key that doesn't belong there."""
        for key in value if isinstance(value, dict) and said is False else ():
            if key not in schema["properties"]:
                yield f"{where or '/'}: {key} doesn't belong there"

    def of_items(self, value: Any, said: Said, schema: Said, where: str) -> Iterator[str]:
        """The faults of an array's items."""
        for k, item in enumerate(value if isinstance(value, list) else ()):
            yield from self.faults(item, said, f"{where}/{k}")

    def of_minItems(self, value: Any, said: int, schema: Said, where: str) -> Iterator[str]:
        """An array is too short."""
        if isinstance(value, list) and len(value) < said:
            yield f"{where}: fewer than {said}"

    def of_maxItems(self, value: Any, said: int, schema: Said, where: str) -> Iterator[str]:
        """An array is too long."""
        if isinstance(value, list) and said < len(value):
            yield f"{where}: more than {said}"

    def of_uniqueItems(self, value: Any, said: bool, schema: Said, where: str) -> Iterator[str]:
        """An array has an item twice."""
        if said and isinstance(value, list) and len({json.dumps(item) for item in value}) < len(value):
            yield f"{where}: one stands there twice"

    def of_minimum(self, value: Any, said: int, schema: Said, where: str) -> Iterator[str]:
        """A number is too small."""
        if TYPES["integer"](value) and value < said:
            yield f"{where}: {value} is below {said}"

    def of_maximum(self, value: Any, said: int, schema: Said, where: str) -> Iterator[str]:
        """A number is too great."""
        if TYPES["integer"](value) and said < value:
            yield f"{where}: {value} is above {said}"

    def of_maxLength(self, value: Any, said: int, schema: Said, where: str) -> Iterator[str]:
        """A text is too long."""
        if isinstance(value, str) and said < len(value):
            yield f"{where}: longer than {said}"

    def of_pattern(self, value: Any, said: str, schema: Said, where: str) -> Iterator[str]:
        """A text is of another form."""
        if isinstance(value, str) and not re.search(said.replace("$", r"\Z"), value):
            yield f"{where}: {value[:40]!r} isn't of the form {said}"

    def of_const(self, value: Any, said: Any, schema: Said, where: str) -> Iterator[str]:
        """The value is another one."""
        if value != said:
            yield f"{where}: it isn't {said!r}"

    def of_oneOf(self, value: Any, said: list[Said], schema: Said, where: str) -> Iterator[str]:
        """Not exactly one of several schemas takes the value. The faults are those of the schema that the value's first key, or its `do`, means."""
        each = [(self.resolved(one), list(self.faults(value, one, where))) for one in said]
        if sum(not wrong for _, wrong in each) == 1:
            return
        key = value.get("do") if isinstance(value, dict) and "do" in value else next(iter(value), None) if isinstance(value, dict) else None
        meant = [wrong for one, wrong in each if one["properties"].get("do", {}).get("const") == key or key in list(one["properties"])]
        yield from meant[0] if meant else [f"{where or '/'}: it is none of the {len(said)} forms"]


def faults_of(schema: Schema, data: bytes) -> list[str]:
    """What is wrong with a script's bytes."""
    try:
        return list(schema.faults(read(data)))
    except (ValueError, RecursionError) as error:
        return [f"no JSON: {error}"]


def edges(schema: Schema) -> Iterator[tuple[Said, bool]]:
    """Scripts at and beyond the limits of each number, each with whether it is valid."""
    defs = schema.whole["$defs"]
    empty = {"founders": [0], "events": []}
    idle = {"founders": [0], "seed": 0, "turns": 1, "threads": [{"node": 0, "calls": []}]}
    yield from keys_around(schema, defs["play"], lambda keys: {"play": {**empty, **keys}})
    yield from keys_around(schema, defs["race"], lambda keys: {"race": {**idle, **keys}})
    for value, fits in around(schema, defs["place"]):
        yield {"play": {**empty, "founders": [value]}}, fits
    for event in defs["event"]["oneOf"]:
        yield from keys_around(schema, event, lambda keys: {"play": {**empty, "events": [{**lawful_in(schema, event), **keys}]}})
    yield from keys_around(schema, defs["thread"], lambda keys: {"race": {**idle, "threads": [{"node": 0, "calls": [], **keys}]}})
    for call in defs["call"]["oneOf"]:
        yield from keys_around(schema, call, lambda keys: {"race": {**idle, "threads": [{"node": 0, "calls": [{**lawful_in(schema, call), **keys}]}]}})


def keys_around(schema: Schema, said: Said, made: Callable[[Said], Said]) -> Iterator[tuple[Said, bool]]:
    """Scripts with each key of an object at and beyond its limits; `made` puts the key into a script."""
    for key, value in said["properties"].items():
        for one, fits in around(schema, schema.resolved(value)):
            yield made({key: one}), fits


def lawful_in(schema: Schema, said: Said) -> Said:
    """An object of this form with lawful values at all its keys."""
    return {key: lawful_of(schema.resolved(value)) for key, value in copy.deepcopy(said["properties"]).items()}


def items_of(schema: Schema, said: Said, count: int) -> list[Any]:
    """So many items of an array: of one that wants different ones the first numbers, else a lawful one again and again."""
    if said.get("uniqueItems"):
        return [*range(count)]
    item = schema.resolved(said["items"])
    item = item["oneOf"][-1] if "oneOf" in item else item
    lawful = {"node": 0, "calls": []} if "calls" in item["properties"] else lawful_in(schema, item)
    return [lawful] * count


def lawful_of(said: Said) -> Any:
    """A lawful value of a schema."""
    return said.get("const", said.get("minimum", ""))


def around(schema: Schema, said: Said) -> Iterator[tuple[Any, bool]]:
    """Values at and beyond the limits of a number, an array's length or a text's."""
    if said.get("type") == "integer":
        least, most = said["minimum"], said["maximum"]
        yield from ((least, True), (most, True), (most + 1, False), (least - 1, False))
    elif "maxLength" in said:
        yield from (("", True), ("0" * said["maxLength"], True), ("0" * (said["maxLength"] + 2), False))
    elif "maxItems" in said:
        most = said["maxItems"]
        yield items_of(schema, said, most), True
        yield items_of(schema, said, 0), said.get("minItems", 0) == 0
        yield [*items_of(schema, said, most), *items_of(schema, said, 1)], False


def is_taken(program: str, script: Said) -> bool:
    """Whether the program takes a script of the word that is its key."""
    ran = subprocess.run([program, next(iter(script))], input=json.dumps(script).encode(), stdout=subprocess.DEVNULL, stderr=subprocess.PIPE)
    return ran.returncode == 0


def try_cases(schema: Schema, program: str, folders: list[str]) -> Iterator[str]:
    """What is wrong with the schema."""
    for example in schema.whole["examples"]:
        yield from (f"an example: {wrong}" for wrong in schema.faults(example))
    scripts = sorted({script for folder in folders for script in pathlib.Path(folder).rglob("*.json")})
    for script in scripts:
        wrong = faults_of(schema, script.read_bytes())
        wanted = not script.with_suffix(".cause").exists() or script.stem in UNSAID
        if (not wrong) != wanted:
            yield f"{script}: {wrong or 'nothing is wrong'}"
    for absent in sorted(UNSAID - {script.stem for script in scripts}):
        yield f"there is no script {absent}"
    count = 0
    for made, fits in edges(schema):
        data = json.dumps(made).encode()
        answers = not faults_of(schema, data), is_taken(program, made)
        count += 1
        if answers != (fits, fits):
            yield f"valid, taken: {answers} and not {fits}: {data[:160].decode()}"
    print(f"{len(scripts)} scripts and {count} at limits tried; a schema can't say why these are refused: {', '.join(sorted(UNSAID))}")


def main(words: list[str]) -> int:
    """Validates scripts, or tries the schema."""
    schema = Schema(SCHEMA.read_bytes())
    if words[0] == "--cases":
        wrong = list(try_cases(schema, words[1], words[2:]))
    else:
        wrong = [f"{name}: {fault}" for name in words for fault in faults_of(schema, pathlib.Path(name).read_bytes())]
    for line in wrong:
        print(printable(line))
    return 1 if wrong else 0


if __name__ == "__main__":
    end(lambda: main(words(__doc__, 3 if "--cases" in sys.argv[1:2] else 1)))
