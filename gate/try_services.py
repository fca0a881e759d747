#!/usr/bin/env python3
"""Compares what the program writes of messages and directories with tools/services.py.

    try_services.py PROGRAM [--count N] [--seed N] FOLDER..

It takes the scripts of the folders, as they are and with other bodies in their sends: commands of few keys, parts of messages in order and out of it,
snapshots that a node of the same run could send, and bytes that are none of these. For each it compares what `messages`, `directory` and `snapshots`
write with what the other program makes of the text of `play`; and for random messages it compares `parts`. It prints what differs, how many scripts were
alike, and how many messages, keys, waiting and restored replicas they had. Then come the longest messages, and keys and values at their limits, with
what docs/ says of them. Last it calls tools/services.py itself, with a text and with other input.
"""

import argparse
import collections
import json
import pathlib
import random
import sys

import services
from running import run

WORDS = ("messages", "directory", "snapshots")
# the longest message, and what a part has of one
MOST_MESSAGE, SHARE = 65_535, 1_019


def lines_of(program: str, word: str, given: bytes) -> tuple[int, list[str]]:
    """The status of a call, and the lines that it wrote."""
    done = run([program, word], given)
    return done.returncode, done.stdout.decode().splitlines()


def command(draw: random.Random) -> bytes:
    """A command of one of a few keys, or nearly one."""
    key = bytes([draw.randrange(97, 101)]) * draw.choice((0, 1, 1, 1, 2, 32, 33))
    value = bytes(draw.randrange(256) for _ in range(draw.choice((0, 1, 3, 64, 65))))
    kind = draw.choice((1, 1, 2, 3, 3, 5))
    body = bytes([kind, len(key)]) + key + (b"" if kind == 2 else bytes([len(value)]) + value)
    return body + (b"x" if draw.random() < 0.05 else b"")


def message_parts(draw: random.Random) -> list[bytes]:
    """The parts of a message, now and then with one left out, twice, or changed."""
    parts = services.parts(bytes([draw.randrange(97, 123)]) * draw.choice((0, 2, 1_019, 1_020, 2_500)))
    if draw.random() < 0.2:
        at = draw.randrange(len(parts))
        instead: list[list[bytes]] = [[], [parts[at]] * 2, [parts[at][:-1]]]
        parts[at : at + 1] = draw.choice(instead)
    return parts


def with_bodies(script: dict, sent: list[str], draw: random.Random) -> dict:
    """The script with other bodies; `sent` are parts of snapshots that nodes of it could send, in order."""
    play = json.loads(json.dumps(script))
    begun: dict[int, list[bytes]] = collections.defaultdict(list)
    snapshots = [bytes.fromhex(part) for part in sent]
    for event in play["play"]["events"]:
        if event["do"] != "send":
            continue
        if begun[event["node"]]:
            body = begun[event["node"]].pop(0)
        elif snapshots and draw.random() < 0.3:
            body = snapshots.pop(draw.randrange(min(2, len(snapshots))))
        elif draw.random() < 0.25:
            begun[event["node"]] = message_parts(draw)
            body = begun[event["node"]].pop(0) if begun[event["node"]] else b""
        else:
            body = command(draw)
        event["body"] = body[:1024].hex()
    return play


def faults(program: str, script: bytes, seen: collections.Counter) -> list[str]:
    """What differs for a script, or that it isn't played; counts what is in it."""
    status, text = lines_of(program, "play", script)
    if status != 0:
        return [f"play: status {status}"]
    found = []
    for word in WORDS:
        wanted = list({"messages": services.messages, "directory": services.directory, "snapshots": services.snapshots}[word](text))
        if (ended := lines_of(program, word, script)) != (0, wanted):
            found.append(f"{word}: status {ended[0]}, {[pair for pair in zip(ended[1], wanted) if pair[0] != pair[1]][:2]}")
        for line in wanted:
            kind = line.split(" ")[0]
            seen["waiting" if line.endswith(" waiting") else kind] += 1
    return found


def alone(bodies: list[bytes]) -> bytes:
    """The script in which place 0, alone in its group, sends bodies and takes all."""
    events = [{"do": "take", "node": 0}]
    for number, body in enumerate(bodies, 1):
        events += [{"do": "send", "node": 0, "body": body.hex()}, {"do": "done", "node": 0, "req": number}, {"do": "take", "node": 0}]
    return json.dumps({"play": {"founders": [0], "events": events}}).encode()


def message_faults(program: str) -> list[str]:
    """What is wrong with the longest messages: a message that is cut into its parts is the one that ends with the last of them; one
    byte more is too long, and a part of it is a plain body."""
    found = []
    for size in (0, 1, SHARE, SHARE + 1, MOST_MESSAGE - 1, MOST_MESSAGE, MOST_MESSAGE + 1):
        message = bytes(k * k % 251 for k in range(size))
        shares = [message[at : at + SHARE] for at in range(0, size, SHARE)] or [b""]
        parts = [b"S" + k.to_bytes(2, "big") + len(shares).to_bytes(2, "big") + share for k, share in enumerate(shares)]
        fits = size <= MOST_MESSAGE
        done = run([program, "parts"], message)
        wanted = (0, "".join(f"{part.hex()}\n" for part in parts).encode(), b"") if fits else (3, b"", b"too long\n")
        if (done.returncode, done.stdout, done.stderr) != wanted:
            found.append(f"parts of {size} bytes: status {done.returncode}, {done.stderr!r}")
        ends = [f"message 0 {len(parts) + 1} 0 {message.hex() or '-'}"] if fits else []
        if (got := lines_of(program, "messages", alone(parts))) != (0, [*ends, "lawful"]):
            found.append(f"the message of {size} bytes: status {got[0]}, {[line[:60] for line in got[1]]}")
    return found


def key_faults(program: str) -> list[str]:
    """What is wrong with keys of 1 to 32 bytes and values of 0 to 64, and of one byte less or more: those are no commands."""
    put = lambda key, value, kind=1: bytes([kind, len(key)]) + key + bytes([len(value)]) + value
    delete = lambda key: bytes([2, len(key)]) + key
    bodies = [delete(b""), put(b"", b"v"), put(b"", b"w", 3), put(b"k" * 33, b"v"), put(b"k" * 33, b"v", 3), put(b"a", b"v" * 65), put(b"a", b"v" * 65, 3)]
    bodies += [put(b"b", b""), put(b"k" * 32, b"v" * 64), put(b"c", b"v" * 64, 3), put(b"d", b"v"), delete(b"d")]
    front = len(bodies) + 1
    wanted = [f"directory 0 {front} 3", f"name 0 62 - {front - 4}", f"name 0 63 {'76' * 64} {front - 2}", f"name 0 {'6b' * 32} {'76' * 64} {front - 3}", "lawful"]
    got = lines_of(program, "directory", alone(bodies))
    return [] if got == (0, wanted) else [f"directory: status {got[0]}, {got[1]}"]


def tool_faults(program: str) -> list[str]:
    """What is wrong with calls of the tool: with the text of a play it does as the program with its script, else it says that it is none."""
    top = pathlib.Path(__file__).resolve().parent.parent
    script = (top / "scripts" / "snapshot.json").read_bytes()
    text = run([program, "play"], script).stdout
    found = []
    for word, given, wanted in (
        ("directory", text, 0),
        ("messages", script, 1),
        ("directory", script, 1),
        ("snapshots", b"", 1),
        ("snapshots", b"\xff\n", 1),
        ("directory", b"group 1 data 0 1 61\nlawful\n", 1),
        ("messages", text[:-1], 1),
    ):
        done = run([top / "tools" / "services.py", word], given)
        same = lines_of(program, word, script) == (0, done.stdout.decode().splitlines())
        told = b"no text of a play" in done.stderr and done.stderr.count(b"\n") == 1 and not done.stdout
        if done.returncode != wanted or not (same if wanted == 0 else told):
            found.append(f"tools/services.py {word} < {given[:40]!r}: {done.returncode}, {done.stdout[:80]!r}, {done.stderr[-200:]!r}")
    return found


def scripts_of(folders: list[str]) -> list[dict]:
    """The plays of the folders that are scripts."""
    found = []
    for folder in folders:
        for path in sorted(pathlib.Path(folder).glob("*.json")):
            if not path.with_suffix(".cause").exists():
                found.append(json.loads(path.read_bytes()))
    return [script for script in found if "play" in script]


def main() -> int:
    """Tries so many scripts; 1 where something differs."""
    reads = argparse.ArgumentParser(description=__doc__, formatter_class=argparse.RawDescriptionHelpFormatter)
    reads.add_argument("program")
    reads.add_argument("folders", nargs="+")
    reads.add_argument("--count", type=int, default=300)
    reads.add_argument("--seed", type=int, default=1)
    asked = reads.parse_args()
    draw = random.Random(asked.seed)
    scripts = scripts_of(asked.folders)
    if not scripts:
        reads.error("there is no script of a play in these folders")
    seen: collections.Counter = collections.Counter()
    failed = 0
    for number in range(asked.count):
        script = scripts[number % len(scripts)]
        sent: list[str] = []
        for _ in range(3 if number >= len(scripts) else 1):
            given = json.dumps(script if number < len(scripts) else with_bodies(script, sent, draw)).encode()
            for fault in faults(asked.program, given, seen):
                print(f"script {number}: {fault}\n{given.decode()[:2000]}")
                failed += 1
            sent = [line.split(" ")[3] for line in lines_of(asked.program, "snapshots", given)[1] if line.startswith("snapshot ")]
        message = bytes(draw.randrange(256) for _ in range(draw.choice((0, 1, 1_018, 1_019, 1_020, 5_000, draw.randrange(65_536)))))
        if lines_of(asked.program, "parts", message) != (0, [part.hex() for part in services.parts(message)]):
            print(f"the parts of a message of {len(message)} bytes differ")
            failed += 1
    for fault in message_faults(asked.program) + key_faults(asked.program) + tool_faults(asked.program):
        print(fault)
        failed += 1
    if asked.count > len(scripts) and not all(seen[kind] for kind in ("message", "directory", "name", "waiting", "snapshot")):
        print(f"nothing to compare of some kind: {dict(seen)}")
        failed += 1
    print(f"gate/try_services.py: {asked.count} scripts, {failed} differ; {dict(seen)}")
    return 1 if failed else 0


if __name__ == "__main__":
    sys.exit(main())
