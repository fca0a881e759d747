#!/usr/bin/env python3
"""Tries muoswyld-kv by programs that know nothing of it: redis-cli, redis-benchmark, Python's redis client, and a Redis server whose replies
its own are compared with. Three stores run on this machine; each is killed and comes back while clients ask, and the group's list ends six
times meanwhile. What they were answered must be linearizable.

    gate/try_kv.py [PROGRAM [SECONDS [SEED]]]

PROGRAM is muoswyld-kv, with muoswyldd beside it: else those that are built here. SECONDS, 24 if it isn't said, is how long clients ask. What
is missing of Debian's packages is installed, if this is run by root, and else named in a line. It prints what fails, and how many parts
passed.
"""

import os
import pathlib
import random
import shutil
import socket
import subprocess
import sys
import tempfile
import time
from collections.abc import Callable

from kv import histories, linear
from kv.redis_lines import LINES, random_lines
from kv.resp import Client, Cut, Reply
from kv.stores import Failed, Stores, differences, free_port
from words import end, words

TOP = pathlib.Path(__file__).resolve().parent.parent
PATIENCE = 60.0
# the Python that Debian's packages are for
PYTHON = "/usr/bin/python3"
# what the client of Debian's package does, and what must come of it
BY_CLIENT = """\
import sys, redis
one, other = (redis.Redis(port=int(port)) for port in sys.argv[1:3])
one.flushall()
assert one.ping() and one.echo("a") == b"a"
assert one.set("k", "v") and other.get("k") == b"v"
assert one.set("k", "w", nx=True) is None and one.set("k", "w", xx=True, get=True) == b"v"
assert one.mset({"a": 1, "b": 2}) and other.mget("a", "b", "c") == [b"1", b"2", None]
assert other.incr("a", 5) == 6 and other.decr("a") == 5 and other.append("k", "x") == 2 and other.strlen("k") == 2
assert one.setnx("k", "z") is False and one.getdel("k") == b"wx" and one.exists("k", "a") == 1
many = one.pipeline(transaction=False)
for k in range(5000):
    many.set(f"key {k}", "x" * (k % 50))
assert all(many.execute())
assert set(other.scan_iter("key *", count=100)) == {b"key %d" % k for k in range(5000)} and other.dbsize() == 5002
together = one.pipeline()
together.incr("n").incr("n").get("n").echo("e")
assert together.execute() == [1, 2, b"2", b"e"]
assert set(one.keys("[ab]")) == {b"a", b"b"} and one.delete("a", "b", "c") == 2
assert one.set("long", "l" * 65536) and len(other.get("long")) == 65536
try:
    one.set("long", "l" * 65537)
    sys.exit("a value that is too long was taken")
except redis.ResponseError as error:
    assert "exceeds maximum allowed size" in str(error)
assert one.info()["muoswyld_ready"] == 1 and one.config_get("maxmemory")["maxmemory"] == "268435456"
assert len(one.command()) > 20
print("done")
"""


def missing() -> list[str]:
    """The packages of Debian that are needed and aren't there."""
    needed = {"redis-tools": all(map(shutil.which, ("redis-cli", "redis-benchmark", "redis-check-rdb")))}
    client = subprocess.run([PYTHON, "-c", "import redis"], capture_output=True, check=False)
    needed["python3-redis"] = client.returncode == 0
    return [package for package, is_there in needed.items() if not is_there]


def install() -> None:
    """Has Debian's packages there, or says which are missing."""
    packages = missing()
    if not packages:
        return
    command = ["apt-get", "install", "-y", "--no-install-recommends", *packages]
    if os.geteuid() == 0 and shutil.which("apt-get"):
        quiet = {"stdout": subprocess.DEVNULL, "stderr": subprocess.DEVNULL}
        subprocess.run(["apt-get", "update"], check=False, **quiet)
        subprocess.run(command, check=False, env={**os.environ, "DEBIAN_FRONTEND": "noninteractive"}, **quiet)
    if packages := missing():
        raise Failed(f"packages of Debian are missing: apt-get install {' '.join(packages)}")


def run(*command: object, text: str | None = None) -> str:
    """What a program writes; Failed if it fails."""
    given = [str(word) for word in command]
    done = subprocess.run(given, input=text, capture_output=True, text=True, timeout=10 * PATIENCE, check=False)
    if done.returncode:
        raise Failed(f"{given[:6]} ended with {done.returncode}: {done.stdout[-500:]}{done.stderr[-1500:]}")
    return done.stdout


class Redis:
    """A Redis server of Debian's package, which is the program of redis-check-rdb by another name."""

    def __init__(self, folder: pathlib.Path):
        self.folder = folder

    def __enter__(self) -> int:
        port = free_port(socket.SOCK_STREAM)
        given = ["redis-server", "--port", str(port), "--bind", "127.0.0.1", "--save", "", "--dir", str(self.folder)]
        self.process = subprocess.Popen(given, executable=shutil.which("redis-check-rdb"), stdout=subprocess.DEVNULL)
        until = time.monotonic() + PATIENCE
        while time.monotonic() < until:
            try:
                Client(port).close()
                return port
            except Cut:
                time.sleep(0.05)
        raise Failed("redis-server doesn't begin")

    def __exit__(self, *_: object) -> None:
        self.process.kill()
        self.process.wait()


def shown(word: str, reply: Reply) -> Reply:
    """A reply with its keys in order, where their order doesn't matter."""
    if word == "keys" and isinstance(reply, list):
        return sorted(reply)
    if word == "scan" and isinstance(reply, list) and isinstance(reply[1], list):
        return [reply[0], sorted(reply[1])]
    return reply


def as_redis(stores: Stores, seed: int) -> list[str]:
    """Replies to the same requests are those of Redis."""
    wrong = []
    with Redis(stores.folder) as port:
        client, redis = Client(stores.ports[0]), Client(port)
        for line in [*LINES, *random_lines(random.Random(seed), 3000)]:
            word = line[0].lower()
            ours, theirs = shown(word, client.ask(*line)), shown(word, redis.ask(*line))
            if (type(ours), ours) != (type(theirs), theirs):
                wrong.append(f"{line!r:.200} is answered {ours!r:.200}, by Redis {theirs!r:.200}")
        for text in (b"*1\r\nx\r\n", b"*x\r\n", b"*1\r\n$x\r\n", b'set "a\r\n', b"ping\r\n", b"set 'a b' \"c\\x41\"\r\nget 'a b'\r\n"):
            wrong += compare_bytes(stores.ports[0], port, text)
    return wrong[:20]


def compare_bytes(port: int, redis_port: int, text: bytes) -> list[str]:
    """Whether bytes are answered as by Redis."""
    replies = []
    for one in (port, redis_port):
        client = Client(one)
        client.push(text)
        replies.append(client.reply())
        client.close()
    return [] if replies[0] == replies[1] else [f"{text!r} is answered {replies[0]!r}, by Redis {replies[1]!r}"]


def by_cli(stores: Stores, _: int) -> list[str]:
    """redis-cli works: commands of its words, of standard input, and its scan."""
    cli = ["redis-cli", "-p", stores.ports[1]]
    wrong = []
    for words_of, answer in [("flushall", "OK"), ("set a 1", "OK"), ("incr a", "2"), ("get a", "2"), ("echo x", "x"), ("dbsize", "1")]:
        said = run(*cli, *words_of.split()).strip()
        if said != answer:
            wrong.append(f"redis-cli {words_of}: {said}")
    said = run(*cli, text="multi\nincr a\nget a\nexec\n")
    if said.split() != "OK QUEUED QUEUED 3 3".split():
        wrong.append(f"redis-cli: {said!r}")
    if run(*cli, "--scan").split() != ["a"] or "muoswyld_lag:" not in run(*cli, "info", "replication"):
        wrong.append("redis-cli --scan or info")
    return wrong


def by_benchmark(stores: Stores, _: int) -> list[str]:
    """redis-benchmark runs to its end, with and without pipelines."""
    wrong = []
    for more in (["-n", "3000"], ["-n", "20000", "-P", "16", "-r", "1000"], ["-n", "500", "-c", "1"], ["-n", "2000", "-d", "4000"]):
        tests = "ping_inline,ping_mbulk,set,get,incr,mset"
        said = run("redis-benchmark", "-p", stores.ports[2], "-q", "-t", tests, *more)
        if said.count("requests per second") != 6 or "rror" in said:
            wrong.append(f"redis-benchmark {more}: {said}")
    return wrong


def by_python(stores: Stores, _: int) -> list[str]:
    """Python's redis client works, with pipelines and transactions, by two stores."""
    said = run(PYTHON, "-c", BY_CLIENT, stores.ports[0], stores.ports[2])
    return [] if said == "done\n" else [f"Python's client: {said}"]


def with_kills(stores: Stores, seed: int, seconds: float) -> list[str]:
    """Histories under kills and ends of lists are linearizable, and the stores are the same at the end."""
    wrong = histories.faults(histories.kept(stores, seed, lambda: histories.kills(stores, seconds)))
    return wrong + differences(stores)


def main() -> str | int:
    """Tries all of it."""
    given = words(__doc__, 0, 3)
    built = TOP / "runtime" / "target" / "release" / "muoswyld-kv"
    program = pathlib.Path(given[0]).resolve() if given else built
    seconds = float(given[1]) if len(given) > 1 else 24.0
    seed = int(given[2]) if len(given) > 2 else 1
    wrong = linear.self_test()
    passed = 0 if wrong else 1
    try:
        install()
        with tempfile.TemporaryDirectory(prefix="muoswyld-kv-") as folder, Stores(pathlib.Path(folder), program, PATIENCE) as stores:
            parts: list[Callable[[Stores, int], list[str]]] = [as_redis, by_cli, by_python, by_benchmark]
            parts.append(lambda stores, seed: with_kills(stores, seed, seconds))
            for part in parts:
                try:
                    found = part(stores, seed)
                except (Failed, Cut, subprocess.SubprocessError) as failed:
                    found = [str(failed)]
                print(*found, sep="\n", end="\n" if found else "", flush=True)
                passed += not found
                wrong += found
    except Failed as failed:
        print(failed)
        wrong.append(str(failed))
    print(f"{passed} parts passed")
    return 1 if wrong else 0


if __name__ == "__main__":
    end(main)
