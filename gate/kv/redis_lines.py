"""Requests that a store is to answer as Redis does."""

import random

KEYS = ["a", "b", "k", "counter", "", "key with blanks"]
VALUES = ["", "1", "-5", "9223372036854775807", "x", "ab\r\n\0", "007", " 1"]
MOST = str(2**63 - 1)

# what clients ask, one after the other; what stands in it is asked of Redis, too
LINES: list[list[str]] = [line.split() for line in f"""\
flushall
ping
ping hello
ping a b
echo
echo x
get
get a
GET a b
set a
set a 1
SET a 2 NX
set a 2 XX
set a 3 GET
set b 3 NX GET
set b 4 XX GET
set a 1 NX XX
set a 1 foo
setnx a 5
setnx c 5
mset a 1 b
mset a 1 b 2
mget a b nothing
mget
incr a
incrby a 10
decr a
decrby a 3
incrby a x
incrby a {MOST}
decrby a -{MOST}
decrby a -9223372036854775808
append a x
incr a
append new value
strlen a
strlen nothing
getdel a
getdel a
exists b b c nothing
del b b c nothing
dbsize
keys *
keys n?w
keys n[a-f]w
scan x
scan 0 count
scan 0 count 0
scan 0 count x
scan 0 foo bar
scan 0 count 1000
scan 0 match n* count 1000
scan 0 type string count 1000
scan 0 type list count 1000
flushall foo
flushall sync
multi
multi
incr n
get n
ping
exec
exec
discard
multi
get
incr n
exec
multi
set n 5
discard
get n
multi
exec
multi
incr n
set n x
incr n
exec
hello 9
hello x
nothing
Nothing a b c
config get appendonly
config get save
config
config foo
command foo
quit now""".splitlines() if line != "quit now"]


def random_lines(draw: random.Random, count: int) -> list[list[str]]:
    """Random requests, most of which are right."""
    return [one(draw) for _ in range(count)]


def one(draw: random.Random) -> list[str]:
    """A random request."""

    def key() -> str:
        return draw.choice(KEYS)

    def value() -> str:
        return draw.choice(VALUES)

    def some(least: int) -> list[str]:
        return [key() for _ in range(draw.randint(least, 4))]

    options = draw.sample(["NX", "XX", "GET", "nx", "get"], draw.randint(0, 2)) if draw.random() < 0.5 else []
    requests = [
        ["set", key(), value(), *options],
        ["get", key()],
        ["setnx", key(), value()],
        ["getdel", key()],
        ["append", key(), value()],
        ["strlen", key()],
        [draw.choice(["incr", "decr"]), key()],
        [draw.choice(["incrby", "decrby"]), key(), value()],
        ["mset", *(word for name in some(0) for word in (name, value()))],
        ["mget", *some(0)],
        ["del", *some(0)],
        ["exists", *some(0)],
        ["dbsize"],
        ["keys", draw.choice(["*", "?", "[a-c]", "k*", "*e*", "\\a"])],
    ]
    if draw.random() < 0.02:
        return draw.choice([["flushall"], ["multi"], ["exec"], ["discard"], ["nothing", key()]])
    return draw.choice(requests)
