"""Runs the program once for each status and each way to it, and checks the whole line on standard error, the status and the output.
Then it runs the program with the memory and the stack that docs/SCRIPTS.md states, on the input that takes the most.

Usage: statuses.py PROGRAM
"""

import os
import resource
import subprocess
import sys
import tempfile
from collections.abc import Callable, Sequence
from typing import IO, Any

from words import words

# the words of a call; and a status with a line on standard error
Words = Sequence[str | bytes]
Line = tuple[int, bytes]

FOUNDERS = b'{"play":{"founders":[0],"events":['
TICK = b'{"do":"tick","node":0}'
SMALL = FOUNDERS + b"]}}"


def script(*events: bytes) -> bytes:
    """A play of these events."""
    return FOUNDERS + b",".join(events) + b"]}}"


def settled(count: int) -> bytes:
    """So many ticks, and then the whole settling."""
    return b'{"play":{"founders":[0],"settle":true,"events":[' + b",".join([TICK] * count) + b"]}}"


TEXT = b"group 1 view 1.0 0\nlog 0 empty\nlawful\n"
LONG_WORD = "gen" * 100
USAGE = "usage: play | race | gen --seed N --count 1..100000 [--script] | audit | parts | messages | directory | snapshots | node --name PLACE[/LIFE] --founders PLACE,.. [--resilience 0..15] [--window 1..1008] [--pb-up-to 0..1024]"
GROUP = b"group 1 view 1.0 0\n"
RACE = b'{"race":{"founders":[0],"seed":1,"threads":[{"node":0,"calls":[{"do":"send","body":"61"},{"do":"take"}]}]}}'
RACE_OF_TWO = b'{"race":{"founders":[0],"seed":1,"threads":[{"node":0,"calls":[{"do":"take"}]},{"node":0,"calls":[{"do":"take"}]}]}}'
RACED = b"""\
{"play":{"events":[{"body":"61","do":"send","node":0},{"do":"done","node":0,"req":1},{"do":"take","node":0}],"founders":[0],"pb_up_to":256,"resilience":0,"window":64}}
1 send 0 61 : queued 1
2 done 0 1 : sent 1 2
3 take 0 : took 1 view 1.0 0
group 1 view 1.0 0
group 2 data 0 1 61
log 0 1 view 1.0 0
lawful
"""
SUMMARY = b"events 50\npackets 18\nentries 2\ntook 5\nsent 0\nheld 0\nlawful\n"


def gen(seed: str, count: str) -> list[str]:
    """The words of a generated run."""
    return ["gen", "--seed", seed, "--count", count]


# the words, the input, the line on standard error, the status, and what is written
CASES: list[tuple[Words, bytes, str, int, bytes]] = [
    (["play"], SMALL, "", 0, TEXT),
    ([], SMALL, USAGE, 1, b""),
    ([""], SMALL, USAGE, 1, b""),
    (["Play"], SMALL, USAGE, 1, b""),
    # words that aren't UTF-8
    ([b"\xff"], SMALL, USAGE, 1, b""),
    ([b"play\xff"], SMALL, USAGE, 1, b""),
    (["play", b"\xc3\x28"], SMALL, USAGE, 1, b""),
    (["node", "--name", b"\xed\xa0\x80", "--founders", "0"], b"", USAGE, 1, b""),
    (["Pläy"], SMALL, USAGE, 1, b""),
    (["play", "play"], SMALL, USAGE, 1, b""),
    (["race", "race"], RACE, USAGE, 1, b""),
    (["Race"], RACE, USAGE, 1, b""),
    (["race"], RACE, "", 0, RACED),
    (["race"], b"", "bad script 1 at 0", 2, b""),
    (["race"], SMALL, "bad script 2 at 0", 2, b""),
    (["play"], RACE, "bad script 2 at 0", 2, b""),
    (["race"], RACE.replace(b"take", b"tick"), "bad script 4 at 2", 2, b""),
    (["race"], RACE.replace(b'"seed":1', b'"seed":1,"turns":0'), "bad script 5 at 0", 2, b""),
    (["race"], b" " * 16777217, "too long", 3, b""),
    ([LONG_WORD], SMALL, USAGE, 1, b""),
    (gen("1", "50"), SMALL, "", 0, SUMMARY),
    (["gen", "--count", "0050", "--seed", "1"], b"{", "", 0, SUMMARY),
    (["gen"], SMALL, USAGE, 1, b""),
    (["gen", "--seed", "1"], SMALL, USAGE, 1, b""),
    (["gen", "--seed", "1", "--seed", "1"], SMALL, USAGE, 1, b""),
    (gen("1", "50") + ["x"], SMALL, USAGE, 1, b""),
    (gen("1", "0"), SMALL, USAGE, 1, b""),
    (gen("1", "100001"), SMALL, USAGE, 1, b""),
    (gen("18446744073709551616", "1"), SMALL, USAGE, 1, b""),
    (gen("1", "+5"), SMALL, USAGE, 1, b""),
    (["play"], b"", "bad script 1 at 0", 2, b""),
    (["play"], SMALL[:-1], "bad script 1 at 0", 2, b""),
    (["play"], script(TICK, b'{"do":"send","node":0}'), "bad script 2 at 2", 2, b""),
    (["play"], script(TICK, TICK, b'{"do":"tick","node":0,"body":""}'), "bad script 3 at 3", 2, b""),
    (["play"], script(TICK, b'{"do":"send","node":0,"body":"a"}'), "bad script 4 at 2", 2, b""),
    (["play"], script(TICK, b'{"do":"tick","node":16}'), "bad script 5 at 2", 2, b""),
    (["play"], b" " * 16777217, "too long", 3, b""),
    (["play"], b" " * 16777216, "bad script 1 at 0", 2, b""),
    (["play"], settled(100000), "spent", 7, b""),
    (["messages"], FOUNDERS + b'{"do":"send","node":0,"body":"5300000001"},{"do":"take","node":0},{"do":"take","node":0}]}}', "", 0, b"message 0 2 0 -\nlawful\n"),
    (["messages"], b"", "bad script 1 at 0", 2, b""),
    (["directory"], FOUNDERS + b'{"do":"send","node":0,"body":"01016b00"},{"do":"take","node":0},{"do":"take","node":0}]}}', "", 0, b"directory 0 2 1\nname 0 6b - 2\nlawful\n"),
    (["directory"], RACE, "bad script 2 at 0", 2, b""),
    (["snapshots"], SMALL, "", 0, b"lawful\n"),
    (["snapshots"], script(*[TICK] * 100001), "spent", 7, b""),
    (["parts"], b"", "", 0, b"5300000001\n"),
    (["parts"], b"ab", "", 0, b"53000000016162\n"),
    (["parts"], b"z" * 65536, "too long", 3, b""),
    (["parts", "parts"], b"", USAGE, 1, b""),
    (["gen", "--seed", "1", "--count", "1", "--script", "x"], b"", USAGE, 1, b""),
    (["audit"], RACED, "", 0, b"agrees\n"),
    (["audit"], TEXT, "", 0, b"lists-agree\n"),
    (["audit"], TEXT.replace(b"lawful", b"void from 1"), "", 0, b"lists-agree void from 1\n"),
    (["audit"], RACED.replace(b"sent 1 2", b"sent 1 1"), "", 9, b"lost 0 1\n"),
    (["audit"], GROUP + b"log 0 1 view 1.0 0\nlog 0 3 leave 0\nvoid from 2\n", "", 9, b"gap 0 3 void from 2\n"),
    (["audit"], b"", "bad text at 1", 8, b""),
    (["audit"], SMALL, "bad text at 1", 8, b""),
    (["audit"], TEXT[:-1], "bad text at 3", 8, b""),
    (["audit"], b"{" * 16777216, "bad text at 1", 8, b""),
    (["audit"], b" " * 16777217, "too long", 3, b""),
    (["audit", "audit"], TEXT, USAGE, 1, b""),
    (["Audit"], TEXT, USAGE, 1, b""),
]

# words that have no form, one line each
NO_FORMS = """\
directories
parts --script
gen --script --seed 1 --count
gen --script --script --seed 1 --count
audit x
race x
play x
gen --seed x --count 5
gen --seed +1 --count 5
gen --seed -1 --count 5
gen --seed  --count 5
gen --seed 000000000000000000001 --count 5
node
node --name
node --name 1
node --founders 0
node --name 1 --founders -
node --name 1 --founders 0/2
node --name 1 --founders 1,0
node --name 16 --founders 0
node --name 01 --founders 0
node --name 1 --founders 0 --name 1
node --name 1 --founders 0 --window 0
node --name 1 --founders 0 --window 1009
node --name 1 --founders 0 --resilience 16
node --name=1 --founders=0
"""
CASES += [(words.split(" "), b"", USAGE, 1, b"") for words in NO_FORMS.splitlines()]

# words of nodes, which are given no line
NODES = """\
node --name 1 --founders 0,1,2
node --window 1008 --founders 0 --name 15/16
node --pb-up-to 1024 --resilience 15 --name 0 --window 1 --founders 3,7
"""
CASES += [(words.split(" "), b"", "", 0, b"") for words in NODES.splitlines()]
NODE = NODES.splitlines()[0].split(" ")


def status_of(program: str, words: Words, **how: Any) -> int:
    """The program's status."""
    return subprocess.call([program, *words], timeout=110, **how)


def tell(failed: list[str], name: str, got: Any, wanted: Any) -> None:
    """Notes and prints a try that failed."""
    if got != wanted:
        print(f"refused: {name} gave {got} and not {wanted}")
        failed.append(name)


def on_its_input(program: str, failed: list[str]) -> None:
    """Tries all cases."""
    for words, text, line, status, written in CASES:
        with tempfile.TemporaryFile() as source, tempfile.TemporaryFile() as told, tempfile.TemporaryFile() as out:
            source.write(text)
            source.seek(0)
            got = status_of(program, words, stdin=source, stdout=out, stderr=told)
            told.seek(0)
            out.seek(0)
            wanted = (status, (line + "\n").encode() if line else b"", written)
            tell(failed, f"{words} on {text[:60]!r}", (got, told.read(), out.read()), wanted)


def where_something_fails(program: str, failed: list[str]) -> None:
    """A directory as input, a full or closed output, a full or closed standard error, little memory, and no threads."""
    folder = os.open("/", os.O_RDONLY)
    full = os.open("/dev/full", os.O_WRONLY)
    nothing = subprocess.DEVNULL
    empty, _writes = os.pipe()
    os.set_blocking(empty, False)

    def line(words: Words, source: Any, sink: Any, **how: Any) -> Line:
        """The status, and the line on standard error."""
        done = subprocess.run([program, *words], stdin=source, stdout=sink, stderr=subprocess.PIPE, timeout=110, check=False, **how)
        return done.returncode, done.stderr

    with tempfile.TemporaryFile() as small, tempfile.TemporaryFile() as large:
        small.write(SMALL)
        large.write(script(*[TICK] * 100000))

        def again(source: IO[bytes]) -> IO[bytes]:
            """An input, from its beginning."""
            source.seek(0)
            return source

        tell(failed, "a directory", line(["play"], folder, nothing), (4, b"read fault\n"))
        tell(failed, "a directory for race", line(["race"], folder, nothing), (4, b"read fault\n"))
        tell(failed, "a directory that gen doesn't read", line(gen("1", "50"), folder, nothing), (0, b""))
        tell(failed, "a full device", line(["play"], again(small), full), (5, b"write fault\n"))
        with tempfile.TemporaryFile() as race:
            race.write(RACE)
            tell(failed, "a full device for race", line(["race"], again(race), full), (5, b"write fault\n"))
        tell(failed, "a pipe without data that doesn't wait", line(["play"], empty, nothing), (4, b"read fault\n"))
        tell(failed, "a pipe without data that doesn't wait, for node", line(NODE, empty, nothing), (4, b"read fault\n"))
        with tempfile.TemporaryFile() as race:
            race.write(RACE_OF_TWO)
            tell(failed, "a race", line(["race"], again(race), nothing), (0, b""))
            tell(failed, "a race without threads", without_threads(line, ["race"], again(race)), (6, b"no memory\n"))
        tell(failed, "a directory for audit", line(["audit"], folder, nothing), (4, b"read fault\n"))
        with tempfile.TemporaryFile() as text:
            text.write(TEXT)
            tell(failed, "a full device for audit", line(["audit"], again(text), full), (5, b"write fault\n"))
        tell(failed, "a full device for gen", line(gen("1", "50"), again(small), full), (5, b"write fault\n"))
        tell(failed, "usage to a full device", status_of(program, ["x"], stdin=again(small), stdout=nothing, stderr=full), 1)
        closed = status_of(program, ["x"], stdin=again(small), stdout=nothing, preexec_fn=lambda: os.close(2))
        tell(failed, "usage with standard error closed", closed, 1)
        closed = status_of(program, ["play"], stdin=again(small), stdout=nothing, preexec_fn=lambda: os.close(2))
        tell(failed, "a script with standard error closed", closed, 0)
        tell(failed, "little memory", with_memory(line, ["play"], again(large)), (6, b"no memory\n"))
        tell(failed, "little memory for gen", with_memory(line, gen("1", "100000"), again(small)), (6, b"no memory\n"))


def with_memory(line: Callable[..., Line], words: Words, source: IO[bytes], most: int = 24 << 20) -> Line:
    """The program's answer with so many bytes of memory, 24 megabytes."""
    return line(words, source, subprocess.DEVNULL, preexec_fn=lambda: resource.setrlimit(resource.RLIMIT_AS, (most, most)))


# the limits that docs/SCRIPTS.md states: the memory for what is read, of which nothing is a script, and the stack
A_BYTE, BESIDES, STACK = 76, 8 << 20, 448 << 10
# what takes the most memory for its size, and its line
NESTED = b"[" * 120 + b"]" * 120
LARGE = {
    "nested arrays": (b"[%s]", NESTED, "bad script 4 at 0"),
    "nested arrays as events": (FOUNDERS + b"%s]}}", NESTED, "bad script 4 at 1"),
    "nested objects": (b"[%s]", b'{"":' * 120 + b"[]" + b"}" * 120, "bad script 4 at 0"),
    "arrays of a number": (b"[%s]", b"[0]", "bad script 4 at 0"),
    "arrays that have no end": (b"%s", b"[" * 300, "bad script 1 at 0"),
    "numbers": (b'{"play":{"founders":[%s],"events":[]}}', b"0", "bad script 5 at 0"),
}


def within_limits(program: str, failed: list[str]) -> None:
    """The stated memory suffices to refuse input that is no script, and the stated stack suffices for each word."""
    for name, (frame, part, line) in LARGE.items():
        text = frame % b",".join([part] * ((2 << 20) // (len(part) + 1)))
        most = BESIDES + A_BYTE * len(text)
        ran = subprocess.run([program, "play"], input=text, capture_output=True, timeout=110, check=False, preexec_fn=lambda: resource.setrlimit(resource.RLIMIT_AS, (most, most)))
        tell(failed, f"{name} with {most} bytes of memory", (ran.returncode, ran.stderr), (2, f"{line}\n".encode()))
    for words, text, written in [(["play"], SMALL, TEXT), (["race"], RACE, RACED), (["audit"], RACED, b"agrees\n"), (gen("1", "50"), b"", SUMMARY)]:
        ran = subprocess.run([program, *words], input=text, capture_output=True, timeout=110, check=False, preexec_fn=lambda: resource.setrlimit(resource.RLIMIT_STACK, (STACK, STACK)))
        tell(failed, f"{words} with {STACK} bytes of stack", (ran.returncode, ran.stdout), (0, written))


def without_threads(line: Callable[..., Line], words: Words, source: IO[bytes]) -> Line:
    """The program's answer if no thread can be made: a thread's stack would have a terabyte, and there is a gigabyte in all."""

    def limit() -> None:
        """Sets the limits."""
        resource.setrlimit(resource.RLIMIT_STACK, (1 << 40, resource.getrlimit(resource.RLIMIT_STACK)[1]))
        resource.setrlimit(resource.RLIMIT_AS, (1 << 30, 1 << 30))

    return line(words, source, subprocess.DEVNULL, preexec_fn=limit)


def main(program: str) -> int:
    """Tries all of it."""
    failed: list[str] = []
    on_its_input(program, failed)
    where_something_fails(program, failed)
    within_limits(program, failed)
    return 1 if failed else 0


if __name__ == "__main__":
    sys.exit(main(*words(__doc__, 1, 1)))
