#!/usr/bin/env python3
"""Tries the library for C and Rust: builds it, and the programs of bindings/ over it, and compares their answers with those of the word `node`.

    try_c.py PROGRAM [--count N] [--seed N] [--sanitize]

PROGRAM is the command whose word `node` is run. N lines (2,000), random and mutated, go to a node in each of nine states: through the C driver,
through the Rust crate if cargo is there, and to the word `node`, and all must answer the same. Events as bytes, which gate/binary.py reads, must be
answered as the lines that ask the same. It also tries each refusal, each allocation failing in turn, calls on a thread with little stack, three
members with a crash in C and in Rust, a shared library from Python, and what is said if the library isn't there. With --sanitize the C programs are
built with the address and the undefined sanitizer, and 100,000 lines go to each state. CC names the compiler; otherwise it is cc, gcc or clang (the
toolchain's own clang has no headers). It prints what fails, and how many parts passed.
"""

import argparse
import ctypes
import os
import pathlib
import random
import shlex
import shutil
import subprocess
import sys
import tempfile

from binary import answer_of, event_of
from library import kit
from running import run
from try_lines import STATES, mutated

TOP = pathlib.Path(__file__).resolve().parent.parent
BAD_OPTIONS = 5  # as muoswyld.h has it
ANYTHING = "send 61", "tick", "take", "hear 1 414703050000000001000019" + "00000000" * 2 + "0000000101", "info", "send", "reset 2"


class Tried:
    """Where the programs are, and what they are run with."""

    def __init__(self, wanted: argparse.Namespace, folder: pathlib.Path) -> None:
        """The options of the call, and a folder for the programs."""
        self.folder, self.program, self.seed = folder, shlex.split(wanted.program), wanted.seed
        self.count = 100_000 if wanted.sanitize else wanted.count
        self.sanitize, self.cargo = wanted.sanitize, None if wanted.sanitize else shutil.which("cargo")
        self.kit = kit()
        self.compiler = os.environ.get("CC") or shutil.which("cc") or shutil.which("gcc") or "clang"
        self.cargo_words = {**os.environ, "KIT": str(self.kit), "CARGO_TARGET_DIR": str(folder / "target"), "CARGO_NET_OFFLINE": "true"}

    def drivers(self) -> dict[str, list[str]]:
        """The commands that answer lines, by what is behind them."""
        found = {"C": [str(self.folder / "driver")]}
        if self.cargo:
            found["Rust"] = [str(self.folder / "target" / "release" / "examples" / "driver")]
        return found


def told(what: str, ran: subprocess.CompletedProcess[bytes]) -> list[str]:
    """What is wrong with a command that should have ended with 0."""
    return [] if ran.returncode == 0 else [f"{what} ended with {ran.returncode}: {(ran.stdout + ran.stderr).decode(errors='replace')[-2000:]}"]


def built(tried: Tried) -> list[str]:
    """The library, and the programs over it."""
    wrong = told("tools/library.py", run([sys.executable, str(TOP / "tools" / "library.py")], seconds=7200))
    more = "-g -fsanitize=address,undefined -fno-sanitize-recover=all" if tried.sanitize else ""
    words = ["make", "-B", "-C", str(TOP / "bindings" / "c"), f"KIT={tried.kit}", f"OUT={tried.folder}", f"CC={tried.compiler}", f"MORE={more}"]
    wrong = wrong or told("make", run(words))
    if tried.cargo and not wrong:
        words = [tried.cargo, "build", "--release", "--offline", "--examples"]
        wrong = told("cargo build", run(words, cwd=TOP / "bindings" / "rust", env=tried.cargo_words))
    return wrong


def transcripts(tried: Tried) -> list[str]:
    """Each driver answers as the word `node`, in each state, and is refused the options that it is."""
    wrong = []
    for state, (name, begins) in STATES.items():
        draw = random.Random(f"c {tried.seed} {state}")
        lines = b"\n".join([line.encode() for line in begins] + [mutated(draw) for _ in range(tried.count)])
        options = ["--name", name, "--founders", "0,1,2", "--resilience", "1"]
        wanted = run([*tried.program, "node", *options], lines)
        wrong += told(f"{state}: the word node", wanted)
        for what, driver in tried.drivers().items():
            ran = run([*driver, *options], lines)
            wrong += told(f"{state}: {what}", ran)
            for k, (one, other) in enumerate(zip(ran.stdout.split(b"\n"), wanted.stdout.split(b"\n"))):
                if one != other:
                    wrong.append(f"{state}: {what} answered line {k + 1} {one!r}, and the word node {other!r}")
                    break
            else:
                if ran.stdout != wanted.stdout:
                    wrong.append(f"{state}: {what} answered {len(ran.stdout)} bytes, and the word node {len(wanted.stdout)}")
    return wrong


# values of options, of which the first are taken and the last two or three aren't
VALUES = {
    "--name": ["0", "1", "15", "1/2", "3/16", "15/16", "16", "01", "1/1"],
    "--resilience": ["0", "1", "15", "16", "-1", "00"],
    "--window": ["1", "64", "1008", "1009", "0", "064"],
    "--pb-up-to": ["0", "256", "1024", "1025", "+1"],
}
BAD_FOUNDERS = "1,0", "0,1/2", "-", "0,0", "0,1,", "0,16", ",0", "0 1"


def founders_of(draw: random.Random) -> str:
    """A list of founders: of one to sixteen places, and mostly as it is to be."""
    places = sorted(draw.sample(range(16), draw.choice([1, 2, 3, 5, 8, 12, 15, 16])))
    return ",".join(map(str, places)) if draw.random() < 0.85 else draw.choice(BAD_FOUNDERS)


def options_of(draw: random.Random) -> list[str]:
    """Words of options: mostly a name and founders, and any of the others, in any order; some are none."""
    names = [name for name in ("--name", "--founders") if draw.random() < 0.95]
    names += draw.sample(["--resilience", "--window", "--pb-up-to"], draw.randrange(4))
    words = []
    for name in draw.sample(names, len(names)):
        value = founders_of(draw) if name == "--founders" else draw.choice(VALUES[name][:3] if draw.random() < 0.9 else VALUES[name])
        words += [name, value]
    more = [["--resilience"], ["--other", "1"], ["--name", "1"], ["node"]]
    return words + (draw.choice(more) if draw.random() < 0.1 else [])


def same_options(tried: Tried) -> list[str]:
    """The same options are taken, those of the word `node` and no others; those that aren't taken are said to be none."""
    wrong, draw, taken, longest = [], random.Random(f"options {tried.seed}"), 0, 0
    for _ in range(400):
        words = options_of(draw)
        wanted = run([*tried.program, "node", *words], b"info\n")
        taken += wanted.returncode == 0
        longest = max(longest, len(" ".join(words)) if wanted.returncode == 0 else 0)
        for what, driver in tried.drivers().items():
            ran = run([*driver, *words], b"info\n")
            status = {0: 0, 1: BAD_OPTIONS if what == "C" else 1}.get(wanted.returncode, -1)
            if (ran.returncode, ran.stdout) != (status, wanted.stdout):
                wrong.append(f"{what} took {words} with {ran.returncode}, {ran.stdout!r}; the word node with {wanted.returncode}, {wanted.stdout!r}")
            elif what == "Rust" and status == 1 and b"BadOptions" not in ran.stderr:
                wrong.append(f"Rust said of {words}: {ran.stderr!r}")
    # what was drawn is of both kinds, and some of it is as long as options can be
    return wrong or ([] if 150 < taken < 380 and longest > 100 else [f"of the options that were drawn {taken} were taken, of {longest} bytes at most"])


def refusals(tried: Tried) -> list[str]:
    """Null pointers, lengths, handles that are closed or open, options, rooms and other lines, each with its number."""
    return told("refusals", run([str(tried.folder / "refusals")]))


def no_memory(tried: Tried) -> list[str]:
    """With each allocation failing in turn a driver answers all, or a beginning of it and says that there was no memory, as mostly."""
    if tried.sanitize:
        return []
    library = tried.folder / "fail_malloc.so"
    words = [tried.compiler, "-shared", "-fPIC", "-O2", str(TOP / "gate" / "fail_malloc.c"), "-o", str(library), "-ldl"]
    wrong = told("fail_malloc", run(words))
    lines = "\n".join(ANYTHING).encode()
    driver = [*tried.drivers()["C"], "--name", "1", "--founders", "0,1,2"]
    whole = run(driver, lines).stdout
    failed = 0
    for at in range(1, 100_000):
        ran = run(driver, lines, env={**os.environ, "LD_PRELOAD": str(library), "FAIL_AT": str(at), "COUNT_ALLOCATIONS": "1"})
        failed += ran.returncode == 1
        if ran.returncode not in (0, 1) or not whole.startswith(ran.stdout) or (ran.returncode == 0 and ran.stdout != whole):
            wrong.append(f"where allocation {at} fails the driver ended with {ran.returncode} and {ran.stdout!r}")
        if int(ran.stderr.split()[-2]) < at:
            break
    return wrong or ([] if failed > at * 4 // 5 else [f"want of memory was told {failed} times in {at} runs"])


def stack_script(draw: random.Random) -> str:
    """A script for bindings/c/stack.c: groups of two to sixteen members that send, take, leave, join, crash, reset and hear what is no packet."""
    count = draw.choice([2, 3, 5, 16])
    names = [*range(count)]
    window, pb_up_to, body = draw.choice([8, 64, 1008]), draw.choice([0, 256, 1024]), "62" * 1024
    options = f"--founders {','.join(map(str, names))} --resilience {draw.choice([0, 1, count - 1])} --window {window} --pb-up-to {pb_up_to}"
    lines = [f"open {name} {options} --name {name}" for name in names]
    for _ in range(6):
        lines += [f"tell {draw.choice(names)} send {draw.choice(['-', '61', body])}" for _ in range(4)] + ["run 2"]
        lines += [f"tell {name} {line}" for name in names for line in ("take", "take", "done 1", "info", "state")]
        lines += [f"tell {name} {mutated(draw).decode('latin-1')}" for name in names for _ in range(4)]
    if count < 16:
        lines += [f"open {count} {options} --name {count}", f"tell {count} join", "run 8"]
    # one crashes, another resets and gives it up, more than once, and one leaves
    lines += [f"close {names[0]}"]
    for least in (1, 2, count):
        lines += [f"tell {names[1]} reset {least}", "run 1", f"tell {names[1]} giveup 0", f"tell {names[1]} ask {least}", "run 6"]
    lines += [f"tell {names[-1]} leave", "run 8", *(f"tell {name} take" for name in names[1:] for _ in range(9))]
    lines += [f"close {name}" for name in names[1:]] + ([f"close {count}"] if count < 16 else [])
    return "".join(f"{line}\n" for line in lines if "\n" not in line and "\0" not in line)


def small_stack(tried: Tried) -> list[str]:
    """No call takes more stack than muoswyld.h says, on a thread that has no more."""
    if tried.sanitize:
        return []
    wrong: list[str] = []
    most: dict[bytes, int] = {}
    for state in range(12):
        ran = run([str(tried.folder / "stack")], stack_script(random.Random(f"stack {tried.seed} {state}")).encode("latin-1"))
        wrong += told(f"stack, script {state},", ran)
        said = ran.stdout.split()
        for name, size in zip(said[:6:2], said[1:6:2]):
            most[name] = max(most.get(name, 0), int(size))
    return wrong or ([] if most[b"step"] > 4096 and most[b"open"] > 4096 else [f"the calls took {most}"])


def crash(tried: Tried) -> list[str]:
    """Three members, of which the first crashes: the others take the same, and go on in a view of their own."""
    wrong, programs = [], {"three": [str(tried.folder / "three")]}
    if tried.cargo:
        programs["three over UDP"] = [str(tried.folder / "target" / "release" / "examples" / "three")]
    for what, program in programs.items():
        ran = run(program)
        wrong += told(what, ran)
        took: dict[str, list[str]] = {}
        for words in (line.split(" took ") for line in ran.stdout.decode().splitlines() if " took " in line):
            took.setdefault(words[0], []).append(words[1])
        first, one, two = (took.get(f"member {place}", []) for place in range(3))
        begins = ["1 view 1.0 0,1,2", "2 data 1 1 68656c6c6f"]
        ends = [entry.split(" ")[1:] for entry in one[2:]]
        if first != begins or one[:2] != begins or one != two or not any(entry[0] == "view" and entry[-1] == "1,2" for entry in ends):
            wrong.append(f"{what}: the members took {first}, {one} and {two}")
        elif ["data", "2", "1", b"still here".hex()] not in ends:
            wrong.append(f"{what}: nobody took what was sent after the crash: {one}")
    return wrong


def from_python(tried: Tried) -> list[str]:
    """The shared library answers Python, as docs/NETWORK.md shows it."""
    if tried.sanitize:
        return []
    library = ctypes.CDLL(str(tried.folder / "libmuoswyld.so"))
    node, length, answer = ctypes.c_void_p(), ctypes.c_size_t(), ctypes.create_string_buffer(4096)
    size, options = ctypes.c_size_t, b"--name 1 --founders 0,1,2"
    numbers = [library.muoswyld_open(ctypes.byref(node), options, size(len(options)))]
    said = []
    for line in (b"send 61", b"tick", b"nonsense"):
        numbers.append(library.muoswyld_step(ctypes.byref(node), line, size(len(line)), answer, size(4096), ctypes.byref(length)))
        said.append(answer.raw[: length.value])
    numbers += [library.muoswyld_close(ctypes.byref(node)), library.muoswyld_close(ctypes.byref(node))]
    wanted = run([*tried.program, "node", *options.decode().split()], b"send 61\ntick\nnonsense\n").stdout.split(b"\n")[:-1]
    return [] if (numbers, said) == ([0, 0, 0, 0, 0, 3], wanted) else [f"Python was given {numbers} and {said}"]


def version_of(library: ctypes.CDLL) -> bytes:
    """What a library says that it is."""
    library.muoswyld_version.restype = ctypes.c_char_p
    return library.muoswyld_version()


def unproved(tried: Tried) -> list[str]:
    """The library without proofs answers as the word `node` too. Each of the two says what it is, of the same sources."""
    if tried.sanitize:
        return []
    wrong = told("tools/library.py --quick", run([sys.executable, str(TOP / "tools" / "library.py"), "--quick"], seconds=1800))
    out = tried.folder / "unproved"
    words = ["make", "-C", str(TOP / "bindings" / "c"), "ARCHIVE=../../crates/am_c/out/libam_c_unproved.a", f"KIT={tried.kit}", f"OUT={out}", f"CC={tried.compiler}"]
    wrong = wrong or told("make of the library without proofs", run(words))
    if wrong:
        return wrong
    draw, options = random.Random("unproved"), ["--name", "1", "--founders", "0,1,2"]
    lines = b"\n".join([line.encode() for line in ANYTHING] + [mutated(draw) for _ in range(500)])
    if run([str(out / "driver"), *options], lines).stdout != run([*tried.program, "node", *options], lines).stdout:
        wrong.append("the library without proofs answers otherwise than the word node")
    one, other = (version_of(ctypes.CDLL(str(folder / "libmuoswyld.so"))) for folder in (tried.folder, out))
    if not one.startswith(b"proved ") or other != b"un" + one:
        wrong.append(f"the libraries say that they are {one!r} and {other!r}")
    return wrong


class Member:
    """A node of the shared library, whose rooms are mostly too short at first."""

    def __init__(self, library: ctypes.CDLL, draw: random.Random, options: bytes):
        self.library, self.draw, self.node, self.length = library, draw, ctypes.c_void_p(), ctypes.c_size_t()
        if library.muoswyld_open(ctypes.byref(self.node), options, ctypes.c_size_t(len(options))):
            raise ValueError(f"{options!r} opens no node")

    def call(self, word: str, asked: bytes, room: int) -> tuple[int, bytes]:
        """The number of a call, and what it wrote."""
        answer = ctypes.create_string_buffer(room + 1)
        function = getattr(self.library, f"muoswyld_{word}")
        number = function(ctypes.byref(self.node), asked, ctypes.c_size_t(len(asked)), answer, ctypes.c_size_t(room), ctypes.byref(self.length))
        return number, answer.raw[: self.length.value] if number == 0 else b""

    def ask(self, word: str, asked: bytes) -> bytes:
        """The answer to a line or an event; where it waits, anything else is refused until then."""
        number, answer = self.call(word, asked, self.draw.randrange(100))
        if number == 2:
            other = "do" if word == "step" else "step"
            if (self.call(word, b"x" + asked, 0)[0], self.call(other, asked, 0)[0]) != (6, 6):
                raise ValueError(f"{asked!r} waits, and something else isn't refused")
            number, answer = self.call(word, asked, self.length.value)
        if number:
            raise ValueError(f"{asked!r} was given {number}")
        return answer

    def close(self) -> list[int]:
        """Closes it; the numbers of that, and of what is asked then."""
        return [self.library.muoswyld_close(ctypes.byref(self.node)), self.call("do", b"\1", 100)[0], self.call("step", b"tick", 100)[0]]


def tell_apart(one: Member, other: Member, line: bytes, resilience: int) -> None:
    """Gives one node a line and the other the event that asks the same, or bytes that are none; what they answer is the same."""
    answer = one.ask("step", line)
    none = answer.startswith(b"bad line")
    event = bytes([one.draw.choice([0, 7, 15, 22, 255])]) + one.draw.randbytes(one.draw.randrange(4)) if none else event_of(line.decode(), resilience)
    text, info, flags = answer_of(other.ask("do", event), resilience)
    wanted = one.ask("step", b"info").decode()
    numbers = wanted.split(" ")
    same = text.startswith("bad line") if none else text == answer.decode()
    if not same or info != wanted or flags & 1 != (numbers[6] != numbers[7]):
        raise ValueError(f"{line!r} was answered {answer!r}, and the event {event.hex()} {text!r}, {info!r} and {flags}")


def events(tried: Tried) -> list[str]:
    """Events as bytes are answered as the lines that ask the same, by two nodes; bytes that are none change nothing."""
    if tried.sanitize:
        return []
    library, wrong = ctypes.CDLL(str(tried.folder / "libmuoswyld.so")), []
    for state, (name, begins) in STATES.items():
        draw, resilience = random.Random(f"events {tried.seed} {state}"), len(state) % 2
        options = f"--name {name} --founders 0,1,2 --resilience {resilience}".encode()
        one, other = Member(library, draw, options), Member(library, draw, options)
        try:
            for line in [line.encode() for line in begins] + [mutated(draw) for _ in range(tried.count)]:
                tell_apart(one, other, line, resilience)
        except (ValueError, KeyError) as fault:
            wrong.append(f"{state}: {fault}")
        if (numbers := one.close() + other.close()) != [0, 3, 3] * 2:
            wrong.append(f"{state}: closed nodes gave {numbers}")
    return wrong


def not_there(tried: Tried) -> list[str]:
    """Where the library isn't there, make and cargo say what makes it."""
    top = tried.folder / "without"
    shutil.copytree(TOP / "bindings", top / "bindings", ignore=shutil.ignore_patterns("out", "target"))
    (top / "crates" / "am_c" / "out").mkdir(parents=True)
    tries = {"make": (["make", f"KIT={tried.kit}"], "c")}
    if tried.cargo:
        tries["cargo build"] = ([tried.cargo, "build", "--offline"], "rust")
    wrong = []
    for what, (words, folder) in tries.items():
        ran = run(words, cwd=top / "bindings" / folder, env={**tried.cargo_words, "CARGO_TARGET_DIR": str(top / "target")})
        if ran.returncode == 0 or b"tools/library.py proves and makes it" not in ran.stderr or b"panicked" in ran.stderr:
            wrong.append(f"{what} ended with {ran.returncode}: {ran.stderr.decode()[-2000:]}")
    return wrong


def rust_tests(tried: Tried) -> list[str]:
    """The tests of the Rust crate."""
    if not tried.cargo:
        return []
    return told("cargo test", run([tried.cargo, "test", "--offline"], cwd=TOP / "bindings" / "rust", env=tried.cargo_words))


def main() -> int:
    """Tries all parts."""
    parser = argparse.ArgumentParser(description=__doc__, formatter_class=argparse.RawDescriptionHelpFormatter)
    parser.add_argument("program")
    parser.add_argument("--count", type=int, default=2000)
    parser.add_argument("--seed", type=int, default=1)
    parser.add_argument("--sanitize", action="store_true")
    with tempfile.TemporaryDirectory() as folder:
        tried = Tried(parser.parse_args(), pathlib.Path(folder))
        parts = built, transcripts, same_options, refusals, no_memory, small_stack, crash, from_python, events, unproved, not_there, rust_tests
        failed = 0
        for part in parts:
            wrong = part(tried)
            failed += bool(wrong)
            for line in wrong:
                print(f"refused: {part.__name__}: {line}")
            if wrong and part is built:
                break
    cargo = "" if tried.cargo or tried.sanitize else "; cargo isn't here, so the Rust crate wasn't tried"
    print(f"gate/try_c.py: {len(parts) - failed} passed, {failed} failed{cargo}")
    return 1 if failed else 0


if __name__ == "__main__":
    sys.exit(main())
