#!/usr/bin/env python3
"""Tries what ./muoswyld answers before anything is built, and what tools and pages say.

    try_command.py TOP

It copies the command into a folder without sources, so that everything that would build fails with status 70. Help, versions and words that have no
form must be answered there. With small programs in place of the proved ones it has no room for what it keeps, or for what it writes. try_building.py
tries how it proves and builds. Then it asks each tool for its page, calls it with words that have no form, and lets the tools for users write to a full
device. Each piece of code of the pages must stand in the examples' crates, or in the example of the group in native code. It prints what fails, and how
many passed.
"""

import os
import pathlib
import pty
import re
import shutil
import signal
import subprocess
import sys
import tempfile
from collections.abc import Iterator

import try_building
from running import run
from words import end, words

USAGE = "usage: play | race | gen --seed N --count 1..100000 [--script] | audit | parts | messages | directory | snapshots | node --name PLACE[/LIFE] --founders PLACE,.. [--resilience 0..15] [--window 1..1008] [--pb-up-to 0..1024]\n"
GEN = ["gen", "--seed", "1", "--count", "50"]

# words that have no form, and what stands in the lines below the usage
WITHOUT_FORM: list[tuple[list[str], str]] = [
    ([], "--help says more"),
    ([""], "--help says more"),
    (["Play"], "--help says more"),
    (["--quick"], "--help says more"),
    (["--proved", "x"], "--help says more"),
    (["play", "scripts/smallest.json"], "./muoswyld play < scripts/smallest.json"),
    (["race", "race"], "./muoswyld race < race"),
    (["audit", "x.txt"], "./muoswyld audit < x.txt"),
    (["directory", "x.json"], "./muoswyld directory < x.json"),
    (["play", "--quick"], "./muoswyld --quick play"),
    (["gen", "--proved"], "./muoswyld --proved gen"),
    (["build", "x"], "--help says more"),
    ([*GEN[:4], "--script", "5"], "--help says more"),
    ([*GEN, "--script", "--script"], "--help says more"),
    (["gen", "--seed", "1", "--count", "100001"], "--count is 1 to 100000"),
    (["node"], "./muoswyld node --name 0 --founders 0,1"),
    (["node", "--name", "1"], "--help says more"),
    (["node", "--name", "1", "--founders"], "--help says more"),
    (["node", "--name", "1", "--founders", "0", "--name", "1"], "--help says more"),
    (["node", "--name", "1", "--founders", "0", "--other", "1"], "--help says more"),
    (["node", "--name", "1/17", "--founders", "0,1"], "--name 1/17: a name is a place, 0 to 15, or a later life of one"),
    (["node", "--name", "1/1", "--founders", "0,1"], "--name 1/1: a name is"),
    (["node", "--name", "16", "--founders", "0,1"], "--name 16: a name is"),
    (["node", "--name", "01", "--founders", "0,1"], "--name 01: a name is"),
    (["node", "--name", "1", "--founders", "1,0"], "--founders 1,0: founders are places"),
    (["node", "--name", "1", "--founders", "0,0"], "--founders 0,0: founders are places"),
    (["node", "--name", "1", "--founders", "0,"], "--founders 0,: founders are places"),
    (["node", "--name", "1", "--founders", ""], "--founders : founders are places"),
    (["node", "--name", "1", "--founders", "0,1/2"], "--founders 0,1/2: founders are places"),
    (["node", "--name", "1", "--founders", "-"], "--founders -: founders are places"),
    (["node", "--name", "1", "--founders", "0,1", "--resilience", "16"], "--resilience 16: it is 0 to 15"),
    (["node", "--name", "1", "--founders", "0,1", "--resilience", "-1"], "--resilience -1: it is 0 to 15"),
    (["node", "--name", "1", "--founders", "0,1", "--window", "0"], "--window 0: it is 1 to 1008"),
    (["node", "--name", "1", "--founders", "0,1", "--window", "1009"], "--window 1009: it is 1 to 1008"),
    (["node", "--name", "1", "--founders", "0,1", "--window", "064"], "--window 064: it is 1 to 1008"),
    (["node", "--name", "1", "--founders", "0,1", "--pb-up-to", "1025"], "--pb-up-to 1025: it is 0 to 1024"),
    (["gen"], "--help says more"),
    (["gen", "--seed", "1"], "--help says more"),
    (["gen", "--seed", "1", "--seed", "1"], "--help says more"),
    ([*GEN, "x"], "--help says more"),
    (["gen", "--seed", "1", "--count", "0"], "--help says more"),
    (["gen", "--seed", "1", "--count", "00000"], "--help says more"),
    (["gen", "--seed", "18446744073709551616", "--count", "1"], "--help says more"),
    (["gen", "--seed", "+1", "--count", "1"], "--help says more"),
    (["gen", "--seed", "000000000000000000001", "--count", "1"], "--help says more"),
]

# words that have a form: nothing is there to build, so the call ends with 70, in each way
WITH_FORM: list[list[str]] = [["play"], ["race"], ["audit"], ["messages"], ["directory"], ["snapshots"], ["parts"], [*GEN, "--script"], ["gen", "--script", *GEN[1:]], [*GEN[:3], "--script", *GEN[3:]], ["node", "--founders", "0,1", "--name", "1/2"], ["node", "--founders", "0,9,10,15", "--name", "15/16", "--window", "1008", "--resilience", "15", "--pb-up-to", "0"], ["build"], ["build", "--quick"], GEN, ["gen", "--count", "100000", "--seed", "18446744073709551615"], ["gen", "--count", "0009", "--seed", "0"]]


def answered(top: pathlib.Path, words: list[str]) -> tuple[int, str, str]:
    """The status of the command, what it wrote, and what it told."""
    done = run([top / "muoswyld", *words], seconds=60, env={"PATH": "/usr/bin:/bin"})
    return done.returncode, done.stdout.decode(), done.stderr.decode()


def faults(top: pathlib.Path) -> Iterator[str]:
    """What is wrong with the answers."""
    for words in (["--help"], ["-h"], ["help"]):
        status, said, told = answered(top, words)
        if (status, told) != (0, "") or "play < SCRIPT" not in said:
            yield f"{words}: {status}, {said!r}, {told!r}"
    status, said, told = answered(top, ["--version"])
    if (status, told) != (0, "") or not said.startswith("muoswyld "):
        yield f"--version: {status}, {said!r}, {told!r}"
    for words, wanted in WITHOUT_FORM:
        status, said, told = answered(top, words)
        if (status, said) != (1, "") or not told.startswith(USAGE) or wanted not in told:
            yield f"{words}: {status}, {said!r}, {told!r}"
    for words in WITH_FORM:
        ways: list[list[str]] = [[], ["--quick"], ["--proved"]]
        for way in ways if len(words) != 2 else ways[:1]:
            status, said, told = answered(top, way + words)
            if (status, said) != (70, "") or USAGE in told:
                yield f"{way + words}: {status}, {said!r}, {told!r}"


def room_faults(top: pathlib.Path) -> Iterator[str]:
    """What is wrong if there is no room for what is kept or written. Small programs take the place of the proved ones."""
    (top / "kit").mkdir()
    for file, said in (("crates/am_play_only/out/am_play_only", "cat"), ("crates/am_sim/out/am_sim", "echo summary"), ("kit/rt", "false")):
        (top / file).parent.mkdir(exist_ok=True)
        (top / file).write_text(f"#!/bin/sh\n{said}\n")
        (top / file).chmod(0o755)
    for name in ("am_play_only", "am_sim"):
        # as if it were proved and built of these sources
        (top / "crates" / name / "src").mkdir()
        (top / "crates" / name / "src" / "main.rt").write_text("// none\n")
        note = 'top=$0; . "$top/tools/prove.bash"; mark "$(program_of "$1")" "$(sum_of_sources "$1")" "$(date +%s.%N)"'
        subprocess.run(["bash", "-c", note, str(top), name], check=True)
    (top / "script").write_text("a script\n")
    (top / "kept").mkdir()

    def called(words: list[str], folder: str, out: str, at_terminal: bool = False) -> tuple[int, str]:
        """The status of the command, and what it told."""
        ours, theirs = pty.openpty() if at_terminal else os.pipe()
        path = f"{top / 'kit'}:/usr/bin:/bin"
        with open(top / "script", "rb") as read, open(top / out, "wb") as written:
            status = subprocess.run(
                [top / "muoswyld", *words], stdin=read, stdout=written, stderr=theirs, timeout=60, check=False, env={"PATH": path, "TMPDIR": str(top / folder)}
            ).returncode
        os.close(theirs)
        told = b""
        try:
            while part := os.read(ours, 4096):
                told += part
        except OSError:  # where a terminal ends
            pass
        os.close(ours)
        return status, told.decode().replace("\r", "")

    status, told = called(["play"], "nope", "text", True)
    if status != 70 or told.count("\n") != 1 or "nope" not in told or (top / "text").read_text():
        yield f"play without a folder for its input: {status}, {told!r}"
    status, told = called(["play"], "kept", "text", True)
    if (status, told, (top / "text").read_text()) != (0, "", "a script\n"):
        yield f"play: {status}, {told!r}"
    status, told = called(GEN, "kept", "text")
    if (status, told, (top / "text").read_text()) != (0, "", "summary\n"):
        yield f"gen: {status}, {told!r}"
    quick = top / "out" / "quick" / "am_play_only"
    quick.parent.mkdir(parents=True, exist_ok=True)
    (top / "crates/am_play_only/out/am_play_only").rename(quick)
    (top / "crates/am_play_only/out/am_play_only.sum").rename(quick.with_name("am_play_only.sum"))
    (top / "crates/am_sim/out/am_sim").unlink()
    status, told = called(["play"], "kept", "/dev/full")
    if status != 5 or "write fault\n" not in told:
        yield f"a first answer to a full device: {status}, {told!r}"
    if left := list((top / "kept").iterdir()):
        yield f"left behind: {left}"
    shutil.rmtree(top / "out")
    (top / "out").write_text("")
    for way in (["play"], ["--quick", "play"]):
        status, told = called(way, "kept", "text")
        if status != 70 or "nothing can be built in" not in told or told.count("\n") != len(way):
            yield f"{way} without a folder to build in: {status}, {told!r}"


# what each tool for users writes, of a file as a word or as the input
WRITES = {"picture.py": "scripts/reset.txt", "audit.py": "scripts/reset.txt", "message.py": "README.md", "schema.py": "scripts/reset.txt"}


def writing_faults(source: pathlib.Path) -> Iterator[str]:
    """What is wrong with tools that write to a full device, or into a pipe that is closed; and those that can't be called."""
    for name, file in WRITES.items():
        words = [file] if name in ("message.py", "schema.py") else []
        ours, theirs = os.pipe()
        os.close(ours)
        for out, cause in ((os.open("/dev/full", os.O_WRONLY), "No space left on device"), (theirs, "Broken pipe")):
            with open(source / file, "rb") as read:
                done = subprocess.run([sys.executable, f"tools/{name}", *words], cwd=source, stdin=read, stdout=out, stderr=subprocess.PIPE, text=True, timeout=60, check=False)
            os.close(out)
            if (done.returncode, done.stderr) != (1, f"{name}: {cause}\n"):
                yield f"{name}, {cause}: {done.returncode}, {done.stderr[-200:]!r}"
    page = (source / "tools" / "README.md").read_text()
    for name in re.findall(r"^\| `(\w+\.py)`", page, re.MULTILINE):
        if not os.access(source / "tools" / name, os.X_OK) or not (source / "tools" / name).read_text().startswith("#!"):
            yield f"tools/{name} can't be called by itself"


def flat(code: str) -> str:
    """Code with one blank between its words."""
    return " ".join(code.split())


def pieces_of(page: pathlib.Path) -> list[str]:
    """The pieces of code of a page."""
    return re.findall(r"^```rust\n(.*?)^```$", page.read_text(), re.MULTILINE | re.DOTALL)


# how many pieces each page has, so that none is overlooked
PIECES = {"README.md": 1, "EMBEDDING.md": 4, "LIBRARY.md": 4, "MEMBER.md": 1}


def shown(file: str) -> list[str]:
    """The examples of a crate of Rust that its first comment has, without the lines that Rust's pages don't show."""
    doc = re.sub(r"^//! ?", "", "\n".join(line for line in file.split("\n") if line.startswith("//!")), flags=re.MULTILINE)
    return [re.sub(r"^# .*\n", "", piece, flags=re.MULTILINE) for piece in re.findall(r"^```\w*\n(.*?)^```$", doc, re.MULTILINE | re.DOTALL)]


def page_faults(source: pathlib.Path) -> Iterator[str]:
    """Which pieces of code of the pages stand in no file of the examples' crates, but for indentation, what a file imports for its tests,
    and contracts that a page leaves out; nor in the example of the group in native code, which is tried with its tests."""
    paths = (path for crate in ("am_examples", "am_tests_runs") for path in sorted((source / "crates" / crate / "src").glob("*.rt")))
    files = [re.sub(r"^use (crate::.*|std::test::\*);\n", "", path.read_text(), flags=re.MULTILINE) for path in paths]
    without = [re.sub(r"\n *ensures\b.*?(?=\n *\{\n)", "", file, flags=re.DOTALL) for file in files]
    native = shown((source / "runtime" / "group" / "src" / "lib.rs").read_text())
    stand = [flat(file) for file in [*files, *without, *native]]
    for page in [source / "README.md", *sorted((source / "docs").glob("*.md"))]:
        pieces = pieces_of(page)
        if len(pieces) != PIECES.get(page.name, 0):
            yield f"{page.name}: it has {len(pieces)} pieces of code, and not {PIECES.get(page.name, 0)}"
        for piece in pieces:
            if not any(flat(piece) in file for file in stand):
                yield f"{page.name}: this stands in no example: {piece[:200]}"


def tools_of(source: pathlib.Path) -> list[pathlib.Path]:
    """The tools, programs of nets and examples that are called by themselves."""
    files = (path for folder in ("tools", "gate", "net", "examples") for path in sorted((source / folder).glob("*.py")))
    return [path for path in files if "__main__" in path.read_text()]


def tool_faults(tools: list[pathlib.Path]) -> Iterator[str]:
    """What is wrong with the pages of tools, and with what they say to words that have no form."""
    for tool in tools:
        for words, is_help in ((["--help"], True), (["--no-such-word"], False), (["no", "such", "words", "at", "all", "7"], False)):
            done = subprocess.run([sys.executable, tool, *words], stdin=subprocess.DEVNULL, capture_output=True, text=True, timeout=60, check=False)
            if is_help != (done.returncode == 0) or "Traceback" in done.stderr or len(done.stdout) > 4_000 or is_help and not done.stdout:
                yield f"{tool.name} {words}: {done.returncode}, {done.stdout[:200]!r}, {done.stderr[-200:]!r}"


def main() -> int:
    """Tries the command of the folder that is named, and the pages of its tools."""
    source = pathlib.Path(words(__doc__, 1, 1)[0])
    # calls are ended by these, also if whoever runs this ignores them: what is caught here is the default of a call
    signal.signal(signal.SIGINT, signal.default_int_handler)
    signal.signal(signal.SIGHUP, signal.SIG_DFL)
    tools = tools_of(source)
    with tempfile.TemporaryDirectory() as folder:
        top = pathlib.Path(folder)
        for name in ("am_play_only", "am_sim"):
            (top / "crates" / name).mkdir(parents=True)
        (top / "tools").mkdir()
        (top / "crates.txt").write_text("am_play_only:\nam_sim:\n")
        (top / "HANDLES").write_text("Handles allowed: none.\n")
        shutil.copy(source / "muoswyld", top)
        shutil.copy(source / "tools" / "prove.bash", top / "tools")
        wrong = [*faults(top), *room_faults(top), *tool_faults(tools), *writing_faults(source), *page_faults(source), *try_building.building_faults(source)]
    for line in wrong:
        print(f"refused: {line}")
    tried = 4 + len(WITHOUT_FORM) + 3 * (len(WITH_FORM) + len(tools)) + 7 + 2 * len(WRITES) + 1 + sum(PIECES.values()) + try_building.TRIED
    print(f"gate/try_command.py: {tried - len(wrong)} passed, {len(wrong)} failed")
    return 1 if wrong else 0


if __name__ == "__main__":
    end(main)
