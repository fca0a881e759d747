"""Tries edits: changes of one function's body, each of which that function's contract must refuse.

    try_edits.py [--only NAME..]

An edit is a file crates/NAME/edits/WORDS.edit of such lines:

    function: module::Type::name
    file: src/module.rt
    old: a part of one line, which stands in the file once
    new: the text in its place

The function is named as a check prints it after `fn NAME::`. Further pairs of `old:` and `new:`, and further files, apply to the result of the
earlier ones. It needs what `rt ci` has proved: the crates below, as it or `rt lib` has left them, and the crate itself. All edits of a crate that
change different functions are tried together, in one check of these functions alone. For everything else of the crate that they call, a hole
stands in place of the proof and `unreachable!()` in place of the body, since `rt ci` has proved that. An edit is refused if its function isn't
proved, for a cause at its own lines or in its own proof. That a proof names something that is gone is no such cause. Edits that aren't refused
are tried again without the others, and last each alone. With --only it tries the crates that are named. It prints what fails, and how many edits
were refused.
"""

import concurrent.futures
import dataclasses
import functools
import os
import pathlib
import re
import shutil
import signal
import subprocess
import sys
import tempfile
from typing import Any

from library import TOP, of_toolchain
from words import words

CRATES = TOP / "crates"
KNOWN: dict = {}  # the crates of crates.txt that were read, by their folders
MEMORY = 2_000_000_000  # what a check may take, in bytes

PROOFS = {"Proof.antt", "Answers.antt", "Invariants.antt"}  # the files of a function's proof

# what the prover says where a proof names what is no longer there
GONE = re.compile(r"has no field|is not in scope|has no `|was not admitted")
# a cause: its file, line and words
CAUSE = re.compile(r"^(?:note: )?(?:\./)?(\S+?):(\d+):\d+: (error.*|it is not proved.*)", re.M)
# an error of a text, and its words where they are of one declaration
ERROR = re.compile(r"^(?:\./)?(\S+?):\d+:\d+: error: (`[^`]*`: )?(.*)", re.M)
# words on a text that can't be read, whatever is true
UNREADABLE = re.compile(r"is not in scope|has no field|is no name|operand is missing|expected the end|cannot continue")


@dataclasses.dataclass(frozen=True)
class Change:
    """One text in place of another."""

    file: str
    old: str
    new: str


@dataclasses.dataclass(frozen=True)
class Edit:
    """An edit of a crate, as its file has it."""

    name: str
    function: str
    changes: tuple[Change, ...]


@dataclasses.dataclass
class Tried:
    """What a try of edits came to: those refused, what failed, with its words, and the seconds of processor."""

    refused: set[str] = dataclasses.field(default_factory=set)
    failed: list[str] = dataclasses.field(default_factory=list)
    seconds: float = 0


@functools.cache
def toolchain() -> Any:
    """The toolchain's own words, of its module rtlib."""
    rtlib = of_toolchain("rtlib")

    rtlib.Crate.stamp = functools.cache(rtlib.Crate.stamp)  # of all sources below; none changes meanwhile
    return rtlib


def read(path: pathlib.Path) -> Edit | str:
    """The edit of a file, or why it is none."""
    if path.suffix != ".edit":
        return "its name doesn't end in .edit"
    function = file = old = ""
    changes: list[Change] = []
    for line in path.read_text().splitlines():
        word, _, rest = line.partition(":")
        rest = rest.removeprefix(" ")
        if word == "function" and not function:
            function = rest
        elif word == "file" and rest.startswith("src/") and os.path.normpath(rest) == rest:
            file = rest
        elif word == "old" and file and rest and not old:
            old = rest
        elif word == "new" and old and rest != old:
            changes.append(Change(file, old, rest))
            old = ""
        else:
            return f"a line out of place: {line}"
    if not function or not changes or old:
        return "it lacks a function, or a pair of an old text and a new one"
    return Edit(path.name, function, tuple(changes))


def apply(edit: Edit, folder: pathlib.Path) -> str:
    """Changes the texts of a crate by an edit; why it can't, or nothing."""
    for change in edit.changes:
        path = folder / change.file
        text = path.read_text() if path.is_file() else ""
        if text.count(change.old) != 1:
            return f"an old text stands in {change.file} {text.count(change.old)} times: {change.old}"
        path.write_text(text.replace(change.old, change.new))
    return ""


def owner_of(head: str) -> str:
    """What a check calls the functions of an `impl` by, from its first line: its type, with the trait behind it where it is of one."""
    depth, plain = 0, ""
    for letter in head.removeprefix("impl").partition(" where ")[0]:
        depth -= letter == ">"
        plain += letter if not depth and letter not in "<>" else " "
        depth += letter == "<"
    trait, _, name = plain.rpartition(" for ")
    return "".join(re.findall(r"\w+", it)[-1] for it in (name, trait) if it.strip())


def first_of(lines: list[str], number: int) -> int:
    """The first line of the item whose name stands in a line, with its page and its attributes."""
    while number > 1 and lines[number - 2] and (lines[number - 2].lstrip().startswith(("///", "#[")) or lines[number - 2][-1] not in "{};"):
        number -= 1
    return number


def lines_in(text: str, owner: str, name: str) -> tuple[int, int] | None:
    """The first and the last line of a function of a text, in the layout of `rt fmt`, of an `impl` or of none."""
    lines = text.split("\n")
    margin, within, first = "    " if owner else "", "", 0
    for number, line in enumerate(lines, 1):
        if first and line == f"{margin}}}":
            return first, number
        if line.startswith("impl"):
            within = owner_of(line)
        elif line == "}":
            within = ""
        if not first and within == owner and re.match(rf'{margin}(?:(?:pub(?:\([a-z]*\))?|const|unsafe|extern "C") )*fn {name}\b', line):
            first = first_of(lines, number)
    return None


def place(function: str, folder: pathlib.Path) -> tuple[str, int, int] | None:
    """The file of a function in a crate's folder, and its lines there."""
    parts = function.split("::")
    for depth in (len(parts) - 1, len(parts) - 2):
        owner = parts[depth] if depth == len(parts) - 2 else ""
        module = "/".join(parts[:depth])
        own = [f"src/{module}.rt", f"src/{module}/mod.rt"] if module else ["src/lib.rt", "src/main.rt"]
        others = sorted(str(it.relative_to(folder)) for it in folder.glob("src/**/*.rt")) if owner else []  # a type's methods may stand elsewhere
        for file in own + others:
            lines = lines_in((folder / file).read_text(), owner, parts[-1]) if depth >= 0 and (folder / file).is_file() else None
            if lines:
                return file, *lines
    return None


def is_within(edit: Edit, folder: pathlib.Path) -> bool:
    """Whether an edit changes nothing but its function."""
    found = place(edit.function, folder)
    texts = {it.file: (folder / it.file).read_text() for it in edit.changes if (folder / it.file).is_file()}
    for change in edit.changes:
        before, old, _ = texts.get(change.file, "").partition(change.old)
        if not found or not old or found[0] != change.file or not found[1] <= before.count("\n") + 1 <= found[2]:
            return False
        texts[change.file] = texts[change.file].replace(change.old, change.new)
    return True


def rounds_of(edits: list[Edit], folder: pathlib.Path) -> list[list[Edit]]:
    """As few rounds as it takes: in each are edits of different functions that change nothing else, or one."""
    together: list[list[Edit]] = []
    alone = [[edit] for edit in edits if not is_within(edit, folder)]
    for edit in edits:
        if [edit] not in alone:
            free: list[Edit] = next((it for it in together if all(other.function != edit.function for other in it)), [])
            together += [] if free else [free]
            free.append(edit)
    return together + alone


def proof_of(function: str) -> pathlib.PurePath:
    """The folder of a function's proof."""
    return pathlib.PurePath("proofs", *function.split("::"))


def module_of(file: pathlib.Path, source: pathlib.Path) -> tuple[str, ...]:
    """The module that a file of a crate's sources holds."""
    parts = file.relative_to(source).with_suffix("").parts
    return parts[:-1] if parts[-1] in ("lib", "main", "mod") else parts


def body_of(lines: list[str], at: int, margin: str) -> tuple[int, int] | None:
    """The braces of a function's body, by their lines, in the layout of `rt fmt`; nothing, where it has no lines between them."""
    for first in range(at, len(lines)):
        is_end = first == at or lines[first].startswith(f"{margin})")
        if lines[first] == f"{margin}{{" or is_end and lines[first].endswith(" {"):
            return first, lines.index(f"{margin}}}", first)
        if is_end and lines[first].endswith(("{}", ";")):
            return None
    return None


def without_bodies(text: str, kept: set[tuple[str, str]]) -> tuple[str, list[tuple[str, str]]]:
    """A text with `unreachable!()` for the bodies of its functions, but for these and for what a trait says, and the functions whose bodies
    went. Each is named by its owner, where it is of an `impl`, and its name."""
    lines, gone, owner, at = text.split("\n"), [], "", 0
    while at < len(lines):
        line = lines[at]
        if line.startswith(("impl", "trait ", "pub trait ", "}")):
            owner = owner_of(line) if line.startswith("impl") else line[:-1]
        margin = "    " if owner else ""
        found = re.match(rf"{margin}(?:pub(?:\([a-z]*\))? )?fn (\w+)\b", line)
        body = body_of(lines, at, margin) if found and re.fullmatch(r"\w*", owner) else None
        if found and body:
            head = " ".join(lines[at : body[0] + 1])
            if (owner, found[1]) not in kept and "impl " not in head.partition("->")[2]:
                lines[body[0] + 1 : body[1]] = [f"{margin}    unreachable!()"]
                gone.append((owner, found[1]))
            at = body[0]
        at += 1
    return "\n".join(lines), gone


def take_bodies(folder: pathlib.Path, functions: list[str]) -> set[pathlib.Path]:
    """Takes the bodies of a crate's functions away, but for these ones and for those that call themselves; the folders of their proofs."""
    source = folder / "src"
    kept = {(owner if owner[:1].isupper() else "", name) for *_, owner, name in (["", *it.split("::")] for it in functions)}
    kept |= {(owner, at.name[1:]) for at in folder.glob("proofs/**/+*") for owner in ("", at.parent.name)}
    texts = {file: file.read_text() for file in sorted(source.glob("**/*.rt"))}
    is_type = re.compile(r"^(?:pub(?:\([a-z]*\))? )?(?:struct|enum) (\w+)", re.M)
    types = {name: module_of(file, source) for file, text in texts.items() for name in is_type.findall(text)}
    taken = set()
    for file, text in texts.items():
        changed, gone = without_bodies(text, kept)
        file.write_text(changed)
        for owner, name in gone:
            own = max((it for it in types if owner.startswith(it)), key=len, default="") if owner else ""
            path = types[own] if own else module_of(file, source)
            taken.add(folder.joinpath("proofs", *path, *([owner] if owner else []), name))
    return taken


def hollow(crate: str, folder: pathlib.Path, functions: list[str], keeps_bodies: bool) -> None:
    """Puts a hole in place of each proof of a crate's functions, but for these ones and for those that call themselves. Their bodies go
    too, unless they are to be kept: what they call in turn is then not looked at."""
    kept = {folder / proof_of(function) for function in functions}
    hollowed = {file.parent for file in folder.glob("proofs/**/*.antt") if file.name in PROOFS}
    hollowed |= set() if keeps_bodies else take_bodies(folder, functions)
    for at in hollowed - kept:
        path = at.relative_to(folder / "proofs").parts
        if not path or not all(re.fullmatch(r"\w+", it) for it in path):
            continue
        at.mkdir(parents=True, exist_ok=True)
        for file in PROOFS:
            (at / file).unlink(missing_ok=True)
        statement = f"use Rattle.{crate}.proofs.{'.'.join(path)}.Statement.{{statement}}"
        (at / "Proof.antt").write_text(f"{statement}\n\npub {path[-1]}_spec : {{M : Type 1}} → statement M\n{path[-1]}_spec = ?\n")


def unread(said: str, changed: set[str]) -> str:
    """The first line that tells that an edited text couldn't be read, if any, where an edit that only makes a contract false reads well."""
    for error in ERROR.finditer(said):
        file, declaration, why = error.groups()
        if (file in changed or file.startswith(("src/", "specs/"))) and (not declaration or UNREADABLE.search(re.sub("`[^`]*`", "", why))):
            return error[0]
    if not re.search(r"^fn \S+: ", said, re.M):
        return next((line for line in said.splitlines() if "error" in line), "it said nothing of functions")
    return ""


def is_refused(edit: Edit, said: str, crate: str, folder: pathlib.Path) -> bool:
    """Whether a check of the edited texts says that the edit's function isn't proved, for a cause of its own."""
    found = place(edit.function, folder)
    if not found or not re.search(rf"^fn {crate}::{re.escape(edit.function)}: (?:not proved|no proof)", said, re.M):
        return False
    file, first, last = found
    proof = proof_of(edit.function)
    proofs = f"{proof}/", f"{proof.with_name(f'+{proof.name}')}/"  # the second where it calls itself
    causes = [(at, int(line)) for at, line, why in CAUSE.findall(said) if not GONE.search(why)]
    return any(at.startswith(proofs) or at == file and first <= line <= last for at, line in causes)


def check(crate: Any, folder: pathlib.Path, functions: list[str], kept: pathlib.Path, guard: list[str]) -> tuple[str, int, float]:
    """The output of a check of some functions over the libraries below, its status, and the seconds of processor that it took."""
    call = [toolchain().RATTLE, "check", *crate.words(["--jobs", "1"], keeps=False), "--incremental", str(kept), "--allow-holes", "--short-goals"]
    call += [word for function in functions for word in ("--only", function)]
    with open(f"{folder}.said", "w+b") as said:
        started = subprocess.Popen([*guard, *call], cwd=folder, stdin=subprocess.DEVNULL, stdout=said, stderr=subprocess.STDOUT)
        _, status, usage = os.wait4(started.pid, 0)
        started.returncode = os.waitstatus_to_exitcode(status)
        said.seek(0)
        return said.read().decode(errors="replace"), started.returncode, usage.ru_utime + usage.ru_stime


def try_together(crate: Any, edits: list[Edit], room: pathlib.Path, guard: list[str], keeps_bodies: bool = False) -> Tried:
    """Tries edits in one check, over what earlier checks in the room proved. An edit that isn't refused is left out of both lists. If a source can't be read without the bodies of the other functions, it is tried with them."""
    folder = pathlib.Path(tempfile.mkdtemp(dir=room))
    for part in toolchain().PARTS:
        if os.path.isdir(f"{crate.folder}/{part}"):
            shutil.copytree(f"{crate.folder}/{part}", folder / part)
    for edit in edits:
        why = apply(edit, folder)
        if why or not place(edit.function, folder):
            return Tried(failed=[f"{edit.name}: {why or f'there is no function {edit.function}'}"])
    functions = [edit.function for edit in edits]
    hollow(crate.name, folder, functions, keeps_bodies)
    call = crate, folder, functions, room / "kept", guard
    said, status, seconds = check(*call)
    if status == -signal.SIGKILL:  # most likely for memory
        said, status, more = check(*call)
        seconds += more
    names = ", ".join(edit.name for edit in edits)
    why = unread(said, {change.file for edit in edits for change in edit.changes})
    if (status not in (0, 1, 3) or why) and not keeps_bodies:
        again = try_together(crate, edits, room, guard, True)
        return dataclasses.replace(again, seconds=again.seconds + seconds)
    if status not in (0, 1, 3) or why:
        return Tried(failed=[f"{names}: the check ended with {status}: {why or said[-300:]}"], seconds=seconds)
    refused = {edit.name for edit in edits if is_refused(edit, said, crate.name, folder)}
    shutil.rmtree(folder)
    return Tried(refused, [], seconds)


def try_round(crate: Any, edits: list[Edit], room: pathlib.Path, guard: list[str]) -> Tried:
    """Tries a round: together, then those that weren't refused together, and last each alone."""
    tried = try_together(crate, edits, room, guard)
    rest = [edit for edit in edits if edit.name not in tried.refused]
    if tried.failed or not rest:
        return tried
    if len(edits) == 1:
        tried.failed.append(f"{rest[0].name}: NOT REFUSED: {rest[0].function} is still proved, or isn't for no cause of its own")
        return tried
    for more in [rest] if tried.refused else [[edit] for edit in rest]:
        again = try_round(crate, more, room, guard)
        tried.refused |= again.refused
        tried.failed += again.failed
        tried.seconds += again.seconds
    return tried


def is_there(crate: Any) -> bool:
    """Whether a crate below is built of its sources, or `rt ci` has left it, which puts no stamp on it."""
    return crate.is_built() or (os.path.isdir(crate.rlib) and not os.path.exists(f"{crate.folder}/out/rlib/stamp"))


def known(name: str) -> Any:
    """A crate of crates.txt, with all crates below it. Two threads mustn't read crates at once: each would make its own."""
    crate = toolchain().Crate(str(CRATES / name), str(TOP), KNOWN)
    crate.below()
    return crate


def try_crate(crate: Any, whole: pathlib.Path, guard: list[str]) -> Tried:
    """Tries all edits of a crate."""
    name = crate.name
    lacking = [it.name for it in crate.below() if not is_there(it)]
    if lacking:
        return Tried(failed=[f"{', '.join(lacking)} of the crates below isn't built of its sources: run rt ci, or rt lib there"])
    found = {path.name: read(path) for path in sorted((CRATES / name / "edits").iterdir())}
    tried = Tried(failed=[f"{file}: {it}" for file, it in found.items() if isinstance(it, str)])
    room = whole / name
    room.mkdir()
    for edits in rounds_of([it for it in found.values() if isinstance(it, Edit)], CRATES / name):
        more = try_round(crate, edits, room, guard)
        tried.refused |= more.refused
        tried.failed += more.failed
        tried.seconds += more.seconds
    shutil.rmtree(room)
    return tried


def places() -> int:
    """How many checks may run side by side."""
    lines = pathlib.Path("/proc/meminfo").read_text().splitlines()
    free = next(int(line.split()[1]) * 1024 for line in lines if line.startswith("MemAvailable"))
    return max(1, min(len(os.sched_getaffinity(0)), free // MEMORY))


def count(number: int) -> str:
    """So many edits, in words."""
    return f"{number} edit{'s' if number != 1 else ''} refused"


def chosen() -> list[str]:
    """The crates to try, those with the most text first; the page, where the words are wrong."""
    there = {path.parent.name for path in CRATES.glob("*/edits") if any(path.iterdir())}
    given = words(__doc__)
    if given and (given[0] != "--only" or len(given) < 2 or not there.issuperset(given[1:])):
        print(__doc__.strip(), file=sys.stderr)
        sys.exit(2)
    return sorted(set(given[1:]) or there, key=lambda name: -sum(it.stat().st_size for it in (CRATES / name).glob("src/**/*.rt")))


def main() -> int:
    """Tries those of each crate."""
    crates, guard, refused, failed = [known(name) for name in chosen()], toolchain().guarded(), 0, 0
    with tempfile.TemporaryDirectory() as whole, concurrent.futures.ThreadPoolExecutor(places()) as pool:
        runs = {pool.submit(try_crate, crate, pathlib.Path(whole), guard): crate.name for crate in crates}
        for run in concurrent.futures.as_completed(runs):
            tried = run.result()
            print(f"{runs[run]}: {count(len(tried.refused))} in {tried.seconds:.0f} s of processor", flush=True)
            for why in tried.failed:
                print(f"{runs[run]}: {why}", flush=True)
            refused, failed = refused + len(tried.refused), failed + len(tried.failed)
    print(count(refused))
    return 1 if failed else 0


if __name__ == "__main__":
    sys.exit(main())
