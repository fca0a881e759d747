#!/usr/bin/env python3
"""Tries the program and tools/explain.py on scripts that are refused.

    try_explain.py PROGRAM FOLDER COMMAND

FOLDER has folders with scripts NAME.json. Beside each is NAME.cause, the line that `PROGRAM WORD < NAME.json` must write on standard error, with
status 2 and nothing on standard output. WORD is `race` for names that begin with race_, and otherwise `play`. FOLDER/sentences.txt has a line
`NAME: SENTENCE` for each, which tools/explain.py must say. Each cause must be there, and for each key every cause that it can have.
FOLDER/rows.list has more, a line each: WORD NUMBER PLACE TEXT. `PROGRAM WORD` must refuse TEXT, a JSON string, for the cause of this number at
this place. COMMAND, which is ./muoswyld, must write the line. Below it, it must write the sentence if standard error is a terminal, and
otherwise how to get it. The statuses of explain.py are tried, too. It prints what fails, and how many passed.
"""

import json
import os
import pathlib
import pty
import re
import subprocess
import sys
from collections.abc import Iterator

import explain
from running import run
from words import words

# what ./muoswyld says below a refusal where nobody looks
HINT = r"muoswyld: in words: tools/explain\.py \S+ (play|race) < FILE\n"


def word_for(script: pathlib.Path) -> str:
    """The word that a script is for."""
    return "race" if script.name.startswith("race_") else "play"


def wanted() -> Iterator[tuple[str, str, int]]:
    """Each key with each cause that it can have, as its sentence names it."""
    keys = [(word, key, script[key]) for word, script in explain.SCRIPTS.items() for key in script]
    keys += [("thread", key, explain.THREAD[key]) for key in explain.THREAD]
    for where, form in (("event", explain.EVENT), ("call", explain.CALL)):
        keys += [(where, key, value) for act in form[1] for key, value in explain.keys_of({"do": act}, form).items()]
    for where, key, (_, lawful) in keys:
        yield where, key, explain.BAD_VALUE
        if lawful is not None:
            yield where, key, explain.MISSING
        if key not in ("do", "settle", "events", "seed", "calls"):
            yield where, key, explain.OUT_OF_RANGE
    for word in explain.SCRIPTS:
        yield from (("document", word, cause) for cause in (explain.BAD_VALUE, explain.MISSING))


def covered(cause: int, sentence: str) -> tuple[str, str, int] | None:
    """The key with the cause that a sentence speaks of."""
    where = re.match("the document|play|race|event|thread|call", sentence)
    key = re.search("`([a-z_]+)`", sentence)
    return (where[0].removeprefix("the "), key[1], cause) if where and key else None


def faults(program: str, script: pathlib.Path, sentences: dict[str, str]) -> Iterator[str]:
    """What is wrong with the answers to a script."""
    data = script.read_bytes()
    ran = run([program, word_for(script)], data)
    want = script.with_suffix(".cause").read_bytes()
    if (ran.returncode, ran.stdout, ran.stderr) != (2, b"", want):
        yield f"status {ran.returncode}, {ran.stderr!r} and not {want!r}"
    said, takes = explain.answer(explain.Asked(program, word_for(script)), data)
    if takes or said != sentences.get(script.stem):
        yield f"'{said}' and not '{sentences.get(script.stem)}'"


def faults_of_row(program: str, row: str) -> Iterator[str]:
    """What is wrong with the answer to a row of rows.list."""
    word, number, place, text = row.split(" ", 3)
    ran = run([program, word], json.loads(text).encode())
    if (ran.returncode, ran.stdout, ran.stderr) != (2, b"", f"bad script {number} at {place}\n".encode()):
        yield f"status {ran.returncode}, {ran.stderr!r} and not {number} at {place}"


def at_a_terminal(command: str, script: pathlib.Path) -> tuple[bytes, int]:
    """What a command writes on standard error where that is a terminal, and its status."""
    ours, theirs = pty.openpty()
    with script.open("rb") as words:
        ran = subprocess.run([command, word_for(script)], stdin=words, stdout=subprocess.DEVNULL, stderr=theirs)
    os.close(theirs)
    said = b""
    try:
        while part := os.read(ours, 4096):
            said += part
    except OSError:
        pass
    os.close(ours)
    return said.replace(b"\r\n", b"\n"), ran.returncode


def faults_of_command(command: str, script: pathlib.Path, sentence: str) -> Iterator[str]:
    """What is wrong with what ./muoswyld writes of a refusal."""
    line = script.with_suffix(".cause").read_bytes()
    ran = run([command, word_for(script)], script.read_bytes())
    hint = ran.stderr.removeprefix(line).decode()
    if (ran.stdout, ran.returncode) != (b"", 2) or not (ran.stderr.startswith(line) and re.fullmatch(HINT, hint)):
        yield f"{command} wrote {ran.stderr!r}, status {ran.returncode}"
    if at_a_terminal(command, script) != (line + sentence.encode() + b"\n", 2):
        yield f"{command} wrote {at_a_terminal(command, script)} at a terminal"


def calls_of_explain(program: str) -> list[tuple[list[str], bytes, int, str]]:
    """Calls of tools/explain.py: the words, what is read, the status, and what stands in what it writes or tells."""
    taken = b'{"play": {"founders": [0], "events": []}}'
    return [
        ([program], taken, 0, "the program takes this script, by the word play\n"),
        ([program], b'{"play": {"founders": [0], "events": [], "a\\u001b[31m\\u0000": 1}}', 1, "play: `a\\x1b[31m\\x00` doesn't belong there"),
        ([program], b"\x1b", 1, "column 1, before \\x1b\n"),
        ([program, "audit"], b"group 1 join 1\nlawful\n", 0, "the program takes this text, by the word audit\n"),
        ([program, "audit"], b"\xff", 1, "line 1 is "),
        ([__file__.replace("try_explain.py", "README.md")], taken, 2, "a script is read from standard input: tools/explain.py < SCRIPT\n"),
        ([program, "gen"], taken, 2, "explain.py: gen isn't play, race or audit\n"),
    ]


def faults_of_explain(program: str) -> Iterator[str]:
    """What is wrong with the calls of tools/explain.py."""
    tool = pathlib.Path(explain.__file__)
    for words_of_call, data, status, wanted in calls_of_explain(program):
        ran = run([sys.executable, tool, *words_of_call], data)
        said = ran.stderr if status == 2 else ran.stdout
        if ran.returncode != status or said.count(b"\n") != 1 or wanted not in said.decode() or re.search(rb"[\0-\x09\x0b-\x1f]", said):
            yield f"explain.py {words_of_call} with {data!r}: {ran.returncode}, {ran.stdout!r}, {ran.stderr!r}"


def main() -> None:
    """Tries all refusals."""
    program, named, command = words(__doc__, 3, 3)
    folder = pathlib.Path(named)
    lines = (folder / "sentences.txt").read_text().splitlines()
    sentences = dict(line.split(": ", 1) for line in lines)
    scripts = sorted(folder.glob("*/*.json"), key=lambda script: script.stem)
    passed, failed, seen = 0, 0, set()
    for script in scripts:
        wrong = list(faults(program, script, sentences))
        passed, failed = passed + (not wrong), failed + len(wrong)
        for line in wrong:
            print(f"{script}: {line}")
        cause = int(script.with_suffix(".cause").read_text().split()[2])
        seen |= {cause, covered(cause, sentences.get(script.stem, ""))}
    for row in (folder / "rows.list").read_text().splitlines():
        wrong = list(faults_of_row(program, row))
        passed, failed = passed + (not wrong), failed + len(wrong)
        for line in wrong:
            print(f"{row}: {line}")
    for absent in sorted(map(str, (set(wanted()) | set(range(1, 6))) - seen)):
        print(f"there is no script for {absent}")
        failed += 1
    for script in (scripts[0], scripts[-1], next(script for script in scripts if word_for(script) == "race")):
        for line in faults_of_command(command, script, sentences[script.stem]):
            print(line)
            failed += 1
    wrong = list(faults_of_explain(program))
    passed, failed = passed + len(calls_of_explain(program)) - len(wrong), failed + len(wrong)
    for line in wrong:
        print(line)
    if sorted(sentences) != [script.stem for script in scripts]:
        print("sentences.txt doesn't have a line for each script, in order")
        failed += 1
    print(f"{passed} refusals and calls passed, {failed} failed")
    sys.exit(1 if failed else 0)


if __name__ == "__main__":
    main()
