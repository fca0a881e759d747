#!/usr/bin/env python3
"""Runs the program on scripts, and compares what it writes with the texts beside them.

    texts.py PROGRAM FOLDER...

Each FOLDER has scripts NAME.json, each with the text NAME.txt that `PROGRAM play < NAME.json` must write, with status 0 and nothing on
standard error. Scripts with a NAME.cause are refused ones, and are left out. It prints the first line that differs of each script that
fails, and how many passed.
"""

import pathlib
import sys

from running import run
from words import words


def difference(program: str, script: pathlib.Path) -> str | None:
    """What is wrong with the program's answer to a script; None where nothing is."""
    want = script.with_suffix(".txt").read_bytes()
    ran = run([program, "play"], script.read_bytes(), 600)
    if ran.returncode != 0 or ran.stderr:
        return f"status {ran.returncode}: {ran.stderr.decode(errors='replace').strip()}"
    if ran.stdout == want:
        return None
    got, wanted = ran.stdout.split(b"\n"), want.split(b"\n")
    at = next((k for k, pair in enumerate(zip(got, wanted)) if pair[0] != pair[1]), min(len(got), len(wanted)))
    line = lambda lines: lines[at].decode(errors="replace") if at < len(lines) else "(no line)"
    return f"line {at + 1}: {line(got)}\n    wanted: {line(wanted)}"


def main() -> None:
    """Compares all texts."""
    program, *folders = words(__doc__, 2)
    passed = failed = 0
    for folder in folders:
        for script in sorted(pathlib.Path(folder).glob("*.json")):
            if script.with_suffix(".cause").exists():
                continue
            wrong = difference(program, script)
            if wrong is None:
                passed += 1
            else:
                failed += 1
                print(f"{script}: {wrong}")
    print(f"{passed} passed, {failed} failed")
    sys.exit(1 if failed or not passed else 0)


if __name__ == "__main__":
    main()
