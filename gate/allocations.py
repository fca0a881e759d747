"""Makes each allocation of the program fail in turn. The program must then say that there was no memory and write nothing, or do everything as
usual. It also compares how often the program asks for memory, and for how many bytes together, with a list for some scripts. It refuses
more, and reports less.

Usage: allocations.py PROGRAM LIST SCRIPT...

A line of the list is a script, how many allocations the program makes for it, and how many bytes these ask for. A script in a folder
`races` is a race, of one thread; a file in a folder `audits` is a text to audit, which agrees.
"""

import os
import subprocess
import tempfile
from pathlib import Path

from running import run
from words import end, words


def word_for(script: str) -> str:
    """The word that a script is for, by its folder."""
    folders = {"races": "race", "audits": "audit"}
    return next((folders[part] for part in Path(script).parts if part in folders), "play")


def answered(program: str, library: str, script: str, **more: str) -> tuple[int, bytes, bytes]:
    """The program's status for a script, what it says on standard error, and what it writes; `more` goes to its environment."""
    word = word_for(script)
    done = run([program, word], Path(script).read_bytes(), env={"LD_PRELOAD": library, **more})
    return done.returncode, done.stderr, done.stdout


def asked_by(program: str, library: str, script: str) -> tuple[int, int, bytes]:
    """How many allocations there are, how many bytes they ask for together, and the text that the program wrote."""
    text = Path(script).with_suffix(".line" if word_for(script) == "audit" else ".txt").read_bytes()
    status, told, written = answered(program, library, script, COUNT_ALLOCATIONS="1")
    assert (status, written) == (0, text), f"{script} doesn't print its text"
    count, size = told.split()
    return int(count), int(size), text


def refused_by(program: str, library: str, script: str) -> tuple[int, int]:
    """How many allocations there are, and for how many the program told that there was no memory."""
    count, _, text = asked_by(program, library, script)
    refused = 0
    for number in range(1, count + 1):
        came = answered(program, library, script, FAIL_AT=str(number))
        if came == (6, b"no memory\n", b""):
            refused += 1
        elif came != (0, b"", text):
            print(f"refused: allocation {number} of {script} failed, and it gave {came}")
            return count, -1
    return count, refused


def is_within(program: str, library: str, line: str) -> bool:
    """Whether the program asks for no more memory than a line of the list says."""
    script, listed, listed_bytes = line.split()
    count, size, _ = asked_by(program, library, script)
    if count > int(listed) or size > int(listed_bytes):
        print(f"refused: {script} takes {count} allocations of {size} bytes together, and not {listed} of {listed_bytes}")
        return False
    less = "" if (count, size) == (int(listed), int(listed_bytes)) else f", and the list has {listed} of {listed_bytes}: it can have less"
    print(f"{script}: {count} allocations of {size} bytes together{less}")
    return True


def main(program: str, bounds: str, scripts: list[str]) -> int:
    """Compares with the list, and lets each allocation fail."""
    here = Path(__file__).parent
    lines = [line for line in Path(bounds).read_text().splitlines() if line and not line.startswith("#")]
    failed = False
    with tempfile.TemporaryDirectory() as folder:
        library = os.path.join(folder, "fail_malloc.so")
        subprocess.run(["cc", "-shared", "-fPIC", "-O2", "-o", library, here / "fail_malloc.c", "-ldl"], check=True)
        for line in lines:
            if not is_within(program, library, line):
                failed = True
        for script in scripts:
            count, refused = refused_by(program, library, script)
            # most allocations are the program's own
            if refused < count // 2:
                print(f"refused: of {count} allocations of {script} {refused} were told of")
                failed = True
            else:
                print(f"{script}: {count} allocations, {refused} times there was no memory")
    return 1 if failed else 0


if __name__ == "__main__":
    program, bounds, *scripts = words(__doc__, 3)
    end(lambda: main(program, bounds, scripts))
