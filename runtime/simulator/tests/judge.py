#!/usr/bin/env python3
"""Judges runs of the simulator: merges the journals of each folder, and compares what `play` answers with what the members did.

    PYTHONPATH=net judge.py PROGRAM FOLDER..

It ends with 1 if an answer differs, or journals can't be merged.
"""

import argparse
import pathlib
import subprocess
import sys

from cluster import MOST_EVENTS, judged
from merge import Merged, Unmerged


def judge(program: str, folder: pathlib.Path) -> int:
    """Judges a run; 1 if it isn't what the program answers."""
    try:
        merged = Merged([str(path) for path in sorted(folder.glob("journal-*"))])
    except Unmerged as error:
        print(f"{folder.name}: {error}")
        return 1
    script = merged.script(MOST_EVENTS)
    done = subprocess.run([program, "play"], input=script.encode(), capture_output=True, check=False)
    if done.returncode != 0:
        print(f"{folder.name}: play ended with {done.returncode}: {done.stderr.decode(errors='replace').strip()}")
        return 1
    # more may stop than the resilience, as the plan has it: that isn't looked at here, the answers are
    wanted = argparse.Namespace(resilience=-1, program=program, judge=program)
    said, status = judged(merged, wanted, done.stdout.decode(errors="replace"))
    print(f"{folder.name}: {'; '.join(said)}")
    return status


def main() -> int:
    """Judges the runs that are named."""
    program, *folders = sys.argv[1:]
    return max([judge(program, pathlib.Path(folder)) for folder in folders], default=0)


if __name__ == "__main__":
    sys.exit(main())
