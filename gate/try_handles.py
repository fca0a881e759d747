#!/usr/bin/env python3
"""Tries the library for C under the address sanitizer, and its header in C++.

    try_handles.py [--seed N]

The programs of bindings/c are built with -fsanitize=address, over the library that tools/library.py makes. Nothing may be kept of a closed handle, and
no call may read or write outside. This is tried with three members, with each refusal, and with 2,000 random and mutated lines to nodes in each state.
The driver must give the answers of cases/lines. If a C++ compiler is there, it must read the header without a warning. CC and CXX name the
compilers. It prints what fails, and how many parts passed.
"""

import argparse
import os
import pathlib
import random
import shutil
import sys
import tempfile

from library import kit
from running import run
from try_c import TOP, told
from try_lines import STATES, mutated, try_told

BINDINGS = TOP / "bindings" / "c"
LINES = 2_000
# where the address sanitizer finds something, the program ends with this
FOUND = {"ASAN_OPTIONS": "detect_leaks=1:exitcode=86"}
CALLS = """\
#include "muoswyld.h"
int main() {
    muoswyld_node node = {};
    size_t length;
    char room[64];
    int number = muoswyld_open(&node, "", 0) + muoswyld_step(&node, "tick", 4, room, sizeof room, &length);
    return number + muoswyld_close(&node) + MUOSWYLD_OPEN;
}
"""


def built(folder: pathlib.Path, _: int) -> list[str]:
    """The library, and the programs with the address sanitizer."""
    wrong = told("tools/library.py", run([sys.executable, str(TOP / "tools" / "library.py")], seconds=7200))
    compiler = os.environ.get("CC") or shutil.which("cc") or shutil.which("gcc") or "clang"
    programs = [str(folder / name) for name in ("driver", "three", "refusals")]
    words = ["make", "-C", str(BINDINGS), f"KIT={kit()}", f"OUT={folder}", f"CC={compiler}", "MORE=-g -fsanitize=address", *programs]
    return wrong or told("make with the address sanitizer", run(words))


def leaks(folder: pathlib.Path, seed: int) -> list[str]:
    """Nothing is lost, read or written outside."""
    programs = [([str(folder / "three")], b""), ([str(folder / "refusals")], b"")]
    for state, (name, begins) in STATES.items():
        draw = random.Random(f"handles {seed} {state}")
        lines = b"\n".join([line.encode() for line in begins] + [mutated(draw) for _ in range(LINES)])
        programs.append(([str(folder / "driver"), "--name", name, "--founders", "0,1,2", "--resilience", "1"], lines))
    found = {**os.environ, **FOUND}
    return [line for words, lines in programs for line in told(" ".join(words), run(words, lines, env=found))]


def cases(folder: pathlib.Path, _: int) -> list[str]:
    """The lines of cases/lines have their answers."""
    return try_told([str(folder / "driver")])


def header(folder: pathlib.Path, _: int) -> list[str]:
    """C++ reads the header, and its calls can be made."""
    compiler = os.environ.get("CXX") or shutil.which("c++") or shutil.which("g++") or shutil.which("clang++")
    if not compiler:
        print("gate/try_handles.py: no C++ compiler is here, so none read the header")
        return []
    (folder / "calls.cc").write_text(CALLS)
    words = [compiler, "-fsyntax-only", "-Wall", "-Wextra", "-Wpedantic", "-Werror", f"-I{BINDINGS}", str(folder / "calls.cc")]
    return [line for standard in ("c++11", "c++17") for line in told(standard, run([*words, f"-std={standard}"]))]


def main() -> int:
    """Tries all parts."""
    parser = argparse.ArgumentParser(description=__doc__, formatter_class=argparse.RawDescriptionHelpFormatter)
    parser.add_argument("--seed", type=int, default=1)
    seed, failed, parts = parser.parse_args().seed, 0, (header, built, leaks, cases)
    with tempfile.TemporaryDirectory() as folder:
        for part in parts:
            wrong = part(pathlib.Path(folder), seed)
            failed += bool(wrong)
            for line in wrong:
                print(f"refused: {part.__name__}: {line}")
            if wrong and part is built:
                break
    print(f"gate/try_handles.py: {len(parts) - failed} passed, {failed} failed")
    return 1 if failed else 0


if __name__ == "__main__":
    sys.exit(main())
