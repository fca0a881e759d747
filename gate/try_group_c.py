#!/usr/bin/env python3
"""Tries the member for C: bindings/c/muoswyld_group.h and the libraries that tools/runtime.py builds of runtime/c.

    gate/try_group_c.py            tries them
    gate/try_group_c.py --write    writes the header anew, from the comments and the calls of runtime/c

The header must be the one that cbindgen writes, and the shared library must have its calls and no others. bindings/c/group.c has three members in one
process, and bindings/c/counter.c a replicated counter. They are built as C99 and as C++, without a warning, and run as they are, with the static library,
with the address and the undefined behaviour sanitizers, and under valgrind. What `make install-group` installs is used by docs/C.md's program. What is missing of Debian's packages is installed, if
root runs this, and else named in a line. It prints what fails, and how many parts passed.
"""

import os
import pathlib
import re
import subprocess
import sys
import tempfile
from collections.abc import Callable

from members import FIRST_PORT, own_host
from packages import Missing, has_programs, install
from running import run
from words import end, words

TOP = pathlib.Path(__file__).resolve().parent.parent
BINDINGS, RUNTIME = TOP / "bindings" / "c", TOP / "runtime"
HEADER, BUILT = BINDINGS / "muoswyld_group.h", RUNTIME / "target" / "release"
NEEDED = {"cbindgen": "cbindgen", "valgrind": "valgrind", "pkg-config": "pkg-config", "gcc": "gcc", "g++": "g++", "binutils": "nm", "make": "make"}
WARNINGS = ["-pthread", "-g", "-O1", "-Wall", "-Wextra", "-Werror", "-pedantic"]
C99 = ["gcc", "-std=c99", "-D_POSIX_C_SOURCE=200809L", *WARNINGS]
CXX = ["g++", "-x", "c++", "-std=c++11", *WARNINGS]
SANITIZERS = ["-fsanitize=address,undefined", "-fno-sanitize-recover=all", "-fno-omit-frame-pointer"]
LEAKS = "definite,indirect"
VALGRIND = ["valgrind", "--quiet", "--leak-check=full", f"--show-leak-kinds={LEAKS}", f"--errors-for-leak-kinds={LEAKS}", "--error-exitcode=86"]


def out_of(*command: object, **more: object) -> str:
    """What a command writes; Missing with what it says if it fails."""
    done = run([str(word) for word in command], **more)
    if done.returncode:
        raise Missing(f"{' '.join(map(str, command))[:200]} ended with {done.returncode}: {(done.stdout + done.stderr).decode(errors='replace')[-3000:]}")
    return done.stdout.decode()


def generated(folder: pathlib.Path) -> str:
    """The header as cbindgen writes it."""
    source = [] if os.environ.get("CRATES_IO") else ["--config", "debian.toml", "--offline"]
    metadata, made = folder / "metadata.json", folder / "made.h"
    metadata.write_text(out_of("cargo", "metadata", *source, "--format-version", "1", cwd=RUNTIME))
    given = ["--config", "cbindgen.toml", "--crate", "muoswyld-c", "--metadata", metadata, "--lockfile", RUNTIME / "Cargo.lock", "--output", made]
    out_of("cbindgen", "--quiet", *given, ".", cwd=RUNTIME / "c")
    return made.read_text().rstrip("\n") + "\n"


def header(folder: pathlib.Path) -> list[str]:
    """The header is the one that is made of the sources, and both libraries have its calls."""
    text = HEADER.read_text()
    wrong = [] if generated(folder) == text else ["bindings/c/muoswyld_group.h isn't what cbindgen writes: gate/try_group_c.py --write"]
    calls = set(re.findall(r"^[a-z].*?\b(muoswyld_\w+)\(", text, re.MULTILINE))
    exported = {line.split()[-1] for line in out_of("nm", "-D", "--defined-only", BUILT / "libmuoswyld_group.so").splitlines()}
    if len(calls) < 30 or calls != exported:
        wrong.append(f"the library has {sorted(exported - calls)} beside the header's calls, and hasn't {sorted(calls - exported)}")
    return wrong


def flags(folder: pathlib.Path, *more: str) -> list[str]:
    """What pkg-config says for the library whose page is in a folder."""
    return out_of("pkg-config", *more, "--cflags", "--libs", "muoswyld-group", env={**os.environ, "PKG_CONFIG_PATH": str(folder)}).split()


def three(folder: pathlib.Path, number: int, compiler: list[str], link: list[str], by: list[str]) -> list[str]:
    """The programs with three members are built, and run to their end."""
    wrong = []
    for name in ("group", "counter"):
        program = folder / f"{name}-{number}"
        out_of(*compiler, "-o", program, BINDINGS / f"{name}.c", *link)
        quiet = {**os.environ, "ASAN_OPTIONS": "detect_leaks=1:exitcode=86"}
        done = run([*by, program, own_host(20 + number), str(FIRST_PORT)], seconds=200, env=quiet)
        said = (done.stdout + done.stderr).decode(errors="replace")
        if (done.returncode, said) != (0, "done\n"):
            wrong.append(f"{compiler[0]} {by[:1]}: {name} ended with {done.returncode}: {said[-3000:]}")
    return wrong


def in_all_ways(folder: pathlib.Path) -> list[str]:
    """Three members by the shared library and by the static one, as C and as C++, plain and watched."""
    shared = [*flags(BINDINGS), f"-Wl,-rpath,{BUILT}"]
    static = [word for word in flags(BINDINGS, "--static") if word != "-lmuoswyld_group"]
    ways: list[tuple[list[str], list[str], list[str]]] = [
        (C99, shared, []),
        (CXX, shared, []),
        (C99, [*static[:1], str(BUILT / "libmuoswyld_group.a"), *static[1:]], []),
        ([*C99, *SANITIZERS], shared, []),
        ([*CXX, *SANITIZERS], shared, []),
        (C99, shared, VALGRIND),
    ]
    return [line for number, way in enumerate(ways) for line in three(folder, number, *way)]


def installed(folder: pathlib.Path) -> list[str]:
    """What is installed is enough for the program of docs/C.md, of which three processes print the same."""
    source = (BINDINGS / "say.c").read_text()
    wrong = [] if f"```c\n{source}```\n" in (TOP / "docs" / "C.md").read_text() else ["docs/C.md doesn't have bindings/c/say.c as it is"]
    out_of("make", "-C", BINDINGS, "install-group", f"PREFIX={folder}")
    host, program = own_host(30), folder / "say"
    (folder / "say.c").write_text(source.replace("127.0.0.1", host))
    out_of(*C99, "-o", program, folder / "say.c", *flags(folder / "lib" / "pkgconfig"))
    found = {**os.environ, "LD_LIBRARY_PATH": str(folder / "lib")}
    said_by = [subprocess.Popen([program, str(name), f"word-{name}"], stdout=subprocess.PIPE, stderr=subprocess.STDOUT, env=found, text=True) for name in range(3)]
    said = [child.communicate(timeout=100)[0] for child in said_by]
    if sorted(said[0].splitlines()) != [f"{name} says word-{name}" for name in range(3)] or said[0] != said[1] or said[1] != said[2]:
        wrong.append(f"three of bindings/c/say.c print {said}")
    bad = run([program, "16", "word"], env=found)
    if bad.returncode != 1 or not bad.stderr.decode().startswith("16: a name is PLACE, 0 to 15"):
        wrong.append(f"say 16 is answered {bad}")
    return wrong


def main() -> int:
    """Tries all of it, or writes the header."""
    is_writing = words(__doc__, 0, 1) == ["--write"]
    parts: list[Callable[[pathlib.Path], list[str]]] = [header, in_all_ways, installed]
    passed = failed = 0
    try:
        install({package: lambda program=program: has_programs(program) for package, program in NEEDED.items()})
        with tempfile.TemporaryDirectory() as made:
            if is_writing:
                HEADER.write_text(generated(pathlib.Path(made)))
                return 0
            for number, part in enumerate(parts):
                folder = pathlib.Path(made) / str(number)
                folder.mkdir()
                try:
                    wrong = part(folder)
                except (Missing, OSError, subprocess.SubprocessError) as error:
                    wrong = [str(error)]
                passed, failed = passed + (not wrong), failed + bool(wrong)
                for line in wrong:
                    print(f"refused: {part.__name__}: {line}")
    except Missing as error:
        print(f"refused: {error}")
        failed += 1
    print(f"gate/try_group_c.py: {passed} passed, {failed} failed")
    return 1 if failed else 0


if __name__ == "__main__":
    end(main)
