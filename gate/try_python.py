#!/usr/bin/env python3
"""Tries the Python package muoswyld (bindings/python) over the library that tools/runtime.py builds.

    gate/try_python.py

pip installs it into a new environment without a network, and there its tests run (bindings/python/test_*.py). The wheel is the same each time it
is made. Its structs lie in memory as those of bindings/c/muoswyld_group.h, and its calls have as many parameters. It prints what fails, and how many
parts passed.
"""

import ctypes
import importlib
import importlib.util
import os
import pathlib
import re
import subprocess
import sys
import tempfile
import zipfile
from collections.abc import Callable
from typing import Any

from installed import SOURCE, TOP, environment, unpacked, wheel
from packages import Missing, has_programs, install
from running import run
from words import end, words

# exceptions of other names than their statuses have, as those are Python's; and what is no error of a Python caller, or no end
OTHERWISE = {"IsFounder": "Founder", "SystemRefused": "System"}
WITHOUT = {*(f"STATUS_{name}" for name in ("OK", "NULL_POINTER", "EMPTY", "NO_ROOM", "OTHER")), "END_RUNNING"}
# files of tests, and how many each has at least
TESTS = {"test_group.py": 21, "test_service.py": 6}
HEADER = TOP / "bindings" / "c" / "muoswyld_group.h"


def tests(folder: pathlib.Path) -> list[str]:
    """The package is installed, and passes its tests, with every warning as an error."""
    python, wrong = environment(folder), []
    alone = {name: value for name, value in os.environ.items() if not name.startswith(("PYTHON", "MUOSWYLD_LIBRARY"))}
    for name, least in TESTS.items():
        done = run([python, "-X", "dev", "-W", "error", SOURCE / name], cwd=folder, env=alone, seconds=600)
        said = done.stderr.decode(errors="replace")
        passed = re.search(r"^Ran (\d+) tests in .*\n\nOK$", said, re.MULTILINE)
        if done.returncode or not passed or int(passed[1]) < least:
            wrong.append(f"{name} ended with {done.returncode}: {said[-5000:]}")
    return wrong


def wheels(folder: pathlib.Path) -> list[str]:
    """The wheel is the same each time, and has what its record says; without a library it isn't made."""
    (folder / "again").mkdir()
    one, other = wheel(folder), wheel(folder / "again")
    wrong = [] if one.read_bytes() == other.read_bytes() else ["the wheel isn't the same twice"]
    with zipfile.ZipFile(one) as file:
        names = set(file.namelist())
        record = file.read(next(name for name in names if name.endswith("/RECORD"))).decode()
    listed = {line.split(",")[0] for line in record.splitlines()}
    wanted = {"muoswyld/__init__.py", "muoswyld/py.typed", "muoswyld/libmuoswyld_group.so", "muoswyld-0.1.0.dist-info/licenses/LICENSE-MIT"}
    if listed != names or not wanted <= names or any(name.startswith("muoswyld/") != (".dist-info/" not in name) for name in names):
        wrong.append(f"the wheel has {sorted(names)}, and its record {sorted(listed)}")
    done = run([sys.executable, SOURCE / "wheel_file.py", folder], env={**os.environ, "MUOSWYLD_LIBRARY": "/nowhere/library.so"})
    if done.returncode != 1 or done.stderr != b"/nowhere/library.so isn't there: tools/runtime.py builds it\n":
        wrong.append(f"without a library it says {done}")
    return wrong


def layouts(structs: dict[str, type[ctypes.Structure]]) -> str:
    """A C program that prints the size of each struct, and where its fields are."""
    lines = []
    for name, struct in structs.items():
        lines.append(f'    printf("{name} %zu\\n", sizeof(muoswyld_{name}));')
        for field, *_ in struct._fields_:
            lines.append(f'    printf("{name}.{field} %zu %zu\\n", offsetof(muoswyld_{name}, {field}), sizeof(((muoswyld_{name} *)0)->{field}));')
    body = "\n".join(lines)
    return f'#include "muoswyld_group.h"\n#include <stdio.h>\nint main(void) {{\n{body}\n    return 0;\n}}\n'


def numbers(package: Any) -> list[str]:
    """The package's errors, ends and roles have the numbers of the header."""
    known = {f"STATUS_{OTHERWISE.get(name, name)}": kind.status for name, kind in vars(package).items() if getattr(kind, "status", -1) >= 0}
    for kind in (package.End, package.Role):
        known |= {f"{kind.__name__}_{one.name}": one.value for one in kind}
    known = {re.sub(r"(?<=[a-z])(?=[A-Z])", "_", name).upper(): number for name, number in known.items()}
    found = {name: int(number) for name, number in re.findall(r"^ +MUOSWYLD_((?:STATUS|END|ROLE)_\w+) = (\d+),$", HEADER.read_text(), re.MULTILINE)}
    wanted = {name: number for name, number in found.items() if name not in WITHOUT}
    return [] if known == wanted else [f"numbers of the header and of the package differ: {sorted(wanted.items() ^ known.items())}"]


def package_of(folder: pathlib.Path) -> Any:
    """The package of a wheel that is unpacked in a folder, as `import muoswyld` gives it from now on."""
    init = pathlib.Path(unpacked(folder)["PYTHONPATH"]) / "muoswyld" / "__init__.py"
    spec = importlib.util.spec_from_file_location("muoswyld", init)
    package = sys.modules["muoswyld"] = importlib.util.module_from_spec(spec)
    spec.loader.exec_module(package)
    return package


def same_as_c(folder: pathlib.Path) -> list[str]:
    """The package's structs are those of the header, and so are its calls."""
    package = package_of(folder)
    library = importlib.import_module("muoswyld._library")
    kinds = {"name": library.CName, "names": library.CNames, "position": library.CPosition, "delivery": library.CDelivery, "counts": library.CCounts, "info": library.CInfo}
    kinds |= {"machine": library.CMachine, "answer": library.CAnswer, "service_info": library.CServiceInfo}
    source, program = folder / "layouts.c", folder / "layouts"
    source.write_text(layouts(kinds))
    subprocess.run(["gcc", "-Wall", "-Werror", f"-I{HEADER.parent}", "-o", program, source], check=True)
    said = subprocess.run([program], capture_output=True, text=True, check=True).stdout.splitlines()
    wanted = []
    for name, struct in kinds.items():
        wanted.append(f"{name} {ctypes.sizeof(struct)}")
        fields = [getattr(struct, field) for field, *_ in struct._fields_]
        wanted += [f"{name}.{field[0]} {known.offset} {known.size}" for field, known in zip(struct._fields_, fields, strict=True)]
    wrong = [f"C has {one}, and Python {other}" for one, other in zip(said, wanted, strict=True) if one != other]
    wrong += numbers(package)
    text = re.sub(r"/\*.*?\*/", "", HEADER.read_text(), flags=re.DOTALL)
    declared = {name: 0 if given == "void" else len(given.split(",")) for name, given in re.findall(r"\bmuoswyld_(\w+)\(([^)]*)\);", text)}
    known = {name: len(given) for name, (_, *given) in library._CALLS.items()}
    missing = {name for name in declared if name not in known} - {"group_send"}  # send is submit and a ticket
    wrong += [f"muoswyld_{name} has {declared.get(name)} parameters, and in Python {many}" for name, many in known.items() if declared.get(name) != many]
    return wrong + [f"the package doesn't know muoswyld_{name}" for name in sorted(missing)]


def main() -> int:
    """Tries all of it."""
    words(__doc__, 0, 0)
    parts: list[Callable[[pathlib.Path], list[str]]] = [tests, wheels, same_as_c]
    passed = failed = 0
    for part in parts:
        with tempfile.TemporaryDirectory() as folder:
            try:
                install({"gcc": lambda: has_programs("gcc"), "python3-venv": lambda: importlib.util.find_spec("ensurepip") is not None})
                wrong = part(pathlib.Path(folder))
            except (Missing, OSError, subprocess.SubprocessError) as error:
                wrong = [str(error)]
        passed, failed = passed + (not wrong), failed + bool(wrong)
        for line in wrong:
            print(f"refused: {part.__name__}: {line}")
    print(f"gate/try_python.py: {passed} passed, {failed} failed")
    return 1 if failed else 0


if __name__ == "__main__":
    end(main)
