#!/usr/bin/env python3
"""Makes a Debian package of muoswyldd, once tools/runtime.py has built it.

    runtime/muoswyldd/package/make.py [FOLDER]        the folder that it is put into; runtime/target where none is said
"""

import pathlib
import shutil
import subprocess
import sys
import tempfile

HERE = pathlib.Path(__file__).resolve().parent
RUNTIME = HERE.parent.parent
PROGRAM = RUNTIME / "target" / "release" / "muoswyldd"

CONTROL = """Package: muoswyldd
Version: {version}
Architecture: amd64
Maintainer: Muoswyld <muoswyld@localhost>
Depends: libc6, adduser
Section: net
Priority: optional
Description: member of a group with one order of messages
 All members of a group are given the same messages in the same order, though
 the network loses, repeats and reorders datagrams and members stop.
"""

POSTINST = """#!/bin/sh
set -e
if ! getent passwd muoswyldd > /dev/null; then
    adduser --system --group --no-create-home --home /nonexistent muoswyldd
fi
"""


def version() -> str:
    """The version that the program tells of itself."""
    said = subprocess.run([PROGRAM, "--version"], capture_output=True, text=True, check=True).stdout
    return said.split()[1]


def put(tree: pathlib.Path, source: pathlib.Path | str, to: str, mode: int) -> None:
    """Puts a file, or a text as one, into the package's tree."""
    place = tree / to
    place.parent.mkdir(parents=True, exist_ok=True)
    if isinstance(source, str):
        place.write_text(source, encoding="utf-8")
    else:
        shutil.copyfile(source, place)
    place.chmod(mode)


def main() -> int:
    """Makes it."""
    folder = pathlib.Path(sys.argv[1]) if len(sys.argv) > 1 else RUNTIME / "target"
    if not PROGRAM.exists():
        print(f"{PROGRAM} isn't there: tools/runtime.py builds it", file=sys.stderr)
        return 1
    if shutil.which("dpkg-deb") is None:
        print("dpkg-deb isn't there", file=sys.stderr)
        return 1
    with tempfile.TemporaryDirectory() as name:
        tree = pathlib.Path(name) / "tree"
        put(tree, PROGRAM, "usr/bin/muoswyldd", 0o755)
        subprocess.run(["strip", "--strip-debug", tree / "usr/bin/muoswyldd"], check=True)
        put(tree, HERE / "muoswyldd.service", "lib/systemd/system/muoswyldd.service", 0o644)
        put(tree, HERE / "muoswyldd.toml", "usr/share/doc/muoswyldd/muoswyldd.toml", 0o644)
        put(tree, CONTROL.format(version=version()), "DEBIAN/control", 0o644)
        put(tree, POSTINST, "DEBIAN/postinst", 0o755)
        tree.chmod(0o755)
        made = folder / f"muoswyldd_{version()}_amd64.deb"
        return subprocess.run(["dpkg-deb", "--root-owner-group", "--build", tree, made], check=False).returncode


if __name__ == "__main__":
    sys.exit(main())
