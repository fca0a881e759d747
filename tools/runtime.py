#!/usr/bin/env python3
"""Builds the member in native code and the program muoswyldd, with the proved library of a node.

    tools/runtime.py               builds runtime/target/release/muoswyldd, and beside it the libraries for C (docs/C.md)
    tools/runtime.py test          runs the tests of the workspace too, and checks its form
    tools/runtime.py load          builds a member under load too, which bench/peers measures

If the node's library isn't there, it makes it first (tools/library.py). The other libraries come from Debian's packages. If some are missing,
it installs them if root runs it, and otherwise names them in a line. With CRATES_IO=1 cargo takes them from its default registry.
With MUOSWYLD_UNPROVED=1 it makes and takes a library of which nothing is proved.
"""

import os
import pathlib
import shutil
import subprocess
import sys
import tomllib
from typing import Any

from words import end, words

TOP = pathlib.Path(__file__).resolve().parent.parent
HOME = TOP / "runtime"
SOURCES = pathlib.Path("/usr/share/cargo/registry")


class Missing(Exception):
    """What is needed and isn't there."""


def is_there(name: str, version: str) -> bool:
    """Whether a crate is installed, in this version or one that Cargo takes in its place."""
    numbers = version.split(".")
    same = numbers[:1] if numbers[0] != "0" else numbers[:2]
    return any(SOURCES.glob(f"{name}-{'.'.join(same)}.*"))


def missing_packages() -> list[str]:
    """The packages of Debian that have the crates of Cargo.lock and aren't installed."""
    with open(HOME / "Cargo.lock", "rb") as file:
        crates = tomllib.load(file)["package"]
    wanted = {crate["name"] for crate in crates if "source" in crate and not is_there(crate["name"], crate["version"])}
    return sorted(f"librust-{name.replace('_', '-').lower()}-dev" for name in wanted)


def install() -> None:
    """Has Debian's packages there, or says which are missing."""
    packages = missing_packages()
    if not packages:
        return
    command = ["apt-get", "install", "-y", "--no-install-recommends", *packages]
    if os.geteuid() != 0 or shutil.which("apt-get") is None:
        raise Missing(f"packages of Debian are missing, or CRATES_IO=1 for cargo's default registry: {' '.join(command)}")
    quiet: dict[str, Any] = {"stdout": subprocess.DEVNULL, "stderr": subprocess.DEVNULL}
    subprocess.run(["apt-get", "update"], check=False, **quiet)
    subprocess.run(command, check=False, env={**os.environ, "DEBIAN_FRONTEND": "noninteractive"}, **quiet)
    if packages := missing_packages():
        raise Missing(f"packages of Debian can't be installed: {' '.join(packages)}")


def cargo(*given: str) -> int:
    """Runs cargo in the workspace."""
    verb, *rest = given
    source = [] if os.environ.get("CRATES_IO") or verb == "fmt" else ["--config", "debian.toml", "--offline"]
    return subprocess.run(["cargo", verb, *source, *rest], cwd=HOME, check=False).returncode


def main() -> int:
    """Builds, and tests where that is said."""
    verb = words(__doc__, 0, 1)
    if verb not in ([], ["test"], ["load"]):
        raise SystemExit(__doc__)
    try:
        for needed in ("cargo", "cc"):
            if shutil.which(needed) is None:
                raise Missing(f"{needed} isn't there")
        if not os.environ.get("CRATES_IO"):
            install()
    except Missing as error:
        print(f"tools/runtime.py: {error}", file=sys.stderr)
        return 1
    is_quick = bool(os.environ.get("MUOSWYLD_UNPROVED"))
    if status := subprocess.run([sys.executable, TOP / "tools" / "library.py", *["--quick"] * is_quick], check=False).returncode:
        return status
    if status := cargo("build", "--release"):
        return status
    if verb != ["test"]:
        return cargo("build", "--release", "--package", "muoswyld-group", "--example", "load") if verb else 0
    steps = (["fmt", "--check"], ["clippy", "--release", "--all-targets", "--", "-D", "warnings"], ["test", "--release"])
    return max(cargo(*step) for step in steps)


if __name__ == "__main__":
    end(main)
