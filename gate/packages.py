"""Has Debian's packages there that a tool needs, or says which are missing."""

import os
import shutil
import subprocess
from collections.abc import Callable
from typing import Any


class Missing(Exception):
    """What is needed and isn't there."""


def has_programs(*names: str) -> bool:
    """Whether programs are on the path."""
    return all(map(shutil.which, names))


def install(needed: dict[str, Callable[[], bool]]) -> None:
    """Installs the packages that aren't there, if root runs this. Each comes with what tells whether it is there."""
    packages = [package for package, is_there in needed.items() if not is_there()]
    if not packages:
        return
    command = ["apt-get", "install", "-y", "--no-install-recommends", *packages]
    if os.geteuid() == 0 and has_programs("apt-get"):
        quiet: dict[str, Any] = {"stdout": subprocess.DEVNULL, "stderr": subprocess.DEVNULL}
        subprocess.run(["apt-get", "update"], check=False, **quiet)
        subprocess.run(command, check=False, env={**os.environ, "DEBIAN_FRONTEND": "noninteractive"}, **quiet)
    if left := [package for package in packages if not needed[package]()]:
        raise Missing(f"packages of Debian are missing: apt-get install {' '.join(left)}")
