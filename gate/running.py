"""Runs the programs that tools try."""

import subprocess
from collections.abc import Sequence
from typing import Any


def run(command: Sequence[Any], given: bytes = b"", seconds: float = 300, **more: Any) -> subprocess.CompletedProcess[bytes]:
    """Runs a command on an input to its end. If it takes more than so many seconds, its status is -1, and standard error says so."""
    try:
        return subprocess.run(command, input=given, capture_output=True, timeout=seconds, check=False, **more)
    except subprocess.TimeoutExpired as late:
        return subprocess.CompletedProcess(command, -1, late.stdout or b"", f"not within {seconds} seconds".encode())
