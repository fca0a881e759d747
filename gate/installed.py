"""The Python package muoswyld as a user has it: installed by pip without a network, or unpacked from its wheel."""

import os
import pathlib
import subprocess
import sys
import zipfile

from packages import Missing
from running import run

TOP = pathlib.Path(__file__).resolve().parent.parent
SOURCE = TOP / "bindings" / "python"


def wheel(folder: pathlib.Path) -> pathlib.Path:
    """The package's wheel, made in a folder."""
    done = run([sys.executable, SOURCE / "wheel_file.py", folder])
    if done.returncode:
        raise Missing(f"the wheel can't be made: {done.stderr.decode().strip()}")
    return pathlib.Path(done.stdout.decode().strip())


def unpacked(folder: pathlib.Path) -> dict[str, str]:
    """An environment in which `import muoswyld` finds the package, unpacked in a folder."""
    with zipfile.ZipFile(wheel(folder)) as file:
        file.extractall(folder)
    return {**{name: value for name, value in os.environ.items() if name != "MUOSWYLD_LIBRARY"}, "PYTHONPATH": str(folder)}


def environment(folder: pathlib.Path) -> pathlib.Path:
    """The Python of a new virtual environment into which pip installed the package, without a network."""
    alone = {name: value for name, value in os.environ.items() if not name.startswith(("PYTHON", "MUOSWYLD_LIBRARY"))}
    python = folder / "venv" / "bin" / "python"
    steps = ([sys.executable, "-m", "venv", folder / "venv"], [python, "-m", "pip", "install", "--no-index", "--quiet", SOURCE])
    for step in steps:
        done = subprocess.run(step, capture_output=True, text=True, check=False, env={**alone, "PIP_DISABLE_PIP_VERSION_CHECK": "1"})
        if done.returncode:
            raise Missing(f"{' '.join(map(str, step))} ended with {done.returncode}: {(done.stdout + done.stderr)[-3000:]}")
    return python
