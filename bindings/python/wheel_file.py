#!/usr/bin/env python3
"""Makes a wheel of the package beside it, with the shared library that tools/runtime.py builds inside. pip calls it as a build backend:

    pip install ./bindings/python
    bindings/python/wheel_file.py FOLDER        makes the wheel alone, and prints its path

Neither needs a network or anything but Python. MUOSWYLD_LIBRARY names another libmuoswyld_group.so.
"""

import base64
import hashlib
import os
import pathlib
import sys
import tomllib
import zipfile

HERE = pathlib.Path(__file__).resolve().parent
LIBRARY = "libmuoswyld_group.so"
BUILT = HERE.parent.parent / "runtime" / "target" / "release" / LIBRARY


def project() -> dict[str, str]:
    """What pyproject.toml says of the package."""
    with open(HERE / "pyproject.toml", "rb") as file:
        known: dict[str, str] = tomllib.load(file)["project"]
    return known


def contents() -> dict[str, bytes]:
    """The package's files by their names in the wheel."""
    library = pathlib.Path(os.environ.get("MUOSWYLD_LIBRARY", BUILT))
    if not library.exists():
        raise SystemExit(f"{library} isn't there: tools/runtime.py builds it")
    package = HERE / "src" / "muoswyld"
    files = {f"muoswyld/{file.name}": file.read_bytes() for file in sorted(package.iterdir()) if file.suffix == ".py" or file.name == "py.typed"}
    return {**files, f"muoswyld/{LIBRARY}": library.read_bytes()}


def about(version: str, tag: str) -> dict[str, bytes]:
    """The wheel's files on itself."""
    known = project()
    metadata = f"Metadata-Version: 2.1\nName: muoswyld\nVersion: {version}\nSummary: {known['description']}\n"
    metadata += f"License: MIT OR Apache-2.0\nRequires-Python: {known['requires-python']}\n"
    wheel = f"Wheel-Version: 1.0\nGenerator: muoswyld\nRoot-Is-Purelib: false\nTag: {tag}\n"
    folder = f"muoswyld-{version}.dist-info"
    licenses = {f"{folder}/licenses/{file.name}": file.read_bytes() for file in sorted(HERE.parent.parent.glob("LICENSE-*"))}
    return {f"{folder}/METADATA": metadata.encode(), f"{folder}/WHEEL": wheel.encode(), **licenses}


def make(folder: pathlib.Path) -> pathlib.Path:
    """Makes the wheel in a folder. The same files make the same bytes."""
    version, tag = project()["version"], f"py3-none-linux_{os.uname().machine}"
    files = {**contents(), **about(version, tag)}
    record = f"muoswyld-{version}.dist-info/RECORD"
    lines = []
    for name, data in files.items():
        digest = base64.urlsafe_b64encode(hashlib.sha256(data).digest()).rstrip(b"=").decode()
        lines.append(f"{name},sha256={digest},{len(data)}\n")
    files[record] = "".join([*lines, f"{record},,\n"]).encode()
    path = folder / f"muoswyld-{version}-{tag}.whl"
    with zipfile.ZipFile(path, "w", zipfile.ZIP_DEFLATED) as wheel:
        for name, data in files.items():
            entry = zipfile.ZipInfo(name, (2000, 1, 1, 0, 0, 0))
            entry.external_attr = (0o755 if name.endswith(".so") else 0o644) << 16
            wheel.writestr(entry, data, zipfile.ZIP_DEFLATED, 1)
    return path


def build_wheel(wheel_directory: str, config_settings: object = None, metadata_directory: str | None = None) -> str:
    """What pip calls: makes the wheel, and answers its file's name."""
    return make(pathlib.Path(wheel_directory)).name


def get_requires_for_build_wheel(config_settings: object = None) -> list[str]:
    """What pip asks first: nothing else is needed."""
    return []


if __name__ == "__main__":
    if len(sys.argv) != 2 or sys.argv[1].startswith("-"):
        raise SystemExit(__doc__)
    print(make(pathlib.Path(sys.argv[1])))
