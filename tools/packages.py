#!/usr/bin/env python3
"""Makes what is handed out: a wheel of the Python package, and a folder for npm, each with the built program in it.

    python3 tools/packages.py FOLDER

The wheel is FOLDER/tekhvumo-VERSION-py3-none-manylinux_2_34_x86_64.whl, the folder for npm FOLDER/npm. Both are the same
bytes whenever they are made of the same files. What pyproject.toml says is what they say.
"""
from __future__ import annotations

import argparse
import base64
import hashlib
import json
import re
import shutil
import struct
import sys
import tomllib
import zipfile
from pathlib import Path
from typing import Any, Iterator

TOP = Path(__file__).resolve().parent.parent
INTEGRATIONS = TOP / "integrations"
BUILT = TOP / "crates" / "check_main" / "out" / "check_main"
PLATFORM = "manylinux_2_34_x86_64"
# The minor version of glibc 2 that the platform has, and the number of x86-64 among machines.
GLIBC, X86_64 = 34, 62
NODE = ">=18"


class UnfitProgram(ValueError):
    """The program isn't one for the platform."""


def fit_program(path: Path) -> bytes:
    """The program's bytes, once they are found to be for the platform."""
    data = path.read_bytes()
    is_elf = data[:5] == b"\x7fELF\x02" and len(data) > 20
    if not is_elf or struct.unpack_from("<H", data, 18) != (X86_64,):
        raise UnfitProgram(f"{path} is no program for Linux on x86-64")
    needed = max([int(it) for it in re.findall(rb"\0GLIBC_2\.([0-9]+)", data)] or [0])
    if needed > GLIBC:
        raise UnfitProgram(f"{path} needs glibc 2.{needed}, and {PLATFORM} has 2.{GLIBC}")
    return data


def project() -> dict[str, Any]:
    """What pyproject.toml says, with the version."""
    said: dict[str, Any] = tomllib.loads((INTEGRATIONS / "pyproject.toml").read_text())["project"]
    found = re.search(r'^VERSION = "([0-9.]+)"$', (INTEGRATIONS / "tekhvumo" / "version.py").read_text(), re.M)
    if not found:
        raise ValueError("version.py has no line VERSION")
    return {**said, "version": found[1]}


def package_files(program: bytes) -> Iterator[tuple[str, bytes]]:
    """The files of the Python package, with the program where the package looks for it first."""
    for path in sorted((INTEGRATIONS / "tekhvumo").rglob("*.py")):
        yield str(path.relative_to(INTEGRATIONS)), path.read_bytes()
    yield "tekhvumo/bin/check_main", program


def wheel_words(said: dict[str, Any]) -> dict[str, str]:
    """The files that describe a wheel, but for its record."""
    scripts = "".join(f"{name} = {target}\n" for name, target in said["scripts"].items())
    return {
        "METADATA": f"Metadata-Version: 2.1\nName: {said['name']}\nVersion: {said['version']}\n"
        f"Summary: {said['description']}\nRequires-Python: {said['requires-python']}\n",
        "WHEEL": f"Wheel-Version: 1.0\nGenerator: packages.py\nRoot-Is-Purelib: false\nTag: py3-none-{PLATFORM}\n",
        "entry_points.txt": f"[console_scripts]\n{scripts}",
    }


def write_wheel(folder: Path, said: dict[str, Any], program: bytes) -> Path:
    """Writes the wheel, and gives its path."""
    name = f"{said['name']}-{said['version']}"
    info = f"{name}.dist-info"
    files = [*package_files(program), *((f"{info}/{file}", text.encode()) for file, text in wheel_words(said).items())]
    record = "".join(f"{file},sha256={hash_of(data)},{len(data)}\n" for file, data in files)
    path = folder / f"{name}-py3-none-{PLATFORM}.whl"
    with zipfile.ZipFile(path, "w", zipfile.ZIP_DEFLATED) as wheel:
        for file, data in [*files, (f"{info}/RECORD", f"{record}{info}/RECORD,,\n".encode())]:
            entry = zipfile.ZipInfo(file)
            mode = 0o100755 if data is program else 0o100644
            entry.external_attr, entry.compress_type = mode << 16, zipfile.ZIP_DEFLATED
            wheel.writestr(entry, data)
    return path


def hash_of(data: bytes) -> str:
    """A hash as a record of a wheel has it."""
    return base64.urlsafe_b64encode(hashlib.sha256(data).digest()).rstrip(b"=").decode()


def write_npm(folder: Path, said: dict[str, Any], program: bytes) -> Path:
    """Writes the folder for npm in the place of one that is there, and gives its path."""
    room = folder / "npm"
    shutil.rmtree(room, ignore_errors=True)
    shutil.copytree(INTEGRATIONS / "npm", room)
    (room / "check_main").write_bytes(program)
    for name in ("check_main", "check_main.js"):
        (room / name).chmod(0o755)
    description = {
        "name": said["name"],
        "version": said["version"],
        "description": said["description"],
        "main": "index.js",
        "bin": {"check_main": "check_main.js"},
        "files": ["check_main", "check_main.js", "index.js", "serve.js", "README.md"],
        "os": ["linux"],
        "cpu": ["x64"],
        "libc": ["glibc"],
        "engines": {"node": NODE},
    }
    (room / "package.json").write_text(json.dumps(description, indent=2) + "\n")
    return room


def main() -> int:
    parser = argparse.ArgumentParser(description="Makes a wheel and a folder for npm, with the built program in both.")
    parser.add_argument("folder", type=Path, metavar="FOLDER", help="where they are written")
    parser.add_argument("--program", type=Path, default=BUILT, metavar="PATH", help="the built check_main")
    options = parser.parse_args()
    try:
        program = fit_program(options.program)
    except (OSError, UnfitProgram) as trouble:
        print(f"packages: {trouble}", file=sys.stderr)
        return 1
    options.folder.mkdir(parents=True, exist_ok=True)
    for write in (write_wheel, write_npm):
        print(write(options.folder, project(), program))
    return 0


if __name__ == "__main__":
    sys.exit(main())
