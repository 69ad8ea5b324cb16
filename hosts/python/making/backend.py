"""The wheel, with the standard library alone: the hooks by which pip builds it from the tree (PEP 517); and as a program,
`backend.py PACKAGE OUT` leaves in OUT a wheel of the package in a folder, and prints its name.

A wheel is the same whenever it is made of the same package: entries in order, all with the date of SOURCE_DATE_EPOCH, or the first
that a zip file can have.
"""

from __future__ import annotations

import base64
import hashlib
import os
import re
import subprocess
import sys
import time
import zipfile
from pathlib import Path
from typing import Any

HERE = Path(__file__).resolve().parent.parent
TREE = HERE.parent.parent
LIBRARY = "libkelindap.so.0"  # with no ending by which Python would take it for a module
# a library's processor, by its number in an ELF header, as pip knows machines
MACHINES = {62: ["x86_64"], 183: ["aarch64"], 40: ["armv6l", "armv7l"], 243: ["riscv64"]}


class UnsupportedOperation(Exception):
    """What this backend does not do, as PEP 517 wants it said."""


def project(field: str) -> str:
    """A field of pyproject.toml; older Pythons can't read one."""
    found = re.search(rf'^{field} = "(.*)"$', (HERE / "pyproject.toml").read_text(), re.M)
    assert found, field
    return found.group(1)


def version() -> str:
    """The version of the headers."""
    found = re.search(r'KELINDAP_VERSION_TEXT "(.*)"', (TREE / "include" / "kelindap_common.h").read_text())
    assert found
    return found.group(1)


def info_folder() -> str:
    """The folder of what is told about the package."""
    return f"{project('name')}-{version()}.dist-info"


def metadata() -> str:
    """What pip shows. No licence is given yet, so none is named."""
    return (
        f"Metadata-Version: 2.1\nName: {project('name')}\nVersion: {version()}\nSummary: {project('description')}\n"
        f"Requires-Python: {project('requires-python')}\nClassifier: Operating System :: POSIX :: Linux\nClassifier: Typing :: Typed\n"
    )


def platforms(library: bytes) -> list[str]:
    """The platforms that a library is for."""
    if library[:4] != b"\x7fELF" or library[5] != 1:
        raise SystemExit(f"{LIBRARY} is no library of a little-endian Linux machine")
    machine = int.from_bytes(library[18:20], "little")
    if machine not in MACHINES:
        raise SystemExit(f"{LIBRARY} is for a processor that no wheel is made for")
    return ["linux_" + name for name in MACHINES[machine]]


def wheel(package: Path, out: Path) -> str:
    """Leaves a wheel of the package in a folder, and gives its name."""
    about = info_folder()
    tags = platforms((package / LIBRARY).read_bytes())
    files = {f"{package.name}/{file.name}": file.read_bytes() for file in sorted(package.iterdir()) if file.is_file()}
    files[f"{about}/METADATA"] = metadata().encode()
    lines = ["Wheel-Version: 1.0", "Generator: kelindap", "Root-Is-Purelib: false"] + [f"Tag: py3-none-{tag}" for tag in tags]
    files[f"{about}/WHEEL"] = "".join(line + "\n" for line in lines).encode()
    record = ""
    for name, text in files.items():
        digest = base64.urlsafe_b64encode(hashlib.sha256(text).digest()).rstrip(b"=").decode()
        record += f"{name},sha256={digest},{len(text)}\n"
    files[f"{about}/RECORD"] = (record + f"{about}/RECORD,,\n").encode()
    first = 315532800  # 1980
    date = time.gmtime(max(first, int(os.environ.get("SOURCE_DATE_EPOCH") or first)))[:6]
    name = f"{project('name')}-{version()}-py3-none-{'.'.join(tags)}.whl"
    with zipfile.ZipFile(out / name, "w", zipfile.ZIP_DEFLATED, compresslevel=9) as archive:
        for path, text in files.items():
            entry = zipfile.ZipInfo(path, date)
            entry.compress_type = zipfile.ZIP_DEFLATED
            entry.external_attr = 0o100644 << 16
            entry.create_system = 3
            archive.writestr(entry, text)
    return name


def made() -> Path:
    """The package with its library, made by the tree's own make; of libraries that are there this takes a second."""
    # a make around this one is none of its business
    own = {name: value for name, value in os.environ.items() if name not in ("MAKEFLAGS", "MAKELEVEL", "MFLAGS")}
    done = subprocess.run(["make", "--no-print-directory", "-s", "python"], cwd=TREE, env=own, stdout=sys.stderr, check=False)
    if done.returncode != 0:
        raise SystemExit(f"kelindap: `make python` in {TREE} failed: it says above what is missing")
    return TREE / "build" / "python" / "kelindap"


# ---- the hooks ----


def get_requires_for_build_wheel(config_settings: Any = None) -> list[str]:
    """Nothing."""
    return []


def prepare_metadata_for_build_wheel(metadata_directory: str, config_settings: Any = None) -> str:
    """What is told about the package, without making it."""
    folder = Path(metadata_directory, info_folder())
    folder.mkdir()
    (folder / "METADATA").write_text(metadata())
    return folder.name


def build_wheel(wheel_directory: str, config_settings: Any = None, metadata_directory: Any = None) -> str:
    """The wheel."""
    return wheel(made(), Path(wheel_directory))


def build_sdist(sdist_directory: str, config_settings: Any = None) -> str:
    """There is none: the package's library is made of what is proved, in the whole tree."""
    raise UnsupportedOperation("kelindap has no source package: it is built in its tree")


if __name__ == "__main__":
    print(wheel(Path(sys.argv[1]), Path(sys.argv[2])))
