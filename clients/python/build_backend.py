"""Builds the packages for pip (PEP 517 and 660) with the standard library alone, so that `pip install` needs no network and no
other package. It reads pyproject.toml and writes the archive that pip asks for; it changes nothing here."""
from __future__ import annotations

import base64
import hashlib
import io
import os
import tarfile
import zipfile
from typing import Any, Dict, Iterable, List, Optional, Tuple

from mi_client import __version__, toml_places

HERE = os.path.dirname(os.path.realpath(__file__))
PACKAGES = ["mi_client", "mi_tools", "mi_replica"]
LONG_AGO = (1980, 1, 1, 0, 0, 0)
"""The time of every file, so that the same sources make the same archive."""
Settings = Optional[Dict[str, Any]]


def project() -> Dict[str, Any]:
    with open(f"{HERE}/pyproject.toml", "rb") as file:
        members = toml_places.read(file.read()).value["project"].value
    found = {name: it.value for name, it in members.items()}
    if found["version"] != __version__:
        raise SystemExit(f"pyproject.toml says {found['version']}, and {PACKAGES[0]} is {__version__}")
    return found


def sources() -> List[str]:
    """The files of the packages, from the folder of pyproject.toml."""
    found = [(package, it) for package in PACKAGES for it in sorted(os.listdir(f"{HERE}/{package}"))]
    return [f"{package}/{it}" for package, it in found if it.endswith((".py", ".html")) or it == "py.typed"]


def content(name: str) -> bytes:
    with open(f"{HERE}/{name}", "rb") as file:
        return file.read()


def metadata(it: Dict[str, Any]) -> bytes:
    head = [
        "Metadata-Version: 2.1",
        f"Name: {it['name']}",
        f"Version: {it['version']}",
        f"Summary: {it['description']}",
        f"Requires-Python: {it['requires-python']}",
        "Description-Content-Type: text/markdown",
    ]
    return ("\n".join(head) + "\n\n").encode() + content(it["readme"])


def info(it: Dict[str, Any]) -> List[Tuple[str, bytes]]:
    scripts = "".join(f"{name} = {call.value}\n" for name, call in it["scripts"].items())
    wheel = "Wheel-Version: 1.0\nGenerator: build_backend\nRoot-Is-Purelib: true\nTag: py3-none-any\n"
    return [
        (f"{folder(it)}.dist-info/METADATA", metadata(it)),
        (f"{folder(it)}.dist-info/WHEEL", wheel.encode()),
        (f"{folder(it)}.dist-info/entry_points.txt", f"[console_scripts]\n{scripts}".encode()),
    ]


def folder(it: Dict[str, Any]) -> str:
    return f"{it['name']}-{it['version']}"


def write_wheel(where: str, it: Dict[str, Any], files: Iterable[Tuple[str, bytes]]) -> str:
    name = f"{folder(it)}-py3-none-any.whl"
    record = f"{folder(it)}.dist-info/RECORD"
    lines: List[str] = []
    with zipfile.ZipFile(f"{where}/{name}", "w", zipfile.ZIP_DEFLATED) as archive:
        for path, data in files:
            digest = base64.urlsafe_b64encode(hashlib.sha256(data).digest()).rstrip(b"=").decode()
            lines.append(f"{path},sha256={digest},{len(data)}\n")
            archive.writestr(zipfile.ZipInfo(path, LONG_AGO), data, zipfile.ZIP_DEFLATED)
        archive.writestr(zipfile.ZipInfo(record, LONG_AGO), "".join(lines) + f"{record},,\n")
    return name


# What pip calls


def get_requires_for_build_wheel(config_settings: Settings = None) -> List[str]:
    return []


def get_requires_for_build_editable(config_settings: Settings = None) -> List[str]:
    return []


def get_requires_for_build_sdist(config_settings: Settings = None) -> List[str]:
    return []


def build_wheel(wheel_directory: str, config_settings: Settings = None, metadata_directory: Optional[str] = None) -> str:
    it = project()
    return write_wheel(wheel_directory, it, [*((name, content(name)) for name in sources()), *info(it)])


def build_editable(wheel_directory: str, config_settings: Settings = None, metadata_directory: Optional[str] = None) -> str:
    """A wheel that points here, for `pip install -e`."""
    it = project()
    return write_wheel(wheel_directory, it, [(f"{it['name']}.pth", f"{HERE}\n".encode()), *info(it)])


def build_sdist(sdist_directory: str, config_settings: Settings = None) -> str:
    it = project()
    name = f"{folder(it)}.tar.gz"
    files = [(path, content(path)) for path in ("pyproject.toml", "build_backend.py", it["readme"], *sources())]
    with tarfile.open(f"{sdist_directory}/{name}", "w:gz") as archive:
        for path, data in [*files, ("PKG-INFO", metadata(it))]:
            entry = tarfile.TarInfo(f"{folder(it)}/{path}")
            entry.size = len(data)
            archive.addfile(entry, io.BytesIO(data))
    return name
