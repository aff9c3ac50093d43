"""Builds the package's wheel and source archive with only the standard library, so that `pip wheel .` and `pip install .`
need no network. It is the `build-backend` of pyproject.toml, as PEP 517 has it. If WOZGIRT_LIBRARY names the library of rings, or
`library` does among the config settings, the wheel has it inside, and is for this machine and its C library or a later one."""

from __future__ import annotations

import base64
import hashlib
import io
import os
import re
import sysconfig
import tarfile
import zipfile
from typing import Dict, List, Mapping, Optional

HERE = os.path.dirname(os.path.abspath(__file__))
# wheels of the same sources are the same bytes
DATE = (2020, 1, 1, 0, 0, 0)
# the name that wozgirt/library.py looks for
LIBRARY = "wozgirt/libwozgirt.so.0"


def _project() -> Dict[str, str]:
    """The plain strings of `[project]`: all that is used here, and no reader of TOML is in Python 3.8."""
    with open(os.path.join(HERE, "pyproject.toml"), encoding="utf-8") as file:
        section = file.read().split("[project]\n", 1)[1].split("\n[", 1)[0]
    return dict(re.findall(r'^([a-z-]+) = "([^"]*)"$', section, re.MULTILINE))


def _read(name: str) -> bytes:
    with open(os.path.join(HERE, name), "rb") as file:
        return file.read()


def _modules() -> List[str]:
    folder = os.path.join(HERE, "wozgirt")
    return sorted(f"wozgirt/{name}" for name in os.listdir(folder) if name.endswith((".py", ".typed")))


def _metadata(project: Dict[str, str]) -> bytes:
    head = (f"Metadata-Version: 2.1\nName: {project['name']}\nVersion: {project['version']}\n"
            f"Summary: {project['description']}\nRequires-Python: {project['requires-python']}\n"
            "Description-Content-Type: text/markdown\n\n")
    return head.encode() + _read(project["readme"])


def _library(settings: Optional[Mapping[str, str]]) -> Optional[bytes]:
    """The library of rings, if one is named."""
    path = (settings or {}).get("library") or os.environ.get("WOZGIRT_LIBRARY")
    if not path:
        return None
    with open(path, "rb") as file:
        return file.read()


def _tag(library: Optional[bytes]) -> str:
    """Where the wheel runs: anywhere, or where the C library is the latest that a name in the library of rings is of, or later."""
    if library is None:
        return "any"
    minor = max((int(it) for it in re.findall(rb"\0GLIBC_2\.(\d+)\0", library)), default=17)
    return f"manylinux_2_{max(minor, 17)}_{sysconfig.get_platform().split('-', 1)[1]}"


def _files(project: Dict[str, str], library: Optional[bytes]) -> Dict[str, bytes]:
    """The files of a wheel, without the record of them."""
    info = f"{project['name']}-{project['version']}.dist-info"
    files = {name: _read(name) for name in _modules()}
    if library is not None:
        files[LIBRARY] = library
    files[f"{info}/METADATA"] = _metadata(project)
    files[f"{info}/WHEEL"] = (f"Wheel-Version: 1.0\nGenerator: wozgirt\nRoot-Is-Purelib: {str(library is None).lower()}\n"
                              f"Tag: py3-none-{_tag(library)}\n").encode()
    files[f"{info}/top_level.txt"] = b"wozgirt\n"
    files[f"{info}/entry_points.txt"] = b"[console_scripts]\nwozgirt-log = wozgirt.log:main\n"
    return files


def _record(files: Dict[str, bytes], name: str) -> bytes:
    lines = []
    for file, content in files.items():
        digest = base64.urlsafe_b64encode(hashlib.sha256(content).digest()).rstrip(b"=").decode()
        lines.append(f"{file},sha256={digest},{len(content)}\n")
    return ("".join(lines) + f"{name},,\n").encode()


def get_requires_for_build_wheel(config_settings: object = None) -> List[str]:
    """Nothing is needed."""
    return []


def get_requires_for_build_sdist(config_settings: object = None) -> List[str]:
    """Nothing is needed."""
    return []


def build_wheel(wheel_directory: str, config_settings: Optional[Mapping[str, str]] = None, metadata_directory: object = None) -> str:
    """Writes the wheel, and returns its name."""
    project, library = _project(), _library(config_settings)
    files = _files(project, library)
    record = f"{project['name']}-{project['version']}.dist-info/RECORD"
    files[record] = _record(files, record)
    name = f"{project['name']}-{project['version']}-py3-none-{_tag(library)}.whl"
    with zipfile.ZipFile(os.path.join(wheel_directory, name), "w", zipfile.ZIP_DEFLATED) as wheel:
        for file, content in files.items():
            entry = zipfile.ZipInfo(file, DATE)
            entry.external_attr = 0o644 << 16
            entry.compress_type = zipfile.ZIP_DEFLATED
            wheel.writestr(entry, content)
    return name


def build_sdist(sdist_directory: str, config_settings: object = None) -> str:
    """Writes the source archive, and returns its name."""
    project = _project()
    base = f"{project['name']}-{project['version']}"
    names = [*_modules(), "pyproject.toml", "build_backend.py", project["readme"]]
    files = {name: _read(name) for name in names}
    files["PKG-INFO"] = _metadata(project)
    with tarfile.open(os.path.join(sdist_directory, f"{base}.tar.gz"), "w:gz", format=tarfile.PAX_FORMAT) as archive:
        for name, content in files.items():
            entry = tarfile.TarInfo(f"{base}/{name}")
            entry.size = len(content)
            archive.addfile(entry, io.BytesIO(content))
    return f"{base}.tar.gz"
