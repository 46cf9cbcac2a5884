"""Makes the wheel and the source package of the module, as pip asks for them. It needs Python's own library alone.

The wheel contains libdvdecc.so.0 where that is in the folder dvdecc, or where the variable DVDECC_LIBRARY names it; it is
then one for this kind of machine alone. Two builds from the same files have the same bytes.
"""

from __future__ import annotations

import base64
import csv
import gzip
import hashlib
import io
import os
import re
import sysconfig
import tarfile
import zipfile
from typing import Any, Mapping, Optional

HERE = os.path.dirname(os.path.abspath(__file__))
SOURCES = ["dvdecc/__init__.py", "dvdecc/py.typed"]
LIBRARY = "dvdecc/libdvdecc.so.0"
LICENCES = ["LICENSE-APACHE", "LICENSE-MIT"]
Settings = Optional[Mapping[str, Any]]


def read(name: str) -> bytes:
    with open(os.path.join(HERE, name), "rb") as file:
        return file.read()


def licences() -> dict[str, bytes]:
    """Those beside this file, as a source package has them, or else those of the repository."""
    found = {}
    for name in LICENCES:
        for folder in ("", "../.."):
            if name not in found and os.path.exists(os.path.join(HERE, folder, name)):
                found[name] = read(os.path.join(folder, name))
    return found


def version() -> str:
    found = re.search(r'^__version__ = "([^"]+)"$', read(SOURCES[0]).decode(), re.M)
    assert found, "the module has a version"
    return found[1]


def project(key: str) -> str:
    """A text of the table [project] of pyproject.toml."""
    table = read("pyproject.toml").decode().split("[project]\n")[1].split("\n[")[0]
    found = re.search(rf'^{key} = (?:{{text = )?"([^"]+)"', table, re.M)
    assert found, f"pyproject.toml has {key}"
    return found[1]


def metadata() -> str:
    lines = ["Metadata-Version: 2.1", f"Name: {project('name')}", f"Version: {version()}"]
    lines += [f"Summary: {project('description')}", f"License: {project('license')}"]
    lines += [f"Requires-Python: {project('requires-python')}", "Description-Content-Type: text/markdown"]
    return "\n".join([*lines, "", read(project("readme")).decode()])


def library() -> Optional[bytes]:
    named = os.environ.get("DVDECC_LIBRARY")
    if named:
        with open(named, "rb") as file:
            return file.read()
    return read(LIBRARY) if os.path.exists(os.path.join(HERE, LIBRARY)) else None


def info_files(tag: str) -> dict[str, bytes]:
    folder = f"{project('name')}-{version()}.dist-info"
    pure = "true" if tag.endswith("-any") else "false"
    wheel = f"Wheel-Version: 1.0\nGenerator: build_dvdecc ({version()})\nRoot-Is-Purelib: {pure}\nTag: {tag}\n"
    files = {f"{folder}/METADATA": metadata().encode(), f"{folder}/WHEEL": wheel.encode()}
    files.update({f"{folder}/licenses/{name}": text for name, text in licences().items()})
    return files


def record(files: Mapping[str, bytes], name: str) -> bytes:
    """The list of the files of a wheel, with the digest of each but itself."""
    out = io.StringIO()
    rows = csv.writer(out, lineterminator="\n")
    for path, content in files.items():
        digest = base64.urlsafe_b64encode(hashlib.sha256(content).digest()).rstrip(b"=").decode()
        rows.writerow([path, f"sha256={digest}", len(content)])
    rows.writerow([name, "", ""])
    return out.getvalue().encode()


def build_wheel(wheel_directory: str, config_settings: Settings = None, metadata_directory: Optional[str] = None) -> str:
    files = {name: read(name) for name in SOURCES}
    shared = library()
    machine = "any" if shared is None else re.sub(r"[-.]", "_", sysconfig.get_platform())
    if shared is not None:
        files[LIBRARY] = shared
    tag = f"py3-none-{machine}"
    files.update(info_files(tag))
    name = f"{project('name')}-{version()}.dist-info/RECORD"
    files[name] = record(files, name)
    wheel = f"{project('name')}-{version()}-{tag}.whl"
    with zipfile.ZipFile(os.path.join(wheel_directory, wheel), "w", zipfile.ZIP_DEFLATED) as archive:
        for path, content in files.items():
            entry = zipfile.ZipInfo(path, (1980, 1, 1, 0, 0, 0))
            entry.external_attr = 0o644 << 16
            entry.compress_type = zipfile.ZIP_DEFLATED
            archive.writestr(entry, content)
    return wheel


def build_sdist(sdist_directory: str, config_settings: Settings = None) -> str:
    base = f"{project('name')}-{version()}"
    names = ["README.md", "build_dvdecc.py", "example/row.py", "pyproject.toml", *SOURCES]
    files = {"PKG-INFO": metadata().encode(), **{name: read(name) for name in names}, **licences()}
    packed = io.BytesIO()
    with tarfile.open(fileobj=packed, mode="w") as archive:
        for path, content in files.items():
            entry = tarfile.TarInfo(f"{base}/{path}")
            entry.size, entry.mode = len(content), 0o644
            archive.addfile(entry, io.BytesIO(content))
    with open(os.path.join(sdist_directory, f"{base}.tar.gz"), "wb") as out:
        out.write(gzip.compress(packed.getvalue(), mtime=0))
    return f"{base}.tar.gz"
