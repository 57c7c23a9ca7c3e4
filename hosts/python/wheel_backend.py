"""Builds the package: what pip calls for pyproject.toml. It needs nothing but Python's standard library.

A wheel has the package and the shared library of tools/build-library, so it is for this platform. The library
is that in `lib` under PAFJIRN_PREFIX. Without that variable it is that in `lib` under .rt/prefix of this
repository, or else in the folder that pkg-config names for pafjirn."""

from __future__ import annotations

import base64
import hashlib
import io
import os
import pathlib
import re
import subprocess
import sysconfig
import tarfile
import zipfile
from collections.abc import Iterable, Mapping
from typing import Any, Optional

HERE = pathlib.Path(__file__).resolve().parent
LIBRARY = "libpafjirn.so"
# The files of a source distribution, beside those of the package.
OTHERS = ["README.md", "pyproject.toml", "wheel_backend.py", "play.py", "answers.py"]
# All files of a wheel have this time, so that the same sources make the same wheel.
TIME = (1980, 1, 1, 0, 0, 0)
Settings = Optional[Mapping[str, Any]]


def field(name: str) -> str:
    """A text of pyproject.toml. (The standard library reads such files from Python 3.11 on only.)"""
    text = (HERE / "pyproject.toml").read_text(encoding="utf-8")
    found = re.search(rf'^{name} = "(.*)"$', text, re.MULTILINE)
    if not found:
        raise ValueError(f"pyproject.toml has no {name}")
    return found[1]


def fields_of(name: str) -> list[str]:
    """The texts of a list that has a line for each in pyproject.toml."""
    text = (HERE / "pyproject.toml").read_text(encoding="utf-8")
    found = re.search(rf"^{name} = \[\n(.*?)^\]", text, re.MULTILINE | re.DOTALL)
    return re.findall(r'"(.*)"', found[1]) if found else []


def metadata() -> bytes:
    """The text of METADATA."""
    lines = ["Metadata-Version: 2.1", f"Name: {field('name')}", f"Version: {field('version')}"]
    lines += [f"Summary: {field('description')}", f"Requires-Python: {field('requires-python')}"]
    lines += [f"Classifier: {it}" for it in fields_of("classifiers")]
    lines += ["Description-Content-Type: text/markdown", "", (HERE / "README.md").read_text(encoding="utf-8")]
    return "\n".join(lines).encode()


def folders() -> Iterable[pathlib.Path]:
    """The folders in which the library may be."""
    prefix = os.environ.get("PAFJIRN_PREFIX")
    if prefix:
        yield pathlib.Path(prefix) / "lib"
        return
    yield HERE.parent.parent / ".rt/prefix/lib"
    try:
        said = subprocess.run(
            ["pkg-config", "--variable=libdir", "pafjirn"], capture_output=True, text=True, check=True
        )
        yield pathlib.Path(said.stdout.strip())
    except (OSError, subprocess.CalledProcessError):
        return


def library() -> bytes:
    """The bytes of the shared library."""
    for folder in folders():
        if (folder / LIBRARY).is_file():
            return (folder / LIBRARY).read_bytes()
    raise FileNotFoundError(f"no {LIBRARY}: run tools/build-library, or set PAFJIRN_PREFIX to its prefix")


def sources() -> list[pathlib.Path]:
    """The files of the package, by their paths in this folder."""
    found = [*HERE.glob("pafjirn/*.py"), *HERE.glob("pafjirn/*.typed")]
    return sorted(it.relative_to(HERE) for it in found)


def stem() -> str:
    return f"{field('name')}-{field('version')}"


def tag() -> str:
    """The platform that the library is for."""
    return "py3-none-" + re.sub(r"\W", "_", sysconfig.get_platform())


def write_wheel(folder: str, files: dict[str, bytes]) -> str:
    """Writes a wheel with these files, and returns its name."""
    info, name = f"{stem()}.dist-info", f"{stem()}-{tag()}.whl"
    wheel = f"Wheel-Version: 1.0\nGenerator: wheel_backend\nRoot-Is-Purelib: false\nTag: {tag()}\n"
    files = {**files, f"{info}/METADATA": metadata(), f"{info}/WHEEL": wheel.encode()}
    record = ""
    for path, data in files.items():
        digest = base64.urlsafe_b64encode(hashlib.sha256(data).digest()).rstrip(b"=").decode()
        record += f"{path},sha256={digest},{len(data)}\n"
    files[f"{info}/RECORD"] = f"{record}{info}/RECORD,,\n".encode()
    with zipfile.ZipFile(pathlib.Path(folder) / name, "w", zipfile.ZIP_DEFLATED) as made:
        for path, data in files.items():
            entry = zipfile.ZipInfo(path, TIME)
            entry.external_attr = (0o755 if path.endswith(".so") else 0o644) << 16
            entry.compress_type = zipfile.ZIP_DEFLATED
            made.writestr(entry, data)
    return name


def build_wheel(
    wheel_directory: str, config_settings: Settings = None, metadata_directory: object = None
) -> str:
    """Builds a wheel with the library in it, and returns its name."""
    files = {it.as_posix(): (HERE / it).read_bytes() for it in sources()}
    return write_wheel(wheel_directory, {**files, f"pafjirn/{LIBRARY}": library()})


def build_editable(
    wheel_directory: str, config_settings: Settings = None, metadata_directory: object = None
) -> str:
    """Builds a wheel that leads to the sources in this folder, and returns its name. The library is then that
    which the module itself finds."""
    return write_wheel(wheel_directory, {"pafjirn.pth": f"{HERE}\n".encode()})


def build_sdist(sdist_directory: str, config_settings: Settings = None) -> str:
    """Builds a source distribution, and returns its name. It has no library."""
    files = {it.as_posix(): (HERE / it).read_bytes() for it in [*sources(), *map(pathlib.Path, OTHERS)]}
    name = f"{stem()}.tar.gz"
    with tarfile.open(pathlib.Path(sdist_directory) / name, "w:gz", format=tarfile.PAX_FORMAT) as made:
        for path, data in {**files, "PKG-INFO": metadata()}.items():
            entry = tarfile.TarInfo(f"{stem()}/{path}")
            entry.size, entry.mode = len(data), 0o644
            made.addfile(entry, io.BytesIO(data))
    return name
