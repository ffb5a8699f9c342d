"""Writes the wheel that pip installs: the package with libsotrugla.so in it, and what pyproject.toml says of it.

pip asks for it by PEP 517. The standard library is all that is needed, so pip works without a network. The library is
the file that SOTRUGLA_LIBRARY names, else the one that ./build wrote; the package must load it before it is packed.
"""

from __future__ import annotations

import ast
import base64
import configparser
import hashlib
import importlib.util
import os
import pathlib
import subprocess
import sys
import sysconfig
import typing
import zipfile

_HERE = pathlib.Path(__file__).resolve().parent
_BUILT = _HERE.parent / "target" / "dist" / "libsotrugla.so"
# The earliest that a zip file knows: the same files make the same wheel.
_DATE = (1980, 1, 1, 0, 0, 0)


class UnsupportedOperation(Exception):
    """PEP 517's word for what is not offered."""


def build_wheel(wheel_directory: str, config_settings: object = None, metadata_directory: object = None) -> str:
    """Writes the wheel into the folder and answers its name."""
    try:
        project = _sections()
        name, version = project["project"]["name"], project["project"]["version"]
        tag = f"py3-none-{sysconfig.get_platform().replace('-', '_').replace('.', '_')}"
        wheel, folder = f"{name}-{version}-{tag}.whl", f"{name}-{version}.dist-info"
        files = {**_package(), **_information(project, folder, tag)}
        _write(pathlib.Path(wheel_directory) / wheel, files, f"{folder}/RECORD")
    finally:
        _remove_bytecode()
    return wheel


def build_sdist(sdist_directory: str, config_settings: object = None) -> str:
    raise UnsupportedOperation("the package is installed from a checkout after ./build: there is no source archive")


def _sections() -> dict[str, dict[str, typing.Any]]:
    """pyproject.toml, by its sections' names."""
    found = configparser.ConfigParser(interpolation=None)
    found.read_string((_HERE / "pyproject.toml").read_text(encoding="utf-8"))
    return {name: {key: ast.literal_eval(text) for key, text in found.items(name)} for name in found.sections()}


def _package() -> dict[str, bytes]:
    """The package's files, by their names in the wheel."""
    sources = [*_HERE.glob("sotrugla/**/*.py"), _HERE / "sotrugla" / "py.typed"]
    files = {source.relative_to(_HERE).as_posix(): source.read_bytes() for source in sources}
    files["sotrugla/libsotrugla.so"] = _library().read_bytes()
    return files


def _library() -> pathlib.Path:
    library = pathlib.Path(os.environ.get("SOTRUGLA_LIBRARY") or _BUILT).resolve()
    if not library.is_file():
        copied = "pip before 21.3 works on a copy: there, name the library by SOTRUGLA_LIBRARY"
        sys.exit(f"{library} is not there: run ./build first ({copied})")
    environment = {**os.environ, "SOTRUGLA_LIBRARY": str(library), "PYTHONPATH": str(_HERE)}
    load = [sys.executable, "-B", "-c", "import sotrugla"]
    run = subprocess.run(load, env=environment, stderr=subprocess.PIPE, text=True)
    if run.returncode:
        said = run.stderr.splitlines() or [f"{library} cannot be loaded"]
        sys.exit(f"{said[-1]}: run ./build again")
    return library


def _information(project: dict[str, dict[str, typing.Any]], folder: str, tag: str) -> dict[str, bytes]:
    """What installers read, by the files' names in the wheel."""
    scripts = [f"{name} = {entry}" for name, entry in project["project.scripts"].items()]
    wheel = ["Wheel-Version: 1.0", "Generator: sotrugla", "Root-Is-Purelib: false", f"Tag: {tag}"]
    lines = {
        "METADATA": _metadata(project["project"], project["project.optional-dependencies"]),
        "WHEEL": wheel,
        "entry_points.txt": ["[console_scripts]", *scripts],
    }
    return {f"{folder}/{name}": "".join(f"{line}\n" for line in text).encode() for name, text in lines.items()}


def _metadata(project: dict[str, str], extras: dict[str, list[str]]) -> list[str]:
    lines = [
        "Metadata-Version: 2.1",
        f"Name: {project['name']}",
        f"Version: {project['version']}",
        f"Summary: {project['description']}",
        f"Requires-Python: {project['requires-python']}",
    ]
    for extra, needed in extras.items():
        lines += [f"Provides-Extra: {extra}", *(f'Requires-Dist: {name}; extra == "{extra}"' for name in needed)]
    return lines


def _write(wheel: pathlib.Path, files: dict[str, bytes], record: str) -> None:
    """Writes the files, and last the record of them all, which cannot tell its own digest."""
    ordered = sorted(files.items())
    lines = [f"{name},sha256={_digest(content)},{len(content)}\n" for name, content in ordered]
    ordered.append((record, "".join([*lines, f"{record},,\n"]).encode()))
    with zipfile.ZipFile(wheel, "w") as archive:
        for name, content in ordered:
            entry = zipfile.ZipInfo(name, _DATE)
            entry.external_attr = 0o100644 << 16
            archive.writestr(entry, content, zipfile.ZIP_DEFLATED)


def _digest(content: bytes) -> str:
    """As RECORD has it: base64 without its padding."""
    return base64.urlsafe_b64encode(hashlib.sha256(content).digest()).decode().rstrip("=")


def _remove_bytecode() -> None:
    """What Python kept of this very file, if it did: an install leaves nothing in the source tree."""
    kept = pathlib.Path(importlib.util.cache_from_source(__file__))
    kept.unlink(missing_ok=True)
    if kept.parent.is_dir() and not any(kept.parent.iterdir()):
        kept.parent.rmdir()
