#!/usr/bin/env python3
"""Builds the wheel, with the library and the C extension in it, by the standard library alone.

    python3 build_wheel.py [FOLDER]     # into dist, unless told otherwise

It is also the build backend of pyproject.toml. The library is the one that CLSM_LIBRARY names, or
else ../out/libclsm.so. The extension is the one beside it, if there is one: the wheel's tag says
so. Equal sources give equal wheels.
"""

import base64
import hashlib
import os
import re
import sys
import sysconfig
import zipfile
from pathlib import Path
from typing import Any, Dict, List, Optional, Tuple

PROJECT = Path(__file__).resolve().parent
PACKAGE = "cupolanettle"
LIBRARY = "libclsm.so"
EXTENSION = "_native.abi3.so"
SUFFIXES = (".py", ".pyi", ".typed")

# The least time that a zip file can have.
TIME = (1980, 1, 1, 0, 0, 0)

File = Tuple[str, bytes, int]


def project_table() -> str:
    """The project table of pyproject.toml, which Python reads from 3.11 on only."""
    text = (PROJECT / "pyproject.toml").read_text(encoding="utf-8")
    return text.partition("\n[project]\n")[2].partition("\n[project.")[0].partition("\n[tool")[0]


def read_project() -> Dict[str, str]:
    """The texts of the project table."""
    return dict(re.findall(r'^([\w-]+) = "(.*)"$', project_table(), flags=re.MULTILINE))


def read_list(name: str) -> List[str]:
    """A list of texts of the project table."""
    body = project_table().partition(f"\n{name} = [")[2].partition("]")[0]
    return re.findall(r'"(.*?)"', body)


def find_library() -> Path:
    library = Path(os.environ.get("CLSM_LIBRARY") or PROJECT.parent / "out" / LIBRARY)
    if not library.is_file():
        raise FileNotFoundError(f"{library} is not there: build it, or set CLSM_LIBRARY")
    return library


def find_extension() -> Optional[Path]:
    extension = find_library().parent / EXTENSION
    return extension if extension.is_file() else None


def find_license() -> Path:
    return PROJECT.parent.parent / "LICENSE"


def package_files() -> List[File]:
    folder = PROJECT / "src" / PACKAGE
    names = sorted(path.name for path in folder.iterdir() if path.suffix in SUFFIXES)
    files = [(f"{PACKAGE}/{name}", (folder / name).read_bytes(), 0o644) for name in names]
    built = [(LIBRARY, find_library()), (EXTENSION, find_extension())]
    return files + [
        (f"{PACKAGE}/{name}", path.read_bytes(), 0o755) for name, path in built if path is not None
    ]


def tags() -> Tuple[List[str], List[str], str]:
    """Which Pythons, ABIs and platforms it is for: with ``ctypes`` any Python 3 of this system, and
    with the extension those that have its stable ABI."""
    platform = re.sub(r"\W", "_", sysconfig.get_platform())
    if find_extension() is None:
        return ["py3"], ["none"], platform
    return ["cp310", "py3"], ["abi3", "none"], platform


def tag() -> str:
    """The tags, as the name of the wheel has them."""
    pythons, abis, platform = tags()
    return f"{'.'.join(pythons)}-{'.'.join(abis)}-{platform}"


def metadata(project: Dict[str, str]) -> str:
    fields = [
        "Metadata-Version: 2.1",
        f"Name: {project['name']}",
        f"Version: {project['version']}",
        f"Summary: {project['description']}",
        "License: MIT",
        "License-File: LICENSE",
        f"Keywords: {','.join(read_list('keywords'))}",
        *(f"Classifier: {classifier}" for classifier in read_list("classifiers")),
        f"Requires-Python: {project['requires-python']}",
        "Description-Content-Type: text/markdown",
    ]
    readme = (PROJECT / project["readme"]).read_text(encoding="utf-8")
    return "\n".join(fields) + "\n\n" + readme


def wheel_description() -> str:
    fields = [
        "Wheel-Version: 1.0",
        "Generator: build_wheel.py",
        "Root-Is-Purelib: false",
    ]
    pythons, abis, platform = tags()
    fields += [f"Tag: {python}-{abi}-{platform}" for python in pythons for abi in abis]
    return "\n".join(fields) + "\n"


def information_files(project: Dict[str, str], folder: str) -> List[File]:
    return [
        (f"{folder}/METADATA", metadata(project).encode(), 0o644),
        (f"{folder}/WHEEL", wheel_description().encode(), 0o644),
        (f"{folder}/LICENSE", find_license().read_bytes(), 0o644),
    ]


def record_of(files: List[File], name: str) -> File:
    """The hashes and sizes of all files, and the record itself without them."""
    lines = []
    for file_name, content, _ in files:
        digest = base64.urlsafe_b64encode(hashlib.sha256(content).digest()).rstrip(b"=").decode()
        lines.append(f"{file_name},sha256={digest},{len(content)}\n")
    return name, "".join([*lines, f"{name},,\n"]).encode(), 0o644


def write_zip(path: Path, files: List[File]) -> None:
    with zipfile.ZipFile(path, "w") as archive:
        for name, content, mode in files:
            entry = zipfile.ZipInfo(name, TIME)
            entry.external_attr = (0o100000 | mode) << 16
            entry.compress_type = zipfile.ZIP_DEFLATED
            archive.writestr(entry, content)


def build_wheel(
    wheel_directory: str,
    config_settings: Optional[Dict[str, Any]] = None,
    metadata_directory: Optional[str] = None,
) -> str:
    """Writes the wheel into the directory, and answers its name (PEP 517)."""
    project = read_project()
    stem = f"{project['name']}-{project['version']}"
    folder = f"{stem}.dist-info"
    files = package_files() + information_files(project, folder)
    files.append(record_of(files, f"{folder}/RECORD"))
    name = f"{stem}-{tag()}.whl"
    write_zip(Path(wheel_directory) / name, files)
    return name


class UnsupportedOperation(Exception):
    """The name is PEP 517's."""


def build_sdist(sdist_directory: str, config_settings: Optional[Dict[str, Any]] = None) -> str:
    """Refuses: without its C library the package is no whole (PEP 517)."""
    raise UnsupportedOperation("there is no source distribution of the package alone")


def main(arguments: List[str]) -> None:
    folder = Path(arguments[0]) if arguments else PROJECT / "dist"
    folder.mkdir(parents=True, exist_ok=True)
    print(folder / build_wheel(str(folder)))


if __name__ == "__main__":
    main(sys.argv[1:])
