"""Where the library is found, and by what the package calls it: its C extension, or ``ctypes``."""

from __future__ import annotations

import os
import sys
from importlib.machinery import EXTENSION_SUFFIXES, ExtensionFileLoader
from importlib.util import module_from_spec, spec_from_file_location
from pathlib import Path
from typing import Any, List, Optional

VERSION = "0.2.0"
LIBRARY_VARIABLE = "CLSM_LIBRARY"
BACKEND_VARIABLE = "CLSM_BACKEND"
BACKENDS = ("extension", "ctypes")
LIBRARY = "libclsm.so"
EXTENSION = "_native.abi3.so"

_PACKAGE = Path(__file__).resolve().parent
_OLDEST_OF_EXTENSION = (3, 10)
_SUFFIX_OF_EXTENSION = ".abi3.so"  # Pythons that have no stable ABI do not know it


def _chosen() -> str:
    """The library that the user chose, or nothing."""
    return os.environ.get(LIBRARY_VARIABLE, "")


def _built(name: str) -> Optional[Path]:
    """What was built of the sources, if the package lies among them."""
    project = _PACKAGE.parent.parent
    path = project.parent / "out" / name
    return path if (project / "pyproject.toml").is_file() and path.is_file() else None


def find_library() -> str:
    """The path or the name of the library."""
    if _chosen():
        return _chosen()
    beside = _PACKAGE / LIBRARY
    if beside.is_file():
        return str(beside)
    built = _built(LIBRARY)
    if built is not None:
        return str(built)
    from ctypes.util import find_library as find_installed

    installed = find_installed("clsm")
    if installed is None:
        raise ImportError(f"{LIBRARY} was not found: set {LIBRARY_VARIABLE} to its path")
    return installed


def _find_extension() -> Optional[Path]:
    """The extension, which has the library in it and lies beside the one that it was built of."""
    if _chosen():
        library = Path(_chosen()).absolute()
        beside = library.parent / EXTENSION
        return beside if library.is_file() and beside.is_file() else None
    beside = _PACKAGE / EXTENSION
    return beside if beside.is_file() else _built(EXTENSION)


def _can_load_extensions() -> bool:
    return sys.version_info >= _OLDEST_OF_EXTENSION and _SUFFIX_OF_EXTENSION in EXTENSION_SUFFIXES


def _load(path: Path) -> Any:
    name = f"{__package__}._native"
    spec = spec_from_file_location(name, path, loader=ExtensionFileLoader(name, str(path)))
    if spec is None or spec.loader is None:
        raise ImportError(f"{path} cannot be loaded")
    module: Any = module_from_spec(spec)
    spec.loader.exec_module(module)
    if module.VERSION != VERSION:
        raise ImportError(f"{path} is of version {module.VERSION}; this package needs {VERSION}")
    return module


def _load_extension() -> Any:
    """The extension, or ``None`` if the package is to do without."""
    backend = os.environ.get(BACKEND_VARIABLE, "")
    known: List[str] = ["", *BACKENDS]
    if backend not in known:
        raise ImportError(f"{BACKEND_VARIABLE} is {backend}, and neither of {', '.join(BACKENDS)}")
    if backend == "ctypes":
        return None
    is_wanted = backend == "extension"
    if not _can_load_extensions():
        if is_wanted:
            raise ImportError("this Python has not the stable ABI that the extension needs")
        return None
    path = _find_extension()
    if path is None:
        if is_wanted:
            raise ImportError(f"{EXTENSION} was not found")
        return None
    try:
        return _load(path)
    except ImportError:  # as in a second interpreter of the process
        if is_wanted:
            raise
        return None


native: Any = _load_extension()
