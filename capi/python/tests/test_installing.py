"""Where the library is looked for, and what a wheel carries."""

from __future__ import annotations

import base64
import ctypes.util
import hashlib
import importlib.util
import os
import re
import shutil
import subprocess
import sys
import tempfile
import unittest
import zipfile
from pathlib import Path

from cupolanettle import _finding as finding

from .support import LIBRARY as NAME
from .support import PROJECT, SOURCES, in_process

LIBRARY = Path(NAME).resolve()
EXTENSION = LIBRARY.parent / finding.EXTENSION
HAS_EXTENSION = EXTENSION.is_file() and finding._can_load_extensions()
FILES = {"extension": finding.EXTENSION, "ctypes": finding.LIBRARY}
WHERE = (
    "from cupolanettle import _finding as found\n"
    "if found.native is None: from cupolanettle._library import PATH\n"
    "else: PATH = found.native.__file__\n"
    "print(PATH)"
)
WHERE_INSTALLED = "import ctypes.util; ctypes.util.find_library = {find}\n" + WHERE


class InAFolder(unittest.TestCase):
    def setUp(self) -> None:
        folder = tempfile.TemporaryDirectory()
        self.addCleanup(folder.cleanup)
        self.folder = Path(folder.name).resolve()


@unittest.skipUnless(LIBRARY.is_file(), "the library is not a file that can be copied")
class Finding(InAFolder):
    """The package in a tree of its own, with libraries in it or not."""

    def setUp(self) -> None:
        super().setUp()
        self.project = self.folder / "capi" / "python"
        self.package = self.project / "src" / "cupolanettle"
        ignored = shutil.ignore_patterns("__pycache__", "*.so")
        shutil.copytree(SOURCES / "cupolanettle", self.package, ignore=ignored)
        shutil.copy(PROJECT / "pyproject.toml", self.project)
        self.beside = self.package / "libclsm.so"
        self.built = self.folder / "capi" / "out" / "libclsm.so"
        self.built.parent.mkdir()

    def run_program(self, program: str, chosen: str) -> subprocess.CompletedProcess[str]:
        variables = {"PYTHONPATH": str(self.package.parent), "CLSM_LIBRARY": chosen}
        return in_process(program, CLSM_BACKEND="ctypes", **variables)

    def assert_found(self, path: Path, program: str = WHERE, chosen: str = "") -> None:
        ended = self.run_program(program, chosen)
        self.assertEqual((ended.stdout, ended.stderr), (f"{path}\n", ""))

    def assert_refused(self, message: str, program: str = WHERE, chosen: str = "") -> None:
        ended = self.run_program(program, chosen)
        self.assertEqual((ended.stdout, ended.returncode), ("", 1))
        self.assertRegex(ended.stderr.splitlines()[-1], f"^ImportError: {message}")

    def test_what_is_chosen_is_first(self) -> None:
        for path in self.beside, self.built:
            shutil.copy(LIBRARY, path)
        self.assert_found(LIBRARY, chosen=str(LIBRARY))

    def test_then_what_is_beside_the_package(self) -> None:
        for path in self.beside, self.built:
            shutil.copy(LIBRARY, path)
        self.assert_found(self.beside)

    def test_then_what_was_built(self) -> None:
        shutil.copy(LIBRARY, self.built)
        self.assert_found(self.built)

    def test_then_what_is_installed(self) -> None:
        find = f"lambda name: {str(LIBRARY)!r} if name == 'clsm' else None"
        self.assert_found(LIBRARY, WHERE_INSTALLED.format(find=find))

    def test_what_is_near_an_installed_package_was_not_built(self) -> None:
        shutil.copy(LIBRARY, self.built)
        (self.project / "pyproject.toml").unlink()
        nothing = WHERE_INSTALLED.format(find="lambda name: None")
        self.assert_refused("libclsm.so was not found: set CLSM_LIBRARY", nothing)

    def test_what_is_chosen_must_be_there(self) -> None:
        shutil.copy(LIBRARY, self.beside)
        self.assert_refused("/no/library.so cannot be loaded: ", chosen="/no/library.so")

    def test_what_is_chosen_must_be_a_library(self) -> None:
        text = self.package / "py.typed"
        self.assert_refused(".*/py.typed cannot be loaded: ", chosen=str(text))

    @unittest.skipUnless(ctypes.util.find_library("c"), "there is no other library")
    def test_what_is_chosen_must_be_this_library(self) -> None:
        other = ctypes.util.find_library("c") or ""
        self.assert_refused(".* has no clsm_version$", chosen=other)

    def test_versions_must_be_equal(self) -> None:
        source = self.package / "_finding.py"
        text = source.read_text(encoding="utf-8")
        source.write_text(text.replace(finding.VERSION, "0.0.7"), encoding="utf-8")
        message = f".* is of version {finding.VERSION}; this package needs 0.0.7$"
        self.assert_refused(message, chosen=str(LIBRARY))


@unittest.skipUnless(LIBRARY.is_file(), "the library is not a file that can be copied")
class Wheels(InAFolder):
    def build(self, folder: Path) -> Path:
        built = subprocess.run(
            [sys.executable, str(PROJECT / "build_wheel.py"), str(folder)],
            env={**os.environ, finding.LIBRARY_VARIABLE: str(LIBRARY)},
            stdout=subprocess.PIPE,
            universal_newlines=True,
            check=True,
        )
        return Path(built.stdout.strip())

    def test_the_record_is_of_all_files(self) -> None:
        with zipfile.ZipFile(self.build(self.folder)) as wheel:
            record = wheel.namelist()[-1]
            lines = []
            for name in wheel.namelist()[:-1]:
                content = wheel.read(name)
                digest = base64.urlsafe_b64encode(hashlib.sha256(content).digest())
                lines.append(f"{name},sha256={digest.decode().rstrip('=')},{len(content)}")
            self.assertEqual(record, f"cupolanettle-{finding.VERSION}.dist-info/RECORD")
            self.assertEqual(wheel.read(record).decode().splitlines(), [*lines, f"{record},,"])
            files = {path.name for path in (SOURCES / "cupolanettle").iterdir() if path.is_file()}
            packed = {name for name in wheel.namelist() if "dist-info" not in name}
            built = {"libclsm.so"} | ({EXTENSION.name} if EXTENSION.is_file() else set())
            self.assertEqual(packed, {f"cupolanettle/{name}" for name in files | built})

    def test_its_tags_are_those_of_its_name(self) -> None:
        path = self.build(self.folder)
        with zipfile.ZipFile(path) as wheel:
            folder = f"cupolanettle-{finding.VERSION}.dist-info"
            told = wheel.read(f"{folder}/WHEEL").decode()
            metadata = wheel.read(f"{folder}/METADATA").decode()
        pythons, abis, platform = path.stem.split("-")[2:]
        tags = {f"{python}-{abi}-{platform}" for python in pythons.split(".") for abi in abis.split(".")}
        self.assertEqual(set(re.findall("^Tag: (.*)$", told, flags=re.MULTILINE)), tags)
        self.assertIn(f"py3-none-{platform}", tags)
        self.assertEqual(f"cp310-abi3-{platform}" in tags, EXTENSION.is_file())
        head = metadata.partition("\n\n")[0]
        self.assertGreater(head.count("\nClassifier: "), 5)
        for line in "Requires-Python: >=3.8", "License-File: LICENSE", "Name: cupolanettle":
            self.assertIn(line, head.splitlines())

    @unittest.skipUnless(importlib.util.find_spec("ensurepip"), "there is no pip")
    def test_pip_installs_it(self) -> None:
        place = self.folder / "place"
        subprocess.run([sys.executable, "-m", "venv", str(place)], check=True)
        python = str(place / "bin" / "python")
        wheel = str(self.build(self.folder))
        flags = ["--quiet", "--no-index", "--disable-pip-version-check"]
        subprocess.run([python, "-m", "pip", "install", *flags, wheel], check=True)
        environment = {name: text for name, text in os.environ.items() if name[:4] not in ("CLSM", "PYTH")}
        program = "import cupolanettle as c\nwith c.Store() as store: print(store.add(7))"
        ended = subprocess.run(
            [python, "-c", program], env=environment, stdout=subprocess.PIPE, check=True
        )
        self.assertEqual(ended.stdout, b"1\n")

    def test_equal_sources_give_equal_wheels(self) -> None:
        first = self.build(self.folder / "first")
        second = self.build(self.folder / "second")
        self.assertEqual(first.name, second.name)
        self.assertEqual(first.read_bytes(), second.read_bytes())

    def test_it_runs_where_it_is_unpacked(self) -> None:
        place = self.folder / "place"
        with zipfile.ZipFile(self.build(self.folder)) as wheel:
            wheel.extractall(place)
        program = (
            f"{WHERE}\n"
            "from cupolanettle import Store\n"
            "with Store() as store:\n"
            "    store[7] = 70, 71\n"
            "    print(list(store.scan()))\n"
        )
        for backend in finding.BACKENDS:
            if backend == "extension" and not HAS_EXTENSION:
                continue
            ended = in_process(
                program, PYTHONPATH=str(place), CLSM_LIBRARY="", CLSM_BACKEND=backend
            )
            found = place / "cupolanettle" / FILES[backend]
            self.assertEqual((ended.stdout, ended.stderr), (f"{found}\n[(7, (70, 71))]\n", ""))


@unittest.skipUnless(HAS_EXTENSION, "there is no extension beside the library")
class Backends(unittest.TestCase):
    """Which of the two calls the library."""

    program = "from cupolanettle import _core; print(_core.BACKEND)"

    def test_one_is_chosen(self) -> None:
        for backend in finding.BACKENDS:
            ended = in_process(self.program, CLSM_BACKEND=backend)
            self.assertEqual((ended.stdout, ended.stderr), (f"{backend}\n", ""))

    def test_the_extension_is_first(self) -> None:
        ended = in_process(self.program, CLSM_BACKEND="")
        self.assertEqual((ended.stdout, ended.stderr), ("extension\n", ""))

    def test_it_does_not_load_ctypes(self) -> None:
        program = "import cupolanettle, sys; print('ctypes' in sys.modules)"
        self.assertEqual(in_process(program, CLSM_BACKEND="extension").stdout, "False\n")

    def test_no_other_one(self) -> None:
        ended = in_process(self.program, CLSM_BACKEND="cffi")
        self.assertRegex(ended.stderr, "ImportError: CLSM_BACKEND is cffi")

    def test_a_library_that_is_a_name(self) -> None:
        """It is the system's, whatever lies in the folder at hand."""
        program = f"import os; os.chdir({str(EXTENSION.parent)!r}); {self.program}"
        ended = in_process(program, CLSM_LIBRARY="no-library.so", CLSM_BACKEND="")
        self.assertRegex(ended.stderr, "ImportError: no-library.so cannot be loaded")

    def test_a_folder_without_it(self) -> None:
        with tempfile.TemporaryDirectory() as folder:
            alone = Path(folder) / "libclsm.so"
            shutil.copy(LIBRARY, alone)
            ended = in_process(self.program, CLSM_LIBRARY=str(alone), CLSM_BACKEND="")
            self.assertEqual((ended.stdout, ended.stderr), ("ctypes\n", ""))
            ended = in_process(self.program, CLSM_LIBRARY=str(alone), CLSM_BACKEND="extension")
            self.assertRegex(ended.stderr, "ImportError: _native.abi3.so was not found")
