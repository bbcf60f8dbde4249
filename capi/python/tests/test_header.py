"""The package's declarations against the header of the library, clsm.h."""

from __future__ import annotations

import ctypes
import re
import unittest
from typing import Any, ClassVar, Dict, List, Tuple

import cupolanettle
from cupolanettle import Code
from cupolanettle import _library as library

from .support import PROJECT

HEADER = PROJECT.parent / "clsm.h"

# What the package does without.
UNUSED_CALLS = {
    "clsm_caller_close",
    "clsm_clear",
    "clsm_close",
    "clsm_number",
    "clsm_pop_first",
    "clsm_pop_last",
    "clsm_scan_close",
    "clsm_scan_close_at",
    "clsm_scan_next",
    "clsm_scan_open",
    "clsm_snapshot_close",
    "clsm_snapshot_number",
    "clsm_store_snapshot",
    "clsm_time",
    "clsm_transaction_add",
    "clsm_transaction_close",
    "clsm_transaction_commit",
    "clsm_transaction_count",
    "clsm_transaction_first",
    "clsm_transaction_get",
    "clsm_transaction_get_many",
    "clsm_transaction_last",
    "clsm_transaction_open",
    "clsm_transaction_page",
    "clsm_transaction_page_down",
    "clsm_transaction_put",
    "clsm_transaction_remove",
    "clsm_walk_close",
    "clsm_walk_next",
    "clsm_walk_open",
}
STRUCTURES: Dict[str, Any] = {
    "clsm_value": library.Value,
    "clsm_row": library.Row,
    "clsm_changed": library.Changed,
    "clsm_page_end": library.PageEnd,
    "clsm_range_count": library.RangeCount,
    "clsm_options": library.Options,
    "clsm_statistics": library.Statistics,
}
# What ctypes.PyDLL marks its calls with.
PYTHON_CALL: int = ctypes.PyDLL._func_flags_ & ~ctypes.CDLL._func_flags_

HANDLES = {"clsm_store", "clsm_caller", "clsm_snapshot", "clsm_scan", "clsm_walk"}
HANDLES.add("clsm_transaction")
TYPES: Dict[str, Any] = {
    "bool": ctypes.c_bool,
    "int": ctypes.c_int,
    "int64_t": ctypes.c_int64,
    "size_t": ctypes.c_size_t,
    "uint64_t": ctypes.c_uint64,
    "unsigned": ctypes.c_uint,
    "void": None,
    **STRUCTURES,
}


def type_of(words: str) -> Any:
    """The type that these words of C name; a handle is a pointer that nobody looks behind."""
    name = words.replace("const", "").replace("*", "").strip()
    pointers = words.count("*")
    if name == "char":
        return ctypes.c_char_p
    if name in HANDLES:
        return ctypes.c_void_p if pointers == 1 else ctypes.POINTER(ctypes.c_void_p)
    return ctypes.POINTER(TYPES[name]) if pointers else TYPES[name]


def field_of(declared: str, kind: Any) -> Tuple[str, Any]:
    """A field as ctypes has it, from its name and the size of its array, if it is one."""
    name, _, size = declared.strip().rstrip("]").partition("[")
    return name, kind * int(size) if size else kind


class Header:
    """What the header declares."""

    def __init__(self, text: str) -> None:
        self.text = re.sub(r"/\*.*?\*/", "", text, flags=re.DOTALL)

    def codes(self) -> Dict[str, int]:
        found = re.findall(r"\bCLSM_(\w+) = (\d+)", self.text)
        return {name: int(code) for name, code in found}

    def version(self) -> str:
        found = re.search(r'#define CLSM_VERSION +"(.*)"', self.text)
        assert found
        return found.group(1)

    def structures(self) -> Dict[str, List[Tuple[str, Any]]]:
        found = re.findall(r"typedef struct \{(.*?)\} (\w+);", self.text, flags=re.DOTALL)
        return {name: self.fields(body) for body, name in found}

    @staticmethod
    def fields(body: str) -> List[Tuple[str, Any]]:
        fields: List[Tuple[str, Any]] = []
        for line in body.split(";"):
            if line.strip():
                kind, names = line.split(maxsplit=1)
                fields += [field_of(name, TYPES[kind]) for name in names.split(",")]
        return fields

    def calls(self) -> Dict[str, Tuple[Any, List[Any]]]:
        found = re.findall(r"^([\w ]+?[ *]+)(clsm_\w+)\(([^)]*)\);", self.text, flags=re.MULTILINE)
        return {name: (type_of(kind), self.parameters(names)) for kind, name, names in found}

    @staticmethod
    def parameters(names: str) -> List[Any]:
        if names == "void":
            return []
        return [type_of(re.sub(r"\w+$", "", name.strip())) for name in names.split(",")]


def is_kept_by(call: Any) -> bool:
    """Whether the interpreter's lock is kept by this call."""
    return bool(call._flags_ & PYTHON_CALL)


class Declarations(unittest.TestCase):
    header: ClassVar[Header]

    @classmethod
    def setUpClass(cls) -> None:
        cls.header = Header(HEADER.read_text(encoding="ascii"))

    def test_codes(self) -> None:
        self.assertEqual(self.header.codes(), {code.name: int(code) for code in Code})

    def test_versions(self) -> None:
        project = (PROJECT / "pyproject.toml").read_text(encoding="ascii")
        self.assertEqual(cupolanettle.__version__, self.header.version())
        self.assertIn(f'\nversion = "{self.header.version()}"\n', project)

    def test_structures(self) -> None:
        found = self.header.structures()
        self.assertLessEqual(STRUCTURES.keys(), found.keys())
        for name, fields in found.items():
            with self.subTest(structure=name):
                self.assertEqual(list(STRUCTURES[name]._fields_), fields)

    def test_calls(self) -> None:
        found = self.header.calls()
        declared = library.DECLARED.keys()
        self.assertEqual(declared - found.keys(), set())
        self.assertEqual(found.keys() - declared, UNUSED_CALLS)
        for name in declared & found.keys():
            with self.subTest(call=name):
                kind, parameters = library.DECLARED[name]
                self.assertEqual((kind, list(parameters)), found[name])

    def test_what_keeps_the_lock_of_the_interpreter(self) -> None:
        keeping = [library.get, library.page, library.snapshot_get, library.seen, library.follow]
        keeping += [library.PUT.attempt, library.REMOVE.attempt, library.snapshot_time]
        keeping += [library.page_down, library.first, library.last, library.get_few]
        keeping += [library.snapshot_first, library.snapshot_last]
        keeping += [library.caller_close_at, library.snapshot_close_at]
        releasing = [library.count, library.snapshot_count, library.snapshot_page]
        releasing += [library.PUT.wait, library.REMOVE.wait, library.batch, library.stats, library.sweep]
        releasing += [library.add, library.put_if_absent, library.replace]
        releasing += [library.store_open, library.store_close_at, library.snapshot_open]
        releasing += [library.caller_open, library.get_many, library.snapshot_get_many]
        releasing += [library.batch_if, library.snapshot_page_down]
        releasing += [library.store_copy, library.remove_range]
        self.assertEqual([is_kept_by(call) for call in keeping], [True] * len(keeping))
        self.assertEqual([is_kept_by(call) for call in releasing], [False] * len(releasing))

    def test_statistics(self) -> None:
        fields = [name for name, _ in library.Statistics._fields_]
        self.assertEqual(fields, list(cupolanettle.Statistics._fields))

    def test_what_scans_read(self) -> None:
        self.assertEqual(ctypes.sizeof(library.Row), 80)
        row = library.Row(key=1, value=library.Value(2, (3, 4)))
        self.assertEqual(list((ctypes.c_uint64 * 10).from_buffer(row)), [1, 2, 3, 4] + [0] * 6)
