"""The examples of the README and of all public names."""

from __future__ import annotations

import ast
import doctest
import inspect
import typing
import unittest
from typing import Any, Dict, Iterator, Tuple

import cupolanettle
from cupolanettle import _core as core
from cupolanettle._finding import native
from cupolanettle._reading import Reader
from cupolanettle._writing import Writer

from .support import PROJECT, SOURCES

OPERATORS = {"__getitem__", "__setitem__", "__delitem__", "__contains__"}


def public_classes() -> Iterator[Tuple[str, Any]]:
    for name in cupolanettle.__all__:
        if inspect.isclass(getattr(cupolanettle, name)):
            yield name, getattr(cupolanettle, name)


def public_members() -> Iterator[Tuple[str, Any]]:
    for name, kind in [*public_classes(), ("Reader", Reader), ("Writer", Writer)]:
        for member, value in vars(kind).items():
            is_call = inspect.isfunction(value) or isinstance(value, property)
            if is_call and (member in OPERATORS or not member.startswith("_")):
                yield f"{name}.{member}", value


def load_tests(
    loader: unittest.TestLoader, tests: unittest.TestSuite, pattern: object
) -> unittest.TestSuite:
    names: Dict[str, Any] = {name: getattr(cupolanettle, name) for name in cupolanettle.__all__}
    finder = doctest.DocTestFinder(recurse=False)
    documented = [("cupolanettle", cupolanettle), *public_classes(), *public_members()]
    for name, value in documented:
        for test in finder.find(value, name, module=False, globs=dict(names)):
            tests.addTest(doctest.DocTestCase(test))
    tests.addTest(doctest.DocFileSuite(str(PROJECT / "README.md"), module_relative=False))
    return tests


class Documentation(unittest.TestCase):
    def test_all_public_names_have_an_example(self) -> None:
        for name, value in [*public_classes(), *public_members()]:
            with self.subTest(name=name):
                self.assertIn(">>> ", inspect.getdoc(value) or "")

    def test_annotations_can_be_evaluated(self) -> None:
        for name, value in public_members():
            function = value.fget if isinstance(value, property) else value
            with self.subTest(name=name):
                self.assertIn("return", typing.get_type_hints(function))

    def test_the_stub_is_true(self) -> None:
        """What it declares is there, whichever way the library is called."""
        stub = ast.parse((SOURCES / "cupolanettle" / "_native.pyi").read_text(encoding="ascii"))
        kinds = [node for node in stub.body if isinstance(node, ast.ClassDef)]
        self.assertEqual({kind.name for kind in kinds}, {"Store", "Snapshot", "Rows"})
        for kind in kinds:
            for node in kind.body:
                if isinstance(node, ast.FunctionDef):
                    with self.subTest(kind=kind.name, name=node.name):
                        self.assertTrue(callable(getattr(getattr(core, kind.name), node.name)))
        for function in [node for node in stub.body if isinstance(node, ast.FunctionDef)]:
            if native is not None:
                self.assertTrue(callable(getattr(native, function.name)))
