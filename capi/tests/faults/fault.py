"""A fault that is planted."""

from typing import NamedTuple


class Fault(NamedTuple):
    name: str
    file: str
    edits: list[tuple[str, str]]  # texts that stand exactly once in the file, and what takes their place
    test: list[str]  # which must fail, and its words
    sanitizer: str = ""
