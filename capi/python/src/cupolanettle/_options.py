"""Options of a store: what users give, and what the library takes."""

from __future__ import annotations

import math
import operator
from typing import Any, Dict, Optional

from ._errors import Code

_GREATEST_OPTION = 2**31 - 1
_MILLISECONDS = 1_000  # of a second
_AT_ONCE = -1
_FOR_EVER = 2**63 - 1
_NO_PATIENCE = -1

_RANGES = {
    "keys": "from 1 to 4,194,304 less the versions",
    "epoch": "from 4 to 65,536",
    "versions": "from 6 * epoch + 64 to 4,194,304 less the keys",
    "patience": "from 0 to 64",
    "wait": "0 seconds or more, or None",
}
_NAMES: Dict[int, str] = {
    Code.BAD_KEYS: "keys",
    Code.BAD_EPOCH: "epoch",
    Code.BAD_PATIENCE: "patience",
    Code.BAD_VERSIONS: "versions",
    Code.BAD_WAIT: "wait",
}


def _out_of_range(name: str) -> ValueError:
    return ValueError(f"{name} is out of range: {_RANGES[name]}")


def error_of_option(code: int) -> Optional[ValueError]:
    """What is raised where the library refuses an option, if the code is one of an option."""
    return _out_of_range(_NAMES[code]) if code in _NAMES else None


def option(name: str, value: int, least: int) -> int:
    """The option, if it may be one of the library's."""
    if not hasattr(type(value), "__index__"):
        raise TypeError(f"{name} is an int, not {type(value)}")
    number = operator.index(value)
    if not least <= number <= _GREATEST_OPTION:
        raise _out_of_range(name)
    return number


def option_or_zero(name: str, value: Optional[int]) -> int:
    """The option, or 0, which leaves the choice to the library."""
    return 0 if value is None else option(name, value, 1)


def patience_of(looks: int) -> int:
    """How often a read is to look again; the library takes 0 for its own choice."""
    return option("patience", looks, 0) or _NO_PATIENCE


def milliseconds(wait: Optional[float]) -> int:
    """How long the library is to wait, rounded up; it takes 0 for another choice."""
    if wait is None:
        return _FOR_EVER
    try:
        is_in_range = 0 <= wait < math.inf
    except TypeError:
        raise TypeError(f"wait is a number of seconds, not {type(wait)}") from None
    if not is_in_range:
        raise _out_of_range("wait")
    return min(math.ceil(wait * _MILLISECONDS), _FOR_EVER) or _AT_ONCE


class SignatureOfInit:
    """The signature of a class: that of its ``__init__``, where ``__new__`` takes anything."""

    def __get__(self, instance: object, kind: Any) -> Any:
        import inspect  # not before it is asked for

        signature = inspect.signature(kind.__init__)
        shown = [it for it in signature.parameters.values() if not it.name.startswith("_")]
        return signature.replace(parameters=shown[1:], return_annotation=signature.empty)


class NoDefault:
    """Stands for a default that was not given."""

    def __repr__(self) -> str:
        return "no default"


NO_DEFAULT = NoDefault()
