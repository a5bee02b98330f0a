"""What callers give, looked at before it is counted."""
from __future__ import annotations

import operator
from typing import Any, Mapping, TypeVar

import numpy as np
from numpy.typing import NDArray

Choice = TypeVar("Choice")


def unmasked(given: Any, what: str) -> NDArray[Any]:
    """An array of what was given. A mask says that something is missing: that is refused, never dropped."""
    parts = given if isinstance(given, (list, tuple)) else (given,)
    if any(isinstance(part, np.ma.MaskedArray) and np.any(part.mask) for part in parts):
        raise ValueError(f"{what} is masked: leave it out first")
    return np.asarray(given)


def chosen(name: Any, choices: Mapping[str, Choice], what: str) -> Choice:
    """What a name stands for."""
    if not isinstance(name, str) or name not in choices:
        raise ValueError(f"{what} {name!r}: expected one of {', '.join(choices)}")
    return choices[name]


def counted(number: Any, what: str) -> int:
    """A number that is counted from 0; numpy's whole numbers too."""
    if isinstance(number, (bool, np.bool_)):
        raise TypeError(f"{what}: expected a whole number")
    whole = operator.index(number)
    if not 0 <= whole < 2**63:
        raise ValueError(f"{what} {whole}: it is counted from 0")
    return whole
