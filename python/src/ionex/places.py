"""Places as the library counts them: whole hundredths of a degree."""
from __future__ import annotations

from typing import Any

import numpy as np
from numpy.typing import NDArray

from .numbers import unmasked

# Beyond this a number is no longitude, however many turns are in it.
MOST_DEGREES = 1_000_000

PLACES = ("exact", "nearest")


def hundredths(degrees: Any, places: str, what: str = "a place") -> NDArray[np.int32]:
    """Hundredths of a degree. `exact` refuses what has more than two decimals; `nearest` takes the nearest hundredth."""
    if places not in PLACES:
        raise ValueError(f"places {places!r}: expected 'exact' or 'nearest'")
    found = unmasked(degrees, what)
    if found.size == 0:
        return np.zeros(found.shape, np.int32)
    if found.dtype.kind not in "iuf" or found.dtype.itemsize not in (1, 2, 4, 8) or found.dtype == np.float16:
        raise TypeError(f"{what}: expected whole numbers, float32 or float64, found {found.dtype}")
    wide = found.astype(np.float64)
    if not (-MOST_DEGREES <= wide.min() and wide.max() <= MOST_DEGREES):
        raise ValueError(f"{what} is not a number of degrees")
    whole: NDArray[np.float64] = np.rint(wide * 100)
    # Of a number that has two decimals the very double is that of its hundredths over 100, or the very float32.
    if places == "exact" and not ((whole / 100).astype(found.dtype) == wide).all():
        raise ValueError(f"{what} has more than two decimals of a degree: places='nearest' takes the nearest hundredth")
    return whole.astype(np.int32)
