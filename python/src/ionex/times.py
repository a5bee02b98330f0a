"""Times as the library counts them: whole seconds from 1900-01-01 00:00:00, in universal time."""
from __future__ import annotations

import datetime
import re
from typing import Any

import numpy as np
from numpy.typing import NDArray

from ._areas import lib
from .numbers import unmasked

UNIX_ZERO = int(lib.IONEX_UNIX_ZERO)
FIRST, END = np.datetime64("1900-01-01T00:00:00"), np.datetime64("2200-01-01T00:00:00")
# All times of these units lie within a year of 1970, and the ends would not fit.
FINE_UNITS = ("ps", "fs", "as")
WHOLE_UNITS = ("s", "m", "h", "D", "W", "M", "Y")

TEXT = re.compile(r"\d{4}-\d\d-\d\d([T ]\d\d:\d\d(:\d\d)?(Z|[+-]\d\d:\d\d)?)?")
OUTSIDE = "a time outside the years 1900 to 2199"


def seconds(time: Any) -> NDArray[np.uint64]:
    """Seconds from 1900 of datetime64 (universal time), datetime, text as 2010-12-04T06:30:00, or arrays and lists of these.

    A datetime or text with a zone is turned to universal time; one without is in universal time already."""
    found = unmasked(time, "a time")
    if found.size == 0:
        return np.zeros(found.shape, np.uint64)
    if found.dtype.kind in "UO":
        moments = [_moment(one) for one in found.reshape(-1)]
        found = np.array(moments, "datetime64[us]").reshape(found.shape)
    if found.dtype.kind != "M":
        raise TypeError(f"a time: expected datetime64, datetime or text, found {found.dtype}")
    return _of_datetimes(found)


def _of_datetimes(found: NDArray[Any]) -> NDArray[np.uint64]:
    low, high = found.min(), found.max()
    if np.isnat(low):
        raise ValueError("a time is missing (NaT)")
    # Looked at in its own unit first: far times would come round when they are counted in seconds.
    unit = np.datetime_data(found.dtype)[0]
    if unit not in FINE_UNITS and (low < FIRST.astype(found.dtype) or high > END.astype(found.dtype)):
        raise ValueError(OUTSIDE)
    whole = found.astype("datetime64[s]")
    if low.astype(whole.dtype) < FIRST or high.astype(whole.dtype) >= END:
        raise ValueError(OUTSIDE)
    if unit not in WHOLE_UNITS and (whole != found).any():
        raise ValueError("times are whole seconds: round them first")
    return (whole.view(np.int64) + UNIX_ZERO).view(np.uint64)


def _moment(one: Any) -> Any:
    """A datetime without a zone, in universal time."""
    if isinstance(one, str):
        if not TEXT.fullmatch(one):
            raise ValueError(f"{one!r}: expected a time as 2010-12-04T06:30:00")
        one = datetime.datetime.fromisoformat(one.replace("Z", "+00:00"))
    if isinstance(one, np.datetime64):
        raise TypeError("a time: datetime64 beside other times; turn all of them to datetime64 first")
    if not isinstance(one, datetime.datetime):
        raise TypeError(f"a time: expected datetime64, datetime or text, found {type(one).__name__}")
    # Of pandas, whose times are finer than datetime can tell.
    if getattr(one, "nanosecond", 0):
        raise ValueError("times are whole seconds: round them first")
    if one.tzinfo is not None:
        one = one.astimezone(datetime.timezone.utc).replace(tzinfo=None)
    return np.datetime64(one, "us")


def datetimes(since: NDArray[np.uint64]) -> NDArray[np.datetime64]:
    """Seconds from 1900 as datetime64[s]."""
    return (since.astype(np.int64) - UNIX_ZERO).astype("datetime64[s]")
