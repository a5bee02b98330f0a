"""From a rover to a satellite: where the ray pierces the layer, and how much longer it is there than straight up.

Plain floating point on a sphere of the file's base radius, and NOT PROVED, as the library is: only the vertical content at the
pierce point is the library's answer, at the nearest hundredth of a degree.
"""
from __future__ import annotations

from typing import Any, NamedTuple

import numpy as np
from numpy.typing import NDArray

from .answers import Answers
from .mapset import MapSet
from .numbers import counted

# Of the modified single-layer mapping: the layer's height in km and the factor of the zenith distance.
MSLM_HEIGHT, MSLM_FACTOR = 506.7, 0.9782

Floats = NDArray[np.float64]


class Slant(NamedTuple):
    """The vertical answers at the pierce points, and the slant values in TECU: NaN where refused or below the horizon."""

    answers: Answers
    values: Floats


def pierce(lat: Any, lon: Any, azimuth: Any, elevation: Any, radius: float, height: float) -> tuple[Floats, Floats]:
    """Latitude and longitude in degrees where the ray from a place on the sphere meets the layer; all angles in degrees."""
    lat, lon, azimuth, elevation = (np.radians(np.asarray(part, float)) for part in (lat, lon, azimuth, elevation))
    # The angle at the Earth's centre between the place and the pierce point.
    central = np.pi / 2 - elevation - np.arcsin(radius / (radius + height) * np.cos(elevation))
    north = np.sin(lat) * np.cos(central) + np.cos(lat) * np.sin(central) * np.cos(azimuth)
    east = np.sin(central) * np.sin(azimuth)
    out = np.cos(lat) * np.cos(central) - np.sin(lat) * np.sin(central) * np.cos(azimuth)
    return np.degrees(np.arctan2(north, np.hypot(east, out))), np.degrees(lon + np.arctan2(east, out))


def factor(elevation: Any, radius: float, height: float, mapping: str = "cosz") -> Floats:
    """The slant content over the vertical one: 1 / cos z at the pierce point, or the modified single-layer mapping."""
    zenith = np.pi / 2 - np.radians(np.asarray(elevation, float))
    if mapping == "cosz":
        sine = radius / (radius + height) * np.sin(zenith)
    elif mapping == "mslm":
        sine = radius / (radius + MSLM_HEIGHT) * np.sin(MSLM_FACTOR * zenith)
    else:
        raise ValueError(f"mapping {mapping!r}: expected 'cosz' or 'mslm'")
    return np.asarray(1 / np.sqrt(1 - sine**2))


def slant(
    maps: MapSet,
    lat: Any,
    lon: Any,
    azimuth: Any,
    elevation: Any,
    time: Any,
    *,
    method: str = "sun",
    kind: str = "tec",
    mapping: str = "cosz",
    layer: int = 0,
) -> Slant:
    """The content along rays to satellites: not proved, see above."""
    if kind == "height":
        raise TypeError("a height has no slant content")
    at = counted(layer, "layer")
    if at >= len(maps.heights):
        raise ValueError(f"layer {at}: there are {len(maps.heights)}")
    height = float(maps.heights[at])
    above = np.asarray(elevation, float)
    if not ((above <= 90) | np.isnan(above)).all():
        raise ValueError("an elevation above 90 degrees")
    up = np.where(above >= 0, above, np.nan)
    # Below the horizon there is no ray: the answer is then that of the place itself, and no slant value.
    places = pierce(lat, lon, azimuth, np.where(above >= 0, above, 90.0), maps.header.base_radius, height)
    answers = maps.ask(*places, time, method=method, kind=kind, layer=at, places="nearest")
    return Slant(answers, answers.values * factor(up, maps.header.base_radius, height, mapping))
