"""The code biases in a file's header."""
from __future__ import annotations

from typing import NamedTuple

import numpy as np

from . import files
from ._areas import flat, lib, new, text
from .refusal import of_text


class Satellite(NamedTuple):
    system: str  # G or R
    number: int
    bias_ps: int  # picoseconds: the thousandths of a nanosecond that the file has
    rms_ps: int


class Station(NamedTuple):
    system: str
    name: str
    bias_ps: int
    rms_ps: int


class Biases(NamedTuple):
    """In the order of the file; both may be empty."""

    satellites: list[Satellite]
    stations: list[Station]


def biases(source: files.Source) -> Biases:
    """The biases of satellites and stations: of a file or a text's bytes as MapSet.read takes them."""
    data, name = files.source(source)
    # A record has its label behind column 60, so there are no more of them than this.
    most = min(len(data) // 60, 1_000_000) + 1
    satellites, stations = new(most * lib.IONEX_SATELLITE_NUMBERS, np.int32), new(most * lib.IONEX_STATION_NUMBERS, np.int32)
    names, counts, place = new(most * lib.IONEX_STATION_NAME, np.uint8), new(2, np.uint64), new(2, np.uint64)
    number = lib.ionex_biases(*text(data), *flat(satellites, stations, names, counts, place))
    if number:
        raise of_text(int(number), int(place[0]), int(place[1]), data, name)
    of_satellites = satellites.reshape(most, -1)[: int(counts[0])].tolist()
    of_stations = zip(names.reshape(most, -1), stations.reshape(most, -1)[: int(counts[1])].tolist())
    return Biases(
        [Satellite(chr(system), *rest) for system, *rest in of_satellites],
        [Station(chr(system), words.tobytes().decode("ascii").rstrip(" "), *rest) for words, (system, *rest) in of_stations],
    )
