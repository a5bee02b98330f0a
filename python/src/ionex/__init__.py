"""Reads, writes and interpolates IONEX 1.0 and 1.1 ionosphere maps, by a library that is proved.

    >>> import ionex
    >>> maps = ionex.MapSet.read("codg3380.10i.Z")      # plain, .gz or .Z; raises ionex.Refusal
    >>> maps.tec.shape                                  # TECU; maps, layers, rows, columns; NaN where there is no value
    (25, 1, 71, 73)
    >>> answers = maps.ask(lats, lons, times, method="sun")
    >>> answers.values                                  # TECU, NaN where a question was refused
    >>> answers.refused                                 # 0, or the number of the refusal
    >>> answers.delay(ionex.L1)                         # metres
"""
from . import archive
from ._words import MEANINGS
from .answers import L1, L2, L5, Answers
from .code_biases import Biases, Satellite, Station, biases
from .explanation import Explanation
from .header import CODES, Axis, Header
from .index import Index, Written
from .mapset import KINDS, METHODS, MapSet
from .refusal import Lacking, Refusal
from .rays import Slant, slant
from .week import Figures, Week

__all__ = [
    "Answers",
    "Axis",
    "Biases",
    "CODES",
    "Explanation",
    "Figures",
    "Header",
    "Index",
    "KINDS",
    "L1",
    "L2",
    "L5",
    "Lacking",
    "MEANINGS",
    "METHODS",
    "MapSet",
    "Refusal",
    "Satellite",
    "Slant",
    "Station",
    "Week",
    "Written",
    "archive",
    "biases",
    "slant",
]
