"""A day of maps as centres make them, with made-up values, and the two programs that the package is compared with."""
import os
import subprocess
from pathlib import Path

import numpy as np
import pytest

import ionex

ROOT = Path(__file__).resolve().parents[2]
EXAMPLES = ROOT / "tests" / "examples"
MAPS, ROWS, COLUMNS = 25, 71, 73
START = np.datetime64("2010-12-04T00:00:00")
UNIX_ZERO = 2208988800


def record(body, label):
    return f"{body:<60}{label}".rstrip()


def content():
    """Tenths of a TECU: two crests where it is afternoon; no value in a corner of the south."""
    lat = 87.5 - 2.5 * np.arange(ROWS)[:, None]
    lon = -180.0 + 5.0 * np.arange(COLUMNS)[None, :]
    hour = lon / 15 + np.arange(MAPS)[:, None, None]
    day = np.maximum(np.cos((hour - 14) / 12 * np.pi), 0) ** 1.5
    crest = np.exp(-(((lat - 15) / 18) ** 2)) + np.exp(-(((lat + 15) / 18) ** 2))
    found = np.rint(10 * (3 + 55 * day * crest)).astype(int)
    found[:, (lat[:, 0] < -60), 20:34] = 9999
    return found


def header_lines(first=4):
    return [
        record("     1.1            IONOSPHERE MAPS     GNS", "IONEX VERSION / TYPE"),
        record("maker               centre              5-dec-10 12:00", "PGM / RUN BY / DATE"),
        record("values are made up", "DESCRIPTION"),
        record(f"  2010    12{first:6}     0     0     0", "EPOCH OF FIRST MAP"),
        record(f"  2010    12{first + 1:6}     0     0     0", "EPOCH OF LAST MAP"),
        record("  3600", "INTERVAL"),
        record("    25", "# OF MAPS IN FILE"),
        record("  COSZ", "MAPPING FUNCTION"),
        record("    10.0", "ELEVATION CUTOFF"),
        record("carrier phase", "OBSERVABLES USED"),
        record("  6371.0", "BASE RADIUS"),
        record("     2", "MAP DIMENSION"),
        record("   450.0 450.0   0.0", "HGT1 / HGT2 / DHGT"),
        record("    87.5 -87.5  -2.5", "LAT1 / LAT2 / DLAT"),
        record("  -180.0 180.0   5.0", "LON1 / LON2 / DLON"),
        record("", "END OF HEADER"),
    ]


def map_lines(kind, number, grid, epoch=None):
    lines = [record(f"{number:6}", f"START OF {kind} MAP")]
    if epoch:
        lines.append(record(epoch, "EPOCH OF CURRENT MAP"))
    for row, line in enumerate(grid):
        lines.append(record(f"  {87.5 - 2.5 * row:6.1f}-180.0 180.0   5.0 450.0", "LAT/LON1/LON2/DLON/H"))
        lines += ["".join(f"{v:5}" for v in line[at : at + 16]) for at in range(0, COLUMNS, 16)]
    return lines + [record(f"{number:6}", f"END OF {kind} MAP")]


def text_of(values, rms=None, first=4):
    lines = header_lines(first)
    for number, grid in enumerate(values, 1):
        hour = number - 1
        lines += map_lines("TEC", number, grid, f"  2010    12{first + hour // 24:6}{hour % 24:6}     0     0")
    for number, grid in enumerate([] if rms is None else rms, 1):
        lines += map_lines("RMS", number, grid)
    return ("\n".join([*lines, record("", "END OF FILE")]) + "\n").encode()


@pytest.fixture(scope="session")
def day():
    return content()


@pytest.fixture(scope="session")
def day_rms(day):
    return np.where(day == 9999, 9999, day // 8 + 5)


@pytest.fixture(scope="session")
def day_text(day, day_rms):
    return text_of(day, day_rms)


@pytest.fixture(scope="session")
def day_file(day_text, tmp_path_factory):
    path = tmp_path_factory.mktemp("day") / "day.inx"
    path.write_bytes(day_text)
    return path


@pytest.fixture(scope="session")
def maps(day_text):
    return ionex.MapSet.read(day_text)


def accepted():
    """Every example that the documents accept, of both versions, in two dimensions and three."""
    return sorted([*EXAMPLES.glob("accepted-*.inx"), EXAMPLES / "refused-11.inx"])


def peer(*words, given=()):
    """What the second program or the crate says: see tests/peer."""
    lines = "".join(" ".join(str(number) for number in line) + "\n" for line in given)
    run = subprocess.run([os.environ["IONEX_PEER"], *map(str, words)], input=lines.encode(), stdout=subprocess.PIPE, check=True)
    return run.stdout


def peer_lines(*words, given=()):
    return peer(*words, given=given).decode().splitlines()


def second_of(time):
    """Seconds from 1900 of a datetime64."""
    return int(np.datetime64(time, "s").astype(np.int64)) + UNIX_ZERO


def program(*words):
    """What `ionex` prints."""
    run = subprocess.run([os.environ["IONEX_PROGRAM"], *map(str, words)], stdout=subprocess.PIPE, stderr=subprocess.STDOUT)
    return run.stdout.decode()


def refused(number, call, *given, **choices):
    """The refusal of a call, which must have this number."""
    with pytest.raises(ionex.Refusal) as found:
        call(*given, **choices)
    assert found.value.number == number
    return found.value
