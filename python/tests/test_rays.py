"""Pierce points against the ray itself, in three dimensions."""
import numpy as np
import pytest

import ionex
from ionex import rays

TIME = "2010-12-04T06:30:00"


def test_pierce_points_lie_on_the_ray():
    random = np.random.default_rng(2)
    radius, height, count = 6371.0, 450.0, 2000
    lat, lon = random.uniform(-89, 89, count), random.uniform(-180, 180, count)
    azimuth, elevation = random.uniform(0, 360, count), random.uniform(0, 90, count)
    a, b, az, el = (np.radians(part) for part in (lat, lon, azimuth, elevation))
    up = np.stack([np.cos(a) * np.cos(b), np.cos(a) * np.sin(b), np.sin(a)])
    north = np.stack([-np.sin(a) * np.cos(b), -np.sin(a) * np.sin(b), np.cos(a)])
    east = np.stack([-np.sin(b), np.cos(b), np.zeros(count)])
    ray = np.cos(el) * (np.cos(az) * north + np.sin(az) * east) + np.sin(el) * up
    along = -radius * np.sin(el) + np.sqrt((radius * np.sin(el)) ** 2 + (radius + height) ** 2 - radius**2)
    point = radius * up + along * ray
    got_lat, got_lon = rays.pierce(lat, lon, azimuth, elevation, radius, height)
    np.testing.assert_allclose(got_lat, np.degrees(np.arcsin(point[2] / (radius + height))), atol=1e-9)
    turn = np.degrees(np.arctan2(point[1], point[0])) - got_lon
    np.testing.assert_allclose((turn + 180) % 360 - 180, 0, atol=1e-9)
    cosine = (point * ray).sum(0) / (radius + height)
    np.testing.assert_allclose(rays.factor(elevation, radius, height), 1 / cosine, rtol=1e-12)


def test_modified_mapping():
    """1 / cos z' with sin z' = R / (R + 506.7) sin(0.9782 z), at an elevation of 30 degrees, by hand."""
    sine = 6371.0 / 6877.7 * np.sin(0.9782 * np.pi / 3)
    np.testing.assert_allclose(rays.factor(30, 6371.0, 450.0, "mslm"), 1 / np.sqrt(1 - sine**2), rtol=1e-14)
    with pytest.raises(ValueError, match="expected 'cosz' or 'mslm'"):
        rays.factor(30, 6371.0, 450.0, "chapman")


def test_straight_up_is_the_answer_itself(maps):
    answers, values = ionex.slant(maps, [10.0, -70.0], [20.0, -40.0], 0, [90, 90], TIME)
    assert values[0] == maps.ask(10, 20, TIME, method="sun").item()
    assert answers.refused.tolist() == [0, 22] and np.isnan(values[1])
    low = ionex.slant(maps, 10, 20, 123, [10, 30, 90], TIME).values
    assert low[0] > low[1] > low[2]
    assert np.isnan(ionex.slant(maps, 10, 20, 0, -1, TIME).values) and np.isnan(ionex.slant(maps, 10, 20, 0, np.nan, TIME).values)


def test_wrong_rays(maps):
    for wrong in ({"elevation": 91}, {"layer": 1}, {"layer": -1}, {"mapping": "none"}):
        given = {"lat": 10, "lon": 20, "azimuth": 0, "elevation": 30, "time": TIME, **wrong}
        with pytest.raises(ValueError):
            ionex.slant(maps, **given)
    with pytest.raises(TypeError, match="no slant"):
        ionex.slant(maps, 10, 20, 0, 30, TIME, kind="height")
    assert "NOT PROVED" in rays.__doc__
