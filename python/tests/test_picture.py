"""What notebooks show."""
import html.parser
import io

import numpy as np
import pytest
from conftest import accepted

import ionex
from ionex.picture import coasts


class Cells(html.parser.HTMLParser):
    """The words of a table, by rows; nothing but a table may stand there."""

    def __init__(self):
        super().__init__()
        self.rows, self.tags = [], set()

    def handle_starttag(self, tag, attrs):
        self.tags.add(tag)
        if tag == "tr":
            self.rows.append([])

    def handle_data(self, data):
        if self.rows:
            self.rows[-1].append(data)


def cells(maps):
    found = Cells()
    found.feed(maps._repr_html_())
    assert found.tags == {"table", "caption", "b", "tr", "th", "td"}
    return {name: words for name, words in found.rows}


def test_table(maps):
    told = cells(maps)
    assert told["version"] == "1.1, GNS" and told["run by"] == "centre" and told["description"] == "values are made up"
    assert told["maps"].startswith("25 TEC (3.000 to ") and "25 RMS (" in told["maps"] and "height" not in told["maps"]
    assert told["epochs"] == "2010-12-04 00:00:00 to 2010-12-05 00:00:00, every 3600 s"
    assert told["latitudes"] == "87.5° to -87.5° by -2.5°, 71 rows" and told["heights"] == "450.0 km"
    for path in accepted():
        assert cells(ionex.MapSet.read(path))["epochs"]


def test_a_file_cannot_put_markup_into_a_notebook():
    spoilt = ["<script>alert(1)</script>", "<img src=x onerror=alert(1)>", "&lt; \"'"]
    maps = ionex.MapSet.from_arrays(np.zeros((1, 1, 1)), ["2000-01-01"], 0, 0, program="<b>x</b>", descriptions=spoilt)
    told = cells(maps)
    assert told["description"] == "\n".join(spoilt) and told["program"] == "<b>x</b>"


def test_coasts():
    lines = coasts()
    points = np.concatenate(lines)
    assert len(lines) > 100 and (np.abs(points[:, 0]) <= 180).all() and (np.abs(points[:, 1]) <= 90).all()


def test_plot(maps):
    matplotlib = pytest.importorskip("matplotlib", reason="python3-matplotlib is not installed")
    matplotlib.use("Agg")
    import matplotlib.pyplot as plt

    axes = maps.plot("2010-12-04T06:30:00", method="sun")
    assert axes.get_title() == "TEC, 2010-12-04 06:30:00 UT"
    mesh = axes.collections[0]
    lats = np.append(np.arange(-87.5, 87.5), 87.5)
    lons = np.append(np.arange(-180.0, 180.0), 180.0)
    expected = maps.ask(lats[:, None], lons, "2010-12-04T06:30:00", method="sun").values
    np.testing.assert_array_equal(np.ma.filled(mesh.get_array().reshape(expected.shape), np.nan), expected)
    assert len(axes.lines) == 3 * len(coasts()) and axes.get_xlim() == (-180, 180)
    picture = io.BytesIO()
    axes.figure.savefig(picture, format="png")
    assert picture.getvalue().startswith(b"\x89PNG") and len(picture.getvalue()) > 20_000
    own = plt.figure().add_subplot()
    assert maps.plot(ax=own, kind="rms", coast=False, cmap="magma") is own
    assert own.get_title() == "RMS of the TEC, 2010-12-04 00:00:00 UT" and not own.lines
    zoned = maps.plot("2010-12-04T08:30:00+02:00", layer=0)
    assert zoned.get_title() == "TEC, 2010-12-04 06:30:00 UT"
    for path in accepted():
        ionex.MapSet.read(path).plot()
    with pytest.raises(ValueError, match="expected one of"):
        maps.plot(method="linear")
    with pytest.raises(ValueError, match="one time"):
        maps.plot(maps.epochs)
    plt.close("all")
