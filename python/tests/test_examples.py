"""What the papers show is run: the first lines of README, and the notebook."""
import gzip
import json
import re

import numpy as np
import pytest
from conftest import ROOT

import ionex

README = (ROOT / "python" / "README.md").read_text()


def code(paper):
    """The blocks of a paper, indented by four columns."""
    blocks = re.findall(r"(?:^    .*\n)(?:^(?:    .*)?\n)*", paper, flags=re.M)
    return ["\n".join(line[4:] for line in block.splitlines()) for block in blocks]


def without_windows():
    matplotlib = pytest.importorskip("matplotlib", reason="python3-matplotlib is not installed")
    pytest.importorskip("xarray", reason="python3-xarray is not installed")
    matplotlib.use("Agg")


def test_the_first_lines_of_readme(day_text, maps, tmp_path, monkeypatch):
    without_windows()
    pytest.importorskip("netCDF4", reason="python3-netcdf4 is not installed")
    monkeypatch.chdir(tmp_path)
    (tmp_path / "codg3380.10i.Z").write_bytes(gzip.compress(day_text))
    names = {"lats": np.array([[10.0], [20.0]]), "lons": np.arange(3.0), "times": "2010-12-04T06:30:00"}
    lines = code(README)[0]
    assert len(lines.strip().splitlines()) == 8
    exec(lines, names)
    assert names["answers"].values.shape == (2, 3) and names["answers"].ok.all()
    assert ionex.MapSet.from_netcdf("day.nc") == maps


def test_own_maps_and_thousands_of_files_in_readme(day_text, maps, tmp_path, monkeypatch, capsys):
    monkeypatch.chdir(tmp_path)
    blocks = code(README)
    own = next(block for block in blocks if "from_arrays" in block)
    names = {"ionex": ionex, "tec": maps.tec, "rms": maps.rms}
    names.update(epochs=maps.epochs, latitudes=maps.latitudes, longitudes=maps.longitudes)
    exec(own, names)
    assert ionex.MapSet.read("ours.inx").descriptions == ("how they were made",)
    many = next(block for block in blocks if "archive.check" in block)
    (tmp_path / "cut.inx").write_bytes(day_text.splitlines(keepends=True)[0])
    names = {"paths": ["ours.inx", "cut.inx"], "executor": None}
    exec(many, names)
    assert capsys.readouterr().out.startswith("cut.inx:2:0: refused 10") and names["totals"].accepted == 1


def test_the_refusal_in_readme(monkeypatch):
    monkeypatch.chdir(ROOT / "tests" / "examples")
    with pytest.raises(ionex.Refusal) as found:
        ionex.MapSet.read("refused-07.inx")
    block = next(block for block in code(README) if "refused-07.inx" in block)
    assert block.strip().split("\n", 1)[1] == f"ionex.refusal.Refusal: {found.value}"


def test_the_notebook(tmp_path, monkeypatch, capsys):
    without_windows()
    monkeypatch.chdir(tmp_path)
    cells = json.loads((ROOT / "python" / "examples" / "day.ipynb").read_text())["cells"]
    names = {}
    for cell in cells:
        if cell["cell_type"] == "code":
            exec("".join(cell["source"]), names)
    page = (ROOT / "python" / "examples" / "day.html").read_text()
    told = capsys.readouterr().out
    # The page that is kept says what the notebook says.
    assert "rounded once: 60.500 TECU" in told and all(line in page for line in told.splitlines() if "TECU" in line)
    assert "data:image/png;base64," in page and "<b>IONEX map set</b>" in page
