"""What the scripts that make a paper from the sources have in common."""
import atexit
import re
import shutil
import subprocess
import sys
import tempfile
from pathlib import Path

ROOT = Path(__file__).resolve().parent.parent
LEFT = ROOT / "PORTING-LEFT.md"
LINE = re.compile(r"^([a-z0-9_]+)(?: staticlib)?:.*$", re.M)


def whole():
    """The folder of crates/ and crates.txt; while PORTING-LEFT.md is there, a copy with the crates still to come as its commit has them."""
    if not LEFT.exists():
        return ROOT
    commit = re.search(r"\b[0-9a-f]{40}\b", LEFT.read_text())
    folder = Path(tempfile.mkdtemp())
    atexit.register(shutil.rmtree, folder)
    packed = subprocess.run(["git", "archive", commit[0] if commit else "", "crates", "crates.txt"], cwd=ROOT, capture_output=True)
    if packed.returncode:
        raise SystemExit("PORTING-LEFT.md names no commit that is here")
    subprocess.run(["tar", "-x", "-C", folder], input=packed.stdout, check=True)
    here = {line[1]: line[0] for line in LINE.finditer((ROOT / "crates.txt").read_text())}
    for crate in here:
        shutil.rmtree(folder / "crates" / crate, ignore_errors=True)
        shutil.copytree(ROOT / "crates" / crate, folder / "crates" / crate, ignore=shutil.ignore_patterns("out"))
    listed = (folder / "crates.txt").read_text()
    (folder / "crates.txt").write_text(LINE.sub(lambda line: here.get(line[1], line[0]), listed))
    return folder


SOURCES = whole()


def crates():
    """The crates, bottom up."""
    return [line[1] for line in LINE.finditer((SOURCES / "crates.txt").read_text())]


def serve(script, papers, shown, said):
    """Without a word print the text; --write puts each paper in its place; --check fails where one is not as the sources have it."""
    if sys.argv[1:] == ["--write"]:
        for paper, text in papers.items():
            paper.write_text(text)
    elif sys.argv[1:] == ["--check"]:
        print(said)
        for paper, text in papers.items():
            if not paper.exists() or paper.read_text() != text:
                raise SystemExit(f"{paper.relative_to(ROOT)} is not as the sources have it: {script} --write")
    else:
        print(shown, end="")
