"""Only what pyproject.toml cannot say: the extension and the words are made on the way, for every CPython from 3.9 on."""
import sys
from pathlib import Path

from setuptools import setup
from setuptools.command.build_py import build_py

sys.path.insert(0, str(Path(__file__).resolve().parent))
from build_ffi import write_words  # noqa: E402


class WithWords(build_py):
    def run(self) -> None:
        super().run()
        write_words(Path(self.build_lib) / "ionex")


setup(
    cffi_modules=["build_ffi.py:ffi"],
    cmdclass={"build_py": WithWords},
    options={"bdist_wheel": {"py_limited_api": "cp39"}},
)
