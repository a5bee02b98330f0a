"""Makes ionex._archive, the library linked into an extension, and ionex/_words.py, its refusals in words.

Nothing is written a second time here: the declarations are those of include/ionex.h, which the C compiler compares once more, and
the words are those of the crate for Rust. IONEX_LIB may name the folder of libionex.a, as for `./build library`.
"""
import os
import re
from pathlib import Path

from cffi import FFI

ROOT = Path(__file__).resolve().parent.parent
INCLUDE = ROOT / "include"
ARCHIVE = Path(os.environ.get("IONEX_LIB", ROOT / "target" / "staticlib")) / "libionex.a"
REFUSALS = ROOT / "rust" / "src" / "refusal.rs"


def declarations(header: str) -> str:
    """What cffi can read of the header file: its enums, its functions and its plain numbers."""
    text = re.sub(r"/\*.*?\*/", "", header, flags=re.S)
    text = re.sub(r"#ifdef __cplusplus.*?#endif", "", text, flags=re.S)
    numbers = re.findall(r"^#define (\w+) (?:\d+|UINT64_C\(\d+\))\s*$", text, flags=re.M)
    text = re.sub(r"^#.*(?:\\\n.*)*$", "", text, flags=re.M)
    return "".join(f"#define {name} ...\n" for name in numbers) + text


def meanings(crate: str) -> dict[int, str]:
    """The refusals by number as the crate says them, each in a few words."""
    count, table = re.search(r"const MEANINGS: \[\(u64, &str\); (\d+)\] = \[(.*?)\n\];", crate, flags=re.S).groups()
    rows = re.findall(r'\((\d+), "((?:[^"\\]|\\\n)*)"\)', table)
    found = {int(number): re.sub(r"\\\n\s*", "", words) for number, words in rows}
    if len(found) != int(count):
        raise SystemExit(f"{REFUSALS}: {count} refusals, and {len(found)} can be read")
    return found


def write_words(folder: Path) -> None:
    rows = "".join(f"    {number}: {words!r},\n" for number, words in meanings(REFUSALS.read_text()).items())
    module = f'"""Refusals in words, from the crate for Rust: made by build_ffi.py."""\nMEANINGS: dict[int, str] = {{\n{rows}}}\n'
    (folder / "_words.py").write_text(module)


if not ARCHIVE.is_file():
    raise SystemExit(f"there is no {ARCHIVE}: make it by `./build library`, or name its folder in IONEX_LIB")

ffi = FFI()
ffi.cdef(declarations((INCLUDE / "ionex.h").read_text()))
ffi.set_source(
    "ionex._archive",
    '#include "ionex.h"',
    include_dirs=[str(INCLUDE)],
    extra_objects=[str(ARCHIVE)],
    py_limited_api=True,
)
