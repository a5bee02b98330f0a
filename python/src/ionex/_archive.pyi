# The extension that cffi makes of include/ionex.h: its functions and numbers by their names there.
from typing import Any

ffi: Any
lib: Any
