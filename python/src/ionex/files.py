"""Files as centres give them out: plain, gzip (.gz) or compress (.Z)."""
from __future__ import annotations

import io
import os
import shutil
import stat
import subprocess
import tempfile
import threading
from typing import Any, Optional, Union

# No accepted text is near this long: more is neither read nor unpacked.
LONGEST = 1 << 28

GZIP, COMPRESS = b"\x1f\x8b", b"\x1f\x9d"
# How gzip ends where all was unpacked and something stands behind it, as blocks of tapes do.
WARNED = 2

Source = Union[str, bytes, "os.PathLike[str]", "os.PathLike[bytes]", bytearray, memoryview, io.IOBase]


def source(given: Any) -> tuple[bytes, Optional[str]]:
    """The text of a path, of bytes, or of a file open for reading bytes, and the file's name. Packed ones are unpacked."""
    if isinstance(given, (bytes, bytearray, memoryview)):
        return unpacked(bytes(given), "the bytes"), None
    if hasattr(given, "read"):
        name = getattr(given, "name", None)
        name = name if isinstance(name, str) else None
        return unpacked(_all(given, name or "the file"), name or "the file"), name
    name = os.fsdecode(os.fspath(given))
    return unpacked(_content(name), name), name


def _content(name: str) -> bytes:
    """The bytes of a file. Of a plain file just as much memory is taken as it is long; of a pipe nobody knows that before."""
    with open(name, "rb", buffering=0) as file:
        found = os.fstat(file.fileno())
        if stat.S_ISREG(found.st_mode) and found.st_size <= LONGEST:
            return file.readall()
        with io.BufferedReader(file) as buffered:
            return _all(buffered, name)


def _all(file: Any, name: str) -> bytes:
    data = file.read(LONGEST + 1)
    if not isinstance(data, bytes):
        raise TypeError(f"{name}: expected bytes, found {type(data).__name__}: open it with mode 'rb'")
    if len(data) > LONGEST:
        raise ValueError(f"{name}: more than {LONGEST} bytes")
    return data


def unpacked(data: bytes, name: str) -> bytes:
    """Bytes as they are, or unpacked by the program gzip, which knows both forms."""
    if data[:2] not in (GZIP, COMPRESS):
        return data
    with tempfile.TemporaryFile() as packed:
        packed.write(data)
        packed.seek(0)
        command = ["gzip", "-dc"]
        with subprocess.Popen(command, stdin=packed, stdout=subprocess.PIPE, stderr=subprocess.PIPE) as gzip:
            assert gzip.stdout is not None and gzip.stderr is not None
            text = gzip.stdout.read(LONGEST + 1)
            if len(text) > LONGEST:
                gzip.kill()
                raise ValueError(f"{name}: more than {LONGEST} bytes when unpacked")
            fault = gzip.stderr.read().decode(errors="replace").strip()
    if gzip.returncode not in (0, WARNED):
        raise ValueError(f"{name}: {fault or 'cannot be unpacked'}")
    return text


def replace(path: Any, content: bytes) -> None:
    """Writes a file whole, or leaves it as it was. A link stays a link, and a pipe or device is written to directly."""
    name = os.path.realpath(os.fsdecode(os.fspath(path)))
    stands = os.path.exists(name)
    if stands and not os.path.isfile(name):
        with open(name, "wb") as file:
            file.write(content)
        return
    draft = f"{name}.{os.getpid()}.{threading.get_ident()}.part"
    try:
        with open(draft, "xb") as file:
            file.write(content)
            file.flush()
            os.fsync(file.fileno())
        if stands:
            shutil.copymode(name, draft)
        os.replace(draft, name)
    except BaseException:
        if os.path.exists(draft):
            os.unlink(draft)
        raise
