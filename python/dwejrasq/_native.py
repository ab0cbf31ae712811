"""The proved library, called through its own header: prototypes, constants and the words of each refusal are read from it.

Nothing of the format is said here a second time. A call that the header has is there under its name (``library.dwj_table``), and a constant
too. While a call runs, other threads do: cffi lets go of the interpreter.
"""

from __future__ import annotations

import os
import re
from pathlib import Path
from typing import Any

import numpy as np
import numpy.typing as npt

Bytes = npt.NDArray[np.uint8]

_PACKAGE = Path(__file__).resolve().parent


def _places() -> tuple[Path, Path, Path]:
    """Header, library and guard: those of the prefix that this module is installed in, or of the source tree that it stands in."""
    prefix, tree = _PACKAGE.parents[3], _PACKAGE.parents[1]
    for header, folder, guard in (
        (prefix / "include/dwejrasq.h", prefix / "lib", _PACKAGE / "guard.so"),
        (tree / "include/dwejrasq.h", tree / "target/native", tree / "target/native/guard.so"),
    ):
        library = folder / f"libdwejrasq.so.{_version(header)}"
        if library.exists() and guard.exists():
            return header, library, guard
    raise ImportError(
        f"the library isn't built: neither {prefix / 'lib'} nor {tree / 'target/native'} has libdwejrasq.so (run make, or make install)"
    )


def _version(header: Path) -> str:
    try:
        found = re.search(r'#define DWJ_VERSION "([^"]+)"', header.read_text(encoding="ascii"))
    except OSError:
        return ""
    return found.group(1) if found else ""


_header, _library, _guard = _places()
_text = _header.read_text(encoding="ascii")


def _declarations(text: str) -> str:
    """The header as cffi takes it: its prototypes, and those of its constants that are numbers."""
    text = re.sub(r"#ifdef __cplusplus.*?#endif", "", text, flags=re.DOTALL)
    lines = (line for line in text.splitlines() if not line.startswith("#") or re.fullmatch(r"#define DWJ_\w+ \d+", line))
    return "\n".join(lines)


_GUARD = "int guard_watch(const void *from, size_t length); int guard_cut(int number); void guard_forget(int number);"


def declared(path: str) -> None:
    """Stores what the header declares in a form that is loaded at once; make install calls it."""
    from cffi import FFI

    ready = FFI()
    ready.set_source("dwejrasq._declared", None)
    ready.cdef(_declarations(_text) + _GUARD)
    ready.emit_python_code(path)


def _ready() -> Any:
    try:
        from ._declared import ffi  # type: ignore[import]
    except ImportError:
        from cffi import FFI

        ffi = FFI()
        ffi.cdef(_declarations(_text) + _GUARD)
    return ffi


ffi: Any = _ready()

library: Any = ffi.dlopen(str(_library))
guard: Any = ffi.dlopen(str(_guard))

VERSION = _version(_header)

# The header's table of refusals, a line each.
FAULTS: dict[int, str] = {
    int(number): words for number, words in re.findall(r"^ \*\s+(\d+)  (\S.*)$", _text.split("What a caller must see to")[0], flags=re.MULTILINE)
}

LIBRARY = os.fspath(_library)


def pointer(data: Bytes) -> Any:
    """Where an array's bytes are, for a call; whoever asks keeps the array. It isn't null even where there are none."""
    return ffi.cast("uint8_t *", data.ctypes.data)


def lent(buffer: Any, kind: str = "uint8_t[]") -> Any:
    """A buffer's own memory, for a call; a pointer that isn't null even where it is empty."""
    return ffi.from_buffer(kind, buffer)


def places() -> tuple[Any, Any]:
    """Two numbers for a call to write into."""
    return ffi.new("uint64_t *"), ffi.new("uint64_t *")
