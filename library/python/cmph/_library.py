"""The shared library: its structs and calls, as library/cmph_c.h declares them."""
import ctypes
import os
from ctypes import c_size_t, c_uint32, c_uint64, c_void_p
from pathlib import Path
from typing import Any

FILE = "libcmph_c.so.1"

VERSION = 20_000
"""The version of the header: major * 10,000 + minor * 100 + patch."""

NONE = 0xFFFFFFFF
"""The number that stands for none."""

MOST_KEYS = 67_108_864
MOST_KEY_BYTES = 65_535
MOST_SHARDS = 671_088_645

# The codes.
OK = 0
MEMORY = 1
TRUNCATED = 2
BAD_MAGIC = 3
BAD_ALGORITHM = 4
BAD_FIELD = 5
BAD_PADDING = 6
BAD_CELL = 7
BAD_COUNT = 8
BAD_RANK = 9
TRAILING = 10
NO_FUNCTION = 11
BAD_END = 12
TOO_MANY_KEYS = 13
NO_ROOM = 14
BAD_PLAN = 15
NO_KEYS = 16
EQUAL_KEYS = 17
NO_SEED = 18
BAD_SHARDS = 19
NO_SPILL = 20
NO_SPLIT = 21

ALGORITHMS = {1: "chm", 2: "bdz", 3: "bdz_ph", 4: "brz"}


class CPlace(ctypes.Structure):
    """cmph_c_place: where a fault is."""

    _fields_ = [("at", c_uint64), ("again", c_uint64)]


class CFunction(ctypes.Structure):
    """cmph_c_function: a function, in bytes that are kept beside it."""

    _fields_ = [
        ("cells", c_void_p),
        ("cells_len", c_size_t),
        ("ranks", c_void_p),
        ("ranks_len", c_size_t),
        ("index", c_void_p),
        ("index_len", c_size_t),
        ("scaled", c_uint64),
        ("keys_scaled", c_uint64),
        ("kind", c_uint32),
        ("keys", c_uint32),
        ("span", c_uint32),
        ("ratio", c_uint32),
        ("seed", c_uint32),
        ("size", c_uint32),
        ("width", c_uint32),
        ("b", c_uint32),
    ]


class CPlan(ctypes.Structure):
    """cmph_c_plan: how a function is built."""

    _fields_ = [(name, c_uint32) for name in ("algorithm", "ratio", "b", "seed", "tries")]


def _path() -> str:
    beside = Path(__file__).with_name(FILE)
    return os.environ.get("CMPH_C_LIBRARY") or (str(beside) if beside.exists() else FILE)


def _bind(library: ctypes.CDLL, name: str, result: Any, *types: Any) -> Any:
    try:
        call = getattr(library, name)
    except AttributeError:
        raise ImportError(f"cmph: {_path()} has no {name}: it is another version of the library") from None
    call.restype, call.argtypes = result, types
    return call


try:
    # Calls over many keys let other threads run; one key is looked up in less time than that takes.
    _many, _one = ctypes.CDLL(_path()), ctypes.PyDLL(_path())
except OSError as _error:
    raise ImportError(f"cmph: the library is not loaded: {_error}. The environment variable CMPH_C_LIBRARY may name its file") from _error

_BYTES = _ENDS = _NUMBERS = (c_void_p, c_size_t)
_PLACE = ctypes.POINTER(CPlace)

c_version = _bind(_one, "cmph_c_version", c_uint32)
c_open = _bind(_many, "cmph_c_open", c_uint32, *_BYTES, *_NUMBERS, ctypes.POINTER(CFunction), _PLACE)
c_answer = _bind(_one, "cmph_c_answer", c_uint32, c_void_p, ctypes.c_char_p, c_size_t)
c_answers = _bind(_many, "cmph_c_answers", c_uint32, c_void_p, *_BYTES, *_ENDS, *_NUMBERS, _PLACE)
c_room = _bind(_many, "cmph_c_room", c_uint64, ctypes.POINTER(CPlan), c_uint32)
c_build = _bind(_many, "cmph_c_build", c_uint32, *_BYTES, *_ENDS, ctypes.POINTER(CPlan), *_BYTES, ctypes.POINTER(c_uint64), _PLACE)
c_build_brz = _bind(
    _many, "cmph_c_build_brz", c_uint32, *_BYTES, *_ENDS, ctypes.POINTER(CPlan), *_BYTES, *_BYTES, ctypes.POINTER(c_uint64), _PLACE
)
c_route = _bind(_many, "cmph_c_route", c_uint32, *_BYTES, *_ENDS, c_uint32, c_uint32, *_NUMBERS, _PLACE)


def library_version() -> "tuple[int, int, int]":
    """The version of the C library that is loaded: (2, 0, 0) for 2.0.0. That of the package is `__version__`."""
    version = c_version()
    return version // 10_000, version // 100 % 100, version % 100
