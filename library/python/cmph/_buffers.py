"""Memory that calls read and write. A view keeps its bytes where they are for as long as it is kept itself."""
from __future__ import annotations

import ctypes
from array import array
from itertools import accumulate
from typing import TYPE_CHECKING, Any, Iterable, Union

try:
    import numpy
except ImportError:
    numpy = None  # type: ignore[assignment]

if TYPE_CHECKING:
    from numpy.typing import NDArray
    from typing_extensions import Buffer

    Numbers = Union[NDArray[numpy.uint32], "array[int]"]

NOWHERE = 8
"""Where no bytes are: an address that is not null, and a multiple of each alignment."""


class _PyBuffer(ctypes.Structure):
    """Py_buffer."""

    _fields_ = [
        ("buf", ctypes.c_void_p),
        ("obj", ctypes.c_void_p),
        ("len", ctypes.c_ssize_t),
        ("itemsize", ctypes.c_ssize_t),
        ("readonly", ctypes.c_int),
        ("ndim", ctypes.c_int),
        ("format", ctypes.c_char_p),
        ("shape", ctypes.c_void_p),
        ("strides", ctypes.c_void_p),
        ("suboffsets", ctypes.c_void_p),
        ("internal", ctypes.c_void_p),
    ]


# Functions of our own: the attributes of pythonapi are those of the whole process.
_get = ctypes.pythonapi["PyObject_GetBuffer"]
_get.restype, _get.argtypes = ctypes.c_int, (ctypes.py_object, ctypes.POINTER(_PyBuffer), ctypes.c_int)
_release = ctypes.pythonapi["PyBuffer_Release"]
_release.restype, _release.argtypes = None, (ctypes.POINTER(_PyBuffer),)


def address(view: memoryview) -> int:
    """Where the bytes of a contiguous view are: never null."""
    if not view.nbytes:
        return NOWHERE
    found = _PyBuffer()
    _get(view, ctypes.byref(found), 0)
    try:
        return found.buf
    finally:
        _release(ctypes.byref(found))


def _view(source: Any, name: str, what: str, formats: str | None, item: int) -> memoryview:
    """The view of a contiguous array in one dimension, whose items have a format and a length in bytes; else a TypeError."""
    try:
        view = memoryview(source)
    except TypeError:
        raise TypeError(f"{name} is {what}, not {type(source).__name__}") from None
    except ValueError:
        if numpy is None or not isinstance(source, numpy.ndarray):
            raise
        # numpy shows no one the bytes of dates
        raise TypeError(f"{name} is {what}, not an array of {source.dtype}") from None
    form = view.format.lstrip("@=<")
    good = view.itemsize == item and (formats is None or form in tuple(formats))
    if not good or view.ndim != 1 or not view.c_contiguous or address(view) % item:
        raise TypeError(f"{name} is {what}, contiguous and in one dimension, not one of format {view.format!r}, shape {view.shape} and strides {view.strides}")
    return view


def bytes_view(source: Buffer, name: str) -> memoryview:
    """Of uint8."""
    return _view(source, name, "bytes, or another array of uint8", None, 1)


def ends_view(source: Buffer) -> memoryview:
    """Of uint64. The bits of an int64 will do: those of a negative end are past any data."""
    return _view(source, "ends", "an array of uint64", "QLql", 8)


def numbers_view(out: Buffer, count: int, *read: memoryview) -> memoryview:
    """Of uint32, as many as there are keys, to be written; nothing that is read is in it."""
    view = _view(out, "out", "an array of uint32", "IL", 4)
    if view.readonly:
        raise TypeError("out is read-only")
    if len(view) != count:
        raise ValueError(f"out has room for {len(view)} numbers, and there are {count} keys")
    begin, end = address(view), address(view) + view.nbytes
    if any(begin < address(other) + other.nbytes and address(other) < end for other in read):
        raise ValueError("out overlaps what is read")
    return view


def new_numbers(count: int) -> Numbers:
    """An array of uint32: of numpy where it is there."""
    return array("I", [0]) * count if numpy is None else numpy.empty(count, numpy.uint32)


def plain_key(key: Any) -> bytes:
    """The bytes of a key of a class that is derived from bytes."""
    if not isinstance(key, bytes):
        raise TypeError(f"a key is bytes, not {type(key).__name__}")
    return bytes(memoryview(key))


def join_keys(keys: Iterable[bytes]) -> tuple[bytes, array[int]]:
    """Keys one after another, and the end of each."""
    if not isinstance(keys, (list, tuple)):
        keys = list(keys)
    for kind in set(map(type, keys)):
        if not issubclass(kind, bytes):
            raise TypeError(f"a key is bytes, not {kind.__name__}")
    return b"".join(keys), array("Q", accumulate(map(len, keys)))
