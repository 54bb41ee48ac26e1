"""Functions in the bytes of their files."""
from __future__ import annotations

import os
from array import array
from ctypes import addressof, byref
from typing import TYPE_CHECKING, Any, Iterable, TypeVar, Union, overload

from . import _buffers as buffers
from . import _errors as errors
from . import _mapping as mapping
from ._library import ALGORITHMS, NO_ROOM, NONE, OK, CFunction, CPlace, c_answer, c_answers, c_open

if TYPE_CHECKING:
    from typing_extensions import Buffer

    Source = Union[str, "os.PathLike[str]", Buffer]
    T = TypeVar("T")


def _bytes_of(source: Source) -> memoryview:
    """The bytes of a file, mapped into memory, or those of the caller's."""
    if not isinstance(source, (str, os.PathLike)):
        return buffers.bytes_view(source, "source")
    with open(source, "rb") as file:
        length = os.fstat(file.fileno()).st_size
        # an empty file has no map, nor has a pipe
        return mapping.mapped(file.fileno(), length) if length else memoryview(file.read())


def _open(dump: memoryview) -> tuple[CFunction, memoryview]:
    """The struct of a function, and the index that it points into."""
    out, place = CFunction(cells=buffers.NOWHERE, ranks=buffers.NOWHERE, index=buffers.NOWHERE), CPlace()
    # by brz the first try says how many numbers the index has, one for each bucket
    for _ in range(2):
        index = memoryview(array("Q", [0]) * place.at)
        code = c_open(buffers.address(dump), dump.nbytes, buffers.address(index), len(index), byref(out), byref(place))
        if code != NO_ROOM:
            break
    if code != OK:
        raise errors.dump_error(code, place.at)
    return out, index


class Function:
    """
    A perfect hash function, in the bytes of its file.

    `source` is the path of the file, which is mapped into memory and closed, or an object that has the bytes: bytes, bytearray, memoryview, mmap, or a
    contiguous array of uint8. It is not copied, and stays in memory as long as the function. Bytes that are no function raise DumpError.

    All calls may run in many threads at once. A file that is cut short while it is mapped ends the process when it is read, so replace it by
    another, and don't write over it.
    """

    __slots__ = ("_at", "_dump", "_index", "_struct", "__weakref__")

    # A function holds no keys: it cannot say whether it has one, nor list them.
    __contains__ = None
    __iter__ = None

    def __init__(self, source: Source) -> None:
        dump = _bytes_of(source)
        struct, index = _open(dump)
        self._dump, self._index, self._struct, self._at = dump, index, struct, addressof(struct)

    def __len__(self) -> int:
        """How many keys the function was built over."""
        return self._struct.keys

    @property
    def span(self) -> int:
        """All numbers are below it."""
        return self._struct.span

    @property
    def algorithm(self) -> str:
        """'chm', 'bdz', 'bdz_ph' or 'brz'."""
        return ALGORITHMS[self._struct.kind]

    def __repr__(self) -> str:
        return f"<cmph.Function by {self.algorithm} of {len(self)} keys>"

    def __getitem__(self, key: bytes) -> int:
        """The number of a key, or KeyError if it has none. Each key of the function has a number of its own; another key may have any."""
        if type(key) is not bytes:
            key = buffers.plain_key(key)
        number = c_answer(self._at, key, len(key))
        if number == NONE:
            raise KeyError(key)
        return number

    @overload
    def get(self, key: bytes) -> int | None: ...
    @overload
    def get(self, key: bytes, default: T) -> int | T: ...
    def get(self, key: bytes, default: Any = None) -> Any:
        """The number of a key, or the default if it has none."""
        if type(key) is not bytes:
            key = buffers.plain_key(key)
        number = c_answer(self._at, key, len(key))
        return default if number == NONE else number

    def many(self, keys: Iterable[bytes]) -> buffers.Numbers:
        """
        The numbers of keys, in their order: an array of uint32, shape (keys,), with NONE for a key that has no number. It is of numpy where
        that is there, else an array.array('I').
        """
        return self.arrays(*buffers.join_keys(keys))

    def arrays(self, data: Buffer, ends: Buffer, out: Buffer | None = None) -> buffers.Numbers:
        """
        The numbers of keys that stand one after another.

        data: uint8, shape (bytes,), or any object that has bytes. ends: uint64, shape (keys,). Key i is data[ends[i - 1]:ends[i]], and key 0
        is data[:ends[0]]. out: uint32, shape (keys,), gets the numbers and is returned; without it there is a new array, as in `many`.
        Ends that fall, or are past the data, or make a key of more than 65,535 bytes, raise ValueError, and out stays as it was.
        """
        keys, cuts = buffers.bytes_view(data, "data"), buffers.ends_view(ends)
        numbers = buffers.new_numbers(len(cuts)) if out is None else out
        room = buffers.numbers_view(numbers, len(cuts), keys, cuts, self._dump)
        place, at = CPlace(), buffers.address
        code = c_answers(self._at, at(keys), keys.nbytes, at(cuts), len(cuts), at(room), len(room), byref(place))
        if code != OK:
            raise errors.error(code, place.at)
        return numbers
