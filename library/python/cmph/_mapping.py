"""
Files in memory, by the system's mmap itself. That of Python keeps a descriptor for each map before 3.13, so a process would have as many
functions as it may have files.
"""
from __future__ import annotations

import ctypes
import mmap
import os
import weakref

# A handle of our own: the types of its calls are no one else's.
_libc = ctypes.CDLL(None, use_errno=True)
_map, _unmap = _libc["mmap"], _libc["munmap"]
_map.restype = ctypes.c_void_p
_map.argtypes = (ctypes.c_void_p, ctypes.c_size_t, ctypes.c_int, ctypes.c_int, ctypes.c_int, ctypes.c_long)
_unmap.restype, _unmap.argtypes = ctypes.c_int, (ctypes.c_void_p, ctypes.c_size_t)

FAILED = ctypes.c_void_p(-1).value


def mapped(file: int, length: int) -> memoryview:
    """The bytes of an open file of this length, above 0, to be read. They stay in memory as long as the view, and the file may be closed."""
    at = _map(None, length, mmap.PROT_READ, mmap.MAP_SHARED, file, 0)
    if at == FAILED:
        code = ctypes.get_errno()
        raise OSError(code, os.strerror(code))
    whole = (ctypes.c_ubyte * length).from_address(at)
    # At the end of the process other threads may still read, and the system unmaps everything.
    weakref.finalize(whole, _unmap, at, length).atexit = False
    return memoryview(whole).toreadonly()
