"""
Perfect hash functions: each key that a function was built over has a number of its own.

A function is opened in the bytes of its file, which the program `cmph` or `build` makes, and asked for the numbers of keys:

    >>> import cmph
    >>> f = cmph.Function(cmph.build([b"ant", b"bee", b"cat"], "chm"))
    >>> f[b"bee"]
    1

Keys are bytes. Another key than those of the function has any number, or none: a function holds no keys.
"""
from ._building import build, build_arrays, route, route_arrays
from ._errors import BuildError, DumpError, EqualKeys
from ._function import Function
from ._library import NONE, library_version

__version__ = "2.0.0"
__all__ = ["NONE", "BuildError", "DumpError", "EqualKeys", "Function", "build", "build_arrays", "library_version", "route", "route_arrays"]

# Names as users write them, in tracebacks.
for _kind in (BuildError, DumpError, EqualKeys, Function):
    _kind.__module__ = __name__
del _kind
