"""What is raised if a call is refused."""
from __future__ import annotations

from . import _library as c

# The faults of a function file, as the program cmph names them.
FAULTS = {
    c.TRUNCATED: "truncated",
    c.BAD_MAGIC: "bad magic",
    c.BAD_ALGORITHM: "bad algorithm",
    c.BAD_FIELD: "bad field",
    c.BAD_PADDING: "bad padding",
    c.BAD_CELL: "bad cell",
    c.BAD_COUNT: "bad count",
    c.BAD_RANK: "bad rank",
    c.TRAILING: "trailing bytes",
}
# Those of which there is one place only, or none.
PLACELESS = {c.BAD_MAGIC, c.BAD_ALGORITHM, c.TRAILING}


class DumpError(ValueError):
    """The bytes are no function. `fault` says why, as the program cmph names it; `offset` is the byte, from 0, or None if the fault needs none."""

    def __init__(self, fault: str, offset: int | None = None) -> None:
        super().__init__(fault, offset)
        self.fault = fault
        self.offset = offset

    def __str__(self) -> str:
        return self.fault if self.offset is None else f"{self.fault} at {self.offset}"


class BuildError(ValueError):
    """There is no function of these keys: there are none, or too many, or two are equal, or no seed works."""


class EqualKeys(BuildError):
    """Two keys are equal: those of the indices `first` and `again`, from 0."""

    def __init__(self, first: int, again: int) -> None:
        super().__init__(first, again)
        self.first = first
        self.again = again

    def __str__(self) -> str:
        return f"key {self.again} is equal to key {self.first}"


def dump_error(code: int, at: int) -> Exception:
    """Why bytes are no function."""
    return DumpError(FAULTS[code], None if code in PLACELESS else at) if code in FAULTS else error(code, at)


def build_error(code: int, at: int, again: int) -> Exception:
    """Why keys have no function."""
    if code == c.EQUAL_KEYS:
        return EqualKeys(at, again)
    said = {
        c.NO_KEYS: "there are no keys",
        c.TOO_MANY_KEYS: f"more than {c.MOST_KEYS} keys",
        c.NO_SEED: "no seed works: a greater ratio or more tries may help",
        c.NO_SPLIT: "no seed splits the keys into small buckets: a smaller b or more tries may help",
    }
    return BuildError(said[code]) if code in said else error(code, at)


def error(code: int, at: int) -> Exception:
    """Why a call is refused that is neither an opening nor a build."""
    if code == c.MEMORY:
        return MemoryError("out of memory")
    said = {
        c.BAD_END: f"key {at} ends before it begins, or past the data, or has more than {c.MOST_KEY_BYTES} bytes",
        c.TOO_MANY_KEYS: f"more than {c.MOST_KEYS} keys",
        c.BAD_PLAN: "a number of the plan is out of its range: ratio is from 1 to 10, b by bdz from 3 to 10 and by brz from 64 to 700, tries from 1 to 1000",
        c.BAD_SHARDS: f"there are from 1 to {c.MOST_SHARDS} shards",
    }
    return ValueError(said[code]) if code in said else RuntimeError(f"libcmph_c returned code {code} at {at}")
