#!/usr/bin/env python3
"""Makes every drawing of the documents.

    bench/drawings.py [--check] [CMPH CMPH_STORE CMPH_SHARDS]

The programs are those of bin if none are given: some drawings show what real runs of them leave (bench/draw.py, draw_shards.py and draw_bytes.py). Others are
made from bench/results (plots.py), from crates.txt (house.py), or worked out (draw_peeling.py).

With --check nothing is written. Each drawing below docs/ is a case that fails if it is not what would be written, or if nothing here makes it. The last line is
'N passed, M failed', and the status is 1 if a case failed.
"""

import subprocess
import sys
from pathlib import Path
from typing import Callable

import draw
import draw_bytes
import draw_peeling
import draw_shards
import house
import plots

TOP = Path(__file__).resolve().parent.parent
CRATES = TOP / "docs" / "believe" / "crates.svg"
PROGRAMS = ["cmph", "cmph_store", "cmph_shards"]
FAULTS = (draw.Differs, house.Refused, subprocess.CalledProcessError, OSError, ValueError, LookupError)


def makers(cmph: Path, store: Path, shards: Path) -> dict[Path, Callable[[], str]]:
    """What makes each drawing."""
    return {
        draw.DRAWING: lambda: draw.drawn(str(cmph)),
        draw_shards.DRAWING: lambda: draw_shards.drawn(cmph, shards),
        draw_bytes.STORE_DRAWING: lambda: draw_bytes.drawn_store(cmph, store),
        draw_bytes.MANIFEST_DRAWING: lambda: draw_bytes.drawn_manifest(cmph, shards),
        draw_peeling.DRAWING: draw_peeling.drawn,
        CRATES: house.drawn,
        **{path: lambda drawing=drawing: drawing for path, drawing in plots.drawings().items()},
    }


def fault_of(path: Path, make: Callable[[], str] | None, write: bool) -> str:
    """What is wrong with a drawing, or nothing. It is written if that is asked for."""
    if make is None:
        return "no script makes it"
    try:
        drawing = make()
    except FAULTS as fault:
        return f"cannot be made: {fault}"
    if path.exists() and path.read_text() == drawing:
        return ""
    if not write:
        return "differs from what bench/drawings.py makes"
    path.write_text(drawing)
    print(f"{path.relative_to(TOP)}: written")
    return ""


def main() -> int:
    check = sys.argv[1:2] == ["--check"]
    given = sys.argv[2:] if check else sys.argv[1:]
    if len(given) not in (0, 3):
        print(__doc__)
        return 2
    made = makers(*(Path(path).resolve() for path in given or (TOP / "bin" / name for name in PROGRAMS)))
    paths = sorted({*made, *(TOP / "docs").rglob("*.svg")})
    faults = {path: fault_of(path, made.get(path), not check) for path in paths}
    for path, fault in faults.items():
        if fault:
            print(f"{path.relative_to(TOP)}: {fault}")
    failed = sum(map(bool, faults.values()))
    print(f"{len(faults) - failed} passed, {failed} failed")
    return 1 if failed else 0


if __name__ == "__main__":
    sys.exit(main())
