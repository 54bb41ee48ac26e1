#!/usr/bin/env python3
"""Compares the release with what the gate built: where its PROOF names the sources of this tree and this kit, its programs and the archive of its library must have the same
bytes, program by program. Its sums must hold in any case.

    tests/release.py [FOLDER]     release/ if it is left out

The last line is 'N passed, M failed', with what was skipped after it.
"""
import sys
import tarfile
import tempfile
from pathlib import Path

from counting import case, close, skipped

TOP = Path(__file__).resolve().parent.parent
sys.path.insert(0, str(TOP / "tools"))

import gated  # noqa: E402
import link  # noqa: E402
import proof  # noqa: E402
import sources  # noqa: E402

RELEASE = Path(sys.argv[1] if len(sys.argv) > 1 else TOP / "release").resolve()
MOST = 1_000_000  # bytes of the archive


def check_sums(folder):
    """The sums of a folder, each a case, and that they are of all its files."""
    lines = [line.split("  ", 1) for line in (folder / "SHA256SUMS").read_text().splitlines()]
    for its, name in lines:
        case(f"the sum of {name}", not (folder / name).exists() or sources.sum_of_file(folder / name) != its)
    return {name for _, name in lines}


def unpacked(room):
    """The tree of the archive."""
    [archive] = RELEASE.glob("*.tar.xz")
    case("the size of the archive", archive.stat().st_size > MOST and archive.stat().st_size)
    case("what release/ has sums of", check_sums(RELEASE) ^ {archive.name, "PROOF"})
    with tarfile.open(archive) as packed:
        packed.extractall(room)
    tree = room / archive.name.removesuffix(".tar.xz")
    below = {str(path.relative_to(tree)) for path in tree.rglob("*") if path.is_file()}
    case("what the archive has sums of", check_sums(tree) ^ (below - {"SHA256SUMS"}))
    return tree


def packed_as(name):
    """Where the archive has a file that PROOF names: a program below crates/, or the library."""
    return name if name.startswith("lib/") else f"bin/{Path(name).name}"


def compare(tree, room):
    """The files of the release beside those that the gate built."""
    made = gated.made()
    files = {"lib/libcmph_c.a": link.static_library(made.pop(gated.LIBRARY), room)} | {f"bin/{name}": path for name, path in made.items()}
    for name, path in files.items():
        case(f"{name} has the bytes that the gate built", (tree / name).read_bytes() != path.read_bytes())
    skipped("the bytes of lib/libcmph_c.so.1", "the linker of a system adds to it")


def main():
    if not list(RELEASE.glob("*.tar.xz")):
        skipped("the release", f"{RELEASE.name}/ has no archive yet; `make release` makes it")
        return close()
    with tempfile.TemporaryDirectory() as scratch:
        tree, said = unpacked(Path(scratch)), (RELEASE / "PROOF").read_text()
        case("PROOF in the archive", (tree / "share/lumpedris-cmph/PROOF").read_text() != said)
        fields, sums = proof.read(said)
        case("PROOF names each program", set(sources.programs()) - {Path(name).name for name in sums})
        for name, its in sums.items():
            if name != f"crates/{gated.LIBRARY}/out/lib{gated.LIBRARY}.a":
                case(f"PROOF has the sum of {name}", sources.sum_of_file(tree / packed_as(name)) != its)
        if (fields["sources"], fields["kit"]) == (sources.sources_sum(), sources.kit()):
            compare(tree, Path(scratch))
        else:
            skipped("the bytes that the gate built", "the release is of other sources: its sums alone are checked")
    return close()


if __name__ == "__main__":
    sys.exit(main())
