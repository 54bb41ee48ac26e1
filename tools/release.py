#!/usr/bin/env python3
"""Packs a release, which needs no kit: programs, C library, man pages and completions, as an archive with its sums.

    tools/release.py [--out FOLDER]     release/ if it is left out

It makes cmph-VERSION-x86_64-linux.tar.xz, PROOF and SHA256SUMS beside install.sh, of the files below crates/ that the gate or `make` proved and built (tools/proof.py);
others are refused. Made twice of one commit and the same programs, the archive has the same bytes.
"""
import argparse
import io
import lzma
import shutil
import sys
import tarfile
import tempfile
from pathlib import Path

import packing
import proof
import sources
from packing import put
from sources import TOP

HOME = TOP / "release"
NAME = f"cmph-{sources.VERSION}-x86_64-linux"


def archive(root, to, when):
    """Packs a tree as a compressed archive, whose bytes depend on names, modes, contents and the time alone."""
    def same(entry):
        entry.uid = entry.gid = 0
        entry.uname = entry.gname = "root"
        entry.mtime = when
        return entry

    packed = io.BytesIO()
    with tarfile.open(fileobj=packed, mode="w", format=tarfile.GNU_FORMAT) as tar:
        for path in [root, *sorted(root.rglob("*"))]:
            tar.add(path, path.relative_to(root.parent), recursive=False, filter=same)
    to.write_bytes(lzma.compress(packed.getvalue(), preset=9 | lzma.PRESET_EXTREME))


def sums_of(root, paths):
    return "".join(f"{sources.sum_of_file(path)}  {path.relative_to(root)}\n" for path in paths)


def packed(root, out):
    """Packs the tree, and gives the archive."""
    said = packing.fill(root, root.parent / "library", "/usr/local")
    put(root / "share" / packing.PACKAGE / "PROOF", 0o644, said)
    if (TOP / "LICENSE").exists():
        put(root / "share" / packing.PACKAGE / "LICENSE", 0o644, (TOP / "LICENSE").read_bytes())
    put(root / "SHA256SUMS", 0o644, sums_of(root, packing.files_below(root)))
    packing.same_modes(root)
    out.mkdir(parents=True, exist_ok=True)
    for older in out.glob("cmph-*-linux.tar.xz"):
        older.unlink()
    made = out / f"{root.name}.tar.xz"
    archive(root, made, sources.commit()[1])
    put(out / "PROOF", 0o644, said)
    put(out / "SHA256SUMS", 0o644, sums_of(out, [made, out / "PROOF"]))
    if out != HOME:
        shutil.copy(HOME / "install.sh", out)
    return made


def main():
    parser = argparse.ArgumentParser(description=__doc__, formatter_class=argparse.RawDescriptionHelpFormatter)
    parser.add_argument("--out", type=Path, default=HOME, metavar="FOLDER")
    out = parser.parse_args().out.resolve()
    try:
        with tempfile.TemporaryDirectory() as scratch:
            made = packed(Path(scratch) / NAME, out)
    except proof.Refused as reason:
        sys.exit(f"nothing is packed: {reason}")
    fields, sums = proof.read((out / "PROOF").read_text())
    print(f"{made}: {made.stat().st_size} bytes, {len(sums)} files by their sums, proved by {fields['proved by']}")
    print(f"sh {out.relative_to(Path.cwd()) if out.is_relative_to(Path.cwd()) else out}/install.sh PREFIX installs it")


if __name__ == "__main__":
    main()
