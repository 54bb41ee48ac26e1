#!/usr/bin/env python3
"""Packs the programs, the C library, man pages and completions as a Debian package.

    tools/dist.py [--out FOLDER]     dist/ if it is left out

It makes lumpedris-cmph_VERSION_amd64.deb of the files below crates/ that the gate or `make` proved and built (tools/proof.py); others are refused. Made
twice of one commit and the same programs, it has the same bytes. The file PROOF in it says what was proved.
"""
import argparse
import gzip
import hashlib
import os
import shutil
import sys
import tempfile
from datetime import datetime, timezone
from pathlib import Path

import packing
import proof
import sources
from packing import PACKAGE, files_below, put
from sources import TOP

SUMMARY = "proved perfect hash functions, filters and record stores"
MAINTAINER = "Lumpedris maintainers <maintainers@users.noreply.lumpedris.example>"


def compressed(path, when):
    """A file compressed in its place, as Debian has man pages and changelogs."""
    with open(f"{path}.gz", "wb") as file, gzip.GzipFile(filename="", mode="wb", fileobj=file, compresslevel=9, mtime=when) as to:
        to.write(path.read_bytes())
    Path(f"{path}.gz").chmod(0o644)
    path.unlink()


def control(root):
    """The control file of the package."""
    size = sum(path.stat().st_size for path in files_below(root)) // 1024
    return (f"Package: {PACKAGE}\nVersion: {sources.VERSION}\nArchitecture: amd64\nMaintainer: {MAINTAINER}\n"
            f"Installed-Size: {size}\nDepends: libc6 (>= 2.34)\nConflicts: libcmph-tools\nSection: utils\nPriority: optional\nDescription: {SUMMARY}\n"
            " Programs that build, query and check perfect hash functions, membership\n filters and record stores, with a library for C and what calls C. Each\n"
            " function of them is proved to meet its contract.\n")


def overrides(root):
    """What lintian is told of the package: programs and library are packed byte by byte as they were built after their proofs, with their symbols."""
    whole = [*sorted((root / "usr/bin").iterdir()), *sorted(root.glob("usr/lib/*/*.so.*"))]
    return "".join(f"{PACKAGE}: unstripped-binary-or-object [{path.relative_to(root)}]\n" for path in whole)


def moved(usr):
    """Moves library and completions to where Debian has them."""
    place = usr / "lib/x86_64-linux-gnu"
    (usr / "lib").rename(usr / "lib64")
    place.parent.mkdir()
    (usr / "lib64").rename(place)
    pc = place / "pkgconfig/cmph_c.pc"
    put(pc, 0o644, pc.read_text().replace("${prefix}/lib", "${prefix}/lib/x86_64-linux-gnu"))
    (place / "libcmph_c.so").symlink_to("libcmph_c.so.1")
    (usr / "share/zsh/site-functions").rename(usr / "share/zsh/vendor-completions")


def documents(docs, said, when):
    put(docs / "PROOF", 0o644, said)
    licence = TOP / "LICENSE"
    put(docs / "copyright", 0o644, licence.read_bytes() if licence.exists() else "Copyright: Lumpedris maintainers. No licence is stated yet.\n")
    day = datetime.fromtimestamp(when, timezone.utc).strftime("%a, %d %b %Y %H:%M:%S +0000")
    put(docs / "changelog", 0o644, f"{PACKAGE} ({sources.VERSION}) unstable; urgency=medium\n\n  * CHANGELOG.md of the sources says what changed.\n\n"
        f" -- {MAINTAINER}  {day}\n")
    compressed(docs / "changelog", when)


def debian(root, when):
    """Fills the tree of the package."""
    said = packing.fill(root / "usr", root.parent / "library", "/usr")
    moved(root / "usr")
    for page in files_below(root / "usr/share/man"):
        compressed(page, when)
    documents(root / "usr/share/doc" / PACKAGE, said, when)
    put(root / "usr/share/lintian/overrides" / PACKAGE, 0o644, overrides(root))
    put(root / "DEBIAN/control", 0o644, control(root))
    put(root / "DEBIAN/shlibs", 0o644, f"libcmph_c 1 {PACKAGE}\n")
    put(root / "DEBIAN/triggers", 0o644, "activate-noawait ldconfig\n")
    sums = [f"{hashlib.md5(path.read_bytes()).hexdigest()}  {path.relative_to(root)}" for path in files_below(root / "usr") if not path.is_symlink()]
    put(root / "DEBIAN/md5sums", 0o644, "\n".join(sums) + "\n")
    packing.same_modes(root)


def main():
    parser = argparse.ArgumentParser(description=__doc__, formatter_class=argparse.RawDescriptionHelpFormatter)
    parser.add_argument("--out", type=Path, default=TOP / "dist", metavar="FOLDER")
    out, when = parser.parse_args().out.resolve(), sources.commit()[1]
    if shutil.which("dpkg-deb") is None:
        sys.exit("dpkg-deb is not there, so no package is made")
    out.mkdir(parents=True, exist_ok=True)
    package = out / f"{PACKAGE}_{sources.VERSION}_amd64.deb"
    try:
        with tempfile.TemporaryDirectory() as scratch:
            root = Path(scratch) / "deb"
            debian(root, when)
            sources.said_by("dpkg-deb", "--root-owner-group", "--build", root, package, env={**os.environ, "SOURCE_DATE_EPOCH": str(when)})
    except proof.Refused as reason:
        sys.exit(f"nothing is packed: {reason}")
    print(package)


if __name__ == "__main__":
    main()
