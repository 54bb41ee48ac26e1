#!/usr/bin/env python3
"""Notes what the gate has proved and built, in out/gate.json: tools/proof.py believes no other word of it.

    tools/gated.py     right after `rt ci` passed

It makes the C library over what `rt ci` left below crates/, and notes the sum of the sources, the kit, the sums of the programs and of the library's archive, and
each crate with the sum of its files. It refuses if crates/ or crates.txt differ from the commit: the sum is that of the files which git tracks.
"""
import json
import subprocess
import sys

import prove
import sources
from sources import TOP

NOTE = TOP / "out" / "gate.json"
LIBRARY = "cmph_c"  # the crate of the C library


def made():
    """What the crates of the programs and of the library make, by the crate's name."""
    return {name: prove.made_of(name) for name in (*sources.programs(), LIBRARY)}


def noted():
    """What is true of the tree now."""
    return {
        "sources": sources.sources_sum(),
        "kit": sources.kit(),
        "made": {str(path.relative_to(TOP)): sources.sum_of_file(path) for path in made().values() if path.exists()},
        "crates": {name: sources.sum_of(f"crates/{name}") for name in prove.listed()},
    }


def main():
    NOTE.unlink(missing_ok=True)
    changed = sources.changed(*sources.PROVED)
    if changed:
        sys.exit(f"{changed[0]} differs from the commit, so nothing is noted of the gate: commit it, and run the gate again")
    left = subprocess.run([sys.executable, TOP / "tools" / "prove.py", "--alone", LIBRARY], stdout=subprocess.PIPE, stderr=subprocess.STDOUT, text=True)
    if left.returncode != 0:
        sys.exit(f"{left.stdout}the C library is not proved")
    note = noted()
    NOTE.parent.mkdir(exist_ok=True)
    NOTE.write_text(json.dumps(note, indent=1) + "\n")
    print(f"{NOTE.relative_to(TOP)}: {len(note['crates'])} crates are proved, and {len(note['made'])} files built of them")


if __name__ == "__main__":
    main()
