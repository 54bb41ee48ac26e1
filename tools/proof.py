"""What is packed, and the text of PROOF, which says of it what was compared and nothing else.

The files that are packed are those below crates/. Each is certified by the gate, if tools/gated.py noted its bytes and today's sources and kit; or by `make`, if
tools/prove.py left these bytes and proved today's sources. Where bin/ has a program, it must be the same.
"""
import functools
import json

import gated
import prove
import sources
from sources import TOP

AGAIN = "run `make` and `make library`, or `bash .ci/run`"


class Refused(Exception):
    """Why nothing is packed: the file, and what to run."""


def name_of(path):
    return str(path.relative_to(TOP))


def by_gate():
    """The verdict of the gate on each crate."""
    note = json.loads(gated.NOTE.read_text()) if gated.NOTE.exists() else {}
    if not note:
        raise Refused(f"there is no {name_of(gated.NOTE)}, which the gate leaves")
    for what, now in (("sources", sources.sources_sum()), ("kit", sources.kit())):
        if note[what] != now:
            raise Refused(f"{name_of(gated.NOTE)} is of another {what}")
    for path in gated.made().values():
        if note["made"].get(name_of(path)) != sources.sum_of_file(path):
            raise Refused(f"{name_of(path)} is not the file that the gate built")
    return "`rt ci`, in the gate", {name: f"proved; its files have the sum {its}" for name, its in note["crates"].items()}


def by_make():
    """The verdict of each proof of `make` on what the programs and the library stand on."""
    kit, verdicts = prove.kit_folder(), {}
    for name in gated.made():
        crates = prove.crates_below(name)
        for crate in sorted(set(crates) - set(verdicts)):
            made = prove.made_of(crate)
            if not prove.is_left(crate, prove.sum_of(crate, crates, kit)):
                raise Refused(f"{name_of(made)} is not what `make` proved and built of today's sources")
            verdicts[crate] = made.with_name(f"{crate}.verdict").read_text().strip()
    return "`make`, by tools/prove.py", verdicts


def faults_of_files():
    """What is wrong with the files, whatever was proved."""
    for path in map(TOP.joinpath, sources.changed(*sources.PROVED)):
        yield f"{name_of(path)} differs from the commit: commit it, and prove again"
    for name, path in gated.made().items():
        copy = TOP / "bin" / name
        if not path.exists():
            yield f"there is no {name_of(path)}: {AGAIN}"
        elif copy.exists() and copy.read_bytes() != path.read_bytes():
            yield f"{name_of(copy)} is not {name_of(path)}: remove it, and run `make`"


@functools.cache
def certified():
    """By what all that is packed was proved, and the verdict on each crate. Raises Refused."""
    prove.kit_folder()
    for fault in faults_of_files():
        raise Refused(fault)
    reasons = []
    for way in (by_gate, by_make):
        try:
            return way()
        except Refused as reason:
            reasons.append(str(reason))
    raise Refused(f"{reasons[1]}, and {reasons[0]}: {AGAIN}")


def text(complete):
    """The text of PROOF, which names the complete archive of the library, too."""
    way, verdicts = certified()
    files = {name_of(path): path for path in gated.made().values()} | {"lib/libcmph_c.a": complete}
    lines = [f"version: {sources.VERSION}", f"commit: {sources.commit()[0]}" + (", with changes" if sources.changed(".", ":!release") else ""),
             f"sources: {sources.sources_sum()}", f"kit: {sources.kit()}", f"proved by: {way}", "",
             "The sources are crates/ and crates.txt. Their sum is a SHA-256, as are those of the files that were built after the proofs:", ""]
    lines += [f"{sources.sum_of_file(path)}  {name}" for name, path in files.items()]
    lines += ["", "lib/libcmph_c.a is the archive before it with the kit's functions that take memory. The verdict on each crate:", ""]
    return "\n".join(lines + [f"{name}: {verdict}" for name, verdict in verdicts.items()]) + "\n"


def read(text):
    """What PROOF says: its first fields by name, and the sums of files by path."""
    lines = text.splitlines()
    fields = dict(line.split(": ", 1) for line in lines[:lines.index("")])
    return fields, {path: its for its, _, path in (line.partition("  ") for line in lines) if len(its) == 64 and path}
