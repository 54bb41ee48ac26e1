#!/usr/bin/env python3
"""Packs a release and a Debian package twice (tools/release.py, tools/dist.py), and compares the bytes; installs the release in a root of its own, runs each program there, and compiles
a caller in C against what was installed; looks into the package; and packs what was not proved, which must be refused.

    tests/dist.py     over what the gate built below crates/, as out/gate.json has it

The last line is 'N passed, M failed', with the cases after it that need a tool which is not there.
"""
import os
import re
import shutil
import sys
import tempfile
from pathlib import Path

from counting import case, close, run, skipped

TOP = Path(__file__).resolve().parent.parent
sys.path.insert(0, str(TOP / "tools"))

import gated  # noqa: E402
import sources  # noqa: E402

CALLER = """#include <cmph_c.h>
#include <stdio.h>
int main(void) {
    cmph_c_plan plan = { .algorithm = CMPH_C_BDZ, .ratio = 1230000, .b = 7, .seed = 1, .tries = 100 };
    printf("%llu\\n", (unsigned long long)cmph_c_room(&plan, 230));
    return 0;
}
"""
# Leaves in a tree what tools/prove.py does after it has proved every crate.
AS_MAKE = """import sys
sys.path.insert(0, "tools")
import gated, prove, sources
for name in gated.made():
    crates = prove.crates_below(name)
    for crate in crates:
        made = prove.made_of(crate)
        made.parent.mkdir(parents=True, exist_ok=True)
        made.touch()
        made.with_suffix(".sum").write_text(prove.sum_of(crate, crates, prove.kit_folder()))
        made.with_name(f"{crate}.made").write_text(sources.sum_of_file(made))
        made.with_name(f"{crate}.verdict").write_text("proved\\n")
"""


def packed(room, name, mask):
    """What the tools make under a mask for new files."""
    for tool in ("release", "dist"):
        if tool == "dist" and shutil.which("dpkg-deb") is None:
            continue
        left = run(sys.executable, TOP / "tools" / f"{tool}.py", "--out", room / name, preexec_fn=lambda: os.umask(mask))
        case(f"tools/{tool}.py packs, mask {mask:o}", left.returncode and left)
    return sorted((room / name).glob("*"))


def answers(where, root=None):
    """What each program does where it was installed: a session with files of its own. With a root it sees nothing else."""
    def go(*words):
        if root is None:
            return run(where / "bin" / words[0], *words[1:], cwd=where)
        return run("chroot", root, f"/{(where / 'bin' / words[0]).relative_to(root)}", *words[1:])

    scratch = root or where
    (scratch / "keys").write_bytes((TOP / "examples" / "words").read_bytes())
    (scratch / "lines").write_text("ant\t1\nbee\t2\n")
    (scratch / "twice").write_text("ant\nant\n")
    case("cmph builds", go("cmph", "-g", "keys").returncode)
    case("cmph answers", go("cmph", "keys").stdout.splitlines()[:1] != ["Hydrogen -> 0"])
    (scratch / "report").write_text(go("cmph", "-g", "twice").stdout)
    case("cmph_judge judges", go("cmph_judge", "report", "twice").stdout != "true\n")
    case("cmph_filter builds", go("cmph_filter", "-g", "keys").returncode)
    case("cmph_filter tests", go("cmph_filter", "keys").returncode)
    case("cmph_store builds", go("cmph_store", "-g", "lines").returncode)
    for name in sources.programs():
        case(f"{name} refuses", go(name, "-?").returncode != 2)


def with_loader(root, program):
    """Puts what a program is loaded with into the root: the loader and the C library of the machine."""
    for path in re.findall(r"(/\S+)", run("ldd", program).stdout):
        (root / path[1:]).parent.mkdir(parents=True, exist_ok=True)
        shutil.copy(path, root / path[1:])


def installed(room, release):
    """Installs the release in a root that has nothing but the C library of the machine."""
    root = room / "root"
    root.mkdir()
    with_loader(root, gated.made()["cmph"])
    case("it names its commit", not re.search(r"^commit: [0-9a-f]{40}", (release / "PROOF").read_text(), re.M))
    left = run("sh", release / "install.sh", "/usr", env={"PATH": os.environ["PATH"], "DESTDIR": str(root)})
    case("it is installed", (left.returncode or not (root / "usr/share/man/man1/cmph.1").exists()) and left)
    if os.geteuid() == 0:
        answers(root / "usr", root)
    else:
        skipped("the programs in an empty root", "this does not run as root")
        answers(root / "usr")
    return root


def changed(room, release):
    """A release of which one byte of the archive was changed: it is refused by name, and nothing is installed."""
    copy, root = shutil.copytree(release, room / "changed"), room / "of_changed"
    [archive] = copy.glob("*.tar.xz")
    whole = archive.read_bytes()
    archive.write_bytes(whole[:-1] + bytes([whole[-1] ^ 1]))
    left = run("sh", copy / "install.sh", "/usr", env={"PATH": os.environ["PATH"], "DESTDIR": str(root)})
    case("a changed byte", (left.returncode == 0 or f"{archive.name} was changed" not in left.stderr or root.exists()) and left)


def compiled(root):
    """A caller in C, by the header and the libraries that were installed."""
    compiler = shutil.which("cc")
    if compiler is None:
        skipped("the caller in C", "cc is not there")
        return
    source = root / "caller.c"
    source.write_text(CALLER)
    place = [f"-I{root}/usr/include", f"-L{root}/usr/lib"]
    for name, words in (("static", [f"{root}/usr/lib/libcmph_c.a"]), ("shared", ["-lcmph_c", f"-Wl,-rpath,{root}/usr/lib"])):
        made = run(compiler, "-Wall", "-Wextra", "-Werror", *place, source, *words, "-o", root / name)
        case(f"a caller is compiled, {name}", made.returncode and made)
        case(f"it runs, {name}", made.returncode == 0 and int(run(root / name).stdout or 0) < 100)


def package(room, deb):
    """The Debian package: what it has, and what lintian says."""
    root = room / "deb"
    case("the package is unpacked", run("dpkg-deb", "-x", deb, root).returncode)
    for name in sources.programs():
        case(f"it has {name}", not os.access(root / "usr/bin" / name, os.X_OK) or not (root / f"usr/share/man/man1/{name}.1.gz").exists())
    case("it has the library", not (root / "usr/lib/x86_64-linux-gnu/libcmph_c.so.1").exists())
    fields = run("dpkg-deb", "-f", deb).stdout
    case("it conflicts with the C tool's package", "Conflicts: libcmph-tools" not in fields)
    case("it needs a C library that is new enough", "Depends: libc6 (>= 2.34)" not in fields)
    if shutil.which("lintian") is None:
        skipped("lintian", "it is not there")
        return
    left = run("lintian", "--fail-on", "error", "--no-tag-display-limit", deb)
    case("lintian finds no error", left.returncode and left)


def clone(room, name):
    """A clone of this repository with the tools of this tree, and what the gate built."""
    made = room / name
    run("git", "clone", "-q", TOP, made, check=True)
    for folder in ("tools", "release"):
        shutil.copytree(TOP / folder, made / folder, dirs_exist_ok=True, ignore=shutil.ignore_patterns("__pycache__", "*.tar.xz"))
    for path in gated.made().values():
        (made / path.relative_to(TOP)).parent.mkdir(parents=True)
        shutil.copy(path, made / path.relative_to(TOP))
    return made


def refused(name, tree, said):
    """A tree of which nothing may be packed, and what must be said."""
    for tool in ("release", "dist"):
        left = run(sys.executable, tree / "tools" / f"{tool}.py", "--out", tree / "packed", cwd=tree)
        wrong = left.returncode != 1 or not left.stderr.startswith("nothing is packed: ") or said not in left.stderr
        case(f"{name}: tools/{tool}.py refuses", (wrong or any(tree.glob("packed/*"))) and left)


def of_make(room):
    """A tree in which `make` proved all, and not the gate; and one of its programs is another then."""
    tree = clone(room, "of_make")
    run(sys.executable, "-c", AS_MAKE, cwd=tree, check=True)
    left = run(sys.executable, tree / "tools" / "release.py", "--out", tree / "of_make", cwd=tree)
    case("what `make` proved is packed", (left.returncode or "\nproved by: `make`" not in (tree / "of_make" / "PROOF").read_text()) and left)
    shutil.copy(tree / "crates/cmph/out/cmph", tree / "crates/cmph_store/out/cmph_store")
    refused("another program than `make` built", tree, "crates/cmph_store/out/cmph_store is not what `make` proved")


def refusals(room):
    tree = clone(room, "tree")
    refused("nothing was proved", tree, "out/gate.json")
    (tree / "out").mkdir()
    shutil.copy(gated.NOTE, tree / "out")
    (tree / "bin").mkdir()
    for name, path in gated.made().items():
        if name != gated.LIBRARY:
            shutil.copy(path, tree / "bin")
    shutil.copy(tree / "bin" / "cmph", tree / "bin" / "cmph_store")
    refused("another program in bin/", tree, "bin/cmph_store is not crates/cmph_store/out/cmph_store")
    shutil.copy(tree / "bin" / "cmph", tree / "crates/cmph_store/out/cmph_store")
    refused("another program below crates/", tree, "crates/cmph_store/out/cmph_store is not the file that the gate built")
    with open(tree / "crates.txt", "a") as file:
        file.write("\n")
    refused("changed sources", tree, "crates.txt differs from the commit")


def main():
    with tempfile.TemporaryDirectory() as scratch:
        room = Path(scratch)
        room.chmod(0o755)
        first, second = packed(room, "first", 0o022), packed(room, "second", 0o077)
        case("both runs make the same files", [path.name for path in first] != [path.name for path in second])
        for one, other in zip(first, second):
            case(f"{one.name} has the same bytes twice", one.read_bytes() != other.read_bytes())
        if room / "first" / "PROOF" in first:
            compiled(installed(room, room / "first"))
            changed(room, room / "first")
        for deb in (path for path in first if path.suffix == ".deb"):
            package(room, deb)
        if shutil.which("dpkg-deb") is None:
            skipped("the Debian package", "dpkg-deb is not there")
        refusals(room)
        of_make(room)
    return close()


if __name__ == "__main__":
    sys.exit(main())
