#!/usr/bin/env python3
"""Tests the Rust crates below library/rust/: their own tests, over function files that cmph builds, and numbers of a million keys by each algorithm beside
cmph's. The raw declarations are those of the header.

    tests/rust.py [CMPH [LIB]]        the program below crates/ if it is left out

LIB is the folder of libcmph_c.a. If it is left out, it is made of the archive below crates/, which takes the kit. What cargo makes goes into a folder that is removed. The last line is
'N passed, M failed', with the cases after it that need a tool which is not there.
"""
import os
import random
import re
import shutil
import sys
import tempfile
from pathlib import Path

import counting
import places
from counting import case, close, skipped

TOP = Path(__file__).resolve().parent.parent
CMPH = Path(sys.argv[1] if len(sys.argv) > 1 else TOP / "crates" / "cmph" / "out" / "cmph").resolve()
LIB = places.library(sys.argv[2:])
LIBRARY = TOP / "library"
CRATES = LIBRARY / "rust"
ALGORITHMS = ["chm", "bdz", "bdz_ph", "brz"]
TYPES = {"uint8_t": "u8", "uint32_t": "u32", "uint64_t": "u64", "size_t": "usize"}
FEW, MANY = 10_000, 1_000_000

def there(tool, what):
    """Whether a tool is there; if not, what needs it is skipped."""
    if shutil.which(tool) is None:
        skipped(what, f"{tool} is not there")
        return False
    return True


def run(*words, **how):
    return counting.run(*words, text=False, **how)


def of_c(declared):
    """A parameter or a field of C as Rust writes it."""
    const, name, star, what = re.fullmatch(r"(const )?(\w+) (\*?)(\w+)", declared.strip()).groups()
    pointer = ("*const " if const else "*mut ") if star else ""
    return f"{what}: {pointer}{TYPES.get(name, name)}"


def in_header(text):
    """What the header declares, in words of Rust."""
    text = re.sub(r"\s+", " ", re.sub(r"/\*.*?\*/", "", text, flags=re.DOTALL).replace("\n#", " ;#"))
    calls = re.findall(r"(\w+) (cmph_c_\w+)\(([^)]*)\);", text)
    structs = re.findall(r"typedef struct (\w+) \{([^}]*)\}", text)
    numbers = re.findall(r"#define (CMPH_C_\w+) (\d+|UINT32_MAX)", text)
    return {f"fn {name}({', '.join(map(of_c, words.split(',') if words != 'void' else []))}) -> {TYPES[left]}" for left, name, words in calls} \
        | {f"struct {name} {', '.join(map(of_c, fields.split(';')[:-1]))}" for name, fields in structs} \
        | {f"const {name} {number.replace('UINT32_MAX', 'u32::MAX')}" for name, number in numbers}


def in_rust(text):
    """What the crate of raw declarations declares."""
    text = re.sub(r"\s+", " ", re.sub(r"//.*", "", text))
    calls = re.findall(r"pub fn (\w+)\(([^)]*)\) -> (\w+);", text)
    structs = re.findall(r"#\[repr\(C\)\] #\[[^]]*\] pub struct (\w+) \{([^}]*)\}", text)
    numbers = re.findall(r"pub const (\w+): u32 = ([\w:]+);", text)
    return {f"fn {name}({words.strip(' ,')}) -> {left}" for name, words, left in calls} \
        | {f"struct {name} {fields.replace('pub ', '').strip(' ,')}" for name, fields in structs} \
        | {f"const {name} {number}" for name, number in numbers}


def declarations():
    header = in_header((LIBRARY / "cmph_c.h").read_text())
    rust = in_rust((CRATES / "cmph-c-sys" / "src" / "lib.rs").read_text())
    case("the declarations are those of the header", header ^ rust or len(header) < 20 and header)


def built(room):
    """Keys, and a function file by each algorithm, in two folders."""
    random.seed(1)
    for name, many in (("few", FEW), ("many", MANY)):
        folder = room / name
        folder.mkdir()
        (folder / "keys").write_text("".join(f"{random.getrandbits(64):x}{'-' * (i % 7)}\n" for i in range(many)))
        for algorithm in ALGORITHMS:
            left = run(CMPH, "-g", "-a", algorithm, "-m", f"{algorithm}.mph", "keys", cwd=folder)
            case(f"cmph builds {name} by {algorithm}", left.returncode and left.stderr.decode())


def cargo(room, *words, **more):
    """Runs cargo, which finds the C library as `more` says."""
    surroundings = {name: value for name, value in os.environ.items() if name not in ("CMPH_C_LIB_DIR", "CMPH_FILES", "RUSTFLAGS")}
    surroundings |= {"CARGO_TARGET_DIR": str(room / "target"), **{name: str(value) for name, value in more.items()}}
    return run("cargo", *words, "--offline", "--locked", "--release", cwd=CRATES, env=surroundings)


def tests(room):
    left = cargo(room, "test", CMPH_C_LIB_DIR=LIB, CMPH_FILES=room / "few")
    counts = [int(count) for count in re.findall(rb"^test result: ok\. (\d+) passed", left.stdout, re.MULTILINE)]
    case("the tests of the crates", (left.returncode or sum(counts) < 20) and (left.stdout + left.stderr).decode())


def numbers(room, algorithm):
    example = room / "target" / "release" / "examples" / "numbers"
    folder = room / "many"
    found = run(example, f"{algorithm}.mph", "keys", cwd=folder)
    wanted = run(CMPH, "-m", f"{algorithm}.mph", "keys", cwd=folder)
    same = found.stdout == wanted.stdout and wanted.stdout.count(b"\n") == MANY
    case(f"numbers of a million keys by {algorithm}", found.returncode or wanted.returncode or not same and "other numbers than cmph's")


def refusals(room):
    """The example with keys that have no number, and with a file that is no function."""
    example = room / "target" / "release" / "examples" / "numbers"
    (room / "others").write_text("".join(f"other {i}\n" for i in range(FEW)))
    for algorithm in ALGORITHMS:
        function = room / "few" / f"{algorithm}.mph"
        found, wanted = run(example, function, room / "others"), run(CMPH, "-m", function, room / "others")
        unknown = [line.partition(b": ")[2] for line in wanted.stderr.splitlines() if line.endswith(b"key is unknown")]
        said = [line.partition(b": ")[2] for line in found.stderr.splitlines()]
        case(f"other keys by {algorithm}", found.stdout != wanted.stdout or said != unknown)
    left = run(example, room / "others", room / "others")
    case("a file that is no function", (left.returncode, left.stdout, left.stderr) != (3, b"", b"numbers: bad magic\n") and left)


def by_pkg_config(room):
    """The crates find the library where it was installed."""
    (room / "lib").symlink_to(LIB)
    file = (LIBRARY / "cmph_c.pc.in").read_text().replace("@PREFIX@", str(room)).replace("@VERSION@", "1")
    (room / "cmph_c.pc").write_text(file)
    left = cargo(room, "build", "--example", "numbers", PKG_CONFIG_PATH=room)
    case("a library that was installed", left.returncode and left.stderr.decode())


def main():
    declarations()
    if there("cargo", "the crates") and there("cc", "the crates"):
        with tempfile.TemporaryDirectory() as scratch:
            room = Path(scratch)
            built(room)
            tests(room)
            for algorithm in ALGORITHMS:
                numbers(room, algorithm)
            refusals(room)
            if there("pkg-config", "a library that was installed"):
                by_pkg_config(room)
    return close()


if __name__ == "__main__":
    sys.exit(main())
