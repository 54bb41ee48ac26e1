#!/usr/bin/env python3
"""Calls the C library from C and from C++ (tests/library/caller.c), over functions that cmph builds: numbers of a million keys, files that are cut and
changed, damaged dumps, builds, shards, ends that are wrong, and structs and bytes of any values. The names that the header declares are those that the library exports.

    tests/library.py [CMPH [LIB]]        the program below crates/ if it is left out

LIB is the folder of libcmph_c.a and libcmph_c.so.1. If it is left out, they are made of the archive below crates/, which takes the kit. The last line is 'N passed, M failed',
with the cases after it that need a compiler or a tool which is not there.
"""
import random
import re
import shutil
import sys
import tempfile
from pathlib import Path

import dumps
import judge
import places
from counting import case, close, run, skipped

TOP = Path(__file__).resolve().parent.parent
CMPH = Path(sys.argv[1] if len(sys.argv) > 1 else TOP / "crates" / "cmph" / "out" / "cmph").resolve()
LIB = places.library(sys.argv[2:])
ARCHIVE = LIB / "libcmph_c.a"
HEADER = TOP / "library" / "cmph_c.h"
CALLER = TOP / "tests" / "library" / "caller.c"
NUMBERS = {name: int(number) for name, number in re.findall(r"#define CMPH_C_(\w+) (\d+)", HEADER.read_text())}  # of the header
NO_CODES = {"VERSION", "CHM", "BDZ", "BDZ_PH", "BRZ"}
ALGORITHMS = ["chm", "bdz", "bdz_ph", "brz"]
PLANS = {"chm": (1, 2_090_000), "bdz": (2, 1_230_000), "bdz_ph": (3, 1_230_000)}  # of the algorithms that the library builds by
LONGEST = {"chm": 455_836_984, "bdz": 23_215_501, "bdz_ph": 16_508_805}  # bytes of the file of MOST_KEYS keys (docs/use/formats.md)
MOST_KEYS = 67_108_864
FAULTS = {"OK": "", "TRUNCATED": "truncated at", "BAD_MAGIC": "bad magic", "BAD_ALGORITHM": "bad algorithm", "BAD_FIELD": "bad field at",
          "BAD_PADDING": "bad padding at", "BAD_CELL": "bad cell at", "BAD_COUNT": "bad count at", "BAD_RANK": "bad rank at", "TRAILING": "trailing bytes"}
COUNTED, CELLED = set(FAULTS) - {"BAD_CELL", "BAD_RANK"}, set(FAULTS) - {"BAD_COUNT", "BAD_RANK"}
CODES = {"chm": CELLED, "bdz": COUNTED | {"BAD_RANK"}, "bdz_ph": CELLED, "brz": COUNTED}  # of damaged dumps
MANY = 1_000_000
DAMAGED, COMPARED, SEED = 5000, 300, 1  # damaged dumps of each algorithm, those of them that cmph is asked of, and of which numbers they are made
WATCH = ["valgrind", "-q", "--error-exitcode=9", "--leak-check=no"]

reached = set()  # the names of codes that calls returned


def compiled(room, compiler, name, *words):
    """The caller as a compiler makes it, or none if the compiler is not there."""
    if shutil.which(compiler) is None:
        skipped(f"callers by {compiler}", "it is not there")
        return None
    made = run(compiler, *words, "-O1", "-Wall", "-Wextra", "-Werror", f"-I{HEADER.parent}", CALLER, "-x", "none", ARCHIVE, "-o", room / name)
    case(f"{compiler} compiles the caller", made.stderr)
    return room / name


def answers(room, function, keys):
    """The numbers that cmph writes for the lines of a file of keys."""
    left = run(CMPH, "-m", function, keys, cwd=room, errors="surrogateescape")
    return [line.rpartition(" -> ")[2] for line in left.stdout.split("\n")[:-1]]


def told(room, file):
    """What cmph says of a function file: nothing if it is one."""
    left = run(CMPH, "-m", file, "none", cwd=room)
    return left.stderr.strip()


def named(code):
    """The name of a code in the header, which is now reached."""
    name = next((name for name, number in NUMBERS.items() if str(number) == code and name not in NO_CODES), code)
    reached.add(name)
    return name


def told_by(line):
    """What a call said, by a code and a place: the name of the code, and the place."""
    code, _, place = line.strip().partition(" ")
    return f"{named(code)} {place}"


def said(line):
    """What cmph says, by what the library says: a code and an offset."""
    name, at = told_by(line).split()
    fault = FAULTS.get(name, name)
    return f"{fault} {at}" if fault.endswith(" at") else fault


def names():
    declared = set(re.findall(r"\b(cmph_c_\w+)\(", HEADER.read_text()))
    if shutil.which("nm") is None:
        skipped("the names that the library exports", "nm is not there")
        return
    shared, archive = (run("nm", *words).stdout.splitlines() for words in (("-D", "--defined-only", LIB / "libcmph_c.so.1"), ("-g", "--defined-only", ARCHIVE)))
    case("the header declares what the shared library exports", declared ^ {line.split()[-1].partition("@")[0] for line in shared if " T " in line})
    kit = "rattle_"  # how the names of the kit begin, whose functions take memory
    case("the header declares what the archive exports", declared ^ {line.split()[-1] for line in archive if " T " in line and f" T {kit}" not in line})


def version(room, caller):
    """The version of the library is that of the header."""
    left = run(caller, "version", cwd=room)
    case("the version", left.stdout != f"{NUMBERS['VERSION']}\n" and left)


def numbers(room, caller, function, keys):
    found = run(caller, "numbers", function, keys, cwd=room)
    wanted = answers(room, function, keys)
    # cmph writes no line for a key that has no number
    same = [number for number in found.stdout.split() if number != "-"] == wanted
    case(f"{caller.name}: numbers of {function}", found.stderr or (not same and "other numbers than cmph's"))


def refusals(room, caller):
    """Each code that the calls of other cases don't name by its number, and that all of the header's are those of the library."""
    left = run(caller, "codes", "few_bdz", cwd=room)
    for line in left.stdout.splitlines():
        wanted, code = line.split()
        case(f"the code {wanted}", named(code) != wanted and line)
    case("codes", left.returncode and left)
    for algorithm in ALGORITHMS:
        case(f"{algorithm}: the stack that the header says", (left := run(caller, "stack", f"words_{algorithm}", "words", cwd=room)).returncode and left)
    left = run(caller, "memory", "many", cwd=room)
    case("builds without memory", left.returncode and left or {named(code) for code in left.stdout.split()} != {"MEMORY"} and left)
    case("each code of the header is reached", set(NUMBERS) - NO_CODES ^ reached)


def fields_of(dump):
    """The numbers and the lengths of the struct of a function, from the header of its file and the definitions."""
    def number(at, len_=4):
        return int.from_bytes(dump[at:at + len_], "little")

    version, kind, keys, ratio, seed = int(dump[7:8]), dump[8], number(12), number(16), number(20)
    b = number(10, 2) if version == 2 else dump[9]
    third = max(3, -(-ratio * keys // 3_000_000) | 1)
    size = {1: max(2, -(-ratio * keys // 1_000_000)), 2: third, 3: third, 4: -(-keys // b) if kind == 4 else 0}[kind]
    width = {1: max(1, (keys - 1).bit_length()), 4: version}.get(kind, 0)
    ranks = 4 * -(-3 * third // 2**b) if kind == 2 else 0
    lens = (len(dump) if kind == 4 else len(dump) - 24 - ranks, ranks, size if kind == 4 else 0)
    return *lens, 2**32 // size, 2**32 // keys if kind == 1 else 0, kind, keys, 3 * third if kind == 3 else keys, ratio, seed, size, width, b


def fields(room, caller, function):
    left = run(caller, "fields", function, cwd=room)
    wanted = " ".join(map(str, fields_of((room / function).read_bytes())))
    case(f"{caller.name}: the struct of {function}", left.stdout != f"{wanted}\n" and (left.stdout, left.stderr, wanted))


def compared(room, paths, lines):
    """What is wrong with the codes of these files, beside what cmph says of them."""
    for path, line in zip(paths, lines):
        message, other = told(room, path), said(line)
        if not message.endswith(other) or bool(message) != bool(other):
            return f"{path.read_bytes().hex()}: {line}, and cmph says {message or 'nothing'}"
    return len(paths) != len(lines) and f"{len(lines)} lines of {len(paths)} files"


def changes(room, caller, algorithm, watch):
    """A small function file, each prefix of it, each byte changed, and one byte more."""
    whole = (room / f"few_{algorithm}").read_bytes()
    files = [whole[:len_] for len_ in range(len(whole))] + [whole + b"\0"]
    files += [whole[:at] + bytes([whole[at] ^ change]) + whole[at + 1:] for at in range(len(whole)) for change in (1, 2, 0x10, 0x80, 0xff)]
    paths = [room / f"changed{number}" for number in range(len(files))]
    for path, file in zip(paths, files):
        path.write_bytes(file)
    left = run(*watch, caller, "open", *paths, cwd=room)
    case(f"{algorithm}: files that are cut and changed {watch[:1]}", left.stderr or compared(room, paths, left.stdout.splitlines()))


def sample(lines):
    """The numbers of some damaged dumps, among them some of each code."""
    by_code = {}
    for number, line in enumerate(lines):
        by_code.setdefault(line.split()[0], []).append(number)
    chosen = [number for numbers in by_code.values() for number in numbers[:20]]
    return list(dict.fromkeys(chosen + random.sample(range(len(lines)), min(COMPARED, len(lines)))))[:COMPARED]


def damaged(room, caller, algorithm, watch):
    """Dumps that are damaged in many ways: the library opens those that cmph takes, and names the same fault of the others."""
    files = (f"words_{algorithm}", f"other_{algorithm}")
    left = run(*watch, caller, "damaged", *files, "few", DAMAGED, SEED, cwd=room)
    lines = left.stdout.splitlines()
    codes = {named(line.split()[0]) for line in lines}
    case(f"{algorithm}: damaged dumps {watch[:1]}", left.returncode and (left.returncode, left.stderr) or len(lines) != DAMAGED and f"{len(lines)} lines")
    case(f"{algorithm}: faults of damaged dumps", not CODES[algorithm] <= codes <= set(FAULTS) and f"the codes {codes}")
    numbers = sample(lines)
    left = run(caller, "damage", *files, SEED, *numbers, cwd=room)
    case(f"{algorithm}: damaged dumps beside cmph", left.stderr or compared(room, [room / f"damaged{number}" for number in numbers], [lines[number] for number in numbers]))


def built(room, caller, keys, plan, seed=0, tries=5):
    """The code and the place of a build."""
    algorithm, ratio, b = plan
    left = run(caller, "build", algorithm, ratio, b, seed, tries, keys, "built", cwd=room)
    return left.stderr or told_by(left.stdout)


def builds(room, caller, algorithm):
    number, ratio = PLANS[algorithm]
    plan = (number, ratio, 7)
    said_of = built(room, caller, "words", plan, 5, 50)
    run(CMPH, "-g", "-a", algorithm, "-s", 5, "-r", 50, "-m", "wanted", "words", cwd=room)
    same = (room / "built").read_bytes() == (room / "wanted").read_bytes()
    case(f"{algorithm}: a build in memory", said_of != "OK 0 0" and said_of or not same)
    for text, wanted in (("a\nb\nc\nb\na\n", "EQUAL_KEYS 1 3"), ("b\na\na\nb\n", "EQUAL_KEYS 1 2"), ("\n\nx\n", "EQUAL_KEYS 0 1"), ("x\nx\nx\n", "EQUAL_KEYS 0 1")):
        (room / "equal").write_text(text)
        case(f"{algorithm}: equal keys {text!r}", (said_of := built(room, caller, "equal", plan)) != wanted and said_of)
    for bad in ((0, ratio, 7), (4, 1_230_000, 128), (5, ratio, 7), (number, 999_999, 7), (number, 10_000_001, 7), (2, ratio, 2), (2, ratio, 11)):
        case(f"{algorithm}: a bad plan {bad}", (said_of := built(room, caller, "words", bad)) != "BAD_PLAN 0 0" and said_of)
        case(f"{algorithm}: the room of a bad plan {bad}", (left := run(caller, "room", *bad, 5)).stdout != "0\n" and left)
    for tries in (0, 1001):
        case(f"{algorithm}: {tries} seeds", (said_of := built(room, caller, "words", plan, tries=tries)) != "BAD_PLAN 0 0" and said_of)
    case(f"{algorithm}: no keys", (said_of := built(room, caller, "none", plan)) != "NO_KEYS 0 0" and said_of)


def spilled(room, caller, keys, plan, seed=0, tries=5):
    """The code and the place of a build by BRZ."""
    left = run(caller, "spilled", *plan, seed, tries, keys, "built", cwd=room)
    return left.stderr or told_by(left.stdout)


def spills(room, caller, watch):
    """Builds by BRZ, with the least spill and the least room, beside the files of cmph."""
    for keys, ratio, b in (("words", 1_230_000, 64), ("words", 10_000_000, 700), ("few", 1_230_000, 128), ("some", 1_230_000, 128), ("many", 1_230_000, 128)):
        said_of = spilled(room, caller, keys, (ratio, b), 5, 50)
        run(CMPH, "-g", "-a", "brz", "-c", f"{ratio / 1e6:g}", "-b", b, "-s", 5, "-r", 50, "-m", "wanted", keys, cwd=room)
        same = (room / "built").read_bytes() == (room / "wanted").read_bytes()
        case(f"brz: a build of {keys} in memory, {b} keys a bucket", said_of != "OK 0 0" and said_of or not same)
    equal = "".join(f"{line}\n" for line in ["a"] + ["b"] * 1100)  # more than a bucket may have
    for text, wanted in (("a\nb\nc\nb\na\n", "EQUAL_KEYS 1 3"), ("b\na\na\nb\n", "EQUAL_KEYS 1 2"), ("\n\nx\n", "EQUAL_KEYS 0 1"), ("x\nx\nx\n", "EQUAL_KEYS 0 1"), (equal, "EQUAL_KEYS 1 2")):
        (room / "equal").write_text(text)
        case(f"brz: equal keys {text[:12]!r}", (said_of := spilled(room, caller, "equal", (1_230_000, 64))) != wanted and said_of)
    full = [key for key in map(str, range(4096)) if judge.hashes(key.encode(), 1 ^ 0xffffffff)[2] % 2 == 0][:1024]  # in one of two buckets
    (room / "full").write_text("\n".join(full))
    case("brz: no split", (said_of := spilled(room, caller, "full", (1_230_000, 700), 1, 1)) != "NO_SPLIT 0 0" and said_of)
    case("brz: no seed", (said_of := spilled(room, caller, "words", (1_000_000, 64), tries=2)) != "NO_SEED 0 0" and said_of)
    for bad in ((999_999, 128), (10_000_001, 128), (1_230_000, 63), (1_230_000, 701), (1_230_000, 7), (1_230_000, 65_536 + 128)):
        case(f"brz: a bad plan {bad}", (said_of := spilled(room, caller, "words", bad)) != "BAD_PLAN 0 0" and said_of)
    for tries in (0, 1001):
        case(f"brz: {tries} seeds", (said_of := spilled(room, caller, "words", (1_230_000, 128), tries=tries)) != "BAD_PLAN 0 0" and said_of)
    case("brz: no keys", (said_of := spilled(room, caller, "none", (1_230_000, 128))) != "NO_KEYS 0 0" and said_of)
    case("brz: no room is known", (left := run(caller, "room", 4, 1_230_000, 128, 5)).stdout != "0\n" and left)
    left = run(*watch, caller, "spilled", 1_230_000, 64, 5, 50, "words", "built", cwd=room)
    case(f"brz: a build in memory {watch[:1]}", left.stdout != "0 0 0\n" and (left.returncode, left.stdout, left.stderr))


def rooms(room, caller, algorithm):
    """The bytes of files that cmph builds, of the longest one, and of no keys and too many."""
    plan, wanted = PLANS[algorithm], {MOST_KEYS: LONGEST[algorithm], 0: 0, MOST_KEYS + 1: 0, 2**32 - 1: 0}
    for many in (1, 2, 3, 4, 5, 16, 17, 100, 229, 230):
        run(CMPH, "-g", "-a", algorithm, "-k", many, "-m", "counted", "words", cwd=room)
        wanted[many] = (room / "counted").stat().st_size
    wanted[MANY] = (room / f"many_{algorithm}").stat().st_size
    left = run(caller, "room", *plan, 7, *wanted)
    case(f"{algorithm}: the room of a function", left.stderr or (found := list(map(int, left.stdout.split()))) != list(wanted.values()) and (found, wanted))
    run(CMPH, "-g", "-a", algorithm, "-b", 3, "-c", 3, "-m", "counted", "words", cwd=room)
    found = run(caller, "room", plan[0], 3_000_000, 3, 230).stdout
    case(f"{algorithm}: the room by another plan", found != f"{(room / 'counted').stat().st_size}\n" and found)


def ends(room, caller, algorithm, watch):
    """Ends that are wrong, keys that are too long, no keys, and too little room for the numbers."""
    left = run(*watch, caller, "ends", f"few_{algorithm}", cwd=room)
    case(f"{algorithm}: wrong ends {watch[:1]}", left.returncode and (left.returncode, left.stderr))
    if not watch:
        left = run(caller, "most", f"few_{algorithm}", cwd=room)
        case(f"{algorithm}: too many keys", left.returncode and (left.returncode, left.stderr))


def hostile(room, caller, algorithm, watch):
    for function, keys, rounds in ((f"few_{algorithm}", "some", 200 if watch else 20_000), (f"words_{algorithm}", "few", 2000 if watch else 200_000)):
        left = run(*watch, caller, "hostile", function, keys, rounds, cwd=room)
        case(f"{function}: structs and bytes of any values {watch[:1]}", left.returncode and (left.returncode, left.stderr))
    left = run(*watch, caller, "changed", f"words_{algorithm}", "few", 2000 if watch else 200_000, cwd=room)
    case(f"{algorithm}: bytes changed after the function was opened {watch[:1]}", left.returncode and (left.returncode, left.stderr))


def example(room):
    """The program of the documents."""
    made = run("gcc", "-Wall", "-Wextra", "-Werror", f"-I{HEADER.parent}", CALLER.with_name("example.c"), ARCHIVE, "-o", room / "example")
    case("gcc compiles the example", made.stderr)
    for algorithm in ("chm", "brz"):
        wanted = "".join(f"{key} {number}\n" for key, number in zip(("a", "b"), answers(room, f"few_{algorithm}", "two")))
        left = run(room / "example", f"few_{algorithm}", "a", "b", cwd=room)
        case(f"the example by {algorithm}", (not wanted or left.stdout != wanted) and left)
    left = run(room / "example", "few", "word", cwd=room)
    case("the example with another file", (left.returncode, left.stderr) != (1, "few is no function: code 3 at 0\n") and left)


def lines_of_readme(room):
    """The function of the README, in a program."""
    (room / "number.c").write_text(f'#include "{CALLER.with_name("number.c")}"\n#include <stdio.h>\nuint8_t file[4096];\n'
                                   'int main(void) { printf("%u\\n", number_of(file, fread(file, 1, sizeof file, stdin), (const uint8_t *)"b", 1)); }\n')
    made = run("gcc", "-Wall", "-Wextra", "-Werror", f"-I{HEADER.parent}", room / "number.c", ARCHIVE, "-o", room / "number")
    case("gcc compiles the lines of the README", made.stderr)
    for name, wanted in (("few_chm", "1"), ("few_bdz", answers(room, "few_bdz", "two")[1]), ("few", str(2**32 - 1))):
        with open(room / name) as file:
            left = run(room / "number", stdin=file)
        case(f"the lines of the README over {name}", left.stdout != f"{wanted}\n" and left)


def put_files(room):
    """Keys, and functions over them by each algorithm, one in version 1. By brz the words are in four buckets."""
    (room / "none").write_bytes(b"")
    shutil.copy(TOP / "examples" / "words", room / "words")
    lines = (room / "words").read_text().split("\n")
    (room / "some").write_text("\n".join(lines[:40]) + "\n\nk" + "k" * 65534)
    (room / "few").write_text("a\nb\n\nword\nlonger than twelve bytes\n")
    (room / "two").write_text("a\nb\n")
    random.seed(1)
    (room / "many").write_text("".join(f"{random.getrandbits(64):x}{'-' * (i % 7)}\n" for i in range(MANY)))
    for algorithm in ALGORITHMS:
        for keys in ("words", "many", "some", "few"):
            run(CMPH, "-g", "-a", algorithm, *(["-b", 64] if (algorithm, keys) == ("brz", "words") else []), "-m", f"{keys}_{algorithm}", keys, cwd=room)
        (room / f"other_{algorithm}").write_bytes(dumps.in_version_1((room / f"some_{algorithm}").read_bytes()))


def cases(room, callers):
    for algorithm in ALGORITHMS:
        for caller in callers:
            for function in ("words", "some", "other"):
                numbers(room, caller, f"{function}_{algorithm}", "words")
                fields(room, caller, f"{function}_{algorithm}")
        for caller in callers[:1]:
            numbers(room, caller, f"many_{algorithm}", "many")
            watch = WATCH if shutil.which(WATCH[0]) else []
            changes(room, caller, algorithm, watch)
            for watching in [[], watch] if watch else [[]]:
                ends(room, caller, algorithm, watching)
                hostile(room, caller, algorithm, watching)
            damaged(room, caller, algorithm, watch)
            if algorithm in PLANS:
                builds(room, caller, algorithm)
                rooms(room, caller, algorithm)
            else:
                spills(room, caller, watch)
    for caller in callers[:1]:
        version(room, caller)
        shards = run(caller, "route", 3, 7, "words", cwd=room).stdout.split()
        wanted = [str(judge.hashes(line.encode(), 3)[2] % 7) for line in (room / "words").read_text().split("\n") if line]
        case("shards", shards != wanted)
        for watching in [[], WATCH] if shutil.which(WATCH[0]) else [[]]:
            case(f"bytes at odd addresses {watching[:1]}", (left := run(*watching, caller, "shifted", "words", cwd=room)).returncode and left)
        refusals(room, caller)


def main():
    names()
    if shutil.which(WATCH[0]) is None:
        skipped("runs under valgrind", "it is not there")
    with tempfile.TemporaryDirectory() as scratch:
        room = Path(scratch)
        callers = [compiled(room, "gcc", "in_c", "-std=c99"), compiled(room, "g++", "in_cpp", "-x", "c++")]
        callers = [caller for caller in callers if caller]
        put_files(room)
        cases(room, callers)
        if shutil.which("gcc"):
            example(room)
            lines_of_readme(room)
    return close()


if __name__ == "__main__":
    sys.exit(main())
