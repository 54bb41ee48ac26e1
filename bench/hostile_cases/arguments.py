"""Random command lines, and what they must do: the meaning of the arguments, and the job that they ask for, as the documents say."""

import os
import random
import re
import shutil
from typing import NamedTuple

from . import model
from .model import Ends, said
from .runs import NAMES, Machine, Row, case, get, gone, numbered, put

FLAGS, VALUED = "hVvguz", "abcdfkmMrsT"
CHECKED = "abcfkMrsT"  # in this order
RANGES = {"b": (0, 2**32 - 1), "k": (1, 2**32 - 1), "M": (1, 1024), "r": (1, 1000), "s": (0, 2**32 - 1), "T": (1, 16_777_216)}
BAD = "bad arguments; cmph -h shows the usage"
HELP = b"""usage: cmph [-v] [-h] [-V] [-z] [-k nkeys] [-f hash] [-g [-c c] [-s seed] [-r seeds]] [-a algorithm] [-M MB] [-b b] [-d dir] [-m file.mph] keysfile
       cmph -T nkeys [-s seed] [-r seeds] [-M MB] [-d dir]
       cmph -u [-m file.mph] [keysfile]
algorithms: chm bdz bdz_ph brz
hash functions: jenkins
"""

# The meaning of arguments


class Refused(Exception):
    """Why arguments ask for no job."""


class Given(NamedTuple):
    """The options that were given, flags with an empty value, and the keys file."""

    options: dict[str, bytes]
    keys: bytes | None


def given(arguments: list[bytes]) -> Given:
    options, files, left, ended = {}, [], list(arguments), False
    if not all(map(is_utf8, arguments)):
        raise Refused(BAD)
    while left:
        argument = left.pop(0)
        if ended or argument in (b"", b"-") or not argument.startswith(b"-"):
            files.append(argument)
        elif argument == b"--":
            ended = True
        else:
            bundle(argument[1:], left, options)
    if len(files) > 1:
        raise Refused(BAD)
    return Given(options, files[0] if files else None)


def is_utf8(argument: bytes) -> bool:
    try:
        argument.decode()
    except UnicodeDecodeError:
        return False
    return True


def bundle(letters: bytes, left: list[bytes], options: dict[str, bytes]) -> None:
    """The options of one argument. The value of the last one may be the next argument, unless that begins like an option."""
    for at, letter in enumerate(map(chr, letters)):
        if letter not in FLAGS + VALUED or (letter in options and letter != "v"):
            raise Refused(BAD)
        options[letter] = b""
        if letter in VALUED:
            rest = letters[at + 1 :]
            if not rest and (not left or (left[0].startswith(b"-") and len(left[0]) > 1)):
                raise Refused(BAD)
            options[letter] = rest.removeprefix(b"=") if rest else left.pop(0)
            return


class Job(NamedTuple):
    what: str  # help, version, test, upgrade, build, query
    options: dict[str, bytes]
    keys: str | None
    name: str  # of the algorithm

    def path(self) -> str:
        """The function file."""
        return os.fsdecode(self.options["m"]) if "m" in self.options else f"{self.keys}.mph"

    def number(self, letter: str, usual: int) -> int:
        return int(self.options[letter]) if letter in self.options else usual

    def end(self) -> int:
        return 0 if "z" in self.options else 10


def is_good(letter: str, value: bytes, options: dict[str, bytes]) -> bool:
    """Whether an option has a value that it takes."""
    if letter == "a":
        return value in (name.encode() for name in NAMES)
    if letter == "f":
        return value == b"jenkins"
    if letter == "c":
        return re.fullmatch(rb"[0-9]{1,2}(\.[0-9]{1,6})?", value) is not None and 10**6 <= millionths(value) <= 10**7
    low, high = RANGES[letter]
    name = options.get("a", b"chm").decode()
    if letter == "b" and name in model.WIDTHS and "g" in options and not {"T", "u"} & options.keys():
        low, high = model.TWO.ranges(name)
    return re.fullmatch(rb"[0-9]{1,10}", value) is not None and low <= int(value) <= high


def millionths(value: bytes) -> int:
    whole, _, part = value.partition(b".")
    return int(whole) * 10**6 + int(part.ljust(6, b"0"))


def meaning(arguments: list[bytes]) -> Job:
    """The job that arguments ask for."""
    options, keys = given(arguments)
    for letter, what in (("h", "help"), ("V", "version")):
        if letter in options:
            return Job(what, {}, None, "")
    for letter in CHECKED:
        if letter in options and not is_good(letter, options[letter], options):
            raise Refused(f"bad value of -{letter}")
    path = None if keys is None else os.fsdecode(keys)
    name = options.get("a", b"chm").decode()
    if "T" in options:
        return Job("test", options, path, name)
    if "u" in options and ("m" in options or keys is not None):
        return Job("upgrade", options, path, name)
    if keys is None:
        raise Refused("no keys file")
    return Job("build" if "g" in options else "query", options, path, name)


# What a job does


def cannot_read(path: str) -> Ends:
    return Ends(4, b"", said(f"{path}: cannot read"))


def seeds_of(job: Job) -> tuple[int, int]:
    return job.number("s", 1), job.number("r", 100)


def built(job: Job, name: str, keys_path: str, content: bytes, **more) -> Ends:
    """A build. By BRZ it needs the directory of the spill file."""
    folder = os.fsdecode(job.options.get("d", b"."))
    if name != "brz":
        return model.build(name, keys_path, content, *seeds_of(job), **more)
    return model.build_over_spill(keys_path, content, 1 << 30 if os.path.isdir(folder or ".") else None, folder, *seeds_of(job), **more)


def build(job: Job, files: dict[str, bytes]) -> Ends:
    if job.keys not in files:
        return cannot_read(job.keys)
    ratio = millionths(job.options["c"]) if "c" in job.options else None
    b = job.number("b", 0) or None if job.name in model.WIDTHS else None
    done = built(job, job.name, job.keys, files[job.keys], ratio=ratio, b=b, end=job.end(), first=job.number("k", 2**32 - 1))
    if done.dump is None:
        return done
    if not job.path() or os.path.dirname(job.path()):
        return Ends(5, b"", said(f"{job.path()}: cannot write"))
    return done._replace(err=noted(done.dump) if "v" in job.options else b"")


def noted(dump: bytes) -> bytes:
    f = model.read_dump(dump)
    if isinstance(f, model.Split):
        return said(f"brz keys {f.keys} buckets {len(f.buckets)} seed {f.seed}")
    return said(f"{f.name} keys {f.keys} cells {len(f.cells)} seed {f.seed}")


def query(job: Job, files: dict[str, bytes]) -> Ends:
    if job.path() not in files:
        return cannot_read(job.path())
    known = job.keys in files
    done = model.query(job.path(), files[job.path()], job.keys, files.get(job.keys, b""), job.end(), job.number("k", 2**32 - 1))
    return done if known or done.status == 3 else cannot_read(job.keys)


def upgrade(job: Job, files: dict[str, bytes]) -> Ends:
    return model.upgrade(job.path(), files[job.path()]) if job.path() in files else cannot_read(job.path())


def test(job: Job, files: dict[str, bytes]) -> Ends:
    """Builds and queries over generated keys, by each algorithm."""
    count, out = job.number("T", 1), b""
    content = b"".join(b"key-%010d\n" % (2654435761 * i % 2**32) for i in range(count))
    for name in NAMES:
        done = built(job, name, "-T", content)
        if done.dump is None:
            return done._replace(out=out + done.out)
        f = model.read_dump(done.dump)
        out += f"{name} {count} {len(done.dump)} {sum(model.answer_of(f, key) for key in model.lines_of(content)[0])}\n".encode()
    return Ends(0, out)


def outcome(arguments: list[bytes], files: dict[str, bytes]) -> tuple[Ends, str]:
    """How a command ends over these files, and the path of the function file that it may leave."""
    try:
        job = meaning(arguments)
    except Refused as refused:
        return Ends(2, b"", said(str(refused))), ""
    if job.what in ("help", "version"):
        return Ends(0, HELP if job.what == "help" else b"cmph 2\n"), ""
    done = {"test": test, "upgrade": upgrade, "build": build, "query": query}[job.what](job, files)
    return done, "" if job.what == "test" else job.path()


# Random command lines

WHOLE = [b"0", b"1", b"2", b"3", b"4294967295", b"4294967296", b"00000000003", b"0000000001", b"+1", b"1 ", b"0x1", b"-1", b"x", b"", b"1.0", b"9" * 30]
# The first four of each are good, of -b with one algorithm or the other.
VALUES = {
    "a": [*(name.encode() for name in NAMES * 3), b"CHM", b"chmx", b"", b"bd", b"brz "],
    "b": [b"3", b"10", b"64", b"700", b"2", b"7", b"11", b"63", b"128", b"175", b"176", b"255", b"701", b"1023", b"65535", b"65536", *WHOLE],
    "c": [b"1", b"1.23", b"2.09", b"2", b"3", b"10", b"10.000000", b"10.000001", b"0.999999", b"1.", b".5", b"01.5", b"001.5", b"1.0000010", b"1,5",
          b"1e0", b""],
    "d": [b".", b"", b"there", b"there/", b"none"],
    "f": [*[b"jenkins"] * 4, b"Jenkins", b"md5", b""],
    "k": [b"1", b"2", b"5", b"100", *WHOLE],
    "m": [b"one", b"two", b"new", b"keys.mph", b"none/f", b"missing", b"text", b"-", b"=", b"", b"brz1", b"brz2", b"bad"],
    "M": [b"1", b"1", b"2", b"3", b"1025", *WHOLE],
    "r": [b"1", b"2", b"5", b"20", b"1001", *WHOLE],
    "s": [b"0", b"1", b"7", b"4294967290", *WHOLE],
    "T": [b"1", b"2", b"30", b"100", b"16777217", b"67108864", *WHOLE],
}
FILES = [b"text", b"zero", b"equal", b"one", b"bad", b"missing", b"", b"-", b"many", b"keys", b"keys", b"keys"]
ODD = [b"--", b"-", b"", b"---", b"--help", b"--=keys", b"-t", b"-1", b"-=", b"-g=1", b"-u=1", b"-z=", b"-G", b"-Z", b"-U", b"\xff", b"-m\xff",
       b"k\xc3\xa9y", b"-\xc3\xa9", b"-uz", b"-zu", b"-gz", b"-guz", b"-ugzv", b"-vv"]


def garbled(rng: random.Random, argument: bytes) -> bytes:
    """An argument with a letter more, less or changed."""
    at = rng.randint(0, len(argument))
    return argument[:at] + rng.choice([b"", b"-", b"=", b"z", b"u", b"g", b"k", b"m", b"1", b"0", b" ", b"\n"]) + argument[at + rng.randrange(2) :]


def random_arguments(rng: random.Random) -> list[bytes]:
    """A few flags, options with values in each of their forms, a file, and what is odd, in any order; some of it is garbled."""
    parts: list[list[bytes]] = []
    letters = rng.sample(VALUED, rng.choice([0, 0, 1, 1, 2, 3, 5, 9]))
    # A test takes the longest.
    if "T" in letters and rng.random() < 0.5:
        letters.remove("T")
    flags = [letter for letter, part in (("g", 0.5), ("u", 0.3), ("z", 0.35), ("v", 0.2), ("h", 0.02), ("V", 0.02)) if rng.random() < part]
    flags += [rng.choice(FLAGS)] if rng.random() < 0.03 else []
    rng.shuffle(flags)
    for letter in letters:
        value, option = rng.choice(VALUES[letter][: 4 if rng.random() < 0.7 else None]), b"-" + letter.encode()
        if flags and rng.random() < 0.3:
            option = b"-" + flags.pop().encode() + option[1:]
        parts.append(rng.choice([[option, value], [option, value], [option + value], [option + b"=" + value]]))
    if flags and rng.random() < 0.4:
        parts.append([b"-" + "".join(flags).encode()])
    else:
        parts += [[b"-" + flag.encode()] for flag in flags]
    parts += [[rng.choice(FILES)]] * (rng.random() < 0.85)
    parts += [[rng.choice(ODD)] for _ in range(rng.choice([0, 0, 0, 0, 0, 0, 0, 1, 1, 2]))]
    rng.shuffle(parts)
    arguments = [argument for part in parts for argument in part]
    for at in range(len(arguments)):
        if rng.random() < 0.04:
            arguments[at] = garbled(rng, arguments[at])
    return arguments


def is_small(arguments: list[bytes]) -> bool:
    """Whether the job is small enough for the model: a test of few keys, and no buffer that the address space has no room for."""
    try:
        job = meaning(arguments)
    except Refused:
        return True
    return job.what in ("help", "version") or (job.what != "test" or job.number("T", 1) <= 100) and job.number("M", 1) <= 16


def sample_files() -> dict[str, bytes]:
    """Keys that end with either byte, function files of both versions, and damaged ones."""
    text = numbered(40)
    dumps = {name: model.build(name, "keys", text, 1, 100).dump for name in NAMES}
    one = {name: model.dump_of(model.read_dump(dump), model.ONE) for name, dump in dumps.items()}
    return {
        "keys": text, "text": b"a\n\nanother\r\nlast", "zero": text.replace(b"\n", b"\0") + b"a\nb\0", "equal": b"a\nb\n\na\n", "many": numbered(300),
        "keys.mph": dumps["chm"], "text.mph": dumps["bdz"], "zero.mph": one["bdz_ph"], "many.mph": one["bdz"], "equal.mph": one["brz"],
        "one": one["chm"], "two": dumps["bdz_ph"], "brz1": one["brz"], "brz2": dumps["brz"], "bad": one["bdz"][:-1],
        ".mph": dumps["bdz"], "-.mph": one["chm"],
    }


@case("20,000 random command lines, over keys that end with byte 10 or 0 and over function files of both versions")
def _(machine: Machine, row: Row) -> None:
    rng, files, top = random.Random("random command lines"), sample_files(), os.getcwd()
    shutil.rmtree("lines", ignore_errors=True)
    os.makedirs("lines/there")
    os.chdir("lines")  # the arguments may name any file there
    for name, content in files.items():
        put(name, content)
    for _ in range(machine.count(20_000)):
        arguments = random_arguments(rng)
        if not is_small(arguments):
            continue
        wanted, path = outcome(arguments, files)
        changed = {path: wanted.dump} if wanted.dump is not None else {}
        left = machine.ours(*map(os.fsdecode, arguments))
        after = {name: get(name) for name in os.listdir(".") if name not in ("out", "err", "there")}
        row.same(left, wanted, {"the files": after == {**files, **changed}, "the spill directory": not os.listdir("there")})
        for name in after.keys() | files.keys():
            if name not in files:
                gone(name)
            elif after.get(name) != files[name]:
                put(name, files[name])
    os.chdir(top)
