"""
Tests of the package, in this folder's parent:

    CMPH_C_LIBRARY=../../lib/libcmph_c.so.1 python3 -m unittest discover tests

The environment variable CMPH names the program cmph, which makes the functions by brz. What is not there is named, and its tests are skipped.
"""
import gc
import math
import mmap
import os
import pickle
import re
import subprocess
import sys
import tempfile
import threading
import unittest
from array import array
from pathlib import Path
from unittest import mock

import cmph
from cmph import _buffers

try:
    import numpy
except ImportError:
    numpy = None

CMPH = os.environ.get("CMPH")
BUILT = ("chm", "bdz", "bdz_ph", "brz")
KEYS = [b"%d of many" % i for i in range(997)] + [b"", b"\0", b"k" * 65535]
OTHERS = [b"other %d" % i for i in range(1000)]

# Small files of docs/use/formats.md: the keys, the first seed, and the bytes in both versions.
FILES = {
    "chm": (
        [b"a", b"b"], 1,
        "434d5048444d5032 01 00 0000 02000000 10e41f00 01000000 02",
        "434d5048444d5031 01 00 0000 02000000 10e41f00 01000000 02",
    ),
    "bdz": (
        [b""], 0,
        "434d5048444d5032 02 00 0700 01000000 b0c41200 00000000 f3ff03 00000000",
        "434d5048444d5031 02 07 0000 01000000 b0c41200 00000000 f3ff03 00000000",
    ),
    "bdz_ph": (
        [b"", b"a"], 0,
        "434d5048444d5032 03 00 0000 02000000 b0c41200 00000000 0000",
        "434d5048444d5031 03 00 0000 02000000 b0c41200 00000000 0000",
    ),
    "brz": (
        [b"", b"a"], 0,
        "434d5048444d5032 04 00 8000 02000000 b0c41200 00000000 0200 00000000 c3ff03",
        "434d5048444d5031 04 80 0000 02000000 b0c41200 00000000 02 00000000 c3ff03",
    ),
}

# A process that may have 256 files has a thousand functions open at once, of a file for each, and asks all of them.
THOUSAND = """
import gc, os, pathlib, resource, sys
import cmph

def opened():
    return len(os.listdir("/proc/self/fd"))

def in_memory():
    return pathlib.Path("/proc/self/maps").read_text().count(sys.argv[1])

resource.setrlimit(resource.RLIMIT_NOFILE, (256, 256))
sets = [[b"%d of file %d" % (i, n) for i in range(1 + n % 50)] for n in range(1000)]
for n, keys in enumerate(sets):
    pathlib.Path(sys.argv[1], f"{n}.mph").write_bytes(cmph.build(keys, ("chm", "bdz", "bdz_ph", "brz")[n % 4]))
before = opened()
functions = [cmph.Function(os.path.join(sys.argv[1], f"{n}.mph")) for n in range(1000)]
for f, keys in zip(functions, sets):
    assert len(set(f.many(keys))) == len(set(f[key] for key in keys)) == len(f) == len(keys), f
assert (opened(), in_memory()) == (before, 1000), (opened(), before, in_memory())
del f, functions
gc.collect()
assert (opened(), in_memory()) == (before, 0), (opened(), before, in_memory())
"""

# Another module of the process gives two calls of ctypes.pythonapi types of its own, before cmph is imported and after.
OTHER_TYPES = """
import ctypes

class Other(ctypes.Structure):
    _fields_ = [("room", ctypes.c_char * 200)]

get, release, pointer = ctypes.pythonapi.PyObject_GetBuffer, ctypes.pythonapi.PyBuffer_Release, ctypes.POINTER(Other)
assert get.argtypes is None and release.argtypes is None
if {early}:
    get.argtypes, release.argtypes = (ctypes.py_object, pointer, ctypes.c_int), (pointer,)
import cmph
if not {early}:
    assert get.argtypes is None and release.argtypes is None and release.restype is ctypes.c_int
    get.argtypes, release.argtypes = (ctypes.py_object, pointer, ctypes.c_int), (pointer,)
f = cmph.Function(cmph.build([b"a", b"b"], "chm"))
assert list(f.many([b"b", b"a"])) == [1, 0]
assert (get.argtypes, release.argtypes) == ((ctypes.py_object, pointer, ctypes.c_int), (pointer,))
other = Other()
assert get(b"bytes", ctypes.byref(other), 0) == 0
release(ctypes.byref(other))
"""


def small(algorithm, version=2):
    return bytes.fromhex(FILES[algorithm][4 - version])


def arrays_of(keys):
    """Keys one after another, and their ends, without the package."""
    ends, at = array("Q"), 0
    for key in keys:
        at += len(key)
        ends.append(at)
    return b"".join(keys), ends


class Case(unittest.TestCase):
    def runs(self, code, *words):
        """A process of its own runs this code to its end."""
        left = subprocess.run([sys.executable, "-c", code, *words], capture_output=True, text=True)
        self.assertEqual((left.returncode, left.stdout, left.stderr), (0, "", ""))

    def refused(self, dump, fault, offset):
        with self.assertRaises(cmph.DumpError) as caught:
            cmph.Function(dump)
        self.assertEqual((caught.exception.fault, caught.exception.offset), (fault, offset), dump.hex())

    def one_by_one(self, f, keys):
        return [f.get(key, cmph.NONE) for key in keys]

    def good(self, f, keys, algorithm):
        """The numbers are those of a function over the keys, however they are asked for."""
        numbers = list(f.many(keys))
        self.assertEqual((len(f), f.algorithm), (len(keys), algorithm))
        self.assertEqual(len(set(numbers)), len(keys))
        self.assertLess(max(numbers), f.span)
        if algorithm == "chm":
            self.assertEqual(numbers, list(range(len(keys))))
        if algorithm != "bdz_ph":
            self.assertEqual(f.span, len(keys))
        self.assertEqual(numbers, [f[key] for key in keys])
        both = keys + OTHERS
        wanted = self.one_by_one(f, both)
        self.assertEqual(list(f.many(iter(both))), wanted)
        self.assertEqual(list(f.arrays(*arrays_of(both))), wanted)
        out = array("I", [7]) * len(both)
        self.assertIs(f.arrays(*arrays_of(both), out=out), out)
        self.assertEqual(list(out), wanted)


class Numbers(Case):
    def test_a_thousand_keys(self):
        for algorithm in BUILT:
            with self.subTest(algorithm):
                self.good(cmph.Function(cmph.build(KEYS, algorithm)), KEYS, algorithm)

    def test_keys_without_a_number(self):
        f = cmph.Function(cmph.build(KEYS))
        missing = [key for key in OTHERS if f.get(key) is None]
        self.assertTrue(missing)
        for key in missing[:10]:
            with self.assertRaises(KeyError) as caught:
                f[key]
            self.assertEqual(caught.exception.args, (key,))
            self.assertEqual(f.get(key, "none"), "none")
        self.assertEqual(set(f.many(missing)), {cmph.NONE})

    def test_no_keys(self):
        f = cmph.Function(small("bdz"))
        self.assertEqual(len(f.many([])), 0)
        self.assertEqual(len(f.arrays(b"", array("Q"))), 0)
        self.assertEqual(len(f.arrays(b"left over", array("Q"), array("I"))), 0)

    def test_long_keys(self):
        f = cmph.Function(cmph.build(KEYS))
        self.assertLess(f[b"k" * 65535], 1000)
        self.assertLess(f.get(b"k" * 65536, 0), 1000)
        with self.assertRaisesRegex(ValueError, "key 1 "):
            f.many([b"a", b"k" * 65536])
        with self.assertRaisesRegex(ValueError, "key 1 "):
            cmph.build([b"a", b"k" * 65536])

    def test_keys_are_bytes(self):
        f = cmph.Function(small("bdz"))
        for key in ("a", 1, None, bytearray(b"a"), memoryview(b"a"), [b"a"]):
            for call in (f.__getitem__, f.get, lambda key: f.many([b"", key]), lambda key: cmph.build([key]), lambda key: cmph.route([key], 1, 1)):
                with self.assertRaisesRegex(TypeError, f"a key is bytes, not {type(key).__name__}"):
                    call(key)
        for keys in ("a", b"a", bytearray(b"a")):
            with self.assertRaisesRegex(TypeError, "a key is bytes, not (str|int)"):
                f.many(keys)

    def test_a_class_of_keys_with_a_false_length(self):
        class Odd(bytes):
            def __len__(self):
                return 60000

        f = cmph.Function(cmph.build([b"a", b"b"], "chm"))
        self.assertEqual((f[Odd(b"b")], f.get(Odd(b"b"))), (1, 1))
        with self.assertRaises(ValueError):
            f.many([Odd(b"b")])

    def test_no_listing(self):
        f = cmph.Function(small("bdz"))
        with self.assertRaises(TypeError):
            b"" in f
        with self.assertRaises(TypeError):
            list(f)

    def test_threads(self):
        f, wrong = cmph.Function(cmph.build(KEYS)), []
        wanted = list(f.many(KEYS))

        def ask():
            if any(list(f.many(KEYS)) != wanted or [f[key] for key in KEYS[:50]] != wanted[:50] for _ in range(20)):
                wrong.append(True)

        threads = [threading.Thread(target=ask) for _ in range(4)]
        for thread in threads:
            thread.start()
        for thread in threads:
            thread.join()
        self.assertFalse(wrong)


class Sources(Case):
    def setUp(self):
        self.room = tempfile.TemporaryDirectory()
        self.addCleanup(self.room.cleanup)
        self.path = Path(self.room.name) / "words.mph"
        self.dump = cmph.build(KEYS)
        self.path.write_bytes(self.dump)

    def test_paths(self):
        for path in (self.path, str(self.path)):
            self.good(cmph.Function(path), KEYS, "bdz")
        self.path.write_bytes(b"")
        self.refused_file("truncated", 0)
        self.path.write_bytes(self.dump[:-1])
        self.refused_file("truncated", len(self.dump) - 1)
        with self.assertRaises(FileNotFoundError):
            cmph.Function(self.path.with_name("none"))
        with self.assertRaises(IsADirectoryError):
            cmph.Function(self.room.name)

    def refused_file(self, fault, offset):
        with self.assertRaises(cmph.DumpError) as caught:
            cmph.Function(self.path)
        self.assertEqual((caught.exception.fault, caught.exception.offset), (fault, offset))

    def test_a_pipe(self):
        ours, theirs = os.pipe()
        os.write(theirs, small("bdz"))
        os.close(theirs)
        self.assertEqual(cmph.Function(f"/dev/fd/{ours}")[b""], 0)
        os.close(ours)

    def test_a_thousand_files(self):
        self.runs(THOUSAND, os.path.realpath(self.room.name))

    def test_a_file_that_is_replaced(self):
        f = cmph.Function(self.path)
        other = self.path.with_name("other")
        other.write_bytes(cmph.build(KEYS[::-1], "chm"))
        os.replace(other, self.path)
        self.good(f, KEYS, "bdz")
        self.good(cmph.Function(self.path), KEYS[::-1], "chm")
        self.path.unlink()
        gc.collect()
        self.good(f, KEYS, "bdz")

    def test_a_file_that_changes(self):
        f = cmph.Function(self.path)
        for change in (0x00, 0x55, 0xFF):
            with open(self.path, "r+b") as file:
                file.seek(24)
                file.write(bytes([change]) * (len(self.dump) - 24))
            self.assertTrue(all(number < f.span or number == cmph.NONE for number in f.many(KEYS + OTHERS)))

    def test_bytes(self):
        with open(self.path, "rb") as file:
            mapped = mmap.mmap(file.fileno(), 0, access=mmap.ACCESS_READ)
        sources = [self.dump, bytearray(self.dump), memoryview(b"-" + self.dump)[1:], array("B", self.dump), mapped]
        for source in sources + ([numpy.frombuffer(self.dump, numpy.uint8)] if numpy else []):
            self.good(cmph.Function(source), KEYS, "bdz")
        for source in (None, 1, ["a"], array("Q", [1]), memoryview(self.dump)[::2]):
            with self.assertRaises(TypeError):
                cmph.Function(source)

    def test_the_bytes_are_kept(self):
        source = bytearray(self.dump)
        f = cmph.Function(source)
        with self.assertRaises(BufferError):
            source.append(0)
        wanted = list(f.many(KEYS))
        del source
        gc.collect()
        self.assertEqual(list(f.many(KEYS)), wanted)

    def test_bytes_that_change(self):
        source = bytearray(self.dump)
        f = cmph.Function(source)
        for change in (0x00, 0x55, 0xFF):
            source[24:] = bytes([change]) * (len(source) - 24)
            self.assertTrue(all(number < f.span or number == cmph.NONE for number in f.many(KEYS + OTHERS)))


class Refused(Case):
    def test_prefixes(self):
        for algorithm in FILES:
            for version in (1, 2):
                whole = small(algorithm, version)
                for length in range(len(whole)):
                    self.refused(whole[:length], "truncated", length)
                self.refused(whole + b"\0", "trailing bytes", None)

    def test_faults(self):
        for algorithm, at, byte, fault, offset in [
            ("bdz", 7, 0x33, "bad magic", None),
            ("bdz", 8, 0, "bad algorithm", None),
            ("bdz", 8, 5, "bad algorithm", None),
            ("bdz", 9, 1, "bad field", 9),
            ("bdz", 10, 2, "bad field", 10),
            ("bdz", 12, 0, "bad field", 12),
            ("bdz", 18, 0, "bad field", 16),
            ("bdz", 24, 0xFF, "bad count", 24),
            ("bdz", 26, 0x13, "bad padding", 26),
            ("bdz", 27, 1, "bad rank", 27),
            ("bdz_ph", 24, 243, "bad cell", 24),
            ("bdz_ph", 25, 81, "bad padding", 25),
            ("chm", 24, 0x22, "bad padding", 24),
            ("brz", 10, 63, "bad field", 10),
            ("brz", 24, 1, "bad count", 24),
            ("brz", 30, 0xFF, "bad count", 30),
        ]:
            dump = bytearray(small(algorithm))
            dump[at] = byte
            self.refused(bytes(dump), fault, offset)

    def test_what_is_said(self):
        for dump, said in ((b"", "truncated at 0"), (b"-" * 30, "bad magic")):
            with self.assertRaises(ValueError) as caught:
                cmph.Function(dump)
            self.assertEqual(str(caught.exception), said)
            again = pickle.loads(pickle.dumps(caught.exception))
            self.assertEqual((str(again), again.fault), (said, caught.exception.fault))

    def test_without_the_library(self):
        around = {**os.environ, "CMPH_C_LIBRARY": "/none/libcmph_c.so.1"}
        left = subprocess.run([sys.executable, "-c", "import cmph"], env=around, capture_output=True, text=True)
        self.assertEqual(left.returncode, 1)
        self.assertRegex(left.stderr, "ImportError: cmph: the library is not loaded.*CMPH_C_LIBRARY")


class Loaded(Case):
    def test_versions(self):
        # one release has the package and the library
        self.assertEqual(".".join(map(str, cmph.library_version())), cmph.__version__)
        self.assertEqual(cmph._library.c_version(), cmph._library.VERSION)

    def test_an_import_without_numpy(self):
        self.runs("import sys; sys.modules['numpy'] = None; import cmph; assert list(cmph.Function(cmph.build([b'a', b'b'], 'chm')).many([b'b'])) == [1]")


class Builds(Case):
    def test_small_files(self):
        for algorithm, (keys, seed, _, _) in FILES.items():
            self.assertEqual(cmph.build(keys, algorithm, seed=seed), small(algorithm))
            for version in (1, 2):
                f = cmph.Function(small(algorithm, version))
                self.assertEqual((len(f), f.algorithm, len(set(f.many(keys)))), (len(keys), algorithm, len(keys)))
                self.assertEqual(list(f.many(keys)), [f[key] for key in keys])

    def test_arrays(self):
        for algorithm in BUILT:
            wanted = cmph.build(KEYS, algorithm)
            self.assertIs(type(wanted), bytes)
            self.assertEqual(cmph.build_arrays(*arrays_of(KEYS), algorithm), wanted)
            self.assertEqual(cmph.build(iter(KEYS), algorithm), wanted)

    def test_plans(self):
        self.assertEqual(cmph.build(KEYS), cmph.build(KEYS, "bdz", 1.23, 7, 1, 100))
        self.assertEqual(cmph.build(KEYS, "chm"), cmph.build(KEYS, "chm", ratio=2.09, b=99))
        self.assertEqual(cmph.build(KEYS, ratio=2, b=3, seed=5)[8:20], bytes.fromhex("02 00 0300 e8030000 80841e00"))
        self.assertEqual(cmph.build(KEYS, "brz", ratio=2, b=700, seed=5)[8:20], bytes.fromhex("04 00 bc02 e8030000 80841e00"))
        for wrong in [
            {"algorithm": "brz", "b": 63}, {"algorithm": "brz", "b": 701}, {"algorithm": "brz", "b": 7}, {"algorithm": "CHM"}, {"algorithm": 2}, {"ratio": 0.999}, {"ratio": 10.001}, {"ratio": math.nan}, {"ratio": math.inf},
            {"b": 2}, {"b": 11}, {"b": -1}, {"b": 2**32 + 7}, {"seed": -1}, {"seed": 2**32}, {"tries": 0}, {"tries": 1001}, {"tries": 2**32 + 1},
        ]:
            with self.subTest(wrong), self.assertRaises(ValueError) as caught:
                cmph.build(KEYS, **wrong)
            self.assertIs(type(caught.exception), ValueError)
        for wrong in ({"seed": 1.0}, {"b": "7"}, {"tries": None}, {"ratio": "2"}):
            with self.subTest(wrong), self.assertRaises(TypeError):
                cmph.build(KEYS, **wrong)

    def test_equal_keys(self):
        for algorithm in BUILT:
            with self.assertRaises(cmph.EqualKeys) as caught:
                cmph.build([b"a", b"b", b"c", b"b", b"a"], algorithm)
            self.assertEqual((caught.exception.first, caught.exception.again, str(caught.exception)), (1, 3, "key 3 is equal to key 1"))

    def test_no_function(self):
        for algorithm in BUILT:
            with self.assertRaisesRegex(cmph.BuildError, "no keys"):
                cmph.build([], algorithm)
            with self.assertRaisesRegex(cmph.BuildError, "no seed works"):
                cmph.build(KEYS, algorithm, ratio=1, tries=2)

    def test_buckets(self):
        keys = [b"%d" % i for i in range(5000)]
        for b in (64, 128, 700):
            for ratio in (1.23, 10):
                f = cmph.Function(cmph.build(keys, "brz", ratio=ratio, b=b))
                self.assertEqual(sorted(f.many(keys)), list(range(5000)))
        # more than a bucket may have, under any seed
        with self.assertRaises(cmph.EqualKeys) as caught:
            cmph.build([b"a"] + [b"b"] * 1100, "brz", tries=2)
        self.assertEqual((caught.exception.first, caught.exception.again), (1, 2))

    def test_a_short_room_by_brz(self):
        # the file is longer than the room that the package takes first
        calls, real = [], cmph._building.c_build_brz
        def short(*words):
            calls.append(words[8])
            return real(*words[:8], 5 if len(calls) == 1 else words[8], *words[9:])
        with mock.patch.object(cmph._building, "c_build_brz", short):
            dump = cmph.build(KEYS, "brz")
        self.assertEqual((dump, len(calls), calls[1]), (cmph.build(KEYS, "brz"), 2, len(dump)))

    def test_too_many_keys(self):
        many = 67_108_865
        with mmap.mmap(-1, 8 * many, flags=mmap.MAP_PRIVATE | mmap.MAP_ANONYMOUS) as ends, memoryview(ends) as view, view.cast("Q") as cuts:
            with self.assertRaisesRegex(cmph.BuildError, "more than 67108864 keys"):
                cmph.build_arrays(b"", cuts)
            with mmap.mmap(-1, 4 * many, flags=mmap.MAP_PRIVATE | mmap.MAP_ANONYMOUS) as room, memoryview(room) as numbers, numbers.cast("I") as out:
                for call in (cmph.Function(small("bdz")).arrays, lambda *more: cmph.route_arrays(*more[:2], 1, 7, more[2])):
                    with self.assertRaisesRegex(ValueError, "more than 67108864 keys"):
                        call(b"", cuts, out)


class OfOthers(Case):
    def test_types_of_pythonapi(self):
        for early in (False, True):
            self.runs(OTHER_TYPES.format(early=early))


class Arrays(Case):
    def setUp(self):
        self.f = cmph.Function(cmph.build(KEYS, "chm"))
        self.calls = [self.f.arrays, lambda data, ends, out=None: cmph.route_arrays(data, ends, 1, 7, out)]

    def test_ends(self):
        for call in [*self.calls, lambda data, ends, out=None: cmph.build_arrays(data, ends)]:
            for ends in ([2, 1], [1, 5], [1, 2**64 - 1]):
                out = array("I", [7, 7])
                with self.assertRaisesRegex(ValueError, "key 1 "):
                    call(b"abcd", array("Q", ends), out=out)
                self.assertEqual(list(out), [7, 7])
            with self.assertRaisesRegex(ValueError, "key 0 "):
                call(b"abcd", array("q", [-1]))
            shifted = memoryview(bytearray(17))[1:].cast("Q")
            spread = memoryview(array("Q", [1, 2, 3]))[::2]
            for ends in ([1, 2], None, 4, "12", b"12345678", array("I", [1]), array("d", [1]), spread, shifted):
                with self.assertRaisesRegex(TypeError, "ends is an array of uint64"):
                    call(b"abcd", ends)
            for data in (None, "abcd", [1], array("H", [1]), memoryview(b"abcd")[::2]):
                with self.assertRaisesRegex(TypeError, "data is bytes"):
                    call(data, array("Q", [1]))

    def test_odd_addresses(self):
        data, ends = arrays_of(KEYS)
        wanted = [list(call(data, ends)) for call in self.calls]
        for shift in range(8):
            shifted = memoryview(bytearray(shift) + data)[shift:]
            self.assertEqual([list(call(shifted, ends)) for call in self.calls], wanted)
            for algorithm in BUILT:
                dump = cmph.build_arrays(shifted, ends, algorithm)
                self.assertEqual(dump, cmph.build(KEYS, algorithm))
                f = cmph.Function(memoryview(bytearray(shift) + dump)[shift:])
                self.good(f, KEYS, algorithm)

    def test_signed_ends(self):
        data, ends = arrays_of(KEYS)
        for call in self.calls:
            self.assertEqual(list(call(data, array("q", ends))), list(call(data, ends)))

    def test_out(self):
        for call in self.calls:
            for out in (array("I", [7]), array("I", [7, 7, 7])):
                with self.assertRaisesRegex(ValueError, "there are 2 keys"):
                    call(b"abcd", array("Q", [1, 2]), out=out)
            fixed, spread = memoryview(array("I", [7, 7])).toreadonly(), memoryview(array("I", [7, 7, 7]))[::2]
            shifted = memoryview(bytearray(9))[1:].cast("I")
            for out in (array("Q", [7, 7]), array("f", [7, 7]), [7, 7], fixed, spread, shifted):
                with self.assertRaisesRegex(TypeError, "out is"):
                    call(b"abcd", array("Q", [1, 2]), out=out)

    def test_out_overlaps(self):
        room = memoryview(bytearray(64))
        room[0] = 1
        for call in self.calls:
            with self.assertRaisesRegex(ValueError, "overlaps"):
                call(b"abcd", room[:8].cast("Q"), out=room[4:8].cast("I"))
            with self.assertRaisesRegex(ValueError, "overlaps"):
                call(room[7:9], array("Q", [1]), out=room[4:8].cast("I"))
            call(room[8:9], array("Q", [1]), out=room[4:8].cast("I"))
        dump = bytearray(small("chm") + b"\0\0\0")
        f = cmph.Function(memoryview(dump)[:25])
        with self.assertRaisesRegex(ValueError, "overlaps"):
            f.arrays(b"abcd", array("Q", [1]), out=memoryview(dump)[24:28].cast("I"))

    def test_shards(self):
        for shards in (1, 7, 671_088_645):
            found = list(cmph.route(KEYS, 3, shards))
            self.assertEqual(found, list(cmph.route_arrays(*arrays_of(KEYS), 3, shards)))
            self.assertTrue(all(shard < shards for shard in found))
        self.assertEqual(len(cmph.route([], 3, 7)), 0)
        self.assertEqual(len(set(cmph.route(KEYS, 3, 7))), 7)
        for seed, shards in ((1, 0), (1, 671_088_646), (1, 2**32 + 1), (1, -1), (-1, 1), (2**32, 1)):
            with self.assertRaises(ValueError):
                cmph.route(KEYS, seed, shards)

    def test_without_numpy(self):
        with mock.patch.object(_buffers, "numpy", None):
            for found in (self.f.many(KEYS), self.f.arrays(*arrays_of(KEYS)), cmph.route(KEYS, 1, 7)):
                self.assertIs(type(found), array)
                self.assertEqual((found.typecode, len(found)), ("I", len(KEYS)))


@unittest.skipIf(numpy is None, "numpy is not there")
class Numpy(Case):
    def setUp(self):
        data, ends = arrays_of(KEYS)
        self.data, self.ends = numpy.frombuffer(data, numpy.uint8), numpy.array(ends, numpy.uint64)

    def test_numbers(self):
        for algorithm in BUILT:
            f = cmph.Function(numpy.frombuffer(cmph.build_arrays(self.data, self.ends, algorithm), numpy.uint8))
            for found in (f.many(KEYS), f.arrays(self.data, self.ends), f.arrays(self.data, self.ends.astype(numpy.int64)), cmph.route(KEYS, 1, 7)):
                self.assertEqual((type(found), found.dtype, found.shape), (numpy.ndarray, numpy.uint32, (len(KEYS),)))
            self.assertEqual(f.many(KEYS).tolist(), [f[key] for key in KEYS])
            out = numpy.zeros(len(KEYS), numpy.uint32)
            self.assertIs(f.arrays(self.data, self.ends, out=out), out)
            self.assertEqual(out.tolist(), f.many(KEYS).tolist())
            self.assertEqual(f.many([]).shape, (0,))
            self.assertEqual(f.arrays(self.data[:0], self.ends[:0]).shape, (0,))

    def test_other_arrays(self):
        f = cmph.Function(cmph.build(KEYS))
        zeros = numpy.zeros
        shifted = zeros(17, numpy.uint8)[1:].view(numpy.uint64)
        for ends in (*map(self.ends.astype, (">u8", float, numpy.uint32)), self.ends[::2], self.ends[None], shifted):
            with self.assertRaisesRegex(TypeError, "ends is"):
                f.arrays(self.data, ends)
        for data in (self.data[::2], self.data[None], self.data.astype(numpy.uint16)):
            with self.assertRaisesRegex(TypeError, "data is"):
                f.arrays(data, self.ends)
        for dates in (zeros(1000, "datetime64[s]"), zeros(1000, "timedelta64[s]")):
            for name, call in [
                ("data", lambda: f.arrays(dates, self.ends)), ("ends", lambda: f.arrays(self.data, dates)), ("source", lambda: cmph.Function(dates)),
                ("out", lambda: f.arrays(self.data, self.ends, out=dates)), ("data", lambda: cmph.build_arrays(dates, self.ends)),
            ]:
                with self.assertRaisesRegex(TypeError, f"{name} is .*, not an array of {re.escape(dates.dtype.name)}"):
                    call()
        shifted = zeros(4001, numpy.uint8)[1:].view(numpy.uint32)
        for out in (zeros(1000, numpy.uint64), zeros((1000, 1), numpy.uint32), zeros(2000, numpy.uint32)[::2], shifted):
            with self.assertRaisesRegex(TypeError, "out is"):
                f.arrays(self.data, self.ends, out=out)


    def test_bytes_of_other_types(self):
        dump = numpy.frombuffer(cmph.build(KEYS), numpy.uint8)
        f = cmph.Function(dump)
        wanted = f.many(KEYS).tolist()
        # -1 of int8 is byte 255, and every byte is kept by bool and S1
        for kind in ("i1", "?", "S1", "V1"):
            self.assertEqual(f.arrays(self.data.view(kind), self.ends).tolist(), wanted, kind)
            self.assertEqual(cmph.Function(dump.view(kind)).many(KEYS).tolist(), wanted, kind)
        for kind in ("S2", "f2"):
            with self.assertRaisesRegex(TypeError, "data is"):
                f.arrays(self.data[: self.data.size // 2 * 2].view(kind), self.ends)

    def test_arrays_of_strings(self):
        # numpy drops zero bytes at the end of an item
        f = cmph.Function(cmph.build([b"a", b"a\0", b"b"], "chm"))
        self.assertEqual(f.many(numpy.array([b"a\0", b"b"])).tolist(), [0, 2])
        self.assertEqual(f.many([b"a\0", b"b"]).tolist(), [1, 2])
        self.assertEqual(f.arrays(*arrays_of([b"a\0", b"b"])).tolist(), [1, 2])


class Brz(Case):
    def test_the_small_file(self):
        f = cmph.Function(small("brz"))
        self.assertEqual(sorted(f.many([b"", b"a"])), [0, 1])
        self.assertEqual((f.span, f.algorithm), (2, "brz"))

    @unittest.skipIf(CMPH is None, "the program cmph is not there: CMPH does not name it")
    def test_the_program(self):
        with tempfile.TemporaryDirectory() as scratch:
            keys = [key for key in KEYS if key and b"\n" not in key]
            room = Path(scratch)
            (room / "keys").write_bytes(b"\n".join(keys) + b"\n")
            subprocess.run([CMPH, "-g", "-a", "brz", "-b", "64", "keys"], cwd=room, check=True)
            f = cmph.Function(room / "keys.mph")
            gc.collect()
            self.good(f, keys, "brz")
            dump = (room / "keys.mph").read_bytes()
            for length in range(0, len(dump), 7):
                self.refused(dump[:length], "truncated", length)
            self.refused(dump + b"\0", "trailing bytes", None)

    @unittest.skipIf(CMPH is None, "the program cmph is not there: CMPH does not name it")
    def test_the_files_are_those_of_the_program(self):
        with tempfile.TemporaryDirectory() as scratch:
            room, keys = Path(scratch), [b"%d" % i for i in range(500)]
            (room / "keys").write_bytes(b"\n".join(keys) + b"\n")
            for algorithm in BUILT:
                subprocess.run([CMPH, "-g", "-a", algorithm, "keys"], cwd=room, check=True)
                self.assertEqual(cmph.build(keys, algorithm), (room / "keys.mph").read_bytes())


if __name__ == "__main__":
    unittest.main()
