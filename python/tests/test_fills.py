"""Fills of memory: numbers for every kind of item, every kind of buffer, and errors."""

import array
import contextlib
import ctypes
import mmap
import random
import struct
import unittest

from makers import KEY, WINDOW, generators, long_memory, refuses

from nanorand import EmptyRange, OutOfBounds, Stream, WyRand

try:
    import _testbuffer
except ImportError:
    _testbuffer = None

WHOLE = "BHILQbhilq"
LENGTHS = (0, 1, 2, 7, 64, 1000)
LONG = 1 << 16  # larger fills release Python's lock


def bounds_of(letter):
    """The minimum and the maximum of an item."""
    bits = 8 * array.array(letter).itemsize
    return (0, 2**bits - 1) if letter.isupper() else (-(2 ** (bits - 1)), 2 ** (bits - 1) - 1)


def spans_of(letter):
    least, greatest = bounds_of(letter)
    return [(least, greatest), (least, least), (greatest, greatest), (0, 0), (1, 6), (least, least + 1),
            (greatest - 1, greatest), (least // 2, greatest // 3), (0, greatest)]


def drawn_of(rng, letter, first, last):
    """The expected value of an item."""
    if array.array(letter).itemsize == 8:
        return rng.range(first, last)
    return first + rng.range32(0, last - first)


class Memory:
    """Writable buffers of every kind with this number of bytes."""

    def __init__(self, length):
        self.length = length

    def made(self):
        yield bytearray(self.length)
        yield memoryview(bytearray(self.length))
        yield memoryview(bytearray(self.length + 10))[3 : 3 + self.length]
        yield array.array("B", bytes(self.length))
        yield array.array("b", bytes(self.length))
        yield memoryview(array.array("B", bytes(self.length))).cast("c")
        if self.length:
            yield (ctypes.c_uint8 * self.length)()
            yield mmap.mmap(-1, self.length)
        if self.length and self.length % 8 == 0:
            yield array.array("Q", bytes(self.length))
            yield array.array("h", bytes(self.length))
            yield memoryview(bytearray(self.length)).cast("B", (self.length // 8, 8))
            yield (ctypes.c_int64 * (self.length // 8))()


class Bytes(unittest.TestCase):
    def test_the_next_bytes(self):
        for rng in generators():
            for length in (0, 1, 8, 63, 64, 65, 1000, LONG, LONG + 8):
                state = rng.state
                wanted = rng.bytes(length)
                after = rng.state
                for buffer in Memory(length).made():
                    rng.state = state
                    self.assertIsNone(rng.fill(buffer))
                    self.assertEqual(bytes(memoryview(buffer).cast("B") if length else b""), wanted)
                    self.assertEqual(rng.state, after)

    def test_nothing_around_is_written(self):
        for rng in generators():
            for length in (0, 1, 9, 100, LONG + 1):
                whole = bytearray(b"\xa5" * (length + 20))
                rng.fill(memoryview(whole)[10 : 10 + length])
                self.assertEqual(whole[:10] + whole[10 + length :], b"\xa5" * 20)

    def test_the_buffer_is_given_back(self):
        """After the call the buffer can grow, so it is no longer exported."""
        for call in (
            lambda rng, buffer: rng.fill(buffer),
            lambda rng, buffer: rng.fill_range(buffer, 0, 9),
            lambda rng, buffer: rng.fill_random(buffer),
            lambda rng, buffer: rng.fill_range(buffer, 9, 0),
            lambda rng, buffer: rng.fill_range(buffer, None, 0),
            lambda rng, buffer: WyRand.__new__(WyRand).fill(buffer),
        ):
            buffer = bytearray(9)
            with contextlib.suppress(TypeError, ValueError, RuntimeError):
                call(WyRand(1), buffer)
            buffer.append(1)


class Ranges(unittest.TestCase):
    def test_each_item_is_what_range_gives(self):
        for rng in generators():
            for letter in WHOLE:
                for first, last in spans_of(letter):
                    for length in (0, 1, 2, 33):
                        same = rng.copy()
                        items = array.array(letter, bytes(length * array.array(letter).itemsize))
                        self.assertIsNone(rng.fill_range(items, first, last))
                        self.assertEqual(items.tolist(), [drawn_of(same, letter, first, last) for _ in range(length)])
                        self.assertEqual(rng, same)

    def test_ranges_that_reject_many_words(self):
        """Words are drawn ahead. None is lost or drawn twice, wherever some are rejected."""
        for rng in generators():
            for letter, sizes in (("Q", [2**63 + 1, 3 * 2**62 + 5, 2**64 - 1]), ("q", [2**63 + 1, 2**64 // 3 + 1]),
                                  ("I", [2**31 + 1, 3 * 2**30 + 5, 2**32 - 1])):
                least = bounds_of(letter)[0]
                for size in sizes:
                    for length in (1, 255, 256, 257, 513, 2047, 2048, 2049, 4097):
                        same = rng.copy()
                        items = array.array(letter, bytes(length * array.array(letter).itemsize))
                        rng.fill_range(items, least, least + size - 1)
                        wanted = [drawn_of(same, letter, least, least + size - 1) for _ in range(length)]
                        self.assertEqual((items.tolist(), rng), (wanted, same), (letter, size, length))

    def test_random_spans(self):
        numbers = random.Random(7)
        for rng in generators():
            for _ in range(300):
                letter = numbers.choice(WHOLE)
                least, greatest = bounds_of(letter)
                first, last = sorted(numbers.randint(least, greatest) for _ in range(2))
                last = min(greatest, first + numbers.getrandbits(numbers.randrange(1, 65)), last)
                same, items = rng.copy(), array.array(letter, [0] * numbers.randrange(600))
                rng.fill_range(items, first, last)
                wanted = [drawn_of(same, letter, first, last) for _ in items]
                self.assertEqual((items.tolist(), rng), (wanted, same), (letter, first, last))

    def test_unsigned_items_of_four_bytes_are_range32(self):
        for rng in generators():
            same = rng.copy()
            items = array.array("I", bytes(400))
            rng.fill_range(items, 5, 2**31 + 7)
            self.assertEqual(items.tolist(), [same.range32(5, 2**31 + 7) for _ in items])

    def test_ends_are_drawn(self):
        for letter in WHOLE:
            for first, last in ((-1, 1), (5, 7)):
                if first >= bounds_of(letter)[0]:
                    items = array.array(letter, [0] * 200)
                    WyRand(5).fill_range(items, first, last)
                    self.assertEqual(set(items), set(range(first, last + 1)))

    def test_bounds_that_no_item_holds(self):
        for rng in generators():
            for letter in WHOLE:
                least, greatest = bounds_of(letter)
                items = array.array(letter, [7, 7])
                for bad in (least - 1, greatest + 1, 10**5000, -(10**5000)):
                    for name, call in (("first", lambda rng, bad=bad: rng.fill_range(items, bad, greatest)),
                                       ("last", lambda rng, bad=bad: rng.fill_range(items, least, bad))):
                        error = refuses(self, rng, OutOfBounds, call)
                        self.assertRegex(str(error), rf"^{name} is .*, not in {least}\.\.={greatest}$")
                for first, last in ((1, 0), (greatest, least), (greatest, greatest - 1)):
                    refuses(self, rng, EmptyRange, lambda rng, f=first, o=last: rng.fill_range(items, f, o))
                for bad in (1.0, "1", None):
                    refuses(self, rng, TypeError, lambda rng, bad=bad: rng.fill_range(items, bad, 5))
                    refuses(self, rng, TypeError, lambda rng, bad=bad: rng.fill_range(items, 0, bad))
                self.assertEqual(items.tolist(), [7, 7])

    def test_a_bound_that_changes_the_buffer(self):
        """The bound cannot change the buffer's size, because the buffer is exported during the call."""
        class Grows:
            def __index__(self):
                with self.test.assertRaises(BufferError):
                    self.buffer.append(1)
                return 3

        grows = Grows()
        grows.test, grows.buffer = self, bytearray(9)
        WyRand(1).fill_range(grows.buffer, 0, grows)
        self.assertEqual(len(grows.buffer), 9)


class Floats(unittest.TestCase):
    def test_doubles(self):
        for rng in generators():
            for length in (*LENGTHS, LONG // 8 + 1):
                same = rng.copy()
                items = array.array("d", bytes(8 * length))
                self.assertIsNone(rng.fill_random(items))
                self.assertEqual(items.tolist(), [same.random() for _ in items])
                self.assertEqual(rng, same)

    def test_floats(self):
        for rng in generators():
            for length in (*LENGTHS, LONG // 4 + 1):
                same = rng.copy()
                items = array.array("f", bytes(4 * length))
                rng.fill_random(items)
                self.assertEqual(items.tolist(), [(same.u64() >> 40) / 2**24 for _ in items])
                self.assertEqual(rng, same)

    def test_ends(self):
        words = [0, 2**11, 2**40 - 1, 2**40, 2**64 - 1]
        rest = b"".join(word.to_bytes(8, "little") for word in words)
        for letter, wanted in (("d", [(word >> 11) / 2**53 for word in words]), ("f", [0, 0, 0, 2**-24, 1 - 2**-24])):
            items = array.array(letter, [9] * 5)
            Stream(KEY, rest=rest).fill_random(items)
            self.assertEqual(items.tolist(), wanted)


class Long(unittest.TestCase):
    """More than 2 GiB of memory. Range fills of it are in refusals.py, where the library is faster."""

    def test_each_fill(self):
        """The memory has what the generator draws last, and the state shows that it has drawn everything before."""
        memory = long_memory(self)
        for name, letter in ("fill", "Q"), ("fill_random", "d"), ("fill_random", "f"):
            rng, same, last = WyRand(5), WyRand(5), array.array(letter, bytes(WINDOW))
            every_fill(memoryview(memory).cast(letter))[name](rng)
            same.jump((len(memory) - WINDOW) // last.itemsize)
            every_fill(last)[name](same)
            self.assertEqual(rng, same)
            self.assertTrue(memory[:WINDOW] == last.tobytes())


def every_fill(buffer):
    """The fills of a buffer, by name."""
    return {
        "fill": lambda rng: rng.fill(buffer),
        "fill_range": lambda rng: rng.fill_range(buffer, 0, 1),
        "fill_random": lambda rng: rng.fill_random(buffer),
    }


def fills_of(letter):
    """The names of the fills that accept items of this type."""
    return {"c": ["fill"], "d": ["fill_random"], "f": ["fill_random"]}.get(letter, ["fill", "fill_range"])


def alike(letter, size):
    """The type code of an array with items of the same size: with some byte-order marks, L has four bytes."""
    letters = [one for one in (letter, *WHOLE) if one != "c" and one.isupper() == (letter.isupper() or letter == "c")]
    return next(one for one in letters if array.array(one).itemsize == size)


class Refusals(unittest.TestCase):
    def test_what_is_no_buffer(self):
        for rng in generators():
            for buffer in (None, 5, "text", [1, 2], (1, 2), range(5), object(), iter(b"")):
                for call in every_fill(buffer).values():
                    error = refuses(self, rng, TypeError, call)
                    self.assertRegex(str(error), f"^buffer is a {type(buffer).__name__}, not ")

    def test_memory_that_cannot_be_written(self):
        read_only = [b"12345678", memoryview(b"12345678"), memoryview(bytearray(8)).toreadonly()]
        read_only += [memoryview(b"12345678").cast("d"), memoryview(array.array("d", [0])).toreadonly()]
        read_only += [b"", memoryview(b""), memoryview(array.array("Q")).toreadonly()]
        for rng in generators():
            for buffer in read_only:
                for call in every_fill(buffer).values():
                    error = refuses(self, rng, BufferError, call)
                    self.assertEqual(str(error), "buffer is read-only")

    def test_memory_with_gaps(self):
        for rng in generators():
            for buffer in (bytearray(9), array.array("q", [0] * 9), array.array("d", [0] * 9)):
                for view in (memoryview(buffer)[::2], memoryview(buffer)[::-1]):
                    before = bytes(buffer)
                    for call in every_fill(view).values():
                        error = refuses(self, rng, BufferError, call)
                        self.assertEqual(str(error), "buffer is not C-contiguous")
                    self.assertEqual(bytes(buffer), before)

    def test_items_of_another_kind(self):
        class Pair(ctypes.Structure):
            _fields_ = [("one", ctypes.c_uint32), ("other", ctypes.c_uint32)]

        floats = [array.array("d", [0]), array.array("f", [0]), (ctypes.c_double * 2)()]
        wholes = [array.array(letter, [0]) for letter in WHOLE]
        neither = [(Pair * 2)(), (ctypes.c_void_p * 2)(), (ctypes.py_object * 2)(), (ctypes.c_bool * 2)(),
                   (ctypes.c_uint32.__ctype_be__ * 2)(), (ctypes.c_longdouble * 2)(),
                   memoryview(bytearray(8)).cast("P"), memoryview(bytearray(8)).cast("?")]
        wrong = {"fill": [*floats, *neither], "fill_range": [*floats, *neither, memoryview(bytearray(8)).cast("c")],
                 "fill_random": [*wholes, *neither, bytearray(8)]}
        for rng in generators():
            for name, buffers in wrong.items():
                for buffer in buffers:
                    error = refuses(self, rng, TypeError, every_fill(buffer)[name])
                    self.assertRegex(str(error), "^buffer has items of the format '.*', not one of '")

    def test_a_view_that_was_released(self):
        for rng in generators():
            view = memoryview(bytearray(8))
            view.release()
            for call in every_fill(view).values():
                refuses(self, rng, ValueError, call)

    def test_formats_with_an_order(self):
        """The formats with which ctypes and NumPy write this machine's byte order."""
        kinds = [(ctypes.c_uint8, "B"), (ctypes.c_uint16, "H"), (ctypes.c_uint32, "I"), (ctypes.c_ulong, "L"),
                 (ctypes.c_int8, "b"), (ctypes.c_int16, "h"), (ctypes.c_int32, "i"), (ctypes.c_long, "l")]
        for kind, letter in kinds:
            width = 8 * ctypes.sizeof(kind)
            least = -(2 ** (width - 1)) if letter.islower() else 0
            for first, last in [(3, 99), (least, least + 2**width - 1)]:
                memory, items = (kind * 50)(), array.array(letter, [0] * 50)
                WyRand(5).fill_range(memory, first, last)
                WyRand(5).fill_range(items, first, last)
                self.assertEqual(list(memory), items.tolist())
        for kind, letter in (ctypes.c_double, "d"), (ctypes.c_float, "f"):
            memory, items = (kind * 50)(), array.array(letter, [0] * 50)
            WyRand(5).fill_random(memory)
            WyRand(5).fill_random(items)
            self.assertEqual(list(memory), items.tolist())

    def test_memory_that_is_not_aligned(self):
        for letter in (*WHOLE, "d", "f"):
            size = struct.calcsize(letter)
            whole = bytearray(size * 20 + 1)
            view, items = memoryview(whole)[1:].cast(letter), array.array(letter, [0] * 20)
            for buffer in (view, items):
                rng = WyRand(5)
                rng.fill_random(buffer) if letter in "df" else rng.fill_range(buffer, 0, 99)
            self.assertEqual(view.tolist(), items.tolist())


@unittest.skipUnless(_testbuffer, "this Python has no _testbuffer")
class Exporters(unittest.TestCase):
    """Buffers of every shape, from the module with which Python tests its own buffers."""

    def made(self, flags=0, shape=(2, 3), letter="Q", items=(0,) * 6):
        return _testbuffer.ndarray(list(items), shape=list(shape), format=letter, flags=_testbuffer.ND_WRITABLE | flags)

    def test_shapes(self):
        for shape in ((6,), (2, 3), (3, 2), (1, 6, 1)):
            for letter in (*WHOLE, "d", "f"):
                name = "fill_random" if letter in "df" else "fill_range"
                made, items = self.made(shape=shape, letter=letter), array.array(letter, [0] * 6)
                every_fill(made)[name](WyRand(5))
                every_fill(items)[name](WyRand(5))
                self.assertEqual(made.tobytes(), items.tobytes())

    def marked(self, marks):
        """A buffer of each format with each byte-order mark, and an array with the same items."""
        for mark in marks:
            for letter in (*WHOLE, "c", "d", "f"):
                made = self.made(letter=mark + letter, items=[b"\0" if letter == "c" else 0] * 6)
                yield letter, made, array.array(alike(letter, memoryview(made).itemsize), [0] * 6)

    def test_marks_of_this_machine_s_order(self):
        for letter, made, items in self.marked(["", "@", "=", "<"]):
            for name, call in every_fill(made).items():
                rng, same = WyRand(5), WyRand(5)
                if name in fills_of(letter):
                    call(rng)
                    every_fill(items)[name](same)
                    self.assertEqual((made.tobytes(), rng), (items.tobytes(), same), (name, made.format))
                else:
                    refuses(self, rng, TypeError, call)

    def test_bounds_by_each_mark(self):
        for letter, made, items in self.marked(["", "@", "=", "<"]):
            if letter in WHOLE:
                least, greatest = bounds_of(items.typecode)
                for first, last in spans_of(items.typecode):
                    WyRand(5).fill_range(made, first, last)
                    WyRand(5).fill_range(items, first, last)
                    self.assertEqual(made.tobytes(), items.tobytes(), made.format)
                for first, last in ((least - 1, greatest), (least, greatest + 1)):
                    refuses(self, WyRand(5), OutOfBounds, lambda rng, f=first, o=last: rng.fill_range(made, f, o))

    def test_marks_of_another_order(self):
        """They are an error even for items of one byte."""
        for _, made, _ in self.marked([">", "!"]):
            for call in every_fill(made).values():
                error = refuses(self, WyRand(5), TypeError, call)
                self.assertRegex(str(error), f"^buffer has items of the format '{made.format}', not one of '")

    def test_what_is_refused(self):
        flags = [_testbuffer.ND_FORTRAN, _testbuffer.ND_PIL]
        pairs = [self.made(letter=letter, items=[(0, 0)] * 6) for letter in ("BB", "QQ", "=Qd", "dd", "2f")]
        kinds = [self.made(letter=letter) for letter in (">Q", ">d", "?", "n", "N")]
        for rng in generators():
            for flag in flags:
                for letter in ("Q", "B", "d"):
                    buffer = self.made(flag, letter=letter)
                    before = buffer.tolist()
                    for call in every_fill(buffer).values():
                        refuses(self, rng, BufferError, call)
                    self.assertEqual(buffer.tolist(), before)
            read_only = _testbuffer.ndarray([0] * 6, shape=[6], format="Q")
            for call in every_fill(read_only).values():
                refuses(self, rng, BufferError, call)
            for buffer in (*pairs, *kinds):
                for call in every_fill(buffer).values():
                    refuses(self, rng, TypeError, call)


class NumPy(unittest.TestCase):
    """NumPy's arrays, if NumPy is there."""

    def setUp(self):
        try:
            import numpy
        except ImportError:
            self.skipTest("there is no NumPy")
        self.numpy = numpy

    def test_arrays(self):
        names = {"uint8": "B", "uint16": "H", "uint32": "I", "uint64": "Q"}
        names |= {"int8": "b", "int16": "h", "int32": "i", "int64": "q"}
        for rng in generators():
            for name, letter in names.items():
                for shape in ((0,), (7,), (3, 4), (2, 3, 4), ()):
                    made = self.numpy.zeros(shape, name)
                    items = array.array(letter, [0] * made.size)
                    same = rng.copy()
                    rng.fill_range(made, 0, 99)
                    same.fill_range(items, 0, 99)
                    self.assertEqual(made.ravel().tolist(), items.tolist())
                    rng.fill(made)
                    same.fill(items)
                    self.assertEqual(made.tobytes(), items.tobytes())
                    self.assertEqual(rng, same)
            for name in ("float64", "float32"):
                made = self.numpy.zeros((5, 5), name)
                items = array.array(name[5] == "6" and "d" or "f", [0] * 25)
                same = rng.copy()
                rng.fill_random(made)
                same.fill_random(items)
                self.assertEqual(made.ravel().tolist(), items.tolist())

    def test_memory_that_is_not_aligned(self):
        """Its items have this machine's byte order as well, although NumPy marks them with `=`."""
        for letter in (*WHOLE, "d", "f"):
            items = array.array(letter, [0] * 20)
            made = self.numpy.frombuffer(bytearray(20 * items.itemsize + 1), letter, offset=1)
            self.assertEqual(made.flags.aligned, items.itemsize == 1)
            for name in fills_of(letter):
                every_fill(made)[name](WyRand(5))
                every_fill(items)[name](WyRand(5))
                self.assertEqual(made.tobytes(), items.tobytes())

    def test_what_is_refused(self):
        numpy = self.numpy
        read_only = numpy.zeros(4)
        read_only.flags.writeable = False
        gaps = [numpy.zeros((4, 4))[:, ::2], numpy.zeros((4, 4)).T[1:], numpy.asfortranarray(numpy.zeros((4, 4)))]
        kinds = [numpy.zeros(4, kind) for kind in ("O", "?", "c16", "f2", ">i4", "S3", "U3")]
        kinds += [numpy.zeros(4, [("a", "i4"), ("b", "f8")])]
        for rng in generators():
            for call in every_fill(read_only).values():
                refuses(self, rng, BufferError, call)
            for buffer in gaps:
                for call in every_fill(buffer).values():
                    refuses(self, rng, BufferError, call)
            for buffer in kinds:
                for call in every_fill(buffer).values():
                    refuses(self, rng, TypeError, call)
            for kind in ("M8[s]", "m8[s]"):
                for call in every_fill(numpy.zeros(4, kind)).values():
                    refuses(self, rng, (TypeError, ValueError, BufferError), call)


if __name__ == "__main__":
    unittest.main()
