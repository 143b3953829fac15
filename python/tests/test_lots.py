"""The drawing of lots: the example in docs/LOTS.md, lists of every kind, and each error."""

import hashlib
import random
import unittest

from makers import once, uncounted, views_of
from nanorand import NanorandError, OutOfBounds, _native, lots
from nanorand.errors import EmptyLine, EmptySeed, SeedNotText, TooFew

NAMES = ["Ada", "Barbara", "Chidi", "Dmitri", "Elif", "Farid"]
NAMES += ["Grace", "Hedy", "Ines", "Jun", "Katherine", "Lise"]
TEXT = "".join(name + "\n" for name in NAMES).encode()
SEED = "4 1 6 3 3 2 5 6 1 4 2 6 5 3 1 1 6 2 4 5"


class Lots(unittest.TestCase):
    def test_the_example(self):
        self.assertEqual(
            lots.digest(TEXT).hex(), "32230fec7f4d73fc1dc4888e4bd9becc094a248cb2098b991ab26c2ef227e860"
        )
        self.assertEqual(lots.count(TEXT), 12)
        self.assertEqual(lots.draw(SEED, TEXT, 3), [b"Katherine", b"Jun", b"Chidi"])
        self.assertEqual(lots.draw(SEED, NAMES, 4)[-1], "Farid")

    def test_all_begins_with_the_first(self):
        whole = lots.draw(SEED, NAMES)
        self.assertEqual(sorted(whole), NAMES)
        for count in range(13):
            self.assertEqual(lots.draw(SEED, NAMES, count), whole[:count])
        self.assertEqual(lots.draw(SEED, [], 0), [])
        self.assertEqual(lots.draw(SEED, b""), [])

    def test_views(self):
        """A view of a part, of every second byte or from the end counts as the bytes that it shows."""
        for text in (TEXT, b"", b"a", TEXT[:-1]):
            for view in views_of(text):
                self.assertEqual(lots.digest(view), lots.digest(text))
                self.assertEqual(lots.count(view), lots.count(text))
                self.assertEqual(lots.draw("seed", view), lots.draw("seed", text))
        for view in views_of(SEED.encode()):
            self.assertEqual(lots.draw(view, TEXT), lots.draw(SEED, TEXT))
        for view in views_of(b"a\n\nb\n"):
            with self.assertRaises(EmptyLine):
                lots.draw("seed", view)

    def test_digests(self):
        rng = random.Random(1)
        for length in [*range(200), 1000, 100_000]:
            text = rng.randbytes(length)
            self.assertEqual(lots.digest(text), hashlib.sha256(text).digest())
            self.assertEqual(lots.digest(bytearray(text)), lots.digest(memoryview(text)))

    def test_lines(self):
        for text, lines in (
            (b"", []),
            (b"a", [b"a"]),
            (b"a\nb\r\n \n\0", [b"a", b"b\r", b" ", b"\0"]),
            (b"\xff\xfe\n\xff\xfe\n", [b"\xff\xfe"] * 2),
        ):
            self.assertEqual(lots.count(text), len(lines))
            self.assertEqual(sorted(lots.draw("seed", text)), sorted(lines))
            self.assertEqual(lots.draw("seed", text), lots.draw("seed", lines))
            self.assertEqual(lots.draw("seed", bytearray(text)), lots.draw("seed", memoryview(text)))

    @once
    def test_many_lines(self):
        """More than 2^20 and more than 2^21 lines: each is an entrant."""
        for count in (2**20 + 1, 2**21 + 1):
            lines = [b"%d" % place for place in range(count)]
            drawn = lots.draw("seed", b"\n".join(lines))
            self.assertEqual(len(drawn), count)
            self.assertEqual(set(drawn), set(lines))
            self.assertEqual(drawn[:9], lots.draw("seed", lines, 9))

    def test_entrants_of_every_kind(self):
        for entrants in (NAMES, tuple(NAMES), range(12), [None] * 12, [[place] for place in range(12)]):
            drawn = lots.draw(SEED, entrants, 3)
            self.assertEqual(drawn, [entrants[10], entrants[9], entrants[2]])
        self.assertEqual(NAMES[0], "Ada")

    def test_seeds_of_every_kind(self):
        odd = ["\0", "\0\0", " ", "\t", "\ufeff", "\ufeff\ufeff", "\u200b", "\U0010ffff", "\ufeffseed", " seed ",
               "seed\n", "seed\r\n", "\n", "\r", "e\u0301", "SEED", "ﬁ", "x" * 100_000]
        for seed in ("seed", "Zürich, 1. März", *odd):
            text = seed.encode()
            wanted = lots.draw(seed, NAMES)
            shown = type("Shown", (str,), {"__str__": lambda self: "another"})
            for same in (text, bytearray(text), memoryview(text), shown(seed)):
                self.assertEqual(lots.draw(same, NAMES), wanted)

    def test_refusals(self):
        refused = [
            (EmptySeed, "", NAMES, 1),
            (EmptySeed, b"", b"\n", 99),
            (SeedNotText, b"\xff", NAMES, 1),
            (SeedNotText, b"seed\xc3", b"\n", 99),
            (SeedNotText, b"\xed\xa0\x80", NAMES, 1),
            *[(SeedNotText, seed, NAMES, 1) for seed in ("\ud800", "\udcc3\udca9", "a\udc80", "\ud83d\ude00"[::-1],
                                                         "\udce2\udc82\udcac", "\ud83d\ude00")],
            (EmptyLine, "seed", b"a\n\n", 99),
            (EmptyLine, "seed", b"\n", 0),
            (TooFew, "seed", b"a\n", 2),
            (TooFew, "seed", NAMES, 2**64 - 1),
            (TooFew, "seed", [], 1),
            (MemoryError, "seed", range(2**60), 1),
            (MemoryError, "seed", range(2**63 - 1), 1),
            (OutOfBounds, "seed", NAMES, -1),
            (OutOfBounds, "seed", NAMES, 2**64),
            (TypeError, "seed", NAMES, 1.0),
            (TypeError, "seed", NAMES, "1"),
            (TypeError, "seed", NAMES, "all"),
            (TypeError, "seed", "abc", 1),
            (TypeError, "seed", {1, 2, 3}, 1),
            (TypeError, "seed", {0: 1}, 1),
            (TypeError, "seed", iter(NAMES), 1),
            (TypeError, "seed", None, 1),
            (TypeError, "seed", 5, 1),
            (TypeError, 42, NAMES, 1),
            (TypeError, None, NAMES, 1),
            (TypeError, ["seed"], NAMES, 1),
        ]
        for error, seed, entrants, count in refused:
            with self.subTest(seed=seed, entrants=entrants, count=count):
                with self.assertRaises(error) as caught:
                    lots.draw(seed, entrants, count)
                self.assertIs(type(caught.exception), error)

    def test_errors_say_what_was_wrong(self):
        with self.assertRaises(EmptyLine) as caught:
            lots.count(b"a\n" * 99 + b"\n\n")
        self.assertEqual(caught.exception.line, 100)
        self.assertEqual(str(caught.exception), "line 100 is empty")
        with self.assertRaises(TooFew) as caught:
            lots.draw("seed", NAMES, 13)
        self.assertEqual((caught.exception.entrants, caught.exception.count), (12, 13))
        self.assertEqual(str(caught.exception), "12 entrants, 13 asked for")
        with self.assertRaisesRegex(TypeError, "^entrants is a str: pass the bytes of a list, or a sequence of"):
            lots.draw("seed", "abc")
        for error in (EmptySeed, SeedNotText, EmptyLine, TooFew):
            self.assertTrue(issubclass(error, NanorandError) and issubclass(error, ValueError))

    def test_what_no_public_call_does(self):
        for entrants, count, error in [(-1, 1, OutOfBounds), (2**64, 1, OutOfBounds), (12, -1, OutOfBounds),
                                       (12, 2**64, OutOfBounds), ("12", 1, TypeError), (12, 1.0, TypeError)]:
            self.assertRaises(error, _native.lots_places, b"seed", entrants, count)
        self.assertRaises(TypeError, _native.lots_places, "seed", 12, 1)
        self.assertRaises(TypeError, _native.lots_places, b"seed", 12)

    def test_texts_of_other_types(self):
        for text in ("abc", 5, None, [1, 2], 1.5):
            for call in (lots.digest, lots.count):
                with self.assertRaises(TypeError):
                    call(text)

    @uncounted
    def test_more_bits_than_32_bits_count(self):
        """The bytes are zeros, which take no memory until they are written."""
        wanted = "7c40fe5ce847740d0f0d0cdde3949d6585804cdec3ae61a15b923165699c8137"
        self.assertEqual(lots.digest(bytes(2**29 + 1)).hex(), wanted)

    @once
    def test_more_bytes_than_32_bits_count(self):
        wanted = "fbb82f7b353676bb562eb82157fcf0ea42c36492ca13ee56dbf82c08b6802c5c"
        self.assertEqual(lots.digest(bytes(2**32 + 1)).hex(), wanted)

    def test_a_long_list(self):
        text = b"".join(b"%d\n" % number for number in range(100_000))
        drawn = lots.draw("a long list", text)
        self.assertEqual(len(drawn), 100_000)
        self.assertEqual(set(drawn), {b"%d" % number for number in range(100_000)})


if __name__ == "__main__":
    unittest.main()
