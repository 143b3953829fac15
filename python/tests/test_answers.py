"""The whole table of known answers, with the public calls."""

import unittest
import warnings
from pathlib import Path

from makers import CLASSES

from nanorand import EmptyRange, OutOfBounds, PastPeriod, WyRand, lots
from nanorand.errors import EmptyLine, EmptySeed, SeedNotText, TooFew

TABLE = Path(__file__).resolve().parents[2] / "tests/answers/answers.tsv"


def rows():
    for line in TABLE.read_text(encoding="ascii").splitlines():
        if not line.startswith("#"):
            yield line.split("\t")


def octets(text):
    return b"" if text == "-" else bytes.fromhex(text)


def numbers(text):
    return [] if text == "-" else [int(number) for number in text.split(",")]


def listed(items):
    return ",".join(map(str, items)) or "-"


def shuffled(shuffle, length):
    items = list(range(length))
    shuffle(items)
    return listed(items)


def jump(rng, low, high=0):
    rng.jump(low + 2**64 * high)
    return "-"


CALLS = {
    "u64": lambda rng: str(rng.u64()),
    "fill_bytes": lambda rng, length: rng.bytes(length).hex() or "-",
    "range_u32": lambda rng, first, last: str(rng.range32(first, last)),
    "range_u64": lambda rng, first, last: str(rng.range(first, last)),
    "range_i64": lambda rng, first, last: str(rng.range(first, last)),
    "range_usize": lambda rng, first, last: str(rng.range(first, last)),
    "shuffle": lambda rng, length: shuffled(rng.shuffle, length),
    "shuffle_full": lambda rng, length: shuffled(rng.shuffle_full, length),
    "sample": lambda rng, count, length: listed(rng.sample_below(count, length)),
    "jump": jump,
    "block": lambda rng: rng.block().hex(),
}


def given(generator, before, call, arguments):
    """The status, the result and the state after a public call."""
    if call == "new_seed":
        return 0, "-", WyRand(int(arguments)).state.hex()
    if call == "seed_from_u64":
        return 0, "-", CLASSES[generator].seed_from_u64(int(arguments)).state.hex()
    rng = CLASSES[generator].from_state(bytes.fromhex(before))
    try:
        if call == "part":
            return 0, "-", rng.part(*numbers(arguments)).state.hex()
        result = CALLS[call](rng, *numbers(arguments))
    except EmptyRange:
        return 1, "-", rng.state.hex()
    except PastPeriod:
        return 3, "-", rng.state.hex()
    return 0, result, rng.state.hex()


def given_digest(text):
    return 0, lots.digest(octets(text)).hex()


def given_count(text):
    try:
        return 0, str(lots.count(octets(text)))
    except EmptyLine as error:
        return 4, str(error.line)


def given_draw(arguments):
    """The table has all places, and the call returns only the drawn ones. Both parts are compared."""
    seed, length, count = arguments.split(",")
    try:
        drawn = lots.draw(octets(seed), range(int(length)), int(count))
    except (EmptySeed, SeedNotText):
        return 2, "-"
    except TooFew:
        return 3, "-"
    return 0, listed(drawn)


class Answers(unittest.TestCase):
    def setUp(self):
        """The table has lengths of parts that `part` warns of."""
        quiet = warnings.catch_warnings()
        quiet.__enter__()
        self.addCleanup(quiet.__exit__, None, None, None)
        warnings.simplefilter("ignore", UserWarning)

    def test_every_row(self):
        tried = set()
        for generator, before, call, arguments, status, result, after in rows():
            if generator == "lots":
                continue
            with self.subTest(generator=generator, call=call, arguments=arguments, before=before):
                if call == "part" and numbers(arguments)[1] == 0:
                    # In other languages a part may have no draws. In Python that is an error.
                    self.assertRaises(OutOfBounds, given, generator, before, call, arguments)
                    continue
                answer = given(generator, before, call, arguments)
                self.assertEqual(answer, (int(status), result, after))
                tried.add((generator, call))
        # Ten calls for each of six generators, three blocks, two jumps and a new seed.
        self.assertEqual(len(tried), 11 * 6 + 6)

    def test_every_row_of_lots(self):
        calls = {"digest": given_digest, "count": given_count, "draw": given_draw}
        tried = set()
        for generator, _, call, arguments, status, result, _ in rows():
            if generator != "lots":
                continue
            if call == "draw" and status == "0":
                result = listed(numbers(result)[: int(arguments.split(",")[2])])
            with self.subTest(call=call, arguments=arguments):
                self.assertEqual(calls[call](arguments), (int(status), result))
                tried.add((call, status))
        self.assertEqual(len(tried), 6)

    def test_the_table_is_whole(self):
        self.assertGreater(len(list(rows())), 1000)
        self.assertEqual({len(row) for row in rows()}, {7})


if __name__ == "__main__":
    unittest.main()
