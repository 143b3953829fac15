"""States that can be stored as JSON, and positions in a keystream."""

import json
import random
import unittest

from makers import CLASSES, KEY, NONCE, generators, refuses

from nanorand import OutOfBounds, Pcg64, Stream, WrongLength, WyRand
from nanorand.errors import ForeignState

END = 2**70


class Dicts(unittest.TestCase):
    def test_through_json(self):
        for rng in generators():
            rng.bytes(100)
            saved = rng.state_dict
            self.assertEqual(saved, {"generator": type(rng).__name__, "state": rng.state.hex()})
            loaded = json.loads(json.dumps(saved))
            made = type(rng).from_state(loaded)
            self.assertEqual(made, rng)
            drawn = [rng.u64() for _ in range(20)]
            self.assertEqual([made.u64() for _ in range(20)], drawn)
            made.state = loaded
            self.assertEqual([made.u64() for _ in range(20)], drawn)

    def test_of_subclasses(self):
        for kind in CLASSES.values():
            own = type("Own", (kind,), {})
            rng = own.from_entropy()
            self.assertEqual(rng.state_dict["generator"], kind.__name__)
            self.assertEqual(kind.from_state(rng.state_dict).state, rng.state)
            self.assertEqual(own.from_state(rng.state_dict), rng)

    def test_what_else_it_has(self):
        """Other entries are allowed, and so are other ways to write the digits."""
        saved = {**WyRand(42).state_dict, "run": 7}
        self.assertEqual(WyRand.from_state(saved), WyRand(42))
        self.assertEqual(Pcg64.from_state({"generator": "Pcg64", "state": "2A" + 15 * " 00"}), Pcg64(42))
        self.assertEqual(WyRand.from_state(type("Own", (dict,), {})(saved)), WyRand(42))

    def test_refused(self):
        for rng in generators():
            name, digits = type(rng).__name__, rng.state.hex()
            foreign = [{}, {"generator": name}, {"state": digits}, {name: digits}]
            names = (None, 5, name.encode(), "", name.lower(), "Generator")
            foreign += [{"generator": other, "state": digits} for other in names]
            texts = (None, 5, rng.state, [digits], digits[1:], "zz")
            foreign += [{"generator": name, "state": other} for other in texts]
            foreign += [other.state_dict for other in generators() if type(other) is not type(rng)]
            calls = [(ForeignState, state) for state in foreign]
            calls += [(WrongLength, {"generator": name, "state": other}) for other in ("", "00", digits + 128 * "00")]
            calls += [(TypeError, other) for other in (None, 5, digits, [name, digits])]
            for error, state in calls:
                refuses(self, rng, error, lambda rng, state=state: setattr(rng, "state", state))
                refuses(self, rng, error, lambda rng, state=state: rng.from_state(state))
            with self.assertRaises(AttributeError):
                rng.state_dict = {}


class Positions(unittest.TestCase):
    def test_each_position(self):
        whole = Stream(KEY, NONCE).bytes(2000)
        rng, drawing = Stream(KEY, NONCE), Stream(KEY, NONCE)
        for position in range(1200):
            self.assertEqual(drawing.position, position)
            rng.seek(position)
            self.assertEqual((rng.position, rng), (position, drawing))
            self.assertEqual(rng.bytes(700), whole[position : position + 700])
            self.assertEqual(rng.position, position + 700)
            self.assertEqual(drawing.bytes(1), whole[position : position + 1])

    def test_far_positions(self):
        numbers = random.Random(7)
        positions = [numbers.getrandbits(numbers.randrange(71)) for _ in range(500)]
        positions += [2**power + near for power in range(9, 70) for near in (-1, 0, 1)]
        for position in [*positions, END - 1, END - 64, END - 65]:
            rng = Stream(KEY, NONCE, 77, b"rest")
            rng.seek(position)
            self.assertEqual(rng.position, position)
            same = Stream(KEY, NONCE, position // 64)
            same.bytes(position % 64)
            self.assertEqual(rng, same)
            self.assertEqual(rng.bytes(700), same.bytes(700))
            self.assertEqual(rng.position, (position + 700) % END)

    def test_where_it_is(self):
        """The buffered bytes are the last ones before the counter, also if the counter is 0 again."""
        for counter in (0, 1, 5, 2**58, 2**64 - 1):
            for length in range(64):
                rng = Stream(KEY, NONCE, counter, bytes(length))
                self.assertEqual(rng.position, (64 * counter - length) % END)
                rng.seek(position=rng.position)
                self.assertEqual(len(rng.rest), length)
                self.assertEqual(rng.counter, counter)

    def test_refused(self):
        for rng in (Stream(KEY), Stream(KEY, NONCE, 5, b"abc")):
            for position in (-1, END, END + 1, 2**128, 10**5000, -(10**40)):
                error = refuses(self, rng, OutOfBounds, lambda rng, p=position: rng.seek(p))
                self.assertRegex(str(error), f"^position is .*, not in 0..={END - 1}$")
            for position in (1.0, "1", None, b"1"):
                refuses(self, rng, TypeError, lambda rng, p=position: rng.seek(p))
        empty = Stream.__new__(Stream)
        self.assertRaises(RuntimeError, empty.seek, 0)
        self.assertRaises(RuntimeError, lambda: empty.position)


if __name__ == "__main__":
    unittest.main()
