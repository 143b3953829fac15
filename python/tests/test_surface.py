"""What callers see besides the numbers: names of arguments, types, texts without keys, special methods, imports."""

import array
import copy
import inspect
import re
import subprocess
import sys
import unittest
from pathlib import Path
from unittest import mock

from makers import CHACHAS, CLASSES, COPIES, KEY, NONCE, RANDOMS, Index, generators, refuses, stays_itself, told_of

from nanorand import ChaCha20, OutOfBounds, Pcg64, Stream, WrongLength, WyRand, errors, generators as kinds, lots

README = Path(__file__).resolve().parents[1] / "README.md"
COMPARISONS = {"__eq__", "__ne__", "__lt__", "__le__", "__gt__", "__ge__"}
HUGE = 10**5000  # more digits than Python converts to text
# The special methods of generators. Any other one would be a further ability: an order, a length, a text.
SPECIAL = {
    "Generator": {"__new__", "__hash__", "__reduce__", *COMPARISONS},
    **{kind.__name__: {"__new__", "__init__", "__repr__"} for kind in CLASSES.values()},
    "GeneratorRandom": {"__init__", "__init_subclass__", "__reduce__", "__setstate__"},
    "BaseRandom": {"__new__"},
}
# Attributes that Python itself adds to each class.
OF_EVERY_CLASS = {
    *("__module__", "__doc__", "__dict__", "__weakref__", "__annotations__", "__qualname__"),
    *("__static_attributes__", "__firstlineno__", "__annotate_func__", "__annotations_cache__", "__slotnames__"),
}
# The calls of generators that raise errors of this package, by name. The error after 128 words is in refusals.py.
RAISING = {
    "state": [("WrongLength", lambda rng: setattr(rng, "state", b"short")),
              ("ForeignState", lambda rng: setattr(rng, "state", {}))],
    "from_state": [("WrongLength", lambda rng: rng.from_state(b"short")),
                   ("ForeignState", lambda rng: rng.from_state({}))],
    "seed_from_u64": [("OutOfBounds", lambda rng: rng.seed_from_u64(-1)),
                      ("OutOfBounds", lambda rng: rng.seed_from_u64(2**64))],
    "part": [("OutOfBounds", lambda rng: rng.part(-1, 1)), ("OutOfBounds", lambda rng: rng.part(1, 2**64)),
             ("OutOfBounds", lambda rng: rng.part(0, 0)),
             ("PastPeriod", lambda rng: rng.part(2**64 - 1, 2**64 - 1))],
    "jump": [("OutOfBounds", lambda rng: rng.jump(-1))],
    "seek": [("OutOfBounds", lambda rng: rng.seek(-1)), ("OutOfBounds", lambda rng: rng.seek(2**70))],
    "bytes": [("OutOfBounds", lambda rng: rng.bytes(-1))],
    "below": [("EmptyRange", lambda rng: rng.below(0)), ("OutOfBounds", lambda rng: rng.below(HUGE))],
    "range": [("EmptyRange", lambda rng: rng.range(2, 1)), ("EmptyRange", lambda rng: rng.range(-1, -2)),
              ("OutOfBounds", lambda rng: rng.range(0, HUGE)), ("OutOfBounds", lambda rng: rng.range(-1, 2**63))],
    "range32": [("EmptyRange", lambda rng: rng.range32(2, 1)), ("OutOfBounds", lambda rng: rng.range32(-1, 1))],
    "randint": [("EmptyRange", lambda rng: rng.randint(2, 1)), ("OutOfBounds", lambda rng: rng.randint(0, HUGE))],
    "choice": [("EmptyRange", lambda rng: rng.choice([]))],
    "choices": [("EmptyRange", lambda rng: rng.choices([])), ("EmptyRange", lambda rng: rng.choices("ab", [0, 0])),
                ("WrongLength", lambda rng: rng.choices("ab", [1])),
                ("OutOfBounds", lambda rng: rng.choices("ab", k=-1)),
                ("OutOfBounds", lambda rng: rng.choices("ab", [1, -1])),
                ("OutOfBounds", lambda rng: rng.choices("ab", [1.0, -1.0])),
                ("OutOfBounds", lambda rng: rng.choices("ab", cum_weights=[2, 1])),
                ("WrongLength", lambda rng: rng.choices("ab", cum_weights=[1]))],
    "sample": [("EmptyRange", lambda rng: rng.sample("ab", 3)), ("OutOfBounds", lambda rng: rng.sample("ab", -1)),
               ("WrongLength", lambda rng: rng.sample("ab", 1, counts=[1])),
               ("OutOfBounds", lambda rng: rng.sample("ab", 1, counts=[-1, 1]))],
    "sample_below": [("EmptyRange", lambda rng: rng.sample_below(2, 3)),
                     ("OutOfBounds", lambda rng: rng.sample_below(-1, 0))],
    "fill_range": [("EmptyRange", lambda rng: rng.fill_range(bytearray(2), 2, 1)),
                   ("OutOfBounds", lambda rng: rng.fill_range(bytearray(2), 0, 256))],
}
NEVER_RAISING = {"u64", "random", "uniform", "copy", "from_entropy", "fill", "fill_random", "shuffle", "shuffle_full",
                 "state_dict"}
# The arguments of errors. All other errors are made from their text.
ARGUMENTS = {
    "EmptySeed": lambda error: (),
    "SeedNotText": lambda error: (),
    "EmptyLine": lambda error: (error.line,),
    "TooFew": lambda error: (error.entrants, error.count),
    "ForeignState": lambda error: (error.generator,),
}


def parameters(call):
    return [name for name in inspect.signature(call).parameters if name != "self"]


def required(call):
    """The parameters without a default, and the length of a sample, which may be given by another name."""
    found = inspect.signature(call).parameters.values()
    return [one.name for one in found if one.default is one.empty or one.name == "k" and "sample" in call.__name__]


def has_signature(call):
    """Whether Python knows the signature. Python 3.9 does not keep that of a class written in C."""
    return sys.version_info >= (3, 10) or not inspect.isclass(call)


class Arguments(unittest.TestCase):
    def test_the_readme_names_them_as_the_calls_do(self):
        """So a caller can pass each argument by name."""
        kind = {"block": ChaCha20, "jump": Pcg64, "seek": Stream}
        rows = re.findall(r"^\| ((?:`\w+\([^`]*\)`(?:, )?)+) \|", README.read_text(encoding="utf-8"), re.M)
        found = {call: names for row in rows for call, names in re.findall(r"`(\w+)\(([^)]*)\)`", row)}
        self.assertGreaterEqual(len(found), 14)
        for call, names in found.items():
            thing = getattr(kinds, call, None) or getattr(kind.get(call, WyRand), call)
            if has_signature(thing):
                self.assertEqual(", ".join(parameters(thing)), names, call)
        self.assertEqual(parameters(lots.draw), ["seed", "entrants", "count"])
        self.assertIn("`draw(seed, entrants, count)`", README.read_text(encoding="utf-8"))
        for chacha in filter(has_signature, CHACHAS):
            self.assertEqual(parameters(chacha), ["key", "nonce", "counter"])

    def test_an_error_names_the_argument(self):
        good = {"first": 0, "last": 9, "count": 9, "length": 1, "population": "abc", "end": 5, "index": 1, "draws": 1,
                "number": 7, "position": 9, "k": 1}
        for rng in generators():
            calls = ("seed_from_u64", "bytes", "below", "range", "range32", "sample", "sample_below", "jump", "part",
                     "seek")
            for call in calls:
                for name in required(getattr(rng, call, lambda: None)):
                    given = {other: good[other] for other in required(getattr(rng, call))}
                    for bad, kind in ((None, TypeError), (HUGE, OutOfBounds), (-HUGE, OutOfBounds)):
                        if name == "population" and bad is not None:
                            continue
                        error = refuses(self, rng, kind, lambda rng: getattr(rng, call)(**{**given, name: bad}))
                        self.assertRegex(str(error), rf"^{name} is ")

    def test_arguments_that_do_not_fit(self):
        """For each call: too few and too many arguments, one twice, and one with another name."""
        good = {"first": 0, "last": 9, "count": 9, "length": 1, "population": "abc", "end": 5, "draws": 1, "a": 1,
                "b": 2, "index": 1, "items": [1, 2], "buffer": b"", "state": b"", "number": 7, "position": 9,
                "other": None, "k": 1}
        members = [name for name in dir(kinds.Generator) if not name.startswith("_")]
        calls = [name for name in members if callable(getattr(kinds.Generator, name))]
        self.assertGreater(len(calls), 18)
        for rng in generators():
            own_calls = ("jump", "block", "distance", "seek")
            for name in [*calls, *(name for name in own_calls if hasattr(rng, name))]:
                call = getattr(rng, name)
                names = required(call)
                own = {"state": rng.state, "buffer": array.array("d" if name == "fill_random" else "Q", [0]),
                       "other": rng.copy()}
                values = [{**good, **own}[one] for one in names]
                for arguments, named in (
                    ((*values, *range(5)), {}),
                    (values, {"no_such_name": 1}),
                    *((values, {one: good[one]}) for one in names),
                    *((values[:place], {}) for place in range(len(names))),
                ):
                    refuses(self, rng, TypeError, lambda _, a=arguments, n=named, call=call: call(*a, **n))
                if name not in ("shuffle", "shuffle_full", "from_entropy"):
                    same = rng.copy()
                    self.assertEqual(call(*values), getattr(same, name)(**dict(zip(names, values))), name)

    def test_an_argument_that_is_given_twice(self):
        """For each call and constructor: by position and by name, including optional arguments."""
        good = {"first": 0, "last": 9, "count": 9, "length": 1, "population": "abc", "end": 5, "draws": 1, "a": 1,
                "b": 2, "index": 1, "items": [1, 2], "buffer": b"", "state": b"", "number": 7, "weights": None,
                "k": 1, "cum_weights": None, "key": KEY, "nonce": NONCE, "counter": 0, "rest": b"", "seed": 5,
                "other": None, "position": 9}
        for rng in generators():
            calls = [getattr(rng, name) for name in dir(rng) if not name.startswith("_")]
            for call in (*(call for call in calls if callable(call) and has_signature(call)), type(rng)):
                if not has_signature(call):
                    continue
                places = [one.name for one in inspect.signature(call).parameters.values()
                          if one.kind in (one.POSITIONAL_ONLY, one.POSITIONAL_OR_KEYWORD)]
                for place, name in enumerate(places):
                    values = [good[one] for one in places[:place + 1]]
                    with self.assertRaisesRegex(TypeError, "multiple values|keyword arg|takes at most|given by name"):
                        call(*values, **{name: good[name]})
                if "length" in parameters(call) and "k" in parameters(call):
                    self.assertRaisesRegex(TypeError, "takes k or length", call, *values, length=1)

    def test_each_whole_number_by_its_index(self):
        """For each argument of each call: an object counts as the number of its `__index__`, whatever else it is."""
        good = {"first": 0, "last": 9, "count": 9, "length": 3, "population": "abc", "end": 5, "draws": 1, "a": 1,
                "b": 2,
                "index": 1, "number": 7, "k": 2, "buffer": None, "position": 9}
        tried = set()
        for rng in generators():
            calls = [name for name in dir(rng) if not name.startswith("_") and name != "uniform"]
            for call in (name for name in calls if callable(getattr(rng, name)) and has_signature(getattr(rng, name))):
                names = required(getattr(rng, call)) + ["k"] * (call == "choices")
                for name in (one for one in names if good.keys() >= set(names) and type(good[one]) is int):
                    tried.add((call, name))
                    found, wanted = [], []
                    numbers = (Index(good[name]), found), (good[name], wanted)
                    for same, (number, answers) in ((rng.copy(), pair) for pair in numbers):
                        given = {one: good[one] for one in names}
                        if "buffer" in given:
                            given["buffer"] = array.array("Q", [0, 0])
                        answers += [getattr(same, call)(**{**given, name: number}), given.get("buffer"), same.state]
                    self.assertEqual(found, wanted, (call, name))
        self.assertGreaterEqual(len(tried), 18)

    def test_each_whole_number_of_a_maker_by_its_index(self):
        for kind in (WyRand, Pcg64):
            self.assertEqual(kind(Index(5)), kind(5))
            self.assertEqual(kind.seed_from_u64(Index(7)), kind.seed_from_u64(7))
        for kind in (*CHACHAS, Stream):
            self.assertEqual(kind(KEY, NONCE, Index(5)), kind(KEY, NONCE, 5))
        self.assertEqual(lots.draw("seed", b"a\nb\nc\n", Index(2)), lots.draw("seed", b"a\nb\nc\n", 2))

    def test_an_error_of_a_maker_names_the_argument(self):
        for kind in (WyRand, Pcg64):
            for bad, error in ((None, TypeError), (HUGE, OutOfBounds), (-1, OutOfBounds)):
                with self.assertRaisesRegex(error, "^seed is "):
                    kind(bad)
        good = {"key": KEY, "nonce": NONCE, "counter": 0, "rest": b""}
        for kind in (*CHACHAS, Stream):
            names = [name for name in good if name != "rest" or kind is Stream]
            for name in names:
                for bad in (None, HUGE):
                    with self.assertRaisesRegex((TypeError, OutOfBounds), f"^{name} is "):
                        kind(**{**{other: good[other] for other in names}, name: bad})

    def test_an_error_of_a_maker_names_the_class(self):
        for kind in CLASSES.values():
            for made in (kind, type("Own", (kind,), {})):
                for arguments, named in (((), {}), (range(9), {}), ((KEY,), {"no_such_name": 1})):
                    with self.assertRaisesRegex(TypeError, rf"\b{made.__name__}\(\)"):
                        made(*arguments, **named)


class Types(unittest.TestCase):
    def test_bytes_are_bytes(self):
        for rng in generators():
            rng.state = bytearray(rng.state)
            given = [rng.state, rng.bytes(9), *(getattr(rng, name, b"") for name in ("key", "nonce", "rest"))]
            self.assertEqual({type(one) for one in given}, {bytes})
        for text in (b"a\nb", bytearray(b"a\nb\n"), memoryview(b"a\nb\n")):
            self.assertEqual({type(one) for one in [lots.digest(text), *lots.draw("seed", text)]}, {bytes})

    def test_a_state_is_no_view_of_what_it_was_set_from(self):
        for rng in generators():
            given = bytearray(rng.state)
            rng.state, made = given, type(rng).from_state(given)
            before = bytes(given)
            given[:] = bytes(len(given))
            self.assertEqual((rng.state, made.state), (before, before))

    def test_a_view_that_was_released(self):
        view = memoryview(bytearray(32))
        view.release()
        for call in (lambda: Stream(bytes(32), rest=view), lambda: lots.count(view), lambda: WyRand.from_state(view)):
            self.assertRaises(ValueError, call)

    def test_special_methods(self):
        classes = [one for kind in [*map(type, generators()), *RANDOMS] for one in kind.__mro__]
        for kind in {one for one in classes if one.__module__.startswith("nanorand")}:
            special = {name for name in vars(kind) if name.startswith("__") and name.endswith("__")}
            self.assertEqual(special - OF_EVERY_CLASS, SPECIAL.get(kind.__name__, set()), kind.__name__)

    def test_nothing_is_kept_beside_the_state(self):
        for rng in generators():
            rng.sample("abc", 2)
            rng.shuffle([1, 2, 3])
            self.assertFalse(hasattr(rng, "__dict__"))

    def test_copies_within_a_copy(self):
        for rng in generators():
            items = []
            before, first, second, other, after = copy.deepcopy([items, rng, rng, rng.copy(), items])
            self.assertIs(first, second)
            self.assertIsNot(first, other)
            self.assertIs(before, after)


class Secrets(unittest.TestCase):
    def shows_no_key(self, *texts):
        for text in texts:
            for secret in (KEY.hex(), NONCE.hex(), repr(KEY)[2:20], str(list(KEY))[1:20]):
                self.assertNotIn(secret, text)

    def test_texts(self):
        whole = int.from_bytes(KEY, "little")
        things = [*[kind(KEY, NONCE) for kind in CHACHAS], Stream(KEY, NONCE, rest=NONCE)]
        things += [kind(whole) for kind in RANDOMS if kind.__name__ not in ("WyRandRandom", "Pcg64Random")]
        for thing in things:
            self.shows_no_key(repr(thing), str(thing), f"{thing}", f"{thing!a}", "%s %r" % (thing, thing))
            self.assertNotIn(str(whole), f"{thing} {thing!r}")

    def test_texts_of_errors(self):
        long = 4 * KEY
        calls = [lambda kind=kind, data=data: kind(*data) for kind in (*CHACHAS, Stream)
                 for data in ((long,), (KEY, long), ([*KEY],), (KEY.hex(),), (KEY, [*NONCE]), (KEY, NONCE, KEY))]
        calls += [lambda kind=kind: kind.from_state(long) for kind in (*CHACHAS, Stream)]
        calls += [lambda: Stream(KEY, NONCE, 0, long), lambda: Stream(KEY, NONCE, 0, [*KEY])]
        for call in calls:
            with self.assertRaises((TypeError, WrongLength)) as caught:
                call()
            self.shows_no_key(str(caught.exception), repr(caught.exception))


class Errors(unittest.TestCase):
    def test_errors_cross_processes(self):
        """A pool of workers pickles errors, with their arguments, texts, attributes and what was added to them."""
        rows = [(errors.EmptyLine, (7,), "line 7 is empty", {"line": 7}),
                (errors.TooFew, (3, 4), "3 entrants, 4 asked for", {"entrants": 3, "count": 4}),
                (errors.ForeignState, ("WyRand",), "the state is not one of WyRand", {"generator": "WyRand"}),
                (errors.EmptyRange, (), "there is no number or item to draw", {}),
                (errors.Exhausted, (), "128 words in a row were rejected", {}),
                (errors.EmptySeed, (), "the seed is empty", {}),
                (errors.SeedNotText, (), "the seed is not UTF-8", {})]
        told = ("EmptyRange", "OutOfBounds", "PastPeriod", "WrongLength", "LibraryRefused", "NanorandError")
        rows += [(getattr(errors, name), ("why not",), "why not", {}) for name in told]
        self.assertEqual({kind.__name__ for kind, *_ in rows}, set(errors.__all__))
        for kind, arguments, text, attributes in rows:
            for way in COPIES:
                error = kind(*arguments)
                error.added = [1]
                for again in (error, way(error), way(way(error))):
                    self.assertIs(type(again), kind)
                    self.assertEqual((again.args, str(again)), (arguments, text))
                    self.assertEqual(vars(again), {**attributes, "added": [1]})

    def raised(self, kind, call, *given):
        """An error that a call raises has its arguments, and so has every copy of it."""
        with self.assertRaises(kind) as caught:
            call(*given)
        error = caught.exception
        self.assertIs(type(error), kind)
        self.assertEqual(error.args, ARGUMENTS.get(kind.__name__, lambda error: (str(error),))(error))
        stays_itself(self, error)

    def test_errors_of_every_call(self):
        members = {name for name in dir(kinds.Generator) if not name.startswith("_")}
        self.assertEqual(members - set(RAISING) - NEVER_RAISING, set())
        for rng in generators():
            for name, calls in RAISING.items():
                for kind, call in calls if hasattr(rng, name) else []:
                    with self.subTest(generator=type(rng).__name__, name=name, kind=kind):
                        self.raised(getattr(errors, kind), call, rng)

    def test_errors_of_makers(self):
        calls = [("OutOfBounds", kind, -1) for kind in (WyRand, Pcg64)]
        for kind in (*CHACHAS, Stream):
            calls += [("WrongLength", kind, b"short"), ("WrongLength", kind, KEY, b"short"),
                      ("OutOfBounds", kind, KEY, NONCE, -1)]
        calls += [("WrongLength", Stream, KEY, NONCE, 0, bytes(64))]
        for kind, *call in calls:
            self.raised(getattr(errors, kind), *call)

    def test_errors_of_lots(self):
        calls = [("EmptySeed", "", ["a"]), ("EmptySeed", b"", b"a"), ("SeedNotText", b"\xff", ["a"]),
                 ("SeedNotText", "\ud800", ["a"]), ("EmptyLine", "seed", b"a\n\n"), ("TooFew", "seed", b"a\n", 2),
                 ("TooFew", "seed", ["a"], 2**64 - 1), ("OutOfBounds", "seed", ["a"], -1)]
        for kind, *given in calls:
            self.raised(getattr(errors, kind), lots.draw, *given)
        self.raised(errors.EmptyLine, lots.count, b"a\nb\n\n")

    def test_numbers_of_errors_by_their_index(self):
        """If objects with an `__index__` are passed, the error has and shows plain numbers."""
        calls = [(lots.draw, "seed", ["a"], 2), (lots.draw, "seed", ["a"], 2**64), (lots.draw, "seed", b"a\nb\n", 3)]
        for kind in (WyRand, Pcg64):
            calls += [(kind, -1), (kind.seed_from_u64, -1)]
        calls += [(kind, KEY, NONCE, -1) for kind in (*CHACHAS, Stream)]
        rows = [("below", 0), ("below", HUGE), ("range", 2, 1), ("range", 0, HUGE), ("range32", 2, 1), ("bytes", -1),
                ("choices", "ab", [1, -1]), ("sample", "ab", 3), ("sample", "ab", -1),
                ("sample_below", 2, 3), ("sample_below", -1, 0), ("fill_range", bytearray(2), 0, 256),
                ("part", -1, 1), ("part", 1, 0), ("part", 2**64 - 1, 2**64 - 1), ("jump", -1), ("seek", -1)]
        calls += [(getattr(rng, name), *given) for rng in generators() for name, *given in rows if hasattr(rng, name)]
        calls += [(lambda k, rng=rng: rng.choices("ab", k=k), -1) for rng in generators()]
        for rng in (kind(1) for kind in RANDOMS):
            calls += [(rng.getrandbits, -1), (rng.randbytes, -1)]
        for call, *given in calls:
            by_index = [Index(one) if isinstance(one, int) else one for one in given]
            told, again = self.told(call, given), self.told(call, by_index)
            self.assertEqual(again, told)
            self.assertEqual([*map(type, again[1])], [*map(type, told[1])])

    def told(self, call, given):
        with self.assertRaises(errors.NanorandError) as caught:
            call(*given)
        return told_of(caught.exception)

    def test_errors_of_randoms(self):
        for kind in RANDOMS:
            rng = kind(1)
            name = rng.getstate()[0]
            calls = [("OutOfBounds", rng.getrandbits, -1), ("OutOfBounds", rng.randbytes, -1),
                     ("ForeignState", rng.setstate, ()), ("ForeignState", rng.setstate, (name, NONCE, "x")),
                     ("WrongLength", rng.setstate, (name, b"short", None))]
            for error, *call in calls:
                self.raised(getattr(errors, error), *call)


class Imports(unittest.TestCase):
    def test_another_interpreter_of_the_process(self):
        """It has classes and errors of its own, and those of this interpreter are unchanged when it ends."""
        if sys.version_info >= (3, 12):
            self.skipTest("Python 3.12 and later start interpreters in another way")
        import _xxsubinterpreters

        code = f"import sys; sys.path[:] = {sys.path}\n" \
               "import nanorand\n" \
               "assert nanorand.WyRand(42).range(1, 100) == 69\n" \
               "assert nanorand.randoms.WyRandRandom('seed 42').randint(1, 6) == 2\n" \
               "try:\n    nanorand.WyRand(-1)\nexcept nanorand.OutOfBounds:\n    pass\n"
        for _ in range(3):
            other = _xxsubinterpreters.create()
            _xxsubinterpreters.run_string(other, code)
            _xxsubinterpreters.destroy(other)
        self.assertEqual(WyRand(42).range(1, 100), 69)
        self.assertRaises(OutOfBounds, WyRand, -1)
        self.assertEqual([kind(5).random() for kind in RANDOMS], [kind(5).generator.random() for kind in RANDOMS])

    def test_an_import_that_fails(self):
        """A missing extension module, and one that does not accept the library, each raise a LibraryRefused."""
        class Finder:
            @staticmethod
            def find_spec(name, path=None, target=None):
                if name == "nanorand._native":
                    from nanorand.errors import LibraryRefused
                    raise LibraryRefused("another version") if is_other else ImportError("no such file")

        for is_other, text in (False, "the extension module cannot be loaded: no such file"), (True, "another version"):
            with mock.patch.dict(sys.modules), mock.patch.object(sys, "meta_path", [Finder, *sys.meta_path]):
                for name in [name for name in sys.modules if name.partition(".")[0] == "nanorand"]:
                    del sys.modules[name]
                with self.assertRaises(ImportError) as caught:
                    import nanorand  # noqa: F401
            self.assertEqual((type(caught.exception).__name__, str(caught.exception)), ("LibraryRefused", text))
            self.assertEqual(caught.exception.args, (text,))
            stays_itself(self, caught.exception, [copy.copy, copy.deepcopy])

    def test_an_import_does_nothing_else(self):
        code = "import random; state = random.getstate(); import nanorand; assert state == random.getstate()"
        for flags in (["-W", "error"], ["-OO"]):
            done = subprocess.run([sys.executable, *flags, "-c", code], capture_output=True, text=True)
            self.assertEqual((done.returncode, done.stdout, done.stderr), (0, "", ""))


if __name__ == "__main__":
    unittest.main()
