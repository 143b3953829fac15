"""Tests the examples in the READMEs and docstrings, and that every public name has a docstring and an example."""

import doctest
import inspect
import unittest
from pathlib import Path

import nanorand
from nanorand import _native, errors, generators, lots, randoms

README = Path(__file__).resolve().parents[1] / "README.md"
MODULES = [nanorand, generators, lots, randoms, errors]
INSECURE = [
    *[nanorand, nanorand.WyRand, nanorand.Pcg64, randoms.WyRandRandom, randoms.Pcg64Random, generators],
    nanorand.Generator.from_entropy,
]


def public_things():
    """The modules, their public names, and each class's own public members."""
    for module in MODULES:
        yield module.__name__, module
        for name in module.__all__:
            thing = getattr(module, name)
            if inspect.ismodule(thing):
                continue
            yield f"{module.__name__}.{name}", thing
            if inspect.isclass(thing):
                yield from members(thing)


def members(kind):
    for base in kind.__mro__:
        if not base.__module__.startswith("nanorand"):
            continue
        for name, member in vars(base).items():
            if not name.startswith("_") and (callable(member) or inspect.isdatadescriptor(member)):
                yield f"{base.__name__}.{name}", getattr(base, name)


class Documents(unittest.TestCase):
    def test_examples_of_the_readme(self):
        result = doctest.testfile(str(README), module_relative=False)
        self.assertEqual(result.failed, 0)
        self.assertGreater(result.attempted, 12)
        result = doctest.testfile(str(README.parents[1] / "README.md"), module_relative=False)
        self.assertEqual(result.failed, 0)
        self.assertGreater(result.attempted, 4)

    def test_examples_of_the_docstrings(self):
        attempted = 0
        runner = doctest.DocTestRunner()
        for name, thing in public_things():
            names = {**vars(inspect.getmodule(thing) or nanorand)}
            result = runner.run(doctest.DocTestParser().get_doctest(thing.__doc__, names, name, None, 0))
            self.assertEqual(result.failed, 0, name)
            attempted += result.attempted
        self.assertGreater(attempted, 150)

    def test_every_public_thing_has_an_example(self):
        names = set()
        for name, thing in public_things():
            with self.subTest(name=name):
                self.assertTrue(thing.__doc__)
                self.assertIn(">>>", thing.__doc__)
            names.add(name)
        self.assertGreater(len(names), 60)

    def test_private_modules_say_what_they_are(self):
        self.assertTrue(_native.__doc__)

    def test_who_is_not_secure_says_so(self):
        for thing in INSECURE:
            self.assertRegex(thing.__doc__, "not cryptographically secure|no more secure")
        self.assertIn("not cryptographically secure", README.read_text())

    def test_the_readme_names_every_call_and_error(self):
        text = README.read_text()
        for kind in (nanorand.WyRand, nanorand.ChaCha8):
            for name, _ in members(kind):
                call = name.split(".")[1]
                if call not in ("seed", "key", "nonce", "counter"):
                    self.assertIn(f"`{call}", text)
        for name in (*errors.__all__, *randoms.__all__):
            if name != "GeneratorRandom":
                self.assertRegex(text, rf"`(errors\.)?{name}`")

    def test_the_package_names_its_classes(self):
        classes = {name for name, thing in vars(nanorand).items() if inspect.isclass(thing)}
        self.assertLessEqual(classes - {"LibraryRefused"}, set(nanorand.__all__))

    def test_names(self):
        for module in MODULES:
            for name in module.__all__:
                self.assertTrue(hasattr(module, name))
            self.assertEqual(module.__all__, sorted(module.__all__, key=lambda name: order(name)))


def order(name):
    """Sorts names as Python does, but ChaCha8 before ChaCha12."""
    return name.replace("ChaCha8", "ChaCha08")


if __name__ == "__main__":
    unittest.main()
