"""CPython's own tests of `random.Random`, run with each class of nanorand.randoms.

They are in `test.test_random`, for which Debian has the package libpython3.X-testsuite.
"""

import random
import re
import sys
import unittest
from pathlib import Path
from unittest import mock

from makers import RANDOMS

try:
    from test import test_random as cpython
except ImportError as error:
    raise unittest.SkipTest(f"CPython's own tests are not there: {error}") from None

README = Path(__file__).resolve().parents[1] / "README.md"
GROUPS = ["MersenneTwister_TestBasicOps", "TestDistributions", "TestRandomSubclassing"]
# Tests that expect what only the Mersenne Twister does. The README lists them with these reasons.
OF_MERSENNE_TWISTER = {
    "test_bug_1727780": "its pickled states",
    "test_bug_27706": "its numbers, of seeds of version 1",
    "test_bug_31482": "its numbers, of seeds of version 1",
    "test_getrandbits": "its numbers",
    "test_guaranteed_stable": "its numbers",
    "test_randbytes": "its numbers",
    "test_randrange_uses_getrandbits": "its numbers",
    "test_referenceImplementation": "its numbers",
    "test_setstate_middle_arg": "its state, of 625 words",
    "test_strong_reference_implementation": "its numbers",
}
# Tests that expect seeds of any type, as Python had them before version 3.11.
OF_OLDER_PYTHONS = {"test_seed_when_randomness_source_not_found", "test_seedargs"}
LEFT_OUT = {*OF_MERSENNE_TWISTER, *(OF_OLDER_PYTHONS if sys.version_info < (3, 11) else ())}
CALLS = [name for name in random.__all__ if callable(getattr(random.Random, name, None))]


def with_generator(group, kind):
    """The group of tests, with the class in place of `random.Random`, its instance, and the module's functions."""

    class Tests(group):
        gen = kind()

        def setUp(self):
            super().setUp()
            shared = kind()
            for name, thing in [("Random", kind), *((name, getattr(shared, name)) for name in CALLS)]:
                patch = mock.patch.object(random, name, thing)
                patch.start()
                self.addCleanup(patch.stop)

    Tests.__name__ = Tests.__qualname__ = f"{group.__name__}_of_{kind.__name__}"
    return Tests


def without(tests, names):
    """The same tests without those with these names."""
    return type(tests.__name__, (tests,), {name: None for name in names if hasattr(tests, name)})


MADE = [with_generator(getattr(cpython, group), kind) for group in GROUPS for kind in RANDOMS]
globals().update({one.__name__: without(one, LEFT_OUT) for one in MADE})


class LeftOut(unittest.TestCase):
    def test_they_fail(self):
        """Each test that is left out would fail."""
        failed = set()
        for tests in MADE:
            for name in filter(lambda name: hasattr(tests, name), LEFT_OUT):
                result = unittest.TestResult()
                tests(name).run(result)
                self.assertFalse(result.wasSuccessful(), f"{tests.__name__}.{name}")
                failed.add(name)
        self.assertEqual(failed, LEFT_OUT)

    def test_the_readme_lists_them(self):
        text = README.read_text(encoding="utf-8").partition("\n## CPython's own tests\n")[2].partition("\n## ")[0]
        self.assertEqual(dict(re.findall(r"^\| `(test_\w+)` \| (.*) \|$", text, re.M)), OF_MERSENNE_TWISTER)
        self.assertEqual(set(re.findall(r"`(test_\w+)`", text)), {*OF_MERSENNE_TWISTER, *OF_OLDER_PYTHONS})


if __name__ == "__main__":
    unittest.main()
