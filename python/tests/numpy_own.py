"""NumPy's own tests of bit generators, run on those of `nanorand.numpy`: `pytest numpy_own.py`.

These are all tests of `Base` and `RNG`, which do not depend on the stream. NumPy's other tests compare with the numbers
of its own bit generators.
"""

import numpy
from numpy.random import Generator, SeedSequence
from numpy.random.tests import test_direct, test_smoke
from numpy.random.tests.test_smoke import dtype  # noqa: F401  a fixture of RNG's tests

from nanorand.numpy import Pcg64Bits, StreamBits, WyRandBits


def words_of(kind, seed):
    """The numbers that `Base` compares with: the words of the generator with this seed, drawn one by one."""
    rng = kind(SeedSequence(seed)).generator
    return {"seed": [seed], "data": numpy.array([rng.u64() for _ in range(1000)], dtype=numpy.uint64)}


class Direct(test_direct.Base):
    @classmethod
    def setup_class(cls):
        cls.bits = 64
        cls.dtype = numpy.uint64
        cls.data1, cls.data2 = words_of(cls.bit_generator, 0xDEADBEAF), words_of(cls.bit_generator, 0)
        cls.seed_error_type = TypeError
        cls.invalid_init_types = [(3.2,), ([None],), (1, None), ("seed",)]
        cls.invalid_init_values = [(-1,), ([1, -2],)]


class Smoke(test_smoke.RNG):
    @classmethod
    def setup_class(cls):
        cls.advance = 2**63 + 2**31 + 1
        cls.seed = [12345]
        cls.rg = Generator(cls.bit_generator(*cls.seed))
        cls.initial_state = cls.rg.bit_generator.state
        cls.seed_vector_bits = 64
        cls._extra_setup()


class TestWyRandDirect(Direct):
    bit_generator = WyRandBits


class TestPcg64Direct(Direct):
    bit_generator = Pcg64Bits


class TestStreamDirect(Direct):
    bit_generator = StreamBits


class TestWyRandSmoke(Smoke):
    bit_generator = WyRandBits


class TestPcg64Smoke(Smoke):
    bit_generator = Pcg64Bits


class TestStreamSmoke(Smoke):
    bit_generator = StreamBits
