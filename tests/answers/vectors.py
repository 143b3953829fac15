"""Checks of definitions.py against published test vectors, and against examples in the documents and in the library's
own tests."""

import doctest
from pathlib import Path

import definitions as rules

SCALE = Path(__file__).resolve().parents[2] / "docs/SCALE.md"
ZEROS = bytes(48)
COUNTING = bytes(range(32)) + bytes(range(8)) + bytes(8)

# A generator, a state, and the first bytes of a request (one read of bytes from the generator). The first vectors for
# each number of rounds are from J. Strombergson's draft-strombergson-chacha-test-vectors, the next from
# draft-agl-tls-chacha20poly1305, the predecessor of RFC 7539 with 64-bit nonces.
BYTES = [
    ("chacha8", ZEROS, "3e00ef2f895f40d67f5bb8e81f09a5a12c840ec3ce9a7f3b181be188ef711a1e"),
    ("chacha12", ZEROS, "9bf49a6a0755f953811fce125f2683d50429c3bb49e074147e0089a52eae155f"),
    ("chacha20", ZEROS, "76b8e0ada0f13d90405d6ae55386bd28bdd219b8a08ded1aa836efcc8b770dc7"
     "da41597c5157488d7724e03fb8d84a376a43b8f41518a11cc387b669b2ee6586"),
    ("chacha20", bytes(31) + b"\1" + bytes(16), "4540f05a9f1fb296d7736e7b208e3c96eb4fe1834688d2604f450952ed432d41"),
    ("chacha20", bytes(39) + b"\1" + bytes(8), "de9cba7bf3d69ef5e786dc63973f653a0b49e015adbff7134fcb7df137821031"),
    ("chacha20", bytes(32) + b"\1" + bytes(15), "ef3fdfd6c61578fbf5cf35bd3dd33b8009631634d21e42ac33960bd138e50d32"),
    ("stream", COUNTING, "f798a189f195e66982105ffb640bb7757f579da31602fc93ec01ac56f85ac3c1"
     "34a4547b733b46413042c9440049176905d3be59ea1c53f15916155c2be8241a38008b9a26bc35941e2444177c8ade66"),
    ("wyrand", (0x5F89E29B87429BD2).to_bytes(8, "little"), "da28b4a0d17e03e7"),
    ("pcg64", bytes(16), "3f75823f2f6939ad"),
]


class Script:
    """A generator of blocks of one repeated byte each, for the examples of docs/REFERENCE.md."""

    def __init__(self, *values):
        self.values = list(values)

    def request(self, length):
        return bytes([self.values.pop(0) if self.values else 0]) * length


def wyrand(seed=42):
    return rules.WyRand(seed.to_bytes(8, "little"))


def pcg64(seed=42):
    return rules.Pcg64(seed.to_bytes(16, "little"))


def word(rng):
    return int.from_bytes(rng.request(8), "little")


def shuffled(rng, items, how=rules.shuffle):
    try:
        how(rng, items)
    except rules.Refused:
        return "refused", items
    return items


def jumped(rng, draws):
    rng.jump(draws)
    return rng


def drawn(rng, draws):
    for _ in range(draws):
        rng.request(8)
    return rng


def parted(rng, index, draws):
    """The status, and the state after the call."""
    return rules.part(rng, index, draws), rng.state()


def refused(rng, size, bits=64):
    try:
        return rules.number_below(rng, size, bits)
    except rules.Refused:
        return "refused"


def numbers_and_words():
    """Examples in docs/REFERENCE.md and the crates' tests, and known values of the interface."""
    rng = wyrand()
    yield "WyRand 1..=100", rules.number_in(rng, 1, 100, 64), 69
    yield "WyRand 1..=100 again", rules.number_in(rng, 1, 100, 64), 92
    yield "WyRand after 1000", word(jumped(wyrand(), 1000)), 869430474806095620
    yield "Pcg64 1..=100", rules.number_in(pcg64(), 1, 100, 64), 93
    yield "Pcg64 of two halves", word(pcg64(2**64 + 5)), 8020499186917063865
    yield "Pcg64 after 1000", jumped(pcg64(), 1000).seed, 0xD39CF3AE66B76EB1D2717C7CD985CBCA
    yield "Pcg64 after 2^125", jumped(pcg64(5), 2**125).seed, 2**127 + 5
    yield "Pcg64 after its period", jumped(pcg64(5), 2**126).seed, 5
    yield "a word of zeros", refused(Script(), 3), "refused"
    yield "the 128th word", refused(Script(*[0] * 127, 8), 3, 8), 0
    yield "128 rejected words", refused(Script(*[0] * 128, 8), 3, 8), "refused"
    yield "a byte 0, then 8", rules.number_in(Script(0, 8), 10, 12, 8), 10
    yield "of a byte 1", rules.number_in(Script(1), -1, 1, 8), -1


def seeds():
    """The words of splitmix64.c for the seed 1234567, which Rosetta Code has as well, and for the seed 0."""
    words = [6457827717110365317, 3203168211198807973, 9817491932198370423, 4593380528125082431, 16408922859458223821]
    yield "a seed of 1234567", rules.seed_from(1234567, 40), b"".join(number.to_bytes(8, "little") for number in words)
    yield "a seed of 0", rules.seed_from(0, 16).hex(), "afcd1d7b39a820e2f465b9a16a9e786e"


def lists():
    yield "WyRand shuffle", shuffled(wyrand(), list(range(10))), [6, 9, 8, 1, 0, 3, 4, 7, 5, 2]
    whole = shuffled(wyrand(), list(range(10)), rules.shuffle_full)
    yield "WyRand shuffle_full", whole, [2, 9, 0, 4, 5, 3, 7, 6, 8, 1]
    yield "Pcg64 shuffle", shuffled(pcg64(), list(range(10))), [9, 3, 4, 2, 5, 8, 7, 0, 6, 1]
    yield "a shuffle", shuffled(Script(128, 1, 255), list("abc")), list("bac")
    yield "a full shuffle", shuffled(Script(128, 1, 255), list("abc"), rules.shuffle_full), list("abc")
    yield "a shuffle from the last", shuffled(Script(255), list("abc")), list("cba")
    yield "a shuffle of no words", shuffled(Script(), list("abc")), ("refused", list("abc"))
    yield "a sample", rules.sample(Script(112, 99, 89), 10, 3), [3, 8, 9]


def states_of(generator):
    """Some states of a generator. Those of the stream have different numbers of buffered bytes."""
    length = {"wyrand": 8, "pcg64": 16}.get(generator, 48)
    return [bytes(range(length + buffered)) for buffered in ((0, 1, 8, 33, 63) if generator == "stream" else (0,))]


def begins_of_parts(generator):
    """A part begins at the state that single draws lead to."""
    make = rules.GENERATORS[generator]
    for index, draws in (0, 5), (1, 1), (2, 7), (3, 8), (5, 9):
        wanted = [(rules.DRAWN, drawn(make(state), index * draws).state()) for state in states_of(generator)]
        given = [parted(make(state), index, draws) for state in states_of(generator)]
        yield f"{generator} part {index} of {draws}", given, wanted


def ends_of_parts(generator):
    """The last part ends at the end of the period, after which the first state returns."""
    make, state = rules.GENERATORS[generator], states_of(generator)[0]
    period = make(state).PERIOD
    yield f"{generator} after its period", jumped(make(state), period).state(), state
    yield f"{generator} after half its period", jumped(make(state), period // 2).state() == state, False
    for index in 0, 1, period // 2 - 1, period - 1:
        draws = period // (index + 1)
        yield f"{generator} part {index} to the end", parted(make(state), index, draws)[0], rules.DRAWN
        refusal = rules.PAST_PERIOD, state
        yield f"{generator} part {index} past the end", parted(make(state), index, draws + 1), refusal


def parts():
    for generator in rules.GENERATORS:
        yield from begins_of_parts(generator)
        yield from ends_of_parts(generator)


def lots():
    """The example of docs/LOTS.md."""
    seed = b"4 1 6 3 3 2 5 6 1 4 2 6 5 3 1 1 6 2 4 5"
    key = rules.lots_digest(seed)
    stream = rules.Stream(key + bytes(16))
    yield "the key", key[:4].hex(), "63801ced"
    words = [16715358215249811952, 14400517569152423631, 765454998027297022]
    yield "the words", [word(stream) for _ in range(3)], words
    status, places = rules.lots_draw(seed, 12, 3)
    yield "the positions", (status, places[:3]), (0, [10, 9, 2])
    yield "a list", rules.lots_count(b"a\n\nb\n"), (rules.EMPTY_LINE, 2)


def examples():
    found = doctest.testfile(str(SCALE), module_relative=False)
    yield "examples of docs/SCALE.md that fail", found.failed, 0
    yield "whether there are any", found.attempted > 0, True


def checks():
    """The name of each check, the value by the definitions, and the published value."""
    for generator, state, published in BYTES:
        given = rules.GENERATORS[generator](state).request(len(published) // 2)
        yield f"{generator} {published[:8]}", given.hex(), published
    yield from numbers_and_words()
    yield from seeds()
    yield from lists()
    yield from parts()
    yield from lots()
    yield from examples()
