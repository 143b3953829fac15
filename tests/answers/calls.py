"""The calls in the table. Each takes a generator and its arguments, and returns a status and a result."""

import definitions as rules


def hexadecimal(text):
    return text.hex() or "-"


def of_hexadecimal(text):
    return b"" if text == "-" else bytes.fromhex(text)


def numbers(items):
    return ",".join(map(str, items)) or "-"


def arguments_of(text):
    return [] if text == "-" else [int(number) for number in text.split(",")]


def call_u64(rng):
    return rules.DRAWN, str(int.from_bytes(rng.request(8), "little"))


def call_fill_bytes(rng, length):
    return rules.DRAWN, hexadecimal(rng.request(length))


def range_of(bits):
    def call(rng, first, last):
        if first > last:
            return rules.EMPTY, "-"
        return rules.DRAWN, str(rules.number_in(rng, first, last, bits))

    return call


def call_shuffle(rng, length):
    items = list(range(length))
    rules.shuffle(rng, items)
    return rules.DRAWN, numbers(items)


def call_shuffle_full(rng, length):
    items = list(range(length))
    rules.shuffle_full(rng, items)
    return rules.DRAWN, numbers(items)


def call_sample(rng, count, length):
    if length > count:
        return rules.EMPTY, "-"
    return rules.DRAWN, numbers(rules.sample(rng, count, length))


def call_jump(rng, low, high=0):
    rng.jump(low + 2**64 * high)
    return rules.DRAWN, "-"


def call_part(rng, index, draws):
    return rules.part(rng, index, draws), "-"


def call_block(rng):
    return rules.DRAWN, hexadecimal(rng.draw())


CALLS = {
    "u64": call_u64,
    "fill_bytes": call_fill_bytes,
    "range_u32": range_of(32),
    "range_u64": range_of(64),
    "range_i64": range_of(64),
    "range_usize": range_of(64),
    "shuffle": call_shuffle,
    "shuffle_full": call_shuffle_full,
    "sample": call_sample,
    "jump": call_jump,
    "part": call_part,
    "block": call_block,
}


def lots_digest(text):
    return rules.DRAWN, hexadecimal(rules.lots_digest(of_hexadecimal(text)))


def lots_count(text):
    status, number = rules.lots_count(of_hexadecimal(text))
    return status, str(number)


def lots_draw(seed, length, count):
    status, places = rules.lots_draw(of_hexadecimal(seed), int(length), int(count))
    return status, "-" if places is None else numbers(places)


LOTS = {"digest": lots_digest, "count": lots_count, "draw": lots_draw}


def answer(generator, before, call, arguments):
    """The status, the result and the state after a call, as the table writes them."""
    if generator == "lots":
        return (*LOTS[call](*arguments.split(",")), "-")
    if call == "new_seed":
        return rules.DRAWN, "-", int(arguments).to_bytes(8, "little").hex()
    if call == "seed_from_u64":
        return rules.DRAWN, "-", rules.seeded_state(generator, int(arguments)).hex()
    rng = rules.GENERATORS[generator](bytes.fromhex(before))
    status, result = CALLS[call](rng, *arguments_of(arguments))
    return status, result, rng.state().hex()
