#!/usr/bin/env python3
"""Compares the Python code of docs/LOTS.md with builds of the program `lots`.

    tests/second_opinion.py PROGRAM..

For example, tests/second_opinion.py target/release/lots. It compares:

- 300 draws by the code's function `draw` and by each program. Seeds, lists and counts are pseudorandom, the same in
  each run.
- 25 draws by the code as a program, and the errors of both, with their output to standard error.
- 25 draws by the shorter code, which computes the keystream with openssl.
- Draws by the code from given words (random 64-bit numbers), since no seed here has a rejected word. A word has to
  select the number that docs/REFERENCE.md says, or to be rejected.
- The commands of the page's example, with the list and the results on the page, and those of docs/PAGE.md.

The last line is N passed, M failed.
"""

import os
import random
import re
import shutil
import subprocess
import sys
import tempfile
from pathlib import Path

PAGE = Path(__file__).resolve().parent.parent / "docs/LOTS.md"
RECORDS = PAGE.with_name("PAGE.md")
STREAM = "76b8e0ada0f13d90405d6ae55386bd28"
LENGTHS = [1, 2, 5, 20, 21, 31, 32, 33, 39, 54, 55, 56, 57, 63, 64, 65, 66, 119, 120, 121, 200, 1000]
ALPHABETS = [(0x30, 0x3A), (0x20, 0x7F), (0x01, 0x80), (0xA0, 0x800), (0x800, 0xD800), (0x10000, 0x110000)]


def block(text, mark):
    """The lines of the block under a mark."""
    return re.search(re.escape(mark) + r"\n```\w*\n(.*?)^```$", text, re.M | re.S)[1].splitlines()


def result(arguments, standard_input, **environment):
    done = subprocess.run(arguments, input=standard_input, capture_output=True, timeout=60,
                          env={**os.environ, **environment})
    return done.returncode, done.stdout, done.stderr


def a_seed(rng):
    """A text of one or several alphabets. It has no byte 0, because it is an argument of a process."""
    one = rng.choice(ALPHABETS)
    mixed = rng.random() < 0.3
    return "".join(chr(rng.randrange(*(rng.choice(ALPHABETS) if mixed else one))) for _ in range(rng.choice(LENGTHS)))


def some_entrants(rng, size):
    """Entrants of one byte or more, without line feeds. Some lists have many equal entrants."""
    longest = rng.choice([1, 2, 8, 40])
    signs = bytes(set(range(256)) - {10}) if rng.random() < 0.7 else b"ab\r\0"
    return [bytes(rng.choices(signs, k=rng.randint(1, longest))) for _ in range(size)]


def a_count(rng, size):
    """An argument, and the number that it means."""
    if rng.random() < 0.4:
        return "all", size
    number = min(size, rng.choice([0, 1, 2, size] + [rng.randint(0, size) for _ in range(8)]))
    return "0" * rng.choice([0, 0, 0, 1, 30]) + str(number), number


def other_than(wanted, programs, arguments, text, case):
    """For each program, what is wrong with its result, or None."""
    for program in programs:
        found = result([program, *arguments], text)
        said = f"status {found[0]} and not {wanted[0]}, {len(found[1])} bytes and not {len(wanted[1])}, {found[2]!r}"
        yield None if found == wanted else f"({Path(program).name}) {case}: {said}"


def draws(programs, draw):
    """The same for 300 draws."""
    rng = random.Random(29)
    for number in range(300):
        most = 12 if number % 4 == 3 else 300
        size = rng.randint(301, 5000) if number % 50 == 0 else rng.randint(0, most)
        seed, entrants = a_seed(rng), some_entrants(rng, size)
        argument, count = a_count(rng, size)
        text = b"".join(entrant + b"\n" for entrant in entrants)
        if size and rng.random() < 0.5:
            text = text[:-1]
        wanted = b"".join(entrant + b"\n" for entrant in draw(seed, entrants, count))
        case = f"draw {number}: {argument} of {size} entrants by {seed!r}"
        yield from other_than((0, wanted, b""), programs, [seed.encode(), argument], text, case)


def draws_by_process(programs, code):
    """The same for 25 draws by the code as a program: lists that end in a line feed and that do not, and alternately
    a UTF-8 and an ASCII locale."""
    locales = [{"PYTHONUTF8": "1"}, {"PYTHONUTF8": "0", "PYTHONCOERCECLOCALE": "0", "LC_ALL": "C"}]
    rng = random.Random(30)
    for number in range(25):
        seed, entrants = a_seed(rng), some_entrants(rng, rng.choice([0, 1, 2, rng.randint(3, 60)]))
        argument, _ = a_count(rng, len(entrants))
        text = b"\n".join(entrants) + (b"\n" if entrants and number % 2 else b"")
        arguments = [seed.encode(), argument]
        wanted = result([sys.executable, code, *arguments], text, **locales[number // 2 % 2])
        yield None if wanted[0] == 0 else f"process {number}: status {wanted[0]} of the code"
        yield from other_than(wanted, programs, arguments, text, f"process {number}")


def draws_by_openssl(programs, source, folder):
    """The same for 25 draws by the code that computes the keystream with openssl."""
    if not shutil.which("openssl"):
        print("skipped: the draw by openssl, as there is none")
        return
    code = Path(folder, "openssl.py")
    code.write_text(source, encoding="utf-8")
    rng = random.Random(32)
    for number in range(25):
        seed, entrants = a_seed(rng), some_entrants(rng, rng.choice([1, 2, 3, rng.randint(4, 3000)]))
        argument, _ = a_count(rng, len(entrants))
        text = b"\n".join(entrants) + (b"\n" if number % 2 else b"")
        arguments = [seed.encode(), argument]
        wanted = result([sys.executable, "-X", "utf8", code, *arguments], text)
        yield None if wanted[0] == 0 else f"openssl {number}: status {wanted[0]} of the code: {wanted[2]!r}"
        yield from other_than(wanted, programs, arguments, text, f"openssl {number}")


def refusals(programs, code):
    """The same for arguments and lists that are errors. The code has status 1 for each of them."""
    counts = ["", "-1", "+1", " 1", "1 ", "1_0", "1.0", "ALL", "\u0661", "\u00b2", b"\xff", str(2**64), "9" * 5000]
    # Not UTF-8: an invalid byte, half a character, a surrogate.
    seeds = [b"\xff", b"seed\xc3", b"\xed\xa0\x80"]
    cases = [
        *((2, ["seed", count], b"a\n\nb\n") for count in counts), *((2, [seed, "1"], b"a\n") for seed in seeds),
        (3, ["seed", "0" * 5000 + "3"], b"a\nb\n"),
        (2, [], b"a\n"), (2, ["seed"], b"a\n"), (2, ["seed", "1", "1"], b"a\n"), (2, ["", "1"], b"a\n"),
        (4, ["seed", "1"], b"\n"), (4, ["seed", "9"], b"a\n\nb\n\n"), (4, ["seed", "0"], b"a\nb\n\n"),
        (3, ["seed", "1"], b""), (3, ["seed", "003"], b"a\r\nb"), (3, ["seed", str(2**64 - 1)], b"a\n"),
    ]
    for status, arguments, text in cases:
        case = f"refusal: {arguments} of {text}"
        ended, *texts = result([sys.executable, "-X", "utf8", code, *arguments], text)
        yield None if ended == 1 else f"{case}: status {ended} of the code"
        yield from other_than((status, *texts), programs, arguments, text, case)


def draws_from_words(names):
    """The same for words around the first and the last word of each number's run, as docs/REFERENCE.md defines it."""
    last = 2**64 - 1
    for size in [*range(1, 41), 300, 4999]:
        quota, rejected = divmod(2**64, size)
        first = [-(-(k * 2**64 + rejected) // size) for k in range(size)]
        edges = {0, last}
        for k in {0, size // 2, size - 1}:
            edges |= {first[k] - 1, first[k], first[k] + quota - 1, first[k] + quota}
        for word in sorted(edge for edge in edges if 0 <= edge <= last):
            named = [k for k in range(size) if first[k] <= word < first[k] + quota]
            names["words"] = lambda key: iter([word, last])
            wanted, found = named or [size - 1], names["draw"]("seed", range(size), 1)
            yield None if found == wanted else f"the word {word} below {size}: {found} and not {wanted}"


def examples(programs, page, folder):
    """The same for each command of the page's example, by each program."""
    entrants = "\n".join(block(page, "<!-- example: entrants -->")) + "\n"
    Path(folder, "entrants").write_text(entrants, encoding="utf-8")
    here = {**os.environ, "PATH": f"{folder}:{os.environ['PATH']}"}
    pages = page + RECORDS.read_text(encoding="utf-8")
    blocks = re.findall(r"^<!-- example: (?:sum|draw) -->\n```\n\$ (.*\n(?:> .*\n)*)((?:.*\n)*?)```$", pages, re.M)
    for program in programs:
        Path(folder, "lots").unlink(missing_ok=True)
        os.symlink(program, Path(folder, "lots"))
        for typed, wanted in blocks:
            command = typed.replace("\n> ", "\n")
            done = subprocess.run(command, shell=True, cwd=folder, env=here, capture_output=True, text=True, timeout=60)
            good = (done.returncode, done.stdout) == (0, wanted)
            yield None if good else f"({Path(program).name}) the example: {command}: {done.stdout}"
    yield None if len(blocks) == 8 else f"the example has {len(blocks)} commands"


def main():
    programs = [str(Path(name).resolve()) for name in sys.argv[1:]]
    if not programs or not all(os.access(program, os.X_OK) for program in programs):
        sys.exit(__doc__)
    page = PAGE.read_text(encoding="utf-8")
    source, by_openssl = re.findall(r"^```python\n(.*?)^```$", page, re.M | re.S)
    names = {"__name__": "lots"}
    exec(compile(source, str(PAGE), "exec"), names)
    with tempfile.TemporaryDirectory() as folder:
        code = Path(folder, "lots.py")
        code.write_text(source, encoding="utf-8")
        stream = names["words"](bytes(32))
        begins = b"".join(next(stream).to_bytes(8, "little") for _ in range(2)).hex()
        outcomes = [None if begins == STREAM else f"the key stream begins {begins}"]
        outcomes += draws(programs, names["draw"])
        outcomes += draws_by_process(programs, code)
        outcomes += draws_by_openssl(programs, by_openssl, folder)
        outcomes += refusals(programs, code)
        outcomes += examples(programs, page, folder)
        outcomes += draws_from_words(names)
    wrong = [outcome for outcome in outcomes if outcome]
    for line in wrong[:10]:
        print(f"FAILED {line}")
    print(f"{len(outcomes) - len(wrong)} passed, {len(wrong)} failed")
    return 1 if wrong else 0


if __name__ == "__main__":
    sys.exit(main())
