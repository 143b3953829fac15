"""Draws of the page, compared with those of the program `lots`."""

import random
import time
from pathlib import Path
from typing import Any, Dict, List

from counts import Counts, bytes_of, lines_of, lots, sha256
from drivers import CONTROL
from page import Page
from records import NAMED, record_of

ALPHABETS = [(0x30, 0x3A), (0x20, 0x7F), (0xA0, 0x800), (0x800, 0xD800), (0x10000, 0x110000), (0x01, 0x0D)]
LENGTHS = [1, 2, 5, 20, 31, 32, 33, 55, 56, 57, 63, 64, 65, 119, 120, 200]
# More arguments than a call takes, of bytes or of letters.
LONG = {"Chromium": 200_000, "Firefox": 600_000}
ROOM = 65536
# Records the addresses of files, and what is to be done later.
ADDRESSES = """
window.made = [];
window.givenBack = [];
window.later = [];
window.setTimeout = (...task) => later.push(task);
URL.revokeObjectURL = (address) => givenBack.push(address);
HTMLAnchorElement.prototype.click = function () { made.push(this.href); };
"""


def a_seed(rng: random.Random) -> str:
    """A text of one or several alphabets, without line ends, for the field, and without byte 0, for the argument."""
    one, mixed = rng.choice(ALPHABETS), rng.random() < 0.3
    letters = (chr(rng.randrange(*(rng.choice(ALPHABETS) if mixed else one))) for _ in range(rng.choice(LENGTHS)))
    return "".join(letters).replace("\n", "\t")


def some_lines(rng: random.Random, size: int, is_text: bool) -> List[bytes]:
    """Non-empty lines: text that can be pasted, or any bytes but line feeds."""
    longest = rng.choice([1, 2, 8, 40])
    if is_text:
        letters = rng.choice(["ab", "abcdefgh ", "äöü漢字🎲\\ \t\u200b\u00a0e\u0301"])
        return ["".join(rng.choices(letters, k=rng.randint(1, longest))).encode() for _ in range(size)]
    signs = bytes(set(range(256)) - {10}) if rng.random() < 0.7 else b"ab\r\0"
    return [bytes(rng.choices(signs, k=rng.randint(1, longest))) for _ in range(size)]


def a_count(rng: random.Random, size: int) -> str:
    if rng.random() < 0.4:
        return "all"
    number = min(size, rng.choice([0, 1, 2, size, rng.randint(0, size), rng.randint(0, size)]))
    return "0" * rng.choice([0, 0, 0, 1, 30]) + str(number)


def compare(counts: Counts, page: Page, program: str, module: str, name: str,
            seed: str, count: str, data: bytes) -> Dict[str, Any]:
    """Draws in the page, whose list, seed and count are set already, and with the program. The page refuses to draw
    nobody from an empty list, as somebody has forgotten to open it."""
    ran = lots(program, seed, count, data)
    shown = page.draw()
    errors = [shown[field] for field in ("page", "list", "question", "seed", "count") if shown[field]]
    if data == b"":
        counts.same(name, (ran.status, errors, shown["record"]), (0, ["Open or paste the list first."], ""))
        return shown
    if ran.status != 0 or errors or not shown["record"]:
        counts.case(name, f"status {ran.status}, the page says {errors}")
        return shown
    wanted = record_of(seed, data, ran.output, module)
    wrong = [f"{line!r} and not {right!r}" for line, right in zip(shown["record"].split("\n"), wanted.split("\n"))
             if line != right][:3]
    if not wrong and shown["record"] != wanted:
        wrong.append("the record has another length")
    if [bytes_of(line) for line in shown["drawn"]] != lines_of(ran.output)[:NAMED]:
        wrong.append("the result shown is another")
    counts.case(name, "; ".join(wrong))
    return shown


def random_draws(counts: Counts, page: Page, program: str, module: str, number: int) -> None:
    """Half of the lists are pasted, half are files. The page then checks each record. Each browser has draws of its
    own."""
    rng = random.Random(31 + page.number)
    for index in range(number // page.browsers):
        is_text = index % 2 == 0
        size = rng.randint(301, 3000) if index % 25 == 0 else rng.randint(0, 12 if index % 4 == 3 else 300)
        lines = some_lines(rng, size, is_text)
        data = b"".join(line + b"\n" for line in lines)
        if lines and rng.random() < 0.5:
            data = data[:-1]
        seed, count = a_seed(rng), a_count(rng, size)
        if is_text:
            page.paste(data.decode())
        else:
            page.open_file(data)
        page.fill(seed, count)
        name = f"draw {index}: {count} of {size} by {seed!r}"
        shown = compare(counts, page, program, module, name, seed, count, data)
        if index % 4 < 2 and data:
            counts.same(f"check of draw {index}", page.check(shown["record"])["outcome"], "agrees")


def sizes(counts: Counts, page: Page, program: str, module: str) -> None:
    """Lists whose bytes or places exactly fill memory pages, or nearly do."""
    page.load()
    lengths = [*range(ROOM - 34, ROOM + 2), 2 * ROOM - 33, 2 * ROOM - 32, 2 * ROOM - 31, 5 * ROOM - 8]
    for length in page.share(lengths):
        data = b"a" * (length - 4) + b"\nbc\n"
        page.load() if length % 3 == 0 else None
        page.open_file(data)
        page.fill("seed", "all")
        compare(counts, page, program, module, f"a list of {length} bytes", "seed", "all", data)
    for entrants in page.share((8190, 8191, 8192, 8193, 16384)):
        data = b"x\n" * (entrants - 1) + b"y\n"
        page.load()
        page.open_file(data)
        for seed in ("s", "a seed of 20 letters", "seed" * 2000):
            page.fill(seed, "all")
            compare(counts, page, program, module, f"{entrants} entrants, a seed of {len(seed)}", seed, "all", data)


def long_entrants(counts: Counts, page: Page, program: str, module: str) -> None:
    """Draws and checks entrants of more bytes, and of more letters, than a browser accepts as arguments of one call."""
    page.load()
    long = LONG[page.browser.name]
    counts.same("as arguments of one call", page.browser.run("""
        try {
          return String.fromCharCode(...new Uint8Array(arguments[0])).length;
        } catch (error) {
          return error.name;
        }""", long), "RangeError")
    kinds = (("letters", b"a" * long), ("wide letters", "\u6f22".encode() * long), ("backslashes", b"\\" * long),
             ("no UTF-8", b"\xff" * long), ("any bytes", bytes(set(range(256)) - {10}) * (long // 255 + 1)))
    for name, entrant in page.share(kinds):
        data = entrant + b"\nb\n"
        page.open_file(data)
        page.fill("seed", "all")
        shown = compare(counts, page, program, module, f"a long entrant of {name}", "seed", "all", data)
        counts.same(f"the check of a long entrant of {name}", page.check(shown["record"])["outcome"], "agrees")


def long_lists(counts: Counts, page: Page, program: str, module: str) -> None:
    page.load()
    watch_progress(page)
    for size, count in (*page.share(((100_000, "all"), (100_000, "1000"), (100_000, "1001"))),
                        *page.share(((300_000, "all"), (1_000_000, "all")))):
        data = b"".join(b"entrant %d\n" % number for number in range(size))
        page.open_file(data)
        page.fill(f"a list of {size}", count)
        shown = compare(counts, page, program, module, f"{count} of {size}", f"a list of {size}", count, data)
        counts.same(f"the facts of {size}", shown["digest"], sha256(data))
        counts.same(f"check of {count} of {size}", page.check(shown["record"])["outcome"], "agrees")
        last = shown["record"].replace("result SHA-256: ", "result SHA-256: 0")[:-1]
        counts.same(f"check of a cut record of {size}", page.check(last)["outcome"], "no record")
    page.open_file(b"a\n")
    page.browser.run("document.getElementById('tidy-trim').click();")
    page.browser.wait("return !document.getElementById('tidied').hidden;")
    told = page.browser.run("return Array.from(new Set(window.told));")
    wanted = ["Computing the SHA-256 of the list", "Counting the entrants", "Looking for what is worth a second look",
              "Drawing", "Writing the result", "Repeating the draw", "Changing the list"]
    counts.same("progress is told", [text for text in wanted if text not in told], [])
    long_entrants(counts, page, program, module)


def watch_progress(page: Page) -> None:
    """Records each text of the progress line."""
    page.browser.run("""
        window.told = [];
        new MutationObserver(() => window.told.push(document.getElementById("progress-text").textContent))
          .observe(document.getElementById("progress-text"), {childList: true});""")


def saved(page: Page, folder: Path, name: str) -> bytes:
    """The file that a button saves."""
    path = folder / name
    end = time.monotonic() + 20
    while time.monotonic() < end:
        if path.exists() and not list(folder.glob("*.part")) and not list(folder.glob("*.crdownload")):
            data = path.read_bytes()
            path.unlink()
            return data
        time.sleep(0.05)
    return b"nothing was saved"


def files(counts: Counts, page: Page, program: str, folder: Path) -> None:
    """The three files that the page saves: the list, the record and the result."""
    page.load()
    large = b"".join(b"entrant %d\n" % number for number in range(20_000))
    pasted = "Zo\u00eb\n\u200b".encode()
    for index, data in enumerate((b"a\nb\r\n\xff\xfe\nd", b"Ada\nBarbara\n", b"\xef\xbb\xbfx\n\0\n", large, pasted)):
        page.paste(data.decode()) if data == pasted else page.open_file(data)
        page.fill("a seed", "all")
        shown = page.draw()
        wanted = {"save-list": ("entrants.txt", data), "save-record": ("record.txt", shown["record"].encode()),
                  "save-result": ("result.txt", lots(program, "a seed", "all", data).output)}
        for button, (name, content) in wanted.items():
            page.browser.click(f"#{button}")
            counts.same(f"{button} {index}", saved(page, folder, name), content)
    addresses_of_files(counts, page)


def addresses_of_files(counts: Counts, page: Page) -> None:
    """A file's address stays valid for a while, because a browser may ask where to save it, and is then released."""
    page.load()
    page.paste("Ada\n")
    page.fill("seed", "all")
    page.facts()
    page.draw()
    page.browser.run(ADDRESSES)
    for button in ("save-list", "save-record", "save-result"):
        page.browser.run("document.getElementById(arguments[0]).click();", button)
        made, given_back, delays = page.browser.run("return [made, givenBack, later.map(([, delay]) => delay)];")
        counts.same(f"{button}: addresses", (len(made), given_back), (1, []))
        # What screen readers are told goes after two seconds, which does not touch the address.
        counts.case(f"{button}: a while", "" if len(delays) == 2 and max(delays) >= 10_000 else str(delays))
        left = page.browser.run("""
            const acts = later.splice(0);
            for (const [act, delay] of acts) if (delay < 10000) act();
            const early = givenBack.slice();
            for (const [act, delay] of acts) if (delay >= 10000) act();
            return [early, givenBack.splice(0), made.splice(0)];""")
        counts.same(f"{button}: given back", left[:2], [[], left[2]])


def copies(counts: Counts, page: Page) -> None:
    """The texts that the two buttons copy, pasted into the field that checks a record."""
    for text in ("Ada\nBarbara\n", "".join(f"entrant {number}\n" for number in range(20_000))):
        page.load()
        page.paste(text)
        page.fill(" é ", "all")
        page.facts()
        copied(counts, page, page.draw())
    page.browser.run("""const button = document.getElementById("copy-digest");
        button.click();
        setTimeout(() => button.click(), 300);""")
    time.sleep(3)
    counts.same("a label after two copies", page.browser.label("#copy-digest"), "Copy the SHA-256")


def copied(counts: Counts, page: Page, shown: Dict[str, Any]) -> None:
    for button, wanted in (("copy-digest", shown["digest"]), ("copy-record", shown["record"])):
        page.tab("draw")
        label = page.browser.label(f"#{button}")
        page.browser.click(f"#{button}")
        page.browser.wait("return document.getElementById(arguments[0]).textContent !== arguments[1];", button, label)
        counts.same(f"{button} says so", page.browser.label(f"#{button}"), "Copied")
        page.tab("check")
        page.browser.run("""const field = document.getElementById("check-text");
            field.value = "";
            field.focus();""")
        page.browser.press_with(CONTROL, "v")
        counts.same(f"{button}", page.browser.run('return document.getElementById("check-text").value;'), wanted)
