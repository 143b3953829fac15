#!/usr/bin/env python3
"""Tests the script ./test and the scripts that compare files: tests/selftest.py. The last line is N passed, M failed.

./test runs in a folder where each of its parts is a stand-in that passes, fails, or ends without a count.
tests/workspace.sh runs with a stand-in for cargo, and the scripts that compare programs run with programs that are
wrong. Then a copy of the repository gets changes. The script that compares what was changed has to fail and to say what
is wrong with each, and the script that writes it has to restore it.
"""

import contextlib
import io
import os
import re
import runpy
import shutil
import subprocess
import sys
import tempfile
import time
from itertools import islice
from pathlib import Path
from unittest import mock

import compare_records
import second_opinion

ROOT = Path(__file__).resolve().parent.parent
# Files and folders in tests/ that are not parts: the parts call or read them.
NO_PARTS = {
    "lib.sh", "program.sh", "build.sh", "workspace.sh", "build_script.sh", "packed.sh", "targets.sh", "drop_in.sh",
    "targets.py", "c_crate.sh", "second_opinion.py", "compare_records.py", "records.py", "nanorand-0.7.0.txt", "draw.txt",
    "answers", "against_c", "clients",
}

# How a part may end: its last lines, its status, and the counts that the sum has to have for it.
KINDS = {
    "it fails": ("6 passed, 2 failed", 1, (6, 2)),
    "it fails with status 0": ("6 passed, 2 failed", 0, (6, 2)),
    "its status alone fails": ("6 passed, 0 failed", 3, (6, 1)),
    "no count": ("all is well", 0, (0, 1)),
    "a count that is not last": ("6 passed, 0 failed\nTraceback", 1, (0, 1)),
    "nothing": ("", 0, (0, 1)),
    "a skip": ("skipped: a compiler\n6 passed, 0 failed", 0, (6, 0)),
}

# The changes, by the command that has to fail. Those of a group are made at once. Each has a file, a text in it, the
# text that replaces its first occurrence, and texts that the command has to print for it, and prints for no other
# change of the group. A change that is alone in its group may have none.
CHANGES = {
    "tests/quotes.py": [
        [
            ("README.md", "(pips ≤ 6)", "(pips ≤ 7)",
             ": crates/dice/src/main.rt: throw: the source has `ensures face {"),
            ("README.md", "let pips: u64", "let pips: u32",
             "roll.rs: imports, main: the source has `let pips: u64 = rng.range(1..=6);`"),
            ("docs/PROMISES.md", "`wyrand_seed_stays`", "`wyrand_seed_stay`", "the source has no `wyrand_seed_stay`",
             "the mutant `wyrand_seed_stays` is missing"),
            ("docs/PROMISES.md", "- Mutants refused: `clone_always_refused`\n", "",
             "the mutant `clone_always_refused` is missing", "no mutant of the promise: Cloning `WyRand`"),
            ("docs/PROMISES.md", "refused: none: a law", "refused: a law",
             "no mutant of the promise: A request for as many bytes as a block has is one draw"),
            ("docs/PROMISES.md", "`RandomGen::random: value, state`", "`RandomGen::random: value, states`",
             "the source has no `RandomGen::random: value, states`"),
            ("docs/PROMISES.md", "`BufferedRng::new: rest, inner`", "`WyRand::new: rest, inner`",
             "the source has no `WyRand::new: rest, inner`"),
            ("c/README.md", "nanorand_wyrand_below(&rng, 6);", "nanorand_wyrand_below(&rng, 7);",
             "examples/roll.c: the whole file: the source has `uint64_t pips = 1 + nanorand_wyrand_below(&rng, 6);`"),
            ("c/README.md", "rng = ctypes.c_uint64()  #", "rng = ctypes.c_uint64() #",
             "examples/dice.py: the whole file: the white space is not that of the source"),
            ("c/examples/shuffle.cpp", "rng.range(1, 6)", "rng.range(1, 7)",
             ": examples/shuffle.cpp: the whole file: the source has `const int pips = rng.range(1, 7);`"),
            ("c/examples/CMakeLists.txt", "STANDARD 17", "STANDARD 11",
             "examples/CMakeLists.txt: the whole file: the source has `set(CMAKE_CXX_STANDARD 11)`"),
            ("crates/nanorand/CALLING.md", "ensures", "requires",
             ": ../dice/src/main.rt: the whole file: the source has `ensures face {"),
            ("crates/nanorand/TASKS.md", "returns c =", "returns d =",
             "loops/letters/Answers.antt: the whole file: the source has `returns c ="),
            ("crates/nanorand/CONTRACTS.md", "`plain_after`", "`plainly_after`",
             "Blocks.antt declares no `plainly_after`"),
            ("rust/nanorand-rand-core/README.md", "Ok(self.0.next_u64())", "Ok(self.0.next_u32())",
             "tests/recipes/rand_core_0_10.rs: the whole file: the source has `fn try_next_u64("),
            ("rust/nanorand-rand-core/README.md", "seed_from_u64(42)", "seed_from_u64(43)",
             "examples/seeded.rs: the whole file: the source has `let mut rng = Core("),
        ],
        [
            ("docs/PROMISES.md", "`buffers_equal_by_their_generators`", "`wyrand_seed_stays`",
             "the mutant `buffers_equal_by_their_generators` is missing"),
            ("docs/PROMISES.md", "`RandomGen::random: value, state`", "`WyRand::random: value, state`",
             "the source has no `WyRand::random: value, state`"),
            ("c/examples/roll.c", "return 0;", "return 1;",
             ": examples/roll.c: the whole file: the source has `return 1;`"),
            ("crates/dice/src/main.rt", "pips ≤ 6", "pips ≤ 7",
             ": ../dice/src/main.rt: the whole file: the source has `ensures face {"),
            ("tests/quotes.py", '    "docs/FAQ.md",\n', "", "docs/FAQ.md: DOCUMENTS lacks it"),
            # In place of a mark, a table of definitions, whose word is the beginning of a name in the file.
            ("README.md", "<!-- crates/dice/src/main.rt: throw -->\n",
             "| [Blocks](crates/nanorand_core/specs/generators/Blocks.antt) | `plain_aft` |\n",
             "declares no `plain_aft`", "a block that names no source"),
            ("crates/nanorand_core/mutants/swap.edits", "mutant swap",
             "mutant at_no_clause, refused at \nold: unsafe {\nnew: {\n\nmutant of_none, refused at swap_spec\n\n"
             "mutant block_for_nothing, refused at swap_spec\nold: .read()\nnew: .peek()\n\n"
             "mutant of_no_text, refused at swap_spec\nold: .seek()\nnew: .read()\n\nmutant swap",
             "at_no_clause: it names no clause or goal", "of_none: it changes nothing",
             "block_for_nothing: this text occurs 2 times in src/swap.rt",
             "of_no_text: this text occurs 0 times in src/swap.rt", "two mutants are called block_for_nothing"),
        ],
    ],
    "tests/declarations.py": [
        [
            ("c/include/nanorand.h", "const uint8_t *list", "uint8_t *list",
             "c/include/nanorand.h: nanorand_v1_lots_count is declared as"),
            ("c/include/nanorand.h", "uint32_t first, uint32_t last", "uint32_t first, uint64_t last",
             "c/include/nanorand.h: nanorand_v1_wyrand_range_u32 is declared as"),
            ("c/include/nanorand.h", "uint64_t low;\n    uint64_t high;", "uint64_t high;\n    uint64_t low;",
             "c/include/nanorand.h: Wide is declared as"),
            ("c/include/nanorand.h", " NANORAND_SYMBOL(version)", " NANORAND_SYMBOL(wyrand_u64)",
             "nanorand_v1_version has NANORAND_SYMBOL(wyrand_u64), not"),
            ("crates/nanorand_c/src/lots.rt", "wanted: usize", "wanted: u32",
             "c/include/nanorand.h: nanorand_v1_lots_draw is declared as",
             "tests/against_c/tests/common/mod.rs: nanorand_v1_lots_draw is declared as",
             "rust/nanorand-c/src: nanorand_v1_lots_draw is declared as"),
            ("crates/nanorand_c/src/version.rt", "10_000", "10_001", "10_001, and its clause has 10000"),
            ("c/include/nanorand.h", "NANORAND_NOT_NULL((1, 4))", "NANORAND_NOT_NULL((1))",
             "nanorand_v1_wyrand_range_u32 has NANORAND_SYMBOL(wyrand_range_u32) NANORAND_NOT_NULL((1)) "),
            ("c/include/nanorand.h", "an array of length 0.", "an array of length 0 or of a result.",
             "No pointer may be null, except that of an array of length 0 or of a result"),
            ("c/include/nanorand.hpp", "[[nodiscard]] inline std::array", "inline std::array",
             "c/include/nanorand.hpp: digest returns a value without"),
            ("c/include/nanorand.hpp", "[[nodiscard]] decltype(auto)", "decltype(auto)",
             "c/include/nanorand.hpp: choose returns a value without"),
            ("c/include/nanorand.hpp", "#include <iterator>\n", "",
             "std::begin is used, and its header <iterator> is not included"),
            ("c/include/nanorand.hpp", "#include <limits>\n", "#include <limits>\n#include <list>\n",
             "<list> is included and not used"),
            ("c/include/nanorand.hpp", "std::next", "std::prev",
             "std::prev is used, and its header <None> is not included"),
            ("tests/against_c/tests/common/mod.rs", "#[repr(C)]\n", "",
             "tests/against_c/tests/common/mod.rs: WyRand is declared as None"),
            ("tests/against_c/tests/common/mod.rs", "places: *mut usize", "places: *const usize",
             "tests/against_c/tests/common/mod.rs: nanorand_v1_wyrand_sample is declared as"),
            ("tests/against_c/tests/common/mod.rs", "index: u64", "index: u32",
             "tests/against_c/tests/common/mod.rs: nanorand_v1_wyrand_part is declared as"),
            ("rust/nanorand-c/src/calls.rs", "last: u32", "last: u64",
             "rust/nanorand-c/src: nanorand_v1_pcg64_range_u32 is declared as"),
            ("rust/nanorand-c/src/calls.rs", "$state, index: u64", "$state, index: u32",
             "rust/nanorand-c/src: nanorand_v1_pcg64_part is declared as"),
            ("rust/nanorand-c/src/stream.rs", 'export_part!("keystream", GroupStream);\n', "",
             "nanorand_v1_keystream_part is exported and not declared"),
            ("rust/nanorand-c/src/stream.rs", '"stream", Stream', '"stream", GroupStream',
             "nanorand_v1_stream_u64 is declared as ([('state', 'mut GroupStream')]"),
            ("rust/nanorand-c/src/lots.rs", "text: Array<u8>", "text: ArrayMut<u8>",
             "rust/nanorand-c/src: nanorand_v1_lots_digest is declared as"),
            ("rust/nanorand-c/src/lib.rs", "    10000\n", "    10001\n",
             "rust/nanorand-c/src/lib.rs: version ['10001']"),
            ("c/include/nanorand.h", "#define NANORAND_VERSION 1", "#define NANORAND_VERSION 2",
             "c/include/nanorand.h: version ['20000']"),
            ("rust/nanorand-c/Cargo.toml", 'version = "1', 'version = "2',
             "rust/nanorand-c/Cargo.toml: version ['2.0.0']"),
            ("Cargo.lock", 'name = "draw"\nversion = "1', 'name = "draw"\nversion = "2',
             "Cargo.lock: version ['2.0.0', '1.0.0', '1.0.0']"),
            ("CHANGELOG.md", "## [1.", "## [2.", "CHANGELOG.md: version ['2.0.0']"),
            ("CHANGELOG.md", "## [Unreleased]\n", "", "CHANGELOG.md: it begins with # Changelog, ### Changed"),
            ("rust/nanorand-proved/CHANGELOG.md", "### Added", "### New", "### New is no heading of a changelog"),
            ("pyproject.toml", 'Repository = "', 'Repository = "https://', "'pyproject.toml': ['https://URL']"),
            ("rust/lots/LICENSE", "\n", "\n\n", "rust/lots/LICENSE: it is not the LICENSE"),
            ("rust/lots/Cargo.toml", '"no_std"]', '"no_std", "rng"]', "rust/lots/Cargo.toml: the keywords"),
            ("rust/draw/Cargo.toml", '"seeded"', '"seeded and repeatable"', "rust/draw/Cargo.toml: the keywords"),
            ("rust/draw/Cargo.toml", "-utilities", "-tools", "rust/draw/Cargo.toml: the categories"),
            ("c/README.md", "| 3 | `NANORAND_PAST", "| 2 | `NANORAND_PAST", "c/README.md: PAST_PERIOD is no status 2"),
            ("c/README.md", "`nanorand_stream_...`", "`nanorand_streams_...`", "c/README.md: streams_ is not in"),
            ("c/README.md", "120 bytes", "112 bytes", "c/README.md: it does not say 120 bytes"),
            ("docs/LANGUAGES.md", "| status 4 |", "| status 3 |", "docs/LANGUAGES.md: LOTS_EMPTY_LINE is no status 3"),
            ("docs/LANGUAGES.md", "`wyrand_range_usize`", "`wyrand_range_size`",
             "docs/LANGUAGES.md: wyrand_range_size is not in"),
            ("docs/LANGUAGES.md", "`.._range_i64`", "`.._range_i46`", "docs/LANGUAGES.md: range_i46 is not in"),
            ("rust/nanorand-proved/src/layer/any.rs", "    [] Pcg64,\n", "",
             "rust/nanorand-proved/src/layer/any.rs: it has nothing for Pcg64"),
            ("rust/nanorand-proved/src/layer/defaults.rs", "Default for Pcg64 {", "Default for Pcg32 {",
             "rust/nanorand-proved/src/layer/defaults.rs: it has nothing for Pcg64"),
            ("rust/nanorand-proved/src/layer/hash.rs", "Hash for ChaChaGroups<", "Hash for Groups<",
             "rust/nanorand-proved/src/layer/hash.rs: it has nothing for ChaChaGroups<ROUNDS>"),
            ("rust/nanorand-proved/src/layer/seeds.rs", "> ChaChaStream<ROUNDS> {", "> Stream<ROUNDS> {",
             "rust/nanorand-proved/src/layer/seeds.rs: it has nothing for ChaChaStream<ROUNDS>"),
            ("crates/nanorand/src/laws.rt", "⟦<Pcg64 as Blocks", "⟦<Pcg as Blocks",
             "crates/nanorand/src/laws.rt: it has nothing for Pcg64"),
            ("README.md", "| `WyRand` |", "| `Wyrand` |", "README.md: it has nothing for WyRand"),
            ("docs/REFERENCE.md", "## ChaCha\n", "## Chacha\n", "docs/REFERENCE.md: it has nothing for ChaCha"),
            ("python/tests/makers.py", '    "pcg64": Pcg64,\n', "", "python/tests/makers.py: it has nothing for Pcg64"),
            ("c/tests/edges.c", "TESTS(chacha20, nanorand_chacha)\n", "", "c/tests/edges.c: it has nothing for ChaCha"),
            ("tests/answers/vectors.py", '("pcg64", bytes(16), "3f75823f2f6939ad"),', "",
             "tests/answers/vectors.py: it has nothing for Pcg64"),
            ("crates.txt", "nanorand_fairness sha2", "nanorand_fairness rand sha2", "README.md: it names ["),
        ],
        [
            ("c/include/nanorand.h", " NANORAND_USE_STATUS;", ";",
             "nanorand_v1_wyrand_range_u32 has NANORAND_SYMBOL(wyrand_range_u32) NANORAND_NOT_NULL((1, 4)), not"),
            ("Cargo.toml", 'version = "1', 'version = "2', "Cargo.toml: version ['2.0.0']"),
            ("Cargo.lock", 'name = "lots"\nversion = "1', 'name = "lots"\nversion = "2',
             "Cargo.lock: version ['1.0.0', '2.0.0', '1.0.0']"),
            ("LICENSE", "\n", "\n\n", "rust/draw/LICENSE: it is not the LICENSE",
             "rust/lots/LICENSE: it is not the LICENSE"),
            ("rust/nanorand-rand-core/Cargo.toml", 'repository = "URL"', 'repository = "LRU"',
             "'rust/nanorand-rand-core/Cargo.toml': ['LRU']"),
        ],
        [("Cargo.lock", 'name = "nanorand-program"\nversion = "1', 'name = "nanorand-program"\nversion = "2',
          "Cargo.lock: version ['1.0.0', '1.0.0', '2.0.0']")],
        # Without this name the script ends early.
        [("c/include/nanorand.h", "#define nanorand_version nanorand_v1_version\n", "")],
    ],
    "tools/record.py --check": [
        [
            ("docs/PAGE.md", '3: "Chidi"', '3: "Ada"', "docs/PAGE.md differs"),
            ("docs/RAFFLE.md", "  nanorand.html\n", "0  nanorand.html\n", "docs/RAFFLE.md differs"),
            ("CHANGELOG.md", "`docs/nanorand.html`: `", "`docs/nanorand.html`: `0", "CHANGELOG.md differs"),
            ("pyproject.toml", 'Repository = "', 'Repository = "https://', "pyproject.toml differs"),
        ],
        [("docs/PAGE.md", "\nend of the record\n", "\n")],
        [("docs/PAGE.md", "reserves: 1\n", "reserves: 2\n")],
        [("docs/nanorand.html", "</footer>", "</footer> ")],
        [("docs/LOTS.md", "Jun\nChidi", "Jun\nAda")],
        [("docs/nanorand.html", 'id="module">AGFzbQE', 'id="module">AGFzbQI')],
    ],
    "web/build.py --check": [
        [("Cargo.toml", 'repository = "', 'repository = "https://')],
        [("web/src/refusal.js", "too few entrants", "too few")],
        [("docs/LOTS.md", '- **Entrants.** Standa', '- So: **Entrants.** Standa')],
    ],
    "tests/links.py": [
        [
            ("README.md", "(docs/LOTS.md)", "(docs/LOT.md)", "README.md: (docs/LOT.md): no such file"),
            ("docs/PAGE.md", "#the-rule-of-the-draw", "#the-rules-of-the-draw",
             "docs/PAGE.md: (LOTS.md#the-rules-of-the-draw): no such heading"),
            ("docs/PAGE.md", "## The record", "## A record", "docs/PAGE.md: (#the-record): no such heading",
             "CHANGELOG.md: (docs/PAGE.md#the-record): no such heading"),
            ("crates/nanorand/CONTRACTS.md", "](../../docs/DIFFERENCES.md", "](../../docs/DIFFERENCE.md",
             "crates/nanorand/CONTRACTS.md: (../../docs/DIFFERENCE.md): no such file"),
            ("docs/CONTRIBUTING.md", "`tests/quotes.py` fails", "`tests/quote.py` fails",
             "docs/CONTRIBUTING.md: tests/quote.py: no such script"),
            ("docs/ARCHITECTURE.md", "`bench/rust/`, `bench/c/`, ", "`bench/rust/`, ", "its map lacks bench/c/"),
            ("docs/ARCHITECTURE.md", "`bench/rust/`, ", "`bench/rust/`, `bench/rattle/`, ",
             "its map has bench/rattle/, which is not there"),
        ],
    ],
    "tools/header.py --check": [
        [("c/include/nanorand.h", "const uint8_t *list", "uint8_t *list")],
        [("crates/nanorand_c/src/version.rt", "10_000", "10_001")],
    ],
    "tests/differences.py": [
        [
            ("crates/nanorand/src/parts.rt", "/// The error", "pub fn spare() {}\n\n/// The error",
             "`parts::spare`: only the library"),
            ("crates/nanorand/src/parts.rt", "/// The error",
             "pub static SPARE: u8 = 1;\n\npub struct Few {\n    pub many: u8,\n}\n\n/// The error",
             "`parts::SPARE`: only the library", "`parts::Few::many`: only the library"),
            ("crates/nanorand_core/src/choices.rt", "{below, ", "{below as under, ",
             "`choices::under`: only the library", "`choices::below`: it is listed as added"),
            ("crates/nanorand/src/rand/chacha_groups.rt", "pub fn counter(", "pub fn count(",
             "`ChaChaGroups::count`: only the library", "`ChaChaGroups::counter`: it is listed as added"),
            ("crates/nanorand_core/src/values/range.rt", "    Exhausted,\n", "    Exhausted,\n    Late,\n",
             "`RangeError::Late`: only the library"),
            ("crates/nanorand/src/parts.rt", "    fn part(", "    fn period() -> u128;\n\n    fn part(",
             "`Parts::period`: only the library"),
            ("crates/nanorand/src/rand/wyrand.rt", "#[derive(Drop)]", "#[derive(Drop, Hash)]",
             "`impl Hash for WyRand`: only the library"),
            ("docs/DIFFERENCES.md", "`Short`, ", "`Short`, `Long`, ",
             "`entropy::EntropyError::Long`: it is listed as added"),
            ("docs/DIFFERENCES.md", "| `samples` | `sample`", "| `Rng` | `shuffle`",
             "`Rng::shuffle`: it is listed as added", "`samples::sample`: only the library"),
            ("docs/DIFFERENCES.md", "| `gen` | `values` |", "| `gen` | `value` |",
             "`value`: it is listed as a name here"),
            ("tests/nanorand-0.7.0.txt", ", windows_uwp, backup", ", backup",
             "`entropy::windows_uwp`: it is listed as of 0.7.0"),
            ("crates/nanorand/src/entropy.rt", "pub fn rdseed", "fn rdseed", "`entropy::rdseed`: only 0.7.0"),
            ("crates/nanorand/src/rand.rt", "pub use wyrand::", "use wyrand::", "`rand::WyRand`: only 0.7.0"),
            ("crates/nanorand/src/rand/pcg64.rt", "impl Eq for Pcg64", "impl Default for Pcg64",
             "`impl Default for Pcg64`: it is listed as left out", "`impl Eq for Pcg64`: it is listed as added"),
        ],
        [
            ("docs/DIFFERENCES.md", "`at_index`, `key`, `nonce`, `counter`", "`at_index`, `key`, `nonce`",
             "`ChaChaGroups::counter`: only the library"),
            ("docs/DIFFERENCES.md", "`impl Default`", "`impl Hash`", "`impl Default for Pcg64`: only 0.7.0",
             "`impl Hash for Pcg64`: it is listed as of 0.7.0"),
        ],
    ],
    "tests/answers/make.py --check": [
        [("tests/answers/answers.tsv", "12558987674375533620", "12558987674375533621")],
        [
            ("tests/answers/definitions.py", "0xE7037ED1A0B428DB", "0xE7037ED1A0B428DA", "FAILED wyrand "),
            ("tests/answers/definitions.py", "return EMPTY_LINE, lines.index(b\"\") + 1",
             "return EMPTY_LINE, lines.index(b\"\")", "FAILED a list: (4, 1)"),
        ],
        [("tests/answers/rows.py", "    yield from lots_rows()\n",
          "    yield from lots_rows()\n    yield from lots_rows()\n", "a row stands twice")],
    ],
    "tools/contracts.py --check": [
        [
            ("tools/contracts.py", 'one.word in ("fn", "ghost")', 'one.word in ("ghost",)',
             "number.rt: ensures number { number result ≡ self }"),
            ("tools/contracts.py", 'item.brace).split("\\n")', 'item.brace).split("\\n")[:4]',
             "uniform.rt: ensures below { IfOk result (λ number. T.lt number n ≡ true) }"),
            ("tools/contracts.py", "unfoldable )*pub (?:record |data )?(?P<name>",
             "unfoldable )*pub (?:data )?(?P<name>", "specs/choices/Uniform.antt: a definition of Requests"),
            ("tools/contracts.sums", "nanorand/src/laws.rt", "nanorand/src/law.rt",
             "crates/nanorand/src/law.rt: a signature, a clause"),
        ],
        [
            ("crates/nanorand_core/specs/values/Runs.antt", "pub quota :", "quota :",
             "Weighted.antt: a definition of quota",
             "crates/nanorand_core/specs/values/Runs.antt: a signature, a clause"),
            ("crates/nanorand/src/laws.rt", "PartsAreApart (2 ^ 126)", "PartsAreApart (2 ^ 125)",
             "crates/nanorand/src/laws.rt: a signature, a clause"),
            ("crates/nanorand/specs/generators/Parts.antt", "(i * draws)", "(i * draws + 1)",
             "crates/nanorand/specs/generators/Parts.antt: a signature, a clause"),
            ("crates/lots_core/src/lib.rt", "pub mod run;", "pub mod run;\npub const FEW: u8 = 1;",
             "crates/lots_core/src/lib.rt: a signature, a clause"),
            ("crates/nanorand_users/src/retry.rt", "IfOk result (λ delay. ceiling / 2 ≤ delay)",
             "IfOk result (λ delay. 0 ≤ delay)", "crates/nanorand_users/src/retry.rt: a signature, a clause"),
            ("crates/nanorand_tests/src/comparing.rt",
             "    right: T,\n    note: impl Display + Drop,\n)\n    ensures { IsTrue (T.eq left right) }",
             "    right: T,\n    note: impl Display + Drop,\n)",
             "crates/nanorand_tests/src/comparing.rt: a signature, a clause"),
        ],
    ],
    "tools/bodies.py": [
        [
            ("rust/lots/src/draws.rs", "number(places);", "", "fn draw_places: body differs"),
            ("crates/draw_core/src/command.rt", "1000", "999", "const MOST_ITEMS: value differs"),
            ("rust/nanorand-proved/src/samples.rs", "= count - places.len()", "= count - places.len() - 1",
             "fn extend_sample: body differs"),
        ],
        [("crates/nanorand_core/src/samples.rt", "Ok(())", "Ok(Default::default())")],
    ],
    "tools/pictures.py --check": [
        [
            ("docs/runs.svg", "first", "second", "docs/runs.svg is not what"),
            ("docs/delivery.svg", "first", "second", "docs/delivery.svg is not what"),
            ("crates.txt", "\nlots: lots_core", "\nmore: lots_core\nlots: lots_core", "'more'"),
            ("tools/layers.py", '"rand::halves", ', "", "'nanorand::rand::halves'"),
            ("tools/layers.py", '["entropy"]', '["entropy", "entropies"]',
             "a box holds what is not there: ['nanorand::entropies']"),
        ],
        [("docs/ARCHITECTURE.md", "exports --> lots\n", "")],
        [("crates/nanorand/src/rand/chacha.rt", "use crate::entropy::{EntropyError, system};", "")],
        [("crates/nanorand/src/rand/keystream.rt", "use crate::parts::", "use crate::entropy::")],
    ],
}
# The commands that write files: the command, each file, and a text in it that is removed before.
WRITERS = {
    "tests/quotes.py --write": {"README.md": "(pips ≤ 6)"},
    "tests/answers/make.py": {"tests/answers/answers.tsv": "12558987674375533620"},
    "tools/contracts.py --sums": {"tools/contracts.sums": "  crates/nanorand/src/laws.rt\n"},
    "tools/record.py": {"docs/PAGE.md": '3: "Chidi"\n', "pyproject.toml": "URL"},
    "tools/pictures.py": {"docs/runs.svg": "first", "docs/ARCHITECTURE.md": "exports --> lots\n"},
    "tools/header.py": {"c/include/nanorand.h": "const uint8_t *list"},
    "tools/bodies.py --write": {"rust/PROVED.md": "nanorand-proved/src/system.rs"},
}
# Modules for the web page: a good one has no import, and a 64-bit or a 32-bit memory. The others are errors.
MODULE = b"\0asm\1\0\0\0"
IMPORT, WIDE, NARROW = b"\2\7\1\1a\1b\0\0", b"\5\3\1\4\1", b"\5\3\1\0\1"
BAD_MODULES = [b"", b"<html>", MODULE, MODULE + NARROW, MODULE + IMPORT + WIDE]
BAD_MODULES32 = [b"", MODULE, MODULE + WIDE, MODULE + IMPORT + NARROW]
# What no script of the page may have: a tag that ends a script, one that begins a comment, a name of another file.
BAD_SCRIPTS = ['void "</SCRIPT>";', 'void "<!--";', "function hex() {}"]
# Calls that report a warning and pass: a pattern of each, and the words that make them fail.
LENIENT = {
    r"\bcargo clippy (?!--version)": "-- -D warnings -W clippy::pedantic",
    r"\bcargo fmt (?!--version)": "--check",
    r"-Wall -Wextra": "-Werror",
    r"\bunittest discover\b": "-W error",
}
# Functions that build something, and what runs before each of them.
BUILDERS = {
    ("tests/c.sh", "by_cargo"): "declare -A archives",
    ("tests/c.sh", "by_the_kit"): "declare -A archives",
    ("tests/program.sh", "builds_of draw"): "asked=cargo",
    ("tests/program.sh", "builds_of lots"): "asked=kit",
}
# The parts of the two scripts that compare programs with Python code.
OPINIONS = ("draws", "draws_by_process", "draws_by_openssl", "refusals", "examples", "draws_from_words")
RECORDS = ("announced", "written_and_accepted", "accepted_or_not", "of_the_draw_or_not")
# Programs in place of `lots`, none of which looks at the list.
ACCEPTS = """[ $# -eq 2 ] && echo 'the record agrees with the list; no announcement was compared'
[ $# -eq 3 ] && echo 'the record agrees with the list, and names the announcement'
exit 0
"""
REFUSES = "echo 'lots: this is no record of format 2' >&2\nexit 9\n"


class Counts:
    def __init__(self):
        self.passed = self.failed = 0

    def same(self, name, found, wanted):
        self.passed += found == wanted
        self.failed += found != wanted
        if found != wanted:
            print(f"FAILED {name}: expected {wanted!r}, found {found!r}")


def ran(command, folder, **environment):
    return subprocess.run(command, cwd=folder, env={**os.environ, **environment}, stdin=subprocess.DEVNULL,
                          stdout=subprocess.PIPE, stderr=subprocess.STDOUT, text=True)


def stand_in(path, first=""):
    """Writes a program that records its call and passes. The shell code in the file ENDS can end a call in another way.
    The program BUSY first takes four seconds of processor time."""
    path.parent.mkdir(parents=True, exist_ok=True)
    path.write_text(f"#!/bin/sh\n{first}\n" + """
call="$0${*:+ $*}"
echo "$call" >>"$CALLS"
case "$0" in *"${BUSY:-none}") (ulimit -t 4; while :; do :; done) ;; esac
. "$ENDS"
echo '7 passed, 0 failed'
""")
    path.chmod(0o755)


def calls_of_whole(room):
    """Prepares a folder in which everything that ./test calls is a stand-in. The one for rt fails unless it runs in a
    copy of the folder that has the committed and new files and no built ones."""
    copy_of_repository(room, "test", "tests/lib.sh")
    programs = re.findall(r"^    (?:timed|begin) (\S+)", (ROOT / "test").read_text(encoding="utf-8"), re.M)
    functions = {"alone", "ended", "proofs", "pieces", "mutants"}
    for name in sorted({*programs, "tests/build.sh", "tools/mutants.py"} - functions):
        stand_in(room / name)
    stand_in(room / "bin/rt", f"[ $PWD != {room} ] && [ -e tracked ] && [ -e new ] && [ ! -e built ] || exit 9")
    for name in ["tracked", "new", "built"]:
        (room / name).write_text("")
    (room / ".gitignore").write_text("/built\n")
    ran(["git", "init", "-q"], room)
    ran(["git", "add", "tracked"], room)


def whole(room, ends, busy="none"):
    """The calls that ./test makes, its lines and its status. `ends` has the calls that end in another way, each with
    its text and its status."""
    calls, code = room / "calls", room / "ends"
    calls.write_text("")
    cases = [f"'{call}' | */'{call}') echo '{text}'; exit {status} ;;\n" for call, (text, status) in ends.items()]
    code.write_text(f"case $call in\n{''.join(cases)}esac\n")
    done = ran(["./test"], room, PATH=f"{room / 'bin'}:{os.environ['PATH']}", CALLS=str(calls), ENDS=str(code),
               BUSY=busy)
    made = [line.removeprefix(f"{room}/bin/") for line in calls.read_text().splitlines()]
    return made, done.stdout.splitlines(), done.returncode


def sums(counts, room):
    """Each part is called, and the sum counts how it ends."""
    calls_of_whole(room)
    made, lines, status = whole(room, {}, busy="tests/links.py")
    files = [path.name for path in (ROOT / "tests").iterdir() if path.is_file()]
    names = {f"tests/{name}" for name in files if name not in NO_PARTS}
    # These parts run once for what the kit builds, and once for what cargo builds.
    by_library = {"tests/draw.sh", "tests/lots.sh", "tests/python.sh"}
    parts = names - by_library | {f"{name} {library}" for name in by_library for library in ("cargo", "kit")}
    pieces = "tests/build.sh library page draw lots"
    others = {"rt ci", pieces, "tests/answers/make.py --check", "tools/contracts.py --check",
              "tools/pictures.py --check", "tools/bodies.py", "tools/mutants.py", "tools/header.py --check",
              "tools/record.py --check", "web/build.py --check"}
    counts.same("the parts that are called", sorted(made), sorted(parts | others))
    # The pieces count as one test, whatever the script that builds them prints.
    all_passed = 7 * (len(made) - 1) + 1
    counts.same("the sum", (lines[-1], status), (f"{all_passed} passed, 0 failed", 0))
    times = [line for line in lines if re.fullmatch(r".+: [\d.]+ minutes, [\d.]+ processor-minutes", line)]
    counts.same("the times, those of ten parts again, and that of all", len(times), len(made) + 11)
    counts.same("the times of ten parts, and that of all, come last", lines[-12:-1], times[-11:])
    counts.same("the longest part", times[-11].split(", ")[-1], "0.1 processor-minutes")
    counts.same("the time of all", bool(re.fullmatch(r"all: 0\.\d minutes, 0\.[1-4] processor-minutes", times[-1])), True)
    # One part is tested with every kind of end. The others, a third of them at once, are tested with the kind that is
    # easily overlooked.
    tested = "tests/quotes.py"
    left = [call for call in made if call != tested]
    for kinds in [*({tested: kind} for kind in KINDS),
                  *(dict.fromkeys(left[place::3], "its status alone fails") for place in range(3))]:
        _, lines, status = whole(room, {call: KINDS[kind][:2] for call, kind in kinds.items()})
        ended = [(0, 1) if call == pieces else KINDS[kind][2] for call, kind in kinds.items()]
        passed, failed = map(sum, zip(*ended))
        passed += all_passed - sum(1 if call == pieces else 7 for call in kinds)
        wanted = f"{passed} passed, {failed} failed", int(failed > 0)
        counts.same(f"the sum with {kinds}", (lines[-1], status), wanted)
        if kinds == {tested: "a skip"}:
            counts.same(f"{tested}: the skip is named again", lines[-14], "skipped: a compiler")


def integration(counts, room):
    """.ci/run runs the whole ./test, from any folder, and has its status."""
    copy_of_repository(room, ".ci")
    program(room / "test", 'echo "$PWD: $# words"\nexit "$STATUS"\n')
    for status in (0, 1):
        done = ran([str(room / ".ci/run")], room.parent, STATUS=str(status))
        counts.same(f".ci/run of a test with status {status}", (done.stdout, done.returncode),
                    (f"{room}: 0 words\n", status))


def quick(counts, room):
    """./test quick takes the crates that differ from the last commit on main, and the crates with tests that depend on
    them. It runs the tests of the cargo workspace if a file of it differs."""
    copy_of_repository(room, "test", "tests/lib.sh", "tools/crates.py")
    for name in re.findall(r"^    timed ((?:tests|tools|web)/\S+)", (ROOT / "test").read_text(encoding="utf-8"), re.M):
        stand_in(room / name)
    stand_in(room / "bin/rt", 'echo "${PWD##*/} $*" >>"$CALLS"')
    stand_in(room / "bin/cargo", 'echo "cargo $*" >>"$CALLS"')
    for name, text in {"low": "", "of_low": "#[test]", "other": "#[test]", "low_alike": "#[test]",
                       "top": "#[test]"}.items():
        (room / "crates" / name / "src").mkdir(parents=True)
        (room / "crates" / name / "src/lib.rt").write_text(text)
    (room / "crates.txt").write_text("low: thiserror\nof_low staticlib: hex low\nother:\nlow_alike: other\ntop: of_low\n")
    (room / ".gitignore").write_text("/calls\n/bin/\n")
    for command in ["init -q -b main", "add .", "-c user.name=n -c user.email=e commit -q -m c"]:
        ran(["git", *command.split()], room)
    checked, tested = "check", "try --test --seconds 500"
    for change, arguments, wanted in [
        (None, [], []),
        ("low", [], [f"low {checked}", f"of_low {tested}", f"top {tested}"]),
        ("new", [], [f"low {checked}", f"new {checked}", f"of_low {tested}", f"top {tested}"]),
        (None, ["other"], [f"other {checked}", f"low_alike {tested}", f"other {tested}"]),
    ]:
        if change:
            (room / "crates" / change / "src").mkdir(parents=True, exist_ok=True)
            (room / "crates" / change / "src/lib.rt").write_text("// changed")
        counts.same(f"./test quick {arguments}, after a change of {change}", quick_calls(room, arguments), (wanted, 0))
    of_other = [f"other {checked}", f"low_alike {tested}", f"other {tested}"]
    for name in ("rust/one/src/lib.rs", "Cargo.toml", "Cargo.lock"):
        (room / name).parent.mkdir(parents=True, exist_ok=True)
        (room / name).write_text("")
        wanted = ["cargo test --offline --quiet --workspace", *of_other], 0
        counts.same(f"./test quick other, after a change of {name}", quick_calls(room, ["other"]), wanted)
        (room / name).unlink()


def quick_calls(room, arguments):
    """The checks and the tests that ./test quick runs, and its status."""
    calls = room / "calls"
    calls.write_text("")
    done = ran(["./test", "quick", *arguments], room, PATH=f"{room / 'bin'}:{os.environ['PATH']}", CALLS=str(calls),
               ENDS="/dev/null")
    made = re.findall(r"^(?:\w+ (?:check|try)|cargo test).*$", calls.read_text(), re.M)
    return made, done.returncode


# The stand-in for cargo and rustc: the oldest in the folder `oldest`, else a newer one. The calls in the file BAD fail,
# or print nothing if KIND is `nothing`. The stand-in has all subcommands, but no LLVM tools.
STAND_IN = """#!/bin/sh
case "$0" in */oldest/*) minor=63 ;; *) minor=77 ;; esac
case "$*" in *--version | *--verbose | --print*) printf "rustc 1.$minor.0\nhost: no\nLLVM version: 0\n"; exit 0 ;; esac
echo "${0##*/} $*" >>"$CALLS"
if grep -qxF -e "${0##*/} $*" "$BAD"; then
    [ "$KIND" = nothing ] && exit 0
    echo 'test result: FAILED. 2 passed; 1 failed'
    exit 1
fi
case "$*" in *targets/program.rs) install -D /bin/true ../../target/targets/x86_64-unknown-linux-gnu/program ;; esac
case "$*" in *src/system.rs) printf '#!/bin/sh\necho "test result: ok. 3 passed; 0 failed"\n' >target/system ;; esac
case "$*" in *src/system.rs) chmod +x target/system ;; esac
case "$*" in *--doc*--list) echo 'one: test' ;; esac
case "$*" in *--list*) cd rust/nanorand-proved && find src benches examples tests *.md *.rs LICENSE -type f ;; esac
echo 'test result: ok. 3 passed; 0 failed'
"""


# How many calls apart those are that end badly in one run: calls that fail, and tests that print nothing. Some calls
# are made only if those just before them succeed.
APART, SILENT_APART = 8, 3


def crate_tested(room, bad, kind):
    """The calls of tests/workspace.sh, the number of failures that it counts and its status, if these calls end
    badly."""
    calls = room / "calls"
    calls.write_text("")
    (room / "bad").write_text("\n".join(bad) or "none")
    done = ran(["tests/workspace.sh"], room, PATH=f"{room / 'bin'}:{os.environ['PATH']}", CALLS=str(calls),
               BAD=str(room / "bad"), KIND=kind, NANORAND_OLDEST=str(room / "oldest"))
    last = re.fullmatch(r"\d+ passed, (\d+) failed", done.stdout.splitlines()[-1])
    return calls.read_text().splitlines(), int(last[1]), done.returncode


def crate(counts, room):
    """tests/workspace.sh counts each call that fails, and each test run without tests, as a failure. To save time there
    is only one example and one target, and some calls fail in the same run."""
    copy_of_repository(room, "rust", "Cargo.toml", "tests", "tools")
    for example in sorted((room / "rust/nanorand-proved/examples").iterdir())[1:]:
        example.unlink()
    for folder in [room / "bin", room / "oldest/bin"]:
        folder.mkdir(parents=True)
        for name in ["cargo", "rustc"]:
            (folder / name).write_text(STAND_IN)
            (folder / name).chmod(0o755)
    std = room / "oldest/lib/rustlib/x86_64-unknown-linux-gnu/lib/libstd-1.rlib"
    std.parent.mkdir(parents=True)
    std.touch()
    (room / "target").mkdir()  # which cargo makes
    made, *found = crate_tested(room, [], "")
    counts.same("tests/workspace.sh passes", found, [0, 0])
    counts.same("two equal calls of tests/workspace.sh", len(set(made)), len(made))
    tests = [call for call in made if re.match(r"cargo (miri )?test ", call)]
    for kind, calls, apart in (("it fails", made, APART), ("nothing", tests, SILENT_APART)):
        for bad in (calls[place::apart] for place in range(apart)):
            again, *found = crate_tested(room, bad, kind)
            counts.same(f"tests/workspace.sh: {kind}: {bad}", [set(bad) - set(again), *found], [set(), len(bad), 1])


def in_lib(script, room, **environment):
    """The output and the status of a script that sources tests/lib.sh. Programs in the room come first on the PATH."""
    done = ran(["bash", "-c", f"source tests/lib.sh; {script}"], ROOT, PATH=f"{room}:{os.environ['PATH']}", **environment)
    return done.stdout.splitlines(), done.returncode


def cargo(counts, room):
    """cargo_tests adds up what cargo prints. A bad status or a run without tests is a failure."""
    good, bad = "test result: ok. 3 passed; 0 failed", "test result: FAILED. 2 passed; 1 failed"
    for text, status, wanted in [(good, 0, "3 passed, 0 failed"), (f"{bad}\n{good}\n{bad}", 101, "7 passed, 2 failed"),
                                 (good, 101, "3 passed, 1 failed"), ("", 0, "0 passed, 1 failed")]:
        program(room / "cargo", f"printf '%s\\n' '{text}'\nexit {status}\n")
        lines, found = in_lib("cargo_tests cargo test; finish", room)
        case = f"cargo_tests: {text!r}, status {status}"
        counts.same(case, (lines[-1], found), (wanted, int("0 failed" not in wanted)))


def units(counts, room):
    """unit_tests adds up what unittest prints. A bad status or a run without tests is a failure."""
    good = "Ran 3 tests in 0.1s\n\nOK"
    bad = ("FAIL: test_a (t.T.test_a)\nERROR: test_b (t.T.test_b)\nRan 5 tests in 0.1s\n\n"
           "FAILED (failures=1, errors=1, skipped=1)")
    for text, status, wanted in [(good, 0, "3 passed, 0 failed"), (bad, 1, "2 passed, 2 failed"),
                                 (bad, 0, "2 passed, 2 failed"), (good, 1, "2 passed, 1 failed"),
                                 ("Ran 0 tests in 0.0s\n\nOK", 0, "0 passed, 1 failed"), ("", 0, "0 passed, 1 failed"),
                                 ("ERROR: t (unittest.loader._FailedTest.t)", 1, "0 passed, 1 failed"),
                                 ("Ran 4 tests in 0.1s\n\nOK (skipped=3)", 0, "1 passed, 0 failed")]:
        program(room / "said", f"printf '%s\\n' '{text}'\nexit {status}\n")
        lines, found = in_lib("unit_tests name said; finish", room)
        case = f"unit_tests: {text!r}, status {status}"
        counts.same(case, (lines[-1], found), (wanted, int(" 0 failed" not in wanted)))
    program(room / "said", f"printf '%s\\n' '{bad}'\nexit 1\n")
    lines, _ = in_lib("check case wrong; unit_tests name said; unit_tests name said; finish", room)
    counts.same("unit_tests after another failure", lines[-1], "4 passed, 5 failed")


def streams(counts, room):
    """The tests of the programs compare whole streams, and the status."""
    for wanted in ["abc", "ab", "abcd", "", "abd", "Abc", "abc\\n"]:
        for script in [f"differs_in it out '{wanted}'", f"printf '{wanted}' >$work/other; differs_from it out other"]:
            lines, _ = in_lib(f"source tests/program.sh; printf abc >$work/out; {script}", room)
            counts.same(f"abc: {script}", lines == [], wanted == "abc")
    for wanted, failed in [("3 'a\\n' 'b'", 0), ("0 'a\\n' 'b'", 1), ("3 'a' 'b'", 1), ("3 'a\\n' ''", 1)]:
        lines, _ = in_lib("source tests/program.sh; compiler=none; begin; echo a >$work/out; printf b >$work/err; "
                          f"status=3; end case {wanted}; finish", room)
        counts.same(f"a case that ends with {wanted}", lines[-1], f"{1 - failed} passed, {failed} failed")
    for texts, failed in [("rattle=1", 0), ("rattle=1 llvm=2 cargo=3", 0), ("rattle=1 llvm=2 cargo=1", 1)]:
        lines, _ = in_lib(f"source tests/program.sh; for one in {texts}; do echo ${{one#*=}} >$work/${{one%=*}}; done; "
                          f"chmod +x $work/*; all_different; finish", room)
        counts.same(f"builds {texts}", lines[-1], f"{1 - failed} passed, {failed} failed")


def processors(counts, room):
    """A library runs on every processor if exactly the functions for AVX2 have later instructions: not fewer, as if
    the disassembly had none, nor others."""
    program(room / "objdump", f"cat {room / 'code'}\n")
    of_avx2 = [f"<_RNvNt4simd4avx29with_avx2_{number}>" for number in range(5)]
    for names, wanted in [(of_avx2[:4], 0), (of_avx2[:3], 1), (of_avx2, 1), ([], 1), ([*of_avx2[:3], "<fill>"], 1),
                          ([*of_avx2[:4], "<fill>"], 1)]:
        code = [f"0000000000001000 {name}:\n    1000:\tvpaddd %ymm0,%ymm1,%ymm2\n" for name in names]
        (room / "code").write_text("".join(code), encoding="utf-8")
        _, status = in_lib("runs_on_every_processor library >/dev/null", room)
        counts.same(f"later instructions in {names}", status, wanted)


def page_parts(counts, room):
    """web/tests/run.py runs each module that has a `run`, and its help lists the parts."""
    text = (ROOT / "web/tests/run.py").read_text(encoding="utf-8")
    called = re.findall(r'^            "(\w+)": lambda: (\w+)\.', text, re.M)
    listed = re.search(r"The parts are (.*?)\. The last", text, re.S)[1].replace(" and ", " ")
    counts.same("the parts that the help lists", re.findall(r"\w+", listed), [part for part, _ in called])
    modules = {path.stem for path in (ROOT / "web/tests").glob("*.py")
               if re.search(r"^def (run|random_draws)\(", path.read_text(encoding="utf-8"), re.M)}
    counts.same("the modules whose parts run", {module for _, module in called}, modules)


def lints(counts, room):
    """What a linter or a compiler warns of is a failure, in each script that calls one."""
    scripts = [path for folder in ("tests", "c/tests") for path in sorted((ROOT / folder).glob("*.sh"))]
    for pattern, words in LENIENT.items():
        called = 0
        for path in scripts:
            code = re.sub(r"(?m)^ *#.*\n", "", path.read_text(encoding="utf-8")).replace("\\\n", "")
            arrays = dict(re.findall(r"(?m)^ *(\w+)=\((.*)\)$", code))
            for line in (line for line in code.splitlines() if re.search(pattern, line)):
                line = re.sub(r'"\$\{(\w+)\[@\]\}"', lambda found: arrays.get(found[1], found[0]), line)
                counts.same(f"{path.name}: {line.strip()}: it has {words}", f" {words}" in line, True)
                called += 1
        counts.same(f"{pattern} is called", called > 0, True)
    program(room / "cargo", """case "$*" in
    *--version* | 'clippy --offline one -- -D warnings -W clippy::pedantic') exit 0 ;;
    'fmt --all --check') exit 1 ;;
esac
exit 7
""")
    lines, _ = in_lib("clippy_and_format one; finish", room)
    counts.same("a good lint and a bad format", lines[-1], "1 passed, 1 failed")
    program(room / "cargo", """case "$*" in *--version* | fmt*) exit 0 ;; *'-D warnings'*) exit 1 ;; esac\n""")
    lines, _ = in_lib("clippy_and_format one; finish", room)
    counts.same("a bad lint and a good format", lines[-1], "1 passed, 1 failed")


# Comparisons of a value with itself. The words are joined here, since tests/lint.sh also reads this file.
ITSELF = {"crates/some_tests/src/lib.rt": ["assert_eq!(a, a)", "equal_at(&rt, a, &a)"],
          "rust/some/tests/all.rs": ["assert_ne!(a, a, b)"], "tests/against_c/all.rs": ["equal(a, a)"],
          "tests/all.py": [f"self.{call}(%s)" % ", ".join(words) for call, words in
                           [("assertEqual", "aa"), ("same", "baa")]]}


def lint(counts, room):
    """tests/lint.sh fails for a value that is compared with itself, for a linter that fails, and for a warning of
    shellcheck, if it is there."""
    copy_of_repository(room, "tests/lint.sh", "tests/lib.sh", ".shellcheckrc")
    for number in range(20):
        program(room / f"scripts/{number}.sh", "")
    for name in ("flake8", "mypy"):
        program(room / "bin" / name, f'[ "$BAD" != {name} ]\n')
    ran(["git", "init", "-q"], room)

    def tried(bad):
        done = ran(["tests/lint.sh"], room, PATH=f"{room / 'bin'}:{os.environ['PATH']}", BAD=bad, CI="")
        return done.stdout, done.stdout.splitlines()[-1].partition(", ")[2]

    counts.same("tests/lint.sh of good files", tried("none")[1], "0 failed")
    program(room / "scripts/0.sh", "unused=1\n")
    for name, lines in ITSELF.items():
        (room / name).parent.mkdir(parents=True, exist_ok=True)
        (room / name).write_text("".join(f"{line}\n" for line in lines), encoding="utf-8")
    said, failed = tried("flake8")
    missed = [(name, line) for name, lines in ITSELF.items() for line in lines if not re.search(
        rf"{re.escape(name)}:\d+:{re.escape(line)}$", said, re.M)]
    counts.same("tests/lint.sh: the comparisons of a value with itself that it misses", missed, [])
    wanted = "3 failed" if shutil.which("shellcheck") else "2 failed"
    counts.same("tests/lint.sh of these, of a warning of shellcheck, and if flake8 fails", failed, wanted)


def page_counts(counts, _):
    """web/tests/counts.py counts each case, and two values are the same only if they are equal."""
    own = runpy.run_path(str(ROOT / "web/tests/counts.py"))["Counts"]()
    with contextlib.redirect_stdout(io.StringIO()) as said:
        for found, wanted in [("a", "a"), ([], []), (1, 2), ("a", "b"), (0, ""), ("", "a")]:
            own.same("two values", found, wanted)
        for wrong in ("", "a", "b", ""):
            own.case("a case", wrong)
    found = own.passed, own.failed, len(said.getvalue().splitlines())
    counts.same("web/tests/counts.py: what passed and failed, and the lines for it", found, (4, 6, 6))


def opinions(counts, room):
    """tests/second_opinion.py compares the status and both streams, in each of its parts."""
    wanted = 0, b"a\n", b""
    for found in [wanted, (1, b"a\n", b""), (0, b"a\na\n", b""), (0, b"", b""), (0, b"b\n", b""), (0, b"a\n", b"a")]:
        with mock.patch.object(second_opinion, "result", lambda *_, found=found: found):
            wrong = [one is not None for one in second_opinion.other_than(wanted, ["one", "two"], [], b"", "")]
        counts.same(f"tests/second_opinion.py: {found} in place of {wanted}", wrong, [found != wanted] * 2)
    program(room / "silent", "exit 0\n")
    silent = [str(room / "silent")]
    page = second_opinion.PAGE.read_text(encoding="utf-8")
    source, by_openssl = re.findall(r"^```python\n(.*?)^```$", page, re.M | re.S)
    code = room / "lots.py"
    code.write_text(source, encoding="utf-8")
    # A draw from an empty list or of no entrant prints nothing.
    for name, outcomes in {
        "draws": second_opinion.draws(silent, lambda seed, entrants, count: entrants[:count]),
        "draws_by_process": second_opinion.draws_by_process(silent, code),
        "draws_by_openssl": second_opinion.draws_by_openssl(silent, by_openssl, room),
        "refusals": second_opinion.refusals(silent, code),
        "examples": second_opinion.examples(silent, page, room),
        "draws_from_words": second_opinion.draws_from_words({"draw": lambda *_: [0]}),
    }.items():
        is_found = any(islice(outcomes, 20)) or name == "draws_by_openssl" and not shutil.which("openssl")
        counts.same(f"tests/second_opinion.py: {name} of a program that prints nothing", is_found, True)


def records(counts, room):
    """tests/compare_records.py compares the status and both streams of each call."""
    def wrong(name, script, *folder):
        program(room / "wrong", script)
        outcomes = getattr(compare_records, name)([str(room / "wrong")], *folder)
        return sum(one is not None for one in islice(outcomes, 60))

    # Of the outcomes of an announcement one of two is the program's, and of those of a record five of six.
    for name, folder, calls in [("announced", [], 30), ("written_and_accepted", [room], 50),
                                ("of_the_draw_or_not", [room], 60)]:
        for script in ["exit 0\n", "echo x; exit 0\n"]:
            counts.same(f"tests/compare_records.py: {name}, {script!r}", wrong(name, script, *folder), calls)
    found = [wrong("accepted_or_not", script, room) for script in (ACCEPTS, REFUSES)]
    case = "tests/compare_records.py: a program that accepts all, and one that refuses all"
    counts.same(case, (min(found) > 5, sum(found)), (True, 60))
    for script in ["exit 0\n", "exit 9\n", f"{REFUSES[:-2]}8\n", f"echo x\n{REFUSES}", f"echo x\n{ACCEPTS}",
                   f"echo x >&2\n{REFUSES}", f"echo x >&2\n{ACCEPTS}"]:
        found = wrong("accepted_or_not", script, room)
        counts.same(f"tests/compare_records.py: accepted_or_not, {script!r}", found, 60)


def compared_often(counts, room):
    """Each part of both scripts compares every program, and as often as the script says. To save time the lists are
    short, and the numbers of records and changes are 20. The script skips announcements of a list with an empty line,
    of which the first 20 have none."""
    called, programs = [], ["/none/one", "/none/two"]

    def result(arguments, *_, **__):
        called.append(str(arguments[0]))
        return 7 * (arguments[0] in programs), b"x", b"x"

    def run(_, cwd, **__):
        called.append(os.readlink(Path(cwd, "lots")))
        return mock.Mock(returncode=7, stdout="")

    sizes = {"ANNOUNCEMENTS": 100, "RECORDS": 100, "CHANGES": 2000}
    counts.same("the numbers of records", {name: getattr(compare_records, name) for name in sizes}, sizes)
    page = second_opinion.PAGE.read_text(encoding="utf-8")
    for script, name, times, *given in [
        (second_opinion, "draws", 300, lambda seed, entrants, count: entrants[:count]),
        (second_opinion, "draws_by_process", 25, "code"), (second_opinion, "draws_by_openssl", 25, "", room),
        (second_opinion, "refusals", 27, "code"), (second_opinion, "examples", 8, page, room),
        (compare_records, "announced", 20), (compare_records, "written_and_accepted", 5 * 20, room),
        (compare_records, "accepted_or_not", 20, room), (compare_records, "of_the_draw_or_not", 2 * 20, room),
    ]:
        called.clear()
        smaller = dict.fromkeys(sizes, 20) if script is compare_records else {"some_entrants": lambda *_: [b"a", b"b"]}
        with mock.patch.multiple(script, result=result, **smaller), mock.patch.object(subprocess, "run", run), \
                mock.patch.object(shutil, "which", lambda name: name):
            found = [one for one in getattr(script, name)(programs, *given) if one]
        by_program = [(called.count(one), sum(text.startswith(f"({Path(one).name}) ") for text in found))
                      for one in programs]
        counts.same(f"{script.__name__}: the calls and the differences of {name}", by_program, [(times, times)] * 2)
    words = second_opinion.draws_from_words({"draw": lambda *_: [0]})
    counts.same("second_opinion: the draws from words", sum(1 for _ in words), 436)


def all_compared(counts, room):
    """Both scripts that compare programs run all their parts, and count what each finds."""
    program(room / "none", "exit 0\n")
    # The first of these also compares the key stream with a known one.
    for script, names, more in [(second_opinion, OPINIONS, 1), (compare_records, RECORDS, 0)]:
        differing = {name: lambda *_, name=name: iter([None, f"{name} differs"]) for name in names}
        with mock.patch.multiple(script, **differing), mock.patch.object(sys, "argv", ["script", str(room / "none")]), \
                contextlib.redirect_stdout(io.StringIO()) as said:
            status = script.main()
        *lines, last = said.getvalue().splitlines()
        counts.same(f"{script.__name__}: what differs", lines, [f"FAILED {name} differs" for name in names])
        wanted = f"{len(names) + more} passed, {len(names)} failed"
        counts.same(f"{script.__name__}: the sum", (last, status), (wanted, 1))


def parts(counts, room):
    """`part`, `quiet_part` and `step` count what their commands print and how they end."""
    for text, status, wanted in [("6 passed, 2 failed", 1, "6 passed, 2 failed"), ("6 passed, 0 failed", 3, "6 passed, 1 failed"),
                                 ("6 passed, 0 failed\nlate", 0, "0 passed, 1 failed"), ("", 0, "0 passed, 1 failed")]:
        program(room / "said", f"printf '%s\\n' '{text}'\nexit {status}\n")
        for script in ["part said", "quiet_part name said"]:
            lines, found = in_lib(f"{script}; finish", room)
            counts.same(f"{script}: {text!r}, {status}", (lines[-1], found), (wanted, int(", 0" not in wanted)))
    program(room / "said", "echo '0 passed, 0 failed'\n")
    counts.same("a quiet part of no test", in_lib("quiet_part name said; finish", room)[0][-1], "0 passed, 1 failed")
    for status, wanted in [(0, "1 passed, 0 failed"), (3, "0 passed, 1 failed")]:
        program(room / "said", f"exit {status}\n")
        counts.same(f"a step of status {status}", in_lib("step said; finish", room)[0][-1], wanted)
    for script, wanted in [("check case ''", "1 passed, 0 failed"), ("check case wrong", "0 passed, 1 failed"),
                           ("expect case a a", "1 passed, 0 failed"), ("expect case a b", "0 passed, 1 failed"),
                           ("skip tests reason", "0 passed, 0 failed")]:
        counts.same(script, in_lib(f"{script}; finish", room)[0][-1], wanted)


def program(path, script):
    path.parent.mkdir(parents=True, exist_ok=True)
    path.write_text(f"#!/bin/sh\n{script}", encoding="utf-8")
    path.chmod(0o755)


def copy_of_repository(room, *folders):
    names = ran(["git", "ls-files", "-z", "--cached", "--others", "--exclude-standard", *folders], ROOT).stdout
    for name in filter(lambda name: name and (ROOT / name).exists(), names.split("\0")):
        (room / name).parent.mkdir(parents=True, exist_ok=True)
        shutil.copy(ROOT / name, room / name)


def changes(counts, room):
    """Each script passes on the unchanged copy, and finds each change. No file is read in the locale's encoding."""
    letters = {"PYTHONWARNDEFAULTENCODING": "1", "PYTHONWARNINGS": "error::EncodingWarning"}
    for command, groups in CHANGES.items():
        counts.same(f"{command} of no change", ran(command.split(), room, **letters).returncode, 0)
        for group in groups:
            changed(counts, room, command, group)


def changed(counts, room, command, group):
    """A command fails for the changes of a group, and prints the texts of each. Only a change that is alone may have
    none, and no two changes have the same."""
    before = {name: (room / name).read_text(encoding="utf-8") for name, *_ in group}
    after = dict(before)
    for name, old, new, *wanted in group:
        case = f"{command} of {name}, {old!r} changed"
        counts.same(f"{case}: it stands there", old in after[name], True)
        counts.same(f"{case}: it has a text, or is alone", bool(wanted) or len(group) == 1, True)
        after[name] = after[name].replace(old, new, 1)
    written(room, after)
    done = ran(command.split(), room)
    written(room, before)
    last = done.stdout.splitlines()[-1:] or [""]
    refused = done.returncode != 0 and not re.search(r"\b0 failed$", last[0])
    counts.same(f"{command} of {[(name, old) for name, old, *_ in group]} changed", refused, True)
    for name, old, _, *wanted in group:
        for words in wanted:
            counts.same(f"{command} of {name}, {old!r} changed: it says {words}", words in done.stdout, True)


def written(room, texts):
    for name, text in texts.items():
        (room / name).write_text(text, encoding="utf-8")


def writers(counts, room):
    """Each command restores the bytes of the removed text. It writes nothing if its sources are wrong."""
    for command, files in WRITERS.items():
        wanted = {name: (room / name).read_bytes() for name in files}
        for name, text in files.items():
            (room / name).write_bytes(wanted[name].replace(text.encode(), b"", 1))
        status = ran(command.split(), room).returncode
        found = {name: (room / name).read_bytes() for name in files}
        counts.same(f"{command}, after a text was taken out", (status, found == wanted), (0, True))
    definitions, table = room / "tests/answers/definitions.py", room / "tests/answers/answers.tsv"
    before = definitions.read_bytes(), table.read_bytes()
    definitions.write_bytes(before[0].replace(b"0xE703", b"0xE704"))
    counts.same("tests/answers/make.py of wrong definitions", ran(["tests/answers/make.py"], room).returncode, 1)
    counts.same("the table after that", table.read_bytes() == before[1], True)
    definitions.write_bytes(before[0])


def links(counts, room):
    """tests/links.py finds what is wrong in every document, and a file at the top that the map lacks."""
    texts = {path: path.read_text(encoding="utf-8") for path in room.rglob("*.md")}
    for path, text in texts.items():
        path.write_text(f"{text}\n[A file](no_such_file.md), [a heading](#no-such-heading), `tools/no_such.py`\n",
                        encoding="utf-8")
    (room / "unmapped").touch()
    done = ran(["tests/links.py"], room)
    found = re.findall(r"^FAILED (\S+): ", done.stdout, re.M)
    wanted = [*(str(path.relative_to(room)) for path in texts for _ in range(3)), "docs/ARCHITECTURE.md"]
    counts.same("tests/links.py: the documents with two broken links and no script", sorted(found), sorted(wanted))
    last = done.stdout.splitlines()[-1].partition(", ")[2]
    counts.same("tests/links.py: what failed", (last, done.returncode), (f"{len(wanted)} failed", 1))
    for path, text in texts.items():
        path.write_text(text, encoding="utf-8")
    (room / "unmapped").unlink()


def digests(counts, room):
    """tools/record.py compares every digit of each digest in the documents, but for those that tests/second_opinion.py
    compares, and those of older versions in the changelog."""
    for name, most in (("docs/PAGE.md", None), ("docs/RAFFLE.md", None), ("CHANGELOG.md", 1)):
        path = room / name
        text = path.read_text(encoding="utf-8")
        places = [found.end() - 1 for found in re.finditer(r"\b[0-9a-f]{64}\b(?!  (?:entrants|-)$)", text, re.M)][:most]
        counts.same(f"{name} has digests", places != [], True)
        for place in places:
            path.write_text(f"{text[:place]}{'01'[text[place] == '0']}{text[place + 1:]}", encoding="utf-8")
            case = f"tools/record.py of {name}, with another digit in line {text.count(chr(10), 0, place) + 1}"
            counts.same(case, ran(["tools/record.py", "--check"], room).returncode, 1)
        path.write_text(text, encoding="utf-8")


def page(counts, room):
    """web/build.py fails for a module with imports or another memory, and for a script that would end early."""
    module, module32, script = room / "module.wasm", room / "module32.wasm", room / "web/src/list.js"
    build = ["web/build.py", module.name, module32.name]
    module32.write_bytes(MODULE + NARROW)
    for code in BAD_MODULES:
        module.write_bytes(code)
        counts.same(f"a page of {code!r}", ran(build, room).returncode, 1)
    module.write_bytes(MODULE + WIDE)
    for code in BAD_MODULES32:
        module32.write_bytes(code)
        counts.same(f"a page of {code!r} for 32 bits", ran(build, room).returncode, 1)
    module32.write_bytes(MODULE + NARROW)
    counts.same("a page", ran(build, room).returncode, 0)
    committed_module(counts, room, module.name)
    text = script.read_text(encoding="utf-8")
    for line in BAD_SCRIPTS:
        script.write_text(f"{text}{line}\n", encoding="utf-8")
        counts.same(f"a page with {line}", ran(build, room).returncode, 1)


def committed_module(counts, room, module):
    """Without a compiler, the module for 32-bit memory is the one in the committed page."""
    done = ran(["web/build.py", module], room, NANORAND_OLDEST="/none")
    counts.same("a page without a compiler", (done.returncode, "skipped: " in done.stdout), (0, True))
    pages = [(room / name).read_text(encoding="utf-8") for name in ("web/dist/nanorand.html", "docs/nanorand.html")]
    held = [re.search(r'id="module32">(.*?)<', text)[1] for text in pages]
    counts.same("its module for 32-bit memory", held[0] == held[1], True)


# A crate of two functions, the second of which calls the first, and a stand-in for its check. A 7 in the first body is
# refused; a 7 in the second body is refused only if the first function is proved. An 8 is refused at another clause. A
# 7 in a definition is refused in the function of its name.
LOW = """pub fn one() -> u8
    ensures value { result \u2261 of_one }
{
    1 + 0
}

pub fn two() -> u8
    ensures value { result \u2261 2 }
    ensures even { true \u2261 true }
{
    one() + 1
}
"""
SPECS = "pub of_one : \u2115\nof_one = 1\n\npub of_two : \u2115\nof_two = 2\n"
RT = """#!/bin/sh
[ "$1" = doc ] && echo "${0%/bin/rt}/page" || "${0%rt}rattle" "$@"
"""
CHECK = """#!/bin/sh
echo called >>"$CALLS"
eval "${MEANWHILE:-}"
refused() { echo "./proofs/$1/Answers.antt:1:1: error: \\`$2\\`: no"; echo "fn low::$1: not proved"; status=1; }
status=0
grep -qs 'of_two = 7' specs/Values.antt && refused two returns-clause-value
case $(sed -n 4p src/lib.rt)$(grep -s 'of_one = ' specs/Values.antt) in
    *7*) refused one returns ;;
    *) echo 'fn low::one: proved' ;;
esac
case $(sed -n 11p src/lib.rt) in
    *7*) [ $status = 0 ] && refused two returns-clause-value || echo 'fn low::two: no proof: it calls `low::one`' ;;
    *8*) refused two returns-clause-even ;;
    *) echo 'fn low::two: proved' ;;
esac
exit $status
"""


def mutants(counts, room):
    """tools/mutants.py plants both mutants at once, counts each refusal separately, and fails a mutant that passes. A
    mutant that was refused is tried again only if a file that its check reads has changed."""
    copy_of_repository(room, "tools")
    texts = {"crates.txt": "low:\n", "crates/low/src/lib.rt": LOW, "bin/rt": RT, "bin/rattle": CHECK,
             "KIT-ID": "kit logic 1"}
    for name, text in texts.items():
        (room / name).parent.mkdir(parents=True, exist_ok=True)
        (room / name).write_text(text, encoding="utf-8")
        (room / name).chmod(0o755)
    (room / "crates/low/mutants").mkdir()
    edits, calls = room / "crates/low/mutants/lib.edits", room / "calls"

    def tried(*words, **environment):
        """Tries them. Returns how many checks that takes, and the sum and the status."""
        calls.write_text("")
        path = f"{room / 'bin'}:{os.environ['PATH']}"
        done = ran(["tools/mutants.py", *words], room, PATH=path, CALLS=str(calls), **environment)
        return len(calls.read_text().splitlines()), (done.stdout.splitlines() or [""])[-1], done.returncode

    for of_one, of_two, clause, checks, wanted in [
        (7, 2, "value", 2, "1 passed, 1 failed"), (7, 7, "value", 3, "2 passed, 0 failed"),
        (1, 7, "value", 2, "1 passed, 1 failed"), (7, 8, "value", 3, "1 passed, 1 failed"),
        (7, 8, "even", 2, "2 passed, 0 failed"), (7, 8, "value, even", 3, "1 passed, 1 failed"),
        (7, 7, "", 3, "1 passed, 1 failed"),
    ]:
        texts = [f"mutant {name}, refused at {line}\nold: {old}\nnew: {old[:-1]}{new}\n" for name, line, old, new in
                 [("one", "value", "1 + 0", of_one), ("two", clause, "one() + 1", of_two)]]
        edits.write_text("\n".join(texts), encoding="utf-8")
        case = f"tools/mutants.py of {of_one} and {of_two}, refused at {clause}"
        counts.same(case, tried(KEPT=""), (checks, wanted, int(" 0 failed" not in wanted)))
    unproved_and_apart(counts, room / "crates/low", tried, texts)
    kept_mutants(counts, room, tried, texts)


def unproved_and_apart(counts, crate, tried, texts):
    """All mutants of a crate fail if the unchanged crate is not proved. Two mutants are tried together only if neither
    changes what the refusal of the other depends on."""
    edits, specs = crate / "mutants/lib.edits", crate / "specs/Values.antt"
    edits.write_text("\n".join(texts).replace("at \n", "at value\n"), encoding="utf-8")
    refused = "grep -q '1 + 0' src/lib.rt && grep -q '() + 1' src/lib.rt && exit 1"
    found = tried(KEPT="", MEANWHILE=refused)
    counts.same("mutants of a crate that is not proved", found, (1, "0 passed, 2 failed", 1))
    specs.parent.mkdir()
    specs.write_text(SPECS, encoding="utf-8")
    # The second function depends on the first and on the definition of its value.
    for name, old, body, clause in [("one", "1", "one() + 1", "even"), ("two", "2", "1 + 0", "value")]:
        new = {"even": "one() + 8", "value": "1 + 7"}[clause]
        edits.write_text(f"mutant of_body, refused at {clause}\nold: {body}\nnew: {new}\n\n"
                         f"mutant of_value, refused at {name}: value\nfile: specs/Values.antt\n"
                         f"old: of_{name} = {old}\nnew: of_{name} = 7\n", encoding="utf-8")
        case = f"mutants of {body} and of_{name}, which are not apart"
        counts.same(case, tried(KEPT=""), (3, "2 passed, 0 failed", 0))
    specs.unlink()


def kept_mutants(counts, room, tried, texts):
    """Mutants that passed are not tried again, until something changes that their check reads: on this machine, or on
    any machine if they are recorded. One that failed is."""
    edits, kept = room / "crates/low/mutants/lib.edits", {"KEPT": str(room / "kept")}
    both, none = (3, "2 passed, 0 failed", 0), (0, "0 passed, 0 failed", 0)
    (room / "crates.txt").write_text("under:\nlow: under\n", encoding="utf-8")
    edits.write_text("\n".join(texts).replace("at \n", "at value\n"), encoding="utf-8")
    for name in ("", "crates/low/src/lib.rt", "crates/low/specs/Sums.antt", "crates/low/proofs/lemmas/Sums.antt",
                 "crates/under/src/lib.rt", "crates/under/specs/Sums.antt", "crates.txt", "KIT-ID", "tools/edits.py",
                 "tools/kept.py"):
        if name:
            (room / name).parent.mkdir(parents=True, exist_ok=True)
            with open(room / name, "a", encoding="utf-8") as file:
                file.write({"crates.txt": "low: under under\n", "KIT-ID": "2"}.get(name, "\n"))
        found = [tried(**kept), tried(**kept)]
        counts.same(f"mutants tried twice, after a change of {name or 'nothing'}", found, [both, none])
        found = [tried(KEPT=""), tried("--record", KEPT=""), tried(KEPT="")]
        counts.same(f"mutants recorded, after a change of {name or 'nothing'}", found, [both, both, none])
    (room / "KIT-ID").write_text("kit2 logic 12", encoding="utf-8")
    counts.same("mutants with a record, and another kit of the same logic", tried(KEPT=""), none)
    counts.same("mutants with a record, and all", tried("--all", **kept), both)
    for name in ("low/one", "low/two"):
        counts.same(f"{name} by its name, with a record", tried(name, **kept), (2, "1 passed, 0 failed", 0))
    changed_mutants(counts, room, tried)
    (room / "crates/low/mutants/passed.txt").unlink()
    counts.same("mutants with nothing kept", tried(KEPT=""), both)
    counts.same("one of the mutants", tried("--record", "low/one", KEPT=""), (2, "1 passed, 0 failed", 0))
    counts.same("and no record of it", tried(KEPT=""), both)
    for words in (["--al"], ["--all", "--record"]):
        checks, last, status = tried(*words)
        counts.same(f"options {words}", (checks, last.startswith("Tries mutants: "), status), (0, True, 1))
    counts.same("mutants that cannot be kept", tried(KEPT=str(room / "KIT-ID" / "kept")), both)
    ages = {room / "kept/used": 29, room / "kept/unused": 31}
    for path, days in ages.items():
        path.touch()
        os.utime(path, times=(time.time() - days * 24 * 60 * 60,) * 2)
    counts.same("mutants without stored answers", tried("--anew", **kept), both)
    counts.same("what was unused for a month", [path.exists() for path in ages], [True, False])
    edits.write_text(edits.read_text(encoding="utf-8").replace("one() + 7", "two() + 7"), encoding="utf-8")
    counts.same("a mutant with another text", tried(**kept), (2, "1 passed, 0 failed", 0))
    edits.write_text("\n".join(texts), encoding="utf-8")
    for turn in ("once", "twice"):
        counts.same(f"a mutant that fails, tried {turn}", tried(**kept), (2, "0 passed, 1 failed", 1))
    counts.same("a mutant that fails is not recorded", tried("--record", **kept), (2, "0 passed, 1 failed", 1))
    counts.same("nor has it a record", (room / "crates/low/mutants/passed.txt").exists(), False)


def changed_mutants(counts, room, tried):
    """A record does not fit mutants that have changed since, and is not written if a file changes meanwhile."""
    edits, record = room / "crates/low/mutants/lib.edits", room / "crates/low/mutants/passed.txt"
    own, recorded = edits.read_text(encoding="utf-8"), record.read_text(encoding="utf-8")
    for old, new in [("new: 1 + 7", "new: 7 + 0"), ("mutant one", "mutant first"),
                     ("mutant one", "mutant three, refused at value\nold: 1 + 0\nnew: 1 + 71\n\nmutant one")]:
        edits.write_text(own.replace(old, new), encoding="utf-8")
        checks, last, status = tried(KEPT="")
        counts.same(f"mutants with a record, {new!r} for {old!r}",
                    (checks > 0, last, status), (True, f"{own.replace(old, new).count('mutant ')} passed, 0 failed", 0))
        edits.write_text(own, encoding="utf-8")
    for name, change in [(edits, "s/mutant one/mutant first/"), (room / "crates/under/src/lib.rt", "$a//"),
                         (room / "crates/low/specs/Sums.antt", "$a--")]:
        text = name.read_text(encoding="utf-8")
        record.unlink()
        found = tried("--record", KEPT="", MEANWHILE=f"sed -i '{change}' {name}")
        counts.same(f"mutants tried while {name.name} changes", (found[1:], record.exists()),
                    (("2 passed, 0 failed", 0), False))
        name.write_text(text, encoding="utf-8")
        record.write_text(recorded, encoding="utf-8")


# Definitions and lemmas of a crate, in nested folders, and what each depends on.
FILES = {
    "specs/numbers/Sums.antt": "use A.{four}\n\npub one : ℕ\none = 1\n\nabbrev pub two : ℕ\ntwo =\n    1 + 1 -- one\n\n"
                               "module _ (n : one) where\n  pub four : ℕ\n  four = n\n\npub three : ℕ\nthree = two\n",
    "proofs/lemmas/Equal.antt": "use A.{four}\n\npub of_two : two ≡ 2\nof_two = refl\n\npub of_six : ℕ\nof_six = 6\n",
    "src/numbers/five.rt": "fn five() -> u8\n    ensures { result ≡ four }\n{\n    5\n}\n",
}
BEHIND = {"one": {"one"}, "(three)": {"one", "three", "two"}, "of_six": {"of_six", "of_two", "two", "one"},
          "five();": {"five", "four", "one"}, "// one": set(), "use A.{one}": set()}


def definitions(counts, room):
    """What a text depends on: everything that its names lead to. Comments and imports do not count."""
    for name, text in FILES.items():
        (room / name).parent.mkdir(parents=True)
        (room / name).write_text(text, encoding="utf-8")
    sys.path.insert(0, str(ROOT / "tools"))
    from definitions import Definitions
    for text, wanted in BEHIND.items():
        counts.same(f"what {text!r} rests on", Definitions(room).behind(text), wanted)


def kept_tools(counts, _):
    """What tools/kept.py keeps depends on all modules of tools/ that tools/mutants.py imports, also through others."""
    sys.path.insert(0, str(ROOT / "tools"))
    from kept import TOOLS
    modules = {path.stem: path.read_text(encoding="utf-8") for path in (ROOT / "tools").glob("*.py")}
    reached, left = set(), {"mutants"}
    while left:
        name = left.pop()
        reached.add(name)
        imports = re.findall(r"^ *(?:from (\w+) import|import (.+)$)", modules[name], re.M)
        left |= {word for pair in imports for word in re.findall(r"\w+", " ".join(pair))} & modules.keys() - reached
    wanted = [f"{name}.py" for name in sorted(reached)]
    counts.same("the modules that a mutant's entry depends on", sorted(TOOLS), wanted)


def book(counts, room):
    """In tools/contracts.py, the sum of a file of mutants has the name of each and what refuses it, and a page that has
    an address outside is not accepted."""
    sys.path.insert(0, str(ROOT / "tools"))
    import contracts
    edits, sums = room / "crates/low/mutants/rand/all.edits", []
    edits.parent.mkdir(parents=True)
    (room / "PROMISES.md").touch()
    with mock.patch.multiple(contracts, ROOT=room, DOCS=room):
        for head, new in [("one, refused at value", "7"), ("one, refused at value", "8"), ("one, refused at even", "7"),
                          ("two, refused at value", "7")]:
            edits.write_text(f"mutant {head}\nold: 1\nnew: {new}\n", encoding="utf-8")
            sums.append(contracts.sums_of_mutants()["crates/low/mutants/rand/all.edits"])
        counts.same("mutants with the sum of the first", [one == sums[0] for one in sums], [True, True, False, False])
        for html, is_there in [('<script src="http://a.org"></script>', True), ("<link href='https://a.org'>", True),
                               ("<style></style><article>http://a.org</article>", False)]:
            _, missing = contracts.check(contracts.Book(), html)
            counts.same(f"an address in {html}", "no address outside" in missing, is_there)


def installs(counts, room):
    """`available` finds a command that is there. For others it prints what to install, and installs it if CI is `true`
    and the user is root: by one call, or if that fails by itself with new lists. `packages` says it of each crate that is
    not there."""
    calls = room / "calls"
    root = os.getuid() == 0
    for words, environment, status, made in [
        ("bash of-bash", {}, 0, []),
        ("none of-none", {"CI": ""}, 0, []),
        ("none of-none bash of-bash nor of-nor", {"CI": "true"}, 0, ["install --yes of-none of-nor"]),
        ("none of-none nor of-nor", {"CI": "true"}, 1,
         ["install --yes of-none of-nor", "update", "install --yes of-none", "install --yes of-nor"]),
    ]:
        program(room / "apt-get", f"echo \"$*\" >>$CALLS\nexit {status}\n")
        calls.write_text("")
        found = in_lib(f"available {words}", room, CALLS=str(calls), **environment)
        wanted = [f"to install: {word}" for word in words.split() if word in ("of-none", "of-nor")]
        counts.same(f"available {words}, {environment}", found, (wanted, int(bool(wanted))))
        counts.same(f"available {words}, {environment}: calls", calls.read_text().splitlines(),
                    [f"--quiet {line}" for line in made if root])
    lines, status = in_lib("packages no_such-1. nor-this-0.2.", room, CALLS=str(calls), CI="")
    counts.same("packages that are not there", (lines, status),
                (["to install: librust-no-such-dev", "to install: librust-nor-this-dev"], 1))


def missing(counts, room):
    """A build that should be there and is not is a failure. Its tests are not just left out."""
    for name in ["draw", "lots"]:
        done = ran([f"tests/{name}.sh", "kit"], room, BUILT="1")
        last = done.stdout.splitlines()[-1]
        refused = done.returncode != 0 and not re.search(r"\b0 failed$", last)
        counts.same(f"tests/{name}.sh kit without its build", refused, True)


def builds(counts, room):
    """A build that fails is a failure, and not a reason to skip its tests."""
    for name in ["cargo", "rustc", "cc", "rt"]:
        program(room / "failing" / name, "exit 1\n")
    path = f"{room / 'failing'}:{os.environ['PATH']}"
    for (file, call), first in BUILDERS.items():
        text = (room / file).read_text(encoding="utf-8")
        function = re.search(rf"^{call.split()[0]}\(\) \{{\n.*?^\}}$", text, re.M | re.S)[0]
        script = f"source tests/lib.sh\n{first}\n{function}\n{call}\nfinish"
        done = ran(["bash", "-c", script], room, PATH=path, BUILT="", PROVED="", RUSTC="", CC="")
        last = done.stdout.splitlines()[-1]
        found = "skipped: " in done.stdout, bool(re.fullmatch(r"0 passed, [1-9] failed", last)), done.returncode
        counts.same(f"{call} of {file}, if its build fails", found, (False, True, 1))


def browsers(counts, room):
    """web/tests/run.py tries three times to start a browser. One that does not start is a failure."""
    built = room / "web/dist"
    for name in ("nanorand.html", "nanorand_c.wasm", "nanorand_c32.wasm"):
        (built / name).write_bytes(b"")
    program(room / "chromedriver", "echo begun >>begun\n")
    done = ran(["web/tests/run.py", "lots", "chromium"], room, PATH=f"{room}:{os.environ['PATH']}")
    begun = (room / "begun").read_text(encoding="utf-8").split()
    counts.same("a browser that does not start", (done.returncode, done.stdout.splitlines()[-1:], len(begun)),
                (1, ["0 passed, 1 failed"], 3))


def ended_early(counts, room):
    """A part of web/tests/run.py that raises an exception is a failure, and so is an error of the console. The page's
    files are those that `browsers` left."""
    drivers, part = room / "web/tests/drivers.py", room / "web/tests/glue.py"
    texts = drivers.read_text(encoding="utf-8"), part.read_text(encoding="utf-8")
    for body, errors, wanted in [("counts.case('all')", [], "2 passed, 0 failed"),
                                 ("raise ValueError", [], "1 passed, 1 failed"),
                                 ("counts.case('all', 'wrong')", [], "1 passed, 1 failed"),
                                 ("counts.case('all')", ["a"], "1 passed, 1 failed")]:
        drivers.write_text(f"{texts[0]}\nfrom unittest import mock\n\n\ndef start(kind, downloads):\n"
                           f"    return mock.MagicMock(**{{'errors.return_value': {errors}}})\n", encoding="utf-8")
        part.write_text(f"{texts[1]}\n\ndef run(counts, page, modules):\n    {body}\n", encoding="utf-8")
        done = ran(["web/tests/run.py", "lots", "chromium", "--only", "glue"], room)
        found = done.stdout.splitlines()[-1:], done.returncode
        case = f"a part of the page's tests: {body}, errors {errors}"
        counts.same(case, found, ([wanted], int(" 0 failed" not in wanted)))
    done = ran(["web/tests/run.py", "lots", "chromium", "--only", "glu"], room)
    counts.same("no part of this name", (done.stdout.splitlines()[-1:], done.returncode), (["0 passed, 1 failed"], 1))
    drivers.write_text(texts[0], encoding="utf-8")
    part.write_text(texts[1], encoding="utf-8")


def main():
    counts = Counts()
    with tempfile.TemporaryDirectory() as name:
        room = Path(name).resolve()
        for part in (sums, integration, quick, crate, cargo, units, parts, streams, processors, page_parts, page_counts,
                     lints, lint, opinions, records, compared_often, all_compared, mutants, definitions, kept_tools,
                     book, installs):
            (room / part.__name__).mkdir()
            part(counts, room / part.__name__)
        copy_of_repository(room / "copy")
        ran(["git", "init", "-q"], room / "copy")
        for part in (changes, writers, links, digests, page, browsers, ended_early, missing, builds):
            part(counts, room / "copy")
    print(f"{counts.passed} passed, {counts.failed} failed")
    return 1 if counts.failed else 0


if __name__ == "__main__":
    sys.exit(main())
