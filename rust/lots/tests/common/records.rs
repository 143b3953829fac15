//! Records and announcements, what they are made from, and those of the example.
#![allow(dead_code)] // each test file uses a part

use lots::announcement::{announcement, Plan};
use lots::arguments::Count;
use lots::record::{record, Source};
use lots::LotsError;

pub const SEED: &str = "4 1 6 3 3 2 5 6 1 4 2 6 5 3 1 1 6 2 4 5";

pub const LIST: &str =
    "Ada\nBarbara\nChidi\nDmitri\nElif\nFarid\nGrace\nHedy\nInes\nJun\nKatherine\nLise\n";

pub const EXAMPLE: &str = "\
nanorand public draw 2
announcement SHA-256: none
seed: \"4 1 6 3 3 2 5 6 1 4 2 6 5 3 1 1 6 2 4 5\"
list SHA-256: 32230fec7f4d73fc1dc4888e4bd9becc094a248cb2098b991ab26c2ef227e860
entrants: 12
drawn: 3
result SHA-256: d44df65b613f78f8bb637295ecfbaf57109d9ec26487514c036dc826f6757939
1: \"Katherine\"
2: \"Jun\"
3: \"Chidi\"
end of the record
";

pub const ANNOUNCEMENT: &str = "\
nanorand announcement 1
occasion: \"Summer raffle of the school\"
list SHA-256: 32230fec7f4d73fc1dc4888e4bd9becc094a248cb2098b991ab26c2ef227e860
entrants: 12
winners: 3
reserves: 1
seed source: \"20 throws of a die, in the hall\"
seed form: \"the numbers thrown, in order, with one space between them\"
seed example: \"4 1 6 3 3 2 5 6 1 4 2 6 5 3 1 1 6 2 4 5\"
time: \"Friday 4 December 2026, 12:00, Madrid\"
end of the announcement
";

/// What the announcement of the example is made from, besides the list.
pub const PLAN: Plan<'_> = Plan {
    occasion: "Summer raffle of the school",
    winners: 3,
    reserves: 1,
    source: "20 throws of a die, in the hall",
    form: "the numbers thrown, in order, with one space between them",
    example: SEED,
    time: "Friday 4 December 2026, 12:00, Madrid",
};

/// An announcement with the texts of the example.
pub fn announced(winners: usize, reserves: usize, list: &[u8]) -> Result<String, LotsError> {
    let plan = Plan {
        winners,
        reserves,
        ..PLAN
    };
    announcement(&plan, list)
}

/// What a record is made from, without an announcement and a module.
pub fn source(seed: &str, count: Count) -> Source<'_> {
    Source {
        seed,
        count,
        announcement: None,
        program: None,
    }
}

/// The record of a draw, without an announcement and a module.
pub fn recorded(seed: &str, count: Count, list: &[u8]) -> Result<String, LotsError> {
    record(&source(seed, count), list)
}

/// The bytes as hexadecimal digits, two for each, with this text before each pair.
pub fn digits(before: &str, bytes: &[u8]) -> String {
    let pairs = bytes.iter().map(|byte| format!("{before}{byte:02x}"));
    pairs.collect::<Vec<_>>().concat()
}
