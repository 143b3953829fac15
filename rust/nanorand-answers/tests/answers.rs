//! The table of known answers, with which every language has to agree. `tests/answers/README.md` in
//! the repository explains its columns. The rows of `lots` are left out, as the crate has no
//! SHA-256.

use nanorand_proved::samples::sample;
use nanorand_proved::shuffles::shuffle_full;
use nanorand_proved::{
    BufferedRng, ChaCha, ChaCha20, ChaCha20Stream, ChaChaGroups, Parts, PastPeriod, Pcg64,
    RandomRange, RangeError, Rng, WyRand,
};
use std::collections::BTreeSet;
use std::fmt::{Debug, Display};
use std::str::FromStr;

/// The table, in the repository or in the unpacked archive.
fn table() -> &'static str {
    let places = [
        "../../tests/answers/answers.tsv",
        "../../answers/answers.tsv",
    ];
    let found = places
        .iter()
        .find_map(|place| std::fs::read_to_string(place).ok());
    Box::leak(found.expect("there is a table of answers").into_boxed_str())
}

/// A row, by the names of its columns.
struct Row<'a> {
    generator: &'a str,
    before: &'a str,
    call: &'a str,
    arguments: &'a str,
    status: &'a str,
    result: &'a str,
    after: &'a str,
}

/// A status and a result, as the table writes them.
type Answer = (&'static str, String);

fn rows() -> impl Iterator<Item = Row<'static>> {
    let lines = table().lines().filter(|line| !line.starts_with('#'));
    lines.map(|line| {
        let columns: Vec<&str> = line.split('\t').collect();
        match columns[..] {
            [generator, before, call, arguments, status, result, after] => Row {
                generator,
                before,
                call,
                arguments,
                status,
                result,
                after,
            },
            _ => panic!("seven columns, not {line}"),
        }
    })
}

/// A generator whose state the table writes as bytes.
trait Stored: Sized {
    /// Whether its stream can be divided into parts.
    const PARTS: bool = true;

    fn restored(state: &[u8]) -> Self;

    fn seeded(number: u64) -> Self;

    fn stored(&self) -> Vec<u8>;

    /// The calls that not every generator has.
    fn own_call(&mut self, call: &str, arguments: &[u64]) -> Answer {
        panic!("no call {call} with {arguments:?}")
    }
}

impl Stored for WyRand {
    fn restored(state: &[u8]) -> Self {
        WyRand::new_seed(number(state))
    }

    fn seeded(number: u64) -> Self {
        WyRand::seed_from_u64(number)
    }

    fn stored(&self) -> Vec<u8> {
        self.seed().to_le_bytes().to_vec()
    }

    fn own_call(&mut self, call: &str, arguments: &[u64]) -> Answer {
        match call {
            "jump" => self.jump(arguments[0]),
            _ => return parted(self, call, arguments),
        }
        ("0", "-".to_owned())
    }
}

impl Stored for Pcg64 {
    fn restored(state: &[u8]) -> Self {
        let (low, high) = state.split_at(8);
        Pcg64::new_seed(wide(number(low), number(high)))
    }

    fn seeded(number: u64) -> Self {
        Pcg64::seed_from_u64(number)
    }

    fn stored(&self) -> Vec<u8> {
        self.seed().to_le_bytes().to_vec()
    }

    fn own_call(&mut self, call: &str, arguments: &[u64]) -> Answer {
        match call {
            "jump" => self.jump(wide(arguments[0], arguments[1])),
            _ => return parted(self, call, arguments),
        }
        ("0", "-".to_owned())
    }
}

impl<const ROUNDS: u8> Stored for ChaCha<ROUNDS> {
    fn restored(state: &[u8]) -> Self {
        let key = state[..32].try_into().expect("a key");
        let nonce = state[32..40].try_into().expect("a nonce");
        ChaCha::at(key, nonce, number(&state[40..]))
    }

    fn seeded(number: u64) -> Self {
        ChaCha::seed_from_u64(number)
    }

    fn stored(&self) -> Vec<u8> {
        let counter = self.counter().to_le_bytes();
        [&self.key()[..], &self.nonce(), &counter].concat()
    }

    fn own_call(&mut self, call: &str, arguments: &[u64]) -> Answer {
        match call {
            "block" => ("0", hexadecimal(&self.rand())),
            _ => parted(self, call, arguments),
        }
    }
}

impl Stored for BufferedRng<ChaCha20, 64> {
    const PARTS: bool = false;

    fn restored(state: &[u8]) -> Self {
        let (inner, rest) = state.split_at(48);
        BufferedRng::with_rest(ChaCha20::restored(inner), rest).expect("less than a block")
    }

    fn seeded(number: u64) -> Self {
        BufferedRng::new(ChaCha20::seed_from_u64(number))
    }

    fn stored(&self) -> Vec<u8> {
        [&self.inner().stored(), self.rest()].concat()
    }
}

/// The same stream, in groups of eight blocks. Whole blocks that it has buffered count as not
/// drawn.
impl Stored for ChaCha20Stream {
    fn restored(state: &[u8]) -> Self {
        let (inner, rest) = state.split_at(48);
        let first = ChaCha20::restored(inner);
        let groups = ChaChaGroups::at(first.key(), first.nonce(), first.counter());
        BufferedRng::with_rest(groups, rest).expect("less than a block")
    }

    fn seeded(number: u64) -> Self {
        ChaCha20Stream::seed_from_u64(number)
    }

    fn stored(&self) -> Vec<u8> {
        let (groups, rest) = (self.inner(), self.rest());
        let whole = u64::try_from(rest.len() / 64).expect("less than eight");
        let counter = groups.counter().wrapping_sub(whole);
        let first = ChaCha20::at(groups.key(), groups.nonce(), counter);
        [&first.stored(), &rest[..rest.len() % 64]].concat()
    }

    fn own_call(&mut self, call: &str, arguments: &[u64]) -> Answer {
        parted(self, call, arguments)
    }
}

fn number(bytes: &[u8]) -> u64 {
    u64::from_le_bytes(bytes.try_into().expect("eight bytes"))
}

fn wide(low: u64, high: u64) -> u128 {
    u128::from(high) << 64 | u128::from(low)
}

fn bytes(text: &str) -> Vec<u8> {
    let places = (0..text.len()).step_by(2);
    let byte = |place| u8::from_str_radix(&text[place..place + 2], 16).expect("hexadecimal");
    places.map(byte).collect()
}

fn hexadecimal(bytes: &[u8]) -> String {
    let digits: Vec<String> = bytes.iter().map(|byte| format!("{byte:02x}")).collect();
    something(digits.concat())
}

fn numbers<T: FromStr>(text: &str) -> Vec<T>
where
    T::Err: Debug,
{
    let texts = text.split(',').filter(|text| *text != "-");
    texts.map(|text| text.parse().expect("a number")).collect()
}

fn listed(items: &[usize]) -> String {
    let texts: Vec<String> = items.iter().map(ToString::to_string).collect();
    something(texts.join(","))
}

/// The text, or `-` if there is none.
fn something(text: String) -> String {
    if text.is_empty() {
        "-".to_owned()
    } else {
        text
    }
}

fn answer(result: Result<String, RangeError>) -> Answer {
    match result {
        Ok(text) => ("0", text),
        Err(RangeError::Empty) => ("1", "-".to_owned()),
        Err(RangeError::Exhausted) => ("2", "-".to_owned()),
    }
}

fn range<T, G, const OUTPUT: usize>(rng: &mut G, arguments: &str) -> Answer
where
    T: RandomRange<G, OUTPUT> + FromStr + Display + Copy,
    T::Err: Debug,
    G: Rng<OUTPUT>,
{
    let bounds = numbers::<T>(arguments);
    let drawn = rng.generate_range(bounds[0]..=bounds[1]);
    answer(drawn.map(|number: T| number.to_string()))
}

fn shuffled<E: Debug>(length: u64, shuffle: impl FnOnce(&mut [usize]) -> Result<(), E>) -> Answer {
    let mut items: Vec<usize> = (0..usize::try_from(length).expect("a length")).collect();
    shuffle(&mut items).expect("no row is refused");
    ("0", listed(&items))
}

/// The precondition of the crate is at most `count` places. For more, the C interface returns 1.
fn sampled<G: Rng<OUTPUT>, const OUTPUT: usize>(rng: &mut G, arguments: &str) -> Answer {
    let sizes = numbers::<usize>(arguments);
    if sizes[1] > sizes[0] {
        return ("1", "-".to_owned());
    }
    let mut places = vec![0; sizes[1]];
    answer(sample(rng, sizes[0], &mut places).map(|()| listed(&places)))
}

/// Moves the generator to the beginning of the part, as C does.
fn parted<G: Parts<OUTPUT>, const OUTPUT: usize>(
    rng: &mut G,
    call: &str,
    arguments: &[u64],
) -> Answer {
    assert_eq!(call, "part");
    match rng.part(arguments[0], arguments[1]) {
        Ok(part) => {
            *rng = part;
            ("0", "-".to_owned())
        }
        Err(PastPeriod) => ("3", "-".to_owned()),
    }
}

fn called<G, const OUTPUT: usize>(rng: &mut G, call: &str, arguments: &str) -> Answer
where
    G: Rng<OUTPUT> + Stored,
{
    match call {
        "u64" => ("0", rng.generate::<u64>().to_string()),
        "fill_bytes" => {
            let mut buffer = vec![0; numbers(arguments)[0]];
            rng.fill_bytes(&mut buffer);
            ("0", hexadecimal(&buffer))
        }
        "range_u32" => range::<u32, G, OUTPUT>(rng, arguments),
        "range_u64" => range::<u64, G, OUTPUT>(rng, arguments),
        "range_i64" => range::<i64, G, OUTPUT>(rng, arguments),
        "range_usize" => range::<usize, G, OUTPUT>(rng, arguments),
        "shuffle" => shuffled(numbers(arguments)[0], |items| rng.shuffle(items)),
        "shuffle_full" => shuffled(numbers(arguments)[0], |items| shuffle_full(rng, items)),
        "sample" => sampled(rng, arguments),
        "seed_from_u64" => {
            *rng = G::seeded(numbers(arguments)[0]);
            ("0", "-".to_owned())
        }
        _ => rng.own_call(call, &numbers(arguments)),
    }
}

/// Runs the rows of one generator. `calls` is the number of different calls in them.
fn check<G: Rng<OUTPUT> + Stored, const OUTPUT: usize>(generator: &str, calls: usize) {
    let mut tried = BTreeSet::new();
    let its_rows = rows().filter(|row| row.generator == generator && row.before != "-");
    for row in its_rows.filter(|row| G::PARTS || row.call != "part") {
        let mut rng = G::restored(&bytes(row.before));
        let (status, result) = called(&mut rng, row.call, row.arguments);
        let given = (status, &*result, hexadecimal(&rng.stored()));
        let wanted = (row.status, row.result, row.after.to_owned());
        let place = (row.call, row.arguments, row.before);
        assert_eq!(given, wanted, "{generator} {place:?}");
        tried.insert(row.call);
    }
    assert_eq!(tried.len(), calls, "{tried:?}");
}

#[test]
fn wyrand() {
    check::<WyRand, 8>("wyrand", 12);
    for row in rows().filter(|row| row.call == "new_seed") {
        let rng = WyRand::new_seed(numbers(row.arguments)[0]);
        assert_eq!(hexadecimal(&rng.stored()), row.after);
    }
}

#[test]
fn pcg64() {
    check::<Pcg64, 8>("pcg64", 12);
}

#[test]
fn chacha_of_8_rounds() {
    check::<ChaCha<8>, 64>("chacha8", 12);
}

#[test]
fn chacha_of_12_rounds() {
    check::<ChaCha<12>, 64>("chacha12", 12);
}

#[test]
fn chacha_of_20_rounds() {
    check::<ChaCha<20>, 64>("chacha20", 12);
}

#[test]
fn streams() {
    check::<BufferedRng<ChaCha20, 64>, 64>("stream", 10);
    check::<ChaCha20Stream, 512>("stream", 11);
}

/// No generator of the table is left out.
#[test]
fn generators() {
    let names: BTreeSet<&str> = rows().map(|row| row.generator).collect();
    let all = "chacha12 chacha20 chacha8 lots pcg64 stream wyrand";
    assert_eq!(names.into_iter().collect::<Vec<_>>().join(" "), all);
    assert!(rows().count() > 1000);
}
