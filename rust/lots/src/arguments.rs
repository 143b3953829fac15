//! Parses the command-line arguments: a seed and a count.

/// How many entrants to draw.
#[derive(Clone, Copy, Debug, PartialEq, Eq)]
pub enum Count {
    /// All of them, which is a shuffle.
    All,
    /// This many.
    Of(usize),
}

impl Count {
    /// Returns how many of the entrants to draw.
    #[must_use]
    pub fn among(self, entrants: usize) -> usize {
        match self {
            Count::All => entrants,
            Count::Of(count) => count,
        }
    }
}

/// What the arguments ask for.
#[derive(Clone, Debug, PartialEq, Eq)]
pub struct Request<'a> {
    /// The seed, which is not empty.
    pub seed: &'a str,
    /// How many entrants to draw.
    pub count: Count,
}

/// Reads the count: `all`, or decimal digits of a number that fits into a `usize`.
#[must_use]
pub fn count_of(text: &str) -> Option<Count> {
    if text == "all" {
        return Some(Count::All);
    }
    if text.starts_with('+') {
        return None;
    }
    text.parse().ok().map(Count::Of)
}

/// Parses the arguments, or returns `None` if they are not a seed and a count.
#[must_use]
pub fn read(arguments: &[String]) -> Option<Request<'_>> {
    let (seed, count) = if let [seed, count] = arguments {
        (seed, count)
    } else {
        return None;
    };
    if seed.is_empty() {
        return None;
    }
    Some(Request {
        seed: seed.as_str(),
        count: count_of(count.as_str())?,
    })
}
