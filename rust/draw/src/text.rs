//! The text of the answers and the items.

use nanorand_proved::replay::Answer;

/// Appends an answer and a line feed.
fn push_answer(
    text: &mut String,
    answer: &Answer,
) -> Result<(), std::collections::TryReserveError> {
    match answer {
        Answer::Unsigned(number) => writeln!(crate::growing::Growing(text), "{number}"),
        Answer::Signed(number) => writeln!(crate::growing::Growing(text), "{number}"),
        Answer::Truth(truth) => writeln!(crate::growing::Growing(text), "{truth}"),
        Answer::Empty => writeln!(crate::growing::Growing(text), "empty"),
        Answer::Exhausted => writeln!(crate::growing::Growing(text), "exhausted"),
        Answer::Shuffled => writeln!(crate::growing::Growing(text), "shuffled"),
    }
}

/// Appends one line for each answer.
fn push_answers(
    text: &mut String,
    answers: &[Answer],
) -> Result<(), std::collections::TryReserveError> {
    for answer in answers {
        push_answer(text, answer)?;
    }
    Ok(())
}

/// Appends each item, preceded by a space.
fn push_items(text: &mut String, items: &[u64]) -> Result<(), std::collections::TryReserveError> {
    for item in items {
        write!(crate::growing::Growing(text), " {item}")?;
    }
    Ok(())
}

/// Returns the text of the answers and the items: one line for each answer, and one line with the
/// items if there are any.
///
/// # Errors
///
/// Returns an error if an allocation fails.
pub fn text_of(
    answers: &[Answer],
    items: &[u64],
) -> Result<String, std::collections::TryReserveError> {
    let mut text = String::new();
    push_answers(&mut text, answers)?;
    if !items.is_empty() {
        text.try_reserve("items:".len())?;
        text.push_str("items:");
        push_items(&mut text, items)?;
        text.try_reserve(1)?;
        text.push('\n');
    }
    Ok(text)
}
