//! What is said of a comparison that failed.

use std::fmt::UpperHex;

use model::Answer;

use crate::guarded::{Guarded, Input};

/// Bytes that are shown of a long input; the seed gives all of them again.
const BEGINNING: usize = 1_000;

pub fn answer_text(answer: &Answer) -> String {
    format!(
        "refusal {}, place {}, argument {}, length {}",
        answer.refusal, answer.place, answer.argument, answer.length
    )
}

pub fn answers(expected: &Answer, answer: &Answer) -> String {
    format!(
        "expected {}\n  answered {}",
        answer_text(expected),
        answer_text(answer)
    )
}

pub fn difference<T>(name: &str, expected: &Guarded<T>, found: &Guarded<T>) -> String
where
    T: Copy + PartialEq + UpperHex,
{
    match expected.first_difference(found) {
        None => format!("{name} as expected"),
        Some(at) => format!(
            "{name} of length {} differs first at {at}: expected {:02X}, found {:02X}",
            expected.length(),
            expected.at(at),
            found.at(at)
        ),
    }
}

/// What the library has changed in an input.
pub fn change<T>(name: &str, input: &Input<T>) -> String
where
    T: Copy + PartialEq + UpperHex,
{
    difference(name, &input.before, &input.now)
}

/// Words with spaces between them.
pub fn words_text(words: &[u32]) -> String {
    if words.is_empty() {
        return String::from("(empty)");
    }
    let words: Vec<String> = words.iter().map(|word| format!("{word:X}")).collect();
    words.join(" ")
}

pub fn hex(bytes: &[u8]) -> String {
    if bytes.is_empty() {
        return String::from("(empty)");
    }
    bytes.iter().map(|byte| format!("{byte:02X}")).collect()
}

/// Likewise, but of a long input only the beginning.
pub fn hex_beginning(bytes: &[u8]) -> String {
    match bytes.get(..BEGINNING) {
        Some(beginning) if bytes.len() > BEGINNING => {
            format!("of {} bytes, which begins {}", bytes.len(), hex(beginning))
        }
        _ => hex(bytes),
    }
}

/// Groups of kinds with a sign between them, so that one sees where each ends.
pub fn groups_text(groups: &[&[u8]]) -> String {
    let groups: Vec<String> = groups.iter().map(|group| hex(group)).collect();
    groups.join(" + ")
}
